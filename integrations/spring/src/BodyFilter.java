package serialcheck.servlet;

import jakarta.servlet.Filter;
import jakarta.servlet.FilterChain;
import jakarta.servlet.FilterConfig;
import jakarta.servlet.ServletException;
import jakarta.servlet.ServletRequest;
import jakarta.servlet.ServletResponse;
import jakarta.servlet.http.HttpServletRequest;
import jakarta.servlet.http.HttpServletResponse;
import java.io.IOException;
import java.util.Collections;
import serialcheck.Guard;
import serialcheck.GuardSettings;

/**
 * A servlet filter that judges the bodies of requests: those that begin as a stream of objects does, also behind gzip. The
 * application gets the bytes of an admitted one. It gets an exception where it reads a refused one, and the answer is 403. The
 * init parameters are the settings.
 */
public final class BodyFilter implements Filter {
    private Guard guard;

    /** Makes a filter, which the container gives its settings next. */
    public BodyFilter() {
    }

    @Override
    public void init(FilterConfig config) throws ServletException {
        try {
            GuardSettings settings = new GuardSettings();
            for (String name : Collections.list(config.getInitParameterNames())) {
                settings.set(name, config.getInitParameter(name));
            }
            guard = new Guard("servlet " + config.getServletContext().getContextPath() + "/", settings, config.getServletContext()::log);
        } catch (IOException | IllegalArgumentException faulty) {
            throw new ServletException("serialcheck: " + faulty.getMessage(), faulty);
        }
    }

    @Override
    public void doFilter(ServletRequest request, ServletResponse response, FilterChain chain) throws IOException, ServletException {
        CheckedRequest checked = new CheckedRequest((HttpServletRequest) request, response, guard);
        try {
            chain.doFilter(checked, response);
        } catch (IOException | ServletException | RuntimeException failed) {
            if (!checked.isRefused()) {
                throw failed;
            }
        }
        // The application may have caught the exception, and have written an answer of its own.
        if (checked.isRefused() && !request.isAsyncStarted() && !response.isCommitted()) {
            response.reset();
            ((HttpServletResponse) response).sendError(HttpServletResponse.SC_FORBIDDEN);
        }
    }

    @Override
    public void destroy() {
        guard.close();
    }
}
