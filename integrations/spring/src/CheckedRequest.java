package serialcheck.servlet;

import jakarta.servlet.AsyncContext;
import jakarta.servlet.ServletInputStream;
import jakarta.servlet.ServletResponse;
import jakarta.servlet.http.HttpServletRequest;
import jakarta.servlet.http.HttpServletRequestWrapper;
import java.io.BufferedReader;
import java.io.ByteArrayInputStream;
import java.io.IOException;
import java.io.InputStream;
import java.io.InputStreamReader;
import java.io.SequenceInputStream;
import serialcheck.Guard;
import serialcheck.Refused;

/**
 * A request whose body is judged when the application asks for it, so that the container still reads parameters of forms by
 * itself. A body that is neither a stream nor gzip is handed on as it comes.
 */
final class CheckedRequest extends HttpServletRequestWrapper {
    private final ServletResponse response;
    private final Guard guard;
    private ServletInputStream body;
    private BufferedReader reader;
    private Refused why;

    CheckedRequest(HttpServletRequest request, ServletResponse response, Guard guard) {
        super(request);
        this.response = response;
        this.guard = guard;
    }

    /** Whether the application asked for the body, and it was refused. */
    boolean isRefused() {
        return why != null;
    }

    @Override
    public ServletInputStream getInputStream() throws IOException {
        if (why != null) {
            throw why; // what was read of it is gone
        }
        if (body == null) {
            try {
                body = new Body(judged(super.getInputStream()));
            } catch (Refused refused) {
                why = refused;
                throw refused;
            }
        }
        return body;
    }

    @Override
    public BufferedReader getReader() throws IOException {
        if (reader == null) {
            String encoding = getCharacterEncoding();
            reader = new BufferedReader(new InputStreamReader(getInputStream(), encoding == null ? "ISO-8859-1" : encoding));
        }
        return reader;
    }

    /** What goes on later is this request too, and not the one inside. */
    @Override
    public AsyncContext startAsync() {
        return super.startAsync(this, response);
    }

    private InputStream judged(InputStream in) throws IOException {
        byte[] front = in.readNBytes(2);
        InputStream whole = new SequenceInputStream(new ByteArrayInputStream(front), in);
        if (Guard.isStream(front, front.length)) {
            return guard.open(this::shown, whole);
        }
        return Zipped.isZipped(front) ? Zipped.judged(guard, this::shown, whole) : whole;
    }

    /** What the request is, for the log. */
    private String shown() {
        return "the body of " + getMethod() + " " + getRequestURI() + " from " + getRemoteAddr();
    }
}
