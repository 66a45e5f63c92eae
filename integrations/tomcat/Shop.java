import jakarta.servlet.http.HttpServlet;
import jakarta.servlet.http.HttpServletRequest;
import jakarta.servlet.http.HttpServletResponse;
import jakarta.servlet.http.HttpSession;
import java.io.IOException;
import java.util.ArrayList;
import serialcheck.Filter;
import serialcheck.Refused;

/** An application with sessions: {@code /add?WORD}, {@code /hostile} and {@code /cart}; with {@code /check} it uses the jar that it has itself. */
public final class Shop extends HttpServlet {
    private static final long serialVersionUID = 1;

    @Override
    protected void doGet(HttpServletRequest request, HttpServletResponse response) throws IOException {
        if (request.getPathInfo().equals("/check")) {
            response.getWriter().println(checked(request.getInputStream().readAllBytes()));
            return;
        }
        HttpSession session = request.getSession(true);
        boolean isNew = session.isNew();
        if (isNew) {
            session.setAttribute("cart", new ArrayList<String>());
        }
        @SuppressWarnings("unchecked")
        ArrayList<String> cart = (ArrayList<String>) session.getAttribute("cart");
        if (request.getPathInfo().equals("/add")) {
            cart.add(request.getQueryString());
        }
        if (request.getPathInfo().equals("/hostile")) {
            session.setAttribute("gift", new Hostile());
        }
        response.getWriter().println((isNew ? "new " : "old ") + cart);
    }

    @Override
    protected void doPost(HttpServletRequest request, HttpServletResponse response) throws IOException {
        doGet(request, response);
    }

    private static String checked(byte[] bytes) {
        String from = Filter.class.getProtectionDomain().getCodeSource().getLocation().getPath();
        try (Filter filter = new Filter("java.util.*;!*")) {
            return filter.check(bytes) + " by " + from;
        } catch (Refused refused) {
            return refused.line() + " by " + from;
        }
    }
}
