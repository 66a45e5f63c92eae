import java.io.IOException;
import javax.servlet.ServletException;
import javax.servlet.http.HttpServlet;
import javax.servlet.http.HttpServletRequest;
import javax.servlet.http.HttpServletResponse;
import org.apache.catalina.Wrapper;
import org.apache.catalina.core.StandardContext;
import org.apache.catalina.startup.Tomcat;
import org.springframework.remoting.httpinvoker.HttpInvokerProxyFactoryBean;
import org.springframework.remoting.httpinvoker.HttpInvokerServiceExporter;

/** Spring's HTTP invoker, which reads calls as serialized objects: a service, and a client of it that another path calls. */
public final class Invoker {
    /** What is called. */
    public interface Greeter {
        String greet(String name);
    }

    private Invoker() {
    }

    /** Adds both to an application: the service as {@code /WORD/invoke}, and its client as {@code /open/call?WORD}. */
    public static void add(StandardContext context, int port) {
        HttpInvokerServiceExporter exporter = new HttpInvokerServiceExporter();
        exporter.setService((Greeter) name -> "good morning, " + name);
        exporter.setServiceInterface(Greeter.class);
        exporter.afterPropertiesSet();
        Wrapper invoked = Tomcat.addServlet(context, "invoked", new HttpServlet() {
            private static final long serialVersionUID = 1;

            @Override
            protected void doPost(HttpServletRequest request, HttpServletResponse response) throws IOException, ServletException {
                exporter.handleRequest(request, response);
            }
        });
        Wrapper caller = Tomcat.addServlet(context, "caller", new HttpServlet() {
            private static final long serialVersionUID = 1;

            @Override
            protected void doGet(HttpServletRequest request, HttpServletResponse response) throws IOException {
                HttpInvokerProxyFactoryBean bean = new HttpInvokerProxyFactoryBean();
                bean.setServiceUrl("http://127.0.0.1:" + port + "/" + request.getQueryString() + "/invoke");
                bean.setServiceInterface(Greeter.class);
                bean.afterPropertiesSet();
                response.getWriter().println(((Greeter) bean.getObject()).greet("ann"));
            }
        });
        invoked.addMapping("/open/invoke");
        invoked.addMapping("/checked/invoke");
        caller.addMapping("/open/call");
    }
}
