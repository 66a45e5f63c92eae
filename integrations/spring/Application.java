import jakarta.servlet.AsyncContext;
import jakarta.servlet.ServletException;
import jakarta.servlet.ServletRequest;
import jakarta.servlet.http.HttpServlet;
import jakarta.servlet.http.HttpServletRequest;
import jakarta.servlet.http.HttpServletResponse;
import java.io.ByteArrayInputStream;
import java.io.IOException;
import java.io.InputStream;
import java.io.ObjectInputStream;
import java.nio.file.Files;
import java.nio.file.Path;
import java.util.zip.GZIPInputStream;
import org.apache.catalina.Wrapper;
import org.apache.catalina.core.StandardContext;
import org.apache.catalina.startup.ContextConfig;
import org.apache.catalina.startup.Tomcat;
import org.springframework.core.convert.support.GenericConversionService;
import org.springframework.core.serializer.Deserializer;
import org.springframework.core.serializer.support.DeserializingConverter;
import serialcheck.GuardSettings;
import serialcheck.spring.CheckedDeserializer;

/**
 * An application in an embedded Tomcat that reads objects from requests: {@code Application PORT FOLDER FILTERFILE}. The folder
 * has WEB-INF/web.xml. What it does with a body is the last word of a path; the word before decides which filter is in front.
 */
public final class Application extends HttpServlet {
    private static final long serialVersionUID = 1;
    private static GenericConversionService checked;
    private static GenericConversionService plain;

    static Deserializer<Object> checkedDeserializer(String filterFile) throws IOException {
        GuardSettings settings = new GuardSettings();
        settings.setFilterFile(filterFile);
        return new CheckedDeserializer("sessions", settings, Application.class.getClassLoader());
    }

    /** Values are converted as Spring Session does it. */
    private static GenericConversionService conversions(DeserializingConverter converter) {
        GenericConversionService made = new GenericConversionService();
        made.addConverter(byte[].class, Object.class, converter);
        return made;
    }

    private static Object read(InputStream in) throws IOException {
        try (ObjectInputStream objects = new ObjectInputStream(in)) {
            return "read " + objects.readObject().getClass().getName();
        } catch (ClassNotFoundException absent) {
            throw new IOException(absent);
        }
    }

    private static Object converted(GenericConversionService conversions, byte[] bytes) {
        try {
            return "read " + conversions.convert(bytes, Object.class).getClass().getName();
        } catch (RuntimeException refused) {
            Throwable cause = refused;
            while (cause.getCause() != null) {
                cause = cause.getCause();
            }
            return cause.getClass().getName() + ": " + cause.getMessage();
        }
    }

    private static Object swallowed(HttpServletRequest request) throws IOException {
        try {
            return read(request.getInputStream());
        } catch (IOException caught) {
            return "it caught an exception";
        }
    }

    private static Object listened(HttpServletRequest request) throws IOException {
        try {
            request.getInputStream().setReadListener(null);
            return "listening";
        } catch (IllegalStateException told) {
            return told.getMessage();
        }
    }

    private static void readLater(HttpServletRequest request) {
        AsyncContext later = request.startAsync();
        later.start(() -> {
            try {
                ServletRequest then = later.getRequest();
                later.getResponse().getWriter().println(swallowed((HttpServletRequest) then));
            } catch (IOException failed) {
                throw new IllegalStateException(failed);
            } finally {
                later.complete();
            }
        });
    }

    private static Object done(String what, HttpServletRequest request) throws IOException {
        switch (what) {
            case "read":
                return read(request.getInputStream());
            case "unzip":
                return read(new GZIPInputStream(request.getInputStream()));
            case "unzip-whole":
                return read(new GZIPInputStream(new ByteArrayInputStream(request.getInputStream().readAllBytes())));
            case "swallow":
            case "swallow-late":
                return swallowed(request);
            case "text":
                return request.getReader().readLine();
            case "size":
                return request.getInputStream().readAllBytes().length;
            case "listen":
                return listened(request);
            case "form":
                return request.getParameter("a");
            case "checked-value":
                return converted(checked, request.getInputStream().readAllBytes());
            case "plain-value":
                return converted(plain, request.getInputStream().readAllBytes());
            default:
                throw new IllegalArgumentException(what);
        }
    }

    @Override
    protected void doPost(HttpServletRequest request, HttpServletResponse response) throws IOException, ServletException {
        String what = request.getPathInfo().replaceFirst(".*/", "");
        if (what.equals("later")) {
            readLater(request);
            return;
        }
        if (what.equals("swallow-late")) {
            response.getWriter().println("begun");
            response.flushBuffer();
        }
        response.getWriter().println(done(what, request));
    }

    /** Adds Spring's HTTP invoker, where this Spring and this container have one. */
    private static void addInvoker(StandardContext context, int port) {
        try {
            Class.forName("Invoker").getMethod("add", StandardContext.class, int.class).invoke(null, context, port);
        } catch (ReflectiveOperationException none) {
            System.out.println("without the HTTP invoker");
        }
    }

    public static void main(String[] words) throws Exception {
        checked = conversions(new DeserializingConverter(checkedDeserializer(words[2])));
        plain = conversions(new DeserializingConverter());
        Tomcat tomcat = new Tomcat();
        tomcat.setBaseDir(Files.createDirectories(Path.of(words[1], "server")).toString());
        tomcat.setPort(Integer.parseInt(words[0]));
        tomcat.getConnector().setProperty("address", "127.0.0.1");
        StandardContext context = new StandardContext();
        context.setPath("");
        context.setDocBase(words[1]);
        ContextConfig config = new ContextConfig();
        config.setDefaultWebXml(tomcat.noDefaultWebXmlPath());
        context.addLifecycleListener(config);
        tomcat.getHost().addChild(context);
        Wrapper wrapper = Tomcat.addServlet(context, "application", new Application());
        wrapper.setAsyncSupported(true);
        wrapper.addMapping("/*");
        addInvoker(context, Integer.parseInt(words[0]));
        tomcat.start();
        System.out.println("started");
        tomcat.getServer().await();
    }
}
