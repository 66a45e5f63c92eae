package serialcheck.agent;

import java.io.File;
import java.io.IOException;
import java.lang.instrument.Instrumentation;
import java.lang.reflect.InvocationTargetException;
import java.net.URI;
import java.security.PrivilegedActionException;
import java.util.jar.JarFile;

/** What the JVM calls to start the agent: {@code -javaagent:serialcheck-agent.jar=filterFile=F,onRefusal=report}. */
public final class Agent {
    private Agent() {
    }

    /**
     * Starts the agent with the JVM, which does not start where it cannot: a line says why.
     *
     * @param words settings, {@code name=value} with commas between
     * @param it what the JVM gives an agent
     */
    public static void premain(String words, Instrumentation it) {
        try {
            start(words, it);
        } catch (Throwable fault) {
            System.err.println(line(fault));
            Runtime.getRuntime().halt(1);
        }
    }

    /**
     * Starts the agent in a JVM that runs.
     *
     * @param words settings, {@code name=value} with commas between
     * @param it what the JVM gives an agent
     * @throws IllegalStateException where it cannot start, and guards nothing; its message says why
     */
    public static void agentmain(String words, Instrumentation it) {
        try {
            start(words, it);
        } catch (Throwable fault) {
            System.err.println(line(fault));
            throw new IllegalStateException(line(fault), fault);
        }
    }

    private static void start(String words, Instrumentation it) throws Exception {
        if (hasSecurityManager()) {
            // What is on this path has all permissions, and the loader of this class looks there first for the class Inside.
            it.appendToBootstrapClassLoaderSearch(new JarFile(place()));
        }
        Inside.start(words, it, place());
    }

    /** Not by reflection, which would cost the start of the JVM a third. */
    @SuppressWarnings("removal")
    private static boolean hasSecurityManager() {
        return Runtime.version().feature() < 24 && System.getSecurityManager() != null;
    }

    /** The file of this jar. */
    private static File place() throws IOException {
        String url = Agent.class.getResource("Agent.class").toString();
        return new File(URI.create(url.substring("jar:".length(), url.lastIndexOf('!'))));
    }

    private static String line(Throwable fault) {
        Throwable first = fault;
        while (first.getCause() != null && (first instanceof InvocationTargetException || first instanceof PrivilegedActionException || first instanceof ExceptionInInitializerError)) {
            first = first.getCause();
        }
        String text = first instanceof IllegalArgumentException || first.getMessage() != null && first.getMessage().startsWith("serialcheck") ? first.getMessage() : first.toString();
        return ("serialcheck does not start: " + text).replace("start: serialcheck: ", "start: ").replaceAll("[\r\n]+", " ");
    }
}
