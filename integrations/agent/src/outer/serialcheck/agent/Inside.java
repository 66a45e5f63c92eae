package serialcheck.agent;

import java.io.ByteArrayInputStream;
import java.io.File;
import java.io.IOException;
import java.io.InputStream;
import java.lang.instrument.Instrumentation;
import java.security.AccessController;
import java.security.AllPermission;
import java.security.CodeSource;
import java.security.Permissions;
import java.security.PrivilegedExceptionAction;
import java.security.ProtectionDomain;
import java.security.cert.Certificate;
import java.util.Map;
import java.util.Set;
import java.util.zip.ZipEntry;
import java.util.zip.ZipFile;

/** Starts the agent. All of its other classes are of a class loader of their own, where no application sees them. It may be of another loader than Agent. */
public final class Inside {
    private static final String STARTED = "serialcheck.agent";

    private Inside() {
    }

    /**
     * Starts it.
     *
     * @param words settings
     * @param it what the JVM gives an agent
     * @param jar the file of the agent
     * @throws Exception where it cannot start; its message, or that of its cause, says why
     */
    @SuppressWarnings("removal")
    public static void start(String words, Instrumentation it, File jar) throws Exception {
        PrivilegedExceptionAction<Void> action = new PrivilegedExceptionAction<Void>() {
            @Override
            public Void run() throws Exception {
                begin(words, it, jar);
                return null;
            }
        };
        AccessController.doPrivileged(action);
    }

    private static synchronized void begin(String words, Instrumentation it, File jar) throws Exception {
        if (System.getProperty(STARTED) != null) {
            throw new IllegalStateException("serialcheck: it guards this JVM already");
        }
        Loader loader = new Loader(jar);
        // Two classes are defined in the package java.io, which is opened to the loader's classes alone.
        it.redefineModule(Object.class.getModule(), Set.of(), Map.of(), Map.of("java.io", Set.of(loader.getUnnamedModule())), Set.of(), Map.of());
        loader.loadClass("serialcheck.agent.Opener").getMethod("open").invoke(null);
        loader.loadClass("serialcheck.agent.Start").getMethod("start", String.class, Instrumentation.class).invoke(null, words, it);
        System.setProperty(STARTED, "on");
    }

    /** Loads what is below {@code inner/} in the jar. */
    private static final class Loader extends ClassLoader {
        private static final ProtectionDomain ALL = all();

        private final ZipFile jar;

        Loader(File jar) throws IOException {
            super("serialcheck", ClassLoader.getPlatformClassLoader());
            this.jar = new ZipFile(jar);
        }

        private static ProtectionDomain all() {
            Permissions all = new Permissions();
            all.add(new AllPermission());
            return new ProtectionDomain(new CodeSource(null, (Certificate[]) null), all);
        }

        @Override
        protected Class<?> findClass(String name) throws ClassNotFoundException {
            byte[] bytes = read(name.replace('.', '/') + ".class");
            if (bytes == null) {
                throw new ClassNotFoundException(name);
            }
            return defineClass(name, bytes, 0, bytes.length, ALL);
        }

        @Override
        public InputStream getResourceAsStream(String name) {
            byte[] bytes = read(name);
            return bytes == null ? null : new ByteArrayInputStream(bytes);
        }

        private byte[] read(String name) {
            ZipEntry entry = jar.getEntry("inner/" + name);
            if (entry == null) {
                return null;
            }
            try (InputStream in = jar.getInputStream(entry)) {
                return in.readAllBytes();
            } catch (IOException gone) {
                throw new IllegalStateException("serialcheck: the jar cannot be read: " + gone, gone);
            }
        }
    }
}
