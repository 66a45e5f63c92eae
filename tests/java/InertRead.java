import java.io.BufferedReader;
import java.io.IOException;
import java.io.InputStreamReader;
import java.io.ObjectStreamClass;
import java.lang.management.ManagementFactory;
import java.lang.management.ThreadMXBean;
import java.nio.file.Files;
import java.nio.file.Path;
import java.util.Map;

/**
 * Measures how long the JDK's own ObjectInputStream takes to read a file with none of its classes, which is what a Java
 * program can do that may run no code of theirs: `java InertRead FILE SECONDS`. It reads the file again and again for so many
 * seconds, so that the JDK has compiled what runs often, and prints `ready`. Then it reads the file once more for each line
 * on standard input, and prints the nanoseconds that this took. They are processor time of the thread that reads; the start
 * of the JDK, its compiler and its collector are not in them.
 */
public class InertRead extends InertNames {
    private static final ThreadMXBean THREADS = ManagementFactory.getThreadMXBean();
    /** Arrays of primitives are no classes of the stream; without them the reader takes no such array. */
    private static final Map<String, Class<?>> PRIMITIVES = Map.of("[B", byte[].class, "[C", char[].class, "[D", double[].class,
        "[F", float[].class, "[I", int[].class, "[J", long[].class, "[S", short[].class, "[Z", boolean[].class);
    /** The cheapest way to have no class: one exception for all, and without a trace. */
    private static final ClassNotFoundException ABSENT = new ClassNotFoundException() {
        private static final long serialVersionUID = 1;

        @Override public synchronized Throwable fillInStackTrace() { return this; }
    };

    private InertRead(Source source) throws IOException { super(source); }

    @Override protected Class<?> resolveClass(ObjectStreamClass descriptor) throws ClassNotFoundException {
        Class<?> found = PRIMITIVES.get(descriptor.getName());
        if (found == null) throw ABSENT;
        return found;
    }

    @Override protected Class<?> resolveProxyClass(String[] interfaces) throws ClassNotFoundException { throw ABSENT; }

    /** A way to read the bytes of a file to their end. */
    interface Way {
        void read(byte[] bytes) throws IOException;
    }

    /** The processor time of one read of the file. */
    private static long read(Path file, Way way) throws IOException {
        long start = THREADS.getCurrentThreadCpuTime();
        way.read(Files.readAllBytes(file));
        return THREADS.getCurrentThreadCpuTime() - start;
    }

    private static void measure(Path file, double seconds, Way way) throws IOException {
        for (double left = seconds * 1e9; left > 0;) left -= read(file, way);
        System.out.println("ready");
        BufferedReader turns = new BufferedReader(new InputStreamReader(System.in));
        while (turns.readLine() != null) System.out.println(read(file, way));
    }

    /** Measures a way, by the words of a command line. */
    static void run(String[] words, Way way) throws InterruptedException {
        // What is deep is read by calls inside calls.
        Thread reader = new Thread(null, () -> {
            try {
                measure(Path.of(words[0]), Double.parseDouble(words[1]), way);
            } catch (Throwable fault) {
                System.err.println(fault);
                System.exit(1);
            }
        }, "reader", 1L << 29);
        reader.start();
        reader.join();
    }

    public static void main(String[] words) throws Exception { run(words, bytes -> new InertRead(new Source(bytes)).readAll()); }
}
