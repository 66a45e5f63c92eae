import java.io.BufferedReader;
import java.io.ByteArrayInputStream;
import java.io.IOException;
import java.io.InputStreamReader;
import java.io.ObjectInputStream;
import java.io.ObjectStreamClass;
import java.nio.file.Files;
import java.nio.file.Path;
import java.util.LinkedHashMap;
import java.util.Map;

/**
 * Reads streams with the JDK's own ObjectInputStream without any of their classes, and prints the class names that it asks
 * for: the outside answer for `serialcheck list`. The paths come on standard input, one a line. For each it prints a line
 * `PATH: read` or `PATH: EXCEPTION`, and then, each after a tab, how often it asked for a name and the name in quotes with
 * the escapes of `list`, in the order in which the names came first.
 */
public class InertNames extends ObjectInputStream {
    private final Map<String, Integer> names = new LinkedHashMap<>();
    private final Source source;

    /** A source that knows whether its end was asked for. */
    static class Source extends ByteArrayInputStream {
        boolean ended;

        Source(byte[] bytes) { super(bytes); }

        @Override public synchronized int read() {
            int value = super.read();
            if (value < 0) ended = true;
            return value;
        }

        @Override public synchronized int read(byte[] into, int start, int length) {
            int count = super.read(into, start, length);
            if (count < 0) ended = true;
            return count;
        }
    }

    InertNames(Source source) throws IOException {
        super(source);
        this.source = source;
    }

    @Override protected Class<?> resolveClass(ObjectStreamClass descriptor) throws IOException, ClassNotFoundException {
        names.merge(descriptor.getName(), 1, Integer::sum);
        String name = descriptor.getName();
        // Arrays of primitives are not classes of the stream; without them the reader takes no such array.
        return name.length() == 2 && name.charAt(0) == '[' ? super.resolveClass(descriptor) : null;
    }

    @Override protected Class<?> resolveProxyClass(String[] interfaces) throws ClassNotFoundException {
        for (String name : interfaces) names.merge(name, 1, Integer::sum);
        return null;
    }

    void readAll() throws IOException {
        byte[] room = new byte[4096];
        while (true) {
            if (read(room) >= 0) continue;
            // Block data has ended: the stream has, or an object comes.
            if (source.ended) return;
            try {
                readObject();
            } catch (ClassNotFoundException expected) {
                // Each class is missing, on purpose.
            }
        }
    }

    private static String quoted(String text) {
        StringBuilder out = new StringBuilder("\"");
        for (char unit : text.toCharArray()) {
            if (unit == '"' || unit == '\\') out.append('\\').append(unit);
            else if (unit >= 0x20 && unit <= 0x7e) out.append(unit);
            else out.append(String.format("\\u%04x", (int) unit));
        }
        return out.append('"').toString();
    }

    private static String answer(byte[] bytes) {
        Source source = new Source(bytes);
        Map<String, Integer> names = Map.of();
        String end = "read";
        try {
            InertNames reader = new InertNames(source);
            names = reader.names;
            reader.readAll();
        } catch (Throwable fault) {
            end = fault.getClass().getSimpleName() + ": " + fault.getMessage();
        }
        StringBuilder out = new StringBuilder(end.replaceAll("[^ -~]", "?"));
        names.forEach((name, count) -> out.append('\t').append(count).append(' ').append(quoted(name)));
        return out.toString();
    }

    public static void main(String[] args) throws Exception {
        Thread reader = new Thread(null, () -> {
            try (BufferedReader paths = new BufferedReader(new InputStreamReader(System.in))) {
                for (String path; (path = paths.readLine()) != null;) {
                    System.out.println(path + ": " + answer(Files.readAllBytes(Path.of(path))));
                }
            } catch (IOException fault) {
                System.err.println(fault);
                System.exit(1);
            }
        }, "reader", 1L << 29);
        reader.start();
        reader.join();
    }
}
