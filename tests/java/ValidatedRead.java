import java.io.IOException;
import org.apache.commons.io.serialization.ValidatingObjectInputStream;

/**
 * Measures how long a ValidatingObjectInputStream of Commons IO takes to read a file, where its pattern accepts every class:
 * `java ValidatedRead FILE SECONDS`, as `InertRead`. Unlike that one it loads the classes that the JDK has, and runs their
 * code; one that is not there is met as any reader meets it.
 */
public class ValidatedRead extends ValidatingObjectInputStream {
    private final InertNames.Source source;

    private ValidatedRead(InertNames.Source source) throws IOException {
        super(source);
        this.source = source;
        accept("*");
    }

    private void readAll() throws IOException {
        byte[] room = new byte[4096];
        while (true) {
            if (read(room) >= 0) continue;
            // Block data has ended: the stream has, or an object comes.
            if (source.ended) return;
            try {
                readObject();
            } catch (ClassNotFoundException expected) {
                // A class of the stream that no JDK has.
            }
        }
    }

    public static void main(String[] words) throws Exception {
        InertRead.run(words, bytes -> new ValidatedRead(new InertNames.Source(bytes)).readAll());
    }
}
