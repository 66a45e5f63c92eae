package serialcheck.spring;

import java.io.IOException;
import java.io.InputStream;
import java.io.ObjectInputStream;
import org.springframework.core.ConfigurableObjectInputStream;
import org.springframework.core.serializer.Deserializer;
import serialcheck.Guard;
import serialcheck.GuardSettings;

/**
 * Spring's DefaultDeserializer with a check: bytes are judged, and only then read. A refused value is an IOException, a
 * {@link serialcheck.Refused}. Any number of threads may use it at once.
 */
public final class CheckedDeserializer implements Deserializer<Object>, AutoCloseable {
    private final String name;
    private final Guard guard;
    private final ClassLoader loader;

    /**
     * Makes a deserializer, which logs to the system logger {@code serialcheck}.
     *
     * @param name what JMX and the log call it
     * @param settings its settings
     * @param loader finds the classes of the objects
     * @throws IllegalArgumentException where a setting is missing, or the filter is faulty
     * @throws IOException where the filter's file cannot be read
     */
    public CheckedDeserializer(String name, GuardSettings settings, ClassLoader loader) throws IOException {
        System.Logger log = System.getLogger("serialcheck");
        guard = new Guard(name, settings, line -> log.log(System.Logger.Level.WARNING, line));
        this.name = name;
        this.loader = loader;
    }

    @Override
    public Object deserialize(InputStream in) throws IOException {
        try (ObjectInputStream objects = new ConfigurableObjectInputStream(guard.open(() -> "a value of " + name, in), loader)) {
            return objects.readObject();
        } catch (ClassNotFoundException absent) {
            throw new IOException(absent);
        }
    }

    /** Lets the filter go: where this is a bean, at its application's end. */
    @Override
    public void close() {
        guard.close();
    }
}
