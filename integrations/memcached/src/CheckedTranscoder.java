package serialcheck.memcached;

import java.io.ByteArrayInputStream;
import java.io.IOException;
import java.util.zip.GZIPInputStream;
import net.spy.memcached.transcoders.SerializingTranscoder;
import serialcheck.Guard;
import serialcheck.GuardSettings;
import serialcheck.Refused;

/**
 * The transcoder of spymemcached with a check of what comes out of the cache: compressed values are inflated with a bound, and
 * objects are judged before they are read. A refused value is none, as if the cache had forgotten it.
 */
public final class CheckedTranscoder extends SerializingTranscoder implements AutoCloseable {
    private final Guard guard;

    /**
     * Makes a transcoder, which logs where the client does. Any number of clients may have it.
     *
     * @param settings its settings
     * @throws IllegalArgumentException where a setting is missing, or the filter is faulty
     * @throws IOException where the filter's file cannot be read
     */
    public CheckedTranscoder(GuardSettings settings) throws IOException {
        guard = new Guard("memcached", settings, line -> getLogger().warn("%s", line));
    }

    @Override
    protected Object deserialize(byte[] bytes) {
        try {
            if (bytes != null) {
                guard.check(() -> "a value", bytes);
            }
            return super.deserialize(bytes);
        } catch (Refused why) {
            return null;
        }
    }

    @Override
    protected byte[] decompress(byte[] zipped) {
        if (zipped == null) {
            return null;
        }
        try {
            byte[] bytes = guard.inflate(() -> "a compressed value", () -> new GZIPInputStream(new ByteArrayInputStream(zipped)));
            return bytes == null ? super.decompress(zipped) : bytes;
        } catch (Refused why) {
            return null;
        }
    }

    /** Lets the filter go, at the application's end. */
    @Override
    public void close() {
        guard.close();
    }
}
