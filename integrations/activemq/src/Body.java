package serialcheck.activemq;

import java.io.ByteArrayInputStream;
import java.io.IOException;
import java.io.InputStream;
import java.nio.ByteBuffer;
import java.util.Arrays;
import java.util.function.Supplier;
import java.util.zip.InflaterInputStream;
import org.apache.activemq.command.ActiveMQBytesMessage;
import org.apache.activemq.command.ActiveMQObjectMessage;
import org.apache.activemq.command.Message;
import org.apache.activemq.util.ByteSequence;
import serialcheck.Guard;
import serialcheck.Refused;

/** The bytes of a message's body that a consumer may read objects from. */
final class Body {
    /** A compressed bytes message begins with its length. */
    private static final int LENGTH_FIELD = 4;

    private Body() {
    }

    /** Judges the body of an object message, and of a bytes message that begins as a stream does; others pass. */
    static void check(Guard guard, Supplier<String> what, Message message) throws Refused {
        boolean isObject = message instanceof ActiveMQObjectMessage;
        if (!isObject && !(message instanceof ActiveMQBytesMessage)) {
            return;
        }
        message.storeContent(); // over vm:// the object is not yet written
        ByteSequence content = message.getContent();
        if (content == null) {
            return;
        }
        byte[] stored = Arrays.copyOfRange(content.getData(), content.getOffset(), content.getOffset() + content.getLength());
        byte[] bytes = stored;
        if (message.isCompressed()) {
            bytes = isObject || isStreamInside(stored) ? guard.inflate(what, () -> isObject ? inflated(stored) : inflatedBytes(stored)) : null;
        }
        if (bytes != null && (isObject || Guard.isStream(bytes, bytes.length))) {
            guard.check(what, bytes);
        }
    }

    private static InputStream inflated(byte[] bytes) {
        return new InflaterInputStream(new ByteArrayInputStream(bytes));
    }

    /** What a deflated bytes message holds: its length stands before, and what it holds behind that is not handed out. */
    private static InputStream inflatedBytes(byte[] bytes) {
        if (bytes.length < LENGTH_FIELD) {
            return InputStream.nullInputStream();
        }
        int length = ByteBuffer.wrap(bytes).getInt();
        return new Front(inflated(Arrays.copyOfRange(bytes, LENGTH_FIELD, bytes.length)), length);
    }

    /** Whether a compressed bytes message begins as a stream does, by its first bytes alone: it may be long and no stream. */
    private static boolean isStreamInside(byte[] bytes) {
        try (InputStream in = inflatedBytes(bytes)) {
            byte[] front = in.readNBytes(2);
            return Guard.isStream(front, front.length);
        } catch (IOException damaged) {
            return false; // nobody gets bytes out of it
        }
    }
}
