package serialcheck;

import java.io.ByteArrayOutputStream;
import java.io.DataOutputStream;
import java.io.IOException;
import java.util.Arrays;
import java.util.EnumSet;
import java.util.Set;
import java.util.concurrent.ConcurrentHashMap;

/** A filter of a guard: for streams, and for names and lengths by themselves, of which those that were admitted lately are known. */
final class GuardRules {
    private static final int MOST_NAMES = 10_000;
    private static final byte[] ARRAY = {(byte) 0xAC, (byte) 0xED, 0, 5, 0x75, 0x72, 0, 2, '[', 'B', (byte) 0xAC, (byte) 0xF3, 0x17, (byte) 0xF8, 6, 8, 0x54, (byte) 0xE0, 2, 0, 0, 0x78, 0x70};

    final Filter streams;
    /** The same, which is asked about the core of a name. */
    private final Filter names;
    private final Set<String> admitted = ConcurrentHashMap.newKeySet();
    /** The greatest length that was admitted. */
    private volatile int length = -1;

    GuardRules(byte[] file, byte[] modules, EnumSet<Flag> flags) {
        streams = Filter.ofFile(file, modules, flags.toArray(new Flag[0]));
        EnumSet<Flag> anywhere = EnumSet.copyOf(flags);
        anywhere.add(Flag.ANYWHERE);
        names = anywhere.equals(flags) ? streams : Filter.ofFile(file, modules, anywhere.toArray(new Flag[0]));
    }

    Refused name(String className) {
        if (admitted.contains(className)) {
            return null;
        }
        Refused why = names.refusal(classObject(className));
        if (why != null) {
            return new Refused(why);
        }
        if (admitted.size() >= MOST_NAMES) { // a stranger chooses them
            admitted.clear();
        }
        admitted.add(className);
        return null;
    }

    /** A stream with one class object. */
    private static byte[] classObject(String className) {
        ByteArrayOutputStream bytes = new ByteArrayOutputStream();
        try (DataOutputStream out = new DataOutputStream(bytes)) {
            out.writeInt(0xACED0005);
            out.writeShort(0x7672);
            out.writeUTF(className);
            out.writeLong(1); // its serialVersionUID, then its flags, no fields, the end of its data, no superclass
            out.writeByte(2);
            out.writeShort(0);
            out.writeShort(0x7870);
        } catch (IOException tooLong) {
            throw new IllegalArgumentException("a class name of more than 65535 bytes", tooLong); // none comes out of a stream
        }
        return bytes.toByteArray();
    }

    Refused array(int wanted) {
        if (wanted <= length) {
            return null;
        }
        byte[] bytes = Arrays.copyOf(ARRAY, ARRAY.length + 4);
        for (int i = 0; i < 4; i++) {
            bytes[ARRAY.length + i] = (byte) (wanted >> 8 * (3 - i));
        }
        Refused why = streams.refusal(bytes);
        if (why != null && why.reason().equals("ArrayExceeded")) {
            return new Refused(why);
        }
        length = Math.max(length, wanted);
        return null;
    }

    void close() {
        streams.close();
        names.close();
    }
}
