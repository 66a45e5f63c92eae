import java.io.ByteArrayOutputStream;
import java.io.DataOutputStream;
import serialcheck.Filter;
import serialcheck.Refused;

/** Refuses a class whose name is longer than what the heap has room for. */
public final class FullHeap {
    private static final int LETTERS = 65_000;
    private static final int PIECE = 8_000;

    /** What fills the heap, in pieces that leave no room for the name. */
    private static byte[][] held = new byte[100_000][];

    private static String answer(Filter filter, byte[] bytes) {
        try {
            filter.check(bytes);
            return "admitted";
        } catch (Refused refused) {
            return "refused, with a name of " + refused.className().length();
        } catch (OutOfMemoryError none) {
            return "no memory";
        }
    }

    public static void main(String[] words) throws Exception {
        ByteArrayOutputStream bytes = new ByteArrayOutputStream();
        DataOutputStream out = new DataOutputStream(bytes);
        out.writeInt(0xACED0005);
        out.writeShort(0x7672);
        out.writeUTF("n".repeat(LETTERS));
        byte[] stream = bytes.toByteArray();
        try (Filter filter = new Filter("!*")) {
            System.out.println(answer(filter, stream));
            try {
                for (int i = 0; ; i++) {
                    held[i] = new byte[PIECE];
                }
            } catch (OutOfMemoryError full) {
                String answer = answer(filter, stream);
                held = null;
                System.out.println(answer);
            }
        }
    }
}
