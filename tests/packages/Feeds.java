import com.sun.management.ThreadMXBean;
import java.lang.management.ManagementFactory;
import serialcheck.Filter;
import serialcheck.Refused;
import serialcheck.Stream;

/** Feeds a stream many pieces, and tells how many bytes of objects a piece makes, and what the last number and the refusal are. */
public final class Feeds {
    private static final int PIECES = 200_000;

    public static void main(String[] words) throws Refused {
        ThreadMXBean threads = (ThreadMXBean) ManagementFactory.getThreadMXBean();
        byte[] header = {(byte) 0xac, (byte) 0xed, 0, 5};
        byte[] nulls = {0x70, 0x70, 0x70, 0x70, 0x70, 0x70};
        try (Filter filter = new Filter("java.util.*;!*"); Stream stream = filter.stream()) {
            long taken = stream.feed(header);
            taken = feed(stream, nulls); // what is loaded with the first calls does not count
            long before = threads.getCurrentThreadAllocatedBytes();
            taken = feed(stream, nulls);
            long made = threads.getCurrentThreadAllocatedBytes() - before;
            System.out.println("taken: " + taken);
            System.out.println("bytes of objects for a piece: " + made / PIECES);
            for (byte[] piece : new byte[][] {{0x70}, {0}, {0x70}}) {
                try {
                    System.out.println("taken: " + stream.feed(piece));
                } catch (Refused refused) {
                    System.out.println(refused.getMessage());
                }
            }
            try {
                System.out.println(stream.end());
            } catch (Refused refused) {
                System.out.println(refused.getMessage());
            }
        }
    }

    private static long feed(Stream stream, byte[] piece) throws Refused {
        long taken = 0;
        for (int turn = 0; turn < PIECES; turn++) {
            taken = stream.feed(piece, turn % 2, 5);
        }
        return taken;
    }
}
