import java.io.BufferedInputStream;
import java.io.ByteArrayInputStream;
import java.io.ByteArrayOutputStream;
import java.io.InputStream;
import java.io.ObjectInputStream;
import java.io.ObjectOutputStream;
import java.io.Serializable;
import java.lang.management.ManagementFactory;
import java.lang.reflect.Field;
import java.util.ArrayList;
import java.util.Arrays;
import java.util.Date;
import java.util.HashMap;
import java.util.LinkedHashMap;
import java.util.List;
import java.util.Map;

/**
 * What the agent costs, in a JVM that has it: {@code Costs [ROUNDS]}. Each stream is read with it and without it in turns, after some
 * turns that do not count; of the others it takes the least time of the processor. It prints ratios, and microseconds.
 */
public final class Costs {
    /** As the input of a socket or a file: of no class that the agent knows. */
    private static final class Other extends InputStream {
        private final byte[] bytes;
        private int at;

        Other(byte[] bytes) {
            this.bytes = bytes;
        }

        @Override
        public int read() {
            return at < bytes.length ? bytes[at++] & 0xff : -1;
        }

        @Override
        public int read(byte[] to, int from, int n) {
            if (at == bytes.length) {
                return n == 0 ? 0 : -1;
            }
            int some = Math.min(n, bytes.length - at);
            System.arraycopy(bytes, at, to, from, some);
            at += some;
            return some;
        }

        @Override
        public int available() {
            return bytes.length - at;
        }
    }

    private interface Opener {
        InputStream open(byte[] bytes);
    }

    private static final class Point implements Serializable {
        private static final long serialVersionUID = 1;
        final int x = 1;
        final int y = 2;
        final String name = "point";
        final List<String> tags = new ArrayList<>(List.of("a", "b"));
    }

    private static Object read;

    private static byte[] bytes(Object it) throws Exception {
        ByteArrayOutputStream bytes = new ByteArrayOutputStream();
        try (ObjectOutputStream out = new ObjectOutputStream(bytes)) {
            out.writeObject(it);
        }
        return bytes.toByteArray();
    }

    private static Map<String, byte[]> streams() throws Exception {
        Map<String, byte[]> streams = new LinkedHashMap<>();
        streams.put("one Date", bytes(new Date(0)));
        streams.put("an object with 4 fields", bytes(new Point()));
        streams.put("a small session", bytes(new HashMap<>(Map.of("user", "alice", "since", new Date(0), "cart", new ArrayList<>(List.of(1, 2, 3))))));
        List<Object> dates = new ArrayList<>(), numbers = new ArrayList<>(), texts = new ArrayList<>();
        Map<Object, Object> map = new HashMap<>();
        for (int i = 0; i < 20_000; i++) {
            dates.add(new Date(i));
            numbers.add(i + 1000);
            texts.add("a text with the number " + i);
            if (i < 10_000) {
                map.put("key" + i, (long) i);
            }
        }
        streams.put("20,000 Dates", bytes(dates));
        streams.put("20,000 Integers", bytes(numbers));
        streams.put("20,000 Strings", bytes(texts));
        streams.put("a map of 10,000", bytes(map));
        streams.put("byte[1000000]", bytes(new byte[1_000_000]));
        return streams;
    }

    private static double nanoseconds(byte[] bytes, int times, Opener opener) throws Exception {
        var threads = ManagementFactory.getThreadMXBean();
        long begin = threads.getCurrentThreadCpuTime();
        for (int i = 0; i < times; i++) {
            read = new ObjectInputStream(opener.open(bytes)).readObject();
        }
        return (threads.getCurrentThreadCpuTime() - begin) / (double) times;
    }

    public static void main(String[] words) throws Exception {
        int rounds = words.length > 0 ? Integer.parseInt(words[0]) : 12;
        Field wrapper = Class.forName("java.io.SerialcheckHook").getField("wrapper");
        Object agent = wrapper.get(null);
        Map<String, Opener> openers = new LinkedHashMap<>();
        openers.put("array", ByteArrayInputStream::new);
        openers.put("buffered", it -> new BufferedInputStream(new Other(it)));
        openers.put("other", Other::new);
        System.out.printf("%-24s %9s  %-9s %6s %12s%n", "stream", "bytes", "input", "ratio", "microseconds");
        for (var stream : streams().entrySet()) {
            for (var opener : openers.entrySet()) {
                byte[] bytes = stream.getValue();
                int times = Math.max(1, Math.min(2000, 1_500_000 / bytes.length));
                double[] least = new double[2];
                Arrays.fill(least, Double.MAX_VALUE);
                for (int round = 0; round < 2 * rounds; round++) {
                    wrapper.set(null, round % 2 == 1 ? agent : null);
                    double took = nanoseconds(bytes, times, opener.getValue());
                    if (round >= rounds / 2) {
                        least[round % 2] = Math.min(least[round % 2], took);
                    }
                }
                System.out.printf("%-24s %9d  %-9s %6.2f %5.0f %5.0f%n", stream.getKey(), bytes.length, opener.getKey(), least[1] / least[0], least[0] / 1000, least[1] / 1000);
            }
        }
        wrapper.set(null, agent);
    }
}
