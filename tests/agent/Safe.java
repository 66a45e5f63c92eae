import java.io.BufferedInputStream;
import java.io.ByteArrayInputStream;
import java.io.ByteArrayOutputStream;
import java.io.Externalizable;
import java.io.IOException;
import java.io.InputStream;
import java.io.ObjectInput;
import java.io.ObjectInputStream;
import java.io.ObjectOutput;
import java.io.ObjectOutputStream;
import java.io.ObjectStreamClass;
import java.io.Serializable;
import java.lang.reflect.InvocationHandler;
import java.lang.reflect.Method;
import java.lang.reflect.Proxy;
import java.nio.file.Files;
import java.nio.file.Path;
import java.util.ArrayList;
import java.util.Arrays;
import java.util.Date;
import java.util.HashMap;
import java.util.List;
import java.util.Map;
import java.util.Random;
import serialcheck.Filter;
import serialcheck.Refused;
import serialcheck.Stream;

/**
 * Does nothing act before it was judged? {@code Safe FILTER STREAMS SEED FILE..}, in a JVM with the agent under that filter. The
 * files, two streams of its own, and forms of them that are changed at random are each read in four ways. Where the reader
 * resolves a class, makes an object, runs a method of one or hands something out, it must stand before the byte that decides,
 * which the test has from the library, fed byte by byte. It prints for each way how many acts there were, and how many too late.
 */
public final class Safe {
    private static final int WAYS = 4;
    private static final String[] NAMES = {"array", "buffered", "other", "small pieces"};
    private static final long[] ACTS = new long[WAYS], LATE = new long[WAYS];

    private static int way;
    private static int length;
    private static int deciding;
    private static InputStream input;

    /** An input of no class that the agent knows, which gives at most so many bytes at once. */
    private static final class Pieces extends InputStream {
        private final byte[] bytes;
        private final int most;
        private int at;

        Pieces(byte[] bytes, int most) {
            this.bytes = bytes;
            this.most = most;
        }

        @Override
        public int read() {
            return at < bytes.length ? bytes[at++] & 0xff : -1;
        }

        @Override
        public int read(byte[] to, int from, int n) {
            if (n == 0 || at == bytes.length) {
                return n == 0 ? 0 : -1;
            }
            int some = Math.min(Math.min(n, most), bytes.length - at);
            System.arraycopy(bytes, at, to, from, some);
            at += some;
            return some;
        }

        @Override
        public int available() {
            return bytes.length - at;
        }
    }

    /** Something happens that the bytes brought about. */
    static void act(String what) {
        if (input == null) {
            return; // the test itself makes objects
        }
        ACTS[way]++;
        int taken;
        try {
            taken = length - input.available();
        } catch (IOException closed) {
            return;
        }
        if (deciding > 0 && taken >= deciding) {
            LATE[way]++;
            if (Boolean.getBoolean("told")) {
                System.out.println(NAMES[way] + ": " + what + " with " + taken + " bytes read, of which " + deciding + " decide");
            }
        }
    }

    private static final class Reader extends ObjectInputStream {
        Reader(InputStream in) throws IOException {
            super(in);
            enableResolveObject(true);
        }

        @Override
        protected Class<?> resolveClass(ObjectStreamClass described) throws IOException, ClassNotFoundException {
            act("resolveClass");
            return super.resolveClass(described);
        }

        @Override
        protected Class<?> resolveProxyClass(String[] names) throws IOException, ClassNotFoundException {
            act("resolveProxyClass");
            return super.resolveProxyClass(names);
        }

        @Override
        protected Object resolveObject(Object it) {
            act("resolveObject");
            return it;
        }
    }

    static class Made {
        Made() {
            act("a constructor");
        }
    }

    static class Told extends Made implements Serializable {
        private static final long serialVersionUID = 1;
        int x = 7;
        String text = "told";
        int[] row = {1, 2, 3};
        Object next;

        private void writeObject(ObjectOutputStream out) throws IOException {
            out.defaultWriteObject();
            out.writeLong(5);
            out.writeUTF("more");
            out.writeObject(new Date(1));
        }

        private void readObject(ObjectInputStream in) throws IOException, ClassNotFoundException {
            act("readObject");
            in.defaultReadObject();
            act("fields");
            in.readLong();
            act("a long");
            in.readUTF();
            act("a text");
            in.readObject();
            act("an object inside");
        }

        private Object readResolve() {
            act("readResolve");
            return this;
        }
    }

    public static final class Outer extends Made implements Externalizable {
        private static final long serialVersionUID = 1;

        public Outer() {
        }

        @Override
        public void writeExternal(ObjectOutput out) throws IOException {
            out.writeInt(3);
            out.write(new byte[2000]);
            out.writeObject("x");
        }

        @Override
        public void readExternal(ObjectInput in) throws IOException, ClassNotFoundException {
            act("readExternal");
            in.readInt();
            act("an int");
            in.readFully(new byte[2000]);
            act("bytes");
            in.readObject();
            act("an object inside");
        }
    }

    record Row(int a, String b, Object c) implements Serializable {
        Row {
            act("a record");
        }
    }

    enum Colour { RED, GREEN }

    static final class Handler implements InvocationHandler, Serializable {
        private static final long serialVersionUID = 1;

        @Override
        public Object invoke(Object proxy, Method method, Object[] words) {
            return method.getReturnType() == int.class ? 0 : null;
        }
    }

    private static byte[] bytes(Object... all) throws IOException {
        ByteArrayOutputStream bytes = new ByteArrayOutputStream();
        try (ObjectOutputStream out = new ObjectOutputStream(bytes)) {
            for (Object it : all) {
                out.writeObject(it);
            }
        }
        return bytes.toByteArray();
    }

    private static List<byte[]> own() throws IOException {
        Told told = new Told();
        told.next = new Outer();
        Object proxy = Proxy.newProxyInstance(Safe.class.getClassLoader(), new Class<?>[] {Runnable.class, Comparable.class}, new Handler());
        return List.of(
            bytes(told, new Row(1, "b", new Date(3)), Colour.GREEN, new Object[] {"a", new int[5], 9L, List.of(1, 2)}, new HashMap<>(Map.of("k", new Told())), String.class),
            bytes(proxy, new ArrayList<>(List.of(new Told(), new Told()))));
    }

    /** How many bytes decide; 0 where none does. */
    private static int deciding(Filter filter, byte[] bytes) {
        try (Stream stream = filter.stream()) {
            for (int at = 0; at < bytes.length; at++) {
                try {
                    stream.feed(bytes, at, 1);
                } catch (Refused refused) {
                    return at + 1;
                }
            }
        }
        return 0;
    }

    private static byte[] changed(byte[] stream, byte[] other, Random random) {
        byte[] bytes = stream.clone();
        for (int change = random.nextInt(3); change >= 0; change--) {
            int at = 4 + random.nextInt(bytes.length - 4);
            switch (random.nextInt(4)) {
                case 0:
                    bytes[at] = (byte) random.nextInt(256);
                    break;
                case 1:
                    bytes[at] = (byte) (0x70 + random.nextInt(15));
                    break;
                case 2:
                    if (bytes.length > 9) {
                        bytes = joined(Arrays.copyOf(bytes, at), Arrays.copyOfRange(bytes, at + 1, bytes.length));
                    }
                    break;
                default:
                    int from = random.nextInt(other.length);
                    byte[] more = Arrays.copyOfRange(other, from, Math.min(other.length, from + 1 + random.nextInt(60)));
                    bytes = joined(joined(Arrays.copyOf(bytes, at), more), Arrays.copyOfRange(bytes, at, bytes.length));
            }
        }
        return bytes;
    }

    private static byte[] joined(byte[] a, byte[] b) {
        byte[] all = Arrays.copyOf(a, a.length + b.length);
        System.arraycopy(b, 0, all, a.length, b.length);
        return all;
    }

    private static void read(byte[] bytes, Random random) {
        InputStream[] inputs = {new ByteArrayInputStream(bytes), new BufferedInputStream(new Pieces(bytes, 1 + random.nextInt(100)), 1 + random.nextInt(100)), new Pieces(bytes, bytes.length), new Pieces(bytes, 1 + random.nextInt(7))};
        length = bytes.length;
        for (way = 0; way < WAYS; way++) {
            input = inputs[way];
            try (ObjectInputStream reader = new Reader(input)) {
                for (int object = 0; object < 20; object++) {
                    reader.readObject();
                    act("an object for the caller");
                }
            } catch (Exception | StackOverflowError | OutOfMemoryError end) {
                continue;
            } finally {
                input = null;
            }
        }
    }

    public static void main(String[] words) throws Exception {
        List<byte[]> streams = new ArrayList<>(own());
        for (String file : Arrays.asList(words).subList(3, words.length)) {
            byte[] bytes = Files.readAllBytes(Path.of(file));
            if (bytes.length > 8 && bytes.length < 6000) {
                streams.add(bytes);
            }
        }
        Random random = new Random(Long.parseLong(words[2]));
        int decided = 0;
        try (Filter filter = new Filter(words[0])) {
            for (int turn = 0; turn < Integer.parseInt(words[1]); turn++) {
                // Half of the changed ones are of its own, in which most happens.
                byte[] stream = streams.get(turn >= streams.size() && random.nextBoolean() ? random.nextInt(2) : turn % streams.size());
                byte[] bytes = turn < streams.size() ? stream : changed(stream, streams.get(random.nextInt(streams.size())), random);
                deciding = deciding(filter, bytes);
                decided += deciding > 0 ? 1 : 0;
                read(bytes, random);
            }
        }
        System.out.println("decided " + decided);
        for (int each = 0; each < WAYS; each++) {
            System.out.println(NAMES[each] + ": " + ACTS[each] + " acts, " + LATE[each] + " too late");
        }
    }
}
