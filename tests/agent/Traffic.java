import java.io.BufferedInputStream;
import java.io.ByteArrayInputStream;
import java.io.ByteArrayOutputStream;
import java.io.DataInputStream;
import java.io.DataOutputStream;
import java.io.EOFException;
import java.io.IOException;
import java.io.InputStream;
import java.io.ObjectInputStream;
import java.io.ObjectOutputStream;
import java.io.ObjectStreamClass;
import java.io.OutputStream;
import java.io.PipedInputStream;
import java.io.PipedOutputStream;
import java.io.StreamCorruptedException;
import java.net.InetAddress;
import java.net.ServerSocket;
import java.net.Socket;
import java.security.KeyPair;
import java.security.KeyPairGenerator;
import java.security.KeyStore;
import java.security.Signature;
import java.security.SignedObject;
import java.util.ArrayList;
import java.util.Arrays;
import java.util.Date;
import java.util.List;
import java.util.concurrent.Callable;
import java.util.concurrent.ExecutionException;
import java.util.concurrent.ExecutorService;
import java.util.concurrent.Executors;
import java.util.concurrent.FutureTask;
import java.util.concurrent.TimeUnit;
import javax.crypto.Cipher;
import javax.crypto.SealedObject;
import javax.crypto.SecretKey;
import javax.crypto.spec.SecretKeySpec;

/** Uses of ObjectInputStream that an agent may break: a line for each. The same with it and without it. */
public final class Traffic {
    private static final int MOST_SECONDS = 60;

    private static void step(String name, Callable<?> step) {
        String told;
        try {
            FutureTask<?> task = new FutureTask<>(step);
            Thread thread = new Thread(task);
            thread.setDaemon(true);
            thread.start();
            told = String.valueOf(task.get(MOST_SECONDS, TimeUnit.SECONDS));
        } catch (ExecutionException failed) {
            told = failed.getCause().toString();
        } catch (Exception hangs) {
            told = "hangs: " + hangs;
        }
        System.out.println(name + ": " + told);
    }

    private static byte[] bytes(Object... all) throws IOException {
        ByteArrayOutputStream bytes = new ByteArrayOutputStream();
        try (ObjectOutputStream out = new ObjectOutputStream(bytes)) {
            for (Object it : all) {
                out.writeObject(it);
            }
        }
        return bytes.toByteArray();
    }

    /** An input of no class that the agent knows. */
    private static InputStream other(byte[] bytes) {
        return new DataInputStream(new ByteArrayInputStream(bytes));
    }

    /** The form of Netty's CompactObjectInputStream: one byte of header, and descriptors that are names. */
    private static final class Compact extends ObjectInputStream {
        Compact(InputStream in) throws IOException {
            super(in);
        }

        @Override
        protected void readStreamHeader() throws IOException {
            if (readByte() != 5) {
                throw new StreamCorruptedException("another version");
            }
        }

        @Override
        protected ObjectStreamClass readClassDescriptor() throws IOException, ClassNotFoundException {
            return read() == 0 ? super.readClassDescriptor() : ObjectStreamClass.lookupAny(Class.forName(readUTF()));
        }
    }

    private static final class CompactOut extends ObjectOutputStream {
        CompactOut(OutputStream out) throws IOException {
            super(out);
        }

        @Override
        protected void writeStreamHeader() throws IOException {
            writeByte(5);
        }

        @Override
        protected void writeClassDescriptor(ObjectStreamClass described) throws IOException {
            write(1);
            writeUTF(described.getName());
        }
    }

    private static final class Headless extends ObjectInputStream {
        Headless(InputStream in) throws IOException {
            super(in);
        }

        @Override
        protected void readStreamHeader() {
        }
    }

    /** A reader that has none of the JDK's parts. */
    private static final class ByItself extends ObjectInputStream {
        private final DataInputStream in;

        ByItself(InputStream in) throws IOException {
            this.in = new DataInputStream(in);
        }

        @Override
        protected Object readObjectOverride() throws IOException {
            return in.readUTF();
        }

        @Override
        public int readInt() throws IOException {
            return in.readInt();
        }
    }

    private static Object severalInOneArray() throws Exception {
        ByteArrayOutputStream all = new ByteArrayOutputStream();
        for (int number = 0; number < 3; number++) {
            all.write(bytes("stream " + number));
        }
        ByteArrayInputStream in = new ByteArrayInputStream(all.toByteArray());
        List<Object> read = new ArrayList<>();
        while (in.available() > 0) {
            read.add(new ObjectInputStream(in).readObject());
        }
        return read;
    }

    private static Object trailingBytes() throws Exception {
        byte[] stream = bytes("first"), both = Arrays.copyOf(stream, stream.length + 9);
        both[stream.length] = 1;
        ByteArrayInputStream in = new ByteArrayInputStream(both);
        return new ObjectInputStream(in).readObject() + ", then " + in.available() + " bytes, first " + in.read();
    }

    /** Others read raw bytes between the objects of one reader. */
    private static Object between(int size, boolean isBuffered) throws Exception {
        ByteArrayOutputStream bytes = new ByteArrayOutputStream();
        ObjectOutputStream out = new ObjectOutputStream(bytes);
        for (int number = 0; number < 5; number++) {
            out.writeObject(new ArrayList<>(List.of("a", new byte[size], number)));
            out.flush();
            bytes.write(100 + number);
        }
        InputStream in = isBuffered ? new BufferedInputStream(other(bytes.toByteArray())) : new ByteArrayInputStream(bytes.toByteArray());
        ObjectInputStream reader = new ObjectInputStream(in);
        List<Object> read = new ArrayList<>();
        for (int number = 0; number < 5; number++) {
            read.add(((List<?>) reader.readObject()).get(2));
            read.add(in.read());
        }
        return read;
    }

    private static Object againAfterReset() throws Exception {
        ByteArrayInputStream in = new ByteArrayInputStream(bytes("one", new Date(0), "two"));
        Object first = new ObjectInputStream(in).readObject();
        in.reset();
        return first + ", " + new ObjectInputStream(in).readObject();
    }

    private static Object compact() throws Exception {
        ByteArrayOutputStream bytes = new ByteArrayOutputStream();
        try (ObjectOutputStream out = new CompactOut(bytes)) {
            out.writeObject(new ArrayList<>(List.of("x", new Date(0))));
        }
        return ((List<?>) new Compact(other(bytes.toByteArray())).readObject()).size();
    }

    private static Object allKinds() throws Exception {
        ByteArrayOutputStream bytes = new ByteArrayOutputStream();
        try (ObjectOutputStream out = new ObjectOutputStream(bytes)) {
            out.writeInt(7);
            out.writeObject("a");
            out.reset();
            out.writeUnshared(new Date(0));
            out.writeUTF("u");
            out.writeObject(int.class);
            out.writeObject(String[].class);
            out.writeObject(ObjectStreamClass.lookup(Date.class));
            out.write(new byte[3000]);
        }
        ObjectInputStream in = new ObjectInputStream(other(bytes.toByteArray()));
        return in.readInt() + " " + in.readObject() + " " + (in.readUnshared() != null) + " " + in.readUTF() + " " + in.readObject() + " " + in.readObject() + " " + (in.readObject() != null) + " "
            + in.readNBytes(3000).length + " " + in.read();
    }

    private static Object sealed() throws Exception {
        SecretKey key = new SecretKeySpec(new byte[16], "AES");
        Cipher cipher = Cipher.getInstance("AES");
        cipher.init(Cipher.ENCRYPT_MODE, key);
        return ((SealedObject) new ObjectInputStream(other(bytes(new SealedObject(new ArrayList<>(List.of("sealed")), cipher)))).readObject()).getObject(key);
    }

    private static Object signed() throws Exception {
        KeyPair pair = KeyPairGenerator.getInstance("EC").generateKeyPair();
        SignedObject made = new SignedObject("signed", pair.getPrivate(), Signature.getInstance("SHA256withECDSA"));
        return ((SignedObject) new ObjectInputStream(other(bytes(made))).readObject()).getObject();
    }

    private static Object keyStore() throws Exception {
        KeyStore store = KeyStore.getInstance("JCEKS");
        char[] word = "secret".toCharArray();
        store.load(null, word);
        store.setEntry("key", new KeyStore.SecretKeyEntry(new SecretKeySpec(new byte[16], "AES")), new KeyStore.PasswordProtection(word));
        ByteArrayOutputStream bytes = new ByteArrayOutputStream();
        store.store(bytes, word);
        KeyStore back = KeyStore.getInstance("JCEKS");
        back.load(new ByteArrayInputStream(bytes.toByteArray()), word);
        return back.getKey("key", word).getAlgorithm();
    }

    private static Object streamsOnASocket() throws Exception {
        try (ServerSocket server = new ServerSocket(0, 1, InetAddress.getLoopbackAddress()); Socket client = new Socket(server.getInetAddress(), server.getLocalPort()); Socket socket = server.accept()) {
            OutputStream out = client.getOutputStream();
            for (int number = 0; number < 3; number++) {
                out.write(bytes(new ArrayList<>(List.of("m" + number, new Date(number)))));
                out.write(100 + number);
            }
            InputStream in = socket.getInputStream();
            List<Object> read = new ArrayList<>();
            for (int number = 0; number < 3; number++) {
                read.add(((List<?>) new ObjectInputStream(in).readObject()).get(0));
                read.add(in.read());
            }
            return read;
        }
    }

    private static Object dialogue() throws Exception {
        try (ServerSocket server = new ServerSocket(0, 1, InetAddress.getLoopbackAddress()); Socket client = new Socket(server.getInetAddress(), server.getLocalPort()); Socket socket = server.accept()) {
            client.setTcpNoDelay(true);
            socket.setTcpNoDelay(true);
            ObjectOutputStream out = new ObjectOutputStream(client.getOutputStream());
            out.flush();
            ObjectOutputStream back = new ObjectOutputStream(socket.getOutputStream());
            back.flush();
            ObjectInputStream in = new ObjectInputStream(socket.getInputStream());
            ObjectInputStream answers = new ObjectInputStream(client.getInputStream());
            int count = 0;
            for (int turn = 0; turn < 2000; turn++) {
                out.writeObject(new Date(turn));
                out.writeInt(turn);
                out.flush();
                back.writeObject(new ArrayList<>(List.of(in.readObject(), in.readInt())));
                if (turn % 100 == 0) {
                    back.reset();
                }
                back.flush();
                count += ((List<?>) answers.readObject()).size();
            }
            return count;
        }
    }

    /** An object must be there before the input ends, or another byte of it comes. */
    private static Object slowPipe() throws Exception {
        PipedOutputStream out = new PipedOutputStream();
        PipedInputStream in = new PipedInputStream(out);
        byte[] bytes = bytes(new Date(0), "z");
        Thread writer = new Thread(() -> {
            try {
                for (byte it : bytes) {
                    out.write(it);
                    out.flush();
                }
                Thread.sleep(1000L * MOST_SECONDS);
            } catch (IOException | InterruptedException gone) {
                return;
            }
        });
        writer.setDaemon(true);
        writer.start();
        ObjectInputStream reader = new ObjectInputStream(in);
        reader.readObject();
        return reader.readObject();
    }

    private static Object twoThreads() throws Exception {
        ObjectInputStream reader = new ObjectInputStream(other(bytes((Object[]) new Date[3000])));
        ExecutorService threads = Executors.newFixedThreadPool(2);
        Callable<Integer> each = () -> {
            for (int read = 0; ; read++) {
                synchronized (reader) {
                    try {
                        reader.readObject();
                    } catch (EOFException end) {
                        return read;
                    }
                }
            }
        };
        int all = 0;
        for (var it : threads.invokeAll(List.of(each, each))) {
            all += it.get();
        }
        threads.shutdown();
        return all;
    }

    public static void main(String[] words) throws Exception {
        step("no input", () -> new ObjectInputStream(null));
        step("an empty one", () -> new ObjectInputStream(new ByteArrayInputStream(new byte[0])));
        step("an object", () -> new ObjectInputStream(other(bytes(new Date(0)))).readObject().hashCode());
        step("bytes behind the stream", Traffic::trailingBytes);
        step("several streams in one array", Traffic::severalInOneArray);
        step("an array that is read again", Traffic::againAfterReset);
        for (int size : new int[] {10, 3000}) {
            step("raw bytes between objects of " + size + ", array", () -> between(size, false));
            step("raw bytes between objects of " + size + ", buffered", () -> between(size, true));
        }
        step("the form of Netty", Traffic::compact);
        step("no header", () -> new Headless(other(Arrays.copyOfRange(bytes("x"), 4, bytes("x").length))).readObject());
        step("a reader with no part of the JDK's", () -> {
            ByteArrayOutputStream bytes = new ByteArrayOutputStream();
            DataOutputStream out = new DataOutputStream(bytes);
            out.writeUTF("own");
            out.writeInt(4);
            ByItself reader = new ByItself(new ByteArrayInputStream(bytes.toByteArray()));
            return reader.readObject() + " " + reader.readInt();
        });
        step("each kind of content", Traffic::allKinds);
        step("a SealedObject", Traffic::sealed);
        step("a SignedObject", Traffic::signed);
        step("a key store", Traffic::keyStore);
        step("streams on one socket, raw bytes between", Traffic::streamsOnASocket);
        step("a dialogue on a socket", Traffic::dialogue);
        step("a slow pipe", Traffic::slowPipe);
        step("two threads on one reader", Traffic::twoThreads);
        System.exit(0);
    }
}
