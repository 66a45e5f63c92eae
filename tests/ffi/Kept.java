import java.io.ByteArrayInputStream;
import java.io.ByteArrayOutputStream;
import java.io.IOException;
import java.io.InputStream;
import java.io.ObjectInputStream;
import java.io.ObjectOutputStream;
import serialcheck.Filter;

/** Prints what is read of streams that do not do what an InputStream owes. */
public final class Kept {
    /** Keeps the array that it fills, to write other bytes into it later. */
    static final class Keeper extends InputStream {
        private final InputStream from;
        private byte[] kept;

        Keeper(byte[] bytes) {
            from = new ByteArrayInputStream(bytes);
        }

        @Override
        public int read() throws IOException {
            return from.read();
        }

        @Override
        public int read(byte[] room, int start, int count) throws IOException {
            kept = room;
            return from.read(room, start, count);
        }

        void write(byte[] bytes) {
            System.arraycopy(bytes, 0, kept, 0, bytes.length);
        }
    }

    /** Hands out more bytes than it was asked for. */
    static final class Generous extends ByteArrayInputStream {
        Generous(byte[] bytes) {
            super(bytes);
        }

        @Override
        public byte[] readNBytes(int most) {
            return readAllBytes();
        }
    }

    public static void main(String[] words) throws IOException, ClassNotFoundException {
        byte[] bytes = written("checked"), others = written("changed");
        try (Filter check = new Filter("")) {
            Keeper keeper = new Keeper(bytes);
            try (ObjectInputStream in = check.open(keeper, bytes.length, checked -> {
                keeper.write(others);
                return new ObjectInputStream(checked);
            })) {
                System.out.println(in.readObject());
            }
            try (ObjectInputStream in = check.open(new Generous(bytes), 5)) {
                System.out.println(in.readObject());
            } catch (IOException fault) {
                System.out.println(fault.getMessage());
            }
        }
    }

    static byte[] written(String text) throws IOException {
        ByteArrayOutputStream bytes = new ByteArrayOutputStream();
        try (ObjectOutputStream out = new ObjectOutputStream(bytes)) {
            out.writeObject(text);
        }
        return bytes.toByteArray();
    }
}
