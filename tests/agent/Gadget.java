import java.io.BufferedInputStream;
import java.io.ByteArrayInputStream;
import java.io.EOFException;
import java.io.FileInputStream;
import java.io.IOException;
import java.io.InputStream;
import java.io.ObjectInputStream;
import java.io.ObjectOutputStream;
import java.io.SequenceInputStream;
import java.io.Serializable;
import java.nio.file.Files;
import java.nio.file.Path;
import java.util.ArrayList;
import java.util.HashMap;
import java.util.List;
import java.util.Map;

/** A harmless gadget, whose counts say what ran: {@code Gadget write|read FILE}. Each input is read 20 times, also behind exceptions. */
public final class Gadget {
    private static int ran;
    private static int made;
    private static boolean isInitialised;

    static class Base {
        Base() {
            made++;
        }
    }

    static class Evil extends Base implements Serializable {
        private static final long serialVersionUID = 1;

        static {
            isInitialised = true;
        }

        private void readObject(ObjectInputStream in) throws IOException, ClassNotFoundException {
            ran++;
            in.defaultReadObject();
        }

        private Object readResolve() {
            ran++;
            return this;
        }
    }

    public static void main(String[] words) throws Exception {
        Path file = Path.of(words[1]);
        if (words[0].equals("write")) {
            try (var out = new ObjectOutputStream(Files.newOutputStream(file))) {
                out.writeObject(new ArrayList<>(List.of("a", new HashMap<>(Map.of("k", new Evil())), "z")));
                out.writeObject(new Evil());
            }
            return;
        }
        byte[] bytes = Files.readAllBytes(file);
        InputStream[] inputs = {new ByteArrayInputStream(bytes), new FileInputStream(file.toFile()), new BufferedInputStream(new FileInputStream(file.toFile())),
            new SequenceInputStream(new ByteArrayInputStream(bytes), InputStream.nullInputStream())};
        for (InputStream in : inputs) {
            int objects = 0, faults = 0;
            ObjectInputStream reader = new ObjectInputStream(in);
            for (int turn = 0; turn < 20; turn++) {
                try {
                    reader.readObject();
                    objects++;
                } catch (EOFException end) {
                    break;
                } catch (IOException refused) {
                    faults++;
                }
            }
            System.out.println(in.getClass().getSimpleName() + ": objects " + objects + ", faults " + faults + ", made " + made + ", ran " + ran + ", initialised " + isInitialised);
            made = 0;
            ran = 0;
        }
    }
}
