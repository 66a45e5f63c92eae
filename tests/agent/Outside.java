import java.io.BufferedInputStream;
import java.io.ByteArrayInputStream;
import java.io.ByteArrayOutputStream;
import java.io.DataInputStream;
import java.io.IOException;
import java.io.InputStream;
import java.io.ObjectInputStream;
import java.io.ObjectOutputStream;
import java.io.Serializable;
import java.util.Date;

/** Streams that break the form: a class writes in place of its fields. What it writes is good, hostile, or a long array. A line for each. */
public final class Outside {
    static final class NoFields implements Serializable {
        private static final long serialVersionUID = 1;
        int number;
        long other;
        transient Object it;

        NoFields(Object it) {
            this.it = it;
        }

        private void writeObject(ObjectOutputStream out) throws IOException {
            out.writeUTF("x");
            out.writeObject(it);
        }

        private void readObject(ObjectInputStream in) throws IOException, ClassNotFoundException {
            in.readUTF();
            it = in.readObject();
        }
    }

    public static void main(String[] words) throws Exception {
        for (Object it : new Object[] {new Date(0), new Hostile(), new byte[20_000]}) {
            ByteArrayOutputStream bytes = new ByteArrayOutputStream();
            try (ObjectOutputStream out = new ObjectOutputStream(bytes)) {
                out.writeObject(new NoFields(it));
            }
            InputStream array = new ByteArrayInputStream(bytes.toByteArray());
            InputStream[] inputs = {array, new BufferedInputStream(new ByteArrayInputStream(bytes.toByteArray())), new DataInputStream(new ByteArrayInputStream(bytes.toByteArray()))};
            for (InputStream in : inputs) {
                try {
                    System.out.println("read a " + ((NoFields) new ObjectInputStream(in).readObject()).it.getClass().getSimpleName());
                } catch (IOException refused) {
                    System.out.println(refused.getMessage());
                }
            }
        }
    }
}
