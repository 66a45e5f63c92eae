import java.io.ByteArrayInputStream;
import java.io.ByteArrayOutputStream;
import java.io.DataInputStream;
import java.io.ObjectInputStream;
import java.io.ObjectOutputStream;
import java.nio.file.Files;
import java.nio.file.Path;
import java.util.Date;

/** Readers that nobody closes: {@code Unclosed COUNT SIZE}. Prints how many megabytes were resident at most, beyond the first reader's. */
public final class Unclosed {
    private static long resident() throws Exception {
        for (String line : Files.readAllLines(Path.of("/proc/self/status"))) {
            if (line.startsWith("VmRSS:")) {
                return Long.parseLong(line.replaceAll("\\D", "")) / 1024;
            }
        }
        throw new IllegalStateException("no VmRSS");
    }

    public static void main(String[] words) throws Exception {
        ByteArrayOutputStream bytes = new ByteArrayOutputStream();
        try (var out = new ObjectOutputStream(bytes)) {
            out.writeObject(new byte[Integer.parseInt(words[1]) * 9 / 10]);
            Object[] dates = new Date[Integer.parseInt(words[1]) / 200];
            for (int at = 0; at < dates.length; at++) {
                dates[at] = new Date(at);
            }
            out.writeObject(dates);
            out.writeObject("end");
        }
        long first = 0, most = 0;
        for (int count = Integer.parseInt(words[0]), at = 0; at < count; at++) {
            ObjectInputStream reader = new ObjectInputStream(new DataInputStream(new ByteArrayInputStream(bytes.toByteArray())));
            reader.readObject();
            reader.readObject();
            if (at % 500 == 0) {
                most = Math.max(most, resident());
                first = at == 0 ? most : first;
            }
        }
        System.out.println(most - first);
    }
}
