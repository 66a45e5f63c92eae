import java.io.ByteArrayInputStream;
import java.io.IOException;
import java.nio.file.Files;
import java.nio.file.Path;
import java.util.Arrays;
import serialcheck.Filter;
import serialcheck.Flag;
import serialcheck.Refused;
import serialcheck.SerialCheck;
import serialcheck.Stream;

/**
 * Prints what the check says of each file, as the program prints it: Answers FLAGS FILTER MODULES FILE.., where MODULES is a file
 * or `-`, and FLAGS are the bits of the header. Each answer is asked for in every way that there is; where two differ, it says so.
 */
public final class Answers {
    private static final Flag[][] FLAGS = {{}, {Flag.STRICT}, {Flag.ANYWHERE}, {Flag.STRICT, Flag.ANYWHERE}};

    /** A way to ask. */
    interface Way {
        Object ask() throws IOException;
    }

    public static void main(String[] words) throws IOException {
        Flag[] flags = FLAGS[Integer.parseInt(words[0])];
        String modules = words[2].equals("-") ? "" : Files.readString(Path.of(words[2]));
        try (Filter filter = new Filter(words[1], modules, flags)) {
            for (String file : Arrays.asList(words).subList(3, words.length)) {
                byte[] bytes = Files.readAllBytes(Path.of(file));
                String answer = answer(() -> filter.check(bytes));
                System.out.println(answer);
                byte[] inside = new byte[bytes.length + 9];
                System.arraycopy(bytes, 0, inside, 5, bytes.length);
                compare(file, "inside an array", answer, () -> filter.check(inside, 5, bytes.length));
                compare(file, "in pieces", answer, () -> inPieces(filter.stream(), bytes));
                compare(file, "as an input", answer, () -> filter.check(new ByteArrayInputStream(bytes), bytes.length));
                if (modules.isEmpty()) {
                    compare(file, "in one call", answer, () -> SerialCheck.check(bytes, words[1], flags));
                    compare(file, "as an input, in one call", answer, () -> SerialCheck.check(new ByteArrayInputStream(bytes), bytes.length, words[1], flags));
                }
            }
        }
    }

    private static Object inPieces(Stream stream, byte[] bytes) throws IOException {
        String decided = "";
        try (stream) {
            for (int at = 0; at < bytes.length; at += 100) {
                try {
                    stream.feed(bytes, at, Math.min(100, bytes.length - at));
                } catch (Refused refused) {
                    decided = refused.getMessage();
                    break;
                }
            }
            String end = answer(stream::end);
            return decided.isEmpty() || decided.equals(end) ? end : decided + ", and then " + end;
        }
    }

    private static String answer(Way way) throws IOException {
        try {
            return way.ask().toString();
        } catch (Refused refused) {
            String told = "no at " + refused.from() + " to " + refused.to() + ": " + refused.reason();
            return told.equals(refused.getMessage()) ? told : told + ", and not " + refused.getMessage();
        }
    }

    private static void compare(String file, String how, String wanted, Way way) throws IOException {
        String found = answer(way);
        if (!found.equals(wanted)) {
            System.out.println(file + ", " + how + ": " + found);
        }
    }
}
