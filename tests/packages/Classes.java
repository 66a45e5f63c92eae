import java.nio.file.Files;
import java.nio.file.Path;
import java.util.Arrays;
import java.util.Objects;
import serialcheck.Filter;
import serialcheck.Flag;
import serialcheck.Refused;
import serialcheck.Stream;

/** Prints the class of each file that a filter does not admit, or null: Classes FLAGS FILTER - FILE.., with the header's bits. */
public final class Classes {
    private static final Flag[][] FLAGS = {{}, {Flag.STRICT}, {Flag.ANYWHERE}};

    /** The class that the stream of these bytes is refused for when they come by 7. */
    private static String inPieces(Filter filter, byte[] bytes) {
        try (Stream stream = filter.stream()) {
            String named = null;
            for (int at = 0; at < bytes.length; at += 7) {
                try {
                    stream.feed(bytes, at, Math.min(7, bytes.length - at));
                } catch (Refused refused) {
                    named = refused.className();
                }
            }
            try {
                stream.end();
                return null;
            } catch (Refused refused) {
                return Objects.equals(named, refused.className()) ? named : named + ", at the end " + refused.className();
            }
        }
    }

    public static void main(String[] words) throws Exception {
        try (Filter filter = new Filter(words[1], FLAGS[Integer.parseInt(words[0])])) {
            for (String file : Arrays.asList(words).subList(3, words.length)) {
                byte[] bytes = Files.readAllBytes(Path.of(file));
                String name = null;
                try {
                    filter.check(bytes);
                } catch (Refused refused) {
                    name = refused.className();
                }
                String inPieces = inPieces(filter, bytes);
                System.out.println(Objects.equals(name, inPieces) ? name : name + ", in pieces " + inPieces);
            }
        }
    }
}
