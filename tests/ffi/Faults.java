import java.io.ByteArrayInputStream;
import java.io.IOException;
import java.nio.file.Files;
import java.nio.file.Path;
import serialcheck.Filter;
import serialcheck.Stream;

/** Prints how each fault of a caller, and of a filter's file, is answered: Faults FOLDER, where it may write. */
public final class Faults {
    private static final byte[] STREAM = {(byte) 0xac, (byte) 0xed, 0, 5, 0x70, 0x70};

    /** An object of the class A. */
    private static final byte[] OF_A = {(byte) 0xac, (byte) 0xed, 0, 5, 0x73, 0x72, 0, 1, 'A', 0, 0, 0, 0, 0, 0, 0, 1, 2, 0, 0, 0x78, 0x70};

    /** What is tried. */
    interface Trial {
        Object run() throws IOException;
    }

    public static void main(String[] words) throws IOException {
        Path file = Path.of(words[0], "filter");
        tell("a faulty limit", () -> new Filter("a;maxdepth=x"));
        tell("a faulty line of modules", () -> new Filter("", "a=b\n\nc"));
        tell("no filter", () -> new Filter(null));
        tell("a part that is not there", () -> new Filter("").check(STREAM, 1, STREAM.length));
        tell("a part with a length below 0", () -> new Filter("").check(STREAM, 1, -1));
        tell("no bytes", () -> new Filter("").check(new byte[0]));
        tell("an input that is too long", () -> new Filter("").check(new ByteArrayInputStream(STREAM), STREAM.length - 1));
        tell("an input of the greatest length", () -> new Filter("").check(new ByteArrayInputStream(STREAM), STREAM.length));
        tell("an input that is read", () -> new Filter("").read(new ByteArrayInputStream(STREAM), STREAM.length).length);
        Filter closed = new Filter("");
        Stream open = closed.stream();
        closed.close();
        closed.close();
        tell("a closed filter", () -> closed.check(STREAM));
        tell("a stream of a closed filter", closed::stream);
        open.feed(STREAM);
        tell("a stream that was begun before", open::end);
        tell("a stream that has ended", open::end);
        open.close();
        tell("a closed stream", () -> {
            open.feed(STREAM);
            return "fed";
        });
        for (String text : new String[] {"# mine\r\nA\n\n!*", "#A\n!*", "!A;B\r\nA", "\ufeff!*", "a\nb#c", "a\nb;c ;d", "a\nb\r", "\t", "a\r\n", "!*\nmaxdept=1"}) {
            Files.writeString(file, text);
            tell("a file " + text.replace("\ufeff", "BOM").replace("\r", "CR").replace("\n", "LF").replace("\t", "TAB"), () -> Filter.fromFile(file).check(OF_A));
        }
        Files.write(file, new byte[] {'a', (byte) 0xff});
        tell("a file that is no text", () -> Filter.fromFile(file));
        Files.write(file, new byte[(1 << 24) + 1]);
        tell("a file that is too long", () -> Filter.fromFile(file).toString().replace(words[0], ""));
        tell("no file", () -> Filter.fromFile(file.resolveSibling("none")));
    }

    private static void tell(String what, Trial trial) {
        try {
            System.out.println(what + ": " + trial.run());
        } catch (Exception fault) {
            System.out.println(what + ": " + fault.getClass().getSimpleName() + ", " + fault.getMessage());
        }
    }
}
