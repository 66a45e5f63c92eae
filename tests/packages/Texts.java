import java.io.IOException;
import java.nio.file.Files;
import java.nio.file.Path;
import java.util.Arrays;
import serialcheck.Refused;
import serialcheck.SerialCheck;
import serialcheck.Text;

/** Prints the texts of show and list of each file, or why there is none: Texts FILTER FILE.. Then where a limit cuts another text. */
public final class Texts {
    private static final String FIRST = "stream version 5\n";
    private static final String NULL = "null\n";
    private static final int NULLS = 30_000;

    /** A text of a stream. */
    interface Way {
        Text ask() throws Refused;
    }

    public static void main(String[] words) throws IOException {
        for (String file : Arrays.asList(words).subList(1, words.length)) {
            byte[] bytes = Files.readAllBytes(Path.of(file));
            System.out.print(told(() -> SerialCheck.show(bytes, 1 << 26)));
            System.out.print(told(() -> SerialCheck.list(bytes, words[0], "", 1 << 24)));
        }
        String whole = FIRST + NULL.repeat(NULLS);
        byte[] nulls = new byte[4 + NULLS];
        Arrays.fill(nulls, (byte) 0x70);
        System.arraycopy(new byte[] {(byte) 0xac, (byte) 0xed, 0, 5}, 0, nulls, 0, 4);
        for (int most : new int[] {0, 16, 17, 18, 65_535, 65_536, 65_537, 100_003, whole.length() - 1, whole.length(), Integer.MAX_VALUE}) {
            Text text = SerialCheck.show(nulls, most);
            String wanted = most >= whole.length() ? whole : whole.substring(0, whole.substring(0, most).lastIndexOf('\n') + 1);
            if (!text.toString().equals(wanted) || text.isCut() != most < whole.length()) {
                System.out.println("another text of at most " + most + " bytes");
            }
        }
        System.out.print(told(() -> SerialCheck.list(nulls, "", "", 0)));
        for (Way way : new Way[] {() -> SerialCheck.show(nulls, -1), () -> SerialCheck.list(nulls, "maxdepth=x", "", 9), () -> SerialCheck.list(nulls, "", "a", 9), () -> SerialCheck.list(nulls, "\ud800", "", 9)}) {
            try {
                System.out.println("no fault: " + told(way));
            } catch (IllegalArgumentException fault) {
                System.out.println(fault.getMessage());
            }
        }
        System.out.println(SerialCheck.version());
    }

    private static String told(Way way) {
        try {
            return way.ask().toString();
        } catch (Refused refused) {
            return refused.getMessage() + "\n";
        }
    }
}
