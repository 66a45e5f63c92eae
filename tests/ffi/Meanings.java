import java.io.IOException;
import java.nio.file.Files;
import java.nio.file.Path;
import serialcheck.Refused;
import serialcheck.SerialCheck;

/** Prints what the reason of each file's refusal means: Meanings FILE.. */
public final class Meanings {
    public static void main(String[] files) throws IOException {
        for (String file : files) {
            try {
                System.out.println(SerialCheck.check(Files.readAllBytes(Path.of(file)), ""));
            } catch (Refused refused) {
                System.out.println(refused.meaning());
            }
        }
    }
}
