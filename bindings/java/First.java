import java.io.FileInputStream;
import java.io.IOException;
import java.io.InputStream;
import serialcheck.Filter;
import serialcheck.Flag;
import serialcheck.Refused;

/** Says of each file whether its first object is read: First FILE.. */
public final class First {
    static final Filter FILTER = new Filter("maxbytes=1000000;maxdepth=20;java.util.*;java.lang.*;!*", Flag.ANYWHERE);

    static Object read(InputStream in) throws IOException, ClassNotFoundException {
        return FILTER.open(in, 1_000_000).readObject();
    }

    public static void main(String[] words) throws Exception {
        for (String word : words) {
            try (InputStream in = new FileInputStream(word)) {
                read(in);
                System.out.println("handed on");
            } catch (Refused refused) {
                System.out.println("refused");
            }
        }
    }
}
