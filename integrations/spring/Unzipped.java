import java.io.InputStream;
import java.nio.file.Files;
import java.nio.file.Path;
import java.util.concurrent.Callable;
import java.util.zip.GZIPInputStream;
import org.apache.commons.compress.compressors.gzip.GzipCompressorInputStream;

/** How many bytes two decompressors read of a file of gzip: {@code Unzipped FILE}. */
final class Unzipped {
    private Unzipped() {
    }

    public static void main(String[] words) throws Exception {
        Path file = Path.of(words[0]);
        tell("commons-compress", () -> new GzipCompressorInputStream(Files.newInputStream(file)));
        tell("the JDK", () -> new GZIPInputStream(Files.newInputStream(file)));
    }

    private static void tell(String name, Callable<InputStream> opened) throws Exception {
        try (InputStream in = opened.call()) {
            System.out.println(name + ": " + in.readAllBytes().length + " bytes");
        } catch (java.io.IOException failed) {
            System.out.println(name + ": " + failed);
        }
    }
}
