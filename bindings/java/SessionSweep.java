import java.io.IOException;
import java.io.InputStream;
import java.io.InvalidObjectException;
import java.nio.file.DirectoryStream;
import java.nio.file.Files;
import java.nio.file.Path;
import serialcheck.Filter;
import serialcheck.Flag;

/** Checks the sessions that Tomcat's FileStore left in a folder, before Tomcat starts: `java SessionSweep FOLDER`. */
public final class SessionSweep {
    static final String FILTER = "maxbytes=1048576;maxdepth=20;maxrefs=10000;maxarray=10000;java.util.*;java.lang.*;!*";

    public static void main(String[] words) throws IOException {
        try (Filter filter = new Filter(FILTER, Flag.ANYWHERE)) {
            sweep(Path.of(words[0]), filter);
        }
    }

    // Each file is one stream of several objects. Tomcat loads files called *.session, so one that is refused gets another name.
    static void sweep(Path folder, Filter filter) throws IOException {
        try (DirectoryStream<Path> files = Files.newDirectoryStream(folder, "*.session")) {
            for (Path file : files) {
                try (InputStream in = Files.newInputStream(file)) {
                    filter.check(in, 1 << 20);
                } catch (InvalidObjectException refused) {
                    Files.move(file, file.resolveSibling(file.getFileName() + ".refused"));
                    System.out.println(file.getFileName() + ": " + refused.getMessage());
                }
            }
        }
    }
}
