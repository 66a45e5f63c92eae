package serialcheck;

import java.io.IOException;
import java.io.InputStream;
import java.nio.file.Files;
import java.nio.file.Path;

/** The bytes of a filter's file. What its lines mean the native library knows (docs/FILTERS.md). */
final class FilterFile {
    private static final int MOST = 1 << 24;

    private FilterFile() {
    }

    /** All bytes of the file; one that is longer, or that cannot be read, is an exception. */
    static byte[] read(Path file) throws IOException {
        try (InputStream in = Files.newInputStream(file)) {
            byte[] bytes = in.readNBytes(MOST + 1);
            if (bytes.length > MOST) {
                throw new IOException(file + " has more than " + MOST + " bytes");
            }
            return bytes;
        }
    }
}
