package serialcheck;

import java.io.IOException;
import java.nio.ByteBuffer;
import java.nio.file.FileAlreadyExistsException;
import java.nio.file.Files;
import java.nio.file.Path;
import java.nio.file.StandardOpenOption;
import java.nio.file.attribute.PosixFilePermissions;
import java.util.EnumSet;
import java.util.concurrent.TimeUnit;

/**
 * The folder in which a guard keeps refused bytes, each in a file of its own that only the server's user may read. It has room
 * for a bounded number of files, since strangers fill it.
 */
final class GuardFolder {
    private static final int MOST_FILES = 1000;
    /** A full folder is looked at again after so long: somebody may have emptied it. */
    private static final long SECOND = TimeUnit.SECONDS.toNanos(1);

    private final Path folder;
    private int files;
    private long counted;

    GuardFolder(Path folder) throws IOException {
        this.folder = Files.createDirectories(folder);
        count();
    }

    /** Keeps bytes, and returns the file's name; null where there is no more room. */
    synchronized String keep(byte[] bytes) throws IOException {
        if (files >= MOST_FILES && System.nanoTime() - counted >= SECOND) {
            count();
        }
        if (files >= MOST_FILES) {
            return null;
        }
        files++;
        for (long time = System.currentTimeMillis(); ; time++) {
            Path file = folder.resolve("refused-" + time + ".ser");
            try (var out = Files.newByteChannel(file, EnumSet.of(StandardOpenOption.CREATE_NEW, StandardOpenOption.WRITE),
                PosixFilePermissions.asFileAttribute(PosixFilePermissions.fromString("rw-------")))) {
                for (ByteBuffer left = ByteBuffer.wrap(bytes); left.hasRemaining(); ) {
                    out.write(left);
                }
                return file.getFileName().toString();
            } catch (FileAlreadyExistsException taken) {
                continue; // by a refusal of the same millisecond
            }
        }
    }

    private void count() throws IOException {
        try (var there = Files.list(folder)) {
            files = (int) Math.min(there.count(), MOST_FILES);
        }
        counted = System.nanoTime();
    }
}
