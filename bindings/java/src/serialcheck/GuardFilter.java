package serialcheck;

import java.io.IOException;
import java.nio.file.Files;
import java.nio.file.Path;
import java.nio.file.attribute.BasicFileAttributes;
import java.util.EnumSet;
import java.util.concurrent.TimeUnit;
import java.util.concurrent.locks.Lock;
import java.util.concurrent.locks.ReentrantLock;
import java.util.function.Consumer;

/**
 * The filter of a guard: that of a text, or of a file, which is looked at once a second at the most, by a thread that needs the
 * filter, and read again when it changed. A file that cannot be read, is faulty or has no pattern changes nothing and is logged once.
 */
final class GuardFilter {
    /** How long one look at the file serves, and how old a change must be: a file that is being written is left alone. */
    private static final long SECOND = TimeUnit.SECONDS.toNanos(1);

    private final Path file;
    private final Path modules;
    private final EnumSet<Flag> flags;
    private final Consumer<String> log;
    private final Lock looking = new ReentrantLock();
    /** What the file was when it was read, and at the last look. */
    private String read;
    private String seen;
    /** Why it could not be read at the last look, or null: it is tried again, since its rights are no part of what it was. */
    private String unread;
    private volatile long looked;
    // One that another took the place of is not closed, since a check may use it; the cleaner lets it go.
    private volatile GuardRules rules;

    /** Reads the filter; a faulty one is an exception here. */
    GuardFilter(GuardSettings settings, Consumer<String> log) throws IOException {
        file = settings.filterFile();
        modules = settings.modules();
        flags = settings.flags();
        this.log = log;
        if ((file == null) == (settings.filter() == null)) {
            throw new IllegalArgumentException("a guard needs a filter or a filterFile, and not both");
        }
        read = seen = file == null ? null : stamp();
        rules = file == null ? rules(Filter.spelled(settings.filter(), "filter is not text")) : readFile();
        looked = System.nanoTime();
    }

    GuardRules get() {
        if (file != null && System.nanoTime() - looked >= SECOND && looking.tryLock()) {
            try {
                look();
            } finally {
                looking.unlock();
            }
        }
        return rules;
    }

    void close() {
        rules.close();
    }

    private void look() {
        looked = System.nanoTime();
        String now;
        try {
            now = stamp();
        } catch (IOException gone) {
            now = gone.toString();
        }
        if (now.equals(read)) {
            unread = null;
        } else if (now.equals(seen) || isOld()) {
            takeFile(now);
        }
        seen = now;
    }

    private void takeFile(String now) {
        String before = unread;
        unread = null;
        try {
            rules = readFile();
            read = now;
            log.accept("serialcheck reads the filter of " + file + " from now on");
        } catch (IllegalArgumentException faulty) {
            read = now;
            log.accept("serialcheck keeps the filter that it has: " + faulty.getMessage() + ", in " + file);
        } catch (IOException failed) {
            unread = failed.toString();
            if (!unread.equals(before)) {
                log.accept("serialcheck keeps the filter that it has: " + unread);
            }
        }
    }

    private GuardRules readFile() throws IOException {
        return rules(FilterFile.read(file));
    }

    private GuardRules rules(byte[] text) throws IOException {
        return new GuardRules(text, modules == null ? new byte[0] : FilterFile.read(modules), flags);
    }

    /** Whether the file was last written to a second ago, or earlier. */
    private boolean isOld() {
        try {
            return System.currentTimeMillis() - Files.getLastModifiedTime(file).toMillis() >= TimeUnit.NANOSECONDS.toMillis(SECOND);
        } catch (IOException gone) {
            return false;
        }
    }

    /** What is another where the file is another, or was written to. */
    private String stamp() throws IOException {
        BasicFileAttributes it = Files.readAttributes(file, BasicFileAttributes.class);
        return it.fileKey() + " " + it.size() + " " + it.lastModifiedTime();
    }
}
