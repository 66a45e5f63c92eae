package serialcheck;

import java.io.ByteArrayInputStream;
import java.io.InputStream;
import java.util.Arrays;
import java.util.Objects;
import java.util.function.Supplier;

/**
 * A stream that a {@link Guard} judges in pieces: {@link #feed} each, and {@link #end} where there is an end. What it answers is not
 * yet counted or logged: whoever acts on it calls {@link #refuse}. For one thread at a time.
 *
 * <p>It keeps the bytes of a short stream, so that {@link #rest} may let go of native memory, which the heap knows nothing of, and a
 * later piece begins the check anew.
 */
public final class GuardStream implements AutoCloseable {
    /** A stream of at most so many bytes is kept in the heap. */
    private static final int SHORT = 1 << 15;
    /** Of so many bytes it is judged anew rather than held. */
    private static final int BRIEF = 1024;
    /** So many streams may be held by readers that perhaps never read on. */
    private static final int MOST_HELD = 500;
    private static final int HEADER = 4;

    private final Guard guard;
    private final Filter filter;
    private final int most;
    private final int mostKept;
    /** The first bytes; all that there are, where it has as many as came. */
    private byte[] kept;
    private int length;
    private long taken;
    private Stream stream;
    private boolean isCounted;

    GuardStream(Guard guard, Filter filter, int most, int mostKept) {
        this.guard = guard;
        this.filter = filter;
        this.most = most;
        this.mostKept = Math.max(mostKept, SHORT);
        kept = new byte[Math.min(256, this.mostKept)];
    }

    /**
     * Judges the next bytes, which no other thread changes meanwhile.
     *
     * @param bytes where they are
     * @param from the offset of the first one
     * @param count how many they are
     * @return why the stream is refused with them, whatever comes next; null where they decide nothing
     * @throws IndexOutOfBoundsException where the array has no such part
     * @throws IllegalStateException where the stream or the guard is closed
     */
    public Refused feed(byte[] bytes, int from, int count) {
        Objects.checkFromIndexSize(from, count, bytes.length);
        int judged = most == GuardSettings.NO_BOUND ? count : (int) Math.max(0, Math.min(count, most - taken));
        Refused why = taken == 0 && stream == null && judged > HEADER ? filter.refusal(bytes, from, judged) : fed(bytes, from, judged);
        keep(bytes, from, count);
        taken += count;
        return why == null && judged < count ? tooLong() : why;
    }

    private Refused fed(byte[] bytes, int from, int count) {
        try {
            if (stream == null) {
                if (!isWhole()) {
                    throw new IllegalStateException("closed");
                }
                stream = filter.stream();
                stream.feed(kept, 0, length);
            }
            stream.feed(bytes, from, count);
            return null;
        } catch (Refused why) {
            return why;
        }
    }

    /**
     * Judges the end.
     *
     * @return why all bytes are no stream that is admitted, or null
     * @throws IllegalStateException where the stream or the guard is closed
     */
    public Refused end() {
        try {
            if (stream != null) {
                stream.end();
            } else if (isWhole()) {
                filter.check(kept, 0, length);
            } else {
                throw new IllegalStateException("closed");
            }
            return null;
        } catch (Refused why) {
            return why;
        }
    }

    /** Says that perhaps nothing comes any more: memory is let go where a later piece can begin the check anew. */
    public void rest() {
        if (stream != null && isWhole() && (taken <= BRIEF || Stream.held() > MOST_HELD)) {
            close();
        }
    }

    /**
     * Forgets what came behind a place, as if it had not been fed.
     *
     * @param place a number of bytes, from the first one
     * @return whether it could: false of a stream whose bytes were not all kept
     */
    public boolean back(long place) {
        if (!isWhole()) {
            return false;
        }
        close();
        length = (int) Math.min(length, place);
        taken = length;
        return true;
    }

    /**
     * Whether all of its bytes are kept.
     *
     * @return true of a short one
     */
    public boolean isWhole() {
        return length == taken;
    }

    /**
     * Counts, logs and keeps a refusal of this stream, as the guard's settings say.
     *
     * @param what says what the stream is, for the log
     * @param why a refusal that a call of this class or of the guard returned
     * @throws Refused that one, where the guard does not only report
     */
    public void refuse(Supplier<String> what, Refused why) throws Refused {
        count();
        guard.refuse(what, why, bytes());
    }

    /**
     * Counts and logs a refusal of this stream as one that is only reported, whatever the settings say.
     *
     * @param what says what the stream is, for the log
     * @param why a refusal that a call of this class or of the guard returned
     */
    public void report(Supplier<String> what, Refused why) {
        count();
        guard.report(what, why);
    }

    /** It was counted as admitted when it began. */
    private void count() {
        if (!isCounted) {
            isCounted = true;
            guard.retract();
        }
    }

    /** Lets go of native memory. A stream whose bytes are all kept may go on. */
    @Override
    public void close() {
        if (stream != null) {
            stream.close();
            stream = null;
        }
    }

    boolean isTooLong() {
        return taken > most && most != GuardSettings.NO_BOUND;
    }

    Refused tooLong() {
        return new Refused("TooLong", "longer than " + most + " bytes", most + 1L);
    }

    /** The bytes that were kept: what came, or its beginning. */
    byte[] bytes() {
        return Arrays.copyOf(kept, length);
    }

    /** What came, from its beginning, of a stream whose bytes are all kept. */
    InputStream input() {
        return new ByteArrayInputStream(kept, 0, length);
    }

    private void keep(byte[] bytes, int from, int count) {
        if (!isWhole()) {
            return;
        }
        int more = Math.min(count, mostKept - length);
        if (more < count && mostKept == SHORT) {
            kept = new byte[0]; // none of it is of use
            length = 0;
            return;
        }
        if (length + more > kept.length) {
            kept = Arrays.copyOf(kept, Math.max(length + more, Math.min(mostKept, 2 * kept.length)));
        }
        System.arraycopy(bytes, from, kept, length, more);
        length += more;
    }
}
