package serialcheck;

import java.io.ByteArrayInputStream;
import java.io.IOException;
import java.io.InputStream;
import java.io.InvalidObjectException;
import java.io.ObjectInputStream;
import java.lang.ref.Cleaner;
import java.lang.ref.Reference;
import java.nio.ByteBuffer;
import java.nio.CharBuffer;
import java.nio.charset.CharacterCodingException;
import java.nio.charset.StandardCharsets;
import java.nio.file.Path;
import java.util.Arrays;
import java.util.Objects;
import java.util.concurrent.locks.Lock;
import java.util.concurrent.locks.ReadWriteLock;
import java.util.concurrent.locks.ReentrantReadWriteLock;

/**
 * A filter that is read once, for many checks. Any number of threads may use it at once, and none waits for another; only its close
 * waits for the checks that run.
 */
public final class Filter implements AutoCloseable {
    private static final Cleaner CLEANER = Cleaner.create();
    /** How many bytes of a stream are read at once. */
    private static final int PIECE = 8192;

    private final Held held;
    private final Cleaner.Cleanable cleanable;

    /**
     * Makes the reader of checked bytes.
     *
     * @param <S> its kind
     */
    @FunctionalInterface
    public interface Opener<S extends ObjectInputStream> {
        /**
         * Makes it.
         *
         * @param checked the bytes that were checked
         * @return a reader of these bytes
         * @throws IOException where the reader cannot be made
         */
        S open(InputStream checked) throws IOException;
    }

    /** The native filter. It refers to no Filter, so that the cleaner may run. */
    private static final class Held implements Runnable {
        private final ReadWriteLock lock = new ReentrantReadWriteLock();
        private final Lock checking = lock.readLock();
        private final Lock freeing = lock.writeLock();
        private long handle;

        @Override
        public void run() {
            freeing.lock();
            try {
                Native.filterFree(handle);
                handle = 0;
            } finally {
                freeing.unlock();
            }
        }

        void check(byte[] bytes, int from, int length, Answer answer) {
            checking.lock();
            try {
                answer.className = Native.filterCheck(handle, bytes, from, length, answer.words);
            } finally {
                checking.unlock();
            }
        }

        /** The handle of a new stream; what else is answered is thrown. */
        long stream() {
            checking.lock();
            try {
                long stream = Native.streamNew(handle, null);
                return stream == 0 ? again() : stream;
            } finally {
                checking.unlock();
            }
        }

        /** The same for an answer that says why there was none. */
        private long again() {
            Answer answer = new Answer();
            long stream = Native.streamNew(handle, answer.words);
            if (stream == 0) {
                answer.wantOfFilter(Answer.MORE);
            }
            return stream;
        }
    }

    /**
     * Reads a filter.
     *
     * @param text as {@code ObjectInputFilter.Config.createFilter} takes it (docs/FILTERS.md)
     * @param flags how it is asked
     * @throws IllegalArgumentException where the text is faulty: the message names the first faulty piece, counted from 0
     */
    public Filter(String text, Flag... flags) {
        this(text, "", flags);
    }

    /**
     * Reads a filter with a table of modules.
     *
     * @param text the filter's text
     * @param modules lines {@code package=module}
     * @param flags how the filter is asked
     * @throws IllegalArgumentException where the text or the table is faulty: the message names the piece or the line
     */
    public Filter(String text, String modules, Flag... flags) {
        this(spelled(text, "filter is not text"), spelled(modules, "modules are not text"), Flag.bits(flags), false);
    }

    private Filter(byte[] text, byte[] modules, int flags, boolean isFile) {
        Library.need();
        Answer answer = new Answer();
        held = new Held();
        held.handle = isFile ? Native.filterRead(text, modules, flags, answer.words) : Native.filterNew(text, modules, flags, answer.words);
        cleanable = CLEANER.register(this, held);
        answer.wantOfFilter(Answer.YES);
    }

    /**
     * Reads the filter of a file: its lines are pieces, and those that begin with {@code #} are none.
     *
     * @param file at most 2^24 bytes of UTF-8
     * @param flags how the filter is asked
     * @return the filter
     * @throws IllegalArgumentException where the file is faulty: the message names the line or the piece
     * @throws IOException where it cannot be read, or is longer
     */
    public static Filter fromFile(Path file, Flag... flags) throws IOException {
        return ofFile(FilterFile.read(file), flags);
    }

    /** The filter of the bytes of a file. */
    static Filter ofFile(byte[] file, Flag... flags) {
        return ofFile(file, new byte[0], flags);
    }

    static Filter ofFile(byte[] file, byte[] modules, Flag... flags) {
        return new Filter(file, modules, Flag.bits(flags), true);
    }

    /**
     * Checks the bytes of an array, of a copy made here: where another thread may change them, check and read a copy of your own.
     *
     * @param bytes a whole stream
     * @return the stream's counts
     * @throws Refused where they are no stream that the filter admits
     * @throws IllegalStateException where the filter is closed
     */
    public Report check(byte[] bytes) throws Refused {
        return check(bytes, 0, bytes.length);
    }

    /**
     * Checks a part of an array, of a copy made here.
     *
     * @param bytes where they are
     * @param from the offset of the first one
     * @param length how many they are
     * @return the stream's counts
     * @throws Refused where they are no stream that the filter admits
     * @throws IndexOutOfBoundsException where the array has no such part
     * @throws IllegalStateException where the filter is closed
     */
    public Report check(byte[] bytes, int from, int length) throws Refused {
        Objects.checkFromIndexSize(from, length, bytes.length);
        Answer answer = new Answer();
        try {
            held.check(bytes, from, length, answer);
        } finally {
            Reference.reachabilityFence(this); // else the cleaner could free a filter whose last call is this one
        }
        return answer.report();
    }

    Refused refusal(byte[] bytes) {
        return refusal(bytes, 0, bytes.length);
    }

    /** Why bytes are refused, whatever comes behind them; null where they are admitted or only cut. */
    Refused refusal(byte[] bytes, int from, int length) {
        Answer answer = new Answer();
        try {
            held.check(bytes, from, length, answer);
        } finally {
            Reference.reachabilityFence(this);
        }
        if (answer.status() == Answer.NO) {
            return answer.isCut() ? null : new Refused(answer);
        }
        answer.wantOfFilter(Answer.YES);
        return null;
    }

    /**
     * Checks all bytes of an input, in pieces that are not kept: for a file that nobody changes meanwhile. It reads no further
     * than a refusal needs.
     *
     * @param in the input; it is not closed
     * @param most how many bytes there may be
     * @return the stream's counts
     * @throws Refused where they are no stream that the filter admits
     * @throws InvalidObjectException where there are more of them
     * @throws IOException where the input cannot be read
     * @throws IllegalStateException where the filter is closed
     */
    public Report check(InputStream in, long most) throws IOException {
        byte[] piece = new byte[PIECE];
        long left = most;
        try (Stream stream = stream()) {
            for (int length; (length = in.read(piece)) >= 0; left -= length) {
                if (length > left) {
                    throw tooLong(most);
                }
                stream.feed(piece, 0, length);
            }
            return stream.end();
        }
    }

    /**
     * Reads all bytes of an input, copies them, and checks the copy.
     *
     * @param in the input; it is not closed
     * @param most how many bytes there may be
     * @return the bytes that were checked
     * @throws Refused where they are no stream that the filter admits
     * @throws InvalidObjectException where there are more of them
     * @throws IOException where the input cannot be read
     * @throws IllegalStateException where the filter is closed
     */
    public byte[] read(InputStream in, int most) throws IOException {
        byte[] read = in.readNBytes(most);
        if (read.length > most || read.length == most && in.read() >= 0) {
            throw tooLong(most);
        }
        byte[] bytes = read.clone(); // an input may have kept the array that it filled, and write to it later
        check(bytes);
        return bytes;
    }

    /**
     * Makes an {@link ObjectInputStream} of checked bytes, and only then: those that {@link #read(InputStream, int)} returns.
     *
     * @param in the input; it is not closed
     * @param most how many bytes there may be
     * @return a reader of the bytes that were checked
     * @throws Refused where they are no stream that the filter admits; no class of them was loaded
     * @throws InvalidObjectException where there are more of them
     * @throws IOException where the input cannot be read
     * @throws IllegalStateException where the filter is closed
     */
    public ObjectInputStream open(InputStream in, int most) throws IOException {
        return open(in, most, ObjectInputStream::new);
    }

    /**
     * Checks the bytes of an input, and opens a reader of the caller's kind over them.
     *
     * @param <S> the kind
     * @param in the input; it is not closed
     * @param most how many bytes there may be
     * @param opener makes the reader, such as {@code MyObjectInputStream::new}
     * @return a reader of the bytes that were checked
     * @throws Refused where they are no stream that the filter admits; no reader was made
     * @throws InvalidObjectException where there are more of them
     * @throws IOException where the input cannot be read, or the reader cannot be made
     * @throws IllegalStateException where the filter is closed
     */
    public <S extends ObjectInputStream> S open(InputStream in, int most, Opener<S> opener) throws IOException {
        return opener.open(new ByteArrayInputStream(read(in, most)));
    }

    /**
     * Begins the check of a stream that comes in pieces. The filter may be closed before the stream.
     *
     * @return the check, for one thread at a time
     * @throws IllegalStateException where the filter is closed
     */
    public Stream stream() {
        try {
            return new Stream(held.stream());
        } finally {
            Reference.reachabilityFence(this);
        }
    }

    /** Lets the filter go. One that is forgotten is let go some time after it was last used. */
    @Override
    public void close() {
        cleanable.clean();
    }

    static Cleaner.Cleanable register(Object owner, Runnable held) {
        return CLEANER.register(owner, held);
    }

    private static InvalidObjectException tooLong(long most) {
        return new InvalidObjectException("more than " + most + " bytes");
    }

    /** A text in UTF-8; one with half of a surrogate pair is faulty. */
    static byte[] spelled(String text, String fault) {
        try {
            ByteBuffer bytes = StandardCharsets.UTF_8.newEncoder().encode(CharBuffer.wrap(Objects.requireNonNull(text, "no text")));
            return Arrays.copyOf(bytes.array(), bytes.limit());
        } catch (CharacterCodingException unpaired) {
            throw new IllegalArgumentException(fault, unpaired);
        }
    }
}
