package serialcheck;

import java.io.IOException;
import java.io.InputStream;
import java.io.SequenceInputStream;
import java.util.Arrays;
import java.util.Map;
import java.util.concurrent.atomic.AtomicBoolean;
import java.util.function.Consumer;
import java.util.function.Supplier;

/**
 * A filter with what a server wants around it: {@linkplain GuardSettings settings}, a file that is read again when it changed,
 * a log line for each refusal, counts that JMX shows, and a folder for what was refused. All integrations of serialcheck are over
 * it. Where a call returns, what it returns, or was given, may be handed on: it is admitted, or the guard only reports. Any number
 * of threads may use a guard at once.
 */
public final class Guard implements GuardMXBean, AutoCloseable {
    /** How many bytes of an input are read, and judged, at once. */
    private static final int PIECE = 8192;
    /** How many bytes of a stream in pieces are kept to be kept aside. */
    private static final int MOST_KEPT = 1 << 20;
    /** How many letters of the name of a thing are logged at the most. */
    private static final int MOST_LETTERS = 300;

    private final GuardSettings.OnRefusal onRefusal;
    private final int most;
    private final GuardFilter filter;
    private final GuardFolder folder;
    private final GuardCounts counts = new GuardCounts();
    private final Consumer<String> log;
    private final String name;
    private final boolean isInside;
    private final AtomicBoolean isShown = new AtomicBoolean();
    private volatile AutoCloseable bean;

    /** Opens a decompressor. */
    @FunctionalInterface
    public interface Decompressor {
        /**
         * Opens it.
         *
         * @return what comes out of it
         * @throws IOException where what it reads has not its form
         */
        InputStream open() throws IOException;
    }

    /**
     * Makes a guard. JMX shows it from the first stream on, where the JVM has that. It lives until it is closed.
     *
     * @param name what JMX calls it
     * @param settings the settings; a filter or its file is among them, and with {@code quarantine} a folder
     * @param log takes the lines of the log, each of printable ASCII with no line end, from any thread
     * @throws IllegalArgumentException where a setting is missing or the filter is faulty: the message says which
     * @throws IOException where the filter's file cannot be read, or the folder cannot be made
     */
    public Guard(String name, GuardSettings settings, Consumer<String> log) throws IOException {
        this(name, settings, log, true, false);
    }

    private Guard(String name, GuardSettings settings, Consumer<String> log, boolean hasFolder, boolean isInside) throws IOException {
        this.name = name;
        this.isInside = isInside;
        onRefusal = settings.onRefusal();
        most = settings.most();
        this.log = new Printer(log);
        boolean keeps = hasFolder && onRefusal == GuardSettings.OnRefusal.QUARANTINE;
        if (keeps && settings.quarantine() == null) {
            throw new IllegalArgumentException("onRefusal quarantine needs a place: quarantine");
        }
        filter = new GuardFilter(settings, this.log);
        folder = keeps ? new GuardFolder(settings.quarantine()) : null;
    }

    /**
     * Makes a guard of a server that keeps refused bytes by means of its own, so the setting of a folder means nothing here.
     *
     * @param name what JMX calls it
     * @param settings the settings; a filter or its file is among them
     * @param log takes the lines of the log, each of printable ASCII with no line end, from any thread
     * @return the guard
     * @throws IllegalArgumentException where a setting is missing or the filter is faulty: the message says which
     * @throws IOException where the filter's file cannot be read
     */
    public static Guard withoutFolder(String name, GuardSettings settings, Consumer<String> log) throws IOException {
        return new Guard(name, settings, log, false, false);
    }

    /**
     * Makes a guard that is called in the midst of other code, as in a constructor: a thread of its own shows it to JMX.
     *
     * @param name what JMX calls it
     * @param settings the settings; a filter or its file is among them, and with {@code quarantine} a folder
     * @param log takes the lines of the log, each of printable ASCII with no line end, from any thread
     * @return the guard
     * @throws IllegalArgumentException where a setting is missing or the filter is faulty: the message says which
     * @throws IOException where the filter's file cannot be read, or the folder cannot be made
     */
    public static Guard inside(String name, GuardSettings settings, Consumer<String> log) throws IOException {
        return new Guard(name, settings, log, true, true);
    }

    /**
     * Begins to judge a stream that comes in pieces. It is counted as admitted until it is refused.
     *
     * @return what takes the pieces
     * @throws IllegalStateException where the guard is closed
     */
    public GuardStream begin() {
        return begun(folder == null ? 0 : Math.min(most, MOST_KEPT));
    }

    /**
     * Begins to judge a stream that is neither counted nor shown, as to load each class that a check needs.
     *
     * @return what takes the pieces
     * @throws IllegalStateException where the guard is closed
     */
    public GuardStream trial() {
        return new GuardStream(this, filter.get().streams, most, 0);
    }

    private GuardStream begun(int mostKept) {
        show();
        counts.admit();
        return new GuardStream(this, filter.get().streams, most, mostKept);
    }

    /**
     * Judges a class name by itself, as a reader is about to look for it: by its core, which is what a reader that takes other
     * spellings finds (docs/REFUSALS.md, HiddenName).
     *
     * @param className a name as {@link Class#getName} spells it, or another spelling
     * @return why the filter does not admit it, with no place; or null
     */
    public Refused name(String className) {
        return filter.get().name(className);
    }

    /**
     * Judges the length of an array by itself, as it is about to be allocated.
     *
     * @param length its length
     * @return why the filter does not admit it, with no place; or null
     */
    public Refused array(int length) {
        return filter.get().array(length);
    }

    /**
     * Judges bytes that the caller holds, and that no other thread changes until they are read.
     *
     * @param what says what they are, for the log; it is asked where they are refused
     * @param bytes a whole stream
     * @throws Refused where they are refused, and the guard does not only report
     */
    public void check(Supplier<String> what, byte[] bytes) throws Refused {
        show();
        Refused why = bytes.length > most ? tooLong() : judged(bytes);
        if (why == null) {
            counts.admit();
        } else {
            refuse(what, why, bytes);
        }
    }

    /**
     * Reads an input to its end, and judges each piece as it comes: it is refused, and read no further, with the piece that decides.
     *
     * @param what says what it is, for the log; it is asked where it is refused
     * @param in the input; it is not closed
     * @return the bytes that were judged; where the guard only reports, and refuses them, the input from its beginning
     * @throws Refused where it is refused, and the guard does not only report
     * @throws IOException where it cannot be read
     */
    public InputStream open(Supplier<String> what, InputStream in) throws IOException {
        try (GuardStream stream = begun(Integer.MAX_VALUE)) {
            Refused why = readAndJudge(in, stream);
            if (why == null) {
                return stream.input();
            }
            stream.refuse(what, why);
            return new SequenceInputStream(stream.input(), in);
        }
    }

    /**
     * Reads an input to its end, with a bound, and does not judge it.
     *
     * @param what says what it is, for the log; it is asked where it is refused
     * @param in the input; it is not closed
     * @return the bytes; null where they are refused, and the guard only reports
     * @throws Refused {@code TooLong}, where the guard does not only report
     * @throws IOException where it cannot be read
     */
    public byte[] read(Supplier<String> what, InputStream in) throws IOException {
        show();
        byte[] bytes = in.readNBytes(most);
        if (bytes.length < most || in.read() < 0) {
            return bytes;
        }
        refuse(what, tooLong(), bytes);
        return null;
    }

    /**
     * Checks what comes out of a decompressor.
     *
     * @param what says what it is, for the log; it is asked where it is refused
     * @param zipped opens a decompressor over bytes in memory, whose faults are theirs; it is closed
     * @return the bytes; null where they are refused, and the guard only reports
     * @throws Refused {@code TooLong} or {@code BadCompression}, where the guard does not only report
     */
    public byte[] inflate(Supplier<String> what, Decompressor zipped) throws Refused {
        try (InputStream in = zipped.open()) {
            return read(what, in);
        } catch (Refused why) {
            throw why;
        } catch (IOException damaged) {
            refuse(what, new Refused("BadCompression", "not decompressed: " + damaged.getMessage()), new byte[0]);
            return null;
        }
    }

    /**
     * Whether bytes begin as each stream does, so that an {@code ObjectInputStream} would read on.
     *
     * @param bytes the bytes
     * @param length how many of them there are
     * @return whether the first two are AC ED
     */
    public static boolean isStream(byte[] bytes, int length) {
        return length > 1 && bytes[0] == (byte) 0xAC && bytes[1] == (byte) 0xED;
    }

    /**
     * How long a stream may be.
     *
     * @return a number of bytes, decompressed
     */
    public int most() {
        return most;
    }

    @Override
    public long getAdmitted() {
        return counts.admitted();
    }

    @Override
    public long getRefused() {
        return counts.refused();
    }

    @Override
    public Map<String, Long> getRefusals() {
        return counts.byName();
    }

    @Override
    public GuardSettings.OnRefusal getOnRefusal() {
        return onRefusal;
    }

    /** Lets the filter go, and takes the guard from JMX. A check after that is an {@link IllegalStateException}. */
    @Override
    public void close() {
        filter.close();
        try {
            if (bean != null) {
                bean.close();
            }
        } catch (Exception impossible) {
            throw new IllegalStateException(impossible);
        }
    }

    /** Why bytes are refused, or null. */
    private Refused judged(byte[] bytes) {
        try {
            filter.get().streams.check(bytes);
            return null;
        } catch (Refused why) {
            return why;
        }
    }

    /** Why the bytes of an input are refused, or null; `stream` then has them, as far as they were read. */
    private static Refused readAndJudge(InputStream in, GuardStream stream) throws IOException {
        byte[] piece = new byte[PIECE];
        for (int length; (length = in.read(piece)) >= 0; ) {
            byte[] own = Arrays.copyOf(piece, length); // an input may keep the array that it filled, and write to it later
            Refused why = stream.feed(own, 0, length);
            if (why != null) {
                return stream.isTooLong() ? stream.tooLong() : why;
            }
        }
        return stream.end();
    }

    private Refused tooLong() {
        return new Refused("TooLong", "longer than " + most + " bytes", most + 1L);
    }

    void retract() {
        counts.retract();
    }

    void report(Supplier<String> what, Refused why) {
        counts.refuse(why);
        log.accept("serialcheck would refuse " + printable(what.get(), MOST_LETTERS) + ": " + why.line());
    }

    /** Counts, logs and keeps what is refused; throws the refusal where the guard does not only report. */
    void refuse(Supplier<String> what, Refused why, byte[] bytes) throws Refused {
        if (onRefusal == GuardSettings.OnRefusal.REPORT) {
            report(what, why);
            return;
        }
        counts.refuse(why);
        log.accept("serialcheck refused " + printable(what.get(), MOST_LETTERS) + ": " + why.line() + (folder == null ? "" : kept(bytes)));
        throw why;
    }

    /** Keeps refused bytes aside, and says where they are. */
    private String kept(byte[] bytes) {
        if (bytes.length == 0) {
            return ", not kept: there are no bytes";
        }
        try {
            String file = folder.keep(bytes.length > most ? Arrays.copyOf(bytes, most) : bytes);
            return file == null ? ", not kept: the quarantine is full" : ", kept as " + file;
        } catch (IOException failed) {
            return ", not kept: " + failed;
        }
    }

    /** A text for the log, of which a stranger may have chosen some. */
    private static String printable(String text, int most) {
        String shown = text.length() > most ? text.substring(0, most) + ".." : text;
        return shown.chars().allMatch(Guard::isPrintable) ? shown : shown.codePoints().mapToObj(it -> isPrintable(it) ? String.valueOf((char) it) : String.format("\\u%04x", it)).reduce("", String::concat);
    }

    private static boolean isPrintable(int letter) {
        return letter >= ' ' && letter <= '~';
    }

    /** A log that takes lines of printable ASCII. It is no lambda, since the first of these costs a JVM some time. */
    private static final class Printer implements Consumer<String> {
        private final Consumer<String> log;

        Printer(Consumer<String> log) {
            this.log = log;
        }

        @Override
        public void accept(String line) {
            log.accept(printable(line, Integer.MAX_VALUE));
        }
    }

    /** Registers the guard with JMX, at its first stream. */
    private void show() {
        if (isShown.get() || !isShown.compareAndSet(false, true)) {
            return;
        }
        if (isInside) {
            Thread thread = new Thread(() -> bean = shown(), "serialcheck shows its guard");
            thread.setContextClassLoader(null);
            thread.setDaemon(true);
            thread.start();
        } else {
            bean = shown();
        }
    }

    /** What takes it away again. */
    private AutoCloseable shown() {
        try {
            return new GuardBean(this, name);
        } catch (NoClassDefFoundError none) {
            return null;
        } catch (Exception refusedByServer) {
            log.accept("serialcheck is not shown by JMX: " + refusedByServer);
            return null;
        }
    }
}
