package serialcheck;

import java.io.InvalidObjectException;

/**
 * The bytes are no stream that the filter admits. Its message is the line of the program: {@code no at FROM to TO: REASON}. A
 * {@link Guard} also refuses what it cannot judge. What it tells never changes, so any thread may have it.
 */
public final class Refused extends InvalidObjectException {
    private static final long serialVersionUID = 1;
    /** How many letters of a class name a line has at the most. */
    private static final int MOST_LETTERS = 200;
    /** The name of the reason. */
    private final String reason;
    /** What the reason means, or an empty text. */
    private final String meaning;
    /** The offset of the faulty token. */
    private final long from;
    /** How many bytes decide. */
    private final long to;

    /** How many of the bytes are whole contents. */
    private final long whole;

    /** The name of the class that was refused, or null. */
    private final String className;

    Refused(Answer answer) {
        super(answer.line());
        reason = answer.reason();
        meaning = answer.meaning();
        from = answer.from();
        to = answer.to();
        whole = answer.whole();
        className = answer.className;
    }

    /** A refusal of what is no place of the bytes: the same, without one. */
    Refused(Refused other) {
        super("no: " + other.reason);
        reason = other.reason;
        meaning = other.meaning;
        from = 0;
        to = 0;
        whole = 0;
        className = other.className;
    }

    /** A refusal of bytes that were not judged. */
    Refused(String reason, String message) {
        this(reason, message, 0);
    }

    Refused(String reason, String message, long to) {
        super(message);
        this.reason = reason;
        meaning = "";
        from = 0;
        this.to = to;
        whole = 0;
        className = null;
    }

    /**
     * What a log may have of it: the message, and the class that was refused in quotes, if there is one.
     *
     * @return one line of printable ASCII, such as {@code no at 6 to 27: ClassRejected "java.util.ArrayList"}; a class name of more
     *     than 200 letters is cut, and ends in {@code ..}
     */
    public String line() {
        String name = shortName();
        return name == null ? getMessage() : getMessage() + " \"" + name + "\"";
    }

    /** The class name, or the beginning of a long one, or null. */
    String shortName() {
        return className == null || className.length() <= MOST_LETTERS ? className : className.substring(0, MOST_LETTERS) + "..";
    }

    /**
     * Why.
     *
     * @return a name of docs/REFUSALS.md, such as {@code ClassRejected}; of a {@link Guard} also {@code TooLong} and {@code BadCompression}
     */
    public String reason() {
        return reason;
    }

    /**
     * What the reason means, for a person.
     *
     * @return a sentence of printable ASCII, such as {@code A pattern of the filter rejects this class.}; empty with a reason that only a
     *     {@link Guard} has, whose message says all
     */
    public String meaning() {
        return meaning;
    }

    /**
     * The class that the filter does not admit: of the reasons {@code ClassRejected}, {@code ClassUnmatched} and {@code HiddenName}.
     *
     * @return its name, in which letters other than printable ASCII are escaped, so that it may be logged; null
     *     with another reason
     */
    public String className() {
        return className;
    }

    /**
     * Where the faulty token starts.
     *
     * @return its offset in bytes
     */
    public long from() {
        return from;
    }

    /**
     * How many bytes decide: no admitted stream begins with these. Of {@code Truncated}: all of them, which are no stream.
     *
     * @return a number of bytes, from the first one
     */
    public long to() {
        return to;
    }

    /**
     * How many of the bytes that came are whole contents: where to cut a stream from what lies behind it.
     *
     * @return the length of their longest front that is a stream which the filter admits, whatever names can be read at other places;
     *     0 where there is none
     */
    public long whole() {
        return whole;
    }
}
