package serialcheck;

import java.nio.charset.StandardCharsets;
import java.util.Objects;

/** A text of {@link SerialCheck#show} or {@link SerialCheck#list}: whole lines of printable ASCII. It never changes, so any thread may have it. */
public final class Text {
    private final String lines;
    private final boolean isCut;

    private Text(String lines, boolean isCut) {
        this.lines = lines;
        this.isCut = isCut;
    }

    /** The text of list under a filter, or of show where that is null. */
    static Text of(byte[] bytes, byte[] filter, byte[] modules, int most) throws Refused {
        Objects.requireNonNull(bytes, "no bytes");
        if (most < 0) {
            throw new IllegalArgumentException("a text of less than 0 bytes");
        }
        Library.need();
        Answer answer = new Answer();
        byte[] written = Native.text(bytes, filter, modules, most, answer.words);
        boolean isCut = answer.status() == Answer.SMALL;
        if (!isCut) {
            answer.want(Answer.YES);
        }
        int length = written.length;
        while (isCut && length > 0 && written[length - 1] != '\n') {
            length--;
        }
        return new Text(new String(written, 0, length, StandardCharsets.US_ASCII), isCut);
    }

    /**
     * Whether the text goes on: it has the whole lines that there was room for.
     *
     * @return whether it is cut
     */
    public boolean isCut() {
        return isCut;
    }

    /**
     * The text.
     *
     * @return lines that each end in a line feed
     */
    @Override
    public String toString() {
        return lines;
    }
}
