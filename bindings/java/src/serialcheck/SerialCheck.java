package serialcheck;

import java.io.IOException;
import java.io.InputStream;

/** Single checks, whose filter is read each time, and the texts of streams. Where many streams come under one filter, make a {@link Filter}. Any thread may call. */
public final class SerialCheck {
    private SerialCheck() {
    }

    /**
     * Checks the bytes of an array, of a copy made here.
     *
     * @param bytes a whole stream
     * @param filter the filter's text
     * @param flags how it is asked
     * @return the stream's counts
     * @throws Refused where they are no stream that the filter admits
     * @throws IllegalArgumentException where the filter is faulty
     */
    public static Report check(byte[] bytes, String filter, Flag... flags) throws Refused {
        try (Filter once = new Filter(filter, flags)) {
            return once.check(bytes);
        }
    }

    /**
     * Checks all bytes of an input, as {@link Filter#check(InputStream, long)}.
     *
     * @param in the input; it is not closed
     * @param most how many bytes there may be
     * @param filter the filter's text
     * @param flags how it is asked
     * @return the stream's counts
     * @throws Refused where they are no stream that the filter admits
     * @throws java.io.InvalidObjectException where there are more of them
     * @throws IOException where the input cannot be read
     * @throws IllegalArgumentException where the filter is faulty
     */
    public static Report check(InputStream in, long most, String filter, Flag... flags) throws IOException {
        try (Filter once = new Filter(filter, flags)) {
            return once.check(in, most);
        }
    }

    /**
     * The text of {@code serialcheck show}: what a stream holds.
     *
     * @param bytes a whole stream
     * @param most how many bytes the text may have: that of a small hostile stream can have gigabytes
     * @return whole lines of the text
     * @throws Refused where the bytes are no stream
     * @throws IllegalArgumentException where {@code most} is below 0
     */
    public static Text show(byte[] bytes, int most) throws Refused {
        return Text.of(bytes, null, null, most);
    }

    /**
     * The text of {@code serialcheck list}: a line for each class name, with how often it occurs and what a filter says of it, which
     * refuses nothing here.
     *
     * @param bytes a whole stream
     * @param filter the filter's text
     * @param modules lines {@code package=module}
     * @param most how many bytes the text may have
     * @return whole lines of the text
     * @throws Refused where the bytes are no stream
     * @throws IllegalArgumentException where the filter or the table is faulty, or {@code most} is below 0
     */
    public static Text list(byte[] bytes, String filter, String modules, int most) throws Refused {
        return Text.of(bytes, Filter.spelled(filter, "filter is not text"), Filter.spelled(modules, "modules are not text"), most);
    }

    /**
     * The version of the native library.
     *
     * @return three numbers with points between them
     */
    public static String version() {
        Library.need();
        int version = Native.version();
        return (version >> 16) + "." + (version >> 8 & 255) + "." + (version & 255);
    }
}
