package serialcheck;

/** What a native call answers: the words of the header's serialcheck_answer, in its order. */
final class Answer {
    static final int YES = 0, NO = 1, MISUSE = 2, NO_MEMORY = 3, MORE = 4, SPENT = 5, SMALL = 6;
    /** How many words there are. The native code says the same number, or it is of another version. */
    static final int WORDS = 12;

    /** No answer, and no yes, before a call has written it. */
    final long[] words = {NO_MEMORY, 0, 0, 0, 0, 0, 0, 0, 0, 0, 0, 0};

    /** The name of the class that was refused, where all bytes were there, or null. */
    String className;

    int status() {
        return (int) words[0];
    }

    /** Whether a no says that the bytes end too early, so that others may come. */
    boolean isCut() {
        return reason().equals("Truncated");
    }

    /** The name of the reason of a no. */
    String reason() {
        return there(Native.reasonName((int) words[1]));
    }

    /** What the reason of a no means. */
    String meaning() {
        return there(Native.reasonText((int) words[1]));
    }

    long from() {
        return words[2];
    }

    long to() {
        return words[3];
    }

    long bytes() {
        return words[4];
    }

    long contents() {
        return words[5];
    }

    long refs() {
        return words[6];
    }

    long depth() {
        return words[7];
    }

    long handles() {
        return words[8];
    }

    long whole() {
        return words[11];
    }

    /** The line that the program prints of it. */
    String line() {
        return there(Native.line(words)).stripTrailing();
    }

    /** The report of a yes; whatever else is answered is thrown. */
    Report report() throws Refused {
        want(YES);
        return new Report(this);
    }

    /** Throws what is answered, where it is not what is wanted. */
    void want(int wanted) throws Refused {
        if (status() == NO) {
            throw new Refused(this);
        }
        wantOfFilter(wanted);
    }

    /** Throws what a call answers that refuses no bytes, where it is not what is wanted. */
    void wantOfFilter(int wanted) {
        if (status() == wanted) {
            return;
        }
        switch (status()) {
            case MISUSE:
                throw new IllegalArgumentException(line());
            case NO_MEMORY:
                throw noMemory();
            case SPENT:
                throw new IllegalStateException("closed");
            default:
                throw new IllegalStateException("serialcheck answered " + status());
        }
    }

    /** A text of the library, which has one wherever there is memory for it. */
    private static String there(String text) {
        if (text == null) {
            throw noMemory();
        }
        return text;
    }

    private static OutOfMemoryError noMemory() {
        return new OutOfMemoryError("serialcheck: no native memory");
    }
}
