package serialcheck;

/** The native calls, as serialcheck_jni.c has them. A handle is 0 where there is none; each call writes its answer. */
final class Native {
    private Native() {
    }

    /** How many words an answer has. */
    static native int words();

    /** The version of the library: its three numbers, in eight bits each. */
    static native int version();

    /** The line that the program prints of an answer, with its line feed; null where there is no memory for it. */
    static native String line(long[] answer);

    /** The name of a reason; null where there is no memory for it. */
    static native String reasonName(int reason);

    /** What a reason means, in a sentence; null where there is no memory for it. */
    static native String reasonText(int reason);

    /** Reads the text of a filter. */
    static native long filterNew(byte[] text, byte[] modules, int flags, long[] answer);

    /** Reads the bytes of a filter's file. */
    static native long filterRead(byte[] file, byte[] modules, int flags, long[] answer);

    /** Returns the name of the class that was refused, if one was. */
    static native String filterCheck(long filter, byte[] bytes, int from, int length, long[] answer);

    static native void filterFree(long filter);

    /** The text of list under a filter, or of show where that is null: whole, or its first {@code most} bytes; null where there is none. */
    static native byte[] text(byte[] bytes, byte[] filter, byte[] modules, int most, long[] answer);

    /** Returns the handle of a new stream; where it is 0, the answer says why. */
    static native long streamNew(long filter, long[] answer);

    /** Returns the status, and makes nothing. */
    static native int streamFeed(long stream, byte[] bytes, int from, int length);

    /** The answer of a stream whose last status was a refusal. Returns the name of the class that was refused, if one was. */
    static native String streamAnswer(long stream, long[] answer);

    static native void streamEnd(long stream, long[] answer);

    static native void streamFree(long stream);
}
