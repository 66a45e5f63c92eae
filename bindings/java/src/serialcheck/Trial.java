package serialcheck;

import java.nio.charset.StandardCharsets;

/**
 * A few streams that the native library is asked before its first use, where those who made it never ran it: a yes, a no, and a name
 * in a block of data.
 */
final class Trial {
    private static final int ANYWHERE = 2;
    private static final byte[] ARRAY_LIST = bytes("aced0005737200136a6176612e7574696c2e41727261794c6973747881d21d99c7619d03000149000473697a657870000000017704000000017400016178");
    private static final byte[] HIDDEN = bytes("aced0005770c720001410000000000000000");

    private Trial() {
    }

    /** Throws where the library answers another thing than is right. */
    static void run() {
        expect("yes 62 bytes, 1 contents, 3 refs, depth 2", "java.util.*;!*", 0, ARRAY_LIST);
        expect("no at 6 to 27: ClassRejected", "!java.**", 0, ARRAY_LIST);
        expect("no at 6 to 10: HiddenName", "!A", ANYWHERE, HIDDEN);
    }

    private static void expect(String right, String filter, int flags, byte[] bytes) {
        String found = answer(filter.getBytes(StandardCharsets.US_ASCII), flags, bytes);
        if (!found.equals(right)) {
            throw new UnsatisfiedLinkError("serialcheck: the native library for " + Library.MACHINE + " answers `" + found + "` where `" + right + "` is right, so it is not used. Use the package of "
                + "npm, whose WebAssembly module runs on any machine with Node, and tell the maintainers of serialcheck of this line");
        }
    }

    /** The line of the answer to these bytes under a filter. */
    private static String answer(byte[] filter, int flags, byte[] bytes) {
        Answer answer = new Answer();
        long handle = Native.filterNew(filter, new byte[0], flags, answer.words);
        if (handle != 0) {
            Native.filterCheck(handle, bytes, 0, bytes.length, answer.words);
            Native.filterFree(handle);
        }
        String line = Native.line(answer.words);
        return line == null ? "status " + answer.status() : line.trim();
    }

    private static byte[] bytes(String hexadecimal) {
        byte[] bytes = new byte[hexadecimal.length() / 2];
        for (int at = 0; at < bytes.length; at++) {
            bytes[at] = (byte) Integer.parseInt(hexadecimal.substring(2 * at, 2 * at + 2), 16);
        }
        return bytes;
    }
}
