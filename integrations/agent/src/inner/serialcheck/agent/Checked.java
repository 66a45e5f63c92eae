package serialcheck.agent;

import java.io.BufferedInputStream;
import java.io.ByteArrayInputStream;
import java.io.IOException;
import java.io.InputStream;
import java.io.InvalidObjectException;
import java.io.SerialcheckGated;
import java.io.SerialcheckHook;
import java.util.Arrays;
import serialcheck.GuardStream;
import serialcheck.Refused;

/**
 * The input of one reader. No byte is taken from the input that the reader does not ask for. What it asks for is handed out, and
 * judged when a gate, or a full room, says so. What an input has in memory, an array or the buffer of a BufferedInputStream, is
 * copied and judged before any of it is handed out.
 */
final class Checked extends SerialcheckGated {
    /** So many unjudged bytes at the most. */
    private static final int ROOM = 512;
    /** So many bytes are judged at once. */
    private static final int WINDOW = 8192;

    private final Readers readers;
    private final InputStream in;
    private final GuardStream stream;
    private final ByteArrayInputStream array;
    private final BufferedInputStream buffer;
    private boolean looksAhead;
    /** First the bytes that were handed out and not judged, `pending`; or from `at` to `end` those that were judged, and not handed out. */
    private byte[] bytes = new byte[64];
    private int at;
    private int end;
    /** How many bytes were handed out. */
    private long taken;
    private boolean hadObject;
    /** What decides, where it was seen ahead: the reader may read to it. */
    private Refused decided;
    private InvalidObjectException refused;
    /** Bytes are not judged any more, or never. */
    private boolean isOff;
    private boolean asksNames = true;
    private byte[] scratch;

    Checked(Readers readers, InputStream in, GuardStream stream, boolean hasOwnForm) {
        this.readers = readers;
        this.in = in;
        this.stream = stream;
        isOff = hasOwnForm;
        array = in.getClass() == ByteArrayInputStream.class ? (ByteArrayInputStream) in : null;
        buffer = in.getClass() == BufferedInputStream.class ? (BufferedInputStream) in : null;
        looksAhead = array != null || buffer != null;
    }

    @Override
    public int read() throws IOException {
        if (isOff) {
            return in.read();
        }
        latch();
        if (at < end || looksAhead && look()) {
            int some = judgedAhead(1);
            if (some < 0) {
                return in.read();
            }
            if (some > 0) {
                return bytes[at - 1] & 0xff;
            }
        }
        room(1);
        int it = in.read();
        if (it >= 0) {
            bytes[pending++] = (byte) it;
            taken++;
        }
        return it;
    }

    @Override
    public int read(byte[] to, int from, int n) throws IOException {
        if (isOff) {
            return in.read(to, from, n);
        }
        if (n == 0) {
            return 0;
        }
        latch();
        if (at < end || looksAhead && look()) {
            int some = judgedAhead(n);
            if (some < 0) {
                return in.read(to, from, n);
            }
            if (some > 0) {
                System.arraycopy(bytes, at - some, to, from, some);
                return some;
            }
        }
        int most = Math.min(n, WINDOW);
        room(most);
        if (scratch == null || scratch.length < most) {
            scratch = new byte[Math.max(most, 64)];
        }
        int got = in.read(scratch, 0, most); // the input may keep this array, and write to it later
        if (got > 0) {
            System.arraycopy(scratch, 0, bytes, pending, got);
            System.arraycopy(bytes, pending, to, from, got);
            pending += got;
            taken += got;
            if (pending >= ROOM) {
                judge();
            }
        }
        return got;
    }

    @Override
    public long skip(long n) throws IOException {
        if (isOff) {
            return in.skip(n);
        }
        long left = n;
        byte[] some = new byte[(int) Math.max(1, Math.min(n, ROOM))];
        while (left > 0) {
            int got = read(some, 0, (int) Math.min(left, some.length));
            if (got < 0) {
                break;
            }
            left -= got;
        }
        return n - left;
    }

    @Override
    public int available() throws IOException {
        return in.available();
    }

    @Override
    public void close() throws IOException {
        if (pending != 0 && refused == null) {
            try {
                judge(); // a reader that ended in an exception may not have come to a gate
            } catch (InvalidObjectException told) {
                // It is in the log.
            }
        }
        stream.close();
        in.close();
    }

    @Override
    public void judge() throws IOException {
        latch();
        int some = pending;
        pending = 0;
        if (some != 0 && !isOff) {
            Refused why = fed(some);
            if (why != null) {
                refuse(why, readers.isOutside(why));
            }
        }
    }

    @Override
    public void rest() throws IOException {
        if (pending != 0) {
            judge();
        }
        hadObject = true;
        stream.rest();
    }

    @Override
    public void resolve(String name) throws IOException {
        latch();
        if (asksNames) {
            Refused why = readers.name(name);
            if (why != null) {
                refuse(why, false);
            }
        }
    }

    @Override
    public void array(int length) throws IOException {
        latch();
        if (asksNames) {
            Refused why = readers.array(length);
            if (why != null) {
                refuse(why, false);
            }
        }
    }

    /** A class's own method may have caught the exception, and read on. */
    private void latch() throws InvalidObjectException {
        if (refused != null) {
            throw refused;
        }
    }

    /** Judges the first of the bytes. */
    private Refused fed(int some) throws IOException {
        try {
            return stream.feed(bytes, 0, some);
        } catch (IllegalStateException closed) {
            throw new IOException("serialcheck: the stream was closed", closed);
        }
    }

    /** Room for so many bytes more behind those that are pending. */
    private void room(int n) throws IOException {
        if (pending >= ROOM) {
            judge();
        }
        if (pending + n > bytes.length) {
            bytes = Arrays.copyOf(bytes, Math.max(pending + n, Math.min(2 * bytes.length, WINDOW)));
        }
    }

    /** Copies and judges what the input has in memory, behind what is pending. False where it has nothing there. */
    private boolean look() throws IOException {
        int there = array != null ? SerialcheckHook.there(array) : SerialcheckHook.there(buffer);
        if (there <= 0) {
            return false;
        }
        if (array == null && hadObject && !stream.isWhole()) {
            looksAhead = false; // others may read from the buffer between two objects, and a long stream cannot go back
            return false;
        }
        int some = Math.min(there, WINDOW), before = pending;
        if (before + some > bytes.length) {
            bytes = Arrays.copyOf(bytes, before + some);
        }
        if (array != null) {
            SerialcheckHook.copy(array, bytes, before, some);
        } else {
            SerialcheckHook.copy(buffer, bytes, before, some);
        }
        pending = 0;
        Refused why = fed(before + some);
        at = before;
        end = before + some;
        if (why != null && why.to() <= taken) {
            refuse(why, readers.isOutside(why)); // by a byte that the reader has; it goes on where it is only reported
            return false;
        }
        decided = why;
        if (there == some && array != null) {
            stream.close(); // an array ends there
        }
        return true;
    }

    /** Takes at most so many bytes that were judged ahead: how many; 0 where the input was moved, -1 where a refusal is only reported. */
    private int judgedAhead(int most) throws IOException {
        int some = (int) Math.min(Math.min(most, end - at), decided == null ? most : decided.to() - 1 - taken);
        if (some == 0 && (array != null ? SerialcheckHook.next(array) : SerialcheckHook.next(buffer)) == (bytes[at] & 0xff)) {
            refuse(decided, readers.isOutside(decided));
            return -1;
        }
        if (some != 0 && (array != null ? SerialcheckHook.take(array, bytes, at, some) : SerialcheckHook.take(buffer, bytes, at, some))) {
            at += some;
            taken += some;
            return some;
        }
        // Somebody else reads there too: what was judged and not read is none of this stream.
        looksAhead = false;
        decided = null;
        at = 0;
        end = 0;
        if (!stream.back(taken)) {
            pending = 1;
            throw refused = new InvalidObjectException("serialcheck: the input was moved");
        }
        return 0;
    }

    /** Refuses the stream; one that is only outside of what can be judged goes on, and its names are asked. */
    private void refuse(Refused why, boolean isOutside) throws InvalidObjectException {
        InvalidObjectException fault = readers.refuse(stream, why, isOutside);
        stream.close();
        decided = null;
        at = 0;
        end = 0;
        pending = 0;
        if (fault == null) {
            isOff = true; // it only reports
            asksNames = isOutside;
            return;
        }
        refused = fault;
        pending = 1; // each gate from now on asks, and is told again
        throw fault;
    }
}
