package serialcheck.servlet;

import java.io.ByteArrayInputStream;
import java.io.ByteArrayOutputStream;
import java.io.EOFException;
import java.io.FilterInputStream;
import java.io.IOException;
import java.io.InputStream;
import java.io.SequenceInputStream;
import java.util.function.Supplier;
import java.util.zip.GZIPInputStream;
import java.util.zip.ZipException;
import serialcheck.Guard;

/**
 * A body behind gzip, which the application would decompress: it is judged if its first bytes are those of a stream, or of gzip again,
 * or if it cannot be decompressed, which another decompressor may do all the same. So these last two are refused.
 */
final class Zipped {
    private Zipped() {
    }

    static boolean isZipped(byte[] front) {
        return front.length > 1 && front[0] == 0x1F && front[1] == (byte) 0x8B;
    }

    /** The body as it came, where what it spells is admitted, or is no stream to any reader. */
    static InputStream judged(Guard guard, Supplier<String> what, InputStream in) throws IOException {
        Kept front = new Kept(in, guard.most());
        if (!isToBeJudged(front)) {
            return front.again();
        }
        // All of it, before it is inflated: where one part of it ends and the next has not come, a decompressor may stop.
        Kept whole = new Kept(front.again(), Integer.MAX_VALUE);
        byte[] zipped = guard.read(what, whole);
        if (zipped != null) {
            byte[] bytes = guard.inflate(what, () -> new GZIPInputStream(new ByteArrayInputStream(zipped)));
            if (bytes != null) {
                guard.check(what, bytes);
            }
        }
        return whole.again();
    }

    /** Whether the first bytes that come out of it could be those of a stream: it reads no further than it must, or may. */
    private static boolean isToBeJudged(Kept in) throws IOException {
        try {
            byte[] front = new GZIPInputStream(in).readNBytes(2);
            return front.length < 2 ? in.isFull() : Guard.isStream(front, front.length) || isZipped(front);
        } catch (ZipException | EOFException damaged) {
            return true;
        }
    }

    /** An input that keeps what was read of it, and ends where that is as much as it may keep. */
    private static final class Kept extends FilterInputStream {
        private final ByteArrayOutputStream read = new ByteArrayOutputStream();
        private final int most;

        Kept(InputStream in, int most) {
            super(in);
            this.most = most;
        }

        boolean isFull() {
            return read.size() >= most;
        }

        @Override
        public int read() throws IOException {
            byte[] one = new byte[1];
            return read(one, 0, 1) < 0 ? -1 : one[0] & 0xFF;
        }

        @Override
        public int read(byte[] bytes, int from, int length) throws IOException {
            int count = isFull() ? -1 : super.read(bytes, from, Math.min(length, most - read.size()));
            read.write(bytes, from, Math.max(count, 0));
            return count;
        }

        /** More may come: a decompressor that is told of no more stops behind a part, though the next one is on its way. */
        @Override
        public int available() {
            return 1;
        }

        /** The input from its beginning. */
        InputStream again() {
            return new SequenceInputStream(new ByteArrayInputStream(read.toByteArray()), in);
        }
    }
}
