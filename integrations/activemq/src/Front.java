package serialcheck.activemq;

import java.io.FilterInputStream;
import java.io.IOException;
import java.io.InputStream;

/** The first bytes of an input, and no more: a compressed bytes message has its length, and may have other bytes behind. */
final class Front extends FilterInputStream {
    private int left;

    Front(InputStream in, int length) {
        super(in);
        left = length;
    }

    @Override
    public int read() throws IOException {
        byte[] one = new byte[1];
        return read(one, 0, 1) < 0 ? -1 : one[0] & 0xFF;
    }

    @Override
    public int read(byte[] bytes, int from, int length) throws IOException {
        if (left <= 0 && length > 0) {
            return -1;
        }
        int read = super.read(bytes, from, Math.min(length, left));
        left -= Math.max(read, 0);
        return read;
    }
}
