package serialcheck.servlet;

import jakarta.servlet.ReadListener;
import jakarta.servlet.ServletInputStream;
import java.io.IOException;
import java.io.InputStream;

/** A body for the application. It waits for bytes as they come; an application that wants to be called back cannot use it. */
final class Body extends ServletInputStream {
    private final InputStream in;
    private boolean isFinished;

    Body(InputStream in) {
        this.in = in;
    }

    @Override
    public int read() throws IOException {
        int one = in.read();
        isFinished |= one < 0;
        return one;
    }

    @Override
    public int read(byte[] bytes, int from, int length) throws IOException {
        int count = in.read(bytes, from, length);
        isFinished |= count < 0;
        return count;
    }

    @Override
    public int available() throws IOException {
        return in.available();
    }

    @Override
    public boolean isFinished() {
        return isFinished;
    }

    @Override
    public boolean isReady() {
        return true;
    }

    @Override
    public void setReadListener(ReadListener listener) {
        throw new IllegalStateException("serialcheck: a body that is checked cannot be read by a listener");
    }
}
