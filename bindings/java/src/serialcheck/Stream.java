package serialcheck;

import java.lang.ref.Cleaner;
import java.lang.ref.Reference;
import java.util.concurrent.atomic.AtomicInteger;

/**
 * A check of one stream that comes in pieces of any sizes: {@link #feed(byte[])} each, then {@link #end()}. Act on no byte before
 * {@code end} has returned. Calls of several threads wait for each other.
 */
public final class Stream implements AutoCloseable {
    private static final AtomicInteger HELD = new AtomicInteger();

    private final Held held;
    private final Cleaner.Cleanable cleanable;

    /** The native stream. It refers to no Stream, so that the cleaner may run. */
    private static final class Held implements Runnable {
        private long handle;
        private long taken;
        private String className;

        Held(long handle) {
            this.handle = handle;
            HELD.incrementAndGet();
        }

        @Override
        public synchronized void run() {
            Native.streamFree(handle);
            handle = 0;
            HELD.decrementAndGet();
        }

        /** Returns how many bytes were taken in all. It makes no object before something is refused. */
        synchronized long feed(byte[] bytes, int from, int length) throws Refused {
            int status = Native.streamFeed(handle, bytes, from, length);
            if (status != Answer.MORE) {
                fail(status);
            }
            return taken += length;
        }

        private void fail(int status) throws Refused {
            Answer answer = new Answer();
            answer.words[0] = status;
            if (status == Answer.NO) {
                answer.className = className = Native.streamAnswer(handle, answer.words);
            }
            answer.want(Answer.MORE);
        }

        synchronized void end(Answer answer) {
            Native.streamEnd(handle, answer.words);
            answer.className = className;
        }
    }

    Stream(long handle) {
        held = new Held(handle);
        cleanable = Filter.register(this, held);
    }

    /**
     * Takes the next bytes. Where it returns, they decide nothing, and no object was made.
     *
     * @param bytes the next piece
     * @return how many bytes it has taken in all
     * @throws Refused where a byte of this piece, or of one before it, decides, whatever comes next
     * @throws IllegalStateException where the stream was ended or closed
     */
    public long feed(byte[] bytes) throws Refused {
        return feed(bytes, 0, bytes.length);
    }

    /**
     * Takes the next bytes, from a part of an array. Where it returns, they decide nothing, and no object was made.
     *
     * @param bytes where the piece is
     * @param from the offset of its first byte
     * @param length how many bytes it has
     * @return how many bytes the stream has taken in all
     * @throws Refused where a byte of this piece, or of one before it, decides, whatever comes next
     * @throws IndexOutOfBoundsException where the array has no such part
     * @throws IllegalStateException where the stream was ended or closed
     */
    public long feed(byte[] bytes, int from, int length) throws Refused {
        java.util.Objects.checkFromIndexSize(from, length, bytes.length);
        try {
            return held.feed(bytes, from, length);
        } finally {
            Reference.reachabilityFence(this); // else the cleaner could free a stream whose last call is this one
        }
    }

    /**
     * Ends the stream: answers what a check of all its bytes at once would.
     *
     * @return the stream's counts
     * @throws Refused where the bytes are no stream that the filter admits
     * @throws IllegalStateException where the stream was ended or closed
     */
    public Report end() throws Refused {
        Answer answer = new Answer();
        try {
            held.end(answer);
        } finally {
            Reference.reachabilityFence(this);
        }
        return answer.report();
    }

    /** How many streams have native memory, or had some until their end and are not closed. */
    static int held() {
        return HELD.get();
    }

    /** Lets the stream go, if it was not ended. One that is forgotten is let go some time after it was last used. */
    @Override
    public void close() {
        cleanable.clean();
    }
}
