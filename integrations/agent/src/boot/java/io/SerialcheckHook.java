package java.io;

import java.lang.invoke.MethodHandle;
import java.lang.invoke.MethodHandles;
import java.lang.invoke.MethodType;
import java.util.Arrays;

/** What the rewritten ObjectInputStream calls. The agent defines it in the package java.io by a Lookup, so no jar is on the boot class path. */
public final class SerialcheckHook {
    /** What the agent does about readers. */
    public interface Wrapper {
        /** The input for a new reader. */
        InputStream wrap(ObjectInputStream reader, InputStream in) throws IOException;

        /** A name that a reader resolves which was open before the agent came. */
        void resolve(ObjectInputStream reader, String name) throws IOException;

        /** An array that such a reader makes. */
        void array(ObjectInputStream reader, int length) throws IOException;
    }

    /** Null until the agent has started, and all is as without it. */
    public static volatile Wrapper wrapper;

    /** From a reader to its `bin`, and from that to the input that it was made with. */
    private static final MethodHandle BIN, INPUT;

    static {
        try {
            MethodHandles.Lookup lookup = MethodHandles.lookup();
            Class<?> block = Class.forName("java.io.ObjectInputStream$BlockDataInputStream"), peek = Class.forName("java.io.ObjectInputStream$PeekInputStream");
            MethodHandle outer = MethodHandles.privateLookupIn(block, lookup).findGetter(block, "in", peek);
            MethodHandle inner = MethodHandles.privateLookupIn(peek, lookup).findGetter(peek, "in", InputStream.class);
            INPUT = MethodHandles.filterReturnValue(outer, inner).asType(MethodType.methodType(InputStream.class, Object.class));
            BIN = MethodHandles.privateLookupIn(ObjectInputStream.class, lookup).findGetter(ObjectInputStream.class, "bin", block).asType(MethodType.methodType(Object.class, ObjectInputStream.class));
        } catch (ReflectiveOperationException otherJdk) {
            throw new IllegalStateException("serialcheck: the ObjectInputStream of this JDK is none that is known: " + otherJdk, otherJdk);
        }
    }

    private SerialcheckHook() {
    }

    /** First in the constructor of ObjectInputStream, behind that of its superclass. */
    public static InputStream wrap(ObjectInputStream reader, InputStream in) throws IOException {
        Wrapper it = wrapper;
        return it == null || in == null ? in : it.wrap(reader, in);
    }

    /** Before each thing that a reader does with what it read. `bin` is null in a subclass that reads by means of its own. */
    public static void gate(Object bin) throws IOException {
        SerialcheckGated gated = gated(bin);
        if (gated != null && gated.pending != 0) {
            gated.judge();
        }
    }

    /** Where readObject returns an object: at depth 0 it is the outermost one. */
    public static void done(Object bin, long depth) throws IOException {
        SerialcheckGated gated = gated(bin);
        if (gated == null) {
            return;
        }
        if (depth == 0) {
            gated.rest();
        } else if (gated.pending != 0) {
            gated.judge();
        }
    }

    /** Before resolveClass. */
    public static void resolve(ObjectInputStream reader, ObjectStreamClass described) throws IOException {
        if (described != null) {
            ask(reader, gated(bin(reader)), described.getName());
        }
    }

    /** Behind resolveClass and resolveProxyClass: a subclass may have found a class of another name. */
    public static Class<?> resolved(ObjectInputStream reader, Class<?> found) throws IOException {
        if (found != null) {
            SerialcheckGated gated = gated(bin(reader));
            if (java.lang.reflect.Proxy.isProxyClass(found)) {
                for (Class<?> each : found.getInterfaces()) {
                    ask(reader, gated, each.getName());
                }
            } else {
                ask(reader, gated, found.getName());
            }
        }
        return found;
    }

    /** Before resolveProxyClass. */
    public static void resolve(ObjectInputStream reader, String[] names) throws IOException {
        SerialcheckGated gated = gated(bin(reader));
        for (String name : names) {
            ask(reader, gated, name);
        }
    }

    /** In readArray, where the length was read. */
    public static int array(int length, ObjectInputStream reader) throws IOException {
        SerialcheckGated gated = gated(bin(reader));
        if (gated != null) {
            if (gated.pending != 0) {
                gated.judge();
            }
            gated.array(length);
        } else if (wrapper != null) {
            wrapper.array(reader, length);
        }
        return length;
    }

    private static void ask(ObjectInputStream reader, SerialcheckGated gated, String name) throws IOException {
        if (gated != null) {
            gated.resolve(name);
        } else if (wrapper != null) { // it was open before the agent came
            wrapper.resolve(reader, name);
        }
    }

    private static Object bin(ObjectInputStream reader) {
        try {
            return (Object) BIN.invokeExact(reader);
        } catch (Throwable impossible) {
            throw new InternalError(impossible);
        }
    }

    private static SerialcheckGated gated(Object bin) {
        if (bin == null) {
            return null;
        }
        try {
            InputStream in = (InputStream) INPUT.invokeExact(bin);
            return in instanceof SerialcheckGated ? (SerialcheckGated) in : null;
        } catch (Throwable impossible) {
            throw new InternalError(impossible);
        }
    }

    /** How many bytes an input has in memory. */
    public static int there(ByteArrayInputStream in) {
        return in.count - in.pos;
    }

    /** The same. */
    public static int there(BufferedInputStream in) {
        return in.buf == null ? 0 : in.count - in.pos;
    }

    /** What comes next in memory, or -1. */
    public static int next(ByteArrayInputStream in) {
        return there(in) > 0 ? in.buf[in.pos] & 0xff : -1;
    }

    /** The same. */
    public static int next(BufferedInputStream in) {
        return there(in) > 0 ? in.buf[in.pos] & 0xff : -1;
    }

    /** Copies what comes next, and takes nothing. There are so many bytes. */
    public static void copy(ByteArrayInputStream in, byte[] to, int from, int n) {
        System.arraycopy(in.buf, in.pos, to, from, n);
    }

    /** The same. */
    public static void copy(BufferedInputStream in, byte[] to, int from, int n) {
        System.arraycopy(in.buf, in.pos, to, from, n);
    }

    /** Takes what comes next, if it is this. */
    public static boolean take(ByteArrayInputStream in, byte[] wanted, int from, int n) {
        int at = in.pos;
        if (in.count - at < n || !Arrays.equals(in.buf, at, at + n, wanted, from, from + n)) {
            return false;
        }
        in.pos = at + n;
        return true;
    }

    /** The same. */
    public static boolean take(BufferedInputStream in, byte[] wanted, int from, int n) {
        byte[] buf = in.buf;
        int at = in.pos;
        if (buf == null || in.count - at < n || !Arrays.equals(buf, at, at + n, wanted, from, from + n)) {
            return false;
        }
        in.pos = at + n;
        return true;
    }
}
