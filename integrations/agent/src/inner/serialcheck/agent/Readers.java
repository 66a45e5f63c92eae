package serialcheck.agent;

import java.io.BufferedInputStream;
import java.io.ByteArrayInputStream;
import java.io.DataInputStream;
import java.io.IOException;
import java.io.InputStream;
import java.io.InvalidObjectException;
import java.io.ObjectInputStream;
import java.io.SerialcheckHook;
import java.security.AccessController;
import java.security.PrivilegedAction;
import java.util.Iterator;
import java.util.Set;
import java.util.concurrent.ConcurrentHashMap;
import java.util.function.Consumer;
import java.util.function.Function;
import java.util.function.Supplier;
import java.util.stream.Stream;
import serialcheck.Guard;
import serialcheck.GuardStream;
import serialcheck.Refused;

/** What all readers of the JVM share. An application may be on the stack of each call, so what needs a permission is done as the agent's own. */
@SuppressWarnings("removal")
final class Readers implements SerialcheckHook.Wrapper {
    /** What a filter's author speaks of; every other reason is one of the form of the stream. */
    private static final Set<String> OF_THE_FILTER = Set.of("ClassRejected", "ClassUnmatched", "HiddenName", "BytesExceeded", "DepthExceeded", "RefsExceeded", "ArrayExceeded", "TooLong");

    /** Later JDKs have no security manager, and some day not even the calls. */
    private static final boolean MAY_HAVE_MANAGER = Runtime.version().feature() < 24;

    final Guard guard;
    private final boolean outsideReports;
    private final Set<String> except;
    private final Consumer<String> log;
    private final Set<String> told = ConcurrentHashMap.newKeySet();
    private final OwnForm ownForm = new OwnForm();

    /** Whether a class of readers reads a form of its own: another header, or other descriptors of classes. */
    private static final class OwnForm extends ClassValue<Boolean> {
        @Override
        protected Boolean computeValue(Class<?> kind) {
            for (Class<?> it = kind; it != ObjectInputStream.class; it = it.getSuperclass()) {
                for (String name : new String[] {"readStreamHeader", "readClassDescriptor"}) {
                    try {
                        it.getDeclaredMethod(name);
                        return true;
                    } catch (NoSuchMethodException none) {
                        continue;
                    }
                }
            }
            return false;
        }
    }

    Readers(Settings settings) throws IOException {
        guard = Guard.inside("agent", settings.guard, settings.log);
        outsideReports = settings.outsideReports;
        except = settings.except;
        log = settings.log;
    }

    /** Loads each class that a check needs, so that none is loaded within one: a class loader may read objects. */
    void warmUp() throws IOException {
        byte[] bytes = {(byte) 0xAC, (byte) 0xED, 0, 5, 0x70};
        InputStream array = new ByteArrayInputStream(bytes), buffer = new BufferedInputStream(new ByteArrayInputStream(bytes)), other = new DataInputStream(new ByteArrayInputStream(bytes));
        for (InputStream in : new InputStream[] {array, buffer, other}) {
            Checked checked = new Checked(this, in, guard.trial(), false);
            checked.readNBytes(5);
            checked.judge();
            checked.rest();
            checked.close();
        }
        name("java.lang.Object");
        array(0);
    }

    @Override
    public InputStream wrap(ObjectInputStream reader, InputStream in) {
        return isRestricted() ? AccessController.doPrivileged((PrivilegedAction<InputStream>) () -> wrapped(reader, in)) : wrapped(reader, in);
    }

    private static boolean isRestricted() {
        return MAY_HAVE_MANAGER && System.getSecurityManager() != null;
    }

    private InputStream wrapped(ObjectInputStream reader, InputStream in) {
        Class<?> kind = reader.getClass();
        if (kind != ObjectInputStream.class && except.contains(kind.getName())) {
            return in;
        }
        boolean hasOwnForm = kind != ObjectInputStream.class && ownForm.get(kind);
        if (hasOwnForm && told.add(kind.getName())) {
            log.accept("serialcheck judges only the class names and lengths of arrays of " + kind.getName() + ", which reads a form of its own");
        }
        return new Checked(this, in, guard.begin(), hasOwnForm);
    }

    @Override
    public void resolve(ObjectInputStream reader, String name) throws IOException {
        if (!except.contains(reader.getClass().getName())) {
            refuseUnwrapped(name(name));
        }
    }

    @Override
    public void array(ObjectInputStream reader, int length) throws IOException {
        if (!except.contains(reader.getClass().getName())) {
            refuseUnwrapped(array(length));
        }
    }

    private void refuseUnwrapped(Refused why) throws IOException {
        if (why != null) {
            InvalidObjectException fault = refuse(guard.begin(), why, false);
            if (fault != null) {
                throw fault;
            }
        }
    }

    Refused name(String name) {
        return isRestricted() ? AccessController.doPrivileged((PrivilegedAction<Refused>) () -> guard.name(name)) : guard.name(name);
    }

    Refused array(int length) {
        return isRestricted() ? AccessController.doPrivileged((PrivilegedAction<Refused>) () -> guard.array(length)) : guard.array(length);
    }

    /** Whether a refusal is only for the form of the stream, and passes. */
    boolean isOutside(Refused why) {
        return outsideReports && !OF_THE_FILTER.contains(why.reason());
    }

    /** Counts, logs and keeps a refusal: the exception of the reader, or null where it is only reported. */
    InvalidObjectException refuse(GuardStream stream, Refused why, boolean isOutside) {
        return isRestricted() ? AccessController.doPrivileged((PrivilegedAction<InvalidObjectException>) () -> refused(stream, why, isOutside)) : refused(stream, why, isOutside);
    }

    private static InvalidObjectException refused(GuardStream stream, Refused why, boolean isOutside) {
        try {
            if (isOutside) {
                stream.report(new Place(), why);
            } else {
                stream.refuse(new Place(), why);
            }
            return null;
        } catch (Refused refused) {
            return new InvalidObjectException("serialcheck: " + why.line()); // one of the JDK's: it may be sent to a peer that has no serialcheck
        }
    }

    /** Who reads, for the log: the first caller that is no class of the JDK or of the agent. */
    private static final class Place implements Supplier<String>, Function<Stream<StackWalker.StackFrame>, String> {
        @Override
        public String get() {
            return "a stream at " + StackWalker.getInstance(StackWalker.Option.RETAIN_CLASS_REFERENCE).walk(this);
        }

        @Override
        public String apply(Stream<StackWalker.StackFrame> all) {
            ClassLoader platform = ClassLoader.getPlatformClassLoader(), own = Readers.class.getClassLoader();
            for (Iterator<StackWalker.StackFrame> each = all.iterator(); each.hasNext(); ) {
                StackWalker.StackFrame it = each.next();
                ClassLoader loader = it.getDeclaringClass().getClassLoader();
                if (loader != null && loader != platform && loader != own) {
                    return it.getClassName() + "." + it.getMethodName() + "(" + it.getFileName() + ":" + it.getLineNumber() + ")";
                }
            }
            return "a thread of the JDK";
        }
    }
}
