package serialcheck.agent;

import java.io.IOException;
import java.io.InputStream;
import java.io.ObjectInputStream;
import java.lang.invoke.MethodHandles;

/** Defines two classes in the package java.io, which is opened to this class's loader alone. The other classes of the agent speak of them. */
public final class Opener {
    private Opener() {
    }

    /** Defines them. */
    public static void open() throws IOException, IllegalAccessException {
        MethodHandles.Lookup io = MethodHandles.privateLookupIn(ObjectInputStream.class, MethodHandles.lookup());
        for (String name : new String[] {"SerialcheckGated", "SerialcheckHook$Wrapper", "SerialcheckHook"}) {
            try (InputStream bytes = Opener.class.getClassLoader().getResourceAsStream("boot/java/io/" + name + ".class")) {
                io.defineClass(bytes.readAllBytes());
            }
        }
    }
}
