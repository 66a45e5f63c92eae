package serialcheck.agent;

import java.io.ObjectInputStream;
import java.io.SerialcheckHook;
import java.lang.instrument.Instrumentation;

/** Starts the agent. */
public final class Start {
    /** So many gates are in the ObjectInputStream of each JDK that was seen. One with fewer is another class. */
    private static final int LEAST_GATES = 50;

    private Start() {
    }

    /** Starts it: its words are settings. */
    public static void start(String words, Instrumentation it) throws Exception {
        Settings settings = new Settings(words);
        Readers readers = new Readers(settings);
        readers.warmUp();
        Rewriter rewriter = new Rewriter();
        it.addTransformer(rewriter, true);
        SerialcheckHook.wrapper = readers;
        it.retransformClasses(ObjectInputStream.class);
        if (rewriter.fault != null || rewriter.wraps != 1 || rewriter.resolves != 2 || rewriter.arrays != 1 || rewriter.gates < LEAST_GATES) {
            SerialcheckHook.wrapper = null;
            throw new IllegalStateException("serialcheck: the ObjectInputStream of this JDK is none that is known: " + rewriter);
        }
        settings.log.accept("serialcheck guards each ObjectInputStream, by " + rewriter.gates + " gates");
    }
}
