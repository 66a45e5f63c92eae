package serialcheck.tomcat;

import java.io.IOException;
import org.apache.catalina.Context;
import org.apache.catalina.LifecycleException;
import org.apache.juli.logging.Log;
import serialcheck.Guard;
import serialcheck.GuardSettings;

/**
 * The settings of a guard, as attributes of an XML element. Tomcat only logs a faulty one and goes on without it, so it is kept
 * here, and is told when the guard is wanted: then the application does not start.
 */
final class Attributes {
    private final GuardSettings settings = new GuardSettings();
    private IllegalArgumentException fault;

    /** Takes an attribute that the element has no setter for; says whether it is a setting. */
    boolean set(String name, String value) {
        try {
            settings.set(name, value);
            return true;
        } catch (IllegalArgumentException faulty) {
            fault = fault == null ? faulty : fault;
            return false;
        }
    }

    /** The guard of an application, which logs where the application does. */
    Guard guard(Context context) throws LifecycleException {
        try {
            if (fault != null) {
                throw fault;
            }
            Log log = context.getLogger();
            return new Guard("tomcat " + shown(context), settings, log::warn);
        } catch (IOException | IllegalArgumentException faulty) {
            throw new LifecycleException("serialcheck: " + faulty.getMessage(), faulty);
        }
    }

    /** A session, for the log: who knows all of its id could take it over. */
    static String shown(String id, Context context) {
        return "session " + id.substring(0, Math.min(id.length(), 8)) + ".. of " + shown(context);
    }

    /** An application, for the log: the one of the server's root has no name. */
    static String shown(Context context) {
        return context.getName().isEmpty() ? "/" : context.getName();
    }
}
