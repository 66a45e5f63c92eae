package serialcheck.tomcat;

import java.io.File;
import java.io.IOException;
import java.io.InputStream;
import java.io.ObjectInputStream;
import java.nio.file.Files;
import org.apache.catalina.Context;
import org.apache.catalina.LifecycleException;
import org.apache.catalina.session.StandardManager;
import org.apache.catalina.session.StandardSession;
import org.apache.catalina.util.CustomObjectInputStream;
import serialcheck.Guard;
import serialcheck.Refused;

/**
 * Tomcat's StandardManager, which keeps all sessions of an application in one file while it restarts, with a check of this file. The
 * sessions are read from the bytes that were checked, in memory: whoever can write to the folder of the file could put another in
 * the place of a copy. A refused file is gone, and all sessions are new.
 */
public final class CheckedManager extends StandardManager {
    private final Attributes attributes = new Attributes();
    private Guard guard;

    /** Makes a manager, whose attributes come next. */
    public CheckedManager() {
    }

    /** The settings of the check, by their names. */
    public boolean setProperty(String name, String value) {
        return attributes.set(name, value);
    }

    @Override
    protected void startInternal() throws LifecycleException {
        guard = attributes.guard(getContext());
        super.startInternal();
    }

    @Override
    protected void stopInternal() throws LifecycleException {
        super.stopInternal();
        guard.close();
    }

    @Override
    protected void doLoad() throws ClassNotFoundException, IOException {
        File stored = file();
        if (stored == null || !stored.isFile()) {
            return;
        }
        try (InputStream in = Files.newInputStream(stored.toPath())) {
            read(guard.open(() -> "the sessions of " + Attributes.shown(getContext()), in));
        } catch (Refused why) {
            return; // the guard has logged it
        } finally {
            Files.deleteIfExists(stored.toPath()); // as Tomcat does, whatever it has read of it
        }
    }

    /** Reads the sessions, as Tomcat does, with the classes of the application. */
    private void read(InputStream bytes) throws ClassNotFoundException, IOException {
        Context context = getContext();
        ClassLoader classes = context.getLoader() == null ? getClass().getClassLoader() : context.getLoader().getClassLoader();
        sessions.clear();
        synchronized (sessions) {
            try (ObjectInputStream in = new CustomObjectInputStream(bytes, classes, context.getLogger(),
                getSessionAttributeValueClassNamePattern(), getWarnOnSessionAttributeFilterFailure())) {
                int count = (Integer) in.readObject();
                for (int i = 0; i < count; i++) {
                    StandardSession session = getNewSession();
                    session.readObjectData(in);
                    session.setManager(this);
                    sessions.put(session.getIdInternal(), session);
                    session.activate();
                    letGoIfOver(session);
                }
                setSessionCounter(getSessionCounter() + count);
            }
        }
    }

    /** Expires a session that was no longer valid when it was stored, so that it does not stay. One whose time is up goes by itself. */
    private void letGoIfOver(StandardSession session) throws IOException {
        if (!session.isValid() && findSession(session.getIdInternal()) != null) {
            session.setValid(true);
            session.expire();
        }
    }
}
