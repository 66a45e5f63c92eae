package serialcheck.tomcat;

import java.io.File;
import java.io.IOException;
import java.io.InputStream;
import java.io.ObjectInputStream;
import java.nio.file.Files;
import java.nio.file.InvalidPathException;
import java.nio.file.LinkOption;
import java.nio.file.NoSuchFileException;
import java.nio.file.Path;
import org.apache.catalina.Context;
import org.apache.catalina.LifecycleException;
import org.apache.catalina.Session;
import org.apache.catalina.core.StandardContext;
import org.apache.catalina.session.FileStore;
import org.apache.catalina.session.StandardSession;
import org.apache.catalina.session.StoreBase;
import serialcheck.Guard;
import serialcheck.Refused;

/**
 * Tomcat's FileStore, which is final, with a check of what it loads: the same files, and the same attribute {@code directory}. A
 * refused session is none, and its file is gone.
 */
public final class CheckedFileStore extends StoreBase {
    /** A session is read and written under one of so many locks. */
    private static final int LOCKS = 64;

    private final Attributes attributes = new Attributes();
    private final FileStore files = new FileStore();
    private final Object[] locks = new Object[LOCKS];
    private String directory = ".";
    private Path folder;
    private Guard guard;

    /** Makes a store, whose attributes come next. */
    public CheckedFileStore() {
        for (int i = 0; i < LOCKS; i++) {
            locks[i] = new Object();
        }
    }

    /** The folder of the files; a relative one is below the application's work folder. */
    public void setDirectory(String directory) {
        this.directory = directory;
    }

    /** The settings of the check, by their names. */
    public boolean setProperty(String name, String value) {
        return attributes.set(name, value);
    }

    @Override
    public String getStoreName() {
        return "serialcheck";
    }

    @Override
    protected void startInternal() throws LifecycleException {
        Context context = manager.getContext();
        File given = new File(directory);
        folder = (given.isAbsolute() ? given : new File(((StandardContext) context).getWorkPath(), directory)).toPath().toAbsolutePath().normalize();
        files.setDirectory(folder.toString());
        files.setManager(manager);
        guard = attributes.guard(context);
        super.startInternal();
    }

    @Override
    protected void stopInternal() throws LifecycleException {
        super.stopInternal();
        guard.close();
    }

    @Override
    public Session load(String id) throws ClassNotFoundException, IOException {
        Path file = file(id);
        if (file == null) {
            return null;
        }
        synchronized (lock(id)) {
            try (InputStream in = Files.newInputStream(file, LinkOption.NOFOLLOW_LINKS)) {
                return session(guard.open(() -> Attributes.shown(id, manager.getContext()), in));
            } catch (NoSuchFileException none) {
                return null;
            } catch (Refused why) {
                files.remove(id);
                return null;
            }
        }
    }

    @Override
    public void save(Session session) throws IOException {
        synchronized (lock(session.getIdInternal())) {
            files.save(session);
        }
    }

    @Override
    public void remove(String id) throws IOException {
        synchronized (lock(id)) {
            files.remove(id);
        }
    }

    @Override
    public void clear() throws IOException {
        files.clear();
    }

    @Override
    public String[] keys() throws IOException {
        return files.keys();
    }

    @Override
    public int getSize() throws IOException {
        return files.getSize();
    }

    /** The file of a session, or null for an id that no session has: a stranger chooses it, and it may name another folder. */
    private Path file(String id) {
        try {
            Path file = folder.resolve(id + ".session").normalize();
            return folder.equals(file.getParent()) ? file : null;
        } catch (InvalidPathException noName) {
            return null;
        }
    }

    private Object lock(String id) {
        return locks[Math.floorMod(id.hashCode(), LOCKS)];
    }

    /** Reads a session, as Tomcat's stores do, with the classes of the application. */
    private Session session(InputStream bytes) throws ClassNotFoundException, IOException {
        Context context = manager.getContext();
        ClassLoader before = context.bind(false, null);
        try (ObjectInputStream in = getObjectInputStream(bytes)) {
            StandardSession session = (StandardSession) manager.createEmptySession();
            session.readObjectData(in);
            session.setManager(manager);
            return session;
        } finally {
            context.unbind(false, before);
        }
    }
}
