package serialcheck.tomcat;

import java.io.IOException;
import java.io.InputStream;
import java.io.ObjectInputStream;
import org.apache.catalina.LifecycleException;
import org.apache.catalina.Session;
import org.apache.catalina.session.DataSourceStore;
import serialcheck.Guard;
import serialcheck.Refused;

/** Tomcat's DataSourceStore with a check of what it loads: the same table and attributes. A refused session is none, and its row is gone. */
public final class CheckedDataSourceStore extends DataSourceStore {
    private final Attributes attributes = new Attributes();
    /** The session that a thread loads, for the log. */
    private final ThreadLocal<String> loading = new ThreadLocal<>();
    private Guard guard;

    /** Makes a store, whose attributes come next. */
    public CheckedDataSourceStore() {
    }

    /** The settings of the check, by their names. */
    public boolean setProperty(String name, String value) {
        return attributes.set(name, value);
    }

    @Override
    protected void startInternal() throws LifecycleException {
        guard = attributes.guard(manager.getContext());
        super.startInternal();
    }

    @Override
    protected void stopInternal() throws LifecycleException {
        super.stopInternal();
        guard.close();
    }

    @Override
    public Session load(String id) throws ClassNotFoundException, IOException {
        loading.set(id);
        try {
            return super.load(id);
        } catch (Refused why) {
            remove(id);
            return null;
        } finally {
            loading.remove();
        }
    }

    @Override
    protected ObjectInputStream getObjectInputStream(InputStream in) throws IOException {
        String id = loading.get();
        return super.getObjectInputStream(guard.open(() -> Attributes.shown(id, manager.getContext()), in));
    }
}
