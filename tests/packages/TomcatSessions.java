import java.io.IOException;
import java.io.ObjectInputStream;
import java.io.Serializable;
import java.util.ArrayList;
import java.util.Arrays;
import java.util.List;
import org.apache.catalina.Session;
import org.apache.catalina.core.StandardContext;
import org.apache.catalina.session.FileStore;
import org.apache.catalina.session.PersistentManager;
import org.apache.catalina.session.StandardSession;

/** Has Tomcat's own FileStore write sessions, `write FOLDER`, or load all that are there, `load FOLDER`, and prints what they hold. */
public final class TomcatSessions {
    /** Harmless, but its code runs while it is read: what a gadget does. */
    static final class Gadget implements Serializable {
        private static final long serialVersionUID = 1;

        private void readObject(ObjectInputStream in) throws IOException, ClassNotFoundException {
            in.defaultReadObject();
            System.out.println("a gadget ran");
        }
    }

    public static void main(String[] words) throws Exception {
        PersistentManager manager = new PersistentManager();
        manager.setContext(new StandardContext());
        FileStore store = new FileStore();
        store.setDirectory(words[1]);
        store.setManager(manager);
        if (words[0].equals("write")) {
            write(store, manager, "ann", new ArrayList<>(List.of(1, 2)));
            write(store, manager, "bob", new Gadget());
        } else {
            String[] ids = store.keys();
            Arrays.sort(ids);
            for (String id : ids) {
                Session session = store.load(id);
                System.out.println(id + ": " + session.getSession().getAttribute("cart"));
            }
        }
    }

    private static void write(FileStore store, PersistentManager manager, String id, Serializable cart) throws IOException {
        StandardSession session = (StandardSession) manager.createEmptySession();
        session.setId(id, false);
        session.setCreationTime(System.currentTimeMillis());
        session.setValid(true);
        session.setAttribute("cart", cart, false);
        store.save(session);
    }
}
