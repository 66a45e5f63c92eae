import java.lang.reflect.Array;
import java.lang.reflect.InvocationTargetException;
import java.net.MalformedURLException;
import java.net.URL;
import java.net.URLClassLoader;
import java.nio.file.Files;
import java.nio.file.Path;

/**
 * Has the jar in several class loaders of one JVM, as a server and its web applications have: Loaders JAR FILE. Prints what each
 * answers of the file.
 */
public final class Loaders {
    public static void main(String[] words) throws Exception {
        byte[] bytes = Files.readAllBytes(Path.of(words[1]));
        try (URLClassLoader server = own(words[0]); URLClassLoader one = own(words[0]); URLClassLoader two = own(words[0]); URLClassLoader lent = new URLClassLoader(new URL[0], server)) {
            System.out.println("the server: " + answer(server, bytes));
            System.out.println("an application: " + answer(one, bytes));
            System.out.println("a second one: " + answer(two, bytes));
            System.out.println("one with the classes of the server: " + answer(lent, bytes));
            System.out.println("the server again: " + answer(server, bytes));
        }
    }

    private static URLClassLoader own(String jar) throws MalformedURLException {
        return new URLClassLoader(new URL[] {Path.of(jar).toUri().toURL()}, ClassLoader.getPlatformClassLoader());
    }

    private static Object answer(ClassLoader loader, byte[] bytes) throws ReflectiveOperationException {
        Class<?> filter = loader.loadClass("serialcheck.Filter");
        Object flags = Array.newInstance(loader.loadClass("serialcheck.Flag"), 0);
        try (AutoCloseable made = (AutoCloseable) filter.getConstructor(String.class, flags.getClass()).newInstance("", flags)) {
            return filter.getMethod("check", byte[].class).invoke(made, bytes);
        } catch (InvocationTargetException fault) {
            return fault.getCause();
        } catch (Exception fault) {
            return fault;
        }
    }
}
