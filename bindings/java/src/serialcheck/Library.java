package serialcheck;

import java.io.File;
import java.io.IOException;
import java.io.InputStream;
import java.nio.file.FileAlreadyExistsException;
import java.nio.file.FileSystems;
import java.nio.file.Files;
import java.nio.file.Path;
import java.nio.file.attribute.PosixFilePermissions;
import java.util.Locale;

/**
 * The native library, which each class loader that has this class loads once: the file that the property names; else one of the
 * library path; else that of the jar. A JVM loads a file for one class loader alone, so where another one has it, a copy is loaded.
 */
final class Library {
    static final String PROPERTY = "serialcheck.library";
    private static final String NAME = "serialcheck_jni";
    static final String MACHINE = machine();
    private static final String IN_JAR = "/serialcheck/" + MACHINE + "/" + System.mapLibraryName(NAME);

    private static boolean isLoaded;

    private Library() {
    }

    /** Loads the library, where this class loader has not. */
    static synchronized void need() {
        if (!isLoaded) {
            load();
            if (!isOfThisVersion()) {
                throw new UnsatisfiedLinkError("serialcheck: the native library that was found is of another version than these classes. Take it out of java.library.path, or name "
                    + "the right one: -D" + PROPERTY + "=/path/to/" + System.mapLibraryName(NAME));
            }
            if (MACHINE.startsWith("macos-")) {
                Trial.run();
            }
            isLoaded = true;
        }
    }

    private static boolean isOfThisVersion() {
        try {
            return Native.words() == Answer.WORDS && Native.version() > 0;
        } catch (UnsatisfiedLinkError older) {
            return false;
        }
    }

    private static void load() {
        String named = System.getProperty(PROPERTY);
        if (named != null) {
            loadOrCopy(Path.of(named).toAbsolutePath());
        } else if (!loadOnPath()) {
            loadInJar();
        }
    }

    /** Loads the library of the library path; false where there is none. */
    private static boolean loadOnPath() {
        try {
            System.loadLibrary(NAME);
            return true;
        } catch (UnsatisfiedLinkError notFoundOrLoaded) {
            for (String folder : System.getProperty("java.library.path", "").split(File.pathSeparator)) {
                Path file = Path.of(folder, System.mapLibraryName(NAME)).toAbsolutePath();
                if (!folder.isEmpty() && Files.isRegularFile(file)) {
                    loadOrCopy(file);
                    return true;
                }
            }
            return false;
        }
    }

    /** Loads a file, or a copy of it where another class loader has it. */
    private static void loadOrCopy(Path file) {
        try {
            System.load(file.toString());
        } catch (UnsatisfiedLinkError first) {
            if (!Files.isRegularFile(file)) {
                throw first;
            }
            try (InputStream bytes = Files.newInputStream(file)) {
                loadCopy(bytes, file.toString());
            } catch (IOException fault) {
                throw first;
            }
        }
    }

    private static void loadInJar() {
        try (InputStream bytes = Library.class.getResourceAsStream(IN_JAR)) {
            if (bytes == null) {
                throw failure("the jar has no native code for " + System.getProperty("os.name") + " on " + System.getProperty("os.arch"), null);
            }
            loadCopy(bytes, IN_JAR);
        } catch (IOException fault) {
            throw failure("the jar cannot be read", fault);
        }
    }

    /** The folder of the jar that has the library for this machine: a system and a processor. */
    private static String machine() {
        String system = System.getProperty("os.name", "").toLowerCase(Locale.ROOT);
        String processor = System.getProperty("os.arch", "").toLowerCase(Locale.ROOT);
        if (system.startsWith("windows")) {
            system = "windows";
        } else if (system.startsWith("mac")) {
            system = "macos";
        }
        if (processor.equals("amd64")) {
            processor = "x86_64";
        }
        return system + "-" + processor;
    }

    /** A new folder that no other user may enter; on Windows, which has no such modes, it is in a folder of this user's own. */
    private static Path newFolder() throws IOException {
        if (!FileSystems.getDefault().supportedFileAttributeViews().contains("posix")) {
            return Files.createTempDirectory("serialcheck-");
        }
        for (long number = System.nanoTime(); ; number++) { // a folder that is there is not taken; random numbers would cost a JVM much of its start
            try {
                return Files.createDirectory(Path.of(System.getProperty("java.io.tmpdir"), "serialcheck-" + number), PosixFilePermissions.asFileAttribute(PosixFilePermissions.fromString("rwx------")));
            } catch (FileAlreadyExistsException taken) {
                continue;
            }
        }
    }

    /** Loads a copy of a library: the only file of a new folder. */
    private static void loadCopy(InputStream bytes, String name) {
        try {
            Path folder = newFolder();
            Path copy = folder.resolve(System.mapLibraryName(NAME));
            try {
                Files.copy(bytes, copy);
                System.load(copy.toString());
            } finally {
                delete(folder, copy);
            }
        } catch (IOException | UnsupportedOperationException | UnsatisfiedLinkError fault) {
            throw failure("a copy of " + name + " cannot be loaded", fault);
        }
    }

    /** Deletes a file and its folder, which the JVM no longer needs by their names; or at its end, where one cannot be deleted yet. */
    private static void delete(Path folder, Path copy) {
        try {
            Files.deleteIfExists(copy);
            Files.delete(folder);
        } catch (IOException inUse) {
            folder.toFile().deleteOnExit();
            copy.toFile().deleteOnExit(); // what is told last goes first
        }
    }

    /** An error that says what to do. */
    private static UnsatisfiedLinkError failure(String what, Throwable why) {
        UnsatisfiedLinkError error = new UnsatisfiedLinkError(String.format(Locale.ROOT, "serialcheck: %s%s. The jar has libraries for Linux on x86-64 and aarch64, for Windows on x86-64 and for macOS on "
            + "arm64, and this is %s. One is taken out to the folder java.io.tmpdir, whose files must be allowed to run. Else name one: -D%s=/path/to/%s",
            what, why == null ? "" : " (" + why + ")", MACHINE, PROPERTY, System.mapLibraryName(NAME)));
        error.initCause(why);
        return error;
    }
}
