package serialcheck.agent;

import java.io.FileOutputStream;
import java.io.IOException;
import java.io.InputStream;
import java.io.PrintStream;
import java.nio.charset.StandardCharsets;
import java.nio.file.Files;
import java.nio.file.Path;
import java.util.Arrays;
import java.util.HashSet;
import java.util.Properties;
import java.util.Set;
import java.util.function.Consumer;
import serialcheck.GuardSettings;

/** What the words of the agent say: settings of a guard, and those that it has itself. */
final class Settings {
    final GuardSettings guard = new GuardSettings();
    /** Classes of readers that are not guarded. */
    final Set<String> except = new HashSet<>();
    Consumer<String> log;
    /** Whether what is refused for its form is only reported. */
    boolean outsideReports;

    Settings(String words) throws IOException {
        guard.setMost(GuardSettings.NO_BOUND); // a reader may live as long as its connection
        guard.setAnywhere(false); // each name is asked where it is resolved
        log = new Lines(System.err);
        for (String word : words == null || words.isEmpty() ? new String[0] : words.split(",")) {
            int at = word.indexOf('=');
            if (at < 0) {
                throw new IllegalArgumentException("a setting is name=value: " + word);
            }
            String name = word.substring(0, at), value = word.substring(at + 1);
            if (name.equals("settings")) {
                file(value);
            } else {
                set(name, value);
            }
        }
    }

    private void file(String place) throws IOException {
        Properties named = new Properties();
        try (InputStream in = Files.newInputStream(Path.of(place))) {
            named.load(in);
        }
        for (String name : named.stringPropertyNames()) {
            set(name, named.getProperty(name));
        }
    }

    private void set(String name, String value) throws IOException {
        switch (name) {
            case "except":
                except.addAll(Arrays.asList(value.split(":")));
                break;
            case "log":
                log = value.equals("none") ? line -> { } : new Lines(new PrintStream(new FileOutputStream(value, true), true, StandardCharsets.US_ASCII));
                break;
            case "outside":
                if (!value.equals("report") && !value.equals("reject")) {
                    throw new IllegalArgumentException("outside: " + value);
                }
                outsideReports = value.equals("report");
                break;
            default:
                guard.set(name, value);
        }
    }

    /** Writes each line at once. It is no lambda, which would cost the start of the JVM some time. */
    private static final class Lines implements Consumer<String> {
        private final PrintStream out;

        Lines(PrintStream out) {
            this.out = out;
        }

        @Override
        public void accept(String line) {
            out.println(line);
        }
    }
}
