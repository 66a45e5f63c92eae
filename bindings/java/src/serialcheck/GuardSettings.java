package serialcheck;

import java.nio.file.Path;
import java.util.EnumSet;
import java.util.Locale;

/**
 * The settings of a {@link Guard}, by the names that all integrations give them: each has a setter, for frameworks that fill in
 * beans, and {@link #set(String, String)} takes them by name. They are read when the guard is made; after that only the text of
 * the filter's file may change.
 */
public final class GuardSettings {
    /** What becomes of bytes that are refused. */
    public enum OnRefusal {
        /** They are not handed on, and their sender or reader is told. */
        REJECT,
        /** They are not handed on, their sender or reader is told, and they are kept aside, where nothing reads objects. */
        QUARANTINE,
        /** They are handed on, and counted and logged as refused: to try a filter out. It guards nothing. */
        REPORT
    }

    /** In place of a number of bytes: there may be any number. */
    public static final int NO_BOUND = Integer.MAX_VALUE;

    private String filter;
    private String modules;
    private String filterFile;
    private boolean strict;
    private boolean anywhere = true;
    private int most = 1 << 20;
    private OnRefusal onRefusal = OnRefusal.REJECT;
    private String quarantine;

    /** Makes settings that lack a filter. */
    public GuardSettings() {
    }

    /**
     * Sets the filter's text. A guard needs this or a file, and a pattern in it.
     *
     * @param text as {@code ObjectInputFilter.Config.createFilter} takes it, read as a filter's file is (docs/FILTERS.md): a blank or
     *     an unseen character at an end of a piece is a fault
     */
    public void setFilter(String text) {
        filter = text;
    }

    /**
     * Sets the file of the filter, which is read again while the guard works, when it changed.
     *
     * @param file a path; its text is that of the program's {@code --filter-file}
     */
    public void setFilterFile(String file) {
        filterFile = file;
    }

    /**
     * Sets the file of a table of modules, for a filter that names modules. It is read with the filter.
     *
     * @param file a path; its text is that of the program's {@code --modules}
     */
    public void setModules(String file) {
        modules = file;
    }

    /**
     * Sets whether a class that no pattern matches is refused.
     *
     * @param strict false if not set
     */
    public void setStrict(boolean strict) {
        this.strict = strict;
    }

    /**
     * Sets whether the filter is asked about every class name that can be read at any place of the bytes.
     *
     * @param anywhere true if not set
     */
    public void setAnywhere(boolean anywhere) {
        this.anywhere = anywhere;
    }

    /**
     * Sets how long a stream may be, decompressed; a longer one is refused. A check may hold a copy of the stream.
     *
     * @param bytes 1,048,576 if not set; {@link #NO_BOUND}, by name {@code none}: a stream may have any length
     * @throws IllegalArgumentException where it is less than 1
     */
    public void setMost(int bytes) {
        if (bytes < 1) {
            throw new IllegalArgumentException("most: " + bytes);
        }
        most = bytes;
    }

    /**
     * Sets what becomes of bytes that are refused.
     *
     * @param word {@code reject} (if not set), {@code quarantine} or {@code report}
     * @throws IllegalArgumentException where it is another word
     */
    public void setOnRefusal(String word) {
        for (OnRefusal it : OnRefusal.values()) {
            if (it.name().toLowerCase(Locale.ROOT).equals(word)) {
                onRefusal = it;
                return;
            }
        }
        throw new IllegalArgumentException("onRefusal: " + word);
    }

    /**
     * Sets where refused bytes are kept with {@code quarantine}.
     *
     * @param place the path of a folder, which is made; an integration may take another kind of place
     */
    public void setQuarantine(String place) {
        quarantine = place;
    }

    /**
     * Sets one of them by its name, such as {@code onRefusal}.
     *
     * @param name the setter's name without {@code set}
     * @param value its text
     * @throws IllegalArgumentException where there is no such setting, or it has no such value
     */
    public void set(String name, String value) {
        switch (name) {
            case "filter":
                setFilter(value);
                break;
            case "filterFile":
                setFilterFile(value);
                break;
            case "modules":
                setModules(value);
                break;
            case "strict":
                setStrict(truth(name, value));
                break;
            case "anywhere":
                setAnywhere(truth(name, value));
                break;
            case "most":
                setMost(value.equals("none") ? NO_BOUND : number(name, value));
                break;
            case "onRefusal":
                setOnRefusal(value);
                break;
            case "quarantine":
                setQuarantine(value);
                break;
            default:
                throw new IllegalArgumentException("there is no setting " + name);
        }
    }

    /** A word that is not one of the two is no false: it could be the one that turns a check off. */
    private static boolean truth(String name, String value) {
        if (!value.equals("true") && !value.equals("false")) {
            throw new IllegalArgumentException(name + ": " + value);
        }
        return value.equals("true");
    }

    private static int number(String name, String value) {
        try {
            return Integer.parseInt(value);
        } catch (NumberFormatException noNumber) {
            throw new IllegalArgumentException(name + ": " + value, noNumber);
        }
    }

    String filter() {
        return filter;
    }

    Path filterFile() {
        return filterFile == null ? null : Path.of(filterFile);
    }

    Path modules() {
        return modules == null ? null : Path.of(modules);
    }

    EnumSet<Flag> flags() {
        EnumSet<Flag> flags = EnumSet.of(Flag.NEED_PATTERN);
        if (strict) {
            flags.add(Flag.STRICT);
        }
        if (anywhere) {
            flags.add(Flag.ANYWHERE);
        }
        return flags;
    }

    int most() {
        return most;
    }

    OnRefusal onRefusal() {
        return onRefusal;
    }

    Path quarantine() {
        return quarantine == null ? null : Path.of(quarantine);
    }
}
