package serialcheck;

import java.io.IOException;
import java.io.InputStream;
import java.io.PrintStream;
import java.nio.charset.CharacterCodingException;
import java.nio.charset.StandardCharsets;
import java.nio.file.Files;
import java.nio.file.InvalidPathException;
import java.nio.file.Path;
import java.util.Arrays;
import java.util.EnumSet;
import java.util.HashMap;
import java.util.Iterator;
import java.util.List;
import java.util.Map;
import java.util.Set;

/** The commands check, show and list of the program, with its lines and statuses: {@code java -jar serialcheck-VERSION.jar}. */
final class Main {
    private static final int YES = 0, REFUSED = 1, MISUSED = 2, FAILED = 3, CUT = 4;
    private static final int MOST_TEXT = 1 << 24;
    private static final String USAGE = String.join("\n",
        "Usage: java -jar serialcheck-VERSION.jar check [--filter T | --filter-file F] [--modules M] [--strict] [--anywhere] FILE",
        "       java -jar serialcheck-VERSION.jar show [--limit N] FILE",
        "       java -jar serialcheck-VERSION.jar list [--filter T] [--modules M] FILE",
        "       java -jar serialcheck-VERSION.jar --help | --version",
        "",
        "FILE may be -, standard input. A text of more than " + MOST_TEXT + " bytes is cut, where --limit says nothing else.",
        "explain, scan, suggest, records and find are commands of the program alone.",
        "");
    private static final Set<String> COMMANDS = Set.of("check", "show", "list");
    private static final Set<String> OF_THE_PROGRAM = Set.of("explain", "scan", "suggest", "records", "find");
    /** The options of each command that have a value, and those that have none. */
    private static final Map<String, Set<String>> VALUES = Map.of(
        "check", Set.of("--filter", "--filter-file", "--modules"), "show", Set.of("--limit"), "list", Set.of("--filter", "--modules"));
    private static final Set<String> SWITCHES = Set.of("--strict", "--anywhere");

    /** Why there is no answer, with the status. */
    private static final class Failed extends Exception {
        private static final long serialVersionUID = 1;
        private final int status;

        Failed(int status, String message) {
            super(message);
            this.status = status;
        }
    }

    private final String command;
    private final Map<String, String> values = new HashMap<>();
    private final String file;

    private Main(List<String> words) throws Failed {
        command = words.isEmpty() ? "" : words.get(0);
        if (Set.of("-h", "--help", "help").contains(command)) {
            throw new Failed(MISUSED, USAGE);
        }
        if (Set.of("-V", "--version").contains(command)) {
            throw new Failed(MISUSED, "serialcheck " + SerialCheck.version() + "\n");
        }
        if (!COMMANDS.contains(command)) {
            throw misused(command.isEmpty() ? "no command" : OF_THE_PROGRAM.contains(command) ? command + " is a command of the program, which is no part of the jar" : "no command " + command);
        }
        String named = null;
        boolean isOver = false;
        for (Iterator<String> rest = words.subList(1, words.size()).iterator(); rest.hasNext(); ) {
            String word = rest.next();
            if (!isOver && word.equals("--")) {
                isOver = true;
            } else if (isOver || word.equals("-") || !word.startsWith("-")) {
                if (named != null) {
                    throw misused("more than one FILE");
                }
                named = word;
            } else if (word.equals("--help") || word.equals("-h")) {
                throw new Failed(MISUSED, USAGE);
            } else {
                take(word, rest);
            }
        }
        if (named == null) {
            throw misused("no FILE");
        }
        if (values.containsKey("--filter") && values.containsKey("--filter-file")) {
            throw misused("--filter and --filter-file");
        }
        file = named;
    }

    /** Takes an option, whose value is behind it or behind its {@code =}. */
    private void take(String word, Iterator<String> rest) throws Failed {
        int sign = word.indexOf('=');
        String name = sign < 0 ? word : word.substring(0, sign);
        boolean isSwitch = command.equals("check") && SWITCHES.contains(name);
        if (!isSwitch && !VALUES.get(command).contains(name) || isSwitch && sign >= 0) {
            throw misused("no option " + word + " of " + command);
        }
        if (!isSwitch && sign < 0 && !rest.hasNext()) {
            throw misused(name + " has no value");
        }
        if (values.put(name, isSwitch ? "" : sign < 0 ? rest.next() : word.substring(sign + 1)) != null) {
            throw misused(name + " is there twice");
        }
    }

    /** Answers the words of the command line, and ends the JVM with the status. */
    public static void main(String[] words) {
        int status;
        try {
            status = new Main(Arrays.asList(words)).answer(System.out);
        } catch (Failed why) {
            status = why.status;
            System.err.print(why.getMessage().endsWith("\n") ? why.getMessage() : why.getMessage() + "\n");
        } catch (IllegalArgumentException faulty) {
            status = MISUSED;
            System.err.println(faulty.getMessage());
        } catch (OutOfMemoryError full) {
            status = FAILED;
            System.err.println("out of memory");
        } catch (UnsatisfiedLinkError unloaded) {
            status = FAILED;
            System.err.println(unloaded.getMessage());
        } catch (IOException fault) {
            status = FAILED;
            System.err.println("read failed");
        }
        System.out.flush();
        System.exit(status);
    }

    /** Prints the answer, and returns the status. */
    private int answer(PrintStream out) throws Failed, IOException {
        try {
            if (command.equals("check")) {
                try (Filter filter = filter()) {
                    out.print(filter.check(read(file)) + "\n");
                    return YES;
                }
            }
            int most = most();
            Text text = command.equals("show") ? SerialCheck.show(read(file), most) : SerialCheck.list(read(file), values.getOrDefault("--filter", ""), modules(), most);
            out.print(text);
            out.print(text.isCut() ? "cut at " + most + " bytes\n" : "");
            return text.isCut() ? CUT : YES;
        } catch (Refused refused) {
            out.print(refused.getMessage() + "\n");
            return REFUSED;
        }
    }

    private Filter filter() throws Failed, IOException {
        EnumSet<Flag> flags = EnumSet.noneOf(Flag.class);
        if (values.containsKey("--strict")) {
            flags.add(Flag.STRICT);
        }
        if (values.containsKey("--anywhere")) {
            flags.add(Flag.ANYWHERE);
        }
        Flag[] asked = flags.toArray(new Flag[0]);
        String named = values.get("--filter-file");
        return named == null ? new Filter(values.getOrDefault("--filter", ""), modules(), asked) : Filter.ofFile(read(named), modules().getBytes(StandardCharsets.UTF_8), asked);
    }

    private int most() throws Failed {
        try {
            int most = Integer.parseInt(values.getOrDefault("--limit", "" + MOST_TEXT));
            if (most >= 0) {
                return most;
            }
        } catch (NumberFormatException noNumber) {
            // told below
        }
        throw misused("--limit is no number of at most " + Integer.MAX_VALUE);
    }

    /** The table of modules. */
    private String modules() throws Failed, IOException {
        if (!values.containsKey("--modules")) {
            return "";
        }
        try {
            return StandardCharsets.UTF_8.newDecoder().decode(java.nio.ByteBuffer.wrap(read(values.get("--modules")))).toString();
        } catch (CharacterCodingException noText) {
            throw new Failed(MISUSED, "modules file is not text");
        }
    }

    /** The bytes of a file, or of standard input. */
    private static byte[] read(String name) throws Failed, IOException {
        if (name.equals("-")) {
            return System.in.readAllBytes();
        }
        InputStream in;
        try {
            in = Files.newInputStream(Path.of(name));
        } catch (IOException | InvalidPathException fault) {
            throw new Failed(FAILED, "cannot open " + name);
        }
        try (in) {
            return in.readAllBytes();
        }
    }

    private static Failed misused(String fault) {
        return new Failed(MISUSED, "error: " + fault + "\n\n" + USAGE);
    }
}
