import java.io.ByteArrayInputStream;
import java.io.ByteArrayOutputStream;
import java.io.DataOutputStream;
import java.io.FilterInputStream;
import java.io.IOException;
import java.io.InputStream;
import java.io.ObjectOutputStream;
import java.lang.management.ManagementFactory;
import java.nio.file.Files;
import java.nio.file.Path;
import java.nio.file.attribute.PosixFilePermissions;
import java.util.ArrayList;
import java.util.Arrays;
import java.util.List;
import java.util.concurrent.Callable;
import java.util.zip.DeflaterOutputStream;
import java.util.zip.InflaterInputStream;
import javax.management.ObjectName;
import serialcheck.Guard;
import serialcheck.GuardSettings;
import serialcheck.GuardStream;
import serialcheck.Refused;

/** Tries a guard out, and prints what it does: {@code Guards FOLDER}. */
public final class Guards {
    private static final List<String> LOG = new ArrayList<>();

    /** A stream with one class object; the class has this name. */
    private static byte[] stream(String name) throws IOException {
        ByteArrayOutputStream bytes = new ByteArrayOutputStream();
        DataOutputStream out = new DataOutputStream(bytes);
        out.writeInt(0xACED0005);
        out.writeShort(0x7672);
        out.writeUTF(name);
        out.writeLong(1); // its serialVersionUID, then its flags, no fields, the end of its data, no superclass
        out.writeByte(2);
        out.writeShort(0);
        out.writeShort(0x7870);
        return bytes.toByteArray();
    }

    private static GuardSettings settings(String... words) {
        GuardSettings settings = new GuardSettings();
        for (int i = 0; i < words.length; i += 2) {
            settings.set(words[i], words[i + 1]);
        }
        return settings;
    }

    private static Guard guard(String... words) throws IOException {
        return new Guard("a test", settings(words), LOG::add);
    }

    private static void told(Callable<?> call) throws Exception {
        try {
            System.out.println(call.call());
        } catch (IllegalArgumentException | Refused why) {
            System.out.println(why instanceof Refused ? ((Refused) why).line() : why.getMessage());
        }
    }

    private static Callable<?> checked(Guard guard, String what, byte[] bytes) {
        return () -> {
            guard.check(() -> what, bytes);
            return "admitted";
        };
    }

    private static void tellFaultySettings() throws Exception {
        for (String[] words : new String[][] {
            {"strict", "yes"}, {"most", "0"}, {"most", "many"}, {"onRefusal", "drop"}, {"filters", "!*"}, {}, {"filter", "!*", "filterFile", "f"}, {"filter", "!*;maxwhat=1"}, {"filter", ""}, {"filter", "maxdepth=20"}, {"filter", "!*\u00a0"}, {"filter", "!*", "onRefusal", "quarantine"},
        }) {
            told(() -> guard(words));
        }
    }

    /** A stranger chooses names: how many of them are kept, and how long they are; and what is in the log. */
    private static void tellNames() throws Exception {
        Guard guard = guard("filter", "good.*;!*");
        told(checked(guard, "a good one", stream("good.A")));
        told(checked(guard, "two\nlines \u00e4", stream("evil.A\nB")));
        told(checked(guard, "w".repeat(1000), stream("n".repeat(300))));
        System.out.println(LOG.get(0) + "|" + LOG.get(1).length());
        for (int i = 0; i < 1000; i++) {
            try {
                guard.check(() -> "one of many", stream("evil.C" + i));
            } catch (Refused refused) {
                continue;
            }
        }
        System.out.println(guard.getAdmitted() + " " + guard.getRefused() + " " + guard.getRefusals().size() + " " + guard.getRefusals().get("ClassRejected of other classes"));
        guard.close();
    }

    /** An input that would fail if it were read further than a number of bytes. */
    private static InputStream until(byte[] bytes, int most) {
        return new FilterInputStream(new ByteArrayInputStream(bytes)) {
            private int read;

            @Override
            public int read(byte[] to, int from, int length) throws IOException {
                if (read == most) {
                    throw new IOException("read too far");
                }
                int got = super.read(to, from, Math.min(length, most - read));
                read += got;
                return got;
            }
        };
    }

    private static void tellInputs() throws Exception {
        byte[] good = stream("good.A");
        byte[] bad = stream("evil.A");
        try (Guard guard = guard("filter", "good.*;!*", "most", "100"); Guard reports = guard("filter", "good.*;!*", "most", "20", "onRefusal", "report")) {
            told(() -> new String(guard.open(() -> "an input", new ByteArrayInputStream(good)).readAllBytes(), "ISO-8859-1").equals(new String(good, "ISO-8859-1")));
            told(() -> guard.open(() -> "an input whose front decides", until(bad, 14)));
            told(() -> guard.open(() -> "a long input", new ByteArrayInputStream(new byte[101])));
            told(() -> reports.open(() -> "a long input", new ByteArrayInputStream(good)).readAllBytes().length == good.length);
            told(() -> guard.inflate(() -> "a bomb", () -> new InflaterInputStream(new ByteArrayInputStream(deflated(new byte[101])))));
            told(() -> guard.inflate(() -> "just so long", () -> new InflaterInputStream(new ByteArrayInputStream(deflated(new byte[100])))).length);
            told(() -> guard.inflate(() -> "no such format", () -> new InflaterInputStream(new ByteArrayInputStream(new byte[9]))));
            told(() -> reports.inflate(() -> "a bomb", () -> new InflaterInputStream(new ByteArrayInputStream(deflated(new byte[101])))));
            told(() -> meaning(() -> guard.open(() -> "an input", new ByteArrayInputStream(bad))));
            told(() -> meaning(() -> guard.open(() -> "a long input", new ByteArrayInputStream(new byte[101]))));
        }
    }

    /** What the reason of a refusal means, in quotes. */
    private static String meaning(Callable<?> call) throws Exception {
        try {
            call.call();
            return "admitted";
        } catch (Refused why) {
            return '"' + why.meaning() + '"';
        }
    }

    private static byte[] deflated(byte[] bytes) throws IOException {
        ByteArrayOutputStream made = new ByteArrayOutputStream();
        try (DeflaterOutputStream out = new DeflaterOutputStream(made)) {
            out.write(bytes);
        }
        return made.toByteArray();
    }

    /** Whether JMX shows a guard of this name. */
    private static boolean isShown(String name) throws Exception {
        return ManagementFactory.getPlatformMBeanServer().isRegistered(new ObjectName("serialcheck:type=Guard,name=" + ObjectName.quote(name)));
    }

    /** Streams in pieces; a name and a length by themselves; JMX from the first stream on. */
    private static void tellPieces() throws Exception {
        byte[] good = stream("good.A");
        byte[] bad = stream("evil.A");
        byte[] array = longArray(40_000);
        try (Guard guard = new Guard("pieces", settings("filter", "good.*;maxarray=50000;!*", "most", "none", "anywhere", "false", "onRefusal", "reject"), LOG::add)) {
            System.out.print(isShown("pieces") + " ");
            GuardStream pieces = guard.begin();
            System.out.println(isShown("pieces"));
            for (int at = 0; at < good.length; at++) {
                told(pieces.feed(good, at, 1), pieces::rest);
            }
            System.out.println(pieces.end() + " " + pieces.isWhole() + " " + guard.getAdmitted());
            GuardStream refused = guard.begin();
            int taken = 0;
            Refused why = null;
            for (; why == null; taken++) {
                why = refused.feed(bad, taken, 1);
            }
            Refused last = why;
            System.out.println(taken + " " + why.line() + " " + guard.getAdmitted() + " " + guard.getRefused());
            told(() -> {
                refused.refuse(() -> "pieces", last);
                return "handed on";
            });
            refused.report(() -> "pieces again", last);
            System.out.println(guard.getAdmitted() + " " + guard.getRefused() + " " + LOG.get(LOG.size() - 1));
            GuardStream moved = guard.begin();
            System.out.println(moved.feed(good, 0, 25) + " " + moved.feed(bad, 0, 3).line() + " " + moved.back(25) + " " + moved.feed(good, 25, good.length - 25) + " " + moved.end());
            try (GuardStream held = guard.begin()) {
                System.out.println(held.feed(array, 0, 30_000) + " " + held.isWhole() + " " + held.feed(array, 30_000, array.length - 30_000) + " " + held.isWhole() + " " + held.back(9));
                held.rest();
                System.out.println(held.end());
            }
            for (String name : new String[] {"good.A", "[Lgood.A;", "good.A[]", "evil.A", "[Levil.A;", "evil.A[]", "[[I", "int"}) {
                System.out.print(shown(guard.name(name)) + "; ");
            }
            System.out.println(shown(guard.name("good.A")));
            System.out.println(shown(guard.array(50_000)) + " " + shown(guard.array(50_001)) + " " + shown(guard.array(3)) + " " + shown(guard.array(Integer.MAX_VALUE)));
        }
        try (Guard guard = guard("filter", "good.*;!*", "most", "25"); GuardStream pieces = guard.begin()) {
            System.out.println(pieces.feed(good, 0, 25) + " " + pieces.feed(good, 25, 1).line() + " " + guard.begin().feed(bad, 0, bad.length).line() + " " + guard.begin().feed(good, 0, good.length).to());
        }
    }

    private static void told(Refused why, Runnable then) {
        if (why != null) {
            System.out.println(why.line());
        }
        then.run();
    }

    private static String shown(Refused why) {
        return why == null ? "admitted" : why.line();
    }

    /** A stream with an array of zeros. */
    private static byte[] longArray(int length) throws IOException {
        ByteArrayOutputStream bytes = new ByteArrayOutputStream();
        try (ObjectOutputStream out = new ObjectOutputStream(bytes)) {
            out.writeObject(new byte[length]);
        }
        return bytes.toByteArray();
    }

    /** A filter that names a module, and its table. */
    private static void tellModules(Path folder) throws Exception {
        Path table = folder.resolve("modules");
        Files.writeString(table, "good=a.module\n");
        told(checked(guard("filter", "a.module/good.*;!*", "modules", table.toString()), "of a module", stream("good.A")));
        told(checked(guard("filter", "a.module/good.*;!*", "modules", table.toString()), "of another one", stream("evil.A")));
        Files.writeString(table, "good\n");
        told(() -> guard("filter", "a.module/good.*;!*", "modules", table.toString()));
    }

    /** Changes the filter's file. A guard looks at it once a second. */
    private static void tellFile(Path file) throws Exception {
        byte[] bytes = stream("good.A");
        Files.writeString(file, "!*");
        try (Guard guard = guard("filterFile", file.toString())) {
            told(checked(guard, "by the first file", bytes));
            Thread.sleep(1100);
            Files.writeString(file, "good.*;!*");
            told(checked(guard, "by a file that is perhaps being written", bytes));
            Thread.sleep(1100);
            told(checked(guard, "by the second file", bytes));
            for (String faulty : new String[] {"", "# one\r!*\r\n;\r\n", "maxdepth=20;maxrefs=9\r\n", "!*;maxwhat=1", "!* "}) {
                Files.writeString(file, faulty);
                Thread.sleep(1100);
                told(checked(guard, "by a faulty file", bytes));
            }
            Files.delete(file);
            for (int looks = 0; looks < 3; looks++) {
                Thread.sleep(1100);
                told(checked(guard, "by no file", bytes));
            }
        }
        LOG.forEach(line -> System.out.println(line.replace(file.toString(), "FILE")));
        LOG.clear();
    }

    /** Fills the folder; and empties it, which is seen a second later. */
    private static void tellFolder(Path folder) throws Exception {
        LOG.clear();
        byte[] bad = stream("evil.A");
        try (Guard guard = guard("filter", "!*", "onRefusal", "quarantine", "quarantine", folder.toString())) {
            told(() -> guard.inflate(() -> "no such format", () -> new InflaterInputStream(new ByteArrayInputStream(new byte[9]))));
            System.out.println(LOG.remove(0) + "|" + folder.toFile().list().length);
            for (int i = 0; i < 1002; i++) {
                refuse(guard, bad);
            }
            Path one = folder.resolve(LOG.get(0).replaceFirst(".* ", ""));
            System.out.println(Arrays.equals(bad, Files.readAllBytes(one)) + " " + PosixFilePermissions.toString(Files.getPosixFilePermissions(one)));
            try (var files = Files.list(folder)) {
                System.out.println(files.count());
            }
            System.out.println(LOG.get(1001));
            Files.delete(one);
            Thread.sleep(1100);
            refuse(guard, bad);
            System.out.println(LOG.get(1002).replaceFirst("\\d+\\.ser", "TIME.ser"));
        }
    }

    private static void refuse(Guard guard, byte[] bad) {
        try {
            guard.check(() -> "one", bad);
            System.out.println("admitted");
        } catch (Refused refused) {
            return;
        }
    }

    public static void main(String[] words) throws Exception {
        tellFaultySettings();
        tellFile(Path.of(words[0], "filter"));
        tellNames();
        tellInputs();
        tellFolder(Path.of(words[0], "aside"));
        tellPieces();
        tellModules(Path.of(words[0]));
    }
}
