import java.awt.BorderLayout;
import java.io.BufferedOutputStream;
import java.io.ByteArrayOutputStream;
import java.io.DataOutputStream;
import java.io.Externalizable;
import java.io.FilterOutputStream;
import java.io.IOException;
import java.io.ObjectInput;
import java.io.ObjectInputStream;
import java.io.ObjectOutput;
import java.io.ObjectOutputStream;
import java.io.OutputStream;
import java.io.Serializable;
import java.lang.reflect.InvocationHandler;
import java.lang.reflect.Method;
import java.lang.reflect.Proxy;
import java.math.BigDecimal;
import java.math.BigInteger;
import java.nio.file.Files;
import java.nio.file.Path;
import java.security.Principal;
import java.time.Duration;
import java.time.Instant;
import java.time.LocalDate;
import java.time.LocalDateTime;
import java.time.ZoneOffset;
import java.util.*;
import java.util.concurrent.ConcurrentHashMap;
import java.util.function.IntFunction;
import java.util.function.Supplier;
import javax.security.auth.Subject;
import javax.security.auth.x500.X500Principal;
import javax.swing.JButton;
import javax.swing.JCheckBox;
import javax.swing.JLabel;
import javax.swing.JPanel;
import javax.swing.tree.DefaultMutableTreeNode;

/**
 * Writes streams of the kinds that Java programs write, to measure with: `java MakeStreams [--frames] FOLDER BYTES [KIND..]`. Each
 * kind (all, if none is named) becomes a file KIND.ser of at least so many bytes, made by the JDK's own ObjectOutputStream.
 * With `--frames` before the folder it becomes a file KIND.frames, where each part is a stream of its own, behind its length
 * in four bytes. Without words it prints the kinds. The same JDK writes the same bytes each time: random numbers have a seed,
 * no clock is asked, and no hash of an identity decides an order.
 */
public class MakeStreams {
    /** How many things a list holds that is written by one call. */
    private static final int LIST = 50;
    private static final int SEED = 7;
    private static final Map<String, Kind> KINDS = new LinkedHashMap<>();

    /** A kind of streams, whose parts may each have a reset after it. */
    private record Kind(String what, Part part, boolean resets) {}

    /** Writes one more part of a stream. */
    private interface Part { void write(ObjectOutputStream out, int number, Random chance) throws IOException; }

    /** Makes the thing of this number. */
    private interface Thing { Object of(int number, Random chance); }

    /** A kind whose parts are lists of things. */
    private static void lists(String name, String what, Thing thing) {
        put(name, what, (out, number, chance) -> {
            List<Object> list = new ArrayList<>(LIST);
            for (int i = 0; i < LIST; i++) list.add(thing.of(number * LIST + i, chance));
            out.writeObject(list);
        });
    }

    /** A kind whose parts are things by themselves. */
    private static void singles(String name, String what, Thing thing) {
        put(name, what, (out, number, chance) -> out.writeObject(thing.of(number, chance)));
    }

    /** A kind whose parts are things, each with a reset after it. */
    private static void resets(String name, String what, Thing thing) {
        put(name, new Kind(what, (out, number, chance) -> out.writeObject(thing.of(number, chance)), true));
    }

    private static void put(String name, String what, Part part) {
        put(name, new Kind(what, part, false));
    }

    private static void put(String name, Kind kind) {
        if (KINDS.put(name, kind) != null) throw new IllegalArgumentException(name);
    }

    private static void fill() {
        strings();
        values();
        beans();
        collections();
        arrays();
        graphs();
        ownForms();
        epochs();
    }

    private static void strings() {
        lists("ascii-strings", "strings of some 20 ASCII letters", (i, chance) -> "user-" + Integer.toHexString(chance.nextInt()) + "-text-" + i);
        lists("latin-strings", "strings of ASCII letters and a few of two bytes", (i, chance) -> "Gr\u00fc\u00dfe " + i + ", \u00e0 bient\u00f4t");
        lists("cyrillic-strings", "strings of 20 letters of two bytes", (i, chance) -> letters(chance, 20, 0x410, 64));
        lists("cjk-strings", "strings of 12 letters of three bytes", (i, chance) -> letters(chance, 12, 0x4e00, 5000));
        lists("emoji-strings", "strings of six surrogate pairs between two ASCII letters", (i, chance) -> "a" + letters(chance, 6, 0x1f600, 60) + "b");
        singles("long-ascii-strings", "strings of 70,000 ASCII letters, in the long form", (i, chance) -> letters(chance, 70_000, 0x20, 95));
        singles("long-cjk-strings", "strings of 30,000 letters of three bytes, in the long form", (i, chance) -> letters(chance, 30_000, 0x4e00, 5000));
        lists("string-builders", "StringBuilder and StringBuffer", (i, chance) -> i % 2 == 0 ? new StringBuilder("text " + i) : new StringBuffer("text " + i));
    }

    private static void values() {
        lists("integers", "Integer", (i, chance) -> 100_000 + i);
        lists("boxed-numbers", "Integer, Long, Double, Float, Short, Character and Boolean", MakeStreams::boxed);
        lists("big-decimals", "BigDecimal of 12 to 36 digits", MakeStreams::decimal);
        lists("dates", "java.util.Date and java.sql.Timestamp", (i, chance) -> i % 2 == 0 ? new Date(1000L * i) : new java.sql.Timestamp(1000L * i));
        lists("calendars", "GregorianCalendar of one time zone", (i, chance) -> calendar(i));
        lists("java-time", "LocalDate, LocalDateTime, Instant, Duration, ZonedDateTime", MakeStreams::moment);
        lists("uuids", "UUID", (i, chance) -> new UUID(chance.nextLong(), chance.nextLong()));
        lists("enum-constants", "arrays of 20 constants of an enum: references, but for the first", (i, chance) -> colours(chance));
        lists("enum-maps", "EnumMap, and EnumSet", MakeStreams::enumMap);
    }

    private static void beans() {
        lists("addresses", "beans of two strings and an int", (i, chance) -> new Address(i));
        lists("persons", "beans of eleven fields: numbers, strings, a bean, a list, an enum, a date", (i, chance) -> new Person(i));
        lists("invoices", "beans with two superclasses", (i, chance) -> new Invoice(i));
        lists("chains", "objects of eight classes, one above the other, with primitive fields", (i, chance) -> new Level8(i));
        lists("records", "records of two ints and a string", (i, chance) -> new Pixel(i, -i, "label " + i));
        lists("number-beans", "beans of nine primitive fields", (i, chance) -> new Reading(i, chance));
    }

    private static void collections() {
        lists("array-lists", "ArrayList inside ArrayList", (i, chance) -> nestedList(i));
        lists("linked-lists", "LinkedList of eight strings", (i, chance) -> filled(new LinkedList<>(), i));
        lists("hash-sets", "HashSet of eight strings", (i, chance) -> filled(new HashSet<>(), i));
        lists("hash-maps", "HashMap of four values of different classes", (i, chance) -> row(i));
        lists("tree-maps", "TreeMap from eight strings to strings", (i, chance) -> mapped(new TreeMap<>(), i));
        lists("concurrent-maps", "ConcurrentHashMap from eight strings to strings", (i, chance) -> mapped(new ConcurrentHashMap<>(), i));
        lists("properties", "Properties of eight keys", (i, chance) -> mapped(new Properties(), i));
    }

    private static void arrays() {
        lists("byte-arrays", "arrays of 500 bytes", (i, chance) -> bytes(chance, 500));
        lists("int-arrays", "arrays of 100 ints", (i, chance) -> chance.ints(100).toArray());
        lists("double-arrays", "arrays of 60 doubles", (i, chance) -> chance.doubles(60).toArray());
        lists("int-tables", "arrays of ten arrays of eight ints", (i, chance) -> filled(new int[10][], at -> chance.ints(8).toArray()));
        lists("string-arrays", "arrays of ten strings, some null", (i, chance) -> filled(new String[10], at -> at % 4 == 3 ? null : "item " + i + "." + at));
        lists("object-arrays", "rows of a table: references, strings, numbers and null", (i, chance) -> filled(new Object[12], at -> cell(i, chance)));
    }

    private static void graphs() {
        lists("nodes", "objects with four fields for objects: the last node, itself, a string, a number or null", new Nodes());
        singles("deep-nodes", "300 nodes, one inside the other", (i, chance) -> nested(300, i));
        lists("swing-trees", "trees of 13 DefaultMutableTreeNode", (i, chance) -> tree(i));
        singles("swing-components", "forms of Swing: a panel with a label, a check box and a button", (i, chance) -> form(i));
        lists("exceptions", "exceptions with a cause and stack traces of 25 and 12 calls", (i, chance) -> failure(i));
    }

    private static void ownForms() {
        lists("own-write-object", "objects whose writeObject adds data of its own", (i, chance) -> new Logged(i));
        lists("externalizable", "objects of an Externalizable class", (i, chance) -> new Parcel(i));
        lists("proxy-objects", "proxies of one and of two interfaces", (i, chance) -> proxy(i));
        lists("lambdas", "lambdas with a captured number", (i, chance) -> (Supplier<Integer> & Serializable) () -> i);
        lists("remote-calls", "calls by name: classes of the parameters, and arguments", (i, chance) -> new RemoteCall(i));
        put("data-output", "numbers and texts with no object", (out, number, chance) -> {
            out.writeInt(number);
            out.writeLong(chance.nextLong());
            out.writeUTF("row " + number);
            out.writeDouble(number * 0.5);
        });
    }

    private static void epochs() {
        resets("sessions", "sessions of a web server: maps of seven attributes, each with a reset after it", (i, chance) -> session(i));
        resets("messages", "small values of ten classes by turns, each with a reset after it", MakeStreams::message);
        resets("security-contexts", "who is logged in: a Subject with a user and two roles, each with a reset after it", (i, chance) -> subject(i));
        resets("bean-resets", "beans of two strings and an int, each with a reset after it", (i, chance) -> new Address(i));
    }

    // The classes of the things.

    enum Colour { RED, GREEN, BLUE, WHITE, BLACK }

    record Role(String name) implements Principal, Serializable {
        @Override public String getName() { return name; }
    }

    static class Address implements Serializable {
        private static final long serialVersionUID = 1;
        final String street;
        final String city;
        final int zip;

        Address(int number) {
            street = "Long Lane " + number;
            city = "City " + number % 97;
            zip = 10_000 + number % 80_000;
        }
    }

    static class Person implements Serializable {
        private static final long serialVersionUID = 1;
        final long id;
        final int age;
        final boolean isActive;
        final double score;
        final String name;
        final String mail;
        final Address home;
        final List<String> tags = new ArrayList<>();
        final Colour colour;
        final Date born;
        final Integer points;

        Person(int number) {
            id = number;
            age = number % 90;
            isActive = number % 2 == 0;
            score = number * 1.5;
            name = "Person Number " + number;
            mail = "person" + number + "@example.org";
            home = new Address(number);
            for (int i = 0; i < number % 4; i++) tags.add("tag " + (number + i) % 1000);
            colour = colour(number);
            born = new Date(1000L * number);
            points = number % 3 == 0 ? null : number;
        }
    }

    static class Entity implements Serializable {
        private static final long serialVersionUID = 1;
        long id;
        int version = 1;
        String note;
    }

    static class Dated extends Entity {
        private static final long serialVersionUID = 1;
        long changed;
    }

    static class Invoice extends Dated {
        private static final long serialVersionUID = 1;
        final int[] amounts;
        final String label;

        Invoice(int number) {
            id = number;
            changed = 1000L * number;
            note = number % 2 == 0 ? null : "note " + number;
            amounts = new int[] {number, number + 1, number + 2};
            label = "invoice " + number;
        }
    }

    static class Level1 implements Serializable { private static final long serialVersionUID = 1; int first; }
    static class Level2 extends Level1 { private static final long serialVersionUID = 1; long second = 2; }
    static class Level3 extends Level2 { private static final long serialVersionUID = 1; boolean third = true; byte other = 3; }
    static class Level4 extends Level3 { private static final long serialVersionUID = 1; double fourth = 4; }
    static class Level5 extends Level4 { private static final long serialVersionUID = 1; char fifth = '5'; short other = 5; }
    static class Level6 extends Level5 { private static final long serialVersionUID = 1; float sixth = 6; }
    static class Level7 extends Level6 { private static final long serialVersionUID = 1; int seventh = 7; long other = 7; }
    static class Level8 extends Level7 { private static final long serialVersionUID = 1; int eighth = 8; Level8(int number) { first = number; } }

    record Pixel(int x, int y, String label) implements Serializable {}

    static class Reading implements Serializable {
        private static final long serialVersionUID = 1;
        final int sensor;
        final long time;
        final double temperature;
        final double pressure;
        final float humidity;
        final short channel;
        final byte quality = 1;
        final char unit = 'C';
        final boolean isValid = true;

        Reading(int number, Random chance) {
            sensor = number % 100;
            time = 1000L * number;
            temperature = 20 + chance.nextDouble();
            pressure = 1000 + chance.nextDouble();
            humidity = chance.nextFloat();
            channel = (short) (number % 8);
        }
    }

    static class Node implements Serializable {
        private static final long serialVersionUID = 1;
        Object before;
        Object self;
        Object text;
        Object value;
        byte mark;
    }

    /** Nodes that refer to one another. */
    static class Nodes implements Thing {
        private Node last;

        @Override public Object of(int number, Random chance) {
            Node node = new Node();
            node.before = number == 0 ? null : last;
            node.self = node;
            node.text = number % 2 == 0 ? null : "node " + number;
            node.value = number % 3 == 0 ? (Object) (long) number : null;
            last = node;
            return node;
        }
    }

    static class Logged implements Serializable {
        private static final long serialVersionUID = 1;
        final int level;
        final String text;

        Logged(int number) {
            level = number;
            text = "line " + number;
        }

        private void writeObject(ObjectOutputStream out) throws IOException {
            out.defaultWriteObject();
            out.writeInt(level);
            out.writeObject(text);
            out.writeObject(null);
            out.writeUTF("more of " + level);
        }

        private void readObject(ObjectInputStream in) throws IOException, ClassNotFoundException {
            in.defaultReadObject();
            in.readInt();
            in.readObject();
            in.readObject();
            in.readUTF();
        }
    }

    public static class Parcel implements Externalizable {
        private static final long serialVersionUID = 1;
        private int number;

        public Parcel() {}

        Parcel(int number) { this.number = number; }

        @Override public void writeExternal(ObjectOutput out) throws IOException {
            out.writeInt(number);
            out.writeUTF("parcel " + number);
            out.writeObject("to " + number % 100);
        }

        @Override public void readExternal(ObjectInput in) throws IOException, ClassNotFoundException {
            number = in.readInt();
            in.readUTF();
            in.readObject();
        }
    }

    record Handler(int number) implements InvocationHandler, Serializable {
        @Override public Object invoke(Object proxy, Method method, Object[] words) { return null; }
    }

    static class RemoteCall implements Serializable {
        private static final long serialVersionUID = 1;
        final String method;
        final Class<?>[] parameters = {String.class, int.class, Address.class};
        final Object[] arguments;

        RemoteCall(int number) {
            method = number % 2 == 0 ? "find" : "store";
            arguments = new Object[] {"key " + number, number, new Address(number)};
        }
    }

    // The things.

    private static Colour colour(int number) { return Colour.values()[number % 5]; }

    private static Colour[] colours(Random chance) { return filled(new Colour[20], at -> colour(chance.nextInt(5))); }

    /** A text of so many letters out of the span that begins with this one. */
    private static String letters(Random chance, int count, int first, int span) {
        StringBuilder text = new StringBuilder();
        for (int i = 0; i < count; i++) text.appendCodePoint(first + chance.nextInt(span));
        return text.toString();
    }

    private static byte[] bytes(Random chance, int count) {
        byte[] bytes = new byte[count];
        chance.nextBytes(bytes);
        return bytes;
    }

    private static <T> T[] filled(T[] array, IntFunction<T> value) {
        Arrays.setAll(array, value);
        return array;
    }

    private static Collection<String> filled(Collection<String> collection, int number) {
        for (int i = 0; i < 8; i++) collection.add("key " + number + "." + i);
        return collection;
    }

    private static Map<? super String, ? super String> mapped(Map<? super String, ? super String> map, int number) {
        for (int i = 0; i < 8; i++) map.put("key " + number + "." + i, "value " + i);
        return map;
    }

    private static Object boxed(int number, Random chance) {
        return switch (number % 7) {
            case 0 -> 1000 + number;
            case 1 -> (long) number;
            case 2 -> number * 1.5;
            case 3 -> number * 0.5f;
            case 4 -> (short) number;
            case 5 -> (char) ('a' + number % 26);
            default -> number % 2 == 0;
        };
    }

    private static BigDecimal decimal(int number, Random chance) {
        return new BigDecimal(new BigInteger(40 + chance.nextInt(80), chance), chance.nextInt(6));
    }

    private static Calendar calendar(int number) {
        Calendar calendar = new GregorianCalendar(TimeZone.getTimeZone("GMT"), Locale.ROOT);
        calendar.setTimeInMillis(1000L * number);
        return calendar;
    }

    private static Object moment(int number, Random chance) {
        LocalDateTime time = LocalDateTime.of(2020, 1 + number % 12, 1 + number % 28, number % 24, number % 60, number % 60, number);
        return switch (number % 5) {
            case 0 -> LocalDate.ofEpochDay(number % 30_000);
            case 1 -> time;
            case 2 -> Instant.ofEpochSecond(number);
            case 3 -> Duration.ofMillis(number);
            default -> time.atZone(ZoneOffset.UTC);
        };
    }

    private static Object enumMap(int number, Random chance) {
        if (number % 4 == 0) return EnumSet.of(colour(number), Colour.BLUE);
        Map<Colour, Integer> map = new EnumMap<>(Colour.class);
        for (Colour colour : Colour.values()) if ((number + colour.ordinal()) % 2 == 0) map.put(colour, number);
        return map;
    }

    private static List<Object> nestedList(int number) {
        List<Object> outer = new ArrayList<>();
        for (int i = 0; i < 4; i++) outer.add(new ArrayList<>(Arrays.asList("item " + number + "." + i, null, outer)));
        return outer;
    }

    private static Map<String, Object> row(int number) {
        Map<String, Object> row = new HashMap<>();
        row.put("id", number);
        row.put("name", "name " + number);
        row.put("address", new Address(number));
        row.put("count", (long) number);
        return row;
    }

    private static Object cell(int number, Random chance) {
        return switch (chance.nextInt(4)) {
            case 0 -> "cell " + number;
            case 1 -> "shared";
            case 2 -> number;
            default -> null;
        };
    }

    private static Node nested(int depth, int number) {
        Node outer = null;
        for (int i = 0; i < depth; i++) {
            Node node = new Node();
            node.before = outer;
            node.value = i == 0 ? "innermost " + number : null;
            outer = node;
        }
        return outer;
    }

    private static DefaultMutableTreeNode tree(int number) {
        DefaultMutableTreeNode root = new DefaultMutableTreeNode("root " + number);
        for (int i = 0; i < 3; i++) {
            DefaultMutableTreeNode branch = new DefaultMutableTreeNode("branch " + number + "." + i);
            for (int leaf = 0; leaf < 3; leaf++) branch.add(new DefaultMutableTreeNode(leaf));
            root.add(branch);
        }
        return root;
    }

    private static JPanel form(int number) {
        JPanel form = new JPanel(new BorderLayout());
        form.add(new JLabel("Name " + number), BorderLayout.WEST);
        form.add(new JCheckBox("Active", number % 2 == 0), BorderLayout.CENTER);
        form.add(new JButton("OK"), BorderLayout.SOUTH);
        return form;
    }

    private static final String[] CALLED = {"org.sample.shop.Orders", "org.sample.shop.Customers", "org.sample.web.Handler", "org.sample.web.Server"};

    private static <T extends Throwable> T traced(T failure, int calls) {
        StackTraceElement[] trace = new StackTraceElement[calls];
        for (int i = 0; i < calls; i++) trace[i] = new StackTraceElement("app", null, null, CALLED[i % 4], "call", "Source.java", 100 + i);
        failure.setStackTrace(trace);
        return failure;
    }

    private static Throwable failure(int number) {
        return traced(new IOException("request " + number + " failed", traced(new IllegalStateException("state " + number), 12)), 25);
    }

    private static Object proxy(int number) {
        Class<?>[] interfaces = number % 2 == 0 ? new Class<?>[] {Runnable.class} : new Class<?>[] {Runnable.class, Comparable.class};
        return Proxy.newProxyInstance(MakeStreams.class.getClassLoader(), interfaces, new Handler(number));
    }

    private static Map<String, Object> session(int number) {
        Map<String, Object> session = new HashMap<>();
        session.put("user", new Person(number));
        session.put("locale", number % 2 == 0 ? "de_DE" : "en_US");
        session.put("lastAccess", 1000L * number);
        session.put("cart", new ArrayList<>(Arrays.asList(new BigDecimal(number).movePointLeft(2), "item " + number, number)));
        session.put("login", LocalDateTime.of(2020, 1, 1 + number % 28, number % 24, number % 60));
        session.put("flags", EnumSet.of(Colour.RED, Colour.BLUE));
        session.put("token", new byte[32]);
        return session;
    }

    private static Subject subject(int number) {
        Set<Principal> names = new LinkedHashSet<>();
        names.add(new X500Principal("CN=user " + number + ", O=Example"));
        names.add(new Role("reader"));
        names.add(new Role(number % 5 == 0 ? "admin" : "writer"));
        return new Subject(true, names, Set.of(), Set.of());
    }

    private static Object message(int number, Random chance) {
        return switch (number % 10) {
            case 0 -> new Address(number);
            case 1 -> new Invoice(number);
            case 2 -> new Reading(number, chance);
            case 3 -> row(number);
            case 4 -> new Date(number);
            case 5 -> new BigDecimal(number);
            case 6 -> new Level8(number);
            case 7 -> colour(number);
            case 8 -> new Pixel(number, number, "p");
            default -> new String[] {"a", "b"};
        };
    }

    // The files.

    /** An output that knows how many bytes it was given. */
    private static class Counted extends FilterOutputStream {
        long size;

        Counted(OutputStream out) { super(out); }

        @Override public void write(int value) throws IOException {
            out.write(value);
            size++;
        }

        @Override public void write(byte[] bytes, int start, int length) throws IOException {
            out.write(bytes, start, length);
            size += length;
        }
    }

    private static void write(Path file, Kind kind, long size) throws IOException {
        Random chance = new Random(SEED);
        try (Counted counted = new Counted(new BufferedOutputStream(Files.newOutputStream(file)));
            ObjectOutputStream out = new ObjectOutputStream(counted)) {
            for (int number = 0; counted.size < size; number++) {
                kind.part.write(out, number, chance);
                if (kind.resets) out.reset();
            }
        }
    }

    private static void writeFrames(Path file, Kind kind, long size) throws IOException {
        Random chance = new Random(SEED);
        ByteArrayOutputStream stream = new ByteArrayOutputStream();
        try (DataOutputStream frames = new DataOutputStream(new BufferedOutputStream(Files.newOutputStream(file)))) {
            for (int number = 0; frames.size() < size; number++) {
                stream.reset();
                try (ObjectOutputStream out = new ObjectOutputStream(stream)) {
                    kind.part.write(out, number, chance);
                }
                frames.writeInt(stream.size());
                stream.writeTo(frames);
            }
        }
    }

    private static void writeAll(boolean framed, Path folder, long size, Collection<String> names) throws IOException {
        Files.createDirectories(folder);
        for (String name : names) {
            if (framed) writeFrames(folder.resolve(name + ".frames"), KINDS.get(name), size);
            else write(folder.resolve(name + ".ser"), KINDS.get(name), size);
        }
    }

    private static void stop(Object why) {
        System.err.println("MakeStreams: " + why);
        System.exit(1);
    }

    public static void main(String[] given) throws Exception {
        fill();
        boolean framed = given.length > 0 && given[0].equals("--frames");
        String[] words = framed ? Arrays.copyOfRange(given, 1, given.length) : given;
        if (words.length < 2) {
            KINDS.forEach((name, kind) -> System.out.println(name + " ".repeat(20 - name.length()) + kind.what));
            return;
        }
        List<String> named = Arrays.asList(words).subList(2, words.length);
        for (String name : named) if (!KINDS.containsKey(name)) stop("there is no kind " + name);
        // What is deep is written by calls inside calls.
        Thread writer = new Thread(null, () -> {
            try {
                writeAll(framed, Path.of(words[0]), Long.parseLong(words[1]), named.isEmpty() ? KINDS.keySet() : named);
            } catch (Throwable fault) {
                stop(fault);
            }
        }, "writer", 1L << 29);
        writer.start();
        writer.join();
    }
}
