import com.google.common.base.Optional;
import com.google.common.collect.ArrayListMultimap;
import com.google.common.collect.HashBasedTable;
import com.google.common.collect.HashBiMap;
import com.google.common.collect.HashMultiset;
import com.google.common.collect.ImmutableList;
import com.google.common.collect.ImmutableMap;
import com.google.common.collect.ImmutableSortedSet;
import com.google.common.collect.Range;
import com.google.common.hash.BloomFilter;
import com.google.common.hash.Funnels;
import com.google.common.net.HostAndPort;
import java.awt.BasicStroke;
import java.awt.Color;
import java.awt.Dimension;
import java.awt.Font;
import java.awt.Insets;
import java.awt.Point;
import java.awt.Rectangle;
import java.io.ByteArrayOutputStream;
import java.io.Externalizable;
import java.io.File;
import java.io.IOException;
import java.io.ObjectInput;
import java.io.ObjectInputStream;
import java.io.ObjectOutput;
import java.io.ObjectOutputStream;
import java.io.Serializable;
import java.lang.reflect.InvocationHandler;
import java.lang.reflect.Method;
import java.lang.reflect.Proxy;
import java.math.BigDecimal;
import java.math.BigInteger;
import java.math.MathContext;
import java.math.RoundingMode;
import java.net.Inet4Address;
import java.net.InetAddress;
import java.net.InetSocketAddress;
import java.net.URI;
import java.net.URL;
import java.nio.file.Files;
import java.nio.file.Path;
import java.text.DecimalFormatSymbols;
import java.text.MessageFormat;
import java.time.DayOfWeek;
import java.time.Duration;
import java.time.Instant;
import java.time.LocalDateTime;
import java.time.Period;
import java.time.ZoneOffset;
import java.time.ZonedDateTime;
import java.util.*;
import java.util.concurrent.ArrayBlockingQueue;
import java.util.concurrent.ConcurrentHashMap;
import java.util.concurrent.ConcurrentLinkedQueue;
import java.util.concurrent.ConcurrentSkipListMap;
import java.util.concurrent.CopyOnWriteArrayList;
import java.util.concurrent.TimeUnit;
import java.util.concurrent.atomic.AtomicInteger;
import java.util.concurrent.atomic.AtomicLongArray;
import java.util.concurrent.locks.ReentrantLock;
import java.util.regex.Pattern;
import javax.swing.DefaultListModel;
import javax.swing.tree.DefaultMutableTreeNode;
import org.apache.commons.lang3.mutable.MutableInt;
import org.apache.commons.lang3.tuple.Pair;

/**
 * Writes the streams of tests/streams/java: one file for each kind of thing that Java programs put into streams, each made
 * by the JDK's own ObjectOutputStream. `java RealStreams FOLDER` writes the same bytes each time with the same JDK.
 */
public class RealStreams {
    enum Colour { RED, GREEN { @Override public String toString() { return "leaf"; } } }

    static class Address implements Serializable {
        private static final long serialVersionUID = 1;
        String street = "Long Lane";
        int zip = 12345;
    }

    static class Person implements Serializable {
        private static final long serialVersionUID = 1;
        long id = 7;
        boolean active = true;
        double score = 1.5;
        String name = "Zoe \u00e9\u4e2d\ud83d\ude00";
        Address home = new Address();
        List<String> tags = new ArrayList<>(List.of("a", "b"));
        Colour colour = Colour.RED;
        transient String secret = "not written";
    }

    static class Employee extends Person {
        private static final long serialVersionUID = 1;
        Person boss = this;
        int[] hours = {8, 8, 7};
    }

    record Pixel(int x, int y, String label) implements Serializable {}

    static class Logged implements Serializable {
        private static final long serialVersionUID = 1;
        int level = 3;
        private void writeObject(ObjectOutputStream out) throws IOException {
            out.defaultWriteObject();
            out.writeUTF("more");
            out.writeObject(List.of(1, 2));
            out.writeLong(99);
        }
        private void readObject(ObjectInputStream in) throws IOException, ClassNotFoundException {
            in.defaultReadObject();
            in.readUTF();
            in.readObject();
            in.readLong();
        }
    }

    public static class Parcel implements Externalizable {
        public Parcel() {}
        public void writeExternal(ObjectOutput out) throws IOException {
            out.writeInt(5);
            out.writeObject("inside");
            out.write(new byte[300]);
        }
        public void readExternal(ObjectInput in) throws IOException, ClassNotFoundException {
            in.readInt();
            in.readObject();
            in.skipBytes(300);
        }
    }

    static class Handler implements InvocationHandler, Serializable {
        private static final long serialVersionUID = 1;
        public Object invoke(Object proxy, Method method, Object[] args) { return null; }
    }

    static class Node implements Serializable {
        private static final long serialVersionUID = 1;
        Node next;
        Node other;
    }

    interface Writes { void to(ObjectOutputStream out) throws Exception; }

    private static final Map<String, Writes> KINDS = new LinkedHashMap<>();

    private static void put(String name, Object value) {
        if (KINDS.put(name, out -> out.writeObject(value)) != null) throw new IllegalArgumentException(name);
    }

    private static <T extends Collection<? super String>> T filled(T collection) {
        for (String text : List.of("one", "two", "three")) collection.add(text);
        return collection;
    }

    private static <T extends Map<? super String, ? super Integer>> T mapped(T map) {
        map.put("one", 1);
        map.put("two", 2);
        map.put("three", 1000);
        return map;
    }

    private static Node ring() {
        Node first = new Node();
        Node last = first;
        for (int i = 0; i < 20; i++) {
            last.next = new Node();
            last.next.other = first;
            last = last.next;
        }
        last.next = first;
        return first;
    }

    private static Throwable failure() {
        Throwable cause = new IllegalStateException("inner", null);
        cause.setStackTrace(new StackTraceElement[] {new StackTraceElement("app.Main", "run", "Main.java", 12)});
        Exception outer = new IOException("outer \u2014 with a dash", cause);
        outer.setStackTrace(new StackTraceElement[] {new StackTraceElement("app.Main", "main", "Main.java", 3)});
        outer.addSuppressed(cause);
        return outer;
    }

    private static Map<String, Object> session() {
        Map<String, Object> session = new TreeMap<>();
        session.put("user", new Person());
        session.put("cart", new ArrayList<>(Arrays.asList(new BigDecimal("12.34"), "item", 3)));
        session.put("login", LocalDateTime.of(2020, 1, 2, 3, 4));
        session.put("token", new byte[32]);
        session.put("locale", Locale.CANADA_FRENCH);
        return session;
    }

    private static void fill() throws Exception {
        put("array-list", filled(new ArrayList<>()));
        put("linked-list", filled(new LinkedList<>()));
        put("vector", filled(new Vector<>()));
        put("array-deque", filled(new ArrayDeque<>()));
        put("priority-queue", filled(new PriorityQueue<>()));
        put("linked-hash-set", filled(new LinkedHashSet<>()));
        put("tree-set", filled(new TreeSet<>(Comparator.reverseOrder())));
        put("hash-map", mapped(new HashMap<>()));
        put("linked-hash-map", mapped(new LinkedHashMap<>()));
        put("tree-map", mapped(new TreeMap<>(String.CASE_INSENSITIVE_ORDER)));
        put("hashtable", mapped(new Hashtable<>()));
        put("identity-hash-map", new IdentityHashMap<>(Map.of("key", 1)));
        put("enum-map", new EnumMap<>(Map.of(Colour.RED, "r", Colour.GREEN, "g")));
        put("enum-set", EnumSet.of(DayOfWeek.MONDAY, DayOfWeek.SUNDAY));
        put("immutable-collections", new Object[] {List.of(1), List.of(1, 2, 3), Map.of("k", "v"), Set.of("s")});
        put("collections-wrappers", new Object[] {Collections.unmodifiableList(filled(new ArrayList<>())),
            Collections.synchronizedMap(mapped(new TreeMap<>())), Collections.emptyList(), Collections.singleton(1),
            Collections.nCopies(3, "x"), Arrays.asList(1, 2)});
        put("concurrent-hash-map", mapped(new ConcurrentHashMap<>()));
        put("concurrent-queues", new Object[] {filled(new ConcurrentLinkedQueue<>()), filled(new ArrayBlockingQueue<>(5))});
        put("skip-list-map", mapped(new ConcurrentSkipListMap<>()));
        put("copy-on-write", filled(new CopyOnWriteArrayList<>()));
        put("atomics", new Object[] {new AtomicInteger(5), new AtomicLongArray(new long[] {1, 2})});
        put("lock", new ReentrantLock(true));
        put("bit-set", BitSet.valueOf(new long[] {5, 1L << 40}));
        put("properties", properties());
        put("boxed", new Object[] {(byte) 1, (short) 2, 3, 4L, 5f, 6.5, 'c', true});
        put("primitive-arrays", new Object[] {new byte[] {1, -1}, new short[] {2}, new int[] {3, 4}, new long[] {5},
            new float[] {Float.NaN}, new double[] {-0.0}, new char[] {'x', '\uffff'}, new boolean[] {true, false}});
        put("nested-arrays", new int[][][] {{{1, 2}, {}}, {}, {{3}, null}});
        put("string-arrays", new String[][] {{"a", null}, {"a"}, null});
        put("big-numbers", new Object[] {new BigInteger("-123456789012345678901234567890"), new BigDecimal("1E-30"),
            new MathContext(7, RoundingMode.HALF_EVEN)});
        put("dates", new Object[] {new Date(1_000_000_000_000L), new java.sql.Timestamp(5L), new java.sql.Date(86_400_000L)});
        put("calendar", calendar());
        put("java-time", new Object[] {Instant.EPOCH, Duration.ofMillis(1500), Period.ofDays(3), ZoneOffset.ofHours(2),
            ZonedDateTime.of(2021, 6, 7, 8, 9, 10, 11, ZoneOffset.UTC), DayOfWeek.FRIDAY});
        put("locale-and-currency", new Object[] {Locale.forLanguageTag("sr-Latn-RS"), Currency.getInstance("EUR"),
            TimeZone.getTimeZone("GMT+3")});
        put("formats", new Object[] {new MessageFormat("{0} of {1}", Locale.ROOT), new DecimalFormatSymbols(Locale.ROOT)});
        put("pattern", Pattern.compile("a+(b|c)*", Pattern.CASE_INSENSITIVE));
        put("uuid", new UUID(1, 2));
        put("random", new Random(42));
        put("string-builders", new Object[] {new StringBuilder("sb"), new StringBuffer("sbuf")});
        put("network", new Object[] {InetAddress.getByAddress("host", new byte[] {10, 0, 0, 1}),
            new InetSocketAddress(Inet4Address.getByAddress(new byte[] {127, 0, 0, 1}), 80), URI.create("http://a.example/b?c"),
            new URL("http://a.example/b")});
        put("file", new File("some/where.txt"));
        put("class-objects", new Object[] {String.class, int.class, int[].class, String[][].class, Colour.class,
            Runnable.class, void.class, Person.class});
        put("bean", new Person());
        put("bean-with-superclass", new Employee());
        put("record", new Pixel(3, -4, "p"));
        put("write-object", new Logged());
        put("externalizable", new Parcel());
        put("proxy", Proxy.newProxyInstance(RealStreams.class.getClassLoader(), new Class<?>[] {Runnable.class, Comparable.class},
            new Handler()));
        put("lambda", (Comparator<String> & Serializable) (a, b) -> a.length() - b.length());
        put("enum-with-body", new Object[] {Colour.GREEN, Colour.RED, Colour.GREEN, TimeUnit.DAYS});
        put("exception", failure());
        put("ring", ring());
        put("session", session());
        put("long-strings", new String[] {"x".repeat(70_000), "\u0000\u0800".repeat(400)});
        put("awt", new Object[] {new Color(1, 2, 3, 4), new Dimension(3, 4), new Point(5, 6), new Rectangle(1, 2, 3, 4),
            new Insets(1, 2, 3, 4), new Font("Dialog", Font.BOLD, 12)});
        put("swing-tree", tree());
        put("swing-list-model", listModel());
        put("event", new EventObject("source"));
        put("permissions", new java.io.FilePermission("/tmp/*", "read"));
        put("guava-collections", new Object[] {ImmutableList.of("a", "b"), ImmutableMap.of("k", 1), ImmutableSortedSet.of(3, 1, 2)});
        put("guava-multimap", multimap());
        put("guava-others", new Object[] {Optional.of("o"), Range.closedOpen(1, 5), HostAndPort.fromParts("h", 80),
            HashMultiset.create(List.of("x", "x")), HashBiMap.create(Map.of("l", "r"))});
        put("guava-table", table());
        put("guava-bloom-filter", BloomFilter.create(Funnels.integerFunnel(), 10));
        put("commons-lang", new Object[] {Pair.of("left", 2), new MutableInt(4), org.apache.commons.lang3.Range.between(1, 2)});
        KINDS.put("blocks-and-resets", out -> {
            out.writeInt(1);
            out.write(new byte[1500]);
            out.writeObject("between");
            out.reset();
            out.writeUTF("utf");
            out.writeObject("between");
            out.writeUnshared(new Address());
        });
        KINDS.put("nested-stream", out -> {
            ByteArrayOutputStream bytes = new ByteArrayOutputStream();
            try (ObjectOutputStream inner = new ObjectOutputStream(bytes)) {
                inner.writeObject(new Address());
            }
            out.writeObject(bytes.toByteArray());
        });
        KINDS.put("descriptors", out -> {
            out.writeObject(java.io.ObjectStreamClass.lookup(Person.class));
            out.writeObject(java.io.ObjectStreamClass.lookup(String[].class));
        });
        KINDS.put("nothing", out -> {});
    }

    private static Properties properties() {
        Properties properties = new Properties(new Properties());
        properties.setProperty("key", "value");
        return properties;
    }

    private static Calendar calendar() {
        Calendar calendar = new GregorianCalendar(TimeZone.getTimeZone("GMT"), Locale.ROOT);
        calendar.setTimeInMillis(0);
        return calendar;
    }

    private static DefaultMutableTreeNode tree() {
        DefaultMutableTreeNode root = new DefaultMutableTreeNode("root");
        DefaultMutableTreeNode child = new DefaultMutableTreeNode(1);
        child.add(new DefaultMutableTreeNode(2L));
        root.add(child);
        return root;
    }

    private static DefaultListModel<String> listModel() {
        DefaultListModel<String> model = new DefaultListModel<>();
        model.addElement("first");
        return model;
    }

    private static ArrayListMultimap<String, Integer> multimap() {
        ArrayListMultimap<String, Integer> multimap = ArrayListMultimap.create();
        multimap.put("k", 1);
        multimap.put("k", 2);
        return multimap;
    }

    private static HashBasedTable<String, String, Integer> table() {
        HashBasedTable<String, String, Integer> table = HashBasedTable.create();
        table.put("row", "column", 1);
        return table;
    }

    public static void main(String[] args) throws Exception {
        fill();
        Path folder = Path.of(args[0]);
        Files.createDirectories(folder);
        for (Map.Entry<String, Writes> kind : KINDS.entrySet()) {
            ByteArrayOutputStream bytes = new ByteArrayOutputStream();
            try (ObjectOutputStream out = new ObjectOutputStream(bytes)) {
                kind.getValue().to(out);
            }
            Files.write(folder.resolve(kind.getKey() + ".ser"), bytes.toByteArray());
        }
    }
}
