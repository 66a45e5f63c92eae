import java.io.BufferedReader;
import java.io.ByteArrayOutputStream;
import java.io.IOException;
import java.io.InputStreamReader;
import java.io.ObjectOutputStream;
import java.net.InetSocketAddress;
import java.util.ArrayList;
import java.util.Arrays;
import java.util.Collections;
import java.util.HashMap;
import java.util.List;
import java.util.Map;
import java.util.concurrent.Callable;
import java.util.concurrent.ExecutorService;
import java.util.concurrent.Executors;
import java.util.concurrent.Future;
import java.util.concurrent.TimeUnit;
import java.util.zip.GZIPOutputStream;
import net.spy.memcached.CachedData;
import net.spy.memcached.ConnectionFactoryBuilder;
import net.spy.memcached.MemcachedClient;
import net.spy.memcached.transcoders.SerializingTranscoder;
import net.spy.memcached.transcoders.Transcoder;
import serialcheck.GuardSettings;
import serialcheck.memcached.CheckedTranscoder;

/**
 * Clients of a memcached, one with the client's own transcoder and three with checked ones: {@code Caches PORT FILTERFILE FOLDER}
 * answers each line of its input with lines, the last of which is a dot.
 */
public final class Caches {
    private static final int SERIALIZED = 1;
    private static final int COMPRESSED = 2;

    private final int port;
    private final Map<String, MemcachedClient> clients = new HashMap<>();

    private Caches(String[] words) throws IOException {
        port = Integer.parseInt(words[0]);
        clients.put("plain", client(new SerializingTranscoder()));
        clients.put("reject", client(checkedTranscoder(words[1])));
        clients.put("quarantine", client(transcoder(words[1], "quarantine", words[2])));
        clients.put("report", client(transcoder(words[1], "report", null)));
    }

    static Transcoder<Object> checkedTranscoder(String filterFile) throws IOException {
        GuardSettings settings = new GuardSettings();
        settings.setFilterFile(filterFile);
        return new CheckedTranscoder(settings);
    }

    private static Transcoder<Object> transcoder(String filterFile, String onRefusal, String quarantine) throws IOException {
        GuardSettings settings = new GuardSettings();
        settings.setFilterFile(filterFile);
        settings.setOnRefusal(onRefusal);
        settings.setQuarantine(quarantine);
        return new CheckedTranscoder(settings);
    }

    /** What comes of a transcoder under a filter's text, between bars. */
    private static String made(String text) throws IOException {
        GuardSettings settings = new GuardSettings();
        settings.setFilter(text.substring(1, text.length() - 1));
        try {
            new CheckedTranscoder(settings).close();
            return "made";
        } catch (IllegalArgumentException faulty) {
            return faulty.getMessage();
        }
    }

    private MemcachedClient client(Transcoder<Object> transcoder) throws IOException {
        return new MemcachedClient(new ConnectionFactoryBuilder().setOpTimeout(20_000).setTranscoder(transcoder).build(), List.of(new InetSocketAddress("127.0.0.1", port)));
    }

    /** An object of classes of the JDK. */
    private static HashMap<String, Object> good() {
        return new HashMap<>(Map.of("customer", "ann", "lines", new ArrayList<>(List.of("tea", 1, 2L))));
    }

    private static byte[] written(Object object) throws IOException {
        ByteArrayOutputStream bytes = new ByteArrayOutputStream();
        try (ObjectOutputStream out = new ObjectOutputStream(bytes)) {
            out.writeObject(object);
        }
        return bytes.toByteArray();
    }

    private static byte[] zipped(byte[] bytes) throws IOException {
        ByteArrayOutputStream made = new ByteArrayOutputStream();
        try (GZIPOutputStream out = new GZIPOutputStream(made)) {
            out.write(bytes);
        }
        return made.toByteArray();
    }

    /** A value so long that the client compresses it. */
    private static List<Object> big(Object last) {
        List<Object> made = new ArrayList<>(Collections.nCopies(20_000, "the same again"));
        made.add(last);
        return made;
    }

    /** Stores a value of a kind, some of them as no client would write it. */
    private void set(String key, String kind) throws Exception {
        byte[] hostile = written(new Hostile());
        switch (kind) {
            case "good":
                store(key, good());
                break;
            case "hostile":
                store(key, new Hostile());
                break;
            case "big":
                store(key, big("a text"));
                break;
            case "big-hostile":
                store(key, big(new Hostile()));
                break;
            case "text":
                store(key, "a text");
                break;
            case "big-text":
                store(key, "a".repeat(100_000));
                break;
            case "number":
                store(key, 17L);
                break;
            case "cut":
                store(key, SERIALIZED, Arrays.copyOf(hostile, hostile.length - 1));
                break;
            case "damaged":
                store(key, SERIALIZED | COMPRESSED, Arrays.copyOf(zipped(hostile), 20));
                break;
            case "not-zipped":
                store(key, SERIALIZED | COMPRESSED, hostile);
                break;
            case "bomb":
                store(key, SERIALIZED | COMPRESSED, zipped(new byte[5_000_000]));
                break;
            default:
                throw new IllegalArgumentException(kind);
        }
    }

    private void store(String key, Object value) throws Exception {
        clients.get("plain").set(key, 0, value).get(20, TimeUnit.SECONDS);
    }

    private void store(String key, int flags, byte[] bytes) throws Exception {
        clients.get("plain").set(key, 0, bytes, new Transcoder<byte[]>() {
            @Override
            public boolean asyncDecode(CachedData data) {
                return false;
            }

            @Override
            public CachedData encode(byte[] value) {
                return new CachedData(flags, value, getMaxSize());
            }

            @Override
            public byte[] decode(CachedData data) {
                return data.getData();
            }

            @Override
            public int getMaxSize() {
                return CachedData.MAX_SIZE;
            }
        }).get(20, TimeUnit.SECONDS);
    }

    private static String shown(Object value) {
        if (value instanceof List) {
            return "a list of " + ((List<?>) value).size();
        }
        String text = String.valueOf(value instanceof Hostile ? "a hostile object" : value);
        return text.length() > 100 ? "a text of " + text.length() : text;
    }

    /** Several clients at once, each with a connection of its own: how many values they get. */
    private void getMany(int count, int rounds, String filterFile, String good, String hostile) throws Exception {
        Transcoder<Object> shared = checkedTranscoder(filterFile);
        ExecutorService pool = Executors.newFixedThreadPool(count);
        Callable<Integer> client = () -> {
            MemcachedClient own = client(shared);
            int values = 0;
            for (int i = 0; i < rounds; i++) {
                values += own.get(i % 10 == 3 ? hostile : good) == null ? 0 : 1;
            }
            own.shutdown();
            return values;
        };
        int values = 0;
        for (Future<Integer> it : pool.invokeAll(Collections.nCopies(count, client))) {
            values += it.get();
        }
        pool.shutdown();
        System.out.println(values);
    }

    /** How long a get takes, in nanoseconds: the least mean of some rounds. */
    private void time(String client, String key, int count) {
        long least = Long.MAX_VALUE;
        for (int round = 0; round < 8; round++) {
            long begin = System.nanoTime();
            for (int i = 0; i < count; i++) {
                clients.get(client).get(key);
            }
            least = Math.min(least, System.nanoTime() - begin);
        }
        System.out.println(least / count / 1000);
    }

    private void answer(String[] words) throws Exception {
        switch (words[0]) {
            case "set":
                set(words[1], words[2]);
                break;
            case "get":
                System.out.println(shown(clients.get(words[1]).get(words[2])));
                break;
            case "get-many":
                getMany(Integer.parseInt(words[1]), Integer.parseInt(words[2]), words[3], words[4], words[5]);
                break;
            case "make":
                System.out.println(made(words[1].replace("NO-BREAK-SPACE", "\u00a0")));
                break;
            case "time":
                time(words[1], words[2], Integer.parseInt(words[3]));
                break;
            default:
                throw new IllegalArgumentException(words[0]);
        }
    }

    public static void main(String[] words) throws Exception {
        // The client's own threads log a line in several writes, and one stream keeps lines whole.
        System.setErr(System.out);
        Caches caches = new Caches(words);
        System.out.println("connected\n.");
        BufferedReader lines = new BufferedReader(new InputStreamReader(System.in));
        for (String line; (line = lines.readLine()) != null; ) {
            try {
                caches.answer(line.split(" "));
            } catch (Exception failed) {
                System.out.println("failed: " + failed);
            }
            System.out.println(".");
        }
        System.exit(0);
    }
}
