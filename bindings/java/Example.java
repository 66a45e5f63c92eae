import java.io.ByteArrayInputStream;
import java.io.ByteArrayOutputStream;
import java.io.IOException;
import java.io.InputStream;
import java.io.ObjectInputStream;
import java.io.ObjectOutputStream;
import java.io.OutputStream;
import java.io.Serializable;
import java.util.ArrayList;
import java.util.Arrays;
import java.util.Iterator;
import java.util.List;
import java.util.Map;
import java.util.concurrent.Callable;
import java.util.zip.GZIPInputStream;
import java.util.zip.GZIPOutputStream;
import serialcheck.Filter;
import serialcheck.Flag;
import serialcheck.Guard;
import serialcheck.GuardSettings;
import serialcheck.Refused;
import serialcheck.Report;
import serialcheck.Stream;

/** How a message consumer, a servlet filter, a gateway, an upload and a job call the check. Copy what you need. */
public final class Example {
    static final int MOST = 1 << 20;
    static final String LIMITS = "maxbytes=1048576;maxdepth=20;maxrefs=10000;maxarray=10000;";

    /** A message whose class the consumer knows. */
    static final class Order implements Serializable {
        private static final long serialVersionUID = 1;
        final String item;
        final int count;

        Order(String item, int count) {
            this.item = item;
            this.count = count;
        }

        @Override
        public String toString() {
            return count + " " + item;
        }
    }

    /** Harmless, but its code runs while it is read: what a gadget does. */
    static final class Gadget implements Serializable {
        private static final long serialVersionUID = 1;
        static int ran;

        private void readObject(ObjectInputStream in) throws IOException, ClassNotFoundException {
            ran++;
            in.defaultReadObject();
        }
    }

    // A message consumer, as of JMS: one filter for each consumer.
    static final class Consumer {
        private final Filter filter = new Filter(LIMITS + "Example$Order;java.lang.*;!*", Flag.ANYWHERE);

        Order order(byte[] body) throws IOException, ClassNotFoundException {
            try (ObjectInputStream in = filter.open(new ByteArrayInputStream(body), MOST)) {
                return (Order) in.readObject();
            }
        }
    }

    // A servlet filter: the status that it sends, and the body only where it is accepted.
    static final class BodyFilter {
        private final Filter filter = new Filter(LIMITS + "java.util.*;java.lang.*;!*", Flag.STRICT, Flag.ANYWHERE);

        int doFilter(InputStream body, Callable<Integer> chain) throws Exception {
            byte[] bytes = body.readNBytes(MOST + 1);
            if (bytes.length > MOST) {
                return 413;
            }
            try {
                filter.check(bytes);
            } catch (Refused refused) {
                return 400;
            }
            return chain.call();
        }
    }

    // A gateway: it forwards the very bytes that were checked, and reads no object itself.
    static final class Gateway {
        private final Filter filter = new Filter(LIMITS + "java.util.*;java.lang.*;!*", Flag.ANYWHERE);

        Report forward(byte[] bytes, OutputStream behind) throws IOException {
            byte[] mine = bytes.clone();
            Report report = filter.check(mine);
            behind.write(mine);
            return report;
        }
    }

    // An upload: it is cut off at the piece that decides against it, and handed on once all of it is accepted.
    static byte[] upload(InputStream from, Filter filter) throws IOException {
        ByteArrayOutputStream kept = new ByteArrayOutputStream();
        byte[] piece = new byte[8192];
        try (Stream stream = filter.stream()) {
            for (int length; (length = from.read(piece)) >= 0; ) {
                stream.feed(piece, 0, length);
                kept.write(piece, 0, length);
            }
            stream.end();
        }
        return kept.toByteArray();
    }

    // A compressed body: what comes out of it is bounded, and then checked.
    static Object unzipped(InputStream body, Filter filter) throws IOException, ClassNotFoundException {
        try (ObjectInputStream in = filter.open(new GZIPInputStream(body), MOST)) {
            return in.readObject();
        }
    }

    // One partition: the filter is made once, and each record is checked before it is read.
    static List<Object> partition(Iterator<byte[]> records) throws IOException, ClassNotFoundException {
        List<Object> read = new ArrayList<>();
        try (Filter filter = new Filter(LIMITS + "java.util.*;java.lang.*;!*", Flag.ANYWHERE)) {
            while (records.hasNext()) {
                try (ObjectInputStream in = filter.open(new ByteArrayInputStream(records.next()), MOST)) {
                    read.add(in.readObject());
                }
            }
        }
        return read;
    }

    // Inside of a server: settings by their names, a line of the log for each refusal, and counts, which JMX shows too.
    static final class Cache {
        private final Guard guard;

        Cache(Map<String, String> settings) throws IOException {
            GuardSettings made = new GuardSettings();
            settings.forEach(made::set);
            guard = new Guard("cache", made, System.out::println);
        }

        Object value(String key, InputStream stored) throws IOException, ClassNotFoundException {
            try (ObjectInputStream in = new ObjectInputStream(guard.open(() -> "the value of " + key, stored))) {
                return in.readObject();
            }
        }
    }

    static byte[] written(Object... objects) throws IOException {
        ByteArrayOutputStream bytes = new ByteArrayOutputStream();
        try (ObjectOutputStream out = new ObjectOutputStream(bytes)) {
            for (Object object : objects) {
                out.writeObject(object);
            }
        }
        return bytes.toByteArray();
    }

    static byte[] zipped(byte[] plain) throws IOException {
        ByteArrayOutputStream bytes = new ByteArrayOutputStream();
        try (OutputStream out = new GZIPOutputStream(bytes)) {
            out.write(plain);
        }
        return bytes.toByteArray();
    }

    static void tell(String what, Callable<?> call) {
        String answer;
        try {
            answer = String.valueOf(call.call());
        } catch (Refused refused) {
            answer = "refused: " + refused.reason();
        } catch (Exception other) {
            answer = other.toString();
        }
        System.out.println(what + ": " + answer);
    }

    public static void main(String[] words) throws Exception {
        Consumer consumer = new Consumer();
        BodyFilter body = new BodyFilter();
        Gateway gateway = new Gateway();
        byte[] order = written(new Order("tea", 3));
        byte[] gadget = written(new Gadget());
        byte[] hidden = written(new ArrayList<>(List.of("a", new Gadget())));
        byte[] several = written(2, "user", "ann", "cart", new ArrayList<>(List.of(1, 2)));
        tell("message", () -> consumer.order(order));
        tell("message, a gadget", () -> consumer.order(gadget));
        tell("message, cut", () -> consumer.order(Arrays.copyOf(order, order.length - 1)));
        tell("body", () -> body.doFilter(new ByteArrayInputStream(several), () -> 200));
        tell("body, a gadget in a list", () -> body.doFilter(new ByteArrayInputStream(hidden), () -> 200));
        tell("body, too long", () -> body.doFilter(new ByteArrayInputStream(new byte[MOST + 1]), () -> 200));
        ByteArrayOutputStream behind = new ByteArrayOutputStream();
        tell("gateway", () -> gateway.forward(several, behind).contents() + " objects");
        tell("gateway, no stream", () -> gateway.forward(new byte[] {1, 2, 3, 4}, behind));
        System.out.println("forwarded: " + (Arrays.equals(behind.toByteArray(), several) ? "the good bytes alone" : "something else"));
        try (Filter filter = new Filter(LIMITS + "java.util.*;java.lang.*;!*", Flag.ANYWHERE)) {
            tell("upload", () -> Arrays.equals(upload(new ByteArrayInputStream(several), filter), several));
            tell("upload, a gadget in a list", () -> upload(new ByteArrayInputStream(hidden), filter));
            tell("compressed", () -> unzipped(new ByteArrayInputStream(zipped(several)), filter));
            tell("compressed, a gadget in a list", () -> unzipped(new ByteArrayInputStream(zipped(hidden)), filter));
            tell("compressed, much of nothing", () -> unzipped(new ByteArrayInputStream(zipped(new byte[MOST + 1])), filter));
        }
        tell("partition", () -> partition(List.of(written("a"), written(7)).iterator()));
        Cache cache = new Cache(Map.of("filter", LIMITS + "java.lang.*;!*", "most", "1000"));
        tell("cache", () -> cache.value("a", new ByteArrayInputStream(written(7))));
        tell("cache, a gadget", () -> cache.value("b", new ByteArrayInputStream(gadget)));
        tell("cache, a setting that there is not", () -> new Cache(Map.of("filters", "!*")));
        System.out.println("the cache refused " + cache.guard.getRefusals());
        tell("a faulty filter", () -> new Filter("java.util.*;maxdept=1"));
        System.out.println("gadgets that ran: " + Gadget.ran);
        new ObjectInputStream(new ByteArrayInputStream(gadget)).readObject();
        System.out.println("gadgets that ran where nothing checked: " + Gadget.ran);
    }
}
