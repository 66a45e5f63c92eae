import java.io.BufferedReader;
import java.io.ByteArrayOutputStream;
import java.io.IOException;
import java.io.InputStreamReader;
import java.io.ObjectOutputStream;
import java.io.Serializable;
import java.util.ArrayList;
import java.util.Arrays;
import java.util.HashMap;
import java.util.List;
import java.util.Map;
import java.util.concurrent.Callable;
import java.util.concurrent.CountDownLatch;
import java.util.concurrent.ExecutorService;
import java.util.concurrent.Executors;
import java.util.concurrent.Future;
import java.util.concurrent.Semaphore;
import java.util.concurrent.TimeUnit;
import java.util.zip.DeflaterOutputStream;
import javax.jms.BytesMessage;
import javax.jms.Connection;
import javax.jms.DeliveryMode;
import javax.jms.JMSException;
import javax.jms.Message;
import javax.jms.MessageConsumer;
import javax.jms.MessageProducer;
import javax.jms.ObjectMessage;
import javax.jms.Session;
import javax.jms.TextMessage;
import org.apache.activemq.ActiveMQConnectionFactory;
import org.apache.activemq.command.ActiveMQObjectMessage;
import org.apache.activemq.util.ByteSequence;

/** Producers and consumers of a broker: {@code Clients URL} answers each line of its input with lines, the last of which is a dot. */
public final class Clients {
    private final ActiveMQConnectionFactory factory;
    private final Semaphore toldByListener = new Semaphore(0);
    private final Connection connection;

    private Clients(String url) throws JMSException {
        factory = new ActiveMQConnectionFactory(url);
        factory.setTrustAllPackages(true);
        connection = connect();
    }

    private Connection connect() throws JMSException {
        Connection made = factory.createConnection();
        made.setExceptionListener(told -> {
            System.out.println("the listener is told: " + told.getMessage());
            toldByListener.release();
        });
        made.start();
        return made;
    }

    /** An object of classes of the JDK. */
    private static Serializable good() {
        return new HashMap<>(Map.of("customer", "ann", "lines", new ArrayList<>(List.of("tea", 1, 2L))));
    }

    private static byte[] written(Object object) throws IOException {
        ByteArrayOutputStream bytes = new ByteArrayOutputStream();
        try (ObjectOutputStream out = new ObjectOutputStream(bytes)) {
            out.writeObject(object);
        }
        return bytes.toByteArray();
    }

    private static byte[] deflated(byte[] bytes) throws IOException {
        ByteArrayOutputStream made = new ByteArrayOutputStream();
        try (DeflaterOutputStream out = new DeflaterOutputStream(made)) {
            out.write(bytes);
        }
        return made.toByteArray();
    }

    /** An object message whose body is these bytes. */
    private static Message object(byte[] content, boolean isCompressed) {
        ActiveMQObjectMessage message = new ActiveMQObjectMessage();
        message.setContent(new ByteSequence(content));
        message.setCompressed(isCompressed);
        return message;
    }

    private static Message bytes(Session session, byte[] content) throws JMSException {
        BytesMessage message = session.createBytesMessage();
        message.writeBytes(content);
        return message;
    }

    /** A message of a kind; one that begins with {@code deflated-} is compressed by the client. */
    private Message message(Session session, String kind) throws Exception {
        switch (kind.replace("deflated-", "")) {
            case "good":
                return session.createObjectMessage(good());
            case "hostile":
                return session.createObjectMessage(new Hostile());
            case "bytes-good":
                return bytes(session, written(good()));
            case "bytes-hostile":
                return bytes(session, written(new Hostile()));
            case "bytes-other":
                return bytes(session, new byte[3_000_000]);
            case "text":
                return session.createTextMessage("a text");
            case "cut":
                byte[] whole = written(good());
                return object(Arrays.copyOf(whole, whole.length - 1), false);
            case "damaged":
                byte[] damaged = deflated(written(good()));
                return object(Arrays.copyOf(damaged, damaged.length / 2), true);
            case "bomb":
                return object(deflated(written(new byte[5_000_000])), true);
            default:
                throw new IllegalArgumentException(kind);
        }
    }

    /** Sends a message of each kind to a queue, and says what each sender was told. */
    private void send(String queue, List<String> kinds, boolean isAsync) throws Exception {
        for (String kind : kinds) {
            factory.setUseCompression(kind.startsWith("deflated-"));
            factory.setUseAsyncSend(isAsync);
            Connection own = connect();
            Session session = own.createSession(false, Session.AUTO_ACKNOWLEDGE);
            System.out.println(kind + ": " + sent(session, session.createProducer(session.createQueue(queue)), kind));
            if (isAsync) {
                toldByListener.tryAcquire(10, TimeUnit.SECONDS);
            }
            own.close();
        }
        factory.setUseCompression(false);
        factory.setUseAsyncSend(false);
    }

    private String sent(Session session, MessageProducer producer, String kind) throws Exception {
        try {
            producer.send(message(session, kind));
            return "sent";
        } catch (JMSException told) {
            return told.getMessage();
        }
    }

    /** A transaction in which the second of three messages is hostile. */
    private void sendTogether(String queue) throws Exception {
        Session session = connection.createSession(true, Session.SESSION_TRANSACTED);
        MessageProducer producer = session.createProducer(session.createQueue(queue));
        for (String kind : List.of("good", "hostile", "good")) {
            sent(session, producer, kind);
        }
        try {
            session.commit();
            System.out.println("committed");
        } catch (JMSException told) {
            System.out.println("not committed");
        }
        toldByListener.tryAcquire(10, TimeUnit.SECONDS);
        session.close();
    }

    /** Sends hostile messages without waiting, as far as the broker says that it has taken those before. */
    private void sendWithWindow(String queue, int count) throws Exception {
        factory.setProducerWindowSize(2000);
        factory.setUseAsyncSend(true);
        Connection own = connect();
        factory.setUseAsyncSend(false);
        factory.setProducerWindowSize(0);
        Session session = own.createSession(false, Session.AUTO_ACKNOWLEDGE);
        MessageProducer producer = session.createProducer(session.createQueue(queue));
        producer.setDeliveryMode(DeliveryMode.NON_PERSISTENT);
        for (int i = 0; i < count; i++) {
            producer.send(session.createObjectMessage(new Hostile()));
        }
        own.close();
        System.out.println("sent " + count);
    }

    /** Receives the first message of a queue, and goes away; it is dispatched again to the next consumer if it is not committed. */
    private void receiveOne(String queue, boolean isCommitted) throws Exception {
        Session session = connection.createSession(true, Session.SESSION_TRANSACTED);
        System.out.println(told(session.createConsumer(session.createQueue(queue)).receive(20_000)));
        if (isCommitted) {
            session.commit();
        }
        session.close();
    }

    /** Reads all messages of a queue, up to one that is sent here, as a consumer that trusts the broker does. */
    private void receive(String queue) throws Exception {
        Session session = connection.createSession(false, Session.AUTO_ACKNOWLEDGE);
        session.createProducer(session.createQueue(queue)).send(session.createTextMessage("the end"));
        MessageConsumer consumer = session.createConsumer(session.createQueue(queue));
        for (String told; !(told = told(consumer.receive(20_000))).equals("the end"); ) {
            System.out.println(told);
        }
        session.close();
    }

    private static String told(Message message) throws Exception {
        String reason = message.getStringProperty("serialcheck_refused");
        String behind = reason == null ? "" : ", " + reason + (message.propertyExists("serialcheck_destination") ? " of " + message.getStringProperty("serialcheck_destination") : "");
        if (message instanceof ObjectMessage) {
            try {
                return "object " + ((ObjectMessage) message).getObject() + behind;
            } catch (JMSException unreadable) {
                return "an object that cannot be read" + behind;
            }
        }
        if (message instanceof BytesMessage) {
            byte[] body = new byte[(int) ((BytesMessage) message).getBodyLength()];
            ((BytesMessage) message).readBytes(body);
            return "bytes " + (isHostile(body) ? "of the hostile object" : String.valueOf(body.length)) + behind;
        }
        return ((TextMessage) message).getText() + behind;
    }

    /** Whether bytes are those of the hostile object; the client's library writes a reset behind the object of an object message. */
    private static boolean isHostile(byte[] body) throws IOException {
        byte[] hostile = written(new Hostile());
        byte[] inMessage = Arrays.copyOf(hostile, hostile.length + 1);
        inMessage[hostile.length] = ObjectOutputStream.TC_RESET;
        return Arrays.equals(body, hostile) || Arrays.equals(body, inMessage);
    }

    /** Several clients at once, each with a connection of its own; one message of ten is hostile. */
    private void sendMany(String queue, int clients, int count) throws Exception {
        ExecutorService pool = Executors.newFixedThreadPool(clients);
        CountDownLatch begin = new CountDownLatch(clients);
        List<Future<Integer>> sent = new ArrayList<>();
        factory.setAlwaysSyncSend(true);
        Callable<Integer> client = () -> {
            Connection own = connect();
            Session session = own.createSession(false, Session.AUTO_ACKNOWLEDGE);
            MessageProducer producer = session.createProducer(session.createQueue(queue));
            producer.setDeliveryMode(DeliveryMode.NON_PERSISTENT);
            begin.countDown();
            begin.await();
            int accepted = 0;
            for (int i = 0; i < count; i++) {
                accepted += sent(session, producer, i % 10 == 3 ? "hostile" : "good").equals("sent") ? 1 : 0;
            }
            own.close();
            return accepted;
        };
        for (int i = 0; i < clients; i++) {
            sent.add(pool.submit(client));
        }
        int accepted = 0;
        for (Future<Integer> it : sent) {
            accepted += it.get(60, TimeUnit.SECONDS);
        }
        pool.shutdown();
        factory.setAlwaysSyncSend(false);
        System.out.println("accepted " + accepted);
    }

    /** How long one client waits for the broker's answer to a message, in the mean. */
    private void time(String queue, int count) throws Exception {
        factory.setAlwaysSyncSend(true);
        Connection own = connect();
        factory.setAlwaysSyncSend(false);
        Session session = own.createSession(false, Session.AUTO_ACKNOWLEDGE);
        MessageProducer producer = session.createProducer(session.createQueue(queue));
        producer.setDeliveryMode(DeliveryMode.NON_PERSISTENT);
        long least = Long.MAX_VALUE;
        for (int round = 0; round < 5; round++) {
            long begin = System.nanoTime();
            for (int i = 0; i < count; i++) {
                producer.send(session.createObjectMessage(good()));
            }
            least = Math.min(least, System.nanoTime() - begin);
        }
        own.close();
        System.out.println(least / count / 1000);
    }

    private void answer(String[] words) throws Exception {
        switch (words[0]) {
            case "send":
            case "send-async":
                send(words[1], Arrays.asList(words).subList(2, words.length), words[0].endsWith("async"));
                break;
            case "send-together":
                sendTogether(words[1]);
                break;
            case "send-many":
                sendMany(words[1], Integer.parseInt(words[2]), Integer.parseInt(words[3]));
                break;
            case "send-with-window":
                sendWithWindow(words[1], Integer.parseInt(words[2]));
                break;
            case "receive-one":
            case "receive-one-and-commit":
                receiveOne(words[1], words[0].endsWith("commit"));
                break;
            case "receive":
                receive(words[1]);
                break;
            case "time":
                time(words[1], Integer.parseInt(words[2]));
                break;
            default:
                throw new IllegalArgumentException(words[0]);
        }
    }

    public static void main(String[] words) throws Exception {
        Clients clients = new Clients(words[0]);
        System.out.println("connected\n.");
        BufferedReader lines = new BufferedReader(new InputStreamReader(System.in));
        for (String line; (line = lines.readLine()) != null; ) {
            try {
                clients.answer(line.split(" "));
            } catch (Exception failed) {
                System.out.println("failed: " + failed);
            }
            System.out.println(".");
        }
        System.exit(0);
    }
}
