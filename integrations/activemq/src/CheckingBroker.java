package serialcheck.activemq;

import java.io.IOException;
import java.util.function.Supplier;
import javax.jms.JMSException;
import org.apache.activemq.broker.Broker;
import org.apache.activemq.broker.BrokerFilter;
import org.apache.activemq.broker.ConnectionContext;
import org.apache.activemq.broker.ProducerBrokerExchange;
import org.apache.activemq.command.Message;
import org.apache.activemq.command.MessageDispatch;
import org.apache.activemq.command.ProducerAck;
import org.slf4j.Logger;
import org.slf4j.LoggerFactory;
import serialcheck.Guard;
import serialcheck.GuardSettings;
import serialcheck.GuardSettings.OnRefusal;
import serialcheck.Refused;

/**
 * The broker with the check in front: a body is judged when it is sent, and again when it is dispatched, for what was stored
 * before the plugin, or its filter, was there. A refused body is not sent on; one that was stored is taken out of the message.
 */
final class CheckingBroker extends BrokerFilter {
    /** The property that tells a consumer why a message has no body. */
    static final String REASON = "serialcheck_refused";
    private static final Logger LOG = LoggerFactory.getLogger("serialcheck");

    private final Guard guard;
    private final RefusedQueue refused;

    CheckingBroker(Broker next, GuardSettings settings, String quarantine) throws IOException {
        super(next);
        guard = Guard.withoutFolder("activemq", settings, LOG::warn);
        refused = new RefusedQueue(next, quarantine);
    }

    @Override
    public void send(ProducerBrokerExchange exchange, Message message) throws Exception {
        try {
            Body.check(guard, sent(exchange, message), message);
        } catch (Refused why) {
            if (guard.getOnRefusal() != OnRefusal.QUARANTINE) {
                throw new JMSException("serialcheck refused the body: " + why.line());
            }
            refused.keep(message, why);
            acknowledge(exchange, message);
            return;
        }
        super.send(exchange, message);
    }

    @Override
    public void preProcessDispatch(MessageDispatch dispatch) {
        Message message = dispatch.getMessage();
        if (message != null && !refused.has(message)) {
            try {
                Body.check(guard, stored(message), message);
            } catch (Refused why) {
                dispatch.setMessage(replaced(message, why));
            }
        }
        super.preProcessDispatch(dispatch);
    }

    @Override
    public void stop() throws Exception {
        super.stop();
        guard.close();
    }

    /** What a consumer gets in place of a refused message: the same without a body. It knows its place in the broker, as a copy does. */
    private Message replaced(Message message, Refused why) {
        try {
            if (guard.getOnRefusal() == OnRefusal.QUARANTINE) {
                refused.keep(message, why);
            }
            Message empty = message.copy();
            empty.clearBody();
            empty.setProperty(REASON, why.line());
            return empty;
        } catch (Exception failed) {
            throw new IllegalStateException(failed); // so that the message is not dispatched
        }
    }

    /** A producer with a window waits for this answer to what it sent. */
    private static void acknowledge(ProducerBrokerExchange exchange, Message message) {
        ConnectionContext context = exchange.getConnectionContext();
        if (exchange.getProducerState() != null && exchange.getProducerState().getInfo().getWindowSize() > 0 && !message.isInTransaction()) {
            context.getConnection().dispatchAsync(new ProducerAck(message.getProducerId(), message.getSize()));
        }
    }

    private static Supplier<String> sent(ProducerBrokerExchange exchange, Message message) {
        ConnectionContext context = exchange.getConnectionContext();
        return () -> "message " + message.getMessageId() + " to " + message.getDestination().getQualifiedName()
            + (context == null || context.getConnection() == null ? "" : " from " + context.getConnection().getRemoteAddress())
            + (context == null || context.getUserName() == null ? "" : " by " + context.getUserName());
    }

    private static Supplier<String> stored(Message message) {
        return () -> "stored message " + message.getMessageId() + " of " + message.getDestination().getQualifiedName();
    }
}
