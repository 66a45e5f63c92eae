package serialcheck.activemq;

import org.apache.activemq.broker.Broker;
import org.apache.activemq.broker.ProducerBrokerExchange;
import org.apache.activemq.command.ActiveMQBytesMessage;
import org.apache.activemq.command.ActiveMQQueue;
import org.apache.activemq.command.Message;
import org.apache.activemq.command.ProducerInfo;
import org.apache.activemq.state.ProducerState;
import org.apache.activemq.util.BrokerSupport;
import serialcheck.Refused;

/** The queue of refused bodies: bytes messages, from which no getObject reads, each with the reason as a property. */
final class RefusedQueue {
    private final Broker broker;
    private final ActiveMQQueue queue;

    /** A queue of this name, behind the broker that keeps it. */
    RefusedQueue(Broker broker, String name) {
        this.broker = broker;
        queue = new ActiveMQQueue(name);
    }

    /** Whether a message lies in the queue as this class put it there. */
    boolean has(Message message) {
        return message instanceof ActiveMQBytesMessage && queue.equals(message.getDestination());
    }

    /**
     * Keeps a message's body as it came, by the broker's own leave and outside of the producer's transaction. It has the id of the
     * message, so the broker takes it once, though a stored message is dispatched to each subscriber, and again after a rollback.
     */
    void keep(Message message, Refused why) throws Exception {
        ActiveMQBytesMessage kept = new ActiveMQBytesMessage();
        kept.setMessageId(message.getMessageId());
        kept.setProducerId(message.getProducerId());
        kept.setTimestamp(message.getTimestamp());
        kept.setPersistent(true);
        kept.setContent(message.getContent());
        kept.setDestination(queue);
        kept.setOriginalDestination(message.getDestination());
        kept.setProperty(CheckingBroker.REASON, why.line());
        kept.setProperty("serialcheck_destination", message.getDestination().getQualifiedName());
        kept.setProperty("serialcheck_compressed", message.isCompressed());
        ProducerBrokerExchange exchange = new ProducerBrokerExchange();
        exchange.setProducerState(new ProducerState(new ProducerInfo()));
        exchange.setMutable(true);
        exchange.setConnectionContext(BrokerSupport.getConnectionContext(broker));
        broker.send(exchange, kept);
    }
}
