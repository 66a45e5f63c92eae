package serialcheck.activemq;

import org.apache.activemq.broker.Broker;
import org.apache.activemq.broker.BrokerPlugin;
import serialcheck.GuardSettings;

/** The broker plugin that activemq.xml names: its settings, by setters as the elements {@code property} want them. */
public final class SerialCheckPlugin implements BrokerPlugin {
    private final GuardSettings settings = new GuardSettings();
    private String quarantine = "serialcheck.refused";

    public void setFilter(String text) {
        settings.setFilter(text);
    }

    public void setFilterFile(String file) {
        settings.setFilterFile(file);
    }

    public void setStrict(boolean strict) {
        settings.setStrict(strict);
    }

    public void setAnywhere(boolean anywhere) {
        settings.setAnywhere(anywhere);
    }

    public void setMost(int bytes) {
        settings.setMost(bytes);
    }

    public void setOnRefusal(String word) {
        settings.setOnRefusal(word);
    }

    /** The queue that gets refused bodies with {@code quarantine}. */
    public void setQuarantine(String queue) {
        quarantine = queue;
    }

    @Override
    public Broker installPlugin(Broker next) throws Exception {
        return new CheckingBroker(next, settings, quarantine);
    }
}
