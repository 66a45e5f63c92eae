import java.util.Map;
import java.util.TreeMap;
import javax.management.MBeanServerConnection;
import javax.management.ObjectName;
import javax.management.openmbean.CompositeData;
import javax.management.openmbean.TabularData;
import javax.management.remote.JMXConnectorFactory;
import javax.management.remote.JMXServiceURL;

/** Prints what JMX shows of all guards of a server: {@code ShownByJmx PORT}. */
public final class ShownByJmx {
    public static void main(String[] words) throws Exception {
        JMXServiceURL url = new JMXServiceURL("service:jmx:rmi:///jndi/rmi://127.0.0.1:" + words[0] + "/jmxrmi");
        try (var connector = JMXConnectorFactory.connect(url)) {
            MBeanServerConnection server = connector.getMBeanServerConnection();
            for (ObjectName name : server.queryNames(new ObjectName("serialcheck:type=Guard,*"), null)) {
                System.out.println(name + " " + server.getAttribute(name, "OnRefusal"));
                System.out.println("admitted " + server.getAttribute(name, "Admitted") + ", refused " + server.getAttribute(name, "Refused"));
                Map<String, Object> refusals = new TreeMap<>();
                for (Object row : ((TabularData) server.getAttribute(name, "Refusals")).values()) {
                    refusals.put((String) ((CompositeData) row).get("key"), ((CompositeData) row).get("value"));
                }
                refusals.forEach((key, value) -> System.out.println(value + " " + key));
            }
        }
    }
}
