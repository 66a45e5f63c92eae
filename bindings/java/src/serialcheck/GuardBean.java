package serialcheck;

import java.lang.management.ManagementFactory;
import javax.management.InstanceAlreadyExistsException;
import javax.management.JMException;
import javax.management.MBeanServer;
import javax.management.ObjectName;

/** Shows a guard to JMX, until it is closed. Only a JVM with the module java.management loads this class. */
final class GuardBean implements AutoCloseable {
    private final MBeanServer server = ManagementFactory.getPlatformMBeanServer();
    private final ObjectName name;

    /** Registers the guard; where the name is taken, as by another application of the server, a number is put behind it. */
    GuardBean(Guard guard, String wanted) throws JMException {
        name = registered(guard, wanted);
    }

    private ObjectName registered(Guard guard, String wanted) throws JMException {
        for (int number = 1; ; number++) {
            ObjectName free = new ObjectName("serialcheck:type=Guard,name=" + ObjectName.quote(number == 1 ? wanted : wanted + " " + number));
            try {
                server.registerMBean(guard, free);
                return free;
            } catch (InstanceAlreadyExistsException taken) {
                continue;
            }
        }
    }

    @Override
    public void close() {
        try {
            server.unregisterMBean(name);
        } catch (JMException gone) {
            // Somebody else took it away.
        }
    }
}
