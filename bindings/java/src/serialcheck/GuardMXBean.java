package serialcheck;

import java.util.Map;

/** What JMX shows of a {@link Guard}, as {@code serialcheck:type=Guard,name=..}. */
public interface GuardMXBean {
    /**
     * How many streams were admitted.
     *
     * @return a number since the guard was made
     */
    long getAdmitted();

    /**
     * How many were refused, or with {@code report} would have been.
     *
     * @return a number since the guard was made
     */
    long getRefused();

    /**
     * How many refusals there were by reason and class.
     *
     * @return numbers by names such as {@code ClassRejected "java.util.ArrayList"}; at most some 200 of them, and with each reason one more for all
     *     other classes
     */
    Map<String, Long> getRefusals();

    /**
     * What becomes of a refused stream.
     *
     * @return the setting
     */
    GuardSettings.OnRefusal getOnRefusal();
}
