package serialcheck;

import java.util.Map;
import java.util.TreeMap;
import java.util.concurrent.atomic.LongAdder;

/** What a guard counts. Who sends streams chooses class names, so those beyond a bound are counted together. */
final class GuardCounts {
    private static final int MOST_NAMES = 200;

    private final LongAdder admitted = new LongAdder();
    private final LongAdder refused = new LongAdder();
    private final Map<String, Long> byName = new TreeMap<>();

    void admit() {
        admitted.increment();
    }

    /** What was counted as admitted is refused. */
    void retract() {
        admitted.decrement();
    }

    void refuse(Refused why) {
        refused.increment();
        String name = why.shortName();
        String key = name == null ? why.reason() : why.reason() + " \"" + name + "\"";
        synchronized (byName) {
            byName.merge(byName.size() < MOST_NAMES || byName.containsKey(key) ? key : why.reason() + " of other classes", 1L, Long::sum);
        }
    }

    long admitted() {
        return admitted.sum();
    }

    long refused() {
        return refused.sum();
    }

    Map<String, Long> byName() {
        synchronized (byName) {
            return new TreeMap<>(byName);
        }
    }
}
