package serialcheck;

/** How a filter is asked. */
public enum Flag {
    /** Refuse a class that no pattern matches. */
    STRICT(1),
    /** Ask the filter about every class name that can be read at any place of the bytes. */
    ANYWHERE(2),
    /** Take a filter without a pattern, which would let each class pass, for a faulty one. Guards ask so. */
    NEED_PATTERN(4);

    private final int bit;

    Flag(int bit) {
        this.bit = bit;
    }

    static int bits(Flag... flags) {
        int bits = 0;
        for (Flag flag : flags) {
            bits |= flag.bit;
        }
        return bits;
    }
}
