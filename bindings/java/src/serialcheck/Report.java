package serialcheck;

/** The counts of a stream that is accepted. Its text is the line of the program. It never changes, so any thread may have it. */
public final class Report {
    private final Answer answer;

    Report(Answer answer) {
        this.answer = answer;
    }

    /**
     * How many bytes there are.
     *
     * @return all bytes of the stream
     */
    public long bytes() {
        return answer.bytes();
    }

    /**
     * How many contents are at the top.
     *
     * @return objects, nulls, references and pieces of block data, each for itself
     */
    public long contents() {
        return answer.contents();
    }

    /**
     * How many references there are, as the filter's {@code maxrefs} counts them.
     *
     * @return the references of the stream
     */
    public long refs() {
        return answer.refs();
    }

    /**
     * How deep objects are nested, as the filter's {@code maxdepth} counts it.
     *
     * @return the greatest depth of the stream
     */
    public long depth() {
        return answer.depth();
    }

    /**
     * How many handles the stream assigns.
     *
     * @return the handles of all epochs
     */
    public long handles() {
        return answer.handles();
    }

    @Override
    public String toString() {
        return answer.line();
    }
}
