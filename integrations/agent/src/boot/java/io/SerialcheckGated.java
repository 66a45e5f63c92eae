package java.io;

/** The input of a reader, which may hand out bytes that are not judged yet. Before anything acts on them, the reader asks. */
public abstract class SerialcheckGated extends InputStream {
    /** How many bytes were handed out and are not judged; not 0 too where the stream was refused. */
    public int pending;

    /** Judges them; an InvalidObjectException where they are refused, now and ever after. */
    public abstract void judge() throws IOException;

    /** The outermost object was read: what is not judged is judged, and memory may be let go until the next one. */
    public abstract void rest() throws IOException;

    /** Before a class is looked for by this name, and behind it by that of the class that was found, whatever form the bytes have. */
    public abstract void resolve(String name) throws IOException;

    /** Before an array of this length is made. */
    public abstract void array(int length) throws IOException;
}
