/**
 * A proved check in front of an {@link java.io.ObjectInputStream}: no byte of a refused stream reaches it, and no class of it is loaded.
 *
 * <p>{@link serialcheck.Filter} is the way in. Offsets and lengths are in bytes, from 0. An answer is given or an exception is
 * thrown: {@link serialcheck.Refused} for bytes that are no stream that the filter admits, {@link java.lang.IllegalArgumentException}
 * for a faulty filter, {@link java.lang.IllegalStateException} for a call after {@code close}, {@link java.lang.OutOfMemoryError}
 * where native memory runs out, {@link java.lang.UnsatisfiedLinkError} where the native code cannot be loaded; {@code null} is a
 * {@link java.lang.NullPointerException}. Where no exception is thrown, the answer is yes.
 */
package serialcheck;
