package folugben;

/**
 * Reports that a run isn't as it was left: a segment is missing, or was changed.
 *
 * <p>Nothing is removed or written then in the run's folder.
 */
public final class DamagedException extends RuntimeException {
    private static final long serialVersionUID = 1;

    /** The number of the segment. */
    private final long segment;

    DamagedException(long segment, String detail) {
        super("segment " + segment + ": " + detail);
        this.segment = segment;
    }

    /** Returns the number of the segment that is at fault, from 0. */
    public long segment() {
        return segment;
    }
}
