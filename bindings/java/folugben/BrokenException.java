package folugben;

/**
 * Reports that a part of a run can't be written, which ends the run.
 *
 * <p>The journal lacks a move, as an agent was abandoned that fired it, or the segment can't be
 * saved, as if a disk is full. The cause says which. The folder has the complete parts before it.
 */
public final class BrokenException extends RuntimeException {
    private static final long serialVersionUID = 1;

    /** The number of the part. */
    private final long part;

    BrokenException(long part, Throwable cause) {
        super("part " + part + " of the run can't be written: " + cause.getMessage(), cause);
        this.part = part;
    }

    /** Returns the number of the part, from 0: so many parts are on the disk. */
    public long part() {
        return part;
    }
}
