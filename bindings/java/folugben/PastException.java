package folugben;

/**
 * Reports that a part of a run is over; nothing was fired.
 *
 * <p>A step was begun in it, or something was read in it. Begin again, in the next part.
 */
public final class PastException extends ConflictException {
    private static final long serialVersionUID = 1;

    private PastException(Code code, String detail) {
        super(code, 0, detail, "", null);
    }

    /** Returns that of a call in a part that is over. */
    static PastException full() {
        return new PastException(Code.FULL, "the run continues in its next part");
    }

    /** Returns that of a number of a part that is over. */
    static PastException past(Named read, long begin) {
        return new PastException(Code.FULL,
                read.location() + " is named at " + read.number() + ", and that part has ended at "
                        + begin + ", so read again");
    }
}
