package folugben;

/**
 * Reports that 64 attempts to append were lost to other agents; nothing was fired.
 *
 * <p>None of them wrote what is named.
 */
public final class BusyException extends ConflictException {
    private static final long serialVersionUID = 1;

    /** How many moves the agent had seen at the start of the call. */
    private final long from;
    /** How many at its end. */
    private final long to;

    BusyException(long from, long to) {
        super(Code.BUSY, 0, "",
                "the agent had seen " + from + " moves at the start of the call and " + to
                        + " at its end",
                null);
        this.from = from;
        this.to = to;
    }

    /** Returns how many moves the agent had seen at the start of the call. */
    public long from() {
        return from;
    }

    /** Returns how many it had seen at the end of the call. */
    public long to() {
        return to;
    }
}
