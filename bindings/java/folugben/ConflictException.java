package folugben;

/**
 * Reports that other agents were quicker: begin again, as {@link Agent#play} does.
 *
 * <p>It is the one exception that a loop by hand catches.
 */
public abstract sealed class ConflictException extends FolugbenException
        permits BusyException, CommitClashException, PastException, StaleException {
    private static final long serialVersionUID = 1;

    ConflictException(Code code, long number, String detail, String where, String answer) {
        super(code, number, detail, where, answer);
    }
}
