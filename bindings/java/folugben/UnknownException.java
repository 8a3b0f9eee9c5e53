package folugben;

/**
 * Reports that it isn't known whether a move of a shared run was fired.
 *
 * <p>The process was away while others saved several segments.
 */
public final class UnknownException extends RuntimeException {
    private static final long serialVersionUID = 1;

    UnknownException() {
        super("whether the move was fired isn't known, as this process was away while others saved"
                + " several segments");
    }
}
