package folugben;

/**
 * Reports a shared run with another opening state, or another version's tables.
 *
 * <p>The opening state differs from the one that was passed.
 */
public final class MismatchException extends IllegalArgumentException {
    private static final long serialVersionUID = 1;

    MismatchException(String detail) {
        super(detail);
    }
}
