package folugben;

/**
 * Reports that a line or an output would be too long; nothing was done.
 *
 * <p>What a run does would make a line of its journal that is longer than the 1,073,741,824 bytes
 * that an audit reads; or states in the Informal Trace Format have more than 1,073,741,824
 * characters.
 */
public final class TooLongException extends FolugbenException {
    private static final long serialVersionUID = 1;

    TooLongException(String detail) {
        super(Code.LONG_LINE, 0, detail, "", null);
    }
}
