package folugben;

/** Reports that 64 moves are pushed already. */
public final class DeepException extends FolugbenException {
    private static final long serialVersionUID = 1;

    DeepException() {
        super(Code.DEEP, 0, "", "", null);
    }
}
