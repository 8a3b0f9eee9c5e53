package folugben;

/** Reports that as many moves were fired as the capacity; nothing was fired. */
public final class FullException extends FolugbenException {
    private static final long serialVersionUID = 1;

    FullException() {
        super(Code.FULL, 0, "", "", null);
    }
}
