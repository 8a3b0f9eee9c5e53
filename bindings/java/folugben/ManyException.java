package folugben;

/**
 * Reports more than 256 locations, or more than 4,096 instructions of a move.
 *
 * <p>The locations are read, tracked or named; the move is a composed one.
 */
public final class ManyException extends FolugbenException {
    private static final long serialVersionUID = 1;

    ManyException(Code code, String detail) {
        super(code, 0, detail, "", null);
    }

    /** Returns that of so many places; at most 256 are allowed. */
    static ManyException places(int count, String what) {
        return new ManyException(Code.MANY, count + " " + what + ", at most 256");
    }

    /** Throws for a step that would depend on too many places. */
    static void expectPlaces(Code code) {
        if (code == Code.MANY)
            throw new ManyException(
                    code, "the step would depend on more than 256 locations and functions");
    }

    /** Throws for a move that would have too many instructions. */
    static void expectMove(Code code, String what) {
        if (code == Code.LONG_MOVE)
            throw new ManyException(code, what + " would have more than 4,096 instructions");
    }
}
