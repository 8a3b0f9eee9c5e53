package folugben;

/**
 * Reports that the agent has moved past the step's version: begin another step.
 *
 * <p>It says so if another thread than the step's has used the agent meanwhile.
 */
public final class MovedException extends FolugbenException {
    private static final long serialVersionUID = 1;

    MovedException(String detail) {
        super(Code.MOVED, 0, detail, "", null);
    }
}
