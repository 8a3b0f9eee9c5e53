package folugben;

/**
 * Reports that a step's updates clash with another agent's; nothing was fired.
 *
 * <p>The other agent wrote since the step began. A clash of a push is a {@link ClashException}.
 */
public final class CommitClashException extends ConflictException {
    private static final long serialVersionUID = 1;

    CommitClashException(String answer) {
        super(Code.CLASH, 0, answer, "", answer);
    }

    /** Returns the smallest location at which they clash. */
    public Location at() {
        return JsonReader.objection(answer()).at();
    }

    /** Returns why they clash. */
    public Cause cause() {
        return JsonReader.objection(answer()).cause();
    }
}
