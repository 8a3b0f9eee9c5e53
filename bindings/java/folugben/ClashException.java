package folugben;

/**
 * Reports that the updates of a move clash on what is seen at its push.
 *
 * <p>Nothing was fired or pushed. What a committed step clashes with is a {@link
 * CommitClashException}.
 */
public final class ClashException extends FolugbenException {
    private static final long serialVersionUID = 1;

    ClashException(String answer) {
        super(Code.CLASH, 0, answer, "", answer);
    }

    /** Returns the smallest location at which they clash. */
    public Location at() {
        return JsonReader.objection(answer()).at();
    }

    /** Returns why they clash. */
    public Cause cause() {
        return JsonReader.objection(answer()).cause();
    }
}
