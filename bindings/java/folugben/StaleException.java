package folugben;

/** Reports that a named location was written since it was read; nothing was fired. */
public final class StaleException extends ConflictException {
    private static final long serialVersionUID = 1;

    StaleException(String answer) {
        super(Code.STALE, 0, answer, "", answer);
    }

    /** Returns the smallest such location. */
    public Location at() {
        return JsonReader.objection(answer()).at();
    }
}
