package folugben;

/**
 * Reports that a sum or a journal would be too large.
 *
 * <p>An amount or a sum of composed updates is too large; or there are more calls than the
 * 4,294,967,295 that a journal holds.
 */
public final class LargeException extends FolugbenException {
    private static final long serialVersionUID = 1;

    LargeException(Code code, String detail, String answer) {
        super(code, 0, detail, "", answer);
    }

    /** Returns the location of the updates; null of a journal. */
    public Location at() {
        return answer() == null ? null : JsonReader.objection(answer()).at();
    }
}
