package folugben;

/**
 * Reports what is wrong with a run that isn't legal, or isn't complete.
 *
 * <p>The first wrong answer is ILLEGAL. The first fault is NOT_JSON, SHAPE, VERSION, CUT or APART,
 * or LONG_LINE for a line of more than 1,073,741,824 bytes.
 */
public final class AuditException extends FolugbenException {
    private static final long serialVersionUID = 1;

    /** The number of the part. */
    private final long part;

    AuditException(Code code, long part, long number) {
        super(code, number, code == Code.LONG_LINE ? "a line of more than 1,073,741,824 bytes" : "",
                "part " + part + place(code, number), null);
        this.part = part;
    }

    private static String place(Code code, long number) {
        String name = numberName(code);
        return name == null ? "" : ", " + name + " " + number;
    }

    /** Returns the number of the part that is at fault, from 0. */
    public long part() {
        return part;
    }

    /** Returns the number of an ILLEGAL call in its part, from 0; else -1. */
    public long call() {
        return code() == Code.ILLEGAL ? number() : -1;
    }

    /** Returns the number of a NOT_JSON or SHAPE line in its part, from 1; else 0. */
    public long line() {
        return code() == Code.NOT_JSON || code() == Code.SHAPE ? number() : 0;
    }
}
