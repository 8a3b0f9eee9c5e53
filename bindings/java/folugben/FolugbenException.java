package folugben;

/**
 * A call that wasn't answered, or a reply that is thrown.
 *
 * <p>It has the code of include/folugben.h and its numbers. Some codes have a class of their own,
 * with further results.
 */
public sealed class FolugbenException extends RuntimeException
        permits AuditException, ClashException, ConflictException, DeepException, FullException,
                LargeException, ManyException, MovedException, TooLongException {
    private static final long serialVersionUID = 1;


    private static final String SCAN =
            "a scan is an array of a function's name and a number, from 0 to 4,294,967,295";

    /** A depth of brackets that no text has whose lists are within their limit. */
    private static final int DEEPEST = 32;

    private final Code code;
    /** What the code counts; else 0. */
    private final long number;
    /** The text that was answered; else null. */
    private final String answer;

    FolugbenException(Code code, long number, String detail, String where, String answer) {
        super(message(code, detail) + (where.isEmpty() ? "" : " (" + where + ")"));
        this.code = code;
        this.number = number;
        this.answer = answer;
        Turns.here().observe(this);
    }

    /** Returns the exception of a code without an answer, if it can of its own class. */
    private static FolugbenException of(Code code, long number, String detail, String where) {
        return switch (code) {
            case MANY, LONG_MOVE, AGENTS -> new ManyException(code, detail);
            case DEEP -> new DeepException();
            case MOVED -> new MovedException(detail);
            case LARGE, MANY_CALLS -> new LargeException(code, detail, null);
            case LONG_LINE -> new TooLongException(detail);
            default -> new FolugbenException(code, number, detail, where, null);
        };
    }

    /** Returns the exception of a reply. */
    static FolugbenException of(Agent.Reply reply) {
        return switch (reply.code()) {
            case STALE -> new StaleException(reply.answer());
            case CLASH -> reply.isOfStep() ? new CommitClashException(reply.answer())
                                           : new ClashException(reply.answer());
            case FULL -> reply.isOfRun() ? PastException.full() : new FullException();
            case BUSY -> new BusyException(reply.from(), reply.to());
            default -> of(reply.code(), 0, "", "");
        };
    }

    /**
     * Returns the exception of named reads, one of which the agent hasn't seen.
     *
     * <p>Its number is above that of the moves that the agent has seen.
     */
    static FolugbenException ahead(String reads, long seen) {
        return ahead(reads, "[]", seen);
    }

    /** Returns the same for named reads and scans. */
    static FolugbenException ahead(String reads, String scans, long seen) {
        int place = 0;
        for (JsonReader.Read read : JsonReader.reads(reads)) {
            place++;
            if (read.number() > seen)
                return ahead("read " + place + ": " + read.location().json(), read.number(), seen);
        }
        place = 0;
        for (JsonReader.Scan scan : JsonReader.scans(scans)) {
            place++;
            if (scan.number() > seen)
                return ahead("scan " + place + ": " + scan.name(), scan.number(), seen);
        }
        return of(Code.AHEAD, 0, "", "");
    }

    private static FolugbenException ahead(String what, long number, long seen) {
        return of(Code.AHEAD, 0,
                what + " is named at " + number + ", and the agent has seen " + seen, "");
    }

    /** Returns what the code means, with what is said of the text that is refused. */
    private static String message(Code code, String detail) {
        if (detail.isEmpty())
            return code.text();
        boolean saysAll = code == Code.NOT_JSON || code == Code.EMPTY;
        return saysAll ? detail : code.text() + ": " + detail;
    }

    /** Returns its code, for a switch. */
    public Code code() {
        return code;
    }

    /**
     * Returns the missing move, the first illegal call from 0, or the line at fault.
     *
     * <p>It is 0 for other codes.
     */
    public long number() {
        return number;
    }

    /**
     * Returns the text of the answer; else null.
     *
     * <p>It is {"clash":[LOC,CAUSE]} of a CLASH, {"large":LOC} of a LARGE of a move that wasn't
     * pushed or composed, or {"stale":LOC} of a STALE.
     */
    public String answer() {
        return answer;
    }

    /** Returns what the number of a code counts; null if a code has none. */
    static String numberName(Code code) {
        switch (code) {
            case MISSING:
                return "move";
            case ILLEGAL:
                return "call";
            case NOT_JSON:
            case SHAPE:
                return "line";
            default:
                return null;
        }
    }

    static void expect(Code code, long... numbers) {
        expect(code, "", numbers);
    }

    private static void expect(Code code, String detail, long... numbers) {
        if (code == Code.MEMORY)
            throw new OutOfMemoryError(code.text());
        if (code == Code.DONE)
            return;
        String name = numbers.length > 0 ? numberName(code) : null;
        if (name == null)
            throw of(code, 0, detail, "");
        throw of(code, numbers[0], detail, name + " " + numbers[0]);
    }

    /** Throws if the code of a call that was passed a text of this form isn't DONE. */
    static void expectRead(Code code, Storage.Form form, byte[] text) {
        expect(code, isFormFault(code) ? Calls.explain(form, text) : "");
    }

    /** Throws if the code of a fire that was passed this move, and scans, isn't DONE. */
    static void expectFire(Code code, byte[] call) {
        String detail = isFormFault(code) ? Calls.explain(Storage.Form.MOVE, call) : "";
        expect(code, code == Code.SHAPE && detail.isEmpty() ? SCAN : detail);
    }

    private static boolean isFormFault(Code code) {
        return code == Code.NOT_JSON || code == Code.SHAPE;
    }

    /** Throws if the code of a call that was passed a move [INSTR, ..] isn't DONE. */
    static void expectMove(Code code, String move, String name) {
        expectPart(code, move, withoutReads(move), name);
    }

    /** Throws if the code of a call that was passed reads [NAMED, ..] isn't DONE. */
    static void expectReads(Code code, String reads) {
        expectPart(code, reads, "{\"fire\":[],\"reads\":" + reads + "}", "");
    }

    /** Throws if the code of a call on a state and a move, in this order, isn't DONE. */
    static void expectStateAndMove(Code code, String state, String move) {
        String detail = isFormFault(code) ? explain(Storage.Form.STATE, state) : "";
        if (!detail.isEmpty())
            throw of(code, 0, detail, "state");
        expectMove(code, move, "move");
    }

    /** Throws if the code of a call on two moves, in this order, isn't DONE. */
    static void expectMoves(Code code, String first, String second) {
        if (isFormFault(code) && !explain(Storage.Form.MOVE, withoutReads(first)).isEmpty())
            expectMove(code, first, "first");
        expectMove(code, second, "second");
    }

    /** Throws if the code of a call that was passed a location LOC isn't DONE. */
    static void expectLocation(Code code, String location) {
        if (isFormFault(code))
            throw of(code, 0,
                    explain(Storage.Form.LOCATIONS,
                            code == Code.NOT_JSON ? location : "[" + location + "]"),
                    "");
        expect(code);
    }

    private static String withoutReads(String move) {
        return "{\"fire\":" + move + ",\"reads\":[]}";
    }

    private static String explain(Storage.Form form, String text) {
        String detail = Calls.explain(form, Texts.utf8(text, "text"));
        return Texts.depth(text) > DEEPEST
                ? detail + "; lists nest at most " + Element.MAX_DEPTH + " deep" : detail;
    }

    /**
     * Throws if the code isn't DONE; explains a part of a move's text within all of it.
     *
     * <p>If the part isn't JSON, the byte at which it isn't is one of its own.
     */
    private static void expectPart(Code code, String part, String move, String name) {
        if (!isFormFault(code)) {
            expect(code);
            return;
        }
        String detail = code == Code.NOT_JSON ? explain(Storage.Form.LOCATIONS, part)
                                       : explain(Storage.Form.MOVE, move);
        throw of(code, 0, detail, name);
    }

    /** Throws if a call reports why a move can't be made. */
    static void expectNoObjection(Calls.Result result) {
        if (result.code() == Code.CLASH)
            throw new ClashException(result.text());
        if (result.code() == Code.LARGE)
            throw new LargeException(Code.LARGE, result.text(), result.text());
    }

    /**
     * Throws if the code of a call on a journal isn't DONE.
     *
     * <p>It is passed the number of a call or a line.
     */
    static void expectJournal(Code code, byte[] journal, long number) {
        boolean isLine = isFormFault(code) && number > 1;
        String detail = isLine ? Calls.explain(Storage.Form.EVENT, Texts.line(journal, number)) : "";
        expect(code, detail, number);
    }

    /** Returns the exception for what is closed, with this text. */
    static FolugbenException closed(String detail) {
        return of(Code.EMPTY, 0, detail, "");
    }

    /** Returns the exception for a number that an agent has or had. */
    static FolugbenException numberTaken(int agent) {
        return of(Code.NUMBER, 0, "agent " + agent, "");
    }

    /** Returns the exception for a number that an agent of another process has. */
    static FolugbenException numberInUse(int agent) {
        return of(Code.NUMBER, 0, "agent " + agent + " is in use by another process", "");
    }

    /** Returns the exception for a journal that lacks a move, with this text on the agents. */
    static FolugbenException missing(int move, String detail) {
        String where = numberName(Code.MISSING) + " " + move;
        return of(Code.MISSING, move, detail, detail.endsWith(where) ? "" : where);
    }

    /** Returns the exception for an argument that isn't one value of JSON. */
    static FolugbenException notJson(String argument) {
        return of(Code.NOT_JSON, 0, "", argument);
    }
}
