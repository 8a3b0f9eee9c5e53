package folugben;

import java.nio.charset.StandardCharsets;

/** What a call returns, which {@link FolugbenException} or {@link Agent.Reply} has. */
public enum Code {
    /** The call was answered; a fire fired its move. */
    DONE(0),
    /** A named location was written since it was read. */
    STALE(1),
    /** The updates clash. */
    CLASH(2),
    /** Memory is short: the call throws an OutOfMemoryError, and may be made again. */
    MEMORY(3),
    /** As many moves were fired as the capacity. */
    FULL(4),
    /** The object of the call was closed, returned or fired. */
    EMPTY(5),
    /** The capacity of a storage is none, which no call here returns. */
    CAPACITY(6),
    /** A buffer is too small, which no call here returns. */
    SMALL(7),
    /** 64 attempts to append were lost to other agents. */
    BUSY(8),
    /** There are more than 256 locations, or locations and scanned functions. */
    MANY(9),
    /** No call was answered yet. */
    NO_ANSWER(10),
    /** A slot is in use already, which no call here returns. */
    TAKEN(11),
    /** The storage or the run has, or had, another agent with this number. */
    NUMBER(12),
    /** A move has no receipt among the agents that were returned. */
    MISSING(13),
    /** An agent is of another storage. */
    OTHER(14),
    /** An answer of a journal differs from that of a sequential storage. */
    ILLEGAL(15),
    /** A text is not JSON. */
    NOT_JSON(16),
    /** A text is JSON of another shape. */
    SHAPE(17),
    /** A journal has a version that is not known. */
    VERSION(18),
    /** A journal, or the last part of a run, ends too early. */
    CUT(19),
    /** An amount or a sum is too large. */
    LARGE(20),
    /** The agent moved on since the step began. */
    MOVED(21),
    /** 64 moves are pushed. */
    DEEP(22),
    /** A part of a run opens with another state than the one before it leaves. */
    APART(23),
    /** The number of an agent is out of its range, or there are too many agents. */
    AGENTS(24),
    /** A location or a function is named at a number above that of the moves that are seen. */
    AHEAD(25),
    /** A verb, a kind and an operand make no instruction, which no call here returns. */
    OPERAND(26),
    /** There is no such form, which no call here returns. */
    NO_FORM(27),
    /** No journal was made since an agent was returned or checked out. */
    NO_JOURNAL(28),
    /** No move is pushed. */
    NO_PUSH(29),
    /** No agent with this number was returned. */
    NO_AGENT(30),
    /** No part of a run has begun. */
    NO_PART(31),
    /** An agent's own state is at fewer moves than its storage has room for. */
    NOT_FULL(32),
    /** There are more calls than the 4,294,967,295 that a journal holds. */
    MANY_CALLS(33),
    /** A line has more bytes than an audit reads, or would have. */
    LONG_LINE(34),
    /** A move has more than 4,096 instructions. */
    LONG_MOVE(35),
    /** A file has another name than a segment of a run. */
    NAME(36),
    /** Another call on a run comes next, which no call here returns. */
    ORDER(37),
    /** The number of a segment isn't the next one. */
    NOT_NEXT(38),
    /** Segment 0 of a run has events, or something before it. */
    OPENING(39),
    /** A segment of a run follows another one than the one before it. */
    PREVIOUS(40),
    /** The text of a segment isn't the one that was saved. */
    DAMAGED(41),
    /** A segment has other counts than its name says. */
    COUNTS(42),
    /** A run has too many segments or moves. */
    LONG_RUN(43),
    /** The only segment of a run isn't dropped. */
    ONE_SEGMENT(44),
    /** A move has no instruction at this place, which no call here returns. */
    NO_INSTRUCTION(45);

    private static final Code[] ALL = values();

    private final int number;

    Code(int number) {
        this.number = number;
    }

    /** The code with a number of include/folugben.h. */
    static Code of(int number) {
        return ALL[number];
    }

    /** Its number in include/folugben.h. */
    public int number() {
        return number;
    }

    /** What it means, in a line. */
    public String text() {
        byte[] out = new byte[256];
        long[] written = new long[1];
        Calls.asm_error_text(number, out, out.length, written);
        return new String(out, 0, (int) written[0], StandardCharsets.UTF_8);
    }
}
