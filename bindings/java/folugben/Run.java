package folugben;

import java.io.IOException;
import java.io.UncheckedIOException;
import java.nio.ByteBuffer;
import java.nio.file.Path;
import java.time.Duration;
import java.util.Map;
import java.util.Objects;

/**
 * An endless run: a chain of storages, its parts, with their journals in a folder.
 * Each journal is a text file, a segment. The agents move on from part to part by themselves. None
 * waits for another one, except where a part ends at rest. One thread closes the parts in order,
 * writes their journals and forces them to the disk. An {@link Auditor} checks such a folder, also
 * while the run goes on. Call close(): what isn't saved at the end of the process is lost, as by a
 * crash.
 *
 * <p>Invariants, and what depends on them:
 *
 * <ul>
 *   <li>A part is over once the next one is open, once it must end at rest, or once the run ends.
 *       That never changes back. No agent is checked out in a part that is over.
 *   <li>The next part is opened by an agent that is at the last move of a full part, or by the
 *       thread once a part that ends at rest is complete. So it opens with the state after all
 *       moves of the part, and no further one is fired there.
 *   <li>A part is over before any agent is in the next one. An agent that learns something from
 *       one of the next part finds its own part over, so it reads nothing older than it knows.
 *   <li>An agent comes back between two steps: it returns itself as it begins one; if it begins
 *       none, the thread takes it. One that stays in a step of a part that is full, or ends at
 *       rest, is taken too, in a tenth of a second. So a part that is over becomes complete.
 *   <li>A part is complete once it is over and no agent is out in it. Nothing more happens in it
 *       then, and the thread alone has it: it writes and releases the part, and then the next.
 *   <li>A file has the name of a segment once it is complete and on the disk, and never changes.
 *       So a crash leaves complete segments. Nothing of a run is ever cut off, and no segment but
 *       the oldest is removed, if it keeps some alone.
 *   <li>Agents wait for the thread, holding no lock, while two parts are over and not written yet,
 *       so at most three are in memory. The thread waits for no agent that waits for it.
 * </ul>
 */
public final class Run implements AutoCloseable {
    /** The number of moves in a part, by default. */
    public static final int MOVES = 100_000;

    /** What is checked of an earlier run before it is resumed. */
    public enum Check {
        /** All segments are audited. */
        ALL,
        /** The last segment alone is audited; of the others only the names are checked. */
        LAST
    }

    /** How many receipts for each move a part keeps before it ends at rest, by default. */
    private static final int RECEIPTS = 2;
    /** The number of receipts if none is passed. */
    private static final long UNSAID = Long.MIN_VALUE;

    private final RunAgent[] agents = new RunAgent[Storage.AGENTS];
    private final Path folder;
    private final PartWriter writer;
    private final long receipts;
    private volatile boolean isRecording;
    private volatile Part newest;
    private volatile BrokenException failure;
    private volatile boolean isClosed;

    private Run(RunFolder folder, Storage storage, int moves, long receipts) {
        this.receipts = receipts;
        this.folder = folder.path();
        Segment last = folder.last();
        newest = new Part(this, storage, moves, last.number() + 1, last.end());
        writer = new PartWriter(this, folder, newest);
    }

    /**
     * Opens a run with the opening state, in a folder that is new or empty.
     * The values are such as {@link Value#of} takes. The run begins with a segment of no calls, so
     * that it may be resumed from then on. Each further part has 100,000 moves.
     *
     * @throws UncheckedIOException if there is a run or anything else, if another run is made
     *         there, or if the folder can't be written
     * @throws IllegalArgumentException as Value.of
     * @throws TooLongException if the opening state is too long for a line
     */
    public static Run open(Map<Location, ?> init, Path path) {
        return open(init, path, MOVES);
    }

    /** Opens such a run with the given number of moves in a part, 1 to 1,048,576. */
    public static Run open(Map<Location, ?> init, Path path, int moves) {
        return open(init, path, moves, UNSAID);
    }

    /**
     * Opens such a run with a limit of the receipts in a part.
     * A part with more receipts ends before it is full, once no agent is in a step. All that begin
     * a step wait for that, a tenth of a second at most. Each answered call has a receipt, which
     * takes memory and a line of the journal: a move, a stale try, and what a commit records. By
     * default the limit is twice the number of moves, or four times that of a run that records.
     */
    public static Run open(Map<Location, ?> init, Path path, int moves, long receipts) {
        return open(JsonWriter.state(init, "init"), path, moves, receipts);
    }

    /** Opens such a run with an opening state [PAIR, ..]. */
    public static Run open(String init, Path path, int moves, long receipts) {
        Objects.requireNonNull(path, "path");
        Storage storage = new Storage(init, moves);
        RunFolder folder = null;
        try {
            ByteBuffer opening = storage.closeJournal(new Room());
            PartWriter.events(opening); // the line of the state isn't too long
            folder = RunFolder.create(path, opening);
        } catch (IOException fault) {
            throw new UncheckedIOException(fault);
        } finally {
            if (folder == null)
                storage.close();
        }
        return start(folder, storage, moves, receipts);
    }

    /**
     * Resumes a folder's run after its last segment, also if its process was killed.
     * All segments are audited first. Nothing is changed or removed. A part has 100,000 moves.
     *
     * @throws DamagedException if a segment is missing, or isn't the one that was saved
     * @throws AuditException if a segment isn't legal
     * @throws UncheckedIOException if there is no run, if it can't be read or written, if another
     *         run of this or another process is at work there, or if it is a run in one file
     */
    public static Run resume(Path path) {
        return resume(path, MOVES);
    }

    /** Resumes such a run, and audits no more than the check says. */
    public static Run resume(Path path, Check check) {
        return resume(path, MOVES, UNSAID, check);
    }

    /** Resumes such a run with the given number of moves in each further part. */
    public static Run resume(Path path, int moves) {
        return resume(path, moves, UNSAID, Check.ALL);
    }

    /** Resumes such a run; a part ends at rest as that of {@link #open} does. */
    public static Run resume(Path path, int moves, long receipts, Check check) {
        Objects.requireNonNull(path, "path");
        Objects.requireNonNull(check, "check");
        Storage.expectCapacity(moves);
        try {
            RunFolder folder = RunFolder.reopen(path, check);
            try {
                return start(folder, new Storage(folder.state(), moves), moves, receipts);
            } catch (RuntimeException | Error fault) {
                folder.close();
                throw fault;
            }
        } catch (IOException fault) {
            throw new UncheckedIOException(fault);
        }
    }

    private static Run start(RunFolder folder, Storage storage, int moves, long receipts) {
        Run run = new Run(folder, storage, moves, receipts);
        run.writer.start();
        return run;
    }

    /**
     * Makes an agent of this number, 0 to 255, which no open agent of the run has.
     *
     * @throws IllegalArgumentException for another number
     * @throws FolugbenException NUMBER if an agent has it that isn't closed yet
     * @throws BrokenException if a part of the run couldn't be written
     */
    public RunAgent agent(int number) {
        Storage.expectNumber(number);
        synchronized (agents) {
            expectRunning();
            if (agents[number] != null && !agents[number].isClosed())
                throw FolugbenException.numberTaken(number);
            return agents[number] = new RunAgent(this, number, isRecording);
        }
    }

    /**
     * Sets whether agents made from now on record, as {@link Agent#record} does.
     *
     * @return this run
     */
    public Run record(boolean isRecording) {
        this.isRecording = isRecording;
        return this;
    }

    /**
     * Saves each part this long after its first move, also if the agents rest.
     *
     * @return this run
     * @throws IllegalArgumentException if the time isn't above 0
     */
    public Run every(Duration time) {
        if (time.isNegative() || time.isZero())
            throw new IllegalArgumentException("a time is above 0, and not " + time);
        writer.every(time);
        return this;
    }

    /**
     * Keeps this many segments: after each save from now on older ones are removed, one by one.
     *
     * @return this run
     * @throws IllegalArgumentException if the number isn't 1 or more
     */
    public Run keep(int segments) {
        if (segments < 1)
            throw new IllegalArgumentException("a run keeps 1 segment or more, and not " + segments);
        writer.keep(segments);
        return this;
    }

    /**
     * Saves all moves up to now: they are on the disk when this returns.
     * It ends the part, which makes a segment. It waits a tenth of a second for steps: one that
     * lasts longer throws a {@link PastException}, and play begins again.
     *
     * @throws BrokenException if a part of the run couldn't be written
     */
    public void flush() {
        expectRunning();
        Part now = newest;
        if (now.isEmpty()) {
            writer.awaitWritten(now.number - 1);
        } else {
            now.end();
            writer.wake();
            writer.awaitWritten(now.number);
        }
        expectRunning();
    }

    /** Returns the path of its folder. */
    public Path path() {
        return folder;
    }

    /** Returns a text such as the run in bank.run, 7 moves saved. */
    @Override
    public String toString() {
        return "the run in " + folder + ", " + saved() + " moves saved" + (isRunning() ? "" : ", ended");
    }

    /** Returns how many parts were saved: they are on the disk, but for those that were removed. */
    public long parts() {
        return writer.parts();
    }

    /** Returns how many moves these parts have. */
    public long saved() {
        return writer.saved();
    }

    /** Throws what has ended the run. */
    void expectRunning() {
        BrokenException ended = failure;
        if (ended != null)
            throw new BrokenException(ended.part(), ended.getCause());
        if (isClosed)
            throw FolugbenException.closed("the run was closed");
    }

    boolean isRunning() {
        return failure == null && !isClosed;
    }

    Part newest() {
        return newest;
    }

    /** Returns how many receipts a part keeps before it ends at rest. */
    long receipts() {
        if (receipts != UNSAID)
            return receipts;
        return (isRecording ? 2L : 1L) * RECEIPTS * newest.capacity;
    }

    /** Makes agents begin in this part from now on; with the lock of the part before. */
    void goOn(Part next) {
        newest = next;
        writer.wake();
    }

    void wake() {
        writer.wake();
    }

    /**
     * Waits until an agent may begin in the newest part.
     * If agents go on by turns, those in a step end it first, and none waits for a part to be
     * written, so that the order depends on the seed alone.
     */
    void awaitPart() {
        while (Turns.isPlayed() && isRunning() && newest.isOver() && isAnyInStep())
            Turns.Player.call(this);
        writer.awaitPart(!Turns.isPlayed());
        expectRunning();
    }

    private RunAgent[] agents() {
        synchronized (agents) {
            return agents.clone();
        }
    }

    private boolean isAnyInStep() {
        for (RunAgent agent : agents())
            if (agent != null && agent.isInStep())
                return true;
        return false;
    }

    /** Takes back agents of the part that are in no step, or too long in one, or all. */
    void takeBack(Part over, boolean isForced, boolean isLate) {
        for (RunAgent agent : agents())
            if (agent != null)
                agent.takeBack(over, isForced, isLate);
    }

    /** Releases the agents that are out in the part. */
    void drop(Part over) {
        for (RunAgent agent : agents())
            if (agent != null)
                agent.drop(over);
    }

    /** Ends the run, as a part of it can't be written. */
    void fail(long part, Throwable fault) {
        synchronized (agents) {
            if (failure == null)
                failure = new BrokenException(part,
                        fault instanceof UncheckedIOException error ? error.getCause() : fault);
        }
        writer.wake();
    }

    /**
     * Takes back all agents, saves the fired moves, and frees the folder.
     * Steps that are under way end. It may be called again.
     *
     * @throws BrokenException if a part couldn't be written
     */
    @Override
    public void close() {
        boolean wasClosed = isClosed;
        isClosed = true;
        writer.close();
        if (!wasClosed && failure != null)
            throw new BrokenException(failure.part(), failure.getCause());
    }

    /** What the agents of a run know of it: where they are, and whether it goes on. */
    interface RunPart {
        /** Returns whether its agents have gone on to another part. */
        boolean isOver();

        /** Notes that a step in it is over; with the lock of the step's agent. */
        void endStep();

        /** Throws what has ended the run. */
        void expectRunning();

        /** Returns how many moves of the run come before its own. */
        long before();
    }
}
