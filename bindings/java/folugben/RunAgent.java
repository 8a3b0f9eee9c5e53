package folugben;

import java.util.List;
import java.util.function.Function;

/**
 * An agent of a {@link Run}, which moves on by itself from part to part.
 *
 * <p>Any thread may call it. Have no two steps of one agent under way at once, as the first ends
 * when the second begins in the next part. Within a step, wait for no other agent.
 */
public final class RunAgent implements Actor {
    private final Run run;
    private final int number;

    /** The lock of all below, taken before a part's. No thread that has it waits. */
    private final Object lock = new Object();
    /** The agent that is out in a part; null if none is. */
    private Agent own;
    private Part part;
    /** How many of its vain calls were reported to the part. */
    private int unfired;
    private long won;
    /** Whether its last step is by turns, so that no time limit applies to it. */
    private boolean isByTurns;
    private boolean isRecording;
    private boolean isClosed;

    RunAgent(Run run, int number, boolean isRecording) {
        this.run = run;
        this.number = number;
        this.isRecording = isRecording;
    }

    /** Returns its number among the agents of the run. */
    @Override
    public int number() {
        return number;
    }

    /**
     * Polls, and begins a step in the part that isn't over.
     *
     * <p>A fire that finds the part full by then replies FULL, which asks to begin another step
     * ({@link Agent.Reply#shouldRetry}), and which fire throws as a {@link PastException}. The
     * step's other calls throw it too, once the part has been full, or has had too many receipts,
     * for a tenth of a second.
     *
     * @throws BrokenException if a part of the run couldn't be written
     */
    @Override
    public Step step() {
        Turns.Player.call(this);
        return inOpenPart(agent -> {
            isByTurns = Turns.isPlayed();
            Step step = agent.begin();
            if (step.own() < part.capacity && !part.endIfFull(step.own()))
                return step;
            step.close();
            if (step.own() == part.capacity)
                part.openNext(agent);
            return null;
        });
    }

    /**
     * Sets whether each commit of a step records its reads, as {@link Agent#record} does.
     *
     * <p>A commit then counts as two receipts for the end of a part.
     *
     * @return this agent
     */
    public RunAgent record(boolean isRecording) {
        synchronized (lock) {
            this.isRecording = isRecording;
            if (own != null)
                own.setRecording(isRecording);
        }
        return this;
    }

    /**
     * Polls, and returns the values of the locations, any number of them.
     *
     * <p>It makes no receipt: a peek isn't in the journal.
     */
    @Override
    public Reading peek(List<Location> locations) {
        Turns.Player.call(this);
        List<Location> copy = Texts.Copies.of(locations, "locations");
        return inOpenPart(agent -> {
            agent.follow();
            return agent.peek(copy).plus(part.before());
        });
    }

    /** Polls, and returns all locations that aren't empty with their values. */
    @Override
    public State state() {
        Turns.Player.call(this);
        return inOpenPart(agent -> {
            agent.follow();
            return ofRun(agent.state());
        });
    }

    /** Polls, and returns the locations of one function with their values. */
    @Override
    public State scan(String name) {
        Turns.Player.call(this);
        return inOpenPart(agent -> {
            agent.follow();
            return ofRun(agent.scan(name));
        });
    }

    private State ofRun(State state) {
        return new State(part.before() + state.number(), state.pairs());
    }

    /**
     * Fires the instructions, at most 4,096, and returns the number of the move.
     *
     * <p>They depend on the reads, at most 256, each with the number of moves after which it was
     * read.
     *
     * @throws FolugbenException as a {@link PastException} if something was read in a part that is
     *         over: read again; as a {@link StaleException}, {@link BusyException} or {@link
     *         ClashException}; as a {@link ManyException}; AHEAD if a number is above that of the
     *         moves that the agent has seen
     * @throws TooLongException if the move's line could be longer than an audit reads
     * @throws BrokenException if a part of the run couldn't be written
     */
    public long fire(List<? extends Instruction> instructions, List<Named> reads) {
        Turns.Player.call(this);
        List<Named> named = Texts.Copies.of(reads, "reads");
        List<Instruction> move = Texts.Copies.of(instructions, "instructions");
        return inOpenPart(agent -> {
            if (part.endIfFull((int) agent.seen()))
                return null;
            Reply reply = agent.tryFire(move, named(named));
            if (reply.code() != Code.FULL)
                return reply.orThrow();
            agent.follow();
            part.openNext(agent);
            return null;
        });
    }

    /** Returns the reads as a fire names them in the part that it is in; with the lock. */
    private List<Named> named(List<Named> reads) {
        long before = part.before();
        long seen = before + own.seen();
        for (Named it : reads) {
            if (it.number() < before)
                throw PastException.past(it, before);
            if (it.number() > seen)
                throw FolugbenException.ahead(JsonWriter.reads(reads), seen);
        }
        return reads.stream().map(it -> it.plus(-before)).toList();
    }

    /**
     * Does the work with an agent that is out in a part which isn't over.
     *
     * <p>If the work returns null, the part is over by then, and the work is done in the next one.
     */
    private <T> T inOpenPart(Function<Agent, T> work) {
        while (true) {
            synchronized (lock) {
                if (checkOut()) {
                    T result = Turns.withoutTurns(() -> work.apply(own));
                    if (result != null)
                        return result;
                    putBack();
                }
            }
            run.awaitPart();
        }
    }

    /**
     * Returns whether an agent is out in a part that isn't over.
     *
     * <p>One of a part that is over comes back first, and one of the newest part is checked out.
     */
    private boolean checkOut() {
        run.expectRunning();
        if (isClosed)
            throw FolugbenException.closed("the agent was closed");
        if (own != null) {
            countUnfired();
            if (!part.isOver())
                return true;
            putBack();
        }
        Part newest = run.newest();
        Agent taken = newest.take(number);
        if (taken == null)
            return false;
        unfired = 0;
        won -= taken.won();
        taken.setRecording(isRecording);
        part = newest;
        own = taken;
        return true;
    }

    private void countUnfired() {
        int all = own.unfired();
        if (all > unfired)
            part.count(all - unfired);
        unfired = all;
    }

    /** Returns the agent that is out to its part, if one is. */
    private void putBack() {
        if (own == null)
            return;
        long fired = own.won();
        if (own.isCheckedOut())
            own.storage().give(own);
        won += fired;
        own = null;
        part.noteReturn(number);
    }

    /** Returns it to the part, if it is in no step, too long in one, or if forced. */
    void takeBack(Part over, boolean isForced, boolean isLate) {
        synchronized (lock) {
            if (own != null && part == over
                    && (isForced || isLate && !isByTurns || !own.isInStep()))
                putBack();
        }
    }

    /** Releases the agent that is out in the part, which isn't written any more. */
    void drop(Part over) {
        synchronized (lock) {
            if (own == null || part != over)
                return;
            won += own.won();
            own.abandon();
            own = null;
        }
    }

    /** Returns whether it is in a step. */
    boolean isInStep() {
        synchronized (lock) {
            return own != null && own.isInStep();
        }
    }

    /** Returns how many moves it fired, in all parts since it was made. */
    @Override
    public long won() {
        synchronized (lock) {
            return own == null ? won : won + own.won();
        }
    }

    /**
     * Polls, and returns how many moves of all parts it has then seen.
     *
     * <p>Those are the parts of this run and of those that it resumes.
     */
    @Override
    public long follow() {
        Turns.Player.call(this);
        return inOpenPart(agent -> part.before() + agent.follow());
    }

    @Override
    public long seen() {
        return inOpenPart(agent -> part.before() + agent.seen());
    }

    /** Returns a text such as agent 3 of the run in bank.run, 7 moves saved. */
    @Override
    public String toString() {
        return "agent " + number + " of " + run + (isClosed() ? ", closed" : "");
    }

    boolean isClosed() {
        synchronized (lock) {
            return isClosed;
        }
    }

    /**
     * Releases the agent <b>without</b> returning it to its part.
     *
     * <p>If it fired a move in the part that it is in, that part can't be written, which ends the
     * run.
     */
    public void abandon() {
        synchronized (lock) {
            isClosed = true;
            if (own == null)
                return;
            won += own.won();
            own.abandon();
            own = null;
            part.noteReturn(number);
        }
    }

    /** Returns it to the run; it may be called again. A step that is under way ends. */
    @Override
    public void close() {
        synchronized (lock) {
            putBack();
            isClosed = true;
        }
    }
}
