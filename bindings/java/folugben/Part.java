package folugben;

/**
 * A part of a run: a storage, and which agents are out in it.
 *
 * <p>It is over once the next part is there, once it must end at rest, or once the run ends; no
 * agent is checked out in it from then on. It is complete once it is over and all agents came back.
 *
 * <p>Its lock is taken after that of an agent of the run, and before those of slots.
 */
final class Part implements Run.RunPart {
    /** Its number among the segments, from 0. */
    final long number;
    /** How many moves the parts before it have. */
    private final long before;
    final Storage storage;
    final int capacity;

    private final Run run;
    private final boolean[] isCheckedOut = new boolean[Storage.AGENTS];
    private final boolean[] hasAgent = new boolean[Storage.AGENTS];
    private int checkedOut;
    private volatile long unfired;
    private volatile boolean isOver;
    private volatile Part next;

    Part(Run run, Storage storage, int capacity, long number, long before) {
        this.run = run;
        this.storage = storage;
        this.capacity = capacity;
        this.number = number;
        this.before = before;
    }

    /** Checks out an agent with this number; returns null if the part is over. */
    synchronized Agent take(int own) {
        if (isOver)
            return null;
        Agent taken = hasAgent[own] ? storage.take(own) : storage.agent(own);
        taken.setPart(this);
        hasAgent[own] = true;
        isCheckedOut[own] = true;
        checkedOut++;
        return taken;
    }

    /** Notes that the agent with this number came back, or was abandoned. */
    void noteReturn(int own) {
        synchronized (this) {
            if (!isCheckedOut[own])
                return;
            isCheckedOut[own] = false;
            checkedOut--;
        }
        endStep();
    }

    /**
     * Opens the next part with the state of an agent that is at this part's last move.
     *
     * @throws TooLongException if that is too long for a line
     */
    synchronized void openNext(Agent agent) {
        if (isOver)
            return;
        open(agent.goOn(capacity), before + capacity);
    }

    /** Opens the part after this one, which is at rest, and whose journal was closed. */
    synchronized void openNextAtRest() {
        int moves = storage.moves();
        open(storage.next(capacity), before + moves);
    }

    private void open(Storage storage, long moves) {
        next = new Part(run, storage, capacity, number + 1, moves);
        isOver = true;
        run.goOn(next);
    }

    /** Counts so many calls that fired nothing. */
    synchronized void count(int calls) {
        unfired += calls;
    }

    /**
     * Returns whether it is over. It ends now if it has too many receipts.
     *
     * <p>So many moves have one receipt each.
     */
    boolean endIfFull(int moves) {
        if (!isOver && moves + unfired > run.receipts()) {
            end();
            run.wake();
        }
        return isOver;
    }

    /**
     * Returns whether no move was fired in it.
     *
     * <p>One that isn't the newest may be written and closed.
     */
    synchronized boolean isEmpty() {
        return !isOver && storage.moves() == 0;
    }

    /** Ends the check-out of agents in it; returns the part after it, if there is one. */
    synchronized Part end() {
        isOver = true;
        return next;
    }

    /** Returns whether no agent is checked out in it any more. */
    @Override
    public boolean isOver() {
        return isOver;
    }

    /** Returns the part after it; null if there is none yet. */
    Part next() {
        return next;
    }

    /** Returns whether it is over and all agents came back. */
    synchronized boolean isComplete() {
        return isOver && checkedOut == 0;
    }

    /** Wakes those who wait for the agents of a part that is over. */
    @Override
    public void endStep() {
        if (isOver)
            run.wake();
    }

    @Override
    public void expectRunning() {
        run.expectRunning();
    }

    @Override
    public long before() {
        return before;
    }
}
