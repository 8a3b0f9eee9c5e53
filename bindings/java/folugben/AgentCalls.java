package folugben;

import java.util.Objects;

/** An agent's fields, and the results of its calls on the library, with its lock. */
abstract sealed class AgentCalls permits Agent {
    /** The agent's slot, and the lock of the calls on it and on its steps. */
    final Slot.AgentSlot slot;
    final Room room;
    final Storage storage;
    final int number;
    /** The part that it belongs to, if it is of a run; else null. */
    volatile Run.RunPart chain;
    int unfired;
    /** Whether commits add a receipt of what their step read; with its lock. */
    private boolean isRecording;
    /** Throws if this code says that it was returned; to be called with its lock. */
    Code expectNotReturned(Code code) {
        if (code != Code.EMPTY || slot.isFull())
            return code;
        if (isPast())
            throw PastException.full();
        throw FolugbenException.closed("the agent was returned");
    }
    /** Returns whether it is of a part of a run that is over. */
    boolean isPast() {
        Run.RunPart own = chain;
        return own != null && own.isOver();
    }
    /** Throws if the code of a call on it isn't DONE. */
    void expect(Code code) {
        FolugbenException.expect(expectNotReturned(code));
    }
    /** Returns the values of a reading, without the number. */
    static String values(String reading) {
        return reading.substring(reading.indexOf(','));
    }
    /** Returns the code of a fire, or FULL if it came too late for the part of a run. */
    Code fullIfTooLate(Code code) {
        boolean isTooLate = code == Code.EMPTY && !slot.isFull() && isPast();
        return isTooLate ? Code.FULL : code;
    }
    /** Returns the outcome of a fire with this code, while its agent's lock is held. */
    Actor.Reply reply(Code callCode, boolean isOfStep) {
        noteThread();
        Code code = fullIfTooLate(callCode);
        long before = before();
        long move = code == Code.DONE ? before + room.number(0) : 0;
        long from = before + room.number(1);
        long to = before + room.number(2);
        String answer = null;
        switch (code) {
            case STALE, CLASH -> {
                unfired++;
                answer = lastAnswer();
            }
            case FULL -> unfired++;
            case BUSY -> {}
            default -> expect(code);
        }
        return new Actor.Reply(code, move, from, to, answer, isOfStep, chain != null);
    }
    /** Sets whether commits record what their step read. */
    final void setRecording(boolean isRecording) {
        synchronized (slot) {
            this.isRecording = isRecording;
        }
    }
    /** Returns whether commits record what their step read; with its lock. */
    final boolean isRecording() {
        return isRecording;
    }
    /** Commits the step, with its lock: returns the code; the numbers are in the room. */
    final Code commit(long step) {
        if (!isRecording)
            return Code.of(Calls.asm_commit(slot.at, step, room.numbers()));
        Code code = Code.of(Calls.asm_commit_recorded(slot.at, step, room.numbers()));
        switch (code) {
            case DONE, STALE, CLASH, FULL, BUSY -> unfired++; // the receipt of the read, if there is one
            default -> {}
        }
        return code;
    }
    /** Returns whether it is one of a run. */
    boolean isOfRun() {
        return chain != null;
    }
    /** Makes the agent one of this part of a run. */
    void setPart(Run.RunPart chain) {
        this.chain = chain;
    }
    /** Returns how many moves of its run come before those of its storage. */
    long before() {
        return chain == null ? 0 : chain.before();
    }
    /**
     * Returns how many of its calls were answered and fired nothing.
     *
     * <p>They count since it was made or checked out.
     */
    int unfired() {
        synchronized (slot) {
            return unfired;
        }
    }
    /** Returns whether it was neither returned nor abandoned. */
    boolean isCheckedOut() {
        synchronized (slot) {
            return slot.isFull();
        }
    }
    /** Returns whether a step is under way on it. */
    boolean isInStep() {
        synchronized (slot) {
            return slot.hasStep();
        }
    }
    /** Notes that a step is over, for a run that may wait for that; with its lock. */
    void endStep() {
        if (chain != null)
            chain.endStep();
    }
    /** Throws what has ended the run, if it is of one. */
    void expectRunning() {
        if (chain != null)
            chain.expectRunning();
    }
    void peekInto(PreparedLocation location, Turns.Player player) {
        Objects.requireNonNull(location, "location");
        synchronized (location.slot) {
            location.expect(expectNotReturned(slot.peek(location)));
        }
        player.reads(location);
        player.observe(room);
    }
    String lastAnswer() {
        synchronized (slot) {
            Calls.Result result = slot.answer();
            expect(result.code());
            return result.text();
        }
    }
    /** Returns its storage. */
    Storage storage() {
        return storage;
    }

    /**
     * Takes the state of this thread's last agent of the storage, if nothing needs it.
     *
     * <p>The last agent is the one whose call on the storage was this thread's last one. So each
     * move is followed about once, and not once for each of the agents that a thread plays by
     * turns.
     */
    void takeState() {
        noteThread();
        Agent other = storage.plays((Agent) this);
        if (other != null && other.number != number)
            withLocks(other, () -> slot.takeState(other.slot));
    }

    /** Notes that this thread makes a call that polls. */
    final void noteThread() {
        polledBy = Thread.currentThread();
    }

    /** Does the work with the locks of both, taken in the order of their numbers. */
    void withLocks(Agent other, Runnable work) {
        boolean isFirst = number < other.number;
        synchronized (isFirst ? slot : other.slot) {
            synchronized (isFirst ? other.slot : slot) {
                work.run();
            }
        }
    }

    /** The thread of its last call that polled. */
    volatile Thread polledBy;

    AgentCalls(Storage storage, int number) {
        this.storage = storage;
        this.number = number;
        slot = new Slot.AgentSlot(storage.lent, number);
        room = slot.room;
    }

    /** Validates the named reads. */
    final Actor.Reply validate(String reads, Turns.Player player) {
        noteThread();
        byte[] call = Texts.utf8(reads, "reads");
        synchronized (slot) {
            Calls.Result result = slot.stands(call);
            if (result.code() == Code.STALE || result.code() == Code.DONE) {
                player.readsNamed(reads);
                player.observe(result.text());
            }
            if (result.code() == Code.STALE)
                return new Actor.Reply(result.code(), 0, 0, 0, result.text());
            if (result.code() == Code.MANY)
                throw ManyException.places(JsonReader.reads(reads).size(), "locations are named");
            if (result.code() == Code.AHEAD)
                throw FolugbenException.ahead(reads, Calls.asm_seen(slot.at));
            FolugbenException.expectReads(expectNotReturned(result.code()), reads);
            return new Actor.Reply(result.code(), 0, 0, 0, null);
        }
    }
}
