package folugben;

import java.util.List;
import java.util.Objects;
import java.util.function.LongSupplier;
import java.util.function.Supplier;

/** A step's fields, and its calls on the library, with the lock of its agent. */
abstract sealed class StepCalls permits Step {
    static final byte[] NO_INSTRUCTIONS = {'[', ']'};
    private static final byte[] NO_ELEMENT = {};
    final Agent agent;
    final Room room;
    final int number;
    final long before;
    /** The thread that began it. */
    private final Thread thread = Thread.currentThread();
    /** The number of the move that it fired, or 0. */
    volatile long fired;
    /** The step's slot, until the step is over: the agent then uses it for another. */
    final Slot.AgentSlot.StepSlot slot;
    void end() {
        Turns.here().stepEnded(self());
        agent.slot.giveStep(slot, self());
        agent.endStep();
    }
    /** Returns whether it could be committed, and nothing was pushed. */
    boolean isIdle() {
        synchronized (agent.slot) {
            return !isOver() && Calls.asm_depth(slot.at) == 0;
        }
    }
    boolean isOver() {
        return !slot.isOf(self());
    }
    /** Returns the slot of a step that isn't over. */
    Slot slot() {
        agent.expectRunning();
        if (isOver())
            throw FolugbenException.closed("the step is over: it was fired or closed");
        return slot;
    }
    /** Returns how many moves of the run come before those of its storage. */
    long before() {
        return before;
    }
    /** Returns the number of moves of its storage that its state is after. */
    int own() {
        return number;
    }
    /** Returns whether its agent, if that is one of a run, must go on to another part. */
    boolean isPast() {
        return agent.isPast();
    }
    /** A call on an agent and a step that is passed a text and writes one. */
    interface Call {
        int call(long agent, long step, long text, long len, long out, long room,
                long written);
    }
    /** Throws for an agent that was returned, or that another thread moved past the step. */
    private Code expectUnmoved(Code code) {
        agent.expectNotReturned(code);
        if (code == Code.MOVED && agent.polledBy != thread)
            throw new MovedException("agent " + agent.number() + " is used by two threads");
        return code;
    }
    Calls.Result resultOf(Call call, byte[] text) {
        synchronized (agent.slot) {
            long step = slot().at;
            Calls.Result result = room.resultOf(text,
                    (at, out, length, written)
                            -> call.call(
                                    agent.slot.at, step, at, text.length, out, length, written));
            expectUnmoved(result.code());
            return result;
        }
    }
    String readLocations(Call call, String locations) {
        byte[] text = Texts.utf8(locations, "locations");
        Turns.Player player = Turns.Player.call(this);
        Calls.Result result = resultOf(call, text);
        ManyException.expectPlaces(result.code());
        FolugbenException.expectRead(result.code(), Storage.Form.LOCATIONS, text);
        player.reads(locations);
        player.observe(result.text());
        return result.text();
    }
    /** Reads and tracks the value into the agent's room, whose lock is held. */
    void take(PreparedLocation location, Turns.Player player) {
        Objects.requireNonNull(location, "location");
        long step = slot().at;
        synchronized (location.slot) {
            Code code = room.make((text, out, length, written)
                                         -> Calls.asm_get_at(agent.slot.at, step, location.slot.at,
                                                 room.value(), out, length, written));
            ManyException.expectPlaces(code);
            location.expect(expectUnmoved(code));
        }
        player.reads(location);
        player.observe(room);
    }
    /** Reads and tracks the value, and returns what is read from the agent's room. */
    <T> T taken(PreparedLocation location, Supplier<T> read) {
        Turns.Player player = Turns.Player.call(this);
        synchronized (agent.slot) {
            take(location, player);
            return read.get();
        }
    }
    /** A call that is passed an element's bytes, and writes a number to the agent's room. */
    private interface MembersCall {
        int call(long agent, long step, long at, long bytes, long number);
    }
    /**
     * Has a number of the set or the bag there written to the agent's room, whose lock is held.
     *
     * <p>A recorded commit reads the value, which isn't known.
     */
    private void report(
            PreparedLocation location, byte[] element, Turns.Player player, MembersCall call) {
        Objects.requireNonNull(location, "location");
        long step = slot().at;
        Code code;
        synchronized (location.slot) {
            code = room.make(element, (text, out, length, written)
                    -> call.call(agent.slot.at, step, location.slot.at, text, room.numbers()));
            ManyException.expectPlaces(code);
            if (code != Code.SHAPE)
                location.expect(expectUnmoved(code));
        }
        player.reads(location);
        if (code == Code.SHAPE) {
            take(location, player);
            throw Texts.Words.isNo("set or bag", room.readValue());
        }
    }
    long counted(PreparedLocation location, Element element) {
        Operand operand = Operand.of(element);
        Turns.Player player = Turns.Player.call(this);
        synchronized (agent.slot) {
            report(location, operand.bytes(), player, (own, step, at, bytes, number)
                    -> Calls.asm_count_of(own, step, at, operand.kind(), operand.number(), bytes,
                            operand.bytes().length, number));
            long count = Integer.toUnsignedLong(room.number(0));
            player.observe("" + count);
            return count;
        }
    }
    long sized(PreparedLocation location) {
        Turns.Player player = Turns.Player.call(this);
        synchronized (agent.slot) {
            report(location, NO_ELEMENT, player,
                    (own, step, at, bytes, number) -> Calls.asm_size(own, step, at, number));
            long found = room.wide(0);
            player.observe("" + found);
            return found < 0 ? Long.MAX_VALUE : found;
        }
    }
    void grow(Call call, String move) {
        byte[] text = Texts.utf8(move, "move");
        Turns.Player player = Turns.Player.call(this);
        Calls.Result result;
        synchronized (agent.slot) {
            result = resultOf(call, text);
        }
        FolugbenException.expectNoObjection(result);
        ManyException.expectMove(result.code(), "the one move of all that are pushed");
        FolugbenException.expectMove(result.code(), move, "");
        player.pushes(self());
    }
    /** A call on an agent, a step and a move that writes a text. */
    interface MoveCall {
        int call(long agent, long step, long move, long out, long room, long written);
    }
    /** Pushes the text of a move of no instructions, as a slot holds no such move. */
    void grow(MoveCall call, Call textCall, Move move) {
        Objects.requireNonNull(move, "move");
        Calls.Result result;
        Turns.Player player = Turns.Player.call(this);
        synchronized (agent.slot) {
            long step = slot().at;
            synchronized (move.slot) {
                move.expectOpen();
                result = move.size() == 0
                        ? resultOf(textCall, NO_INSTRUCTIONS)
                        : room.resultOf((text, out, length, written)
                                            -> call.call(agent.slot.at, step, move.slot.at, out,
                                                    length, written));
            }
            expectUnmoved(result.code());
        }
        FolugbenException.expectNoObjection(result);
        ManyException.expectMove(result.code(), "the one move of all that are pushed");
        FolugbenException.expect(result.code());
        player.pushes(self());
    }
    String offered() {
        synchronized (agent.slot) {
            long step = slot().at;
            Calls.Result result = room.resultOf(
                    (text, out, length, written) -> Calls.asm_offer(step, out, length, written));
            FolugbenException.expect(expectUnmoved(result.code()));
            return result.text();
        }
    }
    /** Returns the text of a location that was written since, or null. */
    String overwritten() {
        synchronized (agent.slot) {
            Calls.Result result = agent.slot.stands(slot());
            if (result.code() == Code.STALE)
                return result.text();
            FolugbenException.expect(expectUnmoved(result.code()));
            return null;
        }
    }
    Code committed() {
        Code code = agent.commit(slot().at);
        if (code == Code.DONE)
            end();
        return code;
    }

    /** To be called with the agent's lock, as all that uses the slot. */
    StepCalls(Agent agent) {
        this.agent = agent;
        room = agent.slot.room;
        slot = agent.slot.takeStep(self());
        boolean hasStarted = false;
        try {
            agent.expect(agent.slot.begin(slot));
            number = room.number(0);
            before = agent.before();
            hasStarted = true;
        } finally {
            if (!hasStarted)
                drop();
        }
    }

    /** Returns the step itself. */
    final Step self() {
        return (Step) this;
    }

    /** Releases the slot, unless the step is over; with the agent's lock. */
    final void drop() {
        if (slot.isOf(self())) {
            Calls.asm_free(slot.at);
            end();
        }
    }

    /** Returns the reply to a commit. */
    final Actor.Reply commits() {
        Turns.Player player = Turns.Player.poll(this);
        player.fires(self());
        synchronized (agent.slot) {
            Actor.Reply reply = agent.reply(committed(), true);
            fired = reply.move();
            player.fired(reply);
            return reply;
        }
    }

    /** Returns what a scan finds. */
    final Actor.State scanned(String name) {
        byte[] text = Texts.utf8(name, "name");
        Turns.Player player = Turns.Player.call(this);
        Calls.Result result = resultOf(Calls::asm_step_scan, text);
        ManyException.expectPlaces(result.code());
        FolugbenException.expect(result.code());
        player.stepScans(name);
        player.observe(result.text());
        return new Actor.State(before() + number, result.text());
    }

    /** A call on an agent and a step that is passed a name and writes a number. */
    interface NameCall {
        int call(long agent, long step, long name, long length, long number);
    }

    /** Returns the number that the call writes of a function. */
    final long found(String name, NameCall call, LongSupplier read) {
        byte[] text = Texts.utf8(name, "name");
        Turns.Player player = Turns.Player.call(this);
        synchronized (agent.slot) {
            long step = slot().at;
            Code code = room.make(text, (at, out, length, written)
                    -> call.call(agent.slot.at, step, at, text.length, room.numbers()));
            ManyException.expectPlaces(expectUnmoved(code));
            FolugbenException.expect(code);
            long found = read.getAsLong();
            player.stepScans(name);
            player.observe("" + found);
            return found;
        }
    }

    /** Pops into a move. */
    final void popsInto(Move into) {
        Turns.Player.call(this);
        Objects.requireNonNull(into, "move");
        synchronized (agent.slot) {
            long step = slot().at;
            synchronized (into.slot) {
                Code code = expectUnmoved(into.takePopped(step));
                ManyException.expectMove(code, "the one move of those that are popped");
                FolugbenException.expect(code);
            }
        }
    }
}
