package folugben;

import java.time.Duration;
import java.util.Arrays;
import java.util.List;
import java.util.Objects;
import java.util.Optional;
import java.util.concurrent.TimeUnit;

/**
 * A transaction of an agent: it reads values, pushes moves and commits.
 *
 * <p>Reads and pushes come in any order. All calls see one state, and the moves pushed before. A
 * commit fires one move that does what the pushed ones do in turn. {@link Agent#step} begins a
 * step. Calls take and return objects, or texts: JSON in the forms of docs/FORMATS.md. A text with
 * a lone surrogate is an IllegalArgumentException. Any thread may call it; a call waits for the
 * agent's other calls.
 *
 * <pre>{@code
 * try (Step step = agent.step()) {
 *     Location count = Location.of("count"), twice = Location.of("double");
 *     long there = step.get(count).asLong();
 *     step.push(Instruction.put(count, there + 1));
 *     step.push(Instruction.put(twice, 2 * step.get(count).asLong())); // 2 * (there + 1)
 *     step.commit(); // throws a ConflictException if the step must be begun again
 * }
 * }</pre>
 *
 * <p>If the agent has moved past the step's version, as by read, fire, follow, stands or another
 * step, calls that get or push throw MOVED: begin another step. No garbage collector releases a
 * step: call close().
 */
public sealed class Step extends StepCalls implements AutoCloseable permits SharedAgent.SharedStep {
    /** How long a wait sleeps between two polls, in ns: first, and at most. */
    private static final long FIRST_PAUSE = 20_000;
    private static final long LONGEST_PAUSE = 10_000_000;

    /** To be called with the agent's lock, as all that uses the slot. */
    Step(Agent agent) {
        super(agent);
    }

    /** Returns its version: the number of moves that its state is after, of a run all moves. */
    public long number() {
        Turns.here().readsAll();
        return before() + number;
    }

    /**
     * Returns {"number":N,"values":[VALUE, ..]} of the locations [LOC, ..].
     *
     * <p>The values are seen through the pushed moves. A location is tracked, and the commit names
     * it, if its value comes from the state; what a pushed move put there depends on nothing.
     *
     * @throws FolugbenException MOVED; MANY if more than 256 would be tracked
     */
    public String get(String locations) {
        return readLocations(Calls::asm_get, locations);
    }

    /**
     * Returns the values of the locations, in their order, as get of a text does.
     *
     * @throws FolugbenException as a {@link MovedException}; as a {@link ManyException} if more
     *         than 256 would be tracked
     */
    public List<Value> get(List<Location> locations) {
        List<Location> copy = Texts.Copies.of(locations, "locations");
        return JsonReader.reading(get(JsonWriter.locations(copy)), copy).values();
    }

    /** Returns the value of one location, as get of several does. */
    public Value get(Location location) {
        return get(List.of(Objects.requireNonNull(location, "location"))).get(0);
    }

    /**
     * Returns the number there.
     *
     * @throws IllegalStateException if the value is no number
     */
    public long getLong(Location location) {
        return get(location).asLong();
    }

    /**
     * Returns the number there, or the other one if nothing is there.
     *
     * @throws IllegalStateException if a value of another kind is there
     */
    public long getLong(Location location, long otherwise) {
        return get(location).asLong(otherwise);
    }

    /**
     * Returns the boolean there.
     *
     * @throws IllegalStateException if the value is no boolean
     */
    public boolean getBoolean(Location location) {
        return get(location).asBoolean();
    }

    /**
     * Returns the text there.
     *
     * @throws IllegalStateException if the value is no text
     */
    public String getText(Location location) {
        return get(location).asText();
    }

    /**
     * Returns what get returns, and tracks nothing.
     *
     * <p>So the commit fires though another agent has written there since.
     *
     * @throws FolugbenException MOVED
     */
    public String see(String locations) {
        return readLocations(Calls::asm_see, locations);
    }

    /** Returns the values of the locations, in their order, and tracks nothing. */
    public List<Value> see(List<Location> locations) {
        List<Location> copy = Texts.Copies.of(locations, "locations");
        return JsonReader.reading(see(JsonWriter.locations(copy)), copy).values();
    }

    /** Returns the value of one location, and tracks nothing. */
    public Value see(Location location) {
        return see(List.of(Objects.requireNonNull(location, "location"))).get(0);
    }

    /**
     * Returns the value of a prepared location.
     *
     * @throws FolugbenException as a {@link MovedException} or {@link ManyException}, as get of
     *         others
     */
    public Value get(PreparedLocation location) {
        return taken(location, room::readValue);
    }

    /**
     * Returns the number there, and makes no object.
     *
     * <p>The location is tracked as by get, also if the value is of another kind.
     *
     * @throws IllegalStateException if the value is no number
     */
    public long getLong(PreparedLocation location) {
        Turns.Player player = Turns.Player.call(this);
        synchronized (agent.slot) {
            take(location, player);
            return room.kind() == Room.NUM ? room.number() : room.readValue().asLong();
        }
    }

    /**
     * Returns the number there, or the other one if nothing is there.
     *
     * @throws IllegalStateException if a value of another kind is there
     */
    public long getLong(PreparedLocation location, long otherwise) {
        Turns.Player player = Turns.Player.call(this);
        synchronized (agent.slot) {
            take(location, player);
            return room.kind() == Room.NUM ? room.number() : room.readValue().asLong(otherwise);
        }
    }

    /**
     * Returns the boolean there, as getLong returns a number.
     *
     * @throws IllegalStateException if the value is no boolean
     */
    public boolean getBoolean(PreparedLocation location) {
        return taken(location, ()
                -> room.kind() == Room.BOOL ? room.number() != 0 : room.readValue().asBoolean());
    }

    /**
     * Returns the text there, as getLong returns a number.
     *
     * @throws IllegalStateException if the value is no text
     */
    public String getText(PreparedLocation location) {
        return taken(location, ()
                -> room.kind() == Room.STRING ? room.text() : room.readValue().asText());
    }

    /**
     * Returns whether the set or the bag there has the element, and makes no value of it.
     *
     * <p>Where nothing is, there is no element. The location is tracked as by get, also if its
     * value is of another kind.
     *
     * @throws IllegalStateException if the value is no set and no bag
     * @throws FolugbenException as a {@link MovedException} or {@link ManyException}, as get
     */
    public boolean has(PreparedLocation location, Element element) {
        return countOf(location, element) > 0;
    }

    /** Returns the same of a location that isn't prepared. */
    public boolean has(Location location, Element element) {
        return countOf(location, element) > 0;
    }

    /** Returns how often the set or the bag there has the element, as has does: of a set 0 or 1. */
    public long countOf(PreparedLocation location, Element element) {
        return counted(location, element);
    }

    /** Returns the same of a location that isn't prepared. */
    public long countOf(Location location, Element element) {
        try (PreparedLocation at = Objects.requireNonNull(location, "location").prepare()) {
            return counted(at, element);
        }
    }

    /**
     * Returns how many elements the set or the bag there has, as has does.
     *
     * <p>Each of a bag counts as often as it is there. It is at most Long.MAX_VALUE.
     */
    public long size(PreparedLocation location) {
        return sized(location);
    }

    /** Returns the same of a location that isn't prepared. */
    public long size(Location location) {
        try (PreparedLocation at = Objects.requireNonNull(location, "location").prepare()) {
            return sized(at);
        }
    }

    /**
     * Scans a function: returns all its locations with their values, through the pushed moves.
     *
     * <p>{@code for (Pair each : step.scan("shelf"))} takes them in ascending order.
     *
     * <p>The step then depends on the whole function: a write to any location of it, including one
     * that has no value yet, makes the commit stale. A scan takes one of the 256 places, however
     * many locations it finds.
     *
     * @throws FolugbenException MOVED; MANY if more than 256 would be tracked and scanned
     */
    public Agent.State scan(String name) {
        return scanned(name);
    }

    /**
     * Returns whether a scan would list a location, at the cost of one.
     *
     * <p>The step then depends on the whole function, as after a scan.
     *
     * @throws FolugbenException as scan
     */
    public boolean any(String name) {
        return found(name, Calls::asm_any, () -> room.number(0)) > 0;
    }

    /**
     * Returns how many locations a scan would list, and makes no list; at most Long.MAX_VALUE.
     *
     * @throws FolugbenException as scan
     */
    public long count(String name) {
        long count = found(name, Calls::asm_count, () -> room.wide(0));
        return count < 0 ? Long.MAX_VALUE : count;
    }

    /**
     * Pushes the move [INSTR, ..], through which later calls see.
     *
     * <p>A move that is refused or popped was a dry run.
     *
     * @throws FolugbenException CLASH, whose answer is {"clash":[LOC,CAUSE]}, if its updates clash
     *         on what is seen; MOVED; DEEP if 64 moves are pushed; LONG_MOVE if the one move of all
     *         would have more than 4,096 instructions
     */
    public void push(String move) {
        grow(Calls::asm_push, move);
    }

    /**
     * Pushes the move.
     *
     * @throws FolugbenException as a {@link ClashException}, {@link MovedException}, {@link
     *         DeepException} or {@link ManyException}, as push of a text; SHAPE if the move has
     *         more than 4,096 instructions
     */
    public void push(List<? extends Instruction> move) {
        push(JsonWriter.move(move, "move"));
    }

    /** Pushes a move of these instructions. */
    public void push(Instruction... move) {
        push(Arrays.asList(Objects.requireNonNull(move, "move")));
    }

    /**
     * Pushes a gathered move, which is unchanged.
     *
     * @throws FolugbenException as push of others; EMPTY if the move is closed
     */
    public void push(Move move) {
        grow(Calls::asm_push_move, Calls::asm_push, move);
    }

    /**
     * Joins the move [INSTR, ..] to the one that was pushed last, with which it is popped.
     *
     * <p>So a loop of a thousand rounds is one move deep. Without a pushed move it is pushed.
     *
     * @throws FolugbenException as push, but never DEEP
     */
    public void extend(String move) {
        grow(Calls::asm_extend, move);
    }

    /**
     * Joins the move to the one that was pushed last.
     *
     * @throws FolugbenException as push, but never a DeepException
     */
    public void extend(List<? extends Instruction> move) {
        extend(JsonWriter.move(move, "move"));
    }

    /** Joins a move of these instructions. */
    public void extend(Instruction... move) {
        extend(Arrays.asList(Objects.requireNonNull(move, "move")));
    }

    /**
     * Joins a gathered move, which is unchanged.
     *
     * @throws FolugbenException as push of such a move, but never a DeepException
     */
    public void extend(Move move) {
        grow(Calls::asm_extend_move, Calls::asm_extend, move);
    }

    /**
     * Takes away the move that was pushed last; what is tracked stays so.
     *
     * @throws FolugbenException NO_PUSH if no move is pushed
     */
    public void pop() {
        Turns.Player.call(this);
        synchronized (agent.slot) {
            FolugbenException.expect(Code.of(Calls.asm_pop(slot().at)));
        }
    }

    /**
     * Pops, and returns the one move that does what the popped ones do in turn.
     *
     * <p>Push and extend of any step take it. A move that nothing joined is unchanged. Close it.
     *
     * @throws FolugbenException NO_PUSH if no move is pushed; as a {@link ManyException} if the one
     *         move would have more than 4,096 instructions; nothing is popped then
     */
    public Move popMove() {
        return popMove(new Move());
    }

    /**
     * Pops into a move, in the place of its instructions, and returns that.
     *
     * @throws FolugbenException as the other; EMPTY if the move is closed
     */
    public Move popMove(Move into) {
        popsInto(into);
        return into;
    }

    /**
     * What a commit would fire now: the one move, and the locations that it names.
     *
     * <p>Agent.fire takes both. The functions that were scanned aren't in it.
     */
    public record Offer(List<Instruction> fire, List<Named> reads) {
        /** Copies of both. */
        public Offer {
            fire = Texts.Copies.of(fire, "fire");
            reads = Texts.Copies.of(reads, "reads");
        }

        /** The same with numbers that count so many moves more. */
        private Offer plus(long before) {
            return new Offer(fire, reads.stream().map(it -> it.plus(before)).toList());
        }
    }

    /**
     * Polls; returns a location that was written since the step began, so that a commit is stale.
     *
     * <p>It is one on which the step depends, or one of a function that it scanned. The agent's own
     * state follows, so the step may read no more; a commit still fires what was pushed, if nothing
     * is returned.
     */
    public Optional<Location> stands() {
        Turns.Player player = Turns.Player.poll(agent);
        String text = overwritten();
        player.observe(text == null ? "" : text);
        return Optional.ofNullable(text).map(it -> JsonReader.objection(it).at());
    }

    /**
     * Waits until {@link #stands} returns a location.
     *
     * <p>Returns whether it has; else the time is over. Begin another step then.
     *
     * @throws InterruptedException if the thread is interrupted, also before the call
     */
    public boolean await(Duration timeout) throws InterruptedException {
        long end = System.nanoTime() + timeout.toNanos();
        for (long pause = FIRST_PAUSE;; pause = Math.min(2 * pause, LONGEST_PAUSE)) {
            if (stands().isPresent())
                return true;
            long left = end - System.nanoTime();
            if (left <= 0)
                return false;
            TimeUnit.NANOSECONDS.sleep(Math.min(left, pause));
        }
    }

    /** Returns what a commit would fire now. */
    public Offer offer() {
        return JsonReader.offer(offerText()).plus(before());
    }

    /** The same, which is no turn. */
    Offer offerNow() {
        return JsonReader.offer(offered());
    }

    /** Returns the same as {"fire":[INSTR, ..],"reads":[NAMED, ..]}, with its storage's numbers. */
    public String offerText() {
        Turns.Player.call(this);
        return offered();
    }

    /** Returns how many moves are pushed, at most 64. */
    public int depth() {
        synchronized (agent.slot) {
            return isOver() ? 0 : Calls.asm_depth(slot.at);
        }
    }

    /**
     * Fires one move that does what the pushed moves do in turn, if it isn't stale.
     *
     * <p>The step is stale if a location was written since that is tracked, is of a scanned
     * function, or has partial updates of one pushed move and another one writes it too. What one
     * move alone adds, removes or increments is judged when it is fired: it clashes if it doesn't
     * fit. If the move fires, the step is over; else it stays until it is closed. Stale and clash
     * are replies, which ask to begin again ({@link Agent.Reply#shouldRetry}).
     *
     * @throws FolugbenException MANY if more than 256 locations would be named and functions were
     *         scanned
     * @throws TooLongException if the line of the move, or of the read that is recorded, could be
     *         longer than an audit reads
     */
    public Agent.Reply tryCommit() {
        return commits();
    }

    /**
     * Commits as tryCommit does, and returns the number of the fired move, from 1 up.
     *
     * @throws ConflictException if the step must be begun again, as {@link Agent#play} does: as a
     *         {@link StaleException}, {@link BusyException}, {@link CommitClashException} or {@link
     *         PastException}
     * @throws FolugbenException as a {@link FullException} or {@link ManyException}
     */
    public long commit() {
        return tryCommit().orThrow();
    }

    /** Returns a text such as a step of agent 3 at 7, 2 moves pushed. */
    @Override
    public String toString() {
        synchronized (agent.slot) {
            String what = "a step of agent " + agent.number() + " at " + (before() + number);
            return isOver() ? what + ", over" : what + ", " + Calls.asm_depth(slot.at) + " moves pushed";
        }
    }

    /** Abandons the step, unless it is over. */
    @Override
    public void close() {
        synchronized (agent.slot) {
            drop();
        }
    }
}
