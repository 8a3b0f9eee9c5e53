package folugben;

import java.lang.ref.WeakReference;
import java.util.List;
import java.util.Objects;

/**
 * An agent of a storage, which reads locations and fires moves.
 * {@link Step} makes that easy. Calls take and return objects, or texts: JSON in the forms of
 * docs/FORMATS.md. A text with a lone surrogate is an IllegalArgumentException. Any thread may call
 * it. No garbage collector releases it: call close(), which returns it to its storage.
 */
public final class Agent extends AgentCalls implements Actor {
    Agent(Storage storage, int number) {
        super(storage, number);
    }

    private static final Object LEARNING = new Object();

    /** By which its storage knows it without keeping it. */
    final WeakReference<Agent> weak = new WeakReference<>(this);

    /** Returns its number among the agents of its storage. */
    @Override
    public int number() {
        return number;
    }

    /**
     * Sets whether each commit of a step records what the step read. By default it doesn't.
     *
     * <p>A commit that records first polls, and adds a receipt of a read: the locations that its
     * move names, which still have their values at the step's version. So the journal shows what
     * the move was computed from, and {@link Storage#check} judges that too. No read is added if
     * the move names no location, or if one of them was written since. What {@link Step#scan}
     * found stays out of the journal, and so does what {@link Step#see} returned. Each commit then
     * takes up to twice the receipts.
     *
     * @return this agent
     */
    public Agent record(boolean isRecording) {
        setRecording(isRecording);
        return this;
    }

    /** Reads the locations [LOC, ..], and returns {"number":N,"values":[VALUE, ..]}. */
    public String read(String locations) {
        Turns.Player player = Turns.Player.poll(this);
        byte[] call = Texts.utf8(locations, "locations");
        takeState();
        synchronized (slot) {
            Code code = slot.read(call);
            if (code == Code.MANY)
                throw ManyException.places(
                        JsonReader.locations(locations).size(), "locations are read");
            FolugbenException.expectRead(expectNotReturned(code), Storage.Form.LOCATIONS, call);
            unfired++;
            String answer = lastAnswer();
            player.reads(locations);
            player.observe(values(answer));
            return answer;
        }
    }

    /**
     * Reads the locations, at most 256.
     *
     * @throws FolugbenException as a {@link ManyException} if there are more
     */
    public Reading read(List<Location> locations) {
        List<Location> copy = Texts.Copies.of(locations, "locations");
        return JsonReader.reading(read(JsonWriter.locations(copy)), copy);
    }

    /**
     * Fires a move that depends on the reads, and returns its number, from 1 up.
     *
     * <p>At most 4,096 instructions and 256 reads. Any other reply is thrown, so none is lost.
     *
     * @throws FolugbenException as a {@link StaleException}, {@link ClashException}, {@link
     *         FullException} or {@link BusyException}; as tryFire
     */
    public long fire(List<? extends Instruction> instructions, List<Named> reads) {
        return tryFire(instructions, reads).orThrow();
    }

    /** Fires a move that depends on the functions of the scans too, as tryFire does. */
    public long fire(
            List<? extends Instruction> instructions, List<Named> reads, List<Scanned> scans) {
        return tryFire(instructions, reads, scans).orThrow();
    }

    /** Fires the instructions [INSTR, ..], which depend on the reads [NAMED, ..]. */
    public long fire(String instructions, String reads) {
        return tryFire(instructions, reads).orThrow();
    }

    /** Fires instructions that depend on the scans [[NAME,NUMBER], ..] too. */
    public long fire(String instructions, String reads, String scans) {
        return tryFire(instructions, reads, scans).orThrow();
    }

    /**
     * Fires a move that depends on the reads, and returns the reply.
     *
     * <p>At most 4,096 instructions and 256 reads. No update is lost if each number is that of a
     * reading of this agent, or of one of which it has learnt. After {@link Storage#next} numbers
     * start again: keep none.
     *
     * @throws FolugbenException as a {@link ManyException} if there are more reads; SHAPE if there
     *         are more instructions; AHEAD, which says of which location, if a number is above that
     *         of the moves that the agent has seen, as it would guard nothing
     */
    public Reply tryFire(List<? extends Instruction> instructions, List<Named> reads) {
        return tryFire(instructions, reads, List.of());
    }

    /**
     * Fires a move that depends on the whole functions of the scans too.
     *
     * <p>It is stale also if a location of one of the functions was written since, including one
     * that had no value.
     *
     * <p>At most 256 reads and scans together. The number of a scan is that of {@link #scan}.
     */
    public Reply tryFire(
            List<? extends Instruction> instructions, List<Named> reads, List<Scanned> scans) {
        return tryFire(JsonWriter.move(instructions, "instructions"), JsonWriter.reads(reads),
                JsonWriter.scans(scans));
    }

    /**
     * Fires the instructions [INSTR, ..], which depend on the reads [NAMED, ..].
     *
     * @throws FolugbenException NOT_JSON, which names the argument, if one isn't one value; AHEAD
     *         as of reads that are objects
     */
    public Reply tryFire(String instructions, String reads) {
        return tryFire(instructions, reads, "[]");
    }

    /**
     * Fires the instructions, which depend on the reads and on the scans [[NAME,NUMBER], ..] too.
     *
     * @throws FolugbenException as of two arguments
     */
    public Reply tryFire(String instructions, String reads, String scans) {
        Turns.Player player = Turns.Player.poll(this);
        String move = "{\"fire\":" + Texts.oneValue(instructions, "instructions") + ",\"reads\":"
                + Texts.oneValue(reads, "reads") + "}";
        byte[] call = Texts.utf8(move, "the move");
        byte[] both = Texts.utf8(move + Texts.oneValue(scans, "scans"), "the move");
        synchronized (slot) {
            Code code = slot.fireOver(both, call.length);
            if (code == Code.NOT_JSON || code == Code.SHAPE)
                FolugbenException.expectFire(code, call);
            if (code == Code.MANY)
                throw ManyException.places(
                        JsonReader.reads(reads).size() + JsonReader.scans(scans).size(),
                        "locations and scanned functions are named");
            if (code == Code.AHEAD)
                throw FolugbenException.ahead(reads, scans, Calls.asm_seen(slot.at));
            Reply reply = reply(code, false);
            player.fires(instructions, reads, scans, reply);
            return reply;
        }
    }

    /**
     * Polls, and begins a step on the agent's own state.
     *
     * <p>Several steps may be open, as long as the state doesn't move on.
     */
    @Override
    public Step step() {
        Turns.Player player = Turns.Player.poll(this);
        Step step = begin();
        player.stepBegan(step);
        return step;
    }

    /** The same, which is no turn. */
    Step begin() {
        takeState();
        synchronized (slot) {
            return new Step(this);
        }
    }

    /**
     * Polls until no further move is found; returns how many moves it has then seen.
     *
     * <p>Its own state moves on only here, in read, fire, stands and step, and by a commit. It also
     * polls before it is shown, if another agent of the same thread took the state. A poll leaves
     * no receipt.
     */
    @Override
    public long follow() {
        Turns.Player.poll(this);
        takeState();
        synchronized (slot) {
            expect(slot.follow());
            return room.number(0);
        }
    }

    /**
     * Returns {"number":N,"values":[VALUE, ..]} of the locations [LOC, ..] in its own state.
     *
     * <p>Any number of locations. It doesn't poll and leaves no receipt; a fire may name each
     * location with this number.
     */
    public String peek(String locations) {
        Turns.Player player = Turns.Player.call(this);
        byte[] call = Texts.utf8(locations, "locations");
        synchronized (slot) {
            Calls.Result result = slot.peek(call);
            FolugbenException.expectRead(expectNotReturned(result.code()), Storage.Form.LOCATIONS, call);
            player.reads(locations);
            player.observe(values(result.text()));
            return result.text();
        }
    }

    /** Returns the values of any number of locations in its own state. */
    @Override
    public Reading peek(List<Location> locations) {
        List<Location> copy = Texts.Copies.of(locations, "locations");
        return JsonReader.reading(peek(JsonWriter.locations(copy)), copy);
    }

    /** Returns the value of a prepared location in its own state. */
    public Peeked peek(PreparedLocation location) {
        Turns.Player player = Turns.Player.call(this);
        synchronized (slot) {
            peekInto(location, player);
            return new Peeked(room.number(0), room.readValue());
        }
    }

    /**
     * Returns the number there, and makes no object.
     *
     * @throws IllegalStateException if the value is no number
     */
    public long peekLong(PreparedLocation location) {
        Turns.Player player = Turns.Player.call(this);
        synchronized (slot) {
            peekInto(location, player);
            return room.kind() == Room.NUM ? room.number() : room.readValue().asLong();
        }
    }

    /** Returns its own state, ascending by locations, without a poll or a receipt. */
    @Override
    public State state() {
        Turns.Player player = Turns.Player.call(this);
        synchronized (slot) {
            Calls.Result result = slot.state();
            expect(result.code());
            player.readsAll();
            player.observe(result.text());
            return new State(room.number(0), result.text());
        }
    }

    /**
     * Returns the locations of one function in its own state.
     *
     * <p>A fire that names each of them doesn't notice that a further one is written later. One that
     * depends on the scan does, as a step that scans.
     */
    @Override
    public State scan(String name) {
        Turns.Player player = Turns.Player.call(this);
        byte[] bytes = Texts.utf8(name, "name");
        synchronized (slot) {
            Calls.Result result = slot.scan(bytes);
            expect(result.code());
            player.scans(name);
            player.observe(result.text());
            return new State(room.number(0), result.text());
        }
    }

    /**
     * Polls, and validates the named reads [NAMED, ..], at most 256.
     *
     * <p>The reply is DONE, or STALE for the smallest location that was written since. A fire may
     * still be refused, by a move that comes in between.
     *
     * @throws FolugbenException AHEAD, which says of which location, if a number is above that of
     *         the moves that the agent had seen
     */
    public Reply stands(String reads) {
        Turns.Player player = Turns.Player.poll(this);
        return validate(reads, player);
    }

    /**
     * Polls, and validates the reads, at most 256.
     *
     * @throws FolugbenException as a {@link ManyException} if there are more than 256
     */
    public Reply stands(List<Named> reads) {
        return stands(JsonWriter.reads(reads));
    }

    /** Returns the answer to the last answered call, of any thread. */
    public String answer() {
        Turns.Player.call(this);
        return lastAnswer();
    }

    /**
     * Opens a storage for 1 to 1,048,576 moves that goes on where this agent's is full.
     *
     * <p>The agent has polled to its end. No journal is closed, and no other agent waits. The
     * journals of both, one after the other, are one run. Agents and numbers start again.
     *
     * @throws FolugbenException NOT_FULL if its own state is at fewer moves than that storage's room
     */
    public Storage goOn(int capacity) {
        return Storage.behind(this, capacity);
    }

    /** Learns what the other agent of the storage has seen. */
    public void learn(Agent other) {
        Turns.Player.poll(this).depends();
        Objects.requireNonNull(other, "other");
        if (other.storage != storage)
            FolugbenException.expect(Code.OTHER);
        // Of two with one number, one of which was returned, the locks have no other order.
        synchronized (LEARNING) {
            withLocks(other, () -> {
                Code code = Code.of(Calls.asm_learn(slot.at, other.slot.at));
                other.expectNotReturned(code);
                expect(code);
            });
        }
    }

    /** Returns how many moves it has seen. */
    @Override
    public long seen() {
        Turns.here().readsAll();
        synchronized (slot) {
            return Calls.asm_seen(slot.at);
        }
    }

    /** Returns how many moves it fired. */
    @Override
    public long won() {
        synchronized (slot) {
            return Calls.asm_won(slot.at);
        }
    }

    /** Returns how many of its polls found no further move. */
    public long misses() {
        Turns.here().readsAll();
        synchronized (slot) {
            return Calls.asm_misses(slot.at);
        }
    }

    /** Returns it to its storage. */
    public void give() {
        Turns.Player.call(this);
        storage.give(this);
    }

    /**
     * Releases the agent <b>without</b> returning it.
     *
     * <p>If it fired a move, {@link Storage#closeJournal} throws MISSING for good.
     */
    public void abandon() {
        synchronized (slot) {
            Calls.asm_free(slot.at);
        }
    }

    /** Returns it to its storage, if that isn't closed yet; it may be called again. */
    @Override
    public void close() {
        if (!storage.takeBackIfOpen(this))
            abandon();
    }

    /** Returns a text such as agent 3, at 7 moves. */
    @Override
    public String toString() {
        synchronized (slot) {
            long seen = before() + Calls.asm_seen(slot.at);
            return "agent " + number + (slot.isFull() ? ", at " + seen + " moves" : ", returned");
        }
    }
}
