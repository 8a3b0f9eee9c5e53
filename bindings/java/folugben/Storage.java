package folugben;

import java.io.IOException;
import java.io.UncheckedIOException;
import java.lang.ref.WeakReference;
import java.nio.ByteBuffer;
import java.nio.file.Path;
import java.util.ArrayList;
import java.util.List;
import java.util.Map;
import java.util.Objects;
import java.util.SortedMap;

/**
 * A state that agents read, and fire moves on, in threads.
 *
 * <p>Calls take and return objects, or texts: JSON in the forms of docs/FORMATS.md. A text with a
 * lone surrogate is an IllegalArgumentException. Any thread may call it. No garbage collector
 * releases it: call close().
 */
public final class Storage implements AutoCloseable {
    static final int AGENTS = 256;
    static final int CAPACITY = 1_048_576;

    /** The storage's slot, and the lock of the calls on it. */
    private final Slot slot = new Slot();

    /** The path of the journal that is written at the close; null for none. */
    private final Path path;

    /** Agents that were made and not returned, by number; with the lock of the slot. */
    private final Agent[] agents = new Agent[AGENTS];

    /**
     * For each number, also of a returned agent, whether another agent took its state, so that it
     * polls before that is shown; with the lock of the agent's slot.
     */
    final boolean[] lent = new boolean[AGENTS];

    /** Whether agents that are made or checked out record. */
    private volatile boolean isRecording;

    /** The agent that each thread has played last. */
    private final ThreadLocal<WeakReference<Agent>> last = new ThreadLocal<>();

    private Storage(Path path) {
        this.path = path;
    }

    /** Does the same, and writes the journal to a file when the storage is closed. */
    public Storage(String init, int capacity, Path journal) {
        this(Objects.requireNonNull(journal, "journal"));
        begin(init, capacity);
    }

    /**
     * Opens a storage with the state [PAIR, ..], for 1 to 1,048,576 moves.
     *
     * @throws IllegalArgumentException for another capacity
     */
    public Storage(String init, int capacity) {
        this((Path) null);
        begin(init, capacity);
    }

    private void begin(String init, int capacity) {
        byte[] state = Texts.utf8(init, "init");
        expectCapacity(capacity);
        synchronized (slot) {
            Code code = Code.of(Calls.asm_open(state, state.length, capacity, slot.at));
            FolugbenException.expectRead(code, Form.STATE, state);
        }
    }

    /**
     * Opens a storage with the state, for 1 to 1,048,576 moves.
     *
     * <p>The values are such as {@link Value#of} takes; undef leaves a location empty.
     *
     * @throws IllegalArgumentException as Value.of
     */
    public static Storage open(Map<Location, ?> init, int capacity) {
        return new Storage(JsonWriter.state(init, "init"), capacity);
    }

    /** Does the same, and writes the journal to a file when the storage is closed. */
    public static Storage open(Map<Location, ?> init, int capacity, Path journal) {
        return new Storage(JsonWriter.state(init, "init"), capacity, journal);
    }

    static void expectCapacity(int capacity) {
        if (capacity < 1 || capacity > CAPACITY)
            throw new IllegalArgumentException("a capacity is 1 to 1,048,576, not " + capacity);
    }

    /**
     * Opens a storage with the pairs, in any order.
     *
     * @throws FolugbenException SHAPE if a location occurs twice
     */
    public static Storage open(List<Pair> init, int capacity) {
        return new Storage(JsonWriter.state(init, "init"), capacity);
    }

    /**
     * Sets whether agents that are made or checked out from now on record.
     *
     * <p>See {@link Agent#record}. The storages of {@link #next} and {@link Agent#goOn} do so too.
     *
     * @return this storage
     */
    public Storage record(boolean isRecording) {
        this.isRecording = isRecording;
        return this;
    }

    static void expectNumber(int number) {
        if (number < 0 || number >= AGENTS)
            throw new IllegalArgumentException("agent " + number + ": numbers are 0 to 255");
    }

    /**
     * Makes the agent with this number, 0 to 255.
     *
     * @throws IllegalArgumentException for another number
     * @throws FolugbenException NUMBER if one was made before
     */
    public Agent agent(int number) {
        expectNumber(number);
        Agent agent = new Agent(this, number);
        synchronized (slot) {
            synchronized (agent.slot) {
                Code code = Code.of(Calls.asm_agent(slot.at, number, agent.slot.at));
                if (code == Code.NUMBER)
                    throw FolugbenException.numberTaken(number);
                expect(code);
            }
            agent.setRecording(isRecording);
            agents[number] = agent;
        }
        return agent;
    }

    /**
     * Checks out an agent that was returned, to go on from its state, with its receipts.
     *
     * <p>A journal that was closed before is discarded.
     *
     * @throws FolugbenException NO_AGENT if no agent with this number was returned
     */
    public Agent take(int number) {
        expectNumber(number);
        Agent agent = new Agent(this, number);
        synchronized (slot) {
            synchronized (agent.slot) {
                expect(Code.of(Calls.asm_take(slot.at, number, agent.slot.at)));
            }
            agent.setRecording(isRecording);
            agents[number] = agent;
        }
        return agent;
    }

    /** Notes that an agent is about to poll; returns the one that did so last on this thread. */
    Agent plays(Agent agent) {
        WeakReference<Agent> before = last.get();
        if (before == agent.weak)
            return null;
        last.set(agent.weak);
        return before == null ? null : before.get();
    }

    /** Throws if the code of a call on it isn't DONE; with its lock. */
    private void expect(Code code) {
        if (code == Code.EMPTY && !slot.isFull())
            throw FolugbenException.closed("the storage was closed");
        FolugbenException.expect(code);
    }

    /** Returns how many moves were fired. */
    public int moves() {
        int[] moves = new int[1];
        synchronized (slot) {
            expect(Code.of(Calls.asm_moves(slot.at, moves)));
        }
        return moves[0];
    }

    /** Returns an agent to this storage. */
    public void give(Agent agent) {
        Objects.requireNonNull(agent, "agent");
        if (agent.storage() != this)
            FolugbenException.expect(Code.OTHER);
        synchronized (slot) {
            synchronized (agent.slot) {
                takeBack(agent);
            }
        }
    }

    private void takeBack(Agent agent) {
        Code code = Code.of(Calls.asm_give(slot.at, agent.slot.at));
        if (slot.isFull())
            agent.expect(code);
        else
            expect(code);
        agents[agent.number()] = null;
    }

    /** Returns the agent to this, if both are open; false if this is closed. */
    boolean takeBackIfOpen(Agent agent) {
        synchronized (slot) {
            synchronized (agent.slot) {
                if (slot.isFull() && agent.slot.isFull())
                    takeBack(agent);
                return slot.isFull();
            }
        }
    }

    /**
     * Returns the journal of the agents that were returned, or closed.
     *
     * @throws FolugbenException MISSING if it lacks a move; for good, if its agent was abandoned
     */
    public String closeJournal() {
        synchronized (slot) {
            closeAll();
            return Calls.text((out, room, written)
                                      -> Calls.asm_journal(slot.at, out, room, written),
                    Calls.ROOM);
        }
    }

    /** Returns the same as bytes in the room, which stay there until its next call. */
    ByteBuffer closeJournal(Room room) {
        synchronized (slot) {
            closeAll();
            expect(room.make((text, out, length, written)
                                     -> Calls.asm_journal(slot.at, out, length, written)));
            return room.textBytes();
        }
    }

    private void closeAll() {
        int[] missing = new int[1];
        Code code = Code.of(Calls.asm_close(slot.at, missing));
        if (code == Code.MISSING)
            throw FolugbenException.missing(missing[0], agentToReturn(missing[0]));
        expect(code);
    }

    /** Returns which agents that fired must be returned, with the lock of the slot. */
    private String agentToReturn(int move) {
        List<String> numbers = new ArrayList<>();
        boolean isAbandoned = false;
        for (Agent agent : agents)
            if (agent != null)
                synchronized (agent.slot) {
                    isAbandoned |= !agent.slot.isFull();
                    if (Calls.asm_won(agent.slot.at) > 0)
                        numbers.add("" + agent.number());
                }
        if (numbers.isEmpty())
            return "an agent was abandoned";
        if (numbers.size() > 1)
            return "agents " + String.join(", ", numbers) + " were not returned";
        String one = "agent " + numbers.get(0) + " was not returned";
        return isAbandoned ? one : one + ": it fired move " + move;
    }

    /**
     * Opens a storage for 1 to 1,048,576 moves that goes on where this one was closed.
     *
     * <p>Its opening state is the state after the journal's moves. Its agents and numbers start
     * again. The journals of both, one after the other, are one run.
     *
     * @throws FolugbenException NO_JOURNAL if no journal was closed since an agent was returned
     */
    public Storage next(int capacity) {
        return next(new Storage((Path) null), capacity);
    }

    /** Does the same, and writes the journal to a file when that storage is closed. */
    public Storage next(int capacity, Path journal) {
        return next(new Storage(Objects.requireNonNull(journal, "journal")), capacity);
    }

    private Storage next(Storage next, int capacity) {
        expectCapacity(capacity);
        synchronized (slot) {
            synchronized (next.slot) {
                expect(Code.of(Calls.asm_next(slot.at, capacity, next.slot.at)));
            }
            return next.record(isRecording);
        }
    }

    /** Opens the storage that goes on from the agent's own state. */
    static Storage behind(Agent agent, int capacity) {
        expectCapacity(capacity);
        Storage next = new Storage((Path) null).record(agent.storage.isRecording);
        synchronized (agent.slot) {
            synchronized (next.slot) {
                Code code = agent.slot.goOn(capacity, next.slot);
                agent.expect(code);
            }
        }
        return next;
    }

    /**
     * Writes the journal, if a path was given, and releases the storage.
     *
     * <p>Its agents go on, and can't be returned any more.
     *
     * @throws FolugbenException MISSING if the journal lacks a move
     * @throws UncheckedIOException if the journal can't be written
     */
    @Override
    public void close() {
        synchronized (slot) {
            try {
                if (path != null && slot.isFull())
                    Strangers.replace(path, closeJournal());
            } catch (IOException fault) {
                throw new UncheckedIOException(fault);
            } finally {
                Calls.asm_free(slot.at);
            }
        }
    }

    /** Returns a text such as a storage, 3 moves. */
    @Override
    public String toString() {
        synchronized (slot) {
            return slot.isFull() ? "a storage, " + moves() + " moves" : "a storage, closed";
        }
    }

    /** The numbers of calls and of moves of a legal journal. */
    public record Checked(long calls, int moves) {}

    /**
     * Checks a journal.
     *
     * @throws FolugbenException if it isn't legal, or is none
     */
    public static Checked check(String journal) {
        byte[] text = Texts.utf8(journal, "journal");
        long[] calls = new long[1];
        int[] moves = new int[1];
        Code code = Code.of(Calls.asm_check(text, text.length, calls, moves));
        FolugbenException.expectJournal(code, text, calls[0]);
        return new Checked(calls[0], moves[0]);
    }

    /** Returns the state [PAIR, ..] that the moves of a journal leave. */
    public static String replay(String journal) {
        return Calls.ofJournal(journal, 1, Calls::asm_replay);
    }

    /**
     * Returns what each call of a journal did, legal or not: the lines of its trace.
     *
     * <p>Each is a JSON object, the header first, in the forms of docs/FORMATS.md.
     */
    public static List<String> trace(String journal) {
        return Calls.ofJournal(journal, 2, Calls::asm_trace).lines().toList();
    }

    /** Returns the same as objects: the locations that have a value, in order. */
    public static SortedMap<Location, Value> replayed(String journal) {
        return JsonReader.state(replay(journal));
    }

    /** The forms that explain knows; of a journal, the lines behind the first are events. */
    public enum Form {
        /** Locations [LOC, ..]. */
        LOCATIONS,
        /** A move {"fire":[INSTR, ..],"reads":[NAMED, ..]}. */
        MOVE,
        /** A state [PAIR, ..]. */
        STATE,
        /** A line of a journal behind the first. */
        EVENT,
        /** A script of the program. */
        SCRIPT
    }

    /** Returns where and why a text isn't of a form; the empty text for one that is. */
    public static String explain(Form form, String text) {
        return Calls.explain(
                Objects.requireNonNull(form, "form"), Texts.utf8(text, "text"));
    }

    /** Returns the library's version: a million for each major, a thousand for each minor one. */
    public static int version() {
        return Calls.asm_version();
    }
}
