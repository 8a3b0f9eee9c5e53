package folugben;

import java.util.ArrayList;
import java.util.Collections;
import java.util.Iterator;
import java.util.List;
import java.util.Objects;

/**
 * A move that is gathered instruction by instruction at prepared locations.
 *
 * <p>{@link Step#push(Move)} pushes it, and neither writes nor reads its text. It keeps its
 * instructions until {@link #clear}, and may be pushed any number of times, in steps of any
 * storage.
 *
 * <p>The text of an operand that is a list, a set or a bag is written once, when it is gathered.
 * More can be gathered after what {@link Step#popMove()} returns. Iterating yields the instructions
 * as {@link #instructions} lists them: those that it has when the iteration begins. Any thread may use a move, in one call at a time. No garbage collector releases a move: call
 * close().
 *
 * <pre>{@code
 * try (PreparedLocation count = Location.of("count").prepare(); Move move = new Move()) {
 *     try (Step step = agent.step()) {
 *         step.push(move.clear().put(count, step.getLong(count) + 1));
 *         step.commit(); // throws a ConflictException if another step must be begun
 *     }
 * }
 * }</pre>
 */
public final class Move implements AutoCloseable, Iterable<Instruction> {
    private static final int PUT = 0;
    private static final int ADD = 1;
    private static final int REMOVE = 2;
    private static final int BAG_ADD = 3;
    private static final int BAG_REMOVE = 4;
    private static final int INC = 5;

    /** Its slot, and the lock of the calls on it, which is taken after an agent's. */
    final Slot slot = new Slot();

    private boolean isClosed;
    /** Whether a thread was stopped or out of stack, so that the effect isn't known. */
    boolean isCutOff;

    /** Makes a move of no instructions. */
    public Move() {}

    /** Returns how many instructions it has. */
    public int size() {
        synchronized (slot) {
            return Calls.asm_move_length(slot.at);
        }
    }

    /**
     * Returns its instructions, in the order in which they were gathered; the list doesn't change.
     *
     * @throws FolugbenException EMPTY if it was closed
     */
    public List<Instruction> instructions() {
        Room room = new Room();
        List<Instruction> all = new ArrayList<>();
        synchronized (slot) {
            expectOpen();
            for (int place = 0, size = size(); place < size; place++)
                all.add(instruction(room, place));
        }
        return Collections.unmodifiableList(all);
    }

    @Override
    public Iterator<Instruction> iterator() {
        return instructions().iterator();
    }

    private Instruction instruction(Room room, int place) {
        FolugbenException.expect(room.make((text, out, length, written)
                -> Calls.asm_move_at(slot.at, place, room.numbers(), out, length, written)));
        int begin = (int) room.wide(3);
        Location at = Location.parse(room.text(0, begin));
        String operand = room.text(begin, (int) room.written());
        Value value = Room.valueOf(room.number(2), room.wide(2), operand);
        long amount = Integer.toUnsignedLong(room.number(1));
        return switch (room.number(0)) {
            case PUT -> new Instruction.Put(at, value);
            case ADD -> new Instruction.Add(at, (Element) value);
            case REMOVE -> new Instruction.Remove(at, (Element) value);
            case BAG_ADD -> new Instruction.BagAdd(at, (Element) value, amount);
            case BAG_REMOVE -> new Instruction.BagRemove(at, (Element) value, amount);
            default -> new Instruction.Inc(at, room.wide(2));
        };
    }

    /** Drops its instructions. */
    public Move clear() {
        synchronized (slot) {
            if (isClosed)
                throw isClosed();
            drop();
        }
        return this;
    }

    /** Returns a text such as a move of 3 instructions. */
    @Override
    public String toString() {
        synchronized (slot) {
            return isClosed ? "a move, closed" : "a move of " + size() + " instructions";
        }
    }

    /** Releases it. */
    @Override
    public void close() {
        synchronized (slot) {
            isClosed = true;
            drop();
        }
    }

    private void drop() {
        Calls.asm_free(slot.at);
        isCutOff = false;
    }

    /** Throws if it was closed; to be called with its lock. */
    void expectOpen() {
        if (isClosed)
            throw isClosed();
        if (isCutOff)
            throw new IllegalStateException(
                    "a call on the move was cut off, and may have been done: clear the move");
    }

    private static FolugbenException isClosed() {
        return FolugbenException.closed("the move was closed");
    }

    /** Puts a number. */
    public Move put(PreparedLocation at, long number) {
        return number(at, PUT, number, 0);
    }

    /** Puts a truth. */
    public Move put(PreparedLocation at, boolean truth) {
        return truth(at, PUT, truth, 0);
    }

    /** Puts a text. */
    public Move put(PreparedLocation at, String text) {
        return text(at, PUT, text, 0);
    }

    /** Puts a value; undef leaves the location empty. */
    public Move put(PreparedLocation at, Value value) {
        if (Objects.requireNonNull(value, "value") instanceof Element element)
            return element(at, PUT, element, 0);
        return written(at, PUT, value instanceof Value.SetOf ? Room.SET : Room.BAG, value, 0);
    }

    /** Adds a number to a set. */
    public Move add(PreparedLocation at, long number) {
        return number(at, ADD, number, 0);
    }

    /** Adds a truth to a set. */
    public Move add(PreparedLocation at, boolean truth) {
        return truth(at, ADD, truth, 0);
    }

    /** Adds a text to a set. */
    public Move add(PreparedLocation at, String text) {
        return text(at, ADD, text, 0);
    }

    /** Adds an element to a set. */
    public Move add(PreparedLocation at, Element element) {
        return element(at, ADD, element, 0);
    }

    /** Removes a number from a set. */
    public Move remove(PreparedLocation at, long number) {
        return number(at, REMOVE, number, 0);
    }

    /** Removes a truth from a set. */
    public Move remove(PreparedLocation at, boolean truth) {
        return truth(at, REMOVE, truth, 0);
    }

    /** Removes a text from a set. */
    public Move remove(PreparedLocation at, String text) {
        return text(at, REMOVE, text, 0);
    }

    /** Removes an element from a set. */
    public Move remove(PreparedLocation at, Element element) {
        return element(at, REMOVE, element, 0);
    }

    /**
     * Adds a number to a bag the given number of times.
     *
     * @throws IllegalArgumentException for an amount that isn't 1 to 4294967295, as of all of these
     */
    public Move bagAdd(PreparedLocation at, long number, long amount) {
        return number(at, BAG_ADD, number, Value.BagOf.inRange(amount));
    }

    /** Adds a truth to a bag the given number of times. */
    public Move bagAdd(PreparedLocation at, boolean truth, long amount) {
        return truth(at, BAG_ADD, truth, Value.BagOf.inRange(amount));
    }

    /** Adds a text to a bag the given number of times. */
    public Move bagAdd(PreparedLocation at, String text, long amount) {
        return text(at, BAG_ADD, text, Value.BagOf.inRange(amount));
    }

    /** Adds an element to a bag the given number of times. */
    public Move bagAdd(PreparedLocation at, Element element, long amount) {
        return element(at, BAG_ADD, element, Value.BagOf.inRange(amount));
    }

    /** Removes a number from a bag the given number of times. */
    public Move bagRemove(PreparedLocation at, long number, long amount) {
        return number(at, BAG_REMOVE, number, Value.BagOf.inRange(amount));
    }

    /** Removes a truth from a bag the given number of times. */
    public Move bagRemove(PreparedLocation at, boolean truth, long amount) {
        return truth(at, BAG_REMOVE, truth, Value.BagOf.inRange(amount));
    }

    /** Removes a text from a bag the given number of times. */
    public Move bagRemove(PreparedLocation at, String text, long amount) {
        return text(at, BAG_REMOVE, text, Value.BagOf.inRange(amount));
    }

    /** Removes an element from a bag the given number of times. */
    public Move bagRemove(PreparedLocation at, Element element, long amount) {
        return element(at, BAG_REMOVE, element, Value.BagOf.inRange(amount));
    }

    /** Adds the number, which may be 0 or less, to the number there. */
    public Move inc(PreparedLocation at, long by) {
        return number(at, INC, by, 0);
    }

    /** Gathers an instruction, whose location is prepared for this call alone. */
    public Move gather(Instruction instruction) {
        try (PreparedLocation at = instruction.location().prepare()) {
            if (instruction instanceof Instruction.Put it)
                return put(at, it.value());
            if (instruction instanceof Instruction.Add it)
                return add(at, it.element());
            if (instruction instanceof Instruction.Remove it)
                return remove(at, it.element());
            if (instruction instanceof Instruction.BagAdd it)
                return bagAdd(at, it.element(), it.amount());
            if (instruction instanceof Instruction.BagRemove it)
                return bagRemove(at, it.element(), it.amount());
            return inc(at, ((Instruction.Inc) instruction).by());
        }
    }

    /**
     * Gathers the instructions of another move too, which doesn't change.
     *
     * <p>This one then does what both do at once. An instruction that both have counts twice.
     *
     * @throws IllegalArgumentException if it is this move
     * @throws FolugbenException as a {@link ManyException} if both have more than 4,096
     *         instructions together, and nothing is gathered then; EMPTY if one is closed
     */
    public Move unite(Move other) {
        if (Objects.requireNonNull(other, "other") == this)
            throw new IllegalArgumentException("a move is united with another one, not with itself");
        boolean isFirst = slot.at < other.slot.at; // so that no two wait for each other
        synchronized (isFirst ? slot : other.slot) {
            synchronized (isFirst ? other.slot : slot) {
                expectOpen();
                other.expectOpen();
                isCutOff = true;
                Code code = Code.of(Calls.asm_unite(slot.at, other.slot.at));
                isCutOff = false;
                ManyException.expectMove(code, "both moves together");
                FolugbenException.expect(code);
            }
        }
        return this;
    }

    private Move number(PreparedLocation at, int verb, long number, long amount) {
        return plain(at, verb, Room.NUM, number, amount);
    }

    private Move truth(PreparedLocation at, int verb, boolean truth, long amount) {
        return plain(at, verb, Room.BOOL, truth ? 1 : 0, amount);
    }

    private Move element(PreparedLocation at, int verb, Element element, long amount) {
        if (Objects.requireNonNull(element, "element") instanceof Element.Num num)
            return number(at, verb, num.value(), amount);
        if (element instanceof Element.Bool bool)
            return truth(at, verb, bool.value(), amount);
        if (element instanceof Element.Text text)
            return text(at, verb, text.value(), amount);
        if (element instanceof Element.Undef)
            return plain(at, verb, Room.UNDEF, 0, amount);
        return written(at, verb, Room.LIST, element, amount);
    }

    private Move written(PreparedLocation at, int verb, int kind, Value value, long amount) {
        return bytes(at, verb, kind, Texts.utf8(value.json(), "value"), amount);
    }

    private Move plain(PreparedLocation at, int verb, int kind, long number, long amount) {
        Objects.requireNonNull(at, "location");
        synchronized (slot) {
            expectOpen();
            synchronized (at.slot) {
                isCutOff = true;
                took(at, Code.of(Calls.asm_instruct(
                        slot.at, at.slot.at, verb, kind, number, 0, 0, (int) amount)));
            }
        }
        return this;
    }

    private Move text(PreparedLocation at, int verb, String text, long amount) {
        Objects.requireNonNull(at, "location");
        return bytes(at, verb, Room.STRING, Texts.utf8(text, "text"), amount);
    }

    private Move bytes(PreparedLocation at, int verb, int kind, byte[] bytes, long amount) {
        Objects.requireNonNull(at, "location");
        synchronized (slot) {
            expectOpen();
            synchronized (at.slot) {
                isCutOff = true;
                took(at, Code.of(Calls.asm_instruct(slot.at, at.slot.at, verb, kind, 0, bytes,
                        bytes.length, (int) amount)));
            }
        }
        return this;
    }

    /** Takes what the step pops, in place of its instructions; with its lock. */
    Code takePopped(long step) {
        expectOpen();
        isCutOff = true;
        Code code = Code.of(Calls.asm_pop_move(step, slot.at));
        isCutOff = false;
        return code;
    }

    /** Throws if the instruction wasn't gathered. */
    private void took(PreparedLocation at, Code code) {
        isCutOff = false;
        ManyException.expectMove(code, "the move");
        at.expect(code);
    }
}
