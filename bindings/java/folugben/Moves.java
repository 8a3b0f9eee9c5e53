package folugben;

import java.util.List;
import java.util.Map;
import java.util.SortedMap;

/**
 * Computes with moves, without an agent.
 *
 * <p>Calls take and return objects, or texts: JSON in the forms of docs/FORMATS.md. A text with a
 * lone surrogate is an IllegalArgumentException. A FolugbenException for a text that can't be read
 * names its argument.
 */
public final class Moves {
    private Moves() {}

    /**
     * Returns the updates [PAIR, ..] of the move [INSTR, ..] on the state [PAIR, ..].
     *
     * <p>They are in ascending order of locations; null leaves a location empty, as each is that
     * the state doesn't have. The state needs only the locations of partial updates.
     *
     * @throws FolugbenException CLASH, whose answer is {"clash":[LOC,CAUSE]}, for the smallest
     *         location that clashes
     */
    public static String aggregate(String state, String move) {
        byte[] old = Texts.utf8(Texts.oneValue(state, "state"), "state");
        byte[] instructions = Texts.utf8(Texts.oneValue(move, "move"), "move");
        Calls.Result result = Calls.resultOf(
                (out, room, written)
                        -> Calls.asm_aggregate(old, old.length, instructions, instructions.length,
                                out, room, written),
                Calls.ROOM);
        FolugbenException.expectNoObjection(result);
        FolugbenException.expectStateAndMove(result.code(), state, move);
        return result.text();
    }

    /**
     * Returns the updates of the move on the state, in ascending order.
     *
     * <p>The state's values are such as {@link Value#of} takes. The updates are the locations that
     * the move writes with their new values, undef if it leaves one empty.
     *
     * @throws IllegalArgumentException as Value.of
     * @throws FolugbenException as a {@link ClashException}, for the smallest location that
     *         clashes; SHAPE if the move has more than 4,096 instructions
     */
    public static SortedMap<Location, Value> aggregate(
            Map<Location, ?> state, List<? extends Instruction> move) {
        return JsonReader.state(
                aggregate(JsonWriter.state(state, "state"), JsonWriter.move(move, "move")));
    }

    /**
     * Returns one move [INSTR, ..] that does what the first and then the second do.
     *
     * <p>On a state on which the first fires, it fires as the two in turn, or clashes as the second
     * does then.
     *
     * @throws FolugbenException if on no state both fire: CLASH, whose answer is
     *         {"clash":[LOC,CAUSE]}, or LARGE, whose answer is {"large":LOC}; LONG_MOVE if the move
     *         would have more than 4,096 instructions
     */
    public static String compose(String first, String second) {
        byte[] one = Texts.utf8(Texts.oneValue(first, "first"), "first");
        byte[] two = Texts.utf8(Texts.oneValue(second, "second"), "second");
        Calls.Result result = Calls.resultOf(
                (out, room, written)
                        -> Calls.asm_compose(one, one.length, two, two.length, out, room, written),
                Calls.ROOM);
        FolugbenException.expectNoObjection(result);
        FolugbenException.expectMoves(result.code(), first, second);
        return result.text();
    }

    /**
     * One move that does what the first and then the second do.
     *
     * @throws FolugbenException as a {@link ClashException}, {@link LargeException} or {@link
     *         ManyException}, as compose of texts; SHAPE if one has more than 4,096 instructions
     */
    public static List<Instruction> compose(
            List<? extends Instruction> first, List<? extends Instruction> second) {
        return JsonReader.move(
                compose(JsonWriter.move(first, "first"), JsonWriter.move(second, "second")));
    }
}
