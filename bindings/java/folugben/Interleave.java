package folugben;

import java.util.ArrayList;
import java.util.Iterator;
import java.util.List;
import java.util.Random;

/**
 * Plays agents by turns: one at a time goes on, up to its next call.
 *
 * <p>A seed draws who goes on then. The calls are those of the agent and of its steps. A call that
 * only returns a number, as {@code won}, takes no turn.
 *
 * <p>The same seed makes the same journal, byte for byte, if the works themselves draw nothing
 * else; threads make another order each time. So a test tries many seeds, and a schedule that
 * breaks an invariant is kept as its seed. A work must not wait for what another one does in a
 * later turn of its own: the play then ends with an {@link EndlessException} after its number of
 * turns.
 * If the thread that plays is interrupted, each work ends at its next call, and a
 * CancellationException is thrown.
 */
public final class Interleave {
    /** How many turns a play takes at most, by default. */
    private static final int MOST = 1_000_000;

    private Interleave() {}

    private static Turns.Choice drawn(long seed) {
        Random random = new Random(seed);
        return numbers -> numbers.get(random.nextInt(numbers.size()));
    }

    private static Turns.Choice listed(List<Integer> turns) {
        Iterator<Integer> left = turns.iterator();
        int[] last = {-1};
        return numbers -> {
            if (left.hasNext())
                last[0] = numbers.get(Math.floorMod(left.next(), numbers.size()));
            else if (!numbers.contains(last[0]))
                last[0] = numbers.get(0);
            return last[0];
        };
    }

    /** What is played with an agent. */
    @FunctionalInterface
    public interface Work<A, R> {
        /** Plays it; the play returns the result. */
        R play(A agent);
    }

    /**
     * Plays each work with its agent, an {@link Agent} or a {@link RunAgent}, on a thread of its
     * own, by turns; what the works answered, in their order. The first exception of a work, by the
     * number of its place, is thrown once all have ended.
     *
     * @throws IllegalArgumentException if there are not as many works as agents
     */
    public static <A, R> List<R> play(
            List<? extends A> agents, List<? extends Work<? super A, ? extends R>> works, long seed) {
        return play(agents, works, seed, MOST);
    }

    /**
     * Plays the agents by a list that says who goes on at each turn.
     *
     * <p>A number of the list counts round those that haven't ended. After the end of the list
     * whoever is at work goes on to its end, and then the first of the others. So an empty list
     * plays one after the other, and a schedule that breaks an invariant is shortened until it just
     * still does.
     */
    public static <A, R> List<R> play(List<? extends A> agents,
            List<? extends Work<? super A, ? extends R>> works, List<Integer> turns) {
        return play(agents, works, turns, MOST);
    }

    /**
     * Plays the agents by a list with at most the given number of turns.
     *
     * @throws EndlessException if works are still under way after them, such as one that waits for
     *         another one
     */
    public static <A, R> List<R> play(List<? extends A> agents,
            List<? extends Work<? super A, ? extends R>> works, long seed, int most) {
        return play(agents, works, drawn(seed), most);
    }

    /** The same by a list. */
    public static <A, R> List<R> play(List<? extends A> agents,
            List<? extends Work<? super A, ? extends R>> works, List<Integer> turns, int most) {
        return play(agents, works, listed(Texts.Copies.of(turns, "turns")), most);
    }

    private static <A, R> List<R> play(List<? extends A> agents,
            List<? extends Work<? super A, ? extends R>> works, Turns.Choice choice, int most) {
        List<A> own = Texts.Copies.of(agents, "agents");
        List<Work<? super A, ? extends R>> each = Texts.Copies.of(works, "works");
        if (own.size() != each.size())
            throw new IllegalArgumentException(own.size() + " agents for " + each.size() + " works");
        Turns turns = new Turns(own.size(), choice, most);
        List<Turns.Player> players = new ArrayList<>();
        for (int number = 0; number < own.size(); number++) players.add(new Turns.Player(turns, number));
        Turns.Outcomes<R> outcomes = turns.play(own, each, players);
        return outcomes.orThrow();
    }
}
