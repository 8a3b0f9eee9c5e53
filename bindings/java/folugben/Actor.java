package folugben;

import java.time.Duration;
import java.util.Iterator;
import java.util.List;
import java.util.SortedMap;

/**
 * An agent of a storage, of a {@link Run} or of a {@link SharedRun}.
 *
 * <p>Numbers of moves are those of the run; a storage on its own counts as a run.
 */
public sealed interface Actor extends AutoCloseable permits Agent, RunAgent, SharedAgent {
    /** Returns its number among the agents of its storage or run. */
    int number();

    /** Polls, and begins a step on the state that it then sees. */
    Step step();

    /**
     * Plays the rule on a step and commits it, and begins again after each conflict.
     *
     * <p>Between vain tries other threads run, and after some it waits for up to a millisecond. A
     * rule that pushes nothing fires nothing, and {@link Played#isFired} is false. A rule that
     * commits its step by itself ends the play with that move. An exception of the rule ends the
     * play too, which fires nothing.
     *
     * @param <T> what the rule returns
     * @param <X> what the rule throws
     * @param rule what is played on each step
     * @return the number of the move, what the rule returned, and how often it was begun again
     * @throws X as the rule
     * @throws FolugbenException as a {@link FullException} or {@link ManyException} of the commit
     * @throws BrokenException if the run has ended
     */
    default <T, X extends Exception> Played<T> play(Rule<T, X> rule) throws X {
        return Patience.Plays.play(this, rule, Integer.MAX_VALUE, Patience.Plays.FOR_EVER);
    }

    /**
     * Plays it with at most so many tries, of which none begins after the timeout.
     *
     * @param <T> what the rule returns
     * @param <X> what the rule throws
     * @param rule what is played on each step
     * @param tries how many steps are begun at most
     * @param timeout how long after the first one further ones are begun
     * @return the same
     * @throws X as the rule
     * @throws ConflictException of the last try
     * @throws IllegalArgumentException if the number of tries isn't above 0
     */
    default <T, X extends Exception> Played<T> play(Rule<T, X> rule, int tries, Duration timeout)
            throws X {
        if (tries < 1)
            throw new IllegalArgumentException("a number of tries is 1 or more, and not " + tries);
        return Patience.Plays.play(this, rule, tries, timeout);
    }

    /**
     * Plays a rule without a result, as {@link #play(Rule)} plays one that has some.
     *
     * @param <X> what the rule throws
     * @param rule what is played on each step
     * @return the number of the move, and how often the rule was begun again
     * @throws X as the rule
     */
    default <X extends Exception> Played<Void> run(Task<X> rule) throws X {
        return play(step -> {
            rule.run(step);
            return null;
        });
    }

    /** Polls until no further move is found, and returns how many moves it has seen. */
    long follow();

    /** Returns the values of the locations, any number of them, in its own state. */
    Reading peek(List<Location> locations);

    /** Returns its own state. */
    State state();

    /** Returns the locations of one function in its own state. */
    State scan(String name);

    /** Returns how many moves it has seen. */
    long seen();

    /** Returns how many moves it fired. */
    long won();

    /** Returns it to its storage or run; it may be called again. */
    @Override
    void close();

    /** What is played on a step; its result is that of the play. */
    @FunctionalInterface
    interface Rule<T, X extends Exception> {
        /** Reads from the step and pushes to it; the play returns the result with the move. */
        T play(Step step) throws X;
    }

    /** What is run on a step, without a result. */
    @FunctionalInterface
    interface Task<X extends Exception> {
        /** Reads from the step and pushes to it. */
        void run(Step step) throws X;
    }

    /**
     * The result of a play.
     *
     * <p>It has the number of the move that was fired, from 1 up, or 0 if the rule pushed nothing;
     * what the rule returned; and how often it was begun again.
     */
    record Played<T>(long move, T result, int retries) {
        /** Returns whether a move was fired. */
        public boolean isFired() {
            return move != 0;
        }
    }

    /** The value of a prepared location after so many moves. */
    record Peeked(long number, Value value) {}

    /**
     * A state [PAIR, ..], or a part of it, after so many moves.
     *
     * <p>A step returns it as it is seen through the pushed moves.
     */
    record State(long number, String pairs) implements Iterable<Pair> {
        /** Returns its locations that aren't empty with their values, in ascending order. */
        public SortedMap<Location, Value> values() {
            return JsonReader.state(pairs);
        }

        /** Returns the same as pairs, one after the other. */
        @Override
        public Iterator<Pair> iterator() {
            return values().entrySet().stream()
                    .map(each -> new Pair(each.getKey(), each.getValue())).iterator();
        }
    }

    /**
     * The outcome of a fire, or of a validation of reads.
     *
     * <p>`answer` is the text {"stale":LOC} or {"clash":[LOC,CAUSE]} of such an outcome, else null.
     * `isOfStep` is whether a step was fired, and `isOfRun` whether it was an agent of a {@link
     * Run} or a {@link SharedRun}.
     */
    record Reply(Code code, long move, long from, long to, String answer, boolean isOfStep,
            boolean isOfRun) {
        /** The outcome of a fire without a step, or of a validation of reads. */
        public Reply(Code code, long move, long from, long to, String answer) {
            this(code, move, from, to, answer, false, false);
        }

        /** The outcome of a fire, or of a validation of reads, of an agent of no run. */
        public Reply(Code code, long move, long from, long to, String answer, boolean isOfStep) {
            this(code, move, from, to, answer, isOfStep, false);
        }

        /** Returns whether a move was fired; `move` is then its number, from 1 up. */
        public boolean isFired() {
            return code == Code.DONE && move != 0;
        }

        /** Returns whether a named location was written since it was read. */
        public boolean isStale() {
            return code == Code.STALE;
        }

        /** Returns whether the updates clash. */
        public boolean isClash() {
            return code == Code.CLASH;
        }

        /**
         * Returns whether to begin again.
         *
         * <p>That is so if
         *
         * <ul>
         *   <li>a named location was written since it was read,
         *   <li>64 attempts to append failed,
         *   <li>the updates of a step clash, as they do only with what was written since it began, or
         *   <li>the part of a run is full, as another step goes on in the next one.
         * </ul>
         */
        public boolean shouldRetry() {
            return isStale() || code == Code.BUSY || (isOfStep && isClash())
                    || (isOfRun && code == Code.FULL);
        }

        /** Returns the smallest location that is stale or clashes; else null. */
        public Location at() {
            return answer == null ? null : JsonReader.objection(answer).at();
        }

        /** Returns why the updates clash; else null. */
        public Cause cause() {
            return answer == null ? null : JsonReader.objection(answer).cause();
        }

        /**
         * Returns the number of the fired move, from 1 up; 0 of reads that are valid.
         *
         * @throws FolugbenException as a {@link StaleException}, {@link ClashException}, {@link
         *         FullException} or {@link BusyException} if it is another reply; of a step as a
         *         {@link CommitClashException} for a {@link ClashException}; of a run as a {@link
         *         PastException} for a {@link FullException}
         */
        public long orThrow() {
            if (code != Code.DONE)
                throw FolugbenException.of(this);
            return move;
        }
    }
}
