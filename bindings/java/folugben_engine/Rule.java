package folugben_engine;

import folugben.Move;
import folugben.Step;

/**
 * A rule of an abstract state machine, which is played on a step.
 *
 * <p>Each kind defines one of the two calls, and the other one follows. Both return whether the
 * rule has updates.
 */
public interface Rule {
    /** Adds its updates to a move; nothing stays pushed. A sequence is played for that as a dry run. */
    default boolean addTo(Move all, Step step) {
        step.push();
        boolean hasUpdates = play(step);
        try (Move own = step.popMove()) {
            all.unite(own);
        }
        return hasUpdates;
    }

    /** Extends the pushed move by what it does, so that what is played next sees it. */
    default boolean play(Step step) {
        try (Move all = new Move()) {
            boolean hasUpdates = addTo(all, step);
            step.extend(all);
            return hasUpdates;
        }
    }

    /** A rule that is played. */
    @FunctionalInterface
    interface Played extends Rule {
        @Override
        boolean play(Step step);
    }

    /** A rule whose updates are gathered. */
    @FunctionalInterface
    interface Gathered extends Rule {
        @Override
        boolean addTo(Move all, Step step);
    }

    /**
     * A term, whose value depends on what a step sees.
     *
     * <p>The value is as {@link folugben.Value#of} takes it.
     */
    @FunctionalInterface
    public interface Term {
        /** Returns its value. */
        Object of(Step see);

        /** Returns a term that is this value, whatever is seen. */
        static Term value(Object value) {
            return see -> value;
        }
    }
}
