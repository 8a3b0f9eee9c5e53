package folugben_engine;

import folugben.Element;
import folugben.Instruction;
import folugben.Location;
import folugben.Move;
import folugben.Step;
import folugben.Value;
import java.util.Arrays;
import java.util.List;
import java.util.Random;
import java.util.function.BiFunction;
import java.util.function.BiPredicate;
import java.util.function.Function;

/** The kinds of rules. */
public final class Rules {
    private Rules() {}

    /** Does nothing. */
    public static Rule skip() {
        return par();
    }

    /** An update, made of what is seen. */
    private static Rule made(Function<Step, Instruction> made) {
        return (Rule.Gathered) (all, step) -> all.gather(made.apply(step)).size() > 0;
    }

    /** Puts the term's value. */
    public static Rule update(Location at, Rule.Term term) {
        return made(see -> Instruction.put(at, term.of(see)));
    }

    /** Adds the term's element to a set. */
    public static Rule add(Location at, Rule.Term term) {
        return made(see -> Instruction.add(at, Element.of(term.of(see))));
    }

    /** Removes the term's element from a set. */
    public static Rule remove(Location at, Rule.Term term) {
        return made(see -> Instruction.remove(at, Element.of(term.of(see))));
    }

    /** Adds to a number, and depends on it in no other way. */
    public static Rule raise(Location at, long by) {
        return made(see -> Instruction.inc(at, by));
    }

    /** Does all of them at once: each sees the same. */
    public static Rule par(Rule... parts) {
        return (Rule.Gathered) (all, step)
                -> Arrays.stream(parts).filter(it -> it.addTo(all, step)).count() > 0;
    }

    /** Does one after the other: each sees what those before it did. */
    public static Rule seq(Rule... parts) {
        return (Rule.Played) step -> Arrays.stream(parts).filter(it -> it.play(step)).count() > 0;
    }

    /** Does the rule again and again, until it has no updates. */
    public static Rule iterate(Rule part) {
        return (Rule.Played) step -> {
            boolean hasUpdates = false;
            try (Move round = new Move()) {
                for (; part.addTo(round.clear(), step); hasUpdates = true) step.extend(round);
            }
            return hasUpdates;
        };
    }

    /** A rule that becomes another one by what is seen. */
    private record Derived(Function<Step, Rule> comesTo) implements Rule {
        @Override
        public boolean addTo(Move all, Step step) {
            return comesTo.apply(step).addTo(all, step);
        }

        @Override
        public boolean play(Step step) {
            return comesTo.apply(step).play(step);
        }
    }

    /** Does one if the condition is true, and else the other one. */
    public static Rule when(Rule.Term condition, Rule then, Rule otherwise) {
        return new Derived(see -> (boolean) condition.of(see) ? then : otherwise);
    }

    /** Does it if the condition is true. */
    public static Rule when(Rule.Term condition, Rule then) {
        return when(condition, then, skip());
    }

    /** Does what is made of the term's value. */
    public static Rule let(Rule.Term term, Function<Value, Rule> body) {
        return new Derived(see -> body.apply(Value.of(term.of(see))));
    }

    private static List<Rule> each(Step step, String name, BiPredicate<Location, Value> where,
            BiFunction<Location, Value, Rule> body) {
        return step.scan(name).values().entrySet().stream()
                .filter(it -> where.test(it.getKey(), it.getValue()))
                .map(it -> body.apply(it.getKey(), it.getValue())).toList();
    }

    /**
     * Does what is made of one location of that name, which is drawn; else the other.
     *
     * <p>The other is done if the condition holds for none.
     */
    public static Rule choose(Random random, String name, BiPredicate<Location, Value> where,
            BiFunction<Location, Value, Rule> body, Rule otherwise) {
        return new Derived(see -> {
            List<Rule> all = each(see, name, where, body);
            return all.isEmpty() ? otherwise : all.get(random.nextInt(all.size()));
        });
    }

    /** Does what is made of all locations of that name for which the condition holds, at once. */
    public static Rule forall(String name, BiPredicate<Location, Value> where,
            BiFunction<Location, Value, Rule> body) {
        return new Derived(see -> par(each(see, name, where, body).toArray(Rule[]::new)));
    }
}
