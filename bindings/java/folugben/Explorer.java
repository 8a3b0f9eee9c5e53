package folugben;

import java.time.Duration;
import java.util.ArrayList;
import java.util.Comparator;
import java.util.List;
import java.util.Locale;
import java.util.Map;
import java.util.Objects;
import java.util.Optional;
import java.util.PriorityQueue;
import java.util.function.Predicate;
import java.util.function.Supplier;

/**
 * A search for a schedule in which agents' works break an invariant.
 *
 * <pre>{@code
 * Explorer.Explored explored = Explorer.of(() -> Storage.open(INIT, 100), Collections.nCopies(3, work))
 *         .invariant(values -> sum(values) == 300)
 *         .explore();
 * assertTrue(explored.isExhaustive(), explored::toString);
 * }</pre>
 *
 * <p>The shortest schedule comes first. Each schedule plays on a new storage, and each work with
 * the agent of its place. Of schedules that differ only in the order of calls that don't depend on
 * each other, one is played. The works may share nothing except the storage, and must do the same
 * in the same schedule: a number of a move may be named in a fire, and not be computed with. A work
 * that throws is a finding too.
 *
 * <p>An explorer is immutable: each call that sets something returns another one.
 */
public final class Explorer {
    private static final int SCHEDULES = 10_000;
    private static final Duration TIME = Duration.ofSeconds(20);
    private static final int TURNS = 10_000;

    private final Supplier<Storage> make;
    private final List<Interleave.Work<? super Agent, ?>> works;
    private final Invariants invariants;
    private final int schedules;
    private final Duration time;
    private final int turns;

    private Explorer(Supplier<Storage> make, List<Interleave.Work<? super Agent, ?>> works,
            Invariants invariants, int schedules, Duration time, int turns) {
        this.make = make;
        this.works = works;
        this.invariants = invariants;
        this.schedules = schedules;
        this.time = time;
        this.turns = turns;
    }

    /** A search through the schedules of works, each of which plays on a storage that is made. */
    public static Explorer of(
            Supplier<Storage> make, List<? extends Interleave.Work<? super Agent, ?>> works) {
        return new Explorer(Objects.requireNonNull(make, "make"),
                Texts.Copies.<Interleave.Work<? super Agent, ?>>of(works, "works"),
                new Invariants(values -> true, values -> true), SCHEDULES, TIME, TURNS);
    }

    /**
     * The same with what has to hold in each state. A state for which it answers false, or throws an
     * AssertionError, breaks it.
     */
    public Explorer invariant(Predicate<? super Map<Location, Value>> invariant) {
        return with(new Invariants(Objects.requireNonNull(invariant, "invariant"), invariants.atEnd()));
    }

    /** The same with what has to hold in the last state. */
    public Explorer atEnd(Predicate<? super Map<Location, Value>> invariant) {
        return with(new Invariants(invariants.invariant(), Objects.requireNonNull(invariant, "invariant")));
    }

    private Explorer with(Invariants other) {
        return new Explorer(make, works, other, schedules, time, turns);
    }

    /** Returns such a search with at most the given number of schedules, 10,000 by default. */
    public Explorer schedules(int most) {
        return new Explorer(make, works, invariants, most, time, turns);
    }

    /** Returns such a search with at most the given time, 20 seconds by default. */
    public Explorer time(Duration most) {
        return new Explorer(make, works, invariants, schedules, Objects.requireNonNull(most, "most"), turns);
    }

    /** Returns such a search with at most this number of turns a schedule, 10,000 by default. */
    public Explorer turns(int most) {
        return new Explorer(make, works, invariants, schedules, time, most);
    }

    /**
     * A schedule that breaks something.
     *
     * <p>It has the turns by which {@link Interleave#play} plays it again, the journal that they
     * make, what doesn't hold, in words, and what a work has thrown, or else null.
     */
    public record Finding(List<Integer> turns, String journal, String broken, Throwable thrown) {
        /** A copy of the turns. */
        public Finding {
            turns = Texts.Copies.of(turns, "turns");
        }
    }

    /**
     * The result of a search.
     *
     * <p>It has the number of played schedules, and whether everything holds in all of them, or
     * else the finding, if there was one within the bounds. At a bound at least `left` schedules
     * weren't played: as many are known, and each of them may lead to more.
     */
    public record Explored(
            int schedules, boolean isExhaustive, Optional<Finding> finding, int left) {
        @Override
        public String toString() {
            return finding.map(it -> String.format(Locale.ROOT,
                                        "%s, by the turns %s; %,d schedules were played", it.broken,
                                        it.turns, schedules))
                    .orElseGet(() -> String.format(Locale.ROOT, "%,d schedules hold, %s", schedules, rest()));
        }

        private String rest() {
            if (isExhaustive)
                return "which are all";
            return left == 0 ? "and there are more"
                             : String.format(Locale.ROOT, "and at least %,d are left", left);
        }
    }

    /**
     * The works acted differently in the same schedule.
     *
     * <p>They draw, or share more than the storage.
     */
    public static final class DiffersException extends RuntimeException {
        private static final long serialVersionUID = 1;

        DiffersException(String detail) {
            super(detail);
        }
    }

    private record PlanEntry(int length, int place, List<Integer> plan) {}

    /**
     * Searches up to the first finding, to a bound, or until all schedules were tried.
     *
     * @throws EndlessException if a schedule hasn't ended after its turns, as if agents wait
     *         for each other. The search makes one that polls again and again wait for others, but
     *         then there is no end of schedules.
     * @throws DiffersException if the works acted differently in the same schedule
     */
    public Explored explore() {
        long end = System.nanoTime() + time.toNanos();
        invariants.forget();
        Schedule.Tree tree = new Schedule.Tree(Map.of());
        PriorityQueue<PlanEntry> queue = new PriorityQueue<>(
                Comparator.comparingInt(PlanEntry::length).thenComparingInt(PlanEntry::place));
        queue.add(new PlanEntry(0, 0, List.of()));
        int played = 0;
        int pushed = 0;
        boolean isExact = true;
        while (!queue.isEmpty() && played < schedules && System.nanoTime() - end < 0) {
            Schedule schedule = new Schedule(make, works, tree, queue.remove().plan(), turns);
            played++;
            isExact &= schedule.isExact();
            for (Schedule.Plan plan : schedule.plans())
                queue.add(new PlanEntry(plan.length(), ++pushed, plan.agents()));
            Invariants.Breach breach = schedule.isBlocked() ? null : invariants.breach(schedule);
            if (breach != null)
                return new Explored(played, false, Optional.of(replayed(breach, schedule)), 0);
            if (queue.isEmpty() && tree.hasGrown()) {
                tree = new Schedule.Tree(tree.footprints());
                queue.add(new PlanEntry(0, 0, List.of()));
            }
        }
        return new Explored(
                played, isExact && queue.isEmpty(), Optional.empty(), queue.size());
    }

    /**
     * Returns the finding with the turns up to the breach, if all works end after it.
     *
     * <p>Else the finding has all turns of the schedule.
     */
    private Finding replayed(Invariants.Breach breach, Schedule schedule) {
        List<Schedule.Event> all = new ArrayList<>(breach.events());
        for (Schedule.Event event : schedule.events())
            if (breach.events().stream().noneMatch(it -> it == event))
                all.add(event);
        Finding found = null;
        for (List<Schedule.Event> events : List.of(breach.events(), all)) {
            List<Integer> listed = schedule.listed(events);
            Optional<String> journal = Optional.empty();
            boolean isLast = events == all;
            try (Storage storage = make.get()) {
                journal = played(storage, listed, isLast);
            }
            if (journal.isEmpty())
                continue;
            found = new Finding(listed, journal.get(), breach.broken(), breach.thrown());
            break;
        }
        if (breach.thrown() == null && !invariants.isBroken(found.journal()))
            throw new DiffersException(breach.broken()
                    + ", but not when it was played again by the turns " + found.turns());
        return found;
    }

    /**
     * Returns the journal of the works by these turns; none if they don't end.
     *
     * <p>If it is wanted, it is returned even then.
     */
    private Optional<String> played(Storage storage, List<Integer> listed, boolean isWanted) {
        List<Agent> agents = Schedule.agents(storage, works.size());
        boolean isEnded = true;
        try {
            Interleave.play(agents, works, listed, turns);
        } catch (EndlessException endless) {
            isEnded = false;
        } catch (RuntimeException | AssertionError thrown) {
            // It may be the finding.
        }
        agents.forEach(Agent::close);
        String journal = storage.closeJournal();
        return isEnded || isWanted ? Optional.of(journal) : Optional.empty();
    }
}
