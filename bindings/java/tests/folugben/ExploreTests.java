package folugben;

import static folugben.Test.Checks.equal;
import static folugben.Test.Checks.thrown;

import java.time.Duration;
import java.util.ArrayList;
import java.util.Collections;
import java.util.HashSet;
import java.util.List;
import java.util.Map;
import java.util.Random;
import java.util.Set;
import java.util.TreeMap;
import java.util.function.Predicate;
import java.util.function.Supplier;

/** Tests of the search for a schedule that breaks an invariant. */
final class ExploreTests {
    private static final Location COUNT = Location.of("count");

    private ExploreTests() {}

    private static Storage counting() {
        return Storage.open(Map.of(COUNT, 0), 100);
    }

    /** An update that depends on nothing. */
    private static Object lost(Agent agent) {
        long there = agent.read(List.of(COUNT)).value(COUNT).asLong();
        return agent.fire(List.of(Instruction.put(COUNT, there + 1)), List.of());
    }

    private static Object guarded(Agent agent) {
        while (true) {
            Reading read = agent.read(List.of(COUNT));
            long next = read.value(COUNT).asLong() + 1;
            Agent.Reply reply = agent.tryFire(List.of(Instruction.put(COUNT, next)), read.named());
            if (reply.isFired())
                return reply.move();
        }
    }

    private static Explorer of(List<Interleave.Work<Agent, Object>> works) {
        // A machine that is busy with other things is slow.
        return Explorer.of(ExploreTests::counting, works).time(Duration.ofMinutes(10));
    }

    private static boolean countsTwo(Map<Location, Value> values) {
        return values.get(COUNT).asLong() == 2;
    }

    /** The turns of a finding are its schedule, and the journal is legal and broken. */
    private static void expectBroken(Explorer.Finding found, Supplier<Storage> make,
            List<Interleave.Work<Agent, Object>> works, Predicate<Map<Location, Value>> holds) {
        Storage.check(found.journal());
        try (Storage storage = make.get()) {
            List<Agent> agents = Schedule.agents(storage, works.size());
            Interleave.play(agents, works, found.turns());
            agents.forEach(Agent::close);
            equal(storage.closeJournal(), found.journal());
        }
        equal(Journals.states(found.journal()).allMatch(it -> holds.test(it.values())), false);
    }

    private static void theSimplestLostUpdateIsFound() {
        Explorer.Explored explored = of(List.of(ExploreTests::lost, ExploreTests::lost))
                                         .atEnd(ExploreTests::countsTwo).explore();
        Explorer.Finding found = explored.finding().orElseThrow();
        equal(found.turns(), List.of(0, 0, 1));
        equal(explored.isExhaustive(), false);
        equal(found.broken(), "at the end it doesn't hold");
        equal(Journals.states(found.journal()).map(it -> it.values().get(COUNT).asLong()).toList(),
                List.of(0L, 1L, 1L));
        Explorer.Explored held = of(List.of(ExploreTests::guarded, ExploreTests::guarded))
                                         .atEnd(ExploreTests::countsTwo).explore();
        equal(held.toString(), held.schedules() + " schedules hold, which are all");
        equal(held.finding().isEmpty(), true);
    }

    private static void aStateOfAnotherOrderIsFound() {
        Interleave.Work<Agent, Object> puts = agent
                -> agent.fire(List.of(Instruction.put(Location.of("x", agent.number()), 1)), List.of());
        Explorer.Explored explored = of(List.of(puts, puts)).invariant(values -> {
            if (values.containsKey(Location.of("x", 1)) && !values.containsKey(Location.of("x", 0)))
                throw new AssertionError("1 came first");
            return true;
        }).explore();
        equal(explored.schedules(), 1);
        equal(explored.toString(), "the invariant doesn't hold after move 1: 1 came first, by the turns"
                + " [1]; 1 schedules were played");
    }

    private static void exceptionsOfWorksAreFound() {
        Interleave.Work<Agent, Object> fails = agent -> {
            if (agent.read(List.of(COUNT)).value(COUNT).asLong() == 1)
                throw new IllegalStateException("one");
            return null;
        };
        Explorer.Finding found = of(List.of(fails, ExploreTests::lost)).explore().finding().orElseThrow();
        equal(found.turns(), List.of(1));
        equal(found.broken(), "agent 0 threw java.lang.IllegalStateException: one");
        equal(found.thrown().getMessage(), "one");
    }

    private static void aWaitingWorkLetsOthersRun() {
        Interleave.Work<Agent, Object> waits = agent -> {
            while (agent.read(List.of(COUNT)).value(COUNT).asLong() == 0);
            return agent.fire(List.of(Instruction.put(COUNT, 5)), List.of());
        };
        List<Interleave.Work<Agent, Object>> works =
                List.of(waits, ExploreTests::lost, ExploreTests::lost);
        Explorer explorer = Explorer.of(ExploreTests::counting, works);
        Explorer.Explored explored = explorer.schedules(30).turns(500).explore();
        equal(explored.toString().startsWith("30 schedules hold, and at least "), true);
        Predicate<Map<Location, Value>> holds = values -> !countsTwo(values);
        expectBroken(explorer.invariant(holds).explore().finding().orElseThrow(),
                ExploreTests::counting, works, holds);
        thrown(EndlessException.class,
                "agents 0, 1 are still running after 200 turns: does one wait for another?",
                () -> of(List.of(waits, waits)).turns(200).explore());
    }

    private static void worksThatDrawAreRefused() {
        Random random = new Random(1);
        Interleave.Work<Agent, Object> draws = agent -> {
            agent.read(List.of(Location.of("x", random.nextBoolean())));
            return guarded(agent);
        };
        try {
            of(List.of(draws, draws, draws)).explore();
        } catch (Explorer.DiffersException error) {
            equal(error.getMessage().endsWith("the works draw, or share more than the storage"), true);
            return;
        }
        throw new IllegalStateException("not refused");
    }

    private static void itIsBounded() {
        Interleave.Work<Agent, Object> work = ExploreTests::guarded;
        Explorer.Explored explored = of(List.of(work, work, work)).schedules(2).explore();
        equal(explored.left() > 0, true);
        equal(explored.toString(),
                "2 schedules hold, and at least " + explored.left() + " are left");
        equal(of(List.of(work, work, work)).time(Duration.ZERO).explore().toString(),
                "0 schedules hold, and at least 1 are left");
        thrown(NullPointerException.class, "works[0] is null",
                () -> Explorer.of(ExploreTests::counting, Collections.singletonList(null)));
    }

    /** Four steps of each of three agents, at a location of its own except for one. */
    private static void mostlyDifferentLocationsTakeFewSchedules() {
        Location all = Location.of("x", "all");
        Map<Location, Integer> init = new TreeMap<>(Map.of(all, 0));
        for (int own = 0; own < 3; own++) init.put(Location.of("x", own), 0);
        Interleave.Work<Agent, Object> work = agent -> {
            for (int count = 0; count < 4; count++) {
                Location at = agent.number() == count ? all : Location.of("x", agent.number());
                agent.play(step -> {
                    step.push(Instruction.put(at, step.get(at).asLong() + 1));
                    return null;
                });
            }
            return null;
        };
        Explorer.Explored explored = Explorer.of(() -> Storage.open(init, 100), List.of(work, work, work))
                .time(Duration.ofMinutes(10))
                .atEnd(values -> values.values().stream().mapToLong(Value::asLong).sum() == 12)
                .explore();
        equal(explored.toString(), "108 schedules hold, which are all");
    }

    /** The results and final states of random programs: nothing is missed. */
    private static void noOutcomeIsMissed() {
        int played = 0;
        int naively = 0;
        for (int seed = 0; seed < 12; seed++) {
            Outcomes some = new Outcomes(seed, false);
            Outcomes all = new Outcomes(seed, true);
            equal(some.ends, all.ends);
            equal(some.moments, all.moments);
            played += some.schedules;
            naively += all.schedules;
        }
        equal(played * 2 < naively, true);
    }

    /** The outcomes of a search through random programs, with or without reduction. */
    private static final class Outcomes {
        final Set<Object> ends = new HashSet<>();
        final Set<Object> moments = new HashSet<>();
        final int schedules;
        private final Map<Integer, List<Object>> answers = new TreeMap<>();

        Outcomes(int seed, boolean isNaive) {
            Random random = new Random(seed);
            Map<Location, Object> init = Map.of(x(0), 1, x(1), 5, Location.of("n"), 0);
            List<Interleave.Work<Agent, Object>> works = new ArrayList<>();
            for (int i = 0; i < (seed % 4 == 0 ? 3 : 2); i++) works.add(work(random));
            RecordedPlayer.areAllDependent = isNaive;
            try {
                Explorer.Explored explored = Explorer.of(() -> Storage.open(init, 100), works)
                        .time(Duration.ofMinutes(10))
                        .invariant(values -> moments.add(Map.copyOf(values)) || true)
                        .atEnd(values -> ends.add(List.of("" + answers, Map.copyOf(values))) || true)
                        .explore();
                equal(explored.isExhaustive(), true);
                schedules = explored.schedules();
            } finally {
                RecordedPlayer.areAllDependent = false;
            }
        }

        private static Location x(int number) {
            return Location.of("x", number);
        }

        private Interleave.Work<Agent, Object> work(Random random) {
            int count = 1 + random.nextInt(2);
            List<Interleave.Work<Agent, Object>> all = new ArrayList<>();
            for (int i = 0; i < count; i++)
                all.add(word(random.nextInt(8), x(random.nextInt(3)), Location.of("y", random.nextInt(2)),
                        random.nextInt(6)));
            return agent -> {
                List<Object> heard = new ArrayList<>();
                answers.put(agent.number(), heard);
                for (Interleave.Work<Agent, Object> it : all)
                    try {
                        heard.add("" + it.play(agent));
                    } catch (ClashException | StaleException error) {
                        heard.add(error.getClass().getSimpleName());
                    }
                return null;
            };
        }

        private static long number(Value value) {
            return value.isUndef() ? 0 : value.asLong();
        }

        private static Interleave.Work<Agent, Object> word(int kind, Location x, Location y, int by) {
            return switch (kind) {
                case 0 -> agent -> agent.read(List.of(x, y)).values();
                case 1 -> agent -> agent.fire(List.of(Instruction.put(x, by)), List.of()) > 0;
                case 2 -> agent -> {
                    agent.follow();
                    return List.of(agent.peek(List.of(x, y)).values(), agent.scan("y").pairs());
                };
                case 3 -> agent -> {
                    Reading read = agent.read(List.of(x));
                    return agent.fire(List.of(Instruction.put(y, number(read.value(x)) + by)),
                                   read.named()) > 0;
                };
                default -> agent -> {
                    try (Step step = agent.step()) {
                        return onStep(step, kind, x, y, by);
                    }
                };
            };
        }

        private static Object onStep(Step step, int kind, Location x, Location y, int by) {
            if (kind == 4) {
                step.push(Instruction.inc(Location.of("n"), 1), Instruction.put(x, by));
                return step.tryCommit().isFired();
            }
            Object value = kind == 5 ? step.scan("x").pairs() : step.get(x);
            long next = kind == 5 ? value.toString().length() : number((Value) value) + 1;
            if (kind == 6 && number((Value) value) != by % 3)
                value = List.of(value, step.get(y));
            step.push(Instruction.put(by % 2 == 1 ? x : y, next));
            return List.of(value, step.tryCommit().isFired());
        }
    }

    static void all() {
        theSimplestLostUpdateIsFound();
        aStateOfAnotherOrderIsFound();
        exceptionsOfWorksAreFound();
        aWaitingWorkLetsOthersRun();
        worksThatDrawAreRefused();
        itIsBounded();
        mostlyDifferentLocationsTakeFewSchedules();
        noOutcomeIsMissed();
        System.out.println("schedules");
    }

    public static void main(String[] words) {
        all();
    }
}
