package folugben;

import static folugben.Test.Checks.equal;
import static folugben.Test.Checks.thrown;

import java.util.ArrayList;
import java.util.Arrays;
import java.util.Collections;
import java.util.HashSet;
import java.util.List;
import java.util.Map;
import java.util.SortedMap;
import java.util.TreeMap;
import java.util.concurrent.CancellationException;

/** Tests of agents that go on by turns. */
final class TurnTests {
    private static final int ACCOUNTS = 4;

    private TurnTests() {}

    private static Location account(int number) {
        return Location.of("account", number % ACCOUNTS);
    }

    private static Map<Location, Integer> opening() {
        Map<Location, Integer> state = new TreeMap<>();
        for (int i = 0; i < ACCOUNTS; i++) state.put(account(i), 50);
        return state;
    }

    private interface Transfer {
        void play(Agent agent, Location from, Location to);
    }

    private static void moveTen(Step step, long there, long here, Location from, Location to) {
        if (there >= 10)
            step.push(Instruction.put(from, there - 10), Instruction.put(to, here + 10));
    }

    private static void guarded(Agent agent, Location from, Location to) {
        agent.play(step -> {
            moveTen(step, step.get(from).asLong(), step.get(to).asLong(), from, to);
            return null;
        });
    }

    /** It depends on nothing, so that it may overwrite what another one does meanwhile. */
    private static void unguarded(Agent agent, Location from, Location to) {
        agent.follow();
        Reading seen = agent.peek(List.of(from, to));
        try (Step step = agent.step()) {
            moveTen(step, seen.value(from).asLong(), seen.value(to).asLong(), from, to);
            step.tryCommit();
        }
    }

    private static String run(long seed, Transfer transfer) {
        try (Storage storage = Storage.open(opening(), 1000)) {
            List<Agent> agents = List.of(storage.agent(0), storage.agent(1), storage.agent(2));
            Interleave.Work<Agent, Long> work = agent -> {
                for (int i = 0; i < 8; i++) {
                    int from = i + agent.number();
                    transfer.play(agent, account(from), account(from + 1 + i % 3));
                }
                return agent.won();
            };
            List<Long> won = Interleave.play(agents, Collections.nCopies(3, work), seed);
            equal(won.stream().mapToLong(Long::longValue).sum(), storage.moves());
            agents.forEach(Agent::close);
            return storage.closeJournal();
        }
    }

    /** The sum of the accounts after each of its moves, which are put alone. */
    private static boolean keepsSum(String journal) {
        SortedMap<Location, Value> state = Storage.replayed(journal);
        return state.values().stream().mapToLong(Value::asLong).sum() == 50L * ACCOUNTS;
    }

    static void oneSeedGivesOneJournal() {
        List<String> journals = new ArrayList<>();
        for (int seed = 0; seed < 100; seed++) {
            String journal = run(seed, TurnTests::guarded);
            Storage.check(journal);
            equal(keepsSum(journal), true);
            equal(run(seed, TurnTests::guarded), journal);
            journals.add(journal);
        }
        equal(new HashSet<>(journals).size() > 90, true);
        equal(journals.stream().anyMatch(journal -> journal.contains("\"stale\"")), true);
    }

    static void aSeedFindsWhatBreaks() {
        int broken = 0;
        while (keepsSum(run(broken, TurnTests::unguarded))) broken++;
        equal(broken < 40, true);
        equal(run(broken, TurnTests::unguarded), run(broken, TurnTests::unguarded));
    }

    static void worksAnswerAndThrow() {
        try (Storage storage = new Storage("[]", 10); Agent one = storage.agent(0);
                Agent two = storage.agent(1)) {
            List<Agent> agents = List.of(one, two);
            Interleave.Work<Agent, String> name = agent -> "told " + agent.number();
            equal(Interleave.play(agents, List.of(name, name), 3), List.of("told 0", "told 1"));
            Interleave.Work<Agent, String> fails = agent -> {
                agent.step().close();
                throw new IllegalStateException("failed " + agent.number());
            };
            for (int seed = 0; seed < 5; seed++) {
                int own = seed;
                thrown(IllegalStateException.class, "failed 0",
                        () -> Interleave.play(agents, List.of(fails, fails), own));
                thrown(IllegalStateException.class, "failed 1",
                        () -> Interleave.play(agents, List.of(name, fails), own));
            }
            thrown(IllegalArgumentException.class, "2 agents for 1 works",
                    () -> Interleave.play(agents, List.of(name), 3));
            thrown(NullPointerException.class, "works[1] is null",
                    () -> Interleave.play(agents, Arrays.asList(name, null), 3));
            equal(Turns.isPlayed(), false);
        }
    }

    /** A list says whose turn it is; after its end each in turn plays to its own end. */
    static void aListGivesTheTurns() {
        try (Storage storage = new Storage("[]", 100)) {
            List<Agent> agents = List.of(storage.agent(0), storage.agent(1), storage.agent(2));
            StringBuilder order = new StringBuilder();
            Interleave.Work<Agent, Object> work = agent -> {
                for (int i = 0; i < 3; i++) {
                    agent.step().close();
                    order.append(agent.number());
                }
                return null;
            };
            List<Interleave.Work<Agent, Object>> works = Collections.nCopies(3, work);
            Interleave.play(agents, works, List.of());
            equal(order.toString(), "000111222");
            order.setLength(0);
            Interleave.play(agents, works, List.of(2, 2, 1, -2, 1, 1));
            equal(order.toString(), "211100022");
            thrown(NullPointerException.class, "turns[0] is null",
                    () -> Interleave.play(agents, works, Arrays.asList((Integer) null)));
            agents.forEach(Agent::close);
        }
    }

    /** One at a time goes on: nothing else runs between two turns. */
    static void oneThreadRunsAtATime() {
        int[] inside = new int[1];
        try (Storage storage = new Storage("[]", 10)) {
            List<Agent> agents = new ArrayList<>();
            for (int i = 0; i < 4; i++) agents.add(storage.agent(i));
            Interleave.Work<Agent, Object> work = agent -> {
                for (int i = 0; i < 20; i++)
                    try (Step step = agent.step()) {
                        equal(inside[0]++, 0);
                        Thread.yield();
                        equal(inside[0]--, 1);
                        step.get(account(0));
                        equal(inside[0]++, 0);
                        Thread.yield();
                        equal(inside[0]--, 1);
                    }
                return null;
            };
            Interleave.play(agents, Collections.nCopies(4, work), 9);
            agents.forEach(Agent::close);
        }
    }

    /** A read and then a blind fire: a turn between both loses an update. */
    private static void blindUpdatesAreLostInTurns() {
        Location count = Location.of("count");
        Interleave.Work<Agent, Object> blind = agent -> {
            long there = agent.read(List.of(count)).value(count).asLong();
            return agent.fire(List.of(Instruction.put(count, there + 1)), List.of());
        };
        long[] lost = new long[2];
        for (List<Integer> turns : List.of(List.<Integer>of(), List.of(0, 0, 1)))
            try (Storage storage = Storage.open(Map.of(count, 0), 10)) {
                List<Agent> agents = List.of(storage.agent(0), storage.agent(1));
                Interleave.play(agents, List.of(blind, blind), turns);
                agents.forEach(Agent::close);
                Value left = Storage.replayed(storage.closeJournal()).get(count);
                lost[turns.isEmpty() ? 0 : 1] = 2 - left.asLong();
            }
        equal(lost[0], 0);
        equal(lost[1], 1);
    }

    /** One who waits for another for ever is ended, and an interruption ends all. */
    private static void endlessPlaysAreStopped() {
        try (Storage storage = Storage.open(Map.of(), 10); Agent one = storage.agent(0);
                Agent two = storage.agent(1)) {
            Interleave.Work<Agent, Object> waits = agent -> {
                while (true) agent.follow();
            };
            Interleave.Work<Agent, Object> ends = agent -> "told";
            thrown(EndlessException.class,
                    "agent 0 is still running after 1,000 turns: does one wait for another?",
                    () -> Interleave.play(List.of(one, two), List.of(waits, ends), 3, 1000));
            Thread.currentThread().interrupt();
            thrown(CancellationException.class, "the play was interrupted",
                    () -> Interleave.play(List.of(one, two), List.of(waits, waits), 3));
            equal(Thread.interrupted(), true);
        }
    }

    static void all() {
        oneSeedGivesOneJournal();
        aSeedFindsWhatBreaks();
        worksAnswerAndThrow();
        aListGivesTheTurns();
        oneThreadRunsAtATime();
        blindUpdatesAreLostInTurns();
        endlessPlaysAreStopped();
        System.out.println("turns");
    }
}
