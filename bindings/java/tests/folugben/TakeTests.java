package folugben;

import static folugben.Test.Checks.equal;
import static folugben.Test.Checks.refused;
import static folugben.Test.Checks.thrown;

import java.lang.management.ManagementFactory;
import java.lang.management.ThreadMXBean;
import java.time.Duration;
import java.util.ArrayList;
import java.util.List;
import java.util.Map;

/** Tests of agents that one thread plays by turns, and of what is said of limits. */
final class TakeTests {
    private static final Location X = Location.of("x");
    private static final Location Y = Location.of("y");

    private TakeTests() {}

    /** Agents that a thread plays by turns do as on threads of their own. */
    private static void agentsOfOneThreadShareTheirState() {
        try (Storage storage = Storage.open(Map.of(X, 0), 10_000)) {
            List<Agent> agents = Schedule.agents(storage, 16);
            for (int round = 0; round < 10; round++)
                for (Agent agent : agents)
                    agent.play(step -> {
                        step.push(Instruction.put(X, step.get(X).asLong() + 1));
                        return null;
                    });
            equal(storage.moves(), 160);
            Agent last = agents.get(15);
            // What an agent has peeked at is what it shows, whoever acts after it.
            equal(last.follow(), 160);
            agents.get(3).fire(List.of(Instruction.put(X, 7)), List.of());
            equal(last.peek(List.of(X)), new Reading(160, List.of(X), List.of(Value.of(160))));
            // One that has fired shows what it finds, and no older state than it had.
            last.play(step -> {
                step.push(Instruction.inc(X, 1));
                return null;
            });
            agents.get(4).step().close();
            equal(last.peek(List.of(X)).number(), 162);
            equal(last.state().number(), 162);
            equal(last.scan("x").number(), 162);
            // Nor does it once it was returned and checked out again.
            last.step().close();
            agents.get(4).step().close();
            last.give();
            last = storage.take(15);
            agents.set(15, last);
            refused(Code.AHEAD, () -> agents.get(15).stands(List.of(new Named(X, 999))));
            equal(last.peek(List.of(X)).number(), 162);
            // A step goes on while others begin theirs.
            try (Step step = agents.get(5).step()) {
                agents.get(6).play(other -> {
                    other.push(Instruction.put(Location.of("w"), 1));
                    return null;
                });
                equal(step.get(X), Value.of(8));
                equal(step.get(Y), Value.of(null));
                step.push(Instruction.put(Location.of("z"), 1));
                step.commit();
            }
            agents.forEach(Agent::close);
            Storage.check(storage.closeJournal());
        }
    }

    /** Threads play the same agents by turns, each in calls of its own. */
    private static void threadsMayPlayTheSameAgents() throws InterruptedException {
        try (Storage storage = Storage.open(Map.of(X, 0), 100_000)) {
            List<Agent> agents = Schedule.agents(storage, 6);
            List<Thread> threads = new ArrayList<>();
            List<Throwable> faults = java.util.Collections.synchronizedList(new ArrayList<>());
            for (int i = 0; i < 4; i++) {
                int own = i;
                Thread thread = new Thread(() -> {
                    for (int round = 0; round < 300; round++)
                        add(agents.get((own * 5 + round) % agents.size()), round);
                });
                thread.setUncaughtExceptionHandler((it, fault) -> faults.add(fault));
                threads.add(thread);
            }
            threads.forEach(Thread::start);
            for (Thread thread : threads) thread.join();
            equal(faults, List.of());
            agents.get(0).follow();
            equal(agents.get(0).peek(List.of(X)).value(X), Value.of(1200));
            agents.forEach(Agent::close);
            Storage.check(storage.closeJournal());
        }
    }

    private static void add(Agent agent, int round) {
        while (true)
            try {
                if (round % 2 == 0) {
                    Reading read = agent.read(List.of(X));
                    agent.fire(List.of(Instruction.put(X, read.value(X).asLong() + 1)), read.named());
                } else {
                    agent.play(step -> {
                        step.push(Instruction.put(X, step.get(X).asLong() + 1));
                        return null;
                    });
                }
                return;
            } catch (MovedException | ConflictException again) {
                // Another thread has played this agent, or another agent was quicker.
            }
    }

    /** A play may be bounded; one that pushes nothing fires nothing. */
    private static void playsHaveBounds() {
        try (Storage storage = Storage.open(Map.of(X, 0), 100); Agent one = storage.agent(0);
                Agent rival = storage.agent(1)) {
            Actor.Played<Value> idle = one.play(step -> step.get(X));
            equal(idle.result(), Value.of(0));
            equal(idle.isFired(), false);
            equal(storage.moves(), 0);
            int[] tries = new int[1];
            Actor.Rule<Object, RuntimeException> spoiled = step -> {
                tries[0]++;
                long there = step.getLong(X);
                rival.fire(List.of(Instruction.put(X, there + 1)), List.of());
                step.push(Instruction.put(X, -1));
                return null;
            };
            refused(Code.STALE, () -> one.play(spoiled, 3, Duration.ofDays(1)));
            equal(tries[0], 3);
            refused(Code.STALE, () -> one.play(spoiled, 1000, Duration.ZERO));
            equal(tries[0], 4);
            Actor.Played<Object> played = one.play(step -> {
                if (tries[0]++ < 6)
                    rival.fire(List.of(Instruction.inc(X, 1)), List.of());
                step.push(Instruction.put(Y, step.get(X)));
                return null;
            }, 5, Duration.ofDays(1));
            equal(played.retries(), 2);
            equal(played.isFired(), true);
            thrown(IllegalArgumentException.class, "a number of tries is 1 or more, and not 0",
                    () -> one.play(spoiled, 0, Duration.ZERO));
        }
    }

    /** What is beyond a limit says which, and how many there are. */
    private static void limitsAreNamed() {
        List<Location> many = new ArrayList<>();
        for (int i = 0; i < 257; i++) many.add(Location.of("x", i));
        List<Named> reads = many.stream().map(it -> new Named(it, 0)).toList();
        try (Storage storage = Storage.open(Map.of(X, 0), 10); Agent agent = storage.agent(0);
                Step step = agent.step(); Move full = new Move()) {
            withMessage("257 locations are read, at most 256", () -> agent.read(many));
            withMessage("257 locations and scanned functions are named, at most 256",
                    () -> agent.fire(List.of(), reads.subList(0, 256), List.of(new Scanned("f", 0))));
            withMessage("257 locations are named, at most 256", () -> agent.stands(reads));
            withMessage("the step would depend on more than 256 locations and functions", () -> step.get(many));
            for (int i = 0; i < 4096; i++) full.gather(Instruction.put(Location.of("y", i), 1));
            withMessage("the move would have more than 4,096 instructions",
                    () -> full.gather(Instruction.inc(X, 1)));
            step.push(full);
            withMessage("the one move of all that are pushed would have more than 4,096 instructions",
                    () -> step.push(Instruction.put(Y, 1)));
            step.get(many.subList(0, 256));
            try (PreparedLocation at = Y.prepare()) {
                withMessage("the step would depend on more than 256 locations and functions", () -> step.getLong(at));
            }
            withMessage("lists nest at most 8 deep", () -> step.push(
                    "[[\"put\",[\"x\"]," + "{\"list\":[".repeat(90) + "]}".repeat(90) + "]]"));
        }
    }

    private static void withMessage(String detail, Runnable call) {
        try {
            call.run();
        } catch (FolugbenException error) {
            equal(error.getMessage().contains(detail) ? detail : error.getMessage(), detail);
            return;
        }
        throw new IllegalStateException("not refused: " + detail);
    }

    /**
     * Prints the microseconds of processor time that a move takes of so many agents, which one
     * thread plays by turns.
     */
    public static void main(String[] words) {
        ThreadMXBean clock = ManagementFactory.getThreadMXBean();
        for (int times = 0; times < 2; times++)
            for (int count : new int[] {1, 8, 64, 256})
                try (Storage storage = Storage.open(Map.of(X, 0), 200_000);
                        PreparedLocation at = X.prepare(); Move move = new Move()) {
                    List<Agent> agents = Schedule.agents(storage, count);
                    int rounds = 100_000 / count;
                    long begin = clock.getCurrentThreadCpuTime();
                    for (int round = 0; round < rounds; round++)
                        for (Agent agent : agents)
                            try (Step step = agent.step()) {
                                step.push(move.clear().put(at, step.getLong(at) + 1));
                                step.tryCommit().orThrow();
                            }
                    long took = clock.getCurrentThreadCpuTime() - begin;
                    System.out.printf("%d agents: %.2f us%n", count, took / 1000.0 / (rounds * count));
                    agents.forEach(Agent::close);
                }
    }

    static void all() throws InterruptedException {
        agentsOfOneThreadShareTheirState();
        threadsMayPlayTheSameAgents();
        playsHaveBounds();
        limitsAreNamed();
        System.out.println("turns of one thread");
    }
}
