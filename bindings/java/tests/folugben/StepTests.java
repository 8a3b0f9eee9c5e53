package folugben;

import static folugben.Test.Checks.equal;
import static folugben.Test.Checks.refused;
import static folugben.Test.Checks.refusedAt;
import static folugben.Test.Checks.thrown;

import java.time.Duration;
import java.util.List;
import java.util.Map;
import java.util.Optional;
import java.util.function.Supplier;

/** Tests of rules, of threads that share a step, and of what is said of refused texts. */
final class StepTests {
    private static final String TWICE = "[[\"put\",[\"x\"],{\"set\":[1,1]}]]";
    private static final String INIT = "[[[\"s\"],{\"set\":[1]}],[[\"x\"],7],[[\"y\",1],\"one\"]]";

    private StepTests() {}

    static String inc(String name, long amount) {
        return "[[\"inc\",[\"" + name + "\"]," + amount + "]]";
    }

    static String put(String name, String value) {
        return "[[\"put\",[\"" + name + "\"]," + value + "]]";
    }

    static String seen(int number, String values) {
        return "{\"number\":" + number + ",\"values\":[" + values + "]}";
    }

    /** A wait ends with its time, a write, or an interrupt. */
    static void waits() {
        try (Storage storage = new Storage(INIT, 8); Agent agent = storage.agent(0);
                Agent rival = storage.agent(1); Step step = agent.step()) {
            step.getLong(Location.of("x"));
            rival.tryFire(put("z", "1"), "[]");
            equal(step.await(Duration.ofMillis(1)), false);
            equal(step.stands(), Optional.empty());
            Thread writer = new Thread(() -> rival.tryFire(inc("x", 1), "[]"));
            writer.start();
            boolean isWritten = step.await(Duration.ofMinutes(1));
            writer.join();
            equal(isWritten, true);
            equal(step.stands(), Optional.of(Location.of("x")));
            try (Step other = agent.step()) {
                Thread.currentThread().interrupt();
                other.await(Duration.ofMinutes(1));
                throw new IllegalStateException("not interrupted");
            }
        } catch (InterruptedException error) {
            equal(Thread.interrupted(), false);
        }
    }

    /** A rule that commits its step ends the play with that move. */
    static void rulesCommit() {
        try (Storage storage = new Storage(INIT, 8); Agent agent = storage.agent(0);
                Agent rival = storage.agent(1)) {
            Actor.Rule<Long, RuntimeException> raise = step -> {
                step.push(inc("x", 1));
                return step.commit();
            };
            equal(agent.play(raise), new Actor.Played<>(1, 1L, 0));
            Actor.Played<Boolean> tried = agent.play(step -> {
                long next = step.getLong(Location.of("x")) + 1;
                if (rival.won() == 0)
                    rival.play(raise);
                step.push(Instruction.put(Location.of("x"), next));
                return step.tryCommit().isFired();
            });
            // The first commit was in vain, and so was that of the play.
            equal(tried, new Actor.Played<>(3, true, 1));
            refused(Code.EMPTY, () -> agent.play(step -> {
                step.push(inc("x", 1));
                step.commit();
                return step.get("[]");
            }));
            equal(agent.follow(), 4);
            equal(agent.peek("[[\"x\"]]"), seen(4, "11"));
        }
    }

    /** A message says so if two threads use one agent. */
    static void agentsAreOfOneThread() {
        try (Storage storage = new Storage(INIT, 8); Agent agent = storage.agent(0);
                Agent rival = storage.agent(1); PreparedLocation x = Location.of("x").prepare()) {
            Step step = agent.step();
            rival.fire(inc("x", 1), "[]");
            Thread thread = new Thread(agent::follow);
            thread.start();
            Patience.join(thread);
            for (Runnable call : List.<Runnable>of(() -> step.get(x), () -> step.get("[[\"x\"]]"),
                         () -> step.push(inc("x", 1))))
                refusedAt(Code.MOVED, 0, ": agent 0 is used by two threads", call);
            Step next = agent.step();
            rival.fire(inc("x", 1), "[]");
            agent.follow();
            refusedAt(Code.MOVED, 0, "", () -> next.get(x));
            step.close();
            next.close();
            equal(refused(Code.EMPTY, () -> next.get(x)).getMessage(),
                    "the step is over: it was fired or closed");
        }
    }

    /** What is refused of several texts is named: the state, the move, the first or the second one. */
    static void textsAreNamed() {
        refusedAt(Code.SHAPE, 0, ": a location stands twice (state)",
                () -> Moves.aggregate("[[[\"x\"],1],[[\"x\"],2]]", "7"));
        refusedAt(Code.NOT_JSON, 0, " at byte 3 (move)",
                () -> Moves.aggregate("[]", "[[nul]]"));
        refusedAt(Code.NOT_JSON, 0, " at byte 3 (first)",
                () -> Moves.compose("[[nul]]", "7"));
        refusedAt(Code.NOT_JSON, 0, " (second)", () -> Moves.compose("7", "[["));
        String twice = ": instruction 1: an element stands twice in a set";
        refusedAt(Code.SHAPE, 0, twice + " (first)",
                () -> Moves.compose(TWICE, "[nul]"));
        refusedAt(Code.SHAPE, 0, twice + " (second)",
                () -> Moves.compose("[]", TWICE));
        refusedAt(Code.SHAPE, 0, twice + " (move)",
                () -> Moves.aggregate("[]", TWICE));
    }

    /** A number above what the agent has seen, and what is no scan, are refused with their place. */
    static void readsAreNamed() {
        String reads = "[[[\"s\"],0], [[\"y\",1],1]]";
        List<Named> named = List.of(new Named(Location.of("x"), 1));
        String seen = " is named at 1, and the agent has seen 0";
        try (Storage storage = new Storage(INIT, 8); Agent agent = storage.agent(0)) {
            for (Runnable call : List.<Runnable>of(() -> agent.tryFire("[]", reads), () -> agent.stands(reads)))
                refusedAt(Code.AHEAD, 0, ": read 2: [\"y\",1]" + seen, call);
            for (Runnable call : List.<Runnable>of(() -> agent.tryFire(List.of(), named), () -> agent.stands(named)))
                refusedAt(Code.AHEAD, 0, ": read 1: [\"x\"]" + seen, call);
            refusedAt(Code.AHEAD, 0, ": scan 2: y" + seen,
                    () -> agent.tryFire("[]", "[]", "[[\"x\",0],[\"y\",1]]"));
            refusedAt(Code.SHAPE, 0,
                    ": a scan is an array of a function's name and a number, from 0 to 4,294,967,295",
                    () -> agent.tryFire("[]", "[]", "[[\"y\"]]"));
        }
    }

    /** Threads that call one step and its agent at the same time wait for each other. */
    static void sharedByThreads() throws InterruptedException {
        try (Storage storage = new Storage(INIT, 8); Agent agent = storage.agent(0);
                Step step = agent.step()) {
            Thread[] threads = new Thread[4];
            for (int i = 0; i < threads.length; i++) {
                threads[i] = new Thread(() -> {
                    for (int round = 0; round < 200; round++) {
                        step.extend(inc("x", 1));
                        step.get("[[\"x\"]]");
                        agent.peek("[[\"x\"]]");
                        step.depth();
                    }
                });
            }
            for (Thread thread : threads) thread.start();
            for (Thread thread : threads) thread.join();
            equal(step.get("[[\"x\"]]"), seen(0, "807"));
            equal(step.tryCommit().isFired(), true);
        }
    }

    private static <T> void isNo(String message, Supplier<T> call) {
        thrown(IllegalStateException.class, message, call::get);
    }

    /** Values of one kind, another number where nothing is, and what a scan finds in turn. */
    private static void valuesOfOneKind() {
        Location number = Location.of("n"), text = Location.of("t"), none = Location.of("u");
        try (Storage storage = Storage.open(Map.of(number, 7, text, "a"), 9);
                Agent agent = storage.agent(0); Step step = agent.step();
                PreparedLocation n = number.prepare(); PreparedLocation u = none.prepare();
                PreparedLocation t = text.prepare()) {
            equal(step.getLong(number) + step.getLong(n), 14);
            equal(step.getLong(number, 1) + step.getLong(n, 1), 14);
            equal(step.getLong(none, 1) + step.getLong(u, 1), 2);
            isNo("no number: \"a\"", () -> step.getLong(text, 1));
            isNo("no number: \"a\"", () -> step.getLong(t, 1));
            isNo("no number: undef", () -> step.getLong(u));
            equal(step.get(none), Value.undef());
            step.push(Instruction.put(Location.of("f", 2), Value.list(1, "b")),
                    Instruction.put(Location.of("f", 1), true));
            StringBuilder found = new StringBuilder();
            for (Pair each : step.scan("f")) found.append(each).append(';');
            equal(found.toString(), "f(1) = true;f(2) = [1, \"b\"];");
            step.commit();
            Agent.Played<Void> played = agent.run(own -> own.push(Instruction.inc(number, 1)));
            equal(played.move(), 2);
            equal(agent.run(own -> {}).isFired(), false);
        }
    }

    static void all() throws InterruptedException {
        valuesOfOneKind();
        System.out.println("values of one kind");
        waits();
        rulesCommit();
        agentsAreOfOneThread();
        System.out.println("rules that commit, and two threads");
        textsAreNamed();
        readsAreNamed();
        System.out.println("refused texts and reads");
        sharedByThreads();
        System.out.println("shared by threads");
    }
}
