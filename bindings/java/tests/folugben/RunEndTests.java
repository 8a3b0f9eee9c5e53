package folugben;

import static folugben.Test.Checks.equal;
import static folugben.Test.Checks.outOfRange;
import static folugben.Test.Checks.refused;
import static folugben.Test.Checks.refusedAt;
import static folugben.Test.Checks.thrown;

import folugben.Test.CopiedLibrary;

import java.io.IOException;
import java.io.UncheckedIOException;
import java.nio.file.Files;
import java.nio.file.Path;
import java.nio.file.StandardCopyOption;
import java.util.Arrays;
import java.util.BitSet;
import java.util.Collections;
import java.util.List;
import java.util.Map;

/** Tests of how runs end: by a close, and when a part can't be written. */
final class RunEndTests {
    private static final Location COUNT = Location.of("count");

    private RunEndTests() {}

    /** The end of a run ends what is under way, and loses nothing that was fired. */
    private static void closedRunsSaySo(Path path) {
        Run run = RunTests.open(path, 3);
        RunAgent agent = run.agent(0);
        RunTests.count(agent);
        Step step = agent.step();
        step.push(RunTests.up());
        run.close();
        run.close();
        String message = "the run was closed";
        for (Runnable call : List.<Runnable>of(agent::step, agent::follow, agent::state,
                     () -> run.agent(1), step::commit, () -> step.get(COUNT), () -> RunTests.count(agent)))
            equal(refused(Code.EMPTY, call).getMessage(), message);
        step.close();
        agent.close();
        equal(agent.won(), 1L);
        equal(RunTests.counted(path, 1), new Auditor.Counts(2, 1, 1));
    }

    private static BrokenException fails(Runnable call) {
        try {
            call.run();
        } catch (BrokenException fault) {
            return fault;
        }
        throw new IllegalStateException("the run hasn't ended");
    }

    /** Patience.Plays until the run has ended. */
    private static BrokenException failsInTime(RunAgent agent) {
        return fails(() -> {
            while (true) RunTests.count(agent);
        });
    }

    private static void allThrow(Run run, BrokenException first, List<RunAgent> agents) {
        for (RunAgent agent : agents)
            for (Runnable call : List.<Runnable>of(
                         () -> RunTests.count(agent), agent::step, agent::follow, agent::state)) {
                BrokenException error = fails(call);
                equal(error.part(), first.part());
                equal(error.getCause(), first.getCause());
            }
        equal(fails(() -> run.agent(9)).part(), first.part());
        equal(fails(run::close).part(), first.part());
        run.close();
        agents.forEach(RunAgent::close);
    }

    /** A part that lacks a move ends the run; what was complete stays. */
    private static void abandonedAgentsEndTheRun(Path path) {
        Run run = RunTests.open(path, 2);
        RunAgent agent = run.agent(0);
        RunAgent lost = run.agent(1);
        for (int i = 0; i < 4; i++) RunTests.count(agent);
        RunTests.count(lost);
        lost.abandon();
        BrokenException error = failsInTime(agent);
        equal(error.part(), 3L);
        equal(((FolugbenException) error.getCause()).code(), Code.MISSING);
        equal(error.getMessage(), "part 3 of the run can't be written: "
                + Code.MISSING.text()
                + ": an agent was abandoned (move 1)");
        allThrow(run, error, List.of(agent));
        equal(RunTests.counted(path, 4), new Auditor.Counts(3, 4, 4));
        try (Run again = Run.resume(path, 2); RunAgent other = again.agent(0)) {
            equal(RunTests.count(other), new RunAgent.Played<>(5, 4L, 0));
        }
        equal(RunTests.counted(path, 5), new Auditor.Counts(4, 5, 5));
    }

    /** An agent that fired nothing may be abandoned. */
    private static void abandonedAgentsWithoutMovesAreNotMissing(Path path) {
        try (Run run = RunTests.open(path, 2); RunAgent agent = run.agent(0)) {
            RunAgent lost = run.agent(1);
            lost.follow();
            lost.abandon();
            for (int i = 0; i < 4; i++) RunTests.count(agent);
        }
        equal(RunTests.counted(path, 4), new Auditor.Counts(3, 4, 4));
    }

    /** The run of a process whose files can't grow beyond 64 blocks, as on a full disk. */
    private static void fullDisksEndTheRun(Path path) throws Exception {
        // Such a process can't unpack the library from a jar either.
        CopiedLibrary.named(copy -> equal(
                OtherProcess.start("ulimit -f 64 && exec ", "fill", path).waitFor(), 0));
        equal(RunTests.counted(path, 50), new Auditor.Counts(6, 50, 50));
        equal(Files.exists(path.resolve("new")), false);
    }

    /** What that process does. */
    static void fill(Path path) {
        try (Run run = RunTests.open(path, 10); RunAgent agent = run.agent(0)) {
            for (int i = 0; i < 50; i++) RunTests.count(agent);
        }
        Run run = Run.resume(path, 1000);
        List<RunAgent> agents = List.of(run.agent(0), run.agent(1));
        RunTests.count(agents.get(1));
        BrokenException error = failsInTime(agents.get(0));
        equal(error.part(), 6L);
        equal(error.part(), run.parts());
        equal(error.getCause() instanceof IOException, true);
        allThrow(run, error, agents);
    }

    /** What someone else does to the folder of a run. */
    private interface Harm {
        void on(Path path) throws IOException;
    }

    private static void truncate(Path path) throws IOException {
        Path last = RunTests.files(path).get(1);
        Files.write(last, Arrays.copyOf(Files.readAllBytes(last), 20));
    }

    /** Has a file of the same size in the place of the last one. */
    private static void replaceLast(Path path) throws IOException {
        Path last = RunTests.files(path).get(1);
        Path other = Files.write(path.resolve("other"), new byte[(int) Files.size(last)]);
        Files.move(other, last, StandardCopyOption.REPLACE_EXISTING);
    }

    private static void move(Path path) throws IOException {
        Files.move(path, path.resolveSibling("moved"));
    }

    private static void replace(Path path) throws IOException {
        move(path);
        Files.createDirectory(path);
    }

    private static void replaceLock(Path path) throws IOException {
        Files.move(path.resolve("lock"), path.resolve("old"));
        Files.createFile(path.resolve("lock"));
    }

    /** Each is noticed before a further segment is written, and by a step that is under way. */
    private static void harmEndsTheRun(Path path) throws Exception {
        for (Harm harm : List.<Harm>of(RunEndTests::truncate, RunEndTests::replaceLast,
                     RunEndTests::move, RunEndTests::replace, RunEndTests::replaceLock)) {
            Run run = RunTests.open(path, 2);
            RunAgent agent = run.agent(0);
            RunAgent other = run.agent(1);
            for (int i = 0; i < 3; i++) RunTests.count(agent);
            while (run.parts() < 2) Thread.sleep(1);
            harm.on(path);
            Step step = other.step();
            BrokenException error = failsInTime(agent);
            equal(error.part(), 2L);
            equal(error.getCause().getClass(), DamagedException.class);
            equal(fails(() -> step.get(COUNT)).part(), 2L);
            equal(fails(step::commit).part(), 2L);
            step.close();
            allThrow(run, error, List.of(agent, other));
            for (Path left : List.of(path, path.resolveSibling("moved"))) {
                equal(!Files.exists(left) || RunTests.files(left).size() % 2 == 0, true);
                RunTests.drop(left);
            }
        }
    }

    /** A text of a byte that has six in a line: four of them are too long. */
    private static final String FOURTH = "\u0001".repeat((1 << 30) / 24);

    private static Location at(int number) {
        return Location.of("a", number);
    }

    /** A state with which no journal can begin is refused. */
    private static void statesAreShort() {
        try (Storage storage = new Storage("[]", 4); Agent agent = storage.agent(0);
                Move move = new Move()) {
            for (int number = 0; number < 4; number++)
                try (PreparedLocation at = at(number).prepare()) {
                    move.clear().put(at, FOURTH);
                    agent.play(step -> {
                        step.push(move);
                        return null;
                    });
                }
            agent.follow();
            equal(refused(Code.LONG_LINE, () -> agent.goOn(4)).getClass(), TooLongException.class);
        }
    }

    /** A move that would make too long a line is refused, and the run goes on. */
    private static void longLinesEndNoRun(Path path) throws IOException {
        try (Run run = Run.open(Map.of(COUNT, 0), path, 4); RunAgent agent = run.agent(0);
                Move move = new Move()) {
            for (int number = 0; number < 4; number++)
                try (PreparedLocation at = at(number).prepare()) {
                    move.put(at, FOURTH);
                }
            try (Step step = agent.step()) {
                step.push(move);
                equal(refused(Code.LONG_LINE, step::tryCommit).getClass(), TooLongException.class);
            }
            RunTests.count(agent);
        }
        equal(Auditor.audit(path).moves(), 1L);
    }

    private static void numbersAreFreedAtTheEnd(Path path) {
        try (Run run = RunTests.open(path, 3)) {
            RunAgent agent = run.agent(7);
            RunTests.count(agent);
            refusedAt(Code.NUMBER, 0, ": agent 7", () -> run.agent(7));
            outOfRange(() -> run.agent(256));
            agent.close();
            agent.close();
            equal(refused(Code.EMPTY, agent::step).getMessage(),
                    "the agent was closed");
            try (RunAgent again = run.agent(7)) {
                equal(again.won(), 0L);
                for (int i = 1; i < 5; i++)
                    equal(RunTests.count(again), new RunAgent.Played<>(i + 1, (long) i, 0));
                equal(again.won(), 4L);
            }
        }
        equal(RunTests.counted(path, 5), new Auditor.Counts(3, 5, 5));
    }

    private static void argumentsAreChecked(Path path) {
        Class<? extends RuntimeException> kind = NullPointerException.class;
        thrown(kind, "path", () -> Run.open(Map.of(), null));
        thrown(kind, "init", () -> Run.open((Map<Location, ?>) null, path));
        thrown(kind, "path", () -> Run.resume(null));
        outOfRange(() -> RunTests.open(path, 0));
        thrown(kind, "check", () -> Run.resume(path, null));
        outOfRange(() -> Run.resume(path, 1_048_577));
        refused(Code.NOT_JSON, () -> Run.open("[", path, 5, 9));
        equal(Files.exists(path), false);
        try (Run run = RunTests.open(path, 5); RunAgent agent = run.agent(0)) {
            thrown(kind, "rule", () -> agent.play(null));
            thrown(kind, "reads[0] is null",
                    () -> agent.fire(List.of(), Collections.singletonList(null)));
            thrown(kind, "locations", () -> agent.peek(null));
            thrown(IllegalStateException.class, "no", () -> agent.play(step -> {
                step.push(RunTests.up());
                throw new IllegalStateException("no");
            }));
            refused(Code.CLASH, () -> agent.play(step -> {
                step.push(Instruction.put(COUNT, 1), Instruction.put(COUNT, 2));
                return null;
            }));
        }
    }

    /** Has 4 agents in threads raise one number for so long, in parts of 200 moves. */
    private static void stress(Path path, int seconds) throws Exception {
        long end = System.nanoTime() + seconds * 1_000_000_000L;
        BitSet fired = new BitSet();
        try (Run run = RunTests.open(path, 200)) {
            RunTests.inThreads(run, 4, agent -> {
                BitSet own = new BitSet();
                while (System.nanoTime() < end) own.set((int) RunTests.count(agent).move());
                synchronized (fired) {
                    equal(fired.intersects(own), false);
                    fired.or(own);
                }
            });
        }
        equal(fired.nextClearBit(1), fired.length());
        Auditor.Counts counts = RunTests.counted(path, fired.cardinality());
        equal(counts.moves(), fired.cardinality());
        System.out.println("stress " + seconds + " s: " + counts);
    }

    /** Stresses so many runs, each for so many seconds: 20 and 30 by default. */
    public static void main(String[] arguments) throws Exception {
        int runs = arguments.length > 0 ? Integer.parseInt(arguments[0]) : 20;
        int seconds = arguments.length > 1 ? Integer.parseInt(arguments[1]) : 30;
        for (int i = 0; i < runs; i++) RunTests.withFile(path -> stress(path, seconds));
    }

    static void all() {
        try {
            for (RunTests.OnFile test : List.<RunTests.OnFile>of(RunEndTests::closedRunsSaySo,
                         RunEndTests::abandonedAgentsEndTheRun,
                         RunEndTests::abandonedAgentsWithoutMovesAreNotMissing,
                         RunEndTests::fullDisksEndTheRun, RunEndTests::harmEndsTheRun,
                         path -> statesAreShort(), RunEndTests::longLinesEndNoRun,
                         RunEndTests::numbersAreFreedAtTheEnd,
                         RunEndTests::argumentsAreChecked))
                RunTests.withFile(test);
        } catch (IOException fault) {
            throw new UncheckedIOException(fault);
        } catch (Exception fault) {
            throw fault instanceof RuntimeException error ? error : new IllegalStateException(fault);
        }
        System.out.println("ends of runs");
    }
}
