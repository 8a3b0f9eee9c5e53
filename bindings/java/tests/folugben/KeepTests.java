package folugben;

import static folugben.Test.Checks.equal;
import static folugben.Test.Checks.thrown;

import java.io.IOException;
import java.nio.file.Files;
import java.nio.file.Path;
import java.util.List;
import java.util.Random;
import java.util.concurrent.atomic.AtomicBoolean;

/** Tests of runs that keep their last segments alone. */
final class KeepTests {
    private KeepTests() {}

    private static void play(Run run, int times) {
        try (RunAgent agent = run.agent(0)) {
            for (int i = 0; i < times; i++) RunTests.count(agent);
        }
    }

    /** The segments that are there, whose texts aren't read. */
    static List<Segment> segments(Path path) throws IOException {
        try (Trail trail = new Trail()) {
            return trail.skip(Segment.names(path));
        }
    }

    private static List<Long> numbers(Path path) throws IOException {
        return segments(path).stream().map(Segment::number).toList();
    }

    private static void theLastStay(Path path) throws IOException {
        try (Run run = RunTests.open(path, 2).keep(3)) {
            play(run, 20);
            thrown(IllegalArgumentException.class, "a run keeps 1 segment or more, and not 0",
                    () -> run.keep(0));
        }
        equal(numbers(path), List.of(8L, 9L, 10L));
        equal(RunTests.counted(path, 20), new Auditor.Counts(3, 6, 6, 14));
        for (Run.Check check : Run.Check.values())
            try (Run run = Run.resume(path, check); RunAgent agent = run.agent(0)) {
                equal(run.parts(), 11L);
                equal(run.saved(), 20L);
                equal(agent.follow(), 20L);
            }
        equal(numbers(path), List.of(8L, 9L, 10L)); // all are kept unless it is said
        try (Run run = Run.resume(path, 2).keep(1)) {
            play(run, 1);
        }
        equal(numbers(path), List.of(11L));
        equal(RunTests.counted(path, 21), new Auditor.Counts(1, 1, 1, 20));
        try (Run run = Run.resume(path, 2)) {
            play(run, 3);
        }
        equal(numbers(path), List.of(11L, 12L, 13L));
        equal(RunTests.counted(path, 24), new Auditor.Counts(3, 4, 4, 20));
    }

    /** Only the first ones may be gone, and what is left is as it was. */
    private static void othersAreMissed(Path path) throws IOException {
        try (Run run = RunTests.open(path, 2).keep(4)) {
            play(run, 20);
        }
        List<Path> files = RunTests.files(path);
        Files.delete(files.get(2));
        try {
            Auditor.audit(path);
            throw new IllegalStateException("a segment isn't missed");
        } catch (DamagedException fault) {
            equal(fault.segment(), 9L);
        }
        try (Run run = Run.resume(path, Run.Check.LAST)) {
            throw new IllegalStateException("a segment isn't missed: " + run);
        } catch (DamagedException fault) {
            equal(fault.segment(), 9L);
        }
        Files.delete(files.get(0));
        Files.delete(files.get(1));
        equal(RunTests.counted(path, 20), new Auditor.Counts(1, 2, 2, 18));
    }

    /** The run that can't remove a segment ends; all that it has saved is there. */
    private static void faultsEndTheRun(Path path) throws Exception {
        Run run = RunTests.open(path, 2).keep(2);
        RunAgent agent = run.agent(0);
        for (int i = 0; i < 2; i++) RunTests.count(agent);
        run.flush();
        Files.delete(RunTests.files(path).get(0));
        try {
            while (true) RunTests.count(agent);
        } catch (BrokenException fault) {
            equal(fault.getCause() instanceof IOException, true);
        }
        try {
            run.close();
        } catch (BrokenException again) {
            equal(again.getCause() instanceof IOException, true);
        }
        agent.close();
        long saved = run.saved();
        equal(saved >= 2, true);
        Auditor.Counts counts = RunTests.counted(path, saved);
        equal(counts.before() + counts.moves(), saved);
        try (Run resumed = Run.resume(path)) {
            equal(resumed.saved(), saved);
        }
    }

    /** A folder that begins later has no effect on the fault of one that was fed before. */
    private static void faultsOfOtherFoldersStay(Path path) throws IOException {
        Path other = path.resolveSibling("other.run");
        for (Path it : List.of(path, other))
            try (Run run = RunTests.open(it, 2).keep(it.equals(path) ? 1 : 9)) {
                play(run, 4);
            }
        Files.write(RunTests.files(other).get(0), new byte[0]);
        try (Auditor auditor = new Auditor()) {
            for (Path it : List.of(other, path))
                try {
                    auditor.feed(it);
                    throw new IllegalStateException("a fault is forgotten");
                } catch (DamagedException fault) {
                    equal(fault.segment(), 0L);
                }
        }
    }

    /** An audit begins again where segments were removed before it has read them. */
    private static void auditsGoOn(Path path) throws Exception {
        AtomicBoolean isOver = new AtomicBoolean();
        try (Run run = RunTests.open(path, 3).keep(2)) {
            Thread player = new Thread(() -> {
                play(run, 1500);
                isOver.set(true);
            });
            player.start();
            long last = 0;
            while (!isOver.get()) {
                Auditor.Counts counts = Auditor.audit(path);
                equal(counts.before() + counts.moves() >= last, true);
                last = counts.before() + counts.moves();
            }
            player.join();
            equal(run.saved() >= last, true);
        }
        Auditor.Counts counts = RunTests.counted(path, 1500);
        equal(counts.before() + counts.moves(), 1500L);
    }

    /** A process that is killed as it saves and removes leaves a run. */
    private static void killedRunsAreResumed(Path path) throws Exception {
        Random random = new Random();
        for (int times = Integer.getInteger("folugben.kills", 3); times > 0; times--) {
            Process process = OtherProcess.start("exec ", "keep", path);
            while (!Files.exists(path) || RunTests.files(path).isEmpty()) Thread.sleep(1);
            Thread.sleep(300 + random.nextInt(300));
            process.destroyForcibly().waitFor();
            List<Long> left = numbers(path);
            equal(left.size() <= 3, true);
            try (Run run = Run.resume(path, 20).keep(2)) {
                equal(run.parts(), left.get(left.size() - 1) + 1);
                RunTests.inThreads(run, 3, agent -> ResumeTests.work(agent, 50));
            }
            equal(numbers(path).size(), 2);
            Auditor.audit(path);
            RunTests.drop(path);
        }
    }

    static void all() {
        try {
            for (RunTests.OnFile test : List.<RunTests.OnFile>of(KeepTests::theLastStay,
                         KeepTests::othersAreMissed, KeepTests::faultsEndTheRun,
                         KeepTests::faultsOfOtherFoldersStay, KeepTests::auditsGoOn,
                         KeepTests::killedRunsAreResumed))
                RunTests.withFile(test);
        } catch (Exception fault) {
            throw fault instanceof RuntimeException error ? error : new IllegalStateException(fault);
        }
        System.out.println("runs that keep their last segments");
    }
}
