package folugben;

import static folugben.Test.Checks.equal;

import java.io.IOException;
import java.io.UncheckedIOException;
import java.nio.charset.StandardCharsets;
import java.nio.file.FileAlreadyExistsException;
import java.nio.file.FileSystemException;
import java.nio.file.Files;
import java.nio.file.NoSuchFileException;
import java.nio.file.Path;
import java.time.Duration;
import java.util.Arrays;
import java.util.List;
import java.util.Map;
import java.util.Random;
import java.util.TreeMap;

/** Tests of the folders of runs: who has one, and how a run is resumed. */
final class ResumeTests {
    private static final int ACCOUNTS = 6;

    private ResumeTests() {}

    private static Location account(int number) {
        return Location.of("account", number % ACCOUNTS);
    }

    static Map<Location, Integer> opening() {
        Map<Location, Integer> state = new TreeMap<>();
        for (int i = 0; i < ACCOUNTS; i++) state.put(account(i), 100);
        return state;
    }

    private static void transfer(RunAgent agent, int from, int to, long amount) {
        agent.play(step -> {
            long there = step.get(account(from)).asLong();
            long moved = Math.min(amount, there);
            step.push(Instruction.put(account(from), there - moved));
            step.push(Instruction.put(account(to), step.get(account(to)).asLong() + moved));
            return null;
        });
    }

    static void work(RunAgent agent, int times) {
        for (int i = 0; i < times; i++)
            transfer(agent, i + agent.number(), 3 * i + 1, 1 + i % 70);
    }

    /** The counts of the run in a folder, whose accounts have the sum that they had. */
    private static Auditor.Counts audited(Path path) {
        try (Auditor auditor = new Auditor()) {
            auditor.feed(path);
            equal(auditor.values().values().stream().mapToLong(Value::asLong).sum(),
                    100L * ACCOUNTS);
            return auditor.end();
        }
    }

    static Throwable faultOf(Runnable call) {
        try {
            call.run();
        } catch (UncheckedIOException fault) {
            return fault.getCause();
        }
        throw new IllegalStateException("the run is opened");
    }

    private static void isRefused(Path path, Path link) {
        Throwable error = faultOf(() -> Run.resume(link));
        equal(error.getClass(), FileSystemException.class);
        equal(error.getMessage(), path + ": another run uses the folder");
        Throwable there = faultOf(() -> Run.open(opening(), link));
        equal(there.getClass(), FileAlreadyExistsException.class);
        equal(there.getMessage(), path + ": there is a run, which Run.resume continues");
    }

    private static void onePathIsOneRun(Path path) throws Exception {
        Path link = path.resolveSibling("link");
        try (Run run = Run.open(opening(), path, 5)) {
            isRefused(path, path);
            Files.createSymbolicLink(link, path);
            equal(faultOf(() -> Run.resume(link)).getMessage(),
                    link + ": a link leads to the folder: name the folder itself");
            equal(faultOf(() -> Run.open(opening(), link)).getClass(), FileSystemException.class);
            Files.delete(link);
            Files.createSymbolicLink(link, path.getParent());
            isRefused(path, link.resolve(path.getFileName()));
            Files.readAllBytes(path.resolve("lock")); // it is closed here, and stays locked
            equal(OtherProcess.start("exec ", "resume", path).waitFor(), 3);
            try (RunAgent agent = run.agent(0)) {
                work(agent, 7);
            }
        } finally {
            Files.deleteIfExists(link);
        }
        Run.resume(path).close();
        equal(audited(path), new Auditor.Counts(3, 7, 7));
        Throwable missing = faultOf(() -> Run.resume(path.resolveSibling("none")));
        equal(missing.getClass(), NoSuchFileException.class);
    }

    private static void runsAreResumed(Path path) {
        try (Run run = Run.open(opening(), path, 4); RunAgent agent = run.agent(3)) {
            work(agent, 10);
        }
        try (Run run = Run.resume(path, 6); RunAgent agent = run.agent(0)) {
            equal(run.parts(), 4L);
            equal(agent.follow(), 10L);
            work(agent, 13);
            equal(agent.follow(), 23L);
        }
        equal(audited(path), new Auditor.Counts(7, 23, 23));
        try (Run run = Run.resume(path)) {
            equal(run.parts(), 7L);
            equal(run.saved(), 23L);
        }
        equal(audited(path), new Auditor.Counts(7, 23, 23));
    }

    private static void small(Path path) {
        try (Run run = Run.open(opening(), path, 2); RunAgent agent = run.agent(0)) {
            work(agent, 5);
        }
    }

    /** Resuming, and an audit of all, report the segment at fault, and leave each file unchanged. */
    private static void isDamaged(Path path, long segment, Run.Check check) throws IOException {
        List<Path> files = RunTests.files(path);
        equal(AuditTests.damagedAt(() -> Run.resume(path, check).close()), segment);
        if (check == Run.Check.ALL)
            equal(AuditTests.damagedAt(() -> Auditor.audit(path)), segment);
        equal(RunTests.files(path), files);
    }

    /** One flipped bit, or a lost end, in any segment. */
    private static void changedTextsAreRefused(Path path) throws IOException {
        small(path);
        List<Path> files = RunTests.files(path);
        equal(files.size(), 4);
        for (int segment = 0; segment < files.size(); segment++) {
            Path file = files.get(segment);
            byte[] text = Files.readAllBytes(file);
            for (int at = segment; at < text.length; at += 41) {
                byte[] flipped = text.clone();
                flipped[at] ^= (byte) (1 << at % 8);
                Files.write(file, flipped);
                isDamaged(path, segment, Run.Check.ALL);
                Files.write(file, Arrays.copyOf(text, at));
                isDamaged(path, segment, Run.Check.ALL);
            }
            Run.Check last = Run.Check.LAST;
            if (segment == files.size() - 1)
                isDamaged(path, segment, last);
            else
                Run.resume(path, last).close();
            Files.write(file, text);
        }
        equal(audited(path), new Auditor.Counts(4, 5, 5));
    }

    private static void changedNamesAreRefused(Path path) throws IOException {
        small(path);
        List<Path> files = RunTests.files(path);
        Path second = files.get(1);
        String name = second.getFileName().toString();
        String zeros = "0".repeat(64);
        for (String bad : List.of(name.replace("-2-2-", "-2-3-"), name.replace("-2-2-", "-02-2-"),
                     name.replace("00000001", "00000009"), name.replace("00000001", "1"),
                     name + ".journal", name.replace("-0-2-", "-1-2-"),
                     name.replace("-0-2-", "-00-2-"), name.replace("-0-2-", "-2-"),
                     name.replace("-0-2-", "-18446744073709551614-2-"),
                     name.replace("-2-2-", "-2-18446744073709551616-"),
                     name.replace("-2-2-", "-2-2-0"), name.replace("-2-2-", "-2-2-" + zeros + "-"),
                     name.substring(0, 15) + zeros + name.substring(79))) {
            Files.move(second, path.resolve(bad));
            isDamaged(path, 1, Run.Check.ALL);
            Files.move(path.resolve(bad), second);
        }
        // Its text shows that the name is another; by the names alone the third is at fault.
        for (String bad : List.of(name.replace("-2-2-", "-1-2-"),
                     name.replace("-2-2-", "-18446744073709551615-2-"),
                     name.substring(0, 80) + zeros + Segment.SUFFIX)) {
            Files.move(second, path.resolve(bad));
            isDamaged(path, 1, Run.Check.ALL);
            isDamaged(path, 2, Run.Check.LAST);
            Files.move(path.resolve(bad), second);
        }
        Path first = files.get(0);
        String opening = first.getFileName().toString();
        for (String bad : List.of(opening.replace("-0-0-0-", "-1-0-0-"),
                     opening.replace("-0-0-0-", "-0-1-0-"), opening.replace("-0-0-0-", "-0-0-1-"),
                     opening.replace("-" + zeros + "-", "-" + "1".repeat(64) + "-"))) {
            Files.move(first, path.resolve(bad));
            isDamaged(path, 0, Run.Check.LAST);
            Files.move(path.resolve(bad), first);
        }
        Path twice = path.resolve(name.replace("-2-2-", "-2-1-"));
        Files.copy(second, twice);
        isDamaged(path, 1, Run.Check.LAST);
        Files.delete(twice);
        for (String other : List.of("new", "notes.txt")) Files.writeString(path.resolve(other), "{");
        try (Run run = Run.resume(path, Run.Check.LAST)) {
            equal(run.saved(), 5L);
        }
        equal(Files.exists(path.resolve("new")), false);
        Files.delete(files.get(3));
        try (Run run = Run.resume(path)) { // an earlier, legal run
            equal(run.saved(), 4L);
        }
        Files.delete(files.get(1));
        isDamaged(path, 1, Run.Check.LAST);
    }

    /** A text that isn't legal is refused even if its digest is right. */
    private static void illegalSegmentsAreRefused(Path path) throws IOException {
        small(path);
        List<Segment> segments = KeepTests.segments(path);
        Path last = RunTests.files(path).get(3);
        byte[] text = Files.readString(last).replace("fired\":1", "fired\":2")
                .getBytes(StandardCharsets.UTF_8);
        Files.delete(last);
        Segment wrong = Trail.after(segments.get(2), 1, 1, text);
        Files.write(path.resolve(wrong.name()), text);
        for (Run.Check check : Run.Check.values())
            try {
                Run.resume(path, check).close();
                throw new IllegalStateException("a run that isn't legal is resumed");
            } catch (AuditException fault) {
                equal(fault.code(), Code.ILLEGAL);
                equal(fault.part(), 3L);
            }
    }

    /** No run: a folder of a run that was killed as it was made, another one, and a file. */
    private static void otherPathsAreRefused(Path path) throws IOException {
        Files.createDirectory(path);
        Files.createFile(path.resolve("lock"));
        Files.writeString(path.resolve("new"), "{\"agents\":");
        equal(faultOf(() -> Run.resume(path)).getClass(), NoSuchFileException.class);
        Path other = Files.createFile(path.resolve("notes.txt"));
        equal(faultOf(() -> Run.open(opening(), path)).getMessage(),
                path + ": the folder isn't empty");
        Files.delete(other);
        small(path);
        equal(audited(path), new Auditor.Counts(4, 5, 5));
        RunTests.drop(path);
        Files.writeString(path, "{\"agents\":");
        String message = faultOf(() -> Run.resume(path)).getMessage();
        equal(message.endsWith("is imported by: folugben import"), true);
        equal(Files.size(path), 10L);
    }

    /** A process that is killed leaves complete segments. */
    private static void killedRunsAreResumed(Path path) throws Exception {
        Random random = new Random();
        for (int times = Integer.getInteger("folugben.kills", 3); times > 0; times--) {
            Process process = OtherProcess.start("exec ", "play", path);
            while (!Files.exists(path) || RunTests.files(path).isEmpty()) Thread.sleep(1);
            Thread.sleep(random.nextInt(200));
            process.destroyForcibly().waitFor();
            int segments = RunTests.files(path).size();
            try (Run run = Run.resume(path, 20)) {
                equal(run.parts(), (long) segments);
                RunTests.inThreads(run, 3, agent -> work(agent, 50));
            }
            audited(path);
            RunTests.drop(path);
        }
    }

    private static final String PYTHON = """
            import folugben, sys
            path, steps = sys.argv[1], int(sys.argv[2])
            with folugben.Run.resume(path, 3) if steps < 9 else folugben.Run(
                path, init=[[["count"], 0]], moves=3
            ) as run, run.agent(0) as agent:
                for _ in range(steps):
                    agent.play(lambda step: step.push([["inc", ["count"], 1]]))
            print(*folugben.audit(path))
            """;

    private static String python(Path path, int steps) throws IOException {
        ProcessBuilder builder = new ProcessBuilder(
                "python3", "-c", PYTHON, path.toString(), String.valueOf(steps));
        OtherProcess.forPython(builder);
        Process process = builder.redirectError(ProcessBuilder.Redirect.INHERIT).start();
        return new String(process.getInputStream().readAllBytes(), StandardCharsets.UTF_8);
    }

    /** This package resumes runs of the Python package, and Python resumes runs of this one. */
    private static void pythonReadsAndWritesTheSame(Path path) throws IOException {
        if (System.getProperty("folugben.python") == null) {
            System.out.println("left out: runs of Python (no -Dfolugben.python=FOLDER)");
            return;
        }
        equal(python(path, 10), "10 10 5\n");
        try (Run run = Run.resume(path, 4); RunAgent agent = run.agent(1)) {
            equal(run.saved(), 10L);
            for (int i = 0; i < 6; i++) RunTests.count(agent);
        }
        equal(RunTests.counted(path, 16), new Auditor.Counts(7, 16, 16));
        equal(python(path, 4), "20 20 9\n");
        equal(RunTests.counted(path, 20).moves(), 20L);
    }

    static void all() {
        try {
            for (RunTests.OnFile test : List.<RunTests.OnFile>of(ResumeTests::onePathIsOneRun,
                         ResumeTests::runsAreResumed, ResumeTests::changedTextsAreRefused,
                         ResumeTests::changedNamesAreRefused,
                         ResumeTests::illegalSegmentsAreRefused, ResumeTests::otherPathsAreRefused,
                         ResumeTests::killedRunsAreResumed,
                         ResumeTests::pythonReadsAndWritesTheSame))
                RunTests.withFile(test);
        } catch (IOException fault) {
            throw new UncheckedIOException(fault);
        } catch (Exception fault) {
            throw fault instanceof RuntimeException error ? error : new IllegalStateException(fault);
        }
        System.out.println("folders of runs");
    }

    /** Tests of when a run is saved, and of runs in one file, which are imported. */
    static final class SavingTests {
        private SavingTests() {}

        private static void flushesSaveAll(Path path) {
            try (Run run = RunTests.open(path, 100); RunAgent agent = run.agent(0)) {
                run.flush();
                equal(run.parts(), 1L);
                for (int count = 1; count < 4; count++) {
                    RunTests.count(agent);
                    run.flush();
                    run.flush();
                    equal(run.saved(), count);
                    equal(RunTests.counted(path, count).parts(), count + 1);
                }
            }
        }

        private static void timeEndsParts(Path path) throws Exception {
            try (Run run = RunTests.open(path, 100).every(Duration.ofMillis(50));
                    RunAgent agent = run.agent(0)) {
                for (int count = 1; count < 3; count++) {
                    RunTests.count(agent);
                    while (run.saved() < count) Thread.sleep(5);
                }
                Test.Checks.thrown(IllegalArgumentException.class, "a time is above 0, and not PT0S",
                        () -> run.every(Duration.ZERO));
            }
            equal(RunTests.counted(path, 2).parts(), 3L);
        }

        static void all() {
            try {
                for (RunTests.OnFile test : List.<RunTests.OnFile>of(SavingTests::flushesSaveAll,
                             SavingTests::timeEndsParts))
                    RunTests.withFile(test);
            } catch (Exception fault) {
                throw fault instanceof RuntimeException error ? error : new IllegalStateException(fault);
            }
            System.out.println("saving of runs");
        }

        public static void main(String[] words) {
            all();
            TurnTests.all();
        }
    }
}
