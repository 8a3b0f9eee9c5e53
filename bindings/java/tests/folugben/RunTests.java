package folugben;

import static folugben.Test.Checks.equal;
import static folugben.Test.Checks.refused;

import java.io.IOException;
import java.io.UncheckedIOException;
import java.nio.file.Files;
import java.nio.file.Path;
import java.util.ArrayList;
import java.util.Collections;
import java.util.Comparator;
import java.util.HashSet;
import java.util.List;
import java.util.Map;
import java.util.Set;
import java.util.concurrent.CountDownLatch;
import java.util.concurrent.atomic.AtomicReference;
import java.util.stream.Stream;

/** Tests of endless runs: agents that go on from part to part. */
final class RunTests {
    private static final Location COUNT = Location.of("count");
    /** Whether the runs record; the reads that they record aren't counted. */
    private static boolean isRecording;

    private RunTests() {}

    /** Uses the path of a run, whose folder doesn't exist yet. */
    interface OnFile {
        void use(Path path) throws Exception;
    }

    static void withFile(OnFile test) throws Exception {
        Path folder = Files.createTempDirectory("run").toRealPath();
        try {
            test.use(folder.resolve("count.run"));
        } finally {
            drop(folder);
        }
    }

    /** Removes a folder with all that is in it, or a file. */
    static void drop(Path path) throws IOException {
        if (!Files.exists(path))
            return;
        try (Stream<Path> all = Files.walk(path)) {
            for (Path left : all.sorted(Comparator.reverseOrder()).toList()) Files.delete(left);
        }
    }

    /** The files of a run's segments, in order. */
    static List<Path> files(Path run) throws IOException {
        try (Stream<Path> all = Files.list(run)) {
            return all.filter(it -> it.toString().endsWith(".journal")).sorted().toList();
        }
    }

    /** The texts of all segments, one behind the other. */
    private static String text(Path run) throws IOException {
        StringBuilder text = new StringBuilder();
        for (Path file : files(run)) text.append(Files.readString(file));
        return text.toString();
    }

    static Run open(Path path, int moves) {
        return Run.open(Map.of(COUNT, 0), path, moves).record(isRecording);
    }

    /** The same with so many receipts of fires. */
    private static Run open(Path path, int moves, long receipts) {
        return Run.open(Map.of(COUNT, 0), path, moves, isRecording ? 2 * receipts : receipts)
                .record(isRecording);
    }

    static Instruction up() {
        return Instruction.inc(COUNT, 1);
    }

    static RunAgent.Played<Long> count(RunAgent agent) {
        return agent.play(step -> {
            long there = step.get(COUNT).asLong();
            step.push(Instruction.put(COUNT, there + 1));
            return there;
        });
    }

    /** The numbers of the run in the file, which leaves the state. */
    static Auditor.Counts audited(Path path, Map<Location, Value> state) {
        try (Auditor auditor = new Auditor()) {
            auditor.feed(path);
            equal(auditor.values(), state);
            return unrecorded(path, auditor.end());
        }
    }

    /** The numbers of a run without the reads that were recorded. */
    private static Auditor.Counts unrecorded(Path path, Auditor.Counts counts) {
        try {
            long reads = text(path).lines().filter(it -> it.contains("\"call\":{\"read\":")).count();
            equal(reads > 0, isRecording && counts.moves() > 0);
            return new Auditor.Counts(
                    counts.parts(), counts.calls() - reads, counts.moves(), counts.before());
        } catch (IOException fault) {
            throw new UncheckedIOException(fault);
        }
    }

    static Auditor.Counts counted(Path path, long count) {
        return audited(path, Map.of(COUNT, Element.of(count)));
    }

    private static void agentsContinue(Path path) throws Exception {
        try (Run run = open(path, 3); RunAgent agent = run.agent(0)) {
            for (int i = 0; i < 10; i++) {
                equal(count(agent), new RunAgent.Played<>(i + 1, (long) i, 0));
                equal(agent.won(), i + 1L);
            }
            equal(agent.follow(), 10L);
            equal(agent.peek(List.of(COUNT)),
                    new Reading(10, List.of(COUNT), List.of(Element.of(10))));
            equal(agent.seen(), 10L);
            equal(agent.state().number(), 10L);
            equal(agent.state().values(), Map.of(COUNT, Element.of(10)));
            equal(agent.scan("count").values(), Map.of(COUNT, Element.of(10)));
            equal(agent.scan("other").values(), Map.of());
            while (run.parts() < 4) Thread.sleep(1);
            equal(run.saved(), 9L);
            equal(run.path(), path);
        }
        equal(counted(path, 10), new Auditor.Counts(5, 10, 10));
    }

    /** A run that ends with a full part, and one of nothing at all. */
    private static void lastPartsAreNotEmpty(Path path) throws IOException {
        try (Run run = open(path, 3); RunAgent agent = run.agent(0)) {
            for (int i = 0; i < 6; i++) count(agent);
            agent.step().close();
        }
        equal(counted(path, 6), new Auditor.Counts(3, 6, 6));
        drop(path);
        open(path, 3).close();
        equal(counted(path, 0), new Auditor.Counts(1, 0, 0));
    }

    interface Work {
        void play(RunAgent agent);
    }

    static void inThreads(Run run, int agents, Work work) throws Exception {
        AtomicReference<Throwable> fault = new AtomicReference<>();
        List<Thread> threads = new ArrayList<>();
        for (int i = 0; i < agents; i++) {
            int number = i;
            threads.add(new Thread(() -> {
                try (RunAgent agent = run.agent(number)) {
                    work.play(agent);
                } catch (Throwable thrown) {
                    fault.set(thrown);
                }
            }));
        }
        threads.forEach(Thread::start);
        for (Thread thread : threads) thread.join();
        if (fault.get() != null)
            throw new IllegalStateException(fault.get());
    }

    private static void threadsContinueAcrossParts(Path path) throws Exception {
        try (Run run = open(path, 64, 1_000_000)) {
            inThreads(run, 8, agent -> {
                for (int i = 0; i < 500; i++) count(agent);
            });
        }
        Auditor.Counts counts = counted(path, 4000);
        equal(counts.moves(), 4000L);
        equal(counts.parts(), 64L);
    }

    /** An agent that does nothing holds up no part, and then finds all that was done. */
    private static void idleAgentsAreReturned(Path path) throws Exception {
        try (Run run = open(path, 2); RunAgent idle = run.agent(0); RunAgent agent = run.agent(1)) {
            count(idle);
            try (Step step = idle.step()) {
                equal(step.get(COUNT), Element.of(1));
            }
            for (int i = 0; i < 40; i++) count(agent);
            while (run.parts() < 21) Thread.sleep(1);
            equal(count(idle).result(), 41L);
            equal(idle.won(), 2L);
        }
        equal(counted(path, 42), new Auditor.Counts(22, 42, 42));
    }

    private static void isFull(Agent.Reply reply) {
        equal(reply.code(), Code.FULL);
        equal(reply.isOfRun() && reply.shouldRetry(), true);
        equal(refused(Code.FULL, reply::orThrow) instanceof PastException, true);
    }

    /** A step in a part that is full finds that out as it is fired, and in a while in any case. */
    private static void stepsInFullPartsEnd(Path path) throws Exception {
        try (Run run = open(path, 3); RunAgent slow = run.agent(0); RunAgent agent = run.agent(1)) {
            count(slow);
            try (Step step = slow.step()) {
                for (int i = 0; i < 3; i++) count(agent);
                equal(run.parts(), 1L);
                step.push(up());
                isFull(step.tryCommit());
            }
            equal(count(slow), new RunAgent.Played<>(5, 4L, 0));
            try (Step step = slow.step()) {
                step.push(up());
                for (int i = 0; i < 12; i++) count(agent);
                while (run.parts() < 5) Thread.sleep(1);
                for (Runnable call : List.<Runnable>of(() -> step.get(COUNT),
                             () -> step.push(up()), () -> step.scan("count"), step::commit))
                    equal(refused(Code.FULL, call) instanceof PastException, true);
                isFull(step.tryCommit());
            }
            int[] tries = new int[1];
            equal(slow.play(step -> {
                if (tries[0]++ < 2)
                    for (long parts = run.parts(); run.parts() < parts + 2;) count(agent);
                step.push(up());
                return step.get(COUNT).asLong();
            }).result() > 20, true);
            equal(tries[0], 3);
            PastException own = PastException.full();
            equal(refused(Code.FULL, () -> slow.play(step -> {
                throw own;
            })) == own, true);
        }
        Auditor.Counts counts = unrecorded(path, Auditor.audit(path));
        equal(counts.calls(), counts.moves() + 1);
    }

    /** No step and no number is valid in another part than its own. */
    private static void stepsAndNumbersStayInTheirPart(Path path) {
        try (Run run = open(path, 2); RunAgent slow = run.agent(0); RunAgent agent = run.agent(1)) {
            List<Named> first = slow.peek(List.of(COUNT)).named();
            equal(slow.fire(List.of(Instruction.put(COUNT, 1)), first), 1L);
            refused(Code.STALE,
                    () -> slow.fire(List.of(Instruction.put(COUNT, 9)), first));
            List<Named> old = slow.peek(List.of(COUNT)).named();
            equal(old, List.of(new Named(COUNT, 1)));
            refused(Code.AHEAD,
                    () -> slow.fire(List.of(up()), List.of(new Named(COUNT, 2))));
            try (Step step = slow.step()) {
                step.push(up());
                count(agent);
                count(agent);
                FolugbenException error = refused(Code.FULL, step::commit);
                equal(error instanceof PastException && error instanceof ConflictException, true);
                try (Step next = slow.step()) {
                    equal(next.number(), 3L);
                    equal(next.get(COUNT), Element.of(3));
                    refused(Code.FULL, () -> step.get(COUNT));
                    refused(Code.FULL, step::commit);
                }
            }
            FolugbenException error = refused(Code.FULL,
                    () -> slow.fire(List.of(Instruction.put(COUNT, 9)), old));
            equal(error instanceof PastException, true);
            equal(error.getMessage().endsWith(
                          "count is named at 1, and that part has ended at 2, so read again"),
                    true);
            equal(slow.fire(List.of(up()), List.of()), 4L);
            equal(slow.fire(List.of(up()), List.of()), 5L);
            List<Named> now = slow.peek(List.of(COUNT)).named();
            equal(slow.fire(List.of(Instruction.put(COUNT, 9)), now), 6L);
        }
    }

    /** Stale tries end a part before it is full, once no agent is in a step. */
    private static void partsEndAtRest(Path path) throws Exception {
        boolean isFired;
        try (Run run = open(path, 1000, 6); RunAgent agent = run.agent(0);
                RunAgent rival = run.agent(1); RunAgent idle = run.agent(2)) {
            count(idle);
            for (int i = 0; i < 3; i++)
                try (Step step = agent.step()) {
                    step.get(COUNT);
                    count(rival);
                    step.push(Instruction.put(COUNT, 0));
                    equal(step.tryCommit().code(), Code.STALE);
                }
            Step open = rival.step();
            CountDownLatch isDone = new CountDownLatch(1);
            Thread thread = new Thread(() -> {
                equal(count(agent).result(), 4L);
                isDone.countDown();
            });
            thread.start();
            isFired = firesInTime(open);
            isDone.await();
            equal(run.parts() <= 2, true);
            count(idle);
        }
        equal(counted(path, 6), new Auditor.Counts(3, isFired ? 10 : 9, isFired ? 7 : 6));
    }

    /** Whether a step fires in a part that ends at rest: it does, unless it is a tenth of a second late. */
    private static boolean firesInTime(Step open) throws Exception {
        try {
            Thread.sleep(30);
            equal(open.get(COUNT), Element.of(4));
            open.push(Instruction.put(COUNT, 4));
            return open.tryCommit().code() == Code.DONE;
        } catch (PastException late) {
            return false;
        } finally {
            open.close();
        }
    }

    /** A run waits a tenth of a second for one who stays in a step, who then begins again. */
    private static void longStepsAreEnded(Path path) throws Exception {
        try (Run run = open(path, 1000, 3); RunAgent agent = run.agent(0);
                RunAgent lasting = run.agent(1)) {
            Step step = lasting.step();
            step.push(up());
            for (int i = 0; i < 3; i++) count(agent);
            equal(agent.fire(List.of(up()), List.of()), 4L);
            equal(count(agent), new RunAgent.Played<>(5, 4L, 0));
            equal(refused(Code.FULL, () -> step.get(COUNT)) instanceof PastException,
                    true);
            isFull(step.tryCommit());
            step.close();
            equal(count(lasting).result(), 5L);
        }
        equal(counted(path, 6).moves(), 6L);
    }

    private static void contendersEndPartsAtRest(Path path) throws Exception {
        try (Run run = open(path, 500, 300)) {
            inThreads(run, 8, agent -> {
                for (int i = 0; i < 250; i++) count(agent);
            });
        }
        Auditor.Counts counts = counted(path, 2000);
        equal(counts.moves(), 2000L);
        equal(counts.parts() >= 7, true);
    }

    private static String byTurns(Path path, long seed) throws IOException {
        drop(path);
        try (Run run = open(path, 7, 9)) {
            List<RunAgent> agents = List.of(run.agent(0), run.agent(1), run.agent(2));
            Interleave.Work<RunAgent, Object> work = agent -> {
                for (int i = 0; i < 10; i++) count(agent);
                return null;
            };
            Interleave.play(agents, Collections.nCopies(3, work), seed);
        }
        return text(path);
    }

    private static void runsGoByTurns(Path path) throws IOException {
        Set<String> files = new HashSet<>();
        for (int seed = 0; seed < 10; seed++) {
            String file = byTurns(path, seed);
            equal(counted(path, 30).moves(), 30L);
            equal(byTurns(path, seed), file);
            files.add(file);
        }
        equal(files.size() > 7, true);
    }

    static void all() {
        for (boolean it : new boolean[] {true, false}) {
            isRecording = it;
            allOnce();
            System.out.println(it ? "runs that record" : "runs");
        }
    }

    private static void allOnce() {
        try {
            for (OnFile test : List.<OnFile>of(RunTests::agentsContinue, RunTests::lastPartsAreNotEmpty,
                         RunTests::threadsContinueAcrossParts, RunTests::idleAgentsAreReturned,
                         RunTests::stepsInFullPartsEnd, RunTests::stepsAndNumbersStayInTheirPart,
                         RunTests::partsEndAtRest, RunTests::contendersEndPartsAtRest,
                         RunTests::longStepsAreEnded, RunTests::runsGoByTurns))
                withFile(test);
        } catch (IOException fault) {
            throw new UncheckedIOException(fault);
        } catch (Exception fault) {
            throw fault instanceof RuntimeException error ? error : new IllegalStateException(fault);
        }
    }
}
