package folugben;

import static folugben.Test.Checks.equal;
import static folugben.Test.Checks.outOfRange;
import static folugben.Test.Checks.refused;
import static folugben.Test.Checks.thrown;

import java.io.ByteArrayInputStream;
import java.io.IOException;
import java.io.UncheckedIOException;
import java.nio.charset.StandardCharsets;
import java.nio.file.Files;
import java.nio.file.Path;
import java.util.ArrayList;
import java.util.List;
import java.util.Map;
import java.util.Random;
import java.util.Set;
import java.util.TreeMap;

/** Tests of audits of runs, as their bytes come. */
final class AuditTests {
    private static final Location COUNT = Location.of("count");

    private AuditTests() {}

    /** A run of so many parts, each with a read and so many moves. */
    private static List<String> parts(int parts, int moves) {
        List<String> journals = new ArrayList<>();
        Storage storage = Storage.open(Map.of(COUNT, 0), moves);
        for (int part = 0; part < parts; part++) {
            try (Agent agent = storage.agent(0)) {
                agent.read(List.of(COUNT));
                for (int i = 0; i < moves; i++)
                    agent.fire(List.of(Instruction.inc(COUNT, 1)), List.of());
            }
            journals.add(storage.closeJournal());
            try (Storage closed = storage) {
                storage = closed.next(moves);
            }
        }
        storage.close();
        return journals;
    }

    private static byte[] bytes(String text) {
        return text.getBytes(StandardCharsets.UTF_8);
    }

    static void runsAreAuditedInAnyPieces() {
        byte[] run = bytes(String.join("", parts(3, 4)));
        Auditor.Counts all = new Auditor.Counts(3, 15, 12);
        Random random = new Random(5);
        for (int most : new int[] {1, 7, 1000}) {
            try (Auditor auditor = new Auditor()) {
                equal(auditor.counts(), new Auditor.Counts(0, 0, 0));
                refused(Code.NO_PART, auditor::state);
                for (int at = 0; at < run.length;) {
                    int length = Math.min(1 + random.nextInt(most), run.length - at);
                    auditor.feed(run, at, length);
                    at += length;
                    equal(auditor.taken(), (long) at);
                }
                equal(auditor.counts(), all);
                equal(auditor.end(), all);
                equal(auditor.state(), "[[[\"count\"],12]]");
                equal(auditor.values(), Map.of(COUNT, Element.of(12)));
            }
        }
    }

    static void filesAndStreamsAreRead() throws IOException {
        String run = String.join("", parts(2, 3000));
        Auditor.Counts all = new Auditor.Counts(2, 6002, 6000);
        Path path = Files.createTempFile("run", ".journal");
        try (Auditor auditor = new Auditor(); Auditor other = new Auditor()) {
            Files.writeString(path, run);
            equal(Auditor.audit(path), all);
            equal(auditor.feed(path), all);
            equal(other.feed(new ByteArrayInputStream(bytes(run))), all);
            equal(other.feed(bytes(run), 0, 0), all);
        } finally {
            Files.delete(path);
        }
        try {
            Auditor.audit(path);
        } catch (UncheckedIOException fault) {
            return;
        }
        throw new IllegalStateException("a file that isn't there is audited");
    }

    private static AuditException fault(String run) {
        try (Auditor auditor = new Auditor()) {
            auditor.feed(bytes(run));
            auditor.end();
        } catch (AuditException fault) {
            return fault;
        }
        throw new IllegalStateException("not told as at fault");
    }

    private static void faultIs(String run, Code code, long part, long call, long line, String message) {
        AuditException fault = fault(run);
        equal(fault.code(), code);
        equal(fault.part(), part);
        equal(fault.call(), call);
        equal(fault.line(), line);
        equal(fault.getMessage(), code.text() + message);
    }

    static void faultsReportTheirPlace() {
        List<String> parts = parts(3, 2);
        String first = parts.get(0);
        String second = parts.get(1);
        faultIs("", Code.CUT, 0, -1, 0, " (part 0)");
        faultIs(first + second.substring(0, second.length() - 1), Code.CUT, 1, -1, 0,
                " (part 1)");
        faultIs(first + second.replace("\"fired\":2", "\"fired\":1") + parts.get(2),
                Code.ILLEGAL, 1, 2, 0, " (part 1, call 2)");
        faultIs(first + second.replace("\"reply\":{\"fired\":1}", "\"reply\":{"),
                Code.NOT_JSON, 1, -1, 3, " (part 1, line 3)");
        faultIs(first + "7\n", Code.SHAPE, 1, -1, 1, " (part 1, line 1)");
        faultIs(first + second.replace("\"version\":2", "\"version\":3"),
                Code.VERSION, 1, -1, 0, " (part 1)");
        faultIs(first + parts.get(2), Code.APART, 1, -1, 0, " (part 1)");
        equal(fault(first + parts.get(2)).code(), Code.APART);
        faultIs(first + "x".repeat(16_777_217), Code.NOT_JSON, 1, -1, 1, " (part 1, line 1)");
        equal(new AuditException(Code.LONG_LINE, 1, 0).getMessage(),
                Code.LONG_LINE.text() + ": a line of more than 1,073,741,824 bytes (part 1)");
    }

    /** What comes before a fault is taken; the fault is reported again for what isn't. */
    static void faultsPersist() {
        List<String> parts = parts(2, 2);
        String wrong = parts.get(0) + parts.get(1).replace("\"fired\":2", "\"fired\":1");
        try (Auditor auditor = new Auditor()) {
            refused(Code.ILLEGAL, () -> auditor.feed(bytes(wrong)));
            equal(auditor.counts(), new Auditor.Counts(1, 5, 3));
            equal(auditor.taken(), (long) wrong.length() - 1);
            equal(auditor.values(), Map.of(COUNT, Element.of(3)));
            refused(Code.ILLEGAL, () -> auditor.feed(bytes("\n")));
            refused(Code.CUT, auditor::end);
        }
    }

    static void closedOnesSaySo() {
        Auditor auditor = new Auditor();
        auditor.close();
        auditor.close();
        String message = "the auditor was closed";
        for (Runnable call : List.<Runnable>of(auditor::end, auditor::state,
                     () -> auditor.feed(new byte[0]), () -> auditor.feed(new byte[1])))
            equal(refused(Code.EMPTY, call).getMessage(), message);
        Class<? extends RuntimeException> kind = NullPointerException.class;
        thrown(kind, "bytes", () -> new Auditor().feed((byte[]) null));
        thrown(IndexOutOfBoundsException.class, "Range [1, 1 + 2) out of bounds for length 2",
                () -> new Auditor().feed(new byte[2], 1, 2));
    }

    /** A storage goes on from an agent's own state, and an agent is checked out again. */
    static void agentsContinueAndAreCheckedOut() {
        try (Storage storage = Storage.open(Map.of(COUNT, 0), 2); Agent other = storage.agent(1)) {
            Agent agent = storage.agent(0);
            List<Instruction> up = List.of(Instruction.inc(COUNT, 1));
            agent.fire(up, List.of());
            refused(Code.NOT_FULL, () -> agent.goOn(5));
            agent.give();
            refused(Code.NO_AGENT, () -> storage.take(7));
            refused(Code.NO_AGENT, () -> storage.take(1));
            outOfRange(() -> storage.take(256));
            Agent taken = storage.take(0);
            equal(taken.number(), 0);
            equal(taken.won(), 1);
            equal(taken.answer(), "{\"fired\":1}");
            refused(Code.NO_AGENT, () -> storage.take(0));
            taken.fire(up, List.of());
            refused(Code.NOT_FULL, () -> other.goOn(5));
            other.follow();
            outOfRange(() -> other.goOn(0));
            taken.give();
            equal(refused(Code.EMPTY, () -> taken.goOn(3)).getMessage(),
                    "the agent was returned");
            try (Storage next = other.goOn(3); Agent behind = next.agent(0)) {
                equal(behind.read(List.of(COUNT)).value(COUNT), Element.of(2));
                behind.fire(up, List.of());
                behind.give();
                other.give();
                String run = storage.closeJournal() + next.closeJournal();
                try (Auditor auditor = new Auditor()) {
                    auditor.feed(bytes(run));
                    equal(auditor.end(), new Auditor.Counts(2, 4, 3));
                }
            }
        }
    }

    /** Makes a run of a folder, of so many segments of so many moves after the first. */
    private static void run(Path path, int segments, int moves) {
        try (Run run = RunTests.open(path, moves); RunAgent agent = run.agent(0)) {
            for (int i = 0; i < segments * moves; i++) RunTests.count(agent);
        }
    }

    private static byte[] part(int count, int moves) {
        try (Storage storage = Storage.open(Map.of(COUNT, count), moves + 1)) {
            try (Agent agent = storage.agent(0)) {
                for (int i = 0; i < moves; i++)
                    agent.fire(List.of(Instruction.inc(COUNT, 1)), List.of());
            }
            return bytes(storage.closeJournal());
        }
    }

    /** What is fed before or after a folder is one run with it. */
    private static void foldersAndBytesAreOneRun(Path path) throws IOException {
        run(path, 3, 2);
        long size = 0;
        for (Path file : RunTests.files(path)) size += Files.size(file);
        try (Auditor auditor = new Auditor()) {
            equal(auditor.feed(path), new Auditor.Counts(4, 6, 6));
            equal(auditor.taken(), size);
            equal(auditor.state(), "[[[\"count\"],6]]");
            equal(auditor.feed(new byte[0]), new Auditor.Counts(4, 6, 6));
            byte[] next = part(6, 3);
            equal(auditor.feed(next), new Auditor.Counts(5, 9, 9));
            equal(auditor.taken(), size + next.length);
            equal(auditor.end(), new Auditor.Counts(5, 9, 9));
        }
        try (Auditor auditor = new Auditor()) {
            auditor.feed(part(-2, 2));
            equal(auditor.feed(path), new Auditor.Counts(5, 8, 8));
            equal(auditor.end(), new Auditor.Counts(5, 8, 8));
            equal(auditor.state(), "[[[\"count\"],6]]");
        }
        try (Auditor auditor = new Auditor()) {
            auditor.feed(path);
            AuditException fault = (AuditException) refused(Code.APART, () -> auditor.feed(path));
            equal(fault.part(), 0L);
        }
    }

    static long damagedAt(Runnable call) {
        try {
            call.run();
        } catch (DamagedException fault) {
            return fault.segment();
        }
        throw new IllegalStateException("a folder with a fault is taken");
    }

    /** An audit of a folder with a fault ends with it. */
    private static void faultsOfFoldersStay(Path path) throws IOException {
        run(path, 3, 2);
        Path file = RunTests.files(path).get(2);
        byte[] text = Files.readAllBytes(file);
        text[text.length - 3] ^= 1;
        Files.write(file, text);
        try (Auditor auditor = new Auditor()) {
            for (Runnable call : List.<Runnable>of(() -> auditor.feed(path), auditor::end,
                         () -> auditor.feed(new byte[1]), () -> auditor.feed(path)))
                equal(damagedAt(call), 2L);
            equal(auditor.counts(), new Auditor.Counts(2, 2, 2));
        }
    }

    private static long bytesRead() throws IOException {
        return Files.readAllLines(Path.of("/proc/self/io")).stream()
                .filter(it -> it.startsWith("rchar: "))
                .mapToLong(it -> Long.parseLong(it.substring(7)))
                .sum();
    }

    /** An audit reads each byte of a folder once; to resume may too, and reads no more. */
    private static void foldersAreReadOnce(Path path) throws IOException {
        run(path, 3, 3_000);
        long size = 0;
        for (Path file : RunTests.files(path)) size += Files.size(file);
        Auditor.audit(path);
        Run.resume(path).close();
        for (Runnable call :
                List.<Runnable>of(() -> Auditor.audit(path), () -> Run.resume(path).close())) {
            long before = bytesRead();
            call.run();
            long read = bytesRead() - before;
            equal(size <= read && 2 * read < 3 * size, true);
        }
    }

    static void all() {
        try {
            runsAreAuditedInAnyPieces();
            filesAndStreamsAreRead();
            faultsReportTheirPlace();
            faultsPersist();
            closedOnesSaySo();
            agentsContinueAndAreCheckedOut();
            for (RunTests.OnFile test : List.<RunTests.OnFile>of(
                         AuditTests::foldersAndBytesAreOneRun, AuditTests::faultsOfFoldersStay,
                         AuditTests::foldersAreReadOnce))
                RunTests.withFile(test);
        } catch (Exception fault) {
            throw fault instanceof RuntimeException error ? error : new IllegalStateException(fault);
        }
        System.out.println("audits");
    }

    /** Tests of what journals become. */
    static final class JournalTests {
        private static final Location SET = Location.of("s");
        private static final Location BAG = Location.of("b");
        private static final Location TEXT = Location.of("t", "a;b", 1);
        private static final Map<Location, Object> INIT =
                Map.of(SET, Set.of(1, 2), BAG, Map.of("e", 2, "f", 1));

        private JournalTests() {}

        /** A journal in which each kind of change is, beside a fire that is stale. */
        private static String journal() {
            try (Storage storage = Storage.open(INIT, 10); Agent one = storage.agent(0);
                    Agent two = storage.agent(1)) {
                one.fire(List.of(Instruction.add(SET, 3), Instruction.remove(SET, 1),
                                 Instruction.bagAdd(BAG, "e", 3), Instruction.bagRemove(BAG, "f", 1)),
                        List.of());
                equal(two.tryFire(List.of(), List.of(new Named(SET, 0))).isStale(), true);
                two.fire(List.of(Instruction.put(TEXT, "x;\"y\"")), List.of());
                two.fire(List.of(Instruction.put(SET, null), Instruction.put(BAG, 7)), List.of());
                one.fire(List.of(), List.of());
                one.give();
                two.give();
                return storage.closeJournal();
            }
        }

        private static void statesAreListed() {
            String journal = journal();
            List<Journals.Moment> results = Journals.states(journal).toList();
            equal(results.size(), 5);
            for (int i = 0; i < results.size(); i++) equal(results.get(i).number(), i);
            equal(results.get(0).values(), Map.of(SET, Value.of(INIT.get(SET)), BAG, Value.of(INIT.get(BAG))));
            Map<Location, Value> first = Map.of(SET, Value.of(Set.of(2, 3)), BAG, Value.of(Map.of("e", 5)));
            equal(results.get(1).values(), first);
            Map<Location, Value> second = new TreeMap<>(first);
            second.put(TEXT, Value.of("x;\"y\""));
            equal(results.get(2).values(), second);
            equal(results.get(4).values(), Storage.replayed(journal));
            equal(results.get(3).values(), results.get(4).values());
            refused(Code.NOT_JSON, () -> Journals.states("{\n"));
        }

        private static void aTableIsWritten() {
            StringBuilder table = new StringBuilder();
            Journals.writeCsv(journal(), table);
            equal(table.toString(), """
                    move,agent,function,arguments,old,new
                    0,,b,[],null,"{""bag"":[[""e"",2],[""f"",1]]}"
                    0,,s,[],null,"{""set"":[1,2]}"
                    1,0,b,[],,"{""counts"":[[""e"",2,5],[""f"",1,0]]}"
                    1,0,s,[],,"{""added"":[3],""removed"":[1]}"
                    2,1,t,"[""a\\u003bb"",1]",null,"\""x\\u003b\\""y\\""\""\"
                    3,1,b,[],"{""bag"":[[""e"",5]]}",7
                    3,1,s,[],"{""set"":[2,3]}",null
                    """);
        }

        static void all() {
            statesAreListed();
            aTableIsWritten();
            System.out.println("journals");
        }

        public static void main(String[] words) {
            all();
        }
    }
}
