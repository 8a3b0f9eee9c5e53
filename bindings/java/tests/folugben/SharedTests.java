package folugben;

import static folugben.Test.Checks.equal;
import static folugben.Test.Checks.refused;

import java.io.ByteArrayOutputStream;
import java.io.IOException;
import java.io.UncheckedIOException;
import java.net.ConnectException;
import java.nio.file.AccessDeniedException;
import java.nio.file.Files;
import java.nio.file.NoSuchFileException;
import java.nio.file.Path;
import java.sql.Connection;
import java.sql.DriverManager;
import java.sql.SQLException;
import java.sql.Statement;
import java.util.ArrayList;
import java.util.List;
import java.util.Map;
import java.util.concurrent.Callable;

/** Tests of shared runs, over SQLite, and over PostgreSQL if that is installed. */
final class SharedTests {
    static final Location COUNT = Location.of("count");
    private static final Map<Location, Long> INIT = Map.of(COUNT, 0L);

    private static final List<OnTarget> ALL = List.of(SharedTests::agentsInThreads,
            SharedTests::replicasHaveEqualStates, SharedTests::firesDependOnReadsAndScans,
            SharedTests::stepsOfEndedSegments, SharedTests::numbersOfAgents,
            SharedTests::openingsMustFitTheRun, SharedTests::exampleOfThePage);

    private SharedTests() {}

    /** A test of a run that doesn't exist yet. */
    interface OnTarget {
        void use(String target) throws Exception;
    }

    static Actor.Played<Long> raise(Actor agent) {
        return agent.play(step -> {
            long there = step.get(COUNT).asLong();
            step.push(Instruction.put(COUNT, there + 1));
            return there;
        });
    }

    /** What the call throws, or its cause if it can't be compared by itself. */
    static Throwable faultOf(Callable<?> call) throws Exception {
        try {
            call.call();
        } catch (UncheckedIOException fault) {
            return fault.getCause();
        } catch (RuntimeException fault) {
            return fault;
        }
        throw new IllegalStateException("nothing was thrown");
    }

    static byte[] saved(String target) {
        ByteArrayOutputStream all = new ByteArrayOutputStream();
        SharedRun.save(target, all);
        return all.toByteArray();
    }

    /** The run is legal, also as one file, and has so many moves. */
    static void isRun(String target, long moves) {
        Auditor.Counts counts = SharedRun.audit(target);
        equal(counts.moves(), moves);
        try (Auditor auditor = new Auditor()) {
            auditor.feed(saved(target));
            equal(auditor.end(), counts);
            equal(auditor.values().get(COUNT), Element.of(moves));
        }
    }

    private static void agentsInThreads(String target) throws Exception {
        List<Long> results = new ArrayList<>();
        try (SharedRun run = SharedRun.open(INIT, target, 25)) {
            List<Thread> threads = new ArrayList<>();
            for (int at = 0; at < 4; at++) {
                int own = at;
                threads.add(new Thread(() -> {
                    try (SharedAgent agent = run.agent(own)) {
                        for (int i = 0; i < 10; i++) {
                            long move = raise(agent).move();
                            synchronized (results) {
                                results.add(move);
                            }
                        }
                        equal(agent.won(), 10L);
                        equal(agent.number(), own);
                    }
                }));
            }
            threads.forEach(Thread::start);
            for (Thread thread : threads) thread.join();
            equal(run.state(), new Actor.State(40, "[[[\"count\"],40]]"));
        }
        results.sort(null);
        for (int i = 0; i < 40; i++) equal(results.get(i), i + 1);
        isRun(target, 40);
    }

    private static void exampleOfThePage(String target) {
        try (SharedRun run = SharedRun.open(Map.of(Location.of("balance"), 0), target);
                SharedAgent anna = run.agent(0)) {
            anna.play(step -> {
                step.push(Instruction.inc(Location.of("balance"), 10));
                return null;
            });
        }
        System.out.println(SharedRun.audit(target));
    }

    private static void replicasHaveEqualStates(String target) {
        try (SharedRun one = SharedRun.open(INIT, target, 4); SharedRun other = SharedRun.join(target)) {
            try (SharedAgent anna = one.agent(0); SharedAgent ben = other.agent(1);
                    PreparedLocation at = COUNT.prepare()) {
                for (long number = 1; number < 10; number += 2) {
                    equal(raise(anna).move(), number);
                    equal(ben.follow(), number);
                    equal(ben.peek(at), new Actor.Peeked(number, Element.of(number)));
                    equal(ben.peek(List.of(COUNT)).number(), number);
                    equal(raise(ben).move(), number + 1);
                    equal(anna.follow(), number + 1);
                    equal(anna.seen(), number + 1);
                    equal(anna.state(), anna.scan("count"));
                }
            }
            try (SharedRun late = SharedRun.join(target)) {
                equal(late.state(), one.state());
                equal(late.state(), other.state());
            }
        }
        isRun(target, 10);
        long own = new String(saved(target)).lines().filter(it -> it.startsWith("{\"agent\":1,")).count();
        equal(own, 5L);
    }

    private static void firesDependOnReadsAndScans(String target) {
        Location task = Location.of("task", 1);
        try (SharedRun run = SharedRun.open(INIT, target, 100); SharedAgent agent = run.agent(0);
                SharedAgent rival = run.agent(1)) {
            try (Step step = agent.step()) {
                equal(step.get(COUNT), Element.of(0));
                step.push(Instruction.put(COUNT, 9));
                equal(step.offer().reads(), List.of(new Named(COUNT, 0)));
                raise(rival);
                Actor.Reply reply = step.tryCommit();
                equal(reply.isStale() && reply.shouldRetry(), true);
                equal(reply.at(), COUNT);
                refused(Code.STALE, step::commit);
            }
            try (Step step = agent.step()) {
                equal(step.scan("task").values().size(), 0);
                step.push(Instruction.put(COUNT, 9));
                rival.play(own -> {
                    own.push(Instruction.put(task, true));
                    return null;
                });
                refused(Code.STALE, step::commit);
            }
            try (Step one = agent.step(); Step two = rival.step()) {
                one.push(Instruction.inc(COUNT, 2));
                two.push(Instruction.inc(COUNT, 3));
                equal(one.commit(), 3L);
                equal(two.commit(), 4L);
                refused(Code.EMPTY, () -> one.get(COUNT));
            }
            equal(run.state().values().get(COUNT), Element.of(6));
        }
    }

    private static void stepsOfEndedSegments(String target) {
        try (SharedRun run = SharedRun.open(INIT, target, 3); SharedAgent slow = run.agent(0);
                SharedAgent quick = run.agent(1)) {
            try (Step step = slow.step()) {
                step.push(Instruction.inc(COUNT, 1));
                for (int i = 0; i < 4; i++) raise(quick);
                equal(step.get(COUNT), Element.of(1));
                equal(step.number(), 0L);
                equal(step.tryCommit().code(), Code.FULL);
                equal(refused(Code.FULL, step::commit) instanceof PastException, true);
            }
            equal(raise(slow), new Actor.Played<>(5, 4L, 0));
            equal(slow.seen(), 5L);
            for (int i = 6; i < 20; i++)
                try (Step step = slow.step()) { // stale calls end a segment too
                    step.get(COUNT);
                    step.push(Instruction.put(COUNT, 0));
                    raise(quick);
                    equal(step.tryCommit().isFired(), false);
                }
        }
        isRun(target, 19);
    }

    private static void numbersOfAgents(String target) {
        SharedRun ended;
        try (SharedRun run = SharedRun.open(INIT, target); SharedRun other = SharedRun.join(target)) {
            ended = run;
            SharedAgent agent = run.agent(3);
            equal(refused(Code.NUMBER, () -> run.agent(3)).getMessage()
                            .endsWith("agent 3"), true);
            equal(refused(Code.NUMBER, () -> other.agent(3)).getMessage()
                            .endsWith("agent 3 is in use by another process"), true);
            agent.close();
            agent.close();
            refused(Code.EMPTY, agent::step);
            try (SharedAgent again = other.agent(3)) {
                equal(raise(again).move(), 1L);
            }
            for (int i = 0; i < 300; i++)
                try (SharedAgent again = run.agent(3)) {
                    again.peek(List.of(COUNT));
                }
        }
        refused(Code.EMPTY, () -> ended.agent(3));
    }

    private static void openingsMustFitTheRun(String target) throws Exception {
        equal(faultOf(() -> SharedRun.join(target)).getClass(), NoSuchFileException.class);
        SharedRun.open(INIT, target, 7).close();
        SharedRun.open(INIT, target, 100).close();
        equal(faultOf(() -> SharedRun.open(SharedBank.opening(), target)).getClass(),
                MismatchException.class);
        alter(target, "update run set format = 9");
        for (Callable<?> call : List.<Callable<?>>of(() -> SharedRun.join(target), () -> SharedRun.audit(target)))
            equal(faultOf(call).getMessage().startsWith("the tables are of version 9"), true);
        alter(target, "update run set format = 1");
        try (SharedRun run = SharedRun.join(target); SharedAgent agent = run.agent(0)) {
            for (int i = 0; i < 10; i++) raise(agent);
        }
        equal(SharedRun.audit(target).parts(), 3L);
        alter(target, "update segment set digest = replace(digest, substr(digest, 1, 4), '0000')"
                        + " where number = 1");
        equal(((DamagedException) faultOf(() -> SharedRun.audit(target))).segment(), 1L);
    }

    /** Changes the tables from outside. */
    private static void alter(String target, String sql) throws SQLException {
        boolean isServer = Database.isServer(target);
        String url = isServer ? ServerName.of(target).url() : "jdbc:sqlite:" + target;
        try (Connection own = isServer ? DriverManager.getConnection(url, "folugben", "")
                                       : DriverManager.getConnection(url);
                Statement all = own.createStatement()) {
            if (isServer)
                all.execute("set search_path = \"" + ServerName.of(target).schema() + "\"");
            all.execute(sql);
        }
    }

    private static void filesThatAreNoRun(Path room) throws Exception {
        String other = room.resolve("other.db").toString();
        alter(other, "create table t(x)");
        Path text = Files.writeString(room.resolve("text"), "no database at all".repeat(100));
        for (String path : List.of(other, text.toString())) {
            equal(faultOf(() -> SharedRun.join(path)).getClass(), DamagedException.class);
            equal(faultOf(() -> SharedRun.open(INIT, path)).getClass(), DamagedException.class);
        }
        equal(Files.size(text), 1800L);
        for (Path path : List.of(room.resolve("absent/x.db"), room))
            equal(faultOf(() -> SharedRun.open(INIT, path.toString())) instanceof IOException, true);
        String missing = room.resolve("gone.db").toString();
        SharedRun run = SharedRun.open(INIT, missing);
        SharedAgent agent = run.agent(0);
        raise(agent);
        Files.delete(Path.of(missing));
        equal(faultOf(() -> raise(agent)).getClass(), BrokenException.class);
        equal(faultOf(() -> {
            run.close();
            return null;
        }).getClass(), BrokenException.class);
        agent.close();
    }

    private static void serversThatDoNotAnswer(Server server) throws Exception {
        equal(faultOf(() -> SharedRun.open(INIT, "postgresql://127.0.0.1:1/x")).getClass(),
                ConnectException.class);
        equal(faultOf(() -> SharedRun.open(INIT, "postgresql://a@/x?host=/tmp")).getClass(),
                IllegalArgumentException.class);
        String target = server.target("of reading");
        SharedRun.open(INIT, target).close();
        alter(target, "alter role folugben set default_transaction_read_only = on");
        Throwable error = faultOf(() -> SharedRun.join(target));
        equal(error.getClass(), AccessDeniedException.class);
        equal(error.getMessage().contains("read-only"), true);
    }

    /** Processes, one of them of Python if that is there, work on one run, and two are killed. */
    private static void processesThatAreKilled(String target) throws Exception {
        SharedKills.run(target, null, 2, 3, 2, 5);
    }

    static void onSqlite() throws Exception {
        Path room = Files.createTempDirectory("shared").toRealPath();
        try {
            for (int at = 0; at < ALL.size(); at++) ALL.get(at).use(room + "/run" + at + ".db");
            filesThatAreNoRun(room);
            processesThatAreKilled(room + "/killed.db");
        } finally {
            RunTests.drop(room);
        }
    }

    static void onServer() throws Exception {
        try (Server server = new Server()) {
            for (int at = 0; at < ALL.size(); at++) ALL.get(at).use(server.target("run " + at));
            StrangersTests.onServer(server);
            serversThatDoNotAnswer(server);
        }
    }

    static void all() {
        try {
            if (isAvailable("org.sqlite.JDBC"))
                onSqlite();
            if (Server.isAvailable())
                onServer();
            System.out.println("shared runs" + (isAvailable("org.sqlite.JDBC") ? ", SQLite" : "")
                    + (Server.isAvailable() ? ", PostgreSQL" : ""));
        } catch (Exception fault) {
            throw fault instanceof RuntimeException error ? error : new IllegalStateException(fault);
        }
    }

    static boolean isAvailable(String driver) {
        try {
            Class.forName(driver);
            return true;
        } catch (ClassNotFoundException none) {
            return false;
        }
    }

    public static void main(String[] words) {
        all();
    }
}
