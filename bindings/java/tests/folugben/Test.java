package folugben;

import static folugben.Test.Checks.equal;
import static folugben.Test.Checks.refused;
import static folugben.Test.Checks.refusedAt;

import com.sun.jna.NativeLibrary;
import com.sun.jna.Platform;

import java.io.IOException;
import java.io.InputStream;
import java.nio.file.Files;
import java.nio.file.Path;
import java.util.List;

/** Tests of the Java classes: each prints its name, and the first that fails ends the program. */
public final class Test {
    private Test() {}

    static void codes() {
        try (Storage storage = new Storage("[]", 8); Storage other = new Storage("[]", 8);
                Agent agent = storage.agent(0); Agent stranger = other.agent(1)) {
            refused(Code.OTHER, () -> storage.give(stranger));
            refused(Code.OTHER, () -> agent.learn(stranger));
            refused(Code.EMPTY, () -> agent.learn(agent));
            agent.tryFire("[]", "[]");
            agent.give();
            String journal = storage.closeJournal();
            refusedAt(Code.ILLEGAL, 0, " (call 0)",
                    () -> Storage.check(journal.replace("\"fired\":1", "\"fired\":2")));
            refusedAt(Code.NOT_JSON, 1, " (line 1)", () -> Storage.trace("{\n"));
            List<String> trace = Storage.trace(journal.replace("\"fired\":1", "\"fired\":2"));
            equal(trace.size(), 2);
            equal(trace.get(0).endsWith("\"trace\":1}"), true);
            String message = "\"right\":{\"fired\":1},\"updates\":[";
            equal(trace.get(1).contains(message), true);
        }
    }

    /** The moves of an agent that is abandoned are missing, seen or not. */
    static void abandonedAgents() {
        try (Storage storage = new Storage("[]", 8); Agent reader = storage.agent(1)) {
            equal(storage.moves(), 0);
            try (Agent lost = storage.agent(0)) {
                lost.fire("[]", "[]");
                lost.abandon();
            }
            equal(storage.moves(), 1);
            refusedAt(Code.MISSING, 1, ": an agent was abandoned (move 1)", storage::closeJournal);
            reader.read("[]");
            reader.give();
            refusedAt(Code.MISSING, 1, ": an agent was abandoned (move 1)", storage::closeJournal);
        }
    }

    static void versions() {
        Calls.expectVersion(Storage.version());
        try {
            Calls.expectVersion(Calls.WRITTEN_FOR + 1);
        } catch (UnsatisfiedLinkError error) {
            equal(error.getMessage(),
                    "libfolugben has version 2001, and these classes were written for 2000");
            return;
        }
        throw new IllegalStateException("a library of another version is taken");
    }

    static void nulls() {
        try (Storage storage = new Storage("[]", 8); Agent agent = storage.agent(0); Step step = agent.step()) {
            Checks.nulls("init", () -> new Storage(null, 8));
            Checks.nulls("locations", () -> agent.read((String) null), () -> agent.peek((String) null),
                    () -> step.get((String) null));
            Checks.nulls("instructions", () -> agent.tryFire(null, "[]"));
            Checks.nulls("reads", () -> agent.tryFire("[]", null), () -> agent.stands((String) null));
            Checks.nulls("other", () -> agent.learn(null));
            Checks.nulls("agent", () -> storage.give(null));
            Checks.nulls("journal", () -> Storage.check(null), () -> Storage.replay(null));
            Checks.nulls("name", () -> agent.scan(null), () -> step.scan(null));
            Checks.nulls("state", () -> Moves.aggregate(null, "[]"));
            Checks.nulls("move", () -> Moves.aggregate("[]", null), () -> step.push((String) null),
                    () -> step.extend((String) null));
            Checks.nulls("first", () -> Moves.compose(null, "[]"));
            Checks.nulls("second", () -> Moves.compose("[]", null));
        }
    }

    /** A text is written once if there is room for it, and else twice. */
    static void rooms() {
        for (int room : new int[] {0, 2, 3, 4}) {
            int[] calls = new int[1];
            equal(Calls.text((out, length, written) -> {
                calls[0]++;
                written[0] = 3;
                return length < 3 ? Code.SMALL.number() : Code.DONE.number();
            }, room), "\0\0\0");
            equal(calls[0], room < 3 ? 2 : 1);
        }
    }

    /** Whoever holds the monitor of an agent or a storage hinders no other thread's calls. */
    static void monitors() throws InterruptedException {
        try (Storage storage = new Storage("[]", 8); Agent agent = storage.agent(0);
                Agent other = storage.agent(1)) {
            Thread thread = new Thread(() -> {
                agent.read("[]");
                other.learn(agent);
                try (Step step = agent.step()) {
                    step.push("[]");
                    step.tryCommit();
                }
                agent.give();
                other.give();
                storage.closeJournal();
                storage.next(1).close();
            });
            thread.setDaemon(true);
            synchronized (Agent.class) {
                synchronized (storage) {
                    synchronized (agent) {
                        thread.start();
                        thread.join(60_000);
                    }
                }
            }
            equal(thread.isAlive(), false);
        }
    }

    /** Whether calls bypass JNA, if a wanted answer is passed. */
    static void quick() {
        String wanted = System.getProperty("folugben.quick");
        if (wanted != null)
            equal(Calls.Quick.isAvailable(), Boolean.valueOf(wanted));
    }

    static void libraryNames() {
        String key = "folugben.library";
        String was = System.getProperty(key);
        System.setProperty(key, "");
        equal(Calls.libraryName(), "folugben");
        System.setProperty(key, "/a/b.so");
        equal(Calls.libraryName(), "/a/b.so");
        System.clearProperty(key);
        equal(Calls.libraryName(), "folugben");
        if (was != null)
            System.setProperty(key, was);
    }

    public static void main(String[] arguments) throws InterruptedException {
        codes();
        System.out.println("codes");
        abandonedAgents();
        System.out.println("closed agents");
        versions();
        System.out.println("versions");
        nulls();
        System.out.println("nulls");
        rooms();
        System.out.println("rooms");
        monitors();
        System.out.println("monitors");
        quick();
        System.out.println("quick");
        libraryNames();
        System.out.println("library names");
        TextTests.all();
        ValueTests.all();
        ObjectTests.all();
        StepTests.all();
        ValueTests.KindTests.all();
        PlainTests.all();
        ScopeTests.all();
        ScopeTests.RecordTests.all();
        MisuseTests.all();
        AuditTests.all();
        StrangersTests.all();
        TurnTests.all();
        TakeTests.all();
        ConformanceTests.all();
        AuditTests.JournalTests.all();
        ItfTests.all();
        ExploreTests.all();
        RunTests.all();
        RunEndTests.all();
        ResumeTests.all();
        ResumeTests.SavingTests.all();
        KeepTests.all();
        SharedTests.all();
    }

    /** What the tests have in common. */
    static final class Checks {
        private Checks() {}

        static void equal(Object actual, Object wanted) {
            boolean areNumbers = actual instanceof Number && wanted instanceof Number;
            if (areNumbers ? ((Number) actual).longValue() != ((Number) wanted).longValue()
                           : !actual.equals(wanted))
                throw new IllegalStateException("found " + actual + ", wanted " + wanted);
        }

        static FolugbenException refused(Code code, Runnable call) {
            try {
                call.run();
            } catch (FolugbenException error) {
                equal(error.code(), code);
                return error;
            }
            throw new IllegalStateException("not refused: code " + code);
        }

        /** The call is refused with this number, which the message has too, as what it counts. */
        static void refusedAt(Code code, long number, String message, Runnable call) {
            FolugbenException error = refused(code, call);
            equal(error.number(), number);
            equal(error.getMessage(), code.text() + message);
        }

        /** The call throws an exception of this class with this text. */
        static void thrown(Class<? extends RuntimeException> kind, String message, Runnable call) {
            try {
                call.run();
            } catch (RuntimeException error) {
                equal(error.getClass(), kind);
                equal("" + error.getMessage(), "" + message);
                return;
            }
            throw new IllegalStateException("not thrown: " + message);
        }

        /** Each call throws a NullPointerException with the name of its argument. */
        static void nulls(String name, Runnable... calls) {
            for (Runnable call : calls) thrown(NullPointerException.class, name, call);
        }

        /** The call is refused by an IllegalArgumentException with this text. */
        static void refusedValue(String message, Runnable call) {
            thrown(IllegalArgumentException.class, message, call);
        }

        /** The call is refused as a capacity or the number of an agent is out of its range. */
        static void outOfRange(Runnable call) {
            try {
                call.run();
            } catch (IllegalArgumentException error) {
                equal(error.getMessage().contains(" 1 to 1,048,576") || error.getMessage().contains(" 0 to 255"), true);
                return;
            }
            throw new IllegalStateException("not refused");
        }
    }

    /** A copy of the library of these classes. */
    static final class CopiedLibrary {
        private CopiedLibrary() {}

        /** What is done with the file. */
        interface Work {
            void on(Path file) throws Exception;
        }

        /** Has folugben.library name a copy while the work is done. */
        static void named(Work work) throws Exception {
            Path file = Files.createTempFile("folugben", ".so");
            try {
                Files.write(file, bytes());
                with("folugben.library", file.toString(), () -> work.on(file));
            } finally {
                Files.delete(file);
            }
        }

        /** What is done while a property has a value. */
        interface Part {
            void run() throws Exception;
        }

        static void with(String key, String value, Part part) throws Exception {
            String was = System.getProperty(key);
            System.setProperty(key, value);
            try {
                part.run();
            } finally {
                if (was == null)
                    System.clearProperty(key);
                else
                    System.setProperty(key, was);
            }
        }

        /** The library in the jar, or else the one that JNA finds. */
        private static byte[] bytes() throws IOException {
            String inJar = "/" + Platform.RESOURCE_PREFIX + "/" + System.mapLibraryName("folugben");
            try (InputStream in = CopiedLibrary.class.getResourceAsStream(inJar)) {
                if (in != null)
                    return in.readAllBytes();
            }
            NativeLibrary found = NativeLibrary.getInstance(Calls.libraryName());
            return Files.readAllBytes(found.getFile().toPath());
        }

        /** Whether a file that matches is in the memory of this process. */
        static boolean isLoaded(String pattern) throws IOException {
            return Files.readAllLines(Path.of("/proc/self/maps")).stream().anyMatch(
                    it -> it.matches(".*" + pattern));
        }
    }
}
