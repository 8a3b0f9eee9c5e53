package folugben;

import static folugben.Test.Checks.equal;
import static folugben.Test.Checks.refused;
import static folugben.Test.Checks.refusedAt;
import static folugben.Test.Checks.refusedValue;
import static folugben.Test.Checks.thrown;

import java.io.IOException;
import java.io.UncheckedIOException;
import java.nio.file.Files;
import java.nio.file.Path;
import java.util.ArrayList;
import java.util.List;
import java.util.Map;

/** Nothing is lost at the end of a scope, and a rule is played until it fires. */
final class ScopeTests {
    private static final Location COUNT = Location.of("count");

    private ScopeTests() {}

    private static Storage open() {
        return Storage.open(Map.of(COUNT, 0), 100);
    }

    private static Instruction put(long value) {
        return Instruction.put(COUNT, value);
    }

    private static long put(Agent agent, long value) {
        return agent.fire(List.of(put(value)), List.of());
    }

    static void plays() {
        try (Storage storage = open(); Agent agent = storage.agent(0); Agent rival = storage.agent(1)) {
            List<Long> tries = new ArrayList<>();
            Agent.Played<Long> played = agent.play(step -> {
                long seen = step.get(COUNT).asLong();
                tries.add(seen);
                if (tries.size() < 12)
                    put(rival, seen + 10);
                step.push(put(seen + 1));
                return seen;
            });
            equal(played, new Agent.Played<>(12, 110L, 11));
            equal(tries.size(), 12);
            thrown(IllegalStateException.class, "no", () -> agent.play(step -> {
                step.push(put(5));
                throw new IllegalStateException("no");
            }));
            equal(storage.moves(), 12);
            Runnable clash = () -> agent.play(step -> {
                step.push(put(1), put(2));
                return 0;
            });
            refused(Code.CLASH, clash);
            thrown(NullPointerException.class, "rule", () -> agent.play(null));
        }
    }

    static void agentsComeBack() {
        Storage storage = open();
        try (Storage other = open()) {
            Agent agent = storage.agent(0);
            try (agent) {
                put(agent, 1);
                refusedAt(Code.MISSING, 1, ": agent 0 was not returned: it fired move 1", storage::closeJournal);
            }
            agent.close();
            equal(Storage.check(storage.closeJournal()), new Storage.Checked(1, 1));
            Agent late = storage.agent(1);
            put(late, 2);
            refused(Code.OTHER, () -> other.give(late));
            refused(Code.OTHER, () -> other.agent(0).learn(late));
            storage.close();
            late.close();
            refused(Code.EMPTY, () -> put(late, 3));
        }
    }

    static void journalsAreWritten() throws IOException {
        Path path = Files.createTempFile("run", ".journal");
        try {
            try (Storage storage = Storage.open(Map.of(COUNT, 0), 10, path); Agent agent = storage.agent(0)) {
                put(agent, 1);
            }
            equal(Storage.check(Files.readString(path)).moves(), 1);
            thrown(IllegalStateException.class, "no", () -> {
                try (Storage storage = new Storage("[]", 10, path); Agent agent = storage.agent(0)) {
                    put(agent, 1);
                    put(agent, 2);
                    throw new IllegalStateException("no");
                }
            });
            equal(Storage.check(Files.readString(path)).moves(), 2);
            refused(Code.MISSING, () -> {
                try (Storage storage = new Storage("[]", 10, path); Agent agent = storage.agent(0)) {
                    put(agent, 1);
                    agent.abandon();
                }
            });
            Path nowhere = path.resolve("nowhere");
            try (Storage storage = new Storage("[]", 10, nowhere)) {
                storage.moves();
            } catch (UncheckedIOException fault) {
                return;
            }
            throw new IllegalStateException("a journal was written nowhere");
        } finally {
            Files.delete(path);
        }
    }

    static void numbersReportTheirRange() {
        refusedValue("a capacity is 1 to 1,048,576, not 0", () -> new Storage("[]", 0));
        try (Storage storage = open()) {
            refusedValue("agent 256: numbers are 0 to 255", () -> storage.agent(256));
            refusedValue("agent -1: numbers are 0 to 255", () -> storage.agent(-1));
            refusedValue("a capacity is 1 to 1,048,576, not 1048577", () -> storage.next(1_048_577));
        }
    }

    static void all() {
        try {
            plays();
            agentsComeBack();
            journalsAreWritten();
            numbersReportTheirRange();
        } catch (IOException fault) {
            throw new UncheckedIOException(fault);
        }
        System.out.println("scopes");
    }

    /** Tests of which storages and agents record what steps read. */
    static final class RecordTests {
        private static final Location X = Location.of("x");
        private static final Location Y = Location.of("y", 1);

        private RecordTests() {}

        private static int recorded(Storage storage, Agent agent) {
            agent.play(step -> {
                step.push(Instruction.put(X, step.get(X)));
                step.see(Y);
                step.scan("y").values();
                return null;
            });
            agent.close();
            String begin = "{\"agent\":" + agent.number() + ",\"call\":{\"read\":[[\"x\"]]},";
            return (int) storage.closeJournal().lines().filter(it -> it.startsWith(begin)).count();
        }

        /** Storages that go on record as the one before, and agents as their storage when they are made. */
        private static void storagesHandItOn() {
            try (Storage storage = Storage.open(Map.of(X, 3, Y, 4), 5)) {
                equal(recorded(storage, storage.agent(0)), 0);
                storage.record(true);
                equal(recorded(storage, storage.take(0)), 1);
                equal(recorded(storage, storage.agent(1).record(false)), 0);
                Agent last = storage.agent(2);
                equal(recorded(storage, last), 1);
                try (Storage next = storage.next(1); Agent agent = next.agent(0)) {
                    equal(recorded(next, agent), 1);
                    try (Agent again = next.take(0)) {
                        again.follow();
                        try (Storage behind = again.goOn(2)) {
                            equal(recorded(behind, behind.agent(0)), 1);
                            equal(recorded(behind.record(false), behind.agent(1)), 0);
                        }
                    }
                }
            }
        }

        static void all() {
            storagesHandItOn();
            System.out.println("recorded reads");
        }
    }
}
