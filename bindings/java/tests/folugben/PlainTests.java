package folugben;

import static folugben.Test.Checks.equal;
import static folugben.Test.Checks.refused;
import static folugben.Test.Checks.refusedAt;
import static folugben.Test.Checks.refusedValue;
import static folugben.Test.Checks.thrown;

import java.util.List;
import java.util.Map;
import java.util.function.Consumer;
import java.util.function.Supplier;

/** Tests of the calls without text: prepared locations, and moves that are gathered. */
final class PlainTests {
    private static final int ROUNDS = 400;
    private static final Location X = Location.of("x");
    private static final Location S = Location.of("s", "a\"b", List.of(1));

    private PlainTests() {}

    /** Each call returns each value as it does with texts. */
    static void values() {
        for (int round = 0; round < ROUNDS; round++) {
            Randoms random = new Randoms(round);
            Map<Location, Value> state = random.state();
            Location other = random.anyLocation();
            try (Storage storage = Storage.open(state, 8); Agent agent = storage.agent(0);
                    Step step = agent.step()) {
                for (Location location : state.keySet()) same(agent, step, location);
                same(agent, step, other);
            }
        }
        for (int length : new int[] {0, 1, 500, 1100, 100_000}) {
            Value text = Element.of("\u00e4\n\u0000".repeat(length));
            Value set = Value.set(text, 1);
            try (Storage storage = Storage.open(Map.of(X, text, S, set), 8);
                    Agent agent = storage.agent(0); Step step = agent.step()) {
                same(agent, step, X);
                same(agent, step, S);
            }
        }
    }

    private static void same(Agent agent, Step step, Location location) {
        try (PreparedLocation at = location.prepare()) {
            equal(at.location(), location);
            equal(at.toString(), location.toString());
            Value value = step.get(location);
            equal(step.get(at), value);
            equal(agent.peek(at), new Agent.Peeked(0, value));
            plain("number", value, value instanceof Element.Num num ? num.value() : null,
                    () -> step.getLong(at), () -> agent.peekLong(at),
                    () -> step.getLong(location));
            plain("boolean", value, value instanceof Element.Bool bool ? bool.value() : null,
                    () -> step.getBoolean(at), () -> step.getBoolean(location));
            plain("text", value, value instanceof Element.Text text ? text.value() : null,
                    () -> step.getText(at), () -> step.getText(location));
        }
    }

    /** Each call returns the plain value; if that is null, the value is of no such kind. */
    private static void plain(String kind, Value value, Object wanted, Supplier<?>... calls) {
        for (Supplier<?> call : calls)
            if (wanted != null)
                equal(call.get(), wanted);
            else
                thrown(IllegalStateException.class, "no " + kind + ": " + value, call::get);
    }

    /** Gathers the instruction, its operand as an element or as what that holds. */
    private static void gather(Move move, Instruction instruction, boolean asElement) {
        try (PreparedLocation at = instruction.location().prepare()) {
            if (instruction instanceof Instruction.Put put)
                operand(put.value(), asElement, it -> move.put(at, it), it -> move.put(at, it),
                        it -> move.put(at, it), it -> move.put(at, it));
            else if (instruction instanceof Instruction.Add add)
                operand(add.element(), asElement, it -> move.add(at, (Element) it),
                        it -> move.add(at, it), it -> move.add(at, it), it -> move.add(at, it));
            else if (instruction instanceof Instruction.Remove remove)
                operand(remove.element(), asElement, it -> move.remove(at, (Element) it),
                        it -> move.remove(at, it), it -> move.remove(at, it),
                        it -> move.remove(at, it));
            else if (instruction instanceof Instruction.BagAdd add)
                operand(add.element(), asElement,
                        it -> move.bagAdd(at, (Element) it, add.amount()),
                        it -> move.bagAdd(at, it, add.amount()),
                        it -> move.bagAdd(at, it, add.amount()),
                        it -> move.bagAdd(at, it, add.amount()));
            else if (instruction instanceof Instruction.BagRemove remove)
                operand(remove.element(), asElement,
                        it -> move.bagRemove(at, (Element) it, remove.amount()),
                        it -> move.bagRemove(at, it, remove.amount()),
                        it -> move.bagRemove(at, it, remove.amount()),
                        it -> move.bagRemove(at, it, remove.amount()));
            else if (instruction instanceof Instruction.Inc inc)
                move.inc(at, inc.by());
        }
    }

    private static void operand(Value element, boolean asElement, Consumer<Value> any,
            Consumer<Long> number, Consumer<Boolean> truth, Consumer<String> text) {
        if (!asElement && element instanceof Element.Num num)
            number.accept(num.value());
        else if (!asElement && element instanceof Element.Bool bool)
            truth.accept(bool.value());
        else if (!asElement && element instanceof Element.Text string)
            text.accept(string.value());
        else
            any.accept(element);
    }

    /** A move that is gathered does what the same does as objects, clashes included. */
    static void moves() {
        int[] count = new int[2];
        for (int round = 0; round < 4 * ROUNDS; round++) {
            Randoms random = new Randoms(round);
            Map<Location, Value> state = random.state();
            List<Instruction> all = random.move();
            try (Storage storage = Storage.open(state, 8); Agent agent = storage.agent(0);
                    Step step = agent.step(); Step other = agent.step(); Move move = new Move()) {
                for (Instruction one : all) gather(move, one, round % 2 == 0);
                equal(move.size(), all.size());
                for (int times = 0; times < 2; times++) {
                    count[0] += all.size();
                    count[1] += sameMove(step, other, move, all, times == 0) ? 1 : 0;
                }
                equal(step.tryCommit().move(), 1);
                agent.give();
                String journal = storage.closeJournal();
                equal(Storage.check(journal), new Storage.Checked(1, 1));
            }
        }
        equal(count[0] > 1000 && count[1] > 100, true);
    }

    /** Pushes or extends both ways; whether it clashed. */
    private static boolean sameMove(
            Step step, Step other, Move move, List<Instruction> all, boolean isPush) {
        String wanted = null;
        try {
            if (isPush)
                other.push(all);
            else
                other.extend(all);
        } catch (ClashException error) {
            wanted = error.answer();
        }
        String answer = null;
        try {
            if (isPush)
                step.push(move);
            else
                step.extend(move);
        } catch (ClashException error) {
            answer = error.answer();
        }
        equal("" + answer, "" + wanted);
        equal(step.depth(), other.depth());
        for (Instruction one : all) equal(step.get(one.location()), other.get(one.location()));
        return answer != null;
    }

    /** What the classes refuse before the library is asked. */
    static void operands() {
        try (PreparedLocation x = X.prepare(); Move move = new Move()) {
            move.put(x, 1);
            for (long amount : new long[] {0, -1, Value.MAX_COUNT + 1, Long.MAX_VALUE}) {
                String message = "an amount or a count is 1 to 4294967295, and not " + amount;
                refusedValue(message, () -> move.bagAdd(x, 1, amount));
                refusedValue(message, () -> move.bagRemove(x, "", amount));
            }
            refusedValue("text has a lone surrogate at index 1", () -> move.put(x, "a\ud83d"));
            Class<? extends RuntimeException> kind = NullPointerException.class;
            thrown(kind, "location", () -> move.put(null, 1));
            thrown(kind, "location", () -> move.add(null, "text"));
            thrown(kind, "text", () -> move.add(x, (String) null));
            thrown(kind, "element", () -> move.remove(x, (Element) null));
            thrown(kind, "value", () -> move.put(x, (Value) null));
            thrown(kind, "other", () -> move.unite(null));
            thrown(IllegalArgumentException.class,
                    "a move is united with another one, not with itself", () -> move.unite(move));
            equal(move.size(), 1);
        }
        refusedAt(Code.NOT_JSON, 0, " at byte 2", () -> new PreparedLocation("[nul]"));
        refusedAt(Code.SHAPE, 0,
                ": location 1: a location is an array of a name and at most 8 arguments",
                () -> new PreparedLocation("7"));
        refused(Code.NOT_JSON, () -> new PreparedLocation("[\"x\"],[\"y\"]"));
        thrown(NullPointerException.class, "location", () -> new PreparedLocation(null));
    }

    /** A move is listed, the instructions of a popped one too, unless it is closed. */
    static void listed() {
        try (Storage storage = Storage.open(Map.of(X, 1), 8); Agent agent = storage.agent(0);
                Step step = agent.step(); Move move = new Move()) {
            step.push(Instruction.inc(X, 3));
            step.extend(Instruction.inc(X, 4));
            equal(step.popMove(move).instructions(), List.of(Instruction.inc(X, 7)));
            for (Instruction it : move.gather(Instruction.bagAdd(X, "e", Value.MAX_COUNT)))
                equal(it.location(), X);
            Move closed = new Move();
            closed.close();
            refused(Code.EMPTY, closed::instructions);
        }
    }

    /** Handles that are closed, or whose step or agent is over. */
    static void closed() {
        try (Storage storage = Storage.open(Map.of(X, 1), 8); Agent agent = storage.agent(0);
                Agent rival = storage.agent(1)) {
            PreparedLocation x = X.prepare();
            Move move = new Move().put(x, 5);
            Step step = agent.step();
            rival.tryFire(List.of(Instruction.put(X, 2)), List.of());
            agent.follow();
            refused(Code.MOVED, () -> step.get(x));
            refused(Code.MOVED, () -> step.push(move));
            refused(Code.MOVED, () -> step.extend(move));
            equal(step.tryCommit().move(), 2);
            refused(Code.EMPTY, () -> step.get(x));
            refused(Code.EMPTY, () -> step.push(move));
            refused(Code.EMPTY, step::commit);
            Step next = agent.step();
            x.close();
            x.close();
            String message = "the ";
            for (Runnable call : List.<Runnable>of(() -> next.get(x), () -> next.getLong(x),
                         () -> agent.peek(x), () -> agent.peekLong(x), () -> move.put(x, 1),
                         () -> move.put(x, "text")))
                equal(refused(Code.EMPTY, call).getMessage(), message + "location was closed");
            next.push(move);
            equal(next.get(X), Element.of(5));
            equal(next.popMove(move), move);
            next.push(move);
            try (Move last = next.popMove()) {
                next.push(last);
            }
            move.close();
            move.close();
            try (PreparedLocation y = Location.of("y").prepare()) {
                Move other = new Move();
                for (Runnable call : List.<Runnable>of(() -> next.push(move), () -> next.extend(move),
                             () -> move.put(y, 1), move::clear, () -> next.popMove(move),
                             () -> move.unite(other), () -> other.unite(move)))
                    equal(refused(Code.EMPTY, call).getMessage(), message + "move was closed");
                equal(move.size(), 0);
                equal(next.depth(), 1);
                agent.give();
                refused(Code.EMPTY, () -> next.get(y));
                refused(Code.EMPTY, () -> agent.peek(y));
                refused(Code.EMPTY, next::commit);
                next.close();
            }
        }
    }

    /** Threads with agents of their own that use one location and one move wait for each other. */
    static void sharedByThreads() throws InterruptedException {
        try (Storage storage = Storage.open(Map.of(X, 0), 4000); PreparedLocation x = X.prepare();
                Move move = new Move()) {
            Thread[] threads = new Thread[4];
            long[] fired = new long[threads.length];
            for (int i = 0; i < threads.length; i++) {
                int own = i;
                threads[i] = new Thread(() -> {
                    try (Agent agent = storage.agent(own)) {
                        while (fired[own] < 500)
                            try (Step step = agent.step(); Move raise = new Move()) {
                                long seen = step.getLong(x);
                                step.push(raise.put(x, seen + 1));
                                if (move.size() < 500)
                                    move.inc(x, 1);
                                agent.peekLong(x);
                                if (step.tryCommit().move() != 0)
                                    fired[own]++;
                            }
                        agent.give();
                    }
                });
            }
            for (Thread thread : threads) thread.start();
            for (Thread thread : threads) thread.join();
            try (Agent agent = storage.agent(9); Step step = agent.step()) {
                equal(step.getLong(x), 2000L);
                int size = move.size();
                equal(size >= 500 && size <= 503, true);
                step.push(move);
                equal(step.getLong(x), 2000L + size);
                equal(step.tryCommit().move(), 2001);
                agent.give();
            }
            equal(Storage.check(storage.closeJournal()).moves(), 2001);
        }
    }

    static void all() throws InterruptedException {
        values();
        System.out.println("plain values");
        moves();
        System.out.println("gathered moves");
        operands();
        System.out.println("operands");
        listed();
        closed();
        System.out.println("closed handles");
        sharedByThreads();
        System.out.println("plain calls shared by threads");
    }
}
