package folugben;

import static folugben.Test.Checks.equal;
import static folugben.Test.Checks.refused;
import static folugben.Test.Checks.refusedAt;
import static folugben.Test.Checks.thrown;

import folugben.Test.CopiedLibrary;

import com.sun.jna.Native;

import java.io.IOException;
import java.io.InputStream;
import java.io.UncheckedIOException;
import java.lang.ref.WeakReference;
import java.util.AbstractList;
import java.util.ArrayList;
import java.util.Arrays;
import java.util.List;
import java.util.Map;
import java.util.concurrent.Callable;
import java.util.function.Consumer;

/** Tests of odd use: nothing is lost or mixed up by it, and errors say what is wrong. */
final class MisuseTests {
    private static final Location X = Location.of("x");
    private static final Location Y = Location.of("y");

    private MisuseTests() {}

    /** A list that returns other items each time that it is asked. */
    private static <T> List<T> changing(T first, T later) {
        return new AbstractList<>() {
            private int times;

            @Override
            public T get(int index) {
                return times++ == 0 ? first : later;
            }

            @Override
            public int size() {
                return 1;
            }
        };
    }

    static void argumentsAreCopiedOnce() {
        try (Storage storage = Storage.open(Map.of(X, 1, Y, 2), 10);
                Agent agent = storage.agent(0)) {
            List<Reading> results =
                    List.of(agent.read(changing(X, Y)), agent.peek(changing(X, Y)));
            for (Reading reading : results) {
                equal(reading.locations(), List.of(X));
                equal(reading.values(), List.of(Element.of(1)));
            }
            equal(new Location("f", changing(Element.of(1), Element.of(2))), Location.of("f", 1));
            equal(new Element.ListOf(changing(Element.of(1), Element.of(2))), Element.list(1));
            try (Step step = agent.step()) {
                equal(step.get(changing(X, Y)), List.of(Element.of(1)));
            }
        }
    }

    static void nullsAreNamed() {
        Class<? extends RuntimeException> kind = NullPointerException.class;
        Instruction put = Instruction.put(X, 1);
        List<Instruction> moves = Arrays.asList(put, null);
        try (Storage storage = Storage.open(Map.of(), 10); Agent agent = storage.agent(0);
                Step step = agent.step()) {
            thrown(kind, "instructions[1] is null", () -> agent.fire(moves, List.of()));
            thrown(kind, "reads[0] is null", () -> agent.fire(List.of(), Arrays.asList((Named) null)));
            thrown(kind, "reads[0] is null", () -> agent.stands(Arrays.asList((Named) null)));
            thrown(kind, "locations[0] is null", () -> agent.read(Arrays.asList((Location) null)));
            thrown(kind, "locations[0] is null", () -> agent.peek(Arrays.asList((Location) null)));
            thrown(kind, "locations[0] is null", () -> step.get(Arrays.asList((Location) null)));
            thrown(kind, "location", () -> step.get((Location) null));
            thrown(kind, "element", () -> step.has(X, null));
            thrown(kind, "move[1] is null", () -> step.push(moves));
            thrown(kind, "move[1] is null", () -> step.push(put, null));
            thrown(kind, "move[0] is null", () -> step.extend((Instruction) null));
            thrown(kind, "move", () -> step.extend((Instruction[]) null));
            thrown(kind, "second[1] is null", () -> Moves.compose(List.of(), moves));
            thrown(kind, "init[0] is null", () -> Storage.open(Arrays.asList((Pair) null), 1));
            equal(step.depth(), 0);
        }
    }

    static void closedObjectsSaySo() {
        Storage storage = Storage.open(Map.of(), 10);
        Agent agent = storage.agent(3);
        try (Step step = agent.step(); PreparedLocation x = X.prepare(); Move move = new Move()) {
            step.push(Instruction.put(X, 1));
            refusedAt(Code.NUMBER, 0, ": agent 3", () -> storage.agent(3));
            step.commit();
            for (Runnable call : List.<Runnable>of(step::commit, step::pop, () -> step.get(X),
                         () -> step.get(x), () -> step.scan("x"), step::push, () -> step.push(move)))
                equal(refused(Code.EMPTY, call).getMessage(),
                        "the step is over: it was fired or closed");
            refusedAt(Code.MISSING, 1, ": agent 3 was not returned: it fired move 1",
                    storage::closeJournal);
            storage.agent(4).abandon(); // which may have fired it
            refusedAt(Code.MISSING, 1, ": agent 3 was not returned (move 1)",
                    storage::closeJournal);
            Agent other = storage.agent(9);
            other.fire(List.of(), List.of());
            refusedAt(Code.MISSING, 1, ": agents 3, 9 were not returned (move 1)",
                    storage::closeJournal);
            other.close();
            Step open = agent.step();
            agent.give();
            for (Runnable call : List.<Runnable>of(agent::follow, agent::step, agent::state,
                         agent::answer, agent::give, () -> agent.read("[]"), () -> agent.peek("[]"),
                         () -> agent.fire("[]", "[]"), () -> agent.peek(x), () -> agent.scan("x"),
                         () -> agent.stands("[]"), () -> open.get(X), () -> open.get(x),
                         () -> open.push(move), open::push, open::commit))
                equal(refused(Code.EMPTY, call).getMessage(),
                        "the agent was returned");
            open.close();
        }
        storage.close();
        for (Runnable call : List.<Runnable>of(storage::moves, storage::closeJournal,
                     () -> storage.agent(1), () -> storage.next(1)))
            equal(refused(Code.EMPTY, call).getMessage(),
                    "the storage was closed");
    }

    static void lookupsNeedElements() {
        Value set = Value.set(1, "a");
        Value bag = Value.bag(Map.of(2, 3));
        equal(set.has(1) && set.has("a") && !set.has(2), true);
        equal(bag.has(2) && !bag.has(1), true);
        equal(set.asSet().contains(Element.of(1)), true);
        Class<? extends RuntimeException> kind = ClassCastException.class;
        String message = "1 is no folugben.Element: ask for Element.of(1)";
        thrown(kind, message, () -> set.asSet().contains(1));
        thrown(kind, message, () -> bag.asBag().get(1));
        thrown(IllegalStateException.class, "no set or bag: 7", () -> Element.of(7).has(7));
    }

    static void longTextsAreRead() {
        String text = "x".repeat(20_000_001);
        equal(Value.parse('"' + text + '"').asText().length(), text.length());
        equal(JsonReader.unlimited("what has no limits"), "what has no limits");
        equal(Calls.room(2L << 30), Integer.MAX_VALUE - 8);
        equal(Calls.room(2L << 20), 2 << 20);
        try {
            Calls.text((out, room, written) -> {
                written[0] = 3L << 30;
                return Code.SMALL.number();
            }, 1);
        } catch (OutOfMemoryError error) {
            equal(error.getMessage(),
                    "a text of 3221225472 bytes, and an array has at most 2147483639");
            return;
        }
        throw new IllegalStateException("a text of 3 GiB is told");
    }

    /** The steps of an agent have slots of their own, whatever was cut off before. */
    private static void slotsAreInOrder(Agent agent, Move move) {
        List<Step> steps = new ArrayList<>();
        for (int own = 0; own < 40; own++) {
            Step step = agent.step();
            step.push(Instruction.put(X, own));
            steps.add(step);
        }
        for (int own = 0; own < 40; own++) equal(steps.get(own).get(X), Element.of(own));
        steps.forEach(Step::close);
        try (Step step = agent.step(); PreparedLocation x = X.prepare()) {
            step.push(move.clear().put(x, 1).inc(x, 0).clear().put(x, 7));
            equal(step.get(X), Element.of(7));
            equal(move.size(), 1);
        }
    }

    private static void work(Agent agent, Move move, PreparedLocation x) {
        try (Step step = agent.step()) {
            step.push(Instruction.put(X, 5));
            equal(step.get(X), Element.of(5));
            try (Step other = agent.step()) {
                other.push(move.clear().put(x, 9));
                equal(other.getLong(x), 9L);
                equal(step.getLong(x), 5L);
            }
        }
    }

    /** Makes calls at many depths of a stack that is nearly full. */
    private static int overflow(Runnable call, int depth) {
        int calls = 0;
        try {
            calls = overflow(call, depth + 1);
        } catch (StackOverflowError error) {
            calls = 0;
        }
        if (calls < 400)
            try {
                call.run();
            } catch (StackOverflowError | IllegalStateException | FolugbenException cutOff) {
                return calls + 1;
            }
        return calls + 1;
    }

    private static void onThread(long stack, Runnable run, Consumer<Thread> meanwhile)
            throws InterruptedException {
        Thread thread = new Thread(null, run, "odd", stack);
        thread.setUncaughtExceptionHandler((ended, death) -> {});
        thread.start();
        meanwhile.accept(thread);
        thread.join();
    }

    static void stacksRunOut() throws InterruptedException {
        try (Storage storage = Storage.open(Map.of(X, 1), 10); Agent agent = storage.agent(0);
                Move move = new Move(); PreparedLocation x = X.prepare()) {
            work(agent, move, x);
            onThread(400_000, () -> overflow(() -> work(agent, move, x), 0), thread -> {});
            slotsAreInOrder(agent, move);
        }
    }

    @SuppressWarnings({"deprecation", "removal"})
    private static void stop(Thread thread, int times) {
        try {
            Thread.sleep(1 + times % 3, 7_919 * times % 999_999);
            thread.stop();
        } catch (InterruptedException | UnsupportedOperationException error) {
            // Java 20 and later stop no thread.
            thread.interrupt();
        }
    }

    static void threadsAreStopped() throws InterruptedException {
        for (int times = 0; times < 30; times++)
            try (Storage storage = Storage.open(Map.of(X, 1), 10); Agent agent = storage.agent(0);
                    Move move = new Move(); PreparedLocation x = X.prepare()) {
                int time = times;
                onThread(0, () -> {
                    while (!Thread.interrupted()) work(agent, move, x);
                }, thread -> stop(thread, time));
                slotsAreInOrder(agent, move);
            }
    }

    /** A move of which a call was cut off is pushed only once it is cleared. */
    static void movesAreCutOff() {
        try (Storage storage = Storage.open(Map.of(X, 1), 10); Agent agent = storage.agent(0);
                Step step = agent.step(); Move move = new Move();
                PreparedLocation x = X.prepare()) {
            move.inc(x, 1);
            move.isCutOff = true;
            String message = "a call on the move was cut off, and may have been done: clear the move";
            thrown(IllegalStateException.class, message, () -> move.inc(x, 1));
            thrown(IllegalStateException.class, message, () -> step.push(move));
            step.push(move.clear().inc(x, 1));
            equal(step.getLong(x), 2L);
        }
    }

    /** Loads the classes of this package itself, and takes all others from its parent. */
    private static final class Own extends ClassLoader {
        Own() {
            super(MisuseTests.class.getClassLoader());
        }

        @Override
        protected Class<?> loadClass(String name, boolean resolve) throws ClassNotFoundException {
            if (!name.startsWith("folugben."))
                return super.loadClass(name, resolve);
            synchronized (getClassLoadingLock(name)) {
                Class<?> loaded = findLoadedClass(name);
                return loaded != null ? loaded : define(name);
            }
        }

        private Class<?> define(String name) throws ClassNotFoundException {
            try (InputStream in = getParent().getResourceAsStream(name.replace('.', '/') + ".class")) {
                byte[] bytes = in.readAllBytes();
                return defineClass(name, bytes, 0, bytes.length);
            } catch (IOException error) {
                throw new ClassNotFoundException(name, error);
            }
        }
    }

    private static WeakReference<ClassLoader> loaded() throws ReflectiveOperationException {
        ClassLoader own = new Own();
        Class<?> storage = Class.forName("folugben.Storage", true, own);
        equal(storage == Storage.class, false);
        Object made = storage.getConstructor(String.class, int.class).newInstance("[]", 10);
        Object agent = storage.getMethod("agent", int.class).invoke(made, 0);
        agent.getClass().getMethod("fire", String.class, String.class).invoke(agent, "[]", "[]");
        Object step = agent.getClass().getMethod("step").invoke(agent);
        step.getClass().getMethod("push", String.class).invoke(step, "[]");
        equal(step.getClass().getMethod("commit").invoke(step), 2);
        step.getClass().getMethod("close").invoke(step);
        agent.getClass().getMethod("close").invoke(agent);
        storage.getMethod("close").invoke(made);
        Native.unregister(Class.forName("folugben.Calls", false, own));
        return new WeakReference<>(own);
    }

    /** Collects garbage until this is so. */
    private static void collectUntil(Callable<Boolean> isSo) throws Exception {
        for (int times = 0; times < 100 && !isSo.call(); times++) {
            System.gc();
            Thread.sleep(10);
        }
        equal(isSo.call(), true);
    }

    /** If JNA is in a parent of the class loader, that is freed as the package says. */
    static void classLoadersAreCollected() throws Exception {
        WeakReference<ClassLoader> own = loaded();
        collectUntil(() -> own.get() == null);
        equal(Storage.version(), Calls.WRITTEN_FOR);
    }

    /** A class loader has a library of its own, which is unloaded with it, and others go on. */
    static void librariesAreUnloaded() throws Exception {
        String key = "jna.library.path";
        // If it is set, both loaders share the library of quick.c, as it is found by its name.
        CopiedLibrary.named(copy -> CopiedLibrary.with(key, System.getProperty(key, ""), () -> {
            WeakReference<ClassLoader> own = loaded();
            equal(CopiedLibrary.isLoaded(copy.toString()), true);
            collectUntil(() -> own.get() == null && !CopiedLibrary.isLoaded(copy.toString()));
        }));
        try (Storage storage = Storage.open(Map.of(X, 1), 10); Agent agent = storage.agent(0);
                Move move = new Move(); PreparedLocation x = X.prepare()) {
            work(agent, move, x);
            slotsAreInOrder(agent, move);
        }
    }

    /** What is unpacked from a jar is in no folder once it is loaded. */
    static void extractedFilesAreDeleted() throws IOException {
        equal(CopiedLibrary.isLoaded("/jna\\d+\\.tmp"), false);
    }

    static void all() {
        try {
            argumentsAreCopiedOnce();
            nullsAreNamed();
            closedObjectsSaySo();
            lookupsNeedElements();
            longTextsAreRead();
            movesAreCutOff();
            stacksRunOut();
            threadsAreStopped();
            classLoadersAreCollected();
            librariesAreUnloaded();
            extractedFilesAreDeleted();
        } catch (IOException fault) {
            throw new UncheckedIOException(fault);
        } catch (Exception fault) {
            throw fault instanceof RuntimeException error ? error : new IllegalStateException(fault);
        }
        System.out.println("odd use");
    }

    /** These tests alone, as on a jar. */
    public static void main(String[] words) {
        all();
    }
}
