package folugben_engine;

import folugben.Actor;
import folugben.Agent;
import folugben.Interleave;
import folugben.Location;
import folugben.PastException;
import folugben.Run;
import folugben.Step;
import folugben.Storage;
import java.util.ArrayList;
import java.util.List;
import java.util.Map;
import java.util.concurrent.atomic.AtomicReference;
import java.util.concurrent.locks.LockSupport;
import java.util.function.IntFunction;

/** Agents that play programs, each on a thread of its own, on a storage or on a run. */
public final class Engine {
    private Engine() {}

    /** Plays the rule of a program on a step, and fires it; returns whether it did anything. */
    private static boolean playOnce(Actor actor, Machine.Program program) {
        try (Step step = actor.step()) {
            if (!program.rule().play(step))
                return false;
            Agent.Reply reply = step.tryCommit();
            if (!reply.shouldRetry()) // else others were quicker, and the next step sees what they did
                reply.orThrow();
        } catch (PastException over) {
            // The part was full meanwhile, and the next step begins in the next one.
        }
        return true;
    }

    /** Plays the program until it is over, or another one has thrown. */
    static void live(Actor actor, Machine.Program program, AtomicReference<Throwable> fault) {
        while (fault.get() == null && !program.isOver().test(actor))
            if (!playOnce(actor, program))
                LockSupport.parkNanos(1_000_000); // nothing to do until others have fired
    }

    /**
     * Plays all programs, each with the agent of its number, which is closed then.
     *
     * <p>An exception of a rule, such as a clash of its own updates, ends all and is thrown.
     */
    public static void play(IntFunction<? extends Actor> agents, List<Machine.Program> programs) {
        AtomicReference<Throwable> fault = new AtomicReference<>();
        List<Thread> threads = new ArrayList<>();
        for (int i = 0; i < programs.size(); i++) {
            int number = i;
            threads.add(new Thread(() -> {
                try (Actor actor = agents.apply(number)) {
                    live(actor, programs.get(number), fault);
                } catch (RuntimeException | Error thrown) {
                    fault.compareAndSet(null, thrown);
                }
            }));
        }
        threads.forEach(Thread::start);
        try {
            for (Thread thread : threads) thread.join();
        } catch (InterruptedException error) {
            fault.compareAndSet(null, new IllegalStateException(error));
        }
        if (fault.get() instanceof Error error)
            throw error;
        if (fault.get() != null)
            throw (RuntimeException) fault.get();
    }

    /** Returns the journal of a machine on a storage for so many moves. */
    public static String onStorage(Machine machine, int capacity) {
        try (Storage storage = Storage.open(machine.init(), capacity)) {
            play(number -> storage.agent(number), machine.programs());
            return storage.closeJournal();
        }
    }

    /** Plays a machine on a run, which is left open. */
    public static void onRun(Run run, Machine machine) {
        play(number -> run.agent(number), machine.programs());
    }

    /**
     * Returns the journal of a machine whose agents go on by turns.
     *
     * <p>It is the same for the same seed.
     */
    public static String byTurns(Map<Location, ?> init, List<Machine.Program> programs, long seed) {
        try (Storage storage = Storage.open(init, 10_000)) {
            List<Actor> actors = new ArrayList<>();
            List<Interleave.Work<Actor, Object>> works = new ArrayList<>();
            for (Machine.Program program : programs) {
                actors.add(storage.agent(actors.size()));
                works.add(actor -> {
                    while (!program.isOver().test(actor)) playOnce(actor, program);
                    return null;
                });
            }
            Interleave.play(actors, works, seed);
            actors.forEach(Actor::close);
            return storage.closeJournal();
        }
    }
}
