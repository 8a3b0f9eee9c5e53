package folugben;

import java.util.ArrayList;
import java.util.Collections;
import java.util.List;
import java.util.concurrent.CancellationException;
import java.util.concurrent.atomic.AtomicInteger;
import java.util.concurrent.locks.Condition;
import java.util.concurrent.locks.Lock;
import java.util.concurrent.locks.ReentrantLock;
import java.util.function.Supplier;

/** Threads of which one at a time goes on, up to its next turn, by a choice. */
final class Turns {
    /** How many plays are under way, so that calls outside of plays check this alone. */
    private static final AtomicInteger PLAYS = new AtomicInteger();
    private static final ThreadLocal<Player> HERE = new ThreadLocal<>();
    /** How long works are waited for, in ms, when their play was interrupted. */
    private static final long GRACE = 5_000;

    private final Lock lock = new ReentrantLock();
    private final Choice choice;
    /** For each number that hasn't ended, the condition on which it waits for its turn. */
    private final Condition[] turns;
    private final boolean[] waits;
    private final boolean[] isAlive;
    /** The number whose turn it is; -1 for none. */
    private int now = -1;
    private final int most;
    private int taken;
    /** What ended all works, unless they have ended by themselves. */
    private RuntimeException fault;

    /** Prepares turns of so many threads, at most so many turns in all. */
    Turns(int count, Choice choice, int most) {
        this.choice = choice;
        this.most = most;
        turns = new Condition[count];
        waits = new boolean[count];
        isAlive = new boolean[count];
        for (int number = 0; number < count; number++) {
            turns[number] = lock.newCondition();
            isAlive[number] = true;
        }
    }

    /** Chooses who goes on, of the numbers that haven't ended, in ascending order. */
    interface Choice {
        /** Returns one of the numbers; what it throws ends all works. */
        int of(List<Integer> numbers);
    }

    /** What the works returned or threw, each at its place. */
    record Outcomes<R>(List<R> values, List<Throwable> faults) {
        private static <R> Outcomes<R> none(int count) {
            return new Outcomes<>(new ArrayList<>(Collections.nCopies(count, null)),
                    new ArrayList<>(Collections.nCopies(count, null)));
        }

        /** Returns what the works returned; throws the first exception of one. */
        List<R> orThrow() {
            for (Throwable thrown : faults) {
                if (thrown instanceof Error error)
                    throw error;
                if (thrown != null)
                    throw (RuntimeException) thrown;
            }
            return Collections.unmodifiableList(values);
        }
    }

    /** Plays each work with its agent on its own thread; throws what ended all of them. */
    <A, R> Outcomes<R> play(List<? extends A> agents,
            List<? extends Interleave.Work<? super A, ? extends R>> works,
            List<? extends Player> players) {
        Outcomes<R> outcomes = Outcomes.none(works.size());
        List<Thread> threads = new ArrayList<>();
        for (int i = 0; i < works.size(); i++) {
            int number = i;
            Thread thread = new Thread(() -> playOne(players.get(number), outcomes,
                    () -> works.get(number).play(agents.get(number))));
            thread.setDaemon(true); // a work that waits for something else can't be ended
            threads.add(thread);
        }
        PLAYS.incrementAndGet();
        try {
            threads.forEach(Thread::start);
            join(threads);
        } finally {
            PLAYS.decrementAndGet();
        }
        if (fault != null)
            throw fault;
        return outcomes;
    }

    private <R> void playOne(Player player, Outcomes<R> outcomes, Supplier<? extends R> work) {
        HERE.set(player);
        try {
            await(player.number());
            outcomes.values.set(player.number(), work.get());
        } catch (Stopped end) {
            // The result reports what has stopped it.
        } catch (RuntimeException | Error thrown) {
            outcomes.faults.set(player.number(), thrown);
        } finally {
            HERE.remove();
            end(player.number());
        }
    }

    /** Ends a work at its next turn. */
    private static final class Stopped extends Error {
        private static final long serialVersionUID = 1;

        Stopped() {
            super("the play was ended", null, false, false);
        }
    }

    /** Waits for all of them; an interruption ends each at its next turn. */
    private void join(List<Thread> threads) {
        try {
            for (Thread thread : threads) thread.join();
        } catch (InterruptedException interruption) {
            stop(new CancellationException("the play was interrupted"));
            for (Thread thread : threads) Patience.join(thread, GRACE);
            Thread.currentThread().interrupt();
        }
    }

    private void stop(RuntimeException why) {
        lock.lock();
        try {
            if (fault == null)
                fault = why;
            for (Condition turn : turns) turn.signalAll();
        } finally {
            lock.unlock();
        }
    }

    /** Returns who plays on this thread; nobody if it isn't played, or is still. */
    static Player here() {
        if (PLAYS.get() == 0)
            return Player.NOBODY;
        Player player = HERE.get();
        return player == null || player.takesNoTurns ? Player.NOBODY : player;
    }

    /** Does the work with no turns in it, as others may wait for locks that are held. */
    static <T> T withoutTurns(Supplier<T> work) {
        Player player = here();
        if (player == Player.NOBODY)
            return work.get();
        player.takesNoTurns = true;
        try {
            return work.get();
        } finally {
            player.takesNoTurns = false;
        }
    }

    /** Returns whether this thread is played by turns. */
    static boolean isPlayed() {
        return PLAYS.get() != 0 && HERE.get() != null;
    }

    /** Lets others go on, until this number is chosen again. */
    void await(int number) {
        lock.lock();
        try {
            leave(number);
            waits[number] = true;
            choose();
            while (now != number && fault == null) turns[number].awaitUninterruptibly();
            waits[number] = false;
            expectRunning();
        } finally {
            lock.unlock();
        }
    }

    /** Counts a turn that whoever is at work takes without waiting. */
    void count() {
        lock.lock();
        try {
            if (++taken > most)
                stop(new EndlessException(alive(), most));
            expectRunning();
        } finally {
            lock.unlock();
        }
    }

    private void expectRunning() {
        if (fault != null)
            throw new Stopped();
    }

    private void end(int number) {
        lock.lock();
        try {
            leave(number);
            isAlive[number] = false;
            choose();
        } finally {
            lock.unlock();
        }
    }

    private void leave(int number) {
        if (now == number)
            now = -1;
    }

    private List<Integer> alive() {
        List<Integer> alive = new ArrayList<>();
        for (int number = 0; number < turns.length; number++)
            if (isAlive[number])
                alive.add(number);
        return alive;
    }

    /**
     * Chooses who goes on, once all that haven't ended wait.
     *
     * <p>Whoever was at work waits or has ended by then, so the order depends on the choice alone.
     */
    private void choose() {
        List<Integer> waiting = alive();
        if (now >= 0 || waiting.isEmpty() || fault != null
                || !waiting.stream().allMatch(number -> waits[number]))
            return;
        if (taken >= most) {
            stop(new EndlessException(waiting, most));
            return;
        }
        taken++;
        try {
            now = choice.of(waiting);
            turns[now].signal();
        } catch (RuntimeException thrown) {
            stop(thrown);
        }
    }

    /**
     * Plays a work by turns.
     *
     * <p>A search of schedules notes what a call has read and written, and what it returned. This
     * one notes nothing.
     */
    static class Player {
        /** The player of a thread that isn't played by turns. */
        static final Player NOBODY = new Player(null, -1);

        final Turns turns;
        private final int number;
        /** Whether its calls take no turn for now. */
        boolean takesNoTurns;

        Player(Turns turns, int number) {
            this.turns = turns;
            this.number = number;
        }

        /** Takes the turn of a call of an agent that polls or writes. */
        static Player poll(Object it) {
            Player player = Turns.here();
            if (player != NOBODY)
                player.turn(it, true);
            return player;
        }

        /** Takes the turn of any other call of an agent or a step. */
        static Player call(Object it) {
            Player player = Turns.here();
            if (player != NOBODY)
                player.turn(it, false);
            return player;
        }

        /** Returns its number among the works. */
        final int number() {
            return number;
        }

        /** Takes a turn of a call on an agent or a step. */
        void turn(Object it, boolean isPoll) {
            turns.await(number);
        }

        /** Notes a step that has begun. */
        void stepBegan(Step step) {}

        /** Notes a step that is over. */
        void stepEnded(Step step) {}

        /** Notes that the locations [LOC, ..] were read. */
        void reads(String locations) {}

        /** Notes that a prepared location was read. */
        void reads(PreparedLocation location) {}

        /** Notes that the named reads [NAMED, ..] were validated. */
        void readsNamed(String reads) {}

        /** Notes that everything may have been read. */
        void readsAll() {}

        /** Notes a dependency on more than can be noted. */
        void depends() {}

        /** Notes that an agent has scanned a function. */
        void scans(String name) {}

        /** Notes that its step has scanned a function. */
        void stepScans(String name) {}

        /** Notes what a step has pushed by now. */
        void pushes(Step step) {}

        /** Notes what a step is about to fire. */
        void fires(Step step) {}

        /** Notes what was fired with this reply: [INSTR, ..] over [NAMED, ..] and over scans. */
        void fires(String instructions, String reads, String scans, Actor.Reply reply) {}

        /** Notes the reply to the fire of a step. */
        void fired(Actor.Reply reply) {}

        /** Notes what a call returned, except numbers of moves. */
        void observe(String message) {}

        /** Notes the value that a call wrote into a room. */
        void observe(Room room) {}

        /** Notes what a call has thrown. */
        void observe(FolugbenException thrown) {}
    }
}
