package folugben;

import java.time.Duration;
import java.util.Objects;
import java.util.concurrent.TimeUnit;
import java.util.concurrent.locks.LockSupport;

/** Waits that no interruption cuts short. */
final class Patience {
    private Patience() {}

    /** Sleeps for so many ms. */
    static void rest(long most) {
        long end = System.nanoTime() + TimeUnit.MILLISECONDS.toNanos(most);
        boolean isInterrupted = false;
        for (long left; (left = end - System.nanoTime()) > 0;) {
            LockSupport.parkNanos(left);
            isInterrupted |= Thread.interrupted();
        }
        if (isInterrupted)
            Thread.currentThread().interrupt();
    }

    /** Waits until a thread has ended. */
    static void join(Thread thread) {
        join(thread, 0);
    }

    /** Waits for so many ms at most, 0 for as long as it takes. */
    static void join(Thread thread, long most) {
        boolean isInterrupted = false;
        while (true)
            try {
                thread.join(most);
                if (isInterrupted)
                    Thread.currentThread().interrupt();
                return;
            } catch (InterruptedException error) {
                isInterrupted = true;
            }
    }

    /** Plays a rule on step after step, until one is fired. */
    static final class Plays {
        /** After so many vain tries an agent waits: 1 << LONGEST_WAIT us at most. */
        private static final int TRIES_WITHOUT_WAIT = 8;
        private static final int LONGEST_WAIT = 10;

        /** A time that no play takes: 292 years. */
        static final Duration FOR_EVER = Duration.ofNanos(Long.MAX_VALUE);

        private Plays() {}

        static <T, X extends Exception> Actor.Played<T> play(
                Actor actor, Actor.Rule<T, X> rule, int most, Duration timeout) throws X {
            Objects.requireNonNull(rule, "rule");
            boolean isTimed = timeout.compareTo(FOR_EVER) < 0;
            long begin = isTimed ? System.nanoTime() : 0;
            for (int tries = 0;; tries++) {
                boolean isLast = tries + 1 >= most;
                try (Step step = actor.step()) {
                    try {
                        T result = rule.play(step);
                        if (step.fired != 0 || step.isIdle())
                            return new Actor.Played<>(step.fired, result, tries);
                        Actor.Reply reply = step.tryCommit();
                        isLast |= isTimed && System.nanoTime() - begin >= timeout.toNanos();
                        if (isLast || !reply.shouldRetry())
                            return new Actor.Played<>(reply.orThrow(), result, tries);
                    } catch (PastException over) {
                        if (isLast || !step.isPast())
                            throw over;
                    }
                }
                backOff(tries);
            }
        }

        /** Waits between vain tries, after so many before. */
        static void backOff(int tries) {
            if (Turns.isPlayed())
                return;
            if (tries < TRIES_WITHOUT_WAIT)
                Thread.yield();
            else
                LockSupport.parkNanos(1000L << Math.min(tries - TRIES_WITHOUT_WAIT, LONGEST_WAIT));
        }
    }
}
