package folugben;

import java.io.IOException;
import java.nio.ByteBuffer;
import java.security.SecureRandom;
import java.util.ArrayList;
import java.util.HashMap;
import java.util.List;
import java.util.Map;
import java.util.concurrent.CompletableFuture;
import java.util.concurrent.CompletionException;
import java.util.concurrent.locks.Condition;
import java.util.concurrent.locks.ReentrantLock;

/**
 * The thread of a shared run, which appends this process's calls to the log.
 *
 * <p>It also applies the log to the replica. An answer is returned once its call is durable in the
 * log, and applied.
 */
final class SharedWorker {
    /** How often it polls for calls of other processes, in ns. */
    private static final long PAUSE = 10_000_000;
    /** The longest wait for further calls, in ns; else a quarter of a transaction. */
    private static final long MOMENT = 2_000_000;
    private static final int TOKEN = 16;
    private static final SecureRandom RANDOM = new SecureRandom();

    /** A call of an agent that waits for its answer. */
    private static final class Waiter {
        final SharedLog.Call call;
        final CompletableFuture<Replica.Answer> answer = new CompletableFuture<>();
        /** Whether the call may be in the log. */
        boolean isSent;

        Waiter(SharedLog.Call call) {
            this.call = call;
        }

        ByteBuffer token() {
            return ByteBuffer.wrap(call.token());
        }
    }

    private final SharedLink link;
    private final Thread thread;
    /** All below with this lock. */
    private final ReentrantLock lock = new ReentrantLock();
    private final Condition changed = lock.newCondition();
    private volatile Replica replica;
    /** Calls that must be appended; those that may be in the log, by their tokens. */
    private List<Waiter> waiting = new ArrayList<>();
    private final Map<ByteBuffer, Waiter> sent = new HashMap<>();
    /** How many calls are expected at once, as so many were answered last, and for how long. */
    private int expected = 1;
    private long moment;
    /** How often all that is in the log was asked for, and applied. */
    private long asked;
    private long applied;
    private volatile Throwable fault;
    private volatile boolean isClosing;

    SharedWorker(SharedLog log) throws IOException {
        link = new SharedLink(log);
        boolean hasStarted = false;
        try {
            replica = new Replica(log, log.last());
            hasStarted = true;
        } finally {
            if (!hasStarted)
                link.close();
        }
        thread = new Thread(this::work, "folugben " + Strangers.shown(log.target()));
        thread.setDaemon(true);
        thread.start();
    }

    /** Throws if the run doesn't go on. */
    void expectRunning() {
        if (fault != null)
            throw broken();
        if (isClosing)
            throw FolugbenException.closed("the run was closed");
    }

    private BrokenException broken() {
        return new BrokenException(replica.era().number, fault);
    }

    Replica.Era era() {
        return replica.era();
    }

    // The calls of agents.

    /** Appends a call; returns its reply, once it is durable. */
    Actor.Reply answer(long segment, int agent, String call, String scans) {
        byte[] token = new byte[TOKEN];
        RANDOM.nextBytes(token);
        Waiter waiter = new Waiter(new SharedLog.Call(token, segment, agent, call, scans));
        lock.lock();
        try {
            expectRunning();
            waiting.add(waiter);
            if (waiting.size() >= expected)
                changed.signalAll();
        } finally {
            lock.unlock();
        }
        return answer(waiter);
    }

    /**
     * Waits for the answer; an interruption is kept for later.
     *
     * <p>The call can't be taken back.
     */
    private Actor.Reply answer(Waiter waiter) {
        Replica.Answer answer;
        try {
            answer = waiter.answer.join();
        } catch (CompletionException failed) {
            if (failed.getCause() instanceof UnknownException)
                throw new UnknownException();
            expectRunning();
            throw failed;
        }
        if (answer.error() != null)
            throw answer.error();
        return answer.reply();
    }

    /** Waits until all is applied that is in the log now. */
    void follow() {
        lock.lock();
        try {
            expectRunning();
            long own = ++asked;
            changed.signalAll();
            while (applied < own) {
                expectRunning();
                changed.awaitUninterruptibly();
            }
        } finally {
            lock.unlock();
        }
    }

    /** Returns an agent of the newest segment, which the place then has, to begin steps. */
    Agent come(Replica.Era[] place) {
        lock.lock();
        try {
            place[0] = replica.era();
            return place[0].agent();
        } finally {
            lock.unlock();
        }
    }

    /** Takes the agent back. */
    void leave(Replica.Era era, Agent agent) {
        lock.lock();
        try {
            era.leave(agent);
        } finally {
            lock.unlock();
        }
    }

    /** Returns the number of moves that are applied, and the state after them. */
    Actor.State state() {
        lock.lock();
        try {
            expectRunning();
            return replica.state();
        } finally {
            lock.unlock();
        }
    }

    /** Returns the connection. */
    SharedLink link() {
        return link;
    }

    /**
     * Ends it, once all calls that wait are answered.
     *
     * @throws BrokenException if the run has ended by a fault
     */
    void close() {
        lock.lock();
        try {
            isClosing = true;
            changed.signalAll();
        } finally {
            lock.unlock();
        }
        Patience.join(thread);
        if (fault != null)
            throw broken();
    }

    // The work of the thread.

    private void work() {
        try {
            while (isRunning()) turn();
        } catch (Throwable failed) {
            fault = failed;
        } finally {
            end();
        }
    }

    private boolean isRunning() {
        lock.lock();
        try {
            if (expected > 1 && !isDue())
                await(moment);
            expected = 1;
            if (!isDue())
                await(PAUSE);
            return !isClosing || !waiting.isEmpty() || !sent.isEmpty();
        } finally {
            lock.unlock();
        }
    }

    private boolean isDue() {
        return waiting.size() >= expected || isClosing || asked != applied;
    }

    private void await(long most) {
        try {
            changed.awaitNanos(most);
        } catch (InterruptedException woken) {
            // Nobody interrupts this thread except to have it check again.
        }
    }

    private void turn() throws IOException {
        long start = System.nanoTime();
        List<Waiter> batch = new ArrayList<>();
        long own;
        lock.lock();
        try {
            List<Waiter> first = waiting.subList(0, Math.min(SharedLog.BATCH, waiting.size()));
            batch.addAll(first);
            first.clear();
            own = asked;
            for (Waiter waiter : batch) sent.put(waiter.token(), waiter);
        } finally {
            lock.unlock();
        }
        List<SharedLog.LogEntry> placed;
        try {
            placed = exchange(batch);
        } catch (SharedLog.OutdatedException behind) {
            rejoin();
            return;
        }
        moment = Math.min(MOMENT, (System.nanoTime() - start) / 4);
        apply(placed);
        if (placed.size() < SharedLog.READ)
            noteApplied(own);
    }

    private void noteApplied(long own) {
        lock.lock();
        try {
            applied = own;
            changed.signalAll();
        } finally {
            lock.unlock();
        }
    }

    /** Applies calls to the replica. Agents are woken after all, as they would slow it. */
    private void apply(List<SharedLog.LogEntry> placed) throws IOException {
        Map<Waiter, Replica.Answer> answered = new HashMap<>();
        try {
            for (SharedLog.LogEntry next : placed) {
                Waiter waiter = sent.get(ByteBuffer.wrap(next.call().token()));
                Replica.Effect applied;
                lock.lock();
                try {
                    applied = replica.apply(next, waiter != null);
                    if (waiter != null)
                        sent.remove(waiter.token());
                } finally {
                    lock.unlock();
                }
                if (waiter != null)
                    answered.put(waiter, applied.answer());
                if (applied.ended() != null)
                    save(applied.ended());
            }
        } finally {
            lock.lock();
            try {
                expected = Math.max(1, answered.size());
            } finally {
                lock.unlock();
            }
            answered.forEach((waiter, answer) -> waiter.answer.complete(answer));
        }
    }

    private List<SharedLog.LogEntry> exchange(List<Waiter> first)
            throws IOException, SharedLog.OutdatedException {
        return link.exchange(new SharedLink.Exchange() {
            /** First the new ones; over another connection all calls that may be there. */
            private List<Waiter> batch = first;

            @Override
            public List<SharedLog.Call> calls() {
                return batch.stream().map(it -> it.call).toList();
            }

            @Override
            public void sent() {
                batch.forEach(it -> it.isSent = true);
                batch = new ArrayList<>(sent.values());
            }
        }, replica.applied());
    }

    private void save(Replica.EndedSegment ended) throws IOException {
        link.reach(log -> {
            log.save(ended.segment(), ended.text(), ended.place());
            return null;
        });
    }

    /** Goes on from the last segment, if the calls before it were dropped from the log. */
    private void rejoin() throws IOException {
        Replica next = link.reach(log -> new Replica(log, log.last()));
        lock.lock();
        try {
            replica.close();
            replica = next;
            // What was sent just now is after that. Of what was sent before, the answer may have
            // been dropped with the call.
            sent.values().removeIf(it -> it.isSent
                    && it.answer.completeExceptionally(new UnknownException()));
            sent.values().forEach(it -> it.isSent = true);
        } finally {
            lock.unlock();
        }
    }

    private void end() {
        lock.lock();
        try {
            isClosing = true;
            RuntimeException error = new IllegalStateException("the run has ended");
            waiting.forEach(it -> it.answer.completeExceptionally(error));
            sent.values().forEach(it -> it.answer.completeExceptionally(error));
            waiting.clear();
            sent.clear();
            changed.signalAll();
            replica.close();
        } finally {
            lock.unlock();
            link.close();
        }
    }
}
