package folugben;

import java.io.IOException;
import java.util.List;
import java.util.Set;
import java.util.TreeSet;
import java.util.concurrent.TimeUnit;
import java.util.concurrent.locks.ReentrantLock;

/**
 * The connection of a process to the log of a shared run.
 *
 * <p>If it is lost, it is made again. One thread at a time uses it.
 */
final class SharedLink {
    /** How long it tries to reach a server again. */
    private static final long PATIENCE = TimeUnit.SECONDS.toNanos(60);
    private static final long LONGEST_PAUSE = 1000;

    /** What may be done again over a new connection. */
    interface Work<T> {
        T done(SharedLog log) throws IOException;
    }

    private final SharedLog log;
    private final ReentrantLock lock = new ReentrantLock();
    /** The numbers of this process's agents. */
    private final Set<Integer> held = new TreeSet<>();
    private boolean isClosed;

    SharedLink(SharedLog log) {
        this.log = log;
    }

    String target() {
        return log.target();
    }

    /** Does what may be done again, over a new connection if one is lost. */
    <T> T reach(Work<T> work) throws IOException {
        lock.lock();
        try {
            while (true)
                try {
                    return work.done(log);
                } catch (Database.LostException lost) {
                    reconnect(lost);
                }
        } finally {
            lock.unlock();
        }
    }

    /** Takes an agent's number; returns whether no other process has it. */
    boolean hold(int agent) throws IOException {
        return reach(log -> {
            if (isClosed)
                throw FolugbenException.closed("the run was closed");
            boolean isLocked = log.hold(agent);
            if (isLocked)
                held.add(agent);
            return isLocked;
        });
    }

    /** Frees the number for others. */
    void let(int agent) throws IOException {
        reach(log -> {
            held.remove(agent);
            if (!isClosed)
                log.let(agent);
            return null;
        });
    }

    /** Connects again, and takes the numbers of the agents again. */
    private void reconnect(Database.LostException lost) throws IOException {
        long end = System.nanoTime() + PATIENCE;
        for (long pause = 10;; pause = Math.min(LONGEST_PAUSE, 2 * pause))
            try {
                log.reconnect();
                for (int agent : held)
                    if (!log.hold(agent))
                        throw FolugbenException.closed("another process has taken an agent's number"
                                + " while the server was away");
                return;
            } catch (Database.LostException again) {
                if (System.nanoTime() > end)
                    throw lost;
                Patience.rest(pause);
            }
    }

    /** Appends calls and reads those after a place; is notified of what may be there. */
    interface Exchange {
        /** Returns the calls that are sent now. */
        List<SharedLog.Call> calls();

        /** Notes that they may be in the log from now on. */
        void sent();
    }

    List<SharedLog.LogEntry> exchange(Exchange calls, long applied)
            throws IOException, SharedLog.OutdatedException {
        SharedLog.OutdatedException[] behind = new SharedLog.OutdatedException[1];
        List<SharedLog.LogEntry> placed = reach(log -> {
            try {
                return log.exchange(calls.calls(), applied);
            } catch (SharedLog.OutdatedException error) {
                behind[0] = error;
                return null;
            } finally {
                if (behind[0] == null)
                    calls.sent();
            }
        });
        if (behind[0] != null)
            throw behind[0];
        return placed;
    }

    void close() {
        lock.lock();
        try {
            isClosed = true;
            log.close();
        } finally {
            lock.unlock();
        }
    }
}
