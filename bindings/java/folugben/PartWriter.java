package folugben;

import com.sun.jna.Function;
import com.sun.jna.NativeLibrary;

import java.io.IOException;
import java.io.UncheckedIOException;
import java.nio.ByteBuffer;
import java.time.Duration;

/**
 * A thread that closes the parts of a run in order, saves and releases them.
 *
 * <p>It saves their journals in the run's folder. Its lock is taken last of all, and it holds none
 * while it asks for another.
 */
final class PartWriter {
    /** How many parts may be over and not written before agents wait, besides the next. */
    private static final int BEHIND = 1;
    /** The longest time between two checks for the first move of a part, in ms. */
    private static final long LONGEST_DELAY = 50;
    /** How long an agent may stay, in ms, in a step of a part that is full, or ends at rest. */
    private static final long PATIENCE = 100;

    private final Run run;
    private final RunFolder folder;
    private final Room room = new Room();
    private final FreeMemory free = new FreeMemory();
    private final Thread thread = new Thread(this::work, "folugben run");

    /** The oldest part that isn't written, which this thread alone changes. */
    private volatile Part head;
    private volatile long parts;
    private volatile long saved;
    /** How many ns after its first move a part ends at rest; 0 for never. */
    private volatile long every;
    /** How many segments stay. */
    private volatile int kept = Integer.MAX_VALUE;
    /** All below with the lock of this. How often what may be waited for has changed. */
    private long changes;
    private boolean isClosing;
    private boolean isDone;

    PartWriter(Run run, RunFolder folder, Part first) {
        this.run = run;
        this.folder = folder;
        head = first;
        parts = first.number;
        saved = first.before();
        thread.setDaemon(true);
    }

    void start() {
        thread.start();
    }

    /** Returns how many parts are on the disk. */
    long parts() {
        return parts;
    }

    /** Returns how many moves these have. */
    long saved() {
        return saved;
    }

    /** Wakes this thread, and all who wait for it, to check again. */
    synchronized void wake() {
        changes++;
        notifyAll();
    }

    /**
     * Waits until the newest part isn't over, or the run has ended.
     *
     * <p>If so wanted, it waits until enough was written too.
     */
    synchronized void awaitPart(boolean waitsForRoom) {
        boolean isInterrupted = false;
        while (run.isRunning() && (run.newest().isOver() || waitsForRoom && isBehind()))
            isInterrupted |= !awaitChange(0);
        if (isInterrupted)
            Thread.currentThread().interrupt();
    }

    private boolean isBehind() {
        return run.newest().number - head.number > BEHIND;
    }

    /** Waits, with the lock, for a change or some ms; returns false if interrupted. */
    private boolean awaitChange(long most) {
        try {
            wait(most);
            return true;
        } catch (InterruptedException error) {
            return false;
        }
    }

    /** Waits until the part with this number is written, or the run has ended. */
    synchronized void awaitWritten(long number) {
        boolean isInterrupted = false;
        while (run.isRunning() && head.number <= number) isInterrupted |= !awaitChange(0);
        if (isInterrupted)
            Thread.currentThread().interrupt();
    }

    /** Saves each part this long after its first move, also if the agents rest. */
    void every(Duration time) {
        every = time.toNanos();
        wake();
    }

    /** Removes older segments than the last ones after each save. */
    void keep(int segments) {
        kept = segments;
    }

    /** Saves all fired moves, and waits until they are on the disk. */
    synchronized void close() {
        isClosing = true;
        wake();
        boolean isInterrupted = false;
        while (!isDone) isInterrupted |= !awaitChange(0);
        if (isInterrupted)
            Thread.currentThread().interrupt();
    }

    private synchronized boolean isClosing() {
        return isClosing;
    }

    private void work() {
        try {
            do awaitComplete();
            while (write());
        } catch (Throwable fault) {
            run.fail(head.number, fault);
        }
        try {
            release();
        } catch (Throwable fault) {
            run.fail(head.number, fault);
        } finally {
            end();
        }
    }

    private synchronized void end() {
        isDone = true;
        wake();
    }

    /**
     * Waits until the next part is complete.
     *
     * <p>It takes back agents that are in no step, or too long in one.
     */
    private void awaitComplete() {
        long begin = 0;
        long first = 0;
        while (true) {
            long seen = seen();
            if (every > 0 && first == 0 && !head.isOver() && head.storage.moves() > 0)
                first = System.nanoTime();
            if (isClosing() || every > 0 && first != 0 && System.nanoTime() - first >= every)
                head.end();
            if (head.isOver() && begin == 0)
                begin = System.nanoTime();
            long left = PATIENCE - (System.nanoTime() - begin) / 1_000_000;
            if (head.isOver())
                run.takeBack(head, isClosing(), left <= 0);
            if (head.isComplete())
                return;
            awaitChange(seen, head.isOver() ? Math.max(left, 0) : checkDelay());
        }
    }

    /** Returns after how many ms to check again if a part must end; 0 for never. */
    private long checkDelay() {
        return every == 0 ? 0 : Math.min(LONGEST_DELAY, Math.max(1, every / 4_000_000));
    }

    private synchronized long seen() {
        return changes;
    }

    private synchronized void awaitChange(long seen, long most) {
        if (changes == seen)
            awaitChange(most);
    }

    /** Writes the next part, which is complete; returns whether a further one comes. */
    private boolean write() {
        Part ended = head;
        ByteBuffer journal = ended.storage.closeJournal(room);
        boolean isLast = ended.next() == null && isClosing();
        if (ended.next() == null && !isLast)
            ended.openNextAtRest();
        long events = events(journal);
        try {
            if (!isLast || events > 0)
                add(ended, journal, events);
        } catch (IOException fault) {
            throw new UncheckedIOException(fault);
        }
        if (isLast)
            return false;
        ended.storage.close();
        free.count(journal.limit());
        head = ended.next();
        wake();
        return true;
    }

    private void add(Part ended, ByteBuffer journal, long events) throws IOException {
        Part next = ended.next();
        long end = next == null ? ended.before() + ended.storage.moves() : next.before();
        folder.save(journal.duplicate(), end - ended.before(), events);
        saved = end;
        parts++;
        folder.keep(kept);
    }

    /** Returns how many events a journal has, which are the lines after its header. */
    static long events(ByteBuffer journal) {
        long lines = 0;
        for (int at = 0; at < journal.limit(); at++)
            if (journal.get(at) == '\n')
                lines++;
        return lines - 1;
    }

    /** Releases all that is left, of which nothing is written any more. */
    private void release() throws IOException {
        for (Part left = head; left != null; left = left.end()) {
            left.end();
            run.drop(left);
            left.storage.close();
        }
        folder.close();
    }

    /**
     * Returns released memory to the system.
     *
     * <p>The C library keeps it for the thread that allocated it. As each part of a run is
     * allocated by other threads than the one that releases it, a long run would otherwise keep
     * more and more.
     */
    static final class FreeMemory {
        /** How many bytes of journals are written between two releases. */
        private static final long BETWEEN = 8_000_000;
        /** Null if the C library has no such call. */
        private final Function trim = found();
        private long left = BETWEEN;

        private static Function found() {
            try {
                return NativeLibrary.getInstance("c").getFunction("malloc_trim");
            } catch (UnsatisfiedLinkError error) {
                return null;
            }
        }

        /** Counts so many bytes of a journal, and releases free memory after enough. */
        void count(long bytes) {
            left -= bytes;
            if (left > 0 || trim == null)
                return;
            left = BETWEEN;
            trim.invokeInt(new Object[] {0L});
        }
    }
}
