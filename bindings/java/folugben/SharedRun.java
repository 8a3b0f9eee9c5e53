package folugben;

import java.io.IOException;
import java.io.OutputStream;
import java.io.UncheckedIOException;
import java.nio.ByteBuffer;
import java.util.List;
import java.util.Map;
import java.util.Objects;

/**
 * A run whose moves are kept in a database, for agents in many processes.
 *
 * <pre>{@code
 * try (SharedRun run = SharedRun.open(Map.of(Location.of("balance"), 0), "bank.db");
 *         SharedAgent anna = run.agent(0)) {
 *     anna.play(deposit);
 * }
 * }</pre>
 *
 * <p>The processes may be on many machines. The target is a file of SQLite, for the processes of
 * one machine, or postgresql://host/base, for those of many; a name after a # is the schema, one
 * for each run. The JDBC driver is the caller's. The first process opens the run, with its opening
 * state and the number of moves of a segment; others join it. Runs of the Python package are the
 * same.
 *
 * <p>An answer is returned when its move is durable in the database. No answered move is lost or
 * done twice, whichever process, connection or server dies. All processes have the same states in
 * the same order. Call close().
 */
public final class SharedRun implements AutoCloseable {
    /** The number of moves in a segment, by default. */
    public static final int MOVES = 10_000;

    private final String target;
    private final SharedWorker worker;
    private final SharedAgent[] agents = new SharedAgent[Storage.AGENTS];

    private SharedRun(String target, SharedLog.Opening opening, int moves) throws IOException {
        this.target = target;
        worker = new SharedWorker(SharedLog.open(target, opening, moves));
    }

    /**
     * Opens the run, or joins it if it is there.
     *
     * <p>The values of its opening state are such as {@link Value#of} takes.
     *
     * @throws MismatchException if it has another opening state, or tables of another version
     * @throws DamagedException if there is something else than a run
     * @throws UncheckedIOException if the server doesn't answer, as a ConnectException; if the file
     *         can't be opened or the database not be written, as an AccessDeniedException
     * @throws IllegalStateException if no JDBC driver is on the class path
     * @throws TooLongException if the opening state is too long for a line
     */
    public static SharedRun open(Map<Location, ?> init, String target) {
        return open(init, target, MOVES);
    }

    /**
     * Opens the run with the given number of moves in a segment, or joins it if it is there.
     *
     * <p>The number is 1 to 1,048,576; it has no effect on a run that is there.
     */
    public static SharedRun open(Map<Location, ?> init, String target, int moves) {
        return open(JsonWriter.state(init, "init"), target, moves);
    }

    /** Opens or joins such a run with an opening state [PAIR, ..]. */
    public static SharedRun open(String init, String target, int moves) {
        Objects.requireNonNull(init, "init");
        Storage.expectCapacity(moves);
        return reaching(() -> new SharedRun(target(target), most -> opening(init, most), moves));
    }

    /**
     * Joins a run that is there.
     *
     * @throws UncheckedIOException as a NoSuchFileException if there is none; as open
     * @throws MismatchException if it has tables of another version
     */
    public static SharedRun join(String target) {
        return reaching(() -> new SharedRun(target(target), null, MOVES));
    }

    private static String target(String target) {
        return Objects.requireNonNull(target, "target");
    }

    private static byte[] opening(String init, int moves) {
        try (Storage storage = new Storage(init, moves)) {
            ByteBuffer journal = storage.closeJournal(new Room());
            byte[] text = new byte[journal.remaining()];
            journal.get(text);
            return text;
        }
    }

    private interface Work<T> {
        T done() throws IOException;
    }

    private static <T> T reaching(Work<T> work) {
        try {
            return work.done();
        } catch (Database.LostException lost) {
            throw new UncheckedIOException(Postgres.unanswered(lost));
        } catch (IOException fault) {
            throw new UncheckedIOException(fault);
        }
    }

    /** Returns its target. */
    public String target() {
        return target;
    }

    /**
     * Makes an agent with this number, 0 to 255.
     *
     * <p>No other agent has the number, here or in another process that lives.
     *
     * @throws FolugbenException NUMBER if it is in use
     * @throws BrokenException if the run has ended
     */
    public SharedAgent agent(int number) {
        Storage.expectNumber(number);
        synchronized (agents) {
            worker.expectRunning();
            if (agents[number] != null && !agents[number].isClosed())
                throw FolugbenException.numberTaken(number);
            if (!reaching(() -> worker.link().hold(number)))
                throw FolugbenException.numberInUse(number);
            return agents[number] = new SharedAgent(this, worker, number);
        }
    }

    /** Returns the number of moves by now, of all processes, and the state after them. */
    public Actor.State state() {
        worker.follow();
        return worker.state();
    }

    /**
     * Leaves the run, which goes on in other processes; it may be called again.
     *
     * @throws BrokenException if the run has ended for this process by a fault
     */
    @Override
    public void close() {
        worker.close();
    }

    @Override
    public String toString() {
        return "SharedRun " + Strangers.shown(target);
    }

    /**
     * Audits a shared run, also while it goes on.
     *
     * @throws AuditException if it isn't legal
     * @throws DamagedException if a segment isn't the one that was saved
     * @throws UncheckedIOException as {@link #join}
     */
    public static Auditor.Counts audit(String target) {
        try (Trail trail = new Trail()) {
            read(target, (segment, length, source) -> trail.take(segment.name(), length, source));
            return trail.counts();
        }
    }

    /** Writes all of the log by now to one file, which {@link Auditor#audit} reads. */
    public static void save(String target, OutputStream out) {
        read(target, (segment, length, source) -> {
            Trail.verify(segment, length, source); // the digest comes first
            source.give((piece, size) -> write(out, piece, size));
        });
    }

    private static void write(OutputStream out, byte[] text, int length) {
        try {
            out.write(text, 0, length);
        } catch (IOException fault) {
            throw new UncheckedIOException(fault);
        }
    }

    private interface SegmentReader {
        void read(Segment segment, long length, Trail.Source source) throws IOException;
    }

    /** Reads all segments of a run, and what is after the last one. */
    private static void read(String target, SegmentReader reader) {
        reaching(() -> {
            SharedLog log = SharedLog.read(target(target));
            try {
                Segment last = Segment.START;
                while (true) {
                    List<Segment> all = log.segments();
                    for (Segment next : all.subList((int) last.number() + 1, all.size())) {
                        reader.read(next, log.length(next), sink -> log.text(next, sink));
                        last = next;
                    }
                    try {
                        for (Replica.EndedSegment it : Replica.rest(log, last))
                            reader.read(it.segment(), it.text().length,
                                    sink -> sink.take(it.text(), it.text().length));
                        return null;
                    } catch (SharedLog.OutdatedException behind) {
                        // Further segments were saved meanwhile.
                    }
                }
            } finally {
                log.close();
            }
        });
    }
}
