package folugben;

import java.io.ByteArrayOutputStream;
import java.io.IOException;
import java.nio.file.FileAlreadyExistsException;
import java.nio.file.NoSuchFileException;
import java.util.ArrayList;
import java.util.Arrays;
import java.util.List;
import java.util.zip.DataFormatException;
import java.util.zip.Deflater;
import java.util.zip.Inflater;

/**
 * The log of a shared run, over one connection.
 *
 * <p>It has fire calls in one order, and the segments made of them, under the chain of digests.
 */
final class SharedLog {
    /** How many calls one transaction appends, and one read returns. */
    static final int BATCH = 500;
    static final int READ = 5_000;

    /** Text is compressed in pieces of so many bytes, each by itself. */
    private static final int PIECE = 1 << 20;
    /** How many saved segments keep their calls in the log, for a slow process. */
    private static final int KEPT = 2;
    private static final String SEGMENT = "select number, first_move, moves, events, digest from INsegment";

    /**
     * A fire call: whose it is, and in which segment its step began.
     *
     * <p>It names what it depends on by that segment's numbers.
     */
    record Call(byte[] token, long segment, int agent, String call, String scans) {
        private Object[] row() {
            return new Object[] {token, segment, agent, call, scans};
        }
    }

    /** A call of the log at its place. */
    record LogEntry(long place, Call call) {}

    /** A segment, and the place at which it ended. */
    record SegmentEnd(Segment segment, long place) {}

    /** Makes the opening journal for so many moves. */
    interface Opening {
        byte[] journal(int moves);
    }

    /** Calls that this process hasn't applied were dropped from the log, as they are saved. */
    static final class OutdatedException extends Exception {
        private static final long serialVersionUID = 1;
    }

    private final String target;
    private Database database;
    private int moves;

    private SharedLog(String target, Database database) {
        this.target = target;
        this.database = database;
    }

    /**
     * Opens a run to write, or makes it if an opening is passed.
     *
     * @throws NoSuchFileException if there is no run
     * @throws MismatchException if the run has another opening state, or was made by another
     *         version
     */
    static SharedLog open(String target, Opening opening, int moves) throws IOException {
        SharedLog log = new SharedLog(target, Database.connect(target, opening != null));
        boolean isOpen = false;
        try {
            log.join(opening, moves);
            isOpen = true;
            return log;
        } finally {
            if (!isOpen)
                log.close();
        }
    }

    /** Opens a run to read. */
    static SharedLog read(String target) throws IOException {
        SharedLog log = new SharedLog(target, Database.connectToRead(target));
        boolean isOpen = false;
        try {
            log.check();
            isOpen = true;
            return log;
        } finally {
            if (!isOpen)
                log.close();
        }
    }

    private void join(Opening opening, int most) throws IOException {
        if (opening == null && !database.hasRun())
            throw missingRun();
        try {
            makeOrJoin(opening, most);
        } catch (FileAlreadyExistsException made) {
            makeOrJoin(opening, most); // another process has made it meanwhile
        }
        if (opening != null
                && !Trail.after(Segment.START, 0, 0, opening.journal(moves)).equals(segment(0)))
            throw new MismatchException("the run has another opening state: " + Strangers.shown(target));
    }

    private void makeOrJoin(Opening opening, int most) throws IOException {
        // This commit flushes what an earlier, killed process left unflushed.
        database.transact(() -> {
            if (opening != null && !database.hasRun())
                make(opening.journal(most), most);
            check();
            run("update INrun set joined = joined + 1");
        });
    }

    /** Runs a statement, in which each table has IN before its name. */
    private List<Object[]> run(String sql, Object... values) throws IOException {
        return database.run(sql.replace("IN", database.inside()), values);
    }

    private NoSuchFileException missingRun() {
        return new NoSuchFileException(Strangers.shown(target), null, "there is no run");
    }

    private void make(byte[] opening, int most) throws IOException {
        database.make();
        for (String statement : Tables.ALL.replace("BLOB", database.blob()).split(";")) run(statement);
        run("insert into INrun values (1, ?, ?, 0)", Tables.FORMAT, most);
        insert(Trail.after(Segment.START, 0, 0, opening), opening, 0);
    }

    private void check() throws IOException {
        List<Object[]> rows =
                database.hasRun() ? run("select format, moves from INrun") : List.of();
        if (rows.isEmpty())
            throw missingRun();
        long format = Tables.count(rows.get(0)[0], 0);
        if (format != Tables.FORMAT)
            throw new MismatchException("the tables are of version " + format + ", and these classes read "
                    + Tables.FORMAT + ": " + Strangers.shown(target));
        moves = (int) Tables.count(rows.get(0)[1], Storage.CAPACITY, 0);
        Tables.expect(moves > 0, 0, "a segment has no move");
    }

    String target() {
        return target;
    }

    /** Returns the most moves of a segment. */
    int moves() {
        return moves;
    }

    /** Connects again. */
    void reconnect() throws IOException {
        database.close();
        database = Database.connect(target, false);
    }

    boolean hold(int agent) throws IOException {
        return database.hold(agent);
    }

    void let(int agent) throws IOException {
        database.let(agent);
    }

    /**
     * Appends calls, except those whose token is there, and reads those after a place.
     *
     * <p>Each is appended at the next place. The returned calls are durable.
     *
     * @throws OutdatedException if the log doesn't have the next one any more
     */
    List<LogEntry> exchange(List<Call> calls, long applied) throws IOException, OutdatedException {
        List<LogEntry> found = new ArrayList<>();
        for (Object[] row :
                database.append(calls.stream().map(Call::row).toList(), applied, READ))
            found.add(Tables.call(row));
        // Of calls that were appended twice the later place stays empty.
        if (!found.isEmpty() && found.get(0).place > applied + 1)
            expectUpToDate(applied);
        return found;
    }

    private long asked(String sql, Object... values) throws IOException {
        List<Object[]> rows = run(sql, values);
        Tables.expect(rows.size() == 1, 0, "a row is missing");
        return Tables.count(rows.get(0)[0], 0);
    }

    private void expectUpToDate(long applied) throws IOException, OutdatedException {
        long dropped = asked("select coalesce(max(last_place), 0) from INsegment where number <="
                        + " (select max(number) from INsegment) - ?",
                KEPT);
        if (dropped > applied)
            throw new OutdatedException();
    }

    /**
     * Saves a segment that ended at a place, unless another process has.
     *
     * <p>It drops calls that nobody needs.
     *
     * @throws DamagedException if another process has saved another one
     */
    void save(Segment segment, byte[] text, long lastPlace) throws IOException {
        database.transact(() -> {
            List<Object[]> there =
                    run("select digest from INsegment where number = ?", segment.number());
            if (there.isEmpty()) {
                insert(segment, text, lastPlace);
                run("delete from INcall where place <="
                                + " (select last_place from INsegment where number = ?)",
                        segment.number() - KEPT);
            } else if (!there.get(0)[0].equals(segment.digest())) {
                throw new DamagedException(
                        segment.number(), "another process has saved another text of it");
            }
        });
    }

    private void insert(Segment segment, byte[] text, long lastPlace) throws IOException {
        run("insert into INsegment values (?, ?, ?, ?, ?, ?, ?)", segment.number(),
                segment.first(), segment.moves(), segment.events(), segment.digest(),
                (long) text.length, lastPlace);
        for (int at = 0, place = 0; at < text.length; at += PIECE, place++)
            run("insert into INpiece values (?, ?, ?)", segment.number(), place,
                    compressed(text, at, Math.min(PIECE, text.length - at)));
    }

    private static byte[] compressed(byte[] text, int at, int length) {
        Deflater deflater = new Deflater(1);
        deflater.setInput(text, at, length);
        deflater.finish();
        ByteArrayOutputStream all = new ByteArrayOutputStream();
        byte[] some = new byte[1 << 16];
        while (!deflater.finished()) all.write(some, 0, deflater.deflate(some));
        deflater.end();
        return all.toByteArray();
    }

    /** Returns the bytes of a piece; none if they are damaged. */
    private static byte[] decompressed(byte[] data) {
        Inflater inflater = new Inflater();
        inflater.setInput(data);
        byte[] piece = new byte[PIECE + 1]; // its end is seen only if there is room left
        try {
            int length = inflater.inflate(piece);
            return inflater.finished() && length <= PIECE ? Arrays.copyOf(piece, length) : new byte[0];
        } catch (DataFormatException damage) {
            return new byte[0];
        } finally {
            inflater.end();
        }
    }

    /** Returns the segments that are saved. */
    List<Segment> segments() throws IOException {
        List<Segment> segments = new ArrayList<>();
        Segment last = Segment.START;
        for (Object[] row : run(SEGMENT + " order by number")) {
            Segment next = Tables.segment(row, last.number() + 1, last);
            if (next.number() != last.number() + 1 || next.first() != last.end())
                throw new DamagedException(
                        last.number() + 1, "its row is missing, or has other numbers");
            segments.add(last = next);
        }
        return segments;
    }

    private Segment segment(long number) throws IOException {
        List<Object[]> rows =
                run(SEGMENT + " where number between ? and ? order by number", number - 1, number);
        Tables.expect(rows.size() == Math.min(number, 1) + 1, number, "its row is missing");
        Segment segment = Segment.START;
        for (Object[] row : rows) segment = Tables.segment(row, number, segment);
        return segment;
    }

    /** Returns the last segment. */
    SegmentEnd last() throws IOException {
        return ended(segment(asked("select max(number) from INsegment")));
    }

    /** Returns a segment with the place at which it ended. */
    SegmentEnd ended(Segment segment) throws IOException {
        return new SegmentEnd(segment,
                asked("select last_place from INsegment where number = ?", segment.number()));
    }

    /** Returns how many bytes the text of a segment has. */
    long length(Segment segment) throws IOException {
        return asked("select length from INsegment where number = ?", segment.number());
    }

    /** Writes the text of a segment to the sink, piece by piece; the pieces alone are checked. */
    void text(Segment segment, Trail.Sink sink) throws IOException {
        long number = segment.number();
        long length = length(segment);
        long done = 0;
        for (int place = 0; done < length; place++) {
            List<Object[]> data = run("select data from INpiece where segment = ? and place = ?", number, place);
            byte[] piece = data.isEmpty() || !(data.get(0)[0] instanceof byte[] packed) ? new byte[0]
                                                                                        : decompressed(packed);
            if (piece.length == 0)
                throw new DamagedException(number,
                        "its piece " + place + " is missing or isn't the one that was saved");
            sink.take(piece, piece.length);
            done += piece.length;
        }
    }

    void close() {
        database.close();
    }
}
