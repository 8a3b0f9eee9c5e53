package folugben;

import java.io.IOException;
import java.io.InputStream;
import java.io.UncheckedIOException;
import java.nio.file.Files;
import java.nio.file.Path;
import java.util.Objects;
import java.util.SortedMap;

/**
 * An audit of a run of any length, whose bytes are passed in pieces of any size.
 *
 * <p>A run is a sequence of parts, each a complete journal. Each part opens with the state after
 * the one before it. The auditor holds that state and one line, and reports the first wrong answer
 * at once.
 *
 * <p>Any thread may call it, in one call at a time. No garbage collector releases an auditor: call
 * close().
 *
 * <pre>{@code
 * try (Auditor auditor = new Auditor()) {
 *     Auditor.Counts told = auditor.feed(Path.of("run.journal"));
 *     auditor.end(); // throws an AuditException if the last part isn't complete
 * }
 * }</pre>
 */
public final class Auditor implements AutoCloseable {
    private static final int PIECE = 1 << 16;
    private static final byte[] NOTHING = {};

    private final Slot slot = new Slot();
    private final Room room = new Room();
    private Counts counts = new Counts(0, 0, 0);
    private long taken;
    /** All that was fed, if that is a folder; else null. */
    private FolderAudit folder;

    /** An audit to which nothing was fed. */
    public Auditor() {
        synchronized (slot) {
            take(NOTHING, 0, 0);
        }
    }

    /**
     * The counts of an audit: complete parts, judged calls, and fired moves.
     *
     * <p>Calls and moves count in all parts. The moves before the first part count in none: they
     * are 0, unless the first segments of a run were removed.
     */
    public record Counts(long parts, long calls, long moves, long before) {
        /** Those of a run that begins with its first part. */
        public Counts(long parts, long calls, long moves) {
            this(parts, calls, moves, 0);
        }
    }

    /**
     * Audits a stored run, a folder or one file, and returns its counts.
     *
     * @throws AuditException if it isn't legal, or isn't complete
     * @throws DamagedException if a segment of the folder isn't the one that was saved
     * @throws UncheckedIOException if it can't be read
     */
    public static Counts audit(Path run) {
        try (Auditor auditor = new Auditor()) {
            auditor.feed(run);
            return auditor.end();
        }
    }

    /**
     * Audits the next bytes, any number of them, and returns the counts so far.
     *
     * @throws AuditException for the first wrong answer, and for the first fault; the bytes before
     *         the one at which it is seen, the line feed of its line, were taken
     * @throws OutOfMemoryError if memory is short; feed those that weren't {@link #taken} again
     */
    public Counts feed(byte[] bytes) {
        return feed(Objects.requireNonNull(bytes, "bytes"), 0, bytes.length);
    }

    /** The same of the given number of bytes of the array, from an offset on. */
    public Counts feed(byte[] bytes, int offset, int length) {
        Objects.checkFromIndexSize(offset, length, Objects.requireNonNull(bytes, "bytes").length);
        synchronized (slot) {
            expectOpen();
            if (length > 0)
                leaveFolder();
            for (int at = offset; at < offset + length; at += PIECE)
                take(bytes, at, Math.min(PIECE, offset + length - at));
            return counts();
        }
    }

    /** To be called with its lock, as those below. */
    private void take(byte[] bytes, int at, int length) {
        Code code = asked(bytes, at, length);
        taken += room.written();
        Counts numbers = currentCounts();
        if (code != Code.DONE && asked(NOTHING, 0, 0) == Code.DONE)
            counts = currentCounts();
        expect(code, numbers);
        counts = numbers;
    }

    private Code asked(byte[] bytes, int at, int length) {
        return room.make(bytes, at, length,
                (text, out, size, written)
                        -> Calls.asm_audit(slot.at, text, length, written, room.numbers()));
    }

    private Counts currentCounts() {
        return new Counts(room.wide(0), room.wide(1), room.wide(2));
    }

    private void expect(Code code, Counts numbers) {
        switch (code) {
            case DONE, MEMORY -> FolugbenException.expect(code);
            // Such a line comes without numbers; those of the audit are these.
            case LONG_LINE -> throw new AuditException(code, counts.parts(), 0);
            default -> throw new AuditException(code, numbers.parts(), numbers.calls());
        }
    }

    private void expectOpen() {
        if (!slot.isFull())
            throw FolugbenException.closed("the auditor was closed");
    }

    /**
     * Audits the bytes of a stream up to its end, as feed of bytes does.
     *
     * <p>The stream isn't closed.
     *
     * @throws UncheckedIOException if it can't be read
     */
    public Counts feed(InputStream stream) {
        Objects.requireNonNull(stream, "stream");
        byte[] piece = new byte[PIECE];
        try {
            for (int length; (length = stream.read(piece)) >= 0;) feed(piece, 0, length);
        } catch (IOException fault) {
            throw new UncheckedIOException(fault);
        }
        return counts();
    }

    /**
     * Audits the bytes of a file, or of all segments of a run's folder, as feed does.
     *
     * <p>It reads each byte of a folder once, unless something else was fed or is fed later.
     *
     * @throws DamagedException if a segment isn't the one that was saved
     */
    public Counts feed(Path run) {
        try {
            return Files.isDirectory(run) ? feedFolder(run) : feedFile(run);
        } catch (IOException fault) {
            throw new UncheckedIOException(fault);
        }
    }

    private Counts feedFolder(Path run) throws IOException {
        FolderAudit next = new FolderAudit(run);
        boolean isAll = false;
        try {
            isAll = begin(next);
            if (next.read()) {
                if (!isAll)
                    feedTexts(next);
                return counts();
            }
            end(next);
            return feedFolder(run);
        } catch (Error fault) {
            end(next); // refused memory, after which it may be fed again
            throw fault;
        } finally {
            if (!isAll)
                next.close();
        }
    }

    /** Makes a folder all that was fed, unless something else was. */
    private boolean begin(FolderAudit next) {
        synchronized (slot) {
            expectOpen();
            leaveFolder();
            if (taken > 0)
                return false;
            folder = next;
            return true;
        }
    }

    private void end(FolderAudit next) {
        synchronized (slot) {
            if (folder == next)
                folder = null;
        }
        next.close();
    }

    /** Judges the texts of the folder again, if there is one, as others come after them. */
    private void leaveFolder() {
        FolderAudit left = folder;
        if (left == null)
            return;
        left.expectLegal();
        folder = null;
        try (left) {
            feedTexts(left);
        } catch (IOException fault) {
            throw new UncheckedIOException(fault);
        }
    }

    private void feedTexts(FolderAudit read) throws IOException {
        read.giveTexts((piece, length) -> feed(piece, 0, length));
    }

    private Counts feedFile(Path file) throws IOException {
        try (InputStream stream = Strangers.stream(file)) {
            return feed(stream);
        }
    }

    /** Returns how many of all bytes that were fed were taken. */
    public long taken() {
        synchronized (slot) {
            return folder == null ? taken : folder.bytes();
        }
    }

    /** Returns the counts so far: of the bytes that were taken, or of a folder's judged segments. */
    public Counts counts() {
        synchronized (slot) {
            return folder == null ? counts : folder.counts();
        }
    }

    /**
     * Returns the counts of the run, if it ends here: it is complete and legal.
     *
     * <p>Further bytes may come nevertheless.
     *
     * @throws AuditException CUT or NOT_JSON if its last part or line isn't complete
     */
    public Counts end() {
        synchronized (slot) {
            expectOpen();
            if (folder != null) {
                folder.expectLegal();
                return folder.counts();
            }
            Code code = Code.of(Calls.asm_audited(slot.at, room.numbers()));
            expect(code, currentCounts());
            return currentCounts();
        }
    }

    /**
     * The state [PAIR, ..] that the moves so far leave.
     *
     * @throws FolugbenException NO_PART if no part has begun
     */
    public String state() {
        synchronized (slot) {
            expectOpen();
            if (folder != null)
                return folder.state();
            Calls.Result result = room.resultOf(
                    (text, out, length, written)
                            -> Calls.asm_audit_state(slot.at, out, length, written));
            FolugbenException.expect(result.code());
            return result.text();
        }
    }

    /** The same as objects: the locations that aren't empty with their values, in order. */
    public SortedMap<Location, Value> values() {
        return JsonReader.state(state());
    }

    /** Returns a text such as an audit, Counts[parts=1, calls=3, moves=2, before=0]. */
    @Override
    public String toString() {
        return "an audit, " + counts();
    }

    /** Releases it. */
    @Override
    public void close() {
        synchronized (slot) {
            Calls.asm_free(slot.at);
            if (folder != null)
                folder.close();
        }
    }
}
