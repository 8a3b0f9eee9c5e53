package folugben;

import java.io.IOException;
import java.nio.ByteBuffer;
import java.nio.channels.FileChannel;
import java.nio.file.Path;
import java.util.ArrayList;
import java.util.List;

/**
 * Takes the segments of a run in their order, each name and each text once.
 *
 * <p>The library checks the names, the digests and the journals.
 */
final class Trail implements AutoCloseable {
    private static final int PIECE = 1 << 16;

    /** Takes a piece of a text. */
    interface Sink {
        void take(byte[] piece, int length);
    }

    /** Writes its text to a sink, piece by piece. */
    interface Source {
        void give(Sink sink) throws IOException;
    }

    /** What was taken so far, after which segments may be saved. */
    final RunCore core = new RunCore();

    private Segment last = Segment.START;
    private volatile Auditor.Counts counts = new Auditor.Counts(0, 0, 0);
    private volatile long bytes;
    /** How many moves come before the first text that was taken. */
    private long before;

    /** Returns the last segment that was taken or saved. */
    Segment last() {
        return last;
    }

    /** Sets the segment that was saved last. */
    void last(Segment saved) {
        last = saved;
    }

    /** Returns the counts of all texts that were taken. */
    Auditor.Counts counts() {
        return counts;
    }

    /** Returns how many bytes of texts were taken. */
    long bytes() {
        return bytes;
    }

    /**
     * Takes the next name, of a text of so many bytes: returns its segment.
     *
     * @throws DamagedException if it is no name of the next segment
     */
    Segment name(String name, long length) {
        Code code = core.name(name, length);
        if (code == Code.MEMORY)
            FolugbenException.expect(code);
        if (code != Code.DONE)
            throw noName(code, name);
        return last = core.found(name);
    }

    private DamagedException noName(Code code, String name) {
        long wanted = last.number() + 1;
        return switch (code) {
            case NOT_NEXT -> {
                long number = Long.parseLong(name.substring(0, 8));
                yield new DamagedException(Math.min(number, wanted), number == last.number()
                                ? "another file has this number too: " + name
                                : "its file is missing");
            }
            case OPENING -> new DamagedException(
                    0, "the opening segment has no event, and nothing before it");
            case PREVIOUS -> new DamagedException(wanted,
                    "its name has another PREVIOUS or FIRST than the segments before it, of "
                            + Long.toUnsignedString(last.end()) + " moves");
            case LONG_RUN -> new DamagedException(wanted, "the run has too many moves");
            default -> new DamagedException(wanted, "\"" + name + "\" is no name of a segment");
        };
    }

    /** Takes the next names without their texts: returns their segments. */
    List<Segment> skip(List<String> names) {
        List<Segment> segments = new ArrayList<>();
        for (String name : names) {
            segments.add(name(name, 0));
            core.skip();
        }
        return segments;
    }

    /** Takes the next bytes of the text. */
    void text(byte[] piece, int length) {
        core.text(piece, length);
        bytes = bytes + length;
    }

    /**
     * Ends the text.
     *
     * @throws DamagedException if it isn't the one that was saved, or has other numbers than its
     *         name
     * @throws AuditException if it isn't legal
     */
    void end() {
        Code code = core.end();
        Auditor.Counts now = core.counts();
        long number = last.number();
        switch (code) {
            case DONE -> {
                if (counts.parts() == 0)
                    before = last.first();
                counts = new Auditor.Counts(now.parts(), now.calls(), now.moves(), before);
            }
            case MEMORY -> FolugbenException.expect(code);
            case DAMAGED -> throw isChanged();
            case COUNTS -> throw new DamagedException(
                    number, "its text has other numbers of moves or events than its name");
            case LONG_RUN -> throw new DamagedException(
                    number, "the run has too many moves or events");
            case LONG_LINE -> throw new AuditException(code, number, 0);
            default -> throw new AuditException(code, number, now.calls());
        }
    }

    private DamagedException isChanged() {
        return new DamagedException(last.number(), "its text isn't the one that was saved");
    }

    /** Takes the next segment, whose text the source gives: returns it. */
    Segment take(String name, long length, Source source) throws IOException {
        Segment segment = name(name, length);
        source.give(this::text);
        end();
        return segment;
    }

    /** Takes the next segment of a folder: returns it. */
    Segment take(String name, Path folder) throws IOException {
        try (FileChannel file = Segment.opened(folder, name, () -> name(name, 0).number())) {
            return take(name, file.size(), sink -> read(file, sink));
        }
    }

    /** Gives the sink the bytes of a file. */
    static void read(FileChannel file, Sink sink) throws IOException {
        byte[] piece = new byte[PIECE];
        for (int length; (length = file.read(ByteBuffer.wrap(piece))) >= 0;)
            sink.take(piece, length);
    }

    /**
     * Checks the digest of a segment, legal or not.
     *
     * @throws DamagedException if its text isn't the one that was saved
     */
    static void verify(Segment segment, long length, Source source) throws IOException {
        try (Trail own = new Trail()) {
            own.name(segment.name(), length);
            source.give(own::text);
            if (own.core.end() == Code.DAMAGED)
                throw own.isChanged();
        }
    }

    /** Returns the segment that comes after another one, with this text. */
    static Segment after(Segment last, long moves, long events, byte[] text) {
        try (Trail own = new Trail()) {
            if (!last.equals(Segment.START))
                own.skip(List.of(last.name()));
            own.core.read();
            Calls.Result handed = own.core.hand(ByteBuffer.wrap(text), moves, events);
            FolugbenException.expect(handed.code());
            return new Segment(last.number() + 1, last.end(), moves, events, handed.text());
        }
    }

    /** Releases it. */
    @Override
    public void close() {
        core.close();
    }
}
