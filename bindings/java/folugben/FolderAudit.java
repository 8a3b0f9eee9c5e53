package folugben;

import java.io.IOException;
import java.io.UncheckedIOException;
import java.nio.channels.FileChannel;
import java.nio.file.Path;
import java.util.ArrayList;
import java.util.List;

/** The audit of a run's folder, which reads each byte of it once. */
final class FolderAudit implements AutoCloseable {
    private final Path path;
    private final List<String> names;
    /** The segments whose texts were judged. */
    private final List<Segment> segments = new ArrayList<>();
    private final Trail trail = new Trail();
    private volatile RuntimeException fault;

    /** Lists the names that are in the folder now. */
    FolderAudit(Path path) throws IOException {
        this.path = path;
        names = Segment.names(path);
    }

    /**
     * Audits the names and the texts, segment by segment.
     *
     * <p>Returns false if a segment was removed meanwhile, as the run keeps later ones alone.
     *
     * @throws AuditException if a text isn't legal
     * @throws DamagedException if one isn't the one that was saved
     */
    boolean read() throws IOException {
        try {
            for (String name : names) segments.add(trail.take(name, path));
            return true;
        } catch (DamagedException found) {
            fault = found;
            if (isDropped(found.segment()))
                return false;
            throw found;
        } catch (RuntimeException found) {
            fault = found;
            throw found;
        } catch (IOException found) {
            fault = new UncheckedIOException(found);
            throw found;
        }
    }

    /** Whether the run now begins after the segment. */
    private boolean isDropped(long segment) throws IOException {
        try (Trail present = new Trail()) {
            return present.name(Segment.names(path).get(0), 0).number() > segment;
        } catch (DamagedException fault) {
            return false;
        }
    }

    /** Throws what was found wrong. */
    void expectLegal() {
        if (fault != null)
            throw fault;
    }

    /** Returns the counts of the segments that were judged. */
    Auditor.Counts counts() {
        return trail.counts();
    }

    /** Returns how many bytes were judged. */
    long bytes() {
        return trail.bytes();
    }

    /** Returns the state [PAIR, ..] that the moves so far leave. */
    String state() {
        return trail.core.state();
    }

    /** Gives the texts to another audit, which judges what comes before or after them too. */
    void giveTexts(Trail.Sink sink) throws IOException {
        for (Segment segment : segments)
            try (FileChannel file = segment.opened(path)) {
                Trail.read(file, sink);
            } catch (AuditException found) {
                throw new AuditException(found.code(), segment.number(), found.number());
            }
    }

    /** Releases it. */
    @Override
    public void close() {
        trail.close();
    }
}
