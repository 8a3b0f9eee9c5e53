package folugben;

import java.io.IOException;
import java.nio.channels.FileChannel;
import java.nio.file.AccessDeniedException;
import java.nio.file.FileSystemException;
import java.nio.file.Files;
import java.nio.file.LinkOption;
import java.nio.file.NoSuchFileException;
import java.nio.file.Path;
import java.util.List;
import java.util.Locale;
import java.util.function.LongSupplier;
import java.util.stream.Stream;

/**
 * A complete segment of a run, and the name of its file in the run's folder.
 *
 * <p>{@code first} is the number of moves before it.
 */
record Segment(long number, long first, long moves, long events, String name) {
    /** The end of a run that has no segment yet. */
    static final Segment START = new Segment(-1, 0, 0, 0, "");
    static final String SUFFIX = ".journal";

    private static final String NO_DIGEST = "0".repeat(64);

    /** Returns the segment of such numbers and such a digest, after another one. */
    static Segment of(long number, long first, long moves, long events, String digest, Segment before) {
        return new Segment(number, first, moves, events,
                String.format(Locale.ROOT, "%08d-%d-%d-%d-%s-%s%s", number, first, moves, events,
                        before.digest(), digest, SUFFIX));
    }

    /** Returns the number of moves up to its end. */
    long end() {
        return first + moves;
    }

    /** Returns the digest of the chain up to its end. */
    String digest() {
        int end = name.length() - SUFFIX.length();
        return end < 0 ? NO_DIGEST : name.substring(end - NO_DIGEST.length(), end);
    }

    /**
     * Returns the names that are in the folder now, also if they aren't those of a run: who takes
     * them finds the first fault.
     *
     * @throws NoSuchFileException if there is none
     */
    static List<String> names(Path folder) throws IOException {
        for (List<String> names; !(names = listed(folder)).isEmpty();)
            // Another process may have saved and removed some while they were listed.
            if (areOfRun(names) || names.equals(listed(folder)))
                return names;
        throw new NoSuchFileException(folder.toString(), null, "the folder has no run");
    }

    private static boolean areOfRun(List<String> names) {
        try (Trail trail = new Trail()) {
            trail.skip(names);
            return true;
        } catch (DamagedException fault) {
            return false;
        }
    }

    private static List<String> listed(Path folder) throws IOException {
        try (Stream<Path> all = Files.list(folder)) {
            return all.map(it -> it.getFileName().toString())
                    .filter(it -> it.endsWith(SUFFIX)).sorted().toList();
        }
    }

    /** Opens its file in the folder, which is no link. */
    FileChannel opened(Path folder) throws IOException {
        return opened(folder, name, this::number);
    }

    /** Opens the file with a name in the folder, which is no link, of the segment with a number. */
    static FileChannel opened(Path folder, String name, LongSupplier number) throws IOException {
        try {
            return Strangers.channel(folder.resolve(name), LinkOption.NOFOLLOW_LINKS);
        } catch (NoSuchFileException missing) {
            throw new DamagedException(number.getAsLong(), "its file is missing");
        } catch (AccessDeniedException fault) {
            throw fault;
        } catch (FileSystemException other) {
            throw new DamagedException(number.getAsLong(), "its file is no regular file");
        }
    }
}
