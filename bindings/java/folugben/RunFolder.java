package folugben;

import com.sun.jna.Native;

import java.io.IOException;
import java.nio.ByteBuffer;
import java.nio.channels.FileChannel;
import java.nio.file.AccessDeniedException;
import java.nio.file.FileAlreadyExistsException;
import java.nio.file.FileSystemException;
import java.nio.file.Files;
import java.nio.file.LinkOption;
import java.nio.file.NoSuchFileException;
import java.nio.file.Path;
import java.nio.file.StandardCopyOption;
import java.nio.file.StandardOpenOption;
import java.nio.file.attribute.BasicFileAttributes;
import java.nio.file.attribute.FileAttribute;
import java.nio.file.attribute.PosixFilePermissions;
import java.util.List;
import java.util.Set;
import java.util.SortedMap;
import java.util.TreeMap;
import java.util.stream.Stream;

/**
 * The folder of a run, to which this run alone writes: one text file a segment.
 *
 * <p>The library names the files, and says which call of the system comes next. No file with a
 * segment's name is truncated or changed, and none is removed but by {@link #keep}.
 */
final class RunFolder implements AutoCloseable {
    private static final String NEW = "new";
    private static final String LOCK = "lock";
    private static final ByteBuffer NOTHING = ByteBuffer.allocate(0);

    private final Path path;
    private final FileChannel folder;
    private final Object key;
    private final FileGuard lock;
    /** What was read and saved. */
    private final Trail trail = new Trail();
    private final RunCore core = trail.core;
    /** The names of the segments that are there, by their numbers. */
    private final SortedMap<Long, String> there = new TreeMap<>();
    /** The file {@code new} while it is written; else null. */
    private FileChannel made;
    /** The file of the last segment, and what it was when it was written or found. */
    private Path file;
    private FileId written;

    /** Which file it is, and how many bytes it has. */
    private record FileId(Object key, long size) {
        static FileId of(Path path, LinkOption... links) throws IOException {
            BasicFileAttributes found = Files.readAttributes(path, BasicFileAttributes.class, links);
            return new FileId(found.fileKey(), found.size());
        }
    }

    private RunFolder(Path path) throws IOException {
        this.path = path;
        folder = FileChannel.open(path, StandardOpenOption.READ);
        FileGuard taken = null;
        try {
            key = FileId.of(path).key();
            expectOwn(path);
            taken = lock = new FileGuard(path.resolve(LOCK));
            expectFolder();
            // What an earlier, killed run has renamed is flushed before it is reported.
            make(core.request(), "", NOTHING);
            force(path.getParent());
        } catch (IOException | RuntimeException | Error fault) {
            trail.close();
            if (taken != null)
                taken.close();
            folder.close();
            throw fault;
        }
    }

    /** Makes a folder with an opening segment; the path leads to an empty one or to nothing. */
    static RunFolder create(Path path, ByteBuffer opening) throws IOException {
        Path real = real(path);
        try {
            Files.createDirectory(real,
                    PosixFilePermissions.asFileAttribute(PosixFilePermissions.fromString("rwx------")));
        } catch (FileAlreadyExistsException there) {
            expectEmpty(real);
        }
        RunFolder made = new RunFolder(real);
        try {
            expectEmpty(real);
            made.core.read();
            made.save(opening, 0, 0);
            return made;
        } catch (IOException | RuntimeException | Error fault) {
            made.close();
            throw fault;
        }
    }

    /** Opens the folder of an earlier run, of which it audits no more than the check says. */
    static RunFolder reopen(Path path, Run.Check check) throws IOException {
        Path real = real(path);
        Segment.names(real); // nothing is created in a folder without a run
        RunFolder there = new RunFolder(real);
        try {
            there.read(Segment.names(real), check);
            Files.deleteIfExists(real.resolve(NEW));
            return there;
        } catch (IOException | RuntimeException | Error fault) {
            there.close();
            throw fault;
        }
    }

    private void read(List<String> names, Run.Check check) throws IOException {
        int unread = check == Run.Check.ALL ? 0 : names.size() - 1;
        for (Segment segment : trail.skip(names.subList(0, unread)))
            there.put(segment.number(), segment.name());
        for (String name : names.subList(unread, names.size()))
            there.put(trail.take(name, path).number(), name);
        core.read();
        file = path.resolve(last().name());
        written = FileId.of(file, LinkOption.NOFOLLOW_LINKS);
    }

    /** Returns the state [PAIR, ..] that the segments leave which were read. */
    String state() {
        return core.state();
    }

    /** Returns where the path of a run's folder leads to, if it exists or not. */
    private static Path real(Path path) throws IOException {
        if (Files.isRegularFile(path))
            throw new FileSystemException(path.toString(), null,
                    "a run is a folder; a run in one file is imported by: folugben import");
        if (Files.isSymbolicLink(path))
            throw new FileSystemException(
                    path.toString(), null, "a link leads to the folder: name the folder itself");
        return reached(path);
    }

    /** Returns where a path leads to, if it exists or not. */
    static Path reached(Path path) throws IOException {
        if (Files.exists(path))
            return path.toRealPath();
        Path absolute = path.toAbsolutePath();
        return absolute.getParent().toRealPath().resolve(absolute.getFileName());
    }

    private static void expectEmpty(Path path) throws IOException {
        if (!Files.isDirectory(path))
            throw new FileAlreadyExistsException(path.toString(), null, "there is a file");
        try (Stream<Path> all = Files.list(path)) {
            List<String> names = all.map(it -> it.getFileName().toString())
                    .filter(it -> !it.equals(NEW) && !it.equals(LOCK)).toList();
            if (names.stream().anyMatch(it -> it.endsWith(Segment.SUFFIX)))
                throw new FileAlreadyExistsException(
                        path.toString(), null, "there is a run, which Run.resume continues");
            if (!names.isEmpty())
                throw new FileAlreadyExistsException(path.toString(), null, "the folder isn't empty");
        }
    }

    /** Flushes a file, or the names in a folder. */
    static void force(Path path) throws IOException {
        try (FileChannel opened = FileChannel.open(path, StandardOpenOption.READ)) {
            opened.force(true);
        }
    }

    /** Throws if the folder is another user's, who may replace what is in it. */
    private static void expectOwn(Path path) throws IOException {
        int owner = (Integer) Files.getAttribute(path, "unix:uid", LinkOption.NOFOLLOW_LINKS);
        if (owner != Posix.call("geteuid"))
            throw new AccessDeniedException(path.toString(), null, "the folder belongs to another user");
    }

    Path path() {
        return path;
    }

    /** Returns the last segment. */
    Segment last() {
        return trail.last();
    }

    /** Saves the next segment: it is on the disk then. After a fault nothing more may be saved. */
    void save(ByteBuffer text, long moves, long events) throws IOException {
        expectFolder();
        Calls.Result handed = core.hand(text, moves, events);
        if (handed.code() == Code.LONG_RUN)
            throw new FileSystemException(path.toString(), null,
                    "a run has at most 100,000,000 segments, and less than 2^64 moves");
        FolugbenException.expect(handed.code());
        String name = handed.text();
        work(name, text);
        Segment last = last();
        trail.last(new Segment(last.number() + 1, last.end(), moves, events, name));
        there.put(last().number(), name);
        file = path.resolve(name);
        expectFolder();
    }

    /** Removes the oldest segments, one after the other, until there are at most so many. */
    void keep(int most) throws IOException {
        while (there.size() > most) work(there.remove(core.drop()), NOTHING);
    }

    /** Makes each call of the system that comes next, for the segment with this name and text. */
    private void work(String name, ByteBuffer text) throws IOException {
        try {
            for (RunCore.Request next; (next = core.request()) != RunCore.Request.REST;) {
                make(next, name, text);
                core.done();
            }
        } catch (IOException | RuntimeException | Error fault) {
            core.failed();
            removeNew(fault);
            throw fault;
        }
    }

    private void make(RunCore.Request request, String name, ByteBuffer text) throws IOException {
        Path fresh = path.resolve(NEW);
        switch (request) {
            case REMOVE_NEW -> Files.deleteIfExists(fresh);
            case CREATE_NEW -> made = FileChannel.open(fresh,
                    Set.of(StandardOpenOption.WRITE, StandardOpenOption.CREATE_NEW), FileGuard.OWN);
            case WRITE_NEW -> write(fresh, text);
            case FLUSH_NEW -> {
                made.force(true);
                file = null;
                written = FileId.of(fresh, LinkOption.NOFOLLOW_LINKS);
                closeNew();
            }
            case RENAME_NEW -> Files.move(fresh, path.resolve(name), StandardCopyOption.ATOMIC_MOVE);
            case FLUSH_FOLDER -> folder.force(true);
            case REMOVE_OLDEST -> Files.delete(path.resolve(name));
            default -> throw new IllegalStateException("nothing else is asked for: " + request);
        }
    }

    private void write(Path fresh, ByteBuffer text) throws IOException {
        while (text.hasRemaining())
            if (made.write(text) == 0)
                throw new FileSystemException(fresh.toString(), null, "a write took no byte");
    }

    private void closeNew() throws IOException {
        FileChannel open = made;
        made = null;
        if (open != null)
            open.close();
    }

    /** Removes what was written before a fault: the disk may be full of it. */
    private void removeNew(Throwable fault) {
        try {
            closeNew();
            Files.deleteIfExists(path.resolve(NEW));
        } catch (IOException further) {
            fault.addSuppressed(further);
        }
    }

    /** Throws if the path doesn't lead to this folder, with the lock and the last segment. */
    private void expectFolder() throws IOException {
        long next = last().number() + 1;
        try {
            if (!FileId.of(path).key().equals(key))
                throw new DamagedException(next, path + " was moved or replaced");
            if (!FileId.of(path.resolve(LOCK), LinkOption.NOFOLLOW_LINKS).key().equals(lock.key()))
                throw new DamagedException(next, "the lock in " + path + " was replaced");
            if (file != null && !FileId.of(file, LinkOption.NOFOLLOW_LINKS).equals(written))
                throw new DamagedException(
                        next - 1, "its file was replaced, or has another size");
        } catch (NoSuchFileException missing) {
            throw new DamagedException(next, path + ": what the run has written was removed");
        }
    }

    /** Closes the folder, which another run may then have. */
    @Override
    public void close() throws IOException {
        trail.close();
        try {
            folder.close();
        } finally {
            lock.close();
        }
    }

    /**
     * The lock that a run has on its folder, by the system's flock of a file in it.
     *
     * <p>The runs of other languages have the same lock. It lasts until it is closed or the process
     * ends. Java's own lock of a file would end when the process closes the file anywhere else.
     */
    static final class FileGuard implements AutoCloseable {
        /** The attributes of new files, which their owner alone reads and writes. */
        static final FileAttribute<?> OWN =
                PosixFilePermissions.asFileAttribute(PosixFilePermissions.fromString("rw-------"));

        private static final int EXCLUSIVE_AT_ONCE = 6;

        private final Path path;
        private final Object key;
        private int descriptor;

        /**
         * Takes the lock, and makes its file if there is none.
         *
         * @throws IOException if another run has it, of this process or another one, or the file
         *         can't be opened
         */
        FileGuard(Path path) throws IOException {
            this.path = path;
            Files.newByteChannel(path, Set.of(StandardOpenOption.WRITE, StandardOpenOption.CREATE,
                                               LinkOption.NOFOLLOW_LINKS), OWN).close();
            descriptor = Posix.open(path, Posix.READ_AND_WRITE);
            try {
                if (Posix.call("flock", descriptor, EXCLUSIVE_AT_ONCE) != 0)
                    throw fault();
                // That of the open file, whatever its name leads to by now.
                key = Files.readAttributes(Path.of("/proc/self/fd/" + descriptor),
                        BasicFileAttributes.class).fileKey();
            } catch (IOException | RuntimeException | Error fault) {
                close();
                throw fault;
            }
        }

        private IOException fault() {
            int number = Native.getLastError();
            return number == Posix.WOULD_WAIT
                    ? new FileSystemException(path.getParent().toString(), null,
                            "another run uses the folder")
                    : Posix.fault(path, "locked", number);
        }

        /** Returns the identity of the locked file. */
        Object key() {
            return key;
        }

        @Override
        public void close() {
            if (descriptor >= 0)
                Posix.call("close", descriptor);
            descriptor = -1;
        }
    }
}
