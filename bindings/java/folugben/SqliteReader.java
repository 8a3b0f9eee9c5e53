package folugben;

import java.io.IOException;
import java.io.InputStream;
import java.nio.file.FileSystemException;
import java.nio.file.Files;
import java.nio.file.LinkOption;
import java.nio.file.NoSuchFileException;
import java.nio.file.Path;
import java.nio.file.attribute.BasicFileAttributes;
import java.nio.file.attribute.PosixFileAttributes;
import java.sql.Connection;
import java.sql.PreparedStatement;
import java.sql.ResultSet;
import java.sql.SQLException;
import java.sql.Statement;
import java.util.Arrays;
import java.util.ArrayList;
import java.util.Comparator;
import java.util.List;
import java.util.Properties;
import java.util.concurrent.Executors;
import java.util.concurrent.Future;
import java.util.concurrent.ScheduledExecutorService;
import java.util.concurrent.TimeUnit;
import java.util.stream.Stream;

/**
 * A file of SQLite of anybody, to read: nothing is written, and nothing is played back.
 *
 * <p>If no file is beside it, SQLite opens the file itself, without locks. Otherwise it opens a
 * private copy with the copy of the write-ahead log. What a statement costs is bounded by the size
 * of the file.
 */
final class SqliteReader extends Database.JdbcDatabase {
    /** Flags to open by the name of a URI, to read or also to write, with a mutex. */
    private static final int READ = 0x1 | 0x40 | 0x10000;
    private static final int WRITE = 0x2 | 0x4 | 0x40 | 0x10000;
    private static final int INTERRUPTED = 9;
    private static final int TRIES = 20;
    private static final int HEADER = 32;
    private static final long PAGE = 4096;
    /** How long a process may take that makes a run just now, in ms. */
    private static final long MAKING = 1_000;
    /** How many bytes rows may have besides those of the file, and each row at least. */
    private static final long SLACK = 1 << 20;
    private static final long ROW = 8;
    /** How long a statement may take, in s, and how many bytes of the file give one more. */
    static long seconds = 20;
    private static final long BYTES_A_SECOND = 10_000_000;
    private static final ScheduledExecutorService WATCH = Executors.newScheduledThreadPool(1, work -> {
        Thread thread = new Thread(work, "folugben watch");
        thread.setDaemon(true);
        return thread;
    });

    private final Path path;
    /** The folder of the copy; null if the file itself is read. */
    private final Path room;
    private final Connection connection;
    private final Stamp seen;

    /** What changes when the file does. */
    private record Stamp(Object time, long size) {}

    SqliteReader(Path path) throws IOException {
        this.path = path;
        if (!Files.isRegularFile(path))
            throw Files.exists(path) ? new FileSystemException("" + path, null, "no regular file")
                                     : new NoSuchFileException("" + path);
        expectOwnFiles(path);
        seen = stamp();
        boolean isCopy = Files.exists(beside(path, "-wal"));
        room = isCopy ? Files.createTempDirectory("folugben-") : null;
        boolean isOpen = false;
        try {
            connection = isCopy ? open(copy(), "?mode=rw", WRITE) : open(path, "?mode=ro&immutable=1", READ);
            run("pragma query_only = on");
            hasRun();
            isOpen = true;
        } finally {
            if (!isOpen)
                drop();
        }
    }

    /**
     * Throws unless what SQLite reads beside a file is a regular file of its owner.
     *
     * <p>A rollback journal may name any other file, which SQLite deletes when it plays the journal
     * back. A run has none: it has a write-ahead log from its first table on.
     */
    static void expectOwnFiles(Path path) throws IOException {
        long end = System.nanoTime() + MAKING * 1_000_000;
        while (Files.exists(beside(path, "-journal"), LinkOption.NOFOLLOW_LINKS)) {
            if (Files.size(path) > PAGE || System.nanoTime() > end)
                throw new DamagedException(
                        0, path + "-journal is there, which no run has, so " + path + " isn't opened");
            Patience.rest(10);
        }
        for (Path log : List.of(beside(path, "-wal"), beside(path, "-shm")))
            try {
                PosixFileAttributes there =
                        Files.readAttributes(log, PosixFileAttributes.class, LinkOption.NOFOLLOW_LINKS);
                if (!there.isRegularFile() || !there.owner().equals(Files.getOwner(path)))
                    throw new DamagedException(0, log + " is no regular file of the owner of " + path);
            } catch (NoSuchFileException none) {
                // Nothing is beside it.
            }
    }

    static Path beside(Path path, String ending) {
        return path.resolveSibling(path.getFileName() + ending);
    }

    /** Returns whether a file has the tables of a run; throws if it has something else. */
    static boolean hasRun(Database database, Path path) throws IOException {
        boolean hasTables = Tables.areIn(database.run("select type, name, sql from sqlite_schema"));
        if (hasTables && ((Number) database.run("pragma application_id").get(0)[0]).intValue() != Sqlite.APPLICATION)
            throw new DamagedException(0, path + " is another database than a run's");
        return hasTables;
    }

    private Stamp stamp() throws IOException {
        BasicFileAttributes there = Files.readAttributes(path, BasicFileAttributes.class);
        return new Stamp(there.lastModifiedTime(), there.size());
    }

    private Connection open(Path file, String words, int flags) throws IOException {
        Properties all = new Properties();
        all.setProperty("open_mode", "" + flags);
        all.setProperty("limit_length", "" + Math.min(1_000_000_000, limit()));
        try {
            return connected(driver("jdbc:sqlite:", "sqlite-jdbc (Debian: libxerial-sqlite-jdbc-java)"),
                    "jdbc:sqlite:" + file.toUri() + words, all);
        } catch (SQLException thrown) {
            throw fault(thrown);
        }
    }

    /** Returns how many bytes the rows of a statement may have. */
    private long limit() throws IOException {
        Path log = beside(path, "-wal");
        return seen.size + SLACK + (Files.exists(log) ? Files.size(log) : 0);
    }

    /**
     * Copies the file and its write-ahead log to the private folder.
     *
     * <p>The log is copied later. If it wasn't begun again meanwhile, it has each page that was
     * written into the file meanwhile.
     */
    private Path copy() throws IOException {
        Path copy = room.resolve("run");
        Path log = beside(path, "-wal");
        for (int attempt = 0; attempt < TRIES; attempt++) {
            Files.deleteIfExists(copy);
            byte[] begun = header(log);
            Stamp before = stamp();
            try (Connection source = open(path, "?mode=ro&immutable=1", READ);
                    Statement all = source.createStatement()) {
                all.executeUpdate("backup to '" + copy.toString().replace("'", "''") + "'");
            } catch (SQLException thrown) {
                throw fault(thrown);
            }
            Path copied = beside(copy, "-wal");
            Files.deleteIfExists(copied);
            try (InputStream in = Strangers.stream(log)) {
                Files.copy(in, copied);
            } catch (NoSuchFileException none) {
                Files.createFile(copied);
            }
            boolean isSame = Arrays.equals(begun, header(copied)) && Arrays.equals(begun, header(log));
            if (isSame && (begun.length > 0 || before.equals(stamp())))
                return copy;
        }
        throw new FileSystemException("" + path, null, "it is written all the time");
    }

    /** Returns the header of a write-ahead log, another one each time that it is begun again. */
    private static byte[] header(Path log) throws IOException {
        try (InputStream in = Strangers.stream(log)) {
            return in.readNBytes(HEADER);
        } catch (NoSuchFileException none) {
            return new byte[0];
        }
    }

    @Override
    Connection connection() {
        return connection;
    }

    @Override
    IOException fault(SQLException thrown) {
        int code = thrown.getErrorCode() & 0xFF;
        if (code <= 1 || code == INTERRUPTED)
            throw new DamagedException(
                    0, "its tables can't be read, or take too long: " + thrown.getMessage() + ": " + path);
        return Sqlite.fault(path, thrown);
    }

    @Override
    public List<Object[]> run(String sql, Object... values) throws IOException {
        List<Object[]> rows = bounded(sql, values);
        if (room == null && !stamp().equals(seen))
            throw new FileSystemException("" + path, null, "it was written while it was read: read it again");
        return rows;
    }

    private List<Object[]> bounded(String sql, Object... values) throws IOException {
        try (PreparedStatement statement = connection.prepareStatement(sql)) {
            bind(statement, values);
            Future<?> alarm = WATCH.schedule(() -> cancel(statement),
                    seconds + seen.size / BYTES_A_SECOND, TimeUnit.SECONDS);
            try {
                return statement.execute() ? rows(statement.getResultSet(), limit()) : List.of();
            } finally {
                alarm.cancel(false);
            }
        } catch (SQLException thrown) {
            throw fault(thrown);
        }
    }

    private static void cancel(Statement statement) {
        try {
            statement.cancel();
        } catch (SQLException over) {
            // It has ended.
        }
    }

    private List<Object[]> rows(ResultSet results, long most) throws SQLException {
        List<Object[]> rows = new ArrayList<>();
        long left = most;
        Object[] row = new Object[results.getMetaData().getColumnCount()];
        while (results.next()) {
            left -= ROW;
            for (int at = 0; at < row.length; at++) {
                row[at] = results.getObject(at + 1);
                left -= row[at] instanceof byte[] bytes ? bytes.length
                        : row[at] instanceof String text ? text.length() : 0;
            }
            if (left < 0)
                throw new DamagedException(0, "its rows have more bytes than the file: " + path);
            rows.add(row.clone());
        }
        return rows;
    }

    @Override
    public String inside() {
        return "";
    }

    @Override
    public String blob() {
        return "blob";
    }

    @Override
    public boolean hasRun() throws IOException {
        return hasRun(this, path);
    }

    @Override
    public List<Object[]> append(List<Object[]> calls, long since, int most) throws IOException {
        return run(Tables.SINCE.replace("IN", ""), since, most);
    }

    @Override
    public void transact(Work work) {
        throw new IllegalStateException("it is only read");
    }

    @Override
    public void make() {
        throw new IllegalStateException("it is only read");
    }

    @Override
    public boolean hold(int agent) {
        return false;
    }

    @Override
    public void let(int agent) {
        // Nothing is held.
    }

    @Override
    public void close() {
        super.close();
        try {
            drop();
        } catch (IOException left) {
            // The system cleans its temporary folder.
        }
    }

    private void drop() throws IOException {
        if (room == null || !Files.exists(room))
            return;
        try (Stream<Path> all = Files.walk(room)) {
            for (Path it : all.sorted(Comparator.reverseOrder()).toList()) Files.delete(it);
        }
    }
}
