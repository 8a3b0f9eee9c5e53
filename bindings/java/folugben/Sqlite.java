package folugben;

import com.sun.jna.Native;

import java.io.IOException;
import java.nio.ByteBuffer;
import java.nio.ByteOrder;
import java.nio.file.AccessDeniedException;
import java.nio.file.FileAlreadyExistsException;
import java.nio.file.FileSystemException;
import java.nio.file.Files;
import java.nio.file.Path;
import java.nio.file.attribute.BasicFileAttributes;
import java.sql.Connection;
import java.sql.Driver;
import java.sql.PreparedStatement;
import java.sql.SQLException;
import java.util.ArrayList;
import java.util.List;
import java.util.Properties;

/**
 * A file of SQLite, with a write-ahead log.
 *
 * <p>The log is flushed at the end of each transaction. Beside the file is one for agents' numbers.
 * Only SQLite opens the file: another close in this process would drop SQLite's locks.
 */
final class Sqlite extends Database.JdbcDatabase {
    /** The application number in the header of a file that is a run. */
    static final int APPLICATION = 0x466F6C75;
    /** How long a transaction waits for those of other processes, in ms. */
    private static final int PATIENCE = 60_000;
    /** Flags to open a file that exists by the name of a URI, to read and write, with a mutex. */
    private static final int OPEN = 0x2 | 0x40 | 0x10000;

    private static final int PERM = 3;
    private static final int BUSY = 5;
    private static final int READ_ONLY = 8;
    private static final int CORRUPT = 11;
    private static final int CAN_NOT_OPEN = 14;
    private static final int TOO_BIG = 18;
    private static final int NOT_A_DATABASE = 26;

    private final Path path;
    private final Object key;
    private final Connection connection;
    /** The locks of agents' numbers. */
    private final ByteLocks agents;

    Sqlite(Path path, boolean makes) throws IOException {
        this.path = path;
        if (makes)
            make(path);
        key = key();
        SqliteReader.expectOwnFiles(path);
        Driver driver = driver("jdbc:sqlite:", "sqlite-jdbc (Debian: libxerial-sqlite-jdbc-java)");
        Properties words = new Properties();
        words.setProperty("open_mode", "" + OPEN);
        words.setProperty("busy_timeout", "" + PATIENCE);
        try {
            connection = connected(driver, "jdbc:sqlite:" + path.toUri(), words);
        } catch (SQLException thrown) {
            throw fault(thrown);
        }
        try {
            if (hasRun() || makes)
                writeAhead();
            run("pragma synchronous = full");
            agents = new ByteLocks(SqliteReader.beside(path, "-agents"));
        } catch (IOException | RuntimeException | Error fault) {
            super.close();
            throw fault;
        }
    }

    private static void make(Path path) throws IOException {
        try {
            Files.createFile(path, RunFolder.FileGuard.OWN);
            RunFolder.force(path.toAbsolutePath().getParent());
        } catch (FileAlreadyExistsException there) {
            // It is opened.
        }
    }

    /**
     * Turns on the write-ahead log.
     *
     * <p>SQLite doesn't wait for another process that is about to do so too.
     */
    private void writeAhead() throws IOException {
        long end = System.nanoTime() + PATIENCE * 1_000_000L;
        while (true)
            try (PreparedStatement set = connection.prepareStatement("pragma journal_mode = wal")) {
                set.execute();
                return;
            } catch (SQLException thrown) {
                if (thrown.getErrorCode() != BUSY || System.nanoTime() > end)
                    throw fault(thrown);
                Patience.rest(10);
            }
    }

    private Object key() throws IOException {
        return Files.readAttributes(path, BasicFileAttributes.class).fileKey();
    }

    @Override
    Connection connection() {
        return connection;
    }

    @Override
    IOException fault(SQLException thrown) {
        return fault(path, thrown);
    }

    /** Returns the exception of a file that SQLite can't open or write; throws that of damage. */
    static IOException fault(Path path, SQLException thrown) {
        String detail = "SQLite: " + thrown.getMessage();
        switch (thrown.getErrorCode() & 0xFF) {
            case NOT_A_DATABASE, CORRUPT, TOO_BIG:
                throw new DamagedException(0, path + ": " + detail);
            case READ_ONLY, PERM, CAN_NOT_OPEN:
                return (IOException) new AccessDeniedException("" + path, null, detail).initCause(thrown);
            default:
                return (IOException) new FileSystemException("" + path, null, detail).initCause(thrown);
        }
    }

    @Override
    public String inside() {
        return "";
    }

    @Override
    public String blob() {
        return "blob";
    }

    @Override
    public List<Object[]> append(List<Object[]> calls, long since, int most) throws IOException {
        if (calls.isEmpty())
            return run(Tables.SINCE.replace("IN", ""), since, most);
        List<List<Object[]>> found = new ArrayList<>();
        transact(() -> {
            long last = ((Number) run("select coalesce(max(place), 0) from call").get(0)[0]).longValue();
            insert(calls, last);
            found.add(run(Tables.SINCE.replace("IN", ""), since, most));
        });
        return found.get(0);
    }

    private void insert(List<Object[]> calls, long last) throws IOException {
        String sql = "insert into call values (?, ?, ?, ?, ?, ?) on conflict (token) do nothing";
        try (PreparedStatement statement = connection.prepareStatement(sql)) {
            long place = last;
            for (Object[] call : calls) {
                statement.setObject(1, ++place);
                for (int at = 0; at < call.length; at++) statement.setObject(at + 2, call[at]);
                statement.execute();
            }
        } catch (SQLException thrown) {
            throw fault(thrown);
        }
    }

    @Override
    public void transact(Work work) throws IOException {
        // Neither SQLite nor a new connection notices a file that was removed.
        if (!key().equals(key))
            throw new DamagedException(0, path + " was removed or replaced");
        run("begin immediate");
        boolean isDone = false;
        try {
            work.done();
            run("commit");
            isDone = true;
        } finally {
            if (!isDone)
                rollBack();
        }
    }

    private void rollBack() {
        try {
            run("rollback");
        } catch (IOException over) {
            // SQLite has rolled it back itself.
        }
    }

    @Override
    public boolean hasRun() throws IOException {
        return SqliteReader.hasRun(this, path);
    }

    @Override
    public void make() throws IOException {
        run("pragma application_id = " + APPLICATION);
    }

    @Override
    public boolean hold(int agent) throws IOException {
        return agents.lock(agent);
    }

    @Override
    public void let(int agent) throws IOException {
        agents.unlock(agent);
    }

    @Override
    public void close() {
        super.close();
        agents.close();
    }

    /**
     * Locks of single bytes of a file that belong to the open file.
     *
     * <p>The locks of Java's FileChannel belong to the process. The locks here end with the
     * process.
     */
    static final class ByteLocks {
        private static final int SET_LOCK_OF_OPEN_FILE = 37;
        private static final short WRITE = 1;
        private static final short UNLOCK = 2;
        /**
         * Of a struct flock: its size, and the place of the first byte and of the number of bytes.
         */
        private static final int SIZE = 32;
        private static final int START = 8;
        private static final int LENGTH = 16;

        private final Path path;
        private int descriptor;

        ByteLocks(Path path) throws IOException {
            this.path = path;
            descriptor = Posix.open(path, Posix.MADE_WITHOUT_LINKS);
        }

        /** Locks a byte; returns whether nobody else has it. */
        boolean lock(int at) throws IOException {
            return set(WRITE, at);
        }

        void unlock(int at) throws IOException {
            set(UNLOCK, at);
        }

        private boolean set(short kind, int at) throws IOException {
            byte[] lock = ByteBuffer.allocate(SIZE).order(ByteOrder.nativeOrder()).putShort(0, kind)
                                  .putLong(START, at).putLong(LENGTH, 1).array();
            if (Posix.call("fcntl", descriptor, SET_LOCK_OF_OPEN_FILE, lock) == 0)
                return true;
            int number = Native.getLastError();
            if (number == Posix.WOULD_WAIT)
                return false;
            throw Posix.fault(path, "locked", number);
        }

        /** Frees all of them; it may be called again. */
        void close() {
            if (descriptor >= 0)
                Posix.call("close", descriptor);
            descriptor = -1;
        }
    }
}
