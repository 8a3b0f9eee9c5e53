package folugben;

import java.io.IOException;
import java.nio.file.Path;
import java.sql.Connection;
import java.sql.Driver;
import java.sql.DriverManager;
import java.sql.PreparedStatement;
import java.sql.ResultSet;
import java.sql.SQLException;
import java.util.ArrayList;
import java.util.List;
import java.util.Properties;

/**
 * A connection to the database of a shared run, for one thread at a time.
 *
 * <p>Statements have a ? for each value. Each call throws a {@link LostException} if the connection
 * is lost.
 */
interface Database {
    /** The work of a transaction. */
    interface Work {
        void done() throws IOException;
    }

    /** Connects to postgresql://.. or to a file of SQLite, which is made on request. */
    static Database connect(String target, boolean makes) throws IOException {
        return isServer(target) ? new Postgres(target, true)
                                : new Sqlite(RunFolder.reached(Path.of(target)), makes);
    }

    /** Connects without any right to write. */
    static Database connectToRead(String target) throws IOException {
        return isServer(target) ? new Postgres(target, false)
                                : new SqliteReader(RunFolder.reached(Path.of(target)));
    }

    /** Returns whether a target is the name of a PostgreSQL server. */
    static boolean isServer(String target) {
        return target.startsWith("postgresql:") || target.startsWith("postgres:");
    }

    /** Returns the schema of the tables, with a point. */
    String inside();

    /** Returns the type of bytes. */
    String blob();

    /** Runs one statement; returns its rows. */
    List<Object[]> run(String sql, Object... values) throws IOException;

    /**
     * Appends calls to the log, except those whose token is there; returns further rows.
     *
     * <p>It returns up to so many rows after a place, once all is on the disk.
     */
    List<Object[]> append(List<Object[]> calls, long since, int most) throws IOException;

    /** Runs the work as one transaction, alone; all is on the disk at the end. */
    void transact(Work work) throws IOException;

    /**
     * Returns whether the tables of a run are there.
     *
     * @throws DamagedException if others are
     */
    boolean hasRun() throws IOException;

    /** Makes what must be there before the tables, in a transaction. */
    void make() throws IOException;

    /** Takes an agent's number for this process, as long as it lives; false if another has it. */
    boolean hold(int agent) throws IOException;

    /** Frees the number for others. */
    void let(int agent) throws IOException;

    /** Closes the connection; it may be called again. */
    void close();

    /** Reports a lost connection to a server; it isn't known whether what was sent is done. */
    static final class LostException extends IOException {
        private static final long serialVersionUID = 1;

        LostException(Throwable cause) {
            super(cause.getMessage(), cause);
        }
    }

    /** The common part of both databases: statements by JDBC. */
    static abstract class JdbcDatabase implements Database {
        /** Returns the driver that takes a URL, which is the caller's and not in the jar. */
        static Driver driver(String url, String jar) {
            try {
                return DriverManager.getDriver(url);
            } catch (SQLException none) {
                throw new IllegalStateException("the class path has no driver for " + url
                        + ": put " + jar + " on it", none);
            }
        }

        /** Returns the connection, which is made by then. */
        abstract Connection connection();

        /** Returns the exception for what a driver throws. */
        abstract IOException fault(SQLException thrown);

        Connection connected(Driver driver, String url, Properties words) throws SQLException {
            return driver.connect(url, words);
        }

        @Override
        public List<Object[]> run(String sql, Object... values) throws IOException {
            try (PreparedStatement statement = connection().prepareStatement(sql)) {
                bind(statement, values);
                return lastRows(statement, statement.execute());
            } catch (SQLException thrown) {
                throw fault(thrown);
            }
        }

        static void bind(PreparedStatement statement, Object... values) throws SQLException {
            for (int at = 0; at < values.length; at++) statement.setObject(at + 1, values[at]);
        }

        /** Returns the rows of the last statement that returns some. */
        List<Object[]> lastRows(PreparedStatement statement, boolean hasRows) throws SQLException {
            return hasRows ? rows(statement.getResultSet()) : List.of();
        }

        static List<Object[]> rows(ResultSet results) throws SQLException {
            List<Object[]> rows = new ArrayList<>();
            int columns = results.getMetaData().getColumnCount();
            while (results.next()) {
                Object[] row = new Object[columns];
                for (int at = 0; at < columns; at++) row[at] = results.getObject(at + 1);
                rows.add(row);
            }
            results.close();
            return rows;
        }

        @Override
        public void close() {
            try {
                connection().close();
            } catch (SQLException missing) {
                // It is closed then, as far as it can be.
            }
        }
    }
}
