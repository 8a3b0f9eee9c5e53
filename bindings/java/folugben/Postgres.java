package folugben;

import java.io.IOException;
import java.net.ConnectException;
import java.nio.file.AccessDeniedException;
import java.nio.file.FileAlreadyExistsException;
import java.nio.file.FileSystemException;
import java.security.SecureRandom;
import java.sql.Connection;
import java.sql.Driver;
import java.sql.PreparedStatement;
import java.sql.SQLException;
import java.util.ArrayList;
import java.util.Collections;
import java.util.HashMap;
import java.util.HashSet;
import java.util.List;
import java.util.Map;
import java.util.Set;

/**
 * A schema of a PostgreSQL database, as in postgresql://host/base#schema.
 *
 * <p>By default it is folugben.
 */
final class Postgres extends Database.JdbcDatabase {
    /** How long a statement waits for a lock, and a server for a transaction's next one, in ms. */
    static int patience = 60_000;
    /**
     * What a schema has that isn't a trusted role's, or that runs something when a table is used.
     *
     * <p>The owner comes first, then the schema.
     */
    private static final String FOREIGN = """
            with trusted as (select oid from pg_catalog.pg_roles where rolname = current_user or rolname = ?),
            own as (select * from pg_catalog.pg_namespace where nspname = ?),
            named as (select it.* from pg_catalog.pg_class it, own where it.relnamespace = own.oid
                and relname in ('run', 'segment', 'piece', 'call')),
            things as (select * from named union all select it.*
                from pg_catalog.pg_class it, pg_catalog.pg_index own_index, named
                where own_index.indrelid = named.oid and it.oid = own_index.indexrelid)
            select 'the schema' from own where nspowner not in (select oid from trusted)
            union all select 'the relation ' || relname from things
                where relowner not in (select oid from trusted)
            union all select 'the relation ' || relname from things where relkind not in ('r', 'i')
                or relpersistence <> 'p' or relispartition or relrowsecurity
            union all select 'a trigger of ' || relname from pg_catalog.pg_trigger it, things
                where it.tgrelid = things.oid and not it.tgisinternal
            union all select 'a rule of ' || relname from pg_catalog.pg_rewrite it, things where it.ev_class = things.oid
            union all select 'a heir of ' || relname from pg_catalog.pg_inherits it, things
                where it.inhparent = things.oid
            union all select 'the default ' || attname from pg_catalog.pg_attribute it, things
                where it.attrelid = things.oid and (it.atthasdef or it.attgenerated <> '')
            union all select 'the type of ' || attname from pg_catalog.pg_attribute it, things
                where it.attrelid = things.oid and it.attnum > 0 and not it.attisdropped
                and it.atttypid not in (20, 23, 17, 25)
            union all select 'the index ' || relname from pg_catalog.pg_index it, things
                where it.indexrelid = things.oid and (it.indexprs is not null or it.indpred is not null)
            union all select 'a foreign key to ' || relname from pg_catalog.pg_constraint it, things
                where it.confrelid = things.oid and it.conrelid not in (select oid from named)
            union all select 'a check of ' || relname from pg_catalog.pg_constraint it, things
                where it.conrelid = things.oid and it.contype = 'c'
                and pg_catalog.pg_get_constraintdef(it.oid) <> 'CHECK ((one = 1))'
            union all select 'a right on ' || relname from things, pg_catalog.aclexplode(relacl) it
                where it.privilege_type in ('TRIGGER', 'REFERENCES')
                and it.grantee not in (select oid from trusted)
            union all select 'a right on ' || attname
                from pg_catalog.pg_attribute, things, pg_catalog.aclexplode(attacl) it
                where attrelid = things.oid and it.privilege_type = 'REFERENCES'
                and it.grantee not in (select oid from trusted)
            union all select 'a right to create in the schema' from own, pg_catalog.aclexplode(nspacl) it
                where it.privilege_type = 'CREATE' and it.grantee not in (select oid from trusted)
            limit 1""";
    /**
     * Takes an agent's number: a lock of a session whose role may not write into the run counts for
     * nothing.
     *
     * <p>The lock's own number can't be guessed, so that nobody else has it before.
     */
    private static final String HOLD = """
            select case when exists (
                select from pg_catalog.pg_locks it join pg_catalog.pg_stat_activity session on session.pid = it.pid
                where it.locktype = 'advisory' and it.granted and it.objsubid = 2 and it.classid = TABLE
                and it.database = (select oid from pg_catalog.pg_database
                    where datname = pg_catalog.current_database())
                and it.objid::bigint % 256 = ?
                and pg_catalog.has_table_privilege(session.usesysid, it.classid, 'UPDATE'))
            then false else pg_catalog.pg_try_advisory_lock(TABLE::integer, ?) end""";
    private static final SecureRandom RANDOM = new SecureRandom();

    private static final String CONNECTION = "08";
    private static final String SHUTDOWN = "57P";
    private static final String READ_ONLY = "25006";
    private static final String NOT_ALLOWED = "42501";
    private static final String NO_LOCK = "55P03";
    private static final Set<String> MADE = Set.of("23505", "42P06", "42P07");

    private final String target;
    private final ServerName name;
    private final String inside;
    private final Connection connection;
    /** The numbers of the locks of agents. */
    private final Map<Integer, Integer> held = new HashMap<>();

    Postgres(String target, boolean writes) throws IOException {
        name = ServerName.of(target);
        this.target = Strangers.shown(target);
        inside = '"' + name.schema().replace("\"", "\"\"") + "\".";
        Driver driver = driver(name.url(), "postgresql (Debian: libpostgresql-jdbc-java)");
        try {
            connection = connected(driver, name.url(), name.words());
        } catch (SQLException thrown) {
            throw new Database.LostException(thrown);
        }
        try {
            beginSession(writes);
            expectOwn();
        } catch (IOException | RuntimeException | Error fault) {
            close();
            throw fault;
        }
    }

    /** Sets what statements depend on: no name is looked up where others make some. */
    private void beginSession(boolean writes) throws IOException {
        run("select pg_catalog.set_config('search_path', 'pg_catalog, pg_temp', false),"
                        + " pg_catalog.set_config('synchronous_commit', 'on', false),"
                        + " pg_catalog.set_config('lock_timeout', ?, false),"
                        + " pg_catalog.set_config('idle_in_transaction_session_timeout', ?, false)",
                "" + patience, "" + patience);
        if (!writes)
            run("set default_transaction_read_only = on");
    }

    /** Throws unless the schema and its tables are of a trusted role, and run nothing. */
    private void expectOwn() throws IOException {
        for (Object[] row : run(FOREIGN, name.owner(), name.schema()))
            throw new AccessDeniedException(target, null, row[0]
                    + " is of another role, or no table of a run: owner=ROLE names whom you trust");
    }

    /** Returns what is thrown if a server doesn't answer as a run is opened. */
    static ConnectException unanswered(Database.LostException lost) {
        ConnectException error = new ConnectException("the server doesn't answer: " + lost.getMessage());
        error.initCause(lost);
        return error;
    }

    @Override
    Connection connection() {
        return connection;
    }

    @Override
    IOException fault(SQLException thrown) {
        String state = "" + thrown.getSQLState();
        if (state.startsWith(CONNECTION) || state.startsWith(SHUTDOWN) || isClosed())
            return new Database.LostException(thrown);
        String what = state.equals(NO_LOCK) ? "another session holds a lock of the run: " : "";
        String detail = what + "PostgreSQL: " + thrown.getMessage();
        if (MADE.contains(state))
            return new FileAlreadyExistsException(target, null, detail);
        FileSystemException error = state.equals(READ_ONLY) || state.equals(NOT_ALLOWED)
                ? new AccessDeniedException(target, null, detail)
                : new FileSystemException(target, null, detail);
        error.initCause(thrown);
        return error;
    }

    private boolean isClosed() {
        try {
            return connection.isClosed();
        } catch (SQLException missing) {
            return true;
        }
    }

    @Override
    public String inside() {
        return inside;
    }

    @Override
    public String blob() {
        return "bytea";
    }

    @Override
    List<Object[]> lastRows(PreparedStatement statement, boolean hasRows) throws SQLException {
        List<Object[]> last = List.of();
        for (boolean more = hasRows; more || statement.getUpdateCount() >= 0;
                more = statement.getMoreResults())
            if (more)
                last = rows(statement.getResultSet());
        return last;
    }

    @Override
    public List<Object[]> append(List<Object[]> calls, long since, int most) throws IOException {
        if (calls.isEmpty())
            return run(since(), since, most);
        // All is sent at once, as a round trip may take longer than a flush. The rows are read
        // after the commit.
        String rows = String.join(", ", Collections.nCopies(calls.size(), "(?, ?, ?, ?, ?, ?)"));
        String sql = "begin; " + lock() + "; insert into " + inside + "call select (select coalesce(max(place), 0) from "
                + inside + "call) + own.at, token, segment, agent, call, scans"
                + " from (values " + rows + ") as own(at, token, segment, agent, call, scans)"
                + " on conflict (token) do nothing; commit; " + since();
        List<Object> values = new ArrayList<>();
        long at = 0;
        for (Object[] call : calls) {
            values.add(++at);
            Collections.addAll(values, call);
        }
        Collections.addAll(values, since, most);
        boolean isDone = false;
        try {
            List<Object[]> found = run(sql, values.toArray());
            isDone = true;
            return found;
        } finally {
            if (!isDone)
                rollBack();
        }
    }

    private String since() {
        return Tables.SINCE.replace("IN", inside);
    }

    /**
     * Returns the statement by which a transaction is alone.
     *
     * <p>Only who may write into the table may hold the lock. A serial number wouldn't do: a lower
     * one may become visible after a higher one.
     */
    private String lock() {
        return "lock table " + inside + "run in exclusive mode";
    }

    @Override
    public void transact(Work work) throws IOException {
        run("begin");
        boolean isDone = false;
        try {
            if (hasRun())
                run(lock());
            work.done();
            run("commit");
            isDone = true;
        } finally {
            if (!isDone)
                rollBack();
        }
    }

    private void rollBack() {
        try {
            run("rollback");
        } catch (IOException lost) {
            // The server has rolled it back then.
        }
    }

    @Override
    public boolean hasRun() throws IOException {
        Set<Object> names = new HashSet<>();
        for (Object[] row : run("select tablename from pg_catalog.pg_tables where schemaname = ?", name.schema()))
            names.add(row[0]);
        boolean hasRun = names.contains("run");
        Tables.expect(!hasRun || names.containsAll(Tables.NAMES), 0,
                "the schema has other tables than a run: " + target);
        return hasRun;
    }

    @Override
    public void make() throws IOException {
        if (run("select nspname from pg_catalog.pg_namespace where nspname = ?", name.schema()).isEmpty())
            run("create schema " + inside.substring(0, inside.length() - 1));
        expectOwn();
    }

    /** Returns the number of the table `run`, which the locks of this run have. */
    private String table() {
        return "'" + inside.replace("'", "''") + "run'::pg_catalog.regclass::pg_catalog.oid";
    }

    @Override
    public boolean hold(int agent) throws IOException {
        int number = agent + 256 * RANDOM.nextInt(1 << 22);
        boolean isDone = false;
        try {
            String sql = "begin; " + lock() + "; " + HOLD.replace("TABLE", table()) + "; commit";
            boolean isHeld = (Boolean) run(sql, agent, number).get(0)[0];
            isDone = true;
            if (isHeld)
                held.put(agent, number);
            return isHeld;
        } finally {
            if (!isDone)
                rollBack();
        }
    }

    @Override
    public void let(int agent) throws IOException {
        Integer number = held.remove(agent);
        if (number != null)
            run("select pg_catalog.pg_advisory_unlock(" + table() + "::integer, ?)", number);
    }
}
