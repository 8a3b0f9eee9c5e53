"""PostgreSQL databases, of which a schema is a run."""
import contextlib
import errno
import importlib
import re
import secrets
from collections.abc import Iterator, Sequence
from typing import Any
from urllib.parse import unquote

from ._errors import DamagedError
from ._faults import ConnectionLost, database_errors
from ._files import shown
from ._sqlite import leak
from ._tables import NAMES, SINCE

# How long a statement waits for a lock, and a server for the next statement of a transaction, in ms.
_PATIENCE = 60_000
# How many seconds pass before a server doesn't answer, unless the name of the server says it.
_CONNECT = 10
# Errors of a server that stays: a lock wasn't to be had in time, and somebody else has made a run at the same time.
_NO_LOCK, _MADE, _NOT_ALLOWED = ("55P03", "57014"), ("23505", "42P06", "42P07"), ("25006", "42501")
_OWNER = re.compile(r"(?<=[?&])owner=([^&]*)&?")
# Append calls; return what is after a place. For calls that it has appended it returns only place and token.
_APPEND = """prepare folugben_append(bigint, bigint, bytea[], bigint[], integer[], text[], text[]) as
    with own as (
        insert into {inside}call select (select coalesce(max(place), 0) from {inside}call) + at, token, segment, agent, call, scans
        from unnest($3, $4, $5, $6, $7) with ordinality as it(token, segment, agent, call, scans, at)
        on conflict (token) do nothing returning place, token
    )
    select place, token, segment, agent, call, scans from {inside}call where place > $1
    union all select place, token, null, null, null, null from own order by place limit $2"""
# What a schema has that isn't its owner's, or that runs something when a table is used. The roles come first, then the schema.
_FOREIGN = """with trusted as (select oid from pg_catalog.pg_roles where rolname = current_user or rolname = ?),
    own as (select * from pg_catalog.pg_namespace where nspname = ?),
    named as (select it.* from pg_catalog.pg_class it, own where it.relnamespace = own.oid
        and relname in ('run', 'segment', 'piece', 'call')),
    things as (select * from named union all select it.* from pg_catalog.pg_class it, pg_catalog.pg_index own_index, named
        where own_index.indrelid = named.oid and it.oid = own_index.indexrelid)
    select 'the schema' from own where nspowner not in (select oid from trusted)
    union all select 'the relation ' || relname from things where relowner not in (select oid from trusted)
    union all select 'the relation ' || relname from things where relkind not in ('r', 'i') or relpersistence <> 'p'
        or relispartition or relrowsecurity
    union all select 'a trigger of ' || relname from pg_catalog.pg_trigger it, things
        where it.tgrelid = things.oid and not it.tgisinternal
    union all select 'a rule of ' || relname from pg_catalog.pg_rewrite it, things where it.ev_class = things.oid
    union all select 'a heir of ' || relname from pg_catalog.pg_inherits it, things where it.inhparent = things.oid
    union all select 'the default ' || attname from pg_catalog.pg_attribute it, things
        where it.attrelid = things.oid and (it.atthasdef or it.attgenerated <> '')
    union all select 'the type of ' || attname from pg_catalog.pg_attribute it, things
        where it.attrelid = things.oid and it.attnum > 0 and not it.attisdropped
        and it.atttypid not in (20, 23, 17, 25)
    union all select 'the index ' || relname from pg_catalog.pg_index it, things
        where it.indexrelid = things.oid and (it.indexprs is not null or it.indpred is not null)
    union all select 'a foreign key to ' || relname from pg_catalog.pg_constraint it, things
        where it.confrelid = things.oid and it.conrelid not in (select oid from named)
    union all select 'a check of ' || relname from pg_catalog.pg_constraint it, things
        where it.conrelid = things.oid and it.contype = 'c' and pg_catalog.pg_get_constraintdef(it.oid) <> 'CHECK ((one = 1))'
    union all select 'a right on ' || relname from things, pg_catalog.aclexplode(relacl) it
        where it.privilege_type in ('TRIGGER', 'REFERENCES') and it.grantee not in (select oid from trusted)
    union all select 'a right on ' || attname from pg_catalog.pg_attribute, things, pg_catalog.aclexplode(attacl) it
        where attrelid = things.oid and it.privilege_type = 'REFERENCES' and it.grantee not in (select oid from trusted)
    union all select 'a right to create in the schema' from own, pg_catalog.aclexplode(nspacl) it
        where it.privilege_type = 'CREATE' and it.grantee not in (select oid from trusted)
    limit 1"""
# The schema, and the table `run` in it.
_FOUND = """select own.oid, it.oid from (select 1) always left join pg_catalog.pg_namespace own on own.nspname = ?
    left join pg_catalog.pg_class it on it.relnamespace = own.oid and it.relname = 'run'"""
# Reserve agents' numbers: an advisory lock of a session whose role may not write into the run holds nothing. The locks' own
# numbers can't be guessed, so that nobody else holds them before.
_HOLD = """{lock}; select pg_catalog.bool_and(case when exists (
        select from pg_catalog.pg_locks it join pg_catalog.pg_stat_activity session on session.pid = it.pid
        where it.locktype = 'advisory' and it.granted and it.objsubid = 2 and it.classid = {table}
        and it.database = (select oid from pg_catalog.pg_database where datname = pg_catalog.current_database())
        and it.objid::bigint % 256 = own.agent and pg_catalog.has_table_privilege(session.usesysid, it.classid, 'UPDATE'))
    then false else pg_catalog.pg_try_advisory_lock({table}::integer, own.number) end)
    from unnest(?::integer[], ?::integer[]) as own(agent, number)"""
# The schemas that were found to be of trusted roles, each with its table `run`, by their targets.
_trusted: dict[str, tuple[int, int]] = {}


def _parts(target: str) -> tuple[str, str, str]:
    """Return the server of a target, the schema, and the role that may own that.

    Raises:
        ValueError: the schema has no valid name.
    """
    server, _, name = target.partition("#")
    schema = name or "folugben"
    is_short = 1 <= len(schema.encode(errors="surrogatepass")) <= 63
    if not is_short or schema.lower().startswith("pg_") or any(it in "?%" or not it.isprintable() for it in schema):
        raise ValueError(f"the name of a schema has 1 to 63 bytes, begins not with pg_, and has no ?, no % and no control "
                         f"characters: {schema!r}")
    owner = _OWNER.search(server)
    bare = _OWNER.sub("", server).rstrip("?&")
    return bare, schema, unquote(owner[1]) if owner else ""


class Postgres:
    """A schema of a PostgreSQL database, named as in postgresql://host/base#schema.

    Without a name it is folugben. It has to be of this role, or of the one that the word `owner` names, as in
    postgresql://host/base?owner=bench#schema: what another role has made may run what that likes.

    Raises:
        ValueError: the name of the server or of the schema isn't valid.
        PermissionError: something in the schema is of another role, or runs something.
        ConnectionLost: the server doesn't answer.
    """

    blob = "bytea"

    def __init__(self, target: str, writes: bool) -> None:
        server, self._schema, self._owner = _parts(target)
        self._target, self._driver = shown(target), _driver()
        self.inside = '"{}".'.format(self._schema.replace('"', '""'))
        # The number of the table `run`, which the locks of this run have.
        self._table = "'{}run'::pg_catalog.regclass::pg_catalog.oid".format(self.inside.replace("'", "''"))
        self._since, self._held = SINCE.format(inside=self.inside), dict[int, int]()
        with database_errors(target):
            self._db = self._connect(server)
            self._db.autocommit, self._is_prepared = True, False
            # In psycopg 3 this one accepts several statements at once, as those of psycopg 2 do.
            self._cursor = self._driver.ClientCursor(self._db) if hasattr(self._driver, "ClientCursor") else self._db.cursor()
            try:
                self._begin_session(writes)
            except BaseException:
                self.close()
                raise

    def _connect(self, server: str) -> Any:
        words = {"connect_timeout": _CONNECT, "tcp_user_timeout": _PATIENCE}
        try:
            return self._driver.connect(server, **{name: it for name, it in words.items() if f"{name}=" not in server})
        except self._driver.OperationalError as error:
            raise ConnectionLost(shown(error)) from None
        except self._driver.ProgrammingError as error:
            detail = str(error).strip().replace(server, shown(server))
            raise ValueError(f"{shown(server)} is no name of a server: {shown(detail)}") from None

    def _begin_session(self, writes: bool) -> None:
        """Set what each statement depends on: no name is looked up in a schema that others may fill, and no wait is endless."""
        settings: dict[str, Any] = {"search_path": "pg_catalog, pg_temp", "synchronous_commit": "on", "lock_timeout": _PATIENCE,
                    "idle_in_transaction_session_timeout": _PATIENCE}
        if not writes:
            settings["default_transaction_read_only"] = "on"
        sql = ", ".join("pg_catalog.set_config(?, ?, false)" for _ in settings)
        values = [str(it) for pair in settings.items() for it in pair]
        (found,) = self.run(f"select {sql}; {_FOUND}", (*values, self._schema))
        # Its roles are known if this process has found it before, so that it connects again in a moment. A schema without a run
        # is looked at again, as somebody may make one in it.
        if None in found or _trusted.get(self._target) != found:
            self._expect_own()
        if None not in found:
            _trusted[self._target] = found

    def _expect_own(self) -> None:
        """Check that the schema and all in it are of a trusted role, and run nothing.

        Raises:
            PermissionError: it isn't so.
        """
        for (what,) in self.run(_FOREIGN, (self._owner, self._schema)):
            raise PermissionError(errno.EPERM, f"{what} is of another role, or no table of a run: owner=ROLE names whom you trust",
                                  self._target)

    def run(self, sql: str, values: Sequence[Any] = ()) -> list[Any]:
        try:
            self._cursor.execute(sql.replace("%", "%%").replace("?", "%s"), values)
            # Here psycopg 3 is at the first result, psycopg 2 at the last.
            while hasattr(self._cursor, "pgresult") and self._cursor.nextset():
                pass
            return list(self._cursor.fetchall()) if self._cursor.description else []
        except self._driver.Error as error:
            raise self._fault(error) from error

    def _fault(self, error: Exception) -> Exception:
        """Return what is raised for an error of the driver."""
        state = getattr(error, "sqlstate", None) or getattr(error, "pgcode", None)
        if state in _NO_LOCK and not self._db.closed:
            return TimeoutError(errno.ETIMEDOUT, f"another session holds a lock of the run: {str(error).strip()}", self._target)
        if state in _MADE:
            return FileExistsError(errno.EEXIST, "another process makes the run", self._target)
        if state in _NOT_ALLOWED:
            return PermissionError(errno.EACCES, f"PostgreSQL: {str(error).strip()}", self._target)
        # psycopg 2 may raise the base class for a server that has ended, before it marks its connection as closed.
        is_lost = isinstance(error, (self._driver.OperationalError, self._driver.InterfaceError))
        if is_lost or type(error) is self._driver.DatabaseError or self._db.closed:
            return ConnectionLost(str(error))
        return OSError(errno.EIO, f"PostgreSQL: {str(error).strip()}", self._target)

    def insert(self, table: str, rows: Sequence[Sequence[Any]], more: str = "") -> None:
        places = f"({', '.join('?' * len(rows[0]))})"
        for at in range(0, len(rows), 500):
            some = rows[at : at + 500]
            self.run(f"insert into {table} values {', '.join([places] * len(some))} {more}", [it for row in some for it in row])

    def append(self, calls: Sequence[Sequence[Any]], since: int, most: int) -> list[Any]:
        if not calls:
            return self.run(self._since, (since, most))
        if not self._is_prepared:
            # Each query uses a key, whatever the statistics say of a table that was empty just now.
            self.run(f"set enable_seqscan = off; set plan_cache_mode = force_generic_plan; {_APPEND.format(inside=self.inside)}")
            self._is_prepared = True
        # All is sent at once, as a round trip may take longer than a flush. The server commits before it reports that the last
        # statement is done.
        sql = f"""{self._lock};
            execute folugben_append(?, ?, ?::bytea[], ?::bigint[], ?::integer[], ?::text[], ?::text[])"""
        return self.run(sql, (since, most, *map(list, zip(*calls))))

    @property
    def _lock(self) -> str:
        """The statement by which a transaction is alone; only who may write into the table may hold the lock.

        A serial number wouldn't do: a lower one may become visible after a higher one.
        """
        return f"lock table {self.inside}run in exclusive mode"

    @contextlib.contextmanager
    def transaction(self) -> Iterator[None]:
        self.run("begin")
        try:
            if self.has_run():
                self.run(self._lock)
            yield
            self.run("commit")
        except BaseException:
            with contextlib.suppress(ConnectionLost):
                self.run("rollback")
            raise

    def has_run(self) -> bool:
        rows = self.run("select tablename from pg_catalog.pg_tables where schemaname = ?", (self._schema,))
        names = {it for (it,) in rows}
        if "run" in names and not names >= set(NAMES):
            raise DamagedError(0, f"the schema has other tables than a run: {self._target}")
        return "run" in names

    def make(self) -> None:
        if not self.run("select nspname from pg_catalog.pg_namespace where nspname = ?", (self._schema,)):
            self.run(f"create schema {self.inside[:-1]}")
        self._expect_own()

    def hold(self, *agents: int) -> bool:
        numbers = [it + 256 * secrets.randbelow(2**22) for it in agents]
        self._held.update(zip(agents, numbers))
        sql = _HOLD.format(lock=self._lock, table=self._table)
        return bool(self.run(sql, (list(agents), numbers))[0][0])

    def release(self, agent: int) -> None:
        if (number := self._held.pop(agent, None)) is not None:
            self.run(f"select pg_catalog.pg_advisory_unlock({self._table}::integer, ?)", (number,))

    def refresh(self) -> None:
        """Do nothing: each statement reads what is there."""

    def close(self) -> None:
        with contextlib.suppress(self._driver.Error):
            self._db.close()

    def leave(self) -> None:
        leak(self._db)


def _driver() -> Any:
    """Return the module by which Python connects to PostgreSQL: psycopg 3 or 2.

    If psycopg 3 is written in Python alone, an append takes four times the processor time of psycopg 2.
    """
    found = []
    for name in "psycopg", "psycopg2":
        with contextlib.suppress(ImportError):
            found.append(importlib.import_module(name))
    if not found:
        raise ImportError("a run in PostgreSQL needs psycopg: pip install psycopg, or Debian's python3-psycopg2")
    is_slow = getattr(getattr(found[0], "pq", None), "__impl__", "") == "python"
    return found[-1 if is_slow else 0]
