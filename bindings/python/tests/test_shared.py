"""Tests of shared runs, over SQLite, and over PostgreSQL if that is installed.

They cover agents in threads, runs and processes.
"""
import contextlib
import importlib.util
import os
import signal
import sqlite3
import threading
import time
import unittest
from unittest import mock

import servers
import shared_plays
from folugben import BrokenError, DamagedError, Error, NestedError, SharedRun, _postgres, _tables, audit
from folugben._log import LogReader
from folugben._reading import verify
from rooms import COUNT, INIT, raised
from threads import in_threads


class Leads:
    """The thread that appends the calls of a process, over each database."""

    def test_agents_lead_but_on_the_main_thread(self):
        with SharedRun(self.target, INIT) as run, run.agent(0) as agent, run.agent(1) as other:
            exchange, led, nested = run._worker._exchange, [], []

            def exchanged(batch):
                if batch:
                    led.append(threading.current_thread())
                    for call in lambda: other.play(raised), other.follow, lambda: run.agent(2):
                        with self.assertRaises(NestedError):
                            call()
                        nested.append(call)
                return exchange(batch)

            thread = threading.Thread(target=agent.play, args=(raised,))
            with mock.patch.object(run._worker, "_exchange", exchanged):
                agent.play(raised)
                thread.start()
                thread.join()
            self.assertEqual((led, len(nested)), ([run._worker._thread, thread], 6))
            self.assertEqual(other.play(raised)[0], 3)

    def test_the_main_thread_beside_others(self):
        def work(own):
            with run.agent(own) as agent:
                for _ in range(20):
                    numbers.append(agent.play(raised)[0])

        numbers = []
        with SharedRun(self.target, INIT, 25) as run:
            threads = [threading.Thread(target=work, args=(own,)) for own in range(3)]
            for thread in threads:
                thread.start()
            work(3)
            for thread in threads:
                thread.join()
        self.assertEqual(sorted(numbers), list(range(1, 81)))
        self.assert_is_run(80)

    def test_a_signal_handler_that_raises_cancels_no_call(self):
        class Alarm(Exception):
            pass

        ready = False

        def alarm(*_):
            if ready:
                raise Alarm

        was = signal.signal(signal.SIGALRM, alarm)
        self.addCleanup(signal.signal, signal.SIGALRM, was)
        numbers, raises = [], 0
        with SharedRun(self.target, INIT) as run, run.agent(0) as agent, run.agent(1) as other:
            thread = threading.Thread(target=lambda: [other.play(raised) for _ in range(40)])
            thread.start()
            for number in range(40):
                try:
                    # During its wait, and before and after it.
                    ready = True
                    signal.setitimer(signal.ITIMER_REAL, 0.0002 * (number % 10 + 1))
                    numbers.append(agent.play(raised)[0])
                    ready = False
                except Alarm:
                    raises += 1
                finally:
                    signal.setitimer(signal.ITIMER_REAL, 0)
            thread.join()
            moves = run.state()[0]
        self.assertEqual(len(set(numbers)), len(numbers))
        self.assertTrue(40 + len(numbers) <= moves <= 80, (moves, numbers, raises))
        self.assert_is_run(moves)


class OnSqlite(Leads, shared_plays.Plays):
    def alter(self, sql):
        with contextlib.closing(sqlite3.connect(self.target, isolation_level=None)) as connection:
            connection.execute(sql)

    def test_what_is_refused_makes_no_file(self):
        for error, words in (Error, {"init": [[["a"], 1.5]]}), (Error, {"init": [], "moves": 0}), (TypeError, {"init": [], "moves": "x"}):
            with self.assertRaises(error):
                SharedRun(self.target, **words)
        self.assertEqual(os.listdir(self.room), [])
        with self.assertRaisesRegex(IsADirectoryError, "a folder may be a Run: .*" + self.room.name):
            SharedRun(self.room, init=[])
        (self.room / "text").write_text("text")
        with self.assertRaisesRegex(DamagedError, "file is not a database: .*text"):
            SharedRun(self.room / "text")

    def test_a_step_of_an_agent_that_was_returned(self):
        with SharedRun(self.target, INIT) as run:
            agent = run.agent(0)
            with agent.step() as step:
                step.push([["put", COUNT, 1]])
                agent.give()
                with self.assertRaisesRegex(Error, "the agent was returned"):
                    step.commit()
            self.assertEqual(run.state()[0], 0)

    def test_files_that_are_no_run(self):
        other = self.room / "other.db"
        with contextlib.closing(sqlite3.connect(other)) as connection:
            connection.execute("create table t(x)")
        before = other.read_bytes()
        text = self.room / "text"
        text.write_bytes(b"no database at all" * 100)
        for path in other, text:
            for init in None, INIT:
                self.assertRaises(DamagedError, SharedRun, path, init)
        self.assertEqual((other.read_bytes(), text.stat().st_size), (before, 1800))
        for path in self.room / "absent" / "x.db", self.room:
            self.assertRaises(OSError, SharedRun, path, INIT)
        # The remains of a process that was killed before its first commit are no run.
        empty = self.room / "empty.db"
        empty.touch()
        self.assertRaises(FileNotFoundError, SharedRun, empty)
        SharedRun(empty, INIT).close()
        self.assertEqual(empty.with_name("empty.db-agents").stat().st_mode & 0o777, 0o600)
        SharedRun(self.target, INIT).close()
        self.assertEqual(os.stat(self.target).st_mode & 0o777, 0o600)

    def test_a_full_disk(self):
        with self.assertRaises(BrokenError) as caught, SharedRun(self.target, INIT) as run, run.agent(0) as agent:
            agent.play(raised)
            run._worker._log.database.run("pragma max_page_count = 20")
            while True:
                agent.play(lambda step: step.push([["put", ["x"], "x" * 3_000]]))
        self.assertIn("full", str(caught.exception))
        moves = audit(self.target).moves
        with SharedRun(self.target) as run, run.agent(0) as agent:
            self.assertEqual(agent.play(raised)[0], moves + 1)

    def test_a_file_that_is_removed_or_replaced(self):
        for alter in (lambda: os.unlink(self.target), lambda: os.replace(self.target + "2", self.target)):
            SharedRun(self.target, INIT).close()
            SharedRun(self.target + "2", INIT).close()
            with self.assertRaises(BrokenError) as caught, SharedRun(self.target) as run, run.agent(0) as agent:
                agent.play(raised)
                alter()
                agent.play(raised)
            self.assertRegex(str(caught.exception), "removed or replaced|No such file")
            for name in os.listdir(self.room):
                os.unlink(self.room / name)


@unittest.skipUnless(servers.programs(), "Debian's postgresql and psycopg aren't there")
class OnPostgres(Leads, shared_plays.Plays):
    @classmethod
    def setUpClass(cls):
        cls.server, cls.count = servers.Server(), 0

    @classmethod
    def tearDownClass(cls):
        cls.server.close()

    def setUp(self):
        super().setUp()
        OnPostgres.count += 1
        self.target = self.server.target(f"run {OnPostgres.count}")

    def alter(self, sql):
        self.server.run(f'set search_path = "run {OnPostgres.count}"; {sql}')

    def test_what_is_no_name_of_a_server(self):
        with self.assertRaisesRegex(ValueError, "is no name of a server"):
            SharedRun("postgresql://[bad/base")

    def test_a_server_that_does_not_answer(self):
        for target in f"postgresql://folugben@/postgres?host={self.room}", "postgresql://127.0.0.1:1/x":
            self.assertRaises(ConnectionError, SharedRun, target, INIT)

    def test_connections_that_are_cut(self):
        def cut():
            pause = 0.02
            while not stop.is_set():
                self.server.run("select pg_terminate_backend(pid) from pg_stat_activity where pid <> pg_backend_pid() and "
                                "backend_type = 'client backend'")
                # On a busy machine a connection takes longer than the first pauses.
                time.sleep(pause)
                pause *= 1.02

        def work(own):
            with run.agent(own) as agent:
                for _ in range(40):
                    numbers.append(agent.play(raised)[0])

        stop, numbers = threading.Event(), []
        with SharedRun(self.target, INIT, 30) as run:
            cutter = threading.Thread(target=cut)
            cutter.start()
            try:
                self.assertEqual(in_threads(work, 3), ([], True))
            finally:
                stop.set()
                cutter.join()
        self.assertEqual(sorted(numbers), list(range(1, 121)))
        self.assert_is_run(120)

    def foreign(self):
        """Return a connection of another role that may create schemas."""
        with contextlib.suppress(Exception):
            self.server.run("create role mallory login; grant create on database postgres to mallory")
        driver = importlib.import_module("psycopg" if importlib.util.find_spec("psycopg") else "psycopg2")
        connection = driver.connect(self.server.target("").partition("#")[0].replace("folugben@", "mallory@"))
        connection.autocommit = True
        self.addCleanup(connection.close)
        return connection.cursor()

    def test_a_schema_of_another_role_is_refused(self):
        base, theirs = self.server.target("").partition("#")[0], self.foreign()
        theirs.execute("create schema traps; create table traps.seen(role text); grant usage on schema traps to public;"
                       "create function traps.f() returns int language sql as 'insert into traps.seen values (current_user); select 1';"
                       "create view traps.run as select traps.f() as format, 7 as moves; grant all on all tables in schema traps to public;")
        SharedRun(self.target.replace("folugben@", "mallory@"), INIT).close()
        run = self.target.partition("#")[2]
        theirs.execute(f'grant usage on schema "{run}" to public; grant select, insert, update, delete on all tables in schema "{run}" to public')
        for target in f"{base}#traps", f"{base}&owner=nobody#traps", self.target:
            for call in lambda it: SharedRun(it, INIT), SharedRun, audit, verify:
                with self.assertRaisesRegex(PermissionError, "is of another role"):
                    call(target)
        trusted = f"{base}&owner=mallory#{run}"
        self.assertEqual(audit(trusted).moves, 0)
        with SharedRun(trusted) as shared, shared.agent(0) as agent:
            self.assertEqual(agent.play(raised)[0], 1)
        for sql, what in (("create function traps.t() returns trigger language plpgsql as 'begin return new; end'", None),
                          (f'create trigger t before update on "{run}".run for each row execute function traps.t()', "a trigger of run"),
                          (f'drop trigger t on "{run}".run; create rule r as on update to "{run}".run do nothing', "a rule of run"),
                          (f'drop rule r on "{run}".run; alter table "{run}".call alter scans set default now()', "the default scans"),
                          (f'alter table "{run}".call alter scans drop default; create table "{run}".heir() inherits("{run}".call)', "a heir of call"),
                          (f'drop table "{run}".heir; create table traps.key(place bigint references "{run}".call)', "a foreign key to call"),
                          (f'drop table traps.key; alter table "{run}".run add constraint c check (moves > 0)', "a check of run"),
                          (f'alter table "{run}".run drop constraint c; grant trigger on "{run}".run to public', "a right on run"),
                          (f'revoke trigger on "{run}".run from public; grant references on "{run}".call to public', "a right on call"),
                          (f'revoke references on "{run}".call from public; grant references (place) on "{run}".call to public', "a right on place"),
                          (f'revoke references (place) on "{run}".call from public; grant create on schema "{run}" to public', "a right to create in the schema")):
            theirs.execute(sql)
            _postgres._trusted.clear()
            for call in (SharedRun, audit) if what else ():
                with self.assertRaisesRegex(PermissionError, what):
                    call(trusted)
        theirs.execute("select count(*) from traps.seen")
        self.assertEqual(theirs.fetchall(), [(0,)])

    def test_a_run_that_a_stranger_makes_in_a_schema_that_was_found_empty(self):
        theirs, run = self.foreign(), self.target.partition("#")[2]
        self.server.run(f'create schema "{run}"; grant usage on schema "{run}" to mallory')
        for call in SharedRun, audit:
            self.assertRaises(FileNotFoundError, call, self.target)
        self.server.run(f'grant create on schema "{run}" to mallory')
        for sql in _tables.TABLES.format(inside=f'"{run}".', blob="bytea").split(";"):
            theirs.execute(sql)
        theirs.execute(f'insert into "{run}".run values (1, 1, 9, 0); grant all on all tables in schema "{run}" to public')
        for right in "grant", "revoke":
            self.server.run(f'{right} create on schema "{run}" {"to" if right == "grant" else "from"} mallory')
            for call in lambda it: SharedRun(it, INIT), SharedRun, audit:
                with self.assertRaisesRegex(PermissionError, "is of another role"):
                    call(self.target)

    def test_agents_of_two_roles(self):
        # What a role holds that may write into the run is in use for another one.
        self.foreign()
        with SharedRun(self.target.replace("folugben@", "mallory@"), INIT) as run, run.agent(0) as agent:
            name = self.target.partition("#")[2]
            with SharedRun(self.target.replace("#", "&owner=mallory#")) as other:
                with self.assertRaisesRegex(Error, "agent 0 is in use by another process"):
                    other.agent(0)
                with other.agent(1) as second:
                    self.assertEqual((agent.play(raised)[0], second.play(raised)[0]), (1, 2))
                    self.assertRaisesRegex(Error, "agent 1 is in use by another process", run.agent, 1)
            self.assertEqual(self.server.run(f"select count(*) from pg_locks where locktype = 'advisory' and classid = '\"{name}\".run'::regclass"), [(1,)])
            run.agent(1).give()

    def test_no_name_is_looked_up_as_the_database_says(self):
        # Operators of a schema that the database puts first are run by nothing.
        theirs = self.foreign()
        theirs.execute("create schema if not exists lures; create table if not exists lures.seen(role text); grant all on lures.seen to public;"
                       "grant usage on schema lures to public;"
                       "create or replace function lures.equal(name, name) returns bool language sql as 'insert into lures.seen values (current_user); select true';")
        with contextlib.suppress(Exception):
            theirs.execute("create operator lures.= (function = lures.equal, leftarg = name, rightarg = name)")
        self.server.run("alter database postgres set search_path = lures, pg_catalog")
        try:
            with SharedRun(self.target, INIT) as run, run.agent(0) as agent:
                agent.play(raised)
            self.assert_is_run(1)
        finally:
            self.server.run("alter database postgres reset search_path")
        theirs.execute("select count(*) from lures.seen")
        self.assertEqual(theirs.fetchall(), [(0,)])

    def test_locks_of_strangers_hold_nothing_up(self):
        theirs, name = self.foreign(), self.target.partition("#")[2]
        theirs.execute("select pg_advisory_lock(hashtext('folugben'), hashtext(%s))", (name,))
        with SharedRun(self.target, INIT) as run:
            table = f"(select oid::integer from pg_class where relname = 'run' and relnamespace = '\"{name}\"'::regnamespace)"
            theirs.execute(f"select pg_try_advisory_lock({table}, it) from generate_series(0, 511) it")
            for _ in range(3):
                with run.agent(0) as agent, run.agent(1):
                    self.assertRaises(Error, run.agent, 1)
                    agent.play(raised)
            theirs.execute(f"select count(*) from pg_locks where locktype = 'advisory' and classid = {table}::oid and pid <> pg_backend_pid()")
            self.assertEqual(theirs.fetchall(), [(0,)])
        self.assert_is_run(3)

    def test_each_wait_has_a_bound(self):
        SharedRun(self.target, INIT).close()
        name = self.target.partition("#")[2]
        own = importlib.import_module("psycopg" if importlib.util.find_spec("psycopg") else "psycopg2")
        with contextlib.closing(own.connect(self.server.target("").partition("#")[0])) as other, mock.patch.object(_postgres, "_PATIENCE", 500):
            other.cursor().execute(f'lock table "{name}".run in exclusive mode')
            with self.assertRaisesRegex(TimeoutError, "holds a lock"):
                SharedRun(self.target)
            other.rollback()
            with self.assertRaises(BrokenError) as caught, SharedRun(self.target) as run, run.agent(0) as agent:
                other.cursor().execute(f'lock table "{name}".run in exclusive mode')
                agent.play(raised)
            self.assertIsInstance(caught.exception.__cause__, TimeoutError)
            other.rollback()

    def test_an_audit_may_not_write(self):
        SharedRun(self.target, INIT).close()
        log = LogReader(self.target)
        with self.assertRaisesRegex(PermissionError, "read-only"):
            log._run("update {inside}run set joined = 0")
        self.assertEqual(log._run("select current_setting('search_path')"), [("pg_catalog, pg_temp",)])
        log.close()

    def test_passwords_are_in_no_text(self):
        target = self.target.replace("folugben@", "folugben:hunter2@")
        with self.assertRaises(BrokenError) as caught, SharedRun(target, INIT, 3) as run, run.agent(0) as agent:
            agent.play(raised)
            seen = [repr(run), str(run), repr(agent), *map(repr, threading.enumerate())]
            self.alter("drop table piece")
            for _ in range(9):
                agent.play(raised)
        seen += [str(caught.exception), repr(caught.exception.__cause__)]
        for call in SharedRun, audit, verify:
            with self.assertRaises((FileNotFoundError, DamagedError)) as caught:
                call(target + "2" if call is SharedRun else target)
            seen += [str(caught.exception), repr(caught.exception)]
        self.assertEqual([it for it in seen if "hunter2" in it], [])

    def test_two_processes_make_a_run(self):
        def work(_):
            with SharedRun(self.target, INIT) as run:
                opened.append(run.state()[0])

        opened = []
        self.assertEqual(in_threads(work, 6), ([], True))
        self.assertEqual(opened, [0] * 6)

    def test_a_server_that_is_killed_and_started(self):
        self.disturb = self.restart
        self.kill(2, 2, 10, 3)

    def kill_many(self, kills):
        self.disturb = self.restart
        return super().kill_many(kills)

    def restart(self):
        self.server.stop()
        self.server.start()


if __name__ == "__main__":
    unittest.main()
