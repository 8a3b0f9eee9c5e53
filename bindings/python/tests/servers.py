"""A separate PostgreSQL server for the tests.

It requires Debian's postgresql and psycopg.
"""
import contextlib
import functools
import importlib.util
import os
import pathlib
import pwd
import shutil
import subprocess
import tempfile


@functools.cache
def programs():
    """Return the folder of PostgreSQL's programs, or None."""
    found = sorted(pathlib.Path("/usr/lib/postgresql").glob("*/bin/initdb"))
    has_driver = any(importlib.util.find_spec(name) for name in ("psycopg", "psycopg2"))
    return found[-1].parent if found and has_driver else None


class Server:
    """A server that listens only on a socket in its own folder.

    It runs as another user if this process is root.
    """

    def __init__(self):
        self.room = pathlib.Path(tempfile.mkdtemp(prefix="folugben-pg-"))
        self._user = {}
        if os.geteuid() == 0:
            try:
                user = pwd.getpwnam("postgres")
            except KeyError:
                user = pwd.getpwnam("nobody")
            os.chown(self.room, user.pw_uid, user.pw_gid)
            self._user = {"user": user.pw_uid, "group": user.pw_gid, "extra_groups": []}
        self._call("initdb", "-D", self.room / "data", "-A", "trust", "-U", "folugben", "--no-sync")
        self.start()

    def _call(self, program, *words):
        command = [programs() / program, *map(str, words)]
        subprocess.run(command, check=True, cwd=self.room, stdin=subprocess.DEVNULL, stdout=subprocess.DEVNULL,
                       stderr=subprocess.DEVNULL, **self._user)

    def start(self):
        options = f"-k {self.room} -c listen_addresses= -c max_connections=50 -c shared_buffers=16MB"
        self._call("pg_ctl", "-D", self.room / "data", "-l", self.room / "log", "-o", options, "-w", "-t", "120", "start")

    def stop(self, mode="immediate"):
        self._call("pg_ctl", "-D", self.room / "data", "-m", mode, "-t", "120", "stop")

    def target(self, schema):
        return f"postgresql://folugben@/postgres?host={self.room}#{schema}"

    def run(self, sql):
        """Return the result of a statement, over a separate connection."""
        driver = importlib.import_module("psycopg" if importlib.util.find_spec("psycopg") else "psycopg2")
        with contextlib.closing(driver.connect(self.target("").partition("#")[0])) as connection:
            connection.autocommit = True
            cursor = connection.cursor()
            cursor.execute(sql)
            return cursor.fetchall() if cursor.description else []

    def close(self):
        with contextlib.suppress(subprocess.CalledProcessError):
            self.stop()
        shutil.rmtree(self.room, ignore_errors=True)
