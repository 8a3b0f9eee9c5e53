"""What a stranger can write: databases, journals beside them, and what reading must leave as it is."""
import contextlib
import os
import pathlib
import sqlite3
import struct

MAGIC, PAGE = bytes.fromhex("d9d505f920a163d7"), 4096
RUN = 0x466F6C75


def write_database(path, sql, application=RUN):
    """Write a SQLite file with some statements' tables, which its header calls a run."""
    with contextlib.closing(sqlite3.connect(path, isolation_level=None)) as connection:
        connection.execute(f"pragma page_size = {PAGE}")
        connection.execute(f"pragma application_id = {application}")
        connection.executescript(sql)


def write_hot_journal(path, victim):
    """Write beside a SQLite file a rollback journal that names another file, which SQLite deletes after it has played it back."""
    name = os.fsencode(victim)
    head = MAGIC + struct.pack(">5I", 0, 0, os.path.getsize(path) // PAGE, 512, PAGE)
    end = struct.pack(">I", 2**30 // PAGE + 1) + name + struct.pack(">2I", len(name), sum(name)) + MAGIC
    pathlib.Path(f"{path}-journal").write_bytes(head.ljust(512, b"\0") + end)


def endless_views(depth=60):
    """Return the tables of a run of which one is a view that has 2 to the power of the depth rows."""
    views = [f"create view v{number} as select * from v{number - 1} union all select * from v{number - 1}" for number in range(1, depth)]
    return ";".join(["create table v0(format, moves)", "insert into v0 values (1, 1)", *views, f"create view run as select * from v{depth - 1}"])


def contents(folder):
    """Return what each file of a folder has, and how many names it has."""
    return {it.name: (it.read_bytes() if it.is_file() and not it.is_symlink() else None, it.lstat().st_mode, it.lstat().st_nlink)
            for it in pathlib.Path(folder).iterdir()}
