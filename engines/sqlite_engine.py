"""SQLite by python3's own sqlite3: one file in WAL mode, under the schema and the transactions of
examples/sql/sqlite. A client's connection waits up to five seconds for another's to end its writing, which is its own
way of waiting; a call that can't be made even so is aborted."""
import contextlib
import os
import sqlite3
import time

import clients
from session import Aborted, Session
from tatp_sqlite import Database

# How often the copy is made anew.
COPIED = 0.05


def outcome_of(error):
    """A call that met another's lock was taken back. (Broken keys are told by tatp_sqlite.)"""
    is_lock = isinstance(error, sqlite3.OperationalError) and str(error).startswith("database is locked")
    return Aborted() if is_lock else error


class SqliteSession(Session):
    error = sqlite3.Error

    def __init__(self, mode, path, is_durable, replica=None):
        super().__init__(mode)
        self.database = Database(path)
        self.connection = self.database.connection
        if is_durable:
            self.connection.execute("PRAGMA synchronous = FULL")
        if replica:
            self.replica = SqliteSession(mode, replica, False)

    def answer(self, line):
        return self.database.answer(line)

    def execute(self, statement, values):
        cursor = self.connection.execute(statement, values)
        return cursor.fetchall(), cursor.rowcount

    @contextlib.contextmanager
    def transaction(self):
        self.connection.execute("BEGIN")
        try:
            yield
            self.connection.execute("COMMIT")
        finally:
            self.undo()

    def undo(self):
        if self.connection.in_transaction:
            self.database.undo()

    def outcome_of(self, error):
        return outcome_of(error)


class Engine:
    """A fresh database in a folder."""

    def __init__(self, plan, room):
        self.plan = plan
        self.path = os.path.join(room, "tatp.db")
        self.replica = os.path.join(room, "replica.db") if plan.mode.has_replica else None
        self.name = "SQLite " + sqlite3.sqlite_version

    @contextlib.contextmanager
    def opened(self, rows):
        """The database with these rows; and beside it, where the mode asks for one, its copy."""
        database = Database(self.path)
        database.connection.execute("PRAGMA journal_mode = WAL")
        database.create()
        database.load(rows)
        database.connection.close()
        with self.copied() if self.replica else contextlib.nullcontext():
            yield

    def session(self):
        """A client's connection."""
        return SqliteSession(self.plan.mode, self.path, self.plan.is_durable, self.replica)

    @contextlib.contextmanager
    def copied(self):
        """A copy, made anew from time to time."""
        copy(self.path, self.replica)
        copier = clients.processes.Process(target=clients.guarded, args=(keep_copying, self.path, self.replica))
        copier.start()
        try:
            yield
        finally:
            copier.kill()
            copier.join()


def copy(path, replica):
    """Makes the file a copy of the database as it is now. Whoever reads the copy sees the one before, or this one."""
    source, target = sqlite3.connect(path), sqlite3.connect(replica)
    target.execute("PRAGMA journal_mode = WAL")
    source.backup(target)
    source.close()
    target.close()


def keep_copying(path, replica):
    while True:
        time.sleep(COPIED)
        copy(path, replica)
