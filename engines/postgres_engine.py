"""PostgreSQL by psycopg: a cluster of its own, under the schema and the functions of examples/sql/postgresql. A call is
a SELECT of its function, and so one transaction."""
import contextlib
import os
import re

import psycopg

from cluster import Cluster
from session import SQL, Aborted, Failed, Lost, Session

NAMED = re.compile(r":([a-z0-9_]+)")
TABLES = {"S": "Subscriber", "A": "Access_Info", "F": "Special_Facility", "C": "Call_Forwarding"}
FAILURES = {"23505": 2, "23503": 3}
# The connection broke, or the server was ended, or it can't say itself whether the call was made.
LOST = ("08", "57P01", "57P02", "57P03", "40003")


def outcome_of(error):
    """What an error says of the call, by its SQLSTATE; class 40 is a transaction that was rolled back."""
    state = error.sqlstate
    if state in FAILURES:
        return Failed(FAILURES[state])
    if state is None:
        return Lost() if isinstance(error, psycopg.OperationalError) else error
    if state.startswith(LOST):
        return Lost()
    return Aborted() if state.startswith("40") else error


class PostgresSession(Session):
    error = psycopg.Error

    def __init__(self, mode, folder, isolation, replica=None):
        super().__init__(mode)
        self.connection = connected(folder, "-c default_transaction_isolation=" + isolation.replace("-", r"\ "))
        if replica:
            self.replica = PostgresSession(mode, replica, "read-committed")

    def answer(self, line):
        name, *values = line.split()
        statement = "SELECT %s(%s)" % (name, ", ".join(["%s"] * len(values)))
        return self.connection.execute(statement, values).fetchone()[0]

    def execute(self, statement, values):
        cursor = self.connection.execute(NAMED.sub(r"%(\1)s", statement), values)
        return cursor.fetchall() if cursor.description else [], cursor.rowcount

    def transaction(self):
        return self.connection.transaction()

    def undo(self):
        if not self.connection.closed:
            self.connection.rollback()

    def outcome_of(self, error):
        return outcome_of(error)


def connected(folder, options=""):
    return psycopg.connect(host=folder, user="tatp", dbname="postgres", autocommit=True, options=options)


class Engine:
    """A fresh database in a cluster of its own, and where the mode asks for one, a standby."""

    def __init__(self, plan, room):
        self.plan = plan
        self.primary = Cluster(os.path.join(room, "primary"), plan.is_durable)
        self.standby = Cluster(os.path.join(room, "standby"), False) if plan.mode.has_replica else None
        self.name = "PostgreSQL"

    @contextlib.contextmanager
    def opened(self, rows):
        """The database with these rows."""
        self.primary.make()
        with self.primary.running():
            with connected(self.primary.folder) as connection:
                self.name = "PostgreSQL " + connection.info.parameter_status("server_version").split(" ")[0]
                load(connection, rows)
            if self.standby:
                self.standby.copy_of(self.primary)
            with self.standby.running() if self.standby else contextlib.nullcontext():
                yield

    def session(self):
        """A client's connection."""
        replica = self.standby.folder if self.standby else None
        return PostgresSession(self.plan.mode, self.primary.folder, self.plan.isolation, replica)


def load(connection, rows):
    """Makes tables and functions, and loads the rows: each table before those that refer to it."""
    for name in ("schema.sql", "transactions.sql"):
        with open(os.path.join(SQL, "postgresql", name), encoding="ascii") as file:
            connection.execute(file.read())
    for letter, table in TABLES.items():
        with connection.cursor() as cursor, cursor.copy("COPY %s FROM STDIN (DELIMITER ' ')" % table) as copy:
            for row in rows:
                if row[0] == letter:
                    copy.write(row[2:] + "\n")
    connection.execute("ANALYZE Subscriber, Access_Info, Special_Facility, Call_Forwarding")
