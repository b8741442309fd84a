"""MariaDB by PyMySQL: a server of its own, under the schema of examples/sql/postgresql and the statements of
examples/sql/sqlite. A client sends the statements of a call one by one, between BEGIN and COMMIT."""
import contextlib
import os
import re

import pymysql
from pymysql.constants import CLIENT

from mariadb_cluster import Cluster
from modes import statements_of, values_of
from session import SQL, Aborted, Failed, Lost, Session, reply_of
from tatp_sqlite import TABLES, statements_of as statements_in

NAMED = re.compile(r":([a-z0-9_]+)")
FAILURES = {1062: 2, 1452: 3}
# The victim of a deadlock, a lock that wasn't had in time, a row that has changed since the snapshot.
ABORTED = (1213, 1205, 1020)
# The server ends, the connection was ended, it broke or is broken.
LOST = (1053, 1927, 2006, 2013, 2055, 0)


def outcome_of(error):
    """What an error says of the call, by MariaDB's number."""
    number = error.args[0] if error.args else None
    if number in FAILURES:
        return Failed(FAILURES[number])
    if number in ABORTED:
        return Aborted()
    return Lost() if number in LOST else error


class MariadbSession(Session):
    error = pymysql.Error

    def __init__(self, mode, socket, isolation):
        super().__init__(mode)
        self.connection = connected(socket)
        level = isolation.replace("-", " ").upper()
        self.connection.query("SET SESSION TRANSACTION ISOLATION LEVEL " + level)

    def cursor(self, statement, values):
        """What a statement has found or changed."""
        cursor = self.connection.cursor()
        cursor.execute(NAMED.sub(r"%(\1)s", statement), values)
        return cursor

    def execute(self, statement, values):
        cursor = self.cursor(statement, values)
        return cursor.fetchall(), cursor.rowcount

    def answer(self, line):
        values = values_of(line)
        with self.transaction():
            for statement in statements_of(line):
                cursor = self.cursor(statement, values)
                if cursor.rowcount == 0:
                    raise Failed(1)
                found = cursor.fetchall()
                if found:
                    values = {**dict(zip((column[0] for column in cursor.description), found[0])), **values}
        return reply_of(found)

    @contextlib.contextmanager
    def transaction(self):
        self.connection.begin()
        try:
            yield
            self.connection.commit()
        except BaseException:
            self.undo()
            raise

    def undo(self):
        if self.connection.open:
            self.connection.rollback()

    def outcome_of(self, error):
        return outcome_of(error)


def connected(socket):
    """A connection, in which a statement outside BEGIN and COMMIT is a transaction. An UPDATE counts the rows that it
    finds: otherwise one that writes what is there already would count none, and its call would seem to fail."""
    return pymysql.connect(unix_socket=socket, user="root", database="tatp", charset="ascii", autocommit=True,
                           client_flag=CLIENT.FOUND_ROWS)


class Engine:
    """A fresh database in a server of its own."""

    def __init__(self, plan, room):
        self.plan = plan
        self.server = Cluster(os.path.join(room, "mariadb"), plan.is_durable)
        self.name = "MariaDB"

    @contextlib.contextmanager
    def opened(self, rows):
        """The database with these rows."""
        self.server.make()
        with self.server.running():
            self.server.wait_until(self.is_ready)
            with connected(self.server.socket) as connection:
                self.name = "MariaDB " + version(connection)
                load(connection, rows)
            yield

    def is_ready(self):
        """Makes the database without tables, as soon as the server can be used."""
        try:
            connection = pymysql.connect(unix_socket=self.server.socket, user="root")
        except pymysql.OperationalError:
            return False
        with connection:
            connection.query("CREATE DATABASE tatp")
        return True

    def session(self):
        """A client's connection."""
        return MariadbSession(self.plan.mode, self.server.socket, self.plan.isolation)


def version(connection):
    """The server's version. (Its greeting has an older one in front of it.)"""
    cursor = connection.cursor()
    cursor.execute("SELECT VERSION()")
    return cursor.fetchone()[0].partition("-")[0]


def load(connection, rows):
    """Makes tables, and loads the rows: each table before those that refer to it."""
    with open(os.path.join(SQL, "postgresql", "schema.sql"), encoding="ascii") as file:
        lines = [line for line in file.read().replace(" ~ ", " REGEXP ").splitlines() if not line.startswith("--")]
    for statement in statements_in(lines):
        connection.query(statement)
    cursor = connection.cursor()
    for letter, (table, count, _) in TABLES.items():
        values = [row.split(" ")[1:] for row in rows if row[0] == letter]
        connection.begin()
        cursor.executemany("INSERT INTO %s VALUES (%s)" % (table, ", ".join(["%s"] * count)), values)
        connection.commit()
    connection.query("ANALYZE TABLE Subscriber, Access_Info, Special_Facility, Call_Forwarding")
