#!/usr/bin/env -S python3 -B
"""TATP in SQLite, by python3's own sqlite3: rows and calls are lines as docs/FORMATS.md has them, and so are replies.

    tatp_sqlite.py load DATABASE    makes the file DATABASE with the tables, and loads the rows from standard input
    tatp_sqlite.py call DATABASE    answers the calls from standard input, each a transaction of its own
    tatp_sqlite.py rows DATABASE    writes the rows, by subscriber, then by table in the order S, A, F, C, then by key
    tatp_sqlite.py --help           this text
"""
import heapq
import os
import re
import sqlite3
import sys

FOLDER = os.path.dirname(os.path.abspath(__file__))
# The tables in the order of their letters, with the number of their columns and the columns of their keys.
TABLES = {
    "S": ("Subscriber", 34, "s_id"),
    "A": ("Access_Info", 6, "s_id, ai_type"),
    "F": ("Special_Facility", 6, "s_id, sf_type"),
    "C": ("Call_Forwarding", 5, "s_id, sf_type, start_time"),
}
HEADING = re.compile(r"-- ([A-Z_]+)((?: :[a-z0-9_]+)+)")


def text_of(name):
    """The SQL of a file beside this one."""
    with open(os.path.join(FOLDER, name), encoding="ascii") as file:
        return file.read()


# ---- the seven transactions
def transactions_of(text):
    """By their names the transactions of the SQL: the names of their arguments, and their statements."""
    found = {}
    for line in text.splitlines():
        heading = HEADING.fullmatch(line)
        if heading:
            lines = []
            found[heading[1]] = (heading[2].replace(":", "").split(), lines)
        elif found and not line.startswith("--"):
            lines.append(line)
    return {name: (arguments, statements_of(lines)) for name, (arguments, lines) in found.items()}


def statements_of(lines):
    """The statements of these lines, each of which ends with a semicolon."""
    return [statement.strip() for statement in "\n".join(lines).split(";") if statement.strip()]


class Failed(Exception):
    """A call fails, with a number."""


class Database:
    """A database with the four tables."""

    def __init__(self, path, transactions=None):
        self.connection = sqlite3.connect(path, isolation_level=None)
        self.connection.execute("PRAGMA foreign_keys = ON")
        # (a call doesn't wait for the disk: what is asked here is whether answers are right, not whether they last)
        self.connection.execute("PRAGMA synchronous = OFF")
        self.transactions = transactions_of(transactions or text_of("transactions.sql"))

    def create(self, schema=None):
        """Makes the tables."""
        self.connection.executescript(schema or text_of("schema.sql"))

    def load(self, lines):
        """Loads rows, in any order: foreign keys are looked at when all are there."""
        self.connection.execute("BEGIN")
        self.connection.execute("PRAGMA defer_foreign_keys = ON")
        inserts = {letter: "INSERT INTO %s VALUES (%s)" % (table, ", ".join("?" * count))
                   for letter, (table, count, _) in TABLES.items()}
        for line in lines:
            letter, *values = line.split()
            self.connection.execute(inserts[letter], values)
        self.connection.execute("COMMIT")

    def answer(self, line):
        """The reply to a call line."""
        name, *values = line.split()
        arguments, statements = self.transactions[name]
        self.connection.execute("BEGIN")
        try:
            found = self.made(statements, dict(zip(arguments, values)))
        except Failed as failed:
            self.undo()
            return "FAILED %s" % failed
        self.connection.execute("COMMIT")
        return " ".join(["OK"] + [str(value) for row in found for value in row])

    def made(self, statements, values):
        """The rows that the last statement finds, of statements with these values."""
        for statement in statements:
            try:
                cursor = self.connection.execute(statement, values)
            except sqlite3.IntegrityError as error:
                raise Failed(self.number_of(error)) from error
            found = cursor.fetchall()
            if not found and cursor.rowcount < 1:
                raise Failed(1)
            if found and statement is not statements[-1]:
                names = [column[0] for column in cursor.description]
                values = {**dict(zip(names, found[0])), **values}
        return found

    @staticmethod
    def number_of(error):
        """The number of the failure that SQLite tells by its text alone."""
        for begin, number in (("UNIQUE ", 2), ("FOREIGN KEY ", 3)):
            if str(error).startswith(begin):
                return number
        raise error

    def undo(self):
        """Takes back what a call did."""
        self.connection.execute("ROLLBACK")

    def rows(self):
        """The lines of the rows, by subscriber, then by table, then by key."""
        tables = [self.rows_of(*table) for table in enumerate(TABLES.items())]
        for _, _, letter, row in heapq.merge(*tables, key=lambda found: found[:2]):
            yield " ".join([letter] + [str(value) for value in row])

    def rows_of(self, place, table):
        """The rows of a table by key, each behind its s_id, the place of its table and its letter."""
        letter, (name, _, key) = table
        for row in self.connection.execute("SELECT * FROM %s ORDER BY %s" % (name, key)):
            yield row[0], place, letter, row


# ---- words
def load(database):
    """Makes the tables, and loads what comes."""
    database.create()
    database.load(sys.stdin)


def call(database):
    """Answers each line that comes."""
    for line in sys.stdin:
        print(database.answer(line))


def rows(database):
    """Writes all rows."""
    for line in database.rows():
        print(line)


def main(words):
    if words == ["--help"]:
        print(__doc__.strip())
        return
    commands = {"load": load, "call": call, "rows": rows}
    if len(words) != 2 or words[0] not in commands:
        print("usage: tatp_sqlite.py load|call|rows DATABASE, or --help", file=sys.stderr)
        sys.exit(2)
    if os.path.exists(words[1]) == (words[0] == "load"):
        print("%s %s" % (words[1], "is there already" if words[0] == "load" else "isn't there"), file=sys.stderr)
        sys.exit(1)
    commands[words[0]](Database(words[1]))


if __name__ == "__main__":
    main(sys.argv[1:])
