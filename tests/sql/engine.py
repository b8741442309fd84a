"""The SQL engine: python3's own SQLite, under the schema and the transactions of examples/sql/sqlite; and wrong edits
of these, each of which the comparison has to see."""
import collections
import functools
import os
import sys

FOLDER = os.path.join(os.path.dirname(os.path.abspath(__file__)), "..", "..", "examples", "sql", "sqlite")
sys.path.append(FOLDER)
from tatp_sqlite import Database, text_of

SCRIPT = os.path.join(FOLDER, "tatp_sqlite.py")

# What an edit takes away from a file and puts in its place.
Edit = collections.namedtuple("Edit", "file old new")
TRANSACTIONS, SCHEMA = "transactions.sql", "schema.sql"
NUMBERX = "TEXT NOT NULL CHECK (length(numberx) = 15 AND numberx NOT GLOB '*[^0-9]*')"
FOREIGN_KEY = ",\n    FOREIGN KEY (s_id, sf_type) REFERENCES Special_Facility (s_id, sf_type)"
WRONG_EDITS = {
    "is_active is missing": Edit(TRANSACTIONS, " AND sf.is_active = 1", ""),
    "< for <= on start_time": Edit(TRANSACTIONS, "cf.start_time <= :start_time", "cf.start_time < :start_time"),
    "<= for < on end_time": Edit(TRANSACTIONS, ":end_time < cf.end_time", ":end_time <= cf.end_time"),
    "no ORDER BY": Edit(TRANSACTIONS, "\nORDER BY cf.start_time", ""),
    "data1 and data2 the other way round": Edit(TRANSACTIONS, "data1, data2", "data2, data1"),
    "another bit is set": Edit(TRANSACTIONS, "SET bit_1", "SET bit_2"),
    "data_a of all facilities is set": Edit(
        TRANSACTIONS, "SET data_a = :data_a\nWHERE s_id = :s_id AND sf_type = :sf_type", "SET data_a = :data_a\n"
        "WHERE s_id = :s_id AND EXISTS (SELECT 1 FROM Special_Facility AS sf WHERE sf.s_id = :s_id AND sf.sf_type = "
        ":sf_type)"),
    "the other location is set": Edit(TRANSACTIONS, "SET vlr_location", "SET msc_location"),
    "a row that is there is replaced": Edit(TRANSACTIONS, "INSERT INTO", "INSERT OR REPLACE INTO"),
    "forwardings of all start times are deleted": Edit(TRANSACTIONS, " AND start_time = :start_time", ""),
    "no foreign key": Edit(SCHEMA, FOREIGN_KEY, ""),
    "numberx is a number": Edit(SCHEMA, NUMBERX, "INTEGER NOT NULL"),
}


class NotUndone(Database):
    """A database in which a call that fails keeps what it did."""

    def undo(self):
        self.connection.execute("COMMIT")


def edited(file, edit):
    """The text of the file, with the edit if it is one of this file."""
    text = text_of(file)
    if edit is None or edit.file != file:
        return text
    if text.count(edit.old) != 1:
        raise ValueError("%s hasn't once '%s'" % (file, edit.old))
    return text.replace(edit.old, edit.new)


def opened(rows, edit=None, kind=Database):
    """A database in memory with these rows. What comes in no order that is asked for comes backwards."""
    database = kind(":memory:", edited(TRANSACTIONS, edit))
    database.connection.execute("PRAGMA reverse_unordered_selects = ON")
    database.create(edited(SCHEMA, edit))
    database.load(rows)
    return database


def replies_of(database, calls):
    """The replies of the database to the calls, one after another."""
    return [database.answer(call) for call in calls]


# How a wrong database is opened with rows, by what is wrong with it.
WRONG_DATABASES = {name: functools.partial(opened, edit=edit) for name, edit in WRONG_EDITS.items()}
WRONG_DATABASES["no rollback where the facility is missing"] = functools.partial(opened, kind=NotUndone)
