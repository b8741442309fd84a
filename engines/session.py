"""A client's connection to a database, as the clients and the modes see it. Each engine's module makes sessions of its
own, and says what its errors mean."""
import os
import sys

SQL = os.path.join(os.path.dirname(os.path.abspath(__file__)), "..", "examples", "sql")
sys.path.append(os.path.join(SQL, "sqlite"))
from tatp_sqlite import TABLES, Failed


class Aborted(Exception):
    """The database took the call back: nothing of it was made."""


class Lost(Exception):
    """There is no answer, and it isn't known whether the call was made."""


def reply_of(rows):
    """The reply OK, with the values of these rows, row after row."""
    return " ".join(["OK"] + [str(value) for row in rows for value in row])


class Session:
    """What an engine's session has. `error` is the class of the engine's errors; `replica` is a session of a copy that
    lags, where the mode asks for one; `is_left_open` is whether a mode has begun a transaction and not ended it."""

    error = ()
    replica = None
    is_left_open = False

    def __init__(self, mode):
        self.mode = mode

    def reply(self, line):
        """The reply to a call line, made as the mode does it. Raises Aborted, Lost, or an error that isn't known, which
        ends the run: to take it for anything else would hide what is wrong with the engine's module."""
        wrong = self.mode.answers.get(line.partition(" ")[0])
        try:
            return wrong(self, line) if wrong else self.answer(line)
        except self.error as error:
            outcome = self.outcome_of(error)
            self.undo()
            self.is_left_open = False
        except Failed as failed:
            outcome = failed
        if isinstance(outcome, Failed):
            return "FAILED %s" % outcome
        raise outcome

    def answer(self, line):
        """The reply to a call line, by the transactions of examples/sql."""
        raise NotImplementedError

    def execute(self, statement, values):
        """The rows that a statement finds, with `:name` for each value, and how many it found or changed. Outside a
        transaction it is one of its own."""
        raise NotImplementedError

    def transaction(self):
        """What is executed while this is entered is one transaction, which an exception takes back."""
        raise NotImplementedError

    def undo(self):
        """Ends the transaction that is open, if one is, and takes back what was done in it."""

    def rows(self):
        """The lines of all rows that are there."""
        for letter, (table, _, _) in TABLES.items():
            for row in self.execute("SELECT * FROM " + table, {})[0]:
                yield " ".join([letter] + [str(value) for value in row])

    def close(self):
        """Ends the connection."""
        self.connection.close()

    def outcome_of(self, error):
        """What an error of the engine says of the call: Failed with a number, Aborted, Lost; or the error itself."""
        raise NotImplementedError
