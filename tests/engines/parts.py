"""The parts of engines/ without a database under load: the order of events, the meaning of errors, the calls that are
made, clients that end by an error, and verdicts."""
import contextlib
import io
import itertools
import os
import sqlite3
import subprocess
import sys
import tempfile
import types

HERE = os.path.dirname(os.path.abspath(__file__))
sys.path += [os.path.join(HERE, ".."), os.path.join(HERE, "..", "..", "engines")]
import clients
import history
import interpreter
import plan
import program
import sqlite_engine
from session import Aborted, Failed, Lost, Session


def told(wanted, came):
    """What is wrong with what came, or None."""
    return None if wanted == came else "it is %r, not %r" % (came, wanted)


# ---- events
# Each client's events with their times, and the history.
MERGED = {
    "by time": ([["5 ask 0 X", "9 end 0 OK"], ["6 ask 1 Y", "7 end 1 OK"]], "ask 0|ask 1|end 1|end 0"),
    "an ask first at one time": ([["5 ask 0 X", "8 end 0 OK"], ["8 ask 1 Y", "9 end 1 OK"]], "ask 0|ask 1|end 0|end 1"),
    "also where the other client comes first": (
        [["8 ask 0 X", "9 end 0 OK"], ["5 ask 1 Y", "8 end 1 OK"]], "ask 1|ask 0|end 1|end 0"),
    "before an abort and a lost call too": (
        [["1 ask 0 X", "8 abort 0"], ["2 ask 1 Y", "8 lost 1"], ["8 ask 2 Z", "9 end 2 OK"]],
        "ask 0|ask 1|ask 2|abort 0|lost 1|end 2"),
    "times as numbers": ([["99 ask 0 X", "101 end 0 OK"], ["100 ask 1 Y", "1000 end 1 OK"]],
                         "ask 0|ask 1|end 0|end 1"),
    "a client without calls": ([[], ["1 ask 1 Y", "2 end 1 OK"]], "ask 1|end 1"),
}


@contextlib.contextmanager
def slow_clock():
    """A clock that says the same three times."""
    clock = itertools.count(3)
    kept, history.time = history.time, types.SimpleNamespace(monotonic_ns=lambda: next(clock) // 3)
    try:
        yield
    finally:
        history.time = kept


def of_events(tally):
    for name, (events, wanted) in MERGED.items():
        lines = history.merged([[event + "\n" for event in one] for one in events])
        tally.count("events: " + name, told(wanted, "|".join(" ".join(line.split()[:2]) for line in lines)))
    record = history.Record(3)
    with slow_clock():
        for number in range(2000):
            record.note("ask", "GET_ACCESS_DATA 1 1")
            record.note(*(("end", "FAILED 1"), ("abort",), ("lost",))[number % 3])
    times = [now for now, _, _ in record.events]
    tally.count("events: a client's times rise", told(True, all(one < two for one, two in zip(times, times[1:]))))
    with tempfile.TemporaryDirectory(prefix="engines.") as room:
        paths = [os.path.join(room, name) for name in ("events", "history")]
        record.write(paths[0])
        counted = history.write_history(paths[:1], paths[1])
        with open(paths[1], encoding="ascii") as file:
            lines = file.read().splitlines()
    wanted = ["ask 3 GET_ACCESS_DATA 1 1", "end 3 FAILED 1", "ask 3 GET_ACCESS_DATA 1 1", "abort 3",
              "ask 3 GET_ACCESS_DATA 1 1", "lost 3"]
    tally.count("events: lines of a history", told(wanted, lines[:6]))
    tally.count("events: counted", told({"ask": 2000, "end": 667, "abort": 667, "lost": 666}, counted.words))
    seconds = (times[-1] - times[0]) / 1e9
    tally.count("events: seconds", told(True, counted.seconds == seconds and seconds > 0))


# ---- errors
def of_errors(tally):
    for error, wanted in ((sqlite3.OperationalError("database is locked"), Aborted),
                          (sqlite3.OperationalError("no such table: Subscriber"), sqlite3.OperationalError),
                          (sqlite3.DatabaseError("database disk image is malformed"), sqlite3.DatabaseError)):
        tally.count("errors of SQLite: %s" % error, told(wanted, type(sqlite_engine.outcome_of(error))))
    for name, (module, cases) in ERRORS.items():
        python = interpreter.python_with(module)
        if python is None:
            print("skipped: no python3 has %s here" % module)
            tally.skipped += 1
        elif python == sys.executable:
            cases(tally)
        else:
            errors_by(python, name, cases, tally)


# SQLSTATE, or None where there is no answer; and what it means.
STATES = {"23505": Failed, "23503": Failed, "40001": Aborted, "40P01": Aborted, "40003": Lost, "08006": Lost,
          "57P01": Lost, "42P01": None, "22003": None}


def of_postgres_errors(tally):
    import psycopg

    import postgres_engine
    for state, wanted in STATES.items():
        error = psycopg.errors.lookup(state)() if state != "08006" else psycopg.errors.ConnectionFailure()
        outcome = postgres_engine.outcome_of(error)
        tally.count("errors of PostgreSQL: " + state, told(wanted or type(error), type(outcome)))
        if wanted is Failed:
            tally.count("failure of " + state, told({"23505": "2", "23503": "3"}[state], str(outcome)))
    outcome = postgres_engine.outcome_of(psycopg.OperationalError("the connection is lost"))
    tally.count("errors of PostgreSQL: no answer", told(Lost, type(outcome)))


# MariaDB's numbers of errors, and what each means.
NUMBERS = {1062: Failed, 1452: Failed, 1213: Aborted, 1205: Aborted, 1020: Aborted, 1053: Lost, 1927: Lost, 2006: Lost,
           2013: Lost, 0: Lost, 1146: None, 4025: None}


def of_mariadb_errors(tally):
    import pymysql

    import mariadb_engine
    for number, wanted in NUMBERS.items():
        error = pymysql.err.InterfaceError(0, "") if number == 0 else pymysql.err.OperationalError(number, "told")
        outcome = mariadb_engine.outcome_of(error)
        tally.count("errors of MariaDB: %d" % number, told(wanted or type(error), type(outcome)))
        if wanted is Failed:
            tally.count("failure of %d" % number, told({1062: "2", 1452: "3"}[number], str(outcome)))


ERRORS = {"PostgreSQL": ("psycopg", of_postgres_errors), "MariaDB": ("pymysql", of_mariadb_errors)}


def errors_by(python, name, cases, tally):
    """The same by a python3 that has the module."""
    code = "import sys; sys.path.insert(0, %r); import parts, runs; tally = runs.Tally(); " % HERE
    done = subprocess.run([python, "-B", "-c", code + "parts.%s(tally); tally.end()" % cases.__name__],
                          capture_output=True, text=True)
    tally.count("errors of " + name, None if done.returncode == 0 else done.stdout + done.stderr[-600:])


# ---- a session
class Told(Session):
    """A session whose calls end as they are told to."""

    class error(Exception):
        pass

    def __init__(self, outcomes):
        super().__init__(types.SimpleNamespace(answers={}))
        self.outcomes = list(outcomes)
        self.undone = 0

    def answer(self, line):
        outcome = self.outcomes.pop(0)
        if isinstance(outcome, Exception):
            raise outcome
        return outcome

    def undo(self):
        self.undone += 1

    def outcome_of(self, error):
        return error.args[0]


def of_sessions(tally):
    outcomes = ["OK 1", Failed(1), Told.error(Failed(2)), Told.error(Aborted()), Told.error(Lost()), "OK"]
    first, engine = Told(outcomes[:5]), types.SimpleNamespace(session=lambda: Told(outcomes[5:]))
    record = history.Record(0)
    clients.make_calls(engine, first, record, ["GET_ACCESS_DATA 1 %d" % place for place in range(6)])
    wanted = "ask|end OK 1|ask|end FAILED 1|ask|end FAILED 2|ask|abort|ask|lost|ask|end OK"
    came = "|".join(word if word == "ask" or rest is None else "%s %s" % (word, rest)
                    for _, word, rest in record.events)
    tally.count("sessions: what is recorded of each call, each made once", told(wanted, came))
    tally.count("sessions: an error is undone", told(3, first.undone))
    try:
        Told([Told.error(ValueError("unknown"))]).reply("GET_ACCESS_DATA 1 1")
        tally.count("sessions: an error that isn't known", "it is taken for an answer")
    except ValueError:
        tally.count("sessions: an error that isn't known")


# ---- clients
def of_clients(tally):
    """Each client makes its own calls; where one ends by an error, the run ends and is none."""
    with tempfile.TemporaryDirectory(prefix="engines.") as room:
        engine = types.SimpleNamespace(session=lambda: Told(["OK"] * 3))
        paths = clients.run_clients(engine, [["A", "B", "C"], ["D", "E", "F"]], room)
        asked = []
        for path in paths:
            with open(path, encoding="ascii") as file:
                asked.append("".join(line.split()[3] for line in file if " ask " in line))
        tally.count("clients: each makes its calls", told(["ABC", "DEF"], asked))
        engine = types.SimpleNamespace(session=lambda: Told(["OK"]))
        try:
            with open(os.devnull, "w") as nothing, redirected(2, nothing):
                clients.run_clients(engine, [["A"], ["B", "C"]], room)
            tally.count("clients: one that ends by an error", "the run goes on")
        except clients.NotRun:
            tally.count("clients: one that ends by an error")


@contextlib.contextmanager
def redirected(number, file):
    """What is written to this descriptor, also by other processes, goes to the file."""
    kept = os.dup(number)
    os.dup2(file.fileno(), number)
    try:
        yield
    finally:
        os.dup2(kept, number)
        os.close(kept)


# ---- calls
def of_calls(tally):
    """Which calls are made where some transactions are named: the drawn ones of each, in turn."""
    one = plan.plan_of("sqlite", only=("INSERT_CALL_FORWARDING", "GET_ACCESS_DATA", "GET_ACCESS_DATA"), calls=5)
    asked = []

    def drawn(_, plan, client, count):
        asked.append(count)
        kinds = ("GET_ACCESS_DATA", "UPDATE_LOCATION", "GET_ACCESS_DATA", "GET_ACCESS_DATA")
        many = [kinds[place % 4] if place < 200 else "INSERT_CALL_FORWARDING" for place in range(count)]
        return ["%s %d" % (name, place) for place, name in enumerate(many)]

    kept, program.drawn = program.drawn, drawn
    try:
        came = program.calls("", one, 1)
    finally:
        program.drawn = kept
    wanted = ["GET_ACCESS_DATA 0", "GET_ACCESS_DATA 2", "INSERT_CALL_FORWARDING 200", "GET_ACCESS_DATA 3",
              "GET_ACCESS_DATA 4"]
    tally.count("calls: in turn, from another beginning for each client", told(wanted, came))
    tally.count("calls: more are drawn where they don't suffice", told([160, 320], asked))
    with contextlib.redirect_stderr(io.StringIO()):
        for words in (["sqlite", "--isolation", "read-committed"], ["sqlite", "--clients", "65"], ["sqlite", "--mode"],
                      ["oracle"], [], ["sqlite", "--only", "NONE"], ["mariadb", "--mode", "replica"],
                      ["mariadb", "--isolation", "snapshot"]):
            try:
                plan.plan_from("Runs.", words)
                tally.count("words: " + " ".join(words), "they aren't refused")
            except SystemExit as ended:
                tally.count("words: " + " ".join(words), told(2, ended.code))


# ---- verdicts
# Histories on the one subscriber of seed 1, the location that the subscriber has at the end, where that is another, how
# many configurations the judge may keep, and what it says.
def at_stake(answered, overlapped, widest):
    """What is told behind LEGAL, of answered calls on one subscriber that all write."""
    return ["ANSWERED %d" % answered, "ABORTED 0", "UNANSWERED 0", "SUBSCRIBERS 1", "OVERLAPPED %d" % overlapped,
            "CONFLICTED %d" % overlapped, "WIDEST %d" % widest]


UPDATE = "ask 0 UPDATE_LOCATION 000000000000001 7\n"
UPDATES = "".join("ask %d UPDATE_LOCATION 000000000000001 %d\n" % (client, client + 1) for client in range(2))
JUDGED = {
    "legal": (UPDATE + "end 0 OK\n", 7, 65536, ("LEGAL", 0, at_stake(1, 0, 1))),
    "illegal": ("ask 0 UPDATE_LOCATION 000000000000002 7\nend 0 OK\n", None, 65536, ("ILLEGAL 2", 1, [])),
    "a write that is lost": (UPDATE + "end 0 OK\n", None, 65536, ("ILLEGAL 3", 1, ["SUBSCRIBER 1"])),
    "a write without an answer": (UPDATE, 7, 65536, ("LEGAL", 0, ["ANSWERED 0", "ABORTED 0", "UNANSWERED 1",
                                                                 *at_stake(0, 0, 1)[3:]])),
    "not known": (UPDATES + "end 0 OK\nend 1 OK\n", 1, 1, ("UNDECIDED 4", 3, ["SUBSCRIBER 1", "OTHERS LEGAL"])),
    "known with more": (UPDATES + "end 0 OK\nend 1 OK\n", 1, 65536, ("LEGAL", 0, at_stake(2, 1, 2))),
}


def rows_at_end(judging, location):
    """The rows of that subscriber, with this location or the own one."""
    for row in program.rows(judging, 1, 1):
        yield row if location is None or row[0] != "S" else "%s %d" % (row.rpartition(" ")[0], location)


def of_verdicts(tally, judging):
    """What the program says of a history; and where its word and its status differ, that it isn't a verdict."""
    with tempfile.TemporaryDirectory(prefix="engines.") as room:
        path, other = os.path.join(room, "history"), os.path.join(room, "program")
        for name, (lines, location, most, wanted) in JUDGED.items():
            with open(path, "w", encoding="ascii") as file:
                file.write(lines + ".\n")
                file.writelines(row + "\n" for row in rows_at_end(judging, location))
            one = plan.plan_of("sqlite", subscribers=1, seed=1, most=most, program=judging)
            verdict = program.judge(one, path)
            tally.count("verdicts: " + name, told(wanted, (verdict.line, verdict.status, verdict.explanation)))
        with open(other, "w", encoding="ascii") as file:
            file.write("#!/bin/sh\necho LEGAL\nexit 3\n")
        os.chmod(other, 0o700)
        try:
            program.judge(plan.plan_of("sqlite", program=other), path)
            tally.count("verdicts: a word with another status", "it is taken for a verdict")
        except clients.NotRun:
            tally.count("verdicts: a word with another status")


def try_all(judging, tally):
    for cases in (of_events, of_errors, of_sessions, of_clients, of_calls):
        try:
            cases(tally)
        except Exception as error:
            tally.count(cases.__name__, repr(error))
    try:
        of_verdicts(tally, judging)
    except clients.NotRun as fault:
        tally.count("verdicts", str(fault))
