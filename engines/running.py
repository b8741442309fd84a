"""A run from its plan to its verdict: a fresh database with the rows, the clients, the history, and its judgement."""
import collections
import contextlib
import importlib
import os
import platform
import re
import shutil
import signal
import sys
import tempfile
import time

import program
from clients import SIGNALS, NotRun, run_clients
from history import write_history
from interpreter import go_on_with
from plan import ENGINES

COLUMNS = ("database", "isolation", "mode", "disk", "subscribers", "clients", "calls", "aborted", "lost",
           "overlapped", "conflicted", "widest", "load s", "run s", "judge s", "verdict")

# A run that isn't judged yet: the engine's name, the file of the history with the rows at its end, what is counted in
# it, and the seconds that it took to make the database with its rows.
Recorded = collections.namedtuple("Recorded", "name path counts loading")


class Result:
    """What a run came to, and the seconds that its judgement took."""

    def __init__(self, plan, run, verdict, judging):
        self.plan, self.run, self.verdict, self.judging = plan, run, verdict, judging

    def cells(self):
        """The run as a row of a table."""
        plan, words = self.plan, self.run.counts.words
        return (self.run.name, plan.isolation, plan.mode_name, "waits" if plan.is_durable else "no wait",
                counted(plan.subscribers), str(plan.clients), counted(words["ask"]), counted(words["abort"]),
                counted(words["lost"]), *map(self.verdict.told, ("OVERLAPPED", "CONFLICTED", "WIDEST")),
                "%.1f" % self.run.loading, "%.1f" % self.run.counts.seconds,
                "%.1f" % self.judging, self.verdict.line)


def counted(number):
    return "{:,}".format(number)


def row(cells):
    """A row of a table, as documents have it."""
    return " | ".join(cells)


def heading(columns):
    """The first two rows of a table."""
    return row(columns) + "\n" + "|".join(["---"] * len(columns))


def machine():
    """The machine in a line: processors, their name, and how many processes wanted one in the last minute."""
    name = platform.machine()
    with contextlib.suppress(OSError), open("/proc/cpuinfo", encoding="utf-8", errors="replace") as file:
        found = re.search(r"^model name[^:]*: *(.*)$", file.read(), re.MULTILINE)
        name = found[1] if found else name
    return "%d x %s, load %.1f" % (os.cpu_count(), name, os.getloadavg()[0])


def stop(number, _):
    """Ends the script by a signal: what a run began is ended on the way, and further signals don't hinder that."""
    for other in SIGNALS:
        signal.signal(other, signal.SIG_IGN)
    sys.exit(128 + number)


@contextlib.contextmanager
def room():
    """A folder for a run, which goes at its end, also where a signal ends the script."""
    before = {number: signal.signal(number, stop) for number in SIGNALS}
    # (a signal waits while the folder is made and taken away: otherwise it could leave one that no one knows)
    signal.pthread_sigmask(signal.SIG_BLOCK, SIGNALS)
    folder = tempfile.mkdtemp(prefix="tatp.")
    # (another user may run the server)
    os.chmod(folder, 0o711)
    try:
        signal.pthread_sigmask(signal.SIG_UNBLOCK, SIGNALS)
        yield folder
    finally:
        signal.pthread_sigmask(signal.SIG_BLOCK, SIGNALS)
        shutil.rmtree(folder, ignore_errors=True)
        signal.pthread_sigmask(signal.SIG_UNBLOCK, SIGNALS)
        for number, handler in before.items():
            signal.signal(number, handler)


def recorded(plan, folder):
    """Makes the run without its judgement."""
    if not os.access(plan.program, os.X_OK):
        raise NotRun("there is no program %s: the first use of ./tatp builds it" % plan.program)
    module, _, _ = ENGINES[plan.engine]
    engine = importlib.import_module(module).Engine(plan, folder)
    streams = [program.calls(plan.program, plan, client) for client in range(plan.clients)]
    rows = program.rows(plan.program, plan.subscribers, plan.seed)
    began = time.monotonic()
    path = os.path.join(folder, "history")
    with engine.opened(rows):
        loading = time.monotonic() - began
        counts = write_history(run_clients(engine, streams, folder), path)
        add_rows(engine, path)
    return Recorded(engine.name, path, counts, loading)


def add_rows(engine, path):
    """Adds a line `.` and the rows at the end to the file of a history. All clients have ended, so no call is open."""
    with contextlib.closing(engine.session()) as session, open(path, "a", encoding="ascii") as file:
        file.write(".\n")
        file.writelines(row + "\n" for row in session.rows())


def made(plan):
    """Makes the run, and has it judged."""
    # (before there is anything to leave behind: the script may be started again, by another python3)
    go_on_with(ENGINES[plan.engine][1:])
    with room() as folder:
        run = recorded(plan, folder)
        if plan.kept:
            shutil.copyfile(run.path, plan.kept)
        began = time.monotonic()
        verdict = program.judge(plan, run.path)
        return Result(plan, run, verdict, time.monotonic() - began)


def told(plan):
    """Makes the run; what stands in its way is told, and ends the script with status 4."""
    try:
        return made(plan)
    except NotRun as fault:
        print("engines: " + str(fault), file=sys.stderr)
        sys.exit(4)
