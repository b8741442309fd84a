"""Clients that make their calls at once. Each is a process: python's threads take turns, which would hide the overlaps
that are looked for, and measure python's own lock."""
import multiprocessing
import multiprocessing.connection
import os
import signal
import sys
import threading
import traceback

from history import Record
from session import Aborted, Lost

# (a process has the streams and the engine of the one that it comes from, without a copy by hand)
processes = multiprocessing.get_context("fork")
# The longest that a client waits for the others before all begin.
SECONDS = 600
# What ends a script before its end.
SIGNALS = (signal.SIGHUP, signal.SIGINT, signal.SIGTERM)


class NotRun(Exception):
    """A run didn't come to its end."""


def make_calls(engine, session, record, calls):
    """Makes the calls one after another, each once, and records each before it is sent and after it was answered."""
    for call in calls:
        record.note("ask", call)
        try:
            reply = session.reply(call)
        except Aborted:
            record.note("abort")
        except Lost:
            record.note("lost")
            session = engine.session()
        else:
            record.note("end", reply)


def client(engine, number, calls, start, path):
    """A client's process: it connects, waits until all have, makes its calls, and writes its events."""
    record = Record(number)
    session = engine.session()
    try:
        start.wait(SECONDS)
    except threading.BrokenBarrierError:
        raise NotRun("the other clients did not come") from None
    make_calls(engine, session, record, calls)
    record.write(path)


def guarded(target, *words):
    """Runs what a process is for; an error is told, and ends the process at once, without what its parent has to do at
    its end."""
    status = 1
    try:
        for number in SIGNALS:
            signal.signal(number, signal.SIG_DFL)
        target(*words)
        status = 0
    except BaseException:
        traceback.print_exc()
    finally:
        sys.stdout.flush()
        sys.stderr.flush()
        os._exit(status)


def wait_for(clients, start):
    """Waits until all have ended well. Where one hasn't, the others are not waited for."""
    left = list(clients)
    while left:
        multiprocessing.connection.wait([process.sentinel for process in left])
        for process in [process for process in left if not process.is_alive()]:
            left.remove(process)
            if process.exitcode != 0:
                start.abort()
                raise NotRun("%s ended with status %s" % (process.name, process.exitcode))


def run_clients(engine, streams, room):
    """Runs a client for each list of calls. Gives the files of their events, which are in the folder."""
    start = processes.Barrier(len(streams))
    paths = [os.path.join(room, "events.%d" % number) for number in range(len(streams))]
    clients = [processes.Process(target=guarded, args=(client, engine, number, calls, start, paths[number]),
                                 name="client %d" % number) for number, calls in enumerate(streams)]
    try:
        for process in clients:
            process.start()
        wait_for(clients, start)
    finally:
        for process in clients:
            if process.is_alive():
                process.kill()
        for process in clients:
            if process.pid:
                process.join()
    return paths
