"""Draws a run of the command trace, or a history: `./timeline --help` tells more."""

import os
import subprocess
import sys
from pathlib import Path

from columns import Columns
from conversation import Stopped, Trace, explanation
from history import Choice, History
from history_page import history_page
from history_picture import HistoryPicture
from judging import judged
from page import page
from picture import Picture
from reading import Input
from run import Unwatched, make_run
from story import Story
from watching import Watcher
from words import USAGE, Words

ROOT = Path(__file__).resolve().parents[2]


def main():
    """Reads the words and the input, and writes what was asked for; gives the status."""
    if sys.stdout is None:
        raise OSError("there is no standard output")
    words = Words(sys.argv[1:])
    program = os.environ.get("TATP") or str(ROOT / "tatp")
    if words.help:
        sys.stdout.write(USAGE)
        return 0
    if words.version:
        return subprocess.run([program, words.command, "--version"], check=False).returncode
    raw = sys.stdin.buffer.read()
    lines = history_drawn(program, words, raw) if words.history else run_drawn(program, words, raw)
    with open(sys.stdout.fileno(), "wb", closefd=False) as out:
        out.write("".join(line + "\n" for line in lines).encode())
    return 0


def run_drawn(program, words, raw):
    """The lines of the picture of a run, or of its page."""
    standard = (ROOT / "examples/standard.txt").read_bytes().splitlines()
    source = Input(raw, words, standard)
    trace = Trace(program, words.handed)
    watcher = Watcher(trace, source, words.partitions) if words.page else Unwatched()
    events = make_run(trace, source, watcher)
    trace.close()
    drawn = picture(words, source, events)
    if words.page:
        return page(words.title(), drawn, watcher, source, lambda number: explanation(program, number))
    return drawn.lines()


def picture(words, source, events):
    """The picture of a run; that of a page is a strip."""
    columns = Columns(events, fold=not words.page)
    names = [procedure.name for procedure in source.procedures]
    story = Story(columns, names, words.partitions).tell(events)
    return Picture(words.title(), events, columns, story, strip=words.page)


def history_drawn(program, words, raw):
    """The lines of the picture of a history that was judged, or of its page."""
    judgement = judged(program, words.handed, raw)
    history = History(raw, words)
    choice = Choice(history, judgement, words.subscriber)
    columns = Columns(choice.lines, fold=not words.page, most=5, least=0.8)
    drawn = HistoryPicture("A history, judged by " + words.title(), choice, judgement, columns, strip=words.page)
    return history_page(drawn, history) if words.page else drawn.lines()


if __name__ == "__main__":
    try:
        sys.exit(main())
    except Stopped as stopped:
        sys.exit(stopped.status)
    except KeyboardInterrupt:
        sys.exit(130)
    except OSError as error:
        print("timeline:", error, file=sys.stderr)
        sys.exit(1)
