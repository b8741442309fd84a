"""What each command that reads is fed where nothing is wrong. Other scripts damage it, and refuse or fail what the
program asks of the system meanwhile."""
import runs
from drawing.rows import many
from model.tables import row_text

TABLES = ("stop_and_look", "leave_beside", "follow", "late_landing", "all_kinds")
DOT = b".\n"
ROWS = "".join(row_text(table, row) + "\n" for table, row in many()).encode()


class Fed:
    """A command with its words and its input: what stands before the lines that it answers, and these lines."""

    def __init__(self, name, words, before, lines):
        self.name, self.words, self.before, self.lines = name, words, before, lines
        self.input = before + lines


def read(path):
    with open(path, "rb") as file:
        return file.read()


def events(name):
    """The lines of a table of tests/tables, without what is answered to them."""
    asked = (line.partition(b" -> ")[0] + b"\n" for line in read("tests/tables/" + name).splitlines(True)
             if not line.startswith(b"  -> "))
    return b"".join(asked)


def of_calls():
    """`call` on rows and on drawn rows, without and with the rows that are left, and `audit`."""
    rows, calls = read("examples/first-run.txt").split(DOT)
    drawn = ["--gen", "130", "--seed", "1"]
    yield Fed("call on rows", ["call"], rows + DOT, calls)
    yield Fed("call on rows, and the rows left", ["call", "--rows"], rows + DOT, calls)
    yield Fed("call on drawn rows", ["call", *drawn], b"", calls)
    yield Fed("call on drawn rows, and the rows left", ["call", "--rows", "--gen", "3", "--seed", "1"], b"", calls)
    yield Fed("audit", ["audit"], rows, b"")


def of_histories(program):
    """`judge` on rows and a history, and on a history alone: the calls on drawn rows with their replies, as two clients
    could have made them, where a call that is refused is a comment; the same with the rows that they leave; and calls
    none of which is answered."""
    history = read("examples/history.txt")
    yield Fed("judge on rows", ["judge"], history, b"")
    drawn = ["--gen", "130", "--seed", "1"]
    calls = read("examples/first-run.txt").split(DOT)[1]
    replies = runs.run(program, ["call", *drawn], calls).output
    lines = []
    for number, (call, reply) in enumerate(zip(calls.splitlines(), replies.splitlines())):
        client = number % 2
        is_refused = reply.startswith(b"REFUSED")
        lines.append(b"# %s\n" % call if is_refused else b"ask %d %s\nend %d %s\n" % (client, call, client, reply))
    yield Fed("judge on drawn rows", ["judge", *drawn], b"".join(lines), b"")
    left = runs.run(program, ["call", "--rows", *drawn], calls).output.partition(b"\n" + DOT)[2]
    yield Fed("judge with the rows at the end", ["judge", "--final", *drawn], b"".join(lines) + DOT + left, b"")
    unanswered = [line for line in history.partition(b"\n" + DOT)[2].splitlines(True) if not line.startswith(b"end ")]
    yield Fed("judge of calls that aren't answered", ["judge", *drawn], b"".join(unanswered), b"")


def of_modules(program):
    """`asm` of a text of each version, and `dis` and `check` of their modules."""
    for name in ("procedures", "standard"):
        text = read("examples/%s.txt" % name)
        yield Fed("asm, " + name, ["asm"], text, b"")
        for word in ("dis", "check"):
            yield Fed("%s, %s" % (word, name), [word], runs.run(program, ["asm"], text).output, b"")


def of_events():
    """`trace` on rows, on drawn rows, and under a text."""
    for name in TABLES:
        yield Fed("trace on rows, " + name, ["trace"], ROWS + DOT, events(name))
    drawn = ["trace", "--gen", "130", "--seed", "1"]
    yield Fed("trace on drawn rows", drawn, b"", events("all_kinds"))
    yield Fed("trace of echoed lines", [*drawn, "--echo"], b"", events("all_kinds"))
    text, dot, lines = read("examples/own-procedure.txt").partition(b"\n" + DOT)
    words = ["trace", "--procedures"]
    yield Fed("trace of a text and drawn rows", [*words, "--gen", "130", "--seed", "7"], text + dot, lines)
    standard = read("examples/standard.txt") + DOT + ROWS + DOT
    yield Fed("trace of a text and rows", words, standard, events("all_kinds"))


def every(program):
    yield from of_calls()
    yield from of_histories(program)
    yield from of_modules(program)
    yield from of_events()


# Those that read nothing, by their words.
READING_NOTHING = (
    "explain", "explain 5", "rows --gen 3 --seed 7", "calls --subscribers 130 --calls 40 --client 1 --seed 7",
)
# What is written in more than one piece.
LARGE = ("rows --gen 500 --seed 7", "calls --subscribers 130 --calls 5000 --client 1 --seed 7")
