"""Pictures of histories: ./timeline --history over the program, and over a stand-in that says what a case wants of
judge. A picture has a column for each line and a bar for each call, and shows the verdict."""
import glob
import os
import re
import shutil
import tempfile

import fed
import runs
from picture import Picture

# It says of each history what a case wrote beside it.
STAND_IN = '#!/bin/sh\ncat "${0%/*}/verdict"\nexit "$(cat "${0%/*}/status")"\n'
BAR = re.compile('<rect class="(reads|writes|aborted|unanswered)( dim)?"')
BAR_IN_LEGEND = re.compile(">(call that reads|call that may write|aborted call)<|>no answer: ")
WITHOUT_ANSWER = b"""\
ask 0 GET_NEW_DESTINATION 1 4 8 10
ask 4294967295 UPDATE_LOCATION 000000000000002 7
end 0 OK 000000000000111
lost 4294967295
"""
WINDOW = """\
ILLEGAL 3
SUBSCRIBER 1
LINE 1 ask 0 GET_NEW_DESTINATION 1 4 8 10
LINE 3 end 0 OK 000000000000111
COULD FAILED 1
COULD OK 000000000000222
MORE 3
"""
# Two calls that overlap: no more than one configuration isn't enough for them.
OVERLAPPING = b"".join(b"ask %d UPDATE_LOCATION 000000000000001 %d\n" % (client, 7 + client) for client in range(2))
OVERLAPPING += b"end 0 OK\nend 1 OK\n"


class Drawn:
    """./timeline --history over a program, and what this program's judge says beside it."""

    def __init__(self, program, tally):
        self.program, self.tally = program, tally
        self.surroundings = dict(os.environ, TATP=program)

    def made(self, words, data):
        return runs.run("./timeline", ["--history", *words], data, env=self.surroundings)

    def judged(self, words, data):
        return runs.run(self.program, ["judge", *words], data)

    def picture(self, name, words, data):
        """The picture of a history, which is made without a fault."""
        done = self.made(words, data)
        picture = Picture(self.tally, name, done.output.decode("utf-8", "replace"))
        picture.check((done.status, done.error) == (0, b""), "status %s: %s" % (done.status, runs.shown(done.error)))
        return picture

    def draw(self, name, words, data, before=b""):
        """Draws a history, behind what stands before it in the input, and looks at the picture."""
        picture = self.picture(name, words, before + data)
        said = self.judged(words, before + data).output.decode().splitlines()
        picture.in_frame(1300)
        tells_lines(picture, data.decode().splitlines())
        tells_verdict(picture, said)
        again = self.made(words, before + data).output.decode()
        picture.check(picture.text == again, "drawn again it is another picture")
        return picture, said


def tells_lines(picture, lines):
    """The picture has a column for each line, a bar for each call, and a mark where one is answered. Its legend has
    each kind of bar and mark once more."""
    picture.has('class="hit"', sum(line[:1].islower() for line in lines))
    ends = sum(line.startswith("end ") for line in lines)
    picture.has('class="cap"', ends + picture.times(">answered OK<") + picture.times(">answered FAILED<"))
    asked = sum(line.startswith("ask ") for line in lines)
    # (the bar at no place is a pattern)
    bars = sum(BAR.search(line) is not None for line in picture.lines if 'x="0"' not in line)
    keys = sum(BAR_IN_LEGEND.search(line) is not None for line in picture.lines)
    picture.check(bars == asked + keys, "it has %d bars, %d of them in the legend" % (bars, keys))


def tells_verdict(picture, said):
    """The picture tells the verdict of judge, outlines the wrong reply, and has a ground where there is a window, which
    the legend has too."""
    first = said[0] if said else "nothing"
    picture.has('class="verdict" x="12" y="60">%s: ' % first)
    picture.has(' class="outline"', int(first.startswith("ILLEGAL")))
    picture.has('<rect class="window"', 2 * any(line.startswith("LINE") for line in said))


# ---- the examples
def of_examples(drawn):
    for file in sorted(glob.glob("examples/judge/*.txt")):
        drawn.draw("the history " + file, ["--gen", "1"], fed.read(file))
    for file in sorted(glob.glob("examples/lesson/*.history")):
        rows, dot, history = fed.read(file).partition(b"\n.\n")
        picture, _ = drawn.draw("the history " + file, [], history, rows + dot)
        if file.endswith("/b.history"):
            picture.is_file("docs/pictures/history-b.svg")
    drawn.draw("no calls", ["--gen", "1"], b"")
    picture, said = drawn.draw("an undecided history of judge", ["--gen", "1", "--most", "1"], OVERLAPPING)
    picture.check(said == ["UNDECIDED 4", "SUBSCRIBER 1", "OTHERS LEGAL"], "judge says %s" % said)


# ---- what judge may say
class StandIn(Drawn):
    """A program that says what it is told to say."""

    def __init__(self, room, tally):
        super().__init__(os.path.join(room, "judge"), tally)
        self.room = room
        self.write("judge", STAND_IN)
        os.chmod(self.program, 0o755)

    def write(self, name, text):
        with open(os.path.join(self.room, name), "w", encoding="ascii") as file:
            file.write(text)

    def says(self, status, verdict):
        self.write("status", "%d\n" % status)
        self.write("verdict", verdict)


def of_verdicts(stand_in):
    stand_in.says(1, WINDOW)
    picture, _ = stand_in.draw("a window", ["--gen", "2"], WITHOUT_ANSWER)
    for text in (">ILLEGAL 3: no order of the calls explains the answers up to this line. Subscriber 1.<", ">FAILED 1<",
                 ">OK 000000000000222<", ">or one of 3 more<", '<rect class="unanswered dim"', ">4294967295<"):
        picture.has(text)
    picture = stand_in.picture("one subscriber", ["--gen", "2", "--subscriber", "2"], WITHOUT_ANSWER)
    picture.has('class="hit"', 2)
    picture.has(">1 call of 1 client on 1 subscriber: 1 without an answer<")
    stand_in.says(3, "UNDECIDED 3\nSUBSCRIBER 1\nOTHERS LEGAL\n")
    picture, _ = stand_in.draw("an undecided history", ["--gen", "2"], WITHOUT_ANSWER)
    picture.has(">UNDECIDED 3: too many orders are possible. Subscriber 1. OTHERS LEGAL.<")


def of_large_histories(stand_in):
    calls = b"".join(b"ask %d GET_ACCESS_DATA 1 1\nend %d FAILED 1\n" % (client, client) for client in range(1, 401))
    # (80 lines at line 600 of 40 calls, and all those of 300 calls)
    for status, verdict, note, hits in ((1, "ILLEGAL 600\nSUBSCRIBER 1\n", "the last 40 before line 600", 80),
                                        (3, "UNDECIDED 600\nSUBSCRIBER 1\nOTHERS LEGAL\n",
                                         "the last 40 before line 600", 80),
                                        (0, "LEGAL\n", "the first 300", 600)):
        stand_in.says(status, verdict)
        picture = stand_in.picture("a large history, " + verdict.split("\n")[0], ["--gen", "1"], calls)
        picture.has("; %s are drawn<" % note)
        picture.has('class="hit"', hits)
        picture.in_frame(1300)


# ---- faults
def of_faults(drawn):
    """Nothing is drawn, and judge's fault and status are handed on."""
    for name, words, data in (("a fault of a history", ["--gen", "1"], b"ask 0 GET_ACCESS_DATA 1 1\nend 1 OK\n"),
                              ("a history, no such option", ["--gen", "1", "--stops", "3"], OVERLAPPING),
                              ("a history, no configuration", ["--gen", "1", "--most", "0"], OVERLAPPING)):
        wanted, came = drawn.judged(words, data), drawn.made(words, data)
        is_right = (came.status, came.error, came.output) == (wanted.status, wanted.error, b"") and came.status != 0
        told = "status %s, not %s, drew '%s', told '%s'" % (
            came.status, wanted.status, runs.shown(came.output), runs.shown(came.error))
        drawn.tally.count(name, None if is_right else told)


def of_histories(program, tally):
    drawn = Drawn(program, tally)
    of_examples(drawn)
    of_faults(drawn)
    room = tempfile.mkdtemp(prefix="pictures.")
    stand_in = StandIn(room, tally)
    of_verdicts(stand_in)
    of_large_histories(stand_in)
    shutil.rmtree(room)
