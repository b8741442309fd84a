"""What the command judge says of a history."""

import subprocess

from conversation import Stopped

VERDICTS = ("LEGAL", "ILLEGAL", "UNDECIDED")


class Judgement:
    """The verdict, with the line of the input that it names, `wrong` where it is the first illegal one; the subscriber,
    the lines of the window that ends there, and the replies that would have been legal, as far as they are told. Of an
    undecided history these are the first undecided subscriber, and what is said of all others.
    """

    def __init__(self, said):
        lines = said.rstrip("\n").split("\n")
        self.said = lines[0]
        self.verdict, _, number = lines[0].partition(" ")
        self.line = int(number) if number.isdigit() and self.verdict != "LEGAL" else None
        self.wrong = self.line if self.verdict == "ILLEGAL" else None
        self.subscriber = None
        self.window = []
        self.could = []
        self.more = 0
        self.others = next((line for line in lines if line.startswith("OTHERS ")), None)
        for line in lines[1:2] if self.verdict == "UNDECIDED" else lines[1:]:
            self._take(*line.partition(" ")[::2])

    def _take(self, word, rest):
        if word == "SUBSCRIBER":
            self.subscriber = int(rest)
        elif word == "LINE":
            self.window.append(int(rest.partition(" ")[0]))
        elif word == "COULD":
            self.could.append(rest)
        elif word == "MORE":
            self.more = int(rest)


def judged(program, words, raw):
    """What the program says of an input. Where it stops at a fault, its status is handed on."""
    done = subprocess.run([program, "judge", *words], input=raw, stdout=subprocess.PIPE, check=False)
    said = done.stdout.decode("latin-1")
    if said.partition("\n")[0].split(" ")[0] not in VERDICTS:
        raise Stopped(done.returncode or 1)
    return Judgement(said)
