"""The program that draws rows and calls and judges histories: the one module here that knows its words."""
import itertools
import subprocess

from clients import NotRun


def lines_of(program, words):
    """The lines that a command writes."""
    done = subprocess.run([program, *words], stdin=subprocess.DEVNULL, capture_output=True, text=True)
    if done.returncode != 0:
        raise NotRun("%s ended with status %d: %s" % (" ".join([program, *words]), done.returncode, done.stderr))
    return done.stdout.splitlines()


def rows(program, subscribers, seed):
    """The rows of a population."""
    return lines_of(program, ["rows", "--gen", str(subscribers), "--seed", str(seed)])


def drawn(program, plan, client, count):
    """The first calls that a client of `bench` draws."""
    words = ["calls", "--subscribers", str(plan.subscribers), "--calls", str(count), "--client", str(client),
             "--seed", str(plan.seed)]
    return lines_of(program, words + ["--uniform"] * plan.is_uniform)


def calls(program, plan, client):
    """The calls that a client makes: those that a client of `bench` draws. Where some transactions are named, its
    calls are of these in turn, each client beginning with another one, and each is the next drawn call of that
    transaction."""
    if not plan.only:
        return drawn(program, plan, client, plan.calls)
    begin = client % len(plan.only)
    names = list(itertools.islice(itertools.cycle(plan.only), begin, begin + plan.calls))
    count = 32 * plan.calls
    while True:
        of_name = {name: [] for name in plan.only}
        for line in drawn(program, plan, client, count):
            of_name.get(line.partition(" ")[0], []).append(line)
        if all(len(of_name[name]) >= names.count(name) for name in of_name):
            taken = {name: iter(lines) for name, lines in of_name.items()}
            return [next(taken[name]) for name in names]
        count *= 2


class Verdict:
    """What the judge says of a history: its first line, and the lines that explain it. Of a legal one these tell what
    was at stake; where it isn't known, of which subscribers, and what all others are."""

    STATUS = {"LEGAL": 0, "ILLEGAL": 1, "UNDECIDED": 3}

    def __init__(self, lines):
        self.line, *self.explanation = lines
        self.word = self.line.partition(" ")[0]
        self.status = self.STATUS[self.word]

    def told(self, word):
        """The number that is told behind a word, or nothing."""
        found = [line.split(" ")[1] for line in self.explanation if line.startswith(word + " ")]
        return "{:,}".format(int(found[0])) if found else ""


def judge(plan, path):
    """The verdict on the history in this file, which the rows at the end follow behind a line `.`, on the rows of the
    run's population. A line number in it is one of the file's."""
    words = ["judge", "--final", "--gen", str(plan.subscribers), "--seed", str(plan.seed), "--most", str(plan.most)]
    with open(path, "rb") as file:
        done = subprocess.run([plan.program, *words], stdin=file, capture_output=True, text=True)
    lines = done.stdout.splitlines()
    word = lines[0].partition(" ")[0] if lines else ""
    if Verdict.STATUS.get(word) != done.returncode:
        raise NotRun("%s ended with status %d: %s" % (" ".join([plan.program, *words]), done.returncode,
                                                     (done.stdout + done.stderr)[:2000]))
    return Verdict(lines)
