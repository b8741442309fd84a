"""Runs of `trace`, with what the model says that has to be answered."""
import os

from model import lines as event_lines
from model.calls import STANDARD_TEXT
from model.modules import read_text
from model.tables import homes_of, row_text
from model.whole import Whole, extent_of

from .damage import Damage
from .machines import PLACES, steps_left
from .rows import rows_drawn, rows_of_seed
from .words import Words

# How often each kind of line is drawn.
WEIGHTS = {
    "submit": 120, "raw": 60, "begin": 150, "run": 90, "steps": 150, "step": 20, "one": 40, "deny": 15,
    "take": 40, "give": 55, "route": 50, "stop": 15, "resume": 40, "set_break": 18, "clear": 12,
    "clear_met": 20, "nine_breaks": 2, "stopped": 60, "moved": 12, "look": 20, "home": 20, "audit": 8,
    "checkpoint": 30, "bad_line": 25,
}
SIZES = (1, 2, 64, 65, 128, 130, 130, 130, 200, 321)
PARTITIONS = (1, 2, 2, 2, 3, 3, 8, 16)
CLIENTS = (1, 3, 4, 4, 8, 64)
LIMITS_TEXT = os.path.join(os.path.dirname(os.path.abspath(__file__)), "limits.txt")


def own_text():
    """The text of the standard module and of procedures that come to the limits of a call."""
    text = b""
    for path in (STANDARD_TEXT, LIMITS_TEXT):
        with open(path, "rb") as file:
            text += file.read()
    return text


class Drawing(Damage):
    """Draws events for a whole as it is, most of them such as have an effect there."""

    def __init__(self, words, whole, with_raw, with_own):
        super().__init__(words, whole)
        self.weights = {name: weight for name, weight in WEIGHTS.items() if with_raw or name != "raw"}
        if with_own:
            self.weights["own"] = 40

    def lines(self):
        return getattr(self, self.words.weighed(self.weights))()

    def closing(self):
        """Lines that bring each call that runs to its end, and each parcel to a partition."""
        lines = []
        for p, site in enumerate(self.whole.sites):
            if site.call:
                # (nothing holds it any longer)
                lines += ["resume %d" % p] * site.is_stopped
                lines += ["clear %d %d %d" % (p, *place) for place in sorted(site.breaks)]
                lines += ["steps %d %d" % (p, steps_left(site.call))]
        for e, place in sorted(self.whole.place.items()):
            if place is None:
                lines.append("give %d %d" % (self.words.below(len(self.whole.sites)), e))
        return lines

    def homes(self):
        """Lines that show the homes of all subscribers, or where they are many, of those spoken of and some others."""
        every = sorted(self.whole.homes)
        if len(every) > 130:
            spoken = [ask.home for ask, _ in self.whole.ended if ask.home] + self.subscribers
            every = sorted({*spoken, *(self.words.one_of(every) for _ in range(40))})
        return ["home %d %d" % (self.whole.place[extent_of(s)], s) for s in every] + ["audit"]


class Run:
    """A drawn run: the words of its command and its input, what has to be written, and for each line of that the number
    of the input's line. Where only transactions ended, `call` has to answer them in the order of their ends. A run of
    transactions alone has no raw calls, and the standard module."""

    def __init__(self, seed, number, transactions_alone=False):
        words = Words(seed, number)
        n, partitions, self.clients = (words.one_of(values) for values in (SIZES, PARTITIONS, CLIENTS))
        is_generated, with_raw, has_own = words.chance(25), words.chance(75), words.chance(15)
        with_raw, self.has_own = with_raw and not transactions_alone, has_own and not transactions_alone
        options = ["--partitions", str(partitions)]
        text = own_text() if self.has_own else None
        rows, self.head = self.population(words, n, is_generated, options)
        module = (read_text(text),) if self.has_own else ()
        self.whole = Whole(homes_of(rows), partitions, self.clients, *module)
        self.events, self.answers, self.numbers = [], [], []
        self.text = b"" if text is None else text + b".\n"
        self.before = (self.text + self.head).count(b"\n")
        self.draw(Drawing(words, self.whole, with_raw, self.has_own), words, number)
        self.words = ["trace", *options, "--clients", str(self.clients)] + ["--procedures"] * self.has_own
        self.call_words = ["call", *options]
        self.input = self.text + self.head + b"\n".join(self.events) + (b"" if words.chance(20) else b"\n")
        self.wanted = "".join(line + "\n" for line in self.answers).encode()

    def population(self, words, n, is_generated, options):
        """The rows, and the lines by which the input tells them."""
        if is_generated:
            state = words.one_of((words.below(1000), words.word()))
            options += ["--gen", str(n), "--seed", str(state)]
            return list(rows_of_seed(state, n)), b""
        rows = rows_drawn(words, n)
        texts = [row_text(table, row) for table, row in rows]
        return rows, "".join(text + "\n" for text in texts + ["."]).encode()

    def draw(self, drawing, words, number):
        for place in range(3):
            self.tell(drawing.aimed(*PLACES[(3 * number + place) % len(PLACES)]))
        self.tell(drawing.at_limits())
        for _ in range(words.choice(150, 350)):
            self.tell(drawing.lines())
        self.tell(drawing.closing())
        self.tell(drawing.homes())

    def tell(self, lines):
        for line in lines:
            line = line.encode("utf-8", "surrogateescape")
            self.events.append(line)
            told = event_lines.answers(self.whole, line)
            self.answers.extend(told)
            self.numbers.extend([self.before + len(self.events)] * len(told))

    def calls(self):
        """The input of `call` and what it has to write, or None."""
        ended = self.whole.ended
        if not all(ask.is_transaction for ask, _ in ended):
            return None
        calls = self.head + "".join(ask.text + "\n" for ask, _ in ended).encode()
        return calls, "".join(reply + "\n" for _, reply in ended).encode()
