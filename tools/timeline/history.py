"""A history: its lines, the calls of which they tell, and which of these are drawn."""

from dataclasses import dataclass

from reading import Line, Population, before_dot, comment_of, lines_of
from watching import BY_NUMBER

# Of more calls than these not all are drawn; where the verdict names a line, so many that were asked last before it.
MOST = 300
BEFORE = 40


class HistoryLine(Line):
    """A line of a history: its number in the input, its client, and its call."""

    def __init__(self, number, raw, caption):
        super().__init__(number, raw, caption)
        self.word = self.fields[0]
        self.client = int(self.fields[1])
        self.call = None

    def different(self):
        """How many places its column has."""
        return 1


@dataclass(eq=False)
class Seen:
    """A call as its client saw it: the lines in which it was asked and ended, if it was, and how it ended."""

    client: int
    text: str
    subscriber: object
    asked: HistoryLine
    ended: HistoryLine = None
    outcome: str = "unanswered"
    reply: str = ""

    def is_read(self):
        """Whether it changes no row."""
        return self.text.startswith("GET_")


class History(Population):
    """The lines of an input that judge reads."""

    def __init__(self, raw, words):
        lines = lines_of(raw)
        rows, rest = before_dot(lines) if words.has_rows else ([], lines)
        super().__init__(rows, words.drawn)
        self.lines = []
        self.calls = []
        self._opened = {}
        self._read(rest, len(lines) - len(rest))

    def _read(self, lines, before):
        comment = []
        for number, raw in enumerate(lines, before + 1):
            if raw.startswith(b"#"):
                comment.append(comment_of(raw))
            elif raw:
                self.lines.append(HistoryLine(number, raw, " ".join(comment)))
                comment = []
                self._take(self.lines[-1])
        self.last_words = " ".join(comment)

    def _take(self, line):
        """What a line says of its client's call. A client that asks again gets no answer to the call before."""
        before = self._opened.pop(line.client, None)
        if before:
            before.ended = line
        if line.word == "ask":
            line.call = self._asked(line)
            return
        line.call = before
        if line.word == "abort":
            before.outcome = "aborted"
        elif line.word == "end":
            before.outcome, before.reply = "answered", " ".join(line.fields[2:])

    def _asked(self, line):
        by_number = line.fields[2] in BY_NUMBER
        subscriber = self.subscriber_of("number" if by_number else "id", int(line.fields[3]))
        self.calls.append(Seen(line.client, " ".join(line.fields[2:]), subscriber, line))
        self._opened[line.client] = self.calls[-1]
        return self.calls[-1]


class Choice:
    """The calls that are drawn, with their lines: those of a subscriber, where one is asked for; of too many the last
    ones that have to do with the verdict, or else the first.
    """

    def __init__(self, history, judgement, subscriber):
        self.all = [call for call in history.calls if subscriber is None or call.subscriber == subscriber]
        self.note = ""
        self.calls = self.all
        if len(self.all) > MOST:
            self.calls = _last_before(self.all, judgement) if judgement.line else self.all[:MOST]
            many = f"{len(self.calls):,}"
            self.note = f"; the last {many} before line {judgement.line} are drawn" if judgement.line else \
                f"; the first {many} are drawn"
        kept = {*map(id, self.calls)}
        self.lines = [line for line in history.lines if id(line.call) in kept]
        self.clients = sorted({call.client for call in self.calls})

    def summary(self):
        """What they are, counted."""
        clients, subscribers = {call.client for call in self.all}, {call.subscriber for call in self.all} - {None}
        kinds = [(sum(call.outcome == kind for call in self.all), word) for kind, word in (
            ("answered", "answered"), ("aborted", "aborted"), ("unanswered", "without an answer"))]
        counts = ", ".join(f"{count:,} {word}" for count, word in kinds if count)
        told = f"{counted(len(self.all), 'call')} of {counted(len(clients), 'client')}"
        told += f" on {counted(len(subscribers), 'subscriber')}"
        return told + (": " + counts if counts else "") + self.note


def _last_before(calls, judgement):
    """The calls of the verdict's subscriber that were asked last before its line, those of the window among them."""
    asked = [call for call in calls if call.asked.number <= judgement.line
             and (judgement.subscriber is None or call.subscriber == judgement.subscriber)]
    first = judgement.window[0] if judgement.window else judgement.line
    within = sum(call.asked.number >= first for call in asked)
    return asked[-min(max(within, BEFORE), MOST):]


def counted(number, name):
    """So many of a name."""
    return f"{number:,} {name}{'' if number == 1 else 's'}"
