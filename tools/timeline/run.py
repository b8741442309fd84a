"""Making a run: each event line with its answers, in the order in which they came."""

import re

from conversation import BAD_LINE

STEPS = re.compile(r"steps (0|[1-9][0-9]?) ([1-9][0-9]{0,3})")
RUN = re.compile(r"run (0|[1-9][0-9]?)")


class Event:
    """An event line and its answers, each a list of lines: many for `steps` and `run`, else one."""

    def __init__(self, line):
        self.number = line.number
        self.text = line.text
        self.caption = line.caption
        self.fields = line.fields
        self.answers = []

    def is_steps(self):
        """Whether the line made steps, each with an answer of its own."""
        return self.fields[0] in ("steps", "run") and self.answers[0][0] != BAD_LINE

    def different(self):
        """How many answers differ: those at the end that tell the same refusal again count once."""
        if not self.is_steps():
            return 1
        last = len(self.answers) - 1
        while last > 0 and self.answers[last][0].startswith("REFUSED") and self.answers[last] == self.answers[last - 1]:
            last -= 1
        return last + 1


class Unwatched:
    """Looks at nothing between the events."""

    single = False

    def saw(self, event):
        """The last answer of the event has come."""


def make_run(trace, source, watcher):
    """Asks all lines of the input, and gives them with their answers. The watcher sees each answer when it has come."""
    trace.send(source.head)
    events = []
    for line in source.lines:
        event = Event(line)
        events.append(event)
        steps = STEPS.fullmatch(line.text)
        if RUN.fullmatch(line.text):
            _step(trace, event, 4096, watcher)
        elif watcher.single and steps and int(steps[2]) <= 4096:
            _step(trace, event, int(steps[2]), watcher)
            _rest(trace, event, int(steps[2]) - len(event.answers), watcher)
        else:
            for answer in trace.ask(source.line_for_trace(line)):
                event.answers.append(answer)
                watcher.saw(event)
    return events


def _step(trace, event, most, watcher):
    """Steps of the partition's call, one at a time, until the call ends or one is refused."""
    line = b"step " + event.fields[1].encode()
    for _ in range(most):
        event.answers += trace.ask(line)
        watcher.saw(event)
        if event.answers[-1] != ["MOVED"]:
            return


def _rest(trace, event, more, watcher):
    """The steps that `steps` still asks for once one has ended the call or was refused."""
    if more > 0:
        for answer in trace.ask(b"steps " + event.fields[1].encode() + b" %d" % more):
            event.answers.append(answer)
            watcher.saw(event)
