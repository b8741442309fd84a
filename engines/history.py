"""What clients ask and are answered, with the time of each event, and all of it as one history: the lines that
docs/FORMATS.md has under "Lines of a history"."""
import heapq
import time


class Record:
    """The events of one client, kept in memory while calls are made."""

    def __init__(self, client):
        self.client = client
        self.events = []
        self.last = 0

    def note(self, word, rest=None):
        """Notes an event now. CLOCK_MONOTONIC is one clock for all processes of a machine. A client's times rise: it
        reads the clock until it has moved on, so that its next `ask` doesn't come before its `end` when sorted."""
        now = time.monotonic_ns()
        while now <= self.last:
            now = time.monotonic_ns()
        self.last = now
        self.events.append((now, word, rest))

    def write(self, path):
        """Writes the events, each behind its time."""
        with open(path, "w", encoding="ascii") as file:
            for now, word, rest in self.events:
                file.write("%d %s %d%s\n" % (now, word, self.client, "" if rest is None else " " + rest))


def place_of(event):
    """Where an event belongs: by its time. At one time an `ask` comes first: calls of which it isn't known which came
    first then overlap, and the judge asks less of these."""
    now, _, line = event.partition(" ")
    return int(now), not line.startswith("ask ")


def merged(events_of_clients):
    """The lines of the history, of each client's events in the order of their times."""
    for event in heapq.merge(*events_of_clients, key=place_of):
        yield event.partition(" ")[2]


class Counted:
    """How many events of each kind there are, and the seconds from the first to the last."""

    def __init__(self):
        self.words = {"ask": 0, "end": 0, "abort": 0, "lost": 0}
        self.first = self.last = None

    def of(self, events):
        """The same events, counted as they pass."""
        for event in events:
            now, word, _ = event.split(" ", 2)
            self.words[word] += 1
            self.first = min(self.first or int(now), int(now))
            self.last = max(self.last or int(now), int(now))
            yield event

    @property
    def seconds(self):
        return (self.last - self.first) / 1e9 if self.words["ask"] else 0.0

    @property
    def rate(self):
        """The calls that were answered, a second, from the first that was asked to the last that was answered."""
        return self.words["end"] / self.seconds if self.seconds else 0.0


def write_history(paths, path):
    """Writes the history of the clients whose events are in these files, and counts them."""
    counted = Counted()
    files = [open(one, encoding="ascii") for one in paths]
    try:
        with open(path, "w", encoding="ascii") as file:
            file.writelines(merged([counted.of(one) for one in files]))
    finally:
        for one in files:
            one.close()
    return counted
