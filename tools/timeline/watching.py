"""Watching a run for a page: after each answer looks and homes are asked for, which change nothing, and what they and
the answers tell is kept as tracks.

A track is a list of (step, value): the value that holds from that step of the page on.
"""

from dataclasses import dataclass

TRANSACTIONS = ["GET_SUBSCRIBER_DATA", "GET_NEW_DESTINATION", "GET_ACCESS_DATA", "UPDATE_SUBSCRIBER_DATA",
                "UPDATE_LOCATION", "INSERT_CALL_FORWARDING", "DELETE_CALL_FORWARDING"]
BY_NUMBER = TRANSACTIONS[4:]
UNDER_WAY = -1


@dataclass
class Step:
    """A step of the page: an answer, or several equal refusals in a row, with what was asked and what it was in the
    plain world.
    """

    event: object
    index: int
    asked: str
    answer: list
    times: int = 1
    plain: str = "The plain world makes no step."
    partition: int = UNDER_WAY


@dataclass
class Call:
    """A call: its client, what was asked, the procedure and the subscriber whom its key names, if any."""

    client: int
    text: str
    procedure: str
    home: int
    made: int = 0


class Watcher:
    """Sees each answer of a run when it has come."""

    single = True

    def __init__(self, trace, source, partitions):
        self.trace = trace
        self.source = source
        self.partitions = partitions
        self.steps = []
        self.calls = []
        self.completed = []
        self.tracks = {}
        self.rows = {}
        self.extents = {}
        self._queues = {p: [] for p in range(partitions)}
        self._running = {}
        self._breaks = {p: [] for p in range(partitions)}

    def saw(self, event):
        """The last answer of the event has come."""
        index = len(event.answers) - 1
        answer = event.answers[index]
        before = self.steps[-1] if self.steps else None
        if index and before.answer == answer and answer[0].startswith("REFUSED"):
            before.times += 1
            return
        asked = "step " + event.fields[1] if event.is_steps() else event.text
        self.steps.append(Step(event, index, asked, answer))
        self._take_in(event.fields, answer[0].split(" "))

    def _keep(self, track, value):
        """The value of a track from this step on."""
        changes = self.tracks.setdefault(track, [])
        if changes and changes[-1][0] == len(self.steps):
            changes.pop()
        if not changes or changes[-1][1] != value:
            changes.append((len(self.steps), value))

    def _take_in(self, fields, word):
        """What an answer tells of calls, extents and machines."""
        step = self.steps[-1]
        if fields[0] not in ("submit", "raw", "route") and fields[1:] and fields[1].isdigit():
            step.partition = int(fields[1]) if int(fields[1]) < self.partitions else UNDER_WAY
        if word[0] == "OK":
            self._debugged(fields, step.partition)
        elif word[0] in ("QUEUED", "AWAY", "DENIED", "BEGAN", "MOVED", "ENDED"):
            getattr(self, "_" + word[0].lower())(step, fields, word)
        elif word[0] in ("PARCEL", "LANDED", "SET", "SUPERSEDED", "CHAPTER"):
            getattr(self, "_" + word[0].lower())(step, fields, word)
        elif word[0] == "REFUSED":
            step.plain = "The event is refused: nothing changes, here or in the plain world."

    # ---- calls

    def _queued(self, step, fields, word):
        named = fields[0] == "raw"
        if named:
            numbered = fields[2].isdigit()
            name = self.source.procedures[int(fields[2])].name if numbered else fields[2]
            home = self.source.subscriber_of(fields[3], int(fields[4]))
            text = f"{name} on {fields[3]} {' '.join(fields[4:5])} ({' '.join(fields[5:])})"
        else:
            number = TRANSACTIONS.index(fields[2])
            name = self.source.procedures[number].name
            home = self.source.subscriber_of("number" if fields[2] in BY_NUMBER else "id", int(fields[3]))
            text = " ".join(fields[2:])
        self.calls.append(Call(int(fields[1]), text, name, home or 0))
        step.partition = int(word[1])
        self._queues[step.partition].append(len(self.calls) - 1)
        self._keep_queue(step.partition)

    def _keep_queue(self, p):
        self._keep(f"queue {p}", list(self._queues[p]))

    def _away(self, step, _, word):
        call = self._queues[step.partition].pop(0)
        self._queues[int(word[1])].append(call)
        self._keep_queue(step.partition)
        self._keep_queue(int(word[1]))

    def _denied(self, step, _, word):
        self._queues[step.partition].pop(0)
        self._keep_queue(step.partition)
        step.plain = f"Client {word[1]}'s call is refused memory: the plain world stays as it is."

    def _began(self, step, _, word):
        p = step.partition
        self._running[p] = self._queues[p].pop(0)
        self._keep_queue(p)
        step.plain = f"A call of client {word[1]} enters the plain world."
        self._look(p)
        self._keep(f"entry {p}", self.tracks[f"home {p}"][-1][1])

    def _moved(self, step, _, __):
        call = self.calls[self._running[step.partition]]
        call.made += 1
        step.plain = f"Client {call.client}'s call makes one instruction on the one database."
        self._look(step.partition)

    def _ended(self, step, _, word):
        p = step.partition
        number = self._running.pop(p)
        self.completed.append((len(self.steps), number, " ".join(word[2:])))
        step.plain = f"Client {word[1]}'s call completes: it is number {len(self.completed)} in the serial order."
        rows = self._rows_of(p, number)
        self._keep(f"machine {p}", [number, " ".join(word[2:])])
        self._keep(f"home {p}", rows)

    def _look(self, p):
        """Asks for registers, current rows and outputs of a partition's call, and for the rows of its home."""
        number = self._running[p]
        at, registers, current, out = self.trace.ask(b"look %d" % p)[0]
        counter = int(at.split(" ")[2])
        values = registers.split(" ")[1:]
        while values and values[-1] == "0":
            values.pop()
        made = self.calls[number].made
        self._keep(f"machine {p}", [number, counter, " ".join(values), current[8:], out[4:], made])
        self._keep(f"home {p}", self._rows_of(p, number))

    def _rows_of(self, p, number):
        """The rows of the home of a call, as numbers of texts; None where it has no home."""
        home = self.calls[number].home
        if not home:
            return None
        rows = self.trace.ask(b"home %d %d" % (p, home))[0]
        return [self.rows.setdefault(row, len(self.rows)) for row in rows]

    # ---- machines that are stopped, and breakpoints

    def _debugged(self, fields, p):
        if fields[0] in ("stop", "resume"):
            self._keep(f"stopped {p}", fields[0] == "stop")
            return
        name = fields[2] if not fields[2].isdigit() else self._name(int(fields[2]))
        point = [name, int(fields[3])]
        here = [other for other in self._breaks[p] if other != point]
        self._breaks[p] = here + [point] if fields[0] == "break" else here
        self._keep(f"breaks {p}", self._breaks[p])

    def _name(self, number):
        """The name of a procedure, or its number where there is none."""
        procedures = self.source.procedures
        return procedures[number].name if number < len(procedures) else str(number)

    # ---- extents: where each is, what its route says, how often it moved, landings to be routed, chapters handed out

    def _extent(self, number):
        opened = (number - 1) % self.partitions
        return self.extents.setdefault(number, [opened, opened, 0, {}, 0])

    def _keep_extent(self, number):
        place, route, moves, landings, chapters = self.extents[number]
        waiting = [[move, where] for move, where in landings.items()]
        self._keep(f"extent {number}", [place, route, moves, waiting, chapters])

    def _parcel(self, _, __, word):
        extent = self._extent(int(word[1]))
        extent[0], extent[2] = UNDER_WAY, int(word[2])
        self._keep_extent(int(word[1]))

    def _landed(self, step, _, word):
        extent = self._extent(int(word[1]))
        extent[0] = step.partition
        extent[3][int(word[2])] = step.partition
        self._keep_extent(int(word[1]))

    def _set(self, step, fields, word):
        extent = self._extent(int(word[1]))
        extent[1] = step.partition = int(word[2])
        extent[3].pop(int(fields[2]), None)
        self._keep_extent(int(word[1]))

    def _superseded(self, _, fields, word):
        self._extent(int(word[1]))[3].pop(int(fields[2]), None)
        self._keep_extent(int(word[1]))

    def _chapter(self, _, __, word):
        if word[1] != "0":
            self._extent(int(word[1]))[4] = int(word[2]) + 1
            self._keep_extent(int(word[1]))
