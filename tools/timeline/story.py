"""What happened in a run, as a picture shows it: spans of time, arrows between rows, and marks.

Lanes are the numbers of partitions, WHOLE (clients and routes) and WAY (extents under way).
"""

from dataclasses import dataclass, field

from shapes import text_width

WHOLE = "whole"
WAY = "way"


@dataclass
class Span:
    """A call that waits or runs, a parcel, or a stopped machine. It ends with the picture where nothing ends it."""

    kind: str
    lane: object
    slot: int
    start: float
    stop: float
    client: object = None
    text: str = ""
    ending: str = ""


@dataclass
class Arrow:
    """From a row to another, each a tuple of what it is and its numbers; where it leads nowhere, a mark."""

    kind: str
    place: float
    client: object
    start: tuple
    stop: tuple = None


@dataclass
class Mark:
    """A mark with its text, which may be short where there is no room."""

    kind: str
    place: float
    text: str
    short: str


@dataclass
class Call:
    """A call that was asked for, with the spans in which it waits and runs."""

    client: int
    text: str
    slot: int = 0
    wait: Span = None
    run: Span = None


@dataclass
class Story:
    """All that happened, told by the events and their answers."""

    columns: object
    names: list
    partitions: int
    spans: list = field(default_factory=list)
    arrows: list = field(default_factory=list)
    marks: dict = field(default_factory=dict)
    ticks: list = field(default_factory=list)
    met: list = field(default_factory=list)
    seen: set = field(default_factory=set)
    clients: set = field(default_factory=set)
    refusals: dict = field(default_factory=dict)
    count: dict = field(default_factory=lambda: dict.fromkeys(("calls", "ended", "taken", "landed", "refused"), 0))

    def __post_init__(self):
        self._queues = {p: [] for p in range(self.partitions)}
        self._running = {}
        self._parcels = {}
        self._stopped = {}
        self._taken = {}
        self._name_until = {}

    def tell(self, events):
        """Takes in all events."""
        for i, event in enumerate(events):
            for k, answer in enumerate(event.answers):
                self._happened(event, k, answer[0].split(" "), self.columns.place(i, k))
        return self

    def _happened(self, event, k, word, place):
        """One answer of an event, the one with the number k from 0, as its words."""
        fields = event.fields
        if word[0] == "REFUSED":
            self._refused(event, k, word, place)
        elif word[0] == "QUEUED":
            self._submitted(place, int(word[1]), fields)
        elif word[0] in ("BEGAN", "AWAY", "DENIED", "MOVED", "ENDED"):
            getattr(self, "_" + word[0].lower())(int(fields[1]), place, word)
        elif word[0] in ("PARCEL", "LANDED"):
            getattr(self, "_" + word[0].lower())(int(fields[1]), place, word[1])
        elif word[0] == "SET":
            self._mark("set", WHOLE, place, f"extent {word[1]} at {word[2]}", f"{word[1]}:{word[2]}")
        elif word[0] == "SUPERSEDED":
            self._mark("superseded", WHOLE, place, f"extent {word[1]}", word[1])
        elif word[0] == "CHAPTER":
            self._mark("chapter", int(fields[1]), place, f"extent {word[1]}: {word[3]}", word[1])
        elif fields[0] == "audit":
            self._mark("clean" if word[0] == "CLEAN" else "unclean", WHOLE, place, word[0], "")
        else:
            self._debugged(fields, int(fields[1]), place)

    def _debugged(self, fields, lane, place):
        """An event of the debugger, which was not refused."""
        if fields[0] == "stop" and lane not in self._stopped:
            self._stopped[lane] = self._span("stop", lane, 0, place)
        elif fields[0] == "resume" and lane in self._stopped:
            self._stopped.pop(lane).stop = place
        elif fields[0] in ("break", "clear"):
            number = fields[2] if fields[2].isdigit() else self.names.index(fields[2])
            self._mark(fields[0], lane, place, f"{fields[2]}:{fields[3]}", f"{number}:{fields[3]}")
        elif fields[0] == "look":
            self._mark("look", lane, place, "look", "")
        elif fields[0] == "home":
            self._mark("look", lane, place, "home " + fields[2], fields[2])

    # ---- pieces of the story

    def _span(self, kind, lane, slot, place, client=None, text=""):
        self.spans.append(Span(kind, lane, slot, place, self.columns.finish, client, text))
        self.seen.add(kind)
        return self.spans[-1]

    def _mark(self, kind, lane, place, text, short):
        self.marks.setdefault(lane, []).append(Mark(kind, place, text, short))
        self.seen.add(kind)

    def _arrow(self, kind, place, client, start, stop=None):
        self.arrows.append(Arrow(kind, place, client, start, stop))
        self.seen.add(kind)

    def _free_slot(self, lane, place):
        """The first row of a lane that is free; of parcels, one where a name has room."""
        rows = self._taken.setdefault(lane, [])
        for slot, taken in enumerate(rows):
            crowded = lane == WAY and slot < 2 and place < self._name_until.get(slot, 0)
            if not taken and not crowded:
                rows[slot] = True
                return slot
        rows.append(True)
        return len(rows) - 1

    # ---- calls

    def _submitted(self, place, p, fields):
        """A call is asked for."""
        if fields[0] == "raw":
            name, key = fields[2], fields[4]
            if name.isdigit():
                name = self.names[int(name)]
        else:
            name, key = fields[2], fields[3]
        client = int(fields[1])
        call = Call(client, f"{client}: {name} {key.lstrip('0') or '0'}")
        self.count["calls"] += 1
        self.clients.add(client)
        self._wait_at(call, p, place)
        self._arrow("submit", place, client, (WHOLE,), ("slot", p, call.slot))

    def _wait_at(self, call, p, place):
        call.slot = self._free_slot(p, place)
        call.wait = self._span("wait", p, call.slot, place, call.client, call.text)
        self._queues[p].append(call)

    def _leave_queue(self, p, place):
        """The first call that waits at the partition leaves the queue."""
        call = self._queues[p].pop(0)
        call.wait.stop = place
        self._taken[p][call.slot] = False
        return call

    def _began(self, p, place, _):
        call = self._leave_queue(p, place)
        self._running[p] = call
        call.run = self._span("run", p, 0, place, call.client, call.text)
        self._arrow("begin", place, call.client, ("slot", p, call.slot), ("bar", p))

    def _away(self, p, place, word):
        """The first call of a partition goes to a queue, which may be the one it comes from."""
        q = int(word[1])
        if p == q:
            call = self._queues[p].pop(0)
            self._queues[p].append(call)
            self._arrow("again", place, call.client, ("slot", p, call.slot))
            return
        call = self._leave_queue(p, place)
        start = ("slot", p, call.slot)
        self._wait_at(call, q, place)
        self._arrow("away", place, call.client, start, ("slot", q, call.slot))

    def _denied(self, p, place, _):
        call = self._leave_queue(p, place)
        call.wait.ending = "denied"
        self._arrow("denied", place, call.client, ("slot", p, call.slot))

    def _moved(self, p, place, _):
        self.ticks.append((p, place))
        self.seen.add("step")

    def _ended(self, p, place, word):
        call = self._running.pop(p)
        call.run.stop = place
        call.run.ending = " ".join(word[2:])
        self.count["ended"] += 1
        self.seen.add(ending_kind(call.run.ending))

    # ---- extents

    def _parcel(self, p, place, extent):
        slot = self._free_slot(WAY, place)
        self._parcels[extent] = self._span("parcel", WAY, slot, place, None, "extent " + extent)
        self._arrow("take", place, None, ("port", p), (WAY, slot))
        self.count["taken"] += 1

    def _landed(self, p, place, extent):
        span = self._parcels.pop(extent)
        span.stop = place
        self._taken[WAY][span.slot] = False
        self._name_until[span.slot] = place + 10 + text_width(span.text, 10)
        self._arrow("give", place, None, (WAY, span.slot), ("port", p))
        self.count["landed"] += 1

    # ---- refusals

    def _refused(self, event, k, word, place):
        """A refusal is a mark; so is a breakpoint that is met. A line that is refused many times in a row has one."""
        self.count["refused"] += 1
        if k > 0 and event.answers[k] == event.answers[k - 1]:
            return
        lane = WHOLE if word[1] == "5" else self._lane_of(event.fields)
        if word[1] == "32":
            self.met.append((lane, place))
            self._mark("met", lane, place, "32", "32")
        else:
            self.refusals[int(word[1])] = word[2]
            self._mark("refused", lane, place, word[1], word[1])

    def _lane_of(self, fields):
        """Where the mark of a line stands that is refused."""
        if fields[0] in ("submit", "raw", "route", "audit") or len(fields) < 2:
            return WHOLE
        known = fields[1].isdigit() and int(fields[1]) < self.partitions
        return int(fields[1]) if known else WHOLE


def ending_kind(reply):
    """The kind of the mark at which a call with this reply ends."""
    return {"OK": "ok", "FAILED": "failed"}.get(reply.split(" ")[0], "trapped")
