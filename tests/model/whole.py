"""The whole: sites with their queues, the routes, what is in hand, the clients, and what was answered so far."""
import collections

from .calls import STANDARD

Refused = collections.namedtuple("Refused", "number name")
BAD_LINE = Refused(5, "BadLine")
BAD_ARGUMENT = Refused(26, "BadArgument")
RUNNING, STOPPED, NOT_RUNNING = Refused(29, "Running"), Refused(30, "Stopped"), Refused(31, "NotRunning")
AT_BREAK, NOT_HERE, PINNED = Refused(32, "AtBreak"), Refused(33, "NotHere"), Refused(34, "Pinned")
MOVE_COUNT_FULL, TOO_MANY_BREAKS = Refused(35, "MoveCountFull"), Refused(36, "TooManyBreaks")
NO_PARTITION, NO_CLIENT, CLIENT_BUSY = Refused(38, "NoPartition"), Refused(40, "NoClient"), Refused(41, "ClientBusy")
NOTHING_QUEUED, NOT_IN_HAND = Refused(42, "NothingQueued"), Refused(43, "NotInHand")
NO_PROCEDURE, NOT_STOPPED = Refused(48, "NoProcedure"), Refused(49, "NotStopped")
LOG_ENDED, CHAPTER_COUNT_FULL = Refused(54, "LogEnded"), Refused(55, "ChapterCountFull")


class Site:
    """A partition: the call that runs, whether it is stopped, its breakpoints, and the calls that wait for it."""

    def __init__(self):
        self.call, self.is_stopped, self.breaks, self.queue = None, False, set(), []

    def is_at_break(self):
        return (self.call.proc, self.call.pc) in self.breaks


class Log:
    """What an extent's calls leave: whether it is mixed, how many chapters it handed out, and how many calls since."""

    def __init__(self):
        self.is_mixed, self.chapters, self.entries = False, 0, 0

    def end(self, is_kept):
        self.is_mixed = self.is_mixed or not is_kept
        self.entries += 1

    def hand_out(self):
        """The number of the chapter that is handed out, and of its calls."""
        self.chapters, entries, self.entries = self.chapters + 1, self.entries, 0
        return self.chapters - 1, entries


def extent_of(home):
    return (home - 1) // 64 + 1


class Whole:
    """All sites, and which extent is where: at a partition, or None where it is under way as a parcel."""

    def __init__(self, homes, partitions, clients, module=STANDARD):
        self.homes, self.module = homes, module
        self.is_standard = module == STANDARD
        self.numbers = {home["S"][(s,)][1]: s for s, home in homes.items()}
        self.extents = (len(homes) + 63) // 64
        self.sites = [Site() for _ in range(partitions)]
        self.place = {e: (e - 1) % partitions for e in range(1, self.extents + 1)}
        self.moves = dict.fromkeys(self.place, 0)
        # The partition that a route names, and of how many moves it knows; landings that no route knows yet.
        self.routes = {e: (p, 0) for e, p in self.place.items()}
        self.landings = {}
        # The log of each extent, and that of the calls without a home, which is extent 0's.
        self.logs = {e: Log() for e in range(self.extents + 1)}
        self.clients = clients
        self.busy = set()
        # What was asked and how it was answered, in the order of the ends.
        self.ended = []
        # How often each kind of answer came, and each situation; where calls were stopped.
        self.kinds = collections.Counter()
        self.stopped_at = set()

    # ---- where things are
    def site(self, partition):
        return self.sites[partition] if partition < len(self.sites) else None

    def home_of(self, ask):
        if ask.is_number:
            return self.numbers.get(ask.key)
        return ask.key if ask.key in self.homes else None

    def route_of(self, home):
        return 0 if home is None else self.routes[extent_of(home)][0]

    def is_in_hand(self, home):
        return home is not None and self.place[extent_of(home)] is None

    def is_away(self, partition, home):
        return partition != 0 if home is None else self.place[extent_of(home)] != partition

    def log_of(self, home):
        return self.logs[0 if home is None else extent_of(home)]

    # ---- answers
    def refused(self, word, refusal, *details):
        answer = " ".join(map(str, ("REFUSED", *refusal, *details)))
        self.kinds["%s: %s" % (word, answer)] += 1
        return [answer]

    def answered(self, word, *answer):
        """The answer, whose kind is counted."""
        kind = answer[0]
        if kind == "ENDED":
            # The values of a reply are left out, and what a failure or a trap is stays.
            reply = answer[2].split(" ")
            kind = " ".join([kind] + reply[: 1 if reply[0] == "OK" else 2])
        self.kinds["%s: %s" % (word, kind)] += 1
        return [" ".join(map(str, answer))]

    def reached(self, situation, holds=True):
        if holds:
            self.kinds["reached: " + situation] += 1
