"""What 200 runs of drawn events have to reach: each answer and each refusal of each kind of line, and situations. A
trap NoCurrent comes only in a procedure of one's own, since each GET, PUT and DEL of the standard module stands behind
a find that was tested."""
from model.calls import STANDARD

from .damage import DAMAGES
from .machines import PLACES

REFUSALS = {
    "line": "5 BadLine",
    "submit": "26 BadArgument 1,26 BadArgument 2,26 BadArgument 3,40 NoClient,41 ClientBusy",
    "raw": "40 NoClient,41 ClientBusy,48 NoProcedure",
    "begin": "29 Running,30 Stopped,38 NoPartition,42 NothingQueued",
    "deny": "29 Running,30 Stopped,33 NotHere,38 NoPartition,42 NothingQueued",
    "step": "30 Stopped,31 NotRunning,32 AtBreak,38 NoPartition",
    "steps": "30 Stopped,31 NotRunning,32 AtBreak,38 NoPartition",
    "one": "31 NotRunning,38 NoPartition",
    "take": "33 NotHere,34 Pinned,38 NoPartition",
    "give": "38 NoPartition,43 NotInHand",
    "route": "43 NotInHand",
    "checkpoint": "29 Running,33 NotHere,38 NoPartition,54 LogEnded",
    "stop": "30 Stopped,38 NoPartition",
    "resume": "38 NoPartition,49 NotStopped",
    "break": "36 TooManyBreaks,38 NoPartition",
    "clear": "38 NoPartition",
    "look": "31 NotRunning,38 NoPartition",
    "home": "33 NotHere,38 NoPartition",
}
ENDS = "MOVED,ENDED OK,ENDED FAILED 1,ENDED FAILED 2,ENDED FAILED 3,ENDED TRAPPED Domain"
ANSWERS = {
    "submit": "QUEUED", "raw": "QUEUED", "begin": "BEGAN,AWAY", "deny": "DENIED",
    "step": "MOVED,ENDED OK", "steps": ENDS, "one": ENDS,
    "take": "PARCEL", "give": "LANDED", "route": "SET,SUPERSEDED", "checkpoint": "CHAPTER",
    "stop": "OK", "resume": "OK", "break": "OK", "clear": "OK",
    "look": "AT", "home": "rows", "audit": "CLEAN",
}
RAW_ENDS = ("OK", "FAILED 1", "FAILED 2", "FAILED 3", "FAILED 4294967295", "TRAPPED Domain")
LIMITS = ("TRAPPED Budget", "TRAPPED Output", "TRAPPED Writes", "TRAPPED NoCurrent")
REACHED = [
    "a call without a home",
    "a call without a home begins",
    "a call on a home whose sub_nbr isn't its s_id",
    "a call whose home is in a parcel is submitted",
    "a raw call begins",
    "a transaction ends under another module",
    "away, its home in a parcel",
    "away to its own queue, its home landed and the route not set",
    "away to another queue",
    "away behind others",
    "FAILED takes a change back",
    "TRAPPED takes a change back",
    "one at a breakpoint",
    "one while stopped",
    "a breakpoint that is set is set again beside seven",
    "a breakpoint at which a call stands is cleared",
    "a breakpoint that isn't set is cleared",
    "a take of a pinned extent before the first step",
    "a take of a pinned extent while stopped",
    "a take beside a running call",
    "a give to a stopped partition",
    "a route is set to where the extent was, and not is",
    "a landing of another partition is superseded",
    "a checkpoint of an extent that isn't here beside a running call",
    "a checkpoint while stopped",
    "a chapter of calls without a home",
    "a chapter of several calls",
    "a chapter of no calls",
    "a later chapter with calls",
    "a chapter of an extent that was moved",
    "a look at a call that made changes",
    "a look at a call without a home",
    "a home that a running call has changed",
    "an audit with a parcel in hand",
    "an audit in mid-call after a change",
]


def stopped_at(proc, pc):
    return "reached: stopped at %s %d" % (STANDARD.procedures[proc].name, pc)


def situations():
    for word, numbers in REFUSALS.items():
        yield from ("%s: REFUSED %s" % (word, number) for number in numbers.split(","))
    for word, answers in ANSWERS.items():
        yield from ("%s: %s" % (word, told) for told in answers.split(","))
    yield from ("reached: " + situation for situation in REACHED)
    yield from ("reached: a raw call ends: " + end for end in RAW_ENDS + LIMITS)
    yield from (stopped_at(*place) for place in PLACES)
    yield from ("reached: damage %d" % place for place in range(len(DAMAGES)))
