"""Histories: what their lines tell of calls, and whether that is strictly serializable. All orders are tried, as
docs/THEOREM.md ("What is said of histories") defines it; nothing is searched cleverly."""
import collections

from .calls import STANDARD, read_call
from .machine import Call
from .tables import copied, home_texts, homes_of, read_row

ANSWERED, ABORTED, UNKNOWN = "answered", "aborted", "unknown"
# How a call ended; at which line, and what is recorded of its reply, where it was answered.
Outcome = collections.namedtuple("Outcome", "kind at recorded", defaults=(None, None))
# A call as its client saw it: the line that asked it, what it asked, and its outcome.
Observed = collections.namedtuple("Observed", "asked ask outcome")
# A serial order: its calls, their replies, and the rows that they leave, which Rows knows by number.
Order = collections.namedtuple("Order", "calls replies state")


# ---- what lines tell
def outcome_of(number, word, recorded):
    if word == "end":
        return Outcome(ANSWERED, number, recorded)
    return Outcome(ABORTED) if word == "abort" else Outcome(UNKNOWN)


def calls_of(texts):
    """The calls of which a history's lines tell. A line's number, counted from 1, is its time."""
    calls, opened = [], {}
    for number, text in enumerate(texts, 1):
        word, _, rest = text.partition(" ")
        if not word or word.startswith("#"):
            continue
        client, _, said = rest.partition(" ")
        if word == "ask":
            opened[client] = len(calls)
            calls.append(Observed(number, read_call(said), Outcome(UNKNOWN)))
        else:
            place = opened.pop(client)
            calls[place] = calls[place]._replace(outcome=outcome_of(number, word, said))
    return calls


def is_as_recorded(recorded, reply):
    """Whether a reply is as its client recorded it."""
    return recorded == reply or recorded in ("OK ?", "FAILED ?") and recorded.split(" ")[0] == reply.split(" ")[0]


def may_have_reply(outcome, reply):
    """Whether a call that took effect with this reply may have ended so."""
    if outcome.kind == ANSWERED:
        return is_as_recorded(outcome.recorded, reply)
    return outcome.kind == UNKNOWN


def precedes(first, second):
    """In real time: the first was answered before the second was asked."""
    return first.outcome.kind == ANSWERED and first.outcome.at < second.asked


# ---- rows
class Rows:
    """The rows of all subscribers. A state is a number for each of them, which names what its rows are then."""

    def __init__(self, texts):
        homes = homes_of([read_row(text) for text in texts])
        self.subscribers = sorted(homes)
        self.numbers = {homes[s]["S"][(s,)][1]: s for s in self.subscribers}
        self.homes, self.names, self.made = [], {}, {}
        self.opened = tuple(self._name(homes[s]) for s in self.subscribers)

    def _name(self, home):
        """The number of a home, which is kept with its rows."""
        texts = tuple(home_texts(home))
        if texts not in self.names:
            self.names[texts] = len(self.homes)
            self.homes.append(home)
        return self.names[texts]

    def subscriber_of(self, ask):
        """The s_id of the subscriber whom a call's key names, or None."""
        s = self.numbers.get(ask.key) if ask.is_number else ask.key
        return s if s in self.subscribers else None

    def after(self, state, ask):
        """The reply of a call on the rows of a state, and the state after it."""
        ask.home = self.subscriber_of(ask)
        if ask.home is None:
            return run_alone(ask, {})[0], state
        place = self.subscribers.index(ask.home)
        if (state[place], ask.text) not in self.made:
            reply, left = run_alone(ask, {ask.home: copied(self.homes[state[place]])})
            self.made[state[place], ask.text] = reply, self._name(left)
        reply, left = self.made[state[place], ask.text]
        return reply, state[:place] + (left,) + state[place + 1 :]


def run_alone(ask, homes):
    """The reply of a call, by the standard module's text, and the rows of its home after it."""
    call = Call(STANDARD, 0, ask, homes)
    end = None
    while end is None:
        end = call.act()
    if end != "OK":
        call.set_back()
    return call.reply(end), call.rows


# ---- orders
def serial_orders(rows, calls, order=None):
    """Each serial order of calls: every answered one, no aborted one, any of the unknown ones. Real time is kept: a
    call can't come next where another that is left was answered before it was asked, and so has to stand before it.
    """
    order = order or Order((), (), rows.opened)
    left = [call for call in calls if call not in order.calls]
    if not any(call.outcome.kind == ANSWERED for call in left):
        yield order
    for call in left:
        if any(precedes(other, call) for other in left):
            continue
        reply, state = rows.after(order.state, call.ask)
        if may_have_reply(call.outcome, reply):
            longer = Order(order.calls + (call,), order.replies + (reply,), state)
            yield from serial_orders(rows, calls, longer)


def is_legal(rows, texts):
    """Whether a history is strictly serializable from the rows on."""
    return next(serial_orders(rows, calls_of(texts)), None) is not None


def first_illegal(rows, texts):
    """The least number of lines that no order explains, or None."""
    return next((count for count in range(1, len(texts) + 1) if not is_legal(rows, texts[:count])), None)


class Any:
    """A record with which every reply agrees."""

    def __eq__(self, other):
        return True


def legal_replies(rows, texts):
    """The replies with which the last line of a history, the end of a call, would be legal."""
    calls = calls_of(texts)
    place = next(place for place, call in enumerate(calls) if call.outcome.at == len(texts))
    calls[place] = calls[place]._replace(outcome=Outcome(ANSWERED, len(texts), Any()))
    return {order.replies[order.calls.index(calls[place])] for order in serial_orders(rows, calls)}


# ---- what is told of a subscriber
def lines_on(rows, texts, subscriber):
    """Each line's number, whether it is of a call on the subscriber, and how many of these are open after it."""
    opened = set()
    for number, text in enumerate(texts, 1):
        word, client, *_ = text.split(" ") + [""]
        is_own = word in ("end", "abort", "lost") and client in opened
        if is_own or word == "ask":
            opened.discard(client)
        if word == "ask" and rows.subscriber_of(read_call(text.split(" ", 2)[2])) == subscriber:
            is_own = True
            opened.add(client)
        yield number, is_own, len(opened)


def most_open(rows, texts, subscriber):
    """How many calls on a subscriber are open at once, at most."""
    return max([count for _, _, count in lines_on(rows, texts, subscriber)], default=0)


def conflicts(rows, texts):
    """How many calls are asked while another client has one open on their subscriber, and one of the two writes."""
    opened, count = {}, 0
    for text in texts:
        word, client, *said = text.split(" ", 2) + [""]
        if word in ("ask", "end", "abort", "lost"):
            opened.pop(client, None)
        if word == "ask":
            subscriber = rows.subscriber_of(read_call(said[0]))
            writes = not said[0].startswith("GET_")
            count += any(other == subscriber and (writes or wrote) for other, wrote in opened.values())
            if subscriber is not None:
                opened[client] = subscriber, writes
    return count


def stakes(rows, texts):
    """What was at stake in a history: the lines that tell how many calls ended in each way, how many subscribers they
    are on, how many met another call there, how many of these a conflict, and how many were open there at once at
    most."""
    calls = calls_of(texts)
    ended = [sum(call.outcome.kind == kind for call in calls) for kind in (ANSWERED, ABORTED, UNKNOWN)]
    called = {rows.subscriber_of(call.ask) for call in calls} - {None}
    met = widest = 0
    for subscriber in called:
        lines = list(lines_on(rows, texts, subscriber))
        met += sum(is_own and texts[number - 1].startswith("ask ") and count > 1 for number, is_own, count in lines)
        widest = max([widest] + [count for _, _, count in lines])
    words = "ANSWERED", "ABORTED", "UNANSWERED", "SUBSCRIBERS", "OVERLAPPED", "CONFLICTED", "WIDEST"
    told = (*ended, len(called), met, conflicts(rows, texts), widest)
    return ["%s %d" % line for line in zip(words, told)]


def window(rows, texts, subscriber):
    """The numbers of the lines of calls on a subscriber since the last moment, before the last line, at which none of
    its calls was open."""
    lines = list(lines_on(rows, texts, subscriber))
    quiet = max([number for number, _, count in lines[:-1] if count == 0], default=0)
    return [number for number, is_own, _ in lines if is_own and number > quiet]


def lines_of_part(rows, texts, part, count):
    """A history's lines as they are read for one of its parts, those of other parts as comments. Where a client asks a
    call of another part, the one of this part that it had open is lost."""
    opened = set()
    for text in texts:
        word, client, *_ = text.split(" ") + [""]
        if word == "ask":
            subscriber = rows.subscriber_of(read_call(text.split(" ", 2)[2]))
            if part != (1 if subscriber is None else subscriber % count + 1):
                word = "lost"
                text = "lost " + client
        if word != "ask" and client not in opened:
            text = "#"
        (opened.add if word == "ask" else opened.discard)(client)
        yield text
