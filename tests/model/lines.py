"""The lines of `trace`: what each is, and what is answered to it."""
from . import client_events, look_events, machine_events, move_events
from .calls import Ask, read_call
from .modules import read_text
from .tables import homes_of, number_of, read_row
from .whole import BAD_LINE, Whole

MOST_AT_ONCE = 4096
# How many numbers stand in a line after its word, and the event.
EVENTS = {
    "begin": (1, client_events.begin), "deny": (1, client_events.deny),
    "step": (1, machine_events.step), "steps": (2, machine_events.steps), "one": (1, machine_events.one),
    "stop": (1, machine_events.stop), "resume": (1, machine_events.resume),
    "break": (3, machine_events.set_break), "clear": (3, machine_events.clear_break),
    "take": (2, move_events.take), "give": (2, move_events.give), "route": (2, move_events.route),
    "checkpoint": (2, move_events.checkpoint),
    "look": (1, look_events.look), "home": (2, look_events.home), "audit": (0, look_events.audit),
}


def submit_line(whole, text, fields):
    client = number_of(fields[0]) if fields else None
    ask = read_call(text.split(" ", 2)[2]) if len(fields) > 1 else None
    if client is None or ask is None:
        return whole.refused("line", BAD_LINE)
    return client_events.submit(whole, "submit", client, ask)


def raw_line(whole, fields):
    if not 4 <= len(fields) <= 12 or fields[2] not in ("id", "number"):
        return whole.refused("line", BAD_LINE)
    numbers = [number_of(part) for part in fields[:2] + fields[3:]]
    if None in numbers:
        return whole.refused("line", BAD_LINE)
    client, proc, key, *arguments = numbers
    return client_events.submit(whole, "raw", client, Ask(proc, arguments, fields[2] == "number", key))


def answers(whole, line):
    """The lines that are answered to an event line, which is bytes."""
    try:
        text = line.decode("utf-8")
    except UnicodeDecodeError:
        return whole.refused("line", BAD_LINE)
    word, *fields = text.split(" ")
    if word == "submit":
        return submit_line(whole, text, fields)
    if word == "raw":
        return raw_line(whole, fields)
    numbers = [number_of(part) for part in fields]
    count, event = EVENTS.get(word, (None, None))
    if count != len(numbers) or None in numbers:
        return whole.refused("line", BAD_LINE)
    if word == "steps" and not 1 <= numbers[1] <= MOST_AT_ONCE:
        return whole.refused("line", BAD_LINE)
    return event(whole, *numbers)


def lines_of(data):
    lines = data.split(b"\n")
    return lines[:-1] if lines[-1] == b"" else lines


def opened(data, partitions, clients, has_text=False):
    """The whole that an input opens, whose rows are clean, and the lines of its events. A text may come first."""
    lines = lines_of(data)
    module = ()
    if has_text:
        dot = lines.index(b".")
        module, lines = (read_text(b"\n".join(lines[:dot])),), lines[dot + 1 :]
    dot = lines.index(b".")
    rows = [read_row(line.decode()) for line in lines[:dot]]
    return Whole(homes_of(rows), partitions, clients, *module), lines[dot + 1 :]
