"""Reading the input of a run: the procedures of a text, the subscribers of rows, and events with their comments."""

import re


def printable(raw):
    """Bytes as text that may stand in a picture: whatever is no printable ASCII is shown as a question mark."""
    return "".join(chr(byte) if 32 <= byte < 127 else "?" for byte in raw)


class Procedure:
    """A procedure of an assembly text: its name, and its lines, each with its instruction's number or None."""

    def __init__(self, name):
        self.name = name
        self.lines = []
        self.length = 0

    def add(self, text):
        """Takes the next line, which is a label or an instruction."""
        if text.endswith(":"):
            self.lines.append((None, text))
        else:
            self.lines.append((self.length, text))
            self.length += 1


def procedures_of(lines):
    """The procedures of an assembly text, in their order."""
    procedures = []
    inside = False
    for line in lines:
        text = printable(line)
        if text.startswith("proc "):
            procedures.append(Procedure((text.split() + [""])[1]))
            inside = True
        elif text == "end":
            inside = False
        elif inside and text:
            procedures[-1].add(text)
    return procedures


class Population:
    """Who the subscribers are: how many there are, and whom each sub_nbr names. In drawn rows these are the s_ids."""

    def __init__(self, rows, drawn):
        fields = [row.split(b" ") for row in rows if row.startswith(b"S ")]
        known = [field for field in fields if len(field) > 2 and field[1].isdigit() and field[2].isdigit()]
        self.subscribers = drawn if drawn is not None else len(fields)
        self.drawn = drawn is not None
        self.home_of_number = {int(field[2]): int(field[1]) for field in known}

    def subscriber_of(self, kind, key):
        """The subscriber whom a key of a call names, or None: then the call has no home."""
        if self.drawn or kind == "id":
            return key if 1 <= key <= (self.subscribers or 0) else None
        return self.home_of_number.get(key)


class Line:
    """A line of the input that is no comment: its number, its bytes, and the comment above it."""

    def __init__(self, number, raw, caption):
        self.number = number
        self.raw = raw
        self.caption = caption
        self.text = printable(raw)
        self.fields = self.text.split(" ")


class Input(Population):
    """The whole input of a run, taken apart: what stands before the events, and the events, numbered from 1."""

    def __init__(self, raw, words, standard):
        lines = lines_of(raw)
        text, rest = before_dot(lines) if words.has_text else ([], lines)
        rows, rest = before_dot(rest) if words.has_rows else ([], rest)
        super().__init__(rows, words.drawn)
        before = len(lines) - len(rest)
        self.head = b"".join(line + b"\n" for line in lines[:before])
        self.procedures = procedures_of(text if words.has_text else standard)
        self.number_of = {procedure.name: n for n, procedure in reversed(list(enumerate(self.procedures)))}
        self._read_events(rest)

    def _read_events(self, lines):
        """Parts events from comments; the comments above an event are its caption, those at the end `last_words`."""
        self.lines = []
        comment = []
        for raw in lines:
            if raw.startswith(b"#"):
                comment.append(comment_of(raw))
            else:
                self.lines.append(Line(len(self.lines) + 1, raw, " ".join(comment)))
                comment = []
        self.last_words = " ".join(comment)

    def line_for_trace(self, line):
        """The line as trace reads it: a procedure's name becomes its number."""
        place = {"raw": 2, "break": 2, "clear": 2}.get(line.fields[0])
        if place is None or len(line.fields) <= place:
            return line.raw
        name = line.fields[place]
        if name not in self.number_of or not re.fullmatch("[A-Z_]+", name):
            return line.raw
        fields = line.raw.split(b" ")
        fields[place] = str(self.number_of[name]).encode()
        return b" ".join(fields)


def lines_of(raw):
    """The lines of an input, of which the last may lack its line feed."""
    lines = raw.split(b"\n")
    return lines[:-1] if lines[-1] == b"" else lines


def comment_of(raw):
    """What a line that begins with # says."""
    return raw[1:].decode("utf-8", "replace").strip()


def before_dot(lines):
    """The lines before the first that is a dot, and those after it; without one all lines stand before it."""
    place = lines.index(b".") if b"." in lines else len(lines)
    return lines[:place], lines[place + 1:]
