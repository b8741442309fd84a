"""What the tests expect of a page: the lines of a run asked again, each with looks and homes behind it, and what trace
then answers. This is a reading of FORMATS of its own: nothing of tools/timeline is used.
"""

import subprocess

from model.calls import TRANSACTIONS as STANDARD

BAD = "REFUSED 5 BadLine"
BETWEEN = b"between two answers"
# What a step is in the plain world, by the first word of its answer.
PLAIN = {"BEGAN": "A call of client {} enters the plain world.",
         "REFUSED": "The event is refused: nothing changes, here or in the plain world.",
         "DENIED": "Client {}'s call is refused memory: the plain world stays as it is.",
         "ENDED": "Client {}'s call completes: it is number {} in the serial order."}


class Asked:
    """An input again: what stands before its events, and for each step of the page the lines that trace reads."""

    def __init__(self, head, steps, names, subscribers):
        self.head = head
        self.steps = steps
        self.names = names
        self.subscribers = subscribers


def asked_again(text, words, seen):
    """The lines of trace for each step that was seen, or None where these aren't steps of the input."""
    lines = text.split(b"\n")
    if lines[-1] == b"":
        lines.pop()
    head = []
    for wanted in ("--procedures" in words, "--gen" not in words):
        if wanted:
            end = lines.index(b".") + 1
            head += lines[:end]
            lines = lines[end:]
    own = [line.split(b" ")[1].decode() for line in head if line.startswith(b"proc ")]
    events = [line for line in lines if not line.startswith(b"#")]
    subscribers = sum(line.startswith(b"S ") for line in head)
    if "--gen" in words:
        subscribers = int(words[words.index("--gen") + 1])
    steps = [[]]
    pages = iter(seen[1:])
    for line in events:
        if not _take_steps(line, own or STANDARD, pages, steps):
            return None
    # (a comment at the end is a step without an event)
    rest = [page for page in pages if page["asked"] != "the end" or page["answer"]]
    return None if rest else Asked(head, steps, own or STANDARD, subscribers)


def _take_steps(line, names, pages, steps):
    """Takes the steps of one line from the pages; whether they are its steps."""
    fields = line.split(b" ")
    count = {b"steps": 3, b"run": 2}.get(fields[0])
    if count != len(fields) or not all(field.isdigit() for field in fields[1:]) or len(fields[-1]) > 4:
        page = next(pages, None)
        steps.append([_numbered(line, names)])
        return page is not None and page["asked"] == _shown(line)
    left = int(fields[2]) if count == 3 else None
    while left is None or left > 0:
        page = next(pages, None)
        if page is None:
            return False
        if page["answer"] in (BAD, "REFUSED 38 NoPartition"):
            steps.append([line if count == 3 else b"step " + fields[1]])
            return True
        steps.append([b"step " + fields[1]] * page["times"])
        if page["asked"] != steps[-1][0].decode() or left is None and page["times"] != 1:
            return False
        if left is not None:
            left -= page["times"]
        elif page["answer"] != "MOVED":
            return True
    return left == 0


def _shown(raw):
    return "".join(chr(byte) if 32 <= byte < 127 else "?" for byte in raw)


def _numbered(line, names):
    """The line with a procedure's number in place of its name."""
    fields = line.split(b" ")
    if fields[0] in (b"raw", b"break", b"clear") and len(fields) > 2 and _shown(fields[2]) in names:
        fields[2] = str(names.index(_shown(fields[2]))).encode()
    return b" ".join(fields)


def expected_board(program, words, asked, partitions):
    """What has to stand in the page at each step, as far as trace tells it."""
    homes = _homes_of_calls(asked)
    firsts = range(1, asked.subscribers + 1, 64)
    looks = [f"look {p}" for p in range(partitions)]
    rows = [f"home {p} {s}" for p in range(partitions) for s in sorted({*homes, *firsts})]
    lines = list(asked.head)
    for step in asked.steps:
        for query in [*step, *(query.encode() for query in looks + rows)]:
            lines += [query, BETWEEN]
    text = b"\n".join(lines) + b"\n"
    answers = subprocess.run([program, "trace", *words], input=text, capture_output=True, check=False)
    told = iter(answers.stdout.decode("latin-1").split("\n"))
    boards = []
    state = State(program, asked, partitions)
    for step in asked.steps:
        said = [_answer(told, line) for line in step]
        state.queried = {query: _answer(told, query.encode()) for query in looks + rows}
        boards.append(state.board(step, said))
    return boards


def _answer(told, line):
    """The lines that answer a query, up to what stands between it and the next."""
    lines = [next(told)]
    if line.startswith(b"steps ") and lines[0] != BAD:
        lines = [lines[0]] + [next(told) for _ in range(int(line.split(b" ")[2]) - 1)]
    while (line := next(told)) != BAD:
        lines.append(line)
    return lines


def _homes_of_calls(asked):
    """The subscribers whom calls name, where s_id and sub_nbr are the same."""
    named = set()
    for step in asked.steps:
        fields = _shown(step[0]).split(" ") if step else [""]
        key = fields[3:4] if fields[0] == "submit" else fields[4:5] if fields[0] == "raw" else []
        named |= {int(field) for field in key if field.isdigit()}
    return {s for s in named if 1 <= s <= asked.subscribers}


class State:
    """What the answers so far tell."""

    def __init__(self, program, asked, partitions):
        self.program = program
        self.subscribers = asked.subscribers
        self.partitions = partitions
        self.names = asked.names
        self.stopped = [False] * partitions
        self.breaks = [[] for _ in range(partitions)]
        self.registers = {}
        self.moves = {}
        self.routes = {}
        self.ended = []
        self.queried = {}
        self.clients = {}
        self.running = {}
        self.callers = {}
        self.entries = {}

    def board(self, step, said):
        """What stands in the page after a step and its answers."""
        board = {}
        line = _shown(step[0]).split(" ") if step else [""]
        word = said[0][0].split(" ") if said else [""]
        over = None
        if said:
            board["answer"] = said[0][0] if step[0].startswith(b"steps ") else "\n".join(said[0])
            over = self._tell(line, word)
            board["told"] = self.explanation(word[1]) if word[0] == "REFUSED" else ""
            board["why"] = board["told"].split("\n")[0].partition(": ")[2]
            board["plain"] = self._plain(line, word)
        board.update(stopped=list(self.stopped), completed=len(self.ended), reply=self.ended[-1] if self.ended else "")
        board["breaks"] = [", ".join(points) for points in self.breaks]
        board["machines"] = [self._machine(p) for p in range(self.partitions)]
        board["homes"] = [self._home(p, over) for p in range(self.partitions)]
        board["entries"] = [self._entry(p, over) for p in range(self.partitions)]
        board["places"] = self._places()
        board["moves"] = {str(e): str(self.moves.get(e, 0)) for e in self._extents()}
        board["routes"] = {str(e): str(self.routes.get(e, (e - 1) % self.partitions)) for e in self._extents()}
        return board

    def explanation(self, number):
        """What the command explain says of a refusal."""
        told = subprocess.run([self.program, "explain", number], capture_output=True, check=True)
        return told.stdout.decode().rstrip()

    def _tell(self, line, word):
        """Takes in an answer; gives the partition whose call it ended, if it did."""
        if word[0] == "QUEUED":
            self.clients[line[1]] = int(line[3] if line[0] == "submit" else line[4])
        elif word[0] == "BEGAN":
            p = int(line[1])
            self.running[p] = self.clients[word[1]]
            self.callers[p] = word[1]
            self.registers[p] = ["0"] * 16
            self.entries[p] = self._rows(p)
        elif word[0] == "ENDED":
            self.ended.append(" ".join(word[2:]))
            return int(line[1])
        elif word[0] == "PARCEL":
            self.moves[int(word[1])] = word[2]
        elif word[0] == "SET":
            self.routes[int(word[1])] = word[2]
        elif line[0] in ("stop", "resume") and word[0] == "OK":
            self.stopped[int(line[1])] = line[0] == "stop"
        elif line[0] in ("break", "clear") and word[0] == "OK":
            self._set_break(line)
        return None

    def _set_break(self, line):
        """A breakpoint is set or taken away."""
        number = int(line[2])
        point = f"{self.names[number] if number < len(self.names) else number} {line[3]}"
        points = [other for other in self.breaks[int(line[1])] if other != point]
        self.breaks[int(line[1])] = points + [point] * (line[0] == "break")

    def _plain(self, line, word):
        """The words for the step of the plain world."""
        if word[0] == "MOVED":
            client = self.callers[int(line[1])]
            return f"Client {client}'s call makes one instruction on the one database."
        return PLAIN.get(word[0], "The plain world makes no step.").format(*word[1:2], len(self.ended))

    def _extents(self):
        return range(1, (self.subscribers + 63) // 64 + 1)

    def _rows(self, p):
        """The rows of the home of a partition's call, or None."""
        rows = self.queried.get(f"home {p} {self.running[p]}", ["REFUSED"])
        return None if rows[0].startswith("REFUSED") else rows

    def _machine(self, p):
        look = self.queried[f"look {p}"]
        if look[0].startswith("REFUSED 31"):
            return {"runs": None}
        at = look[0].split(" ", 3)
        registers = look[1].split(" ")[1:]
        changed = [n for n, value in enumerate(registers) if value != self.registers[p][n]]
        self.registers[p] = registers
        # (the page has labels as the text names them, trace by the instruction that they lead to)
        instruction, _, target = at[3].partition("@L")
        return {"runs": f"{at[1]} {at[2]}", "counter": at[2], "instruction": instruction,
                "target": target, "registers": registers, "changed": changed,
                "current": look[2].split(" ")[1:], "out": look[3].split(" ")[1:]}

    def _home(self, p, over):
        """The rows of the home of the call that runs, or that has just ended."""
        runs = not self.queried[f"look {p}"][0].startswith("REFUSED")
        return self._rows(p) if runs or over == p else None

    def _entry(self, p, over):
        runs = not self.queried[f"look {p}"][0].startswith("REFUSED")
        return self.entries[p] if runs or over == p else None

    def _places(self):
        """Where each extent is, by which partition has the rows of its first subscriber."""
        places = {}
        for extent in self._extents():
            first = 64 * (extent - 1) + 1
            here = [p for p in range(self.partitions) if not self.queried[f"home {p} {first}"][0].startswith("REFUSED")]
            places[str(extent)] = str(here[0]) if here else "under way"
        return places
