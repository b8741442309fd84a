"""The command line: which words are timeline's own, and what the words of the program say of the input."""

USAGE = """Draw a run of the command trace as a picture, in SVG, or as a page to step through; or draw a history so

Usage: ./timeline [OPTIONS] < events > picture.svg
       ./timeline --page [OPTIONS] < events > run.html
       ./timeline --history [--subscriber S] [OPTIONS] < history > picture.svg
       ./timeline --page --history [--subscriber S] [OPTIONS] < history > history.html

Options and input are those of ./tatp trace: the rows of a population, a line with a dot, and events;
with --gen N events alone; with --procedures a text and a line with a dot before them.
./tatp trace --help lists them. Among the events there may also stand:
  run P                     steps of P's call, until it ends or a step is refused
  raw C NAME KIND KEY ARG..., break P NAME PC, clear P NAME PC
                            a procedure by its name in place of its number
  # TEXT                    a comment; on a page it is the caption of the event below it

The picture: time goes from left to right, one column a line, and one tick a step. Each partition has
a lane with its machine and its queue, and extents under way have one. A legend tells what the marks are.
The page is one file, which opens in any browser without a network. Arrow keys, Home, End and space step
through the run: it shows each queue and machine, the rows that a running call changes, extents and
routes, and the plain world of the theorem. Without a script it is a list of events and answers.

With --history options and input are those of ./tatp judge. Each client has a lane, and each call is a
bar from where it is asked to where it ends. What judge says stands beside it: the answer that no order
of the calls explains, the lines of its subscriber that have to do with it, and the answers that some
order would explain. --subscriber S draws the calls on subscriber S alone. Of more than 300 calls those
of the same subscriber that come last before the answer are drawn; of a legal history the first 300.

TATP=FILE names another program than ./tatp. Where the program stops at a fault nothing is drawn: what
it told, and its status, are handed on.

Examples: ./timeline --gen 130 < examples/live-move.txt > live-move.svg
          ./timeline --page --gen 130 < examples/live-move.txt > live-move.html
          ./timeline --history --gen 1 < examples/judge/lost-update.txt > lost-update.svg
"""


class Words:
    """The words, of which those for the program are handed on as they are: whether they are right is for it to say."""

    def __init__(self, words):
        self.help = any(word in ("-h", "--help") for word in words)
        self.version = any(word in ("-V", "--version") for word in words)
        self.page = "--page" in words
        self.history = "--history" in words
        self.command = "judge" if self.history else "trace"
        self.handed = [word for word in words if word not in ("--page", "--history")]
        self.subscriber = None
        if self.history:
            self.subscriber, self.handed = _taken(self.handed, "--subscriber")
        self.has_text = "--procedures" in self.handed
        self.drawn = _number(self.handed, "--gen", None)
        self.has_rows = not any(word == "--gen" or word.startswith("--gen=") for word in self.handed)
        self.partitions = _number(self.handed, "--partitions", 2)

    def title(self):
        """The command that was drawn, as a heading."""
        return " ".join(["tatp", self.command] + self.handed)


def _number(words, option, default):
    """The number that an option has, as `--gen 3` or `--gen=3`; the last one counts."""
    value = default
    for before, word in zip([""] + words, words):
        text = word if before == option else word[len(option) + 1:] if word.startswith(option + "=") else ""
        if text.isascii() and text.isdigit():
            value = int(text)
    return value


def _taken(words, option):
    """The number of an option, and the words without it. Where it has none its words stay, and are refused."""
    number = _number(words, option, None)
    if number is None:
        return None, words
    pairs = [pair for pair in zip([""] + words, words) if option not in pair]
    return number, [word for _, word in pairs if not word.startswith(option + "=")]
