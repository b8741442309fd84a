"""Walking through a page by its keys, and comparing each step with what trace answers."""

import os
import subprocess
import sys
from pathlib import Path

from asked import asked_again, expected_board
from browser import Browser, executable
from runs import Tally

ROOT = Path(__file__).resolve().parents[2]
PROGRAM = str((Path(sys.argv[1]) if sys.argv[1:] else ROOT / "crates/tatp/out/tatp").resolve())
SNAPSHOT = (Path(__file__).resolve().parent / "snapshot.js").read_text()


def timeline(words, text):
    """./timeline with these words and this input."""
    return subprocess.run([str(ROOT / "timeline"), *words], input=text, capture_output=True, check=False,
                          env={**os.environ, "TATP": PROGRAM})


def many_events():
    """2,000 events of 64 clients in 16 partitions: calls are asked for, begin and run to their end."""
    lines = []
    for turn in range(500):
        client, subscriber = turn % 64, 1 + turn * 37 % 1024
        partition = (subscriber - 1) // 64 % 16
        call = ("GET_ACCESS_DATA {} 1", "UPDATE_SUBSCRIBER_DATA {} 1 2 9", "UPDATE_LOCATION {:015d} 7")[turn % 3]
        lines += [f"submit {client} {call.format(subscriber)}", f"begin {partition}", f"run {partition}"]
        lines += [f"home {partition} {subscriber}"]
    return "\n".join(lines) + "\n"


# What the largest page is made of: the words and the input.
MANY_EVENTS = (["--gen", "1024", "--partitions", "16", "--clients", "64"], many_events().encode())


class Walk:
    """Walks through pages, and counts what passed and what failed."""

    def __init__(self, room):
        self.room = Path(room)
        self.tally = Tally()
        self.name = ""
        self.browser = Browser(executable(), str(self.room / "profile"))
        self.browser.ask("Network.enable")

    def check(self, well, what):
        """Counts one more."""
        self.tally.count(self.name, None if well else what)

    def make(self, words, text):
        """The page of an input; gives its file."""
        made = timeline(["--page", *words], text)
        self.check(made.returncode == 0 and not made.stderr, f"status {made.returncode}: {made.stderr[:200]!r}")
        file = self.room / "page.html"
        file.write_bytes(made.stdout)
        return file

    def snapshot(self):
        """What stands in the page."""
        return self.browser.value(SNAPSHOT)

    # ---- a page is walked through

    def walk(self, name, words, text):
        """Makes the page of an input and compares each of its steps with trace."""
        self.name = name
        file = self.make(words, text)
        self.browser.look(1280, 900, dark=False)
        self.browser.open(file)
        seen = self.forward()
        lines = asked_again(text, words, seen)
        self.check(lines is not None, "the steps aren't those of its input")
        if lines is not None:
            boards = expected_board(PROGRAM, words, lines, len(seen[0]["partitions"]))
            self.compare(seen, boards)
        self.back(seen)
        self.at_once(file, seen)
        return seen

    def forward(self):
        """Presses the arrow to the right from the first step to the last."""
        self.browser.press("Home")
        seen = [self.snapshot()]
        while seen[-1]["step"] < seen[-1]["last"]:
            self.browser.press("ArrowRight")
            seen.append(self.snapshot())
            if seen[-1]["step"] != len(seen) - 1:
                self.check(False, f"a key led from step {len(seen) - 2} to {seen[-1]['step']}")
                break
        return seen

    def compare(self, seen, boards):
        """Each step of the page with what trace answered, and with itself from the step before."""
        for number, (page, board) in enumerate(zip(seen, boards)):
            self.check(page["marked"] == number, f"step {number} isn't marked")
            for what, wanted in board.items():
                came = page[what]
                self.check(came == wanted, f"step {number}: {what} is {came}, not {wanted}")
        for before, page in zip(seen, seen[1:]):
            self.queues(before, page)

    def queues(self, before, page):
        """The call that began, or was denied, is the first that stood in the queue; who is queued stands last."""
        word = page["answer"].split(" ")
        fields = page["asked"].split(" ")
        if word[0] in ("BEGAN", "DENIED"):
            queue = before["queues"][int(fields[1])]
            self.check(queue[0].startswith(f"client {word[1]}: ") and page["queues"][int(fields[1])] == queue[1:],
                       f"step {page['step']}: the queue was {queue}")
        elif word[0] in ("QUEUED", "AWAY"):
            call = f"client {fields[1]}: " + (" ".join(fields[2:]) if fields[0] == "submit" else "")
            if word[0] == "AWAY":
                call = before["queues"][int(fields[1])][0]
            last = page["queues"][int(word[1])][-1]
            self.check(last.startswith(call), f"step {page['step']}: the last of {page['queues']}")
        else:
            self.check(before["queues"] == page["queues"], f"step {page['step']}: a queue changed")

    def back(self, seen):
        """The way back shows the same."""
        self.browser.press("End")
        self.check(self.snapshot() == seen[-1], "End shows another last step")
        for page in reversed(seen[:-1]):
            self.browser.press("ArrowLeft")
            came = self.snapshot()
            self.check(came == page, f"on the way back step {page['step']} is another")
        self.browser.press("Home")
        self.check(self.snapshot() == seen[0], "Home shows another first step")

    def at_once(self, file, seen):
        """The address names the step, and opens it; a click on the timeline leads to the step there."""
        self.browser.value("new Promise((done) => setTimeout(done, 200))")
        self.check(self.browser.value("location.hash") == "#0", "the address doesn't name the first step")
        step = len(seen) * 2 // 3
        self.browser.open(f"{file}#{step}")
        self.check(self.snapshot() == seen[step], f"the address of step {step} shows another")
        self.check(self.browser.value("scrollY") == 0, "the address scrolls the page")
        self.browser.press("Home")
        x, y = self.browser.value(f"""(() => {{
            const strip = document.getElementById("strip"), box = strip.getBoundingClientRect();
            strip.scrollLeft = placeOf({step}) - 300;
            return [box.left + placeOf({step}) - strip.scrollLeft, box.top + 40];
        }})()""")
        self.browser.click(x, y)
        self.check(self.snapshot()["step"] == step, f"a click at step {step} leads to another")
