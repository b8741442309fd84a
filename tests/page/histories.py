"""Walking through the page of a history, and comparing each step with the history's lines and with what judge says."""

import subprocess

from walk import PROGRAM, ROOT, Walk

SNAPSHOT = """(() => {
  const text = (node) => (node ? node.textContent : "");
  const all = (node, selector) => [...node.querySelectorAll(selector)];
  const shown = (node) => text(node.querySelector(".mono")) + " " + all(node, "a").map(text).join(" to ");
  const now = document.getElementById("now");
  return {
    step: Number(/^step (\\d+) of/.exec(text(document.getElementById("where")))[1]),
    asked: text(now.querySelector("code")), said: text(now.querySelector("samp")),
    caption: text(now.querySelector(".caption")),
    marked: all(document, "#events > li").findIndex((item) => item.classList.contains("current")),
    clients: all(document, ".client").map((panel) => [text(panel.querySelector("h2")),
      text(panel.querySelector(".state")), ...all(panel, ".call").map(shown), ...all(panel, ".reply").map(text)]),
    touched: all(document, ".client").findIndex((panel) => panel.classList.contains("touched")),
    either: all(document, ".either .call").map(shown),
    verdict: text(document.querySelector(".verdict .said")), told: all(document, ".told .mono").map(text),
    wrong: all(document, "#events li.wrong small").map(text),
    window: all(document, "#events li.window small").map(text),
    bars: all(document, "#strip rect.reads, #strip rect.writes, #strip rect.aborted, #strip rect.unanswered").length,
    ground: all(document, "#strip rect.window").length, outline: all(document, "#strip rect.outline").length,
  };
})()"""
NO_REPLY = {"abort": "aborted: it changed nothing", "": "no answer: it takes effect at some time, or never"}
STATES = {None: "has asked nothing yet", True: "waits for an answer", False: "has no call open; the last one ended"}
COMMENTS = b"""# <b>bold</b> </script><script>window.ran=1</script> <img src=x onerror=window.ran=2>
ask 0 UPDATE_LOCATION 000000000000001 7
# <!-- <script>
end 0 OK ?
# the end <iframe src=javascript:window.ran=3>
"""


class Call:
    """A call of a history: the steps at which it is asked and ends, 0 where it doesn't, and how."""

    def __init__(self, client, text, asked):
        self.client, self.text, self.asked, self.ended, self.word, self.reply = client, text, asked, 0, "", ""
        # (in the rows of these tests sub_nbr is the s_id)
        self.subscriber = int(text.split(" ")[1])

    def shown(self):
        return f"{self.text} step {self.asked}" + (f" to step {self.ended}" if self.ended else "")

    def is_answered_before(self, step):
        return self.word == "end" and self.ended < step


def calls_of(lines):
    """The calls of a history's lines, and that of each line."""
    calls, of_line, opened = [], [], {}
    for step, line in enumerate(lines, 1):
        word, client, said = (line.split(" ", 2) + [""])[:3]
        before = opened.pop(client, None)
        if before:
            before.ended = step
        if word == "ask":
            opened[client] = before = Call(client, said, step)
            calls.append(before)
        elif word != "lost":
            before.word, before.reply = word, said
        of_line.append(before)
    return calls, of_line


def board(calls, of_line, clients, step):
    """The clients' panels at a step, and the calls that may come before or after that of the step."""
    panels = []
    for client in clients:
        own = [call for call in calls if call.client == client and call.asked <= step]
        is_open = not (own[-1].ended and own[-1].ended <= step) if own else None
        last = [own[-1].shown()] if own else []
        reply = [own[-1].reply if own[-1].word == "end" else NO_REPLY[own[-1].word]] if is_open is False else []
        panels.append([f"Client {client}", STATES[is_open], *last, *reply])
    mine = of_line[step - 1] if step else None
    either = [call.shown() for call in calls if mine and call is not mine and call.subscriber == mine.subscriber
              and call.word != "abort" and call.asked <= step and not call.is_answered_before(mine.asked)
              and not mine.is_answered_before(call.asked)]
    return panels, either


class Histories(Walk):
    """What holds of the page of each history."""

    def history(self, name, words, text):
        """Makes the page of a history, and compares each of its steps."""
        self.name = name
        file = self.make(["--history", *words], text)
        self.browser.look(1280, 900, dark=False)
        self.browser.open(file)
        told = subprocess.run([PROGRAM, "judge", *words], input=text, capture_output=True, check=False).stdout.decode()
        rows = text.partition(b"\n.\n")[0].count(b"\n") + 2 if b"\n.\n" in text else 0
        history = text.decode().split("\n")[rows:]
        numbers = [rows + n for n, line in enumerate(history, 1) if line and not line.startswith("#")]
        lines = [history[number - rows - 1] for number in numbers]
        self.browser.press("Home")
        for step in range(len(lines) + 1):
            page = self.browser.value(SNAPSHOT)
            self.check(page["step"] == page["marked"] == step, f"step {step} is step {page['step']}")
            self.compare_step(page, lines, step)
            self.browser.press("ArrowRight")
        self.compare_verdict(page, told, numbers, lines)
        return page

    def compare_step(self, page, lines, step):
        """What a step shows of its line, the clients and the calls that overlap."""
        calls, of_line = calls_of(lines)
        clients = sorted({call.client for call in calls}, key=int)
        panels, either = board(calls, of_line, clients, step)
        fields = lines[step - 1].split(" ", 2) if step else []
        wanted = {"clients": panels, "either": either, "bars": len(calls)}
        if step:
            wanted.update(asked=" ".join(fields[:2]), said="".join(fields[2:]), touched=clients.index(fields[1]))
        for what, value in wanted.items():
            self.check(page[what] == value, f"step {step}: {what} is {page[what]}, not {value}")

    def compare_verdict(self, page, told, numbers, lines):
        """The verdict, its line, its window and the replies that would have been legal are those that judge tells."""
        first, *more = told.rstrip("\n").split("\n")
        self.check(page["verdict"].startswith(first + ":"), f"the verdict is {page['verdict']!r}, not {first!r}")
        line = int(first.split(" ")[1]) if first.startswith("ILLEGAL") else 0
        wrong = [text for text in page["wrong"] if text.startswith(f"line {line}")]
        self.check(len(wrong) == len(page["wrong"]) == bool(line), f"line {line} isn't marked: {page['wrong']}")
        self.check(page["outline"] == bool(line), f"{page['outline']} calls are outlined")
        window = [int(text.split(" ")[1]) for text in more if text.startswith("LINE ")]
        marked = [int(text.split(" ")[1].rstrip(",")) for text in page["window"] + page["wrong"] * bool(window)]
        self.check(sorted(marked) == sorted(window), f"the window is {marked}, not {window}")
        self.check(page["ground"] == bool(window), f"the window has {page['ground']} grounds")
        could = [text for text in more if text.startswith("COULD ")]
        self.check(len(page["told"]) == bool(line) + len(could), f"{page['told']} is told, not {could}")

    def history_html(self):
        """Comments with HTML in them are shown and never run."""
        self.name = "a history's comments with HTML in them"
        self.browser.open(self.make(["--history", "--gen", "1"], COMMENTS))
        captions = []
        for _ in range(4):
            captions.append(self.browser.value(SNAPSHOT)["caption"])
            self.browser.press("ArrowRight")
        wanted = [""] + [line[2:] for line in COMMENTS.decode().split("\n") if line.startswith("#")]
        self.check(captions == wanted, f"the captions are {captions}")
        self.browser.value("new Promise((done) => setTimeout(done, 300))")
        self.check(self.browser.value("window.ran === undefined"), "a script of the text ran")
        made = "document.querySelectorAll('img, iframe, [onload], [onerror], #now b, #events b').length"
        self.check(self.browser.value(made) == 0, "the text became HTML")
        self.check(self.browser.value("document.scripts.length") == 2, "there are other scripts")

    def history_looked_at(self, words, text):
        """In each size and colour nothing is wider than the window, and the ground is dark where it has to be."""
        file = self.make(["--history", *words], text)
        for width in (1280, 700):
            for dark in (False, True):
                self.name = f"a history, {width} pixels, {'dark' if dark else 'light'}"
                self.browser.look(width, 900, dark)
                self.browser.open(f"{file}#8")
                wide = self.browser.value("document.documentElement.scrollWidth")
                self.check(wide <= width, f"the page is {wide} wide")
                ground = self.browser.value("getComputedStyle(document.body).backgroundColor")
                self.check(ground == ("rgb(20, 24, 29)" if dark else "rgb(255, 255, 255)"), f"the ground is {ground}")

    def histories(self):
        """All histories of the examples, and of the lesson."""
        for file in sorted((ROOT / "examples/judge").glob("*.txt")):
            self.history(f"the history {file.name}", ["--gen", "1"], file.read_bytes())
        for file in sorted((ROOT / "examples/lesson").glob("*.history")):
            self.history(f"the lesson's {file.name}", [], file.read_bytes())
        self.history("no calls", ["--gen", "1"], b"")
        self.history_html()
        self.history_looked_at(["--gen", "1"], (ROOT / "examples/judge/never-together.txt").read_bytes())
