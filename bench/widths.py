"""The picture of bench/search: what judge takes for a call, by how many clients never pause on one subscriber. The
scale has a line for each power of ten."""
import math

from picture import STYLE, text

LABEL = "Microseconds that the command judge takes for a call, by the clients that never pause on one subscriber."
TITLE = "Microseconds for a call, by clients on one subscriber"
LEFT, TOP, WIDTH, HEIGHT = 70, 50, 420, 200
# What is drawn where less was measured.
LEAST = 0.01


class Scale:
    """From a power of ten below all numbers to one above them."""

    def __init__(self, numbers):
        self.low = math.floor(math.log10(min(numbers)))
        self.high = max(math.ceil(math.log10(max(numbers))), self.low + 1)

    def y(self, number):
        return TOP + HEIGHT - HEIGHT * (math.log10(number) - self.low) / (self.high - self.low)

    def grid(self):
        for power in range(self.low, self.high + 1):
            y = self.y(10.0 ** power)
            yield '  <line class="grid" x1="%d" y1="%.1f" x2="%d" y2="%.1f"/>' % (LEFT, y, LEFT + WIDTH, y)
            yield text("scale", LEFT - 8, y + 4, "end", "{:,g}".format(10.0 ** power))


def x(place, count):
    return LEFT + WIDTH * (0.5 if count == 1 else place / (count - 1))


def points(costs, scale):
    """Where each number of clients with a cost has its point."""
    return [(x(place, len(costs)), scale.y(each)) for place, (_, each) in enumerate(costs) if each is not None]


def picture(costs, calls, note):
    """The picture of the costs of a call, by numbers of clients, in runs of so many calls. Where there was no answer
    the cost is None."""
    costs = [(clients, each if each is None else max(each, LEAST)) for clients, each in costs]
    scale = Scale([each for _, each in costs if each is not None] or [1.0])
    lines = ['<svg xmlns="http://www.w3.org/2000/svg" viewBox="0 0 540 330" role="img" aria-label="%s">' % LABEL]
    lines += ["  <style>", STYLE.rstrip("\n"), "  </style>"]
    lines.append(text("title", 20, 24, "start", TITLE))
    lines += scale.grid()
    for place, (clients, each) in enumerate(costs):
        lines.append(text("scale", x(place, len(costs)), TOP + HEIGHT + 18, "middle", clients))
        if each is None:
            lines.append(text("note", x(place, len(costs)), TOP + 12, "middle", "no answer"))
    found = points(costs, scale)
    lines.append('  <polyline class="line p4" points="%s"/>' % " ".join("%.1f,%.1f" % point for point in found))
    lines += ['  <circle class="dot p4" cx="%.1f" cy="%.1f" r="3"/>' % point for point in found]
    of_all = "{:,} calls each; processor time, less that of the rows alone.".format(calls)
    lines += [text("note", 20, 296, "start", of_all), text("note", 20, 314, "start", note)]
    return "\n".join(lines + ["</svg>"]) + "\n"
