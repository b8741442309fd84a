"""The picture of bench/throughput: four fields, in each a line for each number of partitions over the numbers of
clients. At each median a bar leads from the slowest run to the fastest."""

STYLE = """\
    text { font-family: ui-sans-serif, system-ui, sans-serif; fill: #1c1c1c; }
    .title { font-size: 13px; font-weight: 600; } .scale, .note { font-size: 11px; fill: #5a5a5a; }
    .key { font-size: 12px; }
    .grid { stroke: #d5dae1; } .line { fill: none; stroke-width: 2; }
    .bar { fill: none; stroke-width: 3; opacity: 0.45; } .dot { stroke: none; }
    .p1 { stroke: #7a7a7a; } .p2 { stroke: #b4641e; } .p3 { stroke: #1f6f4a; } .p4 { stroke: #2f5fa8; }
    .dot.p1 { fill: #7a7a7a; } .dot.p2 { fill: #b4641e; } .dot.p3 { fill: #1f6f4a; } .dot.p4 { fill: #2f5fa8; }
    @media (prefers-color-scheme: dark) {
      text { fill: #ececec; } .scale, .note { fill: #b4b4b4; } .grid { stroke: #3a424d; }
      .p1 { stroke: #b0b0b0; } .p2 { stroke: #f0b078; } .p3 { stroke: #7fd0a4; } .p4 { stroke: #8fb6f0; }
      .dot.p1 { fill: #b0b0b0; } .dot.p2 { fill: #f0b078; } .dot.p3 { fill: #7fd0a4; } .dot.p4 { fill: #8fb6f0; }
    }
"""
LABEL = "Calls a second of the command bench, by clients and partitions."
WIDTH, HEIGHT = 250, 170
# Where the field of each kind of run stands, and its title.
FIELDS = [
    (50, 96, ("uniform", False), "uniform"),
    (390, 96, ("uniform", True), "uniform, with moves and stops"),
    (50, 360, ("skewed", False), "skewed"),
    (390, 360, ("skewed", True), "skewed, with moves and stops"),
]


def counted(number, name):
    return "%d %s%s" % (number, name, "" if number == 1 else "s")


def round_step(most):
    """A round step so that at most five lines lie below the most."""
    step = 1
    while step * 5 < most:
        step *= 10
    for part in (5, 2):
        if step / part * 5 >= most:
            return step / part
    return step


def millions(rate):
    return ("%.2f" % (rate / 1e6)).rstrip("0").rstrip(".")


def text(kind, x, y, anchor, said):
    return '  <text class="%s" x="%.1f" y="%.1f" text-anchor="%s">%s</text>' % (kind, x, y, anchor, said)


class Field:
    """One field of the picture. The rates of a run are its slowest, median and fastest, by partitions and clients."""

    def __init__(self, left, top, partitions, clients, most):
        self.left, self.top, self.partitions, self.clients, self.most = left, top, partitions, clients, most

    def x(self, column):
        share = 0.5 if len(self.clients) == 1 else column / (len(self.clients) - 1)
        return self.left + share * WIDTH

    def across(self, row, column):
        """The lines stand a little beside each other, so that their bars do."""
        return self.x(column) + (row - (len(self.partitions) - 1) / 2) * 5

    def y(self, rate):
        return self.top + HEIGHT - HEIGHT * rate / self.most

    def grid(self):
        step = round_step(self.most)
        for number in range(int(self.most / step + 0.01) + 1):
            y = self.y(number * step)
            yield '  <line class="grid" x1="%d" y1="%.1f" x2="%d" y2="%.1f"/>' % (self.left, y, self.left + WIDTH, y)
            yield text("scale", self.left - 8, y + 4, "end", millions(number * step) or "0")
        for column, count in enumerate(self.clients):
            yield text("scale", self.x(column), self.top + 188, "middle", count)

    def line(self, row, rates):
        """The line of a number of partitions, whose rates are given by column."""
        kind = row + 1
        points = ["%.1f,%.1f" % (self.across(row, column), self.y(rate[1])) for column, rate in enumerate(rates)]
        yield '  <polyline class="line p%d" points="%s"/>' % (kind, " ".join(points))
        for column, (least, median, greatest) in enumerate(rates):
            x = self.across(row, column)
            yield '  <path class="bar p%d" d="M%.1f %.1fV%.1f"/>' % (kind, x, self.y(least), self.y(greatest))
            yield '  <circle class="dot p%d" cx="%.1f" cy="%.1f" r="3"/>' % (kind, x, self.y(median))


def key(partitions):
    for row, count in enumerate(partitions):
        x = 20 + row * 130
        yield '  <line class="line p%d" x1="%d" y1="44" x2="%d" y2="44"/>' % (row + 1, x, x + 24)
        yield text("key", x + 30, 48, "start", counted(count, "partition"))


def picture(rates, partitions, clients, notes):
    """The picture of all rates, by kind of run, partitions and clients, with two notes below it."""
    most = max(rate[2] for rate in rates.values()) or 1
    lines = ['<svg xmlns="http://www.w3.org/2000/svg" viewBox="0 0 680 620" role="img" aria-label="%s">' % LABEL]
    lines += ["  <style>", STYLE.rstrip("\n"), "  </style>"]
    lines.append(text("title", 20, 24, "start", "Millions of calls a second, by clients"))
    lines += key(partitions)
    for left, top, kind, title in FIELDS:
        field = Field(left, top, partitions, clients, most)
        lines.append(text("title", left, top - 14, "start", title))
        lines += field.grid()
        for row, count in enumerate(partitions):
            lines += field.line(row, [rates[kind, count, c] for c in clients])
    for place, note in enumerate(notes):
        lines.append(text("note", 20, 584 + 18 * place, "start", note))
    return "\n".join(lines + ["</svg>"]) + "\n"
