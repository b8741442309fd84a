"""The picture of bench/schedule: of each run a lane a processor, with what it did from left to right, and below it
which executors were there."""
import collections
import itertools

STYLE = """\
    text { font-family: ui-sans-serif, system-ui, sans-serif; font-size: 12px; fill: #1c1c1c; }
    .title { font-weight: 600; font-size: 13px; } .note { font-size: 11px; fill: #5a5a5a; }
    .ground { fill: #f2f3f5; } .executor { fill: #1f6f4a; } .client { fill: #7fbf9d; } .page { fill: #b4641e; }
    .yield { fill: #c9cdd3; } .other { fill: #5b3f8f; } .idle { fill: #ffffff; stroke: #d5dae1; }
    .seen { fill: none; stroke-width: 2.4; }
    .e0 { stroke: #2f5fa8; } .e1 { stroke: #b4641e; } .e2 { stroke: #1f6f4a; } .e3 { stroke: #a02f5f; }
    @media (prefers-color-scheme: dark) {
      text { fill: #ececec; } .note { fill: #b4b4b4; } .ground { fill: #23282f; } .executor { fill: #4fb484; }
      .client { fill: #2c6a4c; } .page { fill: #f0b078; } .yield { fill: #4a525d; } .other { fill: #a98fe0; }
      .idle { fill: #14181d; stroke: #3a424d; }
      .e0 { stroke: #8fb6f0; } .e1 { stroke: #f0b078; } .e2 { stroke: #7fd0a4; } .e3 { stroke: #f08fb6; }
    }
"""
LABEL = "What each processor did in a slow and in a fast run of the command bench, and in one of bench/bounds."
# What a processor does, from below; the rest of a lane is idle.
KINDS = ("executor", "client", "page", "yield", "other", "idle")
NAMES = ("executors' work", "clients' work", "waiting for a page", "yields", "other threads", "nothing")
LEFT, WIDTH, LANE, STRIP = 90, 860, 36, 4


def shares_by_column(span, processor, width):
    """What a processor did in each column: the shares of what it did, and the executors that were there."""
    counts, seen = collections.defaultdict(collections.Counter), collections.defaultdict(set)
    for sample in span.samples:
        if sample.processor == processor:
            column = int((sample.time - span.began) / width)
            counts[column][span.doing(sample)] += 1
            if sample.thread in span.executors:
                seen[column].add(span.executors.index(sample.thread))
    return counts, seen


class Lane:
    """A processor in a run, by columns of so many points each."""

    def __init__(self, top, step, columns):
        self.top, self.step, self.columns = top, step, columns

    def areas(self, counts):
        """An area for each kind, each upon those before it."""
        floors = [0] * self.columns
        for kind in KINDS[:-1]:
            tops = [floor + LANE * counts[column][kind] / max(sum(counts[column].values()), 1)
                    for column, floor in enumerate(floors)]
            yield kind, self.outline(tops, floors)
            floors = tops

    def outline(self, tops, floors):
        """The path to the right along the first heights, and back along the others."""
        heights = [round(height, 1) for height in [*tops, *reversed(floors)]]
        path, before = "M%.1f %.1f" % (LEFT, self.top + LANE), 0
        for place, height in enumerate(heights):
            ahead = self.step if place < self.columns else -self.step
            path += ("v%.1f" % (before - height) if height != before else "") + "h%.2f" % ahead
            before = height
        return path + "z"

    def strips(self, seen, executors):
        """Below the lane a line for each executor, where it was there."""
        for executor in range(executors):
            y = self.top + LANE + 3 + executor * STRIP
            spans = itertools.groupby(range(self.columns), lambda column: executor in seen[column])
            dashes = ["M%.1f %.1fh%.1f" % (LEFT + columns[0] * self.step, y, len(columns) * self.step)
                      for is_seen, columns in ((is_seen, list(columns)) for is_seen, columns in spans) if is_seen]
            if dashes:
                yield '  <path class="seen e%d" d="%s"/>' % (executor % 4, "".join(dashes))


def lanes(span, top, width, longest):
    """The lanes of a run, and where they end."""
    columns = int(span.seconds() / width) + 1
    step = WIDTH / (longest / width)
    height = LANE + 6 + STRIP * len(span.executors) + 6
    lines = []
    for place, processor in enumerate(sorted({sample.processor for sample in span.samples})):
        lane = Lane(top + place * height, step, columns)
        counts, seen = shares_by_column(span, processor, width)
        lines.append('  <text x="%d" y="%.0f" text-anchor="end">processor %d</text>'
                     % (LEFT - 8, lane.top + LANE / 2 + 4, processor))
        lines.append('  <rect class="ground" x="%d" y="%.0f" width="%.1f" height="%d"/>'
                     % (LEFT, lane.top, columns * step, LANE))
        lines += ['  <path class="%s" d="%s"/>' % area for area in lane.areas(counts)]
        lines += lane.strips(seen, len(span.executors))
    return lines, top + (place + 1) * height


def key(top):
    """What the colours stand for."""
    x = LEFT
    for kind, name in zip(KINDS, NAMES):
        yield '  <rect class="%s" x="%d" y="%d" width="12" height="12"/>' % (kind, x, top)
        yield '  <text x="%d" y="%d">%s</text>' % (x + 18, top + 10, name)
        x += 30 + 7 * len(name)


def picture(runs, width, machine):
    """The picture of runs, each with its title, by columns of so many seconds."""
    longest = max(span.seconds() for _, span in runs)
    lines, top = list(key(20)), 60
    for title, span in runs:
        lines.append('  <text class="title" x="%d" y="%d">%s, %.2f s</text>' % (LEFT, top, title, span.seconds()))
        drawn, top = lanes(span, top + 10, width, longest)
        lines += drawn
        top += 24
    notes = ("A column is %d ms. Lines below a processor: the executors that were there." % (width * 1000), machine)
    for place, note in enumerate(notes):
        lines.append('  <text class="note" x="%d" y="%d">%s</text>' % (LEFT, top + 16 * place, note))
    head = '<svg xmlns="http://www.w3.org/2000/svg" viewBox="0 0 %d %d" role="img" aria-label="%s">' % (
        LEFT + WIDTH + 20, top + 30, LABEL)
    return "\n".join([head, "  <style>", STYLE.rstrip("\n"), "  </style>", *lines, "</svg>"]) + "\n"
