"""The legend of a history's picture: what occurs in it."""

from legend import Legend
from shapes import Layers, point


class HistoryLegend(Legend):
    """Writes an entry for each kind of bar and mark that is drawn."""

    def write(self, calls, judgement):
        """All entries of these calls."""
        kinds = {"reads" if call.is_read() else "writes" for call in calls if call.outcome == "answered"}
        kinds |= {call.outcome for call in calls} - {"answered"}
        for kind, text in (("reads", "call that reads"), ("writes", "call that may write"), ("aborted", "aborted call"),
                           ("unanswered", "no answer: it takes effect at some time from its asking on, or never")):
            if kind in kinds:
                self._entry(text, lambda x, y, kind=kind: self.layers.rect("legend", kind, x - 8, y - 6, 16, 12, 2))
        replies = {call.reply.split(" ")[0] for call in calls}
        for reply, kind in (("OK", "ok"), ("FAILED", "failed")):
            if reply in replies:
                self._entry("answered " + reply, lambda x, y, kind=kind: self.layers.mark("legend", kind, x, y))
        if judgement.verdict == "ILLEGAL":
            self._entry("no order explains the answers up to this line",
                        lambda x, y: self.layers.path("legend", "no", f"M{point(x, y - 6)}v12"))
        if judgement.window:
            self._entry("since a moment when no call of the subscriber was open",
                        lambda x, y: self.layers.rect("legend", "window", x - 8, y - 6, 16, 12, 2))


def legend_alone(calls, judgement, width):
    """The lines of a picture that is the legend."""
    layers = Layers("legend")
    legend = HistoryLegend(layers, width, 16)
    legend.write(calls, judgement)
    size = f'viewBox="0 0 {width} {legend.bottom + 10}" width="{width}" height="{legend.bottom + 10}"'
    return [f'<svg xmlns="http://www.w3.org/2000/svg" {size} role="img" aria-label="What the marks are.">',
            *layers.lines(), "</svg>"]
