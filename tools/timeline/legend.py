"""The legend of a picture: what occurs in it, and a colour for each client."""

from shapes import Layers, point, text_width
from style import COLOURS, colour

ENTRIES = [
    ("submit", "call asked for"),
    ("wait", "waits"),
    ("run", "runs"),
    ("step", "step"),
    ("ok", "ends: OK"),
    ("failed", "ends: FAILED"),
    ("trapped", "ends: TRAPPED"),
    ("again", "AWAY to the same queue"),
    ("away", "AWAY to another queue"),
    ("denied", "DENIED"),
    ("take", "extent leaves"),
    ("parcel", "under way"),
    ("give", "extent lands"),
    ("set", "route SET"),
    ("superseded", "route SUPERSEDED"),
    ("stop", "machine stopped"),
    ("break", "breakpoint set (procedure:instruction)"),
    ("clear", "breakpoint cleared"),
    ("met", "breakpoint met (32 AtBreak)"),
    ("chapter", "CHAPTER of an extent"),
    ("look", "look, home"),
    ("clean", "audit: CLEAN"),
    ("unclean", "audit: not clean"),
]


class Legend:
    """Writes the entries one after another, in lines of a width; `bottom` is the height of the last line."""

    def __init__(self, layers, width, top):
        self.layers = layers
        self.width = width
        self.left = 12
        self.bottom = top

    def write(self, story):
        """All entries of what is seen in the story."""
        for number in range(COLOURS):
            self._clients(number, sorted(client for client in story.clients if colour(client) == number))
        for kind, text in ENTRIES:
            if kind in story.seen:
                self._entry(text, lambda x, y, kind=kind: _key(self.layers, kind, x, y))
        names = [f"{number} {name}" for number, name in sorted(story.refusals.items())]
        for first in range(0, len(names), 6):
            text = ", ".join(names[first:first + 6])
            text = "REFUSED, and its number: " + text if first == 0 else text
            self._entry(text, lambda x, y: self.layers.mark("legend", "refused", x, y))

    def _clients(self, number, clients):
        """The clients that have one colour."""
        if clients:
            text = "clients " if len(clients) > 1 else "client "
            text += ", ".join(str(client) for client in clients[:4]) + (", .." if len(clients) > 4 else "")
            self._entry(text, lambda x, y: self.layers.rect("legend", f"c{number}", x - 8, y - 5, 16, 11, 2))

    def _entry(self, text, draw):
        """An entry, with what draws its mark around a place."""
        wide = 30 + text_width(text, 10)
        if self.left + wide > self.width - 8:
            self.left = 12
            self.bottom += 20
        draw(self.left + 8, self.bottom - 4)
        self.layers.text("legend", "key", self.left + 22, self.bottom, text)
        self.left += wide + 12


def legend_alone(story, width):
    """The lines of a picture that is the legend."""
    layers = Layers("legend")
    legend = Legend(layers, width, 16)
    legend.write(story)
    size = f'viewBox="0 0 {width} {legend.bottom + 10}" width="{width}" height="{legend.bottom + 10}"'
    return [f'<svg xmlns="http://www.w3.org/2000/svg" {size} role="img" aria-label="What the marks are.">',
            *layers.lines(), "</svg>"]


def _key(layers, kind, x, y):
    """What stands in the legend for a kind."""
    if kind == "wait":
        layers.rect("legend", "plain", x - 8, y - 2, 16, 4)
    elif kind in ("run", "step"):
        layers.rect("legend", "plain", x - 8, y - 6, 16, 12, 2)
        if kind == "step":
            layers.path("legend", "tick", f"M{point(x - 3, y - 6)}v12m6 -12v12")
    elif kind == "submit":
        layers.circle("legend", "plain", x, y, 4)
    elif kind == "parcel":
        layers.rect("legend", "parcel", x - 8, y - 6, 16, 12, 2)
    elif kind == "stop":
        layers.rect("legend", "stop", x - 8, y - 6, 16, 12)
    elif kind in ("take", "give", "away"):
        _arrow_key(layers, kind, x, y)
    elif kind == "again":
        layers.turned_back("legend", "line", "plain", x, y)
    elif kind == "denied":
        layers.circle("legend", "line", x, y, 5)
        layers.path("legend", "line", f"M{point(x - 3.4, y + 3.4)}l6.8 -6.8")
    else:
        layers.mark("legend", kind, x, y)


def _arrow_key(layers, kind, x, y):
    """An arrow of the legend."""
    layers.path("legend", "line" if kind == "away" else "move", f"M{point(x, y - 6)}v12")
    if kind != "away":
        layers.circle("legend", "ink", x, y - 6 if kind == "take" else y + 6, 2.5)
    up = kind == "give"
    layers.head("legend", "plain" if kind == "away" else "ink", x, y - 6 if up else y + 7, up)
