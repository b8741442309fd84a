"""Pieces of SVG: text and its width, simple shapes, and the marks that stand for what happened."""

from html import escape


def px(number):
    """A length, with one digit behind the point where it isn't whole."""
    text = f"{number:.1f}"
    return text[:-2] if text.endswith(".0") else text


def point(x, y):
    """A place, as paths write it."""
    return f"{px(x)} {px(y)}"


def text_width(text, size):
    """How wide a text is: all letters of the font are 0.61 of its size."""
    return 0.61 * size * len(text)


def fitted(text, size, room):
    """A text as it fits into a width, shortened where it has to be; empty where too little of it would be left."""
    if text_width(text, size) <= room:
        return escape(text)
    letters = int(room / (0.61 * size)) - 1
    if letters < 8:
        return ""
    return escape(text[:letters].rstrip(" ")) + "&#8230;"


class Layers:
    """The pieces of a picture in layers, of which the first lies lowest."""

    def __init__(self, *names):
        self.pieces = {name: [] for name in names}

    def put(self, layer, piece):
        """Adds a piece of SVG."""
        self.pieces[layer].append(piece)

    def lines(self):
        """All pieces, in the order of their layers."""
        return [piece for pieces in self.pieces.values() for piece in pieces]

    def text(self, layer, kind, x, y, text, anchor=""):
        """A text, which is escaped already."""
        if text:
            anchored = f' text-anchor="{anchor}"' if anchor else ""
            self.put(layer, f'<text class="{kind}" x="{px(x)}" y="{px(y)}"{anchored}>{text}</text>')

    def rect(self, layer, kind, x, y, width, height, round_by=None):
        """A rectangle."""
        more = "" if round_by is None else f' rx="{round_by}"'
        size = f'width="{px(width)}" height="{px(height)}"'
        self.put(layer, f'<rect class="{kind}" x="{px(x)}" y="{px(y)}" {size}{more}/>')

    def path(self, layer, kind, way):
        """A path."""
        self.put(layer, f'<path class="{kind}" d="{way}"/>')

    def circle(self, layer, kind, x, y, radius):
        """A circle around a place."""
        self.put(layer, f'<circle class="{kind}" cx="{px(x)}" cy="{px(y)}" r="{radius}"/>')

    def head(self, layer, kind, x, y, up):
        """The head of an arrow."""
        self.path(layer, kind, "M" + point(x, y) + ("l-3.5 7h7z" if up else "l-3.5 -7h7z"))

    def mark(self, layer, kind, x, y):
        """The mark of a kind, around a place."""
        if kind in _CIRCLES:
            self.circle(layer, _CIRCLES[kind][0], x, y, _CIRCLES[kind][1])
        for style, left, up, way in _PATHS.get(kind, []):
            self.path(layer, style, "M" + point(x - left, y - up) + way)
        if kind == "look":
            self.circle(layer, "ink", x, y, 1.8)

    def turned_back(self, layer, line, fill, x, y):
        """The mark of a call that goes to the end of the same queue."""
        self.path(layer, line, "M" + point(x + 4.2, y - 1.5) + "a4.5 4.5 0 1 0 -1.2 4.8")
        self.path(layer, fill, "M" + point(x + 6.6, y - 3.4) + "l-0.6 5.4l-4.4 -3.4z")


# The circles of marks, with their radius; and their paths: how far left and up they begin, and how they go on.
_CIRCLES = {"break": ("stopper", 4.5), "clear": ("no", 4), "ok": ("cap", 4.5), "failed": ("cap", 5.5)}
_PATHS = {
    "refused": [("no", 3.5, 3.5, "l7 7m0 -7l-7 7")],
    "met": [("stopper", 4, 5, "h2.8v10h-2.8zm5.2 0h2.8v10h-2.8z")],
    "look": [("eye", 6, 0, "q6 -8 12 0q-6 8 -12 0z")],
    "set": [("ink", 0, 5.5, "l5.5 5.5l-5.5 5.5l-5.5 -5.5z")],
    "superseded": [("eye", 0, 5, "l5 5l-5 5l-5 -5z")],
    "chapter": [("eye", 4, 5, "h8v10h-8zm2.5 3h3m-3 4h3")],
    "clean": [("check", 4.5, 0, "l3.5 4l6 -8")],
    "unclean": [("no", 0, 5.5, "v6.5m0 2.5v2.5")],
    "failed": [("no", 2.8, 2.8, "l5.6 5.6m0 -5.6l-5.6 5.6")],
    "trapped": [("trap", 0, 6, "l6 10.5h-12z")],
}
