"""The colours and fonts of a picture, light and dark."""

MONO = 'ui-monospace, SFMono-Regular, Menlo, Consolas, "DejaVu Sans Mono", monospace'
SANS = "ui-sans-serif, system-ui, sans-serif"

# The colours of clients, of which the ninth has the first again: on light ground and on dark.
LIGHT = ["#0072b2", "#e69f00", "#009e73", "#cc79a7", "#56b4e9", "#a39a00", "#7a4fbf", "#8c5a2b"]
DARK = ["#3f9fdc", "#e69f00", "#1fbf93", "#dd94bb", "#9ad4f7", "#f0e442", "#b08cf0", "#c8925c"]
COLOURS = len(LIGHT)


def colour(client):
    """The number of a client's colour."""
    return client % COLOURS


def _clients(colours):
    """The rules for clients: shapes that are filled, and lines."""
    filled = [(f".c{n}", f"fill: {value};") for n, value in enumerate(colours)]
    lines = [(f".s{n}", f"stroke: {value};") for n, value in enumerate(colours)]
    return filled + lines


_ALL = [
    ("text", f"font-family: {MONO}; fill: #1c1c1c; stroke: #ffffff; stroke-width: 0;"),
    (".title, .label", f"font-family: {SANS}; font-weight: 600;"),
    (".title", "font-size: 15px;"),
    (".label", "font-size: 12px;"),
    (".name, .key", "font-size: 10px;"),
    (".small, .axis", "font-size: 9px;"),
    (".note", "font-size: 10px;"),
    (".note, .small, .axis", "fill: #4a4a4a;"),
    (".name, .small", "stroke: #f3f5f8; stroke-width: 3px; stroke-linejoin: round; paint-order: stroke;"),
    (".page", "fill: #ffffff;"),
    (".lane", "fill: #f3f5f8; stroke: #d5dae1;"),
    (".grid", "stroke: #dfe3e9; fill: none;"),
    (".hit", "fill: transparent;"),
    (", ".join(f".s{n}" for n in range(COLOURS)) + ", .line", "fill: none; stroke-width: 1.8;"),
    (".thin", "stroke-width: 1; stroke-dasharray: 2 2; opacity: 0.8;"),
    *_clients(LIGHT),
    (".plain", "fill: #8796ab;"),
    (".line", "stroke: #8796ab;"),
    (".tick", "stroke: #ffffff; stroke-width: 1.2; fill: none;"),
    (".back", "fill: #f3f5f8;"),
    (".ink", "fill: #1c1c1c;"),
    (".move", "stroke: #1c1c1c; stroke-width: 1.3; fill: none;"),
    (".parcel", "fill: #ffffff; stroke: #1c1c1c; stroke-dasharray: 4 2;"),
    (".eye", "fill: #ffffff; stroke: #1c1c1c; stroke-width: 1.2;"),
    (".check", "fill: none; stroke: #1c1c1c; stroke-width: 2;"),
    (".no", "fill: none; stroke: #d55e00; stroke-width: 2;"),
    (".stopper", "fill: #d55e00;"),
    (".cap", "fill: #ffffff; stroke: #1c1c1c; stroke-width: 1.4;"),
    (".trap", "fill: #ffffff; stroke: #d55e00; stroke-width: 2;"),
    (".stop", "fill: url(#stopped);"),
    (".hatch", "stroke: #c2cbd7; stroke-width: 1.6; fill: none;"),
]

_NIGHT = [
    ("text", "fill: #ececec;"),
    (".note, .small, .axis", "fill: #c4c4c4;"),
    (".name, .small", "stroke: #20262e;"),
    (".page", "fill: #14181d;"),
    (".lane", "fill: #20262e; stroke: #3a424d;"),
    (".grid", "stroke: #343c47;"),
    *_clients(DARK),
    (".tick", "stroke: #14181d;"),
    (".back", "fill: #20262e;"),
    (".ink", "fill: #ececec;"),
    (".move, .check", "stroke: #ececec;"),
    (".parcel, .eye, .cap", "fill: #14181d; stroke: #ececec;"),
    (".no", "stroke: #ff8a3d;"),
    (".stopper", "fill: #ff8a3d;"),
    (".trap", "fill: #14181d; stroke: #ff8a3d;"),
    (".hatch", "stroke: #404c5b;"),
]


# What only the picture of a history has, on light ground and on dark.
HISTORY = [
    (".verdict", f"font-family: {SANS}; font-weight: 600; font-size: 13px;"),
    (".reads", "fill: #9cc9e8;"),
    (".writes", "fill: #0072b2;"),
    (".aborted", "fill: url(#stopped); stroke: #8796ab;"),
    (".unanswered", "fill: #ffffff; stroke: #0072b2; stroke-dasharray: 4 2;"),
    (".window", "fill: #fff3cd; fill-opacity: 0.75; stroke: #c79a00; stroke-dasharray: 5 3;"),
    (".outline", "fill: none; stroke: #d55e00; stroke-width: 2.5;"),
    (".wrong", "fill: #a33b00; font-weight: 700;"),
    (".dim", "opacity: 0.35;"),
]
HISTORY_NIGHT = [
    (".reads", "fill: #6fa8cf;"),
    (".writes", "fill: #2b7fc0;"),
    (".aborted", "stroke: #8796ab;"),
    (".unanswered", "fill: #14181d; stroke: #3f9fdc;"),
    (".window", "fill: #4a3d12; stroke: #d8b13a;"),
    (".outline", "stroke: #ff8a3d;"),
    (".wrong", "fill: #ff9b66;"),
]


def _rules(rules, inside):
    """Rules as lines; inside of an element where it is named, so that they change nothing around the picture."""
    for selector, what in rules:
        names = ", ".join((inside + " " + name).strip() for name in selector.split(", "))
        yield f"{names} {{ {what} }}"


def style_sheet(inside="", light=(), dark=()):
    """The lines of the style sheet, with rules that a kind of picture adds."""
    night = _rules([*_NIGHT, *dark], inside)
    return [*_rules([*_ALL, *light], inside), "@media (prefers-color-scheme: dark) {", *night, "}"]
