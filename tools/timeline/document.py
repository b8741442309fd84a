"""A page as one file: a header, the picture as a slider, the list of steps, and the scripts with their data."""

import base64
import hashlib
import json
from dataclasses import dataclass
from html import escape
from pathlib import Path

BROWSER = Path(__file__).resolve().parent / "browser"


@dataclass
class Parts:
    """What the page of a run and that of a history have each of their own."""

    title: str
    heading: str
    summary: str
    strip: list
    legend: list
    list_name: str
    entries: list
    more: list
    data: dict
    scripts: tuple


def document(parts):
    """The lines of a page. Without a script it is the header, the picture and the list."""
    script = "\n".join((BROWSER / f"{name}.js").read_text() for name in parts.scripts)
    yield from _head(parts, script)
    yield f"<p>{escape(parts.summary)}</p></header>"
    yield '<section id="now" aria-live="polite" hidden></section>'
    yield '<div id="strip" class="picture">'
    yield from parts.strip
    yield "</div>"
    yield '<details id="marks" class="picture"><summary>What the marks are</summary>'
    yield from parts.legend
    yield "</details>"
    yield '<main id="board" hidden></main>'
    yield f'<section id="list"><h2>{parts.list_name}</h2>'
    yield '<ol id="events">'
    yield from parts.entries
    yield "</ol></section>"
    yield from parts.more
    yield f'<script type="application/json" id="run">{_json(parts.data)}</script>'
    yield f"<script>{script}</script>"
    yield "</body>"
    yield "</html>"


def _head(parts, script):
    """What stands before the panels; no other script than this one is run, and nothing is loaded."""
    policy = "default-src 'none'; style-src 'unsafe-inline'; script-src " + _hash(script)
    yield "<!DOCTYPE html>"
    yield '<html lang="en">'
    yield "<head>"
    yield '<meta charset="utf-8">'
    yield '<meta name="viewport" content="width=device-width, initial-scale=1">'
    yield f'<meta http-equiv="Content-Security-Policy" content="{policy}">'
    yield f"<title>{escape(parts.title)}</title>"
    yield "<style>"
    yield (BROWSER / "page.css").read_text().rstrip("\n")
    yield "</style>"
    yield "</head>"
    yield "<body>"
    yield f"<header><h1>{parts.heading}</h1>"


def _hash(script):
    """The script by its hash: a browser runs no other."""
    return f"'sha256-{base64.b64encode(hashlib.sha256(script.encode()).digest()).decode()}'"


def _json(data):
    """The data of the script, in which no text can end the element that it stands in."""
    text = json.dumps(data, separators=(",", ":"), ensure_ascii=True)
    return text.replace("<", "\\u003c").replace(">", "\\u003e").replace("&", "\\u0026")


def caption(text):
    """A comment as it may stand in a page."""
    shown = "".join(letter if letter.isprintable() else "?" for letter in text)
    return f'<p class="caption">{escape(shown)}</p>'


def numbered(number):
    """The number of a step, as a link to it."""
    return f'<a href="#{number}">{number}</a>'


def the_end(number, words):
    """The entry of a comment behind the last step."""
    return f'<li id="{number}">{numbered(number)}<div>{caption(words)}<code>the end</code></div></li>'
