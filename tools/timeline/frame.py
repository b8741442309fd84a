"""What stands around a picture: its size, title and style."""

from html import escape

from shapes import px
from style import style_sheet

HATCH = ('<defs><pattern id="stopped" width="6" height="6" patternUnits="userSpaceOnUse">'
         '<path class="hatch" d="M0 6L6 0M-1 1L1 -1M5 7L7 5"/></pattern></defs>')


def head(title, summary, width, height, strip, light=(), dark=()):
    """The first lines of a picture, with the rules of style that its kind adds. A strip, as a page has it, has no
    title, and a style for itself alone.
    """
    title = escape(title[:99])
    size = f'viewBox="0 0 {px(width)} {px(height)}" width="{px(width)}" height="{px(height)}"'
    yield f'<svg xmlns="http://www.w3.org/2000/svg" {size} role="img" aria-label="{title}, event by event.">'
    yield f"<title>{title}</title>"
    yield "<style>"
    yield from style_sheet(".picture" if strip else "", light, dark)
    yield "</style>"
    yield HATCH
    if not strip:
        yield f'<rect class="page" width="{px(width)}" height="{px(height)}"/>'
        yield f'<text class="title" x="12" y="22">{title}</text>'
        yield f'<text class="key" x="12" y="38">{escape(summary)}</text>'
