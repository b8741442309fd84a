"""The picture of a history, in SVG: clients as lanes, calls as bars, and the window that no order explains."""

from bisect import bisect_left
from html import escape

import frame
from history_legend import HistoryLegend
from replies import call_text, places_told, reply_text
from shapes import Layers, fitted, point, px, text_width
from style import HISTORY, HISTORY_NIGHT

GUTTER = 96
TAIL = 64
LANE = 48
ORDER = ("ground", "window", "grid", "bars", "marks", "texts", "legend", "hits")


class HistoryPicture:
    """Draws the chosen calls of a history in columns. A strip, as a page has it, is one band with no words.
    """

    def __init__(self, title, choice, judgement, columns, strip=False):
        self.title = title
        self.choice = choice
        self.judgement = judgement
        self.columns = columns
        self.strip = strip
        self.layers = Layers(*ORDER)
        self.numbers = [line.number for line in choice.lines]
        self.width = GUTTER + columns.band_width + TAIL + 12
        self.places_told = _places_by_subscriber(choice.calls, judgement)
        self.names = {}

    def lines(self):
        """The lines of the picture."""
        bottom = 6 if self.strip else self._tell_verdict(60)
        self.tops = [bottom + 20 + band * self.band_height() for band in range(self.columns.bands)]
        height = self.tops[-1] + self.band_height() - 14
        self._draw()
        if not self.strip:
            height = self._legend(height + 22) + 14
        told = self.choice.summary()
        head = frame.head(self.title, told, self.width, height, self.strip, HISTORY, HISTORY_NIGHT)
        return [*head, *self.layers.lines(), "</svg>"]

    def band_height(self):
        """How high a band is: its lanes, and the numbers of lines above them."""
        return (LANE + 6) * max(len(self.choice.clients), 1) + 24

    def lane_top(self, band, client):
        """The height of a client's lane."""
        return self.tops[band] + (LANE + 6) * self.choice.clients.index(client)

    def place_of(self, number):
        """The place of a line of the input, or where the picture ends, if it is behind all that are drawn."""
        i = bisect_left(self.numbers, number)
        return self.columns.place(i, 0) if i < len(self.numbers) else self.columns.finish

    # ---- words around the lanes

    def _tell_verdict(self, y):
        """The verdict, the reply that no order explains and those that some would; gives the height below."""
        self.layers.text("texts", "verdict", 12, y, fitted(verdict_words(self.judgement), 13, self.width - 24))
        for name, text in replies_told(self.choice, self.judgement, self.places_told):
            y += 16
            self.layers.text("texts", "key", 12, y, name)
            self.layers.text("texts", "key", 132, y, fitted(text, 10, self.width - 150))
        return y

    def _legend(self, top):
        legend = HistoryLegend(self.layers, self.width, top)
        legend.write(self.choice.calls, self.judgement)
        return legend.bottom

    # ---- lanes

    def _draw(self):
        for band in range(self.columns.bands):
            for client in self.choice.clients:
                y = self.lane_top(band, client)
                wide = self.columns.band_width + TAIL + 2
                self.layers.rect("ground", "lane", GUTTER - 2, y, wide, LANE, 4)
                self.layers.text("texts", "label", 12, y + 28, f"client {client}" if client < 10000 else str(client))
        every = next((n for n in (1, 2, 5, 10, 20, 50) if n * self.columns.line_width >= 26), 100)
        for i, line in enumerate(self.choice.lines):
            self._draw_column(i, line, i % every == 0 or line.number == self.judgement.wrong)
        self._draw_window()
        for call in self.choice.calls:
            self._draw_call(call)
        self._draw_names()

    def _draw_column(self, i, line, numbered):
        wide, left = self.columns.width[i], self.columns.left[i]
        band = self.columns.band(left + wide / 2)
        x, y = GUTTER + left - band * self.columns.band_width, self.tops[band]
        bottom = y + self.band_height() - 24
        told = f"line {line.number}: {escape(line.text[:300])}&#10;{escape(line.call.text)}"
        place = f'x="{px(x)}" y="{px(y - 14)}" width="{px(wide)}" height="{px(bottom - y + 14)}"'
        self.layers.put("hits", f'<rect class="hit" {place}><title>{told}</title></rect>')
        wrong = line.number == self.judgement.wrong
        if numbered:
            self.layers.path("grid", "no" if wrong else "grid", f"M{point(x + wide / 2, y)}V{px(bottom)}")
            kind = "axis wrong" if wrong else "axis"
            self.layers.text("texts", kind, x + wide / 2, y - 5, str(line.number), "middle")

    def _draw_window(self):
        """The ground of the lines that have to do with the answer that no order explains."""
        if not self.judgement.window or not self.numbers:
            return
        half = self.columns.line_width / 2
        start = max(self.place_of(self.judgement.window[0]) - half, 0)
        stop = min(self.place_of(self.judgement.window[-1]) + half, self.columns.finish)
        for band, x, wide in self._pieces(start, stop):
            self.layers.rect("window", "window", x, self.tops[band] - 3, wide, self.band_height() - 22, 4)

    def _pieces(self, start, stop):
        """Each band that a span goes through, with where it begins there and how wide it is."""
        last = self.columns.band(stop)
        for band in range(self.columns.band(start), last + 1):
            left = max(start, band * self.columns.band_width)
            right = stop if band == last else (band + 1) * self.columns.band_width + TAIL - 3
            yield band, GUTTER + left - band * self.columns.band_width, right - left

    # ---- calls

    def _draw_call(self, call):
        stop = self.place_of(call.ended.number) if call.ended else self.columns.finish
        dim = " dim" if self._is_beside(call) else ""
        told = reply_text(call.reply, self.places_told.get(call.subscriber, ()))
        is_wrong = call.ended is not None and call.ended.number == self.judgement.wrong and call.outcome != "unanswered"
        pieces = list(self._pieces(self.place_of(call.asked.number), stop))
        for band, x, wide in pieces:
            y = self.lane_top(band, call.client)
            self.layers.rect("bars", kind_of(call) + dim, x, y + 17, max(wide, 4), 14, 2)
            if is_wrong:
                self.layers.rect("marks", "outline", x - 1.5, y + 15.5, max(wide, 4) + 3, 17, 3)
            self._name((call.client, "name", band), x, y + 12, call_text(call.text), dim)
            self._name((call.client, "reply", band), x, y + 43, told, " wrong" if is_wrong else dim)
        band, x, wide = pieces[-1]
        self._draw_end(call, x + wide, self.lane_top(band, call.client) + 24, dim)

    def _draw_end(self, call, x, y, dim):
        """The mark of how a call ended."""
        if call.outcome == "answered":
            self.layers.mark("marks", "ok" if call.reply.startswith("OK") else "failed", x, y)
        elif call.outcome == "aborted":
            self.layers.path("marks", "no" + dim, f"M{point(x, y - 8)}v16")
        elif call.ended is None or call.ended.word == "lost":
            self.layers.text("marks", "name" + dim, x + 4, y + 4, "?")

    def _is_beside(self, call):
        """Whether a call is of another subscriber than the one that the verdict is about."""
        return self.judgement.subscriber is not None and call.subscriber != self.judgement.subscriber

    # ---- names stand in a row, each as far as the next one there

    def _name(self, row, x, y, text, more):
        self.names.setdefault(row, []).append((x, y, text, more))

    def _draw_names(self):
        right = GUTTER + self.columns.band_width + TAIL
        for row in self.names.values():
            ends = [name[0] - 8 for name in row[1:]] + [right]
            for (x, y, text, more), end in zip(row, ends):
                self.layers.text("texts", "name" + more, x, y, _shortened(text, end - x))


def _shortened(text, room):
    """A call or a reply as it fits: whole, cut, or its first word."""
    first = text.split(" ")[0]
    return fitted(text, 10, room) or (escape(first) if text_width(first, 10) <= room else "")


def _places_by_subscriber(calls, judgement):
    """Of each subscriber which columns of its rows are told."""
    replies = {}
    for call in calls:
        replies.setdefault(call.subscriber, []).append(call.reply)
    replies.setdefault(judgement.subscriber, []).extend(judgement.could)
    return {subscriber: places_told(texts) for subscriber, texts in replies.items()}


def kind_of(call):
    """How the bar of a call is drawn."""
    if call.outcome != "answered":
        return call.outcome
    return "reads" if call.is_read() else "writes"


def verdict_words(judgement):
    """The verdict in words."""
    about = f" Subscriber {judgement.subscriber}." if judgement.subscriber is not None else ""
    if judgement.verdict == "LEGAL":
        return f"{judgement.said}: one order of all calls explains every answer."
    if judgement.verdict == "ILLEGAL":
        return f"{judgement.said}: no order of the calls explains the answers up to this line.{about}"
    return f"{judgement.said}: too many orders are possible.{about} {judgement.others}."


def replies_told(choice, judgement, places):
    """What was answered in the first illegal line, and what could have been; each with its name."""
    line = next((line for line in choice.lines if line.number == judgement.wrong), None)
    if line is None:
        return
    told = places.get(line.call.subscriber, ())
    said = "it was aborted" if line.word == "abort" else reply_text(line.call.reply, told)
    yield f"client {line.client}", f"{call_text(line.call.text)}: {said}"
    for number, reply in enumerate(judgement.could):
        yield "" if number else "could have been", reply_text(reply, told)
    if judgement.more:
        yield "", f"or one of {judgement.more:,} more"
