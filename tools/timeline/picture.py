"""The picture of a run, in SVG: lanes, bars, arrows, marks and names."""

from html import escape
from itertools import groupby

import frame
from lanes import Lanes
from legend import Legend
from shapes import Layers, fitted, point, px, text_width
from story import WAY, WHOLE, ending_kind
from style import colour

GUTTER = 96
TAIL = 64
ORDER = ("ground", "grid", "stops", "moves", "links", "bars", "ticks", "marks", "texts", "legend", "hits")


class Picture:
    """Draws a story of events in columns. A strip, as a page has it, is one band without a title and without texts
    above its columns, and its style says nothing of what is around it.
    """

    def __init__(self, title, events, columns, story, strip=False):
        self.title = title
        self.events = events
        self.columns = columns
        self.story = story
        self.strip = strip
        self.layers = Layers(*ORDER)
        self.names = {}
        self.width = GUTTER + columns.band_width + TAIL + 12
        self.right = GUTTER + columns.band_width + TAIL

    def lines(self):
        """The lines of the picture."""
        texts = self._texts_above()
        top = 60
        if self.strip:
            self.lanes = Lanes(self.story, self.columns, -6)
            height = self.lanes.bottom[-1] + 6
        elif self.columns.bands > 1:
            legend = self._legend(top)
            self.lanes = Lanes(self.story, self.columns, legend.bottom + 8)
            height = self.lanes.bottom[-1] + 14
        else:
            room = {"level": 12, "upright": 112}.get(texts, 0)
            self.lanes = Lanes(self.story, self.columns, 38 + room)
            height = self._legend(self.lanes.bottom[0] + 28).bottom + 16
        self._draw(texts)
        told = summary(self.events, self.story)
        head = frame.head("A run of " + self.title, told, self.width, height, self.strip)
        return [*head, *self.layers.lines(), "</svg>"]

    def _texts_above(self):
        """How the texts of the lines stand above their columns: level, upright or not at all."""
        if self.strip or not self.events:
            return ""
        if self.columns.line_width >= 56:
            return "level"
        return "upright" if self.columns.line_width >= 12 and self.columns.bands == 1 else ""

    def _legend(self, top):
        legend = Legend(self.layers, self.width, top)
        legend.write(self.story)
        return legend

    def _draw(self, texts):
        self._draw_ground(texts)
        for span in self.story.spans:
            self._draw_span(span)
        for arrow in self.story.arrows:
            self._draw_arrow(arrow)
        self._draw_ticks()
        for lane in (WHOLE, *range(self.story.partitions)):
            self._draw_marks(lane)
        self._draw_names()

    def _x(self, place):
        return GUTTER + self.columns.across(place)

    # ---- lanes, the numbers of the lines above them, and their texts where there is room

    def _draw_ground(self, texts):
        every = next((n for n in (1, 2, 5, 10, 20, 50) if n * self.columns.line_width >= 26), 100)
        for band in range(self.columns.bands):
            self._draw_lane(band, WHOLE, "clients", "and routes")
            for p in range(self.story.partitions):
                self._draw_lane(band, p, f"partition {p}")
            self._draw_lane(band, WAY, "under way")
        for i, event in enumerate(self.events):
            self._draw_column(i, event, texts, every == 1 or event.number % every == 0)

    def _draw_column(self, i, event, texts, numbered):
        wide = self.columns.width[i]
        band = self.columns.band(self.columns.left[i] + wide / 2)
        x = GUTTER + self.columns.left[i] - band * self.columns.band_width
        y = self.lanes.top[band, WHOLE]
        bottom = self.lanes.bottom[band]
        place = f'x="{px(x)}" y="{px(y - 14)}" width="{px(wide)}" height="{px(bottom - y + 14)}"'
        told = f"{event.number}: {escape(event.text[:80])}&#10;{answers_of(event)}"
        self.layers.put("hits", f'<rect class="hit" {place}><title>{told}</title></rect>')
        middle = x + wide / 2
        if numbered:
            self.layers.path("grid", "grid", f"M{point(middle, y)}V{px(bottom)}")
            self.layers.text("texts", "axis", middle, y - 5, str(event.number), "middle")
        if texts == "level":
            self.layers.text("texts", "axis", middle, y - 17, fitted(event.text, 9, wide - 6), "middle")
        elif texts == "upright":
            turn = f'transform="translate({point(middle + 3, y - 17)}) rotate(-90)"'
            self.layers.put("texts", f'<text class="axis" {turn}>{fitted(event.text, 9, 108)}</text>')

    def _draw_lane(self, band, lane, name, more=""):
        y = self.lanes.top[band, lane]
        wide = self.columns.band_width + TAIL + 2
        self.layers.rect("ground", "lane", GUTTER - 2, y, wide, self.lanes.height[band, lane], 4)
        self.layers.text("texts", "label", 12, y + 14, name)
        self.layers.text("texts", "label", 12, y + 26, more)
        if (band, lane) in self.lanes.runs:
            self.layers.text("texts", "note", GUTTER - 8, self.lanes.bar_at(band, lane) + 11, "machine", "end")
        if lane != WAY and self.lanes.rows.get((band, lane)):
            self.layers.text("texts", "note", GUTTER - 8, self.lanes.queue_at(band, lane) + 3, "queue", "end")

    # ---- spans of time

    def _draw_span(self, span):
        """A bar for each band that a span goes through; the name stands where it begins, in each of them."""
        first, last = self.columns.band(span.start), self.columns.band(span.stop)
        draw = getattr(self, "_draw_" + span.kind)
        for band in range(first, last + 1):
            start = max(span.start, band * self.columns.band_width)
            stop = span.stop if band == last else (band + 1) * self.columns.band_width + TAIL - 3
            if stop > start or band == first:
                draw(span, band, GUTTER + start - band * self.columns.band_width, stop - start)
        if span.kind == "run" and span.ending:
            self._draw_end(span)

    def _draw_wait(self, span, band, x, wide):
        y = self.lanes.queue_at(band, span.lane, span.slot)
        self.layers.rect("bars", f"c{colour(span.client)}", x, y - 2, wide, 4)
        self._name(("slot", span.lane, span.slot), band, x + 4, y - 6, span.text, 0 if span.ending else wide - 4)

    def _draw_run(self, span, band, x, wide):
        y = self.lanes.bar_at(band, span.lane)
        self.layers.rect("bars", f"c{colour(span.client)}", x, y, wide, 14, 2)
        self._name(("names", span.lane), band, x, y - 4, span.text)
        self._name(("machine", span.lane), band, x, y + 11, "")

    def _draw_parcel(self, span, band, x, wide):
        y = self.lanes.parcel_at(band, span.slot)
        self.layers.rect("bars", "parcel", x, y, wide, 15, 2)
        self._name((WAY, span.slot), band, x, y, "")
        inside = wide > 8 + text_width(span.text, 10)
        self._name((WAY, span.slot), band, x + 4 if inside else x + wide + 5, y + 11, span.text)

    def _draw_stop(self, span, band, x, wide):
        y = self.lanes.top[band, span.lane]
        self.layers.rect("stops", "stop", x, y + 1, wide, self.lanes.height[band, span.lane] - 2)

    def _draw_end(self, span):
        """The end of a call: a mark, and the reply."""
        band = self.columns.band(span.stop)
        x, y = self._x(span.stop), self.lanes.bar_at(band, span.lane)
        self.layers.mark("marks", ending_kind(span.ending), x, y + 7)
        self._name(("machine", span.lane), band, x + 9, y + 11, span.ending, 180)

    # ---- names stand in a row, each as far as the next one there, or as it has room

    def _name(self, row, band, x, y, text, room=0):
        self.names.setdefault(row, []).append((band, x, y, text, room))

    def _draw_names(self):
        for row in self.names.values():
            for _, names in groupby(sorted(row, key=lambda name: name[0]), key=lambda name: name[0]):
                names = list(names)
                ends = [name[1] - 6 for name in names[1:]] + [self.right]
                for (_, x, y, text, room), end in zip(names, ends):
                    self.layers.text("texts", "name", x, y, _shortened(text, min(room or end - x, end - x)))

    # ---- arrows and marks

    def _draw_arrow(self, arrow):
        band = self.columns.band(arrow.place)
        x = self._x(arrow.place)
        start = self.lanes.end_of(band, arrow.start)
        if arrow.stop is None:
            self._draw_call_mark(arrow, x, start)
            return
        stop = self.lanes.end_of(band, arrow.stop)
        line = "move" if arrow.client is None else f"s{colour(arrow.client)}"
        layer = "moves" if arrow.client is None else "links"
        thin = " thin" if arrow.kind == "submit" else ""
        self.layers.path(layer, line + thin, f"M{point(x, start)}V{px(stop)}")
        if arrow.kind == "submit":
            self.layers.circle("marks", f"c{colour(arrow.client)}", x, start, 4)
        elif arrow.kind == "away":
            up = stop < start
            self.layers.head("marks", f"c{colour(arrow.client)}", x, stop + (1 if up else -1), up)
        elif arrow.kind != "begin":
            self.layers.circle("marks", "ink", x, start, 2.5)
            self.layers.head("marks", "ink", x, stop, stop < start)

    def _draw_call_mark(self, arrow, x, y):
        """The mark of a call that goes nowhere else."""
        number = colour(arrow.client)
        if arrow.kind == "again":
            self.layers.circle("marks", "back", x, y, 6.5)
            self.layers.turned_back("marks", f"s{number}", f"c{number}", x, y)
        else:
            self.layers.circle("marks", f"s{number} back", x, y, 5)
            self.layers.path("marks", f"s{number}", f"M{point(x - 3.4, y + 3.4)}l6.8 -6.8")

    def _draw_marks(self, lane):
        """The marks of a lane, with their texts where there is room between those beside them."""
        marks = self.story.marks.get(lane, [])
        before, at = 0, None
        for mark, after in zip(marks, marks[1:] + [None]):
            band, x = self.columns.band(mark.place), self._x(mark.place)
            y = self.lanes.marks_at(band, lane)
            self.layers.mark("marks", mark.kind, x, y)
            if band != at:
                before, at = GUTTER - 6, band
            room = self.right - x
            if after and self.columns.band(after.place) == band:
                room = (after.place - mark.place) / 2
            text = self._mark_text(mark, min(x - before, room))
            if text:
                self.layers.text("texts", "small", x, y + 15, escape(text), "middle")
                before = x + text_width(text, 9) / 2 + 2

    def _mark_text(self, mark, room):
        """The text of a mark that fits into so much room on each side of it, if any does."""
        return next((text for text in (mark.text, mark.short) if text_width(text, 9) / 2 <= room), "")

    def _draw_ticks(self):
        for p, place in self.story.ticks:
            band = self.columns.band(place)
            self.layers.path("ticks", "tick", f"M{point(self._x(place), self.lanes.bar_at(band, p))}v14")
        for lane, place in self.story.met:
            if lane != WHOLE:
                band = self.columns.band(place)
                start = point(self._x(place), self.lanes.marks_at(band, lane) + 17)
                self.layers.path("ticks", "no", f"M{start}V{px(self.lanes.bar_at(band, lane) + 14)}")


def _shortened(text, room):
    """The text of a call, an extent or a reply as it fits: whole, shortened, or what tells most of it."""
    if text_width(text, 10) > room and text.startswith("TRAPPED "):
        text = text.removeprefix("TRAPPED ")
    short = fitted(text, 10, room)
    if short or not text:
        return short
    if text.split(":")[0].isdigit():
        text = text.split(":")[0]
    elif text.startswith("OK "):
        text = "OK"
    else:
        text = text.removeprefix("FAILED ").removeprefix("extent ")
    return escape(text) if text_width(text, 10) <= room else ""


def answers_of(event):
    """The answers of an event in one line, those that come again counted."""
    told = ""
    lines = [line for answer in event.answers for line in answer]
    for line, same in groupby(lines):
        if len(told) > 200:
            return told + " &#8230;"
        times = len(list(same))
        told += ("; " if told else "") + escape(line[:80]) + (f" ({times} times)" if times > 1 else "")
    return told


def summary(events, story):
    """What a run has, counted."""
    count = story.count
    calls = f"{_counted(count['calls'], 'call')} asked for, {count['ended']} ended"
    extents = f"{_counted(count['taken'], 'extent')} taken, {count['landed']} landed"
    return f"{_counted(len(events), 'line')}: {calls}; {extents}; {_counted(count['refused'], 'refusal')}"


def _counted(number, name):
    return f"{number or 'no'} {name}{'' if number == 1 else 's'}"
