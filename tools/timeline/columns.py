"""Time on the picture: each line has a column, and columns that are too many for one band go on in the next one.

A place on it is a pixel of all bands, laid end to end.
"""

# How wide a band is at most; one that isn't folded fits into a page of 1,280 where all of it can.
MOST = 1080
FITTING = 1070


class Columns:
    """Where each event and each of its answers is. What isn't folded is one band, however wide. A line is 30 pixels
    wide, times at most and at least as many as are given.
    """

    def __init__(self, events, fold=True, most=2.4, least=0.25):
        natural = [_natural_width(event) for event in events]
        total = sum(natural)
        scale = _scale(total, MOST if fold else FITTING, most, least)
        self.line_width = 30 * scale
        wanted = total * scale
        self.band_width = max(wanted if wanted + 0.5 < MOST or not fold else MOST, 600)
        self.bands = 1
        self.width = []
        self.left = []
        self.shown = [event.different() for event in events]
        used = 0
        for wide in natural:
            width = min(wide * scale, self.band_width)
            if used + width > self.band_width + 0.5:
                self.bands += 1
                used = 0
            self.width.append(width)
            self.left.append((self.bands - 1) * self.band_width + used)
            used += width
        self.finish = (self.bands - 1) * self.band_width + used

    def place(self, i, k):
        """Where the answer k of the event i is, both from 0."""
        k = min(k, self.shown[i] - 1)
        return self.left[i] + self.width[i] * (k + 0.5) / self.shown[i]

    def band(self, place):
        """The band of a place, from 0."""
        return min(int(place / self.band_width), self.bands - 1)

    def across(self, place):
        """How far a place is from the left end of its band."""
        return place - self.band(place) * self.band_width


def _natural_width(event):
    """A line of steps is as wide as its answers are many."""
    return 10 * event.different() if event.different() > 3 else 30


def _scale(total, room, most, least):
    """How many pixels one is of the natural widths, which together are so many: as far as there is room for all."""
    if total == 0:
        return 1
    scale = min(room / total, most)
    if scale >= max(0.5, least):
        return scale
    return max(min(12 * scale, 0.5), least)
