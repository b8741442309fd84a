"""Heights on the picture: a band has a lane for clients and routes, one a partition, and one for extents under way."""

from story import WAY, WHOLE


class Lanes:
    """Where the lanes of each band are, and the rows in them."""

    def __init__(self, story, columns, top):
        self.columns = columns
        self.partitions = story.partitions
        self.runs = set()
        self.rows = {}
        self.marked = {(columns.band(mark.place), lane) for lane, marks in story.marks.items() for mark in marks}
        ends = [(arrow.place, end) for arrow in story.arrows for end in (arrow.start, arrow.stop)]
        self.ports = {(columns.band(place), end[1]) for place, end in ends if end and end[0] == "port"}
        self.top, self.height, self.bottom = {}, {}, []
        self._marks_at, self._bar_at, self._queue_at = {}, {}, {}
        self._find_rows(story.spans)
        for band in range(columns.bands):
            top = self._lay_band(band, top + 28)

    def _find_rows(self, spans):
        """What the lanes of each band have to have room for."""
        for span in spans:
            for band in range(self.columns.band(span.start), self.columns.band(span.stop) + 1):
                if span.kind == "run":
                    self.runs.add((band, span.lane))
                elif span.kind != "stop":
                    self.rows[band, span.lane] = max(self.rows.get((band, span.lane), 0), span.slot + 1)

    def _lay_band(self, band, y):
        """Gives the band its lanes, one below another, from a height on."""
        self.top[band, WHOLE], self.height[band, WHOLE] = y, 28
        y += 34
        for p in range(self.partitions):
            self.top[band, p] = y
            self._lay_rows(band, p)
            y += self.height[band, p] + 6
        self.top[band, WAY] = y
        self.height[band, WAY] = max(20 * self.rows.get((band, WAY), 0) + 6, 26)
        self.bottom.append(y + self.height[band, WAY])
        return self.bottom[-1] + 16

    def _lay_rows(self, band, p):
        """The rows of a partition: its marks, the name of the call that runs and its bar, the queue, and where extents
        leave and land.
        """
        y = self.top[band, p] + 4
        self._marks_at[band, p] = y + 6
        if (band, p) in self.marked:
            y += 23
        self._bar_at[band, p] = y + 14
        if (band, p) in self.runs:
            y += 31
        elif (band, p) not in self.marked:
            y += 5
        self._queue_at[band, p] = y + 15
        y += 19 * self.rows.get((band, p), 0)
        if (band, p) in self.ports:
            y += 10
        self.height[band, p] = max(y + 4 - self.top[band, p], 26)

    def marks_at(self, band, lane):
        """The height of a lane's marks."""
        return self.top[band, lane] + 8 if lane == WHOLE else self._marks_at[band, lane]

    def bar_at(self, band, p):
        """The height of the bar of a partition's machine."""
        return self._bar_at[band, p]

    def queue_at(self, band, p, slot=0):
        """The height of a row of a partition's queue."""
        return self._queue_at[band, p] + 19 * slot

    def parcel_at(self, band, slot):
        """The height of a row of extents under way."""
        return self.top[band, WAY] + 4 + 20 * slot

    def end_of(self, band, end):
        """The height at which an arrow begins or ends."""
        kind = end[0]
        if kind == WHOLE:
            return self.marks_at(band, WHOLE)
        if kind == "bar":
            return self.bar_at(band, end[1]) + 7
        if kind == "slot":
            return self.queue_at(band, end[1], end[2])
        if kind == "port":
            return self.top[band, end[1]] + self.height[band, end[1]] - 5
        return self.parcel_at(band, end[1])
