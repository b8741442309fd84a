"""What drawn lines speak of: partitions, subscribers, extents, clients and values, most of which are there."""
from model.tables import LIMITS, START_TIME, STARTS, WORD
from model.whole import extent_of


class Choices:
    """Choices for a whole as it is."""

    def __init__(self, words, whole):
        self.words, self.whole = words, whole
        # Few subscribers are spoken of, so that calls meet: the first and last of extents, and some others.
        count = len(whole.homes)
        ends = [s for e in range(1, whole.extents + 1) for s in (64 * e - 63, 64 * e) if s <= count] + [count]
        self.subscribers = words.shuffled(ends)[:6] + [words.choice(1, count) for _ in range(2)]
        self.extents = sorted({extent_of(s) for s in self.subscribers})

    def number(self):
        """A number that is out of most ranges."""
        return self.words.one_of((0, 77, 99, 2**32 - 1, 2**32, 10**15, WORD))

    def partition(self, fit=lambda site: True):
        """A partition that is fit, mostly, if there is one."""
        found = [p for p, site in enumerate(self.whole.sites) if fit(site)]
        if found and self.words.chance(92):
            return self.words.one_of(found)
        return self.any_partition(12)

    def any_partition(self, wild=30):
        """A partition, or as often as it says one that isn't there."""
        if self.words.chance(wild):
            return self.words.one_of((len(self.whole.sites), 99, WORD))
        return self.words.below(len(self.whole.sites))

    def lacks(self, fit):
        """Whether no partition is fit; mostly something else is to be drawn then."""
        return not any(map(fit, self.whole.sites)) and self.words.chance(88)

    def subscriber(self):
        if self.words.chance(94):
            return self.words.one_of(self.subscribers)
        return self.words.one_of((0, len(self.whole.homes) + 1, 2**32, WORD))

    def extent(self):
        if self.words.chance(94):
            return self.words.one_of(self.extents)
        return self.words.one_of((0, self.whole.extents, self.whole.extents + 1, WORD))

    def client(self):
        free = [client for client in range(min(self.whole.clients, 12)) if client not in self.whole.busy]
        if free and self.words.chance(90):
            return self.words.one_of(free)
        return self.words.one_of((0, self.words.below(self.whole.clients), self.whole.clients, 77, WORD))

    def argument(self, column, bad):
        """A value for a column; a bad one may be outside the column's domain."""
        low, high = {None: (0, WORD), START_TIME: (0, 16)}.get(column) or LIMITS[column]
        if bad:
            return self.words.one_of((0, high + 1, 5, 7, 25, 256, self.number()))
        if column == START_TIME:
            return self.words.one_of(STARTS)
        return self.words.one_of((low, high, self.words.choice(low, high), self.words.choice(low, min(high, low + 3))))


def has_call(site):
    return site.call is not None


def can_begin(site):
    return bool(site.queue) and site.call is None and not site.is_stopped


def can_go_on(site):
    return site.call is not None and not site.is_stopped and not site.is_at_break()
