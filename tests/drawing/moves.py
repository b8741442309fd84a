"""Lines by which extents leave and land, routes learn of it, logs are handed out, and rows are looked at."""
from model.whole import extent_of

from .machines import Machines


class Moves(Machines):
    def take(self):
        e = self.extent()
        p = self.whole.place.get(e)
        return ["take %d %d" % (self.any_partition() if p is None or self.words.chance(12) else p, e)]

    def give(self):
        found = [e for e, place in self.whole.place.items() if place is None]
        if not found and self.words.chance(80):
            return self.run()
        e = self.words.one_of(found) if found and self.words.chance(92) else self.extent()
        return ["give %d %d" % (self.partition(), e)]

    def route(self):
        found = sorted(self.whole.landings)
        if found and self.words.chance(90):
            return ["route %d %d" % self.words.one_of(found)]
        if not found and self.words.chance(80):
            return self.run()
        e = self.extent()
        return ["route %d %d" % (e, self.words.one_of((0, self.whole.moves.get(e, 1), self.number())))]

    def moved(self):
        """An extent leaves and lands, once or twice, and all landings are told to the routes, in some order."""
        e = self.words.one_of(self.extents)
        p = self.whole.place[e]
        if p is None:
            return self.give()
        lines, moves = [], []
        for _ in range(self.words.choice(1, 3)):
            to = self.words.below(len(self.whole.sites))
            lines += ["take %d %d" % (p, e), "give %d %d" % (to, e)]
            moves.append(self.whole.moves[e] + len(moves) + 1)
            p = to
        return lines + ["route %d %d" % (e, m) for m in self.words.shuffled(moves)]

    def checkpoint(self):
        """A checkpoint, mostly of an extent at a partition where no call runs, or of the calls without a home."""
        idle = [p for p, site in enumerate(self.whole.sites) if site.call is None]
        found = [e for e in self.extents if self.whole.place[e] in idle] + [0] * (0 in idle)
        e = self.words.one_of(found) if found and self.words.chance(85) else self.extent()
        p = 0 if e == 0 else self.whole.place.get(e)
        return ["checkpoint %d %d" % (self.any_partition() if p is None or self.words.chance(8) else p, e)]

    def home(self):
        s = self.subscriber()
        p = self.whole.place[extent_of(s)] if s in self.whole.homes else None
        return ["home %d %d" % (self.any_partition() if p is None or self.words.chance(15) else p, s)]

    def audit(self):
        return ["audit"]
