"""The generator Pcg64 (PCG XSL RR 128/64), with choices as docs/FORMATS.md has them."""

WORD = 2**64 - 1
MULTIPLIER = 0x2360ED051FC65DA44385DF649FCCF645


class Words:
    """The words of a state and a stream."""

    def __init__(self, state, stream=0):
        self.increment = 2 * stream + 1
        self.state = (state + self.increment) % 2**128
        self.advance()

    def advance(self):
        self.state = (self.state * MULTIPLIER + self.increment) % 2**128

    def word(self):
        self.advance()
        half = (self.state >> 64) ^ (self.state & WORD)
        turn = self.state >> 122
        return (half >> turn | half << (64 - turn)) & WORD

    def choice(self, low, high):
        return low + self.word() % (high - low + 1)

    def below(self, count):
        return self.word() % count

    def chance(self, percent):
        return self.below(100) < percent

    def one_of(self, values):
        values = list(values)
        return values[self.below(len(values))]

    def taken(self, values):
        """One of the values, which is taken out of them."""
        return values.pop(self.below(len(values)))

    def weighed(self, weights):
        """One of the names, as often as its weight says."""
        place = self.below(sum(weights.values()))
        for name, weight in weights.items():
            if place < weight:
                return name
            place -= weight
        raise ValueError("no weights")

    def shuffled(self, values):
        values = list(values)
        for place in range(len(values) - 1, 0, -1):
            other = self.below(place + 1)
            values[place], values[other] = values[other], values[place]
        return values
