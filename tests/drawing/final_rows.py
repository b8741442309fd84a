"""The rows at the end of a small history: those that one of its orders leaves, those of another moment of its run, and
what may be wrong with them.
"""
from model.tables import copied, home_texts

# Where the rows come from, and what is done to them, and how often.
SOURCES = {"order": 6, "moment": 2, "begin": 1}
CHANGES = {"same": 10, "value": 4, "forwarding": 4, "missing": 1, "more": 1}


class FinalRows:
    """Drawn rows, as the texts of each subscriber's, by s_id from 1 on. The legal states are those that the orders of
    the history leave."""

    def __init__(self, history, legal):
        self.words = history.words
        source = self.words.weighed(SOURCES)
        states = {"order": sorted(legal), "moment": history.states, "begin": [history.rows.opened]}[source]
        self.homes = [copied(history.rows.homes[name]) for name in self.words.one_of(states or history.states)]
        getattr(self, "_" + self.words.weighed(CHANGES))()
        self.of_subscribers = [tuple(home_texts(home)) for home in self.homes]

    def texts(self):
        """Their lines, in any order."""
        return self.words.shuffled([text for texts in self.of_subscribers for text in texts])

    def _same(self):
        pass

    def _value(self):
        """A bit, a location or a facility's data is another."""
        home = self.words.one_of(self.homes)
        (subscriber,) = home["S"].values()
        facility = self.words.one_of(list(home["F"].values()))
        row, place, values = self.words.one_of(((subscriber, 2, 2), (subscriber, 33, 4), (facility, 4, 4)))
        row[place] = self.words.one_of([value for value in range(place == 33, values) if value != row[place]])

    def _forwarding(self):
        """A forwarding is gone, or one more is there."""
        home = self.words.one_of(self.homes)
        if home["C"] and self.words.chance(50):
            del home["C"][self.words.one_of(sorted(home["C"]))]
            return
        s, kind = self.words.one_of(sorted(home["F"]))
        key = s, kind, self.words.one_of((0, 8, 16))
        home["C"][key] = [*key, self.words.choice(1, 24), self.words.below(3)]

    def _missing(self):
        """The last subscriber is gone, if there are two."""
        if len(self.homes) > 1:
            self.homes.pop()

    def _more(self):
        """There is one subscriber more, with the rows of another and a number of its own."""
        s, numbers = len(self.homes) + 1, [home["S"][key][1] for home in self.homes for key in home["S"]]
        other = self.homes[0]
        made = {table: {(s, *key[1:]): [s, *row[1:]] for key, row in other[table].items()} for table in other}
        made["S"][s,][1] = next(number for number in range(100, 200) if number not in numbers)
        self.homes.append(made)
