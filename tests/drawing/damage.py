"""Lines that are damaged in one of the ways in which a line can be. One may be a line all the same."""
from model.calls import TRANSACTIONS
from model.tables import WORD

from .moves import Moves


class Damage(Moves):
    def bad_line(self):
        kinds = (self.submit, self.raw, self.steps, self.take, self.route, self.set_break, self.home, self.begin)
        kinds += (self.checkpoint,)
        good = self.words.one_of(kinds)()[0]
        place = self.words.below(len(DAMAGES))
        self.whole.reached("damage %d" % place)
        return [DAMAGES[place](self, good)]

    def swapped(self, good, change):
        """The line with one of its fields changed."""
        word, *fields = good.split(" ")
        at = self.words.below(len(fields))
        return " ".join([word] + fields[:at] + [change(fields[at])] + fields[at + 1 :])


def head(good):
    return good.partition(" ")[0]


DAMAGES = [
    lambda draw, good: "",
    lambda draw, good: " " + good,
    lambda draw, good: good + " ",
    lambda draw, good: good.replace(" ", "  ", 1),
    lambda draw, good: good.replace(" ", "\t", 1),
    lambda draw, good: good + "\r",
    lambda draw, good: good + "\0",
    lambda draw, good: good + " 0",
    lambda draw, good: head(good),
    lambda draw, good: good.rpartition(" ")[0],
    lambda draw, good: head(good).upper() + good[len(head(good)) :],
    lambda draw, good: head(good)[:-1] + good[len(head(good)) :],
    lambda draw, good: good.lower(),
    lambda draw, good: draw.swapped(good, lambda field: "0" + field),
    lambda draw, good: draw.swapped(good, lambda field: "-" + field),
    lambda draw, good: draw.swapped(good, lambda field: "+" + field),
    lambda draw, good: draw.swapped(good, lambda field: field + "."),
    lambda draw, good: draw.swapped(good, lambda field: "0x1"),
    lambda draw, good: draw.swapped(good, lambda field: str(WORD + 1)),
    lambda draw, good: draw.swapped(good, lambda field: "\u0661"),
    lambda draw, good: draw.swapped(good, lambda field: ""),
    lambda draw, good: draw.swapped(good, lambda field: "\udcff"),
    lambda draw, good: "steps %d %d" % (draw.partition(), draw.words.one_of((0, 4096, 4097, WORD))),
    lambda draw, good: "raw 0 2 %s 1 1 1" % draw.words.one_of(("key", "ID", "", "0")),
    lambda draw, good: "raw 0 2 id 1" + " 1" * draw.words.one_of((8, 8, 9, 12)),
    lambda draw, good: "submit 0 %s 000000000000001 1" % draw.words.one_of(("UPDATE", "update_location", "LOCATION")),
    lambda draw, good: "submit 0 UPDATE_LOCATION %s 1" % draw.words.one_of(("1", "0" * 14, "0" * 16, "0" * 14 + "A")),
    lambda draw, good: TRANSACTIONS[0] + " 1",
    lambda draw, good: ".",
]
