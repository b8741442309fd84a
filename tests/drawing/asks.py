"""Lines by which clients ask for transactions and for calls of any procedure."""
from model.calls import ARGUMENTS
from model.tables import WORD

from .calls import call_text
from .choices import Choices

OWN = 7  # the first procedure that is none of the seven transactions


class Asks(Choices):
    def procedure(self):
        return self.words.one_of((0, 1, 1, 2, 3, 3, 3, 3, 4, 4, 5, 5, 5, 5, 6, 6))

    def key_of(self, proc, s):
        """What names the subscriber in a call of the procedure; of no subscriber, any number."""
        if proc < 4 or s not in self.whole.homes:
            return s if proc < 4 else s % 10**15
        return self.whole.homes[s]["S"][(s,)][1]

    def fitting(self, proc, s, arguments):
        """The arguments, now and then with the key of a row that the subscriber has."""
        home = self.whole.homes.get(s)
        if home and self.words.chance(50):
            if proc in (1, 5, 6) and home["C"] and self.words.chance(70):
                arguments[1:3] = self.words.one_of(sorted(home["C"]))[1:]
            elif proc in (1, 3, 5, 6):
                arguments[2 if proc == 3 else 1] = self.words.one_of(sorted(home["F"]))[1]
            elif proc == 2:
                arguments[1] = self.words.one_of(sorted(home["A"]))[1]
        return arguments

    def submit_of(self, proc, s, client, is_bad=False):
        """A transaction on the subscriber; a bad one may have an argument outside its domain."""
        bad = self.words.choice(1, len(ARGUMENTS[proc])) if is_bad else 0
        arguments = [self.key_of(proc, s)]
        arguments += [self.argument(column, place == bad) for place, column in enumerate(ARGUMENTS[proc]) if place]
        arguments = self.fitting(proc, s, arguments) if not bad else arguments
        return "submit %d %s" % (client, call_text(proc, arguments))

    def raw_arguments(self, proc, s):
        """Arguments of a raw call, which may be none that a transaction would take."""
        arguments = [self.key_of(proc, s)]
        for column in ARGUMENTS[proc][1:]:
            arguments.append(self.argument(column, self.words.chance(20)))
        arguments = self.fitting(proc, s, arguments) if self.words.chance(50) else arguments
        if proc == 3 and self.words.chance(60):
            # The second PUT is a trap, after the first.
            arguments[1], arguments[3] = self.words.below(2), self.words.one_of((256, self.number() + 256)) % 2**64
        if proc == 1 and self.words.chance(30):
            # The sum of the start time and 1 is 0.
            arguments = self.fitting(proc, s, arguments)
            arguments[2:4] = WORD, self.words.below(9)
        if self.words.chance(6):
            arguments = arguments[:-1] if self.words.chance(50) else arguments + [0]
        return arguments

    def raw(self):
        """A raw call, with arguments and keys that may speak of different subscribers."""
        proc, s = self.procedure(), self.subscriber()
        other = s if self.words.chance(80) else self.subscriber()
        arguments = self.raw_arguments(proc, other)
        kind = self.words.below(2)
        key = (("id", "number")[kind], self.key_of(4 * kind, s))
        proc = proc if self.words.chance(96) else self.words.one_of((16, WORD, len(self.whole.module.procedures)))
        return [" ".join(map(str, ("raw", self.client(), proc, *key, *arguments)))]

    def own(self):
        """A raw call of a procedure that is none of the seven, whose second argument is a number of rounds."""
        proc = self.words.choice(OWN, len(self.whole.module.procedures) - 1)
        s = self.subscriber()
        most = most_rounds(self.whole.module.procedures[proc])
        rounds = self.words.one_of((0, 1, most - 1, most, most + 1, most + 2, self.words.choice(0, 2 * most)))
        return ["raw %d %d id %d %d %d" % (self.client(), proc, s, s, rounds)]


# So many rounds the procedures of limits.txt make without a trap. WITHOUT_A_ROW makes none: it looks for a row.
ROUNDS = {"STEP_BY_STEP": 2044, "OUTPUT_BY_OUTPUT": 39, "WRITE_BY_WRITE": 62, "WITHOUT_A_ROW": 2}


def most_rounds(procedure):
    return ROUNDS[procedure.name]
