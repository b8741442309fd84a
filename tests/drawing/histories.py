"""Small histories: clients whose calls take effect in some serial order between their asking and their answer, and what
may be wrong with such a history.
"""
from model.calls import read_call
from model.histories import Rows
from model.tables import row_text

from .calls import call_text
from .rows import rows_drawn
from .words import Words

MOST_CALLS = 7
# How often each transaction is drawn: those that meet more often than in the benchmark's mix.
WEIGHTS = {0: 24, 1: 14, 2: 6, 3: 20, 4: 18, 5: 10, 6: 8}
# What is done to a history, and how often.
CHANGES = {"stale": 35, "reply": 14, "exchange": 20, "move": 20, "abort": 16, "lost": 6, "vague": 9}


class Client:
    """A client: what it does next with its open call, if it has one."""

    def __init__(self, name):
        self.name, self.ask, self.reply = name, None, None


class History:
    """A drawn history: the texts of its rows, and its lines."""

    def __init__(self, seed, number):
        words = self.words = Words(seed, number)
        drawn = rows_drawn(words, words.choice(1, 2))
        self.row_texts = [row_text(table, row) for table, row in drawn]
        self.rows = Rows(self.row_texts)
        self.facilities = [row[:2] for table, row in drawn if table == "F"]
        self.lines, self.states = [], [self.rows.opened]
        self._run([Client(name) for name in words.shuffled((0, 1, 2, 7, 4294967295))[: words.choice(2, 4)]])
        if words.chance(92):
            for _ in range(words.choice(1, 5)):
                getattr(self, "_" + words.weighed(CHANGES))()
        self._comment()

    def input(self):
        """What `judge` reads."""
        return "".join(line + "\n" for line in self.row_texts + ["."] + self.lines).encode()

    # ---- a run: calls are asked, take effect one after another, and are answered
    def _run(self, clients):
        words, state, waiting = self.words, self.rows.opened, []
        left = words.choice(2, MOST_CALLS)
        while left or waiting:
            client = words.one_of(clients)
            kind = words.below(100)
            if client.ask is None or kind < 2:
                if left:
                    left -= 1
                    self._ask(client)
                    waiting.append((client, client.ask))
            elif client.reply is not None and words.chance(65):
                self._end(client, "end %d %s" % (client.name, client.reply))
            elif kind < 6 and (client, client.ask) in waiting:
                # (it is aborted, and takes no effect)
                waiting.remove((client, client.ask))
                self._end(client, "abort %d" % client.name)
            elif kind < 11:
                # (it may take effect later, or never)
                self._end(client, "lost %d" % client.name)
            if waiting and (words.chance(55) or not left):
                client, ask = waiting.pop(words.below(len(waiting)))
                if client.ask is ask or words.chance(60):
                    reply, state = self.rows.after(state, ask)
                    client.reply = reply if client.ask is ask else client.reply
                    self.states.append(state)
        for client in clients:
            if client.reply is not None and words.chance(85):
                self._end(client, "end %d %s" % (client.name, client.reply))

    def _ask(self, client):
        client.ask, client.reply = self._call(), None
        self.lines.append("ask %d %s" % (client.name, client.ask.text))

    def _end(self, client, line):
        client.ask = client.reply = None
        self.lines.append(line)

    def _call(self):
        """A call on few keys and with few values, so that calls meet."""
        words = self.words
        s, kind = words.one_of(self.facilities)
        kind = words.choice(1, 4) if words.chance(45) else kind
        proc, start = words.weighed(WEIGHTS), words.one_of((0, 8))
        number = next(number for number, subscriber in self.rows.numbers.items() if subscriber == s)
        key = s if proc < 4 else number
        if words.chance(5):
            key = words.one_of([other for other in (9, 12) if other not in self.rows.numbers])
        arguments = ([], [kind, start, words.choice(1, 24)], [kind], [words.below(2), kind, words.below(3)],
                     [words.choice(1, 3)], [kind, start, words.choice(9, 24), words.below(3)], [kind, start])[proc]
        return read_call(call_text(proc, [key] + arguments))

    # ---- what may be wrong with it
    def _ends(self):
        return [place for place, line in enumerate(self.lines) if line.startswith("end ")]

    def _end_drawn(self):
        """The place of an end, its client and its reply; None where there is none."""
        ends = self._ends()
        if not ends:
            return None
        place = self.words.one_of(ends)
        return place, *self.lines[place].split(" ", 2)[1:]

    def _stale(self):
        """A call is answered from the rows of another moment."""
        drawn = self._end_drawn()
        if drawn:
            place, client, _ = drawn
            reply, _ = self.rows.after(self.words.one_of(self.states), self._asked(place))
            self.lines[place] = "end %s %s" % (client, reply)

    def _reply(self):
        """A reply has another value, or is a failure."""
        drawn = self._end_drawn()
        if drawn:
            place, client, reply = drawn
            self.lines[place] = "end %s %s" % (client, self._other(reply, self._asked(place)))

    def _other(self, reply, asked):
        word, *values = reply.split(" ")
        if word == "FAILED":
            fits = "OK" if asked.proc > 2 else "FAILED 7"
            return self.words.one_of((fits, "FAILED 1", "FAILED 2", "FAILED 3"))
        if not values or self.words.chance(20):
            return "FAILED %d" % self.words.choice(1, 3)
        # (the bit and the location, which calls change, or any value)
        place = self.words.one_of((2, 33)) if len(values) == 34 else self.words.below(len(values))
        if len(values[place]) == 15:
            values[place] = "%015d" % self.words.below(3)
        elif values[place].isdigit():
            values[place] = str(self.words.below(2 if place == 2 else 4))
        return " ".join([word] + values)

    def _asked(self, place):
        """The call that the end at this place answers."""
        client = self.lines[place].split(" ")[1]
        asked = next(line for line in reversed(self.lines[:place]) if line.startswith("ask %s " % client))
        return read_call(asked.split(" ", 2)[2])

    def _exchange(self):
        """Two calls of one transaction have each other's replies."""
        groups = {}
        for place in self._ends():
            groups.setdefault(self._asked(place).proc, []).append(place)
        groups = [places for places in groups.values() if len(places) > 1]
        if groups:
            one, other = self.words.shuffled(self.words.one_of(groups))[:2]
            replies = [self.lines[place].split(" ", 2)[2] for place in (one, other)]
            for place, reply in zip((other, one), replies):
                self.lines[place] = " ".join(self.lines[place].split(" ", 2)[:2] + [reply])

    def _move(self):
        """A line comes earlier or later, among the lines of other clients."""
        place = self.words.below(len(self.lines))
        line = self.lines[place]
        client = line.split(" ")[1]
        own = [at for at, other in enumerate(self.lines) if other.split(" ")[1] == client]
        before = max([at for at in own if at < place], default=-1)
        after = min([at for at in own if at > place], default=len(self.lines))
        del self.lines[place]
        self.lines.insert(self.words.choice(before + 1, after - 1), line)

    def _abort(self):
        """A call that has changed rows is aborted, as late as may be: others have seen what it wrote."""
        changed = [place for place in self._ends() if self._asked(place).proc > 2 and " OK" in self.lines[place]]
        if changed:
            place = self.words.one_of(changed)
            client = self.lines.pop(place).split(" ")[1]
            later = [at for at, line in enumerate(self.lines) if at >= place and line.split(" ")[1] == client]
            self.lines.insert(min(later, default=len(self.lines)), "abort " + client)

    def _lost(self):
        """A call that was answered has no answer."""
        drawn = self._end_drawn()
        if drawn:
            self.lines[drawn[0]] = "lost " + drawn[1]

    def _vague(self):
        """Of a reply only the kind is known, and now and then it is the wrong one."""
        drawn = self._end_drawn()
        if drawn:
            place, client, reply = drawn
            word = reply.split(" ")[0]
            if self.words.chance(35):
                word = "FAILED" if word == "OK" else "OK"
            self.lines[place] = "end %s %s ?" % (client, word)

    def _comment(self):
        """A comment or an empty line stands somewhere."""
        if self.words.chance(30):
            self.lines.insert(self.words.below(len(self.lines) + 1), self.words.one_of(("", "#", "# end 0 OK")))
