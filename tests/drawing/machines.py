"""Lines by which calls begin, make steps, are stopped and looked at."""
from model.calls import STANDARD, Ask, read_call
from model.machine import Call
from model.tables import copied

from .asks import OWN, Asks, most_rounds
from .choices import can_begin, can_go_on, has_call

PLACES = [(proc, pc) for proc, procedure in enumerate(STANDARD.procedures) for pc in range(len(procedure.code))]
# At least as many steps as a call of each transaction makes. GET_NEW_DESTINATION has a loop: twelve steps, three rounds
# of at most twelve, and two.
MOST_STEPS = [len(procedure.code) for procedure in STANDARD.procedures]
MOST_STEPS[1] = 50


def most_steps(proc):
    """At least as many steps as a call makes; of a procedure of one's own so many as are made at once."""
    return MOST_STEPS[proc] if proc < len(MOST_STEPS) else 4096


def steps_left(call):
    """At least as many steps as a running call makes to its end, and at least one."""
    return max(most_steps(call.proc) - call.steps, 1)


class Machines(Asks):
    def submit(self):
        if len(self.whole.busy) == self.whole.clients and self.words.chance(80):
            return self.give()
        bad = self.words.chance(8)
        return [self.submit_of(self.procedure(), self.subscriber(), self.client(), bad)]

    # ---- steps
    def begin(self):
        if self.lacks(can_begin):
            return self.submit()
        return ["begin %d" % self.partition(can_begin)]

    def run(self):
        """A call begins and makes its steps, mostly to its end."""
        if self.lacks(can_begin):
            return self.submit()
        p = self.partition(can_begin)
        site = self.whole.site(p)
        most = most_steps(site.queue[0][1].proc) if site and site.queue else 6
        count = most - 1 if self.words.chance(60) else self.words.choice(1, most)
        return ["begin %d" % p, "steps %d %d" % (p, count)]

    def deny(self):
        return ["deny %d" % self.partition(lambda site: site.queue and not site.call)]

    def steps(self):
        if self.lacks(can_go_on):
            return self.begin()
        p = self.partition(can_go_on)
        call = self.whole.sites[p].call if p < len(self.whole.sites) else None
        left = steps_left(call) if call else 4
        return ["steps %d %d" % (p, left if self.words.chance(30) else self.words.choice(1, min(left + 3, 4096)))]

    def step(self):
        return ["step %d" % self.partition(has_call)]

    def one(self):
        return ["one %d" % self.partition(has_call)]

    def look(self):
        return ["look %d" % self.partition(has_call)]

    # ---- stops
    def stop(self):
        return ["stop %d" % self.partition(lambda site: site.call and not site.is_stopped)]

    def resume(self):
        if self.lacks(lambda site: site.is_stopped):
            return self.run()
        return ["resume %d" % self.partition(lambda site: site.is_stopped)]

    def stopped(self):
        """A call goes on to some place, is stopped there, looked at, and makes one step."""
        found = [p for p, site in enumerate(self.whole.sites) if site.call and not site.is_stopped]
        if not found:
            return self.begin()
        p = self.words.one_of(found)
        call = self.whole.sites[p].call
        left = steps_left(call)
        lines = ["steps %d %d" % (p, self.words.choice(1, left))] if self.words.chance(80) else []
        lines += ["stop %d" % p, "step %d" % p, "look %d" % p, "begin %d" % p, "deny %d" % p]
        lines += ["home %d %d" % (p, call.home)] if call.home is not None else []
        return lines + ["one %d" % p] * self.words.below(3) + (["resume %d" % p] if self.words.chance(80) else [])

    def aimed(self, proc, pc):
        """A transaction that comes to this place is stopped there, looked at, and makes one step while it is stopped.
        It is drawn for a whole as it was opened."""
        for _ in range(100):
            s = self.words.one_of(self.subscribers) if self.words.chance(75) else len(self.whole.homes) + 1
            line = self.submit_of(proc, s, 0)
            ask = read_call(line.split(" ", 2)[2])
            ask.home = self.whole.home_of(ask)
            homes = {} if ask.home is None else {ask.home: copied(self.whole.homes[ask.home])}
            call = Call(self.whole.module, 0, ask, homes)
            made, end = 0, None
            while call.pc != pc and end is None:
                made += 1
                end = call.act()
            if end is None:
                p = self.whole.route_of(ask.home)
                lines = [line, "begin %d" % p] + (["steps %d %d" % (p, made)] if made else [])
                lines += ["stop %d" % p, "step %d" % p, "look %d" % p, "one %d" % p, "resume %d" % p]
                return lines + ["steps %d %d" % (p, steps_left(call))]
        return []

    def at_limits(self):
        """Each procedure of one's own to its end: as many rounds as it makes without a trap, and one more, on a home
        and without one. It is drawn for a whole in which no extent has moved and no call runs."""
        lines = []
        for proc, procedure in enumerate(self.whole.module.procedures[OWN:], OWN):
            for more in (0, 1):
                for s in (self.words.one_of(self.subscribers), len(self.whole.homes) + 1):
                    lines += self.to_its_end(Ask(proc, [s, most_rounds(procedure) + more], False, s))
        return lines

    def to_its_end(self, ask):
        """The lines by which client 0 asks for a raw call, which begins and makes its steps."""
        ask.home = self.whole.home_of(ask)
        homes = {} if ask.home is None else {ask.home: copied(self.whole.homes[ask.home])}
        call, made = Call(self.whole.module, 0, ask, homes), 1
        while call.act() is None:
            made += 1
        p = self.whole.route_of(ask.home)
        arguments = " ".join(map(str, ask.arguments))
        return ["raw 0 %d id %d %s" % (ask.proc, ask.key, arguments), "begin %d" % p, "steps %d %d" % (p, made)]

    # ---- breakpoints
    def breakpoint(self, p):
        """A place, mostly one that the running call of the partition is yet to come to."""
        site = self.whole.site(p)
        if site and site.call and self.words.chance(70):
            return site.call.proc, site.call.pc + self.words.below(6)
        return self.words.one_of(PLACES) if self.words.chance(95) else (self.number(), self.number())

    def set_break(self):
        p = self.partition(has_call)
        return ["break %d %d %d" % (p, *self.breakpoint(p))]

    def clear(self):
        p = self.partition(lambda site: site.breaks)
        site = self.whole.site(p)
        is_set = site and site.breaks and self.words.chance(85)
        place = self.words.one_of(sorted(site.breaks)) if is_set else self.breakpoint(p)
        return ["clear %d %d %d" % (p, *place)]

    def clear_met(self):
        """A breakpoint at which a call stands is cleared, and the call goes on."""
        found = [p for p, site in enumerate(self.whole.sites) if site.call and site.is_at_break()]
        if not found:
            return self.steps()
        p = self.words.one_of(found)
        call = self.whole.sites[p].call
        return ["step %d" % p, "clear %d %d %d" % (p, call.proc, call.pc), "step %d" % p]

    def nine_breaks(self):
        """Breakpoints up to the ninth, one of them twice, and all cleared."""
        p = self.words.below(len(self.whole.sites))
        places = self.words.shuffled(PLACES)[:9]
        lines = ["break %d %d %d" % (p, *place) for place in places + places[:2]]
        return lines + ["clear %d %d %d" % (p, *place) for place in sorted(self.whole.sites[p].breaks) + places]
