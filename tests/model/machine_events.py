"""What a partition's machine does: steps, and what a debugger does with it."""
from .whole import AT_BREAK, NO_PARTITION, NOT_RUNNING, NOT_STOPPED, STOPPED, TOO_MANY_BREAKS

MOST_BREAKS = 8


# ---- steps
def advance(whole, word, site):
    """The running call makes a step, or ends: then its client has the reply, and its extent's log the call."""
    call = site.call
    end = call.act()
    if end is None:
        return whole.answered(word, "MOVED")
    if end != "OK":
        whole.reached("%s takes a change back" % end.split(" ")[0], call.changes > 0)
        call.set_back()
    site.call = None
    whole.busy.remove(call.client)
    reply = call.reply(end)
    whole.ended.append((call.ask, reply))
    whole.log_of(call.home).end(call.ask.is_transaction and whole.is_standard)
    whole.reached("a raw call ends: %s" % end, not call.ask.is_transaction)
    whole.reached("a transaction ends under another module", call.ask.is_transaction and not whole.is_standard)
    return whole.answered(word, "ENDED", call.client, reply)


def step(whole, partition, word="step"):
    site = whole.site(partition)
    if site is None:
        return whole.refused(word, NO_PARTITION)
    if site.call is None:
        return whole.refused(word, NOT_RUNNING)
    if site.is_stopped:
        return whole.refused(word, STOPPED)
    if site.is_at_break():
        return whole.refused(word, AT_BREAK)
    return advance(whole, word, site)


def steps(whole, partition, count):
    return [line for _ in range(count) for line in step(whole, partition, "steps")]


def one(whole, partition):
    site = whole.site(partition)
    if site is None:
        return whole.refused("one", NO_PARTITION)
    if site.call is None:
        return whole.refused("one", NOT_RUNNING)
    whole.reached("one at a breakpoint", site.is_at_break())
    whole.reached("one while stopped", site.is_stopped)
    return advance(whole, "one", site)


# ---- stops
def stop(whole, partition):
    site = whole.site(partition)
    if site is None:
        return whole.refused("stop", NO_PARTITION)
    if site.is_stopped:
        return whole.refused("stop", STOPPED)
    site.is_stopped = True
    if site.call is not None:
        whole.stopped_at.add((site.call.proc, site.call.pc))
    return whole.answered("stop", "OK")


def resume(whole, partition):
    site = whole.site(partition)
    if site is None:
        return whole.refused("resume", NO_PARTITION)
    if not site.is_stopped:
        return whole.refused("resume", NOT_STOPPED)
    site.is_stopped = False
    return whole.answered("resume", "OK")


# ---- breakpoints
def set_break(whole, partition, proc, pc):
    site = whole.site(partition)
    if site is None:
        return whole.refused("break", NO_PARTITION)
    is_set, is_full = (proc, pc) in site.breaks, len(site.breaks) == MOST_BREAKS
    if not is_set and is_full:
        return whole.refused("break", TOO_MANY_BREAKS)
    whole.reached("a breakpoint that is set is set again beside seven", is_set and is_full)
    site.breaks.add((proc, pc))
    return whole.answered("break", "OK")


def clear_break(whole, partition, proc, pc):
    site = whole.site(partition)
    if site is None:
        return whole.refused("clear", NO_PARTITION)
    is_set = (proc, pc) in site.breaks
    is_met = is_set and site.call is not None and (site.call.proc, site.call.pc) == (proc, pc)
    whole.reached("a breakpoint at which a call stands is cleared", is_met)
    whole.reached("a breakpoint that isn't set is cleared", not is_set)
    site.breaks.discard((proc, pc))
    return whole.answered("clear", "OK")
