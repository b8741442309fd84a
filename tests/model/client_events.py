"""What clients do: a call waits in the queue of a partition, and begins there, or is denied memory."""
from .calls import ARGUMENTS
from .machine import Call
from .tables import is_in_domain
from .whole import BAD_ARGUMENT, CLIENT_BUSY, NO_CLIENT, NO_PARTITION, NO_PROCEDURE, NOT_HERE, NOTHING_QUEUED
from .whole import RUNNING, STOPPED


def bad_argument(ask):
    """The place of the first argument of a transaction that is outside its column's values, or None."""
    for place, (column, value) in enumerate(zip(ARGUMENTS[ask.proc], ask.arguments)):
        if column is not None and not is_in_domain(column, value):
            return place
    return None


def submit(whole, word, client, ask):
    if client >= whole.clients:
        return whole.refused(word, NO_CLIENT)
    if client in whole.busy:
        return whole.refused(word, CLIENT_BUSY)
    procedures = whole.module.procedures
    if ask.proc >= len(procedures) or len(ask.arguments) != procedures[ask.proc].arity:
        return whole.refused(word, NO_PROCEDURE)
    place = bad_argument(ask) if ask.is_transaction else None
    if place is not None:
        return whole.refused(word, BAD_ARGUMENT, place)
    ask.home = whole.home_of(ask)
    whole.busy.add(client)
    partition = whole.route_of(ask.home)
    whole.sites[partition].queue.append((client, ask))
    whole.reached("a call without a home", ask.home is None)
    is_other = ask.is_number and ask.home not in (None, ask.key)
    whole.reached("a call on a home whose sub_nbr isn't its s_id", is_other)
    whole.reached("a call whose home is in a parcel is submitted", whole.is_in_hand(ask.home))
    return whole.answered(word, "QUEUED", partition)


def obstacle_to_begin(whole, partition):
    site = whole.site(partition)
    if site is None:
        return NO_PARTITION
    if not site.queue:
        return NOTHING_QUEUED
    if site.call is not None:
        return RUNNING
    return STOPPED if site.is_stopped else None


def send_on(whole, partition, client, ask):
    """The front call of a queue, whose home is away, goes to the back of the queue that the route names."""
    to = whole.route_of(ask.home)
    whole.sites[to].queue.append((client, ask))
    in_hand, stays = whole.is_in_hand(ask.home), to == partition
    whole.reached("away, its home in a parcel", in_hand)
    whole.reached("away to its own queue, its home landed and the route not set", stays and not in_hand)
    whole.reached("away to another queue", not stays)
    whole.reached("away behind others", stays and len(whole.sites[partition].queue) > 1)
    return whole.answered("begin", "AWAY", to)


def begin(whole, partition):
    obstacle = obstacle_to_begin(whole, partition)
    if obstacle:
        return whole.refused("begin", obstacle)
    site = whole.sites[partition]
    client, ask = site.queue.pop(0)
    if whole.is_away(partition, ask.home):
        return send_on(whole, partition, client, ask)
    site.call = Call(whole.module, client, ask, whole.homes)
    whole.reached("a raw call begins", not ask.is_transaction)
    whole.reached("a call without a home begins", ask.home is None)
    return whole.answered("begin", "BEGAN", client)


def deny(whole, partition):
    obstacle = obstacle_to_begin(whole, partition)
    site = whole.site(partition)
    if not obstacle and whole.is_away(partition, site.queue[0][1].home):
        obstacle = NOT_HERE
    if obstacle:
        return whole.refused("deny", obstacle)
    client, _ = site.queue.pop(0)
    whole.busy.remove(client)
    return whole.answered("deny", "DENIED", client)
