"""What happens to extents: they leave and land, routes learn of it, and their logs are handed out."""
from .whole import CHAPTER_COUNT_FULL, LOG_ENDED, MOVE_COUNT_FULL, NO_PARTITION, NOT_HERE, NOT_IN_HAND, PINNED, RUNNING
from .whole import extent_of

MOST_MOVES = MOST_CHAPTERS = 65535


def take(whole, partition, extent):
    site = whole.site(partition)
    if site is None:
        return whole.refused("take", NO_PARTITION)
    if whole.place.get(extent) != partition:
        return whole.refused("take", NOT_HERE)
    if site.call is not None and site.call.home is not None and extent_of(site.call.home) == extent:
        whole.reached("a take of a pinned extent before the first step", site.call.pc == 0)
        whole.reached("a take of a pinned extent while stopped", site.is_stopped)
        return whole.refused("take", PINNED)
    if whole.moves[extent] == MOST_MOVES:
        return whole.refused("take", MOVE_COUNT_FULL)
    whole.reached("a take beside a running call", site.call is not None)
    whole.moves[extent] += 1
    whole.place[extent] = None
    return whole.answered("take", "PARCEL", extent, whole.moves[extent])


def give(whole, partition, extent):
    if whole.site(partition) is None:
        return whole.refused("give", NO_PARTITION)
    if extent not in whole.place or whole.place[extent] is not None:
        return whole.refused("give", NOT_IN_HAND)
    whole.place[extent] = partition
    whole.landings[extent, whole.moves[extent]] = partition
    whole.reached("a give to a stopped partition", whole.sites[partition].is_stopped)
    return whole.answered("give", "LANDED", extent, whole.moves[extent])


def route(whole, extent, moves):
    if (extent, moves) not in whole.landings:
        return whole.refused("route", NOT_IN_HAND)
    partition = whole.landings.pop((extent, moves))
    if moves > whole.routes[extent][1]:
        whole.routes[extent] = (partition, moves)
        whole.reached("a route is set to where the extent was, and not is", whole.place[extent] != partition)
        return whole.answered("route", "SET", extent, partition)
    whole.reached("a landing of another partition is superseded", partition != whole.routes[extent][0])
    return whole.answered("route", "SUPERSEDED", extent)


def obstacle_to_checkpoint(whole, partition, extent):
    site = whole.site(partition)
    if site is None:
        return NO_PARTITION
    is_here = partition == (0 if extent == 0 else whole.place.get(extent))
    if site.call is not None:
        whole.reached("a checkpoint of an extent that isn't here beside a running call", not is_here)
        return RUNNING
    if not is_here:
        return NOT_HERE
    if whole.logs[extent].is_mixed:
        return LOG_ENDED
    return CHAPTER_COUNT_FULL if whole.logs[extent].chapters == MOST_CHAPTERS else None


def checkpoint(whole, partition, extent):
    obstacle = obstacle_to_checkpoint(whole, partition, extent)
    if obstacle:
        return whole.refused("checkpoint", obstacle)
    index, entries = whole.logs[extent].hand_out()
    whole.reached("a chapter of calls without a home", extent == 0 and entries > 0)
    whole.reached("a chapter of several calls", extent > 0 and entries > 1)
    whole.reached("a chapter of no calls", entries == 0)
    whole.reached("a later chapter with calls", index > 0 and entries > 0)
    whole.reached("a chapter of an extent that was moved", extent > 0 and whole.moves[extent] > 0)
    whole.reached("a checkpoint while stopped", whole.sites[partition].is_stopped)
    return whole.answered("checkpoint", "CHAPTER", extent, index, entries)
