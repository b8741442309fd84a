"""What is looked at: a running call, the rows of a home, and whether all rows are clean."""
from .tables import TABLES, home_texts
from .whole import NO_PARTITION, NOT_HERE, NOT_RUNNING, extent_of


def look(whole, partition):
    site = whole.site(partition)
    if site is None:
        return whole.refused("look", NO_PARTITION)
    if site.call is None:
        return whole.refused("look", NOT_RUNNING)
    whole.kinds["look: AT"] += 1
    whole.reached("a look at a call that made changes", site.call.changes > 0)
    whole.reached("a look at a call without a home", site.call.home is None)
    return site.call.look()


def home(whole, partition, s_id):
    site = whole.site(partition)
    if site is None:
        return whole.refused("home", NO_PARTITION)
    if s_id not in whole.homes or whole.place[extent_of(s_id)] != partition:
        return whole.refused("home", NOT_HERE)
    whole.kinds["home: rows"] += 1
    is_changed = site.call is not None and site.call.home == s_id and site.call.changes > 0
    whole.reached("a home that a running call has changed", is_changed)
    return home_texts(whole.homes[s_id])


def audit(whole):
    whole.reached("an audit with a parcel in hand", None in whole.place.values())
    is_changed = any(site.call is not None and site.call.changes > 0 for site in whole.sites)
    whole.reached("an audit in mid-call after a change", is_changed)
    counts = [sum(len(home[table]) for home in whole.homes.values()) for table in TABLES]
    return whole.answered("audit", "CLEAN", *counts)
