"""Which databases can be run here: each needs its server, and of python its module."""
import sys

import cluster
import mariadb_cluster
from interpreter import go_on_with, python_with
from plan import ENGINES

SERVERS = {"postgres": cluster.folder_of_programs, "mariadb": mariadb_cluster.programs}


def missing(engine, others=()):
    """What of a database isn't here, beside others that are, or None."""
    needed = [ENGINES[name][1] for name in (*others, engine)]
    if engine in SERVERS and not SERVERS[engine]():
        return "no server"
    return None if python_with(*needed) else "no python3 with " + " and ".join(needed)


def engines_there(script, asked):
    """Those of the databases asked for that can be run here, by one python3, with which the script goes on. What the
    others lack is told."""
    there, told = [], []
    for engine in asked:
        lacking = missing(engine, there)
        if lacking:
            told.append("%s: of %s there is %s here, so it is left out" % (script, engine, lacking))
        else:
            there.append(engine)
    go_on_with(*(ENGINES[engine][1:] for engine in there))
    # (where the script was started again, by the new one alone)
    for line in told:
        print(line, file=sys.stderr)
    return there
