"""What a run is to be, as the words of a command line say it."""
import argparse
import dataclasses
import os

from modes import MODES, TRANSACTIONS, Mode

ROOT = os.path.join(os.path.dirname(os.path.abspath(__file__)), "..")
PROGRAM = os.path.join("crates", "tatp", "out", "tatp")
# By the name of an engine its module, what that needs of python, and Debian's package with this.
ENGINES = {"sqlite": ("sqlite_engine", "sqlite3", "libpython3-stdlib"),
           "postgres": ("postgres_engine", "psycopg", "python3-psycopg"),
           "mariadb": ("mariadb_engine", "pymysql", "python3-pymysql")}
# The first is the database's own.
ISOLATIONS = {"sqlite": ("serializable",), "postgres": ("read-committed", "repeatable-read", "serializable"),
              "mariadb": ("repeatable-read", "read-uncommitted", "read-committed", "serializable")}
# Those that can have a copy that lags.
WITH_REPLICA = ("sqlite", "postgres")
# Subscribers, clients, calls of each client and the seed where none are named: of right calls, and of wrong ones. These
# are seen where clients meet on one subscriber, who by that seed has three facilities, each active.
RIGHT = (1000, 4, 5000, 1)
WRONG = (1, 4, 500, 9)
# How many configurations of one subscriber the judge keeps.
MOST = 65536


@dataclasses.dataclass
class Plan:
    """A run: its engine, and how its calls are made."""

    engine: str
    mode_name: str
    isolation: str
    subscribers: int
    clients: int
    calls: int
    seed: int
    only: tuple = ()
    is_uniform: bool = False
    is_durable: bool = False
    most: int = MOST
    program: str = PROGRAM
    kept: str = None

    @property
    def mode(self) -> Mode:
        return MODES[self.mode_name]


def plan_of(engine, mode="right", isolation=None, subscribers=None, clients=None, calls=None, seed=None, only=None,
            **more):
    """A run with what is named, and the rest as it is where nothing is named."""
    usual = RIGHT if mode == "right" else WRONG
    return Plan(engine, mode, isolation or ISOLATIONS[engine][0], subscribers or usual[0], clients or usual[1],
                calls or usual[2], usual[3] if seed is None else seed, tuple(only or MODES[mode].shown_by), **more)


def number(low, high):
    """Reads a number between these."""
    def read(word):
        if not (word.isascii() and word.isdecimal() and low <= int(word) <= high):
            raise argparse.ArgumentTypeError("'%s' is not a number from %d to %d" % (word, low, high))
        return int(word)
    return read


def words_of(doc):
    """The words of engines/run."""
    modes = "\n".join("  %s: %s" % (name, mode.told) for name, mode in MODES.items())
    words = argparse.ArgumentParser(prog="engines/run", allow_abbrev=False, description=doc.strip(),
                                    formatter_class=argparse.RawDescriptionHelpFormatter,
                                    epilog="the modes:\n" + modes)
    words.add_argument("engine", choices=ENGINES)
    words.add_argument("--mode", choices=MODES, default="right", metavar="M", help="how calls are made (right)")
    words.add_argument("--isolation", metavar="I",
                       help="; ".join("%s: %s" % (name, ", ".join(levels)) for name, levels in ISOLATIONS.items()
                                      if levels[1:]) + " (the first of these)")
    words.add_argument("--subscribers", type=number(1, 1000000), metavar="N", help="(%d; of wrong modes %d)"
                       % (RIGHT[0], WRONG[0]))
    words.add_argument("--clients", type=number(1, 64), metavar="C", help="(%d; of wrong modes %d)"
                       % (RIGHT[1], WRONG[1]))
    words.add_argument("--calls", type=number(1, 1000000000), metavar="K", help="of each client (%d; of wrong modes %d)"
                       % (RIGHT[2], WRONG[2]))
    words.add_argument("--uniform", action="store_true", help="all subscribers are called about as often")
    words.add_argument("--seed", type=number(0, 2**64 - 1), metavar="S",
                       help="of rows and calls (%d; of wrong modes %d)" % (RIGHT[3], WRONG[3]))
    words.add_argument("--only", nargs="+", choices=TRANSACTIONS, metavar="NAME", help="only these transactions are "
                       "called, in turn (all, in the benchmark's mix; of wrong modes those that show what is wrong)")
    words.add_argument("--durable", action="store_true", help="a call that writes waits for the disk")
    words.add_argument("--most", type=number(1, 1000000), default=MOST, metavar="M", help="of how many configurations "
                       "of one subscriber the judge says that it doesn't know (%d)" % MOST)
    words.add_argument("--keep", metavar="FILE", help="where the history is kept")
    words.add_argument("--program", metavar="FILE", default=os.path.join(ROOT, PROGRAM),
                       help="the program that draws and judges (%s)" % PROGRAM)
    return words


def plan_from(doc, words):
    """The run that the words ask for. What they can't be ends the script with status 2."""
    parser = words_of(doc)
    given = parser.parse_args(words)
    if given.isolation not in (None, *ISOLATIONS[given.engine]):
        parser.error("the isolation levels of %s are %s" % (given.engine, ", ".join(ISOLATIONS[given.engine])))
    if MODES[given.mode].has_replica and given.engine not in WITH_REPLICA:
        parser.error("a copy of %s is not made here, so it has no mode %s" % (given.engine, given.mode))
    return plan_of(given.engine, given.mode, given.isolation, given.subscribers, given.clients, given.calls,
                   given.seed, given.only, is_uniform=given.uniform, is_durable=given.durable, most=given.most,
                   program=os.path.abspath(given.program), kept=given.keep and os.path.abspath(given.keep))
