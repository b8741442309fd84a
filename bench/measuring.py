"""What scripts that measure have in common: the numbers that choose their size, the machine, how bench and bench/bounds
are run, and runs in turn."""
import os
import platform
import re
import shutil
import subprocess
import sys

ROOT = os.path.join(os.path.dirname(os.path.abspath(__file__)), "..")

# The surroundings in which ./tatp runs bench: with large pages.
SURROUNDINGS = {"GLIBC_TUNABLES": "glibc.malloc.hugetlb=1:glibc.malloc.mmap_threshold=33554432", **os.environ}


def numbers(script, name, default):
    """The numbers of a variable of the surroundings."""
    words = os.environ.get(name, default).split()
    if not words or not all(word.isascii() and word.isdecimal() and int(word) > 0 for word in words):
        sys.exit("%s: %s has to be numbers, not '%s'" % (script, name, os.environ[name]))
    return [int(word) for word in words]


def machine():
    """The machine in a line: processors, their name, the system."""
    name = platform.machine()
    if os.path.exists("/proc/cpuinfo"):
        with open("/proc/cpuinfo", encoding="utf-8", errors="replace") as file:
            found = re.search(r"^model name[^:]*: *(.*)$", file.read(), re.MULTILINE)
        name = re.sub("[<>&]", "", found[1]) if found else name
    return "%d x %s, %s %s" % (os.cpu_count(), name, platform.system(), platform.machine())


# ---- bench/bounds
# The nanoseconds of work that count for a call.
WORK = 1200


def handover(room):
    """The program of bench/bounds that hands calls over, made into a folder."""
    compiler = next(filter(None, map(shutil.which, ("cc", "gcc", "clang"))), None)
    if compiler is None:
        sys.exit("bench/bounds: no C compiler")
    path = os.path.join(room, "handover")
    source = os.path.join(ROOT, "bench", "bounds", "handover.c")
    subprocess.run([compiler, "-O2", "-pthread", "-o", path, source], check=True)
    return path


def clients_of_a_thread(clients):
    """As in the command: up to seven clients have a thread each, and more share four to seven."""
    return max(clients // 4, 1)


def handed_over(program, partitions, clients, each):
    """The words of a run of bench/bounds, which writes its calls a second."""
    return [program, *map(str, (partitions, clients, each, WORK, "none", clients_of_a_thread(clients)))]


# ---- runs in turn
# A run is repeated where others took more of the processors' time meanwhile.
MOST_STOLEN = 0.03


def ticks():
    """The ticks of all processors, and how many of them the host of a virtual machine gave to others."""
    with open("/proc/stat", encoding="ascii") as file:
        counts = [int(word) for word in file.readline().split()[1:9]]
    return sum(counts), counts[7]


def stolen_in(run):
    """The share of the processors' time that others took in a run, and what the run gave."""
    began, of_others = ticks()
    result = run()
    ended, then = ticks()
    return (then - of_others) / max(ended - began, 1), result


def lacks(made, count):
    """Whether more runs are needed for so many in which others took little: never more than twice as many."""
    return sum(stolen <= MOST_STOLEN for stolen, _ in made) < count and len(made) < 2 * count


def in_turn(count, *runs):
    """Makes several runs in turn, so many of each. Gives what each gave in those in which others took least, and how
    many were made besides."""
    made = [[] for _ in runs]
    while any(lacks(of_one, count) for of_one in made):
        for run, of_one in zip(runs, made):
            if lacks(of_one, count):
                of_one.append(stolen_in(run))
    least = [sorted(of_one, key=lambda run: run[0])[:count] for of_one in made]
    return [[result for _, result in of_one] for of_one in least], sum(map(len, made)) - count * len(runs)
