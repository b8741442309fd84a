"""Copies of the repository, and rt in them. A copy has what earlier checks kept and no wrong body."""
import os
import shutil
import subprocess
import threading

from . import reports
from .edits import FOLDERS, bodies, read_lines
from .rounds import halves, rounds_of

SOURCES = ("src", "specs", "proofs")
# With what earlier checks kept.
PARTS = (*SOURCES, "out/incremental", "out/rlib")
# What a crate's own rt reads of the crates below it.
BELOW = ("src", "specs", "proofs", "out/rlib")


def needed(names):
    """These crates and those that they stand on."""
    told = (subprocess.run(["tools/crates", name], capture_output=True, text=True, check=True) for name in names)
    return {name for done in told for name in done.stdout.split()}


def lanes():
    """How many provers may run at once: one a processor but one, and 3 GB for each."""
    with open("/proc/meminfo", encoding="ascii") as file:
        free = next(int(line.split()[1]) for line in file if line.startswith("MemAvailable:"))
    return max(1, min((os.cpu_count() or 1) - 1, free // 3000000))


def copy_tree(source, to, with_links=False):
    shutil.copytree(source, to, symlinks=True, copy_function=os.link if with_links else shutil.copy2)


class Prover:
    """Runs rt, and ends what runs when it is told to."""

    def __init__(self):
        self.running, self.lock, self.is_ended = set(), threading.Lock(), False

    def rt(self, folder, *words):
        """What rt says there."""
        with self.lock:
            if self.is_ended:
                return ""
            process = subprocess.Popen(
                ["rt", *words], cwd=folder, stdin=subprocess.DEVNULL, stdout=subprocess.PIPE, stderr=subprocess.STDOUT)
            self.running.add(process)
        said = process.communicate()[0].decode("latin-1")
        with self.lock:
            self.running.discard(process)
        return said

    def end(self):
        with self.lock:
            self.is_ended = True
            for process in self.running:
                process.terminate()


def copy_repository(names, to, parts=PARTS):
    """These crates alone, and of each these parts; no wrong body is among them."""
    os.makedirs(os.path.join(to, "crates"))
    shutil.copy2("HANDLES", to)
    with open(os.path.join(to, "crates.txt"), "w", encoding="latin-1") as file:
        for line in read_lines("crates.txt"):
            if line.split(" ")[0].rstrip(":") in names:
                file.write(line + "\n")
    for name in names:
        os.makedirs(os.path.join(to, "crates", name, "out"))
        for part in parts:
            if os.path.isdir(os.path.join("crates", name, part)):
                copy_tree(os.path.join("crates", name, part), os.path.join(to, "crates", name, part))


class Lane:
    """One crate's wrong bodies, tried in a repository of their own, since one rt keeps others out of a crate's folder
    and of those below. The crates below are the same files there: nothing writes to them."""

    def __init__(self, prover, room, name):
        self.prover, self.name = prover, name
        self.copy = os.path.join(room, "repository")
        self.mine = os.path.join(room, name + ".repository")
        self.crate = os.path.join(self.mine, "crates", name)
        self.refused, self.alone = set(), ""

    def begin(self):
        os.makedirs(os.path.join(self.mine, "crates"))
        for file in ("HANDLES", "crates.txt"):
            shutil.copy2(os.path.join(self.copy, file), self.mine)
        for below in os.listdir(os.path.join(self.copy, "crates")):
            there = os.path.join(self.mine, "crates", below)
            os.makedirs(os.path.join(there, "out"))
            for part in BELOW:
                source = os.path.join(self.copy, "crates", below, part)
                if os.path.isdir(source):
                    copy_tree(source, os.path.join(there, part), with_links=True)

    def lay_out(self, trials=()):
        """Makes the crate anew, with the lines of these trials in place."""
        shutil.rmtree(self.crate)
        copy_tree(os.path.join(self.copy, "crates", self.name), self.crate)
        texts = {}
        for trial in trials:
            for line in trial.lines:
                if line.path not in texts:
                    texts[line.path] = read_lines(os.path.join(self.crate, line.path))
                texts[line.path][line.number - 1] = line.text
        for path, lines in texts.items():
            with open(os.path.join(self.crate, path), "w", encoding="latin-1", newline="") as file:
                file.write("".join(line + "\n" for line in lines))

    def try_round(self, trials):
        """Adds to the refused what one check refuses. A round that rt could not judge is halved."""
        self.lay_out(trials)
        found = reports.refused(trials, self.prover.rt(self.crate, "check", "--jobs", "1"))
        if found is not None:
            self.refused |= found
        elif len(trials) > 1 and not self.prover.is_ended:
            for half in halves(trials):
                self.try_round(half)

    def try_alone(self):
        """Asks rt must-fail of those that no round refused."""
        left = [body for body in bodies(os.path.join("crates", self.name)) if body not in self.refused]
        if not left:
            return
        self.lay_out()
        os.makedirs(os.path.join(self.crate, FOLDERS[0]))
        for body in left:
            shutil.copy2(body, os.path.join(self.crate, FOLDERS[0]))
        self.alone = self.prover.rt(self.mine, "must-fail", self.name)

    def run(self, trials):
        self.begin()
        for tried in rounds_of(trials):
            self.try_round(tried)
        self.try_alone()
        shutil.rmtree(self.mine)

    def judge(self, body):
        """Whether a wrong body was refused, and what is to be said of it, or None."""
        if body in self.refused:
            return True, None
        return reports.judge("%s/%s" % (self.name, os.path.basename(body)), self.alone)
