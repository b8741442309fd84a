"""What an edit is: lines `file: src/FILE.rt`, `old: TEXT` (once in that file) and `new: TEXT`. Whether it can be
applied is judged as rt does it. Texts are bytes here, which latin-1 keeps as they are."""
import os
import re

NAME = re.compile(r"[A-Za-z0-9_-][A-Za-z0-9_.-]*\.edit")
FOLDERS = ("must-fail", "wrong-bodies")


def read_lines(path):
    """The lines of a file, or None where there is none."""
    if not os.path.isfile(path):
        return None
    with open(path, encoding="latin-1", newline="") as file:
        lines = file.read().split("\n")
    return lines[:-1] if lines[-1] == "" else lines


def bodies(crate):
    """The files of a crate's wrong bodies."""
    found = []
    for folder in FOLDERS:
        for at, _, names in os.walk(os.path.join(crate, folder)):
            found += [os.path.join(at, name) for name in names if not name.endswith(".md")]
    return sorted(found)


def crates_below(folder):
    """The crates that each crate stands on, by the list of the repository that has this one."""
    below = {}
    for line in read_lines(os.path.join(folder, "..", "..", "crates.txt")):
        crate, colon, others = line.partition(":")
        if colon and not line.startswith("#"):
            below[crate.split()[0]] = others.split()
    return below


class Obstacle(Exception):
    """What stands against applying an edit."""


class Line:
    """A line that an edit changes: its file in the crate, its number, and what stands there then."""

    def __init__(self, path, number, text):
        self.path, self.number, self.text = path, number, text


class Crate:
    """A crate's files as they are, and what each of its edits makes of them."""

    def __init__(self, folder):
        self.folder = folder
        below = crates_below(folder)
        name = os.path.basename(folder)
        # The crates that its sources can't name.
        self.strange = below.keys() - {name, *below.get(name, [])}
        self.originals = {}
        # Which edit has a name, and which made a text.
        self.named, self.makers = {}, {}

    def original(self, path):
        """The text of a file, in which each line ends with a line feed, or None."""
        if path not in self.originals:
            lines = read_lines(os.path.join(self.folder, path))
            self.originals[path] = None if lines is None else "".join(line + "\n" for line in lines)
        return self.originals[path]

    def apply_pair(self, changed, path, old, new):
        """Applies one pair to what the earlier ones made."""
        if not re.match("(src|specs|proofs)/", path):
            raise Obstacle("a pair stands below no line file: with a file of src/, specs/ or proofs/")
        if old == "":
            raise Obstacle("a line new: stands below no line old:")
        if path not in changed:
            changed[path] = self.original(path)
            if changed[path] is None:
                raise Obstacle("there is no file " + path)
        before, found, after = changed[path].partition(old)
        if not found:
            raise Obstacle("this does not stand in %s: %s" % (path, old))
        if old in after:
            raise Obstacle("this stands more than once in %s: %s" % (path, old))
        changed[path] = before + new + after

    def apply(self, edit):
        """The files that an edit changes, each as it is then."""
        changed, path, old, pairs = {}, "", "", 0
        for line in read_lines(edit):
            if line.startswith("file: "):
                path = line[6:]
            elif line.startswith("old: "):
                old = line[5:]
            elif line.startswith("new:"):
                self.apply_pair(changed, path, old, line[4:].removeprefix(" "))
                old = ""
                pairs += 1
            elif line != "":
                raise Obstacle("a line begins with none of file:, old: and new:")
        if old != "":
            raise Obstacle("a line old: stands above no line new:")
        if pairs == 0:
            raise Obstacle("it has no pair of lines old: and new:")
        return {path: text for path, text in changed.items() if text != self.original(path)}

    def lines(self, changed):
        """Each line that is changed. An edit adds none and takes none away, since its texts are lines."""
        for path, text in changed.items():
            pairs = zip(self.original(path).split("\n"), text.split("\n"))
            for number, (before, after) in enumerate(pairs, 1):
                if before != after:
                    yield Line(path, number, after)

    def judge(self, edit):
        """The lines that an edit changes, or the obstacle that is raised."""
        name = os.path.basename(edit)
        earlier = self.named.get(name)
        self.named[name] = edit
        if earlier:
            raise Obstacle(earlier + " has its name")
        if not NAME.fullmatch(name):
            raise Obstacle("its name is not letters, digits, _, - and . and then .edit")
        changed = self.apply(edit)
        made = tuple(sorted(changed.items()))
        if not made:
            raise Obstacle("it changes nothing")
        if made in self.makers:
            raise Obstacle("it changes the same as " + self.makers[made])
        self.makers[made] = edit
        lines = list(self.lines(changed))
        for line in lines:
            for crate in re.findall(r"\b(\w+)::", line.text):
                if crate in self.strange:
                    raise Obstacle("it names %s, on which its crate doesn't stand" % crate)
        return lines


def can_be_applied(crate):
    """The lines that each edit of a crate changes, by the edit's file, and what stands against others."""
    judge, lines, obstacles = Crate(crate), {}, {}
    for edit in bodies(crate):
        try:
            lines[edit] = judge.judge(edit)
        except Obstacle as obstacle:
            obstacles[edit] = str(obstacle)
    return lines, obstacles
