"""Which function's inside a line of a source is. Functions are found by the layout that rt fmt gives them."""
import os
import re

from .edits import read_lines

HEAD = re.compile(r" *(pub(\([a-z]+\))? )?(unsafe )?fn [A-Za-z_]")
ABOVE = re.compile(r" *(#\[|///)")


class Function:
    """A function: the folder of its proof, its file, and the lines where it begins, with the attributes and the comment
    above it, and ends."""

    def __init__(self, folder, path, begin):
        self.folder, self.path, self.begin, self.end = folder, path, begin, None


def after_parameters(text):
    """What stands after parameters in angle brackets."""
    depth = 0
    for at, letter in enumerate(text):
        depth += (letter == "<") - (letter == ">")
        if depth == 0:
            return text[at + 1 :].lstrip(" ")
    return ""


def proof_folder(path, header, name):
    """The folder of the proof of a function: below its type, wherever that is, or else at the path of its file."""
    if header == "":
        path = re.sub(r"^src/|(/?(mod|lib|main))?\.rt$", "", path)
        return (path + "/" if path else "") + name
    header = re.sub(r"^ *(unsafe )?impl *", "", header)
    if header.startswith("<"):
        header = after_parameters(header)
    header = re.sub(r" *(where .*)?\{?$", "", header, count=1)
    trait = ""
    if " for " in header:
        trait = re.sub(".*::", "", header.partition(" for ")[0].partition("<")[0])
        header = header.rpartition(" for ")[2]
    return header.partition("<")[0] + trait + "/" + name


class Reader:
    """Reads where each function of a file has its inside. One of a cycle shares its proof with others, and counts as
    none."""

    def __init__(self, path):
        self.path, self.inside = path, {}
        self.above = self.body = self.depth = 0
        self.header, self.in_cycle, self.function = "", False, None

    def open(self, number, line, indent):
        """A function begins."""
        name = re.sub("[^A-Za-z0-9_].*", "", re.sub(".*fn ", "", line, count=1), count=1)
        folder = proof_folder(self.path, self.header if indent else "", name)
        self.function = None if self.in_cycle else Function(folder, self.path, self.above or number)
        self.in_cycle, self.body, self.depth = False, 0, indent

    def close(self, number):
        self.function.end = number
        for inner in range(self.body + 1, number):
            self.inside[inner] = self.function
        self.function = None

    def line(self, number, line):
        if line == "":
            self.above = 0
            return
        if not self.above and ABOVE.match(line):
            self.above = number
        indent = len(line) - len(line.lstrip(" "))
        if line.lstrip(" ").startswith("#[cycle"):
            self.in_cycle = True
        if not self.function and re.match("(unsafe )?impl[ <]", line):
            self.header = line
        if line == "}" and not self.function:
            self.header = ""
        if HEAD.match(line) and (not self.function or indent <= self.depth):
            self.open(number, line, indent)
        if line[-1] in "{};":
            self.above = 0
        if not self.function or indent != self.depth:
            return
        if line.endswith("{") and not self.body:
            self.body = number
        elif line.strip(" ") == "}" and self.body:
            self.close(number)
        elif line[-1] in ";}":
            self.function = None


def insides(crate, path):
    """The function in whose inside each line of a file is, by the line's number."""
    reader = Reader(path)
    if path.startswith("src/"):
        for number, line in enumerate(read_lines(os.path.join(crate, path)) or [], 1):
            reader.line(number, line)
    return reader.inside
