"""How the prover refuses a wrong body: what rt says of the goals that are left, with the words of the contract. Texts
are latin-1 here, as those of edits."""
import os
import re

from .edits import read_lines
from .reports import GOAL, NAMES, PROOF

# The name of a goal, and what has to be shown there.
NAMED = re.compile(r"\(`([^`]+)`\)")
LEFT = re.compile(r"note: `([^`]+)` of proofs/.* must prove: (.+)")
# What rt says of a proof that no longer fits.
COMPUTED = re.compile(r"  (computed.*|the two types differ .*)")
UNPROVED = re.compile(r"fn ([a-z0-9_]+)::(\S+): (not proved|no proof: it calls |no proof: )")
# What is wider is no text to read.
WIDTH = 110


def whole(lines, at):
    """The lines from this one on up to the one that closes its brackets."""
    found, depth = [], 0
    for line in lines[at:]:
        found.append(line.strip())
        depth += len(re.findall(r"[({]", line)) - len(re.findall(r"[)}]", line))
        if depth <= 0:
            break
    return found


def clause(lines, at, goal):
    """The lines of the clause that a goal of the function at this place is named after, or none."""
    label = goal.partition("clause-")[2]
    head = re.compile(r" *ensures %s\{" % (re.escape(label) + " " if label else ""))
    for here in range(at, len(lines)):
        if head.match(lines[here]):
            return whole(lines, here)
        if lines[here].strip() in ("{", "{}"):
            break
    return []


def goals_left(said, crate):
    """Of each goal for which no proof was found: the place and what isn't proved, then the call or the clause, then
    what has to be shown."""
    left = dict(match.groups() for match in map(LEFT.match, said) if match)
    for line in said:
        goal = GOAL.match(line)
        if not goal:
            continue
        yield re.sub(r"^(\S+:[0-9]+):[0-9]+:", r"\1:", line.removeprefix("note: ").partition(" (`")[0])
        name = NAMED.search(line)
        source, at = read_lines(os.path.join(crate, goal[1])), int(goal[2]) - 1
        of_contract = name and name[1].startswith("returns")
        yield from ("    " + text for text in (clause(source, at, name[1]) if of_contract else whole(source, at)))
        if name and len(left.get(name[1], "x" * WIDTH)) < WIDTH:
            yield "    What is left to show: " + left[name[1]]


def proofs_that_do_not_fit(said):
    """Of each proof file that no longer shows what it has to: the place, and what was computed there."""
    inside = False
    for line in said:
        if PROOF.match(line) and not NAMES.search(line):
            inside = True
            yield line.removeprefix("./")
        elif inside and COMPUTED.match(line):
            yield "    " + line.strip()
        elif not line.startswith(" "):
            inside = False


def unproved(said, name):
    """The functions of the crate that have no proof then, and those that have none since they call such a one."""
    first, above = [], []
    for line in said:
        match = UNPROVED.match(line)
        if match and match[1] == name:
            path = match[2].split("::")
            function = "::".join(path[-2:] if path[-2:-1] and path[-2][:1].isupper() else path[-1:])
            (above if "it calls" in match[3] else first).append(function)
    return first, above


def told(said, crate, name):
    """All that is to be told of a refusal, line by line; nothing where the prover left no goal open."""
    lines = [*proofs_that_do_not_fit(said), *goals_left(said, crate)]
    if not lines:
        return []
    first, above = unproved(said, name)
    fallen = ", so neither is what calls it: " + ", ".join(above) if above else ""
    return [*lines, "%s is not proved%s." % (", ".join(first), fallen)]
