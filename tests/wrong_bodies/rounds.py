"""Which wrong bodies are tried at once. A proof sees the contracts of other functions and not their bodies: so a round
has a wrong body of each of many functions. What changes more or other than the inside of one function has a round of
its own, in which any function counts."""
import collections

from .functions import insides


class Trial:
    """An edit, the lines that it changes, and the function whose inside alone it changes, or None."""

    def __init__(self, edit, lines, function):
        self.edit, self.lines, self.function = edit, lines, function


def trials_of(crate, lines_of):
    """The trials of a crate, whose edits change these lines."""
    known, trials = {}, []
    for edit, lines in lines_of.items():
        functions = set()
        for line in lines:
            if line.path not in known:
                known[line.path] = insides(crate, line.path)
            functions.add(known[line.path].get(line.number))
        trials.append(Trial(edit, lines, functions.pop() if len(functions) == 1 else None))
    return trials


def rounds_of(trials):
    """The trials in rounds, each of which changes no function twice."""
    rounds, uses = [], collections.Counter()
    for trial in trials:
        if trial.function:
            place = uses[trial.function.folder]
            uses[trial.function.folder] += 1
            if place == len(rounds):
                rounds.append([])
            rounds[place].append(trial)
    return rounds + [[trial] for trial in trials if trial.function is None]


def halves(trials):
    middle = len(trials) // 2
    return trials[:middle], trials[middle:]
