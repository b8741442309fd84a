"""What rt says: of the check of a round, and of wrong bodies that it tried alone."""
import re

UNREAD = re.compile(r"(\./)?(src|specs)/[^ ]*:[0-9]+:[0-9]+: error")
GOAL = re.compile(r"note: (src/[^ :]*):([0-9]+):[0-9]+: it is not proved that ")
PROOF = re.compile(r"(\./)?proofs/[^ :]*\.antt:[0-9]+:[0-9]+: error: ")
# What a proof file names and the crate no longer has is no refusal.
NAMES = re.compile("has no field|is not in scope|has no `|was not admitted")


def is_met(trial, path, number, folder):
    """Whether a refusal at this line, or in this folder of proofs, is one of the trial's function. A function that only
    calls another is not refused for it."""
    function = trial.function
    if function is None:
        return True
    if path == function.path and function.begin <= number <= function.end:
        return True
    is_of_type = function.folder[:1].isupper() and folder.endswith("/" + function.folder)
    return folder == function.folder or is_of_type


def refused(trials, said):
    """The edits that the check of a round refused, or None where rt did not come to judge the round: where it leaves a
    goal open in the lines of the function, or refuses what the function's own proof files say of a goal they have."""
    found, verdict = set(), ""
    for line in said.split("\n"):
        if UNREAD.match(line):
            return None
        if line.startswith("logic="):
            verdict = line
        goal = GOAL.match(line)
        if goal:
            place = goal[1], int(goal[2]), "-"
        elif PROOF.match(line) and not NAMES.search(line):
            folder = re.sub(r"^(\./)?proofs/", "", line)
            place = "", 0, re.sub("/?[^/:]*:.*", "", folder, count=1)
        else:
            continue
        found |= {trial.edit for trial in trials if is_met(trial, *place)}
    if not re.match("logic=(not-)?proved", verdict):
        return None
    return found if verdict.startswith("logic=not-proved") else set()


# ---- wrong bodies tried alone
def verdict_of(label, said):
    """What rt must-fail said of one wrong body, NAME/BODY, with the lines below it."""
    head, told = "rt: must-fail %s: " % label, None
    for line in said.split("\n"):
        if line.startswith("rt: waiting"):
            continue
        if told is None:
            told = [line[len(head) :]] if line.startswith(head) else None
        elif line.startswith("rt: "):
            break
        elif line:
            told.append("    " + line)
    return "\n".join(told) if told else ""


def judge(label, said):
    """Whether the prover refused a wrong body that it tried alone, and what is to be said of it, or None."""
    verdict = verdict_of(label, said)
    how = verdict.removeprefix("refused, as it must be ")
    if how.startswith("(only because"):
        # This shows nothing of a contract.
        return False, "failed: %s: refused only for a name: %s" % (label, how)
    if how.startswith("(only by"):
        return True, "note: %s: %s" % (label, how)
    if verdict.startswith("refused, as it must be"):
        return True, None
    # BAD EDIT, NOT REFUSED, or nothing.
    return False, "failed: %s: %s" % (label, verdict or "it was not tried")
