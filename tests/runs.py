"""What the python scripts of this folder have in common: their words, the program, its runs, and what is counted."""
import os
import subprocess
import sys
import tempfile

ROOT = os.path.dirname(os.path.dirname(os.path.abspath(__file__)))
PROGRAM = "crates/tatp/out/tatp"


def program_of(doc, name, words):
    """The program that a script's words name, or the built one. What are no such words end the script."""
    if words == ["--help"]:
        print(doc.strip())
        sys.exit(0)
    if len(words) > 1 or any(word.startswith("-") for word in words):
        print("usage: %s [FILE], or %s --help" % (name, name), file=sys.stderr)
        sys.exit(2)
    program = os.path.abspath(words[0]) if words else os.path.join(ROOT, PROGRAM)
    os.chdir(ROOT)
    if not os.access(program, os.X_OK):
        print("failed: there is no program %s: the first use of ./tatp builds it" % program)
        print("0 passed, 1 failed")
        sys.exit(1)
    return program


def no_words(doc, name, words):
    """Goes on where there are no words. What are such end the script."""
    if words == ["--help"]:
        print(doc.strip())
        sys.exit(0)
    if words:
        print("usage: %s, or %s --help" % (name, name), file=sys.stderr)
        sys.exit(2)


def number_from(name, default):
    """The number that a variable of the surroundings has, or the default."""
    text = os.environ.get(name, str(default))
    if not text.isascii() or not text.isdecimal():
        print("%s has to be a number, not '%s'" % (name, text), file=sys.stderr)
        sys.exit(2)
    return int(text)


class Tally:
    """How many cases passed and failed. A case that fails is told at once."""

    def __init__(self):
        self.passed = self.failed = self.skipped = 0

    def count(self, name, fault=None):
        """A case of this name, with what is wrong with it, or None."""
        if fault is None:
            self.passed += 1
        else:
            self.failed += 1
            print("failed: %s: %s" % (name, fault), flush=True)

    def end(self):
        """Prints the sum, and ends the script."""
        print("%d passed, %d failed%s" % (self.passed, self.failed, ", %d skipped" % self.skipped * (self.skipped > 0)))
        sys.exit(int(self.failed > 0 or self.passed == 0 and self.skipped == 0))


class Done:
    """What a run came to: its status, or None where it took too long, and what it wrote and told."""

    def __init__(self, status, output, error):
        self.status, self.output, self.error = status, output, error


def run(program, words, data=b"", seconds=600, **given):
    """Runs the program with these words on the input, which comes by a pipe where no other `stdin` is given."""
    given = given if "stdin" in given else dict(given, input=data)
    try:
        done = subprocess.run([program, *words], capture_output=True, timeout=seconds, **given)
    except subprocess.TimeoutExpired:
        return Done(None, b"", b"it took over %d seconds" % seconds)
    return Done(done.returncode, done.stdout, done.stderr)


def shown(data, most=200):
    """The begin of some bytes, for a message."""
    return data[:most].decode("utf-8", "backslashreplace").replace("\n", "\\n")


def kept(name, data):
    """Keeps an input under a script's name, for whoever looks at a failure. Gives the file."""
    with tempfile.NamedTemporaryFile(prefix=name + ".", delete=False) as file:
        file.write(data)
    return file.name


def first_difference(wanted, came):
    """The number of the first line that differs, from 0, with both lines; None where none does."""
    wanted, came = wanted.split(b"\n"), came.split(b"\n")
    for number in range(max(len(wanted), len(came))):
        one, other = (lines[number] if number < len(lines) else b"nothing" for lines in (wanted, came))
        if one != other or number >= min(len(wanted), len(came)):
            return number, one, other
    return None


def fault_of(done, wanted):
    """What is wrong with a run that has to end well and write this, or None."""
    if done.status != 0 or done.error:
        return "status %s, told %s" % (done.status, shown(done.error))
    if done.output == wanted:
        return None
    number, one, other = first_difference(wanted, done.output)
    return "line %d of the output is '%s', not '%s'" % (number + 1, shown(other), shown(one))
