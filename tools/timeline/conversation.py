"""The conversation with the program: a line is sent to `trace`, and what it answers is read before the next one."""

import subprocess
import sys

BAD_LINE = "REFUSED 5 BadLine"
# A comment, which is echoed and not answered: its echo tells where the answers to the line before it end.
END_MARK = b"#"
END_ECHO = "> #"


class Stopped(Exception):
    """The program ended before it answered; it has told why."""

    def __init__(self, status):
        super().__init__(status)
        self.status = status


class Trace:
    """A run of `trace`, which echoes and answers each line when it has come."""

    def __init__(self, program, words):
        self.process = subprocess.Popen(
            [program, "trace", *words, "--echo"], stdin=subprocess.PIPE, stdout=subprocess.PIPE)

    def send(self, data):
        """Hands bytes to the program. Where it has ended already, the status tells, once an answer is missed."""
        try:
            self.process.stdin.write(data)
            self.process.stdin.flush()
        except BrokenPipeError:
            pass

    def read(self):
        """One line of what is answered."""
        line = self.process.stdout.readline()
        if not line:
            self._end()
            raise Stopped(self.process.returncode or 1)
        return line.decode("latin-1").rstrip("\n")

    def ask(self, raw):
        """The answers to a line, each a list of its lines: `steps` has many answers, any other line has one."""
        self.send(raw + b"\n" + END_MARK + b"\n")
        self.read()
        lines = []
        while (line := self.read()) != END_ECHO:
            lines.append(line)
        return [[line] for line in lines] if raw.startswith(b"steps ") else [lines]

    def close(self):
        """Ends the input. The run is whole where the program then ends well and says no more."""
        rest = self._end()
        if self.process.returncode:
            raise Stopped(self.process.returncode)
        if rest:
            print("timeline: what came are not the answers of trace", file=sys.stderr)
            raise Stopped(1)

    def _end(self):
        try:
            self.process.stdin.close()
        except BrokenPipeError:
            pass
        rest = self.process.stdout.read()
        self.process.wait()
        return rest


def explanation(program, number):
    """What the program's command `explain` says of a refusal."""
    return subprocess.run([program, "explain", number], stdout=subprocess.PIPE, check=False).stdout.decode()
