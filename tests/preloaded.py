"""The program under a library in C that is loaded before the C library, and makes some of its calls fail."""
import itertools
import os
import shutil
import subprocess
import sys
import tempfile

import runs


class Preloaded:
    """The program, and the library, made of its source into a folder. Where no C compiler is here the script ends."""

    def __init__(self, program, source, room, does):
        compiler = next(filter(None, map(shutil.which, ("cc", "gcc", "clang"))), None)
        if compiler is None:
            print("skipped: no C compiler makes the library that %s\n0 passed, 0 failed, 1 skipped" % does)
            sys.exit(0)
        self.program, self.room, self.numbers = program, room, itertools.count()
        self.library = os.path.join(room, "library.so")
        subprocess.run([compiler, "-O1", "-shared", "-fPIC", "-o", self.library, source, "-ldl"], check=True)

    def run(self, words, data=b"", **variables):
        """A run in which the library does what the variables say. What it told at its end are numbers. The input is a
        file: how many bytes a read takes of a pipe is chance, and with it the number of reads and growths."""
        told = os.path.join(self.room, "told.%d" % next(self.numbers))
        surroundings = dict(os.environ, LD_PRELOAD=self.library, TOLD=told)
        surroundings.update((name, str(number)) for name, number in variables.items())
        with tempfile.TemporaryFile(dir=self.room) as file:
            file.write(data)
            file.seek(0)
            done = runs.run(self.program, words, stdin=file, env=surroundings)
        done.told = None
        if os.path.exists(told):
            with open(told, encoding="ascii") as file:
                done.told = [int(number) for number in file.read().split()]
            os.remove(told)
        return done
