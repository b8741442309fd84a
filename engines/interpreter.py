"""A python3 that has what an engine needs. Debian's packages are seen by Debian's python3 alone, which needn't be the
first of this name."""
import glob
import importlib.util
import os
import subprocess
import sys

from clients import NotRun


def other_pythons():
    """The python3 of each folder of PATH, and Debian's."""
    folders = os.environ.get("PATH", "").split(":") + ["/usr/bin"]
    return list(dict.fromkeys(path for folder in folders for path in glob.glob(os.path.join(folder, "python3"))))


def python_with(*modules):
    """A python3 that has the modules: this one if it has them, else another, else None."""
    if all(map(importlib.util.find_spec, modules)):
        return sys.executable
    for python in other_pythons():
        try:
            done = subprocess.run([python, "-c", "import " + ", ".join(modules)], stdin=subprocess.DEVNULL,
                                  capture_output=True)
        except OSError:
            continue
        if done.returncode == 0:
            return python
    return None


def go_on_with(*needed):
    """Goes on where this python3 has all modules, each of which is named with Debian's package that has it; else the
    script is started again by one that has them."""
    python = python_with(*(module for module, _ in needed))
    if python is None:
        raise NotRun("no python3 here has " + " and ".join("the module %s (Debian's package %s)" % one
                                                           for one in needed))
    if python != sys.executable:
        os.execv(python, [python, "-B", *sys.argv])
