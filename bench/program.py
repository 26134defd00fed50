"""The built program, which the scripts of this folder run: not `bin/ldecode`, which looks for changes of the
sources first, and answers by a trial where nothing is built."""
import os
import subprocess
import sys
import time

TOP = os.path.dirname(os.path.dirname(os.path.abspath(__file__)))
PROGRAM = os.path.join(TOP, "out", "ldecode")


def built():
    """The path of the program; without it nothing can be measured."""
    if not os.access(PROGRAM, os.X_OK):
        sys.exit("ldecode isn't built, and nothing is measured of a trial: 'bin/prove' proves and builds it")
    return PROGRAM


def seconds(command, **streams):
    """How long a command of the shell takes."""
    start = time.perf_counter()
    subprocess.run(command, shell=True, check=True, **streams)
    return time.perf_counter() - start
