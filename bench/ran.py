"""Runs of a program from a file to a file, and what they took."""
import os
import pathlib
import subprocess
import sys
import time
import typing

# ATOMFS names another program than the one that is built here.
PROGRAM = os.environ.get(
    "ATOMFS", str(pathlib.Path(__file__).resolve().parent.parent / "crates" / "atomfs" / "out" / "atomfs")
)


class Ran(typing.NamedTuple):
    """The seconds of a run, those of its processor and those in the program itself, the most kilobytes that it held, and its status."""

    seconds: float
    processor_seconds: float
    own_seconds: float
    kilobytes: int
    status: int


def ran(words, given, made, stderr=None):
    """A run from one file to another."""
    with open(given, "rb") as source, open(made, "wb") as sink:
        began = time.perf_counter()
        run = subprocess.Popen(words, stdin=source, stdout=sink, stderr=stderr)
        _, status, usage = os.wait4(run.pid, 0)
        took = time.perf_counter() - began
    run.returncode = os.waitstatus_to_exitcode(status)
    return Ran(took, usage.ru_utime + usage.ru_stime, usage.ru_utime, usage.ru_maxrss, run.returncode)


def ran_well(words, given, made, wanted=0, stderr=None):
    """The same of a run that is to end with a status."""
    came = ran(words, given, made, stderr)
    if came.status != wanted:
        sys.exit(f"{' '.join(words)} ended with status {came.status}")
    return came
