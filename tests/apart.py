"""Runs modules of this folder side by side, each in a process of its own, and counts what passed.

`python3 tests/apart.py MODULE` is such a process: it writes one line of JSON, the counts of the module, to standard output. What a test prints goes to
standard error.
"""
import collections.abc
import concurrent.futures
import json
import os
import pathlib
import subprocess
import sys
import time
import typing
import unittest

ROOT = pathlib.Path(__file__).resolve().parent.parent
# A test may hold some gigabytes.
MOST_AT_ONCE = 4


class Result(unittest.TestResult):
    """Counts rows: those of a test that has some, and else the test."""

    def __init__(self) -> None:
        super().__init__()
        self.passed, self.rows = 0, 0

    def startTest(self, test: unittest.TestCase) -> None:
        super().startTest(test)
        self.rows = 0

    def addSubTest(self, test: unittest.TestCase, subtest: unittest.TestCase, error: typing.Any) -> None:
        super().addSubTest(test, subtest, error)
        self.rows += 1
        self.passed += error is None

    def addSuccess(self, test: unittest.TestCase) -> None:
        super().addSuccess(test)
        self.passed += self.rows == 0


class Counts(typing.NamedTuple):
    """How many rows of a module passed, what failed, and why each test that was left out was."""

    passed: int
    faults: list[str]
    left_out: list[str]


class Ran(typing.NamedTuple):
    """A module with its counts, its seconds, and those of processors that it and all processes below it took."""

    module: str
    counts: Counts
    seconds: float
    processors: float


def counts_of(part: str) -> Counts:
    """Runs a module, a class or a test of this folder."""
    result = Result()
    unittest.defaultTestLoader.loadTestsFromName(part).run(result)
    faults = [f"{test.id()}\n{told}" for test, told in result.failures + result.errors]
    return Counts(result.passed, faults, [reason for _, reason in result.skipped])


def ran(module: str) -> Ran:
    """Runs a module in a process of its own. One that ends without counts has failed."""
    began = time.monotonic()
    words = sys.executable, str(ROOT / "tests" / "apart.py"), module
    child = subprocess.Popen(words, cwd=ROOT, stdin=subprocess.DEVNULL, stdout=subprocess.PIPE, text=True)
    assert child.stdout
    with child.stdout:
        told = child.stdout.read()
    _, ended, usage = os.wait4(child.pid, 0)
    child.returncode = os.waitstatus_to_exitcode(ended)
    fault = f"tests/{module}.py: its process ended with status {child.returncode} and told no counts"
    counts = Counts(*json.loads(told)) if child.returncode == 0 else Counts(0, [fault], [])
    return Ran(module, counts, time.monotonic() - began, usage.ru_utime + usage.ru_stime)


def side_by_side(modules: collections.abc.Sequence[str]) -> collections.abc.Iterator[Ran]:
    """Runs modules, begun in this order, one a processor, and gives each when it has ended."""
    at_once = min(MOST_AT_ONCE, len(os.sched_getaffinity(0)))
    with concurrent.futures.ThreadPoolExecutor(at_once) as pool:
        for done in concurrent.futures.as_completed([pool.submit(ran, module) for module in modules]):
            yield done.result()


def main() -> None:
    sys.dont_write_bytecode = True
    counts = os.fdopen(os.dup(1), "w")
    os.dup2(2, 1)
    json.dump(counts_of(sys.argv[1]), counts)
    counts.close()


if __name__ == "__main__":
    main()
