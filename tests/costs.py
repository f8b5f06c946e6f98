"""What a run of the tests costs: the seconds of each part, and the seconds of processors that it and all processes below it took."""
import collections.abc
import contextlib
import os
import time
import typing

# On a machine with two cores a run from nothing has 180 minutes, in which not all work can be done side by side.
MOST_MINUTES = 240
# What `rt ci` says where nothing was kept from an earlier run. Else it says how much of its work was done.
FROM_NOTHING = "every proof and must-fail edit was done in this run"
WORK = rf"{FROM_NOTHING}|done in this run: [^;]*"
PROOFS, LIBRARY, PROGRAM, TESTS = (
    "proofs, wrong bodies and checks in Rattle",
    "the library for C",
    "the program, unproved",
    "the tests of tests/",
)


class Part(typing.NamedTuple):
    """A part of a run, the kind of work that it was, and what it took."""

    name: str
    kind: str
    seconds: float
    processors: float


def processor_seconds() -> float:
    """What this process and all that ended below it have taken."""
    times = os.times()
    return times.user + times.system + times.children_user + times.children_system


@contextlib.contextmanager
def measured(parts: list[Part], name: str, kind: str) -> collections.abc.Iterator[None]:
    """Adds to parts what is done meanwhile."""
    began, had = time.monotonic(), processor_seconds()
    try:
        yield
    finally:
        parts.append(Part(name, kind, time.monotonic() - began, processor_seconds() - had))


def told(parts: list[Part], work: str = "") -> collections.abc.Iterator[str]:
    """The lines that tell what parts took: each part, each kind, and the sum. `work` is what `rt ci` said of how much it did."""
    yield from (f"{part.seconds:8.1f} s {part.processors:8.1f} processor-seconds {part.name}" for part in parts)
    for kind in dict.fromkeys(part.kind for part in parts):
        yield f"in all     {sum(part.processors for part in parts if part.kind == kind):8.1f} processor-seconds {kind}"
    minutes = sum(part.processors for part in parts) / 60
    yield f"in all     {minutes:8.1f} processor-minutes" + (f"; {work}" if work else "")
    if minutes > MOST_MINUTES:
        yield f"these are more than the {MOST_MINUTES} processor-minutes that all tests may take from nothing: docs/CHANGING.md says what to do"
    elif PROOFS in (part.kind for part in parts) and FROM_NOTHING not in work:
        yield f"what earlier runs kept is not counted; from nothing it may be {MOST_MINUTES} processor-minutes"
