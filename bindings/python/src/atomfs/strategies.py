"""Strategies for hypothesis, where that is installed (Debian's `python3-hypothesis`).

    @given(schedule=atomfs.strategies.schedules(), data=strategies.binary())
    def test_it(schedule, data):
        atomfs.explore({"writer": lambda tree: save(tree, data), "reader": load}, check, draws=schedule)
"""
from __future__ import annotations

import importlib
from typing import Any

from ._explore.draws import Schedule
from ._values import number_of


def schedules(switches: int = 8, turns: int = 64) -> Any:
    """Schedules of at most so many switches that need not be, with at most so many turns before each.

    They shrink to few and early switches. `explore` with one as its `draws` makes one run.
    """
    most, count = number_of(turns, "number of turns"), number_of(switches, "number of switches")
    try:
        of: Any = importlib.import_module("hypothesis.strategies")
    except ImportError:
        raise ImportError("atomfs.strategies needs hypothesis: apt-get install python3-hypothesis") from None
    # Before a switch its thread has at least one turn, or it would be the switch before.
    one = of.tuples(of.integers(0, most), of.integers(0, 254))
    return of.lists(one, max_size=count).map(lambda rows: Schedule(tuple(rows)))
