"""Drawn interleavings on the library, event by event: of each run the journal, the replies, the calls and the tree at rest.

A run comes to rest, its journal is lawful by the library and by tests/model.py, and its tree is the model's. What is drawn stands in tests/drawn.py.
"""
import collections
import os
import random
import unittest
from typing import Callable

import harness
import atomfs
import drawn
import events

NARROW_SCRIPTS = 1_000
SCRIPTS = 2_000
EXCHANGING_SCRIPTS = 500
LISTING_SCRIPTS = 200
# How often each event came where another generator drew by the same shares. Here it comes as often but for an eighth, and never where it did not.
NARROW_EVENTS = {
    "begun": 18_000,
    "took": 25_499,
    "busy": 13_384,
    "let go": 25_499,
    "committed": 18_000,
    "returned": 18_000,
}
EVENTS = {
    "begun": 202_625, "full": 2_113, "took": 412_912, "busy": 630_269, "let go": 412_912,
    "helped": 2_621, "committed": 200_004, "carried out": 2_621, "returned": 202_625,
}  # fmt: skip


def limit(number: int) -> int:
    """How many nodes a tree may have: few in every eighth script, so that calls are refused."""
    return 1_000 if number % 8 else 12


class Schedules(harness.Case):
    def setUp(self) -> None:
        self.library = harness.library()
        self.counts: collections.Counter[str] = collections.Counter()

    def look(
        self,
        threads_of: Callable[[random.Random], list[list[str]]],
        number: int,
        order: events.Order,
        version: int = 1,
    ) -> None:
        """The run of the threads that are drawn from a number, in an order that is."""
        draw = random.Random(number)
        threads = threads_of(draw)
        with atomfs.Tree(self.library, limit(number), version) as tree:
            run = events.Run(tree, threads).play(events.made_first(order), draw)
            self.counts += run.counts
            self.same(f"{drawn.script(threads, order.__name__, version)}limit {limit(number)}", run.fault(), None)

    def came(self, stored: dict[str, int]) -> None:
        """In all rows each event came about as often as is stored."""

        def wanted(event: str, count: int) -> int:
            often = stored.get(event, 0)
            return count if abs(count - often) <= often / 8 else often

        if "ROW" not in os.environ:
            came = {event: self.counts[event] for event in (*events.BEGINS, *events.STEPS)}
            self.same("the events of all rows", came, {event: wanted(event, count) for event, count in came.items()})

    def test_mkdir_and_stat(self) -> None:
        rows = ((f"script_{number}", drawn.narrow, number, events.drawn) for number in range(NARROW_SCRIPTS))
        self.each(rows, self.look)
        self.came(NARROW_EVENTS)

    def test_exchanges(self) -> None:
        """Each event comes that comes with the other calls."""
        orders = events.rounds, events.drawn, events.words
        rows = (
            (f"script_{number}_{order.__name__}", drawn.exchanging, number, order)
            for number in range(EXCHANGING_SCRIPTS)
            for order in orders
        )
        self.each(rows, self.look)
        if "ROW" not in os.environ:
            self.same("the events that did not come", [event for event in EVENTS if not self.counts[event]], [])

    def test_third_limits(self) -> None:
        rows = (
            (f"script_{number}_{order.__name__}", drawn.listing, number, order, 3)
            for number in range(LISTING_SCRIPTS)
            for order in (events.rounds, events.drawn)
        )
        self.each(rows, self.look)

    def test_all_calls(self) -> None:
        orders = events.rounds, events.drawn, events.words
        rows = (
            (f"script_{number}_{order.__name__}", drawn.moving, number, order)
            for number in range(SCRIPTS)
            for order in orders
        )
        self.each(rows, self.look)
        self.came(EVENTS)


if __name__ == "__main__":
    unittest.main()
