"""Runs of threads on a tree of the library, event by event: an event of a thread is a step of its call, or the begin of its next one.

An order is an iterator over the threads whose turn it is. It looks at those that have an event left, and ends where there are none.
"""
import collections
import ctypes
import itertools
from collections.abc import Callable, Iterator
from random import Random

import model
from harness import atomfs

# What a begin came to, and what a step did, in the order of `atomfs.Did`.
BEGINS = ("begun", "full")
STEPS = ("idle", "took", "busy", "let go", "helped", "committed", "carried out", "returned")
# No run has as many events as this for each of its calls.
MOST_EVENTS = 1_000

Order = Callable[[Random, set[int]], Iterator[int]]


def rounds(draw: Random, live: set[int]) -> Iterator[int]:
    """One event of each thread in turn."""
    while live:
        yield from sorted(live)


def drawn(draw: Random, live: set[int]) -> Iterator[int]:
    """The thread of each event is drawn."""
    while live:
        yield draw.choice(sorted(live))


def words(draw: Random, live: set[int]) -> Iterator[int]:
    """Drawn threads have some events each, and rounds follow."""
    for _ in range(150):
        if live:
            yield from [draw.choice(sorted(live))] * draw.randint(1, 12)
    yield from rounds(draw, live)


def made_first(order: Order) -> Order:
    """The order in which the first thread has all its events before the others."""

    def ordered(draw: Random, live: set[int]) -> Iterator[int]:
        while 0 in live:
            yield 0
        yield from order(draw, live)

    return ordered


class Run:
    """The calls of threads on a tree: those that are left, those that have begun, and how often each event came."""

    def __init__(self, tree: atomfs.Tree, threads: list[list[str]]) -> None:
        self.tree = tree
        self.counts: collections.Counter[str] = collections.Counter()
        self.left = {tree.seat(): calls[::-1] for calls in threads}
        self.live = {seat for seat, calls in self.left.items() if calls}
        self.under_way: set[int] = set()
        self.begun: dict[int, list[str]] = {}
        self.did, self.about = ctypes.c_uint8(), ctypes.c_uint64()

    def begin(self, seat: int) -> str:
        line = self.left[seat].pop()
        try:
            self.tree.begin(seat, line.encode())
        except atomfs.Error as error:
            if error.status != atomfs.Status.FULL:
                raise
            return "full"
        self.under_way.add(seat)
        self.begun.setdefault(seat, []).append(line)
        return "begun"

    def step(self, seat: int) -> str:
        """A step as `Tree.step` makes it, but with nothing made anew: there are millions of them."""
        self.tree.done(self.tree.library.atomfs_step(self.tree.handle, seat, self.did, self.about))
        did = STEPS[self.did.value]
        if did == "returned":
            self.under_way.remove(seat)
        return did

    def event(self, seat: int) -> None:
        """The event of a thread, if it has one left."""
        if seat in self.live:
            self.counts[self.step(seat) if seat in self.under_way else self.begin(seat)] += 1
            if seat not in self.under_way and not self.left[seat]:
                self.live.remove(seat)

    def play(self, order: Order, draw: Random) -> "Run":
        """Has the events of an order, up to more than any run needs."""
        most = MOST_EVENTS * sum(map(len, self.left.values()))
        for seat in itertools.islice(order(draw, self.live), most):
            self.event(seat)
        return self

    def text(self) -> str:
        """The run text, whose counts are those of the events."""
        count = self.counts
        journal, tree = self.tree.journal().decode(), self.tree.tree().decode()
        return f"{journal}{tree}begun {count['begun']} committed {count['committed'] + count['helped']} returned {count['returned']}\n"

    def fault(self) -> str | None:
        """What is wrong with a run that was played, if anything is."""
        count, text = self.counts, self.text()
        if self.live:
            return f"a call is stuck\n{text}"
        if (verdict := self.tree.library.check(text.encode())) != b"lawful\n":
            return f"{verdict.decode()}{text}"
        if wrong := model.fault(text, self.begun):
            return f"{wrong}\n{text}"
        if (count["took"], count["helped"], count["begun"]) != (
            count["let go"],
            count["carried out"],
            count["returned"],
        ):
            return f"at rest a call is not done: {dict(count)}\n{text}"
        return None
