"""Whose turn is next: drawn by the seed of a run, or as a schedule says."""
from __future__ import annotations

import dataclasses
import itertools
import random
from typing import Callable, Dict, List, Sequence, Tuple, Union

from .._values import number_of

# A schedule as which thread goes on, and for how many turns.
Segments = List[Tuple[str, int]]
# How often the thread that had the last turn has the next: drawn for each run, so that some change often and some seldom.
_AGAIN = 0.0, 0.5, 0.9
# After so many turns in a row a thread of the highest priority is below all others: it waits in a loop for one of them.
_IN_ROW = 200


class Drawing:
    """One run's draws."""

    def next(self, able: Sequence[str], last: str) -> str:
        """The thread that has the next turn, of those that can go on, in the order in which they were given."""
        raise NotImplementedError

    def yields(self, name: str) -> None:
        """Hears that a thread sleeps: others may go on first."""


class Uniform(Drawing):
    """Each thread that can go on is as likely as any other; how likely the last one stays is drawn for the whole run."""

    def __init__(self, seed: int) -> None:
        self._draw = random.Random(seed).random
        self._again = _AGAIN[int(self._draw() * len(_AGAIN))]

    def next(self, able: Sequence[str], last: str) -> str:
        draw = self._draw
        if last not in able or draw() >= self._again:
            return able[int(draw() * len(able))]
        return last


class Priorities(Drawing):
    """The thread of the highest priority goes on; at `depth - 1` drawn turns of `turns` the one that would is put below all others."""

    def __init__(self, seed: int, names: Sequence[str], depth: int, turns: int) -> None:
        draw = random.Random(seed)
        order = list(range(depth, depth + len(names)))
        draw.shuffle(order)
        self._priority = dict(zip(names, order))
        self._changes: Dict[int, int] = {1 + int(draw.random() * turns): below for below in range(1, depth)}
        self._turns, self._row, self._last, self._lowest = 0, 0, "", 0

    def next(self, able: Sequence[str], last: str) -> str:
        self._turns += 1
        priority = self._priority
        name = max(able, key=priority.__getitem__)
        below = self._changes.get(self._turns)
        if below is not None:
            priority[name] = below
            name = max(able, key=priority.__getitem__)
        self._row = self._row + 1 if name == self._last else 0
        if self._row > _IN_ROW:
            self.yields(name)
            self._row, name = 0, max(able, key=priority.__getitem__)
        self._last = name
        return name

    def yields(self, name: str) -> None:
        self._lowest -= 1
        self._priority[name] = self._lowest


class Given(Drawing):
    """As a schedule says. What it says of a thread that cannot go on is left out, and behind its end no thread is interrupted."""

    def __init__(self, segments: Segments) -> None:
        self._left = [(name, count) for name, count in reversed(segments)]

    def next(self, able: Sequence[str], last: str) -> str:
        while self._left:
            name, count = self._left.pop()
            if count and name in able:
                self._left.append((name, count - 1))
                return name
        return last if last in able else able[0]


class _Switches(Drawing):
    """The last thread goes on until a switch is due, by how many turns it has before, to one of the others."""

    def __init__(self, switches: Sequence[Tuple[int, int]]) -> None:
        self._left = list(reversed(switches))
        self._stays = self._left[-1][0] if self._left else 0

    def next(self, able: Sequence[str], last: str) -> str:
        stays = last if last in able else able[0]
        others = [name for name in able if name != stays]
        if not self._left or not others:
            return stays
        if self._stays:
            self._stays -= 1
            return stays
        _, which = self._left.pop()
        # This turn is the first of the next thread's.
        self._stays = max(0, self._left[-1][0] - 1) if self._left else 0
        return others[which % len(others)]


def segments_of(turns: Sequence[str]) -> Segments:
    """The schedule of a run, as segments."""
    return [(name, len(list(those))) for name, those in itertools.groupby(turns)]


@dataclasses.dataclass(frozen=True)
class PCT:
    """Draws by priorities with few changes: each run goes by priorities that its seed draws, and changes `depth - 1` times.

    The scheduler of Burckhardt, Kothari, Musuvathi and Nagarakatte, *A Randomized Scheduler with Probabilistic Guarantees of Finding
    Bugs*, ASPLOS 2010. A bug of depth d needs d turns in a certain order; each run finds it with a chance of at least `bound`.
    """

    #: How many turns have to come in a certain order, at least 1: 1 is a wrong order of two threads, 2 a lost update.
    depth: int = 3

    def __post_init__(self) -> None:
        if not 1 <= number_of(self.depth, "depth") <= 1_000:
            raise ValueError(f"a depth is 1 to 1,000, and this is {self.depth}")

    def bound(self, threads: int, turns: int) -> float:
        """The least chance of one run to find a bug of this depth, in runs of so many threads and at most so many turns.

        Raises `ZeroDivisionError` if there are no threads.
        """
        return 1.0 / (threads * float(turns) ** (self.depth - 1))


@dataclasses.dataclass(frozen=True)
class Schedule:
    """One schedule: after so many turns the next of the other threads goes on. `atomfs.strategies.schedules` makes them."""

    #: For each switch, how many turns the thread before it has, and which of the others goes on.
    switches: Tuple[Tuple[int, int], ...] = ()


Draws = Union[str, PCT, Schedule]
BOTH, UNIFORM = "both", "uniform"
_BY_TURNS = PCT()


def check_draws(draws: Draws) -> None:
    """Raises for what draws nothing."""
    if draws not in (BOTH, UNIFORM) and not isinstance(draws, (PCT, Schedule)):
        raise ValueError(f"draws are {BOTH!r}, {UNIFORM!r}, a PCT(depth) or a schedule, and not {draws!r}")


def drawing(draws: Draws, seed: int, names: Sequence[str], turns: Callable[[], int]) -> Drawing:
    """The draws of the run of a seed. `turns` answers how many turns a run takes without any switch that needs not be."""
    if isinstance(draws, Schedule):
        return _Switches(draws.switches)
    by = _BY_TURNS if draws == BOTH and seed % 2 == 0 else draws
    if isinstance(by, PCT):
        return Priorities(seed, names, by.depth, turns())
    return Uniform(seed)
