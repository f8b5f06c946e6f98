"""Cuts a failing run down: fewest switches between threads, then fewest calls, then no switch in the midst of a call."""
from __future__ import annotations

import itertools
from typing import Iterator, List, Optional, Set, Tuple

from .draws import Given, Segments, segments_of
from .errors import RunError
from .runs import Plan, Ran

# As many turns as a thread takes up to its end.
_ALL = 1 << 40
# How many orders of threads are tried, and how many turns all runs that are tried take at most.
_ORDERS, _TURNS = 24, 200_000


def cut(plan: Plan, seed: int, ran: Ran, most: int) -> Tuple[Ran, int]:
    """The least run that fails as this one does, of at most so many that are tried, and how many were."""
    __tracebackhide__ = True
    cutting = _Cutting(plan, seed, ran, most)
    if cutting.without_interruption():
        return cutting.best, cutting.trials
    if cutting.best.switches >= 2 * len(plan.names) - 1:
        cutting.with_one()
    cutting.merged()
    cutting.at_bounds()
    return cutting.best, cutting.trials


def _place(error: Optional[BaseException]) -> object:
    """What an error is, and where it was raised: two of one place are the same failure."""
    if error is None or isinstance(error, RunError):
        return type(error)
    trace = error.__traceback__
    while trace is not None and trace.tb_next is not None:
        trace = trace.tb_next
    return type(error), (trace.tb_frame.f_code.co_filename, trace.tb_lineno) if trace is not None else None


class _Cutting:
    def __init__(self, plan: Plan, seed: int, ran: Ran, most: int) -> None:
        self._plan, self._seed, self._most = plan, seed, most
        self.best, self._failure = ran, _place(ran.error)
        self.trials = self._turns = 0
        self._tried: Set[Tuple[Tuple[str, int], ...]] = set()

    def _tries(self, segments: Segments) -> bool:
        """Whether a schedule fails in the same way and is less than the best so far, which it is then."""
        __tracebackhide__ = True
        key = tuple(segments)
        if key in self._tried or self.trials >= self._most or self._turns > _TURNS:
            return False
        self._tried.add(key)
        ran = self._ran(segments)
        if _place(ran.error) != self._failure or ran.cost >= self.best.cost:
            return False
        self.best = ran
        return True

    def _ran(self, segments: Segments) -> Ran:
        __tracebackhide__ = True
        ran = self._plan.run(Given(segments), self._seed)
        self.trials += 1
        self._turns += len(ran.turns)
        return ran

    def _orders(self) -> List[Tuple[str, ...]]:
        return list(itertools.islice(itertools.permutations(self._plan.names), _ORDERS))

    def without_interruption(self) -> bool:
        """One thread after the other, and whether that fails."""
        return any(self._tries([(name, _ALL) for name in order]) for order in self._orders())

    def with_one(self) -> None:
        """One thread is interrupted once, between two of its calls, and goes on behind all others."""
        for order in self._orders():
            first, *rest = order
            for turns in _between(self._ran([(name, _ALL) for name in order]), first):
                if self._tries([(first, turns), *((name, _ALL) for name in rest), (first, _ALL)]):
                    return

    def merged(self) -> None:
        """Lets what stands between two others go to the next or the last one of the same thread, as long as that makes it less."""
        goes_on = True
        while goes_on:
            goes_on = any(map(self._tries, self._mergers()))

    def _mergers(self) -> Iterator[Segments]:
        segments = segments_of(self.best.turns)
        for at in range(len(segments) - 1):
            yield [*segments[:at], (segments[at][0], _ALL)]
        for at, (name, count) in enumerate(segments):
            rest = segments[:at] + [("", 0)] + segments[at + 1 :]
            for way in (range(at + 1, len(segments)), range(at - 1, -1, -1)):
                to = next((other for other in way if segments[other][0] == name), None)
                moved = list(rest)
                if to is not None:
                    moved[to] = name, segments[to][1] + count
                yield [one for one in moved if one[1]]

    def at_bounds(self) -> None:
        """Moves each switch in the midst of a call before or behind it."""
        goes_on = True
        while goes_on:
            goes_on = any(map(self._tries, self._moved()))

    def _moved(self) -> Iterator[Segments]:
        best, segments, start = self.best, segments_of(self.best.turns), 0
        for at, (name, count) in enumerate(segments[:-1]):
            end = start + count
            later = next((other for other in range(at + 1, len(segments)) if segments[other][0] == name), None)
            if best.half_way[end] and later is not None:
                before = [turn for turn in range(start + 1, end) if not best.half_way[turn]]
                if before:
                    yield _shifted(segments, at, later, before[-1] - end)
                begin = sum(those for _, those in segments[:later])
                most = segments[later][1]
                behind = [turn for turn in range(1, most) if not best.half_way[begin + turn]]
                yield _shifted(segments, at, later, behind[0] if behind else most)
            start = end


def _shifted(segments: Segments, at: int, later: int, by: int) -> Segments:
    """So many turns of a later segment come in an earlier one of the same thread."""
    made = list(segments)
    made[at] = made[at][0], made[at][1] + by
    made[later] = made[later][0], made[later][1] - by
    return [one for one in made if one[1]]


def _between(ran: Ran, first: str) -> List[int]:
    """Behind how many of its turns the thread that goes first is between two calls."""
    found = []
    for turn in range(1, len(ran.turns)):
        if ran.turns[turn] != first:
            break
        if not ran.half_way[turn]:
            found.append(turn)
    return found
