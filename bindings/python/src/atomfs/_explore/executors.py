"""Runs on more than one core, or more than one machine: ranges of seeds, by any executor of `concurrent.futures`."""
from __future__ import annotations

import collections
import concurrent.futures
import os
import pickle
from typing import Any, Callable, Deque, List, NamedTuple, Optional, Tuple

from .bar import Bar
from .runs import Look, Ran, Seen

# How many runs a worker makes before it answers, how many ranges are handed out for each core, and how often one is begun anew.
_RANGE, _AHEAD, _TIMES = 100, 3, 3
# What is run: the threads, the check, the other arguments, and the draws.
Given = Tuple[Any, Any, Any, Any]


class _Found(NamedTuple):
    """What a worker found: the first seed that fails, what was seen up to there, and what was observed in each run."""

    failing: Optional[int]
    look: Look
    observed: List[Any]


def work(given: Given, first: int, count: int) -> _Found:
    """The runs of a range of seeds, up to the first that fails: what a worker does."""
    from . import Runner, plan_of

    threads, check, options, draws = given
    runner = Runner(plan_of(threads, check, **options), draws)
    plan: Any = runner.plan
    observed: List[Any] = []
    with plan:
        for seed in range(first, first + count):
            ran = runner.run(seed)
            if ran.error is not None:
                return _Found(seed, plan.look, observed)
            observed.append(ran.seen)
    return _Found(None, plan.look, observed)


class _Range(NamedTuple):
    """A range of seeds that a worker has, and for which time."""

    future: Any
    first: int
    runs: int
    times: int


class _Handed:
    """Hands ranges out, and takes what comes of them in the order of the seeds."""

    def __init__(self, executor: Any, given: Given, first: int, count: int) -> None:
        if isinstance(executor, concurrent.futures.ProcessPoolExecutor):
            _check_sent(given)
        self._executor, self._given, self._next, self._end = executor, given, first, first + count
        self._own: List[Any] = []
        self._ranges: Deque[_Range] = collections.deque()
        self._ahead = _AHEAD * (getattr(executor, "_max_workers", None) or os.cpu_count() or 1)

    def __enter__(self) -> _Handed:
        return self

    def __exit__(self, *error: object) -> None:
        for one in self._ranges:
            one.future.cancel()
        for executor in self._own:
            executor.shutdown(wait=True)

    def __iter__(self) -> _Handed:
        return self

    def __next__(self) -> Tuple[int, _Found]:
        while self._next < self._end and len(self._ranges) < self._ahead:
            count = min(_RANGE, self._end - self._next)
            self._ranges.append(self._handed(self._next, count, 1))
            self._next += count
        if not self._ranges:
            raise StopIteration
        one = self._ranges.popleft()
        return one.runs, self._answer(one)

    def _handed(self, first: int, count: int, times: int) -> _Range:
        try:
            future = self._executor.submit(work, self._given, first, count)
        except concurrent.futures.BrokenExecutor:
            self._replace()
            future = self._executor.submit(work, self._given, first, count)
        return _Range(future, first, count, times)

    def _answer(self, one: _Range) -> _Found:
        """What came of a range. Where its worker died it is done again."""
        while True:
            try:
                found: _Found = one.future.result()
                return found
            except Exception as error:
                if not _is_lost(error):
                    raise
                if one.times == _TIMES:
                    words = f"a worker died {_TIMES} times in the runs of the seeds {one.first} to {one.first + one.runs - 1}"
                    raise RuntimeError(words) from error
            one = self._handed(one.first, one.runs, one.times + 1)

    def _replace(self) -> None:
        """A pool of processes of which one has died takes nothing more: another of its kind goes on."""
        old = self._executor
        if not isinstance(old, concurrent.futures.ProcessPoolExecutor):
            raise concurrent.futures.BrokenExecutor("the executor is broken, and takes no more runs")
        kept: Any = old
        words = {"mp_context": kept._mp_context, "initializer": kept._initializer, "initargs": kept._initargs}
        self._executor = concurrent.futures.ProcessPoolExecutor(kept._max_workers, **words)
        self._own.append(self._executor)


def _check_sent(given: Given) -> None:
    """Raises for what cannot be sent to a process, which would be told at the other end of a queue."""
    threads, check, options, _ = given
    named = [("check", check), ("before", options["before"]), ("observe", options.get("observe"))]
    for name, one in [*((f"thread {name}", one) for name, one in threads.items()), *named]:
        try:
            pickle.dumps(one)
        except Exception as error:
            # What cannot be sent raises one of several errors.
            raise TypeError(f"{name} cannot be sent to a process, as a function of a module can: {error}") from None


def _is_lost(error: BaseException) -> bool:
    """Whether an error says that a worker died, and nothing of what it ran."""
    names = {kind.__name__ for kind in type(error).__mro__}
    return isinstance(error, concurrent.futures.BrokenExecutor) or bool(names & {"KilledWorker", "CommClosedError"})


def run_by(
    executor: Any, runner: Any, given: Given, first: int, count: int, observes: Callable[[int, Any], None]
) -> None:
    """Has an executor make the runs. What was observed is told in the order of the seeds, and so is what was seen in all.

    The first seed that fails is run here once more, and raises.
    """
    __tracebackhide__ = True
    look: Look = runner.plan.look
    failing, at = None, first
    with _Handed(executor, given, first, count) as handed, Bar(count) as bar:
        for done, found in handed:
            look.join(found.look)
            for seed, seen in enumerate(found.observed, at):
                observes(seed, seen)
            at += done
            bar.add(done)
            failing = found.failing
            if failing is not None:
                break
    if failing is None:
        return
    with runner.plan:
        ran: Ran = runner.run(failing)
        if ran.error is None:
            raise RuntimeError(
                f"seed {failing} failed at a worker, and does not fail here: something besides the tree and the seed decides what it does"
            )
        raise runner.failed(failing, ran)


def explored_by(executor: Any, runner: Any, given: Given, first: int, count: int) -> Seen:
    """`explore` by an executor."""
    __tracebackhide__ = True
    run_by(executor, runner, given, first, count, lambda seed, seen: None)
    seen: Seen = runner.plan.look.seen()
    return seen
