"""Functions and lists of calls as threads, in interleavings that are drawn by a seed, with a check of the caller's behind each."""
from __future__ import annotations

import re
from typing import Any, Callable, Dict, Iterable, List, Mapping, Optional, Tuple, Union

from .._errors import StrPath
from .._library import Limits
from .._script import AnyCall, planned, script
from .._values import number_of
from .bar import Bar
from .cutting import cut
from .draws import BOTH, PCT, Draws, Given, Schedule, Segments, check_draws, drawing, segments_of
from .errors import (
    BudgetError,
    DeadlockError,
    Event,
    Line,
    PatienceError,
    Replies,
    RunError,
    ScheduleError,
    ThreadError,
    events_of,
)
from .functions import Function, Functions, are_functions
from .lists import Check, Lists
from .runs import BEFORE, Plan, Ran, Seen
from .scheduler import turn

Threads = Mapping[str, Union[Function, Iterable[AnyCall]]]
# Where a tree stands, if nothing else is said.
_AT = "/sandbox"
# A seed is below this.
_SEEDS = 2**63
# How many turns a run takes at most, how many seconds a function may be away, and how many runs cut one down.
_BUDGET, _PATIENCE, _TRIALS = 20_000, 10.0, 400


def plan_of(
    threads: Threads,
    check: Optional[Check],
    *,
    before: Union[Function, Iterable[AnyCall]] = (),
    limit: Optional[int] = None,
    limits: Limits = Limits.V3,
    patch: Union[bool, StrPath] = False,
    budget: int = _BUDGET,
    patience: float = _PATIENCE,
    observe: Optional[Check] = None,
) -> Plan:
    """What is to be run."""
    if isinstance(patch, bytes):
        raise TypeError("the directory at which a tree stands is no bytes")
    if not are_functions(threads, before):
        if patch:
            raise TypeError("lists of calls are made on a tree, and patch is for functions")
        calls: Any = threads
        of_before: Any = before
        if of_before and BEFORE in threads:
            raise ValueError(f"the thread {BEFORE} is the one of the calls before all others")
        return Lists(calls, check, of_before, limit, limits, observe)
    first: Any = before if callable(before) else _listed(before) or None
    if first is not None and BEFORE in threads:
        raise ValueError(f"the thread {BEFORE} is the one of what comes before all others")
    if number_of(budget, "budget") < 1:
        raise ValueError("a budget is 1 turn or more")
    if not patience > 0:
        raise ValueError("patience is some seconds, and not 0")
    at = _AT if patch is True else patch or None
    return Functions(threads, check, first, at, limit, limits, budget, float(patience), observe)


def check_seeds(seed: int, runs: int) -> Tuple[int, int]:
    """The first seed and the number of runs, or what is wrong with them."""
    runs, seed = number_of(runs, "number of runs"), number_of(seed, "seed")
    if seed >= _SEEDS or runs > _SEEDS - seed:
        raise ValueError(f"a seed is below {_SEEDS}, and these are {runs} from {seed} on")
    return seed, runs


class Runner:
    """Makes the runs of a plan by their seeds."""

    def __init__(self, plan: Plan, draws: Draws) -> None:
        check_draws(draws)
        self.plan, self._draws = plan, draws
        self._turns: Optional[int] = None

    def turns(self) -> int:
        """How many turns a run takes in which no thread is interrupted: by these priorities are drawn, whatever the seed."""
        if self._turns is None:
            plan: Any = self.plan
            look, check, observe = plan.look, plan._check, plan._observe
            plan.look, plan._check, plan._observe = type(look)(), None, None
            try:
                self._turns = max(1, len(plan.run(Given([]), 0).turns))
            finally:
                plan.look, plan._check, plan._observe = look, check, observe
        return self._turns

    def run(self, seed: int) -> Ran:
        """The run of a seed."""
        __tracebackhide__ = True
        return self.plan.run(drawing(self._draws, seed, self.plan.names, self.turns), seed)

    def failed(self, seed: int, ran: Ran) -> ScheduleError:
        """The error of a run, which is cut down before; the one that was raised in it is its cause."""
        __tracebackhide__ = True
        # hypothesis cuts its own schedules down; where patience is lost each trial loses it, and no schedule is why a stranger came.
        as_it_is = isinstance(self._draws, Schedule) or isinstance(ran.error, (PatienceError, ThreadError))
        best, trials = (ran, 0) if as_it_is else cut(self.plan, seed, ran, _TRIALS)
        return self.error_of(seed, best, ran.switches, trials)

    def error_of(self, seed: int, ran: Ran, drawn_switches: int, trials: int) -> ScheduleError:
        """The error of a run as it is."""
        error = ran.error
        assert error is not None
        segments = segments_of(ran.turns)
        # pytest adds to an assertion what its values are made of; the cause has all of it.
        words = re.sub(r" at 0x[0-9a-f]+", "", str(error))
        words = words if isinstance(error, RunError) else words.partition("\n")[0]
        told = f"{type(error).__name__}: {words}" if words else type(error).__name__
        events = events_of(ran, ran.journal)

        def again(debug: bool) -> ScheduleError:
            return self._again(seed, segments, events, debug)

        made = ScheduleError(
            seed,
            told,
            self._script(seed, ran),
            ran.journal,
            ran.replies,
            events=events,
            lines=[call.line for call in ran.calls],
            schedule=segments,
            drawn_switches=drawn_switches,
            trials=trials,
            again=again,
        )
        made.__cause__ = error
        return made

    def _script(self, seed: int, ran: Ran) -> str:
        """The script of a run."""
        limits = self.plan.limits
        names = [*([BEFORE] if self.plan.prepares else []), *self.plan.names]
        calls = {name: [planned(call.given, limits) for call in ran.calls if call.thread == name] for name in names}
        return script(calls, (name for name, _ in ran.events), limits, f"seed {seed}")

    def _again(self, seed: int, segments: Segments, events: List[Event], debug: bool) -> ScheduleError:
        with self.plan:
            lines: List[Line] = list(dict.fromkeys(event.line for event in events if event.line is not None))
            draw = Given(segments)
            ran = self.plan.replayed(draw, seed, lines) if debug else self.plan.run(draw, seed)
            if ran.error is None:
                raise RuntimeError(
                    "the run does not fail again: something besides the tree and the seed decides what it does"
                )
            return self.error_of(seed, ran, len(segments) - 1, 0)


def explore(
    threads: Threads,
    check: Check,
    runs: int = 10_000,
    seed: int = 1,
    *,
    before: Union[Function, Iterable[AnyCall]] = (),
    limit: Optional[int] = None,
    limits: Limits = Limits.V3,
    patch: Union[bool, StrPath] = False,
    draws: Draws = BOTH,
    budget: int = _BUDGET,
    patience: float = _PATIENCE,
    executor: Any = None,
) -> Seen:
    """Runs functions, each on a thread of its own, in random interleavings, checks each run, and returns how many runs there were.

        def create(tree):
            if not tree.exists("/lock"):
                tree.mkdir("/lock")
                return "won"

        atomfs.explore({"ann": create, "bob": create}, lambda tree, replies: list(replies.values()).count("won") == 1)

    One thread runs at a time. The seed decides whose turn is next before each begin and each step of a call of the tree. It also does so at
    `atomfs.turn()`, at `time.sleep`, which takes no time, and at locks, conditions, events and queues that are made within the run. Each run
    has a new tree. A function takes the tree. With `patch` it takes nothing, and the tree is at `/sandbox`, or at the directory that is given:
    `open`, `os`, `pathlib` and `shutil` go there. `before` is a function that prepares the tree, or a list of calls.

    In place of a function, a list of calls makes these calls: lines of a script, or tuples.

    `check` takes the tree, and a dictionary with what each thread's function returned or raised, or with the replies of its calls. With `patch`
    its `open` and `os` go to the tree too. If it raises or returns False, or if a run does not end, `ScheduleError` is raised, with the run cut
    down. A run takes at most `budget` turns, and a function stays away from the tree for at most `patience` seconds. `draws` is `"uniform"` or
    `PCT(depth)`; without it they take turns. The first run has the given seed, and each other run the next one: the same seed gives the same run.

    `executor` is any executor of `concurrent.futures`: its workers make the runs, a range of seeds at a time, and the result is the same.
    """
    __tracebackhide__ = True
    options: Dict[str, Any] = {
        "before": before if callable(before) else _listed(before),
        "limit": limit,
        "limits": limits,
    }
    options.update(patch=patch, budget=budget, patience=patience)
    given = {name: one if callable(one) or isinstance(one, str) else list(one) for name, one in threads.items()}
    first, count = check_seeds(seed, runs)
    runner = Runner(plan_of(given, check, **options), draws)
    if isinstance(draws, Schedule):
        count = min(count, 1)
    if executor is not None:
        from .executors import explored_by

        seen: Seen = explored_by(executor, runner, (given, check, options, draws), first, count)
        return seen
    with runner.plan, Bar(count) as bar:
        for at in range(first, first + count):
            ran = runner.run(at)
            if ran.error is not None:
                raise runner.failed(at, ran)
            bar.add(1)
    return _seen(runner.plan)


def _listed(before: Iterable[AnyCall]) -> List[AnyCall]:
    return [before] if isinstance(before, str) else list(before)


def _seen(plan: Any) -> Seen:
    seen: Seen = plan.look.seen()
    return seen


def simulate(
    threads: Threads, runs: int = 1_000, seed: int = 1, **options: Any
) -> Callable[[Check], Callable[[], None]]:
    """Makes a test for pytest of a check, which is run by `explore`, whose other arguments are `options`.

    @atomfs.simulate({"ann": create, "bob": create}, runs=1_000)
    def test_one_wins(tree, replies):
        assert list(replies.values()).count("won") == 1

    The test raises what `explore` does.
    """

    def made(check: Check) -> Callable[[], None]:
        def test() -> None:
            __tracebackhide__ = True
            explore(threads, check, runs, seed, **options)

        # Without __wrapped__, by which pytest would look for fixtures of these names.
        for name in ("__name__", "__qualname__", "__doc__", "__module__"):
            setattr(test, name, getattr(check, name))
        return test

    return made


__all__ = [
    "BudgetError",
    "DeadlockError",
    "Event",
    "Line",
    "PCT",
    "PatienceError",
    "Replies",
    "RunError",
    "Schedule",
    "ScheduleError",
    "Seen",
    "ThreadError",
    "explore",
    "simulate",
    "turn",
]
