"""What comes of functions, over many runs: how often, and by which seed."""
from __future__ import annotations

from typing import Any, Callable, Dict, Iterator, List, NamedTuple, Sequence, Union, overload

from . import Runner, Schedule, Threads, _listed, check_seeds, plan_of
from .bar import Bar
from .draws import BOTH, Draws
from .errors import without_addresses
from .lists import Check
from .runs import Seen

_WIDTH = 100


class Outcome(NamedTuple):
    """What was observed."""

    value: Any
    #: In how many runs.
    runs: int
    #: The first seed of one: `explore` with it and `runs=1` makes that run.
    seed: int


class Outcomes(Sequence[Outcome]):
    """What was observed, the most frequent first. `str` is a table.

    `never`, `always` and `sometimes` take a value, or a function that says of a value whether it is meant. Each answers this again.
    """

    def __init__(
        self, rows: List[Outcome], seen: Seen, again: Callable[[int, Callable[[Any], bool], str], None]
    ) -> None:
        self._rows, self._again = rows, again
        #: How many runs there were, and how much was seen in them.
        self.seen = seen

    def __len__(self) -> int:
        return len(self._rows)

    @overload
    def __getitem__(self, at: int) -> Outcome:
        ...

    @overload
    def __getitem__(self, at: slice) -> List[Outcome]:
        ...

    def __getitem__(self, at: Union[int, slice]) -> Union[Outcome, List[Outcome]]:
        return self._rows[at]

    def __iter__(self) -> Iterator[Outcome]:
        return iter(self._rows)

    def __str__(self) -> str:
        values = [without_addresses(row.value) for row in self._rows]
        cut = [value if len(value) <= _WIDTH else f"{value[:_WIDTH]}.." for value in values]
        width = max((len(f"{row.runs:,}") for row in self._rows), default=0)
        lines = [f"{row.runs:{width},} times, first by seed {row.seed}: {value}" for row, value in zip(self._rows, cut)]
        return "\n".join([*lines, self.seen.summary])

    def __repr__(self) -> str:
        return f"<atomfs.Outcomes {self.seen.summary}>"

    def count(self, what: Any) -> int:
        """In how many runs a value came, or one that a function says is meant.

        Raises what that function raises.
        """
        meant = _meant(what)
        return sum(row.runs for row in self._rows if meant(row.value))

    def never(self, what: Any) -> Outcomes:
        """Raises `ScheduleError` where a value came: of the run of its first seed, cut down."""
        __tracebackhide__ = True
        meant = _meant(what)
        self._none(meant, f"never {_name(what)}")
        return self

    def always(self, what: Any) -> Outcomes:
        """Raises `ScheduleError` where another value came: of the run of its first seed, cut down."""
        __tracebackhide__ = True
        meant = _meant(what)
        self._none(lambda value: not meant(value), f"always {_name(what)}")
        return self

    def sometimes(self, what: Any) -> Outcomes:
        """Raises `AssertionError` where a value never came."""
        __tracebackhide__ = True
        if not self.count(what):
            raise AssertionError(f"sometimes {_name(what)}: it came in none of these\n{self}")
        return self

    def _none(self, bad: Callable[[Any], bool], words: str) -> None:
        __tracebackhide__ = True
        those = [row for row in self._rows if bad(row.value)]
        if those:
            first = min(those, key=lambda row: row.seed)
            count = sum(row.runs for row in those)
            self._again(first.seed, bad, f"{words}: {count:,} of {int(self.seen):,} runs break it")


def _meant(what: Any) -> Callable[[Any], bool]:
    if callable(what):
        return lambda value: bool(what(value))
    return lambda value: bool(value == what)


def _name(what: Any) -> str:
    return getattr(what, "__name__", "") if callable(what) else without_addresses(what)


def outcomes(
    threads: Threads,
    observe: Check,
    runs: int = 1_000,
    seed: int = 1,
    *,
    draws: Draws = BOTH,
    executor: Any = None,
    **options: Any,
) -> Outcomes:
    """Runs functions as `explore` does, and counts what `observe` returns after each run. `observe` takes the tree and the replies.

        found = atomfs.outcomes({"ann": add, "bob": add}, lambda tree, replies: tree.read_text("/n"), before=zero)
        print(found)
        found.never("0").sometimes("2")

    Two values are one outcome if their `repr` is the same, apart from addresses. The other arguments are those of `explore`. If a run does not
    end, or `observe` raises, `ScheduleError` is raised.
    """
    __tracebackhide__ = True
    before = options.get("before", ())
    options["before"] = before if callable(before) else _listed(before)
    given = {name: one if callable(one) or isinstance(one, str) else list(one) for name, one in threads.items()}
    first, count = check_seeds(seed, runs)
    count = min(count, 1) if isinstance(draws, Schedule) else count
    runner = Runner(plan_of(given, None, observe=observe, **options), draws)
    rows: Dict[str, Outcome] = {}

    def observed(at: int, value: Any) -> None:
        key = without_addresses(value)
        row = rows.get(key)
        rows[key] = Outcome(value, 1, at) if row is None else row._replace(runs=row.runs + 1)

    if executor is not None:
        from .executors import run_by

        run_by(executor, runner, (given, None, {**options, "observe": observe}, draws), first, count, observed)
    else:
        with runner.plan, Bar(count) as bar:
            for at in range(first, first + count):
                ran = runner.run(at)
                if ran.error is not None:
                    raise runner.failed(at, ran)
                observed(at, ran.seen)
                bar.add(1)

    def again(at: int, bad: Callable[[Any], bool], words: str) -> None:
        __tracebackhide__ = True

        def check(tree: Any, replies: Any) -> None:
            __tracebackhide__ = True
            if bad(observe(tree, replies)):
                raise AssertionError(words)

        checked = Runner(plan_of(given, check, **options), draws)
        with checked.plan:
            ran = checked.run(at)
            if ran.error is None:
                raise RuntimeError(
                    f"seed {at} comes to another outcome now: something besides the tree and the seed decides it"
                )
            raise checked.failed(at, ran)

    plan: Any = runner.plan
    return Outcomes(sorted(rows.values(), key=lambda row: (-row.runs, row.seed)), plan.look.seen(), again)
