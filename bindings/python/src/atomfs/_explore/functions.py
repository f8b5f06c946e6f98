"""Functions as the threads of a run."""
from __future__ import annotations

import _thread
import inspect
import pdb
import re
import sys
import threading
from typing import Any, Callable, Iterable, List, Mapping, Optional, Sequence, Tuple, Union

from .._errors import StrPath
from .._library import Limits
from .._patch import patch
from .._script import AnyCall, Planned, planned
from .._tree import Seat
from .._values import NAME
from .draws import Drawing
from .errors import Line
from .hooks import Hooks, clock_of
from .lists import Check, look
from .runs import BEFORE, Look, Plan, Ran, count_entries, journal_of
from .scheduler import THREADS, Thread, Turns, here
from .view import View

# A function takes the tree of the run, and nothing where that stands at a directory.
Function = Callable[..., object]
# One exploration of functions at a time: what they find in the place of Python's own is the same for all.
_ONE: Any = _thread.allocate_lock()
_MOST = 256
# No descriptor is greater.
_NUMBERS = 1 << 31


class Functions(Plan):
    """Functions, each on a thread of its own. `at` is where the tree stands for them, if it does."""

    def __init__(
        self,
        functions: Mapping[str, Union[Function, Iterable[AnyCall]]],
        check: Optional[Check],
        before: Union[Function, Iterable[AnyCall], None],
        at: Optional[StrPath],
        limit: Optional[int],
        limits: Limits,
        budget: int,
        patience: float,
        observe: Optional[Check] = None,
    ) -> None:
        self.limits, self._limit, self._check, self._observe = limits, limit, check, observe
        self._at, self._budget, self._patience = at, budget, patience
        self._functions = {name: _function(name, given, limits) for name, given in functions.items()}
        if not 0 < len(self._functions) <= _MOST:
            raise ValueError(f"1 to {_MOST} functions are run, and not {len(self._functions)}")
        self._before = None if before is None else _function(BEFORE, before, limits)
        self.names, self.prepares = list(self._functions), before is not None
        self.look = Look()
        self._hooks: Optional[Hooks] = None
        self._patch: Optional[patch] = None

    # ---- Begin and end of all runs

    def __enter__(self) -> Functions:
        if here() is not None:
            raise RuntimeError("a function that is explored does not explore")
        _ONE.acquire()
        self._hooks = Hooks()
        self._hooks.__enter__()
        return self

    def __exit__(self, *error: object) -> None:
        try:
            if self._patch is not None:
                self._patch._files.close_range(0, _NUMBERS)
                self._patch.__exit__()
                self._patch = None
        finally:
            if self._hooks is not None:
                self._hooks.__exit__()
            _ONE.release()

    # ---- One run

    def run(self, draw: Drawing, seed: int) -> Ran:
        """One run, with the check behind it."""
        __tracebackhide__ = True
        return self._run(draw, seed, self._patience, False)

    def replayed(self, draw: Drawing, seed: int, breaks: Sequence[Line]) -> Ran:
        """One run under a debugger that stops at these lines."""
        debugger = pdb.Pdb(nosigint=True)
        for line in breaks:
            debugger.set_break(line.file, line.number)
        # Only at these: no frame of a thread is this one, at whose end it would stop.
        debugger.botframe, debugger.quitting = sys._getframe(), False
        debugger._set_stopinfo(debugger.botframe, None, -1)  # type: ignore[attr-defined]
        threading.settrace(debugger.trace_dispatch)
        try:
            return self._run(draw, seed, None, True)
        finally:
            threading.settrace(None)  # type: ignore[arg-type]

    def _run(self, draw: Drawing, seed: int, patience: Optional[float], debug: bool) -> Ran:
        __tracebackhide__ = True
        assert self._hooks is not None
        self._hooks.seeded(seed)
        run = Turns(draw, self.look, self._budget, patience, self.limits)
        run.debug = debug
        with View(run, self._limit, self.limits) as tree:
            ran = Ran({}, run.turns, run.half_way, run.events, run.calls)
            with clock_of(run):
                self._stands(tree, run)
                self._prepare(run, tree)
                ran.prepared = len(run.events)
                ran.replies = run.go({name: self._body(name, tree) for name in self.names})
                entries = count_entries(tree)
                ran.error = run.fault
                if ran.error is None:
                    look(self, self._check, self._observe, ran, tree)
            if ran.error is not None:
                ran.journal = journal_of(tree, entries)
        run.forget()
        return ran

    def _stands(self, tree: View, run: Turns) -> None:
        """Lets a tree stand at the directory."""
        if self._at is None:
            return
        if self._patch is None:
            made = patch(tree, at=self._at)
            made.__enter__()
            self._patch = made
        self._patch._lead(tree, run.now)

    def _prepare(self, run: Turns, tree: View) -> None:
        """Gives each thread its seat, and makes what comes before the others."""
        before = Thread(run, BEFORE, alone=True)
        # The first seat was the one of the tree's own calls.
        names = [*([BEFORE] if self._before is not None else []), *self.names]
        later = [tree.seat() for _ in range(len(names) - 1)]
        seats = dict(zip(names, [Seat(tree, tree._mine.leave()), *later]))
        for name in self.names:
            run.threads[name] = Thread(run, name)
            run.threads[name].seat = seats[name]
        if self._before is None:
            return
        before.seat = seats[BEFORE]
        ident = _thread.get_ident()
        THREADS[ident] = before
        try:
            self._called(self._before, tree)
        finally:
            del THREADS[ident]

    def _called(self, function: Function, tree: View) -> object:
        return function(tree) if self._at is None or isinstance(function, _Calls) else function()

    def _body(self, name: str, tree: View) -> Callable[[], object]:
        function = self._functions[name]
        return lambda: self._called(function, tree)


class _Calls:
    """A list of calls as a function: it answers their replies."""

    def __init__(self, calls: List[Planned]) -> None:
        self._calls = calls

    def __call__(self, tree: View) -> List[Any]:
        replies: List[Any] = []
        me = here()
        assert me is not None
        for call in self._calls:
            request = call.request
            paths: Tuple[Any, ...] = call.paths
            other = paths[1] if paths[1:] else None
            try:
                replies.append(
                    tree._made(
                        me,
                        call.call,
                        paths[0],
                        other,
                        request.offset,
                        request.size,
                        request.bytes[: request.bytes_length],
                    )
                )
            except OSError as error:
                replies.append(error)
        return replies


def _function(name: str, given: Union[Function, Iterable[AnyCall]], limits: Limits) -> Function:
    """A function as it is, and a list of calls as one."""
    if not isinstance(name, str) or not re.fullmatch(NAME, name, re.A):
        raise ValueError(
            f"a thread has a name as in a script, a letter and at most 15 of a to z, 0 to 9 and _, and this is {name!r}"
        )
    if inspect.iscoroutinefunction(given):
        raise TypeError(f"thread {name} is a coroutine function: let a function run it, as by asyncio.run")
    if callable(given):
        return given
    if isinstance(given, str):
        raise TypeError(f"thread {name} is a function or a list of calls, and this is str")
    return _Calls([planned(call, limits) for call in given])


def are_functions(given: Mapping[str, Any], before: Any) -> bool:
    """Whether some thread is a function."""
    return callable(before) or any(map(callable, given.values()))
