"""What a function of a run finds in the place of Python's locks, sleeps, clocks and drawn names; other threads find Python's own.

They are put wherever a module has them, under whatever name, while `explore` runs.
"""
from __future__ import annotations

import _thread
import contextlib
import functools
import gc
import os
import queue
import random
import sys
import tempfile
import threading
import time
import types
from typing import Any, Callable, Dict, Iterator, List, Optional, Set

from .errors import Line
from .scheduler import CLOCKS, START, THREADS, Thread, is_own, line_of

_ident = _thread.get_ident
# Modules that keep what they have.
_KEPT = {"_frozen_importlib", "_frozen_importlib_external", "importlib._bootstrap", "importlib._bootstrap_external"}
# After how many runs garbage is looked for, which is not done within one: what it closes would come at another place each time.
_COLLECTS = 200


class _Waited:
    """What threads wait for."""

    def __init__(self) -> None:
        self.waiting: List[Thread] = []
        self.owner: Optional[Thread] = None
        self.since: Optional[Line] = None

    def _here(self) -> Optional[Thread]:
        """The thread of a run that calls. One that is none of it must not meet those that are."""
        me = THREADS.get(_ident())
        if me is None and self.owner is not None and self.owner.run.going and not self.owner.alone:
            self.owner.run.stranger()
        return me

    def _taken(self, me: Optional[Thread]) -> None:
        self.owner = me
        if me is not None and not me.alone:
            self.since = line_of(sys._getframe(2))

    def __str__(self) -> str:
        for owner in [self.owner] if self.owner is not None else []:
            if owner not in self.waiting:
                at = f" since {self.since}: {self.since.text}" if self.since is not None else ""
                ends = ", and has come to its end" if owner.ended else ""
                return f"a lock that {owner.name} has{at}{ends}"
        return "what another has to do"


class Lock(_Waited):
    """As `threading.Lock`. Which of those that wait for it has it next is drawn."""

    def __init__(self) -> None:
        super().__init__()
        self._locked = False

    def acquire(self, blocking: bool = True, timeout: float = -1) -> bool:
        """Takes it; where another has it, others go on meanwhile."""
        if not blocking and timeout != -1:
            raise ValueError("can't specify a timeout for a non-blocking call")
        me = self._here()
        if me is None:
            # Nobody else is there.
            if self._locked and not blocking:
                return False
            if self._locked and self.owner is None:
                raise RuntimeError("nobody ends the wait for this lock")
        else:
            me.run.turn(me)
            while self._locked:
                if not (blocking and timeout and me.run.wait(me, self, None if timeout == -1 else timeout)):
                    return False
        self._locked = True
        self._taken(me)
        return True

    def release(self) -> None:
        """Gives it back, from whichever thread."""
        if not self._locked:
            raise RuntimeError("release unlocked lock")
        self._locked, owner = False, self.owner
        self.owner = None
        me = THREADS.get(_ident()) or owner
        if me is not None:
            me.run.wake(self)

    def locked(self) -> bool:
        """Whether some thread has it."""
        return self._locked

    def __enter__(self) -> bool:
        return self.acquire()

    def __exit__(self, *error: object) -> None:
        self.release()

    def _at_fork_reinit(self) -> None:
        self._locked, self.owner, self.waiting = False, None, []


class RLock(_Waited):
    """As `threading.RLock`."""

    def __init__(self) -> None:
        super().__init__()
        self._depth = 0
        # The number of a thread that is none of a run.
        self._other: Optional[int] = None

    def acquire(self, blocking: bool = True, timeout: float = -1) -> bool:
        """Takes it once more."""
        me = self._here()
        if self._depth and not self._mine(me):
            if me is None and not blocking:
                return False
            if me is None:
                self._depth = 0
        if me is not None and not self._mine(me):
            me.run.turn(me)
            while self._depth and self.owner is not me:
                if not (blocking and timeout and me.run.wait(me, self, None if timeout == -1 else timeout)):
                    return False
        if not self._depth:
            self._taken(me)
            self._other = _ident() if me is None else None
        self._depth += 1
        return True

    def _mine(self, me: Optional[Thread]) -> bool:
        return self._depth > 0 and (self.owner is me if me is not None else self._other == _ident())

    def release(self) -> None:
        """Gives it back, once it is called as often as `acquire`."""
        if not self._is_owned():
            raise RuntimeError("cannot release un-acquired lock")
        self._depth -= 1
        if not self._depth:
            owner, self.owner, self._other = self.owner, None, None
            if owner is not None:
                owner.run.wake(self)

    def __enter__(self) -> bool:
        return self.acquire()

    def __exit__(self, *error: object) -> None:
        self.release()

    # ---- What `threading.Condition` asks for

    def _is_owned(self) -> bool:
        return self._mine(THREADS.get(_ident()))

    def _release_save(self) -> int:
        depth, self._depth = self._depth, 1
        self.release()
        return depth

    def _acquire_restore(self, depth: int) -> None:
        self.acquire()
        self._depth = depth

    def _at_fork_reinit(self) -> None:
        self._depth, self.owner, self.waiting = 0, None, []


class PassedBy(RLock):
    """The lock of a tree: a call waits for it and does not take it."""

    def pass_by(self, me: Thread) -> None:
        """Waits until no other thread has it."""
        while self._depth and self.owner is not None and self.owner is not me:
            me.run.wait(me, self, None)


class _Names:
    """The names of temporary files."""

    _LETTERS = "abcdefghijklmnopqrstuvwxyz0123456789_"

    def __init__(self, seed: int) -> None:
        self._draw = random.Random(seed)

    def __iter__(self) -> _Names:
        return self

    def __next__(self) -> str:
        return "".join(self._LETTERS[int(self._draw.random() * len(self._LETTERS))] for _ in range(8))


def _sleep(real: Callable[[float], None]) -> Callable[[float], None]:
    def sleep(seconds: float, /) -> None:
        me = THREADS.get(_ident())
        if me is None:
            return real(seconds)
        if seconds < 0:
            raise ValueError("sleep length must be non-negative")
        me.run.slept += int(seconds * 10**9)
        me.run.draw.yields(me.name)
        me.run.turn(me)

    return sleep


def _clock(real: Callable[[], Any], since: int, per: int) -> Callable[[], Any]:
    """A clock that goes by the turns of a run, in nanoseconds, or where `per` is greater than 1 in so many."""

    def clock() -> Any:
        run = CLOCKS.get(_ident())
        if run is None:
            return real()
        return run.now() - since if per == 1 else (run.now() - since) / per

    return clock


def _made(real: Callable[..., Any], kind: Callable[[], Any]) -> Callable[..., Any]:
    """A function that makes a lock of a run in its threads, and a real one elsewhere; a class, where `real` is one, as `threading.Lock` is
    from Python 3.13 on."""

    def make(*given: Any, **named: Any) -> Any:
        return kind() if _ident() in THREADS else real(*given, **named)

    made: Callable[..., Any] = _class_of(real, kind, make) if isinstance(real, type) else make
    return made


def _class_of(real: type, kind: Any, make: Callable[..., Any]) -> Any:
    """A class in the place of one: what is of either is of it, and its call makes what is due."""
    kinds = (real, kind) if isinstance(kind, type) else (real,)

    class OfLocks(type):
        def __call__(cls, *given: Any, **named: Any) -> Any:
            return make(*given, **named)

        def __instancecheck__(cls, one: object) -> bool:
            return isinstance(one, kinds)

        def __subclasscheck__(cls, one: type) -> bool:
            return issubclass(one, kinds)

    words: Dict[str, Any] = {"__doc__": real.__doc__, "__module__": real.__module__}
    return OfLocks(real.__name__, (), {**words, "__class_getitem__": classmethod(types.GenericAlias)})


def _starts(real: Callable[..., Any]) -> Callable[..., Any]:
    """What starts a thread: `_thread.start_new_thread`, or from Python 3.13 on `_thread.start_joinable_thread`."""

    def start(function: Any, *given: Any, **named: Any) -> Any:
        me = THREADS.get(_ident())
        if me is not None:
            me.run.starts(me, getattr(getattr(function, "__self__", None), "name", "without a name"))
        return real(function, *given, **named)

    return start


def _news() -> Dict[int, Any]:
    """What comes in the place of what, by its `id`."""
    of_c = vars(_thread)
    pairs = [
        (time.sleep, _sleep(time.sleep)),
        *((of_c[name], _starts(of_c[name])) for name in ("start_new_thread", "start_joinable_thread") if name in of_c),
        (_thread.allocate_lock, _made(_thread.allocate_lock, Lock)),
        (threading.Lock, _made(threading.Lock, Lock)),
        (of_c["RLock"], _made(of_c["RLock"], RLock)),
        (threading.RLock, _made(threading.RLock, RLock)),
        (queue.SimpleQueue, _made(queue.SimpleQueue, queue._PySimpleQueue)),  # type: ignore[attr-defined]
    ]
    for name, since in (("time", 0), ("monotonic", START), ("perf_counter", START)):
        pairs += [
            (getattr(time, name), _clock(getattr(time, name), since, 10**9)),
            (getattr(time, f"{name}_ns"), _clock(getattr(time, f"{name}_ns"), since, 1)),
        ]
    return {id(old): (old, new) for old, new in pairs}


def _put(news: Dict[int, Any]) -> None:
    """Puts what is new in the place of what is old, in each module that has it under some name."""
    for name, module in list(sys.modules.items()):
        space = getattr(module, "__dict__", None)
        if name in _KEPT or name.startswith("atomfs._explore") or type(space) is not dict:
            continue
        for key, value in list(space.items()):
            if id(value) in news:
                space[key] = news[id(value)]


class _Old:
    """The locks of the caller's own modules that were made before: in their variables, and in those of their classes and objects.

    One of a run is in the place of each that nobody has, and is free at the begin of a run.
    """

    def __init__(self) -> None:
        self._undo: List[Callable[[], object]] = []
        self._made: Dict[int, Any] = {}
        spaces = {name: vars(module) for name, module in list(sys.modules.items()) if _is_callers(module)}
        for space in list(spaces.values()):
            for name, value in list(space.items()):
                if type(value) in _KINDS:
                    self._put(space.__setitem__, name, value)
                elif (value if isinstance(value, type) else type(value)).__module__ in spaces:
                    for key, one in list(getattr(value, "__dict__", {}).items()):
                        if type(one) in _KINDS:
                            self._put(functools.partial(setattr, value), key, one)

    def _put(self, sets: Callable[[str, Any], object], name: str, old: Any) -> None:
        if id(old) not in self._made:
            if not old.acquire(blocking=False):
                return
            old.release()
            self._made[id(old)] = _KINDS[type(old)]()
        sets(name, self._made[id(old)])
        self._undo.append(lambda: sets(name, old))

    def free(self) -> None:
        """Frees what a run has left."""
        for lock in self._made.values():
            lock._at_fork_reinit()

    def back(self) -> None:
        """Puts all back."""
        for undo in self._undo:
            undo()


# What is made in the place of what.
_KINDS: Dict[type, Callable[[], Any]] = {type(_thread.allocate_lock()): Lock, type(threading.RLock()): RLock}


def _is_callers(module: Any) -> bool:
    """Whether a module is a caller's own: neither Python's, nor this package's, nor one that is installed."""
    file = getattr(module, "__file__", None) or ""
    return type(getattr(module, "__dict__", None)) is dict and is_own(file)


def _on_one() -> Optional[Set[int]]:
    """Lets this thread, and those that it starts, run on one processor, and answers on which they might before.

    One goes at a time, and hands the turn on in half the time, or on a busy machine a fourth, where the next one is on its processor.
    """
    try:
        before = os.sched_getaffinity(0)
        # Processes that run side by side, as those of a pool, have others.
        os.sched_setaffinity(0, {sorted(before)[os.getpid() % len(before)]})
    except (OSError, AttributeError):
        return None
    return before


class Hooks:
    """Within `with` all this is in its place; `seeded` begins a run."""

    def __enter__(self) -> Hooks:
        self._old = _Old()
        pairs = _news()
        self._random, self._names = random.getstate(), tempfile._name_sequence  # type: ignore[attr-defined]
        self._collects, self._runs = gc.isenabled(), 0
        self._back = {id(new): old for old, new in pairs.values()}
        # What is new lives as long as its number is looked for.
        self._new = [new for _, new in pairs.values()]
        _put({number: new for number, (_, new) in pairs.items()})
        gc.disable()
        self._processors = _on_one()
        return self

    def __exit__(self, *error: object) -> None:
        if self._processors:
            os.sched_setaffinity(0, self._processors)
        self._old.back()
        _put(self._back)
        random.setstate(self._random)
        tempfile._name_sequence = self._names  # type: ignore[attr-defined]
        if self._collects:
            gc.enable()

    def seeded(self, seed: int) -> None:
        """Lets `random` and the names of temporary files be those of a seed."""
        self._old.free()
        random.seed(seed)
        tempfile._name_sequence = _Names(seed)  # type: ignore[attr-defined]
        self._runs += 1
        if self._collects and self._runs % _COLLECTS == 0:
            # What has finalizers goes away at the second look.
            gc.collect(0)
            gc.collect(1)


@contextlib.contextmanager
def clock_of(run: Any) -> Iterator[None]:
    """Lets this thread go by the clock of a run."""
    ident = _ident()
    CLOCKS[ident] = run
    try:
        yield
    finally:
        del CLOCKS[ident]
