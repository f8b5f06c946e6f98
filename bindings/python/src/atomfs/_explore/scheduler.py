"""Threads of which one goes at a time, whose turn is drawn."""
from __future__ import annotations

import _thread
import ctypes
import os
import sys
import threading
from types import CodeType, FrameType
from typing import Any, Callable, Dict, List, Optional, Tuple

from .._library import Call, Limits
from .draws import Drawing
from .errors import BudgetError, DeadlockError, Line, PatienceError, RunError, ThreadError, printable
from .runs import Called, Look

_allocate: Callable[[], Any] = _thread.allocate_lock
_ident = _thread.get_ident
_PACKAGE = os.path.dirname(os.path.dirname(os.path.abspath(__file__))) + os.sep
_OF_PYTHON = os.path.dirname(threading.__file__) + os.sep
# The threads of runs that are under way, by their numbers, and the runs whose clock a thread goes by.
THREADS: Dict[int, Thread] = {}
CLOCKS: Dict[int, Turns] = {}
# By code whether it is a caller's.
_callers: Dict[CodeType, bool] = {}
# The clock of a run begins here, in nanoseconds since 1970: at the begin of the year 2000. A turn takes a millisecond.
START, TURN = 946_684_800 * 10**9, 10**6
# How many of the last calls are told where a run does not end.
_LAST = 8


class Stopped(BaseException):
    """The run is over, and its threads go away."""


def here() -> Optional[Thread]:
    """The thread of a run that calls, where it is one."""
    return THREADS.get(_ident())


def is_callers(code: CodeType) -> bool:
    """Whether code is neither this package's nor Python's own."""
    found = _callers.get(code)
    if found is None:
        file = code.co_filename
        own = file.startswith((_PACKAGE, "<frozen ")) or (file.startswith(_OF_PYTHON) and "-packages" not in file)
        found = _callers[code] = not own
    return found


def is_own(file: str) -> bool:
    """Whether a file is a caller's own, and of nothing that is installed."""
    return bool(file) and "-packages" not in file and not file.startswith((_PACKAGE, _OF_PYTHON, "<frozen "))


def frame_of_caller(frame: Optional[FrameType]) -> Optional[FrameType]:
    """The innermost frame of a caller's code."""
    while frame is not None and not is_callers(frame.f_code):
        frame = frame.f_back
    return frame


def line_of(frame: Optional[FrameType]) -> Optional[Line]:
    """The line of a caller's code that is being run."""
    found = frame_of_caller(frame)
    return Line(found.f_code.co_filename, found.f_lineno) if found is not None else None


def _at(line: Optional[Line]) -> str:
    return printable(f" at {line}: {line.text}") if line is not None else ""


class Thread:
    """A thread of a run. `alone` says that it is the one that makes what comes before the others."""

    def __init__(self, run: Turns, name: str, alone: bool = False) -> None:
        self.run, self.name, self.alone = run, name, alone
        self.go = _allocate()
        self.go.acquire()
        self.real: Optional[threading.Thread] = None
        self.seat: Any = None
        self.number, self.did, self.about = ctypes.c_uint64(), ctypes.c_uint8(), ctypes.c_uint64()
        self.at_number, self.at_did, self.at_about = map(ctypes.addressof, (self.number, self.did, self.about))
        self.under_way = self.ended = False
        self.site: Any = None
        # What it waits for, since which line, and until when.
        self.waits: Any = None
        self.since: Optional[Line] = None
        self.until: Optional[int] = None
        self.timed_out = False

    def goes(self) -> None:
        """Gives it the turn. Where the run is interrupted, it may have it already."""
        try:
            self.go.release()
        except RuntimeError:
            pass


class Turns:
    """The threads of one run, which `go` brings to their ends."""

    def __init__(self, draw: Drawing, look: Look, budget: int, patience: Optional[float], limits: Limits) -> None:
        self.draw, self.look, self.budget, self.patience, self.limits = draw, look, budget, patience, limits
        self.threads: Dict[str, Thread] = {}
        self.replies: Dict[str, Any] = {}
        self.able: List[str] = []
        # Those whose call waits for one of another thread.
        self.held: List[Thread] = []
        self.turns: List[str] = []
        self.half_way: List[bool] = []
        self.events: List[Tuple[str, int]] = []
        self.calls: List[Called] = []
        self.count = self.slept = self.prepared = 0
        self.going = self.over = False
        self.fault: Optional[BaseException] = None
        # Under a debugger an error keeps where it was raised.
        self.debug = False
        self._done = _allocate()
        self._done.acquire()

    # ---- The clock

    def now(self) -> int:
        """Nanoseconds since 1970, by the clock of the run."""
        return START + self.slept + TURN * (self.count + len(self.events))

    # ---- Turns

    def turn(self, me: Thread) -> None:
        """Draws whose turn is next. It comes back when it is this thread's."""
        if self.over or self.fault is not None:
            self._stop(me)
        if me.alone:
            return
        self.count += 1
        if self.count > self.budget:
            self.fault = BudgetError(self._endless())
            self._stop(me)
        name = self.draw.next(self.able, me.name)
        self.turns.append(name)
        self.half_way.append(me.under_way)
        if name != me.name:
            self.threads[name].goes()
            self._park(me)

    def _park(self, me: Thread) -> None:
        me.go.acquire()
        if self.over:
            raise Stopped

    def _pass_on(self, me: Thread) -> None:
        """Gives the turn away, since this thread cannot go on; it comes back when it has the turn again."""
        following = self._following(me)
        if following is None:
            self._stop(me)
        elif following is not me:
            following.goes()
            self._park(me)

    def _following(self, last: Thread) -> Optional[Thread]:
        """Whose turn is next, where the last thread cannot go on."""
        if not self.able:
            self._wake_held()
        if not self.able:
            self._wake_sleeper()
        self.count += 1
        if self.count > self.budget:
            self.fault = BudgetError(self._endless())
        elif not self.able:
            self.fault = DeadlockError(self._deadlock())
        if self.fault is not None:
            return None
        name = self.draw.next(self.able, last.name)
        self.turns.append(name)
        self.half_way.append(last.under_way)
        return self.threads[name]

    def _stop(self, me: Thread) -> None:
        """Ends the run: the others are woken one after the other, and raise what this raises."""
        if not self.over:
            self.over = True
            self._done.release()
        raise Stopped

    def _ended(self, me: Thread) -> None:
        """The function of a thread has come to its end."""
        me.ended = True
        if self.over:
            return
        self._unable(me)
        # A call that was left by an error of its own holds nothing any more.
        self._wake_held()
        if all(thread.ended for thread in self.threads.values()):
            self.over = True
            self._done.release()
            return
        following = self._following(me)
        if following is None:
            self.over = True
            self._done.release()
        else:
            following.goes()

    # ---- Waits

    def _unable(self, thread: Thread) -> None:
        if thread.name in self.able:
            self.able = [name for name in self.able if name != thread.name]

    def _able(self, thread: Thread) -> None:
        thread.waits = thread.until = None
        if not thread.ended and thread.name not in self.able:
            self.able = [name for name in self.threads if name in self.able or name == thread.name]

    def hold(self, me: Thread) -> None:
        """The call of a thread waits for one of another: it is passed over until another call has gone on."""
        self._unable(me)
        self.held.append(me)
        self._pass_on(me)

    def _wake_held(self) -> None:
        while self.held:
            self._able(self.held.pop())

    def gone_on(self) -> None:
        """A call has gone on, so those that wait for one look again."""
        if self.held:
            self._wake_held()

    def wait(self, me: Thread, what: Any, timeout: Optional[float]) -> bool:
        """Waits for what another thread does, and answers whether that came before the time was over, which it is if no thread can go on."""
        if me.alone:
            raise DeadlockError(f"{me.name} waits for {what}{_at(line_of(sys._getframe()))}, which nobody ends")
        me.waits, me.since, me.timed_out = what, line_of(sys._getframe()), False
        me.until = None if timeout is None else self.now() + int(timeout * 10**9)
        what.waiting.append(me)
        self._unable(me)
        self._pass_on(me)
        return not me.timed_out

    def wake(self, what: Any) -> None:
        """Lets all go on that wait for something."""
        while what.waiting:
            self._able(what.waiting.pop())

    def _wake_sleeper(self) -> None:
        """Where no thread can go on, time passes until the first of those that wait no longer than a while."""
        timed = [thread for thread in self.threads.values() if thread.until is not None and not thread.ended]
        if timed:
            first = min(timed, key=lambda thread: thread.until or 0)
            self.slept += max(0, (first.until or 0) - self.now())
            first.timed_out = True
            first.waits.waiting.remove(first)
            self._able(first)

    # ---- What is told

    def _deadlock(self) -> str:
        lines = [
            f"{thread.name} waits for {thread.waits}{_at(thread.since)}"
            for thread in self.threads.values()
            if not thread.ended
        ]
        raised = [
            f"{name} has raised {type(reply).__name__}: {reply}"
            for name, reply in self.replies.items()
            if isinstance(reply, BaseException)
        ]
        return "\n  ".join(["no thread can go on:", *lines, *raised])

    def _endless(self) -> str:
        last = [f"{call.thread}{_at(call.line)}" for call in self.calls[-_LAST:]]
        return "\n  ".join([f"the functions took more than {self.budget:,} turns; their last calls:", *last])

    def _impatient(self) -> str:
        name = self.turns[-1]
        thread = self.threads[name].real
        frame = sys._current_frames().get(thread.ident or 0) if thread is not None else None
        return (
            f"thread {name} has made no call for {self.patience} seconds{_at(line_of(frame))}: it may wait for a lock that was made "
            f"before the run, for the network, or for a thread that is none of the run"
        )

    def stranger(self) -> None:
        """A thread that is none of the run came to its tree."""
        name = threading.current_thread().name
        self.fault = ThreadError(
            f"thread {name} calls the tree of a run, and is none of its threads{_at(line_of(sys._getframe()))}"
        )
        raise self.fault

    def starts(self, me: Thread, name: str) -> None:
        """A function starts a thread."""
        self.fault = ThreadError(
            f"thread {me.name} starts a thread of its own, {name}{_at(line_of(sys._getframe()))}: let it be a function of the run"
        )
        raise self.fault

    # ---- Calls

    def began(self, me: Thread, call: Call, given: Tuple[Any, ...], number: int, alone: bool) -> int:
        """Notes a call that has begun, and what others are under way."""
        line = line_of(sys._getframe(2))
        site = me.name, str(line), call.name
        look = self.look
        if not me.alone:
            look.sites.add(site)
            if alone:
                look.alone.add(site)
            for thread in self.threads.values():
                if thread.under_way and thread is not me:
                    look.met.add(frozenset((site, thread.site)))
        me.site, me.under_way = site, True
        self.calls.append(Called(me.name, given, number, line, self.limits))
        return len(self.calls) - 1

    # ---- All of it

    def go(self, bodies: Dict[str, Callable[[], object]]) -> Dict[str, Any]:
        """Lets each function come to its end on a thread of its own, and answers what they returned or raised."""
        for name, body in bodies.items():
            me = self.threads[name]
            me.real = threading.Thread(target=self._body, args=(me, body), name=name, daemon=True)
        self.able, self.going = list(self.threads), True
        for thread in self.threads.values():
            assert thread.real is not None
            thread.real.start()
        try:
            first = self.draw.next(self.able, "")
            self.turns.append(first)
            self.half_way.append(False)
            self.threads[first].goes()
            self._await()
        finally:
            self.over = True
            self._away()
            self.going = False
        return {name: self.replies.get(name) for name in bodies}

    def forget(self) -> None:
        """Lets go of the threads, so that the run goes away with its tree, and waits for no look for garbage."""
        for thread in self.threads.values():
            thread.seat = None
        self.threads = {}

    def _body(self, me: Thread, body: Callable[[], object]) -> None:
        ident = _ident()
        THREADS[ident], CLOCKS[ident] = me, self
        try:
            self._park(me)
            self.replies[me.name] = body()
        except Stopped:
            pass
        except BaseException as error:
            self.replies[me.name] = error if self.debug else error.with_traceback(None)
        finally:
            del THREADS[ident], CLOCKS[ident]
            self._ended(me)

    def _await(self) -> None:
        """Waits for the end, as long as the threads come to their turns."""
        count = -1
        while not self._done.acquire(timeout=self.patience or -1):
            if count == len(self.turns):
                self.fault = PatienceError(self._impatient())
                return
            count = len(self.turns)

    def _away(self) -> None:
        """Ends the threads that are left: each raises at its turn what ends it. One that comes to no turn is left alone."""
        stuck = self.turns[-1] if isinstance(self.fault, PatienceError) else None
        for name, thread in self.threads.items():
            if name != stuck and thread.real is not None:
                if not thread.ended:
                    thread.goes()
                thread.real.join(self.patience)


def turn() -> None:
    """In a function that `explore` runs: another thread may go on here. Elsewhere it does nothing, and raises nothing."""
    me = here()
    if me is not None:
        me.run.turn(me)


def fault_of(run: Turns) -> Optional[RunError]:
    """What ended a run."""
    return run.fault if isinstance(run.fault, RunError) else None
