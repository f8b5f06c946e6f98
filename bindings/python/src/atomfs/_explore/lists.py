"""Lists of calls as the threads of a run: their calls and steps are made by this thread alone."""
from __future__ import annotations

import ctypes
from typing import Any, Callable, Dict, Iterable, List, Mapping, Optional

from .._errors import error_at
from .._library import Did, Limits
from .._script import AnyCall, Planned, planned_threads
from .._tree import Seat, Tree
from .draws import Drawing
from .errors import Replies, without_addresses
from .runs import BEFORE, Called, Look, Plan, Ran, count_entries, digest, fingerprint, journal_of

Check = Callable[[Any, Replies], object]


class _Run:
    """A run on a tree of its own: each thread has a seat, in the order of a script."""

    def __init__(self, tree: Tree, threads: Mapping[str, List[Planned]], limits: Limits, look: Look) -> None:
        self.tree, self.threads, self._limits, self._look = tree, threads, limits, look
        self.ran = Ran({name: [] for name in threads})
        later = [tree.seat() for _ in range(len(threads) - 1)]
        # The first seat was the one of the tree's own calls.
        seats = [Seat(tree, tree._mine.leave()), *later]
        self._seats = dict(zip(threads, seats))
        self._left = {name: list(reversed(calls)) for name, calls in threads.items()}
        self._under_way: Dict[str, Optional[int]] = dict.fromkeys(threads)
        self._number, self._did, self._about = ctypes.c_uint64(), ctypes.c_uint8(), ctypes.c_uint64()
        self._at = tuple(map(ctypes.addressof, (self._number, self._did, self._about)))

    def live(self, name: str) -> bool:
        """Whether a thread has a call under way, or one left."""
        return self._under_way[name] is not None or bool(self._left[name])

    def turn(self, name: str) -> Did:
        """One event of a thread: the begin of a call, which is told as a take, or a step. One that waits is none."""
        tree, seat, ran = self.tree, self._seats[name], self.ran
        number, did, about = self._at
        under_way = self._under_way[name]
        if under_way is None:
            call = self._left[name].pop()
            if status := tree._library.begin_call(tree._at, seat.number, ctypes.addressof(call.request), number):
                raise error_at(tree, status, call.paths)
            seat._began(call.call, self._number.value, call.paths)
            self._begun(name, call)
            return Did.TAKE
        if status := tree._library.step(tree._at, seat.number, did, about):
            raise error_at(tree, status, ())
        done = self._did.value
        if done != Did.WAIT:
            ran.events.append((name, under_way))
        if done == Did.RETURN:
            self._under_way[name] = None
            try:
                ran.replies[name].append(seat.reply())
            except OSError as error:
                ran.replies[name].append(error)
        return Did(done)

    def _begun(self, name: str, call: Planned) -> None:
        """Notes a call that has begun, and what others are under way."""
        ran, look = self.ran, self._look
        site = name, "", call.line
        if name != BEFORE:
            look.sites.add(site)
            for other, at in self._under_way.items():
                if at is not None:
                    look.met.add(frozenset((site, (other, "", ran.calls[at].words))))
        self._under_way[name] = len(ran.calls)
        ran.events.append((name, len(ran.calls)))
        ran.calls.append(Called(name, call.line, self._number.value, None, self._limits))

    def drawn(self, draw: Drawing, prepares: bool) -> None:
        """Makes all calls, as the turns are drawn. A thread that waits is passed over until another has gone on."""
        ran = self.ran
        while prepares and self.live(BEFORE):
            self.turn(BEFORE)
        ran.prepared = len(ran.events)
        able, waiting, last = [name for name in self.threads if self.live(name)], [], ""
        while able:
            half_way = last != "" and self._under_way[last] is not None
            last = draw.next(able, last)
            ran.turns.append(last)
            ran.half_way.append(half_way)
            did = self.turn(last)
            if did == Did.WAIT:
                able.remove(last)
                waiting.append(last)
                continue
            if not self.live(last):
                able.remove(last)
            if did != Did.TAKE:
                able += waiting
                waiting = []


class Lists(Plan):
    """Lists of calls, each the thread of its name."""

    def __init__(
        self,
        calls: Mapping[str, Iterable[AnyCall]],
        check: Optional[Check],
        before: Iterable[AnyCall],
        limit: Optional[int],
        limits: Limits,
        observe: Optional[Check] = None,
    ) -> None:
        of_before = list(before) if not isinstance(before, str) else [before]
        self.prepares = bool(of_before)
        self._threads = planned_threads({**({BEFORE: of_before} if of_before else {}), **calls}, limits)
        self.limits, self._limit, self._check, self._observe = limits, limit, check, observe
        self.names = list(calls)
        self.look = Look()

    def run(self, draw: Drawing, seed: int) -> Ran:
        """One run, with the check behind it."""
        __tracebackhide__ = True
        with Tree(self._limit, limits=self.limits, room=4096) as tree:
            run = _Run(tree, self._threads, self.limits, self.look)
            run.drawn(draw, self.prepares)
            ran = run.ran
            ran.replies = {name: ran.replies[name] for name in self.names}
            entries = count_entries(tree)
            self._looked(ran, tree)
            if ran.error is not None:
                ran.journal = journal_of(tree, entries)
        return ran

    def _looked(self, ran: Ran, tree: Tree) -> None:
        __tracebackhide__ = True
        look(self, self._check, self._observe, ran, tree)


def look(plan: Any, check: Optional[Check], observe: Optional[Check], ran: Ran, tree: Tree) -> None:
    """Calls the check, and what observes, behind a run."""
    __tracebackhide__ = True
    key = fingerprint(tree, ran.replies) if observe is None else b""
    try:
        if observe is not None:
            ran.seen = observe(tree, ran.replies)
            key = digest(without_addresses(ran.seen))
        if check is not None and check(tree, ran.replies) is False:
            raise AssertionError("the check answered False")
    except BaseException as error:
        # pytest.fail raises what is no Exception.
        if not isinstance(error, Exception) and type(error).__name__ != "Failed":
            raise
        # Its first line is this function's, of which no caller wants to read.
        ran.error = error.with_traceback(error.__traceback__.tb_next if error.__traceback__ is not None else None)
        return
    plan.look.add(key)
