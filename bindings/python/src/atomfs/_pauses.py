"""Trees whose calls pause between their events, as is drawn from a seed: so calls of Python's threads overlap, which else come one after the
other.

A call takes the lock of the tree for its begin and for each of its steps, and lets it go between them.
"""
from __future__ import annotations

import contextlib
import random
import threading
import time
from typing import TYPE_CHECKING, Any, Callable, Dict, Iterator, List, Optional, Union

from ._errors import AnyPath
from ._library import Call, Did, Status
from ._texts import ROOM
from ._values import Data, bytes_of, names_asked, number_of
from ._walk import GONE

if TYPE_CHECKING:
    from . import _fast
    from ._calls import ByCtypes
    from ._tree import Reply, Seat, Stat, Tree

# Of a thousand events so many let other threads run for a moment at least, and so many more let them run if they wait.
_LONG, _SHORT = 50, 250
_MOMENT = 1e-6


class Turns:
    """The lock of such a tree, as `threading.RLock`. Who takes it finds no call of a thread half-way: they are brought to their returns."""

    def __init__(self) -> None:
        self._lock, self._depth = threading.RLock(), 0
        self._owner: Optional[int] = None
        self.finish: Callable[[], object] = lambda: None

    def acquire(self, blocking: bool = True, timeout: float = -1) -> bool:
        """Takes it, once more if this thread has it already."""
        if not self._lock.acquire(blocking, timeout):
            return False
        self._depth, self._owner = self._depth + 1, threading.get_ident()
        if self._depth == 1:
            try:
                self.finish()
            except BaseException:
                self.release()
                raise
        return True

    def release(self) -> None:
        """Gives it back, once it is called as often as `acquire`."""
        if not self.is_mine():
            raise RuntimeError("cannot release un-acquired lock")
        self._depth -= 1
        if not self._depth:
            self._owner = None
        self._lock.release()

    def is_mine(self) -> bool:
        """Whether this thread has it."""
        return self._owner == threading.get_ident()

    def __enter__(self) -> bool:
        return self.acquire()

    def __exit__(self, *error: object) -> None:
        self.release()

    @contextlib.contextmanager
    def step(self) -> Iterator[None]:
        """Takes it for a step: calls of other threads stay where they are."""
        with self._lock:
            self._depth, self._owner = self._depth + 1, threading.get_ident()
            try:
                yield
            finally:
                self._depth -= 1
                self._owner = None


class _Pending:
    """A call of a thread, and what came of it."""

    def __init__(self, seat: Seat) -> None:
        self.seat, self.has_returned = seat, False
        self._reply: Reply = None
        self._error: Optional[BaseException] = None

    def returns(self) -> None:
        """Takes the reply, before another call may let the journal begin again."""
        self.has_returned = True
        try:
            self._reply = self.seat._reply()
        except BaseException as error:
            self._error = error

    def reply(self) -> Any:
        """The reply, or its error raised."""
        if self._error is not None:
            raise self._error
        return self._reply


class Paused:
    """The calls of a tree, with pauses. A thread that has the lock of the tree makes whole calls."""

    def __init__(self, calls: Union[ByCtypes, _fast.Calls], tree: Tree, turns: Turns, seed: int) -> None:
        self._calls, self._turns, self._seed = calls, turns, seed
        self.on, self.begin, self.step = calls.on, calls.begin, calls.step
        self._draws: Dict[int, random.Random] = {}
        self._pending: Dict[int, _Pending] = {}
        turns.finish = lambda: self._finish(tree)

    # ---- The calls

    def mkdir(self, tree: Tree, path: AnyPath) -> None:
        if self._turns.is_mine():
            return self._calls.mkdir(tree, path)
        self._done(tree, Call.MKDIR, path)

    def mknod(self, tree: Tree, path: AnyPath) -> None:
        if self._turns.is_mine():
            return self._calls.mknod(tree, path)
        self._done(tree, Call.MKNOD, path)

    def unlink(self, tree: Tree, path: AnyPath) -> None:
        if self._turns.is_mine():
            return self._calls.unlink(tree, path)
        self._done(tree, Call.UNLINK, path)

    def rmdir(self, tree: Tree, path: AnyPath) -> None:
        if self._turns.is_mine():
            return self._calls.rmdir(tree, path)
        self._done(tree, Call.RMDIR, path)

    def rename(self, tree: Tree, path: AnyPath, other: AnyPath) -> None:
        if self._turns.is_mine():
            return self._calls.rename(tree, path, other)
        self._done(tree, Call.RENAME, path, other)

    def exchange(self, tree: Tree, path: AnyPath, other: AnyPath) -> None:
        if self._turns.is_mine():
            return self._calls.exchange(tree, path, other)
        self._done(tree, Call.EXCHANGE, path, other)

    def stat(self, tree: Tree, path: AnyPath) -> Stat:
        if self._turns.is_mine():
            return self._calls.stat(tree, path)
        found: Stat = self._done(tree, Call.STAT, path)
        return found

    def kind(self, tree: Tree, path: AnyPath) -> Optional[bool]:
        try:
            return self.stat(tree, path).is_dir
        except GONE:
            return None

    def readdir(self, tree: Tree, path: AnyPath) -> Union[List[str], List[bytes]]:
        if self._turns.is_mine():
            return self._calls.readdir(tree, path)
        names: Union[List[str], List[bytes]] = self._done(tree, Call.READDIR, path)
        return names

    def list(self, tree: Tree, path: AnyPath, after: AnyPath, count: int) -> Union[List[str], List[bytes]]:
        if self._turns.is_mine():
            return self._calls.list(tree, path, after, count)
        names: Union[List[str], List[bytes]] = self._done(tree, Call.LIST, path, after, size=names_asked(count))
        return names

    def piece(self, tree: Tree, path: AnyPath, offset: int, count: int) -> bytes:
        if self._turns.is_mine():
            return self._calls.piece(tree, path, offset, count)
        offset, count = number_of(offset, "offset"), number_of(count, "count")
        data: bytes = self._done(tree, Call.READ, path, offset=offset, size=count)
        return data

    def read(self, tree: Tree, path: AnyPath, offset: int, count: Optional[int]) -> bytes:
        if not self._turns.is_mine() and (count is None or 0 <= count <= tree.limits.read_bytes):
            data = self.piece(tree, path, offset, ROOM if count is None else count)
            if count is not None or len(data) < ROOM:
                return data
        # Of more than one piece nothing is to come in between.
        with self._turns:
            return tree._read_pieces(path, offset, count)

    def write(self, tree: Tree, path: AnyPath, offset: int, data: Data) -> int:
        if self._turns.is_mine():
            return self._calls.write(tree, path, offset, data)
        offset, given = number_of(offset, "offset"), bytes_of(data)
        wrote: int = self._done(tree, Call.WRITE, path, offset=offset, data=given)
        return wrote

    def truncate(self, tree: Tree, path: AnyPath, size: int) -> None:
        if self._turns.is_mine():
            return self._calls.truncate(tree, path, size)
        self._done(tree, Call.TRUNCATE, path, size=number_of(size, "size"))

    # ---- Event by event

    def _done(self, tree: Tree, call: Call, *paths: AnyPath, offset: int = 0, size: int = 0, data: bytes = b"") -> Any:
        """What a call replies."""
        with self._turns.step():
            seat = tree._own_seat()
            seat._begin(call, *paths, offset=offset, size=size, data=data)
            if call is Call.LIST:
                # An error says nothing of the path above which names are asked for.
                seat._paths = paths[:1]
            one = self._pending[seat.number] = _Pending(seat)
        try:
            while not one.has_returned:
                self._pause(seat.number)
                with self._turns.step():
                    self._go_on(tree, one)
        except BaseException:
            with self._turns:
                # The call is not left half-way, but where it waits for one that another goes on with.
                self._pending.pop(seat.number, None)
            raise
        self._pause(seat.number)
        return one.reply()

    def _go_on(self, tree: Tree, one: _Pending) -> None:
        """Makes a step of a call, which another thread may have brought to its return."""
        if one.has_returned:
            return
        seat = one.seat
        did, about = self._calls.step(tree, seat.number)
        if did in (Did.RETURN, Did.IDLE):
            del self._pending[seat.number]
            one.returns()
        elif did == Did.WAIT and all(about != other.seat._call_number for other in self._pending.values()):
            tree._number.value = seat._call_number
            raise tree._error(Status.WAITS, seat._call or 0, *seat._paths)

    def _finish(self, tree: Tree) -> None:
        """Brings the calls of threads to their returns, but for those that wait for one that was begun on a seat."""
        moves = True
        while self._pending and moves:
            moves = False
            for one in list(self._pending.values()):
                did, _ = self._calls.step(tree, one.seat.number)
                moves = moves or did != Did.WAIT
                if did in (Did.RETURN, Did.IDLE):
                    del self._pending[one.seat.number]
                    one.returns()

    def _pause(self, seat: int) -> None:
        """Lets other threads run now and then, as is drawn from the seed and the seat."""
        draw = self._draws.get(seat)
        if draw is None:
            draw = self._draws[seat] = random.Random(f"{self._seed} {seat}")
        drawn = draw.randrange(1_000)
        if drawn < _LONG + _SHORT:
            time.sleep(_MOMENT if drawn < _LONG else 0)
