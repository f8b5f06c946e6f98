"""The tree that functions of a run are given: each call is begun and stepped, and before each of both a turn is drawn."""
from __future__ import annotations

import ctypes
from typing import Any, List, Optional

from .._errors import AnyPath, encoded, error_at, error_of
from .._library import LISTED, Call, Did, Limits, Request
from .._tree import _CHANGES, Stat, Tree
from .._values import Data, bytes_of, names_asked, number_of
from .hooks import PassedBy
from .runs import given_of
from .scheduler import Thread, Turns, here


class View(Tree):
    """The tree of a run. A thread that is none of it is refused while it goes; before and behind it is a tree as any other."""

    def __init__(self, run: Turns, limit: Optional[int], limits: Limits) -> None:
        super().__init__(limit, limits=limits, room=4096)
        self._run = run
        self.lock = PassedBy()  # type: ignore[assignment]
        self._door = PassedBy()  # type: ignore[assignment]

    def _me(self) -> Optional[Thread]:
        """The thread of the run that calls, if it is one."""
        me = here()
        if me is None:
            if self._run.going:
                self._run.stranger()
            return None
        return me

    def _made(
        self,
        me: Thread,
        call: Call,
        path: AnyPath,
        other: Optional[AnyPath] = None,
        offset: int = 0,
        size: int = 0,
        data: bytes = b"",
    ) -> Any:
        """A call, from its begin to its reply."""
        raw = [encoded(path)] if other is None else [encoded(path), encoded(other)]
        second = raw[1] if other is not None else b""
        # The names that `list` answers are above a path, which an error says nothing of.
        paths = (path,) if other is None or call is Call.LIST else (path, other)
        run, library, seat = me.run, self._library, me.seat
        run.turn(me)
        self.lock.pass_by(me)  # type: ignore[union-attr]
        request = Request(call, raw[0], len(raw[0]), second, len(second), offset, size, data, len(data))
        if status := library.begin_call(self._at, seat.number, ctypes.addressof(request), me.at_number):
            raise error_at(self, status, paths)
        seat._began(call, me.number.value, paths)
        at = run.began(me, call, given_of(call, raw, offset, size, data), me.number.value, self._door.owner is me)  # type: ignore[union-attr]
        events, name, did = run.events, me.name, me.did
        events.append((name, at))
        held = False
        while True:
            if not held:
                run.turn(me)
            if status := library.step(self._at, seat.number, me.at_did, me.at_about):
                raise error_of(library, status)
            done = did.value
            held = done == Did.WAIT
            if held:
                run.hold(me)
                continue
            events.append((name, at))
            if done != Did.TAKE:
                run.gone_on()
                if done == Did.RETURN or done == Did.IDLE:
                    break
        me.under_way = False
        reply = seat._reply()
        if self._metadata is not None and (call in _CHANGES or (call is Call.WRITE and data)):
            self._metadata.did(call, *paths)
        return reply

    # ---- The twelve calls

    def mkdir(self, path: AnyPath) -> None:
        """Makes an empty directory."""
        me = self._me()
        if me is None:
            super().mkdir(path)
        else:
            self._made(me, Call.MKDIR, path)

    def mknod(self, path: AnyPath) -> None:
        """Makes an empty file."""
        me = self._me()
        if me is None:
            super().mknod(path)
        else:
            self._made(me, Call.MKNOD, path)

    def unlink(self, path: AnyPath) -> None:
        """Removes the entry of a file."""
        me = self._me()
        if me is None:
            super().unlink(path)
        else:
            self._made(me, Call.UNLINK, path)

    def rmdir(self, path: AnyPath) -> None:
        """Removes the entry of an empty directory."""
        me = self._me()
        if me is None:
            super().rmdir(path)
        else:
            self._made(me, Call.RMDIR, path)

    def rename(self, path: AnyPath, other: AnyPath) -> None:
        """Moves what is at `path` to `other`."""
        me = self._me()
        if me is None:
            super().rename(path, other)
        else:
            self._made(me, Call.RENAME, path, other)

    def exchange(self, path: AnyPath, other: AnyPath) -> None:
        """Lets what is at two paths change places."""
        me = self._me()
        if me is None:
            super().exchange(path, other)
        else:
            self._made(me, Call.EXCHANGE, path, other)

    def stat(self, path: AnyPath) -> Stat:
        """What is at a path."""
        me = self._me()
        found: Stat = super().stat(path) if me is None else self._made(me, Call.STAT, path)
        return found

    def readdir(self, path: AnyPath) -> Any:
        """The names of a directory."""
        me = self._me()
        return super().readdir(path) if me is None else self._made(me, Call.READDIR, path)

    def list(self, path: AnyPath, after: AnyPath = "/", count: int = LISTED) -> Any:
        """Names of a directory above the last one of `after`."""
        me = self._me()
        if me is None:
            return super().list(path, after, count)
        return self._made(me, Call.LIST, path, after, size=names_asked(count))

    def read(self, path: AnyPath, offset: int = 0, count: Optional[int] = None) -> bytes:
        """The bytes of a file: what one call reads, and of more what several do."""
        me = self._me()
        if me is None:
            return super().read(path, offset, count)
        at, most = number_of(offset, "offset"), self.limits.read_bytes
        left = self.limits.file_bytes if count is None else number_of(count, "count")
        pieces: List[bytes] = []
        while True:
            pieces.append(self._made(me, Call.READ, path, offset=at, size=min(left, most)))
            at, left = at + most, left - most
            if len(pieces[-1]) < most or left <= 0 or at >= self.limits.file_bytes:
                return b"".join(pieces)

    def write(self, path: AnyPath, offset: int, data: Data) -> int:
        """Writes bytes into a file at an offset."""
        me = self._me()
        if me is None:
            return super().write(path, offset, data)
        at, given = number_of(offset, "offset"), bytes_of(data)
        wrote: int = self._made(me, Call.WRITE, path, offset=at, data=given)
        return wrote

    def truncate(self, path: AnyPath, size: int) -> None:
        """Cuts a file to a size, or adds zeros up to it."""
        me = self._me()
        if me is None:
            super().truncate(path, size)
        else:
            self._made(me, Call.TRUNCATE, path, size=number_of(size, "size"))
