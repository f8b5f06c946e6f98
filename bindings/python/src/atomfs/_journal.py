"""How many calls the journal of a tree keeps, and which they are."""
from __future__ import annotations

import ctypes
import operator
from typing import Any, Callable, NamedTuple

from ._library import KEEP_ALL, Library, Status


class Journal(NamedTuple):
    """How many calls a journal keeps: `ALL`, `NONE`, or `LAST(most)`."""

    most: int


#: All calls, until a checkpoint: each takes some 500 bytes, and what it wrote or read.
ALL = Journal(KEEP_ALL)
#: No call but the last.
NONE = Journal(0)


def LAST(most: int) -> Journal:
    """The last calls: if the journal has more than `most` and none is pending, all are forgotten before the next call begins.

    Raises `ValueError` if the number is negative or too large, and `TypeError` if it is not whole.
    """
    most = operator.index(most)
    if not 0 <= most < KEEP_ALL:
        raise ValueError(f"a journal keeps 0 to {KEEP_ALL - 1:,} calls")
    return Journal(most)


#: What the trees keep that `atomfs.fs` and `atomfs.fsspec` make.
OF_FILE_SYSTEMS = LAST(10_000)


class Standing:
    """Which calls stand in a journal."""

    def __init__(self) -> None:
        # How often it has begun again, and how many calls there were before.
        self.begun_again, self.before = 0, 0
        # The number of its last call, where that is noted.
        self.noted = ctypes.c_uint64()

    @property
    def last(self) -> int:
        """The number of the last call, where that is noted."""
        return self.noted.value

    @last.setter
    def last(self, number: int) -> None:
        self.noted.value = number

    def begin_again(self, calls: int) -> None:
        """Notes that so many calls have gone."""
        self.begun_again += 1
        self.before += calls
        self.last = 0

    def note(self, number: int) -> None:
        """Notes a call that has begun. Those before it are forgotten where its number is no greater than the last."""
        if number <= self.last:
            self.begin_again(self.last)
        self.last = number


# No call has begun where one of these is answered.
_NOT_BEGUN = frozenset(Status) - {Status.OK, Status.TOO_SMALL, Status.UNTOLD, Status.WAITS}
_BEGIN = (
    "mkdir", "mknod", "unlink", "rmdir", "rename", "exchange", "stat", "readdir", "list", "read", "write", "truncate", "begin_call",
)  # fmt: skip


class Noting(Library):
    """The library, as a tree that forgets by itself calls it: each call that begins is noted, with its number told at the last address."""

    def __init__(self, library: Library, standing: Standing) -> None:
        vars(self).update(vars(library))
        for name in _BEGIN:
            setattr(self, name, _noting(getattr(library, name), standing))


def _noting(function: Callable[..., int], standing: Standing) -> Callable[..., int]:
    def noted(*given: Any) -> int:
        status = function(*given)
        if status not in _NOT_BEGUN:
            standing.note(ctypes.c_uint64.from_address(given[-1]).value)
        return status

    return noted
