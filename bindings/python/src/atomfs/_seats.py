"""The seats of a tree's own calls: each thread of Python has one, which another thread gets once this one has ended."""
from __future__ import annotations

import contextlib
import ctypes
import threading
from typing import List

from ._errors import error_of
from ._library import Library


def added(library: Library, at: int) -> int:
    """The number of a new seat of the tree whose handle is at this address."""
    number = ctypes.c_uint64()
    if status := library.seat(at, ctypes.addressof(number)):
        raise error_of(library, status)
    return number.value


class _Held:
    """A seat that a thread has. It goes away with the thread, and the seat is free then."""

    def __init__(self, number: int, free: List[int]) -> None:
        self.number, self.free = number, free

    def __del__(self) -> None:
        # This may come at any moment, also while this thread holds the lock of the tree, and takes none.
        self.free.append(self.number)


class Mine(threading.local):
    """The seat of this thread, `number`, which it has from its first call on: Python comes to `__init__` once for each thread."""

    def __init__(self, library: Library, at: int, free: List[int]) -> None:
        # All threads have the same list.
        self._library, self._at, self._free = library, at, free
        self._take()

    def _take(self) -> None:
        """Takes a seat that a thread has left, or a new one."""
        self.number = self._free.pop() if self._free else added(self._library, self._at)
        self._held = _Held(self.number, self._free)

    def leave(self) -> int:
        """The seat of this thread, which takes another for its next call."""
        number = self.number
        # What is held has a list of its own now, so that this seat is never free.
        self._held.free = []
        # Without memory for another, it is the thread's own again when the call on it has returned.
        with contextlib.suppress(MemoryError):
            self._take()
        return number
