"""Locks of files, as `fcntl.flock` and `fcntl.lockf` take them: within this process, since no other sees the tree.

Those of `flock` belong to what was opened. Those of `lockf` belong to the process, so one never waits for another.
"""
from __future__ import annotations

import errno
import fcntl
import os
import threading
import weakref
from typing import Dict

from ._descriptors import Description, failed
from ._metadata import Inode

_KINDS = fcntl.LOCK_SH, fcntl.LOCK_EX
# While it waits, a thread looks so often, in seconds: a file that was closed has no lock any more.
_AGAIN = 0.05


class Locks:
    """The locks of the files of a tree."""

    def __init__(self) -> None:
        self._changed = threading.Condition()
        self._of: weakref.WeakKeyDictionary[Inode, Dict[Description, int]] = weakref.WeakKeyDictionary()

    def flock(self, description: Description, operation: int) -> None:
        """Takes a lock, gives it back, or has another in its place; waits where it is not `LOCK_NB`."""
        kind, now = operation & ~fcntl.LOCK_NB, bool(operation & fcntl.LOCK_NB)
        with self._changed:
            held = self._of.setdefault(description.node.inode, {})
            if kind == fcntl.LOCK_UN:
                held.pop(description, None)
                self._changed.notify_all()
                return
            if kind not in _KINDS:
                failed(errno.EINVAL)
            # Another kind gives the first one back, also where it has to wait.
            held.pop(description, None)
            while self._in_the_way(held, description, kind):
                if now:
                    failed(errno.EAGAIN)
                self._changed.wait(_AGAIN)
            held[description] = kind

    @staticmethod
    def _in_the_way(held: Dict[Description, int], description: Description, kind: int) -> bool:
        for other in [other for other in held if not other.opened]:
            del held[other]
        return any(
            kind == fcntl.LOCK_EX or one == fcntl.LOCK_EX for other, one in held.items() if other is not description
        )

    @staticmethod
    def check(description: Description, exclusive: bool) -> None:
        """A lock of the process needs a file that is open so."""
        if not (description.writes if exclusive else description.reads):
            failed(errno.EBADF)


# What `fcntl.fcntl` asks for, where it is a lock.
SETS = {fcntl.F_SETLK, fcntl.F_SETLKW, getattr(fcntl, "F_OFD_SETLK", 0), getattr(fcntl, "F_OFD_SETLKW", 0)}
GETS = {fcntl.F_GETLK, getattr(fcntl, "F_OFD_GETLK", 0)}
# The flags of what was opened that may change.
CHANGING = os.O_APPEND | os.O_NONBLOCK
