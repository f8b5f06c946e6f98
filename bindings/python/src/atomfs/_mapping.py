"""Files of a tree in memory, as `mmap.mmap` maps them: a copy, which is written back at `flush` and `close`."""
from __future__ import annotations

import errno
import mmap
import os
from typing import Any, Callable, Dict, Optional

from ._descriptors import Descriptors, failed

_mmap = mmap.mmap
Real = Dict[str, Callable[..., Any]]


class Mapped(_mmap):
    """A file of a tree in memory. What is written there is in the tree after `flush`, `close` or `resize`, and not before."""

    _files: Descriptors
    _number: int
    _shared = False

    @classmethod
    def of(
        cls,
        files: Descriptors,
        real: Real,
        fileno: int,
        length: int,
        flags: int = mmap.MAP_SHARED,
        prot: int = mmap.PROT_READ | mmap.PROT_WRITE,
        access: int = mmap.ACCESS_DEFAULT,
        offset: int = 0,
    ) -> Mapped:
        """Maps the file of a descriptor, which may be closed meanwhile."""
        description = files.of(fileno)
        if description.node.is_dir:
            failed(errno.ENODEV)
        copies = access == mmap.ACCESS_COPY or (access == mmap.ACCESS_DEFAULT and flags & mmap.MAP_PRIVATE != 0)
        writes = access == mmap.ACCESS_WRITE or (access == mmap.ACCESS_DEFAULT and prot & mmap.PROT_WRITE != 0)
        shared = writes and not copies
        if not description.reads or (shared and not description.writes):
            failed(errno.EACCES)
        scratch = os.memfd_create("atomfs")
        try:
            data = files.all_of(description)
            while data:
                data = data[real["os.write"](scratch, data) :]
            made = cls(scratch, length, flags, prot, access, offset)
        finally:
            real["os.close"](scratch)
        made._files, made._shared, made._offset = files, shared, offset
        with files.tree._door:
            made._number, made._known = files.add(description), made[:]
        return made

    _offset = 0
    _known = b""

    def __repr__(self) -> str:
        return f"<mmap.mmap{super().__repr__().partition('Mapped')[2]}"

    def _bring_back(self) -> None:
        """Writes what has changed since the last time, from the first block that has to the last, by one call."""
        now = self[:]
        if not self._shared or now == self._known:
            return
        pages = range(0, len(now), mmap.PAGESIZE)
        changed = [at for at in pages if now[at : at + mmap.PAGESIZE] != self._known[at : at + mmap.PAGESIZE]]
        data = now[changed[0] : changed[-1] + mmap.PAGESIZE]
        self._files.pwrite_all(self._number, data, self._offset + changed[0])
        self._known = now

    def flush(self, offset: int = 0, size: Optional[int] = None) -> None:
        super().flush(*(() if size is None and not offset else (offset, len(self) - offset if size is None else size)))
        self._bring_back()

    def resize(self, newsize: int) -> None:
        if self._shared:
            self._bring_back()
        super().resize(newsize)
        self._files.truncate(self._number, self._offset + newsize)
        self._known = self[:]

    def size(self) -> int:
        size: int = self._files.size(self._files.of(self._number).node)
        return size

    def close(self) -> None:
        if self.closed or not hasattr(self, "_number"):
            super().close()
            return
        self._bring_back()
        super().close()
        if self._number in self._files:
            self._files.close(self._number)

    def __exit__(self, *error: object) -> None:
        self.close()

    def __del__(self) -> None:
        if hasattr(self, "_number"):
            self.close()
