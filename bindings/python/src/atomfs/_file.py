"""Files of a tree as Python's own file objects.

A tree has no descriptors: an open file is a path and a position, and each read or write of it is one call on that path. So
after the path was renamed or removed, a read or a write raises `FileNotFoundError`, and where another file came to stand at
the path, it is that file.
"""
from __future__ import annotations

import io
import operator
import os
from typing import TYPE_CHECKING, Any, Optional, Union

from ._library import Limits
from ._values import room_of

if TYPE_CHECKING:
    from ._tree import Tree


class RawFile(io.RawIOBase):
    """A file object without a buffer, which reads and writes as its mode says."""

    def __init__(self, name: Any, mode: str) -> None:
        super().__init__()
        self.name, self.mode = name, mode
        self._reads, self._writes = "r" in mode or "+" in mode, "r" not in mode or "+" in mode

    def _check(self, may: bool = True, what: str = "") -> None:
        if self.closed:
            raise ValueError("I/O operation on closed file")
        if not may:
            raise io.UnsupportedOperation(f"File not open for {what}")

    def readable(self) -> bool:
        self._check()
        return self._reads

    def writable(self) -> bool:
        self._check()
        return self._writes

    def seekable(self) -> bool:
        self._check()
        return True

    def readinto(self, buffer: Any) -> int:
        self._check(self._reads, "reading")
        room = room_of(buffer)
        data = self._next(len(room))
        room[: len(data)] = data
        return len(data)

    def _next(self, count: int) -> bytes:
        """At most so many bytes from where the file is, which goes on behind them."""
        raise NotImplementedError


class TreeFile(RawFile):
    """The file at a path without a buffer: `mode` is one of `open`, and `create_file` has made the file before."""

    def __init__(self, tree: Tree, path: str, mode: str) -> None:
        super().__init__(path, mode.replace("t", "").replace("b", "") + "b")
        self._tree, self._at = tree, 0
        self._appends = "a" in mode
        if self._appends:
            self._at = self.size

    @property
    def size(self) -> int:
        """How many bytes the file has now."""
        return self._tree.stat(self.name).size

    def _next(self, count: Optional[int]) -> bytes:
        with self._tree.lock:
            data = self._tree.read(self.name, self._at, count)
            self._at += len(data)
        return data

    def readall(self) -> bytes:
        self._check(self._reads, "reading")
        return self._next(None)

    def write(self, data: Any) -> int:
        self._check(self._writes, "writing")
        with self._tree.lock:
            if self._appends:
                self._at = self.size
            count = self._tree.write(self.name, self._at, data)
            self._at += count
        return count

    def seek(self, offset: int, whence: int = os.SEEK_SET) -> int:
        self._check()
        offset = operator.index(offset)
        if whence not in (os.SEEK_SET, os.SEEK_CUR, os.SEEK_END):
            raise ValueError(f"invalid whence: {whence}")
        with self._tree.lock:
            start = {os.SEEK_SET: 0, os.SEEK_CUR: self._at}.get(whence)
            at = offset + (self.size if start is None else start)
            if at < 0:
                raise ValueError(f"negative seek position {at}")
            self._at = at
        return at

    def tell(self) -> int:
        self._check()
        return self._at

    def truncate(self, size: Optional[int] = None) -> int:
        """Cuts the file, or adds zeros, and leaves the position."""
        self._check(self._writes, "writing")
        size = self._at if size is None else size
        if size < 0:
            raise ValueError(f"negative size {size}")
        self._tree.truncate(self.name, size)
        return size


def _size(file: Any) -> int:
    """How many bytes the file behind a buffer has now, without those that are only in the buffer."""
    size: int = file.raw.size
    return size


class Reader(io.BufferedReader):
    """A file to read, with a buffer."""

    size = property(_size)


class Writer(io.BufferedWriter):
    """A file to write, with a buffer: what was written is in the tree after `flush` or `close`."""

    size = property(_size)


class Random(io.BufferedRandom):
    """A file to read and to write, with a buffer."""

    size = property(_size)


# How many bytes a buffer holds, if no number is given.
_BUFFERS = {limits: limits.read_bytes if limits.read_bytes == limits.file_bytes else 65_536 for limits in Limits}
AnyFile = Union[TreeFile, Reader, Writer, Random]


def create_file(tree: Tree, path: str, mode: str) -> None:
    """What the mode asks for before a file is open: it is made, it is emptied, or it is looked for."""
    if "x" in mode:
        tree.mknod(path)
        return
    if "r" in mode:
        # Nothing is read of it, but where there is no file this is refused.
        tree.read(path, 0, 0)
        return
    with tree.lock:
        try:
            tree.mknod(path)
        except FileExistsError:
            # Both refuse a directory.
            if "w" in mode:
                tree.truncate(path, 0)
            else:
                tree.read(path, 0, 0)


def open_file(tree: Tree, path: str, mode: str, buffering: int = -1) -> AnyFile:
    """The file at a path, opened as `open` does in a binary mode: with a buffer of so many bytes, and with none where it is 0.

    If no number is given, the buffer holds a whole file by the first two sets of limits, which so is read by one call, and written by
    one; by the third set, whose files may be of any size, it holds 64 KiB.
    """
    create_file(tree, path, mode)
    raw = TreeFile(tree, path, mode)
    if buffering == 0:
        return raw
    size = buffering if buffering > 1 else _BUFFERS[tree.limits]
    if "+" in mode:
        return Random(raw, size)
    return Reader(raw, size) if raw.readable() else Writer(raw, size)
