"""Programs of the disk that work in a tree: what is below becomes a real directory while they run, and comes back once they have ended.

The directory is made where the tree stands, so paths stay what they are.
"""
from __future__ import annotations

import contextlib
import errno
import os
import stat
import threading
from typing import TYPE_CHECKING, Any, Callable, Dict, Iterator, List, NamedTuple, Optional, Tuple

from . import _rows
from ._metadata import LINK, Inode, metadata_of
from ._walk import GONE, parent_of

if TYPE_CHECKING:
    from ._descriptors import Description, Descriptors
    from ._tree import Tree

Real = Dict[str, Callable[..., Any]]
_PIECE = 1 << 20
_kind = stat.S_IFMT


class Seen(NamedTuple):
    """What the disk says of a node: another, where it has changed."""

    mode: int
    size: int
    modified: int
    changed: int
    number: int

    @classmethod
    def of(cls, found: os.stat_result) -> Seen:
        size = 0 if stat.S_ISDIR(found.st_mode) else found.st_size
        times = (0, 0) if stat.S_ISDIR(found.st_mode) else (found.st_mtime_ns, found.st_ctime_ns)
        return cls(found.st_mode, size, *times, found.st_ino)


class Mirror:
    """A real directory at the place of a tree, while programs use it."""

    def __init__(self, tree: Tree, at: str, files: Descriptors, real: Real) -> None:
        self._tree, self._at, self._files, self._real = tree, at, files, real
        self._lock = threading.RLock()
        #: How many programs use it.
        self.users = 0
        # The directories above that were made with it, and what the disk said of each node below.
        self._above: List[str] = []
        self._seen: Dict[str, Seen] = {}
        # The programs that nothing but `os.waitpid` tells the end of.
        self.waited: Dict[int, Callable[[], object]] = {}

    # ---- One program

    def begin(self) -> None:
        """Lets the directory be there, as the tree is now."""
        with self._lock, self._tree.lock:
            if not self.users:
                self._make()
            try:
                if self._tree._overlay is not None:
                    self._tree._overlay.all_below("/")
                self._push()
            except BaseException:
                if not self.users:
                    self._remove()
                raise
            self.users += 1

    def end(self) -> None:
        """Brings back what has changed; after the last program the directory goes."""
        with self._lock, self._tree.lock:
            if not self.users:
                return
            self.users -= 1
            try:
                self._pull()
            finally:
                if not self.users:
                    self._remove()

    def close(self) -> None:
        """Ends it, also where programs still run."""
        while self.users:
            self.end()

    @contextlib.contextmanager
    def working(self, folder: Optional[str]) -> Iterator[None]:
        """Lets a program that is started meanwhile work in a directory: nothing else asks the system where this process is."""
        if folder is None:
            yield
            return
        before: int = self._real["os.open"](".", os.O_RDONLY | os.O_DIRECTORY | os.O_CLOEXEC)
        self._real["os.chdir"](folder)
        try:
            yield
        finally:
            self._real["os.fchdir"](before)
            self._real["os.close"](before)

    def opened(self, description: Description) -> Tuple[int, Callable[[], None]]:
        """A descriptor of the system for a file of the tree, and what brings its position and its bytes back."""
        node = description.node
        if node.path is not None:
            number: int = self._real["os.open"](
                self._at + node.path, description.flags & ~(os.O_CREAT | os.O_TRUNC | os.O_EXCL)
            )
        else:
            number = os.memfd_create("atomfs")
            self._written(number, bytes(node.data))
        self._real["os.lseek"](number, description.at, os.SEEK_SET)

        def back() -> None:
            description.at = self._real["os.lseek"](number, 0, os.SEEK_CUR)
            if node.path is None:
                self._real["os.lseek"](number, 0, os.SEEK_SET)
                node.data[:] = self._all_of(number)
            self._real["os.close"](number)

        return number, back

    # ---- The directory

    def _make(self) -> None:
        above = os.path.dirname(self._at)
        missing = []
        while not self._is_there(above):
            missing.append(above)
            above = os.path.dirname(above)
        if self._is_there(self._at):
            raise OSError(errno.ENOTSUP, "a program finds a directory of the disk where the tree stands", self._at)
        for path in (*reversed(missing), self._at):
            self._real["os.mkdir"](path)
        self._above, self._seen = missing, {}

    def _is_there(self, path: str) -> bool:
        try:
            self._real["os.lstat"](path)
        except OSError:
            return False
        return True

    def _remove(self) -> None:
        for path, seen in reversed(list(self._below())):
            self._real["os.rmdir" if stat.S_ISDIR(seen.mode) else "os.unlink"](self._at + path)
        for path in (self._at, *self._above):
            with contextlib.suppress(OSError):
                self._real["os.rmdir"](path)
        self._seen = {}

    def _below(self) -> Iterator[Tuple[str, Seen]]:
        """Each node of the disk below the directory, directories before what is in them."""
        waiting = [""]
        while waiting:
            folder = waiting.pop()
            names = []
            with contextlib.suppress(*GONE):
                names = sorted(self._real["os.listdir"](self._at + folder))
            for name in names:
                path = f"{folder}/{name}"
                with contextlib.suppress(*GONE):
                    seen = Seen.of(self._real["os.lstat"](self._at + path))
                    if stat.S_ISDIR(seen.mode):
                        waiting.append(path)
                    yield path, seen

    # ---- To the disk

    def _push(self) -> None:
        metadata = metadata_of(self._tree)
        rows = {_rows.told(path): data for path, data in _rows.rows_of(self._tree.tree())[1:]}
        was, self._seen = self._seen, {}
        for path in list(reversed(was)):
            if path not in rows or _kind(was[path].mode) != _kind(metadata.of(path, rows[path] is None).mode):
                gone = was.pop(path)
                with contextlib.suppress(OSError):
                    self._real["os.rmdir" if stat.S_ISDIR(gone.mode) else "os.unlink"](self._at + path)
        for path, data in rows.items():
            inode = metadata.of(path, data is None)
            if path not in was or (data is not None and self._differs(path, data, inode)):
                self._put(path, data, inode)
            self._dress(path, inode)
        for path in rows:
            self._seen[path] = Seen.of(self._real["os.lstat"](self._at + path))

    def _differs(self, path: str, data: bytes, inode: Inode) -> bool:
        if inode.is_marked:
            return inode.target is not None
        return self._bytes_of(path) != data

    def _put(self, path: str, data: Optional[bytes], inode: Inode) -> None:
        at = self._at + path
        if data is None:
            self._real["os.mkdir"](at)
        elif inode.target is not None:
            with contextlib.suppress(FileNotFoundError):
                self._real["os.unlink"](at)
            self._real["os.symlink"](inode.target, at)
        elif inode.is_pipe:
            self._real["os.mkfifo"](at, 0o600)
        else:
            number: int = self._real["os.open"](at, os.O_WRONLY | os.O_CREAT | os.O_TRUNC | os.O_NOFOLLOW, 0o600)
            try:
                self._written(number, data)
            finally:
                self._real["os.close"](number)

    def _dress(self, path: str, inode: Inode) -> None:
        """Gives a node of the disk the permissions and times that are kept."""
        at = self._at + path
        if inode.target is None:
            self._real["os.chmod"](at, stat.S_IMODE(inode.mode) | (stat.S_IRWXU if inode.entries is not None else 0))
        self._real["os.utime"](at, ns=(inode.accessed, inode.modified), follow_symlinks=False)

    def _written(self, number: int, data: bytes) -> None:
        view = memoryview(data)
        while view:
            view = view[self._real["os.write"](number, view) :]

    # ---- And back

    def _pull(self) -> None:
        now = dict(self._below())
        for path in reversed(self._seen):
            if path not in now or _kind(now[path].mode) != _kind(self._seen[path].mode):
                self._take_away(path, self._seen[path])
        for path, seen in now.items():
            was = self._seen.get(path)
            if was != seen and _kind(seen.mode) in (stat.S_IFDIR, stat.S_IFREG, stat.S_IFLNK, stat.S_IFIFO):
                self._take(path, seen, was)
        self._seen = now

    def _take_away(self, path: str, seen: Seen) -> None:
        # Another thread may have changed the tree meanwhile.
        with contextlib.suppress(OSError):
            data = self._files.kept(path)
            (self._tree.rmdir if stat.S_ISDIR(seen.mode) else self._tree.unlink)(path)
            self._files.removed(path, data)

    def _take(self, path: str, seen: Seen, was: Optional[Seen]) -> None:
        """Lets the tree have a node as the disk has it."""
        metadata, kind = metadata_of(self._tree), _kind(seen.mode)
        if not self._tree.exists(parent_of(path)):
            return
        if kind == stat.S_IFDIR:
            if not self._tree.exists(path):
                self._tree.mkdir(path)
        elif kind == stat.S_IFLNK:
            self._take_link(path)
        elif kind == stat.S_IFIFO:
            if not self._tree.exists(path):
                self._tree.mknod(path)
                metadata.links += 1
        elif was is None or was[1:] != seen[1:]:
            data = self._bytes_of(path)
            if not self._tree.is_file(path) or self._tree.read(path) != data:
                self._tree.write_bytes(path, data)
        inode = metadata.of(path, kind == stat.S_IFDIR)
        if kind != stat.S_IFLNK and (was is None or was.mode != seen.mode):
            inode.mode = seen.mode
        if kind != stat.S_IFDIR and (was is None or was.modified != seen.modified):
            inode.modified = seen.modified

    def _take_link(self, path: str) -> None:
        metadata, target = metadata_of(self._tree), self._real["os.readlink"](self._at + path)
        if not self._tree.exists(path):
            self._tree.mknod(path)
            metadata.links += 1
        inode = metadata.of(path, False)
        inode.mode, inode.target = LINK, target

    def _bytes_of(self, path: str) -> bytes:
        number: int = self._real["os.open"](self._at + path, os.O_RDONLY | os.O_NOFOLLOW)
        try:
            return self._all_of(number)
        finally:
            self._real["os.close"](number)

    def _all_of(self, number: int) -> bytes:
        pieces: List[bytes] = []
        while piece := self._real["os.read"](number, _PIECE):
            pieces.append(piece)
        return b"".join(pieces)
