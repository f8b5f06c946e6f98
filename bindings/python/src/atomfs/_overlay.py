"""A directory of the disk below a tree, as the lower layer of an overlay: what is there is read from the disk until it is changed.

Only the tree changes. Before a call of the program, a seat of its own brings what that call needs (it "copies up"), so the journal has these calls
too: the names in each directory on the way, at the first look at a file its size, and at the first open its bytes. What has not come
yet is kept beside the tree as `Inode.lower`, which moves with its node and goes away with it.
"""
from __future__ import annotations

import contextlib
import errno
import os
import stat
from typing import TYPE_CHECKING, Any, Callable, Dict, Iterator, List, Optional, Tuple, Union

from ._errors import AnyPath, WaitsError
from ._library import Call
from ._metadata import LINK, Inode, Lower, Metadata, metadata_of
from ._values import Data
from ._walk import GONE, text_of

if TYPE_CHECKING:
    from ._calls import Noted
    from ._tree import Stat, Tree

# How many bytes come by one call.
_PIECE = 1 << 20
# The flags of an open that leaves the bytes alone, or needs none.
_WITHOUT_BYTES = os.O_TRUNC | os.O_DIRECTORY | getattr(os, "O_PATH", 0)
_NEW = os.O_CREAT | os.O_EXCL
# How a file is opened that was a regular one just now: it may be a link or a pipe by then.
_READS = os.O_RDONLY | os.O_CLOEXEC | os.O_NOFOLLOW | os.O_NONBLOCK
# The name of the seat that brings what is on the disk.
_SEAT = "overlay"
# What opening a node of another kind raises: of a device as on a file system that has none.
_REFUSED = {
    stat.S_IFSOCK: errno.ENXIO,
    stat.S_IFIFO: errno.ENXIO,
    stat.S_IFCHR: errno.EACCES,
    stat.S_IFBLK: errno.EACCES,
}


class Overlay:
    """What is on the disk below a tree. `real` has the functions of the disk."""

    def __init__(self, tree: Tree, lower: str, real: Dict[str, Callable[..., Any]]) -> None:
        self.tree, self.lower, self._real = tree, lower, real
        self._calls: Any = None
        self._seat: Optional[int] = None

    @property
    def _metadata(self) -> Metadata:
        return metadata_of(self.tree)

    def begin(self) -> None:
        """Lets the directory be below the tree. What the tree has of its own hides what has the same name there."""
        if self.tree._overlay is not None:
            raise RuntimeError("this tree has an overlay already")
        if not stat.S_ISDIR(self._real["os.stat"](self.lower).st_mode):
            raise NotADirectoryError(errno.ENOTDIR, os.strerror(errno.ENOTDIR), self.lower)
        with self.tree.lock:
            metadata = self._metadata
            if metadata.lower != self.lower:
                # What has come of it before, and what was removed of that, stays as it is.
                metadata.lower, metadata.root.lower = self.lower, Lower(self.lower)
            self.tree._overlay = self
            self.tree._keep_beside(metadata)

    def end(self) -> None:
        """Lets the tree be as far as it has come."""
        if self.tree._overlay is self:
            with self.tree.lock:
                self.tree._overlay = None
                self.tree._keep_beside(self._metadata)

    def over(self, noted: Noted, calls: Any) -> Overlaid:
        """The calls of the tree, each with what it needs. Those that bring are not noted."""
        self._calls = calls
        return Overlaid(noted, self)

    # ---- What a call needs. The lock of the tree is held

    def way(self, path: AnyPath) -> Tuple[Optional[Inode], str]:
        """Brings the names in the directories on the way to a path. It answers what is kept of the node there, and its path."""
        one, at = self._metadata.root, ""
        for name in text_of(path).split("/"):
            if name:
                if one.entries is None:
                    return None, at
                if one.lower is not None:
                    self._list(one, at)
                below = one.entries.get(name)
                if below is None:
                    return None, at
                one, at = below, f"{at}/{name}"
        return one, at

    def look(self, path: AnyPath, entries: bool = False) -> None:
        """Brings what `stat` says of a node. With `entries` a directory that can't be read raises why, and else it seems empty."""
        one, at = self.way(path)
        if one is None or one.lower is None or not self._look(one, at) or one.entries is None:
            return
        with contextlib.ExitStack() as stack:
            if not entries:
                stack.enter_context(contextlib.suppress(PermissionError))
            self._list(one, at)

    def look_at_entry(self, path: AnyPath) -> None:
        """Brings what is known of a node that is moved: what is below it moves with it."""
        one, at = self.way(path)
        if one is not None and one.lower is not None:
            self._look(one, at)

    def bring(self, path: AnyPath) -> None:
        """Brings the bytes of a file."""
        one, at = self.way(path)
        if one is not None and one.lower is not None and one.entries is None:
            self._bring(one, at)

    def empty(self, path: AnyPath) -> Optional[Inode]:
        """What is kept of a file that is about to lose its bytes."""
        one, at = self.way(path)
        if one is None or one.lower is None or one.entries is not None or not self._look(one, at):
            return None
        self._check_kind(one, at)
        return one

    def opened(self, path: str, flags: int) -> None:
        """Brings what an open needs."""
        if not flags & _WITHOUT_BYTES and flags & _NEW != _NEW:
            with self.tree.lock:
                self.bring(path)

    def all_below(self, path: str) -> None:
        """Brings all that is at a path and below it. A socket, a pipe or a device has no bytes."""
        with self.tree.lock:
            top, at = self.way(path)
            waiting: List[Tuple[Inode, str]] = [] if top is None else [(top, at)]
            while waiting:
                one, at = waiting.pop()
                if one.entries is not None:
                    if one.lower is not None:
                        self._list(one, at)
                    waiting += [(below, f"{at}/{name}") for name, below in one.entries.items()]
                elif one.lower is not None and stat.S_IFMT(one.mode) not in _REFUSED:
                    self._bring(one, at)

    # ---- From the disk

    def _list(self, one: Inode, at: str) -> None:
        """Makes what is in a directory of the disk, without what is in that."""
        if not self._look(one, at):
            return
        lower = one.lower
        assert lower is not None and one.entries is not None
        try:
            with _of(at), self._real["os.scandir"](lower.path) as entries:
                found = sorted((entry.name, self._kind_of(entry)) for entry in entries)
        except GONE:
            self._gone(one, at)
            return
        for name, kind in found:
            known = one.entries.get(name)
            # A try before may have ended in the midst.
            if kind and (known is None or known.lower is None):
                self._make(one, at, name, kind, f"{lower.path.rstrip('/')}/{name}")
        one.lower = None

    def _kind_of(self, entry: Any) -> int:
        """The kind of an entry, as in `st_mode`: 0 where it is gone."""
        if entry.is_symlink():
            return stat.S_IFLNK
        for kind, is_it in ((stat.S_IFDIR, entry.is_dir), (stat.S_IFREG, entry.is_file)):
            if is_it(follow_symlinks=False):
                return kind
        with contextlib.suppress(*GONE):
            return stat.S_IFMT(entry.stat(follow_symlinks=False).st_mode)
        return 0

    def _make(self, above: Inode, folder: str, name: str, kind: int, lower: str) -> None:
        """Makes what an entry of the disk is."""
        path, is_dir, metadata = f"{folder}/{name}", kind == stat.S_IFDIR, self._metadata
        target = None
        if kind == stat.S_IFLNK:
            try:
                target = self._real["os.readlink"](lower)
            except OSError:
                return
        try:
            self._made_by("mkdir" if is_dir else "mknod", path)
        except FileExistsError:
            # The tree has its own. Of two directories the names of both are there.
            if is_dir and self._made_by("kind", path):
                metadata.of(path, True).lower = Lower(lower, 0)
            return
        inode = metadata.of(path, is_dir)
        inode.lower = Lower(lower)
        inode.mode = kind | stat.S_IMODE(inode.mode)
        if target is not None:
            inode.mode, inode.target = LINK, target
        metadata.links += inode.is_marked

    def _look(self, one: Inode, at: str, sizes: bool = True) -> bool:
        """Takes the permissions, owners, times and attributes of a node of the disk, and the size of a file. Whether more is to come."""
        lower = one.lower
        assert lower is not None
        if lower.size is not None:
            return True
        is_top = at == ""
        try:
            with _of(at):
                found = self._real["os.stat" if is_top else "os.lstat"](lower.path)
        except GONE:
            self._gone(one, at)
            return False
        if stat.S_IFMT(found.st_mode) != stat.S_IFMT(one.mode):
            self._gone(one, at)
            return False
        size = found.st_size if stat.S_ISREG(found.st_mode) else 0
        if size > self.tree.limits.file_bytes:
            raise OSError(errno.EOVERFLOW, os.strerror(errno.EOVERFLOW), at)
        if not sizes:
            size = 0
        elif size:
            self._made_by("truncate", at, size)
        one.mode, one.uid, one.gid = found.st_mode, found.st_uid, found.st_gid
        one.accessed, one.modified, one.changed = found.st_atime_ns, found.st_mtime_ns, found.st_ctime_ns
        one.attributes = self._attributes(lower.path, is_top) or None
        one.lower = Lower(lower.path, size) if one.target is None else None
        return one.target is None

    def _attributes(self, path: str, follow: bool) -> Dict[str, bytes]:
        """The extended attributes of a node of the disk, as far as they can be read."""
        found: Dict[str, bytes] = {}
        if "os.listxattr" in self._real:
            with contextlib.suppress(OSError):
                for name in self._real["os.listxattr"](path, follow_symlinks=follow):
                    with contextlib.suppress(OSError):
                        found[name] = self._real["os.getxattr"](path, name, follow_symlinks=follow)
        return found

    def _bring(self, one: Inode, at: str) -> None:
        """Writes the bytes of a file of the disk. Where that fails, they are to come still."""
        before = one.lower
        try:
            if self._look(one, at, False):
                self._write(one, at)
        except BaseException:
            one.lower = before
            raise

    def _write(self, one: Inode, at: str) -> None:
        lower, size = one.lower, 0
        assert lower is not None and lower.size is not None
        self._check_kind(one, at)
        try:
            with _of(at):
                number: int = self._real["os.open"](lower.path, _READS)
        except GONE:
            self._gone(one, at)
            return
        try:
            while piece := self._piece(number, at):
                self._made_by("write", at, size, piece)
                size += len(piece)
        finally:
            self._real["os.close"](number)
        if size < lower.size:
            # It was cut meanwhile.
            self._made_by("truncate", at, size)
        one.lower = None

    def _piece(self, number: int, at: str) -> bytes:
        with _of(at):
            piece: bytes = self._real["os.read"](number, _PIECE)
        return piece

    def _check_kind(self, one: Inode, at: str) -> None:
        number = _REFUSED.get(stat.S_IFMT(one.mode))
        if number is not None:
            raise OSError(number, os.strerror(number), at)

    def _gone(self, one: Inode, at: str) -> None:
        """Something went away on the disk, or is of another kind, before it came: so it goes from the tree."""
        one.lower = None
        # A directory may have entries of the tree.
        if at:
            with contextlib.suppress(OSError):
                self._made_by("unlink" if one.entries is None else "rmdir", at)
                self._metadata.removed(at)

    def _made_by(self, call: str, *given: Any) -> Any:
        """A call of the tree by the seat of the overlay."""
        tree = self.tree
        if self._seat is None:
            known = [number for number, name in tree._names.items() if name == _SEAT]
            self._seat = known[0] if known else tree.seat(_SEAT).number
        mine = tree._mine
        own, mine.number = mine.number, self._seat
        try:
            return getattr(self._calls, call)(tree, *given)
        except WaitsError:
            # Its seat goes on with the call.
            tree._names.pop(self._seat, None)
            self._seat = None
            raise
        finally:
            mine.number = own


@contextlib.contextmanager
def _of(at: str) -> Iterator[None]:
    """Within `with` an error of the disk names the path in the tree."""
    try:
        yield
    except OSError as error:
        error.filename = at or "/"
        raise


class Overlaid:
    """The calls of a tree over a directory of the disk."""

    def __init__(self, calls: Noted, overlay: Overlay) -> None:
        self._calls, self._overlay = calls, overlay
        self.on, self.step = calls.on, calls.step

    def mkdir(self, tree: Tree, path: AnyPath) -> None:
        with tree.lock:
            self._overlay.way(path)
            self._calls.mkdir(tree, path)

    def mknod(self, tree: Tree, path: AnyPath) -> None:
        with tree.lock:
            self._overlay.way(path)
            self._calls.mknod(tree, path)

    def unlink(self, tree: Tree, path: AnyPath) -> None:
        with tree.lock:
            self._overlay.way(path)
            self._calls.unlink(tree, path)

    def rmdir(self, tree: Tree, path: AnyPath) -> None:
        with tree.lock:
            self._overlay.look(path, True)
            self._calls.rmdir(tree, path)

    def rename(self, tree: Tree, path: AnyPath, other: AnyPath) -> None:
        with tree.lock:
            self._overlay.look_at_entry(path)
            self._overlay.look(other, True)
            self._calls.rename(tree, path, other)

    def exchange(self, tree: Tree, path: AnyPath, other: AnyPath) -> None:
        with tree.lock:
            self._overlay.look_at_entry(path)
            self._overlay.look_at_entry(other)
            self._calls.exchange(tree, path, other)

    def stat(self, tree: Tree, path: AnyPath) -> Stat:
        with tree.lock:
            self._overlay.look(path)
            found: Stat = self._calls.stat(tree, path)
            return found

    def kind(self, tree: Tree, path: AnyPath) -> Optional[bool]:
        with tree.lock:
            with contextlib.suppress(*GONE):
                self._overlay.look(path)
            found: Optional[bool] = self._calls.kind(tree, path)
            return found

    def readdir(self, tree: Tree, path: AnyPath) -> Union[List[str], List[bytes]]:
        with tree.lock:
            self._overlay.look(path, True)
            names: Union[List[str], List[bytes]] = self._calls.readdir(tree, path)
            return names

    def list(self, tree: Tree, path: AnyPath, after: AnyPath, count: int) -> Union[List[str], List[bytes]]:
        with tree.lock:
            self._overlay.look(path, True)
            names: Union[List[str], List[bytes]] = self._calls.list(tree, path, after, count)
            return names

    def piece(self, tree: Tree, path: AnyPath, offset: int, count: int) -> bytes:
        with tree.lock:
            self._overlay.bring(path)
            data: bytes = self._calls.piece(tree, path, offset, count)
            return data

    def read(self, tree: Tree, path: AnyPath, offset: int, count: Optional[int]) -> bytes:
        with tree.lock:
            self._overlay.bring(path)
            data: bytes = self._calls.read(tree, path, offset, count)
            return data

    def write(self, tree: Tree, path: AnyPath, offset: int, data: Data) -> int:
        with tree.lock:
            self._overlay.bring(path)
            return self._calls.write(tree, path, offset, data)

    def truncate(self, tree: Tree, path: AnyPath, size: int) -> None:
        with tree.lock:
            emptied = None
            if size == 0:
                emptied = self._overlay.empty(path)
            else:
                self._overlay.bring(path)
            self._calls.truncate(tree, path, size)
            if emptied is not None:
                emptied.lower = None

    def begin(
        self,
        tree: Tree,
        seat: int,
        call: int,
        path: AnyPath,
        other: Optional[AnyPath],
        offset: int,
        size: int,
        data: bytes,
    ) -> int:
        with tree.lock:
            self._reach(Call(call), path, other)
            number: int = self._calls.begin(tree, seat, call, path, other, offset, size, data)
            return number

    def _reach(self, call: Call, path: AnyPath, other: Optional[AnyPath]) -> None:
        """Brings what a call needs that begins on a seat."""
        overlay = self._overlay
        if call in (Call.READ, Call.WRITE, Call.TRUNCATE):
            overlay.bring(path)
        elif call in (Call.RMDIR, Call.READDIR, Call.LIST):
            overlay.look(path, True)
        elif call in (Call.RENAME, Call.EXCHANGE):
            overlay.look_at_entry(path)
        else:
            overlay.look(path)
        if other is not None and call is not Call.LIST:
            overlay.look(other, call is Call.RENAME)
