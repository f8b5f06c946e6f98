"""The functions of `os`, and `open`, over a tree: each under the name that it has there.

Those of paths take the `Place` of each path, those of descriptors a descriptor of the tree. They raise what Linux raises.
"""
from __future__ import annotations

import errno
import functools
import io
import itertools
import operator
import os
import posixpath
import stat
import types
import warnings
from typing import Any, Callable, Dict, Iterable, Iterator, List, NoReturn, Optional, Tuple, Union

from . import _table, _walk
from ._attributes import Attributes
from ._descriptors import DescribedFile, Description, Descriptors, Node, failed, file_object, together, told
from ._locks import Locks
from ._metadata import LINK, Inode, Metadata
from ._places import Place, Places
from ._tree import Stat, Tree

# The flag that asks for a file without an entry.
_NO_ENTRY = getattr(os, "O_TMPFILE", 0)
# The flag that asks for what is no link.
_NOT_FOLLOWED = os.O_NOFOLLOW
# What a descriptor of each kind asks for.
_ASKED = {os.O_RDONLY: os.R_OK, os.O_WRONLY: os.W_OK, os.O_RDWR: os.R_OK | os.W_OK, 3: 0}
# The kind of a node in its mode.
_KIND, _DIRECTORY, _FILE, _LINK = stat.S_IFMT(0xFFFF), stat.S_IFDIR, stat.S_IFREG, stat.S_IFLNK
# Numbers of devices that no system has.
_DEVICES = itertools.count(1 << 48)


class Entry:
    """As `os.DirEntry`: what it says of the kind is of the moment of the list, and `stat` of that of its first call."""

    __slots__ = "name", "path", "_sandbox", "_above", "_known", "_mode", "_stats"

    def __init__(
        self, sandbox: Sandbox, above: str, name: Union[str, bytes], path: Union[str, bytes], known: Optional[Inode]
    ) -> None:
        # The kind of a node never changes, and neither does its number.
        self._sandbox, self._above, self.name, self.path, self._known = sandbox, above, name, path, known

    def __repr__(self) -> str:
        return f"<DirEntry {self.name!r}>"

    def __fspath__(self) -> Union[str, bytes]:
        return self.path

    @property
    def _inside(self) -> str:
        """The path in the tree."""
        return self._above + os.fsdecode(self.name)

    def _kind(self, follow: bool) -> int:
        known = self._known
        if known is not None:
            kind = known.mode & _KIND
        else:
            if not hasattr(self, "_mode"):
                self._mode = self._sandbox.kind(self._inside, False)
            kind = self._mode
        if kind != _LINK or not follow:
            return kind
        with told(self.path):
            return self._sandbox.kind(self._inside, True)

    def is_dir(self, *, follow_symlinks: bool = True) -> bool:
        """Whether it is a directory, or a link to one."""
        return self._kind(follow_symlinks) == _DIRECTORY

    def is_file(self, *, follow_symlinks: bool = True) -> bool:
        """Whether it is a file, or a link to one."""
        return self._kind(follow_symlinks) == _FILE

    def is_symlink(self) -> bool:
        """Whether it is a link."""
        return self._kind(False) == _LINK

    def is_junction(self) -> bool:
        """It is none."""
        return False

    def inode(self) -> int:
        """The number of the node."""
        return self._known.number if self._known is not None else self.stat(follow_symlinks=False).st_ino

    def stat(self, *, follow_symlinks: bool = True) -> os.stat_result:
        """What stands there."""
        if not hasattr(self, "_stats"):
            self._stats: Dict[bool, os.stat_result] = {}
        if follow_symlinks not in self._stats:
            with told(self.path):
                self._stats[follow_symlinks] = self._sandbox.stat_inside(self._inside, follow_symlinks)
        return self._stats[follow_symlinks]

    def __reduce__(self) -> NoReturn:
        raise TypeError("cannot pickle 'posix.DirEntry' object")

    @classmethod
    def __class_getitem__(cls, item: object) -> object:
        return types.GenericAlias(cls, item)


def entries_as(real: type) -> type:
    """The class of what `os.scandir` answers, of the disk and of a tree: nobody makes objects of it."""

    class OfEntries(type):
        def __instancecheck__(cls, one: object) -> bool:
            return isinstance(one, (real, Entry))

        def __subclasscheck__(cls, one: type) -> bool:
            return issubclass(one, (real, Entry))

        def __call__(cls, *given: object) -> object:
            return real(*given)

    words = {"__doc__": real.__doc__, "__module__": real.__module__, "__class_getitem__": Entry.__class_getitem__}
    return OfEntries(real.__name__, (), words)


class Entries:
    """What `os.scandir` answers: an iterator, which `with` closes."""

    def __init__(self, entries: List[Entry]) -> None:
        self._count, self._entries, self._open = len(entries), iter(entries), True

    def __iter__(self) -> Iterator[Entry]:
        # A loop over it is one over the list.
        return self._entries

    def __next__(self) -> Entry:
        for entry in self._entries:
            return entry
        self._open = False
        raise StopIteration

    def __enter__(self) -> Entries:
        return self

    def __exit__(self, *error: object) -> None:
        self.close()

    def close(self) -> None:
        """Ends it, and so does a loop that goes over it."""
        if self._open:
            self._entries.__setstate__(self._count)  # type: ignore[attr-defined]
            self._open = False

    def __del__(self) -> None:
        if getattr(self, "_open", False) and operator.length_hint(self._entries):
            warnings.warn(f"unclosed scandir iterator {self!r}", ResourceWarning, 1, self)


def _at(place: Place) -> str:
    """The path in the tree."""
    inside = place.inside
    assert inside is not None
    return inside


class Sandbox(Attributes):
    """A tree that stands at a directory of the disk."""

    def __init__(
        self,
        tree: Tree,
        files: Descriptors,
        places: Places,
        real: Dict[str, Callable[..., Any]],
        metadata: Callable[[], Metadata],
    ) -> None:
        self.tree, self._files, self._places, self._real = tree, files, places, real
        self._metadata, self._locks = metadata, Locks()
        self._device = next(_DEVICES)

    def _looked(self, place: Place) -> Stat:
        """What is there, which is a directory where the path says so."""
        found = self.tree.stat(_at(place))
        if place.of_directory and not found.is_dir:
            failed(errno.ENOTDIR, place.path)
        return found

    @together
    def inode(self, place: Place) -> Inode:
        """What is kept of what stands there."""
        return self._metadata().of(_at(place), self._looked(place).is_dir)

    # ---- Looks

    def stat(self, place: Place, *given: Any, **named: Any) -> os.stat_result:
        tree, at = self.tree, _at(place)
        with tree._door:
            is_dir, size = tree.stat(at)
            if place.of_directory and not is_dir:
                failed(errno.ENOTDIR, place.path)
            return (tree._metadata or self._metadata()).of(at, is_dir).result(self._device, size)

    lstat = stat

    def stat_inside(self, inside: str, follow: bool) -> os.stat_result:
        """What is at a path of the tree, or where a link there leads."""
        if follow and self._is_link(inside):
            path = self._places.outside(inside)
            place = self._places.of(path)
            return self._real["os.stat"](place.path) if place.inside is None else self.stat(place)  # type: ignore[no-any-return]
        return self.stat(Place(inside, inside))

    def _is_link(self, inside: str) -> bool:
        if not self._places.has_links(inside):
            return False
        inode = self._metadata().found(inside)
        return inode is not None and inode.target is not None

    def _special(self, inside: str) -> int:
        """The kind of a file of the tree that is shown as something else, as in `st_mode`: 0 of any other."""
        inode = self._metadata().found(inside) if self._metadata().links else None
        return stat.S_IFMT(inode.mode) if inode is not None and inode.is_marked else 0

    def kind(self, inside: str, follow: bool) -> int:
        """The kind of what stands at a path of the tree, as in `st_mode`: 0 where nothing does."""
        if self._is_link(inside):
            if not follow:
                return stat.S_IFLNK
            try:
                return stat.S_IFMT(self.stat_inside(inside, True).st_mode)
            except FileNotFoundError:
                return 0
        is_dir = _walk.kind(self.tree, inside)
        return 0 if is_dir is None else stat.S_IFDIR if is_dir else self._special(inside) or stat.S_IFREG

    def access(self, place: Place, mode: int = os.F_OK, **named: Any) -> bool:
        """Whether something is there that the permissions let be read, written or run: all but the last is permitted anyway, if they are
        not enforced."""
        try:
            inode = self.inode(place)
        except OSError:
            return False
        if not isinstance(mode, int):
            raise TypeError("an integer is required")
        return self.may(inode, mode)

    def may(self, inode: Inode, mode: int) -> bool:
        """Whether a user may do with a node what a mode of `os.access` asks for."""
        bits = inode.mode
        if not self.enforce:
            return not mode & os.X_OK or bool(inode.entries is not None or bits & 0o111)
        who = 6 if inode.uid == os.geteuid() else 3 if inode.gid in (os.getegid(), *os.getgroups()) else 0
        return (bits >> who) & mode & 7 == mode & 7

    #: Whether permissions are asked.
    enforce = False

    def check(self, place: Place, mode: int) -> None:
        """Raises where permissions are enforced and do not let a node be used so, or a directory on the way to it be gone through."""
        if self.enforce:
            self._check_way(_walk.parent_of(_at(place)))
            if not self.may(self.inode(place), mode):
                failed(errno.EACCES, place.path)

    def check_above(self, place: Place) -> None:
        """The same of a change of entries."""
        if self.enforce:
            above = _walk.parent_of(_at(place))
            self._check_way(above)
            found = self._metadata().found(above)
            if found is not None and not self.may(found, os.W_OK | os.X_OK):
                failed(errno.EACCES, place.path)

    def _check_way(self, folder: str) -> None:
        """Each directory on the way has to let one through."""
        at = ""
        for name in ["", *filter(None, folder.split("/"))]:
            at = f"{at}/{name}" if name else at
            found = self._metadata().found(at or "/")
            if found is not None and found.entries is not None and not self.may(found, os.X_OK):
                failed(errno.EACCES)

    def listdir(self, place: Place) -> Union[List[str], List[bytes]]:
        self.check(place, os.R_OK)
        names = self.tree.listdir(_at(place))
        return [os.fsencode(name) for name in names] if isinstance(place.path, bytes) else names

    @together
    def scandir(self, place: Place) -> Entries:
        self.check(place, os.R_OK)
        above = "" if isinstance(place.path, int) else os.fspath(place.path)
        names, known = self.tree.listdir(_at(place)), (self._metadata().of(_at(place), True).entries or {}).get
        inside, front = _walk.joined(_at(place), ""), above and posixpath.join(above, above[:0])
        if isinstance(front, bytes):
            return Entries([Entry(self, inside, raw := os.fsencode(one), front + raw, known(one)) for one in names])
        return Entries([Entry(self, inside, one, front + one, known(one)) for one in names])

    def no_entries(self, descriptor: int, scans: bool) -> Any:
        """What a directory that was removed has."""
        if not self._files.of(descriptor).node.is_dir:
            failed(errno.ENOTDIR)
        return Entries([]) if scans else []

    def readlink(self, place: Place, **named: Any) -> Any:
        """Where a link leads."""
        target = self.inode(place).target
        if target is None:
            failed(errno.EINVAL, place.path)
        return os.fsencode(target) if isinstance(os.fspath(place.path), bytes) else target

    @together
    def chdir(self, place: Place) -> None:
        self._files.directory(_at(place))
        self.check(place, os.X_OK)
        self._files.work_in(self._files.named(_at(place), True))

    # ---- Changes

    def mkdir(self, place: Place, mode: int = 0o777, **named: Any) -> None:
        if mode.__class__ is not int:
            mode = _whole(mode)
        with self.tree._door:
            if place.dots:
                self.go_to(place)
            if self.enforce:
                self.check_above(place)
            self.tree.mkdir(_at(place))
            self._made(place, stat.S_IFDIR | mode & 0o1777)

    @together
    def mknod(self, place: Place, mode: int = 0o600, device: int = 0, **named: Any) -> None:
        kind = stat.S_IFMT(_whole(mode))
        if kind == stat.S_IFIFO:
            self._make_pipe(place, mode)
            return
        if kind not in (0, stat.S_IFREG):
            self._refused_entry("os.mknod", place)
        self._make_file(place)
        self._made(place, stat.S_IFREG | mode & 0o7777)

    def _make_file(self, place: Place) -> None:
        """Makes a file of the tree without bytes."""
        if place.of_directory:
            self.go_to(place)
            failed(errno.EEXIST if self.tree.exists(_at(place)) else errno.ENOENT)
        self.check_above(place)
        self.tree.mknod(_at(place))

    def _made(self, place: Place, mode: int) -> None:
        """A node was made with these permissions."""
        metadata, at = self._metadata(), _at(place)
        above, inode = metadata.of(at.rpartition("/")[0], True), metadata.of(at, stat.S_ISDIR(mode))
        inode.mode = mode & ~metadata.mask
        if above.mode & stat.S_ISGID:
            # A directory gives its group on.
            inode.gid = above.gid
            inode.mode |= stat.S_ISGID if inode.entries is not None else 0

    @together
    def symlink(self, place: Place, target: Union[str, bytes]) -> None:
        """Makes a link: a file of the tree without bytes, of which its target is kept beside the tree."""
        text = os.fsdecode(target)
        if not text:
            failed(errno.ENOENT)
        if "\0" in text:
            raise ValueError("embedded null byte")
        self._make_file(place)
        metadata = self._metadata()
        inode = metadata.of(_at(place), False)
        inode.mode, inode.target = LINK, text
        metadata.links += 1

    def link(self, old: Place, new: Place) -> None:
        """There are no hard links, as on a file system that has none."""
        self._looked(old)
        self._refused_entry("os.link", new)

    @together
    def mkfifo(self, place: Place, mode: int = 0o666, **named: Any) -> None:
        """Makes a pipe with a name: it is listed, looked at, moved and removed, and who opens it is refused."""
        self._make_pipe(place, _whole(mode))

    def _make_pipe(self, place: Place, mode: int) -> None:
        self._make_file(place)
        self._made(place, stat.S_IFIFO | mode & 0o7777)
        self._metadata().links += 1

    def _refused_entry(self, name: str, place: Place) -> NoReturn:
        """Says that there is something already, or that a tree has nothing of the kind."""
        if self.tree.exists(_at(place)):
            failed(errno.EEXIST)
        self.tree.stat(_walk.parent_of(_at(place)))
        raise _table.refusal(name)

    def unlink(self, place: Place, **named: Any) -> None:
        with self.tree._door:
            if place.of_directory:
                self._looked(place)
                if place.dots:
                    failed(errno.EISDIR)
            if self.enforce:
                self.check_above(place)
            data = self._files.kept(_at(place))
            try:
                self.tree.unlink(_at(place))
            except PermissionError:
                # The number that Linux has for it.
                failed(errno.EISDIR)
            self._files.removed(_at(place), data)

    remove = unlink

    def rmdir(self, place: Place, **named: Any) -> None:
        with self.tree._door:
            if place.dots:
                self.go_to(place)
                failed(errno.EINVAL if place.dots == "." else errno.ENOTEMPTY)
            if self.enforce:
                self.check_above(place)
            self.tree.rmdir(_at(place))
            self._files.removed(_at(place), None)

    def rename(self, old: Place, new: Place, **named: Any) -> None:
        source, goal, files = _at(old), _at(new), self._files
        with self.tree._door:
            if old.of_directory or new.of_directory or old.dots or new.dots:
                self._check_ends(old, new)
            if self.enforce:
                self.check_above(old)
                self.check_above(new)
            if goal.startswith(source) or source.startswith(goal):
                self._check_moved(source, goal)
            data = files.kept(goal)
            self.tree.rename(source, goal)
            if source != goal:
                files.removed(goal, data)
                files.moved(source, goal)

    replace = rename

    def _check_ends(self, old: Place, new: Place) -> None:
        """What ends with a slash has to be a directory, and nothing is moved by a dot."""
        self.go_to(old)
        self.go_to(new)
        if old.dots or new.dots:
            failed(errno.EBUSY)
        if not self.tree.stat(_at(old)).is_dir:
            failed(errno.ENOTDIR)

    def go_to(self, place: Place) -> None:
        """Goes the way to the last name of a path, as Linux does before it looks at that: behind a dot the way is the whole path."""
        self._files.directory(_at(place) if place.dots else _walk.parent_of(_at(place)))

    def _check_moved(self, old: str, new: str) -> None:
        """Of a path below the other Linux looks at the way first, and the tree at how they lie."""
        if new.startswith(f"{old}/"):
            self._files.directory(_walk.parent_of(new))
        elif old.startswith(f"{new}/") and self.tree.exists(old):
            failed(errno.ENOTEMPTY)

    @together
    def truncate(self, place: Place, length: int) -> None:
        if place.of_directory:
            self._looked(place)
        if length < 0:
            failed(errno.EINVAL, place.path)
        self.check(place, os.W_OK)
        if self._special(_at(place)):
            failed(errno.EINVAL, place.path)
        self.tree.truncate(_at(place), length)

    # ---- Permissions, owners and times

    @together
    def chmod(self, place: Place, mode: int, **named: Any) -> None:
        self._set_mode(self.inode(place), mode)

    lchmod = chmod

    @together
    def fchmod(self, fd: int, mode: int) -> None:
        self._set_mode(self._files.of(fd).node.inode, mode)

    def _set_mode(self, inode: Inode, mode: int) -> None:
        mode = _whole(mode)
        if inode.target is not None:
            # As of Linux, where links have no permissions.
            raise NotImplementedError("chmod: follow_symlinks unavailable on this platform")
        self._check_owner(inode)
        inode.mode = stat.S_IFMT(inode.mode) | mode & 0o7777
        inode.changed = self._metadata().clock()

    def _check_owner(self, inode: Inode) -> None:
        if self.enforce and inode.uid != os.geteuid():
            failed(errno.EPERM)

    @together
    def chown(self, place: Place, uid: int, gid: int, **named: Any) -> None:
        self._set_owner(self.inode(place), uid, gid)

    lchown = chown

    @together
    def fchown(self, fd: int, uid: int, gid: int) -> None:
        self._set_owner(self._files.of(fd).node.inode, uid, gid)

    def _set_owner(self, inode: Inode, uid: int, gid: int) -> None:
        uid, gid = _whole(uid), _whole(gid)
        for number, what in ((uid, "uid"), (gid, "gid")):
            if not -1 <= number < 2**32:
                raise OverflowError(f"{what} is {'less than minimum' if number < 0 else 'greater than maximum'}")
        self._check_owner(inode)
        inode.uid, inode.gid = inode.uid if uid == -1 else uid, inode.gid if gid == -1 else gid
        if inode.entries is None and inode.target is None:
            # Who owns it now is not who has let it run so.
            inode.mode &= ~(stat.S_ISUID | (stat.S_ISGID if inode.mode & stat.S_IXGRP else 0))
        inode.changed = self._metadata().clock()

    @together
    def utime(self, place: Place, *given: Any, **named: Any) -> None:
        named.pop("follow_symlinks", None)
        self._set_times(self.inode(place), *given, **named)

    @together
    def futime(self, fd: int, *given: Any, **named: Any) -> None:
        """`os.utime` of a descriptor."""
        self._set_times(self._files.of(fd).node.inode, *given, **named)

    def _set_times(self, inode: Inode, *given: Any, **named: Any) -> None:
        times, now = self._times_of(*given, **named), self._metadata().clock()
        self._check_owner(inode)
        inode.accessed, inode.modified = (now, now) if times is None else times
        inode.changed = now

    def _times_of(self, *given: Any, **named: Any) -> Optional[Tuple[int, int]]:
        """The two times that are asked for, as the system rounds them; none of now."""
        # This file is nobody's: what is wrong in the words is raised by it.
        number = os.memfd_create("atomfs")
        try:
            self._real["os.utime"](number, *given, **named)
            found = self._real["os.fstat"](number)
        finally:
            self._real["os.close"](number)
        if (given[0] if given else named.get("times")) is None and named.get("ns") is None:
            return None
        return found.st_atime_ns, found.st_mtime_ns

    # ---- Descriptors

    def open(self, place: Place, flags: int, mode: int = 0o777, **named: Any) -> int:
        if mode.__class__ is not int:
            mode = _whole(mode)
        at = place.inside
        if at is not None and self.tree._overlay is not None:
            self.tree._overlay.opened(at, flags)
        if at is not None and not self.enforce and not place.of_directory and not self._special(at):
            number = self._files.open_there(at, flags)
            if number is not None:
                return number
        with self.tree._door:
            return self._files.add(self._opened(place, flags, mode))

    def _opened(self, place: Place, flags: int, mode: int) -> Description:
        """What a descriptor is to stand for: made, emptied or looked for, as the flags ask."""
        at, writes = _at(place), flags & os.O_ACCMODE != os.O_RDONLY
        if _NO_ENTRY and flags & _NO_ENTRY == _NO_ENTRY:
            self._files.directory(at)
            if not writes:
                failed(errno.EINVAL)
            metadata = self._metadata()
            inode = metadata.new(stat.S_IFREG | mode & 0o7777 & ~metadata.mask)
            inode.links = 0
            return Description(Node(None, False, inode), flags)
        made = False
        if flags & os.O_CREAT:
            if place.of_directory:
                self.go_to(place)
                if not os.fsdecode(place.path).endswith("/") and not self.tree.exists(at):
                    failed(errno.ENOENT)
                failed(errno.EEXIST if place.dots and flags & os.O_EXCL else errno.EISDIR)
            try:
                if self.enforce and not self.tree.exists(at):
                    self.check_above(place)
                self.tree.mknod(at)
                made = True
                self._made(place, stat.S_IFREG | mode & 0o7777)
            except FileExistsError:
                if flags & os.O_EXCL:
                    raise
        if made and not flags & os.O_DIRECTORY:
            return Description(self._files.named(at, False), flags)
        is_dir = self.tree.stat(at).is_dir
        if place.of_directory and not is_dir:
            failed(errno.ENOTDIR, place.path)
        if flags & _NOT_FOLLOWED and self._is_link(at):
            failed(errno.ELOOP, place.path)
        if self.enforce:
            self.check(place, _ASKED[flags & os.O_ACCMODE])
        if is_dir and (writes or flags & (os.O_CREAT | os.O_TRUNC)):
            failed(errno.EISDIR, place.path)
        if not is_dir and flags & os.O_DIRECTORY:
            failed(errno.ENOTDIR, place.path)
        if self._special(at):
            # As Linux says of a pipe that nobody reads: no bytes go through a pipe of a tree.
            failed(errno.ENXIO, place.path)
        if flags & os.O_TRUNC:
            self.tree.truncate(at, 0)
        return Description(self._files.named(at, is_dir), flags)

    def place(self, descriptor: int) -> Optional[Place]:
        """The place of what a descriptor stands for, where it has one."""
        path = self._files.of(descriptor).node.path
        return None if path is None else Place(path, descriptor)

    @together
    def fstat(self, fd: int) -> os.stat_result:
        node = self._files.of(fd).node
        return node.inode.result(self._device, self._files.size(node))

    def close(self, fd: int) -> None:
        self._files.close(fd)

    def read(self, fd: int, length: int) -> bytes:
        return self._files.read(fd, length)

    def write(self, fd: int, data: Any) -> int:
        return self._files.write(fd, data)

    def pread(self, fd: int, length: int, offset: int) -> bytes:
        return self._files.pread(fd, length, offset)

    def pwrite(self, fd: int, data: Any, offset: int) -> int:
        return self._files.pwrite(fd, data, offset)

    def readv(self, fd: int, buffers: Iterable[Any]) -> int:
        return _spread(self.read(fd, _room(buffers)), buffers)

    def preadv(self, fd: int, buffers: Iterable[Any], offset: int, flags: int = 0) -> int:
        return _spread(self.pread(fd, _room(buffers), offset), buffers)

    def writev(self, fd: int, buffers: Iterable[Any]) -> int:
        return self.write(fd, b"".join(buffers))

    def pwritev(self, fd: int, buffers: Iterable[Any], offset: int, flags: int = 0) -> int:
        return self.pwrite(fd, b"".join(buffers), offset)

    def lseek(self, fd: int, position: int, whence: int) -> int:
        return self._files.seek(fd, position, whence)

    def ftruncate(self, fd: int, length: int) -> None:
        self._files.truncate(fd, length)

    @together
    def posix_fallocate(self, fd: int, offset: int, length: int) -> None:
        if offset < 0 or length <= 0:
            failed(errno.EINVAL)
        if not self._files.of(fd).writes:
            failed(errno.EBADF)
        if offset + length > self.fstat(fd).st_size:
            self._files.truncate(fd, offset + length)
        else:
            self._files.of(fd).node.inode.wrote(self._metadata().clock())

    def fsync(self, fd: Any, *given: int) -> None:
        """What was written is in the tree."""
        self._files.of(fd if isinstance(fd, int) else fd.fileno())

    fdatasync = posix_fadvise = set_inheritable = set_blocking = fsync

    def isatty(self, fd: int) -> bool:
        self._files.of(fd)
        return False

    get_inheritable = isatty

    def get_blocking(self, fd: int) -> bool:
        self._files.of(fd)
        return True

    @together
    def dup(self, fd: int) -> int:
        return self._files.add(self._files.of(fd))

    @together
    def dup2(self, fd: int, fd2: int, inheritable: bool) -> int:
        """Lets a number be a descriptor of what another is of, of the tree or of the disk."""
        if fd2 in self._files and fd2 != fd:
            self._files.close(fd2)
        if fd not in self._files:
            return self._real["os.dup2"](fd, fd2, inheritable)  # type: ignore[no-any-return]
        if fd2 != fd:
            self._real["os.dup2"](fd, fd2, inheritable)
            self._files.put(fd2, self._files.of(fd))
        return fd2

    @together
    def splice(
        self, src: int, dst: int, count: int, offset_src: Optional[int] = None, offset_dst: Optional[int] = None
    ) -> int:
        return self._sent(src, dst, count, offset_src, offset_dst)

    @together
    def fchdir(self, fd: int) -> None:
        node = self._files.node(fd)
        self._files.work_in(node)

    # ---- Where one of two may be of the tree

    def either(self, name: str, fd: int, *given: Any) -> Any:
        """`os.pread` and so on, of a descriptor of the tree or of the disk."""
        return getattr(self, name)(fd, *given) if fd in self._files else self._real[f"os.{name}"](fd, *given)

    def sendfile(self, out_fd: int, in_fd: int, offset: Optional[int], count: int, *given: Any, **named: Any) -> int:
        return self._sent(in_fd, out_fd, count, offset, None)

    def copy_file_range(
        self, src: int, dst: int, count: int, offset_src: Optional[int] = None, offset_dst: Optional[int] = None
    ) -> int:
        self._files.check_copied(src, dst)
        return self._sent(src, dst, count, offset_src, offset_dst)

    def _sent(self, source: int, target: int, count: int, of_source: Optional[int], of_target: Optional[int]) -> int:
        count = min(count, self.tree.limits.read_bytes)
        data = (
            self.either("read", source, count) if of_source is None else self.either("pread", source, count, of_source)
        )
        if not data:
            return 0
        sent: int = (
            self.either("write", target, data) if of_target is None else self.either("pwrite", target, data, of_target)
        )
        return sent

    # ---- Files

    def check_file(self, descriptor: int, name: Any, closefd: bool) -> None:
        """Raises where a descriptor is of a directory, and closes it if it was opened for that."""
        if self._files.of(descriptor).node.is_dir:
            if closefd and not isinstance(name, int):
                self._files.close(descriptor)
            failed(errno.EISDIR, name)

    def file(
        self,
        descriptor: int,
        name: Any,
        mode: str,
        buffering: int = -1,
        encoding: Optional[str] = None,
        errors: Optional[str] = None,
        newline: Optional[str] = None,
        closefd: bool = True,
    ) -> Any:
        """The file object of a descriptor. Where it cannot be made, the descriptor is closed if it was to be."""
        files = self._files
        description = files._of.get(descriptor)
        if description is None or description.node.is_dir:
            self.check_file(descriptor, name, closefd)
        raw = DescribedFile.of(files, descriptor, name, _kind_of(mode), closefd)
        try:
            return file_object(raw, mode, buffering, encoding, errors, newline)
        except BaseException:
            raw.close()
            raise


@functools.lru_cache(100)
def _kind_of(mode: str) -> str:
    """The mode of a raw file for one of `open`."""
    kind = next(one for one in mode if one in "rwxa")
    return f"{kind}b+" if "+" in mode else f"{kind}b"


@functools.lru_cache(100)
def flags_of(mode: str) -> int:
    """The flags of `os.open` for a mode of `open`."""
    both = os.O_RDWR if "+" in mode else os.O_RDONLY if "r" in mode else os.O_WRONLY
    made = {"r": 0, "w": os.O_CREAT | os.O_TRUNC, "x": os.O_CREAT | os.O_EXCL, "a": os.O_CREAT | os.O_APPEND}
    return both | os.O_CLOEXEC | next(made[one] for one in mode if one in made)


def _whole(number: Any) -> int:
    """A number that has to be whole, as the functions of `os` take it."""
    try:
        return operator.index(number)
    except TypeError:
        raise TypeError(f"'{type(number).__name__}' object cannot be interpreted as an integer") from None


def _room(buffers: Iterable[Any]) -> int:
    return sum(memoryview(one).nbytes for one in buffers)


def _spread(data: bytes, buffers: Iterable[Any]) -> int:
    """Puts bytes into buffers, one behind the other."""
    source = io.BytesIO(data)
    return sum(source.readinto(memoryview(one).cast("B")) for one in buffers)
