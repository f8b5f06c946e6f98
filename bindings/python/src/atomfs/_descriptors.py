"""Descriptors of files and directories of a tree, as a process has them, and file objects over them.

A descriptor speaks of a node: a rename through the same door goes with it, and after its entry was removed it has its bytes itself.
"""
from __future__ import annotations

import contextlib
import errno
import fcntl
import functools
import io
import operator
import os
import secrets
import sys
import types
import warnings
from typing import TYPE_CHECKING, Any, Callable, ContextManager, Dict, NoReturn, Optional, Tuple, Type, TypeVar, cast

from ._calls import extension
from ._errors import file_too_large
from ._metadata import BLOCK, Inode, Metadata, metadata_of
from ._values import room_of

if TYPE_CHECKING:
    from ._tree import Tree

_Method = TypeVar("_Method", bound=Callable[..., Any])
# How many bytes are read at once at least of a whole file, where there are so many.
READ = 65_536
# What a node has that is at a path: it is never changed in place.
_NOTHING = bytearray()
# What `io` says of what is not open so.
_NOT_READ, _NOT_WRITTEN = "File not open for reading", "File not open for writing"
# Where the files of this package are.
_PACKAGE = os.path.dirname(os.path.abspath(__file__)) + os.sep
# What asks `lseek` for data and for holes.
_OF_HOLES = getattr(os, "SEEK_DATA", 3), getattr(os, "SEEK_HOLE", 4)
# What keeps the number of a descriptor from the system: C that writes to it by itself gets an error. It has a high number itself.
_KEEPER, _AWAY = "/dev/null", 512
_keeper = -1
# Those of the disk: a patch puts others into the modules meanwhile.
_FileIO, _dup, _open, _close, _fstat = io.FileIO, os.dup, os.open, os.close, os.fstat
_new, _begin = io.FileIO.__new__, io.FileIO.__init__
_mkdir, _chdir, _fchdir, _rmdir = os.mkdir, os.chdir, os.fchdir, os.rmdir
# Where a directory may be made for a moment.
_FOLDERS = "/tmp", "/var/tmp", "/dev/shm"


def _kept_number() -> int:
    """A number that the system gives to no file as long as it is not closed: the lowest one."""
    global _keeper
    try:
        return _dup(_keeper)
    except OSError:
        pass
    _keeper = _away(_open(_KEEPER, os.O_RDONLY | os.O_CLOEXEC))
    return _dup(_keeper)


def _leave() -> Optional[int]:
    """Lets the process work in no directory of the disk, so that what knows nothing of the tree makes no file there by a relative path.

    It answers a descriptor of the one where it was, or none where it stays there.
    """
    for above in _FOLDERS:
        path = f"{above}/atomfs-{os.getpid()}-{secrets.token_hex(4)}"
        try:
            _mkdir(path)
        except OSError:
            continue
        number = _open(".", os.O_RDONLY | os.O_DIRECTORY | os.O_CLOEXEC)
        left = _away(number)
        _chdir(path)
        _rmdir(path)
        return left
    return None


def _away(number: int) -> int:
    """A descriptor with a high number in the place of another, where a process may have so many."""
    try:
        high = fcntl.fcntl(number, fcntl.F_DUPFD_CLOEXEC, _AWAY)
    except OSError:
        return number
    _close(number)
    return high


def warned(words: str, kind: Type[Warning]) -> None:
    """Warns of what was given by the first caller that is none of this package."""
    frame, level = sys._getframe(1), 2
    while frame.f_back is not None and frame.f_code.co_filename.startswith(_PACKAGE):
        frame, level = frame.f_back, level + 1
    warnings.warn(words, kind, level)


def failed(number: int, *paths: Any) -> NoReturn:
    """Raises the `OSError` of a number."""
    raise OSError(number, os.strerror(number), *paths)


def together(method: _Method) -> _Method:
    """A method that holds the lock of its tree: what it found is there still when it goes on, whatever other threads do."""

    @functools.wraps(method)
    def held(self: Any, *given: Any, **named: Any) -> Any:
        with self.tree._door:
            return method(self, *given, **named)

    return cast(_Method, held)


class told(ContextManager[None]):
    """Within `with` an error tells the paths as they were given."""

    def __init__(self, *paths: Any) -> None:
        self._paths = paths

    def __enter__(self) -> None:
        pass

    def __exit__(self, kind: Any, error: Any, trace: Any) -> None:
        if isinstance(error, OSError):
            error.filename, *others = [os.fspath(path) if hasattr(path, "__fspath__") else path for path in self._paths]
            if others:
                (error.filename2,) = others


class PureNode:
    """What a descriptor speaks of: where it stands, or once it is removed the bytes of a file."""

    __slots__ = "path", "is_dir", "inode", "opened", "data", "__weakref__"

    def __init__(self, path: Optional[str], is_dir: bool, inode: Inode) -> None:
        self.path, self.is_dir, self.inode = path, is_dir, inode
        # How many descriptors speak of it.
        self.opened = 0
        self.data = bytearray() if path is None else _NOTHING


class PureDescription:
    """A node that was opened, and a position in it: descriptors that were made by `dup` share it."""

    __slots__ = "node", "at", "opened", "flags", "reads", "writes", "appends", "__weakref__"

    def __init__(self, node: Node, flags: int) -> None:
        mode = flags & os.O_ACCMODE
        self.node, self.at, self.opened, self.flags = node, 0, 0, flags
        self.reads, self.writes = mode != os.O_WRONLY, mode != os.O_RDONLY
        self.appends = bool(flags & os.O_APPEND)


# By the extension these are types of C, which have the same.
Node = PureNode
Description = PureDescription
if not TYPE_CHECKING and extension is not None:
    Node, Description = extension.Node, extension.Description
# What of descriptors is done in C, then, as far as it is of files that have an entry.
_OF_C = "read_into", "write", "seek", "open_there", "close"


class Descriptors:
    """The descriptors of a tree. Each method that takes one raises `OSError` with `EBADF` where it is none."""

    def __init__(self, tree: Tree) -> None:
        self.tree = tree
        self._of: Dict[int, Description] = {}
        self._nodes: Dict[str, Node] = {}
        #: The working directory, where it is one of the tree.
        self.working: Optional[Node] = None
        # The one of the disk meanwhile.
        self._left: Optional[int] = None
        if extension is not None:
            rest = types.SimpleNamespace(**{name: types.MethodType(getattr(Descriptors, name), self) for name in _OF_C})
            of_c = extension.Files(tree, self._of, self._nodes, _kept_number, rest, Node, Description)
            vars(self).update({name: getattr(of_c, name) for name in _OF_C})

    @property
    def _metadata(self) -> Metadata:
        return metadata_of(self.tree)

    def __contains__(self, descriptor: object) -> bool:
        return descriptor in self._of

    def of(self, descriptor: int) -> Description:
        """What a descriptor stands for."""
        found = self._of.get(descriptor)
        return found if found is not None else failed(errno.EBADF)

    def node(self, descriptor: int) -> Optional[Node]:
        """The directory of a descriptor; none where the descriptor is of the disk."""
        if descriptor not in self._of:
            return None
        node = self.of(descriptor).node
        return node if node.is_dir else failed(errno.ENOTDIR)

    def directory(self, path: str) -> None:
        """Raises where no directory stands at a path."""
        if not self.tree.stat(path).is_dir:
            failed(errno.ENOTDIR, path)

    # ---- Nodes, and what becomes of them

    def named(self, path: str, is_dir: bool) -> Node:
        """The node at a path."""
        node = self._nodes.get(path)
        if node is None or node.is_dir != is_dir:
            metadata = self.tree._metadata or self._metadata
            node = self._nodes[path] = Node(path, is_dir, metadata.of(path, is_dir))
        return node

    def kept(self, path: str) -> Optional[bytes]:
        """The bytes of a file that is open and about to lose its entry."""
        node = self._nodes.get(path)
        if node is None or node.is_dir:
            return None
        # Another may have changed the tree by itself.
        with contextlib.suppress(OSError):
            return self.tree.read(path)
        return None

    def removed(self, path: str, data: Optional[bytes]) -> None:
        """The entry of a path went away."""
        node = self._nodes.pop(path, None)
        if node is not None:
            node.path, node.data = None, bytearray(data or b"")

    def moved(self, old: str, new: str) -> None:
        """What stood at a path, with all below it, came to another, at which nothing stands any more."""
        if not self._nodes:
            return
        for path in [path for path in self._nodes if path == old or path.startswith(f"{old}/")]:
            node = self._nodes.pop(path)
            node.path = new + path[len(old) :]
            self._nodes[node.path] = node

    @together
    def work_in(self, node: Optional[Node], back: bool = False) -> None:
        """Makes a directory the working one. By none it is one of the disk: that in which the process is, or with `back` the one before."""
        if node is not None:
            node.opened += 1
            if self.working is None:
                self._left = _leave()
        elif self.working is not None and self._left is not None:
            if back:
                _fchdir(self._left)
            _close(self._left)
            self._left = None
        self._let_go(self.working)
        self.working = node

    def _let_go(self, node: Optional[Node]) -> None:
        if node is None:
            return
        node.opened -= 1
        if not node.opened and node.path is not None and self._nodes.get(node.path) is node:
            del self._nodes[node.path]

    # ---- Descriptors

    def add(self, description: Description) -> int:
        """A new descriptor. The lock of the tree is held."""
        return self.put(_kept_number(), description)

    def open_there(self, path: str, flags: int) -> Optional[int]:
        """A new descriptor of what is at a path of the tree, where it is neither made nor emptied: none where `Sandbox.open` is to look."""
        return None

    def put(self, number: int, description: Description) -> int:
        """Lets a number that the system has given away be a descriptor."""
        if not description.opened:
            description.node.opened += 1
        description.opened += 1
        self._of[number] = description
        return number

    def close(self, descriptor: int) -> None:
        with self.tree._door:
            description = self._of.pop(descriptor, None)
            if description is None:
                failed(errno.EBADF)
            try:
                _close(descriptor)
            except OSError:
                pass
            description.opened -= 1
            if description.opened:
                return
            node = description.node
            node.opened -= 1
            if not node.opened and node.path is not None and self._nodes.get(node.path) is node:
                del self._nodes[node.path]

    def holds(self, descriptor: int) -> bool:
        """Whether a number is a descriptor still: one that was closed past all that is replaced is none."""
        if descriptor not in self._of:
            return False
        with contextlib.suppress(OSError):
            if os.path.samestat(_fstat(descriptor), _fstat(_keeper)):
                return True
        del self._of[descriptor]
        return False

    @together
    def close_range(self, low: int, high: int) -> None:
        for descriptor in [one for one in self._of if low <= one < high]:
            self.close(descriptor)

    def _file(self, descriptor: int, reads: bool = False, writes: bool = False) -> Description:
        description = self._of.get(descriptor)
        if description is None:
            failed(errno.EBADF)
        if (reads and not description.reads) or (writes and not description.writes):
            failed(errno.EBADF)
        if description.node.is_dir:
            failed(errno.EISDIR)
        return description

    def check_copied(self, source: int, target: int) -> None:
        """Raises where one of two is a directory, or not open so: what appends is no target."""
        those = [(self._of[one], one == target) for one in (source, target) if one in self._of]
        if any(description.node.is_dir for description, _ in those):
            failed(errno.EISDIR)
        for description, is_target in those:
            if not (description.writes and not description.appends if is_target else description.reads):
                failed(errno.EBADF)

    def size(self, node: Node) -> int:
        """How many bytes a file has, or how many entries a directory."""
        return len(node.data) if node.path is None else self.tree.stat(node.path).size

    @together
    def all_of(self, description: Description) -> bytes:
        """The bytes of a file."""
        node = description.node
        return bytes(node.data) if node.path is None else self.tree.read(node.path)

    @together
    def pwrite_all(self, descriptor: int, data: bytes, offset: int) -> None:
        """Writes bytes of a file that has them already."""
        size = self.size(self.of(descriptor).node)
        self.pwrite(descriptor, data[: max(0, size - offset)], offset)

    def pread(self, descriptor: int, count: int, offset: int) -> bytes:
        with self.tree._door:
            return self._read(self._file(descriptor, reads=True).node, count, offset)

    def _read(self, node: Node, count: int, offset: int) -> bytes:
        if count < 0 or offset < 0:
            failed(errno.EINVAL)
        if node.path is None:
            return bytes(node.data[offset : offset + count])
        return self.tree.read(node.path, offset, count)

    def read(self, descriptor: int, count: int) -> bytes:
        with self.tree._door:
            description = self._file(descriptor, reads=True)
            data = self._read(description.node, count, description.at)
            description.at += len(data)
            return data

    def read_into(self, descriptor: int, buffer: Any) -> int:
        """Reads into a buffer, and answers how many bytes."""
        room = room_of(buffer)
        data = self.read(descriptor, room.nbytes)
        room[: len(data)] = data
        return len(data)

    def pwrite(self, descriptor: int, data: Any, offset: int) -> int:
        with self.tree._door:
            node = self._file(descriptor, writes=True).node
            given = data if data.__class__ is bytes else memoryview(data).tobytes()
            if offset < 0:
                failed(errno.EINVAL)
            return self._write(node, given, offset)

    def _write(self, node: Node, given: bytes, offset: int) -> int:
        if node.path is not None:
            return self.tree.write(node.path, offset, given)
        self._sized(node, max(len(node.data), offset + len(given) if given else 0))
        node.data[offset : offset + len(given)] = given
        if given:
            node.inode.wrote(self._metadata.clock())
        return len(given)

    def write(self, descriptor: int, data: Any) -> int:
        with self.tree._door:
            description = self._file(descriptor, writes=True)
            given = data if data.__class__ is bytes else memoryview(data).tobytes()
            if not given:
                # Not even the position of one that appends moves.
                return 0
            at = self.size(description.node) if description.appends else description.at
            count = self._write(description.node, given, at)
            description.at = at + count
            return count

    @together
    def truncate(self, descriptor: int, size: int) -> None:
        description = self.of(descriptor)
        if description.node.is_dir or not description.writes or size < 0:
            failed(errno.EINVAL)
        if description.node.path is None:
            self._sized(description.node, size)
            description.node.inode.wrote(self._metadata.clock())
        else:
            self.tree.truncate(description.node.path, size)

    def _sized(self, node: Node, size: int) -> None:
        """Lets a file without an entry have so many bytes, at most as many as one with an entry."""
        if size > self.tree.limits.file_bytes:
            raise file_too_large(self.tree.limits)
        del node.data[size:]
        node.data += bytes(size - len(node.data))

    def seek(self, descriptor: int, offset: int, whence: int) -> int:
        with self.tree._door:
            description = self.of(descriptor)
            return self._sought(description, offset, whence)

    def _sought(self, description: Description, offset: int, whence: int) -> int:
        if not -(2**63) <= operator.index(offset) < 2**63:
            raise OverflowError("Python int too large to convert to C long")
        starts = {os.SEEK_SET: 0, os.SEEK_CUR: description.at}
        if whence in _OF_HOLES:
            # There are none: all is data up to the end.
            size = self.size(description.node)
            if not 0 <= offset < size:
                failed(errno.ENXIO)
            description.at = offset if whence == _OF_HOLES[0] else size
            return description.at
        if whence not in (*starts, os.SEEK_END):
            failed(errno.EINVAL)
        at = operator.index(offset) + (starts[whence] if whence in starts else self.size(description.node))
        if not 0 <= at < 2**63:
            failed(errno.EINVAL)
        description.at = at
        return at


class DescribedFile(io.FileIO):
    """A file object without a buffer over a descriptor of a tree. Of the class of the disk it has what speaks of no file."""

    _files: Descriptors
    # What is opened where such an object is made by the words of `io.FileIO`, and the class of those that turn out to be of the disk.
    _opened: Callable[..., Tuple[bool, Tuple[Any, ...]]]
    _of_disk: Type[io.FileIO]
    _disk: Type[io.FileIO]

    def __init__(self, *given: Any, **named: Any) -> None:
        kind = type(self)
        in_tree, words = kind._opened(*given, **named)
        if in_tree:
            self._begin(*words)
        else:
            self.__class__ = kind._of_disk  # type: ignore[assignment]
            kind._disk.__init__(self, *words)

    def _begin(self, files: Descriptors, descriptor: int, name: Any, mode: str, closefd: bool) -> None:
        _begin(self, descriptor, mode, False)
        self._files, self._closefd, self.name = files, closefd, name
        if mode[0] == "a":
            self.seek(0, os.SEEK_END)

    @classmethod
    def of(cls, files: Descriptors, descriptor: int, name: Any, mode: str, closefd: bool) -> DescribedFile:
        """The file object of a descriptor."""
        made: DescribedFile = _new(cls)
        made._begin(files, descriptor, name, mode, closefd)
        return made

    @property
    def closefd(self) -> bool:
        return self._closefd

    def __repr__(self) -> str:
        if self.closed:
            return "<_io.FileIO [closed]>"
        name = f"name={self.name!r}" if hasattr(self, "name") else f"fd={self.fileno()}"
        return f"<_io.FileIO {name} mode={self.mode!r} closefd={self._closefd}>"

    def _named(self, error: OSError) -> OSError:
        """An error of the file: it says the name with which that was opened, where it is a path."""
        name = getattr(self, "name", None)
        if isinstance(name, (str, bytes)):
            error.filename = name
        return error

    def read(self, size: Optional[int] = -1) -> bytes:
        number = self.fileno()
        if not self.readable():
            raise io.UnsupportedOperation(_NOT_READ)
        if size is None or size < 0:
            return self.readall()
        try:
            return self._files.read(number, size)
        except OSError as error:
            raise self._named(error)

    def readinto(self, buffer: Any) -> int:
        number = self.fileno()
        if not self.readable():
            raise io.UnsupportedOperation(_NOT_READ)
        try:
            return self._files.read_into(number, buffer)
        except OSError as error:
            raise self._named(error)

    def readall(self) -> bytes:
        number = self.fileno()
        if not self.readable():
            raise io.UnsupportedOperation(_NOT_READ)
        try:
            data = self._files.read(number, READ)
            return data + self._files.read(number, self._files.tree.limits.file_bytes) if len(data) == READ else data
        except OSError as error:
            raise self._named(error)

    def write(self, data: Any) -> int:
        number = self.fileno()
        if not self.writable():
            raise io.UnsupportedOperation(_NOT_WRITTEN)
        try:
            return self._files.write(number, data)
        except OSError as error:
            raise self._named(error)

    def seek(self, offset: int, whence: int = os.SEEK_SET) -> int:
        return self._files.seek(self.fileno(), offset, whence)

    def tell(self) -> int:
        description = self._files._of.get(self.fileno())
        return description.at if description is not None else failed(errno.EBADF)

    def truncate(self, size: Optional[int] = None) -> int:
        number = self.fileno()
        if not self.writable():
            raise io.UnsupportedOperation(_NOT_WRITTEN)
        size = self.tell() if size is None else size
        try:
            self._files.truncate(number, size)
        except OSError as error:
            raise self._named(error)
        return size

    def close(self) -> None:
        if self.closed or "_closefd" not in self.__dict__:
            super().close()
            return
        number = _FileIO.fileno(self)
        if getattr(self, "_finalizing", False):
            self._dealloc_warn(self)
        try:
            _FileIO.close(self)
        finally:
            if self._closefd:
                self._files.close(number)

    def _dealloc_warn(self, source: object) -> None:
        """Says that nobody has closed it."""
        if not self.closed and self._closefd:
            warnings.warn(f"unclosed file {source!r}", ResourceWarning, 2, source)


def twin_of(kind: type, opened: Callable[..., Any], disk: Any) -> type:
    """A class of file objects as another, made of `io.FileIO`, whose files may be of a tree."""
    words: Dict[str, Any] = {"__module__": kind.__module__, "__qualname__": kind.__qualname__, "__doc__": kind.__doc__}
    words = {**words, "_opened": staticmethod(opened), "_of_disk": kind, "_disk": disk}
    made: type = type(kind)(kind.__name__, (kind, DescribedFile), words)
    return made


def _unbuffered() -> NoReturn:
    raise ValueError("can't have unbuffered text I/O")


def file_object(
    raw: DescribedFile,
    mode: str,
    buffering: int,
    encoding: Optional[str],
    errors: Optional[str],
    newline: Optional[str],
) -> Any:
    """The file object of the builtin `open` over a raw one."""
    if buffering == -1 and mode == "rb":
        return io.BufferedReader(raw, BLOCK)
    if buffering < -1:
        raise ValueError("invalid buffering size")
    if buffering == 0:
        return raw if "b" in mode else _unbuffered()
    if buffering == 1 and "b" in mode:
        words = "line buffering (buffering=1) isn't supported in binary mode, the default buffer size will be used"
        warned(words, RuntimeWarning)
    line = buffering == 1 and "b" not in mode
    if "+" in mode:
        buffer: Any = io.BufferedRandom(raw, buffering if buffering > 1 else BLOCK)
    elif raw.readable():
        buffer = io.BufferedReader(raw, buffering if buffering > 1 else BLOCK)
    else:
        buffer = io.BufferedWriter(raw, buffering if buffering > 1 else BLOCK)
    if "b" in mode:
        return buffer
    made = io.TextIOWrapper(buffer, encoding, errors, newline, line_buffering=line)
    made.mode = mode  # type: ignore[misc]
    return made
