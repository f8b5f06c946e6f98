"""The calls of a tree that are made often, by ctypes. `_fast.c` has the same, call for call; which one a tree takes is said here."""
from __future__ import annotations

import ctypes
import functools
import importlib
import os
import sys
import sysconfig
from typing import TYPE_CHECKING, Any, Dict, List, Optional, Tuple, Union

from ._errors import AnyPath, encoded
from ._library import FAILED, Call, Did, Request, Status, library
from ._values import Data, bytes_of, names_asked, number_of

if TYPE_CHECKING:
    from . import _fast
    from ._metadata import Metadata
    from ._overlay import Overlaid
    from ._pauses import Paused
    from ._tree import Stat, Step, Tree

    AnyCalls = Union["ByCtypes", "Noted", Overlaid, Paused, _fast.Calls]

# What the extension calls.
_FUNCTIONS = (
    "mkdir mknod unlink rmdir rename exchange stat readdir list read write truncate begin_call step reply_bytes".split()
)


def _extension() -> Tuple[Any, str]:
    """The extension, or none and why."""
    if os.environ.get("ATOMFS_PURE", "0") not in ("", "0"):
        return None, "ATOMFS_PURE is set"
    if sys.implementation.name != "cpython" or sys.version_info < (3, 11):
        return None, "the extension is for CPython 3.11 and later"
    if sysconfig.get_config_var("Py_GIL_DISABLED"):
        return None, "the extension is for a Python with its lock (the GIL)"
    try:
        return importlib.import_module("._fast", __package__), ""
    except ModuleNotFoundError:
        return None, "the package is not built, or was built without a compiler"
    except ImportError as error:
        # An interpreter below the first one, with a lock of its own, takes no such module.
        return None, str(error)


extension, _why = _extension()


def binding() -> str:
    """By what the calls of trees go to the library: `extension`, or `ctypes: ` and why. It raises nothing."""
    return f"ctypes: {_why}" if extension is None else "extension"


def calls_of(tree: Tree, stat: Any, step: Any) -> Union[ByCtypes, _fast.Calls]:
    """The calls of a tree, which answer named tuples of these two types."""
    if extension is None:
        return ByCtypes(stat, step)
    given = tree._number, tree.lock, tree._room.size, stat, step, tuple(Did), encoded, number_of, bytes_of
    made: _fast.Calls = extension.Calls(_functions(), *given)
    return made


@functools.cache
def _functions() -> Any:
    """The functions of the library, as the extension takes them."""
    of = library()
    return extension.functions({name: ctypes.cast(getattr(of, name), ctypes.c_void_p).value for name in _FUNCTIONS})


def places(spaces: List[Dict[str, Any]], ids: Dict[int, Any]) -> List[Tuple[Dict[str, Any], str]]:
    """The places, each a dictionary and a key, at which an object stands whose number, as `id` has it, is a key of `ids`."""
    if extension is not None:
        found: List[Tuple[Dict[str, Any], str]] = extension.places(spaces, ids)
        return found
    # Few have one: the others are passed over without a step of Python for each name.
    looked_for = frozenset(ids)
    holders = (space for space in spaces if not looked_for.isdisjoint(map(id, space.values())))
    return [(space, key) for space in holders for key, value in list(space.items()) if id(value) in ids]


class ByCtypes:
    """Each method takes the tree first, whose lock it holds."""

    def __init__(self, stat: Any, step: Any) -> None:
        self._made_stat, self._made_step = stat, step

    def on(self, handle: object, mine: object, standing: object, last: object, nodes: object) -> None:
        """Lets the calls go to another handle: they ask the tree for it each time."""

    def mkdir(self, tree: Tree, path: AnyPath) -> None:
        self._on_path(tree, tree._library.mkdir, Call.MKDIR, path, 1)

    def mknod(self, tree: Tree, path: AnyPath) -> None:
        self._on_path(tree, tree._library.mknod, Call.MKNOD, path, 1)

    def unlink(self, tree: Tree, path: AnyPath) -> None:
        self._on_path(tree, tree._library.unlink, Call.UNLINK, path, -1)

    def rmdir(self, tree: Tree, path: AnyPath) -> None:
        self._on_path(tree, tree._library.rmdir, Call.RMDIR, path, -1)

    def rename(self, tree: Tree, path: AnyPath, other: AnyPath) -> None:
        self._on_paths(tree, tree._library.rename, Call.RENAME, path, other)

    def exchange(self, tree: Tree, path: AnyPath, other: AnyPath) -> None:
        self._on_paths(tree, tree._library.exchange, Call.EXCHANGE, path, other)

    def _on_path(self, tree: Tree, function: Any, call: Call, path: AnyPath, more: int) -> None:
        raw = encoded(path)
        with tree.lock:
            status = function(tree._at, tree._mine.number, raw, len(raw), tree._at_number)
            _count(tree, status, more)
            if status:
                raise tree._error(status, call, path)

    def _on_paths(self, tree: Tree, function: Any, call: Call, path: AnyPath, other: AnyPath) -> None:
        raw, raw_other = encoded(path), encoded(other)
        with tree.lock:
            at = tree._at, tree._mine.number, raw, len(raw), raw_other, len(raw_other), tree._at_number
            status = function(*at)
            _count(tree, Status.OK if status == Status.OK and call == Call.RENAME else status or FAILED, 0)
            if status:
                raise tree._error(status, call, path, other)

    def stat(self, tree: Tree, path: AnyPath) -> Stat:
        raw = encoded(path)
        with tree.lock:
            at = tree._at_stat, tree._at_number
            if status := tree._library.stat(tree._at, tree._mine.number, raw, len(raw), *at):
                raise tree._error(status, Call.STAT, path)
            found = tree._stat
            made: Stat = tuple.__new__(self._made_stat, (found.is_dir != 0, found.size))
        return made

    def kind(self, tree: Tree, path: AnyPath) -> Optional[bool]:
        """Whether a directory is at a path, and none of both where nothing does."""
        try:
            return self.stat(tree, path).is_dir
        except (FileNotFoundError, NotADirectoryError):
            return None

    def readdir(self, tree: Tree, path: AnyPath) -> Union[List[str], List[bytes]]:
        return self._names(tree, tree._library.readdir, Call.READDIR, path)

    def list(self, tree: Tree, path: AnyPath, after: AnyPath, count: int) -> Union[List[str], List[bytes]]:
        raw, count = encoded(after), names_asked(count)
        return self._names(tree, tree._library.list, Call.LIST, path, raw, len(raw), count)

    def _names(self, tree: Tree, function: Any, call: Call, path: AnyPath, *more: Any) -> Union[List[str], List[bytes]]:
        """The names that a call replies."""
        raw, room = encoded(path), tree._room
        with tree.lock:
            given = tree._at, tree._mine.number, raw, len(raw), *more, room.at, room.size, room.at_count
            status = function(*given, tree._at_number)
            if status in (Status.TOO_SMALL, Status.UNTOLD):
                return tree._names_behind(tree._number.value, path)
            if status:
                raise tree._error(status, call, path)
            return named(room.told().split(b"\0")[:-1], path)

    def piece(self, tree: Tree, path: AnyPath, offset: int, count: int) -> bytes:
        """At most so many bytes, by one call."""
        raw, room = encoded(path), tree._room
        with tree.lock:
            if count > room.size:
                room.make(count)
            to = room.at, count, room.at_count
            status = tree._library.read(tree._at, tree._mine.number, raw, len(raw), offset, *to, tree._at_number)
            if status == Status.UNTOLD:
                status = tree._library.reply_bytes(tree._at, tree._number.value, *to)
            if status:
                raise tree._error(status, Call.READ, path)
            return room.told()

    def read(self, tree: Tree, path: AnyPath, offset: int, count: Optional[int]) -> bytes:
        """At most so many bytes, or all where none is said."""
        return tree._read_pieces(path, offset, count)

    def write(self, tree: Tree, path: AnyPath, offset: int, data: Data) -> int:
        raw, offset, data = encoded(path), number_of(offset, "offset"), bytes_of(data)
        with tree.lock:
            given = tree._at, tree._mine.number, raw, len(raw), offset, data, len(data)
            if status := tree._library.write(*given, tree._at_wrote, tree._at_number):
                raise tree._error(status, Call.WRITE, path)
            return tree._wrote.value

    def truncate(self, tree: Tree, path: AnyPath, size: int) -> None:
        raw, size = encoded(path), number_of(size, "size")
        with tree.lock:
            if status := tree._library.truncate(tree._at, tree._mine.number, raw, len(raw), size, tree._at_number):
                raise tree._error(status, Call.TRUNCATE, path)

    def begin(
        self,
        tree: Tree,
        seat: int,
        call: int,
        path: AnyPath,
        other: Optional[AnyPath],
        offset: int,
        size: int,
        data: bytes,
    ) -> int:
        """The number of a call that begins on a seat."""
        raw, second = encoded(path), b"" if other is None else encoded(other)
        request = Request(call, raw, len(raw), second, len(second), offset, size, data, len(data))
        with tree.lock:
            if status := tree._library.begin_call(tree._at, seat, ctypes.addressof(request), tree._at_number):
                raise tree._error(status, call, path, *(() if other is None else (other,)))
            return tree._number.value

    def step(self, tree: Tree, seat: int) -> Step:
        """What a step of the call on a seat did, and what that speaks of."""
        did, about = ctypes.c_uint8(), ctypes.c_uint64()
        with tree.lock:
            if status := tree._library.step(tree._at, seat, ctypes.addressof(did), ctypes.addressof(about)):
                raise tree._error(status, 0)
        made: Step = self._made_step(Did(did.value), about.value)
        return made


class Noted:
    """The calls of a tree, of which each that changes it is told to what is kept beside its nodes."""

    def __init__(self, calls: Any, metadata: Metadata) -> None:
        self._calls, self._metadata = calls, metadata
        # What only looks goes through.
        self.on, self.begin, self.step = calls.on, calls.begin, calls.step
        self.stat, self.kind, self.readdir, self.list = calls.stat, calls.kind, calls.readdir, calls.list
        self.piece, self.read = calls.piece, calls.read

    def mkdir(self, tree: Tree, path: AnyPath) -> None:
        with tree.lock:
            self._calls.mkdir(tree, path)
            self._metadata.made(path, True)

    def mknod(self, tree: Tree, path: AnyPath) -> None:
        with tree.lock:
            self._calls.mknod(tree, path)
            self._metadata.made(path, False)

    def unlink(self, tree: Tree, path: AnyPath) -> None:
        with tree.lock:
            self._calls.unlink(tree, path)
            self._metadata.removed(path)

    def rmdir(self, tree: Tree, path: AnyPath) -> None:
        with tree.lock:
            self._calls.rmdir(tree, path)
            self._metadata.removed(path)

    def rename(self, tree: Tree, path: AnyPath, other: AnyPath) -> None:
        with tree.lock:
            self._calls.rename(tree, path, other)
            self._metadata.moved(path, other, False)

    def exchange(self, tree: Tree, path: AnyPath, other: AnyPath) -> None:
        with tree.lock:
            self._calls.exchange(tree, path, other)
            self._metadata.moved(path, other, True)

    def write(self, tree: Tree, path: AnyPath, offset: int, data: Data) -> int:
        with tree.lock:
            wrote: int = self._calls.write(tree, path, offset, data)
            if wrote:
                self._metadata.wrote(path)
            return wrote

    def truncate(self, tree: Tree, path: AnyPath, size: int) -> None:
        with tree.lock:
            self._calls.truncate(tree, path, size)
            self._metadata.wrote(path)


def _count(tree: Tree, status: int, more: int) -> None:
    """Counts the nodes behind a call that makes one or takes one away. Behind a call that waits, or may have replaced one, they are not
    known."""
    if status == Status.OK and more and tree._nodes.value >= 0:
        tree._nodes.value += more
    elif status in (Status.WAITS, Status.UNTOLD) or (status == Status.OK and not more):
        tree._nodes.value = -1


def named(names: List[bytes], path: AnyPath) -> Union[List[str], List[bytes]]:
    """Names as they are answered: of `bytes` where the path is."""
    if isinstance(os.fspath(path), bytes):
        return names
    return [name.decode("utf-8", "surrogateescape") for name in names]
