"""Trees, and seats on which calls are made step by step."""
from __future__ import annotations

import contextlib
import ctypes
import io
import os
import re
import stat
import threading
import time
import weakref
from typing import (
    IO,
    TYPE_CHECKING,
    Any,
    Callable,
    Dict,
    Iterator,
    List,
    Literal,
    Mapping,
    NamedTuple,
    NoReturn,
    Optional,
    Tuple,
    Type,
    TypeVar,
    Union,
    overload,
)

from . import _last, _load, _rows, _seats, _tools, _walk
from ._calls import Noted, calls_of, named
from ._errors import AnyPath, Error, StrPath, WaitsError, encoded, error_at, error_of
from ._file import open_file
from ._journal import ALL, Journal, Noting, Standing
from ._library import LISTED, Call, CStat, Did, Fault, Handle, Library, Limits, Status, library
from ._load import Snapshot
from ._metadata import Metadata
from ._names import Names
from ._page import Page
from ._path import Path, class_of
from ._pauses import Paused, Turns
from ._texts import ROOM, Room, told, told_text
from ._tools import Picture
from ._values import NAME, Data, bytes_of, names_asked, number_of

if TYPE_CHECKING:
    from ._calls import AnyCalls
    from ._overlay import Overlay

_Self = TypeVar("_Self", bound="Tree")
Reply = Union[None, "Stat", List[str], bytes, int]
# How many calls a notebook shows at most, and of how long a journal: the tree before them takes a while to be found.
_SHOWN, _OF_CALLS = 100, 10_000


def _absent(name: str, what: str) -> property:
    """A field of `os.stat_result` that a tree has not."""

    def refuse(self: Any) -> NoReturn:
        raise AttributeError(f"{name}: a tree keeps no {what}")

    return property(refuse, doc=f"Raises `AttributeError`, since a tree keeps no {what}.")


class Stat(NamedTuple):
    """What is at a path: a directory and how many entries it has, or a file and how many bytes.

    Of the fields of `os.stat_result` it has `st_size` and `st_mode`; those of times, owners and numbers say that a tree keeps none.
    """

    is_dir: bool
    size: int

    @property
    def st_size(self) -> int:
        """As `size`."""
        return self.size

    @property
    def st_mode(self) -> int:
        """The kind, with all permissions, since a tree has none."""
        return stat.S_IFDIR | 0o777 if self.is_dir else stat.S_IFREG | 0o666


for _what, _fields in (
    ("times", ("st_atime", "st_mtime", "st_ctime")),
    ("owners", ("st_uid", "st_gid")),
    ("numbers of nodes, devices and links", ("st_ino", "st_dev", "st_nlink")),
):
    for _name in _fields:
        setattr(Stat, _name, _absent(_name, _what))


def _stat_of(raw: CStat) -> Stat:
    return tuple.__new__(Stat, (raw.is_dir != 0, raw.size))


class Step(NamedTuple):
    """What a step did, and the node or the number of the call that it speaks of."""

    did: Did
    about: int


def _names(told: bytes) -> List[bytes]:
    """The names of a reply, with a byte 0 after each."""
    return told.split(b"\0")[:-1]


class Tree(Names):
    """A tree of at most `limit` nodes, including its root, with the journal of its calls. `limits` bounds its names, paths, directories and files.
    Without `limit` it may have as many nodes as `limits` allow.

    `journal` says how many calls it keeps: `ALL`, `LAST(10_000)` or `NONE`. A tree that keeps all grows with every call.

    Threads may share it: each method holds `lock`, which is re-entrant, so `with tree.lock:` keeps other threads away for several calls. Each
    thread has a seat of its own, so the journal says which thread made a call. Paths are absolute; a `str` is encoded as UTF-8. `with` closes
    the tree.

    Calls of threads come one after the other, unless `pauses` is a seed. Then a call lets the lock go between its events, and pauses after
    some of them, as is drawn from the seed and the seat, so that calls of threads overlap. The same seed draws the same pauses, but the
    system decides which calls meet: `explore` makes a run again. A thread that has `lock` makes whole calls, and finds none half-way; under
    `atomfs.patch` all calls are whole.

    `room` is how many bytes a reply may have before the memory for replies grows. For example:

        with atomfs.Tree() as tree:
            tree.makedirs("/a/b")
            tree.write_text("/a/b/f", "hello")
            print(tree.check())

    A call raises the `OSError` of its error, for example `FileNotFoundError`, and `OSError` with `EINVAL` or `ENAMETOOLONG` if an argument is not a
    path. A method of a closed tree raises `ClosedError`. If memory runs out, it raises `MemoryError`, and the tree is as before. A call that needs a
    node which a call on another seat holds raises `WaitsError`. An impossible limit of nodes, or a negative seed, is a `ValueError`.
    """

    def __init__(
        self,
        limit: Optional[int] = None,
        *,
        limits: Limits = Limits.V3,
        room: int = ROOM,
        journal: Journal = ALL,
        pauses: Optional[int] = None,
    ) -> None:
        # The seed of the pauses, if calls have some.
        self._seed = None if pauses is None else number_of(pauses, "seed")
        self.lock: Union[threading.RLock, Turns] = threading.RLock() if pauses is None else Turns()
        # What keeps other threads off while a file or an entry and what is noted of it change together.
        self._door = self.lock
        self._handle = Handle()
        self._library: Library = library()
        self._stat, self._number, self._wrote = CStat(), ctypes.c_uint64(), ctypes.c_uint64()
        self._at, self._at_stat = ctypes.addressof(self._handle), ctypes.addressof(self._stat)
        self._at_number, self._at_wrote = ctypes.addressof(self._number), ctypes.addressof(self._wrote)
        self._room = Room(number_of(room, "room"))
        #: The bounds of names, paths, directories and files.
        self.limits = Limits(limits)
        #: The most nodes, the root included.
        self.limit = self.limits.nodes if limit is None else number_of(limit, "limit")
        # The class of this tree's paths.
        self._paths: Optional[weakref.ref[Type[Path]]] = None
        #: How many calls the journal keeps, as `keep` has said it last.
        self.keeps = ALL
        # Call numbers begin at 1 again where the journal does.
        self._standing = Standing()
        if not 0 < self.limit <= self.limits.nodes:
            raise ValueError(f"the limit of nodes is 1 to {self.limits.nodes:,}")
        if status := self._library.open_with(self._at, self.limit, self.limits.value):
            raise error_of(self._library, status)
        # The seat of each thread's calls: the first is of the thread that has made the tree.
        self._mine = _seats.Mine(self._library, self._at, [])
        # How many nodes there are, or -1 where that is not known: no call has told it.
        self._nodes = ctypes.c_int64(1)
        # Whether a call was begun on a seat, of which any step may have made a node or taken one away.
        self._stepped = False
        self._calls: AnyCalls = self._new_calls()
        self._calls.on(self._handle, self._mine, self._standing, None, self._nodes)
        # The names of seats that have one.
        self._names: Dict[int, str] = {}
        # What a directory of the disk has besides, once the tree has stood at one.
        self._metadata: Optional[Metadata] = None
        # What is read from the disk below it, while a patch has an overlay.
        self._overlay: Optional[Overlay] = None
        if journal != ALL:
            self.keep(journal)

    # ---- Open and closed

    @property
    def closed(self) -> bool:
        """Whether the tree is closed."""
        return not self._handle.is_open

    def close(self) -> None:
        """Frees the tree and its journal. A closed tree stays closed, and nothing is raised."""
        with self.lock:
            self._library.close(self._at)

    def __enter__(self: _Self) -> _Self:
        return self

    def __exit__(self, *error: object) -> None:
        self.close()

    def __del__(self) -> None:
        if "_library" in self.__dict__ and "_at" in self.__dict__:
            self._library.close(self._at)

    def __reduce__(self) -> Any:
        # A copy, a deep copy and an unpickled tree begin a journal of their own at the tree as it is now.
        return _load.of_snapshot, (self.__class__, self.limit, _load.Now(self), self.keeps)

    def _is_new(self) -> bool:
        """Whether the tree is as it was made: without calls, and with no seat but the first."""
        did, about = ctypes.c_uint8(), ctypes.c_uint64()
        with self.lock:
            status = self._library.step(self._at, 1, ctypes.addressof(did), ctypes.addressof(about))
            return status == Status.NO_SEAT and not self.calls and not self.calls_before

    def _called(self) -> None:
        """Lets calls go to the handle as it is now, and be noted where the tree forgets by itself."""
        noted = None if self.keeps == ALL else self._standing.noted
        self._calls.on(self._handle, self._mine, self._standing, noted, self._nodes)

    def _keep_beside(self, metadata: Optional[Metadata]) -> None:
        """Lets each change of the tree be told to what is kept of its nodes besides, or to nothing."""
        self._metadata = metadata
        if metadata is None:
            self._calls = self._new_calls()
        else:
            calls = calls_of(self, Stat, Step)
            noted = Noted(calls, metadata)
            self._calls = noted if self._overlay is None else self._overlay.over(noted, calls)
        self._called()

    def _new_calls(self) -> AnyCalls:
        """The calls of a tree beside which nothing is kept."""
        calls = calls_of(self, Stat, Step)
        return Paused(calls, self, self.lock, self._seed or 0) if isinstance(self.lock, Turns) else calls

    @contextlib.contextmanager
    def _without_overlay(self) -> Iterator[None]:
        """Lets calls go to the tree alone meanwhile. Its lock is held."""
        overlay, self._overlay = self._overlay, None
        self._keep_beside(self._metadata)
        try:
            yield
        finally:
            self._overlay = overlay
            self._keep_beside(self._metadata)

    def _opened_again(self, opens: Callable[[int], int]) -> int:
        """Opens another handle, which comes in the place of that of a new tree. Where it stays closed, the tree is as before."""
        handle = Handle()
        at = ctypes.addressof(handle)
        if status := opens(at):
            return status
        with self.lock:
            self._library.close(self._at)
            self._handle, self._at, self._nodes.value = handle, at, -1
            self._mine = _seats.Mine(self._library, at, [])
            self._called()
            kept: int = self._library.keep(at, self.keeps.most)
        return kept

    # ---- In and out: a new tree begins its journal behind what it is filled with, and is closed where that fails

    @classmethod
    def from_dict(
        cls: Type[_Self], files: Mapping[str, Any], limit: Optional[int] = None, *, limits: Limits = Limits.V3
    ) -> _Self:
        """A tree of these files: a dictionary from paths, with or without the first slash, to `bytes` or to `str`, which is encoded as UTF-8.

        None is an empty directory, and a dictionary is a directory with its contents.

        Raises `OSError` with `EINVAL` or `ENAMETOOLONG` if a key is not a path, and `TypeError` if a value is of another type.
        """
        with _load.into(cls(limit, limits=limits)) as tree:
            _load.from_dict(tree, files)
        return tree

    @classmethod
    def from_directory(
        cls: Type[_Self],
        path: StrPath,
        on_error: _load.OnError = "raise",
        limit: Optional[int] = None,
        *,
        limits: Limits = Limits.V3,
    ) -> _Self:
        """A tree of what is below a directory of the disk. A link to a file is that file; one to a directory is an error.

        An error is raised with the path on the disk. With `on_error="skip"` what it is about is left out. With a function as `on_error` it is
        left out too, and the function is called with the error.
        """
        with _load.into(cls(limit, limits=limits)) as tree:
            _load.from_directory(tree, path, on_error)
        return tree

    @classmethod
    def from_zip(
        cls: Type[_Self], file: Union[StrPath, IO[bytes]], limit: Optional[int] = None, *, limits: Limits = Limits.V3
    ) -> _Self:
        """A tree of what is in a zip, given by its path or as a file object. A name that is not a path is refused.

        Raises `OSError` with `EINVAL` or `ENAMETOOLONG` for such a name, and what the module zipfile raises.
        """
        with _load.into(cls(limit, limits=limits)) as tree:
            _load.from_zip(tree, file)
        return tree

    @classmethod
    def from_text(cls: Type[_Self], text: str, limit: Optional[int] = None, *, limits: Limits = Limits.V3) -> _Self:
        """A tree by its text, as `tree()` writes it. A line that is not valid is a `ValueError` with its number."""
        return _load.of_snapshot(cls, limit, Snapshot(limits, text))

    def to_dict(self) -> Dict[str, Optional[bytes]]:
        """The bytes of each file by its path, and None by that of each empty directory: of one moment, and no call.

        Raises `ClosedError`, and `MemoryError`.
        """
        return _load.dictionary(self.tree())

    def to_directory(self, path: StrPath, exist_ok: bool = False) -> None:
        """Makes the tree as of one moment below a directory of the disk, which may be there with `exist_ok`.

        Raises `FileExistsError` if the directory is there without `exist_ok`, and what the disk raises.
        """
        _load.to_directory(self, path, exist_ok)

    def to_zip(self, file: Union[StrPath, IO[bytes]]) -> None:
        """Writes the tree as of one moment as a zip, to a path or a file object. Names have to be UTF-8.

        Raises `UnicodeEncodeError` for another name, and what the disk raises.
        """
        _load.to_zip(self, file)

    def snapshot(self) -> Snapshot:
        """The tree as it is now, of one moment and by no call: as much work and memory as its text.

        Permissions, times and so on, which `atomfs.patch` keeps, are in it too.

        Raises `ClosedError`, and `MemoryError`.
        """
        with self.lock:
            return Snapshot(self.limits, self.tree(), self._metadata and self._metadata.copied())

    def restore(self, snapshot: Snapshot) -> None:
        """Makes the tree as it was, with the calls that this takes: one to three for each node that has changed.

        A snapshot with other limits is a `ValueError`. While a call is pending, `UnderWayError` is raised.
        """
        _load.restore(self, snapshot)

    def _none_under_way(self) -> None:
        """Raises `UnderWayError` while a call is under way: one has fewer than the three entries that each has at its return."""
        begun = self.calls
        self._entries(2**63 - 1)
        if self._room.entries.value != 3 * begun:
            # This is refused, and says which call.
            self.checkpoint()

    # ---- Looks at the whole tree, of one moment and without a call: each takes as long as the text of the tree

    def __repr__(self) -> str:
        if self.closed:
            return "<atomfs.Tree closed>"
        with self.lock:
            return f"<atomfs.Tree open: {len(self):,} of {self.limit:,} nodes, {self.calls:,} calls, {self.limits}>"

    def __str__(self) -> str:
        """The tree as it is drawn, its first 40 nodes."""
        return repr(self) if self.closed else _rows.drawn(self.tree())

    def __len__(self) -> int:
        """How many nodes there are, the root included. They are counted with the calls; behind a rename, which may have replaced one, and
        where calls were made step by step, this takes as long as the text of the tree."""
        with self.lock:
            if self._stepped or self._nodes.value < 0 or self.closed:
                self._nodes.value = self._told_tree().count(b"\n") - 1
            return self._nodes.value

    def _told_tree(self) -> bytes:
        return told(self._library, self._room, self._library.tree, self._at)

    def __bool__(self) -> bool:
        """A tree is true, open or closed: nothing is looked at."""
        return True

    def __iter__(self) -> Iterator[str]:
        """The names of all nodes by their paths, the root first and each directory before what is in it."""
        return iter([_rows.told(_rows.path_of(line)) for line in self.tree().splitlines()[1:]])

    def __contains__(self, path: AnyPath) -> bool:
        """Whether something is at a path, by a `stat`."""
        return self.exists(path)

    # ---- Calls

    def mkdir(self, path: AnyPath) -> None:
        """Makes an empty directory.

        `FileExistsError` if something is there. This and each other call raises `FileNotFoundError` or `NotADirectoryError` where a path
        leads through what is missing or a file, and `OSError` with `ENOSPC` if a directory or the tree is full."""
        self._calls.mkdir(self, path)

    def mknod(self, path: AnyPath) -> None:
        """Makes an empty file. `FileExistsError` if something is there."""
        self._calls.mknod(self, path)

    def unlink(self, path: AnyPath) -> None:
        """Removes the entry of a file. `FileNotFoundError` if nothing is there, `PermissionError` if a directory is."""
        self._calls.unlink(self, path)

    def rmdir(self, path: AnyPath) -> None:
        """Removes the entry of an empty directory. `OSError` with `ENOTEMPTY` if it has entries, `NotADirectoryError` if it is a file."""
        self._calls.rmdir(self, path)

    def rename(self, path: AnyPath, other: AnyPath) -> None:
        """Moves what is at `path`, with all below it, to `other`; a file or an empty directory there is replaced.

        `OSError` with `ENOTEMPTY` if the directory there has entries, with `EINVAL` if `other` is below `path`. `IsADirectoryError` and
        `NotADirectoryError` if one of them is a file and the other a directory."""
        self._calls.rename(self, path, other)

    def exchange(self, path: AnyPath, other: AnyPath) -> None:
        """Lets what is at two paths change places, each with all below it. `OSError` with `EINVAL` if one is below the other."""
        self._calls.exchange(self, path, other)

    def stat(self, path: AnyPath) -> Stat:
        """What is at a path. `FileNotFoundError` if nothing does."""
        return self._calls.stat(self, path)

    @overload
    def readdir(self, path: StrPath) -> List[str]:
        ...

    @overload
    def readdir(self, path: Union[bytes, os.PathLike[bytes]]) -> List[bytes]:
        ...

    def readdir(self, path: AnyPath) -> Union[List[str], List[bytes]]:
        """The names of a directory, in byte order: `bytes` if the path is.

        Raises `OSError` with `EOVERFLOW` if there are more than 256, which only `Limits.V3` allows: use `listdir` then.
        """
        return self._calls.readdir(self, path)

    @overload
    def list(self, path: StrPath, after: AnyPath = "/", count: int = LISTED) -> List[str]:
        ...

    @overload
    def list(self, path: Union[bytes, os.PathLike[bytes]], after: AnyPath = "/", count: int = LISTED) -> List[bytes]:
        ...

    def list(self, path: AnyPath, after: AnyPath = "/", count: int = LISTED) -> Union[List[str], List[bytes]]:
        """The names of a directory above the last name of the path `after`, or from the first on, in byte order: at most `count`, and at
        most 256. A tree by `Limits.V3` alone has it.

        Raises `FileNotFoundError`, `NotADirectoryError`, and `Error` with `BAD_VERSION` for a tree with other limits.
        """
        return self._calls.list(self, path, after, count)

    @overload
    def listdir(self, path: StrPath) -> List[str]:
        ...

    @overload
    def listdir(self, path: Union[bytes, os.PathLike[bytes]]) -> List[bytes]:
        ...

    def listdir(self, path: AnyPath) -> Union[List[str], List[bytes]]:
        """All names of a directory, in byte order, by one `readdir`; by `Limits.V3` by a `list` for each 256, each a call of its own, between
        which others may change the directory.

        Raises `FileNotFoundError` if nothing is there, and `NotADirectoryError` if a file is.
        """
        names: Union[List[str], List[bytes]] = _walk.names(self, path)
        return names

    def read(self, path: AnyPath, offset: int = 0, count: Optional[int] = None) -> bytes:
        """At most `count` bytes of a file from an offset on, or all from there on: what one call reads, and where that are more than
        `limits.read_bytes`, as they may be by `Limits.V3`, what several do.

        Raises `FileNotFoundError` if nothing is there, and `IsADirectoryError` if a directory is.
        """
        return self._calls.read(self, path, offset, count)

    def _read_pieces(self, path: AnyPath, offset: int, count: Optional[int], known: Optional[bytes] = None) -> bytes:
        """As `read`, by as many calls as it takes. `known` is what a first read of a whole file has told, as many bytes as it asked for."""
        # What is none is refused in the order of the arguments.
        encoded(path)
        offset = number_of(offset, "offset")
        most, left = self.limits.read_bytes, self.limits.file_bytes if count is None else number_of(count, "count")
        with self.lock:
            pieces = [self._first(path, offset, known) if count is None else self._read(path, offset, left)]
            while len(pieces[-1]) == most and offset + most < self.limits.file_bytes and left > most:
                offset, left = offset + most, left - most
                pieces.append(self._read(path, offset, left))
        return pieces[0] if len(pieces) == 1 else b"".join(pieces)

    def _first(self, path: AnyPath, offset: int, known: Optional[bytes]) -> bytes:
        """All bytes from an offset on, as many as one call reads."""
        size, most = ROOM, self.limits.read_bytes
        data = self._read(path, offset, size) if known is None else known
        while len(data) == size < most:
            size = min(most, 2 * max(size, self.stat(path).size))
            data = self._read(path, offset, size)
        return data

    def _read(self, path: AnyPath, offset: int, count: int) -> bytes:
        room = self._room
        if count > room.size:
            # A file may be shorter than what is asked for by far.
            count = min(count, max(room.size, min(self.stat(path).size, self.limits.read_bytes)))
            room.make(max(room.size, count))
        return self._calls.piece(self, path, offset, count)

    def write(self, path: AnyPath, offset: int, data: Data) -> int:
        """Writes bytes into a file at an offset: all of them or none. A gap before them reads as zeros.

        Raises `FileNotFoundError` if nothing is there, `IsADirectoryError` if a directory is, and `OSError` with `EFBIG` past the limit of
        a file.
        """
        return self._calls.write(self, path, offset, data)

    def truncate(self, path: AnyPath, size: int) -> None:
        """Cuts a file to a size, or adds zeros up to it.

        Raises `FileNotFoundError`, `IsADirectoryError`, and `OSError` with `EFBIG` past the limit of a file.
        """
        self._calls.truncate(self, path, size)

    def _refusal(self, status: int) -> Exception:
        """The exception of what is refused, as while a call is under way, which it names."""
        error = error_of(self._library, status, about=self._number.value if status == Status.UNDER_WAY else 0)
        if status == Status.UNDER_WAY:
            self._entries(2**63 - 1)
            lines = self._entries(max(0, self._room.entries.value - _NEAR))
            begun = re.search(rf"(?m)^begin {self._number.value} \S+ (.*)$", lines)
            error.args = (f"{error}: {_cut(begun[1]) if begun else f'number {self._number.value}'}",)
        return error

    def _error(self, status: int, call: int, *paths: AnyPath) -> Exception:
        """The exception of a call that did not come to its reply. One that waits keeps its seat, and the thread takes another."""
        if status != Status.WAITS:
            return error_at(self, status, paths)
        seat = Seat(self, self._mine.leave())
        seat._began(Call(call), self._number.value, paths)
        return WaitsError(f"{self._library.words(status)}: {seat._words()}", self._number.value, seat)

    def _names_behind(self, number: int, path: AnyPath) -> Union[List[str], List[bytes]]:
        """The names that a call replied which had no room for all, as they are answered."""
        return named(self._told_names(number, (path,)), path)

    def _told_names(self, number: int, paths: Tuple[AnyPath, ...]) -> List[bytes]:
        """The names that a call replied, in pieces for which there is room."""
        names: List[bytes] = []
        room = self._room
        while True:
            after = names[-1] if names else b""
            status = self._library.reply_names(self._at, number, after, len(after), room.at, room.size, room.at_count)
            if status == Status.TOO_SMALL:
                room.make(room.count.value)
                continue
            if status:
                raise error_at(self, status, paths)
            if not room.count.value:
                return names
            names += _names(room.told())

    def _own_seat(self) -> Seat:
        """The seat of this thread's calls."""
        return Seat(self, self._mine.number)

    # ---- What is made of these calls

    def _kind(self, path: AnyPath) -> Optional[bool]:
        """Whether a directory is at a path, and none of both where nothing does, by a `stat`."""
        if type(self).stat is Tree.stat:
            return self._calls.kind(self, path)
        # A subclass has a `stat` of its own.
        try:
            return self.stat(path).is_dir
        except _walk.GONE:
            return None

    def exists(self, path: AnyPath) -> bool:
        """Whether something is at a path, by a `stat`.

        Raises `OSError` for what is no path, and for nothing else.
        """
        return _walk.kind(self, path) is not None

    def is_dir(self, path: AnyPath) -> bool:
        """Whether a directory is at a path, by a `stat`.

        Raises `OSError` for what is no path, and for nothing else.
        """
        return _walk.kind(self, path) is True

    def is_file(self, path: AnyPath) -> bool:
        """Whether a file is at a path, by a `stat`.

        Raises `OSError` for what is no path, and for nothing else.
        """
        return _walk.kind(self, path) is False

    def makedirs(self, path: AnyPath, exist_ok: bool = False) -> None:
        """Makes a directory and those above it that are missing: several calls.

        Raises `FileExistsError` if it is there without `exist_ok`, and `NotADirectoryError` if the path leads through a file.
        """
        _walk.makedirs(self, path, exist_ok)

    def walk(
        self, top: AnyPath = "/", topdown: bool = True, onerror: Optional[Callable[[OSError], object]] = None
    ) -> Iterator[_walk.Walked]:
        """Each directory from `top` down, with the names of the directories and of the files in it, as `os.walk`: several calls.

        Errors go to `onerror`, and otherwise nowhere.
        """
        return _walk.walk(self, top, topdown, onerror)

    def glob(self, pattern: AnyPath) -> List[str]:
        """The paths that a pattern from the root on matches, in byte order: several calls.

        `*`, `?` and `[..]` match in a name, a dot at its begin like any other byte; `**` any directories, or none, and at the end
        all that is below.

        Raises `OSError` with `EINVAL` for a pattern that does not begin with a slash.
        """
        return _walk.glob(self, pattern)

    def rmtree(self, path: AnyPath, ignore_errors: bool = False) -> None:
        """Removes a directory with all below it, and of the root all below it: several calls.

        Raises `FileNotFoundError` if nothing is there, and `NotADirectoryError` if a file is, unless `ignore_errors` is set.
        """
        _walk.rmtree(self, path, ignore_errors)

    def copy(self, source: AnyPath, target: AnyPath) -> None:
        """Copies a file, whose bytes replace those of a file at `target`, or a directory with all below it: several calls.

        `target` is the path of the copy, and no directory may be there. If a directory cannot be copied whole, nothing of the copy stays.

        Raises `FileNotFoundError` if there is no source, and the errors of the calls that it makes.
        """
        _walk.copy(self, source, target)

    def open(
        self,
        path: AnyPath,
        mode: str = "r",
        buffering: int = -1,
        encoding: Optional[str] = None,
        errors: Optional[str] = None,
        newline: Optional[str] = None,
    ) -> IO[Any]:
        """A file object, as of the builtin `open`; a text is UTF-8 where nothing else is given. Several calls, as each read is one.

        An open file is a path and a position: after the file has been moved or removed, using it raises `FileNotFoundError`.
        """
        _walk.check_mode(mode, buffering, encoding, errors, newline)
        at = _walk.text_of(path)
        if "b" in mode:
            return open_file(self, at, mode, buffering)  # type: ignore[return-value]
        binary: Any = open_file(self, at, mode, -1 if buffering == 1 else buffering)
        text = io.TextIOWrapper(binary, encoding or "utf-8", errors, newline, line_buffering=buffering == 1)
        text.mode = mode  # type: ignore[misc]
        return text

    def read_bytes(self, path: AnyPath) -> bytes:
        """The bytes of a file, by one `read`, and of more than `limits.read_bytes` by several.

        Raises what `read` does.
        """
        return self.read(path)

    def read_text(
        self, path: AnyPath, encoding: str = "utf-8", errors: str = "strict", newline: Optional[str] = None
    ) -> str:
        """The text of a file, read as by `read_bytes`; the ends of lines are as of `open`.

        Raises what `read` does, and `UnicodeDecodeError`.
        """
        return io.TextIOWrapper(io.BytesIO(self.read(path)), encoding, errors, newline).read()

    def write_bytes(self, path: AnyPath, data: Data) -> int:
        """Lets a file have these bytes and no others, and makes it where it is missing: several calls.

        Where it fails, the file is as it was.

        Raises `IsADirectoryError` if a directory is there, `FileNotFoundError` or `NotADirectoryError` if the path leads through what is
        missing or a file, and `OSError` with `EFBIG` or `ENOSPC`.
        """
        return _walk.write_bytes(self, path, bytes_of(data, "write_bytes"))

    def write_text(
        self, path: AnyPath, text: str, encoding: str = "utf-8", errors: str = "strict", newline: Optional[str] = None
    ) -> int:
        """Writes the bytes of a text, like `write_bytes`: several calls. It returns how many characters were written.

        Raises what `write_bytes` does, and `TypeError` if it is not a `str`.
        """
        if not isinstance(text, str):
            raise TypeError(f"write_text takes str, and this is {type(text).__name__}")
        made = io.BytesIO()
        with io.TextIOWrapper(made, encoding, errors, newline) as file:
            count = file.write(text)
            file.flush()
            self.write_bytes(path, made.getvalue())
        return count

    def path(self, *segments: StrPath) -> Path:
        """A path of this tree with the methods of `pathlib.Path`: the root, where none is given.

        Raises `TypeError` for what is no path.
        """
        return class_of(self)(*(segments or ("/",)))

    # ---- The journal

    @property
    def calls(self) -> int:
        """How many calls are in the journal: those since the tree was opened, handed it out, or forgot."""
        with self.lock:
            self._entries(2**63 - 1)
            count, size = self._room.entries.value, 3
            while (
                not (numbers := re.findall(r"(?m)^begin (\d+) ", self._entries(max(0, count - size)))) and size < count
            ):
                size *= 4
        return int(numbers[-1]) if numbers else 0

    def last_calls(self, count: int = 30) -> List[str]:
        """The last calls of the journal, each with its reply, as `mkdir /a: ok`; what is long is cut.

        Raises `ClosedError`, and `MemoryError`.
        """
        with self.lock:
            first = self.calls - count
            self._entries(2**63 - 1)
            lines = self._entries(max(0, self._room.entries.value - 6 * count)).splitlines()
        begun: Dict[str, str] = {}
        for word, number, *rest in (line.split(" ", 2) for line in lines):
            if word == "begin" and int(number) > first:
                begun[number] = _cut(rest[0].split(" ", 1)[1])
            elif word == "return" and number in begun:
                begun[number] += f": {_cut(rest[0])}"
        return list(begun.values())

    def _entries(self, first: int) -> str:
        """The lines of the journal from an entry on."""
        return told_text(
            self._library, self._room, self._library.journal, self._at, first, more=(self._room.at_entries,)
        )

    @property
    def calls_before(self) -> int:
        """How many calls there were before those of the journal: handed out by checkpoints, or forgotten."""
        return self._standing.before

    def keep(self, journal: Journal) -> None:
        """Says how many calls the journal keeps from now on.

        Raises `ClosedError`.
        """
        with self.lock:
            # The numbers of calls tell when some are forgotten, so the last one so far is looked up.
            self._standing.last = self.calls
            if status := self._library.keep(self._at, journal.most):
                raise error_of(self._library, status)
            of = library()
            self.keeps, self._library = journal, of if journal == ALL else Noting(of, self._standing)
            self._called()

    def forget(self) -> int:
        """Lets the journal begin again at the current tree, and returns how many calls are forgotten.

        Raises `UnderWayError` while a call is pending.
        """
        with self.lock:
            if status := self._library.forget(self._at, self._at_number):
                raise self._refusal(status)
            self._standing.begin_again(self._number.value)
            return self._number.value

    def journal(self) -> str:
        """The journal, which `atomfs.check` reads. Its first call is the one after `calls_before` others.

        Raises `ClosedError`, and `MemoryError`.
        """
        with self.lock:
            opening = told_text(self._library, self._room, self._library.opening, self._at)
            return self._named(opening + self._entries(0))

    @overload
    def draw(
        self, around: Optional[int] = None, *, last: Optional[int] = None, html: Literal[False] = False
    ) -> Picture:
        ...

    @overload
    def draw(self, around: None = None, *, last: Optional[int] = None, html: Literal[True]) -> Page:
        ...

    def draw(
        self, around: Optional[int] = None, *, last: Optional[int] = None, html: bool = False
    ) -> Union[Picture, Page]:
        """The picture of the journal so far, as `atomfs.draw` makes it; notebooks show one of the last 100 calls.

        `around` is the number of a call: then only this call is drawn, and those that overlap it. `last` is how many of the last calls are drawn at
        most; the calls before them are made again on another tree for that. A text of more than 16 MiB, with `Limits.V3` 1 GiB, is an `Error`. With
        `html` it is a page that plays these calls, for example `tree.draw(html=True).save("run.html")`.
        """
        text = self.journal()
        if last is not None:
            text = _last.of_last(Tree, text, self.limits, number_of(last, "number of calls"))
        if not html:
            return _tools.draw(text, around)
        if around is not None:
            raise ValueError("a page plays the whole run: `around` is for a picture")
        return _tools.draw(text, html=True)

    def _repr_svg_(self) -> Optional[str]:
        """The last calls, for notebooks: nothing where there are none, or too many, or where they can't be drawn."""
        try:
            return self.draw(last=_SHOWN).svg if 0 < self.calls <= _OF_CALLS else None
        except Error:
            return None

    def _named(self, journal: str) -> str:
        """A journal with a comment for each seat that has a name."""
        header, lines = journal.split("\n", 1)
        return "\n".join([header, *(f"# seat {number} {name}" for number, name in self._names.items()), lines])

    def check(self) -> str:
        """The verdict on the journal as it is now, without a text: `lawful`, or the first entry at fault.

        By the proof it is always `lawful`. What was forgotten, or handed out by a checkpoint, is not looked at.

        Raises `ClosedError`, and `MemoryError`.
        """
        place, kind = ctypes.c_uint64(), ctypes.c_uint8()
        with self.lock:
            if status := self._library.verdict(self._at, ctypes.addressof(place), ctypes.addressof(kind)):
                raise error_of(self._library, status)
        return f"fault {place.value} {Fault(kind.value).kind}" if kind.value else "lawful"

    def checkpoint(self) -> str:
        """Returns the journal, and lets it begin again at the current tree, which frees its memory.

        Raises `UnderWayError` while a call is pending.
        """
        with self.lock:
            room = self._room
            while status := self._library.checkpoint(self._at, room.at, room.size, room.at_count, self._at_number):
                if status != Status.TOO_SMALL:
                    raise self._refusal(status)
                room.make(room.count.value)
            self._standing.begin_again(self._number.value)
            return self._named(room.told().decode("ascii"))

    def tree(self) -> str:
        """The text of the tree: a line for each node.

        Raises `ClosedError`, and `MemoryError`.
        """
        with self.lock:
            return self._told_tree().decode("ascii")

    # ---- Schedules

    def seat(self, name: Optional[str] = None) -> Seat:
        """A new seat, on which calls are made step by step. Its name, as of a thread of a script, is in the journal, in a comment.

        Raises `ClosedError`, and `MemoryError`.
        """
        if name is not None and not re.fullmatch(NAME, name, re.A):
            raise ValueError(
                f"a name is a letter, then at most 15 of a to z, 0 to 9 and _, and not finish; this is {name!r}"
            )
        with self.lock:
            if name in self._names.values():
                raise ValueError(f"another seat has the name {name!r}")
            number = _seats.added(self._library, self._at)
            if name is not None:
                self._names[number] = name
        return Seat(self, number, name)

    def step_any(self) -> Optional[Tuple[int, Step]]:
        """Makes one step of some call that does not wait, and returns the number of its seat and what the step did.

        It returns `None` if no call is pending, and only then. So calling it in a loop completes every call.

        Raises `ClosedError`.
        """
        seat, did, about = ctypes.c_uint64(), ctypes.c_uint8(), ctypes.c_uint64()
        with self.lock:
            at = ctypes.addressof(seat), ctypes.addressof(did), ctypes.addressof(about)
            if status := self._library.step_any(self._at, *at):
                raise error_of(self._library, status)
        return (seat.value, Step(Did(did.value), about.value)) if did.value else None


def _cut(words: str) -> str:
    """Words of a call, of which few lines are shown."""
    return words if len(words) <= 100 else f"{words[:100]}.."


# In so many last entries the call is looked for that an error names.
_NEAR = 1_000
# The calls that change a tree, but for `write`, whose reply is another.
_CHANGES = (Call.MKDIR, Call.MKNOD, Call.UNLINK, Call.RMDIR, Call.RENAME, Call.EXCHANGE, Call.TRUNCATE)


class Seat:
    """A slot for one pending call. `begin` begins a call, `step` makes one step of it, `finish` makes the rest."""

    def __init__(self, tree: Tree, number: int, name: Optional[str] = None) -> None:
        self.tree, self.number, self.name = tree, number, name
        self._call: Optional[Call] = None
        self._call_number, self._begun_again = 0, 0
        self._paths: Tuple[AnyPath, ...] = ()

    def __repr__(self) -> str:
        name = f" {self.name!r}" if self.name is not None else ""
        return f"<atomfs.Seat {self.number}{name}: {self._words() if self._call is not None else 'no call yet'}>"

    def _words(self) -> str:
        """The call that was begun last, as the journal has it, without its bytes."""
        assert self._call is not None
        return _cut(" ".join([self._call.name.lower(), *(_walk.text_of(path) for path in self._paths)]))

    @property
    def begin(self) -> Begin:
        """Begins a call, as `seat.begin.rename("/a", "/b")`, and answers its number."""
        return Begin(self)

    def _began(self, call: Call, number: int, paths: Tuple[AnyPath, ...]) -> None:
        self._call, self._call_number, self._paths, self.tree._stepped = call, number, paths, True
        self._begun_again = self.tree._standing.begun_again

    def _begin(self, call: Call, *paths: AnyPath, offset: int = 0, size: int = 0, data: bytes = b"") -> int:
        tree = self.tree
        with tree.lock:
            other = paths[1] if paths[1:] else None
            try:
                number = tree._calls.begin(tree, self.number, call, paths[0], other, offset, size, data)
            except Error as error:
                if error.status == Status.SEAT_BUSY and self._call is not None:
                    error.args = (f"{error}: {self._words()}",)
                raise
            self._began(call, number, paths)
        return number

    def step(self) -> Step:
        """Makes one step of the call on the seat.

        Raises `ClosedError`.
        """
        tree = self.tree
        if tree._metadata is None:
            return tree._calls.step(tree, self.number)
        with tree.lock:
            made = tree._calls.step(tree, self.number)
            if made.did == Did.RETURN and self._call in _CHANGES:
                if not tree._library.reply_done(tree._at, self._call_number):
                    tree._metadata.did(self._call, *self._paths)
            return made

    def finish(self, wait: bool = False) -> Reply:
        """Makes the steps of the call up to its return, and answers its reply, or raises its error.

        Where it has to wait for a call of another seat it raises `WaitsError`; with `wait` it tries again until another
        thread has made the steps of that call.
        """
        while True:
            # The lock is held up to the reply, which a checkpoint of another thread would take away.
            with self.tree.lock:
                did = self.step().did
                if did in (Did.RETURN, Did.IDLE):
                    return self.reply()
            if did == Did.WAIT:
                if not wait:
                    words = f"{self.tree._library.words(Status.WAITS)}: {self._words()}"
                    raise WaitsError(words, self._call_number, self)
                time.sleep(0)

    def reply(self) -> Reply:
        """The reply of the last call that was begun on the seat, once it has returned, or its error raised."""
        with self.tree.lock:
            return self._reply()

    def _reply(self) -> Reply:
        """The same, where nothing else comes in between."""
        tree = self.tree
        if self._call is None or self._begun_again != tree._standing.begun_again:
            raise error_of(tree._library, Status.NO_REPLY)
        if self._call == Call.STAT:
            self._done(tree._library.reply_stat, tree._at_stat)
            return _stat_of(tree._stat)
        if self._call in (Call.READDIR, Call.LIST):
            return named(tree._told_names(self._call_number, self._paths), self._paths[0])  # type: ignore[return-value]
        if self._call == Call.READ:
            return self._told_bytes()
        if self._call == Call.WRITE:
            self._done(tree._library.reply_wrote, tree._at_wrote)
            return tree._wrote.value
        self._done(tree._library.reply_done)
        return None

    def _done(self, function: Any, *rest: Any) -> None:
        tree = self.tree
        status = function(tree._at, self._call_number, *rest)
        if status and status != Status.TOO_SMALL:
            raise error_at(tree, status, self._paths)

    def _told_bytes(self) -> bytes:
        tree, room = self.tree, self.tree._room
        self._done(tree._library.reply_bytes, room.at, room.size, room.at_count)
        if room.count.value > room.size:
            room.make(room.count.value)
            self._done(tree._library.reply_bytes, room.at, room.size, room.at_count)
        return room.told()


class Begin:
    """The begins of the twelve calls on a seat. Each returns the number of its call.

    Each raises `Error` with `SEAT_BUSY` if the seat has a pending call, `OSError` if an argument is not a path, and `MemoryError`. Errors of the
    call itself come with its reply.
    """

    def __init__(self, seat: Seat) -> None:
        self._seat = seat

    def mkdir(self, path: AnyPath) -> int:
        """Makes an empty directory."""
        return self._seat._begin(Call.MKDIR, path)

    def mknod(self, path: AnyPath) -> int:
        """Makes an empty file."""
        return self._seat._begin(Call.MKNOD, path)

    def unlink(self, path: AnyPath) -> int:
        """Removes the entry of a file."""
        return self._seat._begin(Call.UNLINK, path)

    def rmdir(self, path: AnyPath) -> int:
        """Removes the entry of an empty directory."""
        return self._seat._begin(Call.RMDIR, path)

    def rename(self, path: AnyPath, other: AnyPath) -> int:
        """Moves what is at `path` to `other`."""
        return self._seat._begin(Call.RENAME, path, other)

    def exchange(self, path: AnyPath, other: AnyPath) -> int:
        """Lets what is at two paths change places."""
        return self._seat._begin(Call.EXCHANGE, path, other)

    def stat(self, path: AnyPath) -> int:
        """Says what is at a path."""
        return self._seat._begin(Call.STAT, path)

    def readdir(self, path: AnyPath) -> int:
        """Returns the names of a directory."""
        return self._seat._begin(Call.READDIR, path)

    def list(self, path: AnyPath, after: AnyPath = "/", count: int = LISTED) -> int:
        """Returns names of a directory above the last one of `after`, at most `count`."""
        return self._seat._begin(Call.LIST, path, after, size=names_asked(count))

    def read(self, path: AnyPath, offset: int, count: int) -> int:
        """Reads at most `count` bytes from an offset on."""
        return self._seat._begin(Call.READ, path, offset=number_of(offset, "offset"), size=number_of(count, "count"))

    def write(self, path: AnyPath, offset: int, data: Data) -> int:
        """Writes bytes into a file at an offset."""
        return self._seat._begin(Call.WRITE, path, offset=number_of(offset, "offset"), data=bytes_of(data))

    def truncate(self, path: AnyPath, size: int) -> int:
        """Cuts a file to a size, or adds zeros up to it."""
        return self._seat._begin(Call.TRUNCATE, path, size=number_of(size, "size"))
