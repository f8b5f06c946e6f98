"""Trees that come from a directory, an archive or a dictionary, and go there; and a tree as it was at a moment."""
from __future__ import annotations

import contextlib
import ctypes
import errno
import os
import re
import stat
import zipfile
from typing import (
    IO,
    TYPE_CHECKING,
    AbstractSet,
    Any,
    Callable,
    Dict,
    Iterator,
    List,
    Mapping,
    Optional,
    Tuple,
    Type,
    TypeVar,
    Union,
)

from . import _rows
from ._errors import StrPath, error_at
from ._journal import ALL, Journal
from ._library import Limits, Status, library
from ._walk import parent_of

if TYPE_CHECKING:
    from ._metadata import Metadata
    from ._tree import Tree

_Tree = TypeVar("_Tree", bound="Tree")
OnError = Union[str, Callable[[OSError], object]]
# How many bytes are read of a disk at once.
_PIECE = 1_048_577
# The bytes of a file, or none of a directory.
Node = Optional[bytes]


class Snapshot:
    """A tree as it was at a moment, by its text: two bytes are kept for each byte of a file. It is never changed, and pickled.

    Two are equal if their limits and texts are. `metadata` is what `atomfs.patch` kept besides, as permissions and times.
    """

    def __init__(self, limits: Limits, text: str, metadata: Optional[Metadata] = None) -> None:
        #: The limits of its names and files.
        self.limits = limits
        #: The text of the tree.
        self.text = text
        self._metadata = metadata

    def __setstate__(self, state: Dict[str, Any]) -> None:
        # One that was pickled by an older package has no metadata.
        self.__dict__.update({"_metadata": None, **state})

    def __repr__(self) -> str:
        return f"<atomfs.Snapshot of {len(self):,} nodes, {self.limits}>"

    def __len__(self) -> int:
        """How many nodes there are, the root included."""
        return self.text.count("\n") - 1

    def __eq__(self, other: object) -> bool:
        return isinstance(other, Snapshot) and (self.limits, self.text) == (other.limits, other.text)

    def __hash__(self) -> int:
        return hash((self.limits, self.text))

    def to_dict(self) -> Dict[str, Node]:
        """As `Tree.to_dict`, but it raises nothing."""
        return dictionary(self.text)


def dictionary(text: str) -> Dict[str, Node]:
    """The bytes of each file by its path, and none by that of each empty directory."""
    rows = _rows.rows_of(text)
    full = {path.rpartition(b"/")[0] or b"/" for path, _ in rows if path != b"/"}
    return {_rows.told(path): data for path, data in rows if data is not None or (path not in full and path != b"/")}


def diff(old: Union[Tree, Snapshot], new: Union[Tree, Snapshot]) -> List[Tuple[str, str]]:
    """What became of each path from one tree to another, in byte order of paths: `added`, `removed` or `changed`.

    Raises `ClosedError` if a tree is closed, and `MemoryError`.
    """
    of_old, of_new = (dict(_rows.rows_of(one.text if isinstance(one, Snapshot) else one.tree())) for one in (old, new))
    return _rows.differences(of_old, of_new)


def restore(tree: Tree, snapshot: Snapshot) -> None:
    """Lets a tree be what it was, by the calls that this takes."""
    if snapshot.limits is not tree.limits:
        raise ValueError(f"the snapshot is by {snapshot.limits}, and the tree by {tree.limits}")
    if len(snapshot) > tree.limit:
        raise error_at(tree, Status.FULL, ("/",))
    with tree.lock, tree._without_overlay():
        now = tree.tree()
        tree._none_under_way()
        if now != snapshot.text:
            _change(tree, now.splitlines(), snapshot.text.splitlines())
        _take_metadata(tree, snapshot._metadata)


def _take_metadata(tree: Tree, metadata: Optional[Metadata]) -> None:
    """Lets the nodes of a tree have what a snapshot or another tree has kept of them."""
    if metadata is not None:
        was, kept = tree._metadata, metadata.copied()
        tree._keep_beside(kept)
        if was is not None:
            kept.begin(was.clock, was.mask)


def _change(tree: Tree, now: List[str], wanted: List[str]) -> None:
    """Makes the calls by which the lines of a tree become others: what goes first, from below, and then what comes."""
    there, due = set(now), set(wanted)
    gone = dict(_rows.row_of(line) for line in now if line not in due)
    come = [_rows.row_of(line) for line in wanted if line not in there]
    changed = {path for path, data in come if data is not None and gone.get(path) is not None}
    for path, data in reversed(list(gone.items())):
        if path not in changed:
            (tree.rmdir if data is None else tree.unlink)(path)
    for path, data in come:
        if data is None:
            tree.mkdir(path)
            continue
        if path not in changed:
            tree.mknod(path)
        else:
            tree.truncate(path, len(data))
        if data:
            tree.write(path, 0, data)


@contextlib.contextmanager
def into(tree: _Tree) -> Iterator[_Tree]:
    """A new tree that is filled: its journal begins behind that. Where it cannot be filled, it is closed."""
    try:
        yield tree
        if tree.calls:
            tree.checkpoint()
    except BaseException:
        tree.close()
        raise


class Now:
    """A tree as it is when a copy is made of it, which takes no text. Pickled it is a snapshot."""

    def __init__(self, tree: Tree) -> None:
        self.tree, self.limits = tree, tree.limits

    def __deepcopy__(self, memo: object) -> Now:
        return self

    @property
    def _metadata(self) -> Optional[Metadata]:
        return self.tree._metadata

    def __reduce__(self) -> Tuple[Type[Snapshot], Tuple[Limits, str, Optional[Metadata]]]:
        return Snapshot, (self.limits, self.tree.tree(), self._metadata)


def of_snapshot(kind: Type[_Tree], limit: Optional[int], start: Union[Snapshot, Now], journal: Journal = ALL) -> _Tree:
    """A new tree of this kind that is as the snapshot, or as another tree is now, and keeps as many calls as it is told."""
    with into(kind(limit, limits=start.limits, journal=journal)) as tree:
        if not _begun(tree, start):
            restore(tree, _formed(start if isinstance(start, Snapshot) else start.tree.snapshot()))
        _take_metadata(tree, start._metadata)
    return tree


def _begun(tree: Tree, start: Union[Snapshot, Now]) -> bool:
    """Whether a tree that is as it was made begins there now, by one call.

    Else calls go on: a subclass has made some, a call is under way on the other tree, or the text is none that the library reads, of
    which they tell why.
    """
    if start.limits is not tree.limits or not tree._is_new():
        return False
    status = _begun_at(tree, start.tree) if isinstance(start, Now) else _begun_from(tree, start.text)
    if status and status != Status.UNDER_WAY and status < Status.BAD_HEADER:
        raise error_at(tree, status, ("/",))
    return not status


def _begun_at(tree: Tree, other: Tree) -> int:
    number = ctypes.c_uint64()
    with other.lock:
        return tree._opened_again(lambda at: library().open_at(at, tree.limit, other._at, ctypes.addressof(number)))


def _begun_from(tree: Tree, text: str) -> int:
    if not _is_told(text):
        return Status.BAD_START
    line, given = ctypes.c_size_t(), text.encode("ascii")
    words = given, len(given), ctypes.addressof(line)
    return tree._opened_again(lambda at: library().open_from(at, tree.limit, tree.limits.value, *words))


def _is_told(text: str) -> bool:
    """Whether a text may be one that a tree tells: the library reads journals, comments, empty lines and a line without its end too."""
    return (
        text.isascii()
        and text.startswith("tree\n")
        and text.endswith("\n")
        and "\n\n" not in text
        and "\n#" not in text
    )


def _formed(snapshot: Snapshot) -> Snapshot:
    """The snapshot, once each line of its text has its form."""
    lines = snapshot.text.splitlines(keepends=True)
    for number, line in enumerate(lines, 1):
        due = {1: "tree\\n", 2: "dir /\\n"}.get(number, "(dir /[!-~]+|file /[!-~]+ (-|(?:[0-9a-f]{2})+))\\n")
        if not re.fullmatch(due, line):
            raise ValueError(f"line {number} is none of the text of a tree")
    if len(lines) < 2:
        raise ValueError(f"line {len(lines) + 1} of the text of a tree is missing")
    return snapshot


def put(tree: Tree, path: str, data: Node) -> None:
    """Makes a file or a directory, with the directories above it."""
    if data is None:
        tree.makedirs(path, exist_ok=True)
        return
    try:
        tree.write_bytes(path, data)
    except FileNotFoundError:
        tree.makedirs(parent_of(path), exist_ok=True)
        tree.write_bytes(path, data)


def from_dict(tree: Tree, files: Mapping[str, Any], above: str = "") -> None:
    """Makes what a dictionary has: by paths bytes, texts, none for a directory, or the dictionary of what is in it."""
    for name, value in files.items():
        if not isinstance(name, str):
            raise TypeError(f"a path is str, and this is {type(name).__name__}")
        path = f"{above}/{name.strip('/')}"
        if value is None or isinstance(value, Mapping):
            put(tree, path, None)
            from_dict(tree, value or {}, path)
        else:
            put(tree, path, value.encode() if isinstance(value, str) else memoryview(value).tobytes())


def from_directory(tree: Tree, top: StrPath, on_error: OnError, left_out: AbstractSet[str] = frozenset()) -> None:
    """Makes what is below a directory of the disk, but for what has one of the names that are left out."""
    if isinstance(on_error, str) and on_error not in ("raise", "skip"):
        raise ValueError(f"on_error is raise, skip or a function, and this is {on_error!r}")
    waiting = [(os.fsencode(top), b"")]
    while waiting:
        folder, above = waiting.pop()
        found: List[os.DirEntry[bytes]] = []
        # The folder that is asked for is there, or nothing is.
        with _told(on_error if above else "raise", folder), os.scandir(folder) as entries:
            found = sorted(entries, key=lambda entry: entry.name)
        for entry in (entry for entry in found if os.fsdecode(entry.name) not in left_out):
            with _told(on_error, entry.path):
                waiting += _put_entry(tree, above + b"/" + entry.name, entry)


def _put_entry(tree: Tree, path: bytes, entry: os.DirEntry[bytes]) -> List[Tuple[bytes, bytes]]:
    """Makes what an entry of the disk is. Of a directory it answers where it stands on the disk and in the tree."""
    if entry.is_dir(follow_symlinks=False):
        tree.mkdir(path)
        return [(entry.path, path)]
    tree.write_bytes(path, _bytes_of(tree, entry))
    return []


@contextlib.contextmanager
def _told(on_error: OnError, path: bytes) -> Iterator[None]:
    """Raises an error, leaves it, or tells it, with the path on the disk."""
    try:
        yield
    except OSError as error:
        error.filename = os.fsdecode(path)
        if on_error == "raise":
            if error.errno != errno.ENOSPC:
                error.strerror = f'{error.strerror} (on_error="skip" leaves it out)'
            raise
        if callable(on_error):
            on_error(error)


def _bytes_of(tree: Tree, entry: os.DirEntry[bytes]) -> bytes:
    """The bytes of a file on the disk, at most one more than a file of the tree may have."""
    if not stat.S_ISREG(entry.stat().st_mode):
        raise OSError(errno.ENOTSUP, "A tree has files and directories, and this is none of both", entry.path)
    with open(entry.path, "rb") as file:
        return _bytes_up_to(file, tree.limits.file_bytes + 1)


def _bytes_up_to(file: IO[bytes], most: int) -> bytes:
    """The bytes of a file, at most so many: in pieces, since room for all that are asked for is taken at once."""
    pieces = []
    while most and (piece := file.read(min(most, _PIECE))):
        pieces.append(piece)
        most -= len(piece)
    return b"".join(pieces)


def to_directory(tree: Tree, top: StrPath, exist_ok: bool, above: str = "") -> None:
    """Makes what is below a path of the tree below a directory of the disk, with the permissions, times and links that are kept of it."""
    with tree.lock:
        rows, below, metadata = _rows.rows_of(tree.tree()), os.fsencode(top), tree._metadata and tree._metadata.copied()
    os.makedirs(below, exist_ok=exist_ok)
    start = os.fsencode(above) + b"/"
    rows = [(path[len(start) - 1 :], data) for path, data in rows[1:] if path.startswith(start)]
    known = {path: metadata.found(above + _rows.told(path)) for path, _ in rows} if metadata else {}
    for path, data in rows:
        inode = known.get(path)
        if data is None:
            os.makedirs(below + path, exist_ok=exist_ok)
        elif inode is not None and inode.target is not None:
            os.symlink(os.fsencode(inode.target), below + path)
        elif inode is not None and inode.is_pipe:
            os.mkfifo(below + path)
        else:
            with open(below + path, "wb" if exist_ok else "xb") as file:
                file.write(data)
    for path, inode in reversed(list(known.items())):
        if inode is not None and inode.target is None:
            os.utime(below + path, ns=(inode.accessed, inode.modified))
            os.chmod(below + path, stat.S_IMODE(inode.mode))


def from_zip(tree: Tree, file: Union[StrPath, IO[bytes]]) -> None:
    """Makes what a zip has."""
    with zipfile.ZipFile(file) as archive:
        for info in archive.infolist():
            put(tree, "/" + info.filename.strip("/"), None if info.is_dir() else _bytes_in(archive, info, tree.limits))


def _bytes_in(archive: zipfile.ZipFile, info: zipfile.ZipInfo, limits: Limits) -> bytes:
    """The bytes of a file in a zip, at most one more than a file of these limits may have."""
    with archive.open(info) as member:
        return _bytes_up_to(member, limits.file_bytes + 1)


def to_zip(tree: Tree, file: Union[StrPath, IO[bytes]]) -> None:
    """Writes the tree as a zip, in which all times are the first one that a zip has."""
    # A name that is no UTF-8 is refused before anything is written.
    nodes = [(path.decode()[1:], data) for path, data in _rows.rows_of(tree.tree())[1:]]
    with zipfile.ZipFile(file, "w", zipfile.ZIP_DEFLATED) as archive:
        for path, data in nodes:
            info = zipfile.ZipInfo(path if data is not None else f"{path}/")
            info.compress_type = zipfile.ZIP_DEFLATED
            info.external_attr = (
                (stat.S_IFREG | 0o644) << 16 if data is not None else (stat.S_IFDIR | 0o755) << 16 | 0x10
            )
            archive.writestr(info, data or b"")
