"""A tree as a file system of PyFilesystem2 (the package `fs`).

    from atomfs.fs import AtomFS

    with AtomFS() as files:
        files.makedirs("a/b")
        files.writetext("a/b/hello.txt", "hello")

`fs.open_fs("atomfs://")` opens the same. Names are UTF-8, by the limits of the tree: `AtomFS.getmeta("atomfs")` has them.
A tree keeps no times, owners and permissions, so `setinfo` changes nothing.
"""
from __future__ import annotations

import errno
from typing import (
    TYPE_CHECKING,
    Any,
    BinaryIO,
    Collection,
    ContextManager,
    Dict,
    Iterator,
    List,
    Mapping,
    Optional,
    Text,
    Tuple,
    Type,
)

from fs import errors
from fs.base import FS
from fs.enums import ResourceType
from fs.info import Info
from fs.mode import Mode
from fs.opener import Opener
from fs.opener.errors import OpenerError
from fs.path import basename

from . import Limits, Stat, Tree
from ._file import open_file
from ._journal import OF_FILE_SYSTEMS, Journal
from ._walk import GONE, joined

if TYPE_CHECKING:
    from fs.permissions import Permissions
    from fs.subfs import SubFS

_Kinds = Dict[int, Type[errors.FSError]]
_OF_ANY: _Kinds = {
    errno.ENOENT: errors.ResourceNotFound,
    errno.ENOTDIR: errors.ResourceNotFound,
    errno.ENOTEMPTY: errors.DirectoryNotEmpty,
    errno.EINVAL: errors.InvalidPath,
    errno.ENAMETOOLONG: errors.InvalidPath,
    errno.ENOSPC: errors.InsufficientStorage,
    errno.EFBIG: errors.InsufficientStorage,
}
_OF_FILES: _Kinds = {
    **_OF_ANY,
    errno.EISDIR: errors.FileExpected,
    errno.EPERM: errors.FileExpected,
    errno.EEXIST: errors.FileExists,
}
# A file is moved below a file: both paths are good, and the directory for the second is none.
_OF_MOVES: _Kinds = {**_OF_FILES, errno.EINVAL: errors.ResourceNotFound}
_OF_DIRECTORIES: _Kinds = {**_OF_ANY, errno.ENOTDIR: errors.DirectoryExpected, errno.EEXIST: errors.DirectoryExists}


class _Of(ContextManager[None]):
    """Within `with` PyFilesystem2's error is raised for that of a call."""

    def __init__(self, path: str, kinds: _Kinds, action: str) -> None:
        self._path, self._kinds, self._action = path, kinds, action

    def __enter__(self) -> None:
        pass

    def __exit__(self, kind: Any, error: Any, trace: Any) -> None:
        if isinstance(error, OSError):
            raise self._error(error) from error

    def _error(self, error: OSError) -> errors.FSError:
        kind, path = self._kinds.get(error.errno or 0), self._path
        if kind is None:
            return errors.OperationFailed(path=path, exc=error, msg=f"{self._action}: {error.strerror}")
        if kind is errors.InsufficientStorage:
            return errors.InsufficientStorage(path=path, exc=error, msg=f"path '{{path}}': {error.strerror}")
        return kind(path=path, exc=error)  # type: ignore[call-arg]


class AtomFS(FS):
    """A tree as a file system: one that is given, which stays open, or a new one, which is closed with it.

    A new tree has at most `limit` nodes, and all else by `limits`, and keeps the last 10,000 calls, or what `journal` says.
    """

    _meta = {
        "case_insensitive": False,
        "invalid_path_chars": "\0",
        "network": False,
        "read_only": False,
        "supports_rename": False,
        "thread_safe": True,
        "unicode_paths": True,
        "virtual": False,
    }

    def __init__(
        self,
        tree: Optional[Tree] = None,
        limit: Optional[int] = None,
        limits: Limits = Limits.V3,
        journal: Journal = OF_FILE_SYSTEMS,
    ) -> None:
        super().__init__()
        # Where no tree can be made there is none to close.
        self._owns = False
        #: The tree itself.
        self.atom_tree = Tree(limit, limits=limits, journal=journal) if tree is None else tree
        self._owns = tree is None
        # No path of so few characters is too long: each is of four bytes at most.
        self._short = min(self.atom_tree.limits.name_bytes // 4, self.atom_tree.limits.path_names)

    def __repr__(self) -> str:
        return f"AtomFS({self.atom_tree!r})"

    def __str__(self) -> str:
        return "<atomfs>"

    def close(self) -> None:
        """Closes it, and its tree if that is its own. It raises nothing."""
        if not self._closed and self._owns:
            self.atom_tree.close()
        super().close()

    def getmeta(self, namespace: Text = "standard") -> Mapping[Text, object]:
        """As of any file system, and in the namespace `atomfs` the limits of names, paths and files. It raises nothing."""
        if namespace == "atomfs":
            limits = self.atom_tree.limits
            return {"name_bytes": limits.name_bytes, "path_names": limits.path_names, "file_bytes": limits.file_bytes}
        return super().getmeta(namespace)

    def validatepath(self, path: Text) -> Text:
        """The path in its normal form, from the root on.

        Raises `InvalidPath` for a path or a name that is too long, `InvalidCharsInPath`, `IllegalBackReference`, and `FilesystemClosed`.
        """
        path = super().validatepath(path)
        if len(path) <= self._short:
            return path
        names, limits = path.split("/")[1:], self.atom_tree.limits
        if len(names) > limits.path_names:
            raise errors.InvalidPath(path, msg=f"path '{{path}}' has more than {limits.path_names:,} names")
        if any(len(name.encode("utf-8", "surrogateescape")) > limits.name_bytes for name in names):
            raise errors.InvalidPath(path, msg=f"path '{{path}}' has a name of more than {limits.name_bytes} bytes")
        return path

    @staticmethod
    def _info(name: str, stat: Stat, namespaces: Optional[Collection[Text]]) -> Info:
        raw: dict[str, dict[str, Any]] = {"basic": {"name": name, "is_dir": stat.is_dir}}
        if "details" in (namespaces or ()):
            kind = ResourceType.directory if stat.is_dir else ResourceType.file
            raw["details"] = {"type": int(kind), "size": 0 if stat.is_dir else stat.size, "_write": []}
        return Info(raw)

    def getinfo(self, path: Text, namespaces: Optional[Collection[Text]] = None) -> Info:
        """The name and the kind of a node, and in the namespace `details` its size. Raises `ResourceNotFound`."""
        at = self.validatepath(path)
        with _Of(path, _OF_ANY, "getinfo"):
            return self._info(basename(at), self.atom_tree.stat(at), namespaces)

    def setinfo(self, path: Text, info: Mapping[Text, Mapping[Text, object]]) -> None:
        """Changes nothing, since a tree keeps nothing that could be set, and looks whether there is such a node.

        Raises `ResourceNotFound` if there is none.
        """
        self.getinfo(path)

    def listdir(self, path: Text) -> List[Text]:
        """All names of a directory, in byte order. Raises `ResourceNotFound`, and `DirectoryExpected` if a file is there."""
        at = self.validatepath(path)
        with _Of(path, _OF_DIRECTORIES, "listdir"):
            return self.atom_tree.listdir(at)

    def scandir(
        self, path: Text, namespaces: Optional[Collection[Text]] = None, page: Optional[Tuple[int, int]] = None
    ) -> Iterator[Info]:
        """The entries in byte order of their names. One that is removed meanwhile is left out. Raises what `listdir` does."""
        at = self.validatepath(path)
        names = self.listdir(path)
        start, end = page or (None, None)
        for name in names[start:end]:
            try:
                stat = self.atom_tree.stat(joined(at, name))
            except GONE:
                continue
            yield self._info(name, stat, namespaces)

    def makedir(self, path: Text, permissions: Optional[Permissions] = None, recreate: bool = False) -> SubFS[FS]:
        """Makes a directory, which may be there with `recreate`, and opens it as a file system.

        Raises `DirectoryExists`, `ResourceNotFound`, `DirectoryExpected`, and `InsufficientStorage` if the tree is full.
        """
        at = self.validatepath(path)
        try:
            with _Of(path, _OF_DIRECTORIES, "makedir"):
                self.atom_tree.mkdir(at)
        except errors.DirectoryExists:
            if not recreate:
                raise
        return self.opendir(path)

    def openbin(self, path: Text, mode: Text = "r", buffering: int = -1, **options: Any) -> BinaryIO:
        """A file object of bytes.

        Raises `ResourceNotFound`, `FileExpected` if a directory is there, `FileExists` with mode `x`, `InsufficientStorage`, and
        `ValueError` for a mode that is none.
        """
        Mode(mode).validate_bin()
        at = self.validatepath(path)
        with _Of(path, _OF_FILES, "openbin"):
            return open_file(self.atom_tree, at, mode, buffering)  # type: ignore[return-value]

    def remove(self, path: Text) -> None:
        """Removes a file. Raises `ResourceNotFound`, and `FileExpected` if a directory is there."""
        at = self.validatepath(path)
        with _Of(path, _OF_FILES, "remove"):
            self.atom_tree.unlink(at)

    def removedir(self, path: Text) -> None:
        """Removes an empty directory. Raises `RemoveRootError`, `ResourceNotFound`, `DirectoryExpected`, and `DirectoryNotEmpty`."""
        at = self.validatepath(path)
        if at == "/":
            raise errors.RemoveRootError(path=path)
        with _Of(path, _OF_DIRECTORIES, "removedir"):
            self.atom_tree.rmdir(at)

    def move(self, src_path: Text, dst_path: Text, overwrite: bool = False, preserve_time: bool = False) -> None:
        """Moves a file by one `rename`, so that no other call sees it twice or not at all.

        Raises `DestinationExists` without `overwrite`, `FileExpected` if one of both is a directory, and `ResourceNotFound`.
        """
        source, goal = self.validatepath(src_path), self.validatepath(dst_path)
        # Not the lock of the file system: its owner may wait for threads that write to files.
        with self.atom_tree.lock:
            if not overwrite and self.exists(dst_path):
                raise errors.DestinationExists(dst_path)
            if self.getinfo(src_path).is_dir:
                raise errors.FileExpected(src_path)
            with _Of(dst_path, _OF_MOVES, "move"):
                self.atom_tree.rename(source, goal)


class AtomOpener(Opener):
    """Opens `atomfs://`: a new tree. A URL that asks for more than that is refused."""

    protocols = ["atomfs"]

    def open_fs(self, fs_url: Text, parse_result: Any, writeable: bool, create: bool, cwd: Text) -> AtomFS:
        """A new tree as a file system. Raises `OpenerError` if the URL asks for more."""
        asked = parse_result.params or parse_result.username or parse_result.password or parse_result.path
        if asked or parse_result.resource.strip("/"):
            raise OpenerError(
                "atomfs:// opens a new tree, and takes no path, parameters, user and password: AtomFS() takes a limit"
            )
        return AtomFS()
