"""A tree as a file system of fsspec, for `atomfs://`.

    import fsspec

    with fsspec.open("atomfs://hello.txt", "wt") as file:
        file.write("hello")

All that is opened so, as `fsspec.filesystem("atomfs")` is, is one tree of the process. `AtomFileSystem(tree=Tree())` is one of
your own.
"""
from __future__ import annotations

import errno
import io
import os
import posixpath
import secrets
import threading
from glob import has_magic
from typing import Any, Iterator, Optional

from fsspec import AbstractFileSystem  # type: ignore[import]
from fsspec.implementations.local import LocalFileSystem  # type: ignore[import]
from fsspec.utils import stringify_path  # type: ignore[import]

from . import Tree
from ._file import AnyFile, open_file
from ._journal import OF_FILE_SYSTEMS
from ._library import Call
from ._metadata import metadata_of
from ._walk import GONE, check_directory, joined


class _Draft:
    """A file of a transaction: it is written beside its path, and `commit` puts it there by one `rename`."""

    def __init__(self, tree: Tree, path: str, mode: str, buffering: int) -> None:
        self._tree, self._path = tree, path
        self._draft = f"{posixpath.dirname(path).rstrip('/')}/.atomfs-{secrets.token_hex(6)}"
        with tree.lock:
            self._copy_draft(mode)
        self._file = open_file(tree, self._draft, mode.replace("x", "r+").replace("w", "r+"), buffering)

    def _copy_draft(self, mode: str) -> None:
        """The draft, which begins as the mode asks for: with the bytes of the file, or with none."""
        kept = b""
        if "r" in mode or self._tree.exists(self._path):
            # This refuses a directory, too.
            kept = self._tree.read(self._path)
            if "x" in mode:
                raise FileExistsError(errno.EEXIST, os.strerror(errno.EEXIST), self._path)
        if "w" in mode:
            kept = b""
        self._tree.write_bytes(self._draft, kept)

    def __getattr__(self, name: str) -> Any:
        return getattr(self._file, name)

    def __iter__(self) -> Iterator[bytes]:
        return iter(self._file)

    def __enter__(self) -> _Draft:
        return self

    def __exit__(self, *error: object) -> None:
        self._file.close()

    def commit(self) -> None:
        """Puts the file at its path."""
        self._file.close()
        self._tree.rename(self._draft, self._path)

    def discard(self) -> None:
        """Forgets what was written."""
        self._file.close()
        self._tree.unlink(self._draft)


class AtomFileSystem(AbstractFileSystem):  # type: ignore[misc]
    """A tree as a file system: that of the process, or one that is given."""

    protocol = "atomfs"
    root_marker = "/"
    cachable = False

    _shared: Optional[Tree] = None
    _making = threading.Lock()

    def __init__(self, tree: Optional[Tree] = None, **options: Any) -> None:
        super().__init__(**options)
        #: The tree itself.
        self.atom_tree = self._of_the_process() if tree is None else tree
        # From now on times and so on are kept beside the tree.
        metadata_of(self.atom_tree)

    @classmethod
    def _of_the_process(cls) -> Tree:
        with AtomFileSystem._making:
            if AtomFileSystem._shared is None or AtomFileSystem._shared.closed:
                AtomFileSystem._shared = Tree(journal=OF_FILE_SYSTEMS)
            return AtomFileSystem._shared

    @classmethod
    def _strip_protocol(cls, path: Any) -> Any:
        if isinstance(path, list):
            return [cls._strip_protocol(one) for one in path]
        path = stringify_path(path)
        for start in (f"{cls.protocol}://", f"{cls.protocol}::"):
            path = path.removeprefix(start)
        return posixpath.normpath("/" + path.lstrip("/"))

    def _entry(self, path: str) -> dict[str, Any]:
        with self.atom_tree.lock:
            stat = self.atom_tree.stat(path)
            inode = metadata_of(self.atom_tree).of(path, stat.is_dir)
        kind = "directory" if stat.is_dir else "file"
        kept = {"mode": inode.mode, "uid": inode.uid, "gid": inode.gid, "ino": inode.number, "nlink": inode.links}
        times = {"created": inode.changed / 1e9, "mtime": inode.modified / 1e9}
        return {"name": path, "size": 0 if stat.is_dir else stat.size, "type": kind, **kept, **times}

    def created(self, path: str) -> Any:
        """When the node was made or changed last otherwise than in its bytes, as of `LocalFileSystem`: its `st_ctime`.

        Raises `FileNotFoundError`.
        """
        return LocalFileSystem.created(self, path)

    def modified(self, path: str) -> Any:
        """When the bytes of a file, or the entries of a directory, changed last. Raises `FileNotFoundError`."""
        return LocalFileSystem.modified(self, path)

    def info(self, path: str, **options: Any) -> dict[str, Any]:
        """The kind and the size of a node, and its permissions, owners and times. Raises `FileNotFoundError`."""
        return self._entry(self._strip_protocol(path))

    def ls(self, path: str, detail: bool = True, **options: Any) -> list[Any]:
        """The entries of a directory in byte order of their names, or a file itself. Raises `FileNotFoundError`."""
        path = self._strip_protocol(path)
        try:
            names: list[Any] = [joined(path, name) for name in self.atom_tree.listdir(path)]
        except NotADirectoryError:
            self.atom_tree.read(path, 0, 0)
            names = [path]
        return self._entries(names) if detail else names

    def _entries(self, names: list[str]) -> list[dict[str, Any]]:
        """What stands at paths, without what was removed meanwhile."""
        entries = []
        for name in names:
            try:
                entries.append(self._entry(name))
            except GONE:
                continue
        return entries

    def mkdir(self, path: str, create_parents: bool = True, **options: Any) -> None:
        """Makes a directory, and those above it that are missing unless `create_parents` is false.

        Raises `FileExistsError` if something is there, and what else `Tree.mkdir` raises.
        """
        path = self._strip_protocol(path)
        if create_parents and path != "/":
            self.makedirs(self._parent(path), exist_ok=True)
        self.atom_tree.mkdir(path)

    def makedirs(self, path: str, exist_ok: bool = False) -> None:
        """Makes a directory and those above it that are missing.

        Raises what `Tree.makedirs` does, and with `exist_ok` `NotADirectoryError` if a file is there.
        """
        path = self._strip_protocol(path)
        try:
            self.atom_tree.makedirs(path, exist_ok)
        except FileExistsError:
            if exist_ok:
                # A directory may stand there, and a file may not.
                check_directory(self.atom_tree, path)
            raise

    def rmdir(self, path: str) -> None:
        """Removes an empty directory. Raises what `Tree.rmdir` does."""
        self.atom_tree.rmdir(self._strip_protocol(path))

    def touch(self, path: str, truncate: bool = True, **options: Any) -> None:
        """Makes an empty file, or empties one that is there; without `truncate` only its time changes.

        Raises `IsADirectoryError` if a directory is there, and what `Tree.mknod` raises.
        """
        path = self._strip_protocol(path)
        with self.atom_tree.lock:
            try:
                self.atom_tree.mknod(path)
            except FileExistsError:
                if truncate:
                    self.atom_tree.truncate(path, 0)
                else:
                    self.atom_tree.read(path, 0, 0)
                    metadata_of(self.atom_tree).did(Call.TRUNCATE, path)

    def _rm(self, path: str) -> None:
        self._unlink(self._strip_protocol(path))

    def _unlink(self, path: str) -> None:
        try:
            self.atom_tree.unlink(path)
        except PermissionError:
            raise IsADirectoryError(errno.EISDIR, os.strerror(errno.EISDIR), path) from None

    def rm(self, path: Any, recursive: bool = False, maxdepth: Optional[int] = None) -> None:
        """Removes files, and directories with all below them if it is recursive.

        Raises `FileNotFoundError`, and `IsADirectoryError` for a directory if it is not recursive.
        """
        for one in reversed(self.expand_path(path, recursive=recursive, maxdepth=maxdepth)):
            if recursive and one == "/":
                continue
            if recursive and self.atom_tree.stat(one).is_dir:
                self.atom_tree.rmdir(one)
            else:
                self._unlink(one)

    def cp_file(self, path1: str, path2: str, **options: Any) -> None:
        """Copies a file, or makes a directory as another one. Raises what `Tree.copy` does."""
        source, goal = self._strip_protocol(path1), self._strip_protocol(path2)
        if self.atom_tree.stat(source).is_dir:
            self.makedirs(goal, exist_ok=True)
            return
        with self.atom_tree.lock:
            self.atom_tree.write_bytes(goal, self.atom_tree.read(source))

    def mv(
        self, path1: Any, path2: Any, recursive: bool = False, maxdepth: Optional[int] = None, **options: Any
    ) -> None:
        """Moves one file or directory by one `rename`; what a pattern or a list names, by copies. Raises what `Tree.rename` does."""
        path1, path2 = stringify_path(path1), stringify_path(path2)
        if not isinstance(path1, str) or has_magic(path1):
            super().mv(path1, path2, recursive=recursive, maxdepth=maxdepth, **options)
            return
        source, goal = self._strip_protocol(path1), self._strip_protocol(path2)
        if path2.endswith("/"):
            goal = posixpath.join(goal, posixpath.basename(source))
        self.atom_tree.rename(source, goal)

    def _open(
        self,
        path: str,
        mode: str = "rb",
        block_size: Optional[int] = None,
        autocommit: bool = True,
        cache_options: Any = None,
        **options: Any,
    ) -> AnyFile | _Draft:
        buffering = -1 if block_size is None else block_size
        if autocommit or ("r" in mode and "+" not in mode):
            return open_file(self.atom_tree, path, mode, buffering)
        draft = _Draft(self.atom_tree, path, mode, buffering)
        if "r" in mode and self._intrans:
            # fsspec takes it for a file that is only read, and would neither put it at its path nor forget it.
            self.transaction.files.append(draft)
        return draft

    def open(self, path: str, mode: str = "rb", *given: Any, **options: Any) -> io.IOBase:
        """A file object, of bytes or of a text by its mode.

        Raises `FileNotFoundError`, `IsADirectoryError`, `FileExistsError` with mode `x`, and `ValueError` for a mode that is none.
        """
        file: io.IOBase = super().open(path, mode, *given, **options)
        return file
