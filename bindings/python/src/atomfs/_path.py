"""Paths of a tree with the methods of `pathlib.Path`."""
from __future__ import annotations

import os
import pathlib
import sys
import weakref
from typing import IO, TYPE_CHECKING, Any, Callable, Dict, Iterator, List, NoReturn, Optional, Tuple, Type, TypeVar

from . import _walk
from ._errors import StrPath

if TYPE_CHECKING:
    from ._tree import Stat, Tree
    from ._values import Data

_Self = TypeVar("_Self", bound="Path")


class Path(pathlib.PurePosixPath):
    """A path of a tree: `Path("/a", tree=tree)`, or `tree.path("/a")`. What is made of it is a path of the same tree.

    It has the methods of `pathlib.Path`. Those that speak of links, owners, permissions, times, and of a working or a home
    directory, raise `NotImplementedError`: a tree has none of these. A path that does not begin with a slash is refused by the
    call that is made with it.
    """

    #: The tree.
    tree: Tree

    def __new__(cls: Type[_Self], *segments: Any, tree: Optional[Tree] = None) -> _Self:
        of = cls if tree is None else class_of(tree)
        if not hasattr(of, "tree"):
            raise TypeError("a Path is one of a tree: Path('/a', tree=tree)")
        return super().__new__(of, *segments)  # type: ignore[return-value]

    if sys.version_info >= (3, 12):

        def __init__(self, *segments: Any, tree: Optional[Tree] = None) -> None:
            super().__init__(*segments)

    def __reduce__(self) -> Any:
        return of_tree, (self.tree, str(self))

    def __repr__(self) -> str:
        return f"atomfs.Path({str(self)!r})"

    def _of(self: _Self, path: str) -> _Self:
        return self.__class__(path)

    # ---- What stands there

    def stat(self, *, follow_symlinks: bool = True) -> Stat:
        """What is there. Raises `FileNotFoundError`."""
        return self.tree.stat(self)

    lstat = stat

    def exists(self, *, follow_symlinks: bool = True) -> bool:
        """Whether something is there. Raises `OSError` for what is no path, and for nothing else."""
        return self.tree.exists(self)

    def is_dir(self, *, follow_symlinks: bool = True) -> bool:
        """Whether a directory is there. Raises as `exists`."""
        return self.tree.is_dir(self)

    def is_file(self, *, follow_symlinks: bool = True) -> bool:
        """Whether a file is there. Raises as `exists`."""
        return self.tree.is_file(self)

    def is_mount(self) -> bool:
        """Whether it is the root. It raises nothing."""
        return _walk.plain(self) == "/"

    def _never(self) -> bool:
        """It is none, whatever is there: a tree has files and directories. It raises nothing."""
        return False

    is_symlink = is_junction = is_socket = is_fifo = is_block_device = is_char_device = _never

    def samefile(self, other: Any) -> bool:
        """Whether both are one path of one tree, at which something is: a node has one path.

        Raises `FileNotFoundError` if nothing is at one of them.
        """
        self.stat()
        same = (
            _walk.plain(self._of(os.fspath(other))) == _walk.plain(self)
            and getattr(other, "tree", self.tree) is self.tree
        )
        if not same:
            self.tree.stat(other)
        return same

    # ---- Directories

    def iterdir(self: _Self) -> Iterator[_Self]:
        """The entries of a directory in byte order of their names, by the calls of `Tree.listdir`.

        Raises `FileNotFoundError` if nothing is there, and `NotADirectoryError` if a file is.
        """
        names = self.tree.listdir(str(self))
        return iter([self._of(_walk.joined(str(self), name)) for name in names])

    def glob(self: _Self, pattern: StrPath, **options: Any) -> Iterator[_Self]:
        """What a pattern matches below it, as `Tree.glob`: several calls.

        Raises `ValueError` for an empty pattern, and `NotImplementedError` for one that begins with a slash.
        """
        if not os.fspath(pattern):
            raise ValueError("Unacceptable pattern: ''")
        return self._globbed("", pattern)

    def rglob(self: _Self, pattern: StrPath, **options: Any) -> Iterator[_Self]:
        """As `glob` of a pattern with `**/` before it: several calls.

        Raises `NotImplementedError` for a pattern that begins with a slash.
        """
        return self._globbed("**/", pattern)

    def _globbed(self: _Self, before: str, pattern: StrPath) -> Iterator[_Self]:
        if os.fspath(pattern).startswith("/"):
            raise NotImplementedError("Non-relative patterns are unsupported")
        return iter([self._of(path) for path in _walk.glob(self.tree, before + os.fspath(pattern), str(self))])

    def walk(
        self: _Self,
        top_down: bool = True,
        on_error: Optional[Callable[[OSError], object]] = None,
        follow_symlinks: bool = False,
    ) -> Iterator[Tuple[_Self, List[str], List[str]]]:
        """Each directory from here down, with the names of the directories and of the files in it: several calls.

        Errors go to `on_error`, and otherwise nowhere.
        """
        for at, directories, files in self.tree.walk(self, top_down, on_error):
            yield self._of(at), directories, files

    def mkdir(self, mode: int = 0o777, parents: bool = False, exist_ok: bool = False) -> None:
        """Makes an empty directory, with `parents` those above it that are missing: then it is several calls.

        Raises `FileExistsError` if something is there, but for a directory with `exist_ok`, `FileNotFoundError` if the one above is
        missing, and what else `Tree.mkdir` raises.
        """
        try:
            if parents:
                self.tree.makedirs(self, exist_ok)
            else:
                self.tree.mkdir(self)
        except FileExistsError:
            if not exist_ok or not self.is_dir():
                raise

    def rmdir(self) -> None:
        """Removes the entry of an empty directory. Raises what `Tree.rmdir` does."""
        self.tree.rmdir(self)

    # ---- Files

    def touch(self, mode: int = 0o666, exist_ok: bool = True) -> None:
        """Makes an empty file, where there is none.

        Raises `FileExistsError` if something is there without `exist_ok`, and what else `Tree.mknod` raises.
        """
        try:
            self.tree.mknod(self)
        except FileExistsError:
            if not exist_ok:
                raise

    def unlink(self, missing_ok: bool = False) -> None:
        """Removes the entry of a file.

        Raises `FileNotFoundError` if nothing is there without `missing_ok`, and `PermissionError` if a directory is.
        """
        try:
            self.tree.unlink(self)
        except FileNotFoundError:
            if not missing_ok:
                raise

    def open(
        self,
        mode: str = "r",
        buffering: int = -1,
        encoding: Optional[str] = None,
        errors: Optional[str] = None,
        newline: Optional[str] = None,
    ) -> IO[Any]:
        """A file object, as `Tree.open`: several calls. Raises what that does."""
        return self.tree.open(self, mode, buffering, encoding, errors, newline)

    def read_bytes(self) -> bytes:
        """The bytes of a file, as `Tree.read_bytes`. Raises what that does."""
        return self.tree.read(self)

    def read_text(
        self, encoding: Optional[str] = None, errors: Optional[str] = None, newline: Optional[str] = None
    ) -> str:
        """The text of a file, as `Tree.read_text`. Raises what that does."""
        return self.tree.read_text(self, encoding or "utf-8", errors or "strict", newline)

    def write_bytes(self, data: Data) -> int:
        """As `Tree.write_bytes`: several calls. Raises what that does."""
        return self.tree.write_bytes(self, data)

    def write_text(
        self, data: str, encoding: Optional[str] = None, errors: Optional[str] = None, newline: Optional[str] = None
    ) -> int:
        """As `Tree.write_text`: several calls. Raises what that does."""
        return self.tree.write_text(self, data, encoding or "utf-8", errors or "strict", newline)

    # ---- Moves

    def rename(self: _Self, target: Any) -> _Self:
        """Moves what is there by one `rename`; a file or an empty directory at the target is replaced. Raises what `Tree.rename` does."""
        self.tree.rename(self, target)
        return self._of(_walk.text_of(target))

    replace = rename

    def copy(self: _Self, target: Any) -> _Self:
        """As `Tree.copy`: several calls. Raises what that does."""
        self.tree.copy(self, target)
        return self._of(_walk.text_of(target))

    # ---- The path itself

    def absolute(self: _Self) -> _Self:
        """The path from the root on: a tree has no working directory. It raises nothing."""
        return self._of(f"/{self}") if not self.is_absolute() else self

    def resolve(self: _Self, strict: bool = False) -> _Self:
        """The path from the root on, without `..`. Raises `FileNotFoundError` if it is strict, and nothing is there."""
        parts: List[str] = []
        for part in self.absolute().parts[1:]:
            parts[-1:] = [] if part == ".." else [*parts[-1:], part]
        path = self._of("/" + "/".join(parts))
        if strict:
            path.stat()
        return path


def _refusal(name: str, what: str) -> Callable[..., NoReturn]:
    def refuse(self: Any, *given: Any, **named: Any) -> NoReturn:
        raise NotImplementedError(f"Path.{name}: a tree has no {what}")

    refuse.__name__, refuse.__qualname__ = name, f"Path.{name}"
    refuse.__doc__ = f"Raises `NotImplementedError`, since a tree has no {what}."
    return refuse


_REFUSED: Dict[str, Tuple[str, ...]] = {
    "links": ("symlink_to", "hardlink_to", "link_to", "readlink"),
    "owners": ("owner", "group"),
    "permissions": ("chmod", "lchmod"),
    "working and no home directory": ("cwd", "home", "expanduser"),
}
for _what, _names in _REFUSED.items():
    for _name in _names:
        _refused = _refusal(_name, _what)
        setattr(Path, _name, classmethod(_refused) if _name in ("cwd", "home") else _refused)


def class_of(tree: Tree) -> Type[Path]:
    """The paths of a tree: what pathlib makes of a path has its class, and so its tree."""
    with tree.lock:
        made = tree._paths() if tree._paths is not None else None
        if made is None:
            made = type("Path", (Path,), {"tree": tree, "__module__": __name__, "__doc__": Path.__doc__})
            tree._paths = weakref.ref(made)
        return made


def of_tree(tree: Tree, path: str) -> Path:
    """A path of a tree."""
    return class_of(tree)(path)
