"""The words of `os`, `os.path` and `shutil` on a tree, beside those of its calls; and what a word that is none is near to."""
from __future__ import annotations

import difflib
import posixpath
import shutil
from typing import TYPE_CHECKING, Any, NoReturn

from . import _walk
from ._errors import AnyPath

if TYPE_CHECKING:
    from ._tree import Stat

# What other libraries call it.
_OTHERS = {
    **{"ls": "listdir", "rm": "unlink", "mv": "move", "cp": "copy", "cat": "read_text", "delete": "unlink"},
    **{"size": "getsize", "info": "stat", "lstat": "stat", "mkdirs": "makedirs", "makedir": "mkdir", "create": "touch"},
    **{"read_file": "read_bytes", "write_file": "write_bytes", "removedir": "rmdir", "removetree": "rmtree"},
    **{"readtext": "read_text", "writetext": "write_text", "readbytes": "read_bytes", "writebytes": "write_bytes"},
    **{
        "scandir": "walk",
        "append_text": "open",
        "save": "to_directory",
        "load": "from_directory",
        "symlink": "atomfs.patch",
    },
    **{name: "atomfs.patch" for name in ("chmod", "chown", "utime", "readlink", "link", "chdir", "getmtime")},
}


class Names:
    """The methods of a tree by the words that `os` and `shutil` have for them."""

    if TYPE_CHECKING:

        def is_dir(self, path: AnyPath) -> bool:
            ...

        def is_file(self, path: AnyPath) -> bool:
            ...

        def unlink(self, path: AnyPath) -> None:
            ...

        def rename(self, path: AnyPath, other: AnyPath) -> None:
            ...

        def stat(self, path: AnyPath) -> Stat:
            ...

        def copy(self, source: AnyPath, target: AnyPath) -> None:
            ...

        def mknod(self, path: AnyPath) -> None:
            ...

        def write(self, path: AnyPath, offset: int, data: Any) -> int:
            ...

    def isdir(self, path: AnyPath) -> bool:
        """Whether a directory is at a path, as `is_dir`: one `stat`."""
        return self.is_dir(path)

    def isfile(self, path: AnyPath) -> bool:
        """Whether a file is at a path, as `is_file`: one `stat`."""
        return self.is_file(path)

    def remove(self, path: AnyPath) -> None:
        """Removes the entry of a file, as `unlink`. `FileNotFoundError` if nothing is there, `PermissionError` if a directory is."""
        self.unlink(path)

    def replace(self, path: AnyPath, other: AnyPath) -> None:
        """Moves what is at `path` to `other`, and replaces a file or an empty directory there, as `rename`."""
        self.rename(path, other)

    def getsize(self, path: AnyPath) -> int:
        """How many bytes a file has, or how many entries a directory: one `stat`. `FileNotFoundError` if nothing is there."""
        return self.stat(path).size

    def copytree(self, source: AnyPath, target: AnyPath) -> None:
        """Copies a directory with all below it to a path at which nothing is: several calls. Of one that is not copied whole nothing stays.

        `NotADirectoryError` if `source` is a file, `FileExistsError` if something is at `target`."""
        if not self.stat(source).is_dir:
            raise NotADirectoryError(20, "Not a directory", source)
        self.copy(source, target)

    def move(self, source: AnyPath, target: AnyPath) -> str:
        """Moves what is at `source` to `target`, or into it if a directory is there, as `shutil.move`: a `stat` and one `rename`. It returns
        the new path.

        `shutil.Error` if the name is there already."""
        old, new = _walk.text_of(source), _walk.text_of(target)
        if self.is_dir(target):
            new = _walk.joined(new, posixpath.basename(old.rstrip("/")))
            if _walk.kind(self, new) is not None:  # type: ignore[arg-type]
                raise shutil.Error(f"Destination path '{new}' already exists")
        self.rename(source, new)
        return new

    def touch(self, path: AnyPath, exist_ok: bool = True) -> None:
        """Makes an empty file, and leaves one that is there. `FileExistsError` if it is there and may not be, or is a directory."""
        try:
            self.mknod(path)
        except FileExistsError:
            if not exist_ok or self.is_dir(path):
                raise

    if not TYPE_CHECKING:

        def __getattr__(self, name: str) -> NoReturn:
            words = f"{type(self).__name__!r} object has no attribute {name!r}"
            if not name.startswith("_"):
                known = [one for one in dir(type(self)) if not one.startswith("_")]
                near = [_OTHERS[name]] if name in _OTHERS else difflib.get_close_matches(name, known, 1)
                words += f": {near[0]} is near to it" if near else ""
            raise AttributeError(words)
