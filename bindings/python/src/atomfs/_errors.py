"""What the library refuses, as Python's exceptions.

A call that fails raises the `OSError` of its number: `FileNotFoundError`, `NotADirectoryError`, `FileExistsError`,
`IsADirectoryError`, `PermissionError`, or `OSError` with `ENOTEMPTY`, `EINVAL`, `EBUSY`, `ENOSPC`, `EFBIG`, `EOVERFLOW`. A path that is none
raises `OSError` with `EINVAL` or `ENAMETOOLONG`, a tree with no node left one with `ENOSPC`, and `MemoryError` is out of memory.
Where a limit was met the message has it, so it tells a full directory from a full tree. What has nothing to do with the tree's
content is an `Error`.
"""
from __future__ import annotations

import errno
import os
from typing import TYPE_CHECKING, Union

from ._library import FAILED, LISTED, Library, Limits, Status

if TYPE_CHECKING:
    from ._tree import Seat, Tree

StrPath = Union[str, "os.PathLike[str]"]
AnyPath = Union[StrPath, bytes, "os.PathLike[bytes]"]


class Error(Exception):
    """A status that is not the error of a call. `about` is the line of a text's fault, the number of a call, or 0."""

    def __init__(self, status: int, words: str, about: int = 0) -> None:
        super().__init__(words)
        self.status, self.about = Status(status), about


class ClosedError(Error, ValueError):
    """The tree is closed."""


class UnderWayError(Error):
    """A call is pending, where none may be: `about` is its number."""


class WaitsError(Error):
    """The call is pending, and waits for a node that the call of another seat holds: `seat.finish()` goes on with it."""

    def __init__(self, words: str, about: int, seat: Seat) -> None:
        super().__init__(Status.WAITS, words, about)
        self.seat = seat


def encoded(path: AnyPath) -> bytes:
    """The bytes of a path: those of a string are UTF-8."""
    if path.__class__ is not str:
        path = os.fspath(path)
        if isinstance(path, bytes):
            return path
    try:
        return path.encode()  # type: ignore[union-attr]
    except UnicodeEncodeError:
        return path.encode("utf-8", "surrogateescape")  # type: ignore[union-attr]


def path_error(library: Library, limits: Limits, *paths: AnyPath) -> Exception:
    """Why a tree of these limits refused one of these paths, as `atomfs_check_path` says it."""
    for path in paths:
        raw = encoded(path)
        status = library.check_path(raw, len(raw), limits.value)
        if status == Status.NO_MEMORY:
            return error_of(library, status)
        if status:
            number = (
                errno.ENAMETOOLONG
                if status in (Status.PATH_NAME_TOO_LONG, Status.PATH_TOO_MANY_NAMES)
                else errno.EINVAL
            )
            return OSError(number, _words_of_path(library, limits, status), path)
    return OSError(errno.EINVAL, os.strerror(errno.EINVAL), paths[0])


def _words_of_path(library: Library, limits: Limits, status: int) -> str:
    """What an error of a path says: of what is too long, for which limit."""
    if status == Status.PATH_NAME_TOO_LONG:
        return f"Path has a name of more than {limits.name_bytes} bytes"
    if status == Status.PATH_TOO_MANY_NAMES:
        return f"Path has more than {limits.path_names:,} names"
    words = library.words(status).removeprefix("the ")
    return words[:1].upper() + words[1:]


def error_of(library: Library, status: int, about: int = 0) -> Exception:
    """The exception of a status that is not OK, and speaks of no path. `about` is the line of a text, or the number of a call."""
    words = library.words(status)
    if status in (Status.NO_MEMORY, Status.UNTOLD):
        return MemoryError(words)
    if status in (Status.BAD_LIMIT, Status.BAD_LENGTH):
        return ValueError(words)
    if status >= Status.BAD_HEADER and about:
        words = f"line {about}: {Status(status).kind}: {words}"
    kind = {Status.CLOSED: ClosedError, Status.UNDER_WAY: UnderWayError}.get(Status(status), Error)
    return kind(status, words, about)


def error_at(tree: Tree, status: int, paths: tuple[AnyPath, ...]) -> Exception:
    """The exception of a status that is not OK, of a call on these paths in a tree."""
    if status >= FAILED:
        number = status - FAILED
        return OSError(number, _words_of(tree.limits, number), *paths[:1], *((None, paths[1]) if paths[1:] else ()))
    if status == Status.BAD_PATH and paths:
        return path_error(tree._library, tree.limits, *paths)
    if status == Status.FULL:
        return OSError(errno.ENOSPC, f"All {tree.limit:,} nodes of the tree are in use", *paths[:1])
    return error_of(tree._library, status)


def file_too_large(limits: Limits) -> OSError:
    """The error of a file that would be too large."""
    return OSError(errno.EFBIG, _words_of(limits, errno.EFBIG))


def _words_of(limits: Limits, number: int) -> str:
    """What an error of a call says: of a limit, which one."""
    if number == errno.ENOSPC:
        return f"The directory has {limits.entries:,} entries, and no more may be made in it"
    if number == errno.EOVERFLOW:
        return f"The directory has more than {LISTED} entries, which listdir tells, and list in pieces"
    if number == errno.EFBIG:
        return f"The file would have more than {limits.file_bytes:,} bytes"
    return os.strerror(number)
