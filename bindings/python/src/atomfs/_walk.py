"""What is made of several calls of a tree: whole branches, and what is looked for in them.

Each function takes a tree, and other threads may change it between the calls; `with tree.lock:` around a function keeps them off.
"""
from __future__ import annotations

import codecs
import errno
import fnmatch
import re
import shutil
import sys
from typing import TYPE_CHECKING, Any, Callable, Iterator, List, Optional, Tuple

from ._errors import AnyPath, encoded
from ._library import LISTED

if TYPE_CHECKING:
    from ._tree import Tree
    from ._values import Data

Walked = Tuple[str, List[str], List[str]]
# What a name or a path says where nothing stands at it any more.
GONE = FileNotFoundError, NotADirectoryError


def text_of(path: AnyPath) -> str:
    """A path as a string, in which bytes that are no UTF-8 are surrogates."""
    return path if isinstance(path, str) else encoded(path).decode("utf-8", "surrogateescape")


def joined(path: str, name: str) -> str:
    """The path of an entry."""
    return f"{path.rstrip('/')}/{name}"


def parent_of(path: str) -> str:
    """The path of the directory in which a path ends."""
    return path.rpartition("/")[0].rstrip("/") or "/"


def plain(path: AnyPath) -> str:
    """A path as a string, with one slash where several stand together: two such paths of one node are the same."""
    return re.sub("//+", "/", text_of(path))


def kind(tree: Tree, path: AnyPath) -> Optional[bool]:
    """Whether a directory is at a path, and none of both where nothing does."""
    return tree._kind(path)


def makedirs(tree: Tree, path: AnyPath, exist_ok: bool) -> None:
    """Makes a directory and those that it needs."""
    missing: List[str] = []
    at = text_of(path)
    while True:
        try:
            tree.mkdir(at)
            break
        except FileNotFoundError:
            missing.append(at)
            at = parent_of(at)
        except FileExistsError:
            if missing:
                # Another thread has made it meanwhile.
                break
            if not exist_ok or kind(tree, at) is False:
                raise
            break
    for one in reversed(missing):
        try:
            tree.mkdir(one)
        except FileExistsError:
            if one == missing[0] and not exist_ok:
                raise


def names(tree: Tree, path: AnyPath) -> Any:
    """All names of a directory: by one `readdir`, or by a `list` for as many as one answers."""
    if not tree.limits.has_list:
        return tree.readdir(path)
    found: List[Any] = list(tree.list(path))
    piece = found
    while len(piece) == LISTED:
        piece = list(tree.list(path, b"/" + encoded(piece[-1])))
        found += piece
    return found


def check_directory(tree: Tree, path: str) -> None:
    """Raises where no directory stands at a path."""
    if tree.limits.has_list:
        tree.list(path, count=0)
    else:
        tree.readdir(path)


def entries(tree: Tree, path: str) -> Tuple[List[str], List[str]]:
    """The names of the directories in a directory, and those of its files, without what is removed meanwhile."""
    of: Tuple[List[str], List[str], List[str]] = ([], [], [])
    for name in names(tree, path):
        found = kind(tree, joined(path, name))
        of[2 if found is None else 0 if found else 1].append(name)
    return of[0], of[1]


def walk(tree: Tree, top: AnyPath, topdown: bool, onerror: Optional[Callable[[OSError], object]]) -> Iterator[Walked]:
    """As `os.walk`."""
    waiting: List[Tuple[str, Optional[Walked]]] = [(text_of(top), None)]
    while waiting:
        path, done = waiting.pop()
        if done is not None:
            yield done
            continue
        try:
            found = (path, *entries(tree, path))
        except OSError as error:
            if onerror is not None:
                onerror(error)
            continue
        if topdown:
            yield found
        else:
            waiting.append((path, found))
        waiting.extend((joined(path, name), None) for name in reversed(found[1]))


def glob(tree: Tree, pattern: AnyPath, below: str = "") -> List[str]:
    """The paths that a pattern matches, from the root on or below a path, in byte order."""
    text = text_of(pattern)
    if not below and not text.startswith("/"):
        raise OSError(errno.EINVAL, "Pattern does not begin with a slash", pattern)
    paths = [below or "/"]
    for part in filter(None, text.split("/")):
        paths = list(dict.fromkeys(_matched(tree, paths, part)))
    if text.endswith("/"):
        paths = [path for path in paths if kind(tree, path)]
    return sorted(paths, key=encoded)


def _matched(tree: Tree, paths: List[str], part: str) -> Iterator[str]:
    """What one part of a pattern matches below paths."""
    matches = re.compile(fnmatch.translate(part)).match
    for path in paths:
        if part == "**":
            yield path
            for at, directories, files in walk(tree, path, True, None):
                yield from (joined(at, name) for name in (*directories, *files))
        elif re.search(r"[*?[]", part):
            try:
                found = names(tree, path)
            except GONE:
                continue
            yield from (joined(path, name) for name in found if matches(name))
        elif kind(tree, joined(path, part)) is not None:
            yield joined(path, part)


def rmtree(tree: Tree, path: AnyPath, ignore_errors: bool) -> None:
    """Removes a directory with all below it; of the root, all below it."""

    def onerror(error: OSError) -> None:
        if not ignore_errors:
            raise error

    def tried(call: Callable[[str], None], at: str) -> None:
        try:
            call(at)
        except OSError as error:
            onerror(error)

    for at, _, files in walk(tree, path, False, onerror):
        for name in files:
            tried(tree.unlink, joined(at, name))
        if at.strip("/"):
            tried(tree.rmdir, at)


def write_bytes(tree: Tree, path: AnyPath, data: Data) -> int:
    """Lets a file have these bytes and no others. Where that fails it has what it had, or is not made."""
    with tree.lock:
        try:
            tree.mknod(path)
        except FileExistsError:
            count = tree.write(path, 0, data)
            tree.truncate(path, count)
            return count
        try:
            return tree.write(path, 0, data)
        except BaseException:
            tree.unlink(path)
            raise


def copy(tree: Tree, source: AnyPath, target: AnyPath) -> None:
    """Copies a file, or a directory with all below it, to a path."""
    start, goal = text_of(source), text_of(target)
    if kind(tree, start) is not True:
        data = tree.read(start)
        if plain(start) == plain(goal):
            raise shutil.SameFileError(f"{start!r} and {goal!r} are the same file")
        write_bytes(tree, goal, data)
        return
    if f"{plain(goal)}/".startswith(f"{plain(start).rstrip('/')}/"):
        raise OSError(errno.EINVAL, "A directory is not copied into itself", source, None, target)
    tree.mkdir(goal)
    try:
        for at, directories, files in walk(tree, start, True, None):
            to = goal + at[len(start.rstrip("/")) :].rstrip("/")
            for name in directories:
                tree.mkdir(joined(to, name))
            for name in files:
                write_bytes(tree, joined(to, name), tree.read(joined(at, name)))
    except BaseException:
        rmtree(tree, goal, True)
        raise


# The usual modes.
_MODES = {f"{kind}{more}" for kind in "rwax" for more in ("", "b", "t", "+", "+b", "b+", "+t", "t+")}


def check_words(mode: str, encoding: Optional[str], errors: Optional[str], newline: Optional[str]) -> None:
    """Raises for a mode that the builtin `open` refuses, and for words that a binary one does not take."""
    if mode in _MODES and (encoding is errors is newline is None or "b" not in mode):
        return
    if len(set(mode)) != len(mode) or set(mode) - set("rwaxbt+"):
        raise ValueError(f"invalid mode: {mode!r}")
    if "b" in mode and "t" in mode:
        raise ValueError("can't have text and binary mode at once")
    kinds = sum(mode.count(one) for one in "rwax")
    if kinds > 1:
        raise ValueError("must have exactly one of create/read/write/append mode")
    if "b" in mode:
        for name, value in (("encoding", encoding), ("errors", errors), ("newline", newline)):
            if value is not None:
                raise ValueError(f"binary mode doesn't take an {name} argument")
    if not kinds:
        raise ValueError("Must have exactly one of create/read/write/append mode and at most one plus")


def check_mode(
    mode: str, buffering: int, encoding: Optional[str], errors: Optional[str], newline: Optional[str]
) -> None:
    """Raises for what the builtin `open` refuses, before a file is made or emptied."""
    check_words(mode, encoding, errors, newline)
    if "b" not in mode and buffering == 0:
        raise ValueError("can't have unbuffered text I/O")
    if newline not in (None, "", "\n", "\r", "\r\n"):
        raise ValueError(f"illegal newline value: {newline!r}")
    # From 3.10 on this is the encoding of the locale, and before that none.
    if encoding != "locale" or sys.version_info < (3, 10):
        codecs.lookup(encoding or "utf-8")
    codecs.lookup_error(errors or "strict")
