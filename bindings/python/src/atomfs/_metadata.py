"""What a directory of the disk has besides names and bytes: permissions, owners, times, numbers of nodes, symbolic links and pipes.

A tree has none of these. They are kept beside it, in Python, once the tree has stood at a directory of the disk, and nothing of it is proved.
Each node has one `Inode`: it moves with the node, goes away with it, and stands in snapshots, copies and pickles.
"""
from __future__ import annotations

import os
import stat
import time
from typing import TYPE_CHECKING, Callable, Dict, List, NamedTuple, Optional, Tuple

from ._calls import extension
from ._errors import AnyPath
from ._library import Call
from ._walk import text_of

if TYPE_CHECKING:
    from ._tree import Tree

# Nanoseconds since 1970.
Clock = Callable[[], int]
_SECOND = 10**9
# What a node has of whose making nothing is known.
_MODES = {True: stat.S_IFDIR | 0o755, False: stat.S_IFREG | 0o644}
# What a new node has, before the mask.
_NEW = {True: stat.S_IFDIR | 0o777, False: stat.S_IFREG | 0o666}
LINK = stat.S_IFLNK | 0o777
# What `st_blksize` says: as much of a file is in a buffer before it is written.
BLOCK = 4_096


_user, _group = os.geteuid, os.getegid


class Lower(NamedTuple):
    """What of a node is on the disk still, below an overlay: the names in a directory, or the bytes of a file."""

    path: str
    #: How many bytes the disk said that there are, once it was asked.
    size: Optional[int] = None


class Inode:
    """What is kept of one node. Of a directory it has those entries of which something is known."""

    __slots__ = (
        "mode",
        "uid",
        "gid",
        "accessed",
        "modified",
        "changed",
        "number",
        "links",
        "target",
        "attributes",
        "lower",
        "entries",
        "_told",
        "__weakref__",
    )

    def __init__(self, mode: int, number: int, now: int) -> None:
        self.mode, self.number, self.links = mode, number, 1
        self.uid, self.gid = _user(), _group()
        self.accessed = self.modified = self.changed = now
        #: Where a symbolic link leads.
        self.target: Optional[str] = None
        #: Extended attributes, where it has some: never changed in place.
        self.attributes: Optional[Dict[str, bytes]] = None
        self.lower: Optional[Lower] = None
        self.entries: Optional[Dict[str, Inode]] = {} if stat.S_ISDIR(mode) else None
        # What was answered last, and of what.
        self._told: Optional[Tuple[Tuple[int, ...], os.stat_result]] = None

    @property
    def is_pipe(self) -> bool:
        return stat.S_ISFIFO(self.mode)

    @property
    def is_marked(self) -> bool:
        """Whether the door shows this file of the tree as something else: a symbolic link, a pipe, or a socket or device of an overlay."""
        return not (stat.S_ISREG(self.mode) or stat.S_ISDIR(self.mode))

    def wrote(self, now: int) -> None:
        """Its bytes or its entries have changed."""
        self.modified = self.changed = now

    def result(self, device: int, size: int) -> os.stat_result:
        """What `os.stat` answers of it."""
        of = device, size, self.mode, self.links, self.uid, self.gid, self.accessed, self.modified, self.changed
        if self._told is None or self._told[0] != of:
            self._told = of, self._result(device, size if self.target is None else len(os.fsencode(self.target)))
        return self._told[1]

    def _result(self, device: int, size: int) -> os.stat_result:
        accessed, modified, changed = self.accessed, self.modified, self.changed
        last = _seconds(modified)
        first = last if accessed == modified else _seconds(accessed)
        since = last if changed == modified else _seconds(changed)
        words = self.mode, self.number, device, self.links, self.uid, self.gid, size, first[0], last[0], since[0]
        return os.stat_result(
            (*words, first[1], last[1], since[1], accessed, modified, changed),
            {"st_blksize": BLOCK, "st_rdev": 0, "st_blocks": -(-size // 512)},
        )

    def copied(self) -> Inode:
        """Another of the same, with all below it."""
        top = self._alone()
        waiting = [(self, top)]
        while waiting:
            old, new = waiting.pop()
            for name, one in (old.entries or {}).items():
                assert new.entries is not None
                new.entries[name] = other = one._alone()
                waiting.append((one, other))
        return top

    def _alone(self) -> Inode:
        made = Inode.__new__(Inode)
        for name in _WORDS:
            setattr(made, name, getattr(self, name))
        made.entries, made._told = None if self.entries is None else {}, None
        return made


# What a copy of a node has, without its entries.
_WORDS = Inode.__slots__[:-3]


def _seconds(time: int) -> Tuple[int, float]:
    """A time in seconds, whole and as a fraction."""
    whole, rest = divmod(time, _SECOND)
    return whole, whole + 1e-9 * rest


def _kept_in_python(word: str, root: Inode, path: str, is_dir: bool) -> Optional[Inode]:
    """What is kept of the node at a path, from what is kept of the root on: none where nothing is, or of the other kind."""
    one: Optional[Inode] = root
    for name in path.split("/"):
        if name:
            below = one.entries if one is not None else None
            one = below.get(name) if below is not None else None
    return one if one is not None and (one.entries is not None) == is_dir else None


# By the extension it is a function of C.
_kept: Callable[..., Optional[Inode]] = _kept_in_python if extension is None else extension.kept


class Metadata:
    """What is kept of the nodes of one tree."""

    def __init__(self) -> None:
        self.clock: Clock = time.time_ns
        #: The bits that a new node does not get.
        self.mask = 0o022
        #: How many symbolic links, pipes and so on there are: files of the tree that the door shows as something else.
        self.links = 0
        #: The directory of the disk that an overlay has put below the tree last.
        self.lower: Optional[str] = None
        self._number = 1
        # Of what was there before, this is known alone.
        self._born = time.time_ns()
        self.root = self.new(_MODES[True], self._born)

    def begin(self, clock: Clock, mask: int) -> None:
        """Takes another clock, and the bits that new nodes do not get."""
        self.clock, self.mask = clock, mask

    def new(self, mode: int, now: Optional[int] = None) -> Inode:
        """A node that is made now."""
        self._number += 1
        return Inode(mode, self._number, self.clock() if now is None else now)

    def copied(self) -> Metadata:
        """Another of the same, for another tree; its clock is that of the system."""
        made = Metadata()
        made.mask, made.links, made._number, made._born = self.mask, self.links, self._number, self._born
        made.lower, made.root = self.lower, self.root.copied()
        return made

    # A tree may be as deep as no pickle goes: what is pickled is a list.

    def __getstate__(self) -> object:
        rows: List[Tuple[int, str, Tuple[object, ...]]] = []
        waiting = [(-1, "", self.root)]
        while waiting:
            above, name, one = waiting.pop()
            rows.append((above, name, tuple(getattr(one, word) for word in _WORDS)))
            at = len(rows) - 1
            waiting += [(at, below, other) for below, other in (one.entries or {}).items()]
        return self.mask, self.links, self._number, self._born, rows, self.lower

    def __setstate__(
        self, state: Tuple[int, int, int, int, List[Tuple[int, str, Tuple[object, ...]]], Optional[str]]
    ) -> None:
        self.clock = time.time_ns
        self.mask, self.links, self._number, self._born, rows = state[:5]
        # What an older package has pickled knows nothing of overlays.
        self.lower = state[5] if len(state) > 5 else None
        made: List[Inode] = []
        for above, name, words in rows:
            one = Inode.__new__(Inode)
            one.lower = None
            for word, value in zip(_WORDS, words):
                setattr(one, word, value)
            one.entries, one._told = {} if stat.S_ISDIR(one.mode) else None, None
            made.append(one)
            if above >= 0:
                entries = made[above].entries
                assert entries is not None
                entries[name] = one
        self.root = made[0]

    # ---- Where a node is

    def found(self, path: str) -> Optional[Inode]:
        """What is kept of the node at a path, if anything is."""
        one = self.root
        for name in path.split("/"):
            if name:
                below = one.entries.get(name) if one.entries is not None else None
                if below is None:
                    return None
                one = below
        return one

    def of(self, path: str, is_dir: bool) -> Inode:
        """What is kept of the node at a path, of which the tree says whether it is a directory."""
        one = _kept("entries", self.root, path, is_dir)
        return one if one is not None else self.entry(path, is_dir)[1]

    def entry(self, path: str, is_dir: bool) -> Tuple[Inode, Inode]:
        """What is kept of the directory above a path, and of the node there."""
        above, name = self._above(path)
        return above, self._entry(above, name, is_dir) if name else self.root

    def _above(self, path: str) -> Tuple[Inode, str]:
        """The directory in which a path ends, and its last name: of the root none."""
        folder, _, name = path.rpartition("/")
        known = _kept("entries", self.root, folder, True) if name else None
        if known is not None:
            return known, name
        above, last = self.root, ""
        for name in path.split("/"):
            if name:
                if last:
                    below = above.entries.get(last)  # type: ignore[union-attr]
                    above = below if below is not None and below.entries is not None else self._entry(above, last, True)
                last = name
        return above, last

    def _entry(self, above: Inode, name: str, is_dir: bool) -> Inode:
        assert above.entries is not None
        found = above.entries.get(name)
        if found is None or (found.entries is not None) != is_dir:
            if found is not None:
                self._gone(found)
            found = above.entries[name] = self.new(_MODES[is_dir], self._born)
        return found

    def _gone(self, one: Inode) -> None:
        """A node went away, and so did all below it that was known."""
        one.links = 0
        if one.is_marked:
            self.links -= 1
        if not one.entries:
            return
        for below in list(one.entries.values()):
            # What was changed past the door alone has something below it.
            self.links -= sum(other.is_marked for other in _all_of(below))

    # ---- What calls of the tree do

    def did(self, call: Call, *paths: AnyPath) -> None:
        """A call on these paths has changed the tree."""
        if call is Call.WRITE or call is Call.TRUNCATE:
            self.wrote(paths[0])
        elif call is Call.MKDIR or call is Call.MKNOD:
            self.made(paths[0], call is Call.MKDIR)
        elif call is Call.UNLINK or call is Call.RMDIR:
            self.removed(paths[0])
        elif call is Call.RENAME or call is Call.EXCHANGE:
            self.moved(paths[0], paths[1], call is Call.EXCHANGE)

    def wrote(self, path: AnyPath) -> None:
        """The bytes of a file have changed."""
        inode = self.of(text_of(path), False)
        inode.modified = inode.changed = self.clock()

    def made(self, path: AnyPath, is_dir: bool) -> None:
        """There is a new directory, or a new file."""
        above, name = self._above(text_of(path))
        now, mode = self.clock(), _NEW[is_dir]
        self._number += 1
        above.entries[name] = Inode(mode & ~self.mask, self._number, now)  # type: ignore[index]
        above.modified = above.changed = now

    def removed(self, path: AnyPath) -> None:
        """An entry went away."""
        above, name = self._above(text_of(path))
        now = self.clock()
        one = above.entries.pop(name, None)  # type: ignore[union-attr]
        if one is not None:
            self._gone(one)
            one.changed = now
        above.modified = above.changed = now

    def moved(self, path: AnyPath, other: AnyPath, exchanged: bool) -> None:
        """Two entries of which one came in the place of the other, or both in each other's."""
        above, name = self._above(text_of(path))
        aim, last = self._above(text_of(other))
        if above is aim and name == last:
            return
        now, entries, others = self.clock(), above.entries, aim.entries
        assert entries is not None and others is not None
        one, was = entries.pop(name, None), others.pop(last, None)
        if one is not None:
            others[last] = one
            one.changed = now
        if was is not None:
            was.changed = now
            if exchanged:
                entries[name] = was
            else:
                self._gone(was)
        above.modified = above.changed = aim.modified = aim.changed = now


def _all_of(top: Inode) -> List[Inode]:
    """A node with all below it."""
    found = [top]
    for one in found:
        found += (one.entries or {}).values()
    return found


def metadata_of(tree: Tree) -> Metadata:
    """What is kept of the nodes of a tree, from now on if nothing was."""
    if tree._metadata is None:
        with tree.lock:
            if tree._metadata is None:
                tree._keep_beside(Metadata())
    assert tree._metadata is not None
    return tree._metadata
