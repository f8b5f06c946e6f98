"""Which paths of the process are of a tree, while it stands at a directory of the disk."""
from __future__ import annotations

import errno
import os
import posixpath
import re
from typing import TYPE_CHECKING, Any, Callable, Dict, List, NamedTuple, Optional, Set, Tuple

from ._descriptors import Descriptors
from ._metadata import Metadata

if TYPE_CHECKING:
    from ._overlay import Overlay

Real = Dict[str, Callable[..., Any]]
# How many links Linux follows in a path.
_LINKS = 40
# Whether names, each behind a slash, are none of dots.
_PLAIN = re.compile(r"(?:/(?!\.{0,2}(?:/|\Z))[^/\0]+)+\Z").match


class Place(NamedTuple):
    """Where a path leads: to a path of the tree, or past it, when `path` is what the disk is asked for."""

    inside: Optional[str]
    path: Any
    #: Whether nothing but a directory may stand there: the path ends with a slash.
    of_directory: bool = False
    #: Whether the disk is asked for another path than was given, an absolute one.
    moved: bool = False
    #: The last name of the path as it was given, where it is `.` or `..`.
    dots: str = ""


class Places:
    """The paths below `at`, an absolute path of the disk, which need not be there. `real` has the functions of the disk."""

    def __init__(
        self,
        at: str,
        real: Real,
        files: Descriptors,
        metadata: Callable[[], Metadata],
        overlay: Optional[Overlay] = None,
    ) -> None:
        self.at, self._real, self._files, self._metadata = at, real, files, metadata
        #: What may have links that have not come to the tree yet.
        self.overlay = overlay
        above, self._name = posixpath.split(at)
        self._roots = {at}
        # Directories of the disk that are no links, on the way to the tree.
        self._above: Set[str] = set()
        real_above = self.walked(above)[0]
        self._roots.add(posixpath.join(real_above, self._name))
        while real_above != "/":
            self._above.add(real_above)
            real_above = posixpath.dirname(real_above)
        # A link of the disk may lead below `at` where a directory of the disk stands there.
        self._shadows = self._there(at)

    def _there(self, path: str) -> bool:
        try:
            self._real["os.lstat"](path)
        except OSError:
            return False
        return True

    def inside(self, path: str) -> Optional[str]:
        """The path in the tree of an absolute path without dots."""
        for root in self._roots:
            if path == root:
                return "/"
            if path.startswith(f"{root}/"):
                return path[len(root) :]
        return None

    def plain(self, text: str) -> Optional[str]:
        """The path in the tree of an absolute one that is written so: each name behind one slash, none of them of dots, and no link on the way.
        Of any other there is none here."""
        if self._name not in text or self._metadata().links:
            return None
        for root in self._roots:
            if text.startswith(root):
                rest = text[len(root) :]
                if rest and not (rest[0] == "/" and _PLAIN(rest)):
                    return None
                return rest or "/" if self.overlay is None or not self.has_links(rest) else None
        return None

    def has_links(self, inside: str) -> bool:
        """Whether there may be a link on the way to a path of the tree, or at its end."""
        if self.overlay is not None:
            with self._files.tree.lock:
                self.overlay.way(inside)
        return self._metadata().links > 0

    def outside(self, path: str) -> str:
        """The absolute path of one in the tree."""
        return self.at if path == "/" else self.at + path

    def of(self, path: Any, directory: Optional[int] = None, follow: Optional[bool] = True) -> Place:
        """Where a path leads, from the working directory on or from that of a descriptor. Of what is no path, a `TypeError`.

        A link at its end is followed, or not; by `None` only where a slash is behind it.
        """
        text = os.fsdecode(path)
        if directory is not None and not isinstance(directory, int):
            raise TypeError("a descriptor is a whole number")
        plain = self.plain(text) if text[:1] == "/" else None
        if plain is not None:
            return Place(plain, path)
        base, moved = ("", False) if text[:1] == "/" or not text else self._base(directory)
        if base is None or not text or not (self._shadows or moved or self._name in text or self._name in base):
            return Place(None, path)
        whole, asked = f"{base}/{text}", False
        if self._shadows or ".." in text or self.overlay is not None or self._metadata().links:
            to_end = text.endswith("/.") or (text.endswith("/") if follow is None else follow)
            normal, through, asked = self.walked(whole, to_end)
            moved = moved or through
        else:
            normal = "/" + "/".join(part for part in whole.split("/") if part not in ("", "."))
        inside = self.inside(normal)
        ends = text.endswith(("/", "/.")) or asked
        if inside is not None:
            if "\0" in inside:
                raise ValueError("embedded null byte")
            last = text.rstrip("/").rpartition("/")[2] if ends or text[-1] == "." else ""
            return Place(inside, path, ends, dots=last if last in (".", "..") else "")
        if not moved:
            return Place(None, path)
        normal += "/" if ends else ""
        return Place(None, os.fsencode(normal) if isinstance(os.fspath(path), bytes) else normal, moved=True)

    def _base(self, directory: Optional[int]) -> Tuple[Optional[str], bool]:
        """The directory from which a relative path leads on, and whether the disk would take another."""
        node = self._files.node(directory) if directory is not None else self._files.working
        if node is not None:
            if node.path is None:
                raise FileNotFoundError(errno.ENOENT, os.strerror(errno.ENOENT))
            return self.outside(node.path), True
        try:
            if directory is None:
                return self._real["os.getcwd"](), False
            return self._real["os.readlink"](f"/proc/self/fd/{directory}"), False
        except OSError:
            return None, False

    def walked(self, whole: str, follow: bool = True) -> Tuple[str, bool, bool]:
        """An absolute path without dots, as the system goes it: `..` behind a link is above where that leads.

        And whether the way leads through the tree, and whether a link at the end asks for a directory. A link of the tree that leads to
        itself is an `OSError` with `ELOOP`.
        """
        waiting, at, links, through, asked = _parts(whole), "", 0, False, False
        while waiting:
            part = waiting.pop()
            if part == "..":
                inside = self.inside(at)
                if inside is not None:
                    self._files.directory(inside)
                    through = True
                at = at.rpartition("/")[0]
                continue
            at = f"{at}/{part}"
            link = self._link(at) if waiting or follow else None
            if link is None:
                continue
            in_tree, links = self.inside(at) is not None, links + 1
            if links > _LINKS:
                if in_tree or through:
                    raise OSError(errno.ELOOP, os.strerror(errno.ELOOP))
                continue
            through = through or in_tree
            asked = asked or (not waiting and link.endswith(("/", "/.")))
            at = "" if link.startswith("/") else at.rpartition("/")[0]
            waiting += _parts(link)
        return at or "/", through, asked

    def _link(self, at: str) -> Optional[str]:
        """Where the link at an absolute path without dots leads: none where no link is there."""
        inside = self.inside(at)
        if inside is not None:
            inode = self._metadata().found(inside) if self.has_links(inside) else None
            return inode.target if inode is not None else None
        if at in self._above:
            # Of these it is known.
            return None
        try:
            link: str = self._real["os.readlink"](at)
            return link
        except OSError:
            return None


def _parts(path: str) -> List[str]:
    """The names of a path, the first of them last."""
    return [part for part in reversed(path.split("/")) if part not in ("", ".")]
