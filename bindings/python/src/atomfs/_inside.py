"""Whole programs and suites in trees: their working directory, their temporary files, and directories of the disk, as these are now or as overlays.

Nothing of what they change there comes to the disk.
"""
from __future__ import annotations

import contextlib
import os
import pathlib
import tempfile
from typing import Dict, Iterator, Optional, Sequence

from . import _load
from ._errors import StrPath
from ._patch import patch
from ._tree import Tree

# What is below a directory of the disk and no program works with: it would be read whole.
LEFT_OUT = frozenset(
    {
        ".git",
        ".hg",
        ".svn",
        "__pycache__",
        ".pytest_cache",
        ".mypy_cache",
        ".tox",
        ".nox",
        ".venv",
        "venv",
        "node_modules",
    }
)


class Inside:
    """Lets a program work in trees, within `with`: in an empty directory, if it has none of its own in `at` or `overlays`.

    What these name are directories of the disk. Each is a tree of its own: one of `at` begins as what is there, and one of `overlays` reads
    there what is asked for.
    """

    def __init__(self, at: Sequence[StrPath] = (), overlays: Sequence[StrPath] = ()) -> None:
        self._at, self._overlays = ([os.path.abspath(path) for path in those] for those in (at, overlays))
        #: The trees, by the directories at which they stand.
        self.trees: Dict[str, Tree] = {}
        self._patches: Dict[str, patch] = {}
        self._ends = contextlib.ExitStack()

    def __enter__(self) -> Inside:
        #: The directory with the working one and that of temporary files.
        self.home = pathlib.Path(tempfile.gettempdir(), f"atomfs-{os.getpid()}")
        before, temporary = os.getcwd(), tempfile.tempdir
        loaded = {path: _tree_of(path) for path in self._at}
        with contextlib.ExitStack() as ends:
            for path, tree in {str(self.home): Tree(), **loaded}.items():
                self._enter(ends, path, patch(tree, path, processes=True))
            for path in self._overlays:
                self._enter(ends, path, patch(overlay=path, processes=True))
            ends.callback(setattr, tempfile, "tempdir", temporary)
            ends.callback(os.chdir, before)
            for name in ("tmp", "work"):
                os.mkdir(self.home / name, 0o700)
            tempfile.tempdir = str(self.home / "tmp")
            stays = any(_is_below(before, path) for path in (*self._at, *self._overlays))
            os.chdir(before if stays else self.home / "work")
            self._ends = ends.pop_all()
        return self

    def _enter(self, ends: contextlib.ExitStack, path: str, one: patch) -> None:
        self.trees[path], self._patches[path] = one.tree, one
        ends.enter_context(one)

    def __exit__(self, *error: object) -> None:
        self._ends.close()
        for path, tree in self.trees.items():
            if path == str(self.home):
                tree.close()

    def copy_up(self, path: str) -> None:
        """Lets the tree at a path have all that an overlay has on the disk."""
        self._patches[path].copy_up()

    @contextlib.contextmanager
    def aside(self) -> Iterator[None]:
        """Lets all go to the disk meanwhile."""
        with contextlib.ExitStack() as stack:
            for one in self._patches.values():
                stack.enter_context(one._aside())
            yield

    def begin(self) -> None:
        """Lets the journals begin anew."""
        for tree in self.trees.values():
            tree.forget()

    def verdict(self) -> Optional[str]:
        """What is wrong with a journal, if something is."""
        told = {path: tree.check() for path, tree in self.trees.items()}
        return next((f"{path}: {verdict}" for path, verdict in told.items() if verdict != "lawful"), None)


def _is_below(path: str, above: str) -> bool:
    return path == above or path.startswith(f"{above}/")


def _tree_of(path: str) -> Tree:
    """A tree of what is in a directory of the disk; what no tree has is left out."""
    with _load.into(Tree()) as tree:
        if os.path.isdir(path):
            _load.from_directory(tree, path, "skip", LEFT_OUT)
    return tree
