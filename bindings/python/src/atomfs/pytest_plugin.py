"""The plugin for pytest, which comes with the package `atomfs`.

    def test_a_tool(atom_tree):
        atom_tree.write_text("/in.txt", "hello")
        ...

    @pytest.mark.atomfs(load="tests/data", limits=atomfs.Limits.V1)
    def test_with_data(atom_path):
        assert (atom_path / "in.txt").is_file()

`atom_tree` is a tree of the test's own, `atom_fs` the same as a file system of PyFilesystem2, `atom_path` its root as a path. With `atom_patch` the
tree is at a directory of the disk for `open`, `os` and so on: at `/sandbox`, unless the mark has another one as `at`. At
the end the journal of the tree has to be lawful. The report of a test that fails shows the tree, its last 30 calls, and the paths of a
picture and of a page that plays the calls: in the `tmp_path` of the test, or in a folder of its own beside those; and so it does of a run of
`atomfs.explore`.

`pytest --atomfs` runs tests that know nothing of this in trees: `tmp_path`, temporary files and the working directory, which begins empty, are in
memory. `--atomfs-at DIR` adds a tree at a directory of the disk, which begins as what is there. `--atomfs-overlay DIR` lets tests read a directory
of the disk, and keeps every change of it in memory. If the working directory is below one of these, it stays. Each test's journals have to be lawful,
and the report of a test that fails names its journal beside the picture.
"""
from __future__ import annotations

import contextlib
import os
import pathlib
import re
import tempfile
from typing import (
    TYPE_CHECKING,
    Any,
    Callable,
    ContextManager,
    Dict,
    Generator,
    Iterator,
    List,
    Mapping,
    Optional,
    Tuple,
    Union,
)

import pytest
from _pytest import capture

from ._errors import Error
from ._explore import ScheduleError
from ._inside import Inside
from ._library import Limits
from ._load import Snapshot, of_snapshot
from ._page import Page
from ._patch import patch
from ._path import Path
from ._tools import Picture
from ._tree import Tree

if TYPE_CHECKING:
    from .fs import AtomFS

_TREE = pytest.StashKey[Tree]()
_PATCH = pytest.StashKey[patch]()
_LOADED = pytest.StashKey[Dict[Tuple[str, Optional[int], Limits], Snapshot]]()
# What makes a picture or a page, by the ending of its file.
_Makers = Dict[str, Callable[[], Union[Picture, Page]]]
# What a file is, by its ending.
_KINDS = {"svg": "picture", "html": "page"}
# How many calls a picture has at most: of more the program leaves out most words.
_PICTURED = 2_000
_PACKAGE = os.path.dirname(os.path.abspath(__file__)) + os.sep
_MARK = (
    "atomfs(load=None, limit=None, limits=Limits.V3, at='/sandbox'): atom_tree begins with a directory, a zip or a dictionary, "
    "by these limits, and by atom_patch it stands at this directory of the disk"
)


def pytest_addoption(parser: pytest.Parser) -> None:
    group = parser.getgroup("atomfs")
    group.addoption(
        "--atomfs",
        action="store_true",
        help="run the tests in trees in memory: tmp_path, temporary files and the working directory, which begins empty",
    )
    group.addoption(
        "--atomfs-at",
        action="append",
        default=[],
        metavar="DIR",
        help="with --atomfs, let this directory of the disk be a tree too, which begins as what is there (again for more)",
    )
    group.addoption(
        "--atomfs-overlay",
        action="append",
        default=[],
        metavar="DIR",
        help="with --atomfs, read this directory of the disk, and keep each change of it in memory (again for more)",
    )


def pytest_configure(config: pytest.Config) -> None:
    config.addinivalue_line("markers", _MARK)
    for path in config.getoption("atomfs_overlay"):
        if not os.path.isdir(os.path.join(config.invocation_params.dir, path)):
            raise pytest.UsageError(f"--atomfs-overlay: there is no directory {path}")
    if config.getoption("atomfs") and not config.getoption("collectonly"):
        config.pluginmanager.register(_InTrees(config), "atomfs-in-trees")
    loaded: Dict[Tuple[str, Optional[int], Limits], Snapshot] = {}
    config.stash[_LOADED] = loaded


def _words(
    load: Any = None, limit: Optional[int] = None, limits: Limits = Limits.V3, at: str = "/sandbox"
) -> Tuple[Any, Optional[int], Limits, str]:
    """The words of the mark."""
    return load, limit, limits, at


def _asked(node: Any) -> Tuple[Any, Optional[int], Limits, str]:
    """What the mark of a test asks for."""
    mark = node.get_closest_marker("atomfs")
    try:
        return _words(*mark.args, **mark.kwargs) if mark else _words()
    except TypeError as error:
        raise pytest.UsageError(f"the mark atomfs: {error}") from None


def _made(node: Any) -> Tree:
    """The tree that a test asks for. A directory or a zip is read once for all tests."""
    load, limit, limits, _ = _asked(node)
    if load is None:
        return Tree(limit, limits=limits)
    if isinstance(load, Mapping):
        return Tree.from_dict(load, limit, limits=limits)
    path = pathlib.Path(node.config.rootpath, load)
    loaded = node.config.stash[_LOADED]
    key = os.fspath(path), limit, limits
    if key not in loaded:
        of = (
            Tree.from_directory(path, limit=limit, limits=limits)
            if path.is_dir()
            else Tree.from_zip(path, limit, limits=limits)
        )
        with of as tree:
            loaded[key] = tree.snapshot()
    return of_snapshot(Tree, limit, loaded[key])


@pytest.fixture
def atom_tree(request: pytest.FixtureRequest) -> Iterator[Tree]:
    """A tree, by the mark `atomfs`. At the end of the test its journal has to be lawful."""
    tree = request.node.stash[_TREE] = _made(request.node)
    yield tree
    if tree.closed:
        return
    try:
        verdict = tree.check()
        if verdict != "lawful":
            pytest.fail(f"the journal of atom_tree: {verdict}\n{_shown(tree, request.node)}", pytrace=False)
    finally:
        tree.close()


@pytest.fixture
def atom_fs(atom_tree: Tree) -> Iterator[AtomFS]:
    """The tree of the test as a file system of PyFilesystem2 (the package `fs`)."""
    from .fs import AtomFS

    files = AtomFS(atom_tree)
    with files:
        yield files


@pytest.fixture
def atom_path(atom_tree: Tree) -> Path:
    """The root of the tree of the test, as a path with the methods of `pathlib.Path`."""
    return atom_tree.path()


@pytest.fixture
def atom_patch(request: pytest.FixtureRequest, atom_tree: Tree) -> Iterator[patch]:
    """The tree of the test stands at a directory of the disk, the `at` of what this is, until the test ends."""
    with patch(atom_tree, _asked(request.node)[3]) as patched:
        request.node.stash[_PATCH] = patched
        yield patched


def _shown(tree: Tree, node: Any) -> str:
    """What the report of a failed test has: the tree, its last calls, and where the picture and the page are."""
    if tree.closed:
        return repr(tree)
    calls = "\n".join(tree.last_calls())
    if not calls:
        return f"{tree!r}\n{tree}\n\nThe last calls:\n"
    made: _Makers = {
        "svg": lambda: tree.draw(last=_PICTURED),
        "html": lambda: tree.draw(last=_PICTURED, html=True),
    }
    return f"{tree!r}\n{tree}\n\nThe last calls:\n{calls}\n\n{_written(node, 'atom_tree', made)[0]}"


def _written(node: Any, name: str, made: _Makers) -> Tuple[str, Dict[str, pathlib.Path]]:
    """Writes a picture and a page, each by the ending of its file: where they are in words, or why there is none, and the paths."""
    aside: ContextManager[None] = node.stash[_PATCH]._aside() if _PATCH in node.stash else contextlib.nullcontext()
    lines, paths = [], {}
    with aside:
        folder: Optional[pathlib.Path] = None
        for ending, make in made.items():
            try:
                folder = folder or _folder(node)
                paths[ending] = make().save(folder / f"{name}.{ending}")
                lines.append(f"The {_KINDS[ending]}: {paths[ending]}")
            except (Error, OSError) as error:
                lines.append(f"No {_KINDS[ending]}: {error}")
    return "\n".join(lines), paths


def _folder(node: Any) -> pathlib.Path:
    """The `tmp_path` of a test, where it has one, or a folder beside those."""
    own, factory = node.funcargs.get("tmp_path"), getattr(node.config, "_tmp_path_factory", None)
    if own is not None and own.is_dir():
        return pathlib.Path(own)
    if factory is None:
        return pathlib.Path(tempfile.mkdtemp(prefix="atomfs-"))
    return pathlib.Path(factory.mktemp(re.sub(r"\W", "_", node.name)[:30]))


@pytest.hookimpl(hookwrapper=True)  # type: ignore[misc]
def pytest_runtest_makereport(item: pytest.Item, call: pytest.CallInfo[None]) -> Generator[None, Any, None]:
    report = (yield).get_result()
    if report.when != "call" or not report.failed:
        return
    if call.excinfo is not None and isinstance(error := call.excinfo.value, ScheduleError):
        made: _Makers = {"svg": error.draw, "html": error.page}
        words, paths = _written(item, "explore", made)
        error.picture, error.page_file = paths.get("svg"), paths.get("html")
        report.sections.append(("atomfs.explore", words))
        _hide(report.longrepr, str(item.config.invocation_params.dir))
    if _TREE in item.stash:
        report.sections.append(("atom_tree", _shown(item.stash[_TREE], item)))


def _scratch(*given: Any, **named: Any) -> Any:
    """A file for what a test writes to descriptors 1 and 2: these are of the system."""
    return open(os.memfd_create("atomfs"), "wb+", buffering=0)


class _InTrees:
    """The plugin that `--atomfs` asks for: one set of trees for the session, and for each test journals of its own."""

    def __init__(self, config: pytest.Config) -> None:
        self._config = config
        self._inside: Optional[Inside] = None

    # Closest to the tests: what others write at the end of a session comes to the disk.
    @pytest.hookimpl(hookwrapper=True, trylast=True)  # type: ignore[misc]
    def pytest_runtestloop(self, session: pytest.Session) -> Generator[None, Any, None]:
        if getattr(self._config.option, "dist", "no") != "no" and not hasattr(self._config, "workerinput"):
            # The workers of xdist run the tests.
            yield
            return
        factory: Any = getattr(self._config, "_tmp_path_factory", None)
        self._folder = (
            factory.getbasetemp() if factory is not None else pathlib.Path(tempfile.mkdtemp(prefix="atomfs-"))
        )
        with Inside(*(self._paths(name) for name in ("atomfs_at", "atomfs_overlay"))) as inside:
            self._inside = inside
            was, capture.TemporaryFile = getattr(capture, "TemporaryFile", None), _scratch  # type: ignore[attr-defined]
            if factory is not None:
                factory._basetemp = inside.home / "pytest"
                os.mkdir(factory._basetemp, 0o700)
            try:
                yield
            finally:
                self._inside = None
                capture.TemporaryFile = was  # type: ignore[attr-defined]
                if factory is not None:
                    factory._basetemp = self._folder

    def _paths(self, option: str) -> List[pathlib.Path]:
        """The directories that an option names."""
        return [pathlib.Path(self._config.invocation_params.dir, path) for path in self._config.getoption(option)]

    @pytest.fixture(autouse=True)
    def _lawful(self) -> Iterator[None]:
        """Each test has journals of its own, and they have to be lawful."""
        if self._inside is None:
            yield
            return
        self._inside.begin()
        yield
        verdict = self._inside.verdict()
        if verdict is not None:
            pytest.fail(f"the journal of {verdict}", pytrace=False)

    @pytest.hookimpl(hookwrapper=True)  # type: ignore[misc]
    def pytest_runtest_makereport(self, item: pytest.Item, call: pytest.CallInfo[None]) -> Generator[None, Any, None]:
        report = (yield).get_result()
        if not report.failed or self._inside is None:
            return
        for number, (path, tree) in enumerate(self._inside.trees.items()):
            calls = "\n".join(tree.last_calls())
            if calls:
                words = f"{tree!r}\n{tree}\n\nThe last calls:\n{calls}\n\n{self._kept(item, tree, number)}"
                report.sections.append((f"atomfs: {path}", words))

    def _kept(self, item: pytest.Item, tree: Tree, number: int) -> str:
        """Writes the journal, the picture and the page of a tree to the disk, and tells where."""
        assert self._inside is not None
        stem = re.sub(r"\W", "_", item.name)[:60] + (f".{number}" if number else "")
        told = []
        with self._inside.aside():
            for name, made in (
                ("journal", tree.journal),
                ("svg", lambda: tree.draw(last=_PICTURED).svg),
                ("html", lambda: tree.draw(last=_PICTURED, html=True).html),
            ):
                path = self._folder / f"{stem}.{name}"
                try:
                    path.write_text(made())
                    told.append(f"The {_KINDS.get(name, name)}: {path}")
                except (Error, OSError) as error:
                    told.append(f"No {_KINDS.get(name, name)}: {error}")
        return "\n".join(told)


def _hide(told: Any, folder: str) -> None:
    """Leaves the lines of the caller's functions and what the error says in a report, and those of this package out."""
    for trace, *_ in getattr(told, "chain", []):
        last = len(trace.reprentries) - 1
        kept = []
        for place, entry in enumerate(trace.reprentries):
            at = getattr(entry, "reprfileloc", None)
            if at is None or not os.path.abspath(os.path.join(folder, at.path)).startswith(_PACKAGE):
                kept.append(entry)
            elif place == last:
                entry.lines = [line for line in entry.lines if line.startswith("E")]
                entry.reprfuncargs = entry.reprlocals = entry.reprfileloc = None
                kept.append(entry)
        trace.reprentries = kept
