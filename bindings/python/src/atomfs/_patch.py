"""A tree that stands at a directory of the disk: `open`, `os` and all that is made of them go there for the paths below it.

The functions are replaced wherever a module has them, and each asks where its path leads. What a directory of the disk has and a tree has
not, as permissions and times, is kept beside the tree. What it cannot have is refused below the directory by an `OSError`, so that nothing there
comes to the disk. Neither covered nor refused are code in C that opens files itself, and a function that is kept where no module, class or
default of an argument has it.
"""
from __future__ import annotations

import contextlib
import errno
import functools
import io
import os
import pathlib
import socket
import subprocess
import sys
import time
import types
from typing import Any, Callable, Dict, Iterator, List, NamedTuple, Optional, Tuple, Union

from . import _table, _walk
from ._calls import places
from ._descriptors import DescribedFile, Descriptors, failed, told, twin_of, warned
from ._door import Door
from ._imports import imports_again
from ._mapping import Mapped
from ._metadata import Clock, Metadata, metadata_of
from ._mirror import Mirror
from ._of_c import OfC
from ._overlay import Overlay
from ._places import Place, Places
from ._processes import Processes, number_of
from ._sandbox import Sandbox, entries_as, flags_of
from ._tree import Tree

Function = Callable[..., Any]
_FileIO = io.FileIO
# What functions of `os` take as a path still, and `open` not.
_BYTES_LIKE = bytearray, memoryview
# What `open` says where a path is given, whose descriptor nobody else has.
_KEPT_OPEN = "Cannot use closefd=False with file name"
# Where a tree stands if nothing else is said.
_AT = "/sandbox"
# The last of the descriptors that each process has.
_STANDARD = 2
# Modules of Python whose classes and defaults of arguments have functions, in some version; those of others are looked through.
_DEEP = ("pathlib", "pathlib._local", "pathlib._abc", "glob", "tempfile", "shutil", "zipfile")
_OF_PYTHON = os.path.dirname(os.__file__) + os.sep
# The dictionary of a module, whatever its class has under this name.
_OF_MODULE: Any = vars(types.ModuleType)["__dict__"]
# The modules of others that were looked through and have none, with how many names they had then.
_looked: Dict[str, int] = {}
# The modules so far.
_found: Dict[str, _Known] = {}


class patch(OfC, contextlib.ContextDecorator):
    """Puts a tree at a directory of the disk, within `with`, or while the function runs that it decorates.

        with atomfs.patch(tree, at="/sandbox"):
            os.makedirs("/sandbox/a")
            pathlib.Path("/sandbox/a/f").write_text("in the tree")

    `covered` names the functions that go to the tree, `refused` those that raise `OSError` below `at`, and why.

    Permissions, owners, times, symbolic links and pipes are kept beside the tree. Permissions are enforced only with `enforce`, because tests
    often run as root, for whom the system enforces none. So a suite behaves the same for every user. `clock` is called for the time, in
    nanoseconds since 1970. With `processes` a program of the disk may work in the tree: while it runs, a real directory at `at` takes the place
    of the tree, and its changes come back when it has ended.

    `overlay` is a directory of the disk whose files are read there until they are changed: names, sizes and bytes come to the tree when
    they are asked for, and every change stays in the tree. If no `at` is given, the tree is at that directory. If the directory is not there,
    the patch raises `FileNotFoundError` when it begins.
    """

    covered: Tuple[str, ...] = _table.COVERED
    refused: Dict[str, str] = _table.REFUSED

    def __init__(
        self,
        tree: Optional[Tree] = None,
        at: Union[None, str, "os.PathLike[str]"] = None,
        *,
        overlay: Union[None, str, "os.PathLike[str]"] = None,
        enforce: bool = False,
        clock: Clock = time.time_ns,
        processes: bool = False,
    ) -> None:
        lower = None if overlay is None else os.path.abspath(os.fspath(overlay))
        path = os.path.abspath(os.fspath(at)) if at is not None else lower or _AT
        if not isinstance(path, str) or path.strip("/") == "":
            raise ValueError("a tree stands at a directory below the root")
        #: The tree: a new one, where none was given.
        self.tree = Tree() if tree is None else tree
        self._enforce, self._clock, self._with_processes = enforce, clock, processes
        #: The directory at which the tree stands.
        self.at = pathlib.Path(path)
        #: The directory of the disk that is read below the tree.
        self.overlay = None if lower is None else pathlib.Path(lower)
        self._overlay: Optional[Overlay] = None
        self._active = False
        # The classes of file objects that may be of the tree, by those that are made of `io.FileIO`.
        self._twins: Dict[type, type] = {}
        self._undo: List[Callable[[], object]] = []

    # ---- Begin and end

    def __enter__(self) -> patch:
        if self._active:
            raise RuntimeError("this patch is there already")
        if self.tree.closed:
            self.tree.readdir("/")
        self._real: Dict[str, Function] = {
            name: found for name in _table.REPLACED if (found := _table.found(name)) is not None
        }
        mask = os.umask(0o022)
        os.umask(mask)
        self._metadata().begin(self._clock, mask)
        self._files = Descriptors(self.tree)
        if self.overlay is not None:
            self._overlay = Overlay(self.tree, str(self.overlay), self._real)
        self._places = Places(str(self.at), self._real, self._files, self._metadata, self._overlay)
        self._sandbox = Sandbox(self.tree, self._files, self._places, self._real, self._metadata)
        self._sandbox.enforce = self._enforce
        self._mirror = Mirror(self.tree, str(self.at), self._files, self._real) if self._with_processes else None
        self._processes = Processes(self, self._files, self._places, self._mirror)
        self._door = Door(self, self._files, self._places)
        own = self._own()
        news = {name: self._made(name, real, own) for name, real in self._real.items()}
        if self._overlay is not None:
            self._overlay.begin()
        self._active = True
        try:
            self._replace([(real, news[name]) for name, real in self._real.items()])
        except BaseException:
            self.__exit__()
            raise
        imports_again(str(self.at))
        return self

    def __exit__(self, *error: object) -> None:
        self._active = False
        while self._undo:
            self._undo.pop()()
        if self._mirror is not None:
            self._mirror.close()
        self._files.work_in(None, back=True)
        imports_again(str(self.at))
        if self._overlay is not None:
            self._overlay.end()
        self._metadata().begin(time.time_ns, self._metadata().mask)

    def __repr__(self) -> str:
        return f"<atomfs.patch at {str(self.at)!r}{'' if self._active else ', not there'}: {self.tree!r}>"

    def __fspath__(self) -> str:
        return str(self.at)

    def copy_up(self, path: Union[str, "os.PathLike[str]"] = "") -> None:
        """Brings all that an overlay has at a path and below it into the tree now, or all that it has: then `tree.snapshot` has it too.

        Raises `RuntimeError` if the patch has not begun, `ValueError` if the path is none of the tree, and `OSError` for what can't be read.
        """
        if not self._active:
            raise RuntimeError("this patch is not there")
        place = self._places.of(path or str(self.at))
        if place.inside is None:
            raise ValueError(f"{os.fspath(path)!r} is not below {str(self.at)!r}")
        if self._overlay is not None:
            self._overlay.all_below(place.inside)

    def _metadata(self) -> Metadata:
        return self.tree._metadata or metadata_of(self.tree)

    def _lead(self, tree: Tree, clock: Clock) -> None:
        """Lets another tree stand there, by another clock, as if the patch had begun with it: no descriptor is open."""
        mask, device = self._metadata().mask, self._sandbox._device
        self._files.work_in(None, back=True)
        self._files.close_range(0, 1 << 31)
        self.tree, self._clock = tree, clock
        Descriptors.__init__(self._files, tree)
        Sandbox.__init__(self._sandbox, tree, self._files, self._places, self._real, self._metadata)
        self._sandbox._device = device
        self._metadata().begin(clock, mask)

    @contextlib.contextmanager
    def _aside(self) -> Iterator[None]:
        """Lets all go to the disk meanwhile."""
        was, self._active = self._active, False
        try:
            yield
        finally:
            self._active = was

    def _replace(self, pairs: List[Tuple[Any, Any]]) -> None:
        """Puts new functions in the place of those that are there, until the end."""
        news = {id(old): new for old, new in pairs}
        self._undo.append(lambda: _swap({id(new): old for old, new in pairs}))
        _swap(news)
        for name, space in _deep():
            count = len(self._undo)
            for value in list(space.values()):
                if isinstance(value, type):
                    self._replace_in(value, news)
                elif isinstance(value, types.FunctionType):
                    self._replace_defaults(value, news)
            if len(self._undo) == count:
                _looked[name] = len(space)
        for name in ("supports_dir_fd", "supports_fd", "supports_follow_symlinks", "supports_effective_ids"):
            those = getattr(os, name)
            self._put(os, name, those | {news[id(one)] for one in those if id(one) in news})
        self._replace_made_of_files()
        for name in ("bind", "connect", "connect_ex"):
            self._put_own(socket.socket, name, self._check_address(name, getattr(socket.socket, name)))
        self._put(subprocess.Popen, "__init__", self._processes.popen(subprocess.Popen.__init__))
        ended = subprocess.Popen._handle_exitstatus  # type: ignore[attr-defined]
        self._put(subprocess.Popen, "_handle_exitstatus", self._processes.ended(ended))

    def _replace_in(self, kind: type, news: Dict[int, Any]) -> None:
        """The same for what a class has, and for what its methods have as defaults."""
        for name, value in list(vars(kind).items()):
            function = value.__func__ if isinstance(value, staticmethod) else value
            if id(function) in news:
                self._put(kind, name, staticmethod(news[id(function)]), value)
            elif isinstance(function, types.FunctionType):
                self._replace_defaults(function, news)
            elif isinstance(value, type) and value.__qualname__ == f"{kind.__qualname__}.{name}":
                self._replace_in(value, news)

    def _replace_defaults(self, function: types.FunctionType, news: Dict[int, Any]) -> None:
        if any(id(one) in news for one in function.__defaults__ or ()):
            self._put(function, "__defaults__", tuple(news.get(id(one), one) for one in function.__defaults__ or ()))
        if any(id(one) in news for one in (function.__kwdefaults__ or {}).values()):
            self._put(
                function,
                "__kwdefaults__",
                {name: news.get(id(one), one) for name, one in function.__kwdefaults__.items()},
            )

    def _put(self, owner: Any, name: str, new: Any, old: Any = None) -> None:
        old = getattr(owner, name) if old is None else old
        self._undo.append(lambda: setattr(owner, name, old))
        setattr(owner, name, new)

    def _put_own(self, kind: Any, name: str, new: Any) -> None:
        """The same for what a class has of another, until then."""
        own = vars(kind).get(name)
        self._undo.append(lambda: delattr(kind, name) if own is None else setattr(kind, name, own))
        setattr(kind, name, new)

    # ---- What is put in the place of a function, by what it takes

    def _own(self) -> Dict[str, Callable[[Function], Function]]:
        """What makes the functions that are of no kind with others."""
        processes = self._processes
        return {
            **{"builtins.open": self._open, "io.open_code": self._open_code, "sqlite3.connect": self._connect},
            **{"os.getcwd": self._getcwd, "os.getcwdb": self._getcwdb, "os.closerange": self._closerange},
            **{"os.symlink": self._symlink, "os.umask": self._umask, "os.dup2": self._dup2},
            **{"os.system": processes.system, "os._spawnvef": processes.forked},
            "_posixsubprocess.fork_exec": processes.fork_exec,
            **dict.fromkeys(_table.WAITS, processes.waited),
            "faulthandler.dump_traceback": self._traced,
            **{name: functools.partial(self._traced_by_c, name) for name in _table.TRACES},
            **{name: functools.partial(processes.spawned, name) for name in _table.SPAWNS},
            **{name: functools.partial(self._opened_by_c, name) for name in _table.DATABASES},
            "dbm.open": self._database,
        }

    def _made(self, name: str, real: Any, own: Dict[str, Callable[[Function], Function]]) -> Any:
        if name in _table.CLASSES:
            return entries_as(real) if name == "os.DirEntry" else self._guarded(name, real)
        function = self._door.function
        if name == "builtins.open":
            return function("open", own[name](real), real, self._open_inside)
        if name in own:
            return function("other", own[name](real), real)
        if name in _table.OF_PATHS:
            return function("paths", self._of_paths(name, real, *_table.OF_PATHS[name]), real, self._inside(name))
        on_disk = self._working(real) if name in _table.WORKS else real
        if name in _table.OF_DESCRIPTORS:
            keys = _table.OF_DESCRIPTORS[name]
            made = self._of_descriptors(name, on_disk, keys)
            kind = "descriptor" if len(keys) == 1 and on_disk is real else "other"
            return function(kind, made, real, self._inside(name))
        made = self._of_path(name, on_disk, _table.OF_PATH[name])
        if name in _table.EXECS:
            return function("other", self._processes.executed(name, real, made), real)
        kind = "path" if on_disk is real else "other"
        return function(kind, made, real, self._inside(name), name in _table.PATHLESS)

    def _inside(self, name: str) -> Function:
        """The function over the tree; of what is refused, one that raises why."""
        if name in _table.REFUSED and name not in _table.NUMBERS:

            def refuse(place: Any, *given: Any, **named: Any) -> None:
                raise _table.refusal(name, *([place.path] if isinstance(place, Place) else []))

            return refuse
        function: Function = getattr(self._sandbox, _table.NAMES.get(name, name.rpartition(".")[2]))
        return function

    def _of_path(self, name: str, real: Function, key: str) -> Function:
        inside = self._inside(name)
        follow = None if name in _table.OF_LINKS else name not in _table.OF_ENTRIES
        follows = _follows if name == "os.open" else None
        of_number = self._of_number(name, real, inside)

        def function(*given: Any, **named: Any) -> Any:
            if given:
                path, rest = given[0], given[1:]
            elif key in named or name in _table.HERE:
                path, rest = named.pop(key, None), ()
            else:
                return real(*given, **named)
            if path is None and name in _table.HERE:
                path = "."
            named_so = path if name not in _table.PATHLESS else None
            if isinstance(path, _BYTES_LIKE):
                path = _bytes_of(name, key, path, real in os.supports_fd)
            if isinstance(path, int):
                return of_number(path, *rest, **named)
            try:
                to_end = follows(path, *rest, **named) if follows else follow
                if to_end and not named.get("follow_symlinks", True):
                    to_end = None
                place = self._places.of(path, named.get("dir_fd"), to_end)
            except TypeError:
                return real(path, *rest, **named)
            except OSError:
                if name == "os.access":
                    return False
                with told(named_so):
                    raise
            if place.inside is None and not place.moved:
                return real(place.path, *rest, **named)
            named.pop("dir_fd", None)
            with told(named_so):
                return inside(place, *rest, **named) if place.inside is not None else real(place.path, *rest, **named)

        return function

    def _of_number(self, name: str, real: Function, inside: Function) -> Function:
        """The function of a path, where a descriptor is given in its place."""
        of_descriptor = self._inside(_table.BY_DESCRIPTOR[name]) if name in _table.BY_DESCRIPTOR else None

        def function(descriptor: int, *rest: Any, **named: Any) -> Any:
            if descriptor not in self._files or (of_descriptor is None and real not in os.supports_fd):
                return real(descriptor, *rest, **named)
            if of_descriptor is not None:
                return self._of_one(of_descriptor, descriptor, *rest, **named)
            return self._by_place(inside, descriptor, *rest, **named)

        return function

    def _of_one(self, inside: Function, *given: Any, **named: Any) -> Any:
        """A call on descriptors of the tree, whose error tells the path at which the tree stands."""
        try:
            return inside(*given, **named)
        except OSError as error:
            if isinstance(error.filename, str):
                error.filename = self._places.outside(error.filename)
            raise

    def _by_place(self, inside: Function, descriptor: int, *given: Any, **named: Any) -> Any:
        """A call on a path, for which a descriptor of the tree was given."""
        with self.tree._door:
            place = self._sandbox.place(descriptor)
            if place is None and inside in (self._sandbox.listdir, self._sandbox.scandir):
                return self._sandbox.no_entries(descriptor, inside == self._sandbox.scandir)
            if place is None:
                raise OSError(errno.ENOENT, os.strerror(errno.ENOENT))
            return self._of_one(inside, place, *given, **named)

    def _of_paths(self, name: str, real: Function, first: str, second: str) -> Function:
        inside, keys = self._inside(name), ("src_dir_fd", "dst_dir_fd")

        def function(*given: Any, **named: Any) -> Any:
            paths = [*given[:2], *(named.pop(key) for key in (first, second)[len(given[:2]) :] if key in named)]
            named_so = paths
            paths = [_bytes_of(name, "path", path) if isinstance(path, _BYTES_LIKE) else path for path in paths]
            if len(paths) < 2:
                return real(*paths, **named)
            try:
                with told(*named_so):
                    places = self._two_places(paths, [named.get(key) for key in keys])
            except TypeError:
                return real(*paths, *given[2:], **named)
            if all(place.inside is None for place in places):
                for place, key in zip(places, keys):
                    if place.moved:
                        named.pop(key, None)
                return real(*(place.path for place in places), *given[2:], **named)
            with told(*named_so):
                if any(path in ("", b"") for path in paths):
                    failed(errno.ENOENT)
                if any(place.inside is None for place in places):
                    failed(errno.EXDEV)
                return inside(*places)

        return function

    def _two_places(self, paths: List[Any], directories: List[Any]) -> List[Place]:
        """Where two paths lead; the system goes the first one before it looks at the second."""
        first = self._places.of(paths[0], directories[0], False)
        try:
            return [first, self._places.of(paths[1], directories[1], False)]
        except OSError:
            if first.inside is not None:
                self._sandbox.go_to(first)
            raise

    def _of_descriptors(self, name: str, real: Function, keys: Tuple[str, ...]) -> Function:
        inside = self._inside(name)

        def function(*given: Any, **named: Any) -> Any:
            found = [*given[: len(keys)], *(named[key] for key in keys if key in named)]
            numbers = [one if isinstance(one, int) else number_of(one) for one in found]
            if not any(one in self._files for one in numbers):
                return real(*given, **named)
            if numbers != found and name in ("os.fsync", "os.fdatasync"):
                given, named = (*numbers, *given[len(keys) :]), {}
            if len(keys) == 1 and not given:
                return self._of_one(inside, named.pop(keys[0]), **named)
            return self._of_one(inside, *given, **named)

        return function

    # ---- Functions of their own

    def _open(self, real: Function) -> Function:
        def function(
            file: Any,
            mode: str = "r",
            buffering: int = -1,
            encoding: Optional[str] = None,
            errors: Optional[str] = None,
            newline: Optional[str] = None,
            closefd: bool = True,
            opener: Optional[Function] = None,
        ) -> Any:
            words = mode, buffering, encoding, errors, newline
            if isinstance(file, _BYTES_LIKE):
                return real(file, *words, closefd, opener)
            if isinstance(file, int):
                if file not in self._files:
                    return real(file, *words, closefd, opener)
                _walk.check_words(mode, encoding, errors, newline)
                return self._sandbox.file(file, file, *words, closefd)
            try:
                with told(file):
                    place = self._places.of(file, None, _follows(file, _flags_of(mode)))
            except TypeError:
                return real(file, *words, closefd, opener)
            if not isinstance(mode, str) or (place.inside is None and opener is None):
                return real(place.path, *words, closefd, opener)
            if opener is None:
                with told(file):
                    return self._open_inside(place, file, *words, closefd)
            _walk.check_words(mode, encoding, errors, newline)
            if not closefd:
                raise ValueError(_KEPT_OPEN)
            name = os.fspath(file)
            descriptor: int = opener(name, flags_of(mode))
            if descriptor not in self._files:
                return real(name, *words, True, lambda *given: descriptor)
            with told(file):
                return self._sandbox.file(descriptor, name, *words)

        return function

    def _open_inside(
        self,
        place: Place,
        file: Any,
        mode: str = "r",
        buffering: int = -1,
        encoding: Optional[str] = None,
        errors: Optional[str] = None,
        newline: Optional[str] = None,
        closefd: bool = True,
        opener: None = None,
    ) -> Any:
        """`open` of a path of the tree."""
        if not isinstance(mode, str):
            return self._real["builtins.open"](file, mode)
        _walk.check_words(mode, encoding, errors, newline)
        if not closefd:
            raise ValueError(_KEPT_OPEN)
        sandbox = self._sandbox
        descriptor = sandbox.open(place, flags_of(mode), 0o666)
        name = file if file.__class__ is str else os.fspath(file)
        return sandbox.file(descriptor, name, mode, buffering, encoding, errors, newline)

    def _open_code(self, real: Function) -> Function:
        opened = self._open(lambda path, *given: real(path))
        return lambda path: opened(path, "rb")

    def _working(self, real: Function) -> Function:
        """Behind a change to a directory of the disk the working one is none of the tree."""

        def function(*given: Any, **named: Any) -> None:
            real(*given, **named)
            self._files.work_in(None)

        return function

    def _getcwd(self, real: Function) -> Function:
        def function() -> str:
            working = self._files.working
            if working is None:
                return real()  # type: ignore[no-any-return]
            if working.path is None:
                raise FileNotFoundError(errno.ENOENT, os.strerror(errno.ENOENT))
            return self._places.outside(working.path)

        return function

    def _getcwdb(self, real: Function) -> Function:
        text = self._getcwd(lambda: os.fsdecode(real()))
        return lambda: os.fsencode(text())

    def _closerange(self, real: Function) -> Function:
        def function(fd_low: int, fd_high: int) -> None:
            self._files.close_range(fd_low, fd_high)
            real(fd_low, fd_high)

        return function

    def _dup2(self, real: Function) -> Function:
        def function(fd: int, fd2: int, inheritable: bool = True) -> int:
            if fd not in self._files and fd2 not in self._files:
                return real(fd, fd2, inheritable)  # type: ignore[no-any-return]
            if fd in self._files and fd2 <= _STANDARD:
                # C writes to these by itself.
                raise _table.refusal("os.dup2")
            return self._sandbox.dup2(fd, fd2, inheritable)

        return function

    def _symlink(self, real: Function) -> Function:
        def function(src: Any, dst: Any, target_is_directory: bool = False, *, dir_fd: Optional[int] = None) -> None:
            try:
                with told(src, dst):
                    place = self._places.of(dst, dir_fd, False)
                text = os.fsdecode(src)
            except TypeError:
                return real(src, dst, target_is_directory, dir_fd=dir_fd)  # type: ignore[no-any-return]
            if place.inside is None:
                # The text of a link leads on from where the link is, and is as it is.
                if os.path.isabs(text) and self._processes.inside(text):
                    raise OSError(errno.EPERM, "os.symlink: a link of the disk leads into no tree", src, None, dst)
                return real(src, place.path, target_is_directory, dir_fd=None if place.moved else dir_fd)  # type: ignore[no-any-return]
            with told(src, dst):
                self._sandbox.symlink(place, text)

        return function

    def _umask(self, real: Function) -> Function:
        def function(mask: int) -> int:
            was: int = real(mask)
            self._metadata().mask = mask & 0o777
            return was

        return function

    # ---- What is refused

    def _guarded(self, name: str, real: type) -> type:
        """A class that looks at its first argument before it makes anything."""
        key, is_file, is_map = _table.CLASSES[name], name == "io.FileIO", name == "mmap.mmap"

        def function(*given: Any, **named: Any) -> Any:
            if self._active and is_file and (given or key in named):
                in_tree, words = self._raw(*given, **named)
                return DescribedFile.of(*words) if in_tree else real(*words)
            if self._active and not is_file:
                first = given[0] if given else named.get(key)
                if not is_map:
                    self._check_connection(first)
                elif first in self._files:
                    return Mapped.of(self._files, self._real, *given, **named)
            return real(*given, **named)

        begin = self._begin_raw if is_file else None
        return _made_by(real, function, begin)

    def _raw(
        self, file: Any, mode: str = "r", closefd: bool = True, opener: Optional[Function] = None
    ) -> Tuple[bool, Tuple[Any, ...]]:
        """What `io.FileIO` is made of: what a file object over the tree takes, or what the class of the disk is given."""
        words = file, mode, closefd, opener
        if isinstance(file, _BYTES_LIKE):
            return False, words
        if isinstance(file, int):
            return (True, self._described(file, file, mode, closefd)) if file in self._files else (False, words)
        try:
            with told(file):
                place = self._places.of(file, None, _follows(file, _flags_of(mode)))
        except TypeError:
            return False, words
        if not isinstance(mode, str) or (place.inside is None and opener is None):
            return False, (place.path, mode, closefd, opener)
        _check_raw_mode(mode)
        if not closefd:
            raise ValueError(_KEPT_OPEN)
        name, flags = os.fspath(file), flags_of(mode)
        if opener is None:
            with told(file):
                descriptor: int = self._sandbox.open(place, flags, 0o666)
        else:
            descriptor = opener(name, flags)
            if descriptor not in self._files:
                return False, (name, mode, True, lambda *given: descriptor)
        with told(file):
            return True, self._described(descriptor, name, mode, closefd)

    def _described(self, descriptor: int, name: Any, mode: str, closefd: bool) -> Tuple[Any, ...]:
        self._sandbox.check_file(descriptor, name, closefd)
        return self._files, descriptor, name, mode, closefd

    def _begin_raw(self, file: Any, *given: Any, **named: Any) -> None:
        """The begin of a file object whose class was made of `io.FileIO` meanwhile."""
        in_tree, words = self._raw(*given, **named) if self._active else (False, (*given, *named.values()))
        if not self._active:
            _FileIO.__init__(file, *given, **named)
        elif in_tree:
            if not isinstance(file, DescribedFile):
                file.__class__ = self._twin(type(file))
            file._begin(*words)
        else:
            if isinstance(file, DescribedFile):
                file.__class__ = type(file)._of_disk  # type: ignore[assignment]
            self._real["io.FileIO"].__init__(file, *words)  # type: ignore[misc]

    def _twin(self, kind: type) -> type:
        if kind not in self._twins:
            self._twins[kind] = twin_of(kind, self._raw, self._real["io.FileIO"])
        return self._twins[kind]

    def _replace_made_of_files(self) -> None:
        """Lets the classes that are made of `io.FileIO`, which itself can't be changed, make objects whose files may be of the tree."""
        waiting = list(_FileIO.__subclasses__())
        while waiting:
            kind = waiting.pop()
            waiting += kind.__subclasses__()
            own = vars(kind).get("__new__")
            if issubclass(kind, DescribedFile) or isinstance(kind, _Guard) or (own and not hasattr(own, "of_atomfs")):
                continue
            self._undo.append(functools.partial(_put_back, kind, own))
            new = functools.partial(_new_raw, self)
            new.of_atomfs = True  # type: ignore[attr-defined]
            kind.__new__ = staticmethod(new)  # type: ignore[assignment]


def _bytes_of(name: str, key: str, path: Any, or_number: bool = False) -> bytes:
    """A path of other bytes, which functions of `os` take still."""
    kinds = "string, bytes, os.PathLike or integer" if or_number else "string, bytes or os.PathLike"
    words = f"{name.rpartition('.')[2]}: {key} should be {kinds}, not {type(path).__name__}"
    warned(words, DeprecationWarning)
    return bytes(path)


def _follows(path: Any, flags: int = 0, *given: Any, **named: Any) -> Optional[bool]:
    """Whether `os.open` goes on from a link at the end of a path; none where only a slash behind it leads on.

    Where a file may be made, a slash is an error before it leads anywhere.
    """
    flags = named.get("flags", flags)
    if not isinstance(flags, int):
        return True
    if flags & os.O_CREAT:
        return not flags & (os.O_NOFOLLOW | os.O_EXCL) and not os.fsdecode(path).endswith("/")
    return None if flags & os.O_NOFOLLOW else True


def _flags_of(mode: Any) -> int:
    """The flags of a mode of `open`, as far as it has a kind."""
    return flags_of(mode) if isinstance(mode, str) and not set(mode).isdisjoint("rwxa") else os.O_RDONLY


class _Guard(type):
    """The class of classes by whose call a function is called, and that else are as another."""

    _function: Function
    _real: type
    # Whether it is one of these itself, and none that is made of one.
    _first: Optional[type] = None

    def __call__(cls, *given: Any, **named: Any) -> Any:
        return cls._function(*given, **named) if cls._first is cls else super().__call__(*given, **named)

    def __instancecheck__(cls, one: Any) -> bool:
        return isinstance(one, cls._real) if cls._first is cls else bool(super().__instancecheck__(one))

    def __subclasscheck__(cls, one: Any) -> bool:
        return issubclass(one, cls._real) if cls._first is cls else bool(super().__subclasscheck__(one))


def _made_by(real: type, function: Function, begin: Optional[Function] = None) -> type:
    """A class by whose call a function is called, and that else is as `real`; `begin` is the `__init__` of those that are made of it."""
    kind = type(real)
    guard = kind if issubclass(kind, _Guard) else type("_Guard", (_Guard, kind), {}) if kind is not type else _Guard
    words: Dict[str, Any] = {"__doc__": real.__doc__, "__module__": real.__module__}
    if begin is not None:
        words["__init__"] = lambda self, *given, **named: begin(self, *given, **named)
    made: Any = guard(real.__name__, (real,), words)
    made._function, made._real, made._first = staticmethod(function), real, made
    return made  # type: ignore[no-any-return]


def _check_raw_mode(mode: str) -> None:
    """Raises what `io.FileIO` raises for a mode, before a file is made or emptied."""
    with _FileIO(os.devnull, "r") as file:
        _FileIO(file.fileno(), mode, False)


def _new_raw(patch: patch, cls: Any, *given: Any, **named: Any) -> Any:
    return _FileIO.__new__(patch._twin(cls) if patch._active and not issubclass(cls, DescribedFile) else cls)


def _put_back(kind: Any, own: Any) -> None:
    """Lets a class have its `__new__` again, or none of its own."""
    if own is None:
        del kind.__new__
    else:
        kind.__new__ = own


class _Known(NamedTuple):
    """What is known of a module from the first patch on that has found it."""

    module: Any
    #: What it has, if functions of it are replaced.
    space: Optional[Dict[str, Any]]
    #: Whether its classes and defaults of arguments are looked through too.
    deep: bool


def _modules() -> List[Tuple[str, _Known]]:
    """The modules that there are now: those that came since the last patch are looked at."""
    for name, module in list(sys.modules.items()):
        known = _found.get(name)
        if known is None or known.module is not module:
            _found[name] = _known_of(name, module)
    if len(_found) != len(sys.modules):
        for name in _found.keys() - sys.modules.keys():
            del _found[name]
    return list(_found.items())


def _known_of(name: str, module: Any) -> _Known:
    # A module that makes its names as they are asked for, as those of `py`, has those that were.
    space = _OF_MODULE.__get__(module) if isinstance(module, types.ModuleType) else getattr(module, "__dict__", None)
    if type(space) is not dict:
        return _Known(module, None, False)
    file = getattr(module, "__file__", None) or ""
    of_python = file.startswith(_OF_PYTHON) and "-packages" not in file
    of_user = file.endswith(".py") and (not of_python or name.startswith("test."))
    deep = name in _DEEP or name == "__main__" or of_user
    is_kept = name.startswith("atomfs._")
    return _Known(module, None if is_kept else space, deep and not name.startswith("atomfs."))


def _deep() -> Iterator[Tuple[str, Dict[str, Any]]]:
    """The modules whose classes and defaults are looked through, and what they have."""
    for name, known in _modules():
        if known.deep and known.space is not None and _looked.get(name) != len(known.space):
            yield name, known.space


def _swap(news: Dict[int, Any]) -> None:
    """Puts what is new in the place of what is old, in each module that has it under some name.

    All names are looked at each time, since any may have come since.
    """
    for space, key in places([known.space for _, known in _modules() if known.space is not None], news):
        space[key] = news[id(space[key])]
