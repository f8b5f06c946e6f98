"""What starts programs of the disk, while a tree stands there: none of them sees a tree, so each is refused, or works in a real directory
that is as the tree while it runs (`_mirror.py`)."""
from __future__ import annotations

import contextlib
import errno
import functools
import os
from typing import Any, Callable, Dict, Iterator, List, Optional

from . import _table
from ._descriptors import Descriptors
from ._mirror import Mirror
from ._places import Places

Function = Callable[..., Any]
_POPEN = "subprocess.Popen"
# The arguments of `subprocess.Popen` behind the first, by their places.
_WORDS = (
    *("bufsize", "executable", "stdin", "stdout", "stderr", "preexec_fn", "close_fds", "shell", "cwd", "env"),
    *("universal_newlines", "startupinfo", "creationflags", "restore_signals", "start_new_session", "pass_fds"),
)
_FILES = "stdin", "stdout", "stderr"
# Nothing can be there.
_NO_PROGRAM = f"{os.devnull}/none"
# Of `_posixsubprocess.fork_exec`: descriptors that are kept, where it works, and the ends of its pipes.
_KEPT, _CWD, _PIPES = 3, 4, slice(6, 12)


def number_of(file: Any) -> Optional[int]:
    """The descriptor of what is one, or has one."""
    if isinstance(file, int) or not hasattr(file, "fileno"):
        return file if isinstance(file, int) else None
    try:
        number: int = file.fileno()
    except (OSError, ValueError):
        return None
    return number


class Processes:
    """The functions that start programs, over those of the disk. `mirror` is none where they are refused."""

    def __init__(self, patch: Any, files: Descriptors, places: Places, mirror: Optional[Mirror]) -> None:
        self._patch, self._files, self._places, self._mirror = patch, files, places, mirror

    def inside(self, path: Any) -> bool:
        """Whether something is a path of the tree, or a descriptor of it."""
        if isinstance(path, int):
            return path in self._files
        return isinstance(path, (str, bytes, os.PathLike)) and self._places.of(path).inside is not None

    def _working(self) -> Optional[str]:
        """The working directory, where it is one of the tree."""
        node = self._files.working
        if node is None:
            return None
        if node.path is None:
            raise FileNotFoundError(errno.ENOENT, os.strerror(errno.ENOENT))
        return self._places.outside(node.path)

    def _named(self, words: Any) -> Optional[str]:
        """A word of a command in which the directory is named."""
        for word in words:
            if isinstance(word, (str, bytes, os.PathLike)):
                text = os.fsdecode(word)
                if text.endswith(self._places.at) or f"{self._places.at}/" in text:
                    return text
        return None

    @contextlib.contextmanager
    def _used(self, name: str, path: Any, working: Optional[str]) -> Iterator[Mirror]:
        """Lets a program that is started meanwhile find the tree on the disk, or refuses it."""
        if self._mirror is None:
            raise _table.refusal(name, path)
        self._mirror.begin()
        try:
            with self._mirror.working(working):
                yield self._mirror
        except BaseException:
            self._mirror.end()
            raise

    # ---- By a function

    def system(self, real: Function) -> Function:
        """`os.system`."""

        def function(command: Any) -> Any:
            working = self._working()
            named = working or self._named([command])
            if named is None:
                return real(command)
            with self._used("os.system", named, working) as mirror:
                status = real(command)
            mirror.end()
            return status

        return function

    def executed(self, name: str, real: Function, of_path: Function) -> Function:
        """`os.execv` and so on: the program comes in the place of this one, and brings nothing back."""

        def function(*given: Any, **named: Any) -> Any:
            working = self._working()
            if working is None:
                return of_path(*given, **named)
            with contextlib.suppress(OSError):
                # Raises what is wrong in the words.
                real(_NO_PROGRAM, *given[1:], **{key: value for key, value in named.items() if key != "path"})
            raise _table.refusal(name, working)

        return function

    def spawned(self, name: str, real: Function) -> Function:
        """`os.posix_spawn` and so on."""

        def function(*given: Any, **named: Any) -> Any:
            path = given[0] if given else named.get("path")
            actions = [
                one for one in named.get("file_actions") or () if isinstance(one, (tuple, list)) and len(one) > 2
            ]
            opened = [one[2] for one in actions if one[0] == os.POSIX_SPAWN_OPEN]
            numbers = [one[1] for one in actions if one[0] == os.POSIX_SPAWN_DUP2]
            working = self._working()
            words = given[1] if len(given) > 1 else named.get("argv") or ()
            inside = next((one for one in (path, *opened, *numbers) if self.inside(one)), None)
            asked = inside or working or (self._named(words) if isinstance(words, (list, tuple)) else None)
            if asked is None:
                return real(*given, **named)
            with self._used(name, asked, working) as mirror:
                ends = [mirror.end]
                if named.get("file_actions"):
                    named["file_actions"] = [self._of_mirror(mirror, one, ends) for one in named["file_actions"]]
                mirror.waited[pid := real(*given, **named)] = lambda: [end() for end in ends]
                return pid

        return function

    def _of_mirror(self, mirror: Mirror, action: Any, ends: List[Function]) -> Any:
        """What a program is to do with a descriptor of the tree, with one of the disk in its place."""
        known = isinstance(action, (tuple, list)) and len(action) > 2
        if known and action[0] == os.POSIX_SPAWN_DUP2 and action[1] in self._files:
            number, back = mirror.opened(self._files.of(action[1]))
            ends.append(back)
            return (action[0], number, *action[2:])
        return action

    def forked(self, real: Function) -> Function:
        """`os._spawnvef`, of which `os.spawnv` and so on are made."""
        name = "os._spawnvef"

        def function(mode: int, file: Any, args: Any, env: Any, func: Function) -> Any:
            working = self._working()
            words = [file, *args] if isinstance(args, (list, tuple)) else [file]
            asked = working or (file if self.inside(file) else None) or self._named(words)
            if asked is None:
                return real(mode, file, args, env, func)

            def executes(*given: Any) -> Any:
                # In the new process the tree is nowhere.
                self._patch._active = False
                return func(*given)

            with self._used(name, asked, working) as mirror:
                found = real(mode, file, args, env, executes)
                if mode == os.P_NOWAIT:
                    return self._awaited(mirror, found)
            mirror.end()
            return found

        return function

    def fork_exec(self, real: Function) -> Function:
        """`_posixsubprocess.fork_exec`, of which `subprocess` and `multiprocessing` are made."""
        name = "_posixsubprocess.fork_exec"

        def function(*given: Any) -> Any:
            if any(self._files.holds(one) for one in (*given[_KEPT], *given[_PIPES])):
                raise _table.refusal(name, self._places.at)
            working = self._working() if given[_CWD] is None else None
            if working is None and (given[_CWD] is None or not self.inside(given[_CWD])):
                return real(*given)
            if working is None and self._mirror is not None and self._mirror.users:
                # `subprocess.Popen` has made what it needs.
                return real(*given)
            with self._used(name, working or given[_CWD], working) as mirror:
                return self._awaited(mirror, real(*given))

        return function

    def _awaited(self, mirror: Mirror, pid: int) -> int:
        mirror.waited[pid] = mirror.end
        return pid

    def waited(self, real: Function) -> Function:
        """`os.waitpid` and so on: once a program has ended, what it changed comes back."""

        def function(*given: Any, **named: Any) -> Any:
            found = real(*given, **named)
            if self._mirror is not None and self._mirror.waited and isinstance(found, tuple) and len(found) > 1:
                if os.WIFEXITED(found[1]) or os.WIFSIGNALED(found[1]):
                    self._mirror.waited.pop(found[0], lambda: None)()
            return found

        return function

    # ---- `subprocess.Popen`

    def popen(self, real: Function) -> Function:
        """What makes a `subprocess.Popen`."""

        @functools.wraps(real)
        def function(process: Any, args: Any, *given: Any, **named: Any) -> None:
            if not self._patch._active:
                return real(process, args, *given, **named)  # type: ignore[no-any-return]
            words = {**dict(zip(_WORDS, given)), **named}
            args = args if isinstance(args, (str, bytes, os.PathLike)) else list(args)
            asked = self._asked(args, words)
            if asked is None:
                return real(process, args, **words)  # type: ignore[no-any-return]
            self._mirrored(process, real, asked, args, words)

        return function

    def _asked(self, args: Any, words: Dict[str, Any]) -> Optional[str]:
        """What of the tree a program would need."""
        if any(one in self._files for one in words.get("pass_fds") or ()):
            raise _table.refusal(_POPEN)
        of_args = list(args) if isinstance(args, list) else [args]
        programs = [*of_args[:1], words.get("executable")]
        cwd = words.get("cwd")
        if cwd is None and self._working() is not None:
            return self._working()
        # A program without a slash is looked for elsewhere.
        for path in (cwd, *(one for one in programs if one is not None and "/" in os.fsdecode(one))):
            if self.inside(path):
                return os.fsdecode(path)
        if any(number_of(words.get(name)) in self._files for name in _FILES):
            return self._places.at
        return self._named(of_args) or (
            self._named(dict(words["env"]).values()) if words.get("env") and self._mirror is not None else None
        )

    def _mirrored(self, process: Any, real: Function, asked: str, args: Any, words: Dict[str, Any]) -> None:
        if self._mirror is None:
            raise _table.refusal(_POPEN, asked)
        mirror, backs = self._mirror, []
        mirror.begin()
        try:
            words = {**words, **self._of_disk(words)}
            for name in _FILES:
                number = number_of(words.get(name))
                if number is not None and number in self._files:
                    words[name], back = mirror.opened(self._files.of(number))
                    backs.append(back)
            real(process, args, **words)
        except BaseException:
            self._end(mirror, backs)
            raise
        process._ended_in_tree = functools.partial(self._end, mirror, backs)

    def _of_disk(self, words: Dict[str, Any]) -> Dict[str, Any]:
        """Where the program works, as the system finds it."""
        cwd = words.get("cwd")
        if cwd is None:
            working = self._working()
            return {} if working is None else {"cwd": working}
        place = self._places.of(cwd)
        return {"cwd": place.path if place.inside is None else self._places.outside(place.inside)}

    @staticmethod
    def _end(mirror: Mirror, backs: List[Callable[[], None]]) -> None:
        mirror.end()
        for back in backs:
            back()

    @staticmethod
    def ended(real: Function) -> Function:
        """What a `subprocess.Popen` is told of its end."""

        @functools.wraps(real)
        def function(process: Any, *given: Any, **named: Any) -> None:
            real(process, *given, **named)
            process.__dict__.pop("_ended_in_tree", lambda: None)()

        return function
