"""Histories of any file tree: when its calls began, and what they returned.

Each entry has a number from one counter: a begin has taken it before the call starts, and a return takes it once the call has ended. In
their order no call is shorter than it was, so where no order explains a history, the tree is at fault and not the recorder.
"""
from __future__ import annotations

import errno
import sys
import threading
import warnings
from typing import (
    TYPE_CHECKING,
    Any,
    ContextManager,
    Dict,
    Iterable,
    List,
    Literal,
    Mapping,
    Optional,
    Tuple,
    Type,
    Union,
    overload,
)

from ._errors import AnyPath, encoded
from ._library import Call, Limits, library
from ._linearize import Linearized, linearize
from ._load import Snapshot
from ._orders import draw_history
from ._page import Page
from ._script import AnyCall, planned, quoted
from ._tools import Picture
from ._values import Data, bytes_of, number_of

if TYPE_CHECKING:
    from ._tree import Tree

Errors = Mapping[Type[BaseException], Optional[int]]
# The errors that a tree here has, and one of those that have the call `list`. Another one is told as `failed ?`.
_KNOWN = frozenset("ENOENT ENOTDIR EEXIST ENOTEMPTY EISDIR EINVAL EBUSY EPERM ENOSPC EFBIG".split())
_OF_LISTS = "EOVERFLOW"
_ANY = "?"
# What libraries raise without a number.
_WITHOUT_NUMBER: Dict[Type[OSError], int] = {
    FileNotFoundError: errno.ENOENT,
    FileExistsError: errno.EEXIST,
    NotADirectoryError: errno.ENOTDIR,
    IsADirectoryError: errno.EISDIR,
}
# The errors of PyFilesystem2 by their names, since it is not imported here; `ResourceNotFound` is ENOENT or ENOTDIR.
_OF_FS = {
    "DirectoryExpected": errno.ENOTDIR,
    "FileExpected": errno.EISDIR,
    "DestinationExists": errno.EEXIST,
    "DirectoryExists": errno.EEXIST,
    "FileExists": errno.EEXIST,
    "DirectoryNotEmpty": errno.ENOTEMPTY,
    "RemoveRootError": errno.EBUSY,
}
# Behind these a call may have taken effect, or may do so later.
_UNSURE = TimeoutError, ConnectionError, InterruptedError
_UNSURE_NUMBERS = {errno.EIO, errno.EINTR, errno.ETIMEDOUT}
_UNSURE_OF_FS = {"OperationTimeout", "RemoteConnectionError"}
# What tells the reply of a call, where that is more than that it is done.
_TELLS = {Call.STAT: "stat", Call.READDIR: "names", Call.LIST: "names", Call.READ: "data", Call.WRITE: "wrote"}


class Answer:
    """The reply of a call, which the block of a `with` reports. A call without a result, such as `mkdir`, needs no report: it is done when its
    block ends.

    To report the reply of another kind of call is a `TypeError`, and so is a second reply.
    """

    def __init__(self, call: Call, limits: Limits) -> None:
        self._call, self._limits = call, limits
        self._reply: Optional[str] = None
        #: The error that ended the block, where it is the reply.
        self.error: Optional[BaseException] = None

    def stat(self, is_dir: bool, size: Optional[int] = None, *, entries: Optional[int] = None) -> None:
        """Of `stat`: a file of `size` bytes, or a directory of so many `entries`, where that is known. The size of a directory, which is
        another thing in other trees, is not looked at, nor are entries of a file.

        Raises `TypeError` if `is_dir` is no `bool`, or if the size of a file is missing, and `ValueError` for a negative number.
        """
        if not isinstance(is_dir, bool):
            raise TypeError(f"stat takes whether there is a directory, and this is {type(is_dir).__name__}")
        if is_dir:
            self._tell("stat", f"stat dir {_ANY if entries is None else number_of(entries, 'number of entries')}")
        elif size is None:
            raise TypeError("the size of a file is not told")
        else:
            self._tell("stat", f"stat file {number_of(size, 'size')}")

    def names(self, names: Iterable[AnyPath]) -> None:
        """Reports the names of a `readdir` or a `list`, in any order. Raises `ValueError` if one of them is not a name."""
        if isinstance(names, (str, bytes)):
            raise TypeError(f"names takes several names, and this is {type(names).__name__}")
        raw = sorted(map(encoded, names))
        for name in raw:
            path = b"/" + name
            if not name or b"/" in name or library().check_path(path, len(path), self._limits.value):
                raise ValueError(f"{name!r} is no name")
        self._tell("names", " ".join(["names", *map(quoted, raw)]))

    def data(self, data: Data) -> None:
        """Of `read`: the bytes. Raises `TypeError` for what are none."""
        self._tell("data", f"bytes {bytes_of(data, 'data').hex() or '-'}")

    def wrote(self, count: int) -> None:
        """Of `write`: how many bytes were written. Raises `TypeError` or `ValueError` for what is no count."""
        self._tell("wrote", f"wrote {number_of(count, 'count')}")

    def failed(self, number: Optional[int] = None) -> None:
        """Reports the error of a call that returns it in place of raising it: its number, or None for an error that this tree does not have.

        A number that no call has counts as such an error too, and raises nothing.
        """
        self._tell("failed", f"failed {_word(number, self._call, self._limits)}")

    def _tell(self, what: str, reply: str) -> None:
        if what not in ("failed", _TELLS.get(self._call)):
            raise TypeError(f"{what} tells no reply of {self._call.name.lower()}")
        if self._reply is not None:
            raise TypeError(f"the reply is told already: {self._reply}")
        self._reply = reply

    def _told(self) -> str:
        """The reply of a call whose block has ended."""
        if self._reply is None and self._call in _TELLS:
            raise TypeError(
                f"{self._call.name.lower()} has ended, and its reply is not told: {_TELLS[self._call]} tells it"
            )
        return self._reply or "ok"


def _word(number: Optional[int], call: Call, limits: Limits) -> str:
    """The word of an error. Linux says EISDIR where POSIX says EPERM: a directory is no file that `unlink` removes."""
    if number == errno.EISDIR and call == Call.UNLINK:
        number = errno.EPERM
    word = errno.errorcode.get(number, _ANY) if number is not None else _ANY
    return word if word in _KNOWN or limits.has_list and word == _OF_LISTS else _ANY


def _number_without(error: OSError) -> Optional[int]:
    """The number of an error that was raised without one."""
    return next((number for kind, number in _WITHOUT_NUMBER.items() if isinstance(error, kind)), None)


def _failure(error: BaseException, call: Call, errors: Errors, limits: Limits) -> Optional[str]:
    """The word of an error that is a reply. Behind any other it is not known what became of the call."""
    for kind, number in errors.items():
        if isinstance(error, kind):
            return _word(number, call, limits)
    if isinstance(error, OSError):
        unsure = isinstance(error, _UNSURE) or error.errno in _UNSURE_NUMBERS
        return None if unsure else _word(_number_without(error) if error.errno is None else error.errno, call, limits)
    if not isinstance(error, getattr(sys.modules.get("fs.errors"), "FSError", ())):
        return None
    names = [kind.__name__ for kind in type(error).__mro__]
    if _UNSURE_OF_FS.intersection(names):
        return None
    return _word(next((_OF_FS[name] for name in names if name in _OF_FS), None), call, limits)


class _Recorded:
    """A call that is recorded while its block runs."""

    def __init__(self, history: History, call: Call, line: str) -> None:
        self._history, self._call, self._line = history, call, line
        self._answer: Optional[Answer] = None

    def __del__(self) -> None:
        if self._answer is None:
            warnings.warn(f"{self._line} is not recorded: it is by `with`", RuntimeWarning, source=self)

    def __enter__(self) -> Answer:
        if self._answer is not None:
            raise RuntimeError(f"{self._line} is recorded already: another call is made for another block")
        self._answer = Answer(self._call, self._history.limits)
        self._number, self._seat = self._history._begin(self._line)
        return self._answer

    def __exit__(self, kind: object, error: Optional[BaseException], trace: object) -> bool:
        at, answer = self._history._count(), self._answer
        assert answer is not None
        reply = answer._told() if error is None else answer._reply
        if (
            error is not None
            and reply is None
            and (word := _failure(error, self._call, self._history._errors, self._history.limits))
        ):
            answer.error, reply = error, f"failed {word}"
        if reply is not None:
            self._history._return(at, self._number, self._seat, reply)
        return answer.error is not None


class History:
    """The calls that any number of threads make on a file tree, be it a library's, a store's or a kernel's; `linearize` judges them.

        history = atomfs.History()

        # On each thread:
        with history.call("mkdir", "/a"):
            tree.makedir("/a")
        with history.call("readdir", "/a") as answer:
            answer.names(tree.listdir("/a"))

        print(history.linearize())

    The tree begins with its root alone, or as `start`. Names and files have the limits of `start`, or `limits`.

    An `OSError` that leaves the block is the reply of the call. So is an error of PyFilesystem2, or of a class in `errors`, a dictionary from classes
    to error numbers, or to None for an error that this tree does not have. Such an error ends the block, and is in `answer.error`. After a timeout, a
    broken connection or any other exception, which is raised on, the call stays pending: it may have taken effect, or not.

    Record a single thread first. If even that has no explanation, the tree follows other rules, and you have not found a race.
    """

    def __init__(
        self,
        start: Union[Tree, Snapshot, None] = None,
        *,
        limits: Optional[Limits] = None,
        errors: Optional[Errors] = None,
    ) -> None:
        if start is not None and limits not in (None, start.limits):
            raise ValueError(f"the start tree is by {start.limits}, and not by {limits}")
        #: The limits of names and files.
        self.limits: Limits = start.limits if start is not None else Limits.V3 if limits is None else Limits(limits)
        self._opening = _opening(start, self.limits)
        self._errors: Errors = dict(errors or {})
        # A call can begin while another one of this thread ends.
        self._lock = threading.RLock()
        self._entries: List[Tuple[int, str]] = []
        self._counter, self._begun, self._returned, self._seats = 0, 0, 0, 0
        # The seats of each thread on which no call is under way.
        self._free: Dict[int, List[int]] = {}

    def __repr__(self) -> str:
        return f"<atomfs.History of {self._begun:,} calls, {self._begun - self._returned:,} of them under way>"

    def call(self, call: str, *words: Any) -> ContextManager[Answer]:
        """Records a call, which is made in the block of a `with`: `call("mkdir /a")`, as in a script, or `call("mkdir", "/a")`.

        After its name come the arguments of the method of `Tree`: `call("write", "/f", 0, b"x")`. In the block, report the reply of a `stat`,
        `readdir`, `list`, `read` or `write` to the `Answer` that the block gets.

        Raises `ValueError` or `TypeError` if this is not a call, if what is reported is not a reply, or if the block ends without a report. The
        call stays pending then.
        """
        return _Recorded(self, *self._read(call, words))

    def text(self) -> str:
        """The history so far: a journal without its lines `commit`, in which calls that have not returned are pending.

        It raises nothing.
        """
        with self._lock:
            entries = sorted(self._entries)
        return "".join(f"{line}\n" for line in (*self._opening, *(line for _, line in entries)))

    def linearize(self, limit: Optional[int] = None) -> Linearized:
        """Finds an order in which the calls so far can have taken effect, or the first return up to which no order explains them, like the
        function `linearize`.

        Raises `ValueError` if this is not a history, and `MemoryError`.
        """
        return linearize(self.text(), limit)

    @overload
    def draw(self, limit: Optional[int] = None, *, html: Literal[False] = False) -> Picture:
        ...

    @overload
    def draw(self, limit: Optional[int] = None, *, html: Literal[True]) -> Page:
        ...

    def draw(self, limit: Optional[int] = None, *, html: bool = False) -> Union[Picture, Page]:
        """The picture of the calls so far in the order that `linearize` finds, or up to the return at fault. With `html` it is a page, as from the
        function `draw_history`.

        Raises `ValueError` if this is not a history, or if the search reaches its limit, and `MemoryError`.
        """
        return draw_history(self.text(), limit, html=html)

    def _read(self, call: str, words: Tuple[Any, ...]) -> Tuple[Call, str]:
        """A call and its line. No error of what is no call may look like one of the tree."""
        if not isinstance(call, str):
            raise TypeError(f"call takes the name of a call, or its line, and this is {type(call).__name__}")
        given: AnyCall = (call, *words) if words else call
        try:
            found = planned(given, self.limits)
        except (OSError, ValueError) as error:
            raise ValueError(f"{given!r} is no call: {error}") from error
        return found.call, found.line

    def _count(self) -> int:
        """The next number."""
        with self._lock:
            self._counter += 1
            return self._counter

    def _begin(self, line: str) -> Tuple[int, int]:
        """Notes that a call begins, and answers its number and its seat: one of this thread on which no call is under way."""
        with self._lock:
            free = self._free.setdefault(threading.get_ident(), [])
            if free:
                seat = free.pop()
            else:
                seat, self._seats = self._seats, self._seats + 1
            self._begun += 1
            self._entries.append((self._count(), f"begin {self._begun} {seat} {line}"))
            return self._begun, seat

    def _return(self, at: int, number: int, seat: int, reply: str) -> None:
        """Notes that a call returned."""
        with self._lock:
            self._entries.append((at, f"return {number} {reply}"))
            self._returned += 1
            self._free.setdefault(threading.get_ident(), []).append(seat)


def _opening(start: Union[Tree, Snapshot, None], limits: Limits) -> List[str]:
    """The lines before the entries."""
    if start is None and limits is Limits.V1:
        return ["atomfs-journal 1"]
    text = "tree\ndir /\n" if start is None else start.text if isinstance(start, Snapshot) else start.tree()
    return [f"atomfs-journal {limits.value + 1}", "start", *text.splitlines()[1:], "entries"]
