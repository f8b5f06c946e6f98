"""What the library finds of histories: an order of their calls, or the first return up to which none explains them."""
from __future__ import annotations

import ctypes
import dataclasses
import threading
from typing import Callable, List, Optional, Tuple, Union

from ._errors import error_of
from ._library import Found, Status, Tell, library
from ._texts import ROOM, Room
from ._values import bytes_of, number_of

# So many configurations are made where no limit is given, and there are so many limits.
_CONFIGURATIONS, _LIMITS = 1_000_000, range(1, 1_000_000_001)
# A search goes by slices: the first makes at most so many configurations, or this many for each line where that is more, and each of
# the others so many times what the one before has made, from the begin on. So all of them together make at most a third more.
_FIRST, _OF_LINE, _TIMES = 1_000, 4, 4

#: What is called behind each slice of a search: with how many configurations it made, and the place of the entry to which it had come.
Progress = Callable[[int, int], object]


@dataclasses.dataclass(frozen=True)
class Lawful:
    """There is an order of the calls: `journal` is the history with its commits, and `check` says that it is lawful."""

    journal: str = dataclasses.field(repr=False)

    @property
    def verdict(self) -> str:
        """`lawful`, as that of `check`."""
        return "lawful"


@dataclasses.dataclass(frozen=True)
class NoOrder:
    """No order explains the entries up to `place`, counted from 1, where `call` returns; one explains those before it."""

    place: int
    call: int
    #: What this entry says, with its line, and which call it is; in a second line what the call could have replied; and in a third, if
    #: the replies of later lines exclude an earlier entry, that entry.
    words: str = dataclasses.field(default="", compare=False)

    @property
    def verdict(self) -> str:
        """`none`, the place and the number of the call."""
        return f"none {self.place} {self.call}"


@dataclasses.dataclass(frozen=True)
class NoHistory:
    """The entry at `place`, counted from 1, is the first that cannot come next; `kind` says why, as `SeatBusy`."""

    place: int
    kind: str
    #: What this entry says, with its line, and which call it is.
    words: str = dataclasses.field(default="", compare=False)

    @property
    def verdict(self) -> str:
        """`fault`, the place and the kind."""
        return f"fault {self.place} {self.kind}"


@dataclasses.dataclass(frozen=True)
class Unknown:
    """The search had come to the entry at `place`, counted from 1, when the limit was reached. With a larger limit it goes on."""

    place: int

    @property
    def verdict(self) -> str:
        """`unknown` and the place."""
        return f"unknown {self.place}"


#: What `linearize` finds.
Linearized = Union[Lawful, NoOrder, NoHistory, Unknown]


def linearize(
    history: Union[str, bytes], limit: Optional[int] = None, *, progress: Optional[Progress] = None
) -> Linearized:
    """Finds an order in which the calls of a history can have taken effect, or the first return up to which no order explains the entries.

    A history is a journal without its lines `commit`, in which `return 3 failed ?` fits any error of call 3, and `return 3 stat dir ?` any
    number of entries; `History` records one. The search makes at most `limit` configurations, 1 to 1,000,000,000; without it, 1,000,000. Other
    threads run meanwhile.

    Raises `Error` with the line of a fault if the text is not a history, `ValueError` if there is no such limit, and `MemoryError`.

    The search goes in slices, each four times as long as the one before. `progress(configurations, place)` is called after each slice that has found
    nothing yet, and can end the search by raising an error. A signal whose handler raises, such as `KeyboardInterrupt`, ends the search at once; the
    current slice then ends by itself, on a thread of its own.
    """
    found, told = _found(history, limit, Tell.WORDS, progress)
    if found == Found.LAWFUL:
        return Lawful(told.decode())
    # The entry is in the words as it was given, and may be cut.
    line, _, words = told.decode("utf-8", "replace").removesuffix("\n").partition("\n")
    _, place, *about = line.split(" ")
    if found == Found.NO_ORDER:
        return NoOrder(int(place), int(about[0]), words)
    return NoHistory(int(place), about[0], words) if found == Found.NO_HISTORY else Unknown(int(place))


def front(history: Union[str, bytes], limit: Optional[int] = None) -> Optional[str]:
    """The journal up to the return that `linearize` names, for `draw`: one of those that explain all before it.

    There is none where `linearize` finds something else, or the limit is reached. Raises what `linearize` does.
    """
    found, told = _found(history, limit, Tell.FRONT)
    return None if found != Found.NO_ORDER or told.startswith(b"none ") else told.decode()


def _found(
    history: Union[str, bytes], limit: Optional[int], tell: Tell, progress: Optional[Progress] = None
) -> Tuple[Found, bytes]:
    """What came of a history, and what the library tells of it."""
    most = _CONFIGURATIONS if limit is None else number_of(limit, "limit")
    if most not in _LIMITS:
        raise ValueError(f"a limit is {_LIMITS.start} to {_LIMITS.stop - 1:,} configurations, and not {limit:,}")
    given = history.encode("utf-8", "surrogateescape") if isinstance(history, str) else bytes_of(history, "linearize")
    # A journal that explains a history is hardly ever twice as long, so no search is made once more for want of room.
    room, count = Room(ROOM + 2 * len(given)), min(most, max(_FIRST, _OF_LINE * given.count(b"\n")))
    while True:
        # Who calls waits for a short search here, which takes less time than a thread.
        searched = _slice if count <= _FIRST else _slice_aside
        found, told = searched(given, count, tell, room)
        if found != Found.UNKNOWN or count == most:
            return found, told
        if progress is not None:
            progress(count, int(told.split()[1]))
        count = min(most, _TIMES * count)


def _slice(given: bytes, count: int, tell: Tell, room: Room) -> Tuple[Found, bytes]:
    """What a search of at most so many configurations finds."""
    of, found = library(), ctypes.c_uint8()
    at = ctypes.addressof(found)
    while status := of.linearize(given, len(given), count, tell, room.at, room.size, room.at_count, at):
        if status != Status.TOO_SMALL:
            raise error_of(of, status, room.count.value)
        room.make(room.count.value)
    return Found(found.value), room.told()


def _slice_aside(given: bytes, count: int, tell: Tell, room: Room) -> Tuple[Found, bytes]:
    """The same on another thread. Who waits for it can be interrupted."""
    answers: List[Tuple[Found, bytes]] = []
    errors: List[BaseException] = []
    done = threading.Event()

    def search() -> None:
        try:
            answers.append(_slice(given, count, tell, room))
        except BaseException as error:
            errors.append(error)
        finally:
            done.set()

    thread = threading.Thread(target=search, name="atomfs.linearize", daemon=True)
    try:
        thread.start()
    except RuntimeError:
        # There is no thread more: it is searched here.
        search()
    done.wait()
    if errors:
        raise errors[0]
    return answers[0]
