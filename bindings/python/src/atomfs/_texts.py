"""Texts that the library tells, and what it makes of those that it is given."""
from __future__ import annotations

import ctypes
from typing import Any, Tuple, Union

from ._errors import error_of
from ._library import Library, Status, library

# Room for the names of a full directory, and for the bytes of most files: where a file has more, the room becomes longer.
ROOM = 65_537


class Room:
    """Memory into which the library tells, and which becomes longer where that is too small."""

    def __init__(self, size: int) -> None:
        self.count, self.entries = ctypes.c_size_t(), ctypes.c_size_t()
        self.at_count, self.at_entries = ctypes.addressof(self.count), ctypes.addressof(self.entries)
        self.make(size)

    def make(self, size: int) -> None:
        self.size, self._bytes = size, ctypes.create_string_buffer(max(size, 1))
        self.at, self._view = ctypes.addressof(self._bytes), memoryview(self._bytes).cast("B")

    def told(self) -> bytes:
        """The bytes that were told."""
        return self._view[: self.count.value].tobytes()


def told_text(library: Library, room: Room, function: Any, *given: Any, more: Tuple[Any, ...] = ()) -> str:
    """A text of the library, all of which is ASCII, with as much room as it wants."""
    return told(library, room, function, *given, more=more).decode("ascii")


def told(library: Library, room: Room, function: Any, *given: Any, more: Tuple[Any, ...] = ()) -> bytes:
    """The same as bytes."""
    while status := function(*given, room.at, room.size, room.at_count, *more):
        if status != Status.TOO_SMALL:
            raise error_of(library, status, about=room.count.value)
        room.make(room.count.value)
    return room.told()


def check(journal: Union[str, bytes]) -> str:
    """The verdict on a journal: `lawful`, or the first entry at fault.

    Raises `Error` with the line of a fault if the text is not a journal."""
    return _of_text("check", journal).rstrip("\n")


def run(script: Union[str, bytes]) -> str:
    """The journal, the tree and the counts of a script that is run with its own schedule.

    Raises `Error` with the line of a fault if the text is not a script."""
    return _of_text("run", script)


def _of_text(name: str, text: Union[str, bytes]) -> str:
    of, given = library(), text.encode() if isinstance(text, str) else text
    return told_text(of, Room(ROOM), getattr(of, name), given, len(given))
