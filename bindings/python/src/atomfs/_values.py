"""What callers give, as the library takes it."""
from __future__ import annotations

import operator
from typing import Any, Union

Data = Union[bytes, bytearray, memoryview]

# The name of a thread in a script.
NAME = r"(?!finish\Z)[a-z][a-z0-9_]{0,15}"


def number_of(value: int, what: str) -> int:
    """An offset, a count or a size as the library takes it: what is greater than any is as great as the greatest."""
    try:
        number = operator.index(value)
    except TypeError:
        raise TypeError(f"{what} is a whole number, and this is {type(value).__name__}") from None
    if number < 0:
        raise ValueError(f"a negative {what}")
    return min(number, 2**64 - 1)


def names_asked(count: int) -> int:
    """How many names `list` is asked for, as the library takes it."""
    return min(number_of(count, "count"), 2**32 - 1)


def room_of(buffer: Any) -> memoryview:
    """The bytes of what is to be filled."""
    room = memoryview(buffer).cast("B")
    if room.readonly:
        raise TypeError(f"readinto fills what can be written to, and not {type(buffer).__name__}")
    return room


def bytes_of(data: Any, what: str = "write") -> bytes:
    """The bytes of what is to be written."""
    if isinstance(data, bytes):
        return data
    if isinstance(data, str):
        raise TypeError(f"{what} takes bytes, and this is str: encode it")
    return memoryview(data).tobytes()
