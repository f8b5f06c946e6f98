"""The functions of atomfs.h, by ctypes."""
from __future__ import annotations

import ctypes
import enum
import functools
import os
import pathlib
from typing import Any, Dict, List, NamedTuple

from . import _header
from ._header import FAILED as FAILED
from ._header import By as By
from ._header import Call as Call
from ._header import CStat as CStat
from ._header import Did as Did
from ._header import Fault as Fault
from ._header import Found as Found
from ._header import Functions
from ._header import Handle as Handle
from ._header import Request as Request
from ._header import Status as Status
from ._header import Tell as Tell

# The most names that a call answers.
LISTED = 256
# The number by which a tree keeps all calls.
KEEP_ALL = 2**32 - 1


class _Set(NamedTuple):
    path_names: int
    name_bytes: int
    entries: int
    file_bytes: int
    read_bytes: int
    nodes: int
    has_list: bool


_SETS = {
    1: _Set(64, 32, 256, 65_536, 65_536, 1_048_576, False),
    2: _Set(64, 64, 256, 1_048_576, 1_048_576, 1_048_576, False),
    3: _Set(2_048, 255, 1_048_576, 2_147_483_648, 1_048_576, 16_777_216, True),
}


class Limits(enum.Enum):
    """How large a tree may be: the first set, the second with longer names and files, or the third, which real trees fit in."""

    V1 = _header.V1
    V2 = _header.V2
    V3 = _header.V3

    @property
    def path_names(self) -> int:
        """The most names of a path."""
        return _SETS[self.value].path_names

    @property
    def name_bytes(self) -> int:
        """The most bytes of a name."""
        return _SETS[self.value].name_bytes

    @property
    def entries(self) -> int:
        """The most entries of a directory."""
        return _SETS[self.value].entries

    @property
    def file_bytes(self) -> int:
        """The most bytes of a file."""
        return _SETS[self.value].file_bytes

    @property
    def read_bytes(self) -> int:
        """The most bytes that one call reads."""
        return _SETS[self.value].read_bytes

    @property
    def nodes(self) -> int:
        """The most nodes of a tree, its root included."""
        return _SETS[self.value].nodes

    @property
    def has_list(self) -> bool:
        """Whether a tree has the call `list`."""
        return _SETS[self.value].has_list


#: The most nodes of a tree by the limits that it has where none are given, and the most names of its paths.
NODE_LIMIT, PATH_LIMIT = Limits.V3.nodes, Limits.V3.path_names


# What may take long, and lets other threads of Python run meanwhile. A call takes less time than it takes to let them.
_LONG = {"open_from", "open_at", "close", "journal", "checkpoint", "forget", "verdict", "tree", "run", "check"}
_LONG |= {"trace", "draw", "schedule", "seeds", "linearize"}


# What a function takes, by ctypes. An address is passed as a number, which takes ctypes the least time.
_TYPES: Dict[str, Any] = {
    **{"Byte": ctypes.c_uint8, "Word": ctypes.c_uint32, "Size": ctypes.c_size_t, "Number": ctypes.c_uint64},
    "Bytes": ctypes.c_char_p,
}


def _taken(function: Any) -> List[Any]:
    kinds = [kind for name, kind in function.__annotations__.items() if name != "return"]
    return [_TYPES.get(kind, ctypes.c_void_p) for kind in kinds]


class Library(Functions):
    """The shared object at a path: each function under its name without `atomfs_`."""

    def __init__(self, path: str) -> None:
        self.path = path
        self._object, long = ctypes.PyDLL(path), ctypes.CDLL(path)
        for name, declared in vars(Functions).items():
            if not name.startswith("_"):
                function = getattr(long if name in _LONG else self._object, f"atomfs_{name}")
                function.argtypes, function.restype = _taken(declared), ctypes.c_uint8
                setattr(self, name, function)
        self._object.atomfs_version.restype = ctypes.c_char_p
        words = self._object.atomfs_status_text
        words.argtypes, words.restype = [ctypes.c_uint8], ctypes.c_char_p

    def version(self) -> str:
        """The version of the shared object."""
        return (self._object.atomfs_version() or b"").decode()

    def words(self, status: int) -> str:
        """What a status says."""
        return (self._object.atomfs_status_text(status) or b"").decode()


@functools.cache
def library() -> Library:
    """The shared object of the package, or the one that `ATOMFS_LIBRARY` names. `OSError` where there is none, or it cannot be loaded."""
    own = pathlib.Path(__file__).with_name("libatomfs.so")
    named = os.environ.get("ATOMFS_LIBRARY")
    try:
        return Library(named or str(own))
    except OSError as error:
        hint = "ATOMFS_LIBRARY names it" if named else "embed/build makes one, and ATOMFS_LIBRARY names it"
        raise OSError(f"the library of atomfs cannot be loaded: {error}; {hint}") from None
