"""Calls as data, and as the lines of a script that the program `atomfs` runs."""
from __future__ import annotations

import itertools
import re
import textwrap
from typing import TYPE_CHECKING, Any, Dict, Iterable, List, Mapping, NamedTuple, Sequence, Tuple, Union
from urllib.parse import unquote_to_bytes

from ._errors import AnyPath, encoded, path_error
from ._library import Call, Limits, Request, library
from ._values import NAME, bytes_of, names_asked, number_of

if TYPE_CHECKING:
    from ._tree import Tree

# A call by its name and what it takes, or by its line in a script.
AnyCall = Union[str, Tuple[Any, ...]]
# How many calls a script has at most, by its limits, and how many threads.
_CALLS, _THREADS = {Limits.V1: 65_536, Limits.V2: 65_536, Limits.V3: 4_194_304}, 256
# What each call takes behind its name.
_TAKES: Dict[Call, Tuple[str, ...]] = {
    **{call: ("path",) for call in (Call.MKDIR, Call.MKNOD, Call.UNLINK, Call.RMDIR, Call.STAT, Call.READDIR)},
    **{call: ("path", "path") for call in (Call.RENAME, Call.EXCHANGE)},
    **{
        Call.READ: ("path", "offset", "count"),
        Call.WRITE: ("path", "offset", "bytes"),
        Call.TRUNCATE: ("path", "size"),
    },
    Call.LIST: ("path", "path", "count"),
}


class Planned(NamedTuple):
    """A call that is to be made: its request to the library, its paths, and its line."""

    call: Call
    request: Request
    paths: Tuple[AnyPath, ...]
    line: str


def planned(given: AnyCall, limits: Limits) -> Planned:
    """A call, or what is wrong with it: `OSError` of what is no path, `TypeError` or `ValueError` of else."""
    words: Sequence[Any] = given.split(" ") if isinstance(given, str) else tuple(given)
    name = words[0] if words else ""
    if not isinstance(name, str) or not name.islower() or name.upper() not in Call.__members__:
        raise ValueError(f"{name!r} is none of the twelve calls: {given!r}")
    call = Call[name.upper()]
    if call is Call.LIST and not limits.has_list:
        raise ValueError(f"no tree by {limits} has the call list: {given!r}")
    if len(words) - 1 != len(_TAKES[call]):
        raise TypeError(f"{name} takes {', '.join(_TAKES[call])}: {given!r}")
    values = [_read(word, what) if isinstance(given, str) else word for word, what in zip(words[1:], _TAKES[call])]
    paths, numbers, data = [], {"offset": 0, "size": 0, "count": 0}, b""
    for value, what in zip(values, _TAKES[call]):
        if what == "path":
            paths.append(value)
        elif what == "bytes":
            data = bytes_of(value)
        else:
            numbers[what] = names_asked(value) if call is Call.LIST else number_of(value, what)
    raw = [encoded(path) for path in paths]
    if any(library().check_path(one, len(one), limits.value) for one in raw):
        raise path_error(library(), limits, *paths)
    other = raw[1] if raw[1:] else b""
    size = numbers["size"] or numbers["count"]
    request = Request(call, raw[0], len(raw[0]), other, len(other), numbers["offset"], size, data, len(data))
    told = {**{what: str(value) for what, value in numbers.items()}, "bytes": data.hex() or "-"}
    words_of_paths = iter(map(quoted, raw))
    line = " ".join([name, *(next(words_of_paths) if what == "path" else told[what] for what in _TAKES[call])])
    return Planned(call, request, tuple(paths), line)


def _read(word: str, what: str) -> Any:
    """A word of a line."""
    if what == "path":
        return unquote_to_bytes(word).decode("utf-8", "surrogateescape")
    if what == "bytes":
        return b"" if word == "-" else bytes.fromhex(word)
    return int(word)


def make(tree: Tree, line: str) -> Any:
    """Makes the call of a line on a tree, and answers its reply."""
    name, *words = line.split(" ")
    return getattr(tree, name)(*map(_read, words, _TAKES[Call[name.upper()]]))


def quoted(path: bytes) -> str:
    """A path as a word of a script."""
    return "".join(chr(one) if 0x20 < one < 0x7F and one != 0x25 else f"%{one:02X}" for one in path)


def planned_threads(calls: Mapping[str, Iterable[AnyCall]], limits: Limits) -> Dict[str, List[Planned]]:
    """The calls of each thread, or what is wrong with them."""
    made = {}
    for name, given in calls.items():
        if not isinstance(name, str) or not re.fullmatch(NAME, name, re.A):
            raise ValueError(
                f"a thread has a name as in a script, a letter and at most 15 of a to z, 0 to 9 and _, and this is {name!r}"
            )
        if isinstance(given, str):
            raise TypeError(f"the calls of thread {name} are a list, and this is str")
        made[name] = [planned(call, limits) for call in given]
    if not 0 < len(made) <= _THREADS or sum(map(len, made.values())) > _CALLS[limits]:
        raise ValueError(f"1 to {_THREADS} threads make at most {_CALLS[limits]:,} calls")
    return made


def script(threads: Mapping[str, List[Planned]], events: Iterable[str], limits: Limits, comment: str) -> str:
    """The script of calls and of the threads whose turn it is, one after the other."""
    lines = [f"atomfs {limits.value}", f"# {comment}"]
    for name, calls in threads.items():
        lines += [f"thread {name}", *(call.line for call in calls)]
    turns = [(name, len(list(those))) for name, those in itertools.groupby(events)]
    words = " ".join(name if count == 1 else f"{name}*{count}" for name, count in turns)
    return (
        "\n".join([*lines, "schedule", *textwrap.wrap(words, 72, break_long_words=False, break_on_hyphens=False)])
        + "\n"
    )
