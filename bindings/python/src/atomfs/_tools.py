"""What the library makes of texts: pictures, traces, schedules, verdicts on drawn runs, explanations.

What it refuses is raised as `run` and `check` raise it: `Error` with the line of a fault, `UnderWayError`, `MemoryError`. An argument
that is none is a `ValueError`.
"""
from __future__ import annotations

import dataclasses
import pathlib
import re
from typing import List, Literal, NamedTuple, Optional, Sequence, Tuple, Union, overload

from ._errors import Error, StrPath, error_of
from ._library import By, Fault, Status, library
from ._page import Page, page_of
from ._texts import ROOM, Room, check
from ._values import bytes_of, number_of

Text = Union[str, bytes]
# By this number all calls are drawn.
_WHOLE = 2**64 - 1
# There are so many runs, and the first is drawn by a seed below this.
_RUNS, _SEEDS = range(1, 10_001), 2**63


def _told(name: str, text: bytes, *given: int) -> str:
    """The text that a function of the library tells."""
    of, room = library(), Room(ROOM)
    while status := getattr(of, name)(text, len(text), *given, room.at, room.size, room.at_count):
        if status != Status.TOO_SMALL:
            raise _refusal(status, room.count.value)
        room.make(room.count.value)
    # The comments of a script stay as they are, also where they are no text.
    return room.told().decode("utf-8", "surrogateescape")


def _refusal(status: int, about: int) -> Exception:
    """The exception of a status that is not OK."""
    if status == Status.TOO_LARGE and not about:
        return Error(
            status, "the run takes more events than a script gives, or the script would have more bytes than a text has"
        )
    return error_of(library(), status, about)


def _bytes_of(text: Text, what: str) -> bytes:
    return text.encode("utf-8", "surrogateescape") if isinstance(text, str) else bytes_of(text, what)


def _drawn(seed: Optional[int], robin: bool) -> Tuple[By, int]:
    """By which schedule a script runs, and its seed: its own, where none is asked for."""
    if seed is not None and robin:
        raise ValueError("a schedule is drawn by a seed, or goes round robin, and not both")
    return (By.SEEDED, number_of(seed, "seed")) if seed is not None else (By.ROUND_ROBIN if robin else By.GIVEN, 0)


@dataclasses.dataclass(frozen=True, repr=False)
class Picture:
    """A picture: `str` is its text, an SVG file of ASCII alone; `save` writes it, and notebooks show it."""

    #: The text of the SVG file.
    svg: str

    def __str__(self) -> str:
        return self.svg

    def __repr__(self) -> str:
        title = re.search("<title[^>]*>([^<]*)", self.svg)
        return f"<atomfs.Picture of {len(self.svg):,} bytes{f': {title[1]}' if title else ''}>"

    def _repr_svg_(self) -> str:
        return self.svg

    def save(self, path: StrPath) -> pathlib.Path:
        """Writes the SVG file to a path of the disk, which it answers; a file there is replaced.

        Raises the `OSError` of the disk.
        """
        at = pathlib.Path(path)
        at.write_bytes(self.svg.encode())
        return at


class SeedVerdict(NamedTuple):
    """The verdict on the run of a seed: `lawful`, or the first entry at fault, as from `check`."""

    seed: int
    verdict: str


@overload
def draw(
    text: Text,
    around: Optional[int] = None,
    *,
    seed: Optional[int] = None,
    robin: bool = False,
    html: Literal[False] = False,
) -> Picture:
    ...


@overload
def draw(
    text: Text, around: None = None, *, seed: Optional[int] = None, robin: bool = False, html: Literal[True]
) -> Page:
    ...


def draw(
    text: Text, around: Optional[int] = None, *, seed: Optional[int] = None, robin: bool = False, html: bool = False
) -> Union[Picture, Page]:
    """The picture of a journal, or of a run of a script: with its own schedule, with a random one from `seed`, or round robin.

    `around` is the number of a call: then only this call is drawn, and those that overlap it or help. Calls that did not return, and the fault of a
    journal that is not lawful, are in the picture.

    With `html` it is a page that plays the whole run, event by event: one file, which needs no network and no other file.

    Raises `Error` with the line of a fault if the text is neither a script nor a journal, and `ValueError` if there is no such call.
    """
    given, by = _bytes_of(text, "draw"), _drawn(seed, robin)
    if not html:
        return _picture(given, by, around)
    if around is not None:
        raise ValueError("a page plays the whole run: `around` is for a picture")
    return _page(given, by)


def page(text: str, notes: Sequence[bytes]) -> Page:
    """The page of a journal, or of a script with its own schedule, with notes on it."""
    return _page(_bytes_of(text, "draw"), _drawn(None, False), notes)


def _page(given: bytes, by: Tuple[By, int], notes: Sequence[bytes] = ()) -> Page:
    """The page that plays a text; before a journal a note has the verdict on it."""
    picture = _picture(given, by, None)
    if given.startswith(b"atomfs-journal"):
        return page_of(given, picture.svg, [check(given).encode(), *notes])
    return page_of(_told("trace", given, *by, 0).encode("ascii"), picture.svg, notes)


def _picture(text: bytes, by: Tuple[By, int], around: Optional[int]) -> Picture:
    """The picture of all calls, or of one and those that overlap it or help."""
    call = _WHOLE if around is None else number_of(around, "number of a call")
    try:
        if around is None or call != _WHOLE:
            return Picture(_told("draw", text, *by, call))
    except Error as error:
        if error.status != Status.NO_CALL:
            raise
    raise ValueError(f"there is no call {around}")


def trace(script: Text, *, seed: Optional[int] = None, robin: bool = False, every: bool = False) -> str:
    """What each event of a run of a script did, in words: with its own schedule, with a random one from `seed`, or round robin.

    With `every`, idle turns and repeated waits have a line too. Raises `Error` with the line of a fault if the text is not a script.
    """
    return _told("trace", _bytes_of(script, "trace"), *_drawn(seed, robin), int(every))


def schedule(script: Text, *, seed: Optional[int] = None, robin: bool = False) -> str:
    """The script with the events of a run as its schedule: of a random run from `seed`, or of one in round robin. One of the two has to be given.

    `run` of the result is that run. Raises `Error` with the line of a fault if the text is not a script, and with `Status.TOO_LARGE` if the run takes
    more events than a script can have.
    """
    by = _drawn(seed, robin)
    if by[0] == By.GIVEN:
        raise TypeError("schedule takes a seed, or robin=True")
    return _told("schedule", _bytes_of(script, "schedule"), *by)


def seeds(script: Text, seed: int, runs: int) -> List[SeedVerdict]:
    """The verdicts on so many random runs of a script. The first has the seed `seed`, and each other run the next number.

    `run` of `schedule` with the seed of one is that run. Raises `Error` with the line of a fault if the text is not a script, and `ValueError`
    if `runs` is not 1 to 10,000.
    """
    first, count = number_of(seed, "seed"), number_of(runs, "number of runs")
    if first >= _SEEDS:
        raise ValueError(f"a seed is below {_SEEDS}, and this is {seed}")
    if count not in _RUNS:
        raise ValueError(f"there are {_RUNS.start} to {_RUNS.stop - 1:,} runs, and not {runs}")
    told = [line.split(" ", 2) for line in _told("seeds", _bytes_of(script, "seeds"), first, count).splitlines()]
    return [SeedVerdict(int(number), verdict) for _, number, verdict in told]


def explain(word: str) -> str:
    """What the word of a message or a verdict means, and what to write instead: `BadHex`, or two, as `BadPath Dot`.

    The word of an `Error` is `error.status.kind`. A `ValueError` lists the words, where this is none.
    """
    if not isinstance(word, str):
        raise TypeError(f"explain takes str, and this is {type(word).__name__}")
    words = word.split()
    if len(words) not in (1, 2):
        raise ValueError(f"explain takes one word or two, and not {len(words)}")
    return "\n".join(map(_explained, words))


def _explained(word: str) -> str:
    try:
        return _told("explain", word.encode("utf-8", "surrogateescape"))
    except Error as error:
        if error.status != Status.BAD_CHOICE:
            raise
    raise ValueError(f"{word!r} is none of {', '.join(_words())}")


def _words() -> List[str]:
    """The words of all faults, and those of histories."""
    texts = [
        status.kind.removeprefix("Path")
        for status in Status
        if Status.BAD_HEADER <= status <= Status.PATH_TRAILING_SLASH
    ]
    return [*texts, "OutOfMemory", *(fault.kind for fault in Fault if fault), "ReturnUnbegun", "none", "unknown"]
