"""Pictures and pages of histories: the calls from their begins to their returns, in the order that was found."""
from __future__ import annotations

import re
from typing import List, Literal, Optional, Union, overload

from ._linearize import Lawful, Linearized, NoOrder, Unknown, front, linearize
from ._page import Page, page_of
from ._texts import check
from ._tools import Picture, draw
from ._values import bytes_of

Text = Union[str, bytes]
# The lines of a history that are entries. LF alone ends a line, and a comment may have a CR.
_ENTRY = re.compile(rb"^(?:begin|return) .*\n?", re.M)


@overload
def draw_history(history: Text, limit: Optional[int] = None, *, html: Literal[False] = False) -> Picture:
    ...


@overload
def draw_history(history: Text, limit: Optional[int] = None, *, html: Literal[True]) -> Page:
    ...


@overload
def draw_history(history: Text, limit: Optional[int] = None, *, html: bool) -> Union[Picture, Page]:
    ...


def draw_history(history: Text, limit: Optional[int] = None, *, html: bool = False) -> Union[Picture, Page]:
    """The picture of a history: its calls from their begins to their returns, with the commits in the order that `linearize` finds. If no order
    explains the history, it ends at the return at fault.

    With `html` it is a page, which has the later calls too, and says what the call at fault could have replied.

    Raises `ValueError` if the text is no history, or if the search reaches its limit, and otherwise what `linearize` does.
    """
    given = (
        history.encode("utf-8", "surrogateescape") if isinstance(history, str) else bytes_of(history, "draw_history")
    )
    found = linearize(given, limit)
    if isinstance(found, Lawful):
        drawn, later, notes = found.journal, b"", [b"history lawful"]
    else:
        drawn, later, notes = _up_to(given, found, limit), b"", []
        if isinstance(found, NoOrder):
            later, notes = _behind(given, found.place), _notes(found)
    picture = draw(drawn)
    if not html:
        return picture
    return page_of(drawn.encode() + later, picture.svg, [check(drawn).encode(), *notes])


def _up_to(history: bytes, found: Linearized, limit: Optional[int]) -> str:
    """The journal up to the return at fault."""
    text = front(history, limit) if isinstance(found, NoOrder) else None
    if text is None:
        limited = isinstance(found, (NoOrder, Unknown))
        why = "the search reached its limit, so give a larger one" if limited else "this is no history"
        raise ValueError(f"{why}: {found.verdict}")
    return text


def _behind(history: bytes, place: int) -> bytes:
    """The entries after the one at a place, counted from 1."""
    return b"".join(_ENTRY.findall(history)[place:])


def _notes(found: NoOrder) -> List[bytes]:
    """What a page says of the return at fault: its place, and what the call could have replied."""
    replies = [b"reply " + line.encode() for line in found.words.splitlines()[1:]]
    return [b"history " + found.verdict.encode(), *replies]
