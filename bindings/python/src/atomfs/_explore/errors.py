"""What a run comes to that fails, and how it is told."""
from __future__ import annotations

import itertools
import linecache
import os
import pathlib
import re
from typing import TYPE_CHECKING, Any, Callable, Dict, List, NamedTuple, Optional, Sequence, Tuple

from .._texts import check as verdict_of
from .._page import Page, source_note
from .._tools import Picture, draw
from .._tools import page as page_with
from .._tools import trace as traced

if TYPE_CHECKING:
    from .runs import Ran

# By thread what its function returned or raised; of a list of calls, the reply of each, in which an error is as it would be raised.
Replies = Dict[str, Any]
# How many bytes of a call or a reply are shown, and how many lines of calls that never end; and of a line of source in a page.
_SHOWN, _LINES, _IN_PAGE = 70, 60, 200


class RunError(Exception):
    """A run that could not come to its end, or that is not a run of the given functions alone. It is the cause of a `ScheduleError`."""


class DeadlockError(RunError):
    """No thread can go on: each waits for another."""


class BudgetError(RunError):
    """The functions took more turns than `budget`."""


class PatienceError(RunError):
    """A function did not come to the tree, nor to its end, for `patience` seconds."""


class ThreadError(RunError):
    """A thread that is none of the run called its tree, or a function started one."""


class Line(NamedTuple):
    """A line of the source of a caller."""

    file: str
    number: int

    def __str__(self) -> str:
        return f"{os.path.basename(self.file)}:{self.number}"

    @property
    def text(self) -> str:
        """The text of the line."""
        return linecache.getline(self.file, self.number).strip()


class Event(NamedTuple):
    """What a thread did without a switch in between: a call, or a part of one."""

    thread: str
    #: The call as in a script, as `rename /a /b`.
    call: str
    #: What it replied, as in a journal, where this part is the one that returns: `ok`, or `failed ENOENT`.
    reply: str
    #: Whether this part is the one that begins the call.
    begins: bool
    #: The line of the caller's source that made the call, where there is one.
    line: Optional[Line]

    def __str__(self) -> str:
        words = _cut(self.call) if self.begins else f".. {_cut(self.call)}"
        return f"{words}: {_cut(self.reply)}" if self.reply else f"{words} .. half-way"


def _cut(words: str, most: int = _SHOWN) -> str:
    return words if len(words) <= most else f"{words[:most]}.."


def printable(words: str) -> str:
    """Words for a terminal: a character that would move its cursor, or turn what is beside it, is escaped."""
    return "".join(one if one.isprintable() else repr(one)[1:-1] for one in words)


def without_addresses(value: object) -> str:
    """The `repr` of a value, without what differs from one process to the next."""
    return re.sub(r" at 0x[0-9a-f]+", "", repr(value))


class ScheduleError(AssertionError):
    """A run failed: its check failed, or the run did not end. The error that was raised is the cause.

    It describes the cut-down run, which fails at the same place: the one with the fewest switches between threads that was found, and then with
    the fewest calls. `explore` with this seed and `runs=1` makes the run again as it was at first, and `replay` makes the cut-down one.
    """

    def __init__(self, seed: int, told: str, script: str, journal: str, replies: Replies, **more: Any) -> None:
        #: The seed of this one run.
        self.seed = seed
        #: The calls and the turns of the threads, for `atomfs run`; empty where these are no script.
        self.script = script
        #: What `check` reads.
        self.journal = journal
        #: What the check was given.
        self.replies = replies
        #: What each thread did, in their order, with the line of the caller's source.
        self.events: List[Event] = more.get("events", [])
        #: Which thread had the turn, and for how many turns.
        self.schedule: List[Tuple[str, int]] = more.get("schedule", [])
        #: How many switches between threads the drawn run had.
        self.drawn_switches: int = more.get("drawn_switches", 0)
        #: How many runs it took to cut it down.
        self.trials: int = more.get("trials", 0)
        #: Where the plugin of pytest has written the picture of the run, if it has.
        self.picture: Optional[pathlib.Path] = None
        #: Where it has written the page that plays the run, if it has.
        self.page_file: Optional[pathlib.Path] = None
        # By call, in the order of their begins, which line made it.
        self._lines: List[Optional[Line]] = more.get("lines", [])
        self._told = told
        self._again: Optional[Callable[[bool], ScheduleError]] = more.get("again")
        super().__init__("\n".join(self._message()))

    def __reduce__(self) -> Any:
        # What runs it again stays in its process.
        return _of_pickle, (self.seed, self._told, self.script, self.journal, self.replies, self._values())

    def _values(self) -> Dict[str, Any]:
        return {
            **{"events": self.events, "schedule": self.schedule, "lines": self._lines},
            **{"drawn_switches": self.drawn_switches, "trials": self.trials},
        }

    @property
    def switches(self) -> int:
        """How many switches between threads the cut-down run has."""
        return max(0, len(self.schedule) - 1)

    @property
    def verdict(self) -> str:
        """The verdict on the journal, `lawful` by the proof."""
        return verdict_of(self.journal)

    @property
    def trace(self) -> str:
        """What each event of the run did, in words."""
        return traced(self.script) if self.script else ""

    def draw(self) -> Picture:
        """The picture of the run, with the waits and the helped calls.

        Raises `Error` if the run is too large for a picture.
        """
        return draw(self.script or self.journal)

    def page(self) -> Page:
        """The page that plays the run, event by event, with the line of the caller's source that made each call, where there is one.

        Raises `Error` if the run is too large for a picture.
        """
        lines = [(number, line) for number, line in enumerate(self._lines, 1) if line is not None]
        notes = [source_note(number, f"{line} {_cut(line.text, _IN_PAGE)}".rstrip()) for number, line in lines]
        return page_with(self.script or self.journal, notes)

    @property
    def html(self) -> str:
        """The text of that page, a file of HTML."""
        return self.page().html

    def replay(self, debug: bool = False) -> ScheduleError:
        """Makes the cut-down run again, and returns its error. Functions may take as long as they want, so a debugger can stop in them.

        With `debug`, `pdb` stops at each line of `events`. If the run does not fail again, it raises `RuntimeError`: something that a seed does not
        hold fixed has changed.
        """
        if self._again is None:
            raise RuntimeError("a run is made again in the process that found it: explore with this seed and runs=1")
        return self._again(debug)

    def _message(self) -> List[str]:
        lines = [f"seed {self.seed}: {self._told}"]
        if self.schedule:
            lines += [_switched(self.switches, self.drawn_switches, self.trials), "", *told_events(self.events)]
        lines += ["", self.script] if self.script else [""]
        return [*lines, self.journal]


def _of_pickle(
    seed: int, told: str, script: str, journal: str, replies: Replies, more: Dict[str, Any]
) -> ScheduleError:
    return ScheduleError(seed, told, script, journal, replies, **more)


def _switched(switches: int, drawn: int, trials: int) -> str:
    words = f"{switches} switch{'es' if switches != 1 else ''} between threads"
    return f"{words}, cut down from {drawn} by {trials:,} more runs" if trials else words


def told_events(events: Sequence[Event]) -> List[str]:
    """Events as lines: the thread, the line of the source, and the call with its reply."""
    shown = list(events[-_LINES:])
    lines = [printable(f"{one.line}  {one.line.text[:_SHOWN]}") if one.line else "" for one in shown]
    names, width = max((len(one.thread) for one in shown), default=0), max(map(len, lines), default=0)
    told = [f"  {one.thread:{names}}  {line:{width}}  {one}".rstrip() for one, line in zip(shown, lines)]
    more = len(events) - len(shown)
    return [*([f"  and {more:,} before"] if more else []), *told]


def events_of(ran: Ran, journal: str) -> List[Event]:
    """The events of a run, by its journal: one for each part of a call without a switch in between."""
    replies = {
        int(words[1]): words[2]
        for words in map(lambda line: line.split(" ", 2), journal.splitlines())
        if words[0] == "return"
    }
    steps = [those for those, _ in itertools.groupby(ran.events[ran.prepared :])]
    last = {at: place for place, (_, at) in enumerate(steps)}
    first = {at: place for place, (_, at) in reversed(list(enumerate(steps)))}
    made = []
    for place, (thread, at) in enumerate(steps):
        call = ran.calls[at]
        reply = replies.get(call.number, "") if last[at] == place else ""
        made.append(Event(thread, call.words, reply, first[at] == place, call.line))
    return made
