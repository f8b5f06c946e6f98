"""What a run was, and what was seen in all of them."""
from __future__ import annotations

import collections
import dataclasses
import hashlib
from typing import Any, Dict, FrozenSet, List, Optional, Sequence, Set, Tuple

from .._library import Call, Limits
from .._script import planned
from .._texts import told_text
from .._tree import Tree
from .draws import Drawing
from .errors import Line, Replies, without_addresses

# The thread of the calls before all others.
BEFORE = "before"
# A call by its thread, the line that makes it, and its name.
Site = Tuple[str, str, str]
# Which calls were under way at once.
Pair = FrozenSet[Site]
# Of how many runs it is told how many brought a new outcome.
_LATELY = 1_000


class Called:
    """A call that was begun."""

    __slots__ = ("thread", "given", "number", "line", "limits")

    def __init__(self, thread: str, given: Any, number: int, line: Optional[Line], limits: Limits) -> None:
        self.thread, self.given, self.number, self.line, self.limits = thread, given, number, line, limits

    @property
    def words(self) -> str:
        """The line of a script."""
        return self.given if isinstance(self.given, str) else planned(self.given, self.limits).line


@dataclasses.dataclass
class Ran:
    """A run that is over, on a tree that may be closed."""

    replies: Replies
    #: Which thread had each turn, and of each whether the one before it had a call under way then.
    turns: List[str] = dataclasses.field(default_factory=list)
    half_way: List[bool] = dataclasses.field(default_factory=list)
    #: The events of the script, as the thread and the place of its call in `calls`; so many of them are of what comes before.
    events: List[Tuple[str, int]] = dataclasses.field(default_factory=list)
    calls: List[Called] = dataclasses.field(default_factory=list)
    prepared: int = 0
    #: Why it failed, if it did, and its journal then.
    error: Optional[BaseException] = None
    journal: str = ""
    #: What was observed.
    seen: Any = None

    @property
    def switches(self) -> int:
        """How often another thread had the turn than the one before."""
        return sum(one != other for one, other in zip(self.turns, self.turns[1:]))

    @property
    def cost(self) -> Tuple[int, int, int, int]:
        """What is to be small: switches, calls, switches in the midst of a call, turns."""
        halves = sum(half and one != other for half, one, other in zip(self.half_way[1:], self.turns, self.turns[1:]))
        return self.switches, len(self.calls), halves, len(self.turns)


class Plan:
    """What is run: the threads, what comes before them, and the check."""

    names: List[str]
    limits: Limits
    #: Whether something comes before them.
    prepares: bool

    def run(self, draw: Drawing, seed: int) -> Ran:
        """One run, with the check behind it."""
        raise NotImplementedError

    def replayed(self, draw: Drawing, seed: int, breaks: Sequence[Line]) -> Ran:
        """One run under a debugger that stops at these lines."""
        return self.run(draw, seed)

    def __enter__(self) -> Plan:
        return self

    def __exit__(self, *error: object) -> None:
        pass


def count_entries(tree: Tree) -> int:
    """How many entries the journal of a tree has."""
    tree._entries(2**63 - 1)
    return tree._room.entries.value


def journal_of(tree: Tree, entries: int) -> str:
    """The journal of a tree, its first entries alone."""
    opening = told_text(tree._library, tree._room, tree._library.opening, tree._at)
    return opening + "".join(tree._entries(0).splitlines(keepends=True)[:entries])


def fingerprint(tree: Tree, replies: Replies) -> bytes:
    """The tree and the replies, as few bytes: two outcomes that differ have others."""
    return digest("\0".join([tree.tree(), *(f"{name} {told_reply(reply)}" for name, reply in replies.items())]))


def digest(words: str) -> bytes:
    """A text, as few bytes."""
    return hashlib.blake2b(words.encode("utf-8", "surrogatepass"), digest_size=16).digest()


def told_reply(reply: object) -> str:
    """A reply as text that is the same in each process."""
    return without_addresses(reply) if type(reply) is not type(None) else ""


def _counted(count: int, what: str) -> str:
    return f"{count:,} {what}{'s' if count != 1 else ''}"


class Seen(int):
    """How many runs there were: a whole number, which also says how much was seen in them, `summary` in words."""

    #: How many outcomes there were: other trees, or other replies.
    outcomes: int
    #: How many of the last `lately` runs brought a new one.
    new: int
    lately: int
    #: Of how many pairs of calls of two threads both were under way at once in some run, and how many pairs there are that may be.
    met: int
    pairs: int

    def __new__(cls, runs: int, outcomes: int = 0, new: int = 0, lately: int = 0, met: int = 0, pairs: int = 0) -> Seen:
        made = super().__new__(cls, runs)
        made.outcomes, made.new, made.lately, made.met, made.pairs = outcomes, new, lately, met, pairs
        return made

    def __getnewargs__(self) -> Tuple[int, ...]:  # type: ignore[override]
        return int(self), self.outcomes, self.new, self.lately, self.met, self.pairs

    @property
    def summary(self) -> str:
        """All of it, as one line."""
        new = f"{self.new:,} new in the last {_counted(self.lately, 'run')}"
        met = f"{self.met:,} of {_counted(self.pairs, 'pair')} of calls met"
        return f"{_counted(int(self), 'run')}, {_counted(self.outcomes, 'outcome')}, {new}; {met}"

    def __repr__(self) -> str:
        return f"<atomfs.Seen {self.summary}>"

    # In a text it is the number.
    __str__ = int.__repr__


class Look:
    """What was seen in runs, in their order."""

    def __init__(self) -> None:
        self.runs = 0
        # Of each outcome, in which run it came first.
        self.first: Dict[bytes, int] = {}
        self.sites: Set[Site] = set()
        # Those of them that keep each other off, since what is noted of an open file changes with them.
        self.alone: Set[Site] = set()
        self.met: Set[Pair] = set()

    def add(self, key: bytes) -> None:
        """Notes the outcome of a run."""
        self.first.setdefault(key, self.runs)
        self.runs += 1

    def join(self, other: Look) -> None:
        """Notes what was seen in the runs behind these."""
        for key, at in other.first.items():
            self.first.setdefault(key, self.runs + at)
        self.runs += other.runs
        self.sites |= other.sites
        self.alone |= other.alone
        self.met |= other.met

    def seen(self) -> Seen:
        """How much that was."""
        lately = min(self.runs, _LATELY)
        new = sum(at >= self.runs - lately for at in self.first.values()) if self.runs > lately else len(self.first)
        pairs = _pairs(self.sites) - _pairs(self.alone)
        return Seen(self.runs, len(self.first), new, lately, len(self.met), pairs)


def _pairs(sites: Set[Site]) -> int:
    """How many pairs there are of calls of two threads."""
    by_thread = collections.Counter(thread for thread, _, _ in sites)
    return sum(count * (len(sites) - count) for count in by_thread.values()) // 2


def given_of(call: Call, paths: Sequence[bytes], offset: int, size: int, data: bytes) -> Tuple[Any, ...]:
    """A call as it is given to `planned`."""
    more: Tuple[Any, ...] = ()
    if call is Call.READ:
        more = offset, size
    elif call is Call.WRITE:
        more = offset, data
    elif call in (Call.TRUNCATE, Call.LIST):
        more = (size,)
    return (call.name.lower(), *paths, *more)
