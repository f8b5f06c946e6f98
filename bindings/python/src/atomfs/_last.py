"""The last calls of a journal, as a journal of their own."""
from __future__ import annotations

import contextlib
from typing import TYPE_CHECKING, Iterable, List, Set, Tuple, Type

from ._journal import NONE
from ._library import Limits
from ._load import Snapshot, of_snapshot
from ._script import make

if TYPE_CHECKING:
    from ._tree import Tree

# Of an entry its kind, the number of its call, and its line.
Entry = Tuple[str, str, str]
_LOOKS = ("stat", "readdir", "list", "read")


def of_last(kind: Type[Tree], journal: str, limits: Limits, most: int) -> str:
    """A journal of at most so many calls, which keep their numbers and are lawful where the whole journal is.

    It starts at the tree as it was before them, so their commits and replies are what they were. A call that was under way then begins
    there if its commit was still to come, and is left out if not. This takes the calls before to be made again.
    """
    header, *lines = journal.splitlines()
    comments = [line for line in lines if line.startswith("#")]
    start = lines[len(comments) + 1 : lines.index("entries")] if "entries" in lines else ["dir /"]
    entries = [_entry(line) for line in lines[lines.index("entries") + 1 if "entries" in lines else len(comments) :]]
    kept, first = _kept(entries, most)
    if not first:
        return journal
    calls = {number: line for word, number, line in entries[:first] if word == "begin"}
    with of_snapshot(kind, None, Snapshot(limits, "\n".join(["tree", *start, ""])), NONE) as tree:
        _make_again(tree, (calls[number] for word, number, _ in entries[:first] if word == "commit"))
        start = tree.tree().splitlines()[1:]
    under_way = [line for number, line in calls.items() if number in kept]
    later = [line for _, number, line in entries[first:] if number in kept]
    header = f"atomfs-journal {limits.value + 1}"
    return "\n".join([header, *comments, "start", *start, "entries", *under_way, *later, ""])


def _entry(line: str) -> Entry:
    word, number, *_ = line.split(" ", 2)
    return word, number, line


def _kept(entries: List[Entry], most: int) -> Tuple[Set[str], int]:
    """The last calls, and from which entry on none is missing that begins or commits."""
    committed = {number for word, number, _ in entries if word == "commit"}
    open_calls = [number for word, number, _ in entries if word == "begin" and number not in committed]
    kept = set(open_calls[max(0, len(open_calls) - most) :])
    for at in range(len(entries) - 1, -1, -1):
        word, number, _ = entries[at]
        if word != "return" and number not in kept:
            if len(kept) == most:
                return kept, at + 1
            kept.add(number)
    return kept, 0


def _make_again(tree: Tree, begins: Iterable[str]) -> None:
    """Makes the calls of these begins that change something. One that fails has failed before."""
    for line in begins:
        call = line.split(" ", 3)[3]
        if not call.startswith(_LOOKS):
            with contextlib.suppress(OSError):
                make(tree, call)
