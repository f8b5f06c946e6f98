"""Runs in pieces: scripts with `!checkpoint` through the program.

The text of a run is that of its last piece: what it starts at and comes to is what tests/model.py makes of the calls of all pieces. Each text is
lawful by `atomfs check`. Where calls are under way nothing is written, and the message names the least of their numbers. A trace and a picture show
each checkpoint, and end as the run does.
"""
import random
import unittest

import drawn
import harness
import model
from harness import Outcome, run

SCRIPTS = 200
# So many events of a thread are enough for the calls of a piece: the others are spent.
MOST = 20_000


def text_of(*lines: str) -> bytes:
    return "".join(f"{line}\n" for line in lines).encode()


def script(*lines: str, version: int = 1) -> bytes:
    """A script whose blocks and schedule are these lines."""
    return text_of(f"atomfs {version}", *lines)


def under_way(call: int) -> Outcome:
    return Outcome(1, b"", f"atomfs: call {call} is pending\n".encode())


EMPTY = text_of("atomfs-journal 1", "tree", "dir /", "begun 0 committed 0 returned 0")
ONE_CALL = "thread t", "mkdir /a"
TWO_CALLS = *ONE_CALL, "mkdir /a/b"
MADE_AND_REMOVED = *ONE_CALL, "rmdir /a"
TWO_THREADS = *ONE_CALL, "thread u", "mkdir /b"
FOUR_CALLS = *ONE_CALL, "mknod /a/f", "write /a/f 0 6869", "stat /a/f"
# The run of a script, name by name: its lines, and the outcome.
ROWS = {
    "one checkpoint": (
        (*TWO_CALLS, "schedule", "t*5 !checkpoint t*7"),
        Outcome(0, text_of(
            "atomfs-journal 2", "start", "dir /", "dir /a", "entries", "begin 1 0 mkdir /a/b", "commit 1", "return 1 ok",
            "tree", "dir /", "dir /a", "dir /a/b", "begun 1 committed 1 returned 1",
        )),
    ),
    "a call is under way": ((*TWO_CALLS, "schedule", "t*4 !checkpoint"), under_way(1)),
    "a call has begun": ((*ONE_CALL, "schedule", "t !checkpoint"), under_way(1)),
    "a later call is under way": ((*TWO_CALLS, "schedule", "t*11 !checkpoint"), under_way(2)),
    "its number is that of the piece": ((*TWO_CALLS, "schedule", "t*5 !checkpoint t*6 !checkpoint t finish"), under_way(1)),
    "the least of two": ((*TWO_THREADS, "schedule", "t*2 u*1 !checkpoint"), under_way(1)),
    "the least on a later seat": ((*TWO_THREADS, "schedule", "u t*2 !checkpoint"), under_way(1)),
    "without threads": (("schedule", "!checkpoint"), Outcome(0, EMPTY)),
    "twice without threads": (("schedule", "!checkpoint !checkpoint"), Outcome(0, EMPTY)),
    "back at the root alone": ((*MADE_AND_REMOVED, "schedule", "t*12 !checkpoint"), Outcome(0, EMPTY)),
    "no call is left to begin": (
        (*ONE_CALL, "schedule", "t*5 !checkpoint t*9 finish"),
        Outcome(0, text_of("atomfs-journal 2", "start", "dir /", "dir /a", "entries", "tree", "dir /", "dir /a", "begun 0 committed 0 returned 0")),
    ),
    "calls are left": (
        (*TWO_CALLS, "schedule", "t*5 !checkpoint"),
        Outcome(1, text_of("atomfs-journal 2", "start", "dir /", "dir /a", "entries", "tree", "dir /", "dir /a", "begun 0 committed 0 returned 0")),
    ),
    "at once, and then all": (
        (*ONE_CALL, "schedule", "!checkpoint finish"),
        Outcome(0, text_of("atomfs-journal 1", "begin 1 0 mkdir /a", "commit 1", "return 1 ok", "tree", "dir /", "dir /a", "begun 1 committed 1 returned 1")),
    ),
    "three checkpoints": (
        (*FOUR_CALLS, "schedule", "t*5 !checkpoint t*7 !checkpoint t*9", "!checkpoint finish"),
        Outcome(0, text_of(
            "atomfs-journal 2", "start", "dir /", "dir /a", "file /a/f 6869", "entries",
            "begin 1 0 stat /a/f", "commit 1", "return 1 stat file 2",
            "tree", "dir /", "dir /a", "file /a/f 6869", "begun 1 committed 1 returned 1",
        )),
    ),
    "a write is under way": ((*FOUR_CALLS, "schedule", "t*5 !checkpoint t*7 !checkpoint t*8 !checkpoint finish"), under_way(1)),
    "behind finish": ((*MADE_AND_REMOVED, "schedule", "finish !checkpoint"), Outcome(3, b"", b"atomfs: line 6: BadWord\n")),
    "many times": ((*ONE_CALL, "schedule", "!checkpoint*1"), Outcome(3, b"", b"atomfs: line 5: BadWord\n")),
    "another word": ((*ONE_CALL, "schedule", "!check"), Outcome(3, b"", b"atomfs: line 5: BadWord\n")),
}  # fmt: skip


def in_pieces(pieces: list[list[str]], last_word: str = "") -> bytes:
    """A script of which each thread makes the calls of a piece."""
    blocks = [line for number, calls in enumerate(pieces) for line in (f"thread t{number}", *calls)]
    words = " !checkpoint ".join(f"t{number}*{MOST}" for number in range(len(pieces)))
    return script(*blocks, "schedule", f"{words} {last_word}".rstrip())


def piece_text(pieces: list[list[str]]) -> bytes:
    """The text of its run, by the model."""
    tree = model.Tree()
    for calls in pieces[:-1]:
        for call in calls:
            tree.apply(call.split(" "))
    start, entries = tree.text()[1:], []
    for number, call in enumerate(pieces[-1], 1):
        reply = tree.apply(call.split(" "))
        entries += [f"begin {number} {len(pieces) - 1} {call}", f"commit {number}", f"return {number} {reply}"]
    head = ["atomfs-journal 1"] if start == ["dir /"] else ["atomfs-journal 2", "start", *start, "entries"]
    count = len(pieces[-1])
    return text_of(*head, *entries, *tree.text(), f"begun {count} committed {count} returned {count}")


def drawn_pieces(number: int) -> list[list[str]]:
    """The calls of a few pieces, some of which have none."""
    draw = random.Random(f"pieces {number}")
    return [[drawn.crowded_call(draw) for _ in range(draw.choice((0, 1, 5, 30)))] for _ in range(draw.randint(2, 6))]


def chain(name: str, names: int) -> list[str]:
    """The calls that make directories, each in the one before."""
    return [f"mkdir {('/' + name) * depth}" for depth in range(1, names + 1)]


def deep() -> list[list[str]]:
    """A tree of 120 directories, each in the one before, made of two branches by a rename; behind it an empty directory."""
    return [
        [*chain("a", 60), *chain("b", 60), f"rename /b {'/a' * 60}/c", "mkdir /z"],
        ["stat /z", f"readdir {'/a' * 60}/c"],
    ]


def full() -> list[list[str]]:
    """A directory with as many entries as it may have, and a file with as many bytes."""
    return [
        [f"mknod /f{number}" for number in range(model.ENTRIES[1])] + [f"truncate /f9 {model.BYTES[1]}"],
        ["mknod /g", "stat /f9", "write /f9 65535 ff"],
    ]


class Checkpoints(harness.Case):
    def look(self, given: bytes, wanted: Outcome) -> None:
        self.same(given, run(given, "run"), harness.with_line(wanted, given))
        if wanted.output:
            self.same(wanted.output, run(wanted.output, "check"), Outcome(0, b"lawful\n"))

    def test_rows(self) -> None:
        self.each(((name, script(*lines), wanted) for name, (lines, wanted) in ROWS.items()), self.look)

    def shown(self, given: bytes, wanted: Outcome) -> None:
        """A trace and a picture have each checkpoint, and end as the run does; where that has no text they have none."""
        checkpoints = given.count(b"!checkpoint") if wanted.output else 0
        for words in (("trace",), ("trace", "--every"), ("draw",)):
            came = run(given, *words)
            if harness.compares:
                count = came.output.splitlines().count(b"checkpoint, the next call is call 1") + came.output.count(
                    b'<g class="checkpoint">'
                )
                self.same(
                    given,
                    (came.status, came.message, bool(came.output), count),
                    (wanted.status, harness.with_line(wanted, given).message, bool(wanted.output), checkpoints),
                )
                if words[0] == "trace":
                    self.same(given, came.output.partition(b"\ntree\n")[2], wanted.output.partition(b"\ntree\n")[2])

    def test_rows_are_shown(self) -> None:
        self.each(((name, script(*lines), wanted) for name, (lines, wanted) in ROWS.items()), self.shown)

    def test_second_version(self) -> None:
        """Each piece begins with its start tree, also where that is the root alone."""
        opening = "atomfs-journal 3", "start", "dir /"
        end = "begun 0 committed 0 returned 0"
        rows = (
            (
                "back at the root alone",
                (*MADE_AND_REMOVED, "schedule", "t*12 !checkpoint"),
                (*opening, "entries", "tree", "dir /", end),
            ),
            (
                "more than the root",
                (*ONE_CALL, "schedule", "t*5 !checkpoint"),
                (*opening, "dir /a", "entries", "tree", "dir /", "dir /a", end),
            ),
        )
        self.each(
            ((name, script(*lines, version=2), Outcome(0, text_of(*wanted))) for name, lines, wanted in rows), self.look
        )

    def test_drawn_pieces(self) -> None:
        """What is drawn has a stream of its own."""
        rows = ((f"script_{number}", drawn_pieces(number), ("", "finish")[number % 2]) for number in range(SCRIPTS))
        self.each(
            ((name, in_pieces(pieces, word), Outcome(0, piece_text(pieces))) for name, pieces, word in rows), self.look
        )

    def test_large_trees(self) -> None:
        self.each(
            ((tree.__name__, in_pieces(tree()), Outcome(0, piece_text(tree()))) for tree in (deep, full)), self.look
        )

    def test_other_schedules(self) -> None:
        """They take no words, and so no checkpoint."""
        words = (("run", "--robin"), ("run", "--seed", "7"), ("seeds", "--seed", "7", "--runs", "3"), ("threads",))
        given, without = (script(*TWO_THREADS, "schedule", *word) for word in (("t*2", "!checkpoint"), ()))
        self.each(
            ((" ".join(asked), asked) for asked in words),
            lambda asked: self.same(given, run(given, *asked), run(without, *asked)),
        )

    def test_a_million(self) -> None:
        """Where no call has begun since the last one, a checkpoint copies no tree."""
        harness.takes_a_process()
        pieces = deep()
        given = in_pieces(pieces).replace(b" !checkpoint ", b" !checkpoint" * 1_000_000 + b" ")
        self.same("a million checkpoints", run(given, "run"), Outcome(0, piece_text(pieces)))


if __name__ == "__main__":
    unittest.main()
