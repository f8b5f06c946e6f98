"""Trees of journals and of runs, and who changed what, beside the model of the tests.

Journals are drawn here: calls of some seats that begin, commit and return in an order that is drawn, with the replies of tests/model.py. Of each one every
number of commits, every call and every path is asked about. A script whose threads go one behind the other commits in the order of its text.
"""
import random
import unittest
from typing import Iterable

import drawn
import harness
import model
from harness import Case, Outcome, run, with_line

JOURNALS = 12
SCRIPTS = 4
RUNS = 3
CALL_WORDS = (
    b"atomfs: CALL is THREAD#NUMBER: m#3 is the third call of thread m, and with a journal 0#3 is the third on seat 0\n"
)
NO_CALL = b"atomfs: there is no such call, or it does not commit\n"
# The schedules of a run: its own words, and two others.
OTHERS: tuple[tuple[str, ...], ...] = ((), ("--robin",), ("--seed", "7"))


def text_of(lines: Iterable[str]) -> bytes:
    return "".join(f"{line}\n" for line in lines).encode()


class Commits:
    """The commits of a timeline, played one by one: the trees behind them, and whose calls they are."""

    def __init__(self) -> None:
        self.tree = model.Tree()
        self.trees: list[bytes] = []
        self.looks: list[dict[model.Path, model.File | None]] = []
        self.calls: list[tuple[int, str, str]] = []
        self.keep()

    def keep(self) -> None:
        self.trees.append(text_of(self.tree.text()))
        # A directory is the same whatever is in it.
        self.looks.append(
            {path: node if isinstance(node, model.File) else None for path, node in self.tree.nodes.items()}
        )

    def commit(self, number: int, who: str, call: str) -> str:
        """The reply of a call that commits."""
        self.calls.append((number, who, call))
        reply = self.tree.apply(call.split(" "))
        self.keep()
        return reply

    def before(self, who: str) -> bytes:
        """The tree before the commit of a call."""
        return next(self.trees[place] for place, (_, other, _) in enumerate(self.calls) if other == who)

    def last(self, path: str) -> bytes | None:
        """The line of the last commit that changed what stands at a path."""
        key, absent = model.path_of(path), object()
        for place in range(len(self.calls), 0, -1):
            if self.looks[place].get(key, absent) != self.looks[place - 1].get(key, absent):
                number, who, call = self.calls[place - 1]
                return f"commit {place} call {number} {who} {call}\n".encode()
        return None

    def paths(self) -> list[str]:
        """The root, each path that a call names, and one that none names."""
        named = {word for _, _, call in self.calls for word in call.split(" ")[1:] if word.startswith("/")}
        return ["/", "/none", *sorted(named)]


# What a call of a seat has come to: begun with its words, or committed with its reply.
Stage = tuple[str, int, str] | None


def journal(draw: random.Random) -> tuple[bytes, Commits, list[str]]:
    """A lawful journal without a tree, with its commits and the calls that have not committed."""
    lists, commits, lines = drawn.moving(draw), Commits(), ["atomfs-journal 1"]
    left = [list(calls) for calls in lists]
    turn, number = [0] * len(lists), 0
    stage: list[Stage] = [None] * len(lists)
    for _ in range(draw.randint(60, 200)):
        seat = draw.randrange(len(lists))
        at = stage[seat]
        if at is None:
            if left[seat]:
                number, turn[seat] = number + 1, turn[seat] + 1
                call = left[seat].pop(0)
                stage[seat] = ("begun", number, call)
                lines.append(f"begin {number} {seat} {call}")
        elif at[0] == "begun":
            stage[seat] = ("committed", at[1], commits.commit(at[1], f"{seat}#{turn[seat]}", at[2]))
            lines.append(f"commit {at[1]}")
        else:
            stage[seat] = None
            lines.append(f"return {at[1]} {at[2]}")
    uncommitted = [f"{seat}#{turn[seat]}" for seat, one in enumerate(stage) if one and one[0] == "begun"]
    return text_of(lines), commits, uncommitted


def in_order(draw: random.Random) -> tuple[bytes, Commits]:
    """A script whose threads go one behind the other, and its commits."""
    lists, commits, number = drawn.moving(draw), Commits(), 0
    names = [chr(ord("a") + seat) for seat in range(len(lists))]
    lines = ["atomfs 1"]
    for name, calls in zip(names, lists):
        lines += [f"thread {name}", *calls]
        for turn, call in enumerate(calls, 1):
            number += 1
            commits.commit(number, f"{name}#{turn}", call)
    return text_of([*lines, "schedule", *(f"{name}*100000" for name in names)]), commits


class Replays(Case):
    def look(self, given: bytes, commits: Commits, uncommitted: list[str], *words: str) -> None:
        """All that can be asked is answered as the model says."""
        whole = run(given, "tree", *words)
        self.same(given, whole, Outcome(0, commits.trees[-1]))
        for place, tree in enumerate(commits.trees):
            self.same(
                f"--at {place}\n{given.decode()}", run(given, "tree", "--at", str(place), *words), Outcome(0, tree)
            )
        count = len(commits.calls) + 1
        self.same(
            f"--at {count}\n{given.decode()}",
            run(given, "tree", "--at", str(count), *words),
            Outcome(2, b"", f"atomfs: the run has no commit {count}\n".encode()),
        )
        for _, who, _ in commits.calls:
            self.same(
                f"--before {who}\n{given.decode()}",
                run(given, "tree", "--before", who, *words),
                Outcome(0, commits.before(who)),
            )
        for who in uncommitted:
            self.same(
                f"--before {who}\n{given.decode()}",
                run(given, "tree", "--before", who, *words),
                Outcome(2, b"", NO_CALL),
            )
        for path in commits.paths():
            line = commits.last(path)
            wanted = Outcome(0, line) if line else Outcome(1, b"nobody\n")
            self.same(f"--who {path}\n{given.decode()}", run(given, "tree", "--who", path, *words), wanted)

    def test_drawn_journals(self) -> None:
        rows = ((f"journal_{number}", *journal(random.Random(number))) for number in range(harness.rows_of(JOURNALS)))
        self.each(rows, self.look)

    def test_scripts_in_order(self) -> None:
        rows = (
            (f"script_{number}", *in_order(random.Random(f"in order {number}")), ["a#1000", "z#1", "0#1"])
            for number in range(harness.rows_of(SCRIPTS))
        )
        self.each(rows, self.look)

    def same_as_its_journal(self, given: bytes, *words: str) -> None:
        """What is asked of a script's run is answered as of the journal of that run, but for the names of threads."""
        text = run(given, "run", *words).output
        lines = text.partition(b"tree\n")[0]
        tree = text[len(lines) :].rpartition(b"begun ")[0]
        self.same(given, run(given, "tree", *words), Outcome(0, tree))
        self.same(given, run(text, "tree"), Outcome(0, tree))
        for place in range(0, lines.count(b"\ncommit ") + 1, 3):
            self.alike(
                given,
                ("of the script", run(given, "tree", "--at", str(place), *words)),
                ("of its journal", run(text, "tree", "--at", str(place))),
            )
        names = [line.split(b" ")[1].decode() for line in given.splitlines() if line.startswith(b"thread ")]
        for seat, name in enumerate(names):
            of_script, of_journal = (
                run(one, "tree", "--before", f"{who}#1", *more)
                for one, who, more in ((given, name, words), (text, seat, ()))
            )
            self.alike(given, ("of the script", of_script), ("of its journal", of_journal))

    def test_runs_and_their_journals(self) -> None:
        harness.asks_of_answers()
        rows = (
            (f"run_{number}", drawn.script(drawn.moving(random.Random(f"run {number}"))).encode(), words)
            for number in range(RUNS)
            for words in OTHERS
        )
        self.each(
            ((f"{name} {' '.join(words)}", given, *words) for name, given, words in rows), self.same_as_its_journal
        )


# A journal of which the fifth entry is at fault.
WRONG = b"atomfs-journal 1\nbegin 1 0 mkdir /a\ncommit 1\nreturn 1 ok\nbegin 2 5 mkdir /b\nreturn 2 ok\ncommit 2\n"
FAULT = b"atomfs: fault 5 ReturnUncommitted, line 6: return 2 ok; call 2 is mkdir /b on seat 5; it has not committed\n"
# The run of a script in two pieces.
PIECES = b"atomfs 1\nthread m\nmkdir /a\nmkdir /b\nschedule\nm*5 !checkpoint finish\n"
ONE, TWO, BOTH = b"tree\ndir /\n", b"tree\ndir /\ndir /a\n", b"tree\ndir /\ndir /a\ndir /b\n"
# One that starts at a tree, by the second limits.
STARTED = b"atomfs-journal 3\nstart\ndir /\ndir /a\nfile /a/f 61\nentries\nbegin 1 7 write /a/f 0 61\ncommit 1\nreturn 1 wrote 1\nbegin 2 7 rename /a /b%20c\ncommit 2\nreturn 2 ok\n"


class Rows(Case):
    def look(self, words: str, given: bytes, wanted: Outcome) -> None:
        self.same(given, run(given, "tree", *words.split(" ")), with_line(wanted, given))

    def test_faults(self) -> None:
        self.each(
            (
                (f"{words} {number}", words, given, wanted)
                for number, (words, given, wanted) in enumerate(
                    (
                        # The tree before the fault is what is asked about.
                        ("--at 1", WRONG, Outcome(1, TWO, FAULT)),
                        ("--at 0", WRONG, Outcome(1, ONE, FAULT)),
                        ("--at 2", WRONG, Outcome(2, b"", b"atomfs: the run has no commit 2\n")),
                        ("--before 0#1", WRONG, Outcome(1, ONE, FAULT)),
                        ("--before 5#1", WRONG, Outcome(2, b"", NO_CALL)),
                        ("--who /a", WRONG, Outcome(1, b"commit 1 call 1 0#1 mkdir /a\n", FAULT)),
                        ("--who /b", WRONG, Outcome(1, b"nobody\n", FAULT)),
                        # Words that are none, which are read before the input.
                        ("--before m", b"", Outcome(2, b"", CALL_WORDS)),
                        ("--before m#0", b"", Outcome(2, b"", CALL_WORDS)),
                        ("--before m#01", b"", Outcome(2, b"", CALL_WORDS)),
                        ("--before m#x", b"", Outcome(2, b"", CALL_WORDS)),
                        ("--before m#1#1", b"", Outcome(2, b"", CALL_WORDS)),
                        ("--who a", b"", Outcome(2, b"", b"atomfs: BadPath NotAbsolute\n")),
                        ("--who /a/", b"", Outcome(2, b"", b"atomfs: BadPath TrailingSlash\n")),
                        ("--who /a/..", b"", Outcome(2, b"", b"atomfs: BadPath Dot\n")),
                        # Calls that are not there.
                        ("--before m#1", WRONG, Outcome(2, b"", NO_CALL)),
                        ("--before 0#2", WRONG, Outcome(2, b"", NO_CALL)),
                        ("--before 00#1", WRONG, Outcome(2, b"", NO_CALL)),
                        ("--before m#3", PIECES, Outcome(2, b"", NO_CALL)),
                        ("--before #1", PIECES, Outcome(2, b"", NO_CALL)),
                        # A run with checkpoints has pieces. The command asks about the last one, where calls are counted from 1 again.
                        ("--at 0", PIECES, Outcome(0, TWO)),
                        ("--at 1", PIECES, Outcome(0, BOTH)),
                        ("--at 2", PIECES, Outcome(2, b"", b"atomfs: the run has no commit 2\n")),
                        ("--before m#1", PIECES, Outcome(0, TWO)),
                        ("--who /a", PIECES, Outcome(1, b"nobody\n")),
                        ("--who /b", PIECES, Outcome(0, b"commit 1 call 1 m#1 mkdir /b\n")),
                        ("--at 2 --robin", PIECES, Outcome(0, BOTH)),
                        # A write of the bytes that stand there changes nothing, and a directory stays one when what is below it changes.
                        ("--at 1", STARTED, Outcome(0, b"tree\ndir /\ndir /a\nfile /a/f 61\n")),
                        ("--at 2", STARTED, Outcome(0, b"tree\ndir /\ndir /b%20c\nfile /b%20c/f 61\n")),
                        ("--who /a/f", STARTED, Outcome(0, b"commit 2 call 2 7#2 rename /a /b%20c\n")),
                        ("--who /b%20c/f", STARTED, Outcome(0, b"commit 2 call 2 7#2 rename /a /b%20c\n")),
                        ("--who /", STARTED, Outcome(1, b"nobody\n")),
                        # Input that is none.
                        ("--at 0", b"atomfs-journal 5\n", Outcome(3, b"", b"atomfs: line 1: BadHeader\n")),
                        ("--at 0", b"atomfs 1\nthread t\nstat /\n", Outcome(3, b"", b"atomfs: line 4: NoSchedule\n")),
                        (
                            "--at 0",
                            b"atomfs 1\nthread t\nmkdir /a\nschedule\nt !checkpoint\n",
                            Outcome(1, b"", b"atomfs: call 1 is pending\n"),
                        ),
                    )
                )
            ),
            self.look,
        )


if __name__ == "__main__":
    unittest.main()
