"""`atomfs outcomes` beside a table of what `atomfs run` writes of each seed: drawn scripts, each form of the lines, and lines of pieces that are added up.

What is drawn stands in tests/drawn.py.
"""
import hashlib
import random
import typing
import unittest

import drawn
from documents import constants
from harness import Case, Outcome, asks_of_answers, rows_of, run, with_line, without_seen

SCRIPTS, RUNS = 200, 12
# Scripts of the third limits.
LISTING = 30
DRAWN = drawn.narrow, drawn.moving, drawn.exchanging, drawn.crowded
GREATEST = constants("fs_sched/src/seeding.rt")["SEED_LIMIT"]
# A name `|` in a listing, and threads whose names begin the names of others.
BARS = b"atomfs 1\nthread a\nmkdir /|\nmkdir /~b#1\nreaddir /\nthread a_1\nmkdir /a#1\nreaddir /\nthread b\nschedule\na !checkpoint finish\n"
BARE = b"atomfs 1\nthread a\nschedule\nfinish\n"
# What each call replied, by its name, and the tree; and an end with how often it came and its least seed.
End = tuple[tuple[tuple[str, str], ...], str]
Row = tuple[int, int, tuple[tuple[str, str], ...], str]


def end_of(text: bytes, script: bytes) -> End:
    """What each call of a script replied, by its name, and the lines of the tree, of a run text."""
    journal, _, rest = text.decode().partition("tree\n")
    tree = "".join(f"{line}\n" for line in ["tree", *rest.splitlines()[:-1]])
    calls: dict[int, list[str]] = {}
    replies: dict[str, str] = {}
    for line in journal.splitlines():
        word, *more = line.split(" ")
        if word == "begin":
            calls.setdefault(int(more[1]), []).append(more[0])
        if word == "return":
            replies[more[0]] = " ".join(more[1:])
    names = [
        line.split()[1]
        for line in script.decode().partition("\nschedule\n")[0].splitlines()
        if line.startswith("thread ")
    ]
    told = tuple(
        (f"{name}#{turn + 1}", replies[call])
        for seat, name in enumerate(names)
        for turn, call in enumerate(calls.get(seat, []))
    )
    return told, tree


def table(ends: typing.Iterable[tuple[int, End]]) -> list[Row]:
    """The rows of the ends by seed: how often, the least seed, and the end."""
    rows: dict[End, tuple[int, int]] = {}
    for seed, end in ends:
        times, least = rows.get(end, (0, seed))
        rows[end] = (times + 1, min(least, seed))
    return sorted(((times, seed, *end) for end, (times, seed) in rows.items()), key=lambda row: (-row[0], row[1]))


def lines(rows: typing.Sequence[Row], every: bool = False, trees: bool = False) -> bytes:
    """How rows are written."""
    differ = [every or len({row[2][place] for row in rows}) > 1 for place in range(len(rows[0][2]))]
    text = ""
    for times, seed, replies, tree in rows:
        digest = hashlib.sha256(tree.encode()).hexdigest()[:16]
        told = "".join(f" | {name} {reply}" for (name, reply), shown in zip(replies, differ) if shown)
        text += f"{times} seed {seed} tree {digest}{told}\n{tree if trees else ''}"
    return text.encode()


def asked(script: bytes, seed: int, runs: int, *words: str) -> Outcome:
    """The outcome without the line that says how much was seen; as objects it is the last one."""
    came = run(script, "outcomes", "--seed", str(seed), "--runs", str(runs), *words)
    return came if "--json" in words else without_seen(came)


def rows_of_runs(script: bytes, seed: int, runs: int, *start: str) -> list[Row]:
    """The table of a loop over `atomfs run`; with further words each of these runs starts elsewhere."""
    return table(
        [
            (number, end_of(run(script, "run", "--seed", str(number), *start).output, script))
            for number in range(seed, seed + runs)
        ]
    )


class Outcomes(Case):
    def look(self, script: bytes, seed: int, runs: int, *words: str) -> None:
        rows = rows_of_runs(script, seed, runs)
        self.same(
            script, asked(script, seed, runs, *words), Outcome(0, lines(rows, "--all" in words, "--trees" in words))
        )

    def test_drawn_scripts(self) -> None:
        """A line for each end, in order, with the replies that differ."""

        def rows() -> typing.Iterator[tuple[typing.Any, ...]]:
            for number in range(rows_of(SCRIPTS)):
                draw = random.Random(number)
                script = drawn.script(DRAWN[number % len(DRAWN)](draw)).encode()
                words = [word for word in ("--all", "--trees") if draw.randrange(2)]
                yield f"script_{number}", script, draw.randrange(1_000_000), RUNS, *words
            for number in range(rows_of(LISTING)):
                draw = random.Random(f"listing {number}")
                yield f"listing_{number}", drawn.script(drawn.listing(draw), version=3).encode(), draw.randrange(
                    1_000_000
                ), RUNS, "--all"

        self.each(rows(), self.look)

    def test_forms(self) -> None:
        """Each form of the lines; threads without calls, listings whose names look like lines, and the greatest seed."""
        forms = (), ("--all",), ("--trees",), ("--trees", "--all")
        given = (
            ("bars", BARS, 3, 20),
            ("bare", BARE, 0, 3),
            ("none", b"atomfs 1\nschedule\nfinish\n", 5, 2),
            ("greatest", BARS, GREATEST, 2),
        )
        self.each(((f"{name} {' '.join(form)}", *more, *form) for name, *more in given for form in forms), self.look)

    def test_many_runs(self) -> None:
        """The counts of a thousand runs add up, and the most runs are a million."""
        came = asked(BARS, 0, 1_000, "--all").output.decode().splitlines()
        self.same(BARS, sum(int(line.split()[0]) for line in came), 1_000)


def told(*lines: str) -> bytes:
    return "".join(f"{line}\n" for line in lines).encode()


A, B = "0123456789abcdef", "fedcba9876543210"
# Lines, what `--add` writes of them, and what with `--all`.
ADDED = {
    "none": ((), (), ()),
    "one": ((f"2 seed 7 tree {A} | m#1 ok",), (f"2 seed 7 tree {A}",), (f"2 seed 7 tree {A} | m#1 ok",)),
    "no calls": ((f"2 seed 7 tree {A}", f"3 seed 9 tree {A}"), (f"5 seed 7 tree {A}",), (f"5 seed 7 tree {A}",)),
    "two ends": (
        (
            f"2 seed 1 tree {A} | m#1 ok | r#1 ok",
            f"1 seed 2 tree {A} | m#1 failed EEXIST | r#1 ok",
            f"3 seed 4 tree {A} | m#1 failed EEXIST | r#1 ok",
        ),
        (f"4 seed 2 tree {A} | m#1 failed EEXIST", f"2 seed 1 tree {A} | m#1 ok"),
        (f"4 seed 2 tree {A} | m#1 failed EEXIST | r#1 ok", f"2 seed 1 tree {A} | m#1 ok | r#1 ok"),
    ),
    "two trees": (
        (f"1 seed 2 tree {A} | m#1 ok", f"1 seed 1 tree {B} | m#1 ok"),
        (f"1 seed 1 tree {B}", f"1 seed 2 tree {A}"),
        (f"1 seed 1 tree {B} | m#1 ok", f"1 seed 2 tree {A} | m#1 ok"),
    ),
    "the least seed comes later": (
        (f"1 seed 9 tree {A} | m#1 ok", f"1 seed 3 tree {A} | m#1 ok"),
        (f"2 seed 3 tree {A}",),
        (f"2 seed 3 tree {A} | m#1 ok",),
    ),
    "bars": (
        (
            f"1 seed 1 tree {A} | m#1 names a#1 | ~b#1 | m#2 names | | m_1#1 ok",
            f"1 seed 2 tree {A} | m#1 names | | m#2 names | | m_1#1 ok",
        ),
        (f"1 seed 1 tree {A} | m#1 names a#1 | ~b#1", f"1 seed 2 tree {A} | m#1 names |"),
        (
            f"1 seed 1 tree {A} | m#1 names a#1 | ~b#1 | m#2 names | | m_1#1 ok",
            f"1 seed 2 tree {A} | m#1 names | | m#2 names | | m_1#1 ok",
        ),
    ),
    "the greatest sum": (
        (f"{2**64 - 2} seed 1 tree {A}", f"1 seed 2 tree {A}"),
        (f"{2**64 - 1} seed 1 tree {A}",),
        (f"{2**64 - 1} seed 1 tree {A}",),
    ),
}
# Texts, and the faults that they have.
GOOD = f"1 seed 1 tree {A} | m#1 ok"
BAD = {
    "a journal": (told("atomfs-journal 1"), "line 1: BadLine"),
    "an empty line": (told(GOOD, ""), "line 2: BadLine"),
    "a tree": (told(GOOD, "tree", "dir /"), "line 2: BadLine"),
    "no times": (told(f"0 seed 1 tree {A}"), "line 1: BadLine"),
    "a zero before": (told(f"01 seed 1 tree {A}"), "line 1: BadLine"),
    "a word too few": (told(f"1 seed tree {A}"), "line 1: BadLine"),
    "a digest too short": (told(GOOD, f"1 seed 1 tree {A[1:]} | m#1 ok"), "line 2: BadLine"),
    "a digest of other letters": (told(f"1 seed 1 tree {A[1:]}g"), "line 1: BadLine"),
    "no reply": (told(f"1 seed 1 tree {A} | m#1"), "line 1: BadLine"),
    "two spaces": (told(f"1 seed 1  tree {A}"), "line 1: BadLine"),
    "another call": (told(GOOD, f"1 seed 2 tree {A} | m#2 ok"), "line 2: BadLine"),
    "a call more": (told(GOOD, f"1 seed 2 tree {A} | m#1 ok | m#2 ok"), "line 2: BadLine"),
    "a call less": (told(GOOD, f"1 seed 2 tree {A}"), "line 2: BadLine"),
    "a number too large": (told(f"{2**64} seed 1 tree {A}"), "line 1: BadLine"),
    "a sum too large": (told(f"{2**64 - 1} seed 1 tree {A}", f"1 seed 2 tree {A}"), "line 2: TooLarge"),
}


class Added(Case):
    """`atomfs outcomes --add`."""

    def test_lines(self) -> None:
        def look(given: typing.Sequence[str], few: typing.Sequence[str], every: typing.Sequence[str]) -> None:
            self.same(given, run(told(*given), "outcomes", "--add"), Outcome(0, told(*few)))
            self.same(given, run(told(*given), "outcomes", "--add", "--all"), Outcome(0, told(*every)))

        self.each(((name, *rows) for name, rows in ADDED.items()), look)

    def test_bad_lines(self) -> None:
        """The line is told, and nothing is written."""
        self.each(
            ((name, *rows) for name, rows in BAD.items()),
            lambda given, fault: self.same(
                given, run(given, "outcomes", "--add"), with_line(Outcome(3, b"", f"atomfs: {fault}\n".encode()), given)
            ),
        )

    def test_pieces(self) -> None:
        """What pieces of a range wrote is added up to what one command writes of the whole."""
        asks_of_answers()

        def look(script: bytes, seed: int, cuts: typing.Sequence[int]) -> None:
            pieces = b"".join(
                asked(script, start, end - start, "--all").output
                for start, end in zip((seed, *cuts), (*cuts, seed + RUNS))
            )
            for words in ((), ("--all",)):
                self.same(script, run(pieces, "outcomes", "--add", *words), asked(script, seed, RUNS, *words))

        def rows() -> typing.Iterator[tuple[typing.Any, ...]]:
            for number in range(SCRIPTS):
                draw = random.Random(number)
                script = drawn.script(DRAWN[number % len(DRAWN)](draw)).encode()
                seed = draw.randrange(1_000_000)
                yield f"script_{number}", script, seed, sorted(
                    draw.sample(range(seed + 1, seed + RUNS), draw.randrange(4))
                )

        self.each(rows(), look)


if __name__ == "__main__":
    unittest.main()
