"""Schedules with words that name a call, through the program: `m@3` brings a thread to the begin of its third call, `m@3!` to its commit.

Such a word is a count of events. The count is found here once more, by the journals of runs with more and fewer events. Each command that reads a script answers of both the same. A word that is no count is a bad word of its line, and the line is shown as it stands.
"""
import bisect
import random
import re
import typing
import unittest

import checkpoints
import documents
import drawn
import harness
import starts
from checkpoints import script
from harness import Outcome, run, with_line

SCRIPTS = 40
# So many events of a thread are enough for a few calls.
MANY = 1_500
WORKED = (
    *("thread writer", "mkdir /work", "mkdir /work/today", "mknod /work/today/notes", "write /work/today/notes 0 6e6f"),
    *("thread mover", "rename /work /done", "rename /done/today /done/first"),
)
# Two threads of which each makes the same directory.
MEETING = "thread t", "mkdir /a", "thread u", "mkdir /a", "stat /a"
# The words of a schedule of WORKED with calls, and the same with counts. The run is that of examples/moved_ancestor.script.
COUNTED = {
    "the first begin": ("writer@1", "writer*1"),
    "a later begin": ("writer@2", "writer*6"),
    "a begin of the fourth call": ("writer@4", "writer*22"),
    "the first commit": ("writer@1!", "writer*3"),
    "a later commit": ("writer@3!", "writer*19"),
    "one after the other": ("writer@2 writer@2! writer@4", "writer*6 writer*4 writer*12"),
    "behind counts": ("writer*20 writer@4", "writer*20 writer*2"),
    "before counts": ("writer@4 writer*5 mover*2 finish", "writer*22 writer*5 mover*2 finish"),
    "helped before its own commit": ("writer*27 mover@1!", "writer*27 mover*4"),
    "the commit was made by another call": ("writer*27 mover*3 writer@4! finish", "writer*27 mover*3 finish"),
    "of both threads": ("writer@4 mover@2 writer@4! finish", "writer*22 mover*6 writer*2 finish"),
    "no event is needed": ("writer*6 writer@2", "writer*6"),
    "none is needed, and others follow": ("writer*6 writer@1! mover*2", "writer*6 mover*2"),
    "none is needed at the begin of a line": ("writer*6\nwriter@1 mover*2", "writer*6\nmover*2"),
    "none is needed, and the line is empty": ("writer*6\nwriter@1\nmover*2", "writer*6\n\nmover*2"),
    "the begin has its commit behind it": ("writer@1! writer@1 mover@1", "writer*3 mover*1"),
    "with comments": ("# writer@9 writer@1\nwriter@1\n\n#@\nmover@1", "# writer@9 writer@1\nwriter*1\n\n#@\nmover*1"),
    "behind a checkpoint": ("writer*21 !checkpoint writer@4 writer@4!", "writer*21 !checkpoint writer*1 writer*8"),
    "before a checkpoint": ("writer@4 writer*14 !checkpoint mover@1!", "writer*22 writer*14 !checkpoint mover*3"),
}  # fmt: skip
# The schedule of a script, and the line of its first bad word among those of the schedule.
BAD = {
    "no such thread": ("x@1", 1),
    "no name": ("@1", 1),
    "call 0": ("t@0", 1),
    "too large a number": ("u@3", 1),
    "a number that is none": ("t@x", 1),
    "no number": ("t@", 1),
    "a mark alone": ("t@!", 1),
    "a zero first": ("t@01", 1),
    "a number behind the greatest": ("t@18446744073709551616", 1),
    "two marks": ("t@1!!", 1),
    "two calls": ("t@1@1", 1),
    "a call and a count": ("t@1*2", 1),
    "a count and a call": ("t*2@1", 1),
    "another word": ("finish@1", 1),
    "a word with a mark": ("!checkpoint@1", 1),
    "behind finish": ("finish t@1", 1),
    "behind the word for drawn events": ("!drawn t@1", 1),
    "on a later line": ("t\n# t@1\nt@9", 3),
    "behind words that are counts": ("t@1 t@1! u@3", 1),
    "before words that are counts": ("t@1\nt@2 u@1\nu@1", 2),
    "the thread waits for a lock": ("t*2 u@1!", 1),
    "the thread waits behind its own call": ("t*2 u@2", 1),
    "a call is pending at a checkpoint": ("t@1 !checkpoint\nt@1!", 2),
}


def has_come(text: bytes, seat: int, call: int, commits: bool) -> bool:
    """Whether a journal has the begin of a call of a thread, or its commit."""
    lines = text.decode().partition("\ntree\n")[0].split("\n")
    begun = [line.split(" ")[1] for line in lines if re.match(rf"begin \d+ {seat} ", line)]
    return len(begun) >= call and (not commits or f"commit {begun[call - 1]}" in lines)


def counted(
    scripted: typing.Callable[[list[str]], bytes],
    before: list[str],
    name: str,
    seat: int,
    call: int,
    commits: bool,
    *more: str,
) -> int | None:
    """The least number of events of a thread behind words that brings it to a call, by the journals of runs; none if there is none."""

    def comes(count: int) -> bool:
        words = [*before, f"{name}*{count}"] if count else before
        return has_come(run(scripted(words), "run", *more).output, seat, call, commits)

    return bisect.bisect_left(range(MANY), True, key=comes) if comes(MANY) else None


class Words(typing.NamedTuple):
    """The words of a drawn schedule, with calls and with counts; whether the last is no count."""

    named: list[str]
    counts: list[str]
    is_bad: bool


def drawn_words(draw: random.Random, threads: list[list[str]], version: int, *more: str) -> Words:
    """A few words of drawn threads, of which each second or so names a call."""
    named: list[str] = []
    counts: list[str] = []

    def scripted(words: list[str]) -> bytes:
        return drawn.script(threads, " ".join(words), version).encode()

    for _ in range(draw.randint(1, 6)):
        number = draw.randrange(len(threads))
        if draw.randrange(2) or not threads[number]:
            word = f"t{number}*{draw.randint(1, 30)}"
            named.append(word)
            counts.append(word)
            continue
        call, commits = draw.randint(1, len(threads[number])), bool(draw.randrange(2))
        count = counted(scripted, counts, f"t{number}", number, call, commits, *more)
        named.append(f"t{number}@{call}{'!' if commits else ''}")
        if count is None:
            return Words(named, counts, True)
        if count:
            counts.append(f"t{number}*{count}")
    return Words(named, counts, False)


class Counts(starts.Asked):
    """Each command answers of a script with calls as of that with counts."""

    def alike_runs(self, given: bytes, other: bytes, *words: tuple[str, ...]) -> None:
        for asked in words:
            self.ends(asked, given, run(other, *asked))

    def test_worked(self) -> None:
        def look(named: str, counts: str) -> None:
            one, other = script(*WORKED, "schedule", named), script(*WORKED, "schedule", counts)
            self.alike_runs(one, other, ("run",), ("trace",), ("trace", "--every"), ("trace", "--json"))
            self.alike_runs(one, other, ("run", "--robin"), ("run", "--seed", "7"), ("schedule", "--robin"))

        self.each(((name, *row) for name, row in COUNTED.items()), look)

    def test_written(self) -> None:
        """`atomfs schedule` writes counts."""
        head = script(*WORKED, "schedule")
        for named, wanted in (
            ("writer@4 mover@2 mover@2!", b"writer*22 mover*10\n"),
            ("writer@1! mover@1\nwriter@1! # mover@2".split(" #")[0], b"writer*3 mover\n"),
        ):
            self.ends(("schedule",), script(*WORKED, "schedule", named), Outcome(0, head + wanted))

    def test_without_words(self) -> None:
        """A `@` in a path, or in a comment, is no such word."""
        lines = "thread t", "mkdir /a@1", "# t@9", "mkdir /a@1/b@2!", "stat /c@3"
        for schedule in ("finish", "t@2 finish", "# t@9\nt*4 finish"):
            other = schedule.replace("t@2", "t*6")
            one, two = (script(*lines, "schedule", words) for words in (schedule, other))
            self.alike_runs(one, two, ("run",), ("trace",))
        came = run(script(*lines, "schedule", "t@2! finish"), "run")
        self.same(lines, b"dir /a@1/b@2!\n" in came.output, True)

    def test_drawn(self) -> None:
        """The counts of drawn words are the least ones by which journals have the begin or the commit."""
        harness.asks_of_answers()

        def look(number: int) -> None:
            draw = random.Random(f"reached {number}")
            threads = (drawn.moving, drawn.exchanging)[number % 2](draw)
            words = drawn_words(draw, threads, 1)
            given = drawn.script(threads, " ".join(words.named)).encode()
            if words.is_bad:
                self.refused_there(given, given.count(b"\n"))
                return
            other = drawn.script(threads, " ".join(words.counts)).encode()
            self.alike_runs(given, other, ("run",), ("trace",))
            for last in ("finish", "!drawn"):
                one, two = (
                    drawn.script(threads, " ".join((*those, last))).encode() for those in (words.named, words.counts)
                )
                self.alike_runs(one, two, ("run",), ("run", "--seed", str(number)), ("run", "--robin"))

        self.each(((f"script_{number}", number) for number in range(harness.rows_of(SCRIPTS))), look)

    def test_before_drawn_events(self) -> None:
        """What a seed draws comes after the words, and is searched as that of counts is."""
        one, other = (
            script(*WORKED, "schedule", f"{words} !drawn") for words in ("writer@4 mover@1", "writer*22 mover*1")
        )
        seeds = "--seed", "3", "--runs", "4"
        what = "helped writer#4"
        self.alike_runs(
            one,
            other,
            ("run", "--seed", "3"),
            ("seeds", *seeds),
            ("outcomes", *seeds),
            ("outcomes", *seeds, "--all", "--json"),
            ("outcomes", *seeds, "--sometimes", what),
            ("find", "--where", what, *seeds),
            ("schedule", "--seed", "3"),
        )

    # shrink
    def test_shrunk(self) -> None:
        one, other = (
            script(*WORKED, "schedule", f"{words} finish")
            for words in ("writer@4 writer*5 mover@1!", "writer*22 writer*5 mover*4")
        )
        came, due = (run(given, "shrink", "--where", "helped writer#4") for given in (one, other))
        self.same(one, (came.status, came.output), (due.status, due.output))

    def test_from_a_tree(self) -> None:
        """A call goes through directories that the tree has."""
        harness.asks_of_answers()
        tree = starts.in_file("reached.tree", starts.tree_of("dir /a", "dir /a/b", "dir /a/b/c"))
        blocks = "thread t", "stat /a/b/c", "mkdir /a/b/c/d", "thread u", "rename /a/b /a/x"

        def scripted(words: list[str]) -> bytes:
            return script(*blocks, "schedule", " ".join(words))

        for call, commits in ((1, True), (2, False), (2, True)):
            word = f"t@{call}{'!' if commits else ''}"
            count = counted(scripted, ["u"], "t", 0, call, commits, "--from", tree)
            one, other = (scripted(["u", said, "finish"]) for said in (word, f"t*{count}"))
            self.alike_runs(one, other, ("run", "--from", tree))

    def test_drawn_from_a_tree(self) -> None:
        harness.asks_of_answers()

        def look(number: int) -> None:
            draw = random.Random(f"reached from {number}")
            made, *threads = drawn.moving(draw)
            path = starts.in_file(f"{self.row}.tree", starts.played([made]))
            words = drawn_words(draw, threads, 1, "--from", path)
            given = drawn.script(threads, " ".join(words.named)).encode()
            if words.is_bad:
                self.refused_there(given, given.count(b"\n"), "--from", path)
                return
            other = drawn.script(threads, " ".join(words.counts)).encode()
            self.alike_runs(given, other, ("run", "--from", path))

        self.each(((f"tree_{number}", number) for number in range(harness.rows_of(SCRIPTS))), look)

    def refused_there(self, given: bytes, line: int, *more: str) -> None:
        wanted = Outcome(3, b"", f"atomfs: line {line}: BadWord\n".encode())
        self.ends(("run", *more), given, with_line(wanted, given))


class BadWords(starts.Asked):
    """A word that is no count is a bad word, and its line is shown as it stands."""

    def told(self, given: bytes, line: int, kind: str = "BadWord") -> None:
        wanted = with_line(Outcome(3, b"", f"atomfs: line {line}: {kind}\n".encode()), given)
        for words in (
            ("run",),
            ("trace",),
            ("schedule",),
            ("run", "--seed", "1"),
            ("outcomes", "--seed", "1", "--runs", "2"),
        ):
            self.ends(words, given, wanted)

    def test_each(self) -> None:
        def look(schedule: str, line: int) -> None:
            self.told(script(*MEETING, "schedule", schedule), len(MEETING) + 2 + line)

        self.each(((name, *row) for name, row in BAD.items()), look)

    def test_other_faults(self) -> None:
        """The faults of blocks come first, and spaces stand between two words alone."""
        last = len(MEETING) + 3
        for given, line, kind in (
            (script("thread t", "mkdir a", "schedule", "t@9"), 3, "BadPath NotAbsolute"),
            (script("thread t", "mkdir /a", "t@1"), 4, "BadLine"),
            (script(*MEETING, "schedule", "t@1  u"), last, "BadLine"),
            (script(*MEETING, "schedule", "t@1 "), last, "BadLine"),
            (script(*MEETING, "schedule", " t@1"), last, "BadLine"),
            (script(*MEETING, "schedule", "t*6 t@1 "), last, "BadLine"),
        ):
            self.told(given, line, kind)

    def test_length(self) -> None:
        """Calls are named in scripts of less than 16,384 bytes, as FORMATS says, and are not in longer ones."""
        self.assertIn("So it is in a script of 16,384 bytes or more.", (documents.DOCS / "FORMATS.md").read_text())
        head, tail = script("# "), script(*MEETING, "schedule", "t@1! finish").removeprefix(b"atomfs 1\n")
        for length, status in ((16_383, 0), (16_384, 3), (200_000, 3)):
            given = head[:-1] + b"x" * (length - len(head) - len(tail)) + b"\n" + tail
            self.same(length, (len(given), run(given, "run").status), (length, status))

    def test_long(self) -> None:
        """The events of a schedule are limited as those of counts are."""
        given = script(*MEETING, "schedule", "t@1 t*999999")
        self.ends(("run",), given, run(given.replace(b"t@1", b"t*1"), "run"))
        given = script(*MEETING, "schedule", "t@1 t*1000000")
        wanted = Outcome(3, b"", f"atomfs: line {len(MEETING) + 3}: TooLarge\n".encode())
        self.ends(("run",), given, with_line(wanted, given))


if __name__ == "__main__":
    unittest.main()
