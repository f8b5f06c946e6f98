"""Scripts whose last word is `!drawn` through the program: the words before it prepare a run, and a seed draws what comes after them.

What a seed draws is drawn here anew, so that each run has the text of a run of given words.
"""
import itertools
import random
import unittest
from collections.abc import Iterator

import harness
import drawn
from checkpoints import script, text_of, under_way
from harness import Outcome, run

SCRIPTS = 40
# How many threads are drawn of a number at most.
MOST = 100_000
WORD, LONG = 2**32 - 1, 2**64 - 1
MULTIPLIER = 6364136223846793005

# Two threads that each read a file and write it again; what prepares it makes the file, in five events of the first.
LOST = (
    *("thread a", "mknod /f", "read /f 0 9", "write /f 0 61"),
    *("thread b", "read /f 0 9", "write /f 0 62"),
)


def mixed(state: int) -> int:
    """The word that PCG32 makes of a state."""
    word, turn = ((state >> 18 ^ state) >> 27) & WORD, state >> 59
    return (word >> turn | word << (-turn & 31)) & WORD


def words(seed: int) -> Iterator[int]:
    """The words of the `Pcg32` of rand_pcg that `seed_from_u64` of rand_core makes."""
    state, pieces = seed, []
    for _ in range(4):
        state = (state * MULTIPLIER + 11634580027462260723) & LONG
        pieces.append(mixed(state))
    step = (pieces[2] | pieces[3] << 32) | 1
    state = (pieces[0] | pieces[1] << 32) + step & LONG
    while True:
        state = (state * MULTIPLIER + step) & LONG
        yield mixed(state)


def seats(seed: int, threads: int) -> Iterator[int]:
    """The threads that a seed draws."""
    return (word % threads for word in itertools.islice(words(seed), MOST)) if threads else iter(())


def drawn_words(seed: int, threads: int, count: int = MOST) -> str:
    """The first of them as words of a schedule."""
    groups = itertools.groupby(itertools.islice(seats(seed, threads), count))
    return " ".join(f"t{seat}*{len(list(those))}" for seat, those in groups)


def prepared(number: int) -> tuple[list[list[str]], str]:
    """The threads of a script, and words that prepare it."""
    draw = random.Random(f"prepared {number}")
    threads = drawn.crowded(draw)[: draw.randint(1, 4)]
    count = draw.choice((0, 1, 3, 20))
    return threads, " ".join(f"t{draw.randrange(len(threads))}*{draw.randint(1, 30)}" for _ in range(count))


class Drawn(harness.Case):
    def alike_runs(self, given: bytes, one: tuple[str, ...], other: bytes, words: tuple[str, ...] = ("run",)) -> None:
        """A run of one script is that of another one."""
        self.same(given, run(given, *one), run(other, *words))

    def test_seeds(self) -> None:
        """A drawn run has the words before `!drawn`, then those that the seed draws, then rounds."""

        def look(number: int, seed: int) -> None:
            threads, before = prepared(number)
            given = drawn.script(threads, f"{before} !drawn".strip()).encode()
            words = f"{before} {drawn_words(seed, len(threads))} finish".strip()
            self.alike_runs(given, ("run", "--seed", str(seed)), drawn.script(threads, words).encode())

        rows = ((f"script_{number}", number, number * 7) for number in range(harness.rows_of(SCRIPTS)))
        self.each((*rows, ("greatest seed", 3, 2**63 - 1)), look)

    def test_without_a_seed(self) -> None:
        """`!drawn` is then as `finish`, and round robin begins with the words before it."""

        def look(number: int) -> None:
            threads, before = prepared(number)
            given, other = (drawn.script(threads, f"{before} {word}".strip()).encode() for word in ("!drawn", "finish"))
            self.alike_runs(given, ("run",), other)
            self.alike_runs(given, ("run", "--robin"), other)

        self.each(((f"script_{number}", number) for number in range(harness.rows_of(SCRIPTS))), look)

    def test_without_preparation(self) -> None:
        """A script that is not prepared is drawn as one with other words."""
        one, other, ended = (script(*LOST, "schedule", *more) for more in (("!drawn",), (), ("a*3 b", "finish")))
        for words in (
            ("run", "--seed", "5"),
            ("run", "--robin"),
            ("seeds", "--seed", "1", "--runs", "20"),
            ("threads",),
        ):
            self.alike_runs(one, words, other, words)
            self.alike_runs(ended, words, other, words)

    def test_checkpoints(self) -> None:
        """A given run obeys them; a drawn one is one piece."""
        given = script(*LOST, "schedule", "a*5 !checkpoint", "b !drawn")
        without = script(*LOST, "schedule", "a*5 b !drawn")
        ended = script(*LOST, "schedule", "a*5 !checkpoint b finish")
        self.alike_runs(given, ("run",), ended)
        for words in (("run", "--seed", "5"), ("run", "--robin"), ("seeds", "--seed", "1", "--runs", "20")):
            self.alike_runs(given, words, without, words)
        early = script(*LOST, "schedule", "a !checkpoint !drawn")
        self.same(early, run(early, "run"), under_way(1))
        self.same(early, run(early, "run", "--seed", "5").status, 0)

    def test_outcomes(self) -> None:
        """What prepares a race is no part of it: no read comes before the file is there."""
        raced, prepared = (script(*LOST, "schedule", *more) for more in ((), ("a*5 !drawn",)))
        never = ("outcomes", "--seed", "1", "--runs", "300", "--never", "reply b#1 failed ENOENT")
        self.same(raced, run(raced, *never).status, 1)
        self.same(prepared, run(prepared, *never).status, 0)
        both = ("outcomes", "--seed", "1", "--runs", "300")
        for what in ("reply a#2 bytes - and reply b#1 bytes -", "reply b#1 bytes 61", "reply a#2 bytes 62"):
            self.same(prepared, run(prepared, *both, "--sometimes", what).status, 0)

    def test_what_is_found(self) -> None:
        """The script that is found begins with what prepares it, and has no word `!drawn`."""
        given = script(*LOST, "schedule", "a*5 !drawn")
        found = run(given, "find", "--seed", "1", "--runs", "300", "--where", "reply b#1 bytes -")
        if harness.compares:
            self.assertEqual(found.status, 0)
            schedule = found.output.partition(b"\nschedule\n")[2]
            self.assertRegex(schedule, rb"^a\*([5-9]|\d\d)[ \n]")
            self.assertNotIn(b"!drawn", schedule)
        written = run(given, "schedule", "--seed", "5")
        if harness.compares:
            self.assertRegex(written.output.partition(b"\nschedule\n")[2], rb"^a\*([5-9]|\d\d)[ \n]")

    def test_written_schedules(self) -> None:
        """A schedule that is written has the run that was drawn."""
        harness.asks_of_answers()

        def look(number: int) -> None:
            threads, before = prepared(number)
            given = drawn.script(threads, f"{before} !drawn".strip()).encode()
            for words in (("--seed", str(number)), ("--robin",)):
                written = run(given, "schedule", *words)
                self.same(given, written._replace(output=b""), Outcome(0))
                self.alike_runs(given, ("run", *words), written.output)

        self.each(((f"script_{number}", number) for number in range(SCRIPTS)), look)

    def test_shrunk(self) -> None:
        """A word `!drawn` goes as any other word does."""
        given = script(*LOST, "schedule", "a*5 !drawn")
        for what in ("reply a#1 ok", "reply b#2 wrote 1"):
            shrunk = run(given, "shrink", "--where", what)
            if harness.compares:
                self.same(given, shrunk.status, 0)

    def test_limits(self) -> None:
        """As many events as a script gives prepare a run, and no thread is drawn where there is none."""
        alone = script("thread t", "mkdir /a", "schedule", "t*1000000 !drawn")
        self.alike_runs(alone, ("run", "--seed", "1"), script("thread t", "mkdir /a", "schedule", "finish"))
        none = script("schedule", "!drawn")
        for words in (("run",), ("run", "--robin"), ("run", "--seed", "1")):
            self.same(
                none,
                run(none, *words),
                Outcome(0, text_of("atomfs-journal 1", "tree", "dir /", "begun 0 committed 0 returned 0")),
            )


if __name__ == "__main__":
    unittest.main()
