"""How much `atomfs outcomes` says was seen, beside a count over what `atomfs run` writes of each seed.

The runs, the ends, how many of these came in the last runs for the first time, and for how many pairs of calls of two threads both were
pending at once after some entry of some journal: in words on standard error, and as the last object of `--json`.
"""
import collections
import itertools
import json
import random
import typing
import unittest

import drawn
import harness
import outcomes
import starts
from documents import constants
from harness import Case, asks_of_answers, rows_of, run

SCRIPTS, RUNS = 40, 9
DRAWN = drawn.narrow, drawn.moving, drawn.exchanging, drawn.crowded
LATELY = constants("fs_sched_outcomes/src/running.rt")["LATELY"]
MOST_CALLS = constants("fs_sched_seen/src/meetings.rt")["PAIRED_LIMIT"]
# Each call of one thread may meet each of the other.
TWO = b"atomfs 1\nthread a\nmkdir /a\nrmdir /b\nthread b\nmkdir /b\nrmdir /a\nschedule\nfinish\n"
# The first thread has returned from both calls when the others begin.
AFTER = b"atomfs 1\nthread m\nmkdir /a\nmkdir /b\nthread a\nrmdir /a\nthread none\nthread b\nrmdir /b\nschedule\nm*20 !drawn\n"
ALONE = b"atomfs 1\nthread t\nmkdir /a\nmkdir /b\nschedule\nfinish\n"
# A call: the seat of its thread, and its turn there.
Place = tuple[int, int]


class Seen(typing.NamedTuple):
    """How much was seen, by the names of the object's members."""

    runs: int
    outcomes: int
    new: int
    lately: int
    met: int | None
    pairs: int | None

    def words(self) -> bytes:
        told = f"{counted(self.runs, 'run')}, {counted(self.outcomes, 'outcome')}, {self.new:,} new in the last {counted(self.lately, 'run')}"
        if self.met is not None and self.pairs is not None:
            told += f"; {self.met:,} of {counted(self.pairs, 'pair')} of calls met"
        return f"atomfs: {told}\n".encode()

    def members(self) -> dict[str, int]:
        return {name: number for name, number in self._asdict().items() if number is not None}


def counted(number: int, name: str) -> str:
    return f"{number:,} {name}{'' if number == 1 else 's'}"


def met_in(text: bytes) -> set[frozenset[Place]]:
    """The pairs of calls that are both pending after some entry of a run text."""
    pending: dict[str, Place] = {}
    begun: collections.Counter[int] = collections.Counter()
    met: set[frozenset[Place]] = set()
    for line in text.decode().partition("tree\n")[0].splitlines():
        word, *more = line.split(" ")
        if word == "begin":
            seat = int(more[1])
            begun[seat] += 1
            pending[more[0]] = (seat, begun[seat])
        elif word == "return":
            del pending[more[0]]
        met |= {frozenset(pair) for pair in itertools.combinations(pending.values(), 2)}
    return met


def calls_of(script: bytes) -> list[int]:
    """How many calls each thread of a script has."""
    threads = script.decode().partition("\nschedule\n")[0].split("\nthread ")[1:]
    return [len(thread.splitlines()) - 1 for thread in threads]


def seen_by_hand(script: bytes, seed: int, runs: int, *start: str) -> Seen:
    """How much is seen by a loop over `atomfs run`."""
    texts = {n: run(script, "run", "--seed", str(n), *start).output for n in range(seed, seed + runs)}
    rows = outcomes.table((n, outcomes.end_of(text, script)) for n, text in texts.items())
    lately = min(runs, LATELY)
    new = sum(least >= seed + runs - lately for _, least, *_ in rows)
    calls = calls_of(script)
    pairs = sum(one * other for one, other in itertools.combinations(calls, 2))
    met = set().union(*(met_in(text) for text in texts.values()))
    if sum(calls) > MOST_CALLS:
        return Seen(runs, len(rows), new, lately, None, None)
    return Seen(runs, len(rows), new, lately, len(met), pairs)


class Counts(Case):
    def look(self, script: bytes, seed: int, runs: int, *words: str) -> None:
        """The words, and the object behind those of the ends; the object of the words is that of the numbers."""
        start = words[words.index("--from") :] if "--from" in words else ()
        asked = "outcomes", "--seed", str(seed), "--runs", str(runs), *words
        told, objects = run(script, *asked), run(script, *asked, "--json")
        wanted = seen_by_hand(script, seed, runs, *start)
        if not harness.compares:
            return
        self.same(script.decode(), (told.status, told.message), (0, wanted.words()))
        *rows, last = objects.output.splitlines(keepends=True)
        self.same(script.decode(), (objects.status, objects.message, len(rows)), (0, b"", wanted.outcomes))
        self.same(script.decode(), last, f"{json.dumps(wanted.members(), separators=(',', ':'))}\n".encode())

    def test_drawn_scripts(self) -> None:
        def rows() -> typing.Iterator[tuple[typing.Any, ...]]:
            for number in range(rows_of(SCRIPTS)):
                draw = random.Random(f"seen {number}")
                script = drawn.script(DRAWN[number % len(DRAWN)](draw)).encode()
                yield f"script_{number}", script, draw.randrange(1_000_000), draw.randint(1, RUNS)

        self.each(rows(), self.look)

    def test_one_of_each(self) -> None:
        """One run; one pair; a thread alone; threads without calls; calls that never meet; and the greatest seed."""
        one_pair = TWO.replace(b"rmdir /b\n", b"").replace(b"rmdir /a\n", b"")
        self.each(
            (
                ("one run", TWO, 1, 1),
                ("two threads", TWO, 1, 30, "--all"),
                ("one pair", one_pair, 1, 20),
                ("a thread alone", ALONE, 3, 2),
                ("no threads", b"atomfs 1\nschedule\nfinish\n", 5, 2),
                ("behind what prepares them", AFTER, 1, 20, "--trees"),
                ("the greatest seed", TWO, outcomes.GREATEST, 2),
            ),
            self.look,
        )

    def test_from_a_tree(self) -> None:
        """The calls that made the tree are none of those that meet."""
        path = starts.in_file("for what is seen", starts.tree_of("dir /a", "file /counter 30"))
        race = b"atomfs 3\nthread a\nread /counter 0 1\nwrite /counter 0 31\nthread b\nread /counter 0 1\nrmdir /a\nschedule\nfinish\n"
        self.each((("race", race, 1, 12, "--from", path),), self.look)

    def test_last_runs(self) -> None:
        """What came before the last thousand runs is not new."""
        asks_of_answers()
        self.look(TWO, 1, LATELY + 40)

    def test_many_calls(self) -> None:
        """Of a script with more calls than the limit the pairs are not counted."""
        for calls in (MOST_CALLS, MOST_CALLS + 1):
            others = b"stat /\n" * (calls - 1)
            script = b"atomfs 1\nthread a\n" + others + b"thread b\nstat /\nschedule\nfinish\n"
            with self.subTest(calls):
                self.look(script, 1, 1)

    def test_beside_what_is_broken(self) -> None:
        """An assertion that is broken changes nothing of it; lines that are added up, and faults, have none."""
        asked = "outcomes", "--seed", "1", "--runs", "30"
        plain, broken = run(TWO, *asked), run(TWO, *asked, "--never", "tree dir /")
        self.same(TWO, (broken.status, broken.output), (1, plain.output))
        if harness.compares:
            (line,) = [line for line in broken.message.splitlines(keepends=True) if b" new in the last " in line]
            self.same(TWO, line, plain.message)
        self.same("no script", harness.SEEN.findall(run(b"hello\n", *asked).message), [])

    def test_added(self) -> None:
        asks_of_answers()
        lines = run(TWO, "outcomes", "--seed", "1", "--runs", "30", "--all").output
        added = run(lines, "outcomes", "--add", "--all")
        self.same(lines.decode(), added, harness.Outcome(0, lines))
        objects = run(lines, "outcomes", "--add", "--json").output.splitlines()
        self.same(lines.decode(), len(objects), len(lines.splitlines()))


if __name__ == "__main__":
    unittest.main()
