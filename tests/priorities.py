"""Runs whose turns are drawn by priorities, with `--priorities DEPTH`, beside the turns that are drawn anew here.

The scripts are those of tests/prepared.py, which draws the words of seeds too.
"""
import itertools
import unittest

import documents
import drawn
import harness
import outcomes
import prepared
from checkpoints import script
from harness import Outcome, asks_of_answers, run
from starts import in_file, tree_of

SCRIPTS, RUNS = 40, 6
# The most events that the turns of a thread have by the bound of its calls.
MOST = 100_000
CALLS_OF_TWO = "rename", "exchange"
# A reader looks at the first file of a writer, and then at the last one.
FAR = script(
    "thread r", "stat /f1", "stat /f20", "thread w", *(f"mknod /f{number}" for number in range(1, 21)), "schedule"
)
ONLY_LAST = "reply r#1 failed ENOENT and reply r#2 stat file 0"
COUNTER = tree_of("file /counter 30")
RAISED = "read /counter 0 1", "write /counter 0 31"
RACE = script("thread a", *RAISED, "thread b", *RAISED, "schedule", version=3)
LOST = "reply a#1 bytes 30 and reply b#1 bytes 30"


def names_in(path: str) -> int:
    return len([name for name in path.split("/") if name])


def events_of(call: str) -> int:
    """How many events a call has if no other thread is there, at most."""
    kind, *words = call.split()
    paths = words[:2] if kind in CALLS_OF_TWO else [next(word for word in words if word.startswith("/"))]
    return 3 + 2 * len(paths) + 2 * sum(map(names_in, paths))


def most_events(threads: list[list[str]]) -> int:
    return max([1, *(min(MOST, sum(map(events_of, calls))) for calls in threads)])


def turns(threads: list[list[str]], depth: int, seed: int) -> str:
    """The turns that a seed draws, as words of a schedule."""
    if not threads:
        return ""
    count, most = len(threads), most_events(threads)
    word = prepared.words(seed)
    few = [f"t{next(word) % count}*{1 + next(word) % most}" for _ in range(depth - 1)]
    first = next(word) % count
    ends = [f"t{seat}*{most}" for seat in (*range(first, count), *range(first))]
    return " ".join((*few, *ends))


class Turns(harness.Case):
    def test_words(self) -> None:
        """A run has the words before `!drawn`, then the turns that the seed draws, then rounds."""

        def look(number: int, seed: int, depth: int) -> None:
            threads, before = prepared.prepared(number)
            given = drawn.script(threads, f"{before} !drawn".strip()).encode()
            words = f"{before} {turns(threads, depth, seed)} finish".strip()
            came = run(given, "run", "--seed", str(seed), "--priorities", str(depth))
            self.same(given, came, run(drawn.script(threads, words).encode(), "run"))

        depths = itertools.cycle((1, 2, 3, 5, 20))
        rows = ((f"script_{number}", number, number * 7, next(depths)) for number in range(harness.rows_of(SCRIPTS)))
        self.each((*rows, ("greatest seed", 3, 2**63 - 1, 3), ("greatest depth", 4, 11, 1_000)), look)

    def test_deep_paths(self) -> None:
        """Where no other thread is there, a thread comes to the end of its calls by the events that it may have."""
        asks_of_answers()
        deep = "/a/b/c/d"
        made = [f"mkdir {deep[:at]}" for at in (2, 4, 6, 8)]
        moved = [*made, f"mknod {deep}/x", f"rename {deep}/x {deep}/y", f"exchange {deep}/y /a/b", f"readdir {deep}"]
        for calls in (made, moved, [*moved, f"read {deep}/y 0 9", "stat /", "readdir /"]):
            words = f"t0*{most_events([calls])}"
            end = run(drawn.script([calls], words).encode(), "run").output.splitlines()[-1]
            count = len(calls)
            self.same(calls, end, f"begun {count} committed {count} returned {count}".encode())

    def test_written(self) -> None:
        """The schedule that is written runs so again."""
        asks_of_answers()

        def look(number: int) -> None:
            threads, before = prepared.prepared(number)
            given = drawn.script(threads, f"{before} !drawn".strip()).encode()
            by = "--seed", str(number), "--priorities", "3"
            self.same(given, run(run(given, "schedule", *by).output, "run"), run(given, "run", *by))

        self.each(((f"script_{number}", number) for number in range(harness.rows_of(SCRIPTS))), look)

    def test_other_commands(self) -> None:
        """Each command that takes a seed shows this run."""
        given = script(*RACE.decode().splitlines()[1:], "finish", version=3)
        by = "--seed", "5", "--priorities", "2"
        words = script(
            *RACE.decode().splitlines()[1:],
            f"{turns([[*RAISED], [*RAISED]], 2, 5)} finish".replace("t0", "a").replace("t1", "b"),
            version=3,
        )
        for command in ("tree",), ("trace", "--json"), ("draw",):
            self.same(given, run(given, *command, *by), run(words, *command))


class Campaigns(harness.Case):
    def test_seeds(self) -> None:
        """Each run is lawful, in words and as objects."""

        def look(number: int) -> None:
            threads, before = prepared.prepared(number)
            given = drawn.script(threads, f"{before} !drawn".strip()).encode()
            by = "seeds", "--seed", str(number), "--runs", str(RUNS), "--priorities", "3"
            seeds = range(number, number + RUNS)
            self.same(given, run(given, *by), Outcome(0, b"".join(b"seed %d lawful\n" % seed for seed in seeds)))
            objects = b"".join(b'{"seed":%d,"lawful":true}\n' % seed for seed in seeds)
            self.same(given, run(given, *by, "--json"), Outcome(0, objects))

        self.each(((f"script_{number}", number) for number in range(harness.rows_of(SCRIPTS))), look)

    def test_outcomes(self) -> None:
        """The ends are those of a loop over `atomfs run --priorities`."""

        def look(number: int, depth: int) -> None:
            threads, before = prepared.prepared(number)
            given = drawn.script(threads, f"{before} !drawn".strip()).encode()
            by = "--priorities", str(depth)
            rows = outcomes.rows_of_runs(given, number, RUNS, *by)
            came = outcomes.asked(given, number, RUNS, *by, "--all")
            self.same(given, came, Outcome(0, outcomes.lines(rows, every=True)))

        rows = ((f"script_{number}", number, 1 + number % 4) for number in range(harness.rows_of(SCRIPTS)))
        self.each(rows, look)

    def test_from_a_tree(self) -> None:
        asks_of_answers()
        path, by = in_file("counter", COUNTER), ("--priorities", "2")
        rows = outcomes.rows_of_runs(RACE, 1, 20, *by, "--from", path)
        came = outcomes.asked(RACE, 1, 20, *by, "--all", "--from", path)
        self.same(RACE, came, Outcome(0, outcomes.lines(rows, every=True)))
        found = run(RACE, "find", "--where", LOST, "--seed", "1", "--runs", "1000", *by, "--from", path)
        first = next(
            row[1] for row in sorted(rows, key=lambda row: row[1]) if dict(row[2])["a#1"] == dict(row[2])["b#1"]
        )
        self.same(RACE, (found.status, found.message), (0, b"atomfs: seed %d\n" % first))
        self.same(
            RACE, run(found.output, "run", "--from", path), run(RACE, "run", "--seed", str(first), *by, "--from", path)
        )

    def test_what_random_threads_miss(self) -> None:
        """Between the calls of a reader a writer has all of its own: no random run of these has that, and some with few turns have."""
        asks_of_answers()
        both = "--seed", "1", "--runs", "2000", "--sometimes", ONLY_LAST
        self.same(FAR, run(FAR, "outcomes", *both).status, 1)
        for depth in "2", "3":
            self.same(FAR, run(FAR, "outcomes", *both, "--priorities", depth).status, 0)
            found = run(FAR, "find", "--where", ONLY_LAST, "--seed", "1", "--runs", "2000", "--priorities", depth)
            self.same(FAR, found.status, 0)
            what = outcomes.end_of(run(found.output, "run").output, found.output)
            self.same(FAR, dict(what[0])["r#1"], "failed ENOENT")

    def test_page(self) -> None:
        """What COMMANDS says of these runs."""
        asks_of_answers()
        told = "Of 10,000 random runs none shows .* 2 ends. With `--priorities 3` they have 4 ends, and 41 of them are"
        self.assertRegex((documents.DOCS / "COMMANDS.md").read_text(), told)
        random, few = (outcomes.asked(FAR, 1, 10_000, "--all", *by) for by in ((), ("--priorities", "3")))
        self.same(FAR, random.output.count(b"\n"), 2)
        self.same(FAR, few.output.count(b"\n"), 4)
        only_last = [line for line in few.output.splitlines() if b"r#1 failed ENOENT | r#2 stat file 0" in line]
        self.same(FAR, [line.split()[0] for line in only_last], [b"41"])

    def test_assertions(self) -> None:
        """The seed that is named is the first whose run has it."""
        asks_of_answers()
        came = run(FAR, "outcomes", "--seed", "1", "--runs", "2000", "--priorities", "2", "--never", ONLY_LAST)
        seeds = (
            row[1]
            for row in outcomes.rows_of_runs(FAR, 1, 300, "--priorities", "2")
            if dict(row[2])["r#1"] != dict(row[2])["r#2"] and dict(row[2])["r#2"] == "stat file 0"
        )
        self.same(FAR, came.status, 1)
        self.assertIn(b"never %s: seed %d has it\n" % (ONLY_LAST.encode(), min(seeds)), came.message)


class Words(harness.Case):
    def test_usage(self) -> None:
        """A depth is 1 to 1,000, belongs to a seed, and is not of lines that are added up."""
        runs = "--seed", "1", "--runs", "2"
        for words in (
            ("run", "--priorities", "2"),
            ("run", "--robin", "--priorities", "2"),
            ("run", "--seed", "1", "--priorities", "0"),
            ("run", "--seed", "1", "--priorities", "1001"),
            ("run", "--seed", "1", "--priorities", "few"),
            ("seeds", *runs, "--priorities"),
            ("outcomes", "--add", "--priorities", "2"),
            ("check", "--priorities", "2"),
        ):
            self.same(words, run(FAR, *words).status, 2)

    def test_without_threads(self) -> None:
        given = script("schedule", "finish")
        self.same(given, run(given, "run", "--seed", "3", "--priorities", "4"), run(given, "run"))


if __name__ == "__main__":
    unittest.main()
