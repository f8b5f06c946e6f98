"""Drawn scripts through the program: by drawn words and rounds, by round robin, by a drawn schedule, and on real threads.

All calls return. Of each run text tests/model.py comes to the replies and to the tree, and each thread has begun its own calls, in order.
What is drawn stands in tests/drawn.py.
"""
import collections
import os
import random
import unittest
from typing import Callable, Iterator

import harness
import drawn
import model

SCRIPTS = 200
# Scripts of the third limits, which are drawn by themselves.
LISTING = 60
# What has to come in the runs of all scripts: each call, each reply but those that such calls cannot get, and a commit before one of an earlier call.
REPLIES = "ok stat names bytes wrote ENOENT ENOTDIR EEXIST ENOTEMPTY EISDIR EINVAL EPERM EFBIG".split()
KINDS = {*(f"begin {call}" for call in drawn.CROWDED), *(f"return {reply}" for reply in REPLIES), "overtaken"}


def scripted(number: int) -> tuple[list[list[str]], str]:
    """The threads that are drawn from a number, and their script: drawn words, and rounds to the end."""
    draw = random.Random(number)
    threads = drawn.crowded(draw)
    words = [f"t{draw.randrange(len(threads))}*{draw.randint(1, 12)}" for _ in range(draw.randrange(1, 150))]
    return threads, drawn.script(threads, " ".join([*words, "finish"]))


def kinds(text: str) -> Iterator[str]:
    """What a run text has, entry by entry."""
    latest = 0
    for line in text.splitlines():
        match line.split(" "):
            case "begin", _, _, call, *_:
                yield f"begin {call}"
            case "return", _, "failed", reply:
                yield f"return {reply}"
            case "return", _, reply, *_:
                yield f"return {reply}"
            case "commit", number:
                if int(number) < latest:
                    yield "overtaken"
                latest = max(latest, int(number))


class Scripts(harness.Case):
    def runs(self, words: Callable[[int], tuple[str, ...]]) -> None:
        """Runs all scripts by some words of the program, behind which a number may stand."""
        came: collections.Counter[str] = collections.Counter()

        def look(number: int) -> None:
            threads, script = scripted(number)
            outcome = harness.run(script.encode(), *words(number))
            text = outcome.output.decode()
            self.same(script, outcome._replace(output=b""), harness.Outcome(0))
            wrong = model.fault(text, dict(enumerate(threads)))
            self.same(script, wrong and f"{wrong}\n{text}", None)
            came.update(kinds(text))

        self.each(((f"script_{number}", number) for number in range(SCRIPTS)), look)
        if "ROW" not in os.environ:
            self.same("what has not come in all rows", sorted(KINDS - set(came)), [])

    def test_words(self) -> None:
        self.runs(lambda number: ("run",))

    def test_third_limits(self) -> None:
        """By drawn words, round robin, a drawn schedule and real threads; the call that lists a directory in pieces comes, with names and without."""
        came: collections.Counter[str] = collections.Counter()

        def look(number: int, *words: str) -> None:
            threads = drawn.listing(random.Random(f"listing {number}"))
            script, calls = drawn.script(threads, version=3), dict(enumerate(threads))
            outcome = harness.run(script.encode(), *words)
            self.same(script, outcome._replace(output=b""), harness.Outcome(0))
            if words == ("threads",):
                self.same(script, outcome.output, f"lawful calls {sum(map(len, threads))}\n".encode())
                return
            wrong = model.fault(outcome.output.decode(), calls)
            self.same(script, wrong and f"{wrong}\n{outcome.output.decode()}", None)
            came.update(kinds(outcome.output.decode()))

        orders = ("run",), ("run", "--robin"), ("run", "--seed", "7"), ("threads",)
        self.each(
            ((f"script_{number}_{words[-1]}", number, *words) for number in range(LISTING) for words in orders), look
        )
        if "ROW" not in os.environ and harness.compares:
            self.same(
                "what has not come",
                sorted({"begin list", "return names", "return ENOTDIR", "return EFBIG"} - set(came)),
                [],
            )

    def test_robin(self) -> None:
        self.runs(lambda number: ("run", "--robin"))

    def test_seed(self) -> None:
        self.runs(lambda number: ("run", "--seed", str(number)))

    def test_threads(self) -> None:
        def look(number: int) -> None:
            threads, script = scripted(number)
            count = sum(map(len, threads))
            self.same(
                script, harness.run(script.encode(), "threads"), harness.Outcome(0, f"lawful calls {count}\n".encode())
            )

        self.each(((f"script_{number}", number) for number in range(SCRIPTS)), look)

    def test_journals_of_threads(self) -> None:
        """They are lawful, also by the model, and on the seat of each thread's number its calls have begun, in order."""
        harness.asks_of_answers()

        def look(number: int) -> None:
            threads, script = scripted(number)
            journal = harness.run(script.encode(), "threads", "--journal")
            self.same(script, journal._replace(output=b""), harness.Outcome(0))
            self.same(script, harness.run(journal.output, "check"), harness.Outcome(0, b"lawful\n"))
            count = sum(map(len, threads))
            text = (
                journal.output + harness.run(journal.output, "tree").output
            ).decode() + f"begun {count} committed {count} returned {count}\n"
            wrong = model.replayed(text)
            self.same(script, wrong and f"{wrong}\n{text}", None)
            self.same(script, model.begun(text), {seat: calls for seat, calls in enumerate(threads) if calls})

        self.each(((f"script_{number}", number) for number in range(SCRIPTS)), look)


# How many files of `Ordered` there are, and how many of them stand in the directory before it has a tree beside its entries.
FILES, FEW = 240, 32


def priority(node: int) -> int:
    """By which the entries of a large directory stand above one another in the tree beside them (`fs_nodes`): the number of a node, mixed."""
    word = (node ^ node >> 16) * 0x7FEB352D % 2**32
    word = (word ^ word >> 15) * 0x846CA68B % 2**32
    return word ^ word >> 16


class Ordered(harness.Case):
    """Names that are made against the tree beside the entries of a directory."""

    def test_an_entry_that_stays_in_the_tree(self) -> None:
        """It is too far down to be found where it goes to another directory. A search that meets it begins in its own directory all the same."""
        nodes = sorted(range(4, 4 + FILES), key=priority)
        name = {node: f"{FILES - at:03}" for at, node in enumerate(nodes)}
        calls = ["mkdir /d", "mkdir /s", "mkdir /e", *(f"mknod /s/{node:03}" for node in sorted(nodes))]
        calls += [f"rename /s/{node:03} /d/{name[node]}" for node in nodes]
        calls += [
            f"rename /d/{name[nodes[FEW]]} /e/left",
            *(f"rename /d/{name[node]} /s/{node:03}" for node in nodes[FILES // 2 :]),
        ]
        calls += ["mknod /d/new", "readdir /d", "readdir /e"]
        script = drawn.script([calls])
        outcome = harness.run(script.encode(), "run")
        self.same(script, outcome._replace(output=b""), harness.Outcome(0))
        self.same(script, model.fault(outcome.output.decode(), {0: calls}), None)


if __name__ == "__main__":
    unittest.main()
