"""What is left of histories without an order: `atomfs linearize --core` writes calls that show it, and none of them can go.

Histories are those of random runs, with one reply changed. Why one has no order is told by `atomfs linearize`, but for one thing: whether the reply that is
refused could be right, if the other calls had other replies. That is found here, by all orders of the calls.
"""
import copy
import random
import re
import typing
import unittest

import model
from harness import Case, Outcome, asks_of_answers, run, takes_a_process, with_line
from histories import BEGUN, COULD, HEADER, ROWS, Histories, text_of

DRAWN = 100
# Trees that orders of commits come to, by their texts and the calls that are committed.
Reached = dict[tuple[tuple[str, ...], frozenset[str]], model.Tree]
TOLD = re.compile(rb"atomfs: (\d+) of (\d+) calls, after (\d+) trials\n")
CALLS = "mkdir", "mkdir", "mknod", "unlink", "rmdir", "rename", "stat", "readdir"
REPLIES = "ok", "failed ENOENT", "failed EEXIST", "failed ENOTEMPTY", "failed ENOTDIR", "stat dir 0", "names a"
RACE = (
    HEADER,
    "begin 1 0 mkdir /a",
    "return 1 ok",
    "begin 2 0 rmdir /a",
    "begin 3 1 mkdir /a/b",
    "return 3 ok",
    "return 2 ok",
)
# What is told of a history whose calls are all left.
ALL_OF_THREE = b"atomfs: 3 of 3 calls, after 3 trials\n"


def drawn_script(draw: random.Random) -> bytes:
    """Two or three threads with up to 40 calls, on few names."""
    threads = draw.randint(2, 3)
    lines = ["atomfs 1"]
    for thread in range(threads):
        lines.append(f"thread t{thread}")
        for _ in range(draw.randint(2, 40 // threads)):
            kind, name = draw.choice(CALLS), draw.choice("abc")
            path = f"/{name}/{draw.choice('ab')}" if draw.randrange(2) else f"/{name}"
            lines.append(f"{kind} {path} /{draw.choice('abc')}" if kind == "rename" else f"{kind} {path}")
    return text_of((*lines, "schedule", "finish"))


def drawn_history(number: int) -> list[str]:
    """The lines of the history of a random run, in which one reply is changed."""
    draw = random.Random(number)
    journal, _, _ = run(drawn_script(draw), "run", "--seed", str(draw.randrange(1000))).output.partition(b"tree\n")
    lines = [line for line in journal.decode().splitlines() if not line.startswith("commit ")]
    ends = [place for place, line in enumerate(lines) if line.startswith("return ")]
    place = draw.choice(ends[len(ends) // 2 :])
    lines[place] = " ".join((*lines[place].split(" ")[:2], draw.choice(REPLIES)))
    return lines


def calls_of(lines: typing.Sequence[str]) -> list[str]:
    return [line.split(" ")[1] for line in lines if line.startswith("begin ")]


def without(lines: typing.Sequence[str], number: str) -> list[str]:
    return [line for line in lines if line.split(" ")[:2][1:] != [number]]


def is_part(few: typing.Iterable[str], many: typing.Iterable[str]) -> bool:
    left = iter(many)
    return all(line in left for line in few)


def answer_for(lines: typing.Sequence[str]) -> tuple[typing.Sequence[str], str, frozenset[str]] | None:
    """The entries up to the return that is refused, its call, and what that could have replied; none where there is an order, or no history."""
    came = run(text_of(lines), "linearize")
    if found := re.fullmatch(rb"none (\d+) (\d+)\n", came.output):
        told = came.message.decode().splitlines()[1].removeprefix(f"atomfs: {COULD}")
        return lines[: int(found[1]) + 1], found[2].decode(), frozenset(told.split(", "))
    return None


def could_be_right(lines: typing.Sequence[str], number: str) -> bool:
    """Whether the reply of a call could be right, if the other calls had other replies."""
    calls = {line.split(" ")[1]: line.split(" ")[3:] for line in lines if line.startswith("begin ")}
    (wanted,) = (line.split(" ", 2)[2] for line in lines if line.startswith(f"return {number} "))
    reached: Reached = {((), frozenset()): model.started([HEADER])[0]}

    def further(reached: Reached, under_way: frozenset[str]) -> Reached:
        """All that come of these by commits of calls under way."""
        left, found = list(reached.items()), dict(reached)
        while left:
            (_, done), tree = left.pop()
            for call in under_way - done:
                later = copy.deepcopy(tree)
                reply = later.apply(calls[call])
                key = tuple(later.text()), done | {call}
                if (call != number or reply == wanted) and key not in found:
                    found[key] = later
                    left.append((key, later))
        return found

    under_way = set()
    for line in lines[1:]:
        kind, call, *_ = line.split(" ")
        if kind == "begin":
            under_way.add(call)
        else:
            reached = further(reached, frozenset(under_way))
            under_way.remove(call)
            reached = {(text, done - {call}): tree for (text, done), tree in reached.items() if call in done}
    return bool(reached)


class Minimal(Case):
    def look(self, number: int) -> None:
        lines = drawn_history(number)
        given = text_of(lines)
        came = run(given, "linearize", "--core")
        refused = answer_for(lines)
        if not refused:
            return self.same(given, came, Outcome(2, b"", b"atomfs: the history has an order\n"))
        front, call, replies = refused
        is_race = could_be_right(front, call)

        def same_reason(lines: typing.Sequence[str]) -> bool:
            if not (found := answer_for(lines)) or found[1] != call:
                return False
            return could_be_right(found[0], call) if is_race else found[2] == replies

        core = came.output.decode().splitlines()
        told = TOLD.fullmatch(came.message)
        self.same(given, (came.status, bool(told)), (0, True))
        assert told
        few, many, trials = map(int, told.groups())
        self.same(given, (few, many), (len(calls_of(core)), len(calls_of(lines))))
        self.same(given, trials <= 2 * many + many * many, True)
        self.same(given, is_part(core, front), True)
        left = answer_for(core)
        self.same(came.output, (same_reason(core), left and left[0]), (True, core))
        for other in calls_of(core):
            if other != call:
                self.same(came.output, (other, same_reason(without(core, other))), (other, False))
        return None

    def test_drawn(self) -> None:
        asks_of_answers()
        self.each(((f"history_{number}", number) for number in range(DRAWN)), self.look)


class Rows(Case):
    def ends(self, given: bytes, wanted: Outcome, *words: str) -> None:
        self.same(given, run(given, "linearize", "--core", *words), with_line(wanted, given))

    def test_race(self) -> None:
        """Two calls that can't both succeed, and the call that each of them needs."""
        more = list(RACE)
        more[3:3] = ["begin 4 1 mkdir /c", "begin 5 2 stat /c", "return 4 ok", "return 5 failed ?"]
        self.each(
            (
                ("as it is", text_of(RACE), Outcome(0, text_of(RACE), ALL_OF_THREE)),
                (
                    "with others behind it",
                    text_of((*RACE, "begin 8 0 stat /", "return 8 failed ?")),
                    Outcome(0, text_of(RACE), b"atomfs: 3 of 4 calls, after 3 trials\n"),
                ),
            ),
            self.ends,
        )
        came = run(text_of(more), "linearize", "--core")
        self.same(text_of(more), came[:2], (0, text_of(RACE)))

    def test_start_tree(self) -> None:
        """It stays, and so do open replies."""
        head = "atomfs-journal 2", "start", "dir /", "dir /b", "entries"
        rest = "begin 1 0 rmdir /b", "begin 2 1 rmdir /b", "return 2 ok", "return 1 ok"
        few = text_of((*head, *rest))
        self.each(
            (
                ("a start tree", few, Outcome(0, few, b"atomfs: 2 of 2 calls, after 2 trials\n")),
                (
                    "open replies",
                    text_of((HEADER, "begin 1 0 stat /", "return 1 failed ?")),
                    Outcome(
                        0,
                        text_of((HEADER, "begin 1 0 stat /", "return 1 failed ?")),
                        b"atomfs: 1 of 1 calls, after 1 trials\n",
                    ),
                ),
                (
                    "one of two errors",
                    text_of((HEADER, "begin 1 0 stat /", "return 1 failed EEXIST|ENOENT")),
                    Outcome(
                        0,
                        text_of((HEADER, "begin 1 0 stat /", "return 1 failed EEXIST|ENOENT")),
                        b"atomfs: 1 of 1 calls, after 1 trials\n",
                    ),
                ),
                (
                    "an open size",
                    text_of((HEADER, "begin 1 0 stat /a", "return 1 stat dir ?")),
                    Outcome(
                        0,
                        text_of((HEADER, "begin 1 0 stat /a", "return 1 stat dir ?")),
                        b"atomfs: 1 of 1 calls, after 1 trials\n",
                    ),
                ),
            ),
            self.ends,
        )

    def test_refused(self) -> None:
        """Nothing is written."""
        self.each(
            (
                (
                    "an order",
                    text_of((*BEGUN, "return 1 ok")),
                    Outcome(2, b"", b"atomfs: the history has an order\n"),
                ),
                (
                    "no history",
                    ROWS["a busy seat"][0],
                    Outcome(1, b"", b"atomfs: entry 3 makes it no history\n"),
                ),
                (
                    "a limit",
                    text_of((*BEGUN, "return 2 stat dir 1")),
                    Outcome(4, b"", b"atomfs: the limit was reached at entry 2: give a larger one with --limit N\n"),
                    "--limit",
                    "1",
                ),
                ("a line that is none", text_of((*BEGUN, "commit 1")), Outcome(3, b"", b"atomfs: line 4: BadLine\n")),
                ("no header", b"", Outcome(3, b"", b"atomfs: line 1: BadHeader\n")),
            ),
            self.ends,
        )

    def test_page(self) -> None:
        """The history of the page is what is left of it."""
        _, given, _ = Histories.page()
        self.same("docs/TEST-A-FILE-SYSTEM.md", run(given, "linearize", "--core"), Outcome(0, given, ALL_OF_THREE))

    def test_arguments(self) -> None:
        takes_a_process()
        for words in (("--front",), ("--many",), ("--core",)):
            came = run(text_of(RACE), "linearize", "--core", *words)
            self.assertEqual((came.status, came.output), (2, b""), words)
        self.assertEqual(run(text_of(RACE), "linearize", "--core", "-").output, text_of(RACE))


if __name__ == "__main__":
    unittest.main()
