"""Scripts that shrink: `atomfs shrink` keeps what is said of a run, and nothing more can go.

What a run has is read as in tests/find.py, from its run text and its trace.
"""
import random
import re
import shlex
import unittest
from typing import Iterable, Iterator

from find import CALL, LINE, REPLY, WORDS, Script, drawn_script, has, seen
from harness import DATA, Case, Outcome, asks_of_answers, run, takes_a_process

SCRIPTS, FROM_TREE = 200, 60
MOVED = str(DATA / "starts" / "moved.tree")
RACE = b"atomfs 1\n# two threads\nthread m\nmkdir /a\nmkdir /a/d\nmkdir /e\nthread r\nrename /a /b\nschedule\nm*5 r*9\n# the rest\nfinish\n"
TOLD = re.compile(rb"atomfs: calls (\d+), words (\d+), where (.*)\n")


def has_it(script: Script, what: str, tree: str | None = None) -> bool:
    """Whether the run of a script by its own words has what is said. From a tree it has no trace, so nothing is said of helping and waiting there."""
    text = script.text()
    if tree:
        output, trace = run(text, "run", "--from", tree).output, b""
        output = output[output.index(b"entries\n") :]
    else:
        output, trace = (run(text, command).output for command in ("run", "trace"))
    return bool(output) and has(what, seen(list(script.threads), output, trace))


def read(text: bytes) -> Script:
    """The script of a text."""
    blocks, _, words = text.decode().partition("\nschedule\n")
    threads: dict[str, list[str]] = {}
    calls: list[str] = []
    for line in blocks.splitlines()[1:]:
        if line.startswith("thread "):
            calls = threads.setdefault(line.removeprefix("thread "), [])
        else:
            calls.append(line)
    return Script(threads, words.split())


def is_sublist(few: list[str], many: list[str]) -> bool:
    left = iter(many)
    return all(item in left for item in few)


def without_call(script: Script, name: str, at: int) -> Script:
    threads = {other: list(calls) for other, calls in script.threads.items()}
    del threads[name][at]
    return Script(threads, script.words)


def without_word(script: Script, at: int) -> Script:
    return Script(script.threads, script.words[:at] + script.words[at + 1 :])


def moved(what: str, name: str, place: int) -> str:
    """What is said, where a call of a thread goes."""

    def call(found: re.Match[str]) -> str:
        other, number = found.group(1), int(found.group(2))
        return f"{other}#{number - (other == name and number > place)}"

    return re.sub(r"\b(\w+)#(\d+)", call, what)


def smaller(script: Script, what: str) -> Iterator[tuple[Script, str]]:
    """The scripts with one call or one word less, and what is said of each; a call that is named stays."""
    named = re.findall(r"\b(\w+)#(\d+)", what)
    for name, calls in script.threads.items():
        for at in range(len(calls)):
            if (name, str(at + 1)) not in named:
                yield without_call(script, name, at), moved(what, name, at + 1)
    for at in range(len(script.words)):
        yield without_word(script, at), what


class Shrinks(Case):
    def look(self, number: int) -> None:
        draw = random.Random(number)
        script, what = drawn_script(draw)
        if draw.randrange(2):
            script = read(run(script.text(), "schedule", "--seed", str(draw.randrange(1000))).output)
        self.shrinks(script, what)

    def shrinks(self, script: Script, what: str, tree: str | None = None) -> None:
        """What is left of a script still has what is said, and nothing more can go."""
        start: tuple[str, ...] = ("--from", tree) if tree else ()
        words = "shrink", "--where", what, *start
        given = f"atomfs {shlex.join(words)}\n{script.text().decode()}"
        came = run(script.text(), *words)
        if not has_it(script, what, tree):
            return self.same(given, came, Outcome(1, b"", b"atomfs: its run does not have it\n"))
        told = TOLD.fullmatch(came.message)
        self.assertTrue(came.status == 0 and told, f"{given}\n{came}")
        assert told is not None
        shrunk, now = read(came.output), told.group(3).decode()
        self.assertEqual(
            (sum(map(len, shrunk.threads.values())), len(shrunk.words)), (int(told.group(1)), int(told.group(2))), given
        )
        self.assertEqual(list(shrunk.threads), list(script.threads), given)
        for name, calls in shrunk.threads.items():
            self.assertTrue(is_sublist(calls, script.threads[name]), f"{given}\n{came}")
        self.assertTrue(is_sublist(shrunk.words, script.words), f"{given}\n{came}")
        for (name, place), (other, new) in zip(re.findall(r"\b(\w+)#(\d+)", what), re.findall(r"\b(\w+)#(\d+)", now)):
            self.assertEqual(
                (other, shrunk.threads[other][int(new) - 1]), (name, script.threads[name][int(place) - 1]), given
            )
        self.assertTrue(has_it(shrunk, now, tree), f"{given}\n{came}")
        for less, said in smaller(shrunk, now):
            self.assertFalse(has_it(less, said, tree), f"{given}\n{came}\nand less\n{less.text().decode()}")

    def test_drawn(self) -> None:
        asks_of_answers()
        self.each(((f"script_{number}", number) for number in range(SCRIPTS)), self.look)

    # find and shrink
    def test_drawn_from_a_tree(self) -> None:
        """The same of runs that start at a tree."""
        asks_of_answers()

        def look(number: int) -> None:
            draw = random.Random(f"tree {number}")
            script, what = drawn_script(draw)
            while re.search("helped|waits", what):
                script, what = drawn_script(draw)
            words = [f"t{draw.randrange(3)}*{draw.randint(1, 9)}" for _ in range(draw.randrange(12))]
            self.shrinks(Script(script.threads, [*words, *script.words]), what, MOVED)

        self.each(((f"script_{number}", number) for number in range(FROM_TREE)), look)


class Rows(Case):
    def ends(self, words: tuple[str, ...], given: bytes, wanted: Outcome) -> None:
        self.same(f"atomfs {shlex.join(words)}\n{given.decode()}", run(given, *words), wanted)

    def all_end(self, rows: Iterable[tuple[str, str, bytes, Outcome]]) -> None:
        self.each(((name, ("shrink", "--where", what), *rest) for name, what, *rest in rows), self.ends)

    def test_shrunk(self) -> None:
        nothing = b"atomfs 1\n# two threads\nthread m\nthread r\nschedule\n# the rest\n"
        self.all_end(
            (
                (
                    "a call that fails",
                    "reply m#2 failed ENOENT",
                    RACE,
                    Outcome(
                        0,
                        b"atomfs 1\n# two threads\nthread m\nmkdir /a/d\nthread r\nschedule\n# the rest\nfinish\n",
                        b"atomfs: calls 1, words 1, where reply m#1 failed ENOENT\n",
                    ),
                ),
                (
                    "nothing needed",
                    "tree dir /",
                    RACE,
                    Outcome(0, nothing, b"atomfs: calls 0, words 0, where tree dir /\n"),
                ),
                (
                    "behind not",
                    "not tree dir /none",
                    RACE,
                    Outcome(0, nothing, b"atomfs: calls 0, words 0, where not tree dir /none\n"),
                ),
                (
                    "a call that is named stays",
                    "not helped m#3 and tree dir /",
                    RACE,
                    Outcome(
                        0,
                        b"atomfs 1\n# two threads\nthread m\nmkdir /e\nthread r\nschedule\n# the rest\n",
                        b"atomfs: calls 1, words 0, where not helped m#1 and tree dir /\n",
                    ),
                ),
                (
                    "one of two",
                    "reply m#2 failed ENOENT or tree dir /none and tree dir /",
                    RACE,
                    Outcome(
                        0,
                        b"atomfs 1\n# two threads\nthread m\nmkdir /a/d\nthread r\nschedule\n# the rest\nfinish\n",
                        b"atomfs: calls 1, words 1, where reply m#1 failed ENOENT or tree dir /none and tree dir /\n",
                    ),
                ),
                (
                    "the calls of all alternatives stay",
                    "tree dir / or helped m#3 and not helped m#1 or waits r#1",
                    RACE,
                    Outcome(
                        0,
                        b"atomfs 1\n# two threads\nthread m\nmkdir /a\nmkdir /e\nthread r\nrename /a /b\nschedule\n# the rest\n",
                        b"atomfs: calls 3, words 0, where tree dir / or helped m#2 and not helped m#1 or waits r#1\n",
                    ),
                ),
                (
                    "checkpoints go",
                    "tree dir /a",
                    b"atomfs 1\nthread m\nmkdir /a\nmkdir /b\nschedule\nm*5 !checkpoint m*9 !checkpoint finish\n",
                    Outcome(
                        0,
                        b"atomfs 1\nthread m\nmkdir /a\nschedule\nm*5\n",
                        b"atomfs: calls 1, words 1, where tree dir /a\n",
                    ),
                ),
                (
                    "a call that can go once a later one went",
                    "tree dir /d",
                    b"atomfs 1\nthread m\nmkdir /d\nmknod /d/f\nrmdir /d\nschedule\nfinish\n",
                    Outcome(
                        0,
                        b"atomfs 1\nthread m\nmkdir /d\nschedule\nfinish\n",
                        b"atomfs: calls 1, words 1, where tree dir /d\n",
                    ),
                ),
                (
                    "version 2",
                    "tree file /f 00",
                    b"atomfs 2\nthread m\nmknod /f\nmkdir /a\nwrite /f 0 00\nschedule\nfinish\n",
                    Outcome(
                        0,
                        b"atomfs 2\nthread m\nmknod /f\nwrite /f 0 00\nschedule\nfinish\n",
                        b"atomfs: calls 2, words 1, where tree file /f 00\n",
                    ),
                ),
            )
        )

    def test_not_had(self) -> None:
        """Nothing is written."""
        rows = (
            "reply m#2 ok",
            "tree dir /none",
            "not tree dir /",
            "before m#2 m#1",
            "tree dir / and reply m#2 ok or tree dir /none",
        )
        self.all_end((what, what, RACE, Outcome(1, b"", b"atomfs: its run does not have it\n")) for what in rows)

    def test_no_run(self) -> None:
        under_way = b"atomfs 1\nthread m\nmkdir /a\nschedule\nm !checkpoint\n"
        self.all_end((("under way", "tree dir /", under_way, run(under_way, "run")),))

    def test_bad_input(self) -> None:
        """Before any run."""

        def bad(why: bytes) -> Outcome:
            return Outcome(2, b"", b"atomfs: " + why + b"\n")

        rows = (("", WORDS), ("and", WORDS), ("helped m", CALL), ("reply m#1", REPLY), ("tree dir", LINE))
        self.all_end(
            (f"words {number}", what, RACE, bad(b"--where: " + why)) for number, (what, why) in enumerate(rows)
        )
        self.all_end(
            (what, what, RACE, bad(b"the script has no such call"))
            for what in ("helped m#4", "helped n#1", "reply r#2 ok", "before m#1 r#2")
        )
        malformed = b"atomfs 1\nthread m\nmkdir a\nschedule\n"
        self.all_end((("no script", "tree dir /", malformed, run(malformed, "run")),))

    def test_arguments(self) -> None:
        takes_a_process()
        for words in (("shrink",), ("shrink", "--where"), ("shrink", "--where", "tree dir /", "--seed", "1")):
            came = run(RACE, *words)
            self.assertEqual((came.status, came.output), (2, b""), words)


if __name__ == "__main__":
    unittest.main()
