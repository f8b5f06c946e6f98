"""Searches of drawn runs: `atomfs find` against what the program's own runs show, read here once more.

What a run has is read from its run text, and who helped whom from its trace. So the first seed is that of a loop over `atomfs run --seed`.
"""
import math
import random
import re
import shlex
import typing
import unittest

import drawn
from harness import Case, Outcome, rows_of, run, takes_a_process

SCRIPTS, SEEDS = 200, 6
REPLIES = "ok", "failed", "failed ENOENT", "failed EEXIST", "stat dir 0", "wrote 0"
LINES = "dir /a", "dir /b", "dir /a/a", "dir /b/a", "dir /a/b", "file /a -", "file /a/a -", "dir /c"
RACE = b"atomfs 1\nthread m\nmkdir /a\nmkdir /a/d\nthread r\nrename /a /b\nschedule\nfinish\n"
WORDS = b"write `reply CALL REPLY`, `tree LINE`, `helped CALL`, `waits CALL`, `before CALL CALL` or `overlap CALL CALL`, each also after `not`, with `and` or `or` between two"
CALL = b"a CALL is the name of a thread, `#` and a number from 1"
REPLY = b"a REPLY is that of a journal, or `failed` for any error"
LINE = b"a LINE is `dir PATH` or `file PATH HEX`, as a tree text has it"


# A call by its thread and its place there.
Call = tuple[str, int]


class Seen(typing.NamedTuple):
    """What a run showed: by the thread and the place of a call its reply, when it began, committed and returned, whether it was helped and whether it waited; and the lines of its tree."""

    replies: dict[Call, str]
    begins: dict[Call, int]
    commits: dict[Call, int]
    returns: dict[Call, int]
    helped: set[Call]
    waited: set[Call]
    lines: set[str]


class Script(typing.NamedTuple):
    """The threads of a script with their calls, and its words."""

    threads: dict[str, list[str]]
    words: list[str]

    def text(self) -> bytes:
        blocks = "".join(
            f"thread {name}\n" + "".join(f"{call}\n" for call in calls) for name, calls in self.threads.items()
        )
        return f"atomfs 1\n{blocks}schedule\n{' '.join(self.words)}\n".encode()


def seen(names: list[str], text: bytes, trace: bytes) -> Seen:
    """What a run of one piece showed by its run text and its trace."""
    lines = text.decode().splitlines()
    at = lines.index("tree")
    calls: dict[str, Call] = {}
    begun: dict[str, int] = {}
    replies: dict[Call, str] = {}
    begins: dict[Call, int] = {}
    commits: dict[Call, int] = {}
    returns: dict[Call, int] = {}
    for place, line in enumerate(lines[1:at]):
        kind, number, *rest = line.split()
        if kind == "begin":
            name = names[int(rest[0])]
            begun[name] = begun.get(name, 0) + 1
            calls[number] = (name, begun[name])
            begins[calls[number]] = place
        elif kind == "commit":
            commits[calls[number]] = place
        else:
            replies[calls[number]] = " ".join(rest)
            returns[calls[number]] = place
    helped = {call_of(word) for word in re.findall(r" helps (\w+#\d+), ", trace.decode())}
    waited = {call_of(word) for word in re.findall(r" (\w+#\d+) waits for ", trace.decode())}
    return Seen(replies, begins, commits, returns, helped, waited, set(lines[at + 1 : -1]))


def call_of(word: str) -> Call:
    name, place = word.split("#")
    return name, int(place)


def holds(clause: str, run: Seen) -> bool:
    """Whether a run has what a clause says."""
    words = clause.split()
    if words[0] == "not":
        return not holds(clause.removeprefix("not "), run)
    match words[0]:
        case "reply":
            reply = run.replies.get(call_of(words[1]), "none")
            return reply.startswith("failed ") if words[2:] == ["failed"] else reply == " ".join(words[2:])
        case "tree":
            return " ".join(words[1:]) in run.lines
        case "helped":
            return call_of(words[1]) in run.helped
        case "waits":
            return call_of(words[1]) in run.waited
        case "overlap":
            calls = [call_of(word) for word in words[1:]]
            if not all(call in run.begins for call in calls):
                return False
            return max(run.begins[call] for call in calls) < min(run.returns.get(call, math.inf) for call in calls)
        case "before":
            first, second = (run.commits.get(call_of(word)) for word in words[1:])
            return first is not None and second is not None and first < second
    raise ValueError(clause)


def has(what: str, run: Seen) -> bool:
    """Whether all conditions of an alternative hold: `and` binds more tightly than `or`."""
    return any(all(holds(clause, run) for clause in clauses.split(" and ")) for clauses in what.split(" or "))


def drawn_clause(draw: random.Random, threads: dict[str, list[str]]) -> str:
    """A clause about calls of these threads."""

    def call() -> str:
        name = draw.choice([name for name in threads if threads[name]])
        return f"{name}#{draw.randint(1, len(threads[name]))}"

    match draw.choice(("reply", "reply", "tree", "helped", "waits", "before", "overlap")):
        case "reply":
            clause = f"reply {call()} {draw.choice(REPLIES)}"
        case "tree":
            clause = f"tree {draw.choice(LINES)}"
        case "helped" | "waits" as word:
            clause = f"{word} {call()}"
        case word:
            clause = f"{word} {call()} {call()}"
    return clause if draw.randrange(4) else f"not {clause}"


def drawn_script(draw: random.Random) -> tuple[Script, str]:
    """A small script, and something that a run of it may have."""
    if draw.randrange(2):
        calls = [[drawn.crowded_call(draw) for _ in range(draw.randint(1, 4))] for _ in range(3)]
    else:
        calls = drawn.moving(draw)[:3]
    threads = {f"t{number}": made for number, made in enumerate(calls)}
    what = drawn_clause(draw, threads)
    for _ in range(draw.choice((0, 0, 1, 2, 3))):
        what += draw.choice((" and ", " or ")) + drawn_clause(draw, threads)
    return Script(threads, ["finish"]), what


class Finds(Case):
    def look(self, number: int) -> None:
        draw = random.Random(number)
        script, what = drawn_script(draw)
        text, first, names = script.text(), draw.randrange(1000), list(script.threads)
        seeds = [str(seed) for seed in range(first, first + SEEDS)]
        runs = [(run(text, "run", "--seed", seed).output, run(text, "trace", "--seed", seed).output) for seed in seeds]
        schedules = [run(text, "schedule", "--seed", seed).output for seed in seeds]
        came = run(text, "find", "--where", what, "--seed", seeds[0], "--runs", str(SEEDS))
        if not all(output for output, _ in runs):
            return  # Nothing was answered yet.
        wanted = Outcome(1, b"", f"atomfs: no run of {SEEDS} from seed {first} on has it\n".encode())
        for seed, (output, trace), schedule in zip(seeds, runs, schedules):
            if has(what, seen(names, output, trace)):
                wanted = Outcome(0, schedule, f"atomfs: seed {seed}\n".encode())
                break
        self.same(f"atomfs find --where '{what}' --seed {first} --runs {SEEDS}\n{text.decode()}", came, wanted)

    def test_first_seed(self) -> None:
        self.each(((f"script_{number}", number) for number in range(rows_of(SCRIPTS))), self.look)


class Words(Case):
    def ends(self, words: tuple[str, ...], given: bytes, wanted: Outcome) -> None:
        self.same(f"atomfs {shlex.join(words)}\n{given.decode()}", run(given, *words), wanted)

    def all_end(self, rows: typing.Iterable[tuple[str, str, bytes, Outcome]]) -> None:
        self.each(((name, tuple(shlex.split(words)), *rest) for name, words, *rest in rows), self.ends)

    def test_found(self) -> None:
        self.all_end(
            (
                (
                    "none",
                    "find --where 'tree dir /none' --seed 1 --runs 5",
                    RACE,
                    Outcome(1, b"", b"atomfs: no run of 5 from seed 1 on has it\n"),
                ),
                (
                    "none, as `and` binds more tightly",
                    "find --where 'tree dir /none or tree dir / and tree dir /none' --seed 1 --runs 5",
                    RACE,
                    Outcome(1, b"", b"atomfs: no run of 5 from seed 1 on has it\n"),
                ),
                (
                    "the last seed",
                    "find --where 'not tree dir /none' --seed 9223372036854775807 --runs 1000000",
                    b"atomfs 1\nschedule\n",
                    Outcome(0, b"atomfs 1\nschedule\n", b"atomfs: seed 9223372036854775807\n"),
                ),
            )
        )

    def test_bad_words(self) -> None:
        """Before any run, and nothing is written."""

        def bad(why: bytes) -> Outcome:
            return Outcome(2, b"", b"atomfs: --where: " + why + b"\n")

        rows = (
            ("", WORDS), (" ", WORDS), ("and", WORDS), ("not", WORDS), ("reply", WORDS), ("none m#1", WORDS), ("reply m#1 ok and", WORDS), ("reply m#1 ok  and helped m#1", WORDS), ("or", WORDS), ("helped m#1 or", WORDS), ("or helped m#1", WORDS), ("helped m#1 or or helped m#2", WORDS), ("helped m#1 and or helped m#2", WORDS), ("helped m#1 or not", WORDS), ("not or helped m#1", WORDS), ("(helped m#1 or helped m#2)", WORDS), ("helped m#1 or helped m", CALL), ("tree dir a or tree dir /", LINE),
            ("not not helped m#1", WORDS), ("helped", WORDS), ("helped m#1 m#2", WORDS), ("before m#1", WORDS), ("waits", WORDS), ("waits m#1 m#2", WORDS), ("overlap m#1", WORDS), ("overlap m#1 m#2 m#2", WORDS), ("waits m#0", CALL), ("overlap m#1 r", CALL), ("before m#1 m#2 m#2", WORDS),
            ("helped m", CALL), ("helped m#", CALL), ("helped m#0", CALL), ("helped m#01", CALL), ("helped m#x", CALL), ("before m#1 r", CALL), ("reply m ok", CALL),
            ("reply m#1", REPLY), ("reply m#1 done", REPLY), ("reply m#1 ok ok", REPLY), ("reply m#1 failed ENONE", REPLY), ("reply m#1 stat dir", REPLY), ("reply m#1 bytes 0", REPLY), ("reply m#1 failed ENOENT EEXIST", REPLY),
            ("tree", LINE), ("tree dir", LINE), ("tree dir a", LINE), ("tree dir /a 00", LINE), ("tree file /a", LINE), ("tree file /a 0", LINE), ("tree link /a", LINE),
        )  # fmt: skip
        for command in (("find", "--seed", "1", "--runs", "5"),):
            self.each(
                (
                    (f"{command[0]} {number}", (*command, "--where", what), RACE, bad(why))
                    for number, (what, why) in enumerate(rows)
                ),
                self.ends,
            )
            no_call = Outcome(2, b"", b"atomfs: the script has no such call\n")
            self.each(
                (
                    (f"{command[0]} {what}", (*command, "--where", what), RACE, no_call)
                    for what in (
                        "helped m#3",
                        "helped n#1",
                        "reply m#18446744073709551615 ok",
                        "before m#1 r#2",
                        "waits m#3",
                        "overlap m#1 r#2",
                        "not helped M#1",
                        "tree dir / or helped m#3",
                        "helped m#3 and tree dir /none or tree dir /",
                    )
                ),
                self.ends,
            )

    def test_two_lines(self) -> None:
        takes_a_process()
        self.ends(
            ("find", "--where", "reply m#1 ok\nand helped m#1", "--seed", "1", "--runs", "5"),
            RACE,
            Outcome(2, b"", b"atomfs: --where: " + WORDS + b"\n"),
        )

    def test_readable(self) -> None:
        """What words may be."""
        self.each(((what, ("find", "--where", what, "--seed", "1", "--runs", "1"), b"atomfs 1\nthread m\nreaddir /\nschedule\n", Outcome(0, b"atomfs 1\nthread m\nreaddir /\nschedule\nm*5\n", b"atomfs: seed 1\n")) for what in (
            "reply m#1 names", "not reply m#1 failed", "not reply m#1 names a %61nd b", "tree dir /", "not tree file /f -", "not helped m#1 and not before m#1 m#1", "not waits m#1 and overlap m#1 m#1", "not reply m#1 bytes -", "not reply m#1 stat file 3",
            "tree dir /none or tree dir /", "tree dir / or tree dir /none", "tree dir / or tree dir / and tree dir /none", "tree dir /none and tree dir / or tree dir /", "reply m#1 names a %6fr b or reply m#1 names",
        )), self.ends)  # fmt: skip


if __name__ == "__main__":
    unittest.main()
