"""Trees of the library for C, event by event: the paragraphs of tests/data/transcripts, and what a handle answers.

A paragraph is a row. Its comment is its name; the lines below it are asked in order, and each has its answer behind ` -> `, or indented under it.

    open LIMIT SEATS    opens a tree for so many nodes, with so many seats; a number behind these is the version of its limits
    SEAT CALL           begins a call on a seat
    SEAT                does a step of a seat; `SEAT end` does the steps up to the return
    run SEAT CALL       runs a call from its begin to its return; `CALL` alone does so on the first seat
    *COUNT CALL; CALL   runs so many rounds of calls, each # the number of the round, and counts the replies ok
    find PATH           the node to which a path leads: the last that a `stat` of it takes, on a further seat
    reply NUMBER, journal FIRST, entries, opening, tree, last
                        a reply; the journal from an entry on; its number of entries; what stands before the first one; the text of the tree; the last line
                        of that
    |LINE               adds a line to a text, which `script`, `robin` and `check` take for a script or a journal, and `from` for a tree
    from LIMIT SEATS    opens a tree at that of the text, as `open` does an empty one
    copy LIMIT          what a tree that opens where this one stands tells: its tree, its number of entries, and what a step of its first seat answers
    checkpoint          hands the journal out, which begins again

What is refused is answered with its status. At the end the calls under way go on to their returns. The journal has to be lawful then, and
tests/model.py has to come to the same replies and to the same tree.
"""
import ctypes
import functools
import typing
import unittest

import harness
import model
from harness import atomfs
from atomfs import Did, Status

MOST_NODES = 1_048_576
# The calls of a paragraph have fewer steps together.
MOST_STEPS = 1_000
CALLS = (
    "mkdir",
    "mknod",
    "unlink",
    "rmdir",
    "rename",
    "exchange",
    "stat",
    "readdir",
    "list",
    "read",
    "write",
    "truncate",
)
# What a step did, and whether that is about a node or a call. Else the number that is told is 0.
STEPS = {
    Did.IDLE: ("idle", False),
    Did.TAKE: ("took", True),
    Did.WAIT: ("waits for", True),
    Did.LET_GO: ("let go", True),
    Did.HELP: ("helped", True),
    Did.COMMIT: ("committed", False),
    Did.CARRY_OUT: ("carried out", False),
    Did.RETURN: ("returned", False),
}


def rows(file: str) -> typing.Iterator[tuple[str, list[str]]]:
    """The paragraphs of a file: of each its name and its lines."""
    text = (harness.DATA / "transcripts" / file).read_text()
    for paragraph in text.removesuffix("\n").split("\n\n"):
        name, *lines = paragraph.split("\n")
        yield name.removeprefix("# "), lines


def questions(lines: list[str]) -> list[list[str]]:
    """The lines that are asked, each with the answer that is wanted."""
    pairs: list[list[str]] = []
    for line in lines:
        if line.startswith("    "):
            pairs[-1][1] += line.removeprefix("    ") + "\n"
        else:
            question, _, answer = line.partition(" -> ")
            pairs.append([question, answer])
    return pairs


def entries_of(tree: atomfs.Tree) -> list[list[str]]:
    """The words of each entry of a tree's journal: its kind, the number of its call, and the rest."""
    return [line.split(" ", 2) for line in tree.entries()[0].decode().splitlines()]


def run_text(tree: atomfs.Tree) -> str:
    """The run text of a tree."""
    kinds = [kind for kind, *_ in entries_of(tree)]
    begun, committed, returned = (kinds.count(kind) for kind in ("begin", "commit", "return"))
    return f"{tree.journal().decode()}{tree.tree().decode()}begun {begun} committed {committed} returned {returned}\n"


class Stage:
    """What lines are asked of: a tree, if one was opened, and a text."""

    def __init__(self) -> None:
        self.tree: typing.Any = None
        self.seats, self.given = 0, ""
        # The call that began last on each seat, and the replies that were told.
        self.last: dict[int, int] = {}
        self.told: dict[int, str] = {}

    def __enter__(self) -> "Stage":
        return self

    def __exit__(self, *error: object) -> None:
        if self.tree:
            # Whether a handle closes is a row of its own: here it would hide why one failed.
            harness.library().atomfs_close(self.tree.handle)

    def answer(self, line: str) -> str:
        """What a line is answered: a status where it is refused."""
        try:
            return self.done(line)
        except atomfs.Error as error:
            name: str = error.status.name
            return f"{name} {error.about}" if error.about else name

    def done(self, line: str) -> str:
        word, _, rest = line.partition(" ")
        if word.isdigit():
            return self.event(int(word), rest)
        if word in CALLS:
            return self.ran(0, line)[1]
        if line[0] == "*":
            return self.rounds(*line[1:].split(" ", 1))
        if line[0] == "|":
            self.given += line[1:] + "\n"
            return ""
        asked: typing.Callable[..., str] = getattr(self, f"on_{word}")
        return asked(*rest.split(" ", 1) if rest else ())

    def event(self, seat: int, rest: str) -> str:
        match rest:
            case "":
                return self.step(seat)
            case "end":
                return self.steps(seat)[-1]
            case _:
                return f"began {self.begin(seat, rest)}"

    def begin(self, seat: int, call: str) -> int:
        self.last[seat] = self.tree.begin(seat, call.encode())
        return self.last[seat]

    def step(self, seat: int) -> str:
        did, about = self.tree.step(seat)
        words, is_about = STEPS[did]
        if did == Did.RETURN:
            words = f"{words} {self.on_reply(self.last[seat])}"
        return f"{words} {about}" if is_about or about else words

    def steps(self, seat: int) -> list[str]:
        """The steps of a seat up to the return of its call."""
        steps = [self.step(seat)]
        while not steps[-1].startswith("returned") and len(steps) < MOST_STEPS:
            steps.append(self.step(seat))
        return steps

    def ran(self, seat: int, call: str) -> tuple[int, str]:
        """The number and the reply of a call that begins and returns."""
        try:
            number, reply = self.tree.run(seat, call.encode())
        except atomfs.Error as error:
            if error.status == Status.WAITS:
                self.last[seat] = error.about
            raise
        self.told[number] = reply.decode()
        return number, self.told[number]

    def rounds(self, count: str, calls: str) -> str:
        replies = [
            self.ran(0, call.replace("#", str(number)))[1] for number in range(int(count)) for call in calls.split("; ")
        ]
        return f"{replies.count('ok')} ok"

    def on_open(self, limit: str, rest: str, text: bytes | None = None) -> str:
        self.seats, version = (*map(int, rest.split(" ")), 1)[:2]
        self.tree = atomfs.Tree(harness.library(), int(limit), version, text)
        numbers = [self.tree.seat() for _ in range(self.seats)]
        return "" if numbers == list(range(self.seats)) else f"seats {numbers}"

    def on_from(self, limit: str, rest: str) -> str:
        return self.on_open(limit, rest, self.given.encode())

    def on_copy(self, limit: str) -> str:
        with atomfs.Tree(harness.library(), int(limit), other=self.tree) as copy:
            try:
                seat = copy.step(0)
            except atomfs.Error as error:
                seat = error.status.name
            return f"{copy.tree().decode()}{copy.entries()[1]} entries, {seat}\n"

    def on_checkpoint(self) -> str:
        handed_out: str = self.tree.checkpoint().decode()
        self.last, self.told = {}, {}
        return handed_out

    def on_opening(self) -> str:
        opening: bytes = self.tree.opening()
        return opening.decode()

    def on_run(self, seat: str, call: str = "") -> str:
        number, reply = self.ran(int(seat), call)
        return f"call {number} returned {reply}"

    def on_find(self, path: str) -> str:
        seat = self.tree.seat()
        self.begin(seat, f"stat {path}")
        *before, last = self.steps(seat)
        taken = [step.removeprefix("took ") for step in before if step.startswith("took ")]
        return taken[-1] if last.startswith("returned stat") else "none"

    def on_reply(self, number: int | str) -> str:
        self.told[int(number)] = self.tree.reply(int(number)).decode()
        return self.told[int(number)]

    def on_journal(self, first: str) -> str:
        lines, count = self.tree.entries(int(first))
        return f"{lines.decode()}{count} entries\n"

    def on_entries(self) -> str:
        return str(self.tree.entries()[1])

    def on_tree(self) -> str:
        tree: bytes = self.tree.tree()
        return tree.decode()

    def on_last(self) -> str:
        return self.on_tree().splitlines()[-1]

    def on_script(self) -> str:
        return harness.library().run(self.given.encode()).decode()

    def on_robin(self) -> str:
        return harness.run(self.given.encode(), "run", "--robin").output.decode()

    def on_check(self) -> str:
        return harness.library().check(self.given.encode()).decode()

    def settles(self) -> bool:
        """Does rounds of steps, and answers whether they come to where no call is under way."""
        rounds = ([self.step(seat) for seat in range(self.seats)] for _ in range(MOST_STEPS))
        return any(all(step == "idle" for step in steps) for steps in rounds)


class Transcripts(harness.Case):
    """Lines and their answers, as they are stored."""

    def play(self, lines: list[str]) -> None:
        given = ""
        with Stage() as stage:
            for line, wanted in questions(lines):
                given += line + "\n"
                self.same(given, stage.answer(line), wanted)
            if stage.tree:
                self.same(given + "rounds of steps", stage.settles(), True)
                self.is_right(stage)

    def is_right(self, stage: Stage) -> None:
        """The journal is lawful and has the replies that were told, and the model comes to it and to the tree."""
        stage.given = text = run_text(stage.tree)
        self.same(text, stage.answer("check"), "lawful\n")
        self.same(text, model.replayed(text), None)
        returned = {int(number): rest[0] for kind, number, *rest in entries_of(stage.tree) if kind == "return"}
        self.same(text, stage.told, {number: returned.get(number) for number in stage.told})

    def test_cores(self) -> None:
        self.each(rows("cores"), self.play)

    def test_trees(self) -> None:
        self.each(rows("trees"), self.play)

    def test_embed(self) -> None:
        self.each(rows("embed"), self.play)

    def test_starts(self) -> None:
        self.each(rows("starts"), self.play)


def functions(handle: typing.Any) -> dict[str, typing.Callable[[], int]]:
    """The functions of an open handle, on arguments that do where its first seat is free and its first call has returned."""
    did, number, count, entries = ctypes.c_uint8(), ctypes.c_uint64(), ctypes.c_size_t(), ctypes.c_size_t()
    line, told = (b"stat /", 6), (ctypes.create_string_buffer(256), 256, count)
    arguments = {
        "seat": (number,),
        "step": (0, did, number),
        "call": (0, *line, *told, number),
        "begin": (0, *line, number),
        "reply": (1, *told),
        "journal": (0, *told, entries),
        "tree": told,
        "close": (),
    }
    return {
        name: functools.partial(getattr(harness.library(), f"atomfs_{name}"), handle, *those)
        for name, those in arguments.items()
    }


class Handles(harness.Case):
    """Handles that are opened with and without success, and asked before, while and after they are open."""

    def answers(self, given: str, status: int, wanted: Status) -> None:
        self.same(given, Status(status).name, wanted.name)

    def opens(self, given: str, handle: typing.Any, limit: int, wanted: Status) -> None:
        self.answers(given, harness.library().atomfs_open(handle, limit), wanted)

    def is_at(self, given: str, tree: atomfs.Tree, journal: bytes, text: bytes) -> None:
        self.same(f"{given}; journal", tree.entries()[0], journal)
        self.same(f"{given}; tree", tree.tree(), text)

    def is_limit(self, limit: int, wanted: Status) -> None:
        """A handle is open behind a limit that is good, and closed behind another."""
        handle = atomfs.Handle()
        self.opens(f"open {limit}", handle, limit, wanted)
        self.answers(
            f"open {limit}; close",
            harness.library().atomfs_close(handle),
            Status.OK if wanted == Status.OK else Status.CLOSED,
        )

    def test_limits(self) -> None:
        good, bad = (1, MOST_NODES), (0, MOST_NODES + 1, 2**64 - 1)
        self.each(
            [(str(limit), limit, Status.OK) for limit in good]
            + [(str(limit), limit, Status.BAD_LIMIT) for limit in bad],
            self.is_limit,
        )

    def is_open_already(self, limit: int) -> None:
        """A tree is as it was where its handle is opened once more."""
        given = f"open 2; seat; call mkdir /a; open {limit}"
        with Stage() as stage:
            for line in ("open 2 1", "mkdir /a"):
                stage.answer(line)
            self.opens(given, stage.tree.handle, limit, Status.ALREADY_OPEN)
            self.is_at(given, stage.tree, b"begin 1 0 mkdir /a\ncommit 1\nreturn 1 ok\n", b"tree\ndir /\ndir /a\n")
            self.same(
                f"{given}; steps, a call",
                [stage.answer(line) for line in ("0", "1", "mkdir /b")],
                ["idle", "NO_SEAT", "FULL"],
            )

    def test_an_open_handle(self) -> None:
        self.each([(str(limit), limit) for limit in (2, 9, 0, MOST_NODES + 1)], self.is_open_already)

    def is_closed(self, name: str) -> None:
        """A function is refused before the handle is open and after it was closed, and the handle can be opened then."""
        handle = atomfs.Handle()
        ask = functions(handle)
        self.answers(name, ask[name](), Status.CLOSED)
        for again in ("", "again, "):
            self.opens(f"{again}open", handle, 9, Status.OK)
            for first in ("seat", "call"):
                self.answers(f"{again}open; {first}", ask[first](), Status.OK)
            self.answers(f"{again}open; seat; call; {name}", ask[name](), Status.OK)
            ask["close"]()
            self.answers(f"{again}open; seat; call; {name}; close; {name}", ask[name](), Status.CLOSED)

    def test_closed_handles(self) -> None:
        self.each([(name, name) for name in functions(atomfs.Handle())], self.is_closed)

    def test_a_handle_that_is_opened_again(self) -> None:
        """It has nothing of the tree that was closed, whose call was under way."""
        with Stage() as stage:
            for line in ("open 9 2", "mkdir /a", "1 mkdir /a/b", "1"):
                stage.answer(line)
            stage.tree.close()
            self.opens("close; open 2", stage.tree.handle, 2, Status.OK)
            self.is_at("close; open 2", stage.tree, b"", b"tree\ndir /\n")
            self.same("close; open 2; step 0", stage.answer("0"), "NO_SEAT")
            self.same("close; open 2; seat", stage.tree.seat(), 0)
            lines = {"run 0 mkdir /b": "call 1 returned ok", "mkdir /c": "FULL", "1": "NO_SEAT"}
            self.same("close; open 2; seat; calls and a step", {line: stage.answer(line) for line in lines}, lines)

    def test_two_handles(self) -> None:
        """What one is asked leaves the tree of the other."""
        with Stage() as one, Stage() as other:
            for stage, lines in (
                (one, ("open 9 2", "0 mkdir /a", "0")),
                (other, ("open 9 1", "mknod /b")),
                (one, ("0 end",)),
            ):
                for line in lines:
                    stage.answer(line)
            self.is_at("one", one.tree, b"begin 1 0 mkdir /a\ncommit 1\nreturn 1 ok\n", b"tree\ndir /\ndir /a\n")
            self.is_at(
                "the other", other.tree, b"begin 1 0 mknod /b\ncommit 1\nreturn 1 ok\n", b"tree\ndir /\nfile /b -\n"
            )


JOURNAL = b"begin 1 0 readdir /\ncommit 1\nreturn 1 names\n"
SCRIPT = b"atomfs 1\nthread m\nreaddir /\nschedule\nfinish\n"
RUN = b"atomfs-journal 1\n" + JOURNAL + b"tree\ndir /\nbegun 1 committed 1 returned 1\n"
# The texts that functions tell of a tree on which `readdir /` has returned, and of SCRIPT and RUN.
TOLD = {
    "reply": b"names",
    "journal": JOURNAL,
    "tree": b"tree\ndir /\n",
    "call": b"names",
    "run": RUN,
    "check": b"lawful\n",
}


def told(tree: atomfs.Tree, name: str) -> typing.Callable[..., int]:
    """A function on all but where it tells its text."""
    library, handle, number, entries = tree.library, tree.handle, ctypes.c_uint64(), ctypes.c_size_t()
    return {
        "reply": lambda *out: library.atomfs_reply(handle, 1, *out),
        "journal": lambda *out: library.atomfs_journal(handle, 0, *out, entries),
        "tree": lambda *out: library.atomfs_tree(handle, *out),
        "call": lambda *out: library.atomfs_call(handle, 0, b"readdir /", 9, *out, number),
        "run": lambda *out: library.atomfs_run(SCRIPT, len(SCRIPT), *out),
        "check": lambda *out: library.atomfs_check(RUN, len(RUN), *out),
    }[name]


class Rooms(harness.Case):
    """Texts that are told where there is more room than they need, as much, less, and none."""

    def tells(self, ask: typing.Callable[..., int], text: bytes, room: int, most: int) -> None:
        """Where there is room for the text, it is written and nothing behind it; else nothing is. Its length is told."""
        before = b"." * most
        out, count = ctypes.create_string_buffer(before, most), ctypes.c_size_t()
        status = Status(ask(out, room, count))
        wanted = (Status.OK, text + before[len(text) :]) if room >= len(text) else (Status.TOO_SMALL, before)
        self.same(f"{len(text)} bytes in {room}", (status, out.raw, count.value), (*wanted, len(text)))

    def look(self, name: str, room: int) -> None:
        text, most = TOLD[name], len(TOLD[name]) + 9
        with atomfs.Tree(harness.library(), 9) as tree:
            tree.seat()
            tree.call(0, b"readdir /")
            self.tells(told(tree, name), text, room, most)
            if name == "call":
                self.same(f"call in {room} bytes; reply", tree.reply(2), text)
                self.same(f"call in {room} bytes; journal", tree.entries(3), (JOURNAL.replace(b" 1", b" 2"), 6))
            else:
                self.tells(told(tree, name), text, most, most)

    def test(self) -> None:
        rooms: dict[str, typing.Callable[[int], int]] = {
            "more": lambda size: size + 2,
            "as much": lambda size: size,
            "less": lambda size: size - 1,
            "none": lambda size: 0,
        }
        self.each(
            [(f"{name}, {how}", name, room(len(text))) for name, text in TOLD.items() for how, room in rooms.items()],
            self.look,
        )


if __name__ == "__main__":
    unittest.main()
