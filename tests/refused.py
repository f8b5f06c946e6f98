"""Growths of memory and threads that are refused, each in turn: that is told and changes nothing, and what is asked again comes out the same.

The program and the checks `refused` run with refuse.c loaded before the C library, on scripts of tests/data/worked/runs and tests/data/starts. The library for C is linked
with heap.c in the place of its heap, and plays the calls below; tests/model.py says what comes of them.

CHECKS names another program than crates/checks/out/checks, ARCHIVE another archive than crates/atomfs_c/out/libatomfs_c.a.
"""
import concurrent.futures
import contextlib
import ctypes
import errno
import itertools
import os
import re
import tempfile
import typing
import unittest
import urllib.parse
from collections.abc import Iterable, Sequence

import harness
import atomfs
import model
import outcomes
from atomfs import Did, Status
from harness import Case, Outcome, with_line

# A call's seat and line.
Call = tuple[int, str]
Calls = list[Call]
# How many bytes a file gets whose memory is looked at.
WRITTEN = 2**22
RUNS = harness.DATA / "worked" / "runs"
STARTS = harness.DATA / "starts"
STDOUT = harness.ROOT / "crates" / "checks" / "stdout"

NO_MEMORY = Outcome(4, b"", b"atomfs: out of memory\n")
NO_WORKER = Outcome(4, b"", b"atomfs: no worker\n")


def setUpModule() -> None:
    harness.takes_a_process()


def stored(name: str) -> bytes:
    return (RUNS / name).read_bytes()


def ends_of(name: str) -> bytes:
    """The line of the end of a stored run that is drawn from 7."""
    end = outcomes.end_of(stored(f"{name}.drawn.text"), stored(f"{name}.script"))
    return outcomes.lines(outcomes.table([(7, end)]), every=True)


class Preloaded(Case):
    """A program of which one growth, or one thread, is refused."""

    folder: str
    refuse: str

    @classmethod
    def setUpClass(cls) -> None:
        cls.folder = cls.enterClassContext(tempfile.TemporaryDirectory())
        cls.refuse = harness.compiled(cls.folder, "refuse.c")

    def outcome(self, words: list[str], given: bytes, **variables: str) -> Outcome:
        return harness.spawned(words, given, env=os.environ | {"LD_PRELOAD": self.refuse} | variables)

    def whole(self, words: list[str], given: bytes) -> tuple[Outcome, int, int]:
        """The outcome where nothing is refused, and how many growths and threads were asked for."""
        count = f"{self.folder}/count"
        came = self.outcome(words, given, REFUSE_COUNT=count)
        with open(count) as file:
            growths, threads = map(int, file.read().split())
        return came, growths, threads

    def without(self, variable: str, count: int, words: list[str], given: bytes) -> list[Outcome]:
        """The outcomes where one is refused, each in turn, as many side by side as there are processors."""
        with concurrent.futures.ThreadPoolExecutor(os.cpu_count()) as processes:
            return list(
                processes.map(lambda number: self.outcome(words, given, **{variable: str(number)}), range(1, count + 1))
            )

    def tell(self, name: str, outcomes: list[Outcome], told: list[Outcome], *others: Outcome) -> None:
        """Each outcome tells what was refused, or is one of the others; and all that can be told came."""
        for number, came in enumerate(outcomes, 1):
            if came not in (*told, *others):
                self.same(f"{name}, of which number {number} is refused", came, told[0])
        self.same(f"{name}: what is never told", [one for one in told if one not in outcomes], [])


class Program(Preloaded):
    """What the program tells of a growth or a thread that it lacks. It writes nothing then."""

    def growths(self, command: str, name: str, output: bytes) -> None:
        words, given = command.split(), stored(name)
        whole, growths, threads = self.whole(words, given)
        plain = harness.without_seen(whole) if words[0] == "outcomes" else whole
        self.same(f"atomfs {command} < {name}", plain, Outcome(0, output))
        # A thread that has no memory to start is no worker. Some growths can be done without: those for a smaller block, for the paths that are kept, and for
        # the room that a run makes at once; and without memory for it, nothing is said of how much was seen.
        told = [NO_MEMORY, NO_WORKER] if threads else [NO_MEMORY]
        self.tell(
            f"growths of atomfs {command} < {name}", self.without("REFUSE", growths, words, given), told, whole, plain
        )

    def test_growths(self) -> None:
        rows = (
            ("errors", "run", "errors_of_each_call.script", stored("errors_of_each_call.text")),
            ("robin", "run --robin", "lowest_first.script", stored("lowest_first.robin.text")),
            ("bytes", "run", "bytes_of_files.script", stored("bytes_of_files.text")),
            ("from", f"run --from {STARTS}/moved.tree", "../../starts/moved.script", stored("../../starts/moved.text")),
            (
                "from a journal",
                f"run --from {STARTS}/moved.text",
                "../../starts/moved.script",
                stored("../../starts/moved.text"),
            ),
            (
                "seeds",
                "seeds --seed 7 --runs 3",
                "helped_rename.script",
                b"seed 7 lawful\nseed 8 lawful\nseed 9 lawful\n",
            ),
            ("outcomes", "outcomes --seed 7 --runs 1 --all", "helped_rename.script", ends_of("helped_rename")),
            (
                "seeds from a tree",
                f"seeds --seed 7 --runs 2 --from {STARTS}/moved.tree",
                "../../starts/moved.script",
                b"seed 7 lawful\nseed 8 lawful\n",
            ),
            (
                "outcomes from a tree",
                f"outcomes --seed 7 --runs 1 --all --from {STARTS}/moved.tree",
                "../../starts/moved.script",
                ends_of("../../starts/moved"),
            ),
            ("check", "check", "errors_of_each_call.text", b"lawful\n"),
            ("check as an object", "check --json", "errors_of_each_call.text", b'{"lawful":true}\n'),
            (
                "seeds as objects",
                "seeds --seed 7 --runs 1 --json",
                "helped_rename.script",
                b'{"seed":7,"lawful":true}\n',
            ),
            (
                "a journal's trace",
                "trace",
                "helped_mkdir.text",
                (harness.DATA / "traces" / "helped_mkdir.journal.trace").read_bytes(),
            ),
            ("threads", "threads", "errors_of_each_call.script", b"lawful calls 57\n"),
            (
                "explain",
                "explain Nul",
                "errors_of_each_call.script",
                b"Nul: a path has a byte zero\n\nIn a script, for    stat /a%00\nwrite               stat /a%2500\nbecause             no name has a byte zero, and `%25` is a `%`\n",
            ),
        )
        self.each(rows, self.growths)

    def asked_for(self, path: str) -> tuple[int, int]:
        """How many growths a script asks for whose one path has a dot, and how many of them are told where they are refused."""
        words, given = ["run"], text_of(["atomfs 1", "thread t", f"stat {path}", "schedule", "finish"])
        whole, growths, _ = self.whole(words, given)
        self.same(given, whole, with_line(Outcome(3, b"", b"atomfs: line 3: BadPath Dot\n"), given))
        outcomes = self.without("REFUSE", growths, words, given)
        # Without memory for it, the message of the fault does not show the line, or says nothing but the fault.
        first, _, last = whole.message.splitlines(keepends=True)
        lesser = [whole._replace(message=message) for message in (first, first + last)]
        self.tell(f"growths of a path {path}", outcomes, [NO_MEMORY], whole, *lesser)
        return growths, outcomes.count(NO_MEMORY)

    def room_for_names(self, path: str, more: int) -> None:
        growths, told = self.asked_for("/./a/b")
        self.same(
            f"growths of {path}, and how many are told: so many more than of three names",
            self.asked_for(path),
            (growths + more, told + more),
        )

    def test_room_for_names(self) -> None:
        """Room for more than seven names is asked for in steps, each twice as large, and told where it is refused: what is wrong with a name before goes first."""
        rows = (
            ("first of eight", "/./a/b/c/d/e/f/g", 0),
            ("last of eight", "/a/b/c/d/e/f/g/.", 0),
            ("first of many", "/." + "/a" * 64, 0),
            ("last of nine", "/a/b/c/d/e/f/g/h/.", 1),
            ("last of twelve", "/a" * 11 + "/.", 2),
            ("last of many", "/a" * 63 + "/.", 4),
        )
        self.each(rows, self.room_for_names)

    def threads(self, name: str, count: int, calls: int) -> None:
        given = stored(name)
        whole, _, threads = self.whole(["threads"], given)
        self.same(f"atomfs threads < {name}", (whole, threads), (Outcome(0, b"lawful calls %d\n" % calls), count))
        self.tell(
            f"threads of atomfs threads < {name}", self.without("REFUSE_THREAD", count, ["threads"], given), [NO_WORKER]
        )

    def test_threads(self) -> None:
        self.each((("one", "errors_of_each_call.script", 1, 57), ("three", "three_threads.script", 3, 8)), self.threads)


def section(name: bytes) -> bytes:
    """What the checks of a name write, as it is stored."""
    return STDOUT.read_bytes().split(b"==== %b\n" % name)[1].split(b"==== ")[0]


def but_last_line(outcome: Outcome) -> Outcome:
    return outcome._replace(output=b"".join(outcome.output.splitlines(keepends=True)[:-1]))


class Checks(Preloaded):
    """The checks `refused` do once more what was refused, and write the same text but for its last line, which counts that."""

    def test_refused(self) -> None:
        with harness.program_at(
            harness.found("CHECKS", "crates/checks/out/checks", "rt run in crates/checks builds it")
        ):
            whole, growths, _ = self.whole(["refused"], b"")
            outcomes = self.without("REFUSE", growths, ["refused"], b"")
        self.same("checks refused", whole, Outcome(0, section(b"refused")))
        for number, came in enumerate(outcomes, 1):
            self.same(f"checks refused, of which growth {number} is refused", but_last_line(came), but_last_line(whole))
        # A job whose begin is refused is answered so, and is not begun once more.
        lasts = {came.output.splitlines()[-1] for came in outcomes}
        self.same("last lines that are never told", {b"refused: 0, jobs 1", b"refused: 1, jobs 0"} - lasts, set())


# Every growth from some on.
EVERY = 2**31 - 1
# More nodes than the calls make, and more steps than they have together.
LIMIT = 64
MOST_STEPS = 1_000

ONE_SEAT = """\
mkdir /d
mkdir /d
mkdir /d/e
mkdir /d/e/f
mkdir /d/e/f/g
stat /d/e/f/g
mknod /d/a
mknod /d/b
mknod /d/c
mknod /d/h
readdir /d
readdir /d/e/f
write /d/a 3 68656c6c6f
write /d/a 3 68656c6c6f
truncate /d/a 200
read /d/a 2 4
exchange /d/a /d/e
exchange /d/e /d/a
exchange /d/e /d/x
rename /d/a /a
rename /a /d/e/a
rename /d/b /d/e/f/a
rename /d/c /d/e/f/a
unlink /d/h
rmdir /d/e/f/g
mknod /d/i
stat /d/e/a
stat /d
rmdir /d
stat /d
readdir /d
read /d/e/a 3 5
"""
FIRST_SEAT = """\
mkdir /a
mknod /a/f%20g
write /a/f%20g 0 68656c6c6f
read /a/f%20g 1 3
truncate /a/f%20g 4000
rename /a/f%20g /g
readdir /a
stat /a
exchange /a /g
exchange /g /a
unlink /g
mkdir /b
rmdir /b
"""
SECOND_SEAT = """\
mkdir /c
mkdir /d
"""
# By the third limits, which alone have lists and names of so many bytes.
N, M, P = 255 * "n", 255 * "m", 65 * "p"
LISTING = f"""\
mkdir /d
mknod /d/b
mknod /d/a
list /d / 256
list /d /a 9
list /d /x/b 9
list / / 0
list /d/a / 9
readdir /d
write /d/a 9000 ff
read /d/a 8999 9
truncate /d/a 1
mkdir /{N}
mknod /{N}/{M}
list /{N} / 9
list /{N} /{M} 9
rename /d/b /{N}/{P}
rename /{N}/{P} /{N}/{M}
rename /{N} /{M}
rename /{M} /{M}
exchange /{M} /d
exchange /d /{N}
readdir /
list / / 9
unlink /d/{M}
rename /d /{N}
rmdir /{N}
"""
# A call of each kind, each on a seat of its own, and what stands when they begin.
UNDER_WAY = """\
mkdir /a/d/x
mknod /a/d/y
readdir /a/d
write /a/d/f 3 ffff
read /a/d/f 1 6
truncate /a/d/f 4
stat /a/d/f
exchange /a /e
rename /a /b
unlink /a/f
rmdir /e
"""
BEFORE = """\
mkdir /a
mkdir /a/d
mkdir /e
mknod /a/f
mknod /a/d/f
write /a/d/f 0 0102030405
"""


def lengthened(text: str) -> str:
    """The same calls on names of 255 bytes."""
    return re.sub("/([a-z])", lambda name: f"/{255 * name[1]}", text)


def on_seat(seat: int, text: str) -> Calls:
    return [(seat, line) for line in text.splitlines()]


# Calls one after the other, with their seats.
LISTS = {
    "one seat": on_seat(0, ONE_SEAT),
    "two seats": on_seat(0, FIRST_SEAT) + on_seat(1, SECOND_SEAT),
    "the third limits": on_seat(0, LISTING),
}

# Calls that a tree forgets, one list after the other. All lists but the first have fewer calls than a quarter of its nodes, and the last only looks.
FORGOTTEN = (
    [f"mknod /{name}" for name in "abcdefghijklmnop"],
    ["mkdir /q", "rename /a /q/a", "write /q/a 2 ff", "readdir /"],
    ["truncate /q/a 9", "exchange /q /b", "unlink /c", "rename /b/a /b/c"],
    ["stat /b/c", "read /b/c 0 9"],
)

# The calls of which tools tell.
FEW = on_seat(0, "mkdir /a\nmknod /a/f\nwrite /a/f 0 ff\nread /a/f 0 9") + on_seat(
    1, "rename /a /b\nreaddir /\nstat /none"
)


def seats_of(calls: Calls) -> range:
    return range(1 + max(seat for seat, _ in calls))


def text_of(lines: Iterable[str]) -> bytes:
    return "".join(f"{line}\n" for line in lines).encode()


def version_of(calls: Sequence[Call]) -> int:
    """The version of the limits by which calls are made."""
    return 3 if any(line.startswith("list ") for _, line in calls) else 1


def script_of(calls: Calls) -> bytes:
    """A script whose threads have their turns one after the other."""
    blocks = [
        line for seat in seats_of(calls) for line in (f"thread t{seat}", *(line for at, line in calls if at == seat))
    ]
    return text_of(
        [
            f"atomfs {version_of(calls)}",
            *blocks,
            "schedule",
            " ".join(f"t{seat}*{MOST_STEPS}" for seat in seats_of(calls)),
        ]
    )


def counts_of(calls: int) -> bytes:
    return b"begun %d committed %d returned %d\n" % (calls, calls, calls)


class Wanted:
    """What the specification says of calls one after the other: their replies, their journal, and their tree."""

    def __init__(self, calls: Sequence[Call] = (), version: int | None = None) -> None:
        self.version = version or version_of(calls)
        self.model, self.count = model.Tree(self.version), 0
        self.entries: list[str] = []
        for seat, line in calls:
            self.call(seat, line)

    def call(self, seat: int, line: str) -> tuple[int, bytes]:
        """The number and the reply of a call."""
        self.count += 1
        reply = self.model.apply(line.split(" "))
        self.entries += [f"begin {self.count} {seat} {line}", f"commit {self.count}", f"return {self.count} {reply}"]
        return self.count, reply.encode()

    def journal(self) -> bytes:
        opening = ["atomfs-journal 1"] if self.version == 1 else ["atomfs-journal 4", "start", "dir /", "entries"]
        return text_of([*opening, *self.entries])

    def tree(self) -> bytes:
        return text_of(self.model.text())

    def run(self) -> bytes:
        return self.journal() + self.tree() + counts_of(self.count)


def status_of(ask: typing.Callable[..., typing.Any], *given: typing.Any) -> tuple[Status, typing.Any]:
    """The status of a function, and what it answers, or what the status is about."""
    try:
        return Status.OK, ask(*given)
    except atomfs.Error as error:
        return error.status, error.about


class Played(atomfs.Tree):
    """A tree beside what the specification says of it. It is opened apart, since that takes memory too.

    A function that lacks memory has changed nothing, and is asked again. `refused` has the functions of which a growth was refused, and their status.
    """

    def __init__(self, case: Case, library: atomfs.Library, version: int = 1) -> None:
        self.library, self.handle, self.case, self.version = library, atomfs.Handle(), case, version
        self.known: Wanted | None = None
        self.steps: list[tuple[Did, int]] = []
        self.refused: set[tuple[str, str]] = set()

    def __enter__(self) -> "Played":
        super().__enter__()
        return self

    @property
    def wanted(self) -> Wanted:
        """What is wanted of it, once it is open."""
        assert self.known
        return self.known

    def open(self, limit: int = LIMIT) -> None:
        if self.version == 1:
            self.done(self.library.atomfs_open(self.handle, limit))
        else:
            self.done(self.library.atomfs_open_with(self.handle, limit, self.version))

    def opened(self, seats: Iterable[int]) -> None:
        """Opens the tree, with seats of these numbers."""
        self.asked("open", self.open)
        self.known = Wanted(version=self.version)
        for seat in seats:
            self.case.same("the number of a seat", self.asked("seat", self.seat), seat)

    def asked(self, name: str, ask: typing.Callable[..., typing.Any], *given: typing.Any) -> typing.Any:
        """What a function answers; and again, where it lacks memory. It may do so only where a growth was refused."""
        refusals = self.library.lib.refusals()
        status, answer = status_of(ask, *given)
        if self.library.lib.refusals() > refusals:
            self.refused.add((name, status.name))
            if status == Status.UNTOLD:
                return answer, None
            if status == Status.NO_MEMORY:
                self.is_unchanged(name)
                status, answer = status_of(ask, *given)
        self.case.same((name, *given), status, Status.OK)
        return answer

    def is_unchanged(self, name: str) -> None:
        """All is as it was before a function that lacked memory."""
        if self.known is None:
            self.case.same(
                f"close behind {name}, which lacked memory", self.library.atomfs_close(self.handle), Status.CLOSED
            )
        else:
            self.case.same(f"the journal behind {name}, which lacked memory", self.journal(), self.wanted.journal())
            self.case.same(f"the tree behind {name}, which lacked memory", self.tree(), self.wanted.tree())

    def stands(self) -> None:
        """The journal and the tree are those that are wanted."""
        self.case.same("the journal", self.asked("journal", self.journal), self.wanted.journal())
        self.case.same("the tree", self.asked("tree", self.tree), self.wanted.tree())

    def has_returned(self, seat: int, line: str, number: int) -> bytes:
        """A call that has returned has the number and the reply that are wanted. Answers the reply."""
        wanted, reply = self.wanted.call(seat, line)
        self.case.same(f"the number of {line}", number, wanted)
        self.case.same(f"the reply of {line}", self.asked("reply", self.reply, number), reply)
        return reply

    def make(self, seat: int, line: bytes) -> tuple[int, bytes]:
        """The number and the reply of a call that is made at once. The wrapper's own hides that a reply was untold."""
        out, count, number = ctypes.create_string_buffer(1024), ctypes.c_size_t(), ctypes.c_uint64()
        status = self.library.atomfs_call(self.handle, seat, line, len(line), out, len(out), count, number)
        self.done(status, number.value)
        return number.value, out.raw[: count.value]

    def by_call(self, seat: int, line: str) -> None:
        """A call that is made at once."""
        number, told = self.asked("call", self.make, seat, line.encode())
        reply = self.has_returned(seat, line, number)
        if told is not None:
            self.case.same(f"the reply that {line} tells", told, reply)

    def typed(self, seat: int, line: str) -> bytes:
        """What the typed call of a line answers, as the text of a reply."""
        name, word, *more = line.split(" ")
        path = urllib.parse.unquote_to_bytes(word)
        if name in ("mkdir", "mknod", "unlink", "rmdir"):
            answer = getattr(self, name)(seat, path)
        elif name in ("rename", "exchange"):
            answer = getattr(self, name)(seat, path, urllib.parse.unquote_to_bytes(more[0]))
        elif name == "list":
            answer = self.list(seat, path, urllib.parse.unquote_to_bytes(more[0]), int(more[1]))
        elif name == "write":
            answer = self.write(seat, path, int(more[0]), bytes.fromhex(more[1]))
        else:
            answer = getattr(self, name)(seat, path, *map(int, more))
        if name == "stat":
            return f"stat {'dir' if answer.is_dir else 'file'} {answer.size}".encode()
        if name in ("readdir", "list"):
            return " ".join(["names", *(model.escaped(name) for name in answer)]).encode()
        if name == "read":
            return f"bytes {answer.hex() or '-'}".encode()
        return b"ok" if answer is None else b"wrote %d" % answer

    def told(self, seat: int, line: str) -> bytes:
        try:
            return self.typed(seat, line)
        except OSError as error:
            return f"failed {errno.errorcode[error.errno]}".encode()

    def by_typed(self, seat: int, line: str) -> None:
        """A typed call. Where its names were untold, they are asked for again."""
        told = self.asked("typed", self.told, seat, line)
        self.case.same(
            f"what the typed call of {line} tells", told, self.has_returned(seat, line, self.wanted.count + 1)
        )

    def returns(self, seat: int) -> None:
        """Steps the call of a seat to its return."""
        for _ in range(MOST_STEPS):
            self.steps.append(self.step(seat))
            if self.steps[-1][0] == Did.RETURN:
                return
        self.case.fail("a call that is alone does not return")

    def by_steps(self, seat: int, line: str) -> None:
        """A call that begins and is stepped to its return."""
        number = self.asked("begin", self.begin, seat, line.encode())
        self.asked("step", self.returns, seat)
        self.has_returned(seat, line, number)


class Library(Case):
    """What the functions of the library answer where a growth is refused, and then."""

    library: atomfs.Library
    heap: typing.Any

    @classmethod
    def setUpClass(cls) -> None:
        archive = harness.found("ARCHIVE", "crates/atomfs_c/out/libatomfs_c.a", "embed/build builds it")
        folder = cls.enterClassContext(tempfile.TemporaryDirectory())
        cls.library = atomfs.Library(
            harness.compiled(folder, "heap.c", "-Wl,--whole-archive", archive, "-Wl,--no-whole-archive")
        )
        cls.heap = cls.library.lib

    def setUp(self) -> None:
        self.heap.refuse(0, 0)

    def nothing_is_held(self) -> None:
        self.same("how many blocks are in use where no tree is open", self.heap.blocks(), 0)

    def all_came(self, came: set[typing.Any], wanted: set[typing.Any]) -> None:
        """All rows together came to all that is wanted."""
        if "ROW" not in os.environ:
            self.same("the functions of which a growth was refused, and their status", sorted(came), sorted(wanted))

    def played(self, calls: Calls, by: typing.Callable[["Played", int, str], object], number: int = 0) -> Played:
        """Calls on a tree of their own, where the growth of a number is refused: from then on it is looked at after each call."""
        self.heap.refuse(number, number)
        with Played(self, self.library, version_of(calls)) as tree:
            tree.opened(seats_of(calls))
            for seat, line in calls:
                by(tree, seat, line)
                if tree.refused:
                    tree.stands()
            tree.stands()
        self.nothing_is_held()
        return tree

    def growths_of(self, ask: typing.Callable[..., typing.Any], *given: typing.Any) -> tuple[typing.Any, range]:
        """What a function answers where nothing is refused, and the numbers of the growths that it asks for."""
        self.heap.refuse(0, 0)
        return ask(*given), range(1, 1 + self.heap.growths())

    def in_turn(self, by: typing.Callable[["Played", int, str], object], wanted: set[tuple[str, str]]) -> None:
        """Plays each list of calls once for each growth, which is refused."""
        rows, came = [], set()
        for name, calls in LISTS.items():
            whole, growths = self.growths_of(self.played, calls, by)
            rows += [(f"{name}, growth {number}", calls, number, whole.steps) for number in growths]

        def look(calls: Calls, number: int, steps: list[tuple[Did, int]]) -> None:
            tree = self.played(calls, by, number)
            self.same("how many growths were refused", self.heap.refusals(), 1)
            self.same("what the steps did", tree.steps, steps)
            came.update(tree.refused)

        self.each(rows, look)
        self.all_came(
            came, wanted | {(function, "NO_MEMORY") for function in ("open", "seat", "reply", "journal", "tree")}
        )

    def test_calls(self) -> None:
        """Calls that are made at once. A step of theirs can do without a smaller block."""
        self.in_turn(Played.by_call, {("call", "NO_MEMORY"), ("call", "UNTOLD"), ("call", "OK")})

    def test_typed(self) -> None:
        """Typed calls. A step of theirs can do without a smaller block, and names that are untold are asked for again."""
        self.in_turn(Played.by_typed, {("typed", "NO_MEMORY"), ("typed", "OK")})

    def checkpointed(self, calls: Calls, number: int) -> tuple[int, tuple[str, str]]:
        """A checkpoint where the growth of a number is refused, and another one: what is handed out, and what stands then."""
        self.heap.refuse(0, 0)
        with Played(self, self.library) as tree:
            tree.opened(seats_of(calls))
            for seat, line in calls:
                tree.by_call(seat, line)
            self.heap.refuse(number, number)
            status, piece = status_of(tree.checkpoint)
            refusals, growths = self.heap.refusals(), self.heap.growths()
            self.heap.refuse(0, 0)
            self.assertIn(status, (Status.OK, Status.NO_MEMORY) if refusals else (Status.OK,))
            if status == Status.NO_MEMORY:
                tree.is_unchanged("checkpoint")
                piece = tree.checkpoint()
            self.same("the piece", piece, tree.wanted.journal())
            nodes = tree.wanted.tree().removeprefix(b"tree\n")
            self.same("what stands then", tree.journal(), b"atomfs-journal 2\nstart\n" + nodes + b"entries\n")
            self.same("the tree", tree.tree(), tree.wanted.tree())
            self.same("the next call", tree.begin(0, b"stat /"), 1)
            self.same("a checkpoint with a call under way", status_of(tree.checkpoint), (Status.UNDER_WAY, 1))
        self.nothing_is_held()
        return growths, ("checkpoint", status.name)

    def test_checkpoint(self) -> None:
        """It asks for memory only for calls that change something, and cannot do without."""
        growths, _ = self.checkpointed(LISTS["one seat"], 0)
        came = set()
        self.each(
            ((f"growth {number}", number) for number in range(1, growths + 1)),
            lambda number: came.add(self.checkpointed(LISTS["one seat"], number)[1]),
        )
        self.all_came(came, {("checkpoint", "NO_MEMORY")})

    @contextlib.contextmanager
    def behind_calls(self) -> typing.Iterator[Played]:
        """A tree on which calls of one seat were made."""
        self.heap.refuse(0, 0)
        with Played(self, self.library) as tree:
            tree.opened([0])
            for _, line in LISTS["one seat"]:
                tree.by_call(0, line)
            yield tree
        self.nothing_is_held()

    def refuses(
        self, number: int, ask: typing.Callable[..., typing.Any], *given: typing.Any
    ) -> tuple[tuple[Status, typing.Any], int, int]:
        """What a function answers where the growth of a number is refused, and how many were asked for and refused."""
        self.heap.refuse(number, number)
        answer = status_of(ask, *given)
        growths, refusals = self.heap.growths(), self.heap.refusals()
        self.heap.refuse(0, 0)
        return answer, growths, refusals

    def looked_at(self, name: str, wanted: typing.Any, number: int = 0) -> tuple[int, tuple[str, str]]:
        """A verdict or a forgetting where the growth of a number is refused, and another one."""
        with self.behind_calls() as tree:
            (status, answer), growths, refusals = self.refuses(number, getattr(tree, name))
            self.assertIn(status, (Status.OK, Status.NO_MEMORY) if refusals else (Status.OK,))
            if status == Status.NO_MEMORY:
                tree.is_unchanged(name)
                answer = getattr(tree, name)()
            self.same(f"what {name} answers", answer, wanted)
            self.same("the tree", tree.tree(), tree.wanted.tree())
            self.same("the entries that are left", tree.entries()[1], 0 if name == "forget" else 3 * tree.wanted.count)
        return growths, (name, status.name)

    def test_verdict_and_forget(self) -> None:
        """In a verdict, names that are listed once more can do without a smaller block; what is forgotten is not listed once more."""
        looks, came = (("verdict", (0, 0)), ("forget", len(LISTS["one seat"]))), set()
        rows = (
            (f"{name}, growth {number}", name, wanted, number)
            for name, wanted in looks
            for number in range(1, 1 + self.looked_at(name, wanted)[0])
        )
        self.each(rows, lambda *look: came.add(self.looked_at(*look)[1]))
        self.all_came(came, {("verdict", "NO_MEMORY"), ("verdict", "OK"), ("forget", "NO_MEMORY")})

    def forgotten(self, place: int = 0, number: int = 0) -> tuple[list[int], set[str]]:
        """A tree that forgets time and again, where the growth of a number is refused at one of these times, and again then: how many growths each time asked for, and the
        statuses."""
        self.heap.refuse(0, 0)
        asked, came = [], set()
        with Played(self, self.library) as tree:
            tree.opened([0])
            for at, lines in enumerate(FORGOTTEN):
                for line in lines:
                    tree.make(0, line.encode())
                    tree.wanted.call(0, line)
                stood = tree.journal()
                (status, count), growths, refusals = self.refuses(number if at == place else 0, tree.forget)
                self.assertIn(status, (Status.OK, Status.NO_MEMORY) if refusals else (Status.OK,))
                if status == Status.NO_MEMORY:
                    self.same("the journal behind a forgetting that lacked memory", tree.journal(), stood)
                    self.same("its verdict", tree.verdict(), (0, 0))
                    count = tree.forget()
                self.same("how many calls were forgotten", count, len(lines))
                nodes = tree.wanted.tree().removeprefix(b"tree\n")
                self.same("what stands then", tree.journal(), b"atomfs-journal 2\nstart\n" + nodes + b"entries\n")
                self.same("the tree", tree.tree(), tree.wanted.tree())
                asked.append(growths)
                came.add(status.name)
        self.nothing_is_held()
        return asked, came

    def test_forget_again(self) -> None:
        """A tree is copied once. Later few calls are played on the copy, and then on the tree that was in its place; a look is not played."""
        asked, came = self.forgotten()[0], set()
        rows = (
            (f"time {at}, growth {number}", at, number)
            for at, growths in enumerate(asked)
            for number in range(1, 1 + growths)
        )
        self.each(rows, lambda at, number: came.update(self.forgotten(at, number)[1]))
        self.all_came(came, {"OK", "NO_MEMORY"})
        self.assertLess(asked[2], asked[1])
        self.same("how many growths it asks for to forget looks", asked[3], 0)

    def begun_at(self, how: str, number: int = 0) -> tuple[int, bool]:
        """A tree that opens at another one where the growth of a number is refused, and another such: how many there are, and whether one was opened."""
        with self.behind_calls() as tree:
            given: dict[str, typing.Any] = {"text": tree.tree()} if how == "open_from" else {"other": tree}
            (status, second), growths, refusals = self.refuses(number, lambda: atomfs.Tree(self.library, 100, **given))
            self.assertIn(status, (Status.OK, Status.NO_MEMORY) if refusals else (Status.OK,))
            if status == Status.NO_MEMORY:
                tree.is_unchanged(how)
                second = atomfs.Tree(self.library, 100, **given)
            with second:
                self.same("the tree of the second", second.tree(), tree.wanted.tree())
                self.same("a call of the second", second.begin(second.seat(), b"stat /"), 1)
            tree.stands()
        return growths, status == Status.OK

    def test_open_at_a_tree(self) -> None:
        """By a text, and where another tree stands. What can do without a smaller block does so."""
        for how in ("open_from", "open_at"):
            growths, opened = self.begun_at(how)
            self.assertTrue(opened)
            self.assertFalse(all([self.begun_at(how, number)[1] for number in range(1, 1 + growths)]))

    def kept(self, number: int = 0) -> tuple[int, bool]:
        """A call of a tree that forgets, where the growth of a number is refused, and another one. Whether what stood before stayed, and the call went on."""
        with self.behind_calls() as tree:
            tree.keep(0)
            (status, answer), growths, refusals = self.refuses(number, tree.make, 0, b"stat /")
            self.assertIn(status, (Status.OK, Status.UNTOLD, Status.NO_MEMORY) if refusals else (Status.OK,))
            self.same("the tree", tree.tree(), tree.wanted.tree())
            self.same("the number of the next call", tree.make(0, b"stat /")[0], 1)
        return growths, status == Status.OK and answer[0] == 1 + len(LISTS["one seat"])

    def test_keep(self) -> None:
        """Where there is no memory to forget, the call goes on, and the next one forgets."""
        growths, went_on = self.kept()
        self.assertFalse(went_on)
        self.assertTrue(any([self.kept(number)[1] for number in range(1, 1 + growths)]))

    def test_steps(self) -> None:
        """Calls step by step: a begin may lack memory, and no step."""
        self.in_turn(Played.by_steps, {("begin", "NO_MEMORY"), ("step", "OK")})

    def begun(self, seat: int, line: bytes, number: int) -> tuple[int, Status, Status]:
        """How often a growth was refused to a begin on a tree of one node, whose seat 0 is busy; its status, and that of the same begin again."""
        self.heap.refuse(0, 0)
        with Played(self, self.library) as tree:
            tree.open(limit=1)
            for _ in range(2):
                tree.seat()
            tree.begin(0, b"stat /")
            self.heap.refuse(number, number)
            status, refusals = status_of(tree.begin, seat, line)[0], self.heap.refusals()
            self.heap.refuse(0, 0)
            self.same(f"the journal behind {line!r}", tree.entries(), (b"begin 1 0 stat /\n", 1))
            return refusals, status, status_of(tree.begin, seat, line)[0]

    def no_begin(self, seat: int, line: bytes, why: Status) -> None:
        for number in itertools.count(1):
            refusals, status, again = self.begun(seat, line, number)
            self.same(
                f"{line!r}, growth {number} refused", (status, again), (Status.NO_MEMORY if refusals else why, why)
            )
            if not refusals:
                break
        self.assertGreater(number, 1, f"{line!r} asks for no growth")

    def test_no_begin(self) -> None:
        """A begin that is refused for another reason too, where a growth is refused: first for want of memory, and then for the reason."""
        rows = (
            ("line", 1, b"stat", Status.BAD_LINE),
            ("path", 1, b"rename /a b", Status.BAD_PATH),
            ("number", 1, b"read /a 0 x", Status.BAD_NUMBER),
            ("hex", 1, b"write /a 0 0", Status.BAD_HEX),
            ("busy", 0, b"mkdir /a", Status.SEAT_BUSY),
            ("full", 1, b"mkdir /a", Status.FULL),
        )
        self.each(rows, self.no_begin)

    def growths_of_begin(self, seat: int, line: bytes, limit: int) -> tuple[int, Status, int]:
        """How many growths a begin asks for, beside a call under way on seat 0, and its status."""
        with Played(self, self.library) as tree:
            tree.open(limit)
            for _ in range(2):
                tree.seat()
            tree.begin(0, b"stat /")
            self.heap.refuse(0, 0)
            return self.heap.growths(), status_of(tree.begin, seat, line)[0], self.heap.growths()

    def test_order_of_refusals(self) -> None:
        """A begin on a busy seat, or with no number left, asks for no more memory than its line needs to be read: that it is refused comes before what it
        would hold. A seat that is busy comes before all."""
        _, read, reading = self.growths_of_begin(1, b"read /a 0 x", LIMIT)
        self.same("a line that is read up to its last number", (read, reading > 0), (Status.BAD_NUMBER, True))
        rows = (
            ("busy", 0, b"mkdir /a", LIMIT, Status.SEAT_BUSY),
            ("busy, and no number left", 0, b"mkdir /a", 1, Status.SEAT_BUSY),
            ("no number left", 1, b"mkdir /a", 1, Status.FULL),
        )
        self.each(rows, lambda *begin: self.same(begin[:3], self.growths_of_begin(*begin[:3])[1:], (begin[3], reading)))
        _, begun, growths = self.growths_of_begin(1, b"mkdir /a", LIMIT)
        self.same("one that begins", (begun, growths > reading), (Status.OK, True))

    def held(self, line: bytes | None, number: int) -> tuple[list[tuple[Did, int]], int]:
        """What the steps of two calls do, of which one holds a node for which the other one waits, where in between a begin on a third seat is refused the
        growth of a number; and how many were refused. With no line nothing begins in between."""
        self.heap.refuse(0, 0)
        with Played(self, self.library) as tree:
            tree.open()
            for _ in range(3):
                tree.seat()
            tree.make(0, b"mkdir /a")
            tree.begin(0, b"mkdir /a/b")
            did = [tree.step(0) for _ in range(3)]
            tree.begin(2, b"stat /a/c")
            did += [tree.step(2) for _ in range(2)]
            refusals = 0
            if line:
                self.heap.refuse(number, number)
                status, refusals = status_of(tree.begin, 1, line)[0], self.heap.refusals()
                self.heap.refuse(0, 0)
                if not refusals:
                    return did, refusals
                self.same(f"{line!r}, growth {number} refused", status, Status.NO_MEMORY)
            did += [tree.step(seat) for seat in (2, 0, 2) for _ in range(5)]
        return did, refusals

    def holds(self, line: bytes) -> None:
        wanted, _ = self.held(None, 0)
        self.same(
            "one waits for the other",
            (wanted[3:6], wanted[-1][0]),
            ([(Did.TAKE, 0), (Did.WAIT, 2), (Did.WAIT, 2)], Did.RETURN),
        )
        for number in itertools.count(1):
            did, refusals = self.held(line, number)
            if not refusals:
                break
            self.same(f"the steps behind {line!r}, growth {number} refused", did, wanted)
        self.assertGreater(number, 1, f"{line!r} asks for no growth")

    def test_holders(self) -> None:
        """A begin of which a growth is refused leaves each node with the call that holds it, and those that wait for it waiting."""
        self.each(((line.decode(), line) for line in (b"mkdir /a/d", b"stat /a", b"rename /a /e")), self.holds)

    def begun_again(self, line: bytes, number: int) -> int:
        """How often a growth was refused to a begin on a tree with one number left. A refused one keeps neither that number nor any node: a call of another seat
        runs past it, and the same begin has the number."""
        self.heap.refuse(0, 0)
        with Played(self, self.library) as tree:
            tree.open(limit=2)
            for _ in range(2):
                tree.seat()
            self.heap.refuse(number, number)
            status, refusals = status_of(tree.begin, 0, line)[0], self.heap.refusals()
            self.heap.refuse(0, 0)
            if refusals:
                self.same(f"{line!r}, growth {number} refused", status, Status.NO_MEMORY)
                self.same("a call of another seat, the first of all", tree.make(1, b"stat /"), (1, b"stat dir 0"))
                status = status_of(tree.begin, 0, line)[0]
            others = status_of(tree.begin, 1, b"mkdir /other")[0]
            self.same(f"{line!r}, and one that needs a number more", (status, others), (Status.OK, Status.FULL))
        return int(refusals)

    def keeps_nothing(self, line: bytes) -> None:
        for number in itertools.count(1):
            if not self.begun_again(line, number):
                break
        self.assertGreater(number, 1, f"{line!r} asks for no growth")

    def test_last_number(self) -> None:
        """A begin of which a growth is refused keeps no number of a node and no node."""
        self.each(((line.decode(), line) for line in (b"mkdir /a", b"mknod /a")), self.keeps_nothing)

    def texts(
        self,
        ask: typing.Callable[..., typing.Any],
        texts: dict[str, tuple[bytes, typing.Any]],
        wanted: set[tuple[str, str]],
    ) -> None:
        """A function of texts, and what is wanted of each: it is asked once for each growth, which is refused, and again."""
        rows, came = [], set()
        for name, (given, answer) in texts.items():
            whole, growths = self.growths_of(status_of, ask, given)
            self.same(given, whole, answer)
            rows += [(f"{name}, growth {number}", given, number, answer) for number in growths]

        def look(given: bytes, number: int, answer: typing.Any) -> None:
            self.heap.refuse(number, number)
            first = status_of(ask, given)
            came.add((ask.__name__, first[0].name))
            if first[0] != Status.NO_MEMORY:
                self.same(given, first, answer)
            self.nothing_is_held()
            self.same(given, status_of(ask, given), answer)

        self.each(rows, look)
        self.all_came(came, wanted)

    def test_run(self) -> None:
        """Scripts. A step of theirs can do without a smaller block, and their reading without the paths that are kept; a path that is none is none only where
        its memory was not refused."""
        scripts: dict[str, tuple[bytes, typing.Any]] = {
            name: (script_of(calls), (Status.OK, Wanted(calls).run())) for name, calls in LISTS.items()
        }
        scripts["no path"] = b"atomfs 1\nthread t\nmkdir /a\nmkdir /a/./b\nschedule\nfinish\n", (Status.BAD_PATH, 4)
        self.texts(self.library.run, scripts, {("run", "NO_MEMORY"), ("run", "OK"), ("run", "BAD_PATH")})

    def test_check(self) -> None:
        """Journals. Their reading can do without the paths that are kept; a path that is none is none only where its memory was not refused."""
        journals: dict[str, tuple[bytes, typing.Any]] = {
            name: (Wanted(calls).journal(), (Status.OK, b"lawful\n")) for name, calls in LISTS.items()
        }
        journals["no path"] = b"atomfs-journal 1\nbegin 1 0 mkdir /a\nbegin 2 1 mkdir /a/./b\n", (Status.BAD_PATH, 3)
        self.texts(self.library.check, journals, {("check", "NO_MEMORY"), ("check", "OK"), ("check", "BAD_PATH")})

    def test_tools(self) -> None:
        """Traces, pictures, schedules and drawn runs of a script, a picture of a journal; and what a word means, for which no memory is asked."""
        script, journal = script_of(FEW), Wanted(FEW).journal()
        asks: tuple[tuple[typing.Callable[..., typing.Any], bytes], ...] = (
            (self.library.trace, script),
            (self.library.draw, script),
            (self.library.draw, journal),
            (self.library.schedule, script),
            (self.library.seeds, script),
        )
        for ask, given in asks:
            whole = status_of(ask, given)
            self.same(ask.__name__, whole[0], Status.OK)
            self.texts(ask, {ask.__name__: (given, whole)}, {(ask.__name__, "NO_MEMORY"), (ask.__name__, "OK")})
        whole, growths = self.growths_of(self.library.explain, b"Nul")
        self.same("what Nul means, and the growths that it asks for", (whole[:5], len(growths)), (b"Nul: ", 0))

    def test_linearize(self) -> None:
        """Histories, in each form. Their reading can do without room that is kept; a path that is none is none only where its memory was not refused."""
        begun = b"atomfs-journal 1\nbegin 1 0 mkdir /a\nbegin 2 1 stat /a\nreturn 1 ok\n"
        texts = {
            "lawful": begun + b"return 2 stat dir ?\n",
            "no order": begun + b"return 2 stat dir 1\n",
            "no history": begun + b"return 1 ok\n",
            "no path": begun + b"begin 3 0 stat /a/./b\n",
        }
        for tell in atomfs.Tell:

            def linearize(history: bytes, tell: atomfs.Tell = tell) -> typing.Any:
                return self.library.linearize(history, tell)

            came = {name: (text, status_of(linearize, text)) for name, text in texts.items()}
            self.same(
                "what each is told by",
                [status for _, (status, _) in came.values()],
                [*3 * [Status.OK], Status.BAD_PATH],
            )
            self.texts(linearize, came, {("linearize", "NO_MEMORY"), ("linearize", "OK"), ("linearize", "BAD_PATH")})

    def test_check_path(self) -> None:
        """Paths. One that is none, and has no more names than are read on the stack, asks for no memory; nor does the root."""

        def check_path(path: bytes) -> None:
            if (status := self.library.check_path(path)) != Status.OK:
                raise atomfs.Error(status)

        paths = {
            "a name": (b"/a", Status.OK),
            "many names": (40 * b"/a", Status.OK),
            "a dot": (40 * b"/a" + b"/.", Status.PATH_DOT),
        }
        paths |= {"a slash": (40 * b"/a" + b"/", Status.PATH_TRAILING_SLASH)}
        self.texts(
            check_path,
            {name: (path, (status, 0 if status else None)) for name, (path, status) in paths.items()},
            {("check_path", "NO_MEMORY")},
        )
        for path, status in (
            (b"/", Status.OK),
            (b"", Status.PATH_NOT_ABSOLUTE),
            (b"/a/.", Status.PATH_DOT),
            (7 * b"/a" + b"/", Status.PATH_TRAILING_SLASH),
        ):
            _, growths = self.growths_of(self.library.check_path, path)
            self.same(
                f"what is said of {path!r}, and the growths that it asks for",
                (self.library.check_path(path), len(growths)),
                (status, 0),
            )

    def refuse_every(self, tree: Played) -> None:
        """From now on every growth is refused."""
        self.heap.refuse(1, EVERY)
        self.same("the tree, where every growth is refused", status_of(tree.tree)[0], Status.NO_MEMORY)

    def stepped(self, calls: Calls, place: int, refuses: bool) -> list[tuple[Did, int]]:
        """What the steps of a call do, behind the calls before it; with `refuses` no growth is granted behind its begin."""
        seat, line = calls[place]
        self.heap.refuse(0, 0)
        with Played(self, self.library, version_of(calls)) as tree:
            tree.opened(seats_of(calls))
            for before in calls[:place]:
                tree.by_call(*before)
            number = tree.begin(seat, line.encode())
            if refuses:
                self.refuse_every(tree)
            tree.returns(seat)
            self.heap.refuse(0, 0)
            tree.has_returned(seat, line, number)
            tree.stands()
        return tree.steps

    def promised(self, calls: Calls, place: int) -> None:
        self.same("what the steps did", self.stepped(calls, place, True), self.stepped(calls, place, False))

    def test_promised_room(self) -> None:
        """A call that has begun returns its reply where every further growth is refused."""
        rows = [
            (f"{name}, call {place + 1}: {calls[place][1]}", calls, place)
            for name, calls in LISTS.items()
            for place in range(len(calls))
        ]
        self.each(rows, self.promised)

    def all_stepped(
        self, calls: list[str], before: list[str], version: int, refuses: bool
    ) -> tuple[list[tuple[Did, int]], bytes]:
        """What the steps of a call of each kind do, all of them under way, and the text of the run; with `refuses` no growth is granted behind their begins."""
        self.heap.refuse(0, 0)
        with Played(self, self.library, version) as tree:
            tree.opened(range(len(calls)))
            for line in before:
                tree.by_call(0, line)
            for seat, line in enumerate(calls):
                tree.begin(seat, line.encode())
            if refuses:
                self.refuse_every(tree)
            did = [tree.step(seat) for _ in range(MOST_STEPS // len(calls)) for seat in range(len(calls))]
            self.heap.refuse(0, 0)
            return did, tree.journal() + tree.tree() + counts_of(tree.wanted.count + len(calls))

    def many_promised(self, calls: list[str], before: list[str], version: int) -> None:
        did, run = self.all_stepped(calls, before, version, True)
        self.same("what the steps did, and the run", (did, run), self.all_stepped(calls, before, version, False))
        self.same(run, model.replayed(run.decode()), None)
        self.assertLessEqual({Did.WAIT, Did.HELP, Did.CARRY_OUT}, {one for one, _ in did})

    def test_promised_room_of_many(self) -> None:
        """The same of a call of each kind, all of them under way: some wait, and an exchange or a rename helps others. Once more on names of 255 bytes."""
        texts = UNDER_WAY, BEFORE
        rows = ("short names", *map(str.splitlines, texts), 1), (
            "long names",
            *(lengthened(text).splitlines() for text in texts),
            3,
        )
        self.each(rows, self.many_promised)

    def bytes_kept(self, size: int) -> float:
        """How many times its bytes a tree by the third limits keeps of a file that is written in pieces of a size."""
        with atomfs.Tree(self.library, 2, 3) as tree:
            seat = tree.seat()
            tree.mknod(seat, b"/f")
            before = self.heap.bytes()
            for offset in range(0, WRITTEN, size):
                tree.write(seat, b"/f", offset, bytes([offset // size % 251]) * size)
            kept: float = (self.heap.bytes() - before) / WRITTEN
            self.same("the last byte", tree.read(seat, b"/f", WRITTEN - 1, 1), bytes([(WRITTEN // size - 1) % 251]))
        return kept

    def test_shared_writes(self) -> None:
        """A file shares with the journal what is written in pieces of up to 256 KiB; of a larger piece it has a copy."""
        shared = [(f"{size} bytes", size) for size in (2**14, 2**16, 2**18)]
        self.each(shared, lambda size: self.assertLess(self.bytes_kept(size), 1.1))
        self.each([("524288 bytes", 2**19)], lambda size: self.assertGreater(self.bytes_kept(size), 1.9))
        self.nothing_is_held()


if __name__ == "__main__":
    unittest.main()
