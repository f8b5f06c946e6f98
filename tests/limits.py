"""Inputs at each limit of docs/FORMATS.md and docs/SPECIFICATION.md and one past it, and scripts that make the program hold much, or too much.

`python3 tests/limits.py --measure` also tells the seconds of each run, and the most memory that the program held: no less than Python holds when it
starts the program. docs/TRUST.md has the bounds. No script has calls enough for all numbers of nodes that its limits have. By the third limits what
comes of few calls is what tests/model.py makes of them. The longest texts and the most calls hold 1.4 GB.
"""
import contextlib
import itertools
import os
import pathlib
import random
import resource
import subprocess
import sys
import tempfile
import threading
import time
import typing
import unittest

import model
from harness import MOST_SECONDS, SHOWN_BYTES, Case, Outcome, program, spawned, takes_a_process, with_line

TEXT, THREADS, CALLS, EVENTS = 16_777_216, 256, 65_536, 1_000_000
FILE, ENTRIES, NAME, PATH = 65_536, 256, 32, 64
# So much stack is enough for each command, on whatever input.
STACK = 128 * 1024
# The largest file by the second limits.
FILE_BY_SECOND = 1_048_576
# The third limits, as far as they are others; and the names of a full directory, in order.
THIRD_TEXT, THIRD_CALLS = 1_073_741_824, 4_194_304
THIRD_FILE, THIRD_READ, THIRD_ENTRIES, THIRD_PATH, THIRD_NAME = 2_147_483_648, 1_048_576, 1_048_576, 2_048, 255
# The most that a list counts.
MOST_COUNT = 4_294_967_295
NAMES = "0123456789ABCDEFGHIJKLMNOPQRSTUV"
ROOM = 268_435_456
# The most bytes that are held for each event of a run that is traced, drawn or scheduled.
EACH_EVENT = 64
RUN, CHECK, SEEDS = ("run",), ("check",), ("seeds", "--seed", "1", "--runs", "3")
LAWFUL = Outcome(0, b"lawful\n")
LAWFUL_SEEDS = Outcome(0, b"seed 1 lawful\nseed 2 lawful\nseed 3 lawful\n")
OUT_OF_MEMORY = Outcome(4, b"", b"atomfs: out of memory\n")
# The words of a command, and the lines of an input.
Words = typing.Sequence[str]
Lines = typing.Iterable[str]


def setUpModule() -> None:
    takes_a_process()


def alone(number: int, call: str, reply: str) -> str:
    """The entries of a call that no other comes between."""
    return f"begin {number} 0 {call}\ncommit {number}\nreturn {number} {reply}\n"


def counts(calls: int) -> str:
    return f"begun {calls} committed {calls} returned {calls}\n"


def finished(calls: int, *tree: str) -> str:
    """The end of a run text: its tree below the root, and its counts."""
    return "".join(f"{line}\n" for line in ("tree", "dir /", *tree)) + counts(calls)


def well(*text: str) -> Outcome:
    return Outcome(0, "".join(text).encode())


def refused(line: int, fault: str) -> Outcome:
    return Outcome(3, b"", f"atomfs: line {line}: {fault}\n".encode())


EMPTY, EMPTY_RUN = b"atomfs 1\nschedule\n", well("atomfs-journal 1\n", finished(0))
# The same by the other limits, and the journals without entries, by the version of scripts.
EMPTIES = {version: EMPTY.replace(b"1", b"%d" % version) for version in (1, 2, 3)}
STARTED = {version: b"atomfs-journal %d\nstart\ndir /\nentries\n" % (version + 1) for version in (1, 2, 3)}


def script(calls: typing.Iterable[str], words: str = "finish") -> Lines:
    """The lines of a script of one thread."""
    yield from ("atomfs 1", "thread t")
    yield from calls
    yield from ("schedule", words)


def by(version: int, lines: typing.Iterable[str]) -> Lines:
    """The lines of a script by other limits."""
    yield f"atomfs {version}"
    yield from itertools.islice(lines, 1, None)


def third(calls: typing.Iterable[str]) -> Lines:
    """The script of one thread by the third limits."""
    return by(3, script(calls))


def of_model(calls: typing.Sequence[str]) -> Outcome:
    """The run text of such a script, by the model."""
    tree, text = model.Tree(3), ["atomfs-journal 4", "start", "dir /", "entries"]
    for number, call in enumerate(calls, 1):
        text += [f"begin {number} 0 {call}", f"commit {number}", f"return {number} {tree.apply(call.split(' '))}"]
    return well("".join(f"{line}\n" for line in (*text, *tree.text())), counts(len(calls)))


def drawn_entries(seed: int, count: int) -> list[str]:
    """Calls on the entries of two directories, drawn so that one has thousands for a while, and few at last: they come, go, and get other names."""
    draw = random.Random(seed)
    known: dict[str, list[str]] = {"/d": [], "/e": []}
    calls = ["mkdir /d", "mkdir /e"]

    def new() -> str:
        number = draw.randrange(count)
        return (
            f"{number:06}"
            if draw.random() < 0.8
            else f"{number:06}, a name that needs memory of its own".replace(" ", "%20")
        )

    while len(calls) < count:
        folder, other = ("/d", "/e") if draw.random() < 0.9 else ("/e", "/d")
        entries = known[folder]
        old = entries.pop(draw.randrange(len(entries))) if entries and draw.random() < 0.95 else new()
        comes, goes = (60, 10) if len(calls) < count * 0.6 else (5, 60)
        kind = draw.choices(
            ("mknod", "unlink", "rename", "away", "exchange", "list", "stat"), (comes, goes, 20, 5, 5, 5, 10)
        )[0]
        name = new()
        match kind:
            case "mknod":
                calls.append(f"mknod {folder}/{name}")
                entries += old, name
            case "unlink":
                calls.append(f"unlink {folder}/{old}")
            case "rename":
                calls.append(f"rename {folder}/{old} {folder}/{name}")
                entries.append(name)
            case "away":
                calls.append(f"rename {folder}/{old} {other}/{name}")
                known[other].append(name)
            case "exchange":
                calls.append(f"exchange {folder}/{old} {folder}/{draw.choice(entries or [name])}")
                entries.append(old)
            case "list":
                calls.append(f"list {folder} {folder}/{name} {draw.randrange(300)}")
                entries.append(old)
            case "stat":
                calls.append(f"stat {draw.choice((folder, f'{folder}/{old}'))}")
                entries.append(old)
    return calls


def long_names() -> Lines:
    """Calls on as many names as a call answers, and one more, each as long as there are."""
    names = [f"{number:0{THIRD_NAME}}" for number in range(ENTRIES + 1)]
    yield from (f"mknod /{name}" for name in names[:ENTRIES])
    yield from (
        "readdir /",
        f"list / / {ENTRIES}",
        f"mkdir /{names[0]}",
        f"mknod /{names[ENTRIES]}",
        "readdir /",
        f"list / / {ENTRIES}",
        f"list / /{names[ENTRIES - 2]} 9",
    )
    yield from (
        f"rename /{names[0]} /{names[1]}",
        f"rename /{names[1]} /{names[0]}",
        f"exchange /{names[2]} /{names[3]}",
        f"unlink /{names[ENTRIES]}",
        "stat /",
    )


def names_in_order(count: int) -> Lines:
    """So many names of a full directory, in order."""
    return ("".join(letters) for letters in itertools.islice(itertools.product(NAMES, repeat=4), count))


def full_directory(entries: int, *more: str) -> Lines:
    """A journal that starts at a directory of so many entries."""
    yield from ("atomfs-journal 4", "start", "dir /")
    yield from (f"file /{name} -" for name in names_in_order(min(entries, THIRD_ENTRIES)))
    yield from (f"file /W{number} -" for number in range(entries - THIRD_ENTRIES))
    yield from ("entries", *more)


def commented(length: int) -> Lines:
    """The lines of a script of so many bytes, the last of them in comments."""
    yield from ("atomfs 1", "schedule")
    length -= len(EMPTY)
    while length > 2_000:
        yield "#" * 999
        length -= 1_000
    yield "#" * (length - 1)


def threads(count: int) -> Lines:
    yield "atomfs 1"
    for number in range(count):
        yield from (f"thread t{number}", f"mkdir /{number}")
    yield from ("schedule", "finish")


def stats(count: int) -> Lines:
    return script("stat /" for _ in range(count))


def nodes(count: int) -> Lines:
    """So many calls that each make a node: 256 directories of at most 256 entries."""
    return script(
        f"mkdir /{number}" if number < ENTRIES else f"mknod /{number % ENTRIES}/{number}" for number in range(count)
    )


def entries(count: int, *more: str) -> Lines:
    """So many calls that each make an entry of the root, and others behind them."""
    return script((*(f"mknod /{number}" for number in range(count)), *more))


def deep(levels: int) -> Lines:
    """The calls that put a file below so many directories, of which each is made above the others."""
    yield from ("mkdir /p", "mknod /p/f", "write /p/f 0 ff")
    for _ in range(levels):
        yield from ("mkdir /x", "rename /p /x/p", "rename /x /p")


def taken_apart(levels: int) -> Lines:
    """The calls that take these directories apart again, from above."""
    for _ in range(levels):
        yield from ("rename /p/p /x", "rmdir /p", "rename /x /p")
    yield from ("read /p/f 0 2", "unlink /p/f", "rmdir /p")


def reads(count: int) -> Lines:
    """The calls that read a full file so often."""
    yield from ("mknod /f", f"truncate /f {FILE}")
    yield from (f"read /f 0 {FILE}" for _ in range(count))


def each_file(count: int, *calls: str) -> Lines:
    """The calls that make so many files, and these calls on each before the next one comes."""
    for number in range(count):
        folder, path = f"/{number // ENTRIES}", f"/{number // ENTRIES}/{number}"
        yield from ([f"mkdir {folder}"] if number % ENTRIES == 0 else [])
        yield f"mknod {path}"
        yield from (call.format(path) for call in calls)


def files(count: int) -> Lines:
    """The calls that make so many full files."""
    return each_file(count, f"truncate {{}} {FILE}")


def crowd(count: int, calls: int) -> Lines:
    """The lines of a script of so many threads, which meet so often at one place: nearly all events are waits."""
    yield "atomfs 1"
    for number in range(count):
        yield from (f"thread t{number}", *["stat /d/q"] * calls)
    yield from ("schedule", "finish")


def much() -> typing.Iterator[tuple[typing.Any, ...]]:
    """Rows of runs that hold many replies, files and long paths."""
    for what, make, few in (("full reads", reads, 1_000), ("full files", files, 1_000), ("levels", deep, 5_000)):
        for count in (few, 2 * few):
            yield f"{count} {what}", script(make(count)), RUN, well(counts(sum(1 for _ in make(count))))
            if make is not deep:
                yield f"{count} {what}, drawn", script(make(count)), SEEDS, LAWFUL_SEEDS


# Runs a command, and tells its status and the most bytes that it held on the last line of standard error.
HELD = """import os, subprocess, sys
child = subprocess.Popen(sys.argv[1:])
_, status, usage = os.wait4(child.pid, 0)
child.returncode = os.waitstatus_to_exitcode(status)
print(child.returncode, 1024 * usage.ru_maxrss, file=sys.stderr)
"""


class Limits(Case):
    """The program reads from a file and writes to one; of what it writes the end is compared, and the whole of it where something is refused."""

    measures = False

    def setUp(self) -> None:
        folder = tempfile.TemporaryDirectory()
        self.addCleanup(folder.cleanup)
        self.given, self.made = pathlib.Path(folder.name, "given"), pathlib.Path(folder.name, "made")

    def measured(self, words: Words, room: int | None) -> tuple[int, bytes, float, int]:
        """The status of a process that may have so much room, what it tells, its seconds, and the most kilobytes that it held."""

        def limit() -> None:
            if room:
                resource.setrlimit(resource.RLIMIT_AS, (room, room))

        confine = limit if room else None
        with open(self.given, "rb") as source, open(self.made, "wb") as sink, tempfile.TemporaryFile() as told:
            began = time.monotonic()
            child = subprocess.Popen([program(), *words], stdin=source, stdout=sink, stderr=told, preexec_fn=confine)
            end = threading.Timer(MOST_SECONDS, child.kill)
            end.start()
            _, status, usage = os.wait4(child.pid, 0)
            end.cancel()
            child.returncode = os.waitstatus_to_exitcode(status)
            told.seek(0)
            return child.returncode, told.read(), time.monotonic() - began, usage.ru_maxrss

    def end(self, length: int) -> bytes:
        """The last bytes that were written."""
        with open(self.made, "rb") as made:
            made.seek(max(0, self.made.stat().st_size - length))
            return made.read()

    def most_bytes(self) -> int:
        """How long the text that was written may be."""
        with open(self.made, "rb") as made:
            return THIRD_TEXT if made.readline() == b"atomfs-journal 4\n" else TEXT

    def compare(self, words: Words, wanted: Outcome, room: int | None = None) -> None:
        status, told, seconds, kilobytes = self.measured(words, room)
        came = Outcome(status, self.end(len(wanted.output) or 4_096), told)
        with open(self.given, "rb") as given:
            front = given.read(SHOWN_BYTES + 1) if wanted.status == 3 else b""
        self.same(f"atomfs {' '.join(words)}, {self.row}", came, with_line(wanted, front))
        if self.measures:
            print(f"{self.row}, {words[0]}: status {status}, {seconds:.2f} seconds, {kilobytes} kilobytes", flush=True)

    def ends(self, lines: typing.Iterable[str], words: Words, wanted: Outcome, room: int | None = None) -> None:
        """The outcome on these lines. A run text that is no longer than a text may be by its first line is checked."""
        with open(self.given, "w") as given:
            given.writelines(f"{line}\n" for line in lines)
        self.compare(words, wanted, room)
        if words == RUN and wanted.status == 0 and self.made.stat().st_size <= self.most_bytes():
            self.made.replace(self.given)
            self.compare(CHECK, LAWFUL)

    def whole(self, words: Words, given: bytes, wanted: Outcome) -> None:
        self.same(f"atomfs {' '.join(words)}, {len(given)} bytes", spawned(words, given), with_line(wanted, given))

    def test_lengths(self) -> None:
        """The last line is a comment that has no end."""
        for words, header, wanted in (
            (RUN, EMPTY, EMPTY_RUN),
            (SEEDS, EMPTY, LAWFUL_SEEDS),
            (CHECK, b"atomfs-journal 1\n", LAWFUL),
        ):
            self.each(
                (
                    (f"{words[0]}, {TEXT} bytes", words, header.ljust(TEXT, b"#"), wanted),
                    (f"{words[0]}, {TEXT + 1} bytes", words, header.ljust(TEXT + 1, b"#"), refused(1, "TooLarge")),
                ),
                self.whole,
            )

    def filled(self, words: Words, header: bytes, length: int, wanted: Outcome) -> None:
        """The outcome on a text of so many bytes: behind these lines a comment of bytes zero, of which the file holds none."""
        with open(self.given, "wb") as given:
            given.write(header + b"#")
            given.truncate(length)
        self.compare(words, wanted)

    def test_lengths_by_first_lines(self) -> None:
        """How long a text may be is told by its first line alone, whatever reads it."""
        ran = {1: EMPTY_RUN, **{version: well(STARTED[version].decode(), finished(0)) for version in (2, 3)}}
        of_version = [
            (f"{name} {number}", most, words, header, wanted)
            for version, most in ((1, TEXT), (2, TEXT), (3, THIRD_TEXT))
            for name, number, words, header, wanted in (
                ("atomfs", version, RUN, EMPTIES[version], ran[version]),
                ("atomfs-journal", version + 1, CHECK, STARTED[version], LAWFUL),
            )
        ]
        self.each(
            (
                *(
                    (f"{name}, {most} bytes", words, header, most, wanted)
                    for name, most, words, header, wanted in of_version
                ),
                *(
                    (f"{name}, {most + 1} bytes", words, header, most + 1, refused(1, "TooLarge"))
                    for name, most, words, header, _ in of_version
                ),
                (f"atomfs 3, {TEXT + 1} bytes", RUN, EMPTIES[3], TEXT + 1, ran[3]),
                (f"atomfs 3, drawn, {TEXT + 1} bytes", SEEDS, EMPTIES[3], TEXT + 1, LAWFUL_SEEDS),
                (
                    f"atomfs 3, on real threads, {TEXT + 1} bytes",
                    ("threads",),
                    EMPTIES[3],
                    TEXT + 1,
                    well("lawful calls 0\n"),
                ),
                (f"atomfs-journal 4, {TEXT + 1} bytes", CHECK, STARTED[3], TEXT + 1, LAWFUL),
                (
                    f"a history by the third limits, {TEXT + 1} bytes",
                    ("linearize",),
                    STARTED[3],
                    TEXT + 1,
                    well(STARTED[3].decode()),
                ),
                (
                    f"a history by the third limits, {THIRD_TEXT + 1} bytes",
                    ("linearize",),
                    STARTED[3],
                    THIRD_TEXT + 1,
                    refused(1, "TooLarge"),
                ),
                (
                    f"a history by the second limits, {TEXT + 1} bytes",
                    ("linearize",),
                    STARTED[2],
                    TEXT + 1,
                    refused(1, "TooLarge"),
                ),
                (
                    f"a script that is no journal, {TEXT + 1} bytes",
                    CHECK,
                    EMPTIES[3],
                    TEXT + 1,
                    refused(1, "BadHeader"),
                ),
                (f"a journal that is no script, {TEXT + 1} bytes", RUN, STARTED[3], TEXT + 1, refused(1, "BadHeader")),
                (f"atomfs 4, {TEXT + 1} bytes", RUN, b"atomfs 4\n", TEXT + 1, refused(1, "TooLarge")),
                (f"atomfs 3 and a space, {TEXT + 1} bytes", RUN, b"atomfs 3 \n", TEXT + 1, refused(1, "TooLarge")),
                (f"a first line that goes on, {TEXT + 1} bytes", RUN, b"atomfs 3", TEXT + 1, refused(1, "TooLarge")),
                (f"an empty line first, {TEXT + 1} bytes", RUN, b"\natomfs 3\n", TEXT + 1, refused(1, "TooLarge")),
            ),
            self.filled,
        )

    def test_lengths_through_a_pipe(self) -> None:
        """What tells that a text is too long is read, and no more: the one that writes it is left with the rest."""
        piece = b"#" * 999 + b"\n"
        for version, most in ((2, TEXT), (3, THIRD_TEXT)):
            with self.subTest(f"atomfs {version}"), subprocess.Popen(
                [program(), *RUN], stdin=subprocess.PIPE, stdout=subprocess.PIPE, stderr=subprocess.PIPE
            ) as child:
                written = 0
                assert child.stdin
                with contextlib.suppress(BrokenPipeError):
                    written += child.stdin.write(EMPTIES[version])
                    while written < 2 * most:
                        written += child.stdin.write(piece * 1_000)
                output, message = child.communicate(timeout=MOST_SECONDS)
                wanted = with_line(refused(1, "TooLarge"), EMPTIES[version])
                self.same(f"atomfs {version} without end", Outcome(child.returncode, output, message), wanted)
                self.assertLess(written, most + 4 * len(piece) * 1_000)

    def test_scripts(self) -> None:
        folders = [f"dir /{number}" for number in sorted(map(str, range(THREADS)))]
        first, last = (alone(number, "stat /", "stat dir 0") for number in (1, CALLS))
        self.each(
            (
                (f"{TEXT} bytes", commented(TEXT), RUN, EMPTY_RUN),
                (f"{TEXT + 1} bytes", commented(TEXT + 1), RUN, refused(1, "TooLarge")),
                (f"{THREADS} threads", threads(THREADS), RUN, well(finished(THREADS, *folders))),
                (f"{THREADS} threads, real", threads(THREADS), ("threads",), well(f"lawful calls {THREADS}\n")),
                (f"{THREADS} threads, drawn", threads(THREADS), SEEDS, LAWFUL_SEEDS),
                (f"{THREADS + 1} threads", threads(THREADS + 1), RUN, refused(2 * THREADS + 2, "TooLarge")),
                (f"{CALLS} calls", stats(CALLS), RUN, well(last, finished(CALLS))),
                (f"{CALLS} calls, on a real thread", stats(CALLS), ("threads",), well(f"lawful calls {CALLS}\n")),
                (f"{CALLS + 1} calls", stats(CALLS + 1), RUN, refused(CALLS + 3, "TooLarge")),
                (f"{CALLS} calls by the second limits", by(2, stats(CALLS)), RUN, well(last, finished(CALLS))),
                (
                    f"{CALLS + 1} calls by the second limits",
                    by(2, stats(CALLS + 1)),
                    RUN,
                    refused(CALLS + 3, "TooLarge"),
                ),
                (f"{EVENTS} events", script(["stat /"], f"t*{EVENTS}"), RUN, well(first, finished(1))),
                (f"{EVENTS + 1} events", script(["stat /"], f"t*{EVENTS} t"), RUN, refused(5, "TooLarge")),
            ),
            self.ends,
        )

    def test_files_and_folders(self) -> None:
        write, past, stat = f"write /f {FILE - 1} ff", f"write /f {FILE} 00", alone(3, "stat /f", f"stat file {FILE}")
        full = [f"file /{number} -" for number in sorted(map(str, range(ENTRIES)))]
        self.each(
            (
                (f"{CALLS} nodes and the root", nodes(CALLS), RUN, well(counts(CALLS))),
                (
                    f"a file of {FILE} bytes",
                    script(["mknod /f", write, "stat /f"]),
                    RUN,
                    well(stat, finished(3, "file /f " + "00" * (FILE - 1) + "ff")),
                ),
                (
                    f"a file of {FILE + 1} bytes",
                    script(["mknod /f", past]),
                    RUN,
                    well(alone(2, past, "failed EFBIG"), finished(2, "file /f -")),
                ),
                (f"{ENTRIES} entries", entries(ENTRIES), RUN, well(finished(ENTRIES, *full))),
                (
                    f"{ENTRIES + 1} entries",
                    entries(ENTRIES + 1),
                    RUN,
                    well(alone(257, "mknod /256", "failed ENOSPC"), finished(257, *full)),
                ),
                (
                    "entries that are there, where no more may be",
                    entries(ENTRIES, "mkdir /0", "mknod /1"),
                    RUN,
                    well(
                        alone(257, "mkdir /0", "failed EEXIST"),
                        alone(258, "mknod /1", "failed EEXIST"),
                        finished(258, *full),
                    ),
                ),
            ),
            self.ends,
        )

    def test_paths(self) -> None:
        name, path = NAME * "n", PATH * "/n"
        self.each(
            (
                (
                    f"a name of {NAME} bytes",
                    script([f"mkdir /{name}"]),
                    RUN,
                    well(alone(1, f"mkdir /{name}", "ok"), finished(1, f"dir /{name}")),
                ),
                (f"a name of {NAME + 1} bytes", script([f"mkdir /{name}n"]), RUN, refused(3, "BadPath NameTooLong")),
                (
                    f"a path of {PATH} names",
                    script([f"stat {path}"]),
                    RUN,
                    well(alone(1, f"stat {path}", "failed ENOENT"), finished(1)),
                ),
                (f"a path of {PATH + 1} names", script([f"stat {path}/n"]), RUN, refused(3, "BadPath TooManyNames")),
            ),
            self.ends,
        )

    def test_third_limits(self) -> None:
        """Each at the limit and one past it."""
        name, path, mib = THIRD_NAME * "n", THIRD_PATH * "/n", f"truncate /f {THIRD_READ + 1}"
        chain = [f"mkdir {path[: 2 * depth]}" for depth in range(1, THIRD_PATH + 1)]
        edge = THIRD_FILE - 1
        rows = (
            (f"names of {THIRD_NAME} bytes", [*long_names()]),
            (f"a count of {MOST_COUNT}", ["mknod /a", f"list / / {MOST_COUNT}"]),
            (
                f"a path of {THIRD_PATH} names",
                [*chain, f"stat {path}", f"mknod {path[:-2]}/f", f"list {path[:-2]} / 9", "rename /n /m"],
            ),
            (f"{ENTRIES} entries", [*(f"mknod /{number}" for number in range(ENTRIES)), "readdir /", "list / / 257"]),
            (
                f"{ENTRIES + 1} entries",
                [
                    *(f"mknod /{number}" for number in range(ENTRIES + 1)),
                    "readdir /",
                    "list / / 257",
                    "list / /97 257",
                    "list / /98 257",
                    "rmdir /",
                    "unlink /5",
                    "readdir /",
                ],
            ),
            (
                f"{ENTRIES + 1} entries that go",
                [
                    "mkdir /d",
                    "mkdir /e",
                    *(f"mknod /d/{number}" for number in range(ENTRIES + 1)),
                    "readdir /d",
                    "rename /e /d",
                    "rmdir /d",
                    "rename /d/1 /e/1",
                    "readdir /d",
                    "exchange /d /e",
                    "readdir /e",
                    "list /e /10 3",
                ],
            ),
            (f"{CALLS} entries", [*(f"mknod /{number}" for number in range(CALLS - 2)), "list / /9999 9", "stat /"]),
            (
                f"a file of {THIRD_FILE} bytes",
                [
                    "mknod /f",
                    f"truncate /f {THIRD_FILE}",
                    "stat /f",
                    f"read /f {edge} 2",
                    f"truncate /f {THIRD_FILE + 1}",
                    "stat /f",
                    "truncate /f 1",
                ],
            ),
            (
                "a byte at its end",
                [
                    "mknod /f",
                    f"write /f {edge} ff",
                    "stat /f",
                    f"write /f {edge} ffff",
                    f"write /f {THIRD_FILE} 00",
                    f"write /f {THIRD_FILE} -",
                    f"read /f {edge - 1} 9",
                    "read /f 0 3",
                    "truncate /f 0",
                ],
            ),
            (
                f"reads of {THIRD_READ} bytes",
                [
                    "mknod /f",
                    mib,
                    f"write /f {THIRD_READ - 1} aabb",
                    f"read /f 0 {THIRD_READ}",
                    f"read /f 0 {THIRD_READ + 1}",
                    f"read /f 1 {2**64 - 1}",
                    f"read /f 2 {THIRD_READ}",
                    "truncate /f 0",
                ],
            ),
        )
        self.each(
            (
                *((name, third(calls), RUN, of_model(calls)) for name, calls in rows),
                *(
                    (
                        f"a name of {THIRD_NAME + 1} bytes",
                        third([f"mkdir /{name}n"]),
                        RUN,
                        refused(3, "BadPath NameTooLong"),
                    ),
                    (
                        f"a path of {THIRD_PATH + 1} names",
                        third([f"stat {path}/n"]),
                        RUN,
                        refused(3, "BadPath TooManyNames"),
                    ),
                    (
                        f"a list behind a name of {THIRD_NAME + 1} bytes",
                        third([f"list / /{name}n 1"]),
                        RUN,
                        refused(3, "BadPath NameTooLong"),
                    ),
                    (
                        f"a list behind a path of {THIRD_PATH + 1} names",
                        third([f"list / {path}/n 1"]),
                        RUN,
                        refused(3, "BadPath TooManyNames"),
                    ),
                    (
                        f"a count of {MOST_COUNT + 1}",
                        third([f"list / / {MOST_COUNT + 1}"]),
                        RUN,
                        refused(3, "BadNumber"),
                    ),
                    (f"a count of {2**64}", third([f"list / / {2**64}"]), RUN, refused(3, "BadNumber")),
                    (
                        f"{CALLS} entries, on a real thread",
                        third(f"mknod /{number}" for number in range(CALLS)),
                        ("threads",),
                        well(f"lawful calls {CALLS}\n"),
                    ),
                ),
            ),
            self.ends,
        )

    def test_third_calls(self) -> None:
        """More than the other limits have, as many as there are, and one more."""
        last = {
            count: well(alone(count, "stat /", "stat dir 0"), finished(count)) for count in (CALLS + 1, THIRD_CALLS)
        }
        halves = (
            "atomfs 3",
            "thread t",
            *["stat /"] * (CALLS // 2),
            "thread u",
            *["stat /"] * (CALLS // 2 + 1),
            "schedule",
            "finish",
        )
        self.each(
            (
                (f"{CALLS + 1} calls", by(3, stats(CALLS + 1)), RUN, last[CALLS + 1]),
                (f"{CALLS + 1} calls of two threads", halves, RUN, well(finished(CALLS + 1))),
                (
                    f"{CALLS + 1} calls of two threads by the second limits",
                    by(2, halves),
                    RUN,
                    refused(CALLS + 4, "TooLarge"),
                ),
                (
                    f"{CALLS + 1} calls, on a real thread",
                    by(3, stats(CALLS + 1)),
                    ("threads",),
                    well(f"lawful calls {CALLS + 1}\n"),
                ),
                (f"{THIRD_CALLS} calls", by(3, stats(THIRD_CALLS)), RUN, last[THIRD_CALLS]),
                (f"{THIRD_CALLS + 1} calls", by(3, stats(THIRD_CALLS + 1)), RUN, refused(THIRD_CALLS + 3, "TooLarge")),
            ),
            self.ends,
        )

    def test_third_directories(self) -> None:
        """Journals that start at a full one, and calls that fill one."""
        entry, last = "begin 1 0 mknod /X", f"begin 2 1 list / /{4 * NAMES[-1]} 9"
        self.each(
            (
                (
                    f"{THIRD_ENTRIES} entries",
                    full_directory(
                        THIRD_ENTRIES, entry, "commit 1", "return 1 failed ENOSPC", last, "commit 2", "return 2 names"
                    ),
                    CHECK,
                    LAWFUL,
                ),
                (
                    f"{THIRD_ENTRIES - 1} entries",
                    full_directory(
                        THIRD_ENTRIES - 1,
                        entry,
                        "commit 1",
                        "return 1 ok",
                        "begin 2 0 mknod /Y",
                        "commit 2",
                        "return 2 failed ENOSPC",
                    ),
                    CHECK,
                    LAWFUL,
                ),
                (
                    f"{THIRD_ENTRIES + 1} entries",
                    full_directory(THIRD_ENTRIES + 1),
                    CHECK,
                    refused(THIRD_ENTRIES + 4, "BadStart"),
                ),
            ),
            self.ends,
        )
        full = *(f"mknod /{name}" for name in names_in_order(THIRD_ENTRIES)), "mknod /X", "unlink /0000", "mknod /X"
        self.each(
            (
                (
                    f"{THIRD_ENTRIES} entries that are made",
                    third(full),
                    RUN,
                    well(f"file /{4 * NAMES[-1]} -\nfile /X -\n", counts(len(full))),
                ),
                (
                    f"{THIRD_ENTRIES} entries that are made, on a real thread",
                    third(full),
                    ("threads",),
                    well(f"lawful calls {len(full)}\n"),
                ),
            ),
            self.ends,
        )

    def test_entries_that_come_and_go(self) -> None:
        """Thousands of entries of one directory, by the model: the run, the judge, and the tree that the journal makes."""
        for seed in (1, 2):
            with self.subTest(seed=seed):
                calls = drawn_entries(seed, 12_000)
                ran = of_model(calls)
                self.ends(third(calls), RUN, ran)
                self.compare(
                    ("tree",), Outcome(0, ran.output[ran.output.index(b"\ntree\n") + 1 : ran.output.rindex(b"begun ")])
                )

    def test_levels(self) -> None:
        """More than a path can name: a tree that is made from its leaf up, and taken apart from its root down."""
        calls = (*deep(10_000), *taken_apart(10_000))
        last = (
            alone(len(calls) - 2, "read /p/f 0 2", "bytes ff"),
            alone(len(calls) - 1, "unlink /p/f", "ok"),
            alone(len(calls), "rmdir /p", "ok"),
        )
        self.each([("10000 levels, taken apart", script(calls), RUN, well(*last, finished(len(calls))))], self.ends)

    def test_much_to_hold(self) -> None:
        self.each(much(), self.ends)

    def held(self, words: Words) -> typing.Iterator[int]:
        """The status of a process, and the most bytes that it held. It is started by a small one, since what it starts from counts."""
        with open(self.given, "rb") as source, open(self.made, "wb") as sink:
            done = subprocess.run(
                [sys.executable, "-c", HELD, program(), *words],
                stdin=source,
                stdout=sink,
                stderr=subprocess.PIPE,
                check=True,
                timeout=MOST_SECONDS,
            )
        return map(int, done.stderr.split(b"\n")[-2].split())

    def test_room_of_events(self) -> None:
        """What is held of a run that is told is its text, and of a picture a few numbers for each mark; a schedule ends where its events are too many."""
        with open(self.given, "w") as given:
            given.writelines(f"{line}\n" for line in crowd(THREADS, 32))
        events = None
        for words, wanted in ((("trace", "--every"), 0), (("trace",), 0), (("draw",), 0), (("schedule", "--robin"), 4)):
            status, most = self.held(words)
            # The last line before the tree has the number of the last event.
            events = events or int(self.end(4_096).split(b"\ntree\n")[0].splitlines()[-1].split()[0])
            with self.subTest(" ".join(words)):
                self.assertEqual(status, wanted)
                self.assertLessEqual(most / events, EACH_EVENT)
                if self.measures:
                    print(f"{' '.join(words)}: {events} events, {most} bytes", flush=True)

    def room(self, of_each: tuple[str, ...], fits: bool) -> None:
        """So many calls on each of 5,000 files, for whose bytes alone there is room."""
        calls = list(each_file(5_000, *of_each))
        wanted = well(counts(len(calls))) if fits else OUT_OF_MEMORY
        self.ends(script(calls), RUN, wanted, ROOM)

    def test_room_of_cut_files(self) -> None:
        """A file that was full does not hold on to that room once it grows again, unless it fills half of it."""
        cut, below, half = (f"truncate {{}} {size}" for size in (0, FILE // 2 - 1, FILE // 2))
        full = f"truncate {{}} {FILE}"
        self.each(
            (
                ("cut and written", (full, cut, "write {} 0 ff"), True),
                ("cut, one below half, cut", (full, cut, below, cut), True),
                ("cut, half, cut", (full, cut, half, cut), False),
            ),
            self.room,
        )

    def test_room_of_far_bytes(self) -> None:
        """A byte far behind the start of a file makes little room beside what stands before it."""
        self.each([("a byte at half, cut", (f"write {{}} {FILE // 2} ff", "truncate {} 0"), True)], self.room)

    def history(self, calls: tuple[tuple[int, str, str], ...], *lines: str) -> None:
        """A lawful history of calls one after the other, and then of these lines, searched in the room of small files."""
        alone = (f"{word} {number} {rest}" for number, *both in calls for word, rest in zip(("begin", "return"), both))
        self.ends([*STARTED[3].decode().splitlines(), *alone], ("linearize",), well(*lines), ROOM)

    def test_room_of_histories(self) -> None:
        """The search for the commits of a history makes no zeros: each file is of the largest size."""
        last = THIRD_FILE - 1
        longest = (1, "0 mknod /a", "ok"), (2, f"0 truncate /a {THIRD_FILE}", "ok")
        read = f"0 read /a {last - 1} 8"
        self.each(
            (
                ("zeros", longest, "commit 2\nreturn 2 ok\n"),
                ("zeros that are read", (*longest, (3, read, "bytes 0000")), "commit 3\nreturn 3 bytes 0000\n"),
                (
                    "a byte after them",
                    (*longest[:1], (2, f"0 write /a {last} ff", "wrote 1"), (3, read, "bytes 00ff")),
                    "commit 3\nreturn 3 bytes 00ff\n",
                ),
                (
                    "a byte before them",
                    (*longest, (3, "0 write /a 0 ff", "wrote 1"), (4, "0 stat /a", f"stat file {THIRD_FILE}")),
                    f"commit 4\nreturn 4 stat file {THIRD_FILE}\n",
                ),
            ),
            self.history,
        )

    def test_limits_of_threads(self) -> None:
        """A tree of real threads has the limits of its script: by the second ones a byte at the end of the largest file makes that file, of which there is no
        room for so many; by the first ones such a write fails, and takes none."""
        calls = list(each_file(400, f"write {{}} {FILE_BY_SECOND - 1} 00"))
        second = ["atomfs 2", *list(script(calls))[1:]]
        self.each(
            (
                (
                    "400 of the largest files by the second limits, on a real thread",
                    second,
                    ("threads",),
                    OUT_OF_MEMORY,
                    ROOM,
                ),
                (
                    "the same by the first limits",
                    script(calls),
                    ("threads",),
                    well(f"lawful calls {len(calls)}\n"),
                    ROOM,
                ),
                (
                    "2 of the largest files by the second limits",
                    second[:6] + second[-2:],
                    ("threads",),
                    well("lawful calls 4\n"),
                    ROOM,
                ),
            ),
            self.ends,
        )

    def test_more_than_there_is(self) -> None:
        self.each(
            (
                (f"30000 full reads in {ROOM} bytes", script(reads(30_000)), RUN, OUT_OF_MEMORY, ROOM),
                (f"20000 full files in {ROOM} bytes", script(files(20_000)), RUN, OUT_OF_MEMORY, ROOM),
                (f"20000 levels in {ROOM} bytes", script(deep(20_000)), RUN, OUT_OF_MEMORY, ROOM),
            ),
            self.ends,
        )


class Stack(Case):
    """Each command does with little stack what it does with much: none needs more where a tree is deep, or where there are many calls or threads."""

    @staticmethod
    def confine() -> None:
        resource.setrlimit(resource.RLIMIT_STACK, (STACK, STACK))

    def ends(self, lines: typing.Iterable[str], *words: str) -> Outcome:
        given = "".join(f"{line}\n" for line in lines).encode()
        # The environment stands on the stack too.
        came = spawned(words, given, env={}, preexec_fn=self.confine)
        self.same(f"atomfs {' '.join(words)} in {STACK} bytes of stack", came, spawned(words, given))
        self.same("the status", came.status, 0)
        return came

    def test_scripts(self) -> None:
        path = PATH * "/n"
        many = [
            line
            for number in range(THREADS)
            for line in (f"thread t{number}", f"mkdir /{number}", "rename /0 /256", f"stat {path}")
        ]
        kinds = (
            ("a short script", list(script(["mkdir /a", "readdir /"]))),
            (
                "a path of 64 names",
                list(
                    script([*(f"mkdir {path[: 2 * depth]}" for depth in range(1, PATH + 1)), f"rename {path[:4]} /m"])
                ),
            ),
            ("a deep tree", list(script(deep(300)))),
            ("a full file", list(script(["mknod /f", f"truncate /f {FILE}", f"read /f 0 {FILE}"]))),
            ("many threads", ["atomfs 1", *many, "schedule", "finish"]),
            ("long names", list(third(long_names()))),
        )
        commands = (
            RUN,
            ("run", "--robin"),
            ("run", "--seed", "7"),
            SEEDS,
            ("threads",),
            ("trace",),
            ("draw",),
            ("draw", "--html"),
            ("schedule", "--robin"),
        )
        self.each(
            ((f"{' '.join(words)}, {name}", lines, *words) for name, lines in kinds for words in commands), self.ends
        )

    def test_journals(self) -> None:
        for name, calls in (("a deep tree", deep(300)), ("many names", entries(ENTRIES))):
            text = self.ends(script(calls) if name == "a deep tree" else calls, *RUN).output.decode()
            for words in (CHECK, ("draw",), ("draw", "--html")):
                with self.subTest(f"{words[0]}, {name}"):
                    self.ends(text.splitlines(), *words)

    def test_start_trees(self) -> None:
        """A deep tree at which runs start."""
        text = self.ends(script(deep(300)), *RUN).output
        with tempfile.TemporaryDirectory() as folder:
            tree = pathlib.Path(folder, "tree")
            tree.write_bytes(text[text.index(b"tree\n") : text.rindex(b"begun ")])
            ends = "outcomes", *SEEDS[1:]
            for words in (RUN, SEEDS, ends, (*ends, "--always", "tree dir /x")):
                with self.subTest(" ".join(words)):
                    self.ends(script(["stat /p", "mkdir /x", "rename /p /x/p"]), *words, "--from", str(tree))

    def test_help(self) -> None:
        self.each(
            (
                (" ".join(words), [], *words)
                for words in (("--help",), ("help", "run"), ("explain", "SeatBusy"), ("--version",))
            ),
            self.ends,
        )


if __name__ == "__main__":
    if "--measure" in sys.argv:
        sys.argv.remove("--measure")
        Limits.measures = True
    unittest.main()
