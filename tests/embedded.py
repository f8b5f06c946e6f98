"""The library for C as it is built: its typed calls, and calls that break its rules as far as it answers them (typed.c), a tree that threads share
(shared.c), that some call always goes on, what long jobs are answered (bench/trees.c), why bytes are no path, its tools over texts, what it finds of
histories, its header, what it exports and what is packed; the programs of examples/embed in C, Rust and Python, and the examples of docs/EMBEDDING.md
and of the packages' pages.

With LIBATOMFS the programs of this folder take another library: its shared object, beside which the archive stands.
"""
import contextlib
import itertools
import pathlib
import random
import re
import shutil
import subprocess
import tarfile
import tempfile
import typing
import unittest

import atomfs
import drawn
import events
import grammar
import harness
import histories
from worked import KINDS

HEADER = harness.ROOT / "embed" / "atomfs.h"
TESTS = harness.ROOT / "tests"
RUN = harness.ROOT / "examples" / "embed" / "run"
STRICT = "-Wall", "-Wextra", "-Wpedantic", "-Wconversion", "-Werror"
LANGUAGES = (
    ("C99", ("cc", "-std=c99", "-x", "c")),
    ("C11", ("cc", "-std=c11", "-x", "c")),
    ("C++17", ("c++", "-std=c++17", "-x", "c++")),
)
# The parts of the library that are written in C, and what compiles them: what a later compiler refuses is an error already.
SOURCES = "checks.c", "files.c", "shared.c", "heap.c"
COMPILERS = [(name, standard) for name in ("gcc", "clang") for standard in ("c99", "c11")]
# What examples/embed/run says of each program, in order.
SAID = """\
c: lawful, 11 calls returned
c_valgrind: lawful, 11 calls returned
c_sanitized: lawful, 11 calls returned
rust: lawful, 410 calls returned
python: lawful, 11 calls returned
example_c: as docs/EMBEDDING.md says
threads_c: as docs/EMBEDDING.md says
example_rust: as bindings/rust/README.md says
example_python: as bindings/python/README.md says
readme_c: as README.md says
"""

# How many runs are drawn, and how many events each has before its calls are left standing. A call that has begun returns within so many steps, whatever it does.
RUNS, EVENTS, STEPS = 200, range(100, 400), 200
# Of these drawn paths are put together, and how many there are.
PIECES = [
    b"/",
    b"//",
    b"a",
    b"b/",
    b"/.",
    b"/..",
    b"/...",
    b"\0",
    *(b"/" + size * b"n" for size in (32, 33, 64, 65, 255, 256)),
    *(names * b"/m" for names in (63, 64, 65)),
]
PATHS = 2_000


def built() -> pathlib.Path:
    """Where the shared object is, once it is known that it may be looked at."""
    harness.library()
    return pathlib.Path(harness.found("LIBATOMFS", "dist/lib/libatomfs.so", "embed/build builds it"))


def said(*words: typing.Any, seconds: float = harness.MOST_SECONDS) -> str:
    """What a program says, and its status."""
    done = subprocess.run(words, capture_output=True, text=True, timeout=seconds)
    return f"{done.stdout}{done.stderr}status {done.returncode}"


class Programs(harness.Case):
    """A program of this folder in C over the library, which says one line where all is as it is to be."""

    # The source of the program, and the line that it says; where they are, and the library.
    SOURCE: str
    WELL: str
    archive: pathlib.Path
    folder: str
    SECONDS: int = harness.MOST_SECONDS
    SANITIZED = "-g", "-fno-sanitize-recover=all"
    # No error, and no block that is lost or still in use.
    MEMCHECK = (
        "valgrind",
        "-q",
        "--leak-check=full",
        "--show-leak-kinds=all",
        "--errors-for-leak-kinds=all",
        "--error-exitcode=9",
    )

    @classmethod
    def setUpClass(cls) -> None:
        cls.archive = built().with_name("libatomfs.a")
        cls.folder = cls.enterClassContext(tempfile.TemporaryDirectory())

    def made(
        self, name: str, compiler: tuple[str, ...], *flags: typing.Any, archive: pathlib.Path | str | None = None
    ) -> str:
        """The program that a compiler makes of the source and the library."""
        if shutil.which(compiler[0]) is None:
            self.skipTest(f"{compiler[0]} is not on the path")
        program = f"{self.folder}/{name}"
        words = (
            *compiler,
            *STRICT,
            *flags,
            "-pthread",
            "-I",
            HEADER.parent,
            TESTS / self.SOURCE,
            "-x",
            "none",
            archive or self.archive,
            "-o",
            program,
        )
        subprocess.run(words, check=True)
        return program

    def well(self, name: str, *words: typing.Any) -> None:
        self.same(name, said(*words, seconds=self.SECONDS), f"{self.WELL}\nstatus 0")

    def language(self, name: str, compiler: tuple[str, ...]) -> None:
        self.well(name, self.made(name, compiler))


class Typed(Programs):
    """tests/typed.c: each call, each error, small buffers, and hostile callers."""

    SOURCE, WELL = "typed.c", "typed calls: as they are to be"

    def test_languages(self) -> None:
        self.each(((name, name, compiler) for name, compiler in LANGUAGES), self.language)

    def test_sanitized(self) -> None:
        self.well(
            "typed.c with sanitizers",
            self.made("sanitized", LANGUAGES[0][1], *self.SANITIZED, "-fsanitize=address,undefined"),
        )

    @unittest.skipIf(shutil.which("valgrind") is None, "valgrind is not on the path")
    def test_memcheck(self) -> None:
        self.well("typed.c under valgrind", *self.MEMCHECK, self.made("checked", LANGUAGES[0][1], "-g"))


class Shared(Programs):
    """tests/shared.c: a tree that 8 threads share, in which each makes 1,000 drawn calls that overlap and help, threads are cancelled, interrupted, or
    end in the midst of calls; and its journal is lawful."""

    SOURCE, WELL, SECONDS = "shared.c", "a shared tree: as it is to be", 600
    # The proved functions that embed/asleep.h declares.
    CALLED = "step_among", "wakes"
    # valgrind runs one thread at a time: a thread that never sleeps would keep the others from their turn for minutes.
    IN_TURN = "--fair-sched=yes"

    def language(self, name: str, compiler: tuple[str, ...]) -> None:
        """All 1,000 calls, cancellations and signals by the first compiler, a fifth of them by each other one."""
        calls = () if (compiler[0], compiler[1].removeprefix("-std=")) == COMPILERS[0] else ("200",)
        self.well(name, self.made(name, compiler), *calls)

    def test_languages(self) -> None:
        self.each(
            (
                (f"{compiler} {standard}", f"{compiler}_{standard}", (compiler, f"-std={standard}"))
                for compiler, standard in COMPILERS
            ),
            self.language,
        )

    def counted(self, name: str, *flags: str) -> str:
        """With embed/shared.c compiled into the program: of the library the same functions give way to those, and what they call leaves it."""
        weak = f"{self.folder}/weak.a"
        words = *("objcopy", "--weaken"), *(f"--globalize-symbol=proved_atomfs_{name}" for name in self.CALLED)
        subprocess.run((*words, self.archive, weak), check=True)
        return self.made(name, LANGUAGES[1][1], "-DCOUNTED", *flags, archive=weak)

    def sanitized(self, sanitizer: str) -> None:
        self.well(
            f"shared.c with the sanitizer of {sanitizer}",
            self.counted(sanitizer, *self.SANITIZED, f"-fsanitize={sanitizer}"),
        )

    def test_sanitized(self) -> None:
        self.each(((sanitizer, sanitizer) for sanitizer in ("thread", "address,undefined")), self.sanitized)

    @unittest.skipIf(shutil.which("valgrind") is None, "valgrind is not on the path")
    def test_valgrind(self) -> None:
        """Helgrind sees what threads do in the proved functions too: nothing but under the lock."""
        program = self.counted("checked", "-g")
        for name, words, calls in (
            ("memcheck", self.MEMCHECK, "50"),
            ("helgrind", ("valgrind", "-q", "--tool=helgrind", "--error-exitcode=9"), "20"),
        ):
            with self.subTest(name):
                self.well(f"shared.c under {name}", *words, self.IN_TURN, program, calls)


class Trees(Programs):
    """bench/trees.c: two jobs of thousands of calls in small, a sandbox and trees of awkward shapes. A digest is of each reply and of the trees that are left."""

    SOURCE, WELL = "../bench/trees.c", "sandbox: 11471749041631745739\nshapes: 1197031400585579595"

    def test_digests(self) -> None:
        self.well("the jobs in small", self.made("trees", LANGUAGES[0][1], "-O2"))

    def test_words(self) -> None:
        program = self.made("trees", LANGUAGES[0][1], "-O2")
        for words in (("sandbox",), ("many", "1"), ("sandbox", "one"), ("sandbox", ""), ("sandbox", "1", "2")):
            self.same(words, said(program, *words), "trees: no word, or a job and a number\nstatus 2")


class Progress(harness.Case):
    """Drawn calls of several seats, left standing half-way, return by `step_any` alone: where a call is under way it steps one that goes on."""

    def setUp(self) -> None:
        self.library, self.under_way, self.waits = harness.library(), 0, 0

    def look(self, number: int) -> None:
        draw = random.Random(number)
        with atomfs.Tree(self.library, 1_000) as tree:
            run = events.Run(tree, drawn.moving(draw) if number % 2 else drawn.exchanging(draw))
            for seat in itertools.islice(events.made_first(events.drawn)(draw, run.live), draw.choice(EVENTS)):
                run.event(seat)
            under_way = set(run.under_way)
            self.under_way += len(under_way)
            # A step of a call that waits changes nothing.
            waits = {seat for seat in under_way if self.is_waiting(tree, run, seat)}
            self.waits += len(waits)
            under_way = set(run.under_way)
            came = [tree.step_any() for _ in range(STEPS * len(under_way))] + [tree.step_any()]
            returned: list[typing.Any] = [seat for seat, did, _ in came if did == atomfs.Did.RETURN]
            self.same(f"the seats of run {number} whose calls return", sorted(returned), sorted(under_way))
            going = list(itertools.takewhile(lambda step: step[1] != atomfs.Did.IDLE, came))
            self.same(
                "what came of steps that go on",
                {step for step in going if step[0] not in under_way or step[1] == atomfs.Did.WAIT},
                set(),
            )
            self.same("what came behind them", set(came[len(going) :]), {(None, atomfs.Did.IDLE, 0)})
            self.same("the verdict", self.library.check(tree.journal()), b"lawful\n")

    @staticmethod
    def is_waiting(tree: atomfs.Tree, run: typing.Any, seat: int) -> bool:
        did = tree.step(seat)[0]
        if did == atomfs.Did.RETURN:
            run.under_way.remove(seat)
        return bool(did == atomfs.Did.WAIT)

    def test_calls_return(self) -> None:
        self.each(((f"run_{number}", number) for number in range(RUNS)), self.look)
        self.assertGreater(self.waits, 0)
        self.assertGreater(self.under_way, self.waits)


class Paths(harness.Case):
    """`atomfs_check_path` says of drawn bytes what tests/grammar.py says, by each set of limits; and a call on them is refused for its path exactly where it does."""

    def look(self, number: int) -> None:
        draw = random.Random(number)
        path = b"".join(draw.choice(PIECES) for _ in range(draw.randrange(1, 6)))
        for version, limits in ((1, grammar.V1), (2, grammar.V2), (3, grammar.V3)):
            try:
                grammar.path(path, limits)
                wanted = atomfs.Status.OK
            except grammar.Fault as fault:
                wanted = KINDS[fault.kind.replace("BadPath ", "Path")]
            self.came.add(wanted)
            self.same(f"{path!r} by version {version}", self.library.check_path(path, version), wanted)
            refused = atomfs.Status.OK if wanted == atomfs.Status.OK else atomfs.Status.BAD_PATH
            self.same(f"a stat of {path!r} by version {version}", self.refused(path, version), refused)

    def refused(self, path: bytes, version: int) -> object:
        """Why a stat of a path does not begin, if it does not."""
        with atomfs.Tree(self.library, 2, version) as tree, contextlib.suppress(OSError):
            try:
                tree.stat(tree.seat(), path)
            except atomfs.Error as error:
                return error.status
        return atomfs.Status.OK

    def test_drawn(self) -> None:
        self.library = harness.library()
        self.came: set[atomfs.Status] = set()
        self.each(((f"path_{number}", number) for number in range(PATHS)), self.look)
        self.same(
            "the statuses that came",
            sorted(self.came),
            [status for status in atomfs.Status if status == atomfs.Status.OK or status.name.startswith("PATH_")],
        )


def refused(came: harness.Outcome) -> tuple[atomfs.Status, int]:
    """The status and the line of what the program says of its input."""
    said = re.match(rb"atomfs: line (\d+): (\w+).*\n", came.message)
    assert said
    line, kind = said.groups()
    return KINDS[kind.decode()], int(line)


class Tools(harness.Case):
    """What a tool of the library tells is what the command of its name prints, byte for byte, or the status and the line of what that says of its input."""

    SCRIPTS = "helped_rename", "errors_of_each_call", "comments", "bytes_of_files"
    BY = (
        ((), (atomfs.Schedule.GIVEN, 0)),
        (("--robin",), (atomfs.Schedule.ROUND_ROBIN, 0)),
        (("--seed", "7"), (atomfs.Schedule.SEEDED, 7)),
        (("--seed", str(2**64 - 1)), (atomfs.Schedule.SEEDED, 2**64 - 1)),
    )
    WORDS = "BadHeader", "BadPath", "TrailingSlash", "OutOfMemory", "BadStart", "BeginTwice", "WrongReply"

    def look(self, words: typing.Sequence[str], given: bytes, ask: typing.Callable[[], object]) -> None:
        came = harness.run(given, *words)
        self.same(
            words,
            harness.told(lambda text: ask(), given),
            came.output if came.status in (0, 1) and came.output else refused(came),
        )

    def rows(self) -> typing.Iterator[tuple[typing.Any, ...]]:
        library = harness.library()
        runs = harness.DATA / "worked" / "runs"
        texts = {name: (runs / f"{name}.script").read_bytes() for name in self.SCRIPTS}
        texts |= {
            "left": b"atomfs 1\nthread t\nmkdir /a\nmkdir /b\nschedule\nt*3\n",
            "no script": b"atomfs 1\nthread t\nmkdr /a\nschedule\n",
        }
        for name, text in texts.items():
            for words, by in self.BY:
                yield f"trace {name} {words}", ("trace", *words), text, lambda text=text, by=by: library.trace(
                    text, *by
                )
                yield f"every {name} {words}", (
                    "trace",
                    "--every",
                    *words,
                ), text, lambda text=text, by=by: library.trace(
                    text, *by, every=1
                )  # type: ignore[misc]
                yield f"draw {name} {words}", ("draw", *words), text, lambda text=text, by=by: library.draw(text, *by)
                yield f"page {name} {words}", (
                    "draw",
                    "--html",
                    *words,
                ), text, lambda text=text, by=by: library.page(text, *by)
                if words:
                    yield f"schedule {name} {words}", (
                        "schedule",
                        *words,
                    ), text, lambda text=text, by=by: library.schedule(text, *by)
            yield f"around {name}", ("draw", "--around", "1"), text, lambda text=text: library.draw(text, around=1)
            yield f"seeds {name}", ("seeds", "--seed", "9", "--runs", "3"), text, lambda text=text: library.seeds(
                text, 9, 3
            )
        journal = (runs / "helped_rename.text").read_bytes().partition(b"tree\n")[0]
        for name, text in {
            "journal": journal,
            "unlawful": journal.replace(b" ok\n", b" wrote 1\n", 1),
            "no journal": journal + b"commit 1 2\n",
        }.items():
            yield f"draw {name}", ("draw",), text, lambda text=text: library.draw(text)
            yield f"page {name}", ("draw", "--html"), text, lambda text=text: library.page(text)
        for word in self.WORDS:
            yield f"explain {word}", ("explain", word), b"", lambda word=word: library.explain(word.encode())

    def test_as_the_program(self) -> None:
        self.each(self.rows(), self.look)


class Histories(harness.Case):
    """What the library finds of a history is what `atomfs linearize` writes, and by words what it says behind it, whatever comes of it."""

    FORMS = (atomfs.Tell.LINE, ()), (atomfs.Tell.FRONT, ("--front",)), (atomfs.Tell.WORDS, ())
    FOUND = {b"none": atomfs.Found.NO_ORDER, b"fault": atomfs.Found.NO_HISTORY, b"unknown": atomfs.Found.UNKNOWN}
    DRAWN, LIMITS = 100, (1, 2, 3, 1_000_000)

    def written(self, given: bytes, limit: int, tell: typing.Any, words: typing.Sequence[str]) -> object:
        """What the program writes, as the library is to answer it."""
        came = harness.run(given, "linearize", "--limit", str(limit), *words)
        if not came.output:
            return refused(came)
        found = (
            atomfs.Found.LAWFUL
            if came.status == 0
            else self.FOUND.get(came.output.split(b" ")[0], atomfs.Found.NO_ORDER)
        )
        self.came.add((tell, found))
        # How to go on the program says by the name of its option.
        said = tell == atomfs.Tell.WORDS and found != atomfs.Found.UNKNOWN
        return found, came.output + (re.sub(rb"(?m)^atomfs: ", b"", came.message) if said else b"")

    def look(self, given: bytes, limit: int) -> None:
        for tell, words in self.FORMS:

            def ask(history: bytes, tell: atomfs.Tell = tell) -> object:
                return harness.library().linearize(history, tell, limit)

            told = harness.told(ask, given)
            self.same(f"{tell!r} of {given!r}", told, self.written(given, limit, tell, words))

    def rows(self) -> typing.Iterator[tuple[typing.Any, ...]]:
        drawn = (histories.history(random.Random(seed)) for seed in range(self.DRAWN))
        texts = {name: given for name, (given, _) in histories.ROWS.items()}
        texts |= {
            f"drawn {seed}": histories.text_of((*start, *map(histories.line_of, entries)))
            for seed, (start, entries) in enumerate(drawn)
        }
        return ((f"{name} at {limit}", given, limit) for name, given in texts.items() for limit in self.LIMITS)

    def test_as_the_program(self) -> None:
        harness.library()
        self.came: set[object] = set()
        self.each(self.rows(), self.look)
        self.same("what came", self.came, set(itertools.product((tell for tell, _ in self.FORMS), atomfs.Found)))


class Built(harness.Case):
    """The header, the names that the library exports, and the archive."""

    def header(self, compiler: tuple[str, ...]) -> None:
        if shutil.which(compiler[0]) is not None:
            subprocess.run((*compiler, *STRICT, "-fsyntax-only", HEADER), check=True)

    def test_header(self) -> None:
        self.each(((name, compiler) for name, compiler in LANGUAGES), self.header)

    def source(self, compiler: str, standard: str) -> None:
        if shutil.which(compiler) is None:
            self.skipTest(f"{compiler} is not on the path")
        for name in SOURCES:
            words = (compiler, f"-std={standard}", *STRICT, "-fsyntax-only", HEADER.parent / name)
            self.same(f"{name} by {compiler} in {standard}", said(*words), "status 0")

    def test_sources(self) -> None:
        """Each function that the sources call is declared, by every compiler that is here."""
        self.each(((f"{compiler} {standard}", compiler, standard) for compiler, standard in COMPILERS), self.source)

    def exported(self, path: pathlib.Path, *words: typing.Any) -> None:
        found = subprocess.run(
            ("nm", "--defined-only", *words, path), capture_output=True, text=True, check=True
        ).stdout
        names = re.findall(r" T (\w+)$", found, re.M)
        declared = [f"atomfs_{name}" for name in harness.declared().functions]
        self.same(f"what {path.name} exports", sorted(names), sorted(declared))

    def test_names(self) -> None:
        """The library exports what the header declares, and nothing else."""
        shared = built()
        self.each(
            (("shared", shared, "-D"), ("archive", shared.with_name("libatomfs.a"), "--extern-only")), self.exported
        )

    def test_archive(self) -> None:
        """What embed/build packs, under the version of the header."""
        dist = built().parent.parent
        version = harness.declared().version
        name = f"atomfs-{version}-x86_64-linux"
        with tarfile.open(dist / f"{name}.tar.gz") as archive:
            packed = archive.getnames()
        wanted = {"lib/libatomfs.a", "lib/libatomfs.so", "include/atomfs.h", "bin/atomfs"}
        self.same("what is not packed", sorted(wanted - {one.removeprefix(f"{name}/") for one in packed}), [])


class Embedded(harness.Case):
    def test_asks(self) -> None:
        """Without a word it builds nothing, and says what it would do."""
        harness.takes_a_process()
        done = subprocess.run([RUN], capture_output=True, text=True, timeout=harness.MOST_SECONDS)
        self.same("examples/embed/run", (done.returncode, done.stdout), (2, ""))
        self.same("what it asks for", re.findall(r"--\w+", done.stderr), ["--prove", "--built"])

    def test_each_program(self) -> None:
        harness.library()
        done = subprocess.run([RUN, "--built"], capture_output=True, text=True, timeout=10 * harness.MOST_SECONDS)
        self.same(
            f"{RUN.relative_to(harness.ROOT)} --built",
            f"{done.stdout}{done.stderr}status {done.returncode}",
            f"{SAID}status 0",
        )


if __name__ == "__main__":
    unittest.main()
