"""What the tests share: the program and the library that are looked at, and the rows of a test.

ATOMFS names another program than crates/atomfs/out/atomfs, LIBATOMFS another library than dist/lib/libatomfs.so. One that is older than a
source of it is refused. ROW names the one row that is looked at.
"""
import contextlib
import functools
import importlib.util
import os
import pathlib
import re
import shlex
import subprocess
import sys
import typing
import unittest
from collections.abc import Iterator

ROOT = pathlib.Path(__file__).resolve().parent.parent
DATA = ROOT / "tests" / "data"
# No run of the program takes as long as this many seconds.
MOST_SECONDS = 120

sys.dont_write_bytecode = True
# Other modules take it from here.
import atomfs as atomfs


class Outcome(typing.NamedTuple):
    """What a program ended with, wrote to standard output, and told on standard error."""

    status: int
    output: bytes = b""
    message: bytes = b""


@functools.cache
def reader() -> typing.Any:
    """The module that reads embed/atomfs.h."""
    spec = importlib.util.spec_from_file_location("header", ROOT / "embed" / "header.py")
    assert spec and spec.loader
    module = importlib.util.module_from_spec(spec)
    spec.loader.exec_module(module)
    return module


@functools.cache
def declared() -> typing.Any:
    """What embed/atomfs.h declares."""
    return reader().header()


def sources() -> Iterator[pathlib.Path]:
    """The files of which the program and the library are built."""
    for crate in (ROOT / "crates").glob("*fs*"):
        for part in ("src", "specs"):
            yield from (path for path in (crate / part).rglob("*") if path.is_file())


def newer_source(built: pathlib.Path) -> pathlib.Path | None:
    """A source that is newer than what was built, if one is."""
    when = built.stat().st_mtime
    return next((path for path in sources() if path.stat().st_mtime > when), None)


@functools.cache
def found(variable: str, default: str, how: str) -> str:
    """The file that a variable names, or the one that was built, which is to be no older than its sources."""
    if variable in os.environ:
        return os.environ[variable]
    built = ROOT / default
    if not built.exists():
        sys.exit(f"{default} is not there: {how}")
    if newer := newer_source(built):
        sys.exit(f"{default} is older than {newer.relative_to(ROOT)}: {how}")
    return str(built)


def program() -> str:
    return found("ATOMFS", "crates/atomfs/out/atomfs", "examples/run --proved builds it")


@contextlib.contextmanager
def program_at(path: str | pathlib.Path) -> Iterator[None]:
    """Another program is looked at meanwhile."""
    before = os.environ.get("ATOMFS")
    os.environ["ATOMFS"] = str(path)
    found.cache_clear()
    try:
        yield
    finally:
        if before is None:
            del os.environ["ATOMFS"]
        else:
            os.environ["ATOMFS"] = before
        found.cache_clear()


def library_at() -> str:
    """The path of the shared object."""
    return found("LIBATOMFS", "dist/lib/libatomfs.so", "embed/build builds it")


@functools.cache
def library() -> atomfs.Library:
    if answer is not spawned:
        raise unittest.SkipTest("the library for C is looked at where it is proved and built")
    return atomfs.Library(library_at())


def shown_line(line: bytes) -> str:
    """A line as a message shows it: what is no printable ASCII character by an escape, and at most 80 columns."""
    escapes = {ord("\t"): "\\t", ord("\r"): "\\r", ord("\\"): "\\\\"}
    text = "".join(escapes.get(byte, chr(byte) if 32 <= byte < 127 else f"\\x{byte:02x}") for byte in line)
    return text if len(text) <= 80 else text[:77] + "..."


# What a text is whose first line is another than it has to be, as a message says it.
NATURES = (
    (rb"\xef\xbb\xbf.*", "the text begins with a byte order mark: write it without one"),
    (rb".*\r", "the lines end with CR LF: write LF alone"),
    (rb"atomfs-journal [1-4]", "this is a journal: `atomfs check` reads it"),
    (rb"atomfs [1-3]", "this is a script: `atomfs run` reads it"),
    (rb"tree", "this is a tree: `atomfs run --from` reads it"),
    (rb"atomfs-trace .*", "this is a trace, which no command reads"),
)
OTHER_LIMITS = "this journal has other limits than the script: give both the same version"
# How much of a text is kept to show a line of it: one that is cut there is not shown.
SHOWN_BYTES = 2**16


def nature(line: bytes, is_tree: bool) -> str | None:
    """What a text is that begins with a line; as the tree of a run, where it is to be one."""
    told = next((told for form, told in NATURES if re.fullmatch(form, line, re.DOTALL)), None)
    return OTHER_LIMITS if is_tree and told and "journal" in told else told


def with_line(wanted: Outcome, text: bytes, is_tree: bool = False) -> Outcome:
    """The outcome of a command that refuses a text by `line N: KIND`: its message shows the line, and says what to have explained."""
    found = re.fullmatch(rb"atomfs: (?:.*: )?line (\d+): (\w+(?: \w+)?)\n", wanted.message)
    if wanted.status != 3 or not found:
        return wanted
    number, kind = int(found[1]), found[2].decode()
    kept = text[:SHOWN_BYTES]
    lines = kept.removesuffix(b"\n").split(b"\n")
    lines = lines[:-1] if len(text) > SHOWN_BYTES else lines
    line = lines[number - 1] if number <= len(lines) else b""
    told = [f"  {shown_line(line)}"] if line else []
    if kind == "BadHeader":
        told += filter(None, [nature(line, is_tree) if text else "the text is empty"])
    told.append(f"`atomfs explain {kind}` says what to write instead")
    return wanted._replace(message=wanted.message + "".join(f"atomfs: {line}\n" for line in told).encode())


def told(ask: typing.Callable[[bytes], object], given: bytes) -> object:
    """What a function of the library tells of what it is given: a text, or its status and what that is about."""
    try:
        return ask(given)
    except atomfs.Error as error:
        return error.status, error.about


def spawned(words: typing.Sequence[str], given: bytes | None, **other: typing.Any) -> Outcome:
    """The outcome of a process of its own, in which some of what `subprocess.run` takes may be other."""
    pipes: dict[str, typing.Any] = {"stdout": subprocess.PIPE, "stderr": subprocess.PIPE}
    # Help and usage errors name the program `atomfs`, whatever it is called by.
    done = subprocess.run([program(), *words], input=given, timeout=MOST_SECONDS, **pipes | other)
    return Outcome(done.returncode, done.stdout or b"", done.stderr or b"")


# How `outcomes` says on standard error how much was seen.
SEEN = re.compile(
    rb"^atomfs: ([\d,]+) runs?, ([\d,]+) outcomes?, ([\d,]+) new in the last ([\d,]+) runs?(?:; ([\d,]+) of ([\d,]+) pairs? of calls met)?\n",
    re.M,
)


def without_seen(came: Outcome) -> Outcome:
    """An outcome of `outcomes` without the line that says how much was seen, if that is there once. tests/seen.py looks at its numbers."""
    message, lines = SEEN.subn(b"", came.message)
    return came._replace(
        message=message if lines == 1 else came.message + b"(it says %d times how much was seen)\n" % lines
    )


# Where this is another function, it answers in the place of the program; and where nothing is compared, rows only ask.
answer: typing.Callable[..., Outcome] = spawned
compares = True


def run(given: bytes, *words: str) -> Outcome:
    """The outcome of the program on an input."""
    return answer(words, given)


def takes_a_process() -> None:
    """Skips what looks at a process of the program's own where the program is asked in another way."""
    if answer is not spawned:
        raise unittest.SkipTest(
            "devices, memory and time of a process are looked at in the program that is proved and built"
        )


def rows_of(count: int) -> int:
    """How many of so many drawn rows are looked at: a tenth where the program is asked in another way, since unproved it looks for faults at each access."""
    return count if answer is spawned else max(1, count // 10)


def asks_of_answers() -> None:
    """Skips what asks the program of what it has answered where it is asked all at once."""
    if answer is not spawned:
        raise unittest.SkipTest("what was answered is asked of in the program that is proved and built")


def limits_of_sets() -> dict[str, list[int]]:
    """What each set of limits has, by the definition of each limit."""
    source = (ROOT / "crates" / "fs_names" / "src" / "limits.rt").read_text()
    functions = re.findall(
        r"ensures \{ result ≡ (\w+_limit) self \}\n    \{\n        match self \{\n(.*?)        \}", source, re.S
    )
    told = {limit: re.findall(r"(Limits::V\d(?: \| Limits::V\d)*) => ([\d_]+)", arms) for limit, arms in functions}
    return {limit: [int(value) for sets, value in arms for _ in sets.split("|")] for limit, arms in told.items()}


def limits_of_texts() -> dict[str, list[int]]:
    """How long a text may be, and how many calls a script has, by each set of limits, by the definition of each."""
    defined = "".join(
        (ROOT / "crates" / file).read_text() for file in ("fs_words/specs/Headers.antt", "fs_script/specs/Limits.antt")
    )
    return {
        limit: [int(value) for value in re.findall(rf"^{limit} V\d = (\d+)$", defined, re.M)]
        for limit in ("text_limit", "call_limit")
    }


def compiled(folder: str | pathlib.Path, source: str, *more: str | pathlib.Path) -> str:
    """The shared object that `cc` makes of a source in C of tests/."""
    made = f"{folder}/{source}.so"
    subprocess.run(
        ["cc", "-O2", "-Wall", "-Wextra", "-Werror", "-shared", "-fPIC", "-o", made, ROOT / "tests" / source, *more],
        check=True,
    )
    return made


def match_in(pattern: str, text: str, flags: int = 0) -> re.Match[str]:
    """The first part of a text that fits a pattern. There has to be one."""
    found = re.search(pattern, text, flags)
    assert found, f"no part of the text fits {pattern}"
    return found


def shown(value: object) -> str:
    """A value as it is told of a row that fails."""
    if isinstance(value, Outcome):
        return f"status {value.status}\n{shown(value.output)}{shown(value.message)}"
    if isinstance(value, bytes):
        value = value.decode("utf-8", "backslashreplace")
    text = value if isinstance(value, str) else repr(value)
    text = text if len(text) <= 4_000 else f"{text[:2_000]}\n.. {len(text) - 4_000} more ..\n{text[-2_000:]}"
    return text if text.endswith("\n") else text + "\n"


class Case(unittest.TestCase):
    """A test whose rows are looked at one by one."""

    row: str | None = None

    def each(self, rows: typing.Iterable[tuple[typing.Any, ...]], look: typing.Callable[..., object]) -> None:
        """Looks at rows by themselves: of each its name comes first, and `look` gets the rest."""
        only, looked_at = os.environ.get("ROW"), 0
        for name, *rest in rows:
            if only in (None, name):
                self.row, looked_at = name, looked_at + 1
                with self.subTest(name):
                    look(*rest)
        self.row = None
        if only and not looked_at:
            self.skipTest(f"no row of it is called {only}")
        if not looked_at:
            self.fail("the test has no rows")

    def alone(self) -> str:
        """The command that looks at this row, or at this test, by itself, and at the same program."""
        module = pathlib.Path(sys.modules[type(self).__module__].__file__ or "")
        row = f"ROW={shlex.quote(self.row)} " if self.row else ""
        test = f"{type(self).__name__}.{self._testMethodName}"
        return (
            f"{row}python3 tests/{module.name} {test}"
            if answer is spawned
            else f"{row}tests/run --quick {module.stem}.{test}"
        )

    def same(self, given: object, came: object, wanted: object) -> None:
        """What came of what was given is what was wanted."""
        self.alike(given, ("came", came), ("wanted", wanted))

    def alike(self, given: object, one: tuple[str, object], other: tuple[str, object]) -> None:
        """Two sides, each a name and a value, have the same value."""
        if compares and one[1] != other[1]:
            told = "".join(f"== {side}\n{shown(value)}" for side, value in (("given", given), one, other))
            self.fail(f"\n{told}== alone: {self.alone()}")
