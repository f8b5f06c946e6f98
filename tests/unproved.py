"""The program where nothing is proved: built of the sources as they stand, kept beside them, and what it answers to all that tests ask.

`rt try` takes two to seven processor-minutes to build the program, and then runs it once. So the program gets a few lines of this file at the head of its `main`. By the
word `--keep-in` it leaves itself in a folder, from which it starts at once as long as its sources are the same. By `--answer-each` it answers one
request after the other. A request is the words of a command line and an input; it goes to the function to which the real `main` hands the arguments of
the process, standard input and standard output. By other words it does what it always does.

Tests run twice: first they only ask, and then they look at the answers. So what a test asks may not depend on an answer.
"""
import contextlib
import functools
import hashlib
import os
import pathlib
import re
import resource
import shutil
import signal
import subprocess
import sys
import tempfile
import time
import typing
import unittest

import harness
from harness import ROOT, Outcome

# Where the programs are kept, each in a folder that is named by its crate and by the sum of its sources; and how many of a crate.
KEPT = ROOT / "dist" / "unproved"
MOST_KEPT = 3
# The program stops at a fault of memory or of arithmetic, and is started anew for the requests behind that one: at most so often in all.
MOST_STARTS = 3
# So many processor-seconds it may take for what it is asked at once. What it has not answered then is left out.
MOST_SECONDS = 1_200
# While a program is built, and while it answers, a line says each second on a terminal how far that is, and else after so many seconds.
SECONDS_BETWEEN = 30
# What a build takes: 106 processor-seconds and 6.2 GiB on a quiet machine of four processors, 404 and 7.4 on one with ten jobs. There a program without the
# command `threads`, by which 4 of 64 crates and 6 % of the lines go, took 323 and 7.0. That is not half, so the whole program is built.
COST = "two to seven processor-minutes and 6 to 8 GB of memory"
# Longer inputs would take most of these seconds, since the unproved program looks for such faults at each access.
MOST_BYTES = 2**16
# Standard input is a line with the path of the file for the answers, and then the requests. A request is a line with the number of bytes of its input
# and its words, a tab before each, and then the input. An answer is a line with the status and the numbers of bytes of output and of errors, and then
# these bytes.
HEADER = re.compile(rb"(\d+) (\d+) (\d+)\n")
MAIN = "fn main(rt: HostRuntime) -> ExitCode {\n"
KEEPS = """\
    if kept::keep(&rt).is_some() {
        return ExitCode::from(0);
    }
"""
ANSWERS = """\
    if kept::is_asked(&rt, "--answer-each").is_some() {
        return ExitCode::from(if answer_each(&rt, &rt).is_some() { 0 } else { 1 });
    }
"""
# The module `kept` of a program. The words by which the process was started say how it is started again.
KEPT_MODULE = r"""
use std::convert::AsStr;
use std::fs::File;
use std::io::{Read, Write};

/// What stands behind the word in the words of the process, if that is the first of them.
pub fn is_asked(rt: &HostRuntime, word: &str) -> Option<(String, Option<String>)> {
    let words: Result<Vec<String>, _> = std::env::args(rt).ok()?.collect(rt.alloc());
    let mut words = words.ok()?.into_iter();
    let program = words.next()?;
    if words.next()?.as_str() == word {
        Some((program, words.next()))
    } else {
        None
    }
}

fn copy(rt: &HostRuntime, from: &str, to: &str) -> Option<()> {
    let mut bytes = Vec::new(rt.alloc());
    File::open(rt, from).ok()?.read_to_end(&mut bytes).ok()?;
    File::create(rt, to).ok()?.write_all(bytes.as_slice()).ok()
}

/// Leaves the program and the words that started it in the folder of its second word.
pub fn keep(rt: &HostRuntime) -> Option<()> {
    let (program, folder) = is_asked(rt, "--keep-in")?;
    let mut path = folder?;
    path.push_str("/program").ok()?;
    copy(rt, program.as_str(), path.as_str())?;
    path.push_str(".words").ok()?;
    copy(rt, "/proc/self/cmdline", path.as_str())
}
"""
ANSWERING = r"""
/// The text up to the next line feed, which is taken off with it.
fn next_line<'a>(rest: &mut &'a [u8]) -> Option<&'a str> {
    let end = rest.iter().position(|byte| *byte == b'\n')?;
    let line = std::str::from_utf8(&rest[..end]).ok()?;
    *rest = &rest[end + 1..];
    Some(line)
}

fn answer_each<T: Threads + Wait + Clock + Files + Sync>(rt: &HostRuntime, threads: &T) -> Option<()> {
    let alloc = rt.alloc();
    let screen = Screen::new(alloc, rt.stderr(), false);
    let terminals = Terminals { input: false, output: false, no_color: false };
    let mut given = Vec::new(alloc);
    rt.stdin().read_to_end(&mut given).ok()?;
    let mut rest = given.as_slice();
    let mut answers = File::create(rt, next_line(&mut rest)?).ok()?;
    while !rest.is_empty() {
        let mut words = Vec::new(alloc);
        for word in next_line(&mut rest)?.split('\t') {
            words.push(word).ok()?;
        }
        let size = words[0].parse::<usize>().ok()?;
        words[0] = "atomfs";
        let mut output = Vec::new(alloc);
        let mut errors = Vec::new(alloc);
        let input = &rest[..size];
        let status = status_of_args(threads, alloc, words.as_slice(), input, &mut output, &mut errors, terminals, &screen);
        writeln!(answers, "{} {} {}", status, output.len(), errors.len()).ok()?;
        answers.write_all(output.as_slice()).ok()?;
        answers.write_all(errors.as_slice()).ok()?;
        rest = &rest[size..];
    }
    Some(())
}

"""


@functools.cache
def libraries() -> dict[str, list[str]]:
    """What each crate of the repository stands on."""
    lines = (line.split("#")[0].partition(":") for line in (ROOT / "crates.txt").read_text().splitlines())
    return {name.split()[0]: rest.split() for name, colon, rest in lines if colon}


def stands_on(crate: str) -> list[str]:
    """A crate and all crates of the repository below it."""
    found, left = set(), [crate]
    while left:
        name = left.pop()
        if name in libraries() and name not in found:
            found.add(name)
            left += libraries()[name]
    return sorted(found)


def sources(crate: str) -> list[pathlib.Path]:
    """The files of which the program of a crate is built."""
    return sorted(
        path for name in stands_on(crate) for path in (ROOT / "crates" / name / "src").rglob("*") if path.is_file()
    )


def sum_of(crate: str) -> str:
    """The sum of all of which the unproved program of a crate is built."""
    files = (pathlib.Path(__file__), ROOT / "crates.txt", *sources(crate))
    text = "".join(f"{hashlib.sha256(path.read_bytes()).hexdigest()} {path.relative_to(ROOT)}\n" for path in files)
    return hashlib.sha256(text.encode()).hexdigest()[:16]


def copy_sources(crate: str, folder: pathlib.Path) -> None:
    """Copies what a program is built of, with more at the head of its `main`."""
    shutil.copy(ROOT / "crates.txt", folder)
    for source in (ROOT / "crates").glob("*/src"):
        shutil.copytree(source, folder / source.relative_to(ROOT))
    main = folder / "crates" / crate / "src" / "main.rt"
    before, found, body = main.read_text().partition(MAIN)
    if not found:
        raise SystemExit(f"tests/unproved.py: crates/{crate}/src/main.rt has no line `{MAIN.strip()}`")
    answers = "fn status_of_args<" in before
    main.write_text(
        before + (ANSWERING if answers else "") + MAIN + KEEPS + (ANSWERS if answers else "") + body + "\nmod kept;\n"
    )
    main.with_name("kept.rt").write_text(KEPT_MODULE)


def wait(
    process: subprocess.Popen[bytes], how_far: typing.Callable[[int], str], between: float = SECONDS_BETWEEN
) -> tuple[bytes, bytes]:
    """Waits for a process, and says meanwhile how far it is: on a terminal in one line, which is gone at the end. Answers what it wrote to its pipes."""
    began, on_terminal, width = time.monotonic(), sys.stderr.isatty(), 0
    try:
        while True:
            try:
                return process.communicate(timeout=1 if on_terminal else between)
            except subprocess.TimeoutExpired:
                line = how_far(int(time.monotonic() - began))
                width = max(width, len(line))
                print(f"\r{line:{width}}" if on_terminal else line, end="" if on_terminal else "\n", file=sys.stderr)
                sys.stderr.flush()
    except BaseException:
        process.kill()
        raise
    finally:
        if width and on_terminal:
            print(f"\r{'':{width}}\r", end="", file=sys.stderr, flush=True)


def build(crate: str, into: str) -> None:
    """Builds the program of a crate, which leaves itself in a folder, and answers what `rt try` told where it did not."""
    with tempfile.TemporaryDirectory(prefix="atomfs-") as folder:
        copy_sources(crate, pathlib.Path(folder))
        # The compiled program alone is to answer, so the interpreter of `rt try` does one step.
        words = ("rt", "try", "--steps", "1", "--seconds", str(MOST_SECONDS), "--", "--keep-in", into)
        pipes: dict[str, typing.Any] = {
            "stdin": subprocess.DEVNULL,
            "stdout": subprocess.PIPE,
            "stderr": subprocess.PIPE,
        }
        with subprocess.Popen(words, cwd=f"{folder}/crates/{crate}", **pipes) as compiler:
            _, told = wait(compiler, lambda seconds: f"compiles {crate}: {seconds} s")
    program, started_by = pathlib.Path(into, "program"), pathlib.Path(into, "program.words")
    if not started_by.exists():
        raise SystemExit(
            f"tests/unproved.py: the program is not built unproved\n{told.decode(errors='replace')[-4_000:]}"
        )
    program.chmod(0o755)


def keep(crate: str, folder: pathlib.Path) -> None:
    """Builds the program of a crate into a folder, and removes those that have been kept for longest."""
    KEPT.mkdir(parents=True, exist_ok=True)
    made = tempfile.mkdtemp(prefix="made-", dir=KEPT)
    try:
        build(crate, made)
        # Another process may have built the same meanwhile.
        with contextlib.suppress(OSError):
            os.rename(made, folder)
    finally:
        shutil.rmtree(made, ignore_errors=True)
    for older in sorted(KEPT.glob(f"{crate}-*"), key=lambda kept: kept.stat().st_mtime)[:-MOST_KEPT]:
        shutil.rmtree(older, ignore_errors=True)


def words_of(folder: pathlib.Path) -> list[str] | None:
    """The words that start the program that is kept in a folder, if one is and what loads it is still there."""
    with contextlib.suppress(FileNotFoundError):
        *loader, _ = (folder / "program.words").read_bytes().split(b"\0--keep-in\0")[0].decode().split("\0")
        if all(map(os.path.exists, loader[:1])):
            # Help and usage errors name the program as it was called.
            return [*loader, *(("--argv0", "atomfs") if loader else ()), str(folder / "program")]
    return None


def folder_of(crate: str) -> pathlib.Path:
    return KEPT / f"{crate}-{sum_of(crate)}"


def is_kept(crate: str) -> bool:
    """Whether the unproved program of a crate starts at once."""
    return words_of(folder_of(crate)) is not None


def told_before(crate: str) -> str:
    """What a command says before it starts the unproved program of a crate."""
    once = "" if is_kept(crate) else f", and it is compiled first, once for these sources: {COST}"
    return f"no proved program is built yet, so this run is unproved{once}."


def started(crate: str) -> list[str]:
    """The words that start the unproved program of a crate, which is built where it is not kept."""
    folder = folder_of(crate)
    if not words_of(folder):
        shutil.rmtree(folder, ignore_errors=True)
        keep(crate, folder)
    words = words_of(folder)
    assert words
    return words


# The words of a command, and its input.
Request = tuple[tuple[str, ...], bytes]


def encoded(requests: typing.Sequence[Request]) -> bytes:
    return b"".join("\t".join((str(len(given)), *words)).encode() + b"\n" + given for words, given in requests)


def decoded(answers: bytes) -> typing.Iterator[Outcome]:
    """The answers of a file, of which the last may be cut."""
    at = 0
    while header := HEADER.match(answers, at):
        status, output, errors = map(int, header.groups())
        middle = header.end() + output
        at = middle + errors
        if at <= len(answers):
            yield Outcome(status, answers[header.end() : middle], answers[middle:at])


def limit_processor(seconds: int) -> None:
    """The process stops once it has taken so many seconds of a processor, however long it waited for one."""
    resource.setrlimit(resource.RLIMIT_CPU, (seconds, seconds + 1))


def asked(requests: typing.Sequence[Request], seconds: int = MOST_SECONDS) -> tuple[list[Outcome], bytes, bool]:
    """The answers to requests up to the first at which the program stopped, what it told, and whether it had taken all its processor-seconds."""
    with tempfile.TemporaryDirectory(prefix="atomfs-") as folder:
        answers = pathlib.Path(folder, "answers")
        answers.touch()

        def how_far(seconds: int) -> str:
            return (
                f"{len(list(decoded(answers.read_bytes()))):,} of {len(requests):,} requests are answered: {seconds} s"
            )

        words = (*started("atomfs"), "--answer-each")
        with tempfile.TemporaryFile() as given:
            given.write(f"{answers}\n".encode() + encoded(requests))
            given.seek(0)
            pipes: dict[str, typing.Any] = {"stdin": given, "stdout": subprocess.DEVNULL, "stderr": subprocess.PIPE}
            with subprocess.Popen(words, preexec_fn=lambda: limit_processor(seconds), **pipes) as program:
                _, told = wait(program, how_far)
        return list(decoded(answers.read_bytes())), told, program.returncode == -signal.SIGXCPU


def leave_out_long(given: bytes) -> None:
    if len(given) > MOST_BYTES:
        raise unittest.SkipTest(
            "inputs of more than 65,536 bytes are looked at in the program that is proved and built"
        )


@contextlib.contextmanager
def in_place_of_the_program(
    answer: typing.Callable[[tuple[str, ...], bytes], Outcome], compares: bool
) -> typing.Iterator[None]:
    """Meanwhile requests are answered in another way."""
    before = harness.answer, harness.compares
    harness.answer, harness.compares = answer, compares
    try:
        yield
    finally:
        harness.answer, harness.compares = before


class Batch:
    """Requests to the program, and the answers."""

    def __init__(self, seconds: int = MOST_SECONDS) -> None:
        self.answered: dict[Request, Outcome | None] = {}
        self.seconds, self.is_stopped = seconds, False

    def record(self, words: tuple[str, ...], given: bytes) -> Outcome:
        leave_out_long(given)
        self.answered[words, given] = None
        return Outcome(0)

    def answer(self, words: tuple[str, ...], given: bytes) -> Outcome:
        leave_out_long(given)
        if (words, given) not in self.answered:
            raise LookupError("this was not asked before there were answers")
        if self.answered[words, given] is None and self.is_stopped:
            raise unittest.SkipTest(
                f"the unproved program had taken its {self.seconds} processor-seconds before it answered: tests/run --quick PART asks less of it"
            )
        return self.answered[words, given] or Outcome(
            -1, b"", b"the program stopped at other requests before this one\n"
        )

    def left(self) -> list[Request]:
        """The requests that are not answered."""
        return [request for request, outcome in self.answered.items() if outcome is None]

    def collect(self, modules: typing.Iterable[str], run: typing.Callable[[str], object]) -> None:
        """Has some modules run, to ask, and then asks the program."""
        with in_place_of_the_program(self.record, compares=False):
            for module in modules:
                run(module)
        for _ in range(MOST_STARTS):
            if self.left() and not self.is_stopped:
                self.ask(self.left())

    def ask(self, requests: typing.Sequence[Request]) -> None:
        outcomes, told, self.is_stopped = asked(requests, self.seconds)
        if len(outcomes) < len(requests) and not self.is_stopped:
            outcomes.append(Outcome(-1, b"", told))
        self.answered.update(zip(requests, outcomes))

    def told(self) -> str:
        """How many requests are answered, and why others are not."""
        count = f"{len(self.answered) - len(self.left()):,} of {len(self.answered):,} requests are answered"
        if self.is_stopped:
            return f"{count}: the unproved program has taken its {self.seconds} processor-seconds, and what it did not answer is left out"
        return count

    def answers(self) -> contextlib.AbstractContextManager[None]:
        """Meanwhile the program answers what it answered."""
        return in_place_of_the_program(self.answer, compares=True)
