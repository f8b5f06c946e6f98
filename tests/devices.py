"""Standard input and standard output that are slow and that fail, each at every byte that they move: status 5, and what is told and written.

tests/devices.c is loaded before the C library (it is compiled by `cc`), so that each read and write moves one byte. Then devices as a system has
them: output that is full, that is closed and that nobody reads, and input that is a folder and that is closed; and a limit of files.
"""
import os
import resource
import signal
import tempfile
import unittest
from typing import Any, Callable, Sequence

import harness
from harness import DATA, ROOT, Case, Outcome, compiled, spawned, takes_a_process

ONE_CALL = DATA / "worked" / "runs" / "first_mkdir"
SCRIPT, TEXT = (ONE_CALL.with_suffix(ending).read_bytes() for ending in (".script", ".text"))
# Words, an input, and what is written.
READING: tuple[tuple[tuple[str, ...], bytes, bytes], ...] = (
    (("run",), SCRIPT, TEXT),
    (("seeds", "--seed", "7", "--runs", "3"), SCRIPT, b"seed 7 lawful\nseed 8 lawful\nseed 9 lawful\n"),
    (("threads",), SCRIPT.replace(b"t*5", b"t*2"), b"lawful calls 1\n"),
    (("threads", "--journal"), SCRIPT.replace(b"t*5", b"t*2"), TEXT.partition(b"tree\n")[0]),
    (("check",), TEXT, b"lawful\n"),
    (("check", "--json"), TEXT, b'{"lawful":true}\n'),
    (
        ("seeds", "--seed", "7", "--runs", "2", "--json"),
        SCRIPT,
        b'{"seed":7,"lawful":true}\n{"seed":8,"lawful":true}\n',
    ),
    (
        ("find", "--where", "tree dir /a", "--seed", "7", "--runs", "2", "--json"),
        SCRIPT,
        b'{"seed":7,"script":"' + SCRIPT.partition(b"schedule\n")[0].replace(b"\n", b"\\n") + b'schedule\\nt*5\\n"}\n',
    ),
    (
        ("trace",),
        TEXT,
        b"atomfs-trace 2\n1 call 1 on seat 0 begins mkdir /a\n2 call 1 on seat 0 commits, adds /a\n3 call 1 on seat 0 returns ok\n"
        + TEXT[TEXT.index(b"tree\n") :],
    ),
)
DOT = b"Dot: a name in a path is `.` or `..`\n\nIn a script, for    stat /a/../b\nwrite               stat /b\nbecause             `.` and `..` are no names\n"
WRITING = (
    *READING,
    (("--version",), b"", f"atomfs {harness.declared().version}\n".encode()),
    (("explain", "Dot"), b"", DOT),
)
PRINTING = (*WRITING, (("--help",), b"", (DATA / "help" / "atomfs").read_bytes()))
READ_FAILED, WRITE_FAILED = b"atomfs: read failed\n", b"atomfs: write failed\n"


def setUpModule() -> None:
    takes_a_process()


def limited() -> None:
    """Lets a process write files of five bytes, and ignore the signal of that limit."""
    signal.signal(signal.SIGXFSZ, signal.SIG_IGN)
    resource.setrlimit(resource.RLIMIT_FSIZE, (5, 5))


class ByteByByte(Case):
    """Each read and each write moves one byte."""

    devices: str

    @classmethod
    def setUpClass(cls) -> None:
        folder = tempfile.TemporaryDirectory()
        cls.addClassCleanup(folder.cleanup)
        cls.devices = compiled(folder.name, "devices.c")

    def ends(self, words: Sequence[str], given: bytes, wanted: Outcome, **devices: int | str) -> None:
        """The outcome over devices of which so many `READS` and `WRITES` go well."""
        named = {name: str(value) for name, value in devices.items()}
        came = spawned(words, given, env=os.environ | {"LD_PRELOAD": self.devices} | named)
        self.same(f"atomfs {' '.join(words)} with {named}\n{given.decode()}", came, wanted)

    def well(self, words: Sequence[str], given: bytes, written: bytes) -> None:
        """One read for each byte and one for the end, and one write for each byte, are enough."""
        told = b"atomfs: seed 7\n" if words[0] == "find" else b""
        self.ends(words, given, Outcome(0, written, told), READS=len(given) + 1, WRITES=len(written))

    def read_fails(self, words: Sequence[str], given: bytes, good: int) -> None:
        self.ends(words, given, Outcome(5, b"", READ_FAILED), READS=good)

    def write_fails(self, words: Sequence[str], given: bytes, written: bytes, good: int) -> None:
        self.ends(words, given, Outcome(5, written[:good], WRITE_FAILED), WRITES=good)

    def write_takes_nothing(self, words: Sequence[str], given: bytes, written: bytes, good: int) -> None:
        self.ends(words, given, Outcome(5, written[:good], WRITE_FAILED), WRITES=good, TAKES_NOTHING="")

    def of_each_write(self, look: Callable[[Sequence[str], bytes, bytes, int], None]) -> None:
        self.each(
            (
                (f"{words[0]} {good}", words, given, written, good)
                for words, given, written in WRITING
                for good in range(len(written))
            ),
            look,
        )

    def test_that_all_is_well(self) -> None:
        self.each(((words[0], words, given, written) for words, given, written in PRINTING), self.well)

    def test_each_read_that_fails(self) -> None:
        """The one at the end of the input too."""
        self.each(
            (
                (f"{words[0]} {good}", words, given, good)
                for words, given, _ in READING
                for good in range(len(given) + 1)
            ),
            self.read_fails,
        )

    def test_each_write_that_fails(self) -> None:
        self.of_each_write(self.write_fails)

    def test_each_write_that_takes_nothing(self) -> None:
        self.of_each_write(self.write_takes_nothing)


class OfTheSystem(Case):
    """Devices as a system has them."""

    def write_fails(self, words: Sequence[str], given: bytes, **other: Any) -> None:
        self.same(
            f"atomfs {' '.join(words)}\n{given.decode()}", spawned(words, given, **other), Outcome(5, b"", WRITE_FAILED)
        )

    def read_fails(self, words: Sequence[str], **other: Any) -> None:
        self.same(f"atomfs {' '.join(words)}", spawned(words, None, **other), Outcome(5, b"", READ_FAILED))

    def each_printing(self, **other: Any) -> None:
        self.each(
            ((words[0], words, given) for words, given, _ in PRINTING),
            lambda words, given: self.write_fails(words, given, **other),
        )

    def each_reading(self, **other: Any) -> None:
        self.each(((words[0], words) for words, *_ in READING), lambda words: self.read_fails(words, **other))

    def test_output_that_is_full(self) -> None:
        with open("/dev/full", "wb") as full:
            self.each_printing(stdout=full)

    def test_output_that_is_closed(self) -> None:
        self.each_printing(stdout=None, preexec_fn=lambda: os.close(1))

    def test_output_that_nobody_reads(self) -> None:
        reader, writer = os.pipe()
        os.close(reader)
        self.addCleanup(os.close, writer)
        self.each_printing(stdout=writer)

    def test_a_limit_of_files(self) -> None:
        """Where the signal of that limit is ignored, what fits is written."""
        for words, given, written in PRINTING:
            with tempfile.TemporaryFile() as file:
                self.write_fails(words, given, stdout=file, preexec_fn=limited)
                file.seek(0)
                self.same(f"atomfs {' '.join(words)}", file.read(), written[:5])

    def test_input_that_is_a_folder(self) -> None:
        folder = os.open(ROOT, os.O_RDONLY)
        self.addCleanup(os.close, folder)
        self.each_reading(stdin=folder)

    def test_input_that_is_closed(self) -> None:
        self.each_reading(stdin=None, preexec_fn=lambda: os.close(0))


if __name__ == "__main__":
    unittest.main()
