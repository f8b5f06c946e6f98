"""The library without a C library: what libatomfs-core.a asks of its host, and the kernel of examples/kernel, which is booted in QEMU and plays scripts.

With ATOMFS_CORE these tests take another library.
"""
import os
import pathlib
import re
import shutil
import subprocess
import tempfile
import unittest

import harness

KERNEL = harness.ROOT / "examples" / "kernel"
# What the library takes from the program that it is in.
OF_COMPILERS = {"memcpy", "memmove", "memset", "memcmp"}
OF_HOSTS = {"atomfs_host_allocate", "atomfs_host_reallocate", "atomfs_host_free"}
# So many lines of C and assembly make the kernel, at most.
MOST_LINES = 600
SCRIPTS = "tour/3_helping_rename", "tour/2_race", "many_helped", "moved_ancestor", "one_name"
# What the kernel tells behind the tree: numbers that depend on the build stand in groups.
TOLD = re.compile(
    rb"verdict lawful\n"
    rb"growths of memory (?P<growths>\d+)\n"
    rb"most bytes in use (?P<most>\d+)\n"
    rb"runs with a growth refused (?P<runs>\d+)\n"
    rb"calls refused (?P<refused>\d+)\n"
    rb"runs lawful (?P<lawful>\d+)\n"
    rb"stack used (?P<stack>\d+)\n"
    rb"halted\n"
)
# A kernel gives the library so many bytes of stack: docs/EMBEDDING.md says as many KiB.
STACK = 24 * 1024


def core() -> pathlib.Path:
    """Where the library is, once it is known that it may be looked at."""
    harness.library()
    return pathlib.Path(
        harness.found("ATOMFS_CORE", "dist/lib/libatomfs-core.a", "embed/build --freestanding builds it")
    )


def symbols(*words: str) -> list[list[str]]:
    """The symbols of the library, each with its kind."""
    told = subprocess.run(("nm", *words, core()), capture_output=True, text=True, check=True).stdout
    return [line.split()[-2:] for line in told.splitlines() if len(line.split()) > 1]


def booted(script: pathlib.Path) -> subprocess.CompletedProcess[bytes]:
    """What the kernel writes that plays a script, and its status."""
    if not shutil.which("qemu-system-x86_64"):
        raise unittest.SkipTest("the kernel is booted where qemu-system-x86_64 is on the path")
    return subprocess.run(
        (KERNEL / "run", script),
        env=os.environ | {"ATOMFS_CORE": str(core())},
        stdin=subprocess.DEVNULL,
        capture_output=True,
        timeout=harness.MOST_SECONDS,
    )


class Library(harness.Case):
    def test_undefined(self) -> None:
        """It asks for memory and for what compilers call on their own, and for nothing else."""
        asked = {name for kind, name in symbols("--undefined-only")}
        self.same("libatomfs-core.a", sorted(asked - OF_COMPILERS), sorted(OF_HOSTS))

    def test_no_thread_locals(self) -> None:
        told = subprocess.run(
            ("readelf", "--syms", "--wide", core()), capture_output=True, text=True, check=True
        ).stdout
        self.same("libatomfs-core.a", [line for line in told.splitlines() if " TLS " in line], [])

    def test_exports(self) -> None:
        """It has what atomfs.h declares, but for trees that threads share."""
        header = (harness.ROOT / "embed" / "atomfs.h").read_text()
        declared = set(re.findall(r"\b(atomfs_\w+)\((?!\*)", header.split("enum {", 1)[1]))
        wanted = {name for name in declared if not name.startswith("atomfs_shared_")}
        self.same(
            "libatomfs-core.a",
            sorted(name for kind, name in symbols("--defined-only", "--extern-only")),
            sorted(wanted),
        )


class Kernel(harness.Case):
    def test_lines(self) -> None:
        lines = sum(
            len(path.read_text().splitlines()) for path in KERNEL.iterdir() if path.suffix in (".c", ".h", ".S")
        )
        self.same("examples/kernel", max(lines, MOST_LINES), MOST_LINES)

    def test_scripts(self) -> None:
        """The kernel prints the journal and the tree that the program prints, and has every growth of memory refused."""
        self.each(((name, name) for name in SCRIPTS), self.plays)

    def plays(self, name: str) -> None:
        script = harness.ROOT / "examples" / f"{name}.script"
        done = booted(script)
        self.same(script, (done.returncode, done.stderr), (0, b""))
        printed, _, told = done.stdout.replace(b"\r\n", b"\n").partition(b"verdict ")
        wanted = harness.run(script.read_bytes(), "run").output
        self.same(script, printed, wanted[: wanted.rindex(b"begun ")])
        numbers = TOLD.fullmatch(b"verdict " + told)
        self.same(script, (b"verdict " + told, numbers is not None), (b"verdict " + told, True))
        assert numbers is not None
        growths, most, runs, refused, lawful, stack = map(int, numbers.groups())
        self.same("runs in which a growth was refused, and those that were lawful", runs, lawful)
        self.assertTrue(0 < refused <= runs <= growths)
        self.assertLess(stack, STACK)

    def test_faults(self) -> None:
        """What is no script is told, and the kernel stops."""
        with tempfile.TemporaryDirectory(prefix="atomfs-") as folder:
            for name, text in (("empty", b""), ("header", b"atomfs 9\nthread t\nmkdir /a\nschedule\n")):
                script = pathlib.Path(folder, name)
                script.write_bytes(text)
                done = booted(script)
                self.same(text, (done.returncode, done.stdout.splitlines()), (1, [b"the script is none"]))

    def test_missing(self) -> None:
        """Without the library, or without a script that can be read, one line says so."""
        rows: tuple[tuple[str, dict[str, str], tuple[str, ...], bytes], ...] = (
            (
                "library",
                {"ATOMFS_CORE": "/nowhere"},
                (),
                b"examples/kernel/run: /nowhere is not there: embed/build --freestanding builds it\n",
            ),
            ("script", {}, ("/nowhere",), b"examples/kernel/run: cannot read /nowhere\n"),
        )
        self.each(rows, self.ends)

    def ends(self, variables: dict[str, str], words: tuple[str, ...], wanted: bytes) -> None:
        if not shutil.which("qemu-system-x86_64"):
            self.skipTest("the kernel is booted where qemu-system-x86_64 is on the path")
        done = subprocess.run((KERNEL / "run", *words), env=os.environ | variables, capture_output=True)
        self.same(words, (done.returncode, done.stdout, done.stderr), (2, b"", wanted))


if __name__ == "__main__":
    unittest.main()
