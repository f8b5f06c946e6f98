"""The package for Python by both ways, the extension in C and ctypes: the extension compiles without a warning, asks only for the stable ABI, is clean
under valgrind and the sanitizers, and both ways answer alike where any growth of memory is refused.
"""
import functools
import os
import pathlib
import re
import shutil
import subprocess
import sys
import tempfile
import typing
import unittest

import harness
from harness import ROOT, Case

PACKAGE, EMBED = ROOT / "bindings" / "python", ROOT / "embed"
SOURCES = [PACKAGE / "src" / "atomfs" / name for name in ("_fast.c", "_door.c", "_files.c")]
STRICT = "-std=gnu11", "-Wall", "-Wextra", "-Werror", "-shared", "-fPIC", "-fvisibility=hidden"
CASES = (
    *("BothWays.test_drawn", "BothWays.test_forgets", "BothWays.test_full_directory", "BothWays.test_closed"),
    *("BothWays.test_steps", "BothWays.test_waits", "BothWays.test_copies", "BothWays.test_arguments"),
    *("Threads.test_lock", "Threads.test_seats", "Threads.test_error_lets_go", "Threads.test_is_freed"),
)
OF_DOOR = (
    *("BothWays.test_drawn", "BothWays.test_link", "BothWays.test_removed", "BothWays.test_full"),
    *("BothWays.test_own_tree", "Functions.test_as_functions", "Functions.test_is_freed"),
    *("Functions.test_threads", "Functions.test_types"),
)
# How many calls are drawn where each access of memory is looked at.
DRAWN = "60"
MOST_SECONDS = 600
# By both ways the same calls on a new tree, where one growth of memory is refused, each in turn: what they answer, and that the tree stands.
REFUSED = """
import contextlib, ctypes, os, sys
import atomfs
import test_door
from atomfs import _calls
from atomfs._tree import Stat, Step

heap = ctypes.CDLL(os.environ["ATOMFS_LIBRARY"])
assert atomfs.binding() == "extension", atomfs.binding()
WAYS = {"extension": lambda tree: tree, "ctypes": lambda tree: setattr(tree, "_calls", _calls.ByCtypes(Stat, Step))}


def told(call, *given):
    try:
        return call(*given)
    except (OSError, MemoryError, atomfs.Error) as error:
        return type(error).__name__, str(error)


def steps(tree, told):
    seat = tree.seat()
    yield told(seat.begin.rename, "/a", "/b")
    yield from (told(seat.step) for _ in range(12))
    yield told(seat.reply)


def calls(tree, told):
    yield from (told(tree.mkdir, path) for path in ("/a", "/a/b", "/a", "/x/y"))
    yield from (told(tree.mknod, f"/a/file{number:03}") for number in range(9))
    yield told(tree.write, "/a/file000", 3, b"some bytes")
    yield told(tree.write, "/a/file001", 0, bytes(70_000))
    yield told(tree.write, "/a/file002", 5, bytearray(b"abc"))
    yield from (told(tree.read, "/a/file000", offset, count) for offset, count in ((0, None), (2, 5), (0, 90_000)))
    yield told(tree.read, "/a/file001")
    yield from (told(call, "/a") for call in (tree.readdir, tree.listdir, tree.list, tree.stat, tree.exists))
    yield from (told(tree.truncate, "/a/file001", size) for size in (5, 100, 0))
    yield from (told(tree.exchange, "/a/file000", "/a/file001"), told(tree.rename, "/a/file001", "/z"))
    yield from (told(tree.unlink, "/a/file002"), told(tree.rmdir, "/a"), told(tree.write_bytes, "/new", b"new"))
    yield from steps(tree, told)


def played(way, number, journal):
    heap.refuse(0, 0)
    try:
        with atomfs.Tree(100, journal=journal) as tree:
            WAYS[way](tree)
            heap.refuse(number, number)
            answers = list(calls(tree, told))
            growths, refusals = heap.growths(), heap.refusals()
            heap.refuse(0, 0)
            return growths, refusals, answers, tree.check(), tree.journal(), tree.tree()
    except MemoryError as error:
        # A seat is refused where a thread has none yet.
        return "MemoryError", str(error)
    finally:
        heap.refuse(0, 0)


def by_patch(told):
    at = "/sandbox_of_refused"
    yield from (told(os.mkdir, f"{at}/{name}") for name in ("a", "a/b", "a"))
    for mode, size in (("wb", 10), ("r+b", 3), ("ab", 3), ("wb", 70_000), ("xb", 1)):
        yield told(opened, f"{at}/f", mode, bytes(size))
    yield from (told(opened, f"{at}/f", mode, None) for mode in ("rb", "r"))
    yield from (told(sized, path) for path in (f"{at}/f", f"{at}/a", f"{at}/none"))
    yield from (told(os.rename, f"{at}/{one}", f"{at}/{other}") for one, other in (("f", "a/g"), ("a", "c"), ("none", "d")))
    yield from (told(call, at) for call in (os.listdir, names))
    yield from (told(os.truncate, f"{at}/c/g", 3), told(os.unlink, f"{at}/c/g"), told(os.rmdir, f"{at}/c/b"))


def opened(path, mode, data):
    with open(path, mode, buffering=-1 if mode == "r" else 0) as file:
        return [file.read() if data is None else file.write(data), file.tell()]


def sized(path):
    found = os.stat(path)
    return found.st_mode, found.st_size, found.st_nlink


def names(path):
    with os.scandir(path) as entries:
        return [(entry.name, entry.is_dir()) for entry in entries]


def patched(way, number):
    heap.refuse(0, 0)
    try:
        with contextlib.ExitStack() as stack:
            if way == "ctypes":
                test_door.in_python(stack)
            tree = stack.enter_context(atomfs.Tree(100))
            stack.enter_context(atomfs.patch(tree, "/sandbox_of_refused"))
            heap.refuse(number, number)
            answers = list(by_patch(told))
            growths, refusals = heap.growths(), heap.refusals()
            heap.refuse(0, 0)
            # What is kept beside the tree has gone with it.
            kept = [(at, sized(at)) for at, _, files in os.walk("/sandbox_of_refused") for at in (at, *(f"{at}/{one}" for one in files))]
            assert tree.check() == "lawful" and not test_door.opened_by(tree), tree.check()
            return growths, refusals, answers, kept, tree.journal(), tree.tree()
    finally:
        heap.refuse(0, 0)


refused = 0
growths = patched("ctypes", 0)[0]
for number in range(1, growths + 1):
    one, other = (patched(way, number) for way in WAYS)
    assert one == other, (number, one, other)
    refused += any(isinstance(told, tuple) and told[0] == "MemoryError" for told in one[2])
assert refused > 20, refused
refused = 0
for journal in (atomfs.ALL, atomfs.LAST(5)):
    growths = played("ctypes", 0, journal)[0]
    for number in range(1, growths + 1):
        one, other = (played(way, number, journal) for way in WAYS)
        assert one == other, (journal, number, one, other)
        refused += one[0] == "MemoryError" or any(isinstance(told, tuple) and told[0] == "MemoryError" for told in one[2])
        assert one[0] == "MemoryError" or one[3] == "lawful", one
    assert heap.blocks() == 0, heap.blocks()
print(refused)
"""


@functools.cache
def python() -> tuple[str, str]:
    """A Python that takes the extension, and its headers."""
    ask = "import sys, sysconfig; print(sys.version_info >= (3, 11), sysconfig.get_config_var('Py_GIL_DISABLED'), sysconfig.get_paths()['include'])"
    for found in filter(None, (os.environ.get("PYTHON"), "/usr/bin/python3", shutil.which("python3"))):
        ran = subprocess.run([found, "-c", ask], capture_output=True, text=True)
        if ran.returncode == 0:
            takes, free, include = ran.stdout.rstrip("\n").split(" ", 2)
            if takes == "True" and free != "1" and (pathlib.Path(include) / "Python.h").is_file():
                return found, include
    raise unittest.SkipTest("no Python from 3.11 on has its headers: apt-get install python3-dev")


def wanted(*commands: str) -> None:
    for command in commands:
        if not shutil.which(command):
            raise unittest.SkipTest(f"{command} is not on the path: apt-get install {command}")


class Extension(Case):
    folder: pathlib.Path

    @classmethod
    def setUpClass(cls) -> None:
        cls.folder = pathlib.Path(cls.enterClassContext(tempfile.TemporaryDirectory(prefix="atomfs-extension-")))

    def built(self, name: str, compiler: str, *flags: str) -> pathlib.Path:
        """A folder with the package, whose extension this compiler makes."""
        made = self.folder / name
        shutil.copytree(PACKAGE / "src", made, ignore=shutil.ignore_patterns("*.so", "__pycache__"))
        words: list[str | pathlib.Path] = [
            compiler,
            *STRICT,
            *flags,
            "-I",
            EMBED,
            "-I",
            python()[1],
            *SOURCES,
            "-o",
            made / "atomfs" / "_fast.abi3.so",
        ]
        self.same(f"what {compiler} says", self.done(words), (0, ""))
        return made

    def done(self, words: typing.Sequence[str | pathlib.Path], **more: str) -> tuple[int, str]:
        ran = subprocess.run(
            [str(word) for word in words],
            env=os.environ | {"PYTHONDONTWRITEBYTECODE": "1"} | more,
            capture_output=True,
            text=True,
            errors="replace",
            timeout=MOST_SECONDS,
            cwd=self.folder,
        )
        return ran.returncode, ran.stdout + ran.stderr

    def cases(self, made: pathlib.Path) -> tuple[tuple[str, ...], dict[str, str]]:
        """The words and the variables by which the package's tests of both ways run, on a built package."""
        harness.library()
        tests = PACKAGE / "tests"
        cases = *(f"test_binding.{case}" for case in CASES), *(f"test_door.{case}" for case in OF_DOOR)
        words = python()[0], "-W", "ignore", "-m", "unittest", *cases
        where = {"PYTHONPATH": f"{made}:{tests}", "ATOMFS_LIBRARY": harness.library_at(), "ATOMFS_PURE": "0"}
        return words, where | {"ATOMFS_DRAWN": DRAWN, "PYTHONMALLOC": "malloc"}

    def test_warnings(self) -> None:
        """No compiler has a word to say of it."""
        for compiler in ("gcc", "clang"):
            with self.subTest(compiler):
                wanted(compiler)
                self.built(compiler, compiler, "-O2")

    def test_stable(self) -> None:
        """What it asks for of Python is in the stable ABI, and else only the C library of any Linux."""
        wanted("nm")
        made = self.built("stable", "cc", "-O2")
        asked = set(self.done(["nm", "-D", "--undefined-only", "-P", made / "atomfs" / "_fast.abi3.so"])[1].split("\n"))
        names = {line.split(" ")[0].split("@")[0] for line in asked if " U " in line}
        ask = "from test.test_stable_abi_ctypes import SYMBOL_NAMES; print(*SYMBOL_NAMES)"
        status, stable = self.done([python()[0], "-c", ask])
        if status:
            self.skipTest("the tests of CPython are not there: apt-get install libpython3-testsuite")
        of_python = {name for name in names if re.match("_?Py", name)}
        self.same("what is not in the stable ABI", of_python - set(stable.split()), set())
        self.assertGreater(len(of_python), 20)
        self.assertLessEqual(
            names - of_python, {"memchr", "memcmp", "memcpy", "close", "__errno_location", "__stack_chk_fail"}
        )

    def test_valgrind(self) -> None:
        """valgrind finds no fault and nothing lost in the extension or the library."""
        wanted("valgrind")
        words, where = self.cases(self.built("valgrind", "cc", "-O1", "-g"))
        log = self.folder / "valgrind.log"
        grind = (
            "valgrind",
            "--leak-check=full",
            "--show-leak-kinds=definite,indirect",
            f"--log-file={log}",
            "--num-callers=40",
        )
        self.assertRegex(self.done([*grind, *words], **where)[1], r"(?m)^OK")
        told = log.read_text(errors="replace")
        faults = re.split(r"(?m)^==\d+== ?\n", told)
        ours = [fault for fault in faults if re.search(r"_(fast|door|files)\.c:|libatomfs", fault)]
        self.same("what valgrind says", "\n".join(ours), "")
        self.assertIn("LEAK SUMMARY", told)

    def test_sanitizers(self) -> None:
        """The address sanitizer and that of undefined behaviour find nothing."""
        wanted("gcc")
        made = self.built("sanitized", "gcc", "-O1", "-g", "-fsanitize=address,undefined", "-fno-sanitize-recover=all")
        words, where = self.cases(made)
        libraries = [
            self.done(["gcc", f"-print-file-name={name}"])[1].strip() for name in ("libasan.so", "libubsan.so")
        ]
        came = self.done(words, **where, LD_PRELOAD=" ".join(libraries), ASAN_OPTIONS="detect_leaks=0")
        self.assertRegex(came[1], r"(?m)^OK")
        self.assertNotRegex(came[1], "Sanitizer|runtime error")

    def library_that_refuses(self) -> str:
        """The library, built with a heap that refuses growths."""
        wanted("ar", "ld", "nm", "objcopy", "cc")
        harness.library()
        archive = harness.found("ARCHIVE", "crates/atomfs_c/out/libatomfs_c.a", "embed/build builds it")
        self.done(["ar", "x", "--output", self.folder, archive])
        proved = self.folder / "proved.o"
        self.same("ld", self.done(["ld", "-r", "-o", proved, *self.folder.glob("*.o")]), (0, ""))
        symbols = self.done(["nm", "--defined-only", proved])[1]
        renamed = self.folder / "renamed"
        renamed.write_text("".join(f"{name} proved_{name}\n" for name in re.findall(r"(?m) T (atomfs_\w+)$", symbols)))
        self.same("objcopy", self.done(["objcopy", f"--redefine-syms={renamed}", proved]), (0, ""))
        sources = [EMBED / f"{name}.c" for name in ("checks", "files", "shared")]
        return harness.compiled(self.folder, "heap.c", "-pthread", "-std=gnu11", "-I", EMBED, proved, *sources)

    def test_refused(self) -> None:
        """Each growth of memory refused in turn: both ways answer the same, and the tree stands as it did."""
        made = self.built("refused", "cc", "-O2")
        library = self.library_that_refuses()
        status, told = self.done(
            [python()[0], "-c", REFUSED],
            PYTHONPATH=f"{made}:{PACKAGE / 'tests'}",
            ATOMFS_LIBRARY=library,
            ATOMFS_PURE="0",
        )
        self.same(
            "what both ways answer", (status, bool(re.fullmatch(r"\d+\n", told))), (0, True) if status == 0 else told
        )
        self.assertGreater(int(told), 20)


if __name__ == "__main__":
    unittest.main()
