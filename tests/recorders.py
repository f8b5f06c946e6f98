"""The recorders of examples/record: what they make of traces, of a directory of this machine, and of trees in memory.

What is recorded goes to the program; what a recorder says where the program finds no order comes from a stand-in for it.
"""
import functools
import importlib.machinery
import importlib.util
import os
import pathlib
import re
import shutil
import subprocess
import sys
import tempfile
import typing
import unittest

import harness
import packages
from documents import HISTORIES, README, blocks
from harness import ROOT, Case, run

RECORD, STORED = ROOT / "examples" / "record", harness.DATA / "recorders"
DIRECTORY = "/tmp/tree"
OPENING = "atomfs-journal 4\nstart\ndir /\nentries\n"
# How many histories of one thread record.c makes.
ALONE = 20


# What a command ended with, wrote and told.
Ended = tuple[int, str, str]


def ended(words: typing.Iterable[object], given: bytes = b"", **variables: str) -> Ended:
    """What a command ends with, writes and tells."""
    done = subprocess.run(
        list(map(str, words)),
        input=given,
        capture_output=True,
        env=os.environ | variables,
        timeout=packages.MOST_SECONDS,
    )
    return done.returncode, done.stdout.decode(), done.stderr.decode()


def of_strace(given: bytes, directory: str | pathlib.Path = DIRECTORY) -> Ended:
    return ended((sys.executable, RECORD / "strace2history", directory), given)


@functools.cache
def strace2history() -> typing.Any:
    """The recorder as a module, so that it is started once for all rows."""
    loader = importlib.machinery.SourceFileLoader("strace2history", str(RECORD / "strace2history"))
    spec = importlib.util.spec_from_loader("strace2history", loader)
    assert spec
    module = importlib.util.module_from_spec(spec)
    loader.exec_module(module)
    return module


def entries_of(*lines: str) -> str:
    """The entries that come of lines of strace, or why they are refused."""
    module = strace2history()
    try:
        return "".join(f"{line}\n" for line in module.history(lines, module.Directory(DIRECTORY)))
    except module.Refused as error:
        return str(error)


HEAD = '7  mkdir("/tmp/tree/a", 0777) = 0'
MADE = "begin 1 0 mkdir /a\nreturn 1 ok\n"
MADE_OF = {
    "nothing": ((), ""),
    "what is elsewhere": (
        ('7  mkdir("/tmp/treetop", 0777) = 0', '7  unlink("/etc/none") = -1 ENOENT (No such file or directory)'),
        "",
    ),
    "doubled slashes": (('7  mkdir("//tmp/./tree//a", 0777) = 0',), MADE),
    "an unfinished line": (
        (
            '7  mkdir("/tmp/tree/a", 0777 <unfinished ...>',
            '8  rmdir("/tmp/tree/a") = -1 ENOENT (No such file or directory)',
            "7  <... mkdir resumed>) = 0",
        ),
        "begin 1 0 mkdir /a\nbegin 2 1 rmdir /a\nreturn 2 failed ENOENT\nreturn 1 ok\n",
    ),
    "one that is never resumed": (
        (
            '7  mkdir("/tmp/tree/a", 0777 <unfinished ...>',
            '8  rmdir("/tmp/tree/a") = 0',
            "7  +++ killed by SIGKILL +++",
        ),
        "begin 1 0 mkdir /a\nbegin 2 1 rmdir /a\nreturn 2 ok\n",
    ),
    "one behind which its process goes on": (
        ('7  mkdir("/tmp/tree/a", 0777 <unfinished ...>', '7  rmdir("/tmp/tree/a") = 0'),
        "begin 1 0 mkdir /a\nbegin 2 1 rmdir /a\nreturn 2 ok\n",
    ),
    "one without a result": (
        ('7  mkdir("/tmp/tree/a", 0777) = ? ERESTARTSYS (To be restarted)', '7  mkdir("/tmp/tree/a", 0777) = 0'),
        "begin 1 0 mkdir /a\nbegin 2 1 mkdir /a\nreturn 2 ok\n",
    ),
    "one of which nothing is known": (
        ('7  mkdir("/tmp/tree/a", 0777) = -1 EIO (Input/output error)',),
        "begin 1 0 mkdir /a\n",
    ),
    "one that ends as its process does": (
        ('7  mkdir("/tmp/tree/a", 0777 <unfinished ...>', "7  <... mkdir resumed> <unfinished ...>) = ?"),
        "begin 1 0 mkdir /a\n",
    ),
    "an error that no tree has": (
        ('7  mkdir("/tmp/tree/a", 0777) = -1 EACCES (Permission denied)',),
        "begin 1 0 mkdir /a\nreturn 1 failed ?\n",
    ),
    "a directory that is unlinked": (
        ('7  unlink("/tmp/tree/a") = -1 EISDIR (Is a directory)',),
        "begin 1 0 unlink /a\nreturn 1 failed EPERM\n",
    ),
    "a file that is opened anew": (
        (
            '7  openat(AT_FDCWD</>, "/tmp/tree/a", O_WRONLY|O_CREAT|O_EXCL|O_CLOEXEC, 0666) = 3</tmp/tree/a>',
            "7  close(3</tmp/tree/a>) = 0",
        ),
        "begin 1 0 mknod /a\nreturn 1 ok\n",
    ),
    "a file that is opened": (
        (
            '7  open("/tmp/tree/a", O_RDWR) = 3</tmp/tree/a>',
            "7  fstat(3</tmp/tree/a>, {st_mode=S_IFREG|0644, ...}) = 0",
        ),
        "",
    ),
    "a relative path where nothing is changed": (('7  stat("a", 0x7ffd) = -1 ENOENT (No such file or directory)',), ""),
    "a path from the working directory": (('7  mkdirat(AT_FDCWD</tmp>, "tree/a", 0777) = 0',), MADE),
    "a name with every kind of escape": (
        (r'7  mkdir("/tmp/tree/\"\\\n\t\1\x07\3037%?", 0777) = 0',),
        'begin 1 0 mkdir /"\\%0A%09%01%07%C37%25?\nreturn 1 ok\n',
    ),
    "a word that a path only has in it": (
        ('7  write(1</dev/pts/0>, "/tmp/tree/a\\n", 12) = 12', '7  execve("/tmp/tree/a", ["/tmp/tree/a"], 0x7ffd) = 0'),
        "",
    ),
    "the directory, which is there": (
        ('7  mkdir("/tmp/tree", 0777) = -1 EEXIST (File exists)',),
        "begin 1 0 mkdir /\nreturn 1 failed EEXIST\n",
    ),
    "moves": (
        (
            '7  rename("/tmp/tree/a", "/tmp/tree/b") = 0',
            '7  renameat(AT_FDCWD</>, "/tmp/tree/b", AT_FDCWD</>, "/tmp/tree/a") = 0',
        ),
        "begin 1 0 rename /a /b\nreturn 1 ok\nbegin 2 0 rename /b /a\nreturn 2 ok\n",
    ),
    "a move of two": (
        ('7  renameat2(AT_FDCWD</>, "/tmp/tree/a", AT_FDCWD</>, "/tmp/tree/b", RENAME_EXCHANGE) = 0',),
        "begin 1 0 exchange /a /b\nreturn 1 ok\n",
    ),
}
REFUSED = {
    "no line of strace": ('mkdir("/tmp/tree/a", 0777) = 0', "this is no line of `strace -f -y -o`"),
    "a line that is resumed and was not begun": (
        "7  <... mkdir resumed>) = 0",
        "mkdir is resumed, and nothing was begun",
    ),
    "a read": ('7  read(3</tmp/tree/a>, "x", 1) = 1', "read is a call on a descriptor"),
    "a write": ('7  write(3</tmp/tree/a>, "x", 1 <unfinished ...>', "write is a call on a descriptor"),
    "a directory that is read": (
        "7  getdents64(3</tmp/tree>, 0x5581 /* 2 entries */, 32768) = 48",
        "getdents64 is a call on a descriptor",
    ),
    "memory of a file": (
        "7  mmap(NULL, 5, PROT_WRITE, MAP_SHARED, 3</tmp/tree/a>, 0) = 0x7f",
        "mmap is a call on a descriptor",
    ),
    "an open that may make a file": (
        '7  open("/tmp/tree/a", O_WRONLY|O_CREAT|O_TRUNC, 0666) = 3',
        "open makes or empties a file that may be there: ",
    ),
    "creat": ('7  creat("/tmp/tree/a", 0666) = 3', "creat makes or empties a file that may be there: "),
    "a pipe": ('7  mknod("/tmp/tree/a", S_IFIFO|0666) = 0', "mknod makes something else than a file"),
    "a link": ('7  symlink("b", "/tmp/tree/a") = 0', "symlink is no call of a tree"),
    "a socket": (
        '7  bind(3<UNIX:[1]>, {sa_family=AF_UNIX, sun_path="/tmp/tree/a"}, 110) = 0',
        "bind is no call of a tree",
    ),
    "io_uring": ("7  io_uring_enter(3, 1, 0, 0, NULL, 8) = 1", "strace does not tell which calls are made by io_uring"),
    "a relative path": (
        '7  mkdir("a", 0777) = 0',
        "a is a relative path: the program has to name what is below the directory by absolute ones",
    ),
    "no -y": ('7  mkdirat(AT_FDCWD, "a", 0777) = 0', "a is a relative path: "),
    "a path from a descriptor": ('7  unlinkat(4</tmp/tree>, "a", 0) = 0', "a is a path from a directory that may move"),
    "a path from a working directory below": (
        '7  unlinkat(AT_FDCWD</tmp/tree/b>, "a", 0) = 0',
        "a is a path from a directory that may move",
    ),
    "a path through two dots": (
        '7  mkdir("/tmp/tree/a/../b", 0777) = 0',
        "/tmp/tree/a/../b has a name `..`, or ends with a slash",
    ),
    "a slash at the end": ('7  mkdir("/tmp/tree/a/", 0777) = 0', "/tmp/tree/a/ has a name `..`, or ends with a slash"),
    "a path that is cut": ('7  mkdir("/tmp/tree/a"..., 0777) = 0', '"/tmp/tree/a"... is no whole path'),
    "no path": ("7  mkdir( <unfinished ...>", " is no whole path"),
    "a move into the directory": (
        '7  rename("/tmp/a", "/tmp/tree/a") = 0',
        "rename moves something into the directory, or out of it",
    ),
    "another move": (
        '7  renameat2(AT_FDCWD</>, "/tmp/tree/a", AT_FDCWD</>, "/tmp/tree/b", RENAME_NOREPLACE) = 0',
        "rename with RENAME_NOREPLACE is no call of a tree",
    ),
    "the directory itself": ('7  rmdir("/tmp/tree") = 0', "rmdir changes the directory itself"),
    "a directory that was not there": ('7  mkdir("/tmp/tree", 0777) = 0', "the directory was not there before"),
    "no result": ('7  mkdir("/tmp/tree/a", 0777) is done', "is done is no result"),
    "another kind of node": (
        '7  stat("/tmp/tree/a", {st_mode=S_IFSOCK|0755, st_size=0, ...}) = 0',
        "stat tells neither a directory nor a file with its size",
    ),
}


class Traces(Case):
    def test_stored(self) -> None:
        """A trace of strace 6.1, of two threads and a further process, and the history that it is."""
        given, wanted = (STORED / f"calls.{kind}" for kind in ("strace", "history"))
        self.same(given, of_strace(given.read_bytes()), (0, wanted.read_text(), ""))
        came = run(wanted.read_bytes(), "linearize")
        self.same(wanted, (came.status, came.message), (0, b""))

    def look(self, lines: typing.Iterable[str], wanted: typing.Any) -> None:
        self.same("\n".join(lines), entries_of(*lines), wanted)

    def test_made(self) -> None:
        self.each(((name, *row) for name, row in MADE_OF.items()), self.look)

    def refused(self, line: str, words: str) -> None:
        wanted = f"line 2: {words}"
        self.same(line, entries_of(HEAD, line)[: len(wanted)], wanted)

    def test_refused(self) -> None:
        self.each(((name, *row) for name, row in REFUSED.items()), self.refused)

    def test_ends(self) -> None:
        """What is refused is told with its line, and nothing is written; DIR is looked at first."""
        told = "strace2history: line 2: read is a call on a descriptor\n"
        self.same("a read", of_strace(f"{HEAD}\n{REFUSED['a read'][0]}\n".encode()), (3, "", told))
        for directory in ("tree", "/", "/tmp/../tree"):
            status, written, told = of_strace(b"", directory)
            self.same(
                directory,
                (status, written, told.splitlines()[-1].partition("error: ")[2]),
                (2, "", "DIR is an absolute path without `..`, and not the root"),
            )


class Recorder(Case):
    """A test in a folder of its own, with stand-ins for the program."""

    def setUp(self) -> None:
        harness.takes_a_process()
        self.folder = pathlib.Path(tempfile.mkdtemp(prefix="atomfs-recorders-"))
        self.addCleanup(shutil.rmtree, self.folder)

    def standing_in(self, lawful: int, verdict: str, status: int) -> pathlib.Path:
        """A program that finds so many histories lawful, and then says this."""
        path, count = self.folder / "program", self.folder / "count"
        count.write_text("0")
        path.write_text(
            f"#!/bin/sh\ncount=$(($(cat {count}) + 1))\necho $count > {count}\n[ $count -gt {lawful} ] || {{ echo atomfs-journal 1; exit 0; }}\n"
            f"echo {verdict}\nexit {status}\n"
        )
        path.chmod(0o755)
        return path


# A program of two threads, which make and remove what the other one does.
PROGRAM = """
import os, sys, threading
def made(call, *words):
    try:
        call(*words)
    except OSError:
        pass
def work():
    for _ in range(5):
        made(os.mkdir, sys.argv[1] + "/a")
        made(os.stat, sys.argv[1] + "/a")
        made(os.rmdir, sys.argv[1] + "/a")
threads = [threading.Thread(target=work) for _ in "12"]
[thread.start() for thread in threads], [thread.join() for thread in threads]
"""


class Traced(Recorder):
    def test_traced(self) -> None:
        """A program that strace follows here is lawful, with all its calls."""
        packages.wanted("strace")
        if ended(("strace", "-o", "/dev/null", "true"))[0]:
            self.skipTest("strace may follow no program here")
        tree, trace = self.folder / "tree", self.folder / "trace"
        tree.mkdir()
        self.same(
            "the program",
            ended(("strace", "-f", "-y", "-o", trace, sys.executable, "-I", "-S", "-c", PROGRAM, tree))[0],
            0,
        )
        status, history, told = of_strace(trace.read_bytes(), tree)
        self.same(
            trace.read_text(),
            (status, told, len(re.findall("^begin .* (?:mkdir|stat|rmdir) /a$", history, re.M))),
            (0, "", 30),
        )
        self.same(history, run(history.encode(), "linearize").status, 0)


class Kernel(Recorder):
    """record.c, on a directory of this machine."""

    def setUp(self) -> None:
        super().setUp()
        packages.wanted("cc")
        self.recorder = self.folder / "record"
        words = "-std=c11", "-O2", "-Wall", "-Wextra", "-Wpedantic", "-Werror", "-pthread"
        subprocess.run(("cc", *words, RECORD / "record.c", "-o", self.recorder), check=True)
        self.tree = self.folder / "tree"
        self.tree.mkdir()

    def recorded(self, *words: object, program: str | pathlib.Path | None = None) -> Ended:
        """What it ends with, writes and tells; it leaves nothing behind."""
        came = ended((self.recorder, *words), ATOMFS=str(program or harness.program()))
        self.same("what is left", list(self.tree.iterdir()), [])
        return came

    def test_lawful(self) -> None:
        """Without moves nothing was seen that no order explains; with them on one thread nothing either."""
        wanted = f"all are lawful: {ALONE} histories of one thread, 20 of 3 threads\n"
        self.same("20 rounds", self.recorded(self.tree, 20, 7), (0, wanted, ""))
        status, _, told = self.recorded(self.tree, 1, 7, "moves")
        self.same("one thread with moves", (status == 2, told.startswith("one thread")), (False, False))

    def look(self, lawful: int, verdict: str, status: int, wanted: typing.Any, words: str) -> None:
        came, history, told = self.recorded(self.tree, 20, 7, program=self.standing_in(lawful, verdict, status))
        self.same((lawful, verdict), (came, told), (wanted, words))
        self.same(
            "the history", run(history.encode(), "linearize").status if history else None, 0 if wanted < 3 else None
        )

    def test_ends(self) -> None:
        """What it says where the program finds no order: of one thread that is another kind of tree. It stops there."""
        rows = (
            ("one thread", 7, "none 3 2", 1, 2, "one thread, so this is another kind of tree: none 3 2\n"),
            ("threads", ALONE + 3, "none 3 2", 1, 1, "threads: none 3 2\n"),
            ("the limit", ALONE + 3, "unknown 3", 4, 3, "atomfs linearize ended with status 4\n"),
        )
        self.each(rows, self.look)

    def test_refused(self) -> None:
        usage = f"usage: {self.recorder} DIR [ROUNDS [SEED [moves]]]\n"
        for words in ((), (self.tree, 0), (self.tree, 1, 1, "move"), (self.tree, 1, 1, "moves", 1)):
            self.same(words, self.recorded(*words), (2, "", usage))
        none = self.folder / "none"
        self.same("no directory", self.recorded(none), (2, "", f"{none}: No such file or directory\n"))
        wanted = "record.c: the program atomfs is missing: put it on the path, or name it with ATOMFS\n"
        self.same("no program", self.recorded(self.tree, program=none), (2, "", wanted))


class Launched(Recorder):
    """examples/record/record, where what it needs is missing: one line, and the status of a usage error."""

    LAUNCHER = RECORD / "record"

    def setUp(self) -> None:
        super().setUp()
        # A path with no more than the launcher itself needs.
        for name in ("sh", "dirname", "mktemp", "rm"):
            found = shutil.which(name)
            assert found
            (self.folder / name).symlink_to(found)

    def stand_in(self, name: str, status: int) -> None:
        """A program of this name, which ends with a status."""
        path = self.folder / name
        path.write_text(f"#!/bin/sh\necho noise >&2\nexit {status}\n")
        path.chmod(0o755)

    def launched(self, *words: object) -> Ended:
        return ended((self.LAUNCHER, *words), PATH=str(self.folder), CC="", GOPATH="", CLASSPATH="")

    def look(self, kind: str, program: str | None, what: str, package: str) -> None:
        if program:
            self.stand_in(program, 1)
        wanted = f"examples/record/record: {what} is missing: apt-get install {package}\n"
        self.same((kind, program), self.launched(kind), (2, "", wanted))

    def test_missing(self) -> None:
        rows: tuple[tuple[str, str | None, str, str], ...] = (
            ("go", None, "Go", "golang-go"),
            ("go", "go", "afero", "golang-github-spf13-afero-dev"),
            ("java", None, "Java", "default-jdk-headless"),
            ("java", "javap", "Jimfs", "libjimfs-java"),
            ("c", None, "a C compiler", "gcc"),
            ("python", None, "Python", "python3"),
        )
        self.each(((f"{row[0]} {row[1] or 'alone'}", *row) for row in rows), self.look)

    def test_half_a_peer(self) -> None:
        """`javap` ends with status 0 where it finds some of several classes, so each is asked for by itself."""
        self.stand_in("javap", 0)
        path = self.folder / "javap"
        path.write_text(path.read_text().replace("exit", 'case "$*" in *Jimfs*Pre*) ;; *Jimfs*) exit 1 ;; esac\nexit'))
        wanted = "examples/record/record: Jimfs is missing: apt-get install libjimfs-java\n"
        self.same("java", self.launched("java"), (2, "", wanted))

    def test_ends(self) -> None:
        """The recorder's status is the launcher's, and nothing is left of what was built."""
        self.stand_in("python3", 7)
        self.same("a status", self.launched("python", "MemoryFS"), (7, "", "noise\n"))
        usage = "usage: examples/record/record go|java|c|python [WORDS]\n"
        for words in ((), ("rust",)):
            self.same(words, self.launched(*words), (2, "", usage))

    def test_c(self) -> None:
        """A recorder that the launcher builds says itself that its directory is missing."""
        packages.wanted("cc")
        none = self.folder / "none"
        self.same("c", ended((self.LAUNCHER, "c", none)), (2, "", f"{none}: No such file or directory\n"))


class Drawn(Recorder):
    """A recorder that writes a history of each round, whatever comes of them."""

    def counts(self, recorded: Ended) -> tuple[int, ...]:
        """How many of the histories are lawful, have no order, have a fault, or are not decided."""
        self.same("the recorder", (recorded[0], recorded[2]), (0, ""))
        told = run(recorded[1].encode(), "linearize", "--many").output.decode().splitlines()[-1]
        counts = re.fullmatch(r"lawful (\d+) none (\d+) fault (\d+) unknown (\d+)", told)
        assert counts
        return tuple(map(int, counts.groups()))


class Go(Drawn):
    """record.go, on the tree in memory of afero."""

    def setUp(self) -> None:
        super().setUp()
        packages.wanted("go")
        if not (packages.GO / "src" / "github.com" / "spf13" / "afero").is_dir():
            self.skipTest("afero is not there: apt-get install golang-github-spf13-afero-dev")
        self.recorder = self.folder / "record"
        variables: dict[str, typing.Any] = {
            "GO111MODULE": "off",
            "GOPATH": str(packages.GO),
            "GOCACHE": str(self.folder / "cache"),
        }
        self.same(
            "go build", ended(("go", "build", "-o", self.recorder, RECORD / "record.go"), **variables), (0, "", "")
        )

    def recorded(self, *words: object) -> Ended:
        return ended((self.recorder, *words))

    def test_one_goroutine(self) -> None:
        """One goroutine is lawful, so what several do is a race."""
        self.same("one", self.counts(self.recorded("-goroutines", 1, "-rounds", 200)), (200, 0, 0, 0))

    def test_race(self) -> None:
        """Two creates of one name by O_CREATE and O_EXCL are both ok now and then: no order explains the second."""
        for seed in range(10):
            lawful, none, fault, unknown = self.counts(self.recorded("-rounds", 1_000, "-seed", seed))
            self.same("all histories", (lawful + none, fault, unknown), (1_000, 0, 0))
            if none:
                return
        self.skipTest("the goroutines of this machine never met in 10,000 rounds")

    def test_refused(self) -> None:
        status, written, told = self.recorded("-threads", 1)
        self.same("a flag", (status, written, told.splitlines()[0]), (2, "", "flag provided but not defined: -threads"))


class Java(Drawn):
    """Record.java, on Jimfs."""

    def setUp(self) -> None:
        super().setUp()
        packages.wanted("java")
        jars = [packages.JARS / name for name in ("jimfs.jar", "guava.jar")]
        if not all(jar.exists() for jar in jars):
            self.skipTest("Jimfs is not there: apt-get install libjimfs-java")
        self.words = "java", "-cp", ":".join(map(str, jars)), RECORD / "Record.java"

    def test_lawful(self) -> None:
        """Nothing was seen that no order explains, of one thread and of three."""
        for threads in (1, 3):
            self.same(f"{threads} threads", self.counts(ended((*self.words, threads, 200, 7))), (200, 0, 0, 0))


class InMemory(Recorder):
    """record.py, on trees of libraries."""

    # By this it runs where no order of the seventh history is found.
    STANDING_IN = """if True:
        import itertools, runpy, sys
        # Another module of this name may stand in the folder in which it runs.
        del sys.path[0]
        import atomfs
        at, find = itertools.count(1), atomfs.History.linearize
        atomfs.History.linearize = lambda history: atomfs.NoOrder(2, 1) if next(at) == 7 else find(history)
        sys.argv = sys.argv[1:]
        runpy.run_path(sys.argv[0], run_name="__main__")
    """

    def recorded(self, *words: object, standing_in: str | None = None, **more: typing.Any) -> Ended:
        by = ("-c", standing_in) if standing_in else ()
        words = packages.python(), "-W", "ignore", *by, RECORD / "record.py", *words
        variables: dict[str, typing.Any] = {
            "PYTHONPATH": str(packages.BINDINGS / "python" / "src"),
            "ATOMFS_LIBRARY": os.path.abspath(harness.library_at()),
            "PYTHONDONTWRITEBYTECODE": "1",
        }
        return ended(words, **variables | more)

    def test_tree(self) -> None:
        """Our own tree is lawful."""
        wanted = "all are lawful: 20 histories of one thread, 20 of 3 threads\n"
        self.same("Tree", self.recorded("Tree", "--rounds", "20"), (0, wanted, ""))

    def test_memory_fs(self) -> None:
        """What is lost in PyFilesystem2's tree is found: a directory is removed, in which another thread has made something meanwhile. README says it so."""
        status, history, told = self.recorded("MemoryFS")
        sentence = r"no order explains that `(.*)` returned `.*`\n"
        found = re.fullmatch(rf"round \d+: none (\d+) (\d+)\n{sentence}", told)
        assert found
        place, call, words = found.groups()
        shown = [block for block in blocks(README) if re.fullmatch(sentence, block)]
        self.same("the sentences of README", len(shown), 1)
        shown = [block for block in blocks(HISTORIES) if re.fullmatch(rf"round \d+: none \d+ \d+\n{sentence}", block)]
        self.same("the sentences of docs/TEST-A-FILE-SYSTEM.md", len(shown), 1)
        self.same("the calls of the history", len(set(re.findall(r"^begin (\d+) ", history, re.M))), 12)
        self.same(told, (status, f"begin {call} {words}" in re.sub(r"(begin \d+) \d+", r"\1", history)), (1, True))
        came = run(history.encode(), "linearize")
        self.same(history, (came.status, came.output), (1, f"none {place} {call}\n".encode()))

    def test_pyfakefs(self) -> None:
        """A directory is unlinked while another thread makes it, and both calls are ok."""
        self.finds("pyfakefs")

    def test_fsspec(self) -> None:
        """Two threads make the same directory, and both calls are ok; three calls show it."""
        history = self.finds("fsspec")
        core = run(history.encode(), "linearize", "--core")
        begun = re.findall(rb"^begin \d+ \d+ (\w+)", core.output, re.M)
        self.same(core.output.decode(), (core.status, len(begun) <= 4, b"mkdir" in begun), (0, True, True))

    def finds(self, tree: str) -> str:
        """A history of the tree without an order."""
        status, history, told = self.recorded(tree)
        if f"{tree} is missing" in told:
            self.skipTest(f"{tree} is not there: apt-get install python3-{tree}")
        found = re.fullmatch(r"round \d+: none (\d+) (\d+)\nno order explains that `.*` returned `.*`\n", told)
        assert found
        came = run(history.encode(), "linearize")
        self.same(history, (status, came.status, came.output), (1, 1, f"none {found[1]} {found[2]}\n".encode()))
        return history

    def test_one_thread(self) -> None:
        """What is not lawful of one thread is another kind of tree, and it stops there."""
        status, history, told = self.recorded("Tree", standing_in=self.STANDING_IN)
        self.same(
            "one thread", (status, told.splitlines()[0]), (2, "one thread, so this is another kind of tree: none 2 1")
        )
        self.same(history, run(history.encode(), "linearize").status, 0)

    def test_missing(self) -> None:
        """Without a package, or without the library, it ends with the status that no verdict has, and with one line."""
        for name, module, tree in (
            ("the package atomfs", "atomfs", "MemoryFS"),
            ("PyFilesystem2", "fs", "MemoryFS"),
            ("pyfakefs", "pyfakefs", "pyfakefs"),
            ("fsspec", "fsspec", "fsspec"),
        ):
            with self.subTest(name), tempfile.TemporaryDirectory(prefix="atomfs-") as folder:
                pathlib.Path(folder, f"{module}.py").write_text("raise ImportError('it is not installed')\n")
                path = f"{folder}:{packages.BINDINGS / 'python' / 'src'}"
                message = f"examples/record/record.py: {name} is missing (it is not installed): see --help\n"
                self.same(name, self.recorded(tree, PYTHONPATH=path), (2, "", message))
        status, _, told = self.recorded("Tree", ATOMFS_LIBRARY="/none/libatomfs.so")
        self.same("no library", (status, told.count("\n"), "; ATOMFS_LIBRARY names it" in told), (2, 1, True))

    def test_refused(self) -> None:
        status, _, told = self.recorded("Forest")
        self.same(
            "no tree",
            (status, told.splitlines()[-1].partition("invalid choice: ")[2]),
            (2, "'Forest' (choose from 'MemoryFS', 'pyfakefs', 'fsspec', 'Tree')"),
        )


if __name__ == "__main__":
    unittest.main()
