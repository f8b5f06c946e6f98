"""A tree over a directory of the disk: what is there is read, what is changed is in the tree, and the disk stays as it was."""
import contextlib
import errno
import hashlib
import importlib
import os
import pathlib
import pickle
import random
import shutil
import socket
import stat
import subprocess
import sys
import tempfile
import threading
import unittest
import unittest.mock
from typing import Any, Callable, Dict, Iterator, List, Tuple

import atomfs
import test_drawn
from test_drawn import ABOVE, CALLS, RUNS, Opened, Outcome, a_call, a_call_of_descriptors, answer, below

# A directory of memory, if there is one.
FOLDER = "/dev/shm" if os.path.isdir("/dev/shm") else None
OF_FILES = {"a/b/f": "text", "a/g": "other", "h": "", "data/one.txt": "1\n2\n"}


def fill(top: str, files: Dict[str, str] = OF_FILES) -> None:
    """Makes files below a directory of the disk, with times of long ago."""
    for path, text in files.items():
        made = pathlib.Path(top, path)
        made.parent.mkdir(parents=True, exist_ok=True)
        made.write_text(text)
        os.utime(made, (1000, 2000))


def all_of(top: str) -> Dict[str, object]:
    """What is below a directory of the disk: each path with its kind, permissions, owner, times of changes, number and content."""
    found: Dict[str, object] = {}
    for folder, folders, files in os.walk(top):
        for name in (".", *folders, *files):
            path = os.path.join(folder, name)
            kept = os.lstat(path)
            content = os.readlink(path) if os.path.islink(path) else None
            if stat.S_ISREG(kept.st_mode):
                content = hashlib.sha256(pathlib.Path(path).read_bytes()).hexdigest()
            found[path] = (
                kept.st_mode,
                kept.st_uid,
                kept.st_ino,
                kept.st_nlink,
                kept.st_mtime_ns,
                kept.st_ctime_ns,
                content,
            )
    return found


class OfOverlay(unittest.TestCase):
    """A test with a directory of the disk, which has to be the same at its end."""

    def setUp(self) -> None:
        folder = tempfile.TemporaryDirectory(dir=FOLDER, prefix="atomfs-")
        self.addCleanup(folder.cleanup)
        self.top = os.path.realpath(folder.name)
        self.at = f"{self.top}/project"
        os.mkdir(self.at)
        fill(self.at)
        self.tree = atomfs.Tree()
        self.addCleanup(self.tree.close)

    @contextlib.contextmanager
    def overlaid(self, **more: Any) -> Iterator[atomfs.patch]:
        """A patch with the directory below its tree; the disk stays as it is, and the journal is lawful."""
        before = all_of(self.top)
        with atomfs.patch(self.tree, overlay=self.at, **more) as patched:
            yield patched
        self.assertEqual(all_of(self.top), before)
        self.assertEqual(self.tree.check(), "lawful")

    def seats(self) -> Tuple[List[str], List[str]]:
        """The calls so far by seats: those of the overlay, and those of the program."""
        lines = self.tree.journal().splitlines()
        own = next(
            (line.split()[2] for line in lines if line.startswith("# seat ") and line.endswith(" overlay")), None
        )
        calls = [line.split(" ", 3)[2:] for line in lines if line.startswith("begin ")]
        return [call for seat, call in calls if seat == own], [call for seat, call in calls if seat != own]


class Reads(OfOverlay):
    def test_reads_and_changes(self) -> None:
        with self.overlaid() as patched:
            self.assertEqual(patched.at, pathlib.Path(self.at))
            self.assertEqual(sorted(os.listdir(self.at)), ["a", "data", "h"])
            self.assertEqual(pathlib.Path(self.at, "a/b/f").read_text(), "text")
            with open(f"{self.at}/a/b/f", "a") as file:
                file.write(" and more")
            self.assertEqual(pathlib.Path(self.at, "a/b/f").read_text(), "text and more")
            os.remove(f"{self.at}/h")
            os.mkdir(f"{self.at}/new")
            os.rename(f"{self.at}/data", f"{self.at}/new/data")
            os.chmod(f"{self.at}/a/g", 0o600)
            self.assertEqual(stat.S_IMODE(os.stat(f"{self.at}/a/g").st_mode), 0o600)
            # What has moved before it was looked at is read where it is now.
            self.assertEqual(pathlib.Path(self.at, "new/data/one.txt").read_text(), "1\n2\n")
            self.assertEqual(sorted(os.listdir(self.at)), ["a", "new"])
            self.assertRaises(FileNotFoundError, os.stat, f"{self.at}/h")

    def test_stat(self) -> None:
        """Permissions, times, owners and sizes are those of the disk, also before a file is opened."""
        os.chmod(f"{self.at}/a/g", 0o4751)
        wanted = {path: os.stat(f"{self.at}/{path}") for path in ("a", "a/g", "h", "data/one.txt")}
        with self.overlaid():
            for path, due in wanted.items():
                found = os.stat(f"{self.at}/{path}")
                for field in ("st_mode", "st_uid", "st_gid", "st_mtime_ns", "st_ctime_ns"):
                    self.assertEqual(getattr(found, field), getattr(due, field), (path, field))
                if stat.S_ISREG(due.st_mode):
                    self.assertEqual(found.st_size, due.st_size)
            with os.scandir(f"{self.at}/a") as entries:
                self.assertEqual(sorted((one.name, one.is_dir()) for one in entries), [("b", True), ("g", False)])
        self.assertEqual(self.tree.stat("/a/g").size, 5)

    def test_journal(self) -> None:
        """A call of the program is one call of its seat. What comes from the disk is made by the overlay's, and once."""
        with self.overlaid():
            for _ in range(2):
                with open(f"{self.at}/a/b/f", "rb", buffering=0) as file:
                    self.assertEqual(file.read(9), b"text")
            os.stat(f"{self.at}/a/g")
        of_overlay, of_program = self.seats()
        names = "mkdir /a", "mkdir /data", "mknod /h", "mkdir /a/b", "mknod /a/g", "mknod /a/b/f"
        self.assertEqual(of_overlay, [*names, "write /a/b/f 0 74657874", "truncate /a/g 5"])
        self.assertEqual(of_program, [*["stat /a/b/f", "read /a/b/f 0 9"] * 2, "stat /a/g"])

    def test_of_the_tree(self) -> None:
        """The tree's own methods read the disk too, while the patch lasts, and calls that begin on seats do."""
        with self.overlaid():
            self.assertEqual(self.tree.read("/a/b/f"), b"text")
            seat = self.tree.seat("writer")
            seat.begin.write("/a/g", 5, b"!")
            self.assertEqual((seat.finish(), self.tree.read_text("/a/g")), (1, "other!"))
            for begin, path, reply in (("readdir", "/data", ["one.txt"]), ("stat", "/h", (False, 0))):
                getattr(seat.begin, begin)(path)
                self.assertEqual(seat.finish(), reply)
            seat.begin.rename("/data", "/a/b/data")
            seat.finish()
            seat.begin.list("/a/b/data")
            self.assertEqual(seat.finish(), ["one.txt"])
            self.assertEqual(self.tree.read_text("/a/b/data/one.txt"), "1\n2\n")
            seat.begin.rmdir("/a/b/data")
            self.assertRaisesRegex(OSError, "not empty", seat.finish)

    def test_large(self) -> None:
        """A file of several pieces, and a directory of many names."""
        data = random.Random(1).randbytes(3_000_001)
        pathlib.Path(self.at, "large").write_bytes(data)
        os.mkdir(f"{self.at}/many")
        for number in range(600):
            pathlib.Path(self.at, "many", f"{number:03}").touch()
        with self.overlaid():
            self.assertEqual(os.stat(f"{self.at}/large").st_size, len(data))
            self.assertEqual(pathlib.Path(self.at, "large").read_bytes(), data)
            self.assertEqual(len(os.listdir(f"{self.at}/many")), 600)

    def test_imports(self) -> None:
        """Modules come from there, and their byte code goes to the tree."""
        pathlib.Path(self.at, "module_of_overlay.py").write_text("VALUE = 17\n")
        sys.path.insert(0, self.at)
        self.addCleanup(sys.path.remove, self.at)
        self.addCleanup(sys.modules.pop, "module_of_overlay", None)  # type: ignore[call-arg]
        with self.overlaid(), unittest.mock.patch.object(sys, "dont_write_bytecode", False):
            self.assertEqual(importlib.import_module("module_of_overlay").VALUE, 17)
            self.assertIn("__pycache__", os.listdir(self.at))

    def test_threads(self) -> None:
        """Several threads that look at one directory first get the same."""
        fill(self.at, {f"many/{number}": str(number) for number in range(20)})
        found = []

        def reads() -> None:
            found.append([pathlib.Path(self.at, "many", str(number)).read_text() for number in range(20)])

        with self.overlaid():
            threads = [threading.Thread(target=reads) for _ in range(4)]
            for thread in threads:
                thread.start()
            for thread in threads:
                thread.join()
        self.assertEqual(found, [[str(number) for number in range(20)]] * 4)
        of_overlay, _ = self.seats()
        self.assertEqual(len(of_overlay), len(set(of_overlay)))


class Layers(OfOverlay):
    def test_elsewhere(self) -> None:
        """The tree stands at another directory, which need not be there."""
        with self.overlaid(at="/sandbox_of_overlay") as patched:
            self.assertEqual((str(patched.at), str(patched.overlay)), ("/sandbox_of_overlay", self.at))
            self.assertEqual(pathlib.Path("/sandbox_of_overlay/a/g").read_text(), "other")
            pathlib.Path("/sandbox_of_overlay/a/g").write_text("changed")
            self.assertEqual(pathlib.Path(self.at, "a/g").read_text(), "other")

    def test_own_content(self) -> None:
        """What the tree has hides what is on the disk; of two directories the names of both are there."""
        self.tree.makedirs("/a/b")
        self.tree.write_text("/a/g", "of the tree")
        self.tree.mkdir("/h")
        with self.overlaid():
            self.assertEqual(sorted(os.listdir(f"{self.at}/a")), ["b", "g"])
            self.assertEqual(pathlib.Path(self.at, "a/g").read_text(), "of the tree")
            self.assertEqual(pathlib.Path(self.at, "a/b/f").read_text(), "text")
            self.assertEqual(os.listdir(f"{self.at}/h"), [])

    def test_again(self) -> None:
        """A second patch goes on: what was removed stays away, and what has not come yet still comes."""
        with self.overlaid() as patched:
            os.remove(f"{self.at}/h")
        with patched:
            self.assertEqual(sorted(os.listdir(self.at)), ["a", "data"])
        with self.overlaid():
            self.assertEqual(pathlib.Path(self.at, "a/g").read_text(), "other")
            self.assertRaises(FileNotFoundError, os.stat, f"{self.at}/h")
        self.assertEqual([line for line in self.tree.journal().splitlines() if line[:1] == "#"], ["# seat 1 overlay"])

    def test_copy_up(self) -> None:
        """All comes at once, so that snapshots and copies have it; without it they have what has come."""
        with self.overlaid() as patched:
            os.stat(f"{self.at}/a")
            self.assertEqual(self.tree.to_dict(), {"/a/b": None, "/a/g": b"", "/data": None, "/h": b""})
            patched.copy_up(f"{self.at}/a")
            self.assertEqual(self.tree.to_dict(), {"/a/b/f": b"text", "/a/g": b"other", "/data": None, "/h": b""})
            self.assertRaisesRegex(ValueError, "is not below", patched.copy_up, "/elsewhere")
            patched.copy_up()
            wanted = {f"/{path}": text.encode() for path, text in OF_FILES.items()}
            self.assertEqual(self.tree.to_dict(), wanted)
            patched.copy_up()
            patched.copy_up(f"{self.at}/none")
        self.assertRaisesRegex(RuntimeError, "is not there", patched.copy_up)

    def test_restore(self) -> None:
        """A tree goes back to a snapshot, with what had not come by then."""
        with self.overlaid():
            first = self.tree.snapshot()
            os.listdir(f"{self.at}/a")
            second = pickle.loads(pickle.dumps(self.tree.snapshot()))
            pathlib.Path(self.at, "a/b/f").write_text("changed")
            os.remove(f"{self.at}/a/g")
            self.tree.restore(second)
            self.assertEqual(pathlib.Path(self.at, "a/b/f").read_text(), "text")
            self.assertEqual(pathlib.Path(self.at, "a/g").read_text(), "other")
            os.rename(f"{self.at}/a", f"{self.at}/z")
            self.tree.restore(first)
            self.assertEqual(sorted(os.listdir(self.at)), ["a", "data", "h"])
            self.assertEqual(pathlib.Path(self.at, "a/g").read_text(), "other")
            self.tree.restore(second)
            self.assertEqual(os.listdir(f"{self.at}/data"), ["one.txt"])

    def test_copies(self) -> None:
        """A copy is a tree of its own, and reads nothing of the disk."""
        with self.overlaid():
            self.assertEqual(len(os.listdir(self.at)), 3)
            with pickle.loads(pickle.dumps(self.tree)) as other:
                self.assertEqual((other.read("/h"), other.listdir("/a")), (b"", []))
                other.write_text("/a/g", "of the copy")
            self.assertEqual(self.tree.read_text("/a/g"), "other")

    def test_in_another_patch(self) -> None:
        """The directory may be one of another tree."""
        with atomfs.Tree.from_dict({"p/f": "of the first"}) as first, atomfs.patch(first, at="/sandbox_of_overlay"):
            with atomfs.patch(self.tree, overlay="/sandbox_of_overlay/p") as patched:
                self.assertEqual((patched.at / "f").read_text(), "of the first")
                (patched.at / "f").write_text("of the second")
                self.assertEqual(first.read_text("/p/f"), "of the first")
            self.assertEqual(pathlib.Path("/sandbox_of_overlay/p/f").read_text(), "of the first")

    def test_ends(self) -> None:
        """After the patch the tree is as far as it has come; another overlay is refused meanwhile."""
        with self.overlaid():
            with self.assertRaisesRegex(RuntimeError, "has an overlay already"):
                atomfs.patch(self.tree, overlay=self.top).__enter__()
            os.listdir(f"{self.at}/a")
        self.assertEqual((self.tree.listdir("/a"), self.tree.read("/a/g")), (["b", "g"], b""))
        for path, error in ((f"{self.at}/none", FileNotFoundError), (f"{self.at}/h", NotADirectoryError)):
            self.assertRaises(error, atomfs.patch(self.tree, overlay=path).__enter__)
        self.assertEqual(os.listdir(f"{self.at}/data"), ["one.txt"])

    def test_closed(self) -> None:
        with atomfs.patch(overlay=self.at) as patched:
            os.listdir(self.at)
            patched.tree.close()
            self.assertRaises(atomfs.ClosedError, os.listdir, self.at)


class Links(OfOverlay):
    def setUp(self) -> None:
        super().setUp()
        os.symlink("a/b", f"{self.at}/l")
        os.symlink("../h", f"{self.at}/a/up")
        os.symlink(f"{self.at}/data", f"{self.at}/a/b/whole")
        os.symlink("nowhere", f"{self.at}/a/dangling")
        os.symlink("round", f"{self.at}/round")
        os.symlink(f"{self.top}/outside", f"{self.at}/away")
        pathlib.Path(self.top, "outside").write_text("of the disk")

    def test_first_calls(self) -> None:
        """A link that nobody has looked at leads on, whichever the first call is."""
        for path, text in (("l/f", "text"), ("l/whole/one.txt", "1\n2\n"), ("a/up", ""), ("l/../g", "other")):
            with self.subTest(path), atomfs.Tree() as self.tree, self.overlaid():
                self.assertEqual(pathlib.Path(self.at, path).read_text(), text)
        with atomfs.Tree() as self.tree, self.overlaid():
            os.chdir(f"{self.at}/l/whole")
            self.addCleanup(os.chdir, "/")
            self.assertEqual((os.getcwd(), os.listdir()), (f"{self.at}/data", ["one.txt"]))

    def test_links(self) -> None:
        wanted = {path: os.lstat(f"{self.at}/{path}") for path in ("l", "a/up", "round")}
        with self.overlaid():
            for path, due in wanted.items():
                found = os.lstat(f"{self.at}/{path}")
                self.assertEqual(
                    (found.st_mode, found.st_size, found.st_mtime_ns), (due.st_mode, due.st_size, due.st_mtime_ns)
                )
            self.assertEqual(os.readlink(f"{self.at}/a/dangling"), "nowhere")
            self.assertEqual(pathlib.Path(self.at, "away").read_text(), "of the disk")
            for path, number in (("round", errno.ELOOP), ("a/dangling", errno.ENOENT)):
                with self.assertRaises(OSError) as raised:
                    open(f"{self.at}/{path}")
                self.assertEqual(raised.exception.errno, number)
            os.remove(f"{self.at}/l")
            os.symlink("data", f"{self.at}/l")
            self.assertEqual(os.listdir(f"{self.at}/l"), ["one.txt"])

    def test_plain_again(self) -> None:
        """A tree without a link has none of the disk either, once the way is known."""
        for path in ("l", "a/up", "a/b/whole", "a/dangling", "round", "away"):
            os.remove(f"{self.at}/{path}")
        with self.overlaid() as patched:
            self.assertEqual(os.path.realpath(f"{self.at}/a/b/f"), f"{self.at}/a/b/f")
            self.assertEqual(patched._places.plain(f"{self.at}/data/one.txt"), "/data/one.txt")


class Refused(OfOverlay):
    def fails(self, number: int, call: Callable[..., object], *words: object) -> None:
        with self.assertRaises(OSError) as raised:
            call(*words)
        self.assertEqual((raised.exception.errno, raised.exception.filename), (number, words[0]))

    def test_kinds(self) -> None:
        """A socket and a pipe are there, but are not opened; they are removed as others."""
        with contextlib.closing(socket.socket(socket.AF_UNIX)) as made:
            made.bind(f"{self.at}/socket")
        os.mkfifo(f"{self.at}/pipe", 0o640)
        with self.overlaid() as patched:
            self.assertTrue(stat.S_ISSOCK(os.stat(f"{self.at}/socket").st_mode))
            self.assertEqual(os.stat(f"{self.at}/pipe").st_mode, stat.S_IFIFO | 0o640)
            with os.scandir(self.at) as entries:
                kinds = {one.name: (one.is_file(), one.is_dir()) for one in entries}
            self.assertEqual(kinds["socket"], (False, False))
            for name in ("socket", "pipe"):
                for mode in ("r", "w", "a", "r+"):
                    self.fails(errno.ENXIO, open, f"{self.at}/{name}", mode)
                self.assertRaises(OSError, self.tree.read, f"/{name}")
                self.fails(errno.EINVAL, os.truncate, f"{self.at}/{name}", 0)
            patched.copy_up()
            os.rename(f"{self.at}/pipe", f"{self.at}/a/pipe")
            self.fails(errno.ENXIO, open, f"{self.at}/a/pipe")
            os.remove(f"{self.at}/a/pipe")
            os.remove(f"{self.at}/socket")
            self.assertEqual(sorted(os.listdir(self.at)), ["a", "data", "h"])

    def test_unreadable(self) -> None:
        """What the process may not read raises EACCES, at each try; what needs no bytes is done."""
        os.chmod(f"{self.at}/a/g", 0)
        os.chmod(f"{self.at}/data", 0)
        os.makedirs(f"{self.at}/named/d")
        os.chmod(f"{self.at}/named", 0o444)
        for path in (self.top, self.at, f"{self.at}/a"):
            os.chmod(path, 0o755)
        user = os.geteuid()
        if user == 0:
            os.seteuid(65_534)
        try:
            with atomfs.patch(self.tree, overlay=self.at):
                for _ in range(2):
                    self.fails(errno.EACCES, open, f"{self.at}/a/g")
                    self.fails(errno.EACCES, open, f"{self.at}/a/g", "r+")
                    self.fails(errno.EACCES, os.listdir, f"{self.at}/data")
                    self.fails(errno.EACCES, os.stat, f"{self.at}/data/one.txt")
                    self.fails(errno.EACCES, os.rmdir, f"{self.at}/data")
                    self.assertEqual(os.stat(f"{self.at}/a/g").st_size, 5)
                    self.assertEqual(stat.S_IMODE(os.stat(f"{self.at}/data").st_mode), 0)
                    self.assertEqual(os.listdir(f"{self.at}/named"), ["d"])
                    self.fails(errno.EACCES, os.stat, f"{self.at}/named/d")
                os.rename(f"{self.at}/a/g", f"{self.at}/a/k")
                self.fails(errno.EACCES, open, f"{self.at}/a/k")
                pathlib.Path(self.at, "a/k").write_text("new")
                self.assertEqual(pathlib.Path(self.at, "a/k").read_text(), "new")
                os.rename(f"{self.at}/data", f"{self.at}/moved")
                self.fails(errno.EACCES, os.listdir, f"{self.at}/moved")
        finally:
            os.seteuid(user)
        for name in ("data", "named"):
            os.chmod(f"{self.at}/{name}", 0o755)
        self.assertEqual(self.tree.check(), "lawful")

    def test_enforced(self) -> None:
        """Permissions of the disk bind whoever runs it, if they are enforced."""
        os.chmod(f"{self.at}/a", 0o555)
        os.chmod(f"{self.at}/h", 0o200)
        with self.overlaid(enforce=True):
            self.fails(errno.EACCES, os.mkdir, f"{self.at}/a/new")
            self.fails(errno.EACCES, os.unlink, f"{self.at}/a/g")
            self.fails(errno.EACCES, open, f"{self.at}/h")
            pathlib.Path(self.at, "h").write_text("new")

    def test_limits(self) -> None:
        """What is larger than the tree's limits is refused, and the rest is there."""
        for limits in (atomfs.Limits.V1, atomfs.Limits.V2):
            with self.subTest(limits), atomfs.Tree(limits=limits) as self.tree:
                large = pathlib.Path(self.at, "a/large")
                large.write_bytes(bytes(limits.file_bytes + 1))
                with self.overlaid():
                    self.fails(errno.EOVERFLOW, open, str(large))
                    self.fails(errno.EOVERFLOW, os.stat, str(large))
                    self.assertEqual(pathlib.Path(self.at, "a/g").read_text(), "other")
                    os.rename(f"{self.at}/a", f"{self.at}/z")
                    os.remove(f"{self.at}/z/large")
        pathlib.Path(self.at, "a", "n" * 100).touch()
        with atomfs.Tree(limits=atomfs.Limits.V2) as self.tree, self.overlaid():
            self.fails(errno.ENAMETOOLONG, os.listdir, f"{self.at}/a")
            self.assertEqual(pathlib.Path(self.at, "data/one.txt").read_text(), "1\n2\n")

    def test_full(self) -> None:
        """A tree without room for the names says so, and goes on once there is room."""
        with atomfs.Tree(6) as self.tree, self.overlaid():
            os.listdir(f"{self.at}/a")
            self.fails(errno.ENOSPC, os.listdir, f"{self.at}/a/b")
            os.remove(f"{self.at}/h")
            self.assertEqual(os.listdir(f"{self.at}/a/b"), ["f"])
            self.assertEqual(pathlib.Path(self.at, "a/b/f").read_text(), "text")

    def test_gone(self) -> None:
        """What goes away on the disk before it has come is gone from the tree too; what has come stays."""
        fill(self.at, {"gone/f": "f", "gone/g": "g", "kind": "k", "stays": "s", "cut": "123456"})
        with atomfs.patch(self.tree, overlay=self.at) as patched, patched.tree.lock:
            self.assertEqual(pathlib.Path(self.at, "stays").read_text(), "s")
            self.assertEqual(os.stat(f"{self.at}/cut").st_size, 6)
            os.listdir(f"{self.at}/gone")
            with patched._aside():
                shutil.rmtree(f"{self.at}/gone")
                shutil.rmtree(f"{self.at}/data")
                os.remove(f"{self.at}/stays")
                os.remove(f"{self.at}/kind")
                os.mkdir(f"{self.at}/kind")
                pathlib.Path(self.at, "cut").write_text("12")
            self.assertEqual(pathlib.Path(self.at, "stays").read_text(), "s")
            self.fails(errno.ENOENT, open, f"{self.at}/gone/f")
            self.fails(errno.ENOENT, os.stat, f"{self.at}/gone/g")
            self.assertEqual(os.listdir(f"{self.at}/gone"), [])
            self.fails(errno.ENOENT, os.listdir, f"{self.at}/data")
            self.fails(errno.ENOENT, open, f"{self.at}/kind")
            self.assertEqual(pathlib.Path(self.at, "cut").read_text(), "12")
        self.assertEqual(self.tree.check(), "lawful")

    def test_programs(self) -> None:
        """A program finds no tree where a directory of the disk is."""
        with self.overlaid(processes=True):
            with self.assertRaises(OSError) as raised:
                subprocess.run(["true"], cwd=self.at)
            self.assertEqual(raised.exception.errno, errno.ENOTSUP)

    def test_programs_elsewhere(self) -> None:
        """Where none is, it finds all that is on the disk, with the changes."""
        elsewhere = tempfile.TemporaryDirectory(prefix="atomfs-")
        self.addCleanup(elsewhere.cleanup)
        with self.overlaid(at=f"{elsewhere.name}/at", processes=True) as patched:
            (patched.at / "a" / "g").write_text("changed")
            told = subprocess.run(["cat", "a/g", "a/b/f"], cwd=patched.at, capture_output=True, text=True)
            self.assertEqual(told.stdout, "changedtext")

    def test_waits(self) -> None:
        """Where what is to come needs a node that a pending call holds, the call waits, and comes later."""
        with self.overlaid():
            os.listdir(self.at)
            seat = self.tree.seat("slow")
            seat.begin.rename("/data", "/a/data")
            while seat.step().did != atomfs.Did.TAKE:
                pass
            waits = []
            for path in ("a/g", "h", "data/one.txt"):
                try:
                    pathlib.Path(self.at, path).read_text()
                except atomfs.WaitsError as error:
                    waits.append(error)
            self.assertTrue(waits)
            seat.finish()
            for waited in waits:
                with contextlib.suppress(OSError):
                    waited.seat.finish(wait=True)
            self.assertEqual(pathlib.Path(self.at, "a/g").read_text(), "other")
            self.assertEqual(pathlib.Path(self.at, "a/data/one.txt").read_text(), "1\n2\n")


class Drawn(unittest.TestCase):
    """Drawn calls over a directory of the disk and in a copy of it: the answers are the same, and so is what is there at the end."""

    def lower(self, draw: random.Random, at: str) -> None:
        """Makes what is on the disk before: the same at each place."""
        os.makedirs(f"{at}/{ABOVE}")
        top = f"{at}/{ABOVE}"
        folders = [top]
        for name in test_drawn.NAMES:
            kind = draw.choice("dddfl")
            if kind == "d":
                os.mkdir(f"{top}/{name}", 0o755)
                folders.append(f"{top}/{name}")
            elif kind == "f":
                self.file(draw, f"{top}/{name}")
            else:
                os.symlink(draw.choice(("a", "b/c", f"{top}/c", "../x/b")), f"{top}/{name}")
        for folder in folders[1:]:
            for name in test_drawn.NAMES:
                kind = draw.choice("fffdl ")
                if kind == "f":
                    self.file(draw, f"{folder}/{name}")
                elif kind == "d":
                    os.mkdir(f"{folder}/{name}")
                    self.file(draw, f"{folder}/{name}/a")
                elif kind == "l":
                    os.symlink(draw.choice(("../a", "b", "../../b/a", f"{top}/a")), f"{folder}/{name}")
        for folder in reversed(folders):
            os.utime(folder, (10, draw.randrange(10**6)))

    def file(self, draw: random.Random, path: str) -> None:
        pathlib.Path(path).write_text("y" * draw.randrange(9))
        os.chmod(path, draw.choice((0o644, 0o600, 0o755)))
        os.utime(path, (10, draw.randrange(10**6)))

    def both(self, seed: int, run: Callable[[str], Outcome]) -> List[Outcome]:
        """What a run finds on the disk, and over a directory that is the same."""
        with tempfile.TemporaryDirectory(dir=FOLDER, prefix="atomfs-") as folder:
            found = []
            for name, overlaid in (("disk", False), ("over", True)):
                at = f"{os.path.realpath(folder)}/{name}"
                self.lower(random.Random(seed), at)
                if not overlaid:
                    found.append(run(at))
                    continue
                before = all_of(at)
                with atomfs.Tree() as tree, atomfs.patch(tree, overlay=at):
                    found.append(run(at))
                    os.chdir("/")
                    self.assertEqual(tree.check(), "lawful")
                self.assertEqual(all_of(at), before)
            return found

    def test_runs(self) -> None:
        self.addCleanup(os.chdir, os.getcwd())
        for seed in range(RUNS):
            draw = random.Random(seed)
            calls = [a_call(draw) for _ in range(CALLS)]

            def run(at: str) -> Outcome:
                os.chdir(f"{at}/{ABOVE}")
                answers = [answer(f"{at}/{ABOVE}", call) for call in calls]
                os.chdir(f"{at}/{ABOVE}")
                return answers, below(f"{at}/{ABOVE}")

            wanted, found = self.both(seed, run)
            with self.subTest(seed):
                for number, (call, one, other) in enumerate(zip(calls, wanted[0], found[0])):
                    self.assertEqual(other, one, f"call {number} of seed {seed}: {call}, after {calls[:number]}")
                self.assertEqual(found[1], wanted[1])

    def test_descriptors(self) -> None:
        for seed in range(RUNS):
            draw = random.Random(seed)
            calls = [a_call_of_descriptors(draw) for _ in range(3 * CALLS)]

            def run(at: str) -> Outcome:
                opened = Opened(f"{at}/{ABOVE}")
                try:
                    return [opened.answer(call) for call in calls], below(f"{at}/{ABOVE}")
                finally:
                    opened.close()

            wanted, found = self.both(seed, run)
            with self.subTest(seed):
                for number, (call, one, other) in enumerate(zip(calls, wanted[0], found[0])):
                    self.assertEqual(other, one, f"call {number} of seed {seed}: {call}, after {calls[:number]}")
                self.assertEqual(found[1], wanted[1])


if __name__ == "__main__":
    unittest.main()
