"""What `atomfs.patch` keeps beside a tree: permissions, owners, times, numbers of nodes, symbolic links and pipes."""
# A row has the answers of several calls, and some of these answer nothing.
# mypy: disable-error-code="func-returns-value"
import copy
import errno
import io
import itertools
import logging.handlers
import os
import pathlib
import pickle
import select
import shutil
import stat
import tempfile
import unittest
from typing import Any, List, Optional, Tuple

import atomfs
from test_patch import AT, OfPatch, descriptor, filled, number_of, text_of, written


class Raw(io.FileIO):
    """A class of file objects that was made before any patch."""

    def __init__(self, path: str, mode: str = "r") -> None:
        super().__init__(path, mode)
        self.count = 0

    def readinto(self, buffer: Any) -> Optional[int]:
        self.count += 1
        return super().readinto(buffer)


def modes(at: str) -> List[Tuple[str, str]]:
    """The kind and permissions of each node below a directory."""
    return sorted(
        (os.path.join(folder, name)[len(at) :], oct(os.lstat(os.path.join(folder, name)).st_mode))
        for folder, folders, files in os.walk(at)
        for name in (*folders, *files)
    )


class Times(OfPatch):
    def test_clock(self) -> None:
        """A clock that is given: what is made, written, renamed or removed has its time, and what is read has none."""
        clock = itertools.count(10**18, 10**9)
        with atomfs.patch(self.tree, at=AT, clock=lambda: next(clock)):
            os.mkdir(f"{AT}/d")
            written(f"{AT}/d/f")
            first, folder = os.stat(f"{AT}/d/f"), os.stat(f"{AT}/d")
            self.assertEqual(text_of(f"{AT}/d/f"), "text")
            self.assertEqual(os.stat(f"{AT}/d/f"), first)
            written(f"{AT}/d/f", "more")
            second = os.stat(f"{AT}/d/f")
            self.assertLess(first.st_mtime_ns, second.st_mtime_ns)
            self.assertEqual(os.stat(f"{AT}/d").st_mtime_ns, folder.st_mtime_ns)
            os.rename(f"{AT}/d/f", f"{AT}/g")
            self.assertEqual(os.stat(f"{AT}/g").st_mtime_ns, second.st_mtime_ns)
            self.assertLess(second.st_ctime_ns, os.stat(f"{AT}/g").st_ctime_ns)
            self.assertLess(folder.st_mtime_ns, os.stat(f"{AT}/d").st_mtime_ns)
            self.assertEqual(first.st_mtime_ns % 10**9, 0)
            # What is moved to where it is stays as it is.
            before = os.stat(AT), os.stat(f"{AT}/g")
            os.rename(f"{AT}/g", f"{AT}/g")
            self.assertEqual((os.stat(AT), os.stat(f"{AT}/g")), before)
        self.assertGreaterEqual(next(clock), 10**18)

    def test_set(self) -> None:
        def row(at: str) -> object:
            os.utime(f"{at}/f", ns=(123_456_789, 2_000_000_001))
            found = os.stat(f"{at}/f")
            shutil.copy2(f"{at}/f", f"{at}/g")
            with open(f"{at}/f", "a") as file:
                os.utime(file.fileno(), (5, 6))
            with self.assertRaises(ValueError):
                os.utime(f"{at}/f", (1, 2), ns=(1, 2))
            with self.assertRaises(TypeError):
                os.utime(f"{at}/f", (1,))  # type: ignore[arg-type]
            return (
                found.st_atime,
                found.st_mtime,
                found.st_mtime_ns,
                os.stat(f"{at}/g").st_mtime_ns,
                os.stat(f"{at}/f")[7:9],
            )

        self.compare(row)

    def test_touched_by_the_tree(self) -> None:
        """Calls on the tree itself move times too."""
        clock = itertools.count(1)
        with atomfs.patch(self.tree, at=AT, clock=lambda: next(clock)):
            self.tree.mknod("/f")
            before = os.stat(f"{AT}/f")
            self.tree.write("/f", 0, b"x")
            self.assertLess(before.st_mtime_ns, os.stat(f"{AT}/f").st_mtime_ns)
            self.tree.mkdir("/d")
            os.chmod(f"{AT}/d", 0o700)
            self.tree.exchange("/f", "/d")
            self.assertEqual(
                (os.stat(f"{AT}/d").st_ino, stat.S_IMODE(os.stat(f"{AT}/f").st_mode)), (before.st_ino, 0o700)
            )
            seat = self.tree.seat()
            seat.begin.rename("/d", "/e")
            seat.finish()
            self.assertEqual(os.stat(f"{AT}/e").st_ino, before.st_ino)


class Modes(OfPatch):
    def test_made(self) -> None:
        """What each call makes has the mode that it asks for, without the bits of the mask."""

        def row(at: str) -> object:
            was = os.umask(0o027)
            try:
                os.mkdir(f"{at}/n", 0o700)
                os.makedirs(f"{at}/m/k")
                os.close(os.open(f"{at}/o", os.O_CREAT | os.O_WRONLY, 0o666))
                os.mknod(f"{at}/k", 0o640)
                tempfile.mkdtemp(dir=at, prefix="x")
                os.chmod(f"{at}/m", 0o2755)
                os.mkdir(f"{at}/m/inherits")
                shutil.copy(f"{at}/k", f"{at}/copied")
                shutil.copytree(f"{at}/m", f"{at}/c")
                return [(path[:2] if path.startswith("/x") else path, mode) for path, mode in modes(at)]
            finally:
                os.umask(was)

        self.compare(row)

    def test_access(self) -> None:
        def row(at: str) -> object:
            found: List[object] = [os.access(f"{at}/f", mode) for mode in (os.F_OK, os.R_OK, os.W_OK, os.X_OK)]
            found.append(shutil.which("f", path=at))
            os.chmod(f"{at}/f", 0o755)
            return found, os.access(f"{at}/f", os.X_OK), shutil.which("f", path=at), os.access(f"{at}/d", os.X_OK)

        self.compare(row)

    def test_enforced(self) -> None:
        """Permissions are asked only with `enforce`: of whoever runs this, as of any user but root."""
        for enforce in (False, True):
            with self.subTest(enforce), atomfs.patch(self.tree, at=AT, enforce=enforce):
                self.tree.rmtree("/")
                filled(AT)
                os.chmod(f"{AT}/f", 0o400)
                os.chmod(f"{AT}/d", 0o500)
                os.mkdir(f"{AT}/closed", 0o600)
                due = errno.EACCES if enforce else None
                found = (
                    number_of(lambda: open(f"{AT}/f", "w").close()),
                    number_of(lambda: open(f"{AT}/f").close()),
                    number_of(os.mkdir, f"{AT}/d/new"),
                    number_of(os.unlink, f"{AT}/d/g"),
                    number_of(os.truncate, f"{AT}/f", 0),
                    number_of(os.listdir, f"{AT}/closed"),
                    number_of(lambda: open(f"{AT}/closed/new", "w").close()),
                    number_of(os.chdir, f"{AT}/closed"),
                )
                os.chdir("/")
                self.assertEqual(found, (due, None, due, due, due, None, due, due))
                self.assertEqual(os.access(f"{AT}/f", os.W_OK), not enforce)

    def test_owners(self) -> None:
        with atomfs.patch(self.tree, at=AT):
            written(f"{AT}/f")
            os.chown(f"{AT}/f", 17, -1)
            os.chmod(f"{AT}/f", 0o4755)
            shutil.chown(f"{AT}/f", group=18)
            found = os.stat(f"{AT}/f")
            self.assertEqual((found.st_uid, found.st_gid, oct(found.st_mode)), (17, 18, oct(stat.S_IFREG | 0o755)))
            self.assertRaises(OverflowError, os.chown, f"{AT}/f", 2**32, 0)
            self.assertRaises(TypeError, os.chown, f"{AT}/f", "root", 0)


class Nodes(OfPatch):
    def test_numbers(self) -> None:
        """A number goes with its node, and another node at the path has another."""

        def row(at: str) -> object:
            first = os.stat(f"{at}/f")
            os.rename(f"{at}/f", f"{at}/d/f")
            os.rename(f"{at}/d", f"{at}/e")
            written(f"{at}/f")
            with descriptor(f"{at}/e/f") as number:
                os.unlink(f"{at}/e/f")
                return (
                    os.path.samestat(first, os.fstat(number)),
                    os.path.samestat(first, os.stat(f"{at}/f")),
                    os.fstat(number).st_nlink,
                    os.stat(f"{at}/f").st_nlink,
                    len({os.lstat(f"{at}/{name}").st_ino for name in ("", "f", "e", "e/g", "e/e")}),
                    next(one.inode() for one in os.scandir(at) if one.name == "f") == os.stat(f"{at}/f").st_ino,
                )

        self.compare(row)

    def test_watched_file(self) -> None:
        """A handler of logs sees that its file was rotated."""

        def row(at: str) -> object:
            handler = logging.handlers.WatchedFileHandler(f"{at}/log")
            for text in ("one", "two"):
                handler.emit(logging.makeLogRecord({"msg": text}))
                if text == "one":
                    os.rename(f"{at}/log", f"{at}/log.1")
            handler.close()
            return text_of(f"{at}/log"), text_of(f"{at}/log.1")

        self.compare(row)

    def test_copies(self) -> None:
        """Snapshots, copies and pickles have it too, and what becomes of one is nothing of the other."""
        with atomfs.patch(self.tree, at=AT):
            filled(AT)
            os.chmod(f"{AT}/d/g", 0o640)
            os.utime(f"{AT}/d/g", ns=(1, 2))
            os.symlink("d/g", f"{AT}/l")
            snapshot = self.tree.snapshot()
            os.chmod(f"{AT}/d/g", 0o777)
            os.unlink(f"{AT}/l")
            self.tree.restore(snapshot)
            self.assertEqual((os.readlink(f"{AT}/l"), modes(AT)[-1]), ("d/g", ("/l", "0o120777")))
            others = [copy.copy(self.tree), copy.deepcopy(self.tree), pickle.loads(pickle.dumps(self.tree))]
            others.append(atomfs.Tree())
            others[-1].restore(pickle.loads(pickle.dumps(snapshot)))
            found = os.stat(f"{AT}/d/g")
        for other in others:
            with other, atomfs.patch(other, at=AT):
                again = os.stat(f"{AT}/d/g")
                self.assertEqual((again[:2], again[3:], again.st_mtime_ns), (found[:2], found[3:], 2))
                self.assertEqual((text_of(f"{AT}/l"), oct(found.st_mode)), ("in d", "0o100640"))
                os.chmod(f"{AT}/d/g", 0)
                os.unlink(f"{AT}/l")

    def test_deep(self) -> None:
        """Nothing goes as deep as the tree."""
        with atomfs.patch(self.tree, at=AT):
            path = AT + "/a" * 1_500
            os.mkdir(f"{AT}/a")
            for depth in range(2, 1_500, 300):
                self.tree.makedirs("/a" * depth, exist_ok=True)
            with copy.copy(self.tree) as other, pickle.loads(pickle.dumps(self.tree)) as another:
                self.assertEqual((len(other), len(another)), (len(self.tree),) * 2)
            self.assertFalse(os.path.exists(path))


class Pipes(OfPatch):
    def test_pipes(self) -> None:
        """Each row does the same on the disk."""
        for at, row in enumerate(
            (
                lambda at: (os.mkfifo(f"{at}/p"), oct(os.stat(f"{at}/p").st_mode), os.stat(f"{at}/p").st_size),
                lambda at: (os.mkfifo(f"{at}/p", 0o400), oct(os.lstat(f"{at}/p").st_mode)),
                lambda at: (os.mknod(f"{at}/p", stat.S_IFIFO | 0o600), oct(os.stat(f"{at}/p").st_mode)),
                lambda at: (
                    pathlib.Path(os.mkfifo(f"{at}/p") or f"{at}/p").is_fifo(),
                    pathlib.Path(at, "p").is_file(),
                    pathlib.Path(at, "f").is_fifo(),
                    os.path.isfile(f"{at}/p"),
                    os.path.exists(f"{at}/p"),
                ),
                lambda at: (
                    os.mkfifo(f"{at}/p"),
                    sorted(
                        (one.name, one.is_file(), one.is_dir(), one.is_symlink(), oct(one.stat().st_mode))
                        for one in os.scandir(at)
                    ),
                ),
                lambda at: (os.mkfifo(f"{at}/p"), os.chmod(f"{at}/p", 0o640), oct(os.stat(f"{at}/p").st_mode)),
                lambda at: (
                    os.mkfifo(f"{at}/p"),
                    os.rename(f"{at}/p", f"{at}/d/q"),
                    oct(os.stat(f"{at}/d/q").st_mode),
                    os.symlink("d/q", f"{at}/l"),
                    oct(os.stat(f"{at}/l").st_mode),
                    [one.is_file() for one in os.scandir(at) if one.name == "l"],
                ),
                lambda at: (os.mkfifo(f"{at}/p"), os.unlink(f"{at}/p"), written(f"{at}/p"), text_of(f"{at}/p")),
                lambda at: (os.mkfifo(f"{at}/p"), os.replace(f"{at}/f", f"{at}/p"), oct(os.stat(f"{at}/p").st_mode)),
                lambda at: (os.mkfifo(f"{at}/p"), os.mkfifo(f"{at}/p")),
                lambda at: os.mkfifo(f"{at}/f"),
                lambda at: os.mkfifo(f"{at}/none/p"),
                lambda at: os.mkfifo(f"{at}/f/p"),
                lambda at: (os.mkfifo(f"{at}/p"), os.listdir(f"{at}/p")),
                lambda at: (os.mkfifo(f"{at}/p"), os.truncate(f"{at}/p", 0)),
                lambda at: (os.mkfifo(f"{at}/p"), os.open(f"{at}/p", os.O_WRONLY | os.O_NONBLOCK)),
                lambda at: (os.mkfifo(f"{at}/p"), os.open(f"{at}/p", os.O_WRONLY | os.O_CREAT | os.O_EXCL)),
                lambda at: (os.mkfifo(f"{at}/p"), os.open(f"{at}/p", os.O_RDONLY | os.O_DIRECTORY)),
                lambda at: (
                    os.mkfifo(f"{at}/d/p"),
                    shutil.rmtree(f"{at}/d"),
                    os.mkdir(f"{at}/d"),
                    os.listdir(f"{at}/d"),
                ),
            )
        ):
            with self.subTest(at):
                self.compare(row)

    def test_no_copy(self) -> None:
        """`shutil` copies no pipe, and says so."""
        with atomfs.patch(self.tree, at=AT):
            filled(AT)
            os.mkfifo(f"{AT}/d/p")
            with self.assertRaisesRegex(shutil.SpecialFileError, "is a named pipe"):
                shutil.copyfile(f"{AT}/d/p", f"{AT}/q")
            with self.assertRaisesRegex(shutil.Error, "is a named pipe"):
                shutil.copytree(f"{AT}/d", f"{AT}/e")

    def test_no_bytes(self) -> None:
        """Whoever opens one is refused as by Linux where nobody reads, and no entry of the journal says that it was emptied."""
        with atomfs.patch(self.tree, at=AT):
            os.mkfifo(f"{AT}/p")
            before = self.tree.calls
            for mode in ("r", "w", "a", "r+"):
                self.assertEqual(number_of(open, f"{AT}/p", mode), errno.ENXIO)
            self.assertEqual(number_of(pathlib.Path(AT, "p").read_text), errno.ENXIO)
            self.assertFalse([one for one in self.tree.last_calls(self.tree.calls - before) if "truncate" in one])

    def test_kept(self) -> None:
        """Copies, snapshots and pickles have it, and a directory that is made of the tree."""
        with tempfile.TemporaryDirectory() as disk, atomfs.patch(self.tree, at=AT):
            os.mkfifo(f"{AT}/p", 0o600)
            for other in (copy.copy(self.tree), pickle.loads(pickle.dumps(self.tree))):
                with other, atomfs.patch(other, at=f"{AT}2"):
                    self.assertEqual(oct(os.stat(f"{AT}2/p").st_mode), "0o10600")
            self.tree.to_directory(f"{disk}/out")
            self.assertEqual(oct(os.stat(f"{disk}/out/p").st_mode), "0o10600")
            snapshot = self.tree.snapshot()
            os.unlink(f"{AT}/p")
            written(f"{AT}/p")
            self.assertEqual(text_of(f"{AT}/p"), "text")
            self.tree.restore(snapshot)
            self.assertTrue(stat.S_ISFIFO(os.stat(f"{AT}/p").st_mode))

    def test_devices(self) -> None:
        """A tree has none, and neither has it sockets."""
        with atomfs.patch(self.tree, at=AT):
            for kind in (stat.S_IFCHR, stat.S_IFBLK, stat.S_IFSOCK):
                self.assertEqual(number_of(os.mknod, f"{AT}/p", kind | 0o600), errno.EPERM)
            self.assertEqual(os.listdir(AT), [])


class Links(OfPatch):
    def test_links(self) -> None:
        """Each row does the same on the disk."""
        for at, row in enumerate(
            (
                lambda at: (os.symlink("f", f"{at}/l"), os.lstat(f"{at}/l").st_size, os.stat(f"{at}/l").st_size),
                lambda at: (os.symlink("l", f"{at}/l"), open(f"{at}/l")),
                lambda at: (os.symlink("b", f"{at}/a"), os.symlink("a", f"{at}/b"), os.stat(f"{at}/a/x")),
                lambda at: (
                    os.symlink("l", f"{at}/l"),
                    os.path.exists(f"{at}/l"),
                    os.path.lexists(f"{at}/l"),
                    os.unlink(f"{at}/l"),
                    sorted(os.listdir(at)),
                ),
                lambda at: (
                    os.symlink("new", f"{at}/l"),
                    written(f"{at}/l").replace(at, "AT"),
                    text_of(f"{at}/new"),
                    os.path.islink(f"{at}/l"),
                ),
                lambda at: (os.symlink("none", f"{at}/l"), open(f"{at}/l", "x")),
                lambda at: (os.symlink("f", f"{at}/l"), os.open(f"{at}/l", os.O_RDONLY | os.O_NOFOLLOW)),
                lambda at: (os.symlink("f", f"{at}/l"), os.open(f"{at}/l", os.O_CREAT | os.O_EXCL)),
                lambda at: (os.symlink("d", f"{at}/l"), os.close(os.open(f"{at}/l/", os.O_RDONLY | os.O_NOFOLLOW))),
                lambda at: (os.symlink("d", f"{at}/l"), os.open(f"{at}/l/", os.O_RDONLY | os.O_CREAT)),
                lambda at: (os.symlink("l", f"{at}/l"), open(f"{at}/l/", "w")),
                lambda at: (os.symlink("l", f"{at}/l"), open(f"{at}/l/")),
                lambda at: (os.symlink("l", f"{at}/l"), io.FileIO(f"{at}/l/", "a")),
                lambda at: (
                    os.symlink("d", f"{at}/l"),
                    sorted(os.listdir(f"{at}/l")),
                    text_of(f"{at}/l/../f"),
                    os.rmdir(f"{at}/l"),
                ),
                lambda at: (os.symlink("d", f"{at}/l"), shutil.rmtree(f"{at}/l")),
                lambda at: (os.symlink("d", f"{at}/l"), os.unlink(f"{at}/l"), sorted(os.listdir(f"{at}/d"))),
                lambda at: (os.symlink("d", f"{at}/l"), os.unlink(f"{at}/l/")),
                lambda at: (os.symlink("d", f"{at}/l"), os.path.islink(f"{at}/l"), os.path.islink(f"{at}/l/")),
                lambda at: (
                    os.symlink("f", f"{at}/l"),
                    os.rename(f"{at}/l", f"{at}/d/l"),
                    os.path.exists(f"{at}/d/l"),
                    os.readlink(f"{at}/d/l"),
                ),
                lambda at: (
                    os.symlink("f", f"{at}/l"),
                    os.rename(f"{at}/d/g", f"{at}/l"),
                    text_of(f"{at}/l"),
                    text_of(f"{at}/f"),
                ),
                lambda at: (
                    os.symlink(f"{at}/d", f"{at}/l"),
                    os.readlink(f"{at}/l") == f"{at}/d",
                    os.path.realpath(f"{at}/l/e") == os.path.realpath(f"{at}/d/e"),
                ),
                lambda at: (os.symlink("f", f"{at}/l"), os.symlink("f", f"{at}/l")),
                lambda at: os.symlink("", f"{at}/l"),
                lambda at: os.symlink("f", f"{at}/none/l"),
                lambda at: os.readlink(f"{at}/f"),
                lambda at: (os.symlink("f", f"{at}/l"), os.readlink(os.fsencode(f"{at}/l"))),
                lambda at: (
                    os.symlink("d", f"{at}/l"),
                    sorted(name.replace(at, "") for name, _, _ in os.walk(at, followlinks=True)),
                    sorted(name.replace(at, "") for name, _, _ in os.walk(at)),
                ),
                lambda at: (
                    os.symlink("f", f"{at}/l"),
                    os.chmod(f"{at}/l", 0o604),
                    oct(os.stat(f"{at}/f").st_mode),
                    oct(os.lstat(f"{at}/l").st_mode),
                ),
                lambda at: (
                    os.symlink("f", f"{at}/l"),
                    os.utime(f"{at}/l", (1, 2), follow_symlinks=False),
                    os.lstat(f"{at}/l").st_mtime,
                    os.stat(f"{at}/f").st_mtime > 2,
                ),
                lambda at: (
                    os.symlink("d", f"{at}/l"),
                    shutil.copytree(at, f"{at}2", symlinks=True) and None,
                    os.readlink(f"{at}2/l"),
                    shutil.rmtree(f"{at}2"),
                )
                if at != AT
                else (None, None, "d", None),
                lambda at: (
                    pathlib.Path(at, "l").symlink_to("d/g"),
                    pathlib.Path(at, "l").read_text(),
                    pathlib.Path(at, "l").is_symlink(),
                    str(pathlib.Path(at, "l").readlink()),
                ),
                lambda at: (os.symlink("../../none_of_atomfs", f"{at}/d/l"), os.stat(f"{at}/d/l")),
                lambda at: os.link(f"{at}/none", f"{at}/l"),
                lambda at: os.link(f"{at}/f", f"{at}/d"),
                lambda at: (
                    os.symlink("d", f"{at}/l"),
                    os.chdir(f"{at}/l"),
                    os.getcwd() == os.path.realpath(f"{at}/d"),
                    text_of("g"),
                    os.chdir("/"),
                ),
            )
        ):
            with self.subTest(at):
                self.compare(row)

    def test_one_call(self) -> None:
        """A link is one call of the journal, and a path that leads through it asks the tree for where it leads alone."""
        with atomfs.patch(self.tree, at=AT):
            filled(AT)
            before = self.tree.calls
            os.symlink("d", f"{AT}/l")
            os.stat(f"{AT}/l/g")
            os.rename(f"{AT}/l", f"{AT}/m")
            os.unlink(f"{AT}/m")
            self.assertEqual(
                self.tree.last_calls(self.tree.calls - before),
                ["mknod /l: ok", "stat /d/g: stat file 4", "rename /l /m: ok", "unlink /m: ok"],
            )

    def test_over_the_border(self) -> None:
        """A link of the tree that leads to the disk, and one of the disk that would lead to the tree."""
        with tempfile.TemporaryDirectory() as disk, atomfs.patch(self.tree, at=AT):
            written(f"{disk}/f", "disk")
            os.symlink(disk, f"{AT}/l")
            self.assertEqual(
                (text_of(f"{AT}/l/f"), os.listdir(f"{AT}/l"), os.path.realpath(f"{AT}/l/f")),
                ("disk", ["f"], os.path.realpath(f"{disk}/f")),
            )
            written(f"{AT}/l/new")
            self.assertEqual(sorted(os.listdir(disk)), ["f", "new"])
            self.assertEqual([one.is_dir() for one in os.scandir(AT)], [True])
            self.assertEqual(number_of(os.symlink, f"{AT}/f", f"{disk}/l"), errno.EPERM)
            os.symlink("f", f"{disk}/l")
            self.assertEqual((os.readlink(f"{disk}/l"), os.unlink(f"{AT}/l"), self.tree.readdir("/")), ("f", None, []))


class Objects(OfPatch):
    def test_classes_of_files(self) -> None:
        """Classes that are made of `io.FileIO`, before a patch and within it, work on the tree and leave nothing on the disk."""

        def row(at: str) -> object:
            class Late(io.FileIO):
                pass

            found = []
            for kind in (Raw, Late):
                with kind(f"{at}/made", "w") as file:
                    found += [file.write(b"bytes"), isinstance(file, kind), isinstance(file, io.FileIO), file.mode]
                with io.BufferedReader(kind(f"{at}/made", "r")) as file:
                    found += [file.read(2), file.read(), file.name.replace(at, "AT")]
                with self.assertRaises(FileNotFoundError):
                    kind(f"{at}/none", "r")
                os.unlink(f"{at}/made")
            with Raw(f"{at}/f") as file:
                return found, file.read(), file.count, sorted(os.listdir(at))

        self.compare(row)
        self.assertNotIn("__new__", vars(Raw))
        with atomfs.patch(self.tree, at=AT), tempfile.TemporaryDirectory() as disk:
            with Raw(f"{disk}/f", "w") as file:
                self.assertEqual((file.write(b"x"), type(file)), (1, Raw))
            self.assertEqual((os.listdir(disk), self.tree.readdir("/")), (["f"], ["d", "f"]))

    def test_descriptors(self) -> None:
        """Their numbers are those that the system would give, and no file of the system has them."""
        with atomfs.patch(self.tree, at=AT):
            filled(AT)
            lowest, next_one = os.dup(0), os.dup(0)
            os.close(lowest)
            os.close(next_one)
            with descriptor(f"{AT}/f") as number, open(os.devnull) as other:
                self.assertEqual((number, other.fileno()), (lowest, next_one))
                self.assertEqual(number_of(os.dup2, number, 1), errno.ENOTSUP)
                self.assertEqual(
                    (os.dup2(number, 99), os.read(99, 9), os.close(99)),
                    (99, b"hello", None),
                )
            with descriptor(os.devnull, os.O_RDONLY) as number:
                self.assertEqual(number, lowest)

    def test_of_the_system(self) -> None:
        """What asks the system of a descriptor hears what it says of a file; a removed directory has no entries."""

        def row(at: str) -> object:
            with open(f"{at}/f") as file, descriptor(f"{at}/d/e", os.O_RDONLY) as folder:
                os.rmdir(f"{at}/d/e")
                found = select.select([file], [file], [], 0) == ([file], [file], [])
                return found, os.listdir(folder), list(os.scandir(folder)), shutil.disk_usage(at).free > 0

        self.compare(row)
        with atomfs.Tree(limit=10) as tree, atomfs.patch(tree, at=AT):
            filled(AT)
            usage, limits = shutil.disk_usage(AT), os.statvfs(AT)
            self.assertEqual((usage.used, usage.total), (5 * 2**31, 10 * 2**31))
            self.assertEqual((limits.f_files, limits.f_ffree, limits.f_namemax), (10, 5, 255))

    def test_buffers(self) -> None:
        """As much of a file is in a buffer as `st_blksize` says."""

        def row(at: str) -> object:
            with open(f"{at}/n", "w") as file:
                found = []
                for count in (9_000, 100_000):
                    file.write("x" * count)
                    found.append(os.stat(f"{at}/n").st_size)
                return found

        self.compare(row)

    def test_dots(self) -> None:
        """What a last dot means to each call."""
        for at, row in enumerate(
            (
                lambda at: os.rmdir(f"{at}/d/e/."),
                lambda at: os.rmdir(f"{at}/d/e/.."),
                lambda at: os.rename(f"{at}/d/.", f"{at}/x"),
                lambda at: os.rename(f"{at}/d", f"{at}/x/."),
                lambda at: os.mkdir(f"{at}/x/."),
                lambda at: os.mkdir(f"{at}/d/."),
                lambda at: os.mknod(f"{at}/x/"),
                lambda at: os.mknod(f"{at}/d/"),
                lambda at: os.unlink(f"{at}/d/."),
                lambda at: os.rename(f"{at}/f", f"{at}/f/x"),
                lambda at: os.rename(f"{at}/none", f"{at}/none/x"),
                lambda at: os.rename(f"{at}/d/g", f"{at}/d"),
                lambda at: os.rename(f"{at}/d", f"{at}/d/x"),
                lambda at: os.rename(f"{at}/f", ""),
                lambda at: (os.close(os.open(f"{at}/f", os.O_RDONLY | os.O_TRUNC)), os.stat(f"{at}/f").st_size),
                lambda at: os.open(f"{at}/d", os.O_RDONLY | os.O_TRUNC),
                lambda at: open(f"{at}/f/.."),
                lambda at: open(f"{at}/f", "rb", 0).read(None),  # type: ignore[arg-type]
                lambda at: (lambda file: (os.fsync(file), os.fdatasync(file), file.close()))(open(f"{at}/f", "a")),
                lambda at: repr(open(f"{at}/f", "rb", 0)),
            )
        ):
            with self.subTest(at):
                self.compare(row)


if __name__ == "__main__":
    unittest.main()
