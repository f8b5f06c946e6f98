"""Trees and seats."""
import copy
import errno
import functools
import os
import pathlib
import pickle
import re
import shutil
import threading
import time
import typing
import unittest

import atomfs
from atomfs import Did, Stat

# Rows of a test.
Rows = typing.Iterable[typing.Tuple[typing.Any, ...]]


class OfTree(unittest.TestCase):
    """A test with a tree whose journal has to be lawful at its end."""

    def setUp(self) -> None:
        self.tree = atomfs.Tree(1000)

    def tearDown(self) -> None:
        if not self.tree.closed:
            self.assertEqual(self.tree.check(), "lawful")
        self.tree.close()

    def fails(
        self, kind: typing.Type[BaseException], number: int, call: typing.Callable[[], object], *paths: str
    ) -> None:
        """A call that raises an `OSError` of this class, number and these paths."""
        with self.assertRaises(OSError) as raised:
            call()
        error = raised.exception
        self.assertEqual((type(error), error.errno), (kind, number))
        self.assertEqual((error.filename, *([error.filename2] if error.filename2 else [])), paths)


class Calls(OfTree):
    def test_each_call(self) -> None:
        tree = self.tree
        tree.mkdir("/a")
        tree.mknod("/a/f")
        self.assertEqual(tree.write("/a/f", 2, b"hello"), 5)
        self.assertEqual(tree.read("/a/f"), b"\0\0hello")
        self.assertEqual(tree.read("/a/f", 3, 2), b"el")
        self.assertEqual(tree.read("/a/f", 9, 2), b"")
        self.assertEqual(tree.stat("/a/f"), Stat(False, 7))
        tree.truncate("/a/f", 3)
        self.assertEqual(tree.read("/a/f", 0, 100), b"\0\0h")
        tree.mkdir("/b")
        tree.rename("/a", "/c")
        tree.exchange("/c/f", "/b")
        self.assertEqual(tree.readdir("/"), ["b", "c"])
        self.assertEqual((tree.stat("/b").is_dir, tree.stat("/c/f")), (False, Stat(True, 0)))
        tree.unlink("/b")
        tree.rmdir("/c/f")
        self.assertEqual(tree.stat("/c"), Stat(True, 0))
        self.assertEqual(tree.tree(), "tree\ndir /\ndir /c\n")

    def test_each_error(self) -> None:
        tree = self.tree
        tree.mkdir("/d")
        tree.mkdir("/d/e")
        tree.mknod("/f")
        rows: Rows = (
            (FileNotFoundError, errno.ENOENT, lambda: tree.stat("/x"), "/x"),
            (NotADirectoryError, errno.ENOTDIR, lambda: tree.readdir("/f"), "/f"),
            (FileExistsError, errno.EEXIST, lambda: tree.mkdir("/d"), "/d"),
            (OSError, errno.ENOTEMPTY, lambda: tree.rmdir("/d"), "/d"),
            (IsADirectoryError, errno.EISDIR, lambda: tree.read("/d"), "/d"),
            (OSError, errno.EINVAL, lambda: tree.rename("/d", "/d/e/g"), "/d", "/d/e/g"),
            (OSError, errno.EBUSY, lambda: tree.exchange("/d", "/"), "/d", "/"),
            (PermissionError, errno.EPERM, lambda: tree.unlink("/d"), "/d"),
            (OSError, errno.EFBIG, lambda: tree.truncate("/f", 2**31 + 1), "/f"),
            (OSError, errno.EFBIG, lambda: tree.write("/f", 2**64, b"x"), "/f"),
        )
        for kind, number, call, *paths in rows:
            with self.subTest(errno.errorcode[number]):
                self.fails(kind, number, call, *paths)

    def test_full(self) -> None:
        with atomfs.Tree(limits=atomfs.Limits.V2) as tree:
            for at in range(256):
                tree.mknod(f"/{at}")
            self.fails(OSError, errno.ENOSPC, lambda: tree.mknod("/one_more"), "/one_more")
            self.assertEqual(len(tree.readdir("/")), 256)
        with atomfs.Tree(1) as tree:
            self.fails(OSError, errno.ENOSPC, lambda: tree.mkdir("/a"), "/a")

    def test_paths(self) -> None:
        """What is no path is refused with the number that it has in the field."""
        rows = (
            ("a", errno.EINVAL),
            ("", errno.EINVAL),
            ("/a/", errno.EINVAL),
            ("/a/../b", errno.EINVAL),
            ("/a\0b", errno.EINVAL),
            ("/" + "n" * 256, errno.ENAMETOOLONG),
            ("/" + "n" * 300 + "/a", errno.ENAMETOOLONG),
            ("/n" * 2_049, errno.ENAMETOOLONG),
        )
        for path, number in rows:
            with self.subTest(path):
                self.fails(OSError, number, functools.partial(self.tree.mkdir, path), path)
        self.fails(OSError, errno.EINVAL, lambda: self.tree.rename("/a", "b"), "b")
        self.assertEqual(self.tree.journal(), "atomfs-journal 4\nstart\ndir /\nentries\n")
        self.tree.mkdir("/" + "n" * 255)

    def test_kinds_of_paths(self) -> None:
        """Paths may be strings, bytes and path objects, and names come as the path came."""
        self.tree.mkdir(pathlib.PurePosixPath("/d"))
        self.tree.mknod(b"/d/\xff %")
        self.tree.mknod("/d/\N{SNOWMAN}")
        self.assertEqual(self.tree.readdir(b"/d"), ["\N{SNOWMAN}".encode(), b"\xff %"])
        self.assertEqual(self.tree.readdir("/d"), ["\N{SNOWMAN}", os.fsdecode(b"\xff %")])
        self.tree.unlink("/d/" + self.tree.readdir("/d")[1])
        with self.assertRaises(TypeError):
            self.tree.stat(7)  # type: ignore[arg-type]

    def test_bytes(self) -> None:
        """What is written may be anything with bytes, and a file is read whole by one call."""
        self.tree.mknod("/f")
        every = bytes(range(256)) * 256
        for data in (every, bytearray(every), memoryview(every)):
            self.tree.truncate("/f", 0)
            self.assertEqual(self.tree.write("/f", 0, data), 65_536)
            self.assertEqual(self.tree.read("/f"), every)
        self.assertEqual(self.tree.read("/f", 0, 2**64 - 1), every)
        self.fails(OSError, errno.EFBIG, lambda: self.tree.write("/f", 2**31, b"x"), "/f")
        self.assertEqual(self.tree.write("/f", 2**64 - 1, b""), 0)
        for call in (
            lambda: self.tree.read("/f", -1),
            lambda: self.tree.write("/f", -1, b""),
            lambda: self.tree.truncate("/f", -1),
        ):
            self.assertRaises(ValueError, call)
        self.assertRaises(TypeError, lambda: self.tree.write("/f", 0, "text"))  # type: ignore[arg-type]

    def test_little_room(self) -> None:
        """Names and bytes for which there is no room at first come whole."""
        tree = atomfs.Tree(room=1)
        names = [f"{at:0255}" for at in range(100)]
        for name in names:
            tree.mknod(f"/{name}")
        self.assertEqual(tree.readdir("/"), names)
        tree.write(f"/{names[0]}", 0, b"x" * 5000)
        self.assertEqual(tree.read(f"/{names[0]}", 1, 4000), b"x" * 4000)
        self.assertEqual(tree.check(), "lawful")
        tree.close()


class Lists(unittest.TestCase):
    """Directories and files that are larger than what one call tells."""

    def setUp(self) -> None:
        self.tree = atomfs.Tree()
        self.names = [f"{at:03}" for at in range(600)]
        self.tree.mkdir("/d")
        for name in self.names:
            self.tree.mknod(f"/d/{name}")

    def tearDown(self) -> None:
        self.assertEqual(self.tree.check(), "lawful")
        self.tree.close()

    def lists(self, of: typing.Callable[[], object]) -> int:
        """How many calls `list` a function makes."""
        self.tree.checkpoint()
        of()
        return self.tree.journal().count(" list /d ")

    def test_pieces(self) -> None:
        tree, names = self.tree, self.names
        self.assertEqual(tree.list("/d"), names[:256])
        self.assertEqual(tree.list("/d", "/255"), names[256:512])
        self.assertEqual(tree.list("/d", b"/x/y/511", 1_000), names[512:])
        self.assertEqual(tree.list(b"/d", "/5", 2), [b"500", b"501"])
        self.assertEqual((tree.list("/d", "/599"), tree.list("/d", count=0)), ([], []))
        for count in (2**32 - 1, 2**32, 2**32 + 1, 2**64):
            self.assertEqual(tree.list("/d", "/597", count), ["598", "599"])
            self.assertEqual(tree.last_calls(1), ["list /d /597 4294967295: names 598 599"])
        with self.assertRaises(OSError) as raised:
            tree.readdir("/d")
        self.assertEqual((raised.exception.errno, raised.exception.filename), (errno.EOVERFLOW, "/d"))
        self.assertIn("has more than 256 entries", str(raised.exception))
        self.assertRaises(NotADirectoryError, tree.list, "/d/000")
        self.assertRaises(FileNotFoundError, tree.list, "/x")
        self.assertRaises(ValueError, tree.list, "/d", "/", -1)
        with self.assertRaises(OSError) as raised:
            tree.list("/d", "000")
        self.assertEqual((raised.exception.errno, raised.exception.filename), (errno.EINVAL, "/d"))

    def test_whole_directories(self) -> None:
        """Each listing makes a call for as many names as one tells, and one more where these are all there are."""
        tree, names = self.tree, self.names
        paths = [f"/d/{name}" for name in names]
        self.assertEqual(self.lists(lambda: self.assertEqual(tree.listdir("/d"), names)), 3)
        self.assertEqual(
            self.lists(lambda: self.assertEqual(tree.listdir(b"/d"), [name.encode() for name in names])), 3
        )
        self.assertEqual(
            self.lists(lambda: self.assertEqual([str(path) for path in tree.path("/d").iterdir()], paths)), 3
        )
        self.assertEqual(self.lists(lambda: self.assertEqual(list(tree.walk("/d")), [("/d", [], names)])), 3)
        self.assertEqual(self.lists(lambda: self.assertEqual(tree.glob("/d/*"), paths)), 3)
        for name in names[256:]:
            tree.unlink(f"/d/{name}")
        self.assertEqual(self.lists(lambda: self.assertEqual(tree.listdir("/d"), names[:256])), 2)
        tree.rmtree("/d")
        self.assertEqual(tree.listdir("/"), [])
        self.assertRaises(FileNotFoundError, tree.listdir, "/d")

    def test_step_by_step(self) -> None:
        seat = self.tree.seat()
        number = seat.begin.list("/d", "/597", 9)
        self.assertEqual(seat.finish(), ["598", "599"])
        self.assertIn(f"begin {number} 1 list /d /597 9\n", self.tree.journal())
        seat.begin.list(b"/d", count=1)
        self.assertEqual(seat.finish(), [b"000"])
        number = seat.begin.list("/d", "/598", 2**32)
        self.assertEqual(seat.finish(), ["599"])
        self.assertIn(f"begin {number} 1 list /d /598 4294967295\n", self.tree.journal())
        seat.begin.readdir("/d")
        self.assertRaises(OSError, seat.finish)

    def test_long_names(self) -> None:
        """As many names as a call answers, each as long as there are."""
        tree, names = self.tree, [f"{at:0255}" for at in range(256)]
        tree.mkdir("/long")
        for name in names:
            tree.mknod(f"/long/{name}")
        self.assertEqual((tree.readdir("/long"), tree.list("/long"), tree.listdir("/long")), (names, names, names))
        self.assertEqual(tree.list("/long", f"/{names[253]}"), names[254:])
        seat = tree.seat()
        seat.begin.readdir("/long")
        self.assertEqual(seat.finish(), names)
        tree.rename(f"/long/{names[0]}", f"/{names[0]}")
        tree.exchange(f"/long/{names[1]}", f"/{names[0]}")
        self.assertEqual((tree.listdir("/long"), tree.listdir("/")), (names[1:], [names[0], "d", "long"]))
        self.assertEqual(atomfs.Tree.from_text(tree.tree()).listdir("/long"), names[1:])
        tree.rmtree("/long")

    def test_long_files(self) -> None:
        """What is longer than one call reads comes by several, and a file may be far longer than what is in it."""
        tree, most = self.tree, self.tree.limits.read_bytes
        data = bytes(range(251)) * (2 * most // 251 + 9)
        self.assertEqual(tree.write_bytes("/f", data), len(data))
        for read in (lambda: tree.read("/f"), lambda: tree.read_bytes("/f"), tree.path("/f").read_bytes):
            self.assertEqual(read(), data)
        self.assertEqual(tree.read("/f", 7, most + 1), data[7 : 8 + most])
        self.assertEqual(tree.read("/f", 1, 2**64 - 1), data[1:])
        self.assertEqual(tree.read("/f", len(data) - 2, 9), data[-2:])
        for buffering in (-1, 0):
            with tree.open("/f", "rb", buffering) as file:
                self.assertEqual((file.read(most + 5), file.read()), (data[: most + 5], data[most + 5 :]))
        with tree.open("/g", "wb") as file:
            file.write(data)
        self.assertEqual(tree.read("/g"), data)
        tree.truncate("/g", 0)
        tree.write("/g", tree.limits.file_bytes - 1, b"x")
        self.assertEqual(tree.stat("/g").size, tree.limits.file_bytes)
        self.assertEqual(tree.read("/g", tree.limits.file_bytes - 2), b"\0x")
        with tree.open("/g", "rb") as file:
            file.seek(-1, os.SEEK_END)
            self.assertEqual(file.read(), b"x")
        tree.truncate("/g", most)
        self.assertEqual(tree.read("/g"), bytes(most))
        tree.unlink("/g")

    def test_other_limits(self) -> None:
        """The others have no such call, and `listdir` is one `readdir` there."""
        for limits in (atomfs.Limits.V1, atomfs.Limits.V2):
            with atomfs.Tree(limits=limits) as tree:
                tree.mknod("/a")
                with self.assertRaises(atomfs.Error) as raised:
                    tree.list("/")
                self.assertEqual(raised.exception.status, atomfs.Status.BAD_VERSION)
                self.assertRaises(atomfs.Error, lambda: tree.seat().begin.list("/"))
                self.assertEqual(tree.listdir("/"), ["a"])
                self.assertEqual(re.findall("begin .*", tree.journal()), ["begin 1 0 mknod /a", "begin 2 0 readdir /"])

    def test_copies_and_keeps(self) -> None:
        """A tree that forgets by itself notes these calls too, and a copy and a picture of the last calls have these limits."""
        with atomfs.Tree(journal=atomfs.LAST(2)) as tree:
            for _ in range(5):
                tree.list("/")
            self.assertEqual(tree.calls_before + tree.calls, 5)
            self.assertEqual((tree.limits, copy.copy(tree).limits), (atomfs.Limits.V3, atomfs.Limits.V3))
            self.assertIn("<svg", tree.draw(last=1).svg)
        self.assertEqual(pickle.loads(pickle.dumps(self.tree)).listdir("/d"), self.names)


class Words(OfTree):
    """What errors say, beside their number and their path."""

    def says(self, kind: typing.Type[BaseException], words: str, call: typing.Callable[[], object]) -> typing.Any:
        with self.assertRaises(kind) as raised:
            call()
        self.assertEqual(str(raised.exception), words)
        return raised.exception

    def test_limits(self) -> None:
        """The message of a limit names it, and tells a full directory from a full tree."""
        with atomfs.Tree(limits=atomfs.Limits.V2) as tree:
            tree.mkdir("/d")
            for at in range(256):
                tree.mknod(f"/d/{at}")
            full = "[Errno 28] The directory has 256 entries, and no more may be made in it: "
            self.says(OSError, full + "'/d/x'", lambda: tree.mknod("/d/x"))
            tree.mknod("/f")
            self.says(OSError, full + "'/f' -> '/d/x'", lambda: tree.rename("/f", "/d/x"))
            seat = tree.seat()
            seat.begin.mkdir("/d/x")
            self.says(OSError, full + "'/d/x'", seat.finish)
        with atomfs.Tree(1_000) as tree:
            for at in range(999):
                tree.mkdir(f"/{at}")
            none = "[Errno 28] All 1,000 nodes of the tree are in use: '/x'"
            self.says(OSError, none, lambda: tree.mknod("/x"))
            self.says(OSError, none, lambda: tree.seat().begin.mkdir("/x"))
        sets = zip(atomfs.Limits, ("32", "64", "255"), ("64", "64", "2,048"), ("65,536", "1,048,576", "2,147,483,648"))
        for limits, of_name, of_path, of_file in sets:
            with self.subTest(limits), atomfs.Tree(limits=limits) as tree:
                tree.mknod("/f")
                words = f"[Errno 27] The file would have more than {of_file} bytes: '/f'"
                self.says(OSError, words, lambda: tree.truncate("/f", limits.file_bytes + 1))
                self.says(OSError, words, lambda: tree.write("/f", limits.file_bytes, b"x"))
                name, deep = "/" + "n" * limits.name_bytes, "/n" * limits.path_names
                self.says(
                    OSError,
                    f"[Errno 36] Path has a name of more than {of_name} bytes: {name + 'n'!r}",
                    lambda: tree.stat(name + "n"),
                )
                self.says(
                    OSError,
                    f"[Errno 36] Path has more than {of_path} names: {deep + '/n'!r}",
                    lambda: tree.stat(deep + "/n"),
                )
                self.assertRaises(FileNotFoundError, tree.stat, name)
                self.assertRaises(FileNotFoundError, tree.stat, deep)

    def test_paths(self) -> None:
        """What the library says of bytes that are no path, the first check that they fail; of two paths, the one that is none."""
        rows: Rows = (
            ("a", "[Errno 22] Path does not begin with a slash: 'a'"),
            ("a/" + "n" * 256, f"[Errno 22] Path does not begin with a slash: {'a/' + 'n' * 256!r}"),
            ("/a\0", "[Errno 22] Path has a byte 0: '/a\\x00'"),
            ("/./a", "[Errno 22] A name of the path is . or ..: '/./a'"),
            ("/a/..", "[Errno 22] A name of the path is . or ..: '/a/..'"),
            ("/a/", "[Errno 22] Path ends with a slash: '/a/'"),
            (b"/" + b"n" * 256, f"[Errno 36] Path has a name of more than 255 bytes: {b'/' + b'n' * 256!r}"),
        )
        for path, words in rows:
            self.says(OSError, words, lambda: self.tree.stat(path))
            self.says(OSError, words, lambda: self.tree.rename("/a", path))
            self.says(OSError, words, lambda: self.tree.seat().begin.exchange(path, "/a"))

    def test_types(self) -> None:
        """What is of another type is a `TypeError`, and changes nothing."""
        self.tree.mknod("/f")
        write = "write takes bytes, and this is str: encode it"
        self.says(TypeError, write, lambda: self.tree.write("/f", 0, "text"))  # type: ignore[arg-type]
        self.says(TypeError, write, lambda: self.tree.seat().begin.write("/f", 0, "text"))  # type: ignore[arg-type]
        self.assertRaises(TypeError, lambda: self.tree.write("/f", 0, 3))  # type: ignore[arg-type]
        rows: Rows = (
            ("offset", lambda: self.tree.read("/f", 1.0)),  # type: ignore[arg-type]
            ("count", lambda: self.tree.read("/f", 0, 1.0)),  # type: ignore[arg-type]
            ("offset", lambda: self.tree.write("/f", 1.0, b"")),  # type: ignore[arg-type]
            ("size", lambda: self.tree.truncate("/f", 1.0)),  # type: ignore[arg-type]
            ("limit", lambda: atomfs.Tree(1.0)),  # type: ignore[arg-type]
            ("room", lambda: atomfs.Tree(room=1.0)),  # type: ignore[arg-type]
        )
        for what, call in rows:
            self.says(TypeError, f"{what} is a whole number, and this is float", call)
        self.says(TypeError, "size is a whole number, and this is str", lambda: self.tree.truncate("/f", "1"))  # type: ignore[arg-type]
        self.says(ValueError, "a negative room", lambda: atomfs.Tree(room=-1))
        self.assertEqual(self.tree.stat("/f"), (False, 0))

    def test_texts(self) -> None:
        """The error of a text names its line, and its kind as the program does."""
        header, line = "atomfs-journal 1\n", "a line has no form of its place, or a request no call"
        for kind, words, call in (
            (
                atomfs.Status.BAD_LINE,
                f"line 3: BadLine: {line}",
                lambda: atomfs.run("atomfs 1\nthread t\nmkdr /a\nschedule\n"),
            ),
            (
                atomfs.Status.BAD_PATH,
                "line 3: BadPath: no path",
                lambda: atomfs.run("atomfs 1\nthread t\nmkdir a\nschedule\n"),
            ),
            (
                atomfs.Status.THREAD_TWICE,
                "line 3: ThreadTwice: a thread has two blocks",
                lambda: atomfs.run("atomfs 1\nthread t\nthread t\nschedule\n"),
            ),
            (
                atomfs.Status.BAD_HEADER,
                "line 1: BadHeader: the first line is another than it has to be",
                lambda: atomfs.check("no journal"),
            ),
            (atomfs.Status.BAD_LINE, f"line 2: BadLine: {line}", lambda: atomfs.check(header + "mkdir /a\n")),
        ):
            self.assertEqual(self.says(atomfs.Error, words, call).status, kind)

    def test_a_large_journal(self) -> None:
        """A journal that no text of the library could hold is checked as it stands."""
        with atomfs.Tree(limits=atomfs.Limits.V2) as tree:
            tree.mknod("/f")
            for _ in range(9):
                tree.write("/f", 0, bytes(1_048_576))
            self.assertGreater(len(tree.journal()), 16_777_216)
            self.assertRaisesRegex(atomfs.Error, "line 1: TooLarge", atomfs.check, tree.journal())
            self.assertEqual(tree.check(), "lawful")


class Kept(OfTree):
    """How many calls a journal keeps."""

    def numbers(self, tree: atomfs.Tree) -> typing.Tuple[int, int]:
        return tree.calls_before, tree.calls

    def test_all(self) -> None:
        for _ in range(50):
            self.tree.stat("/")
        self.assertEqual((self.tree.keeps, *self.numbers(self.tree)), (atomfs.ALL, 0, 50))

    def test_last(self) -> None:
        with atomfs.Tree(journal=atomfs.LAST(10)) as tree:
            tree.mkdir("/a")
            for number in range(1, 40):
                self.assertEqual(self.numbers(tree), ((number - 1) // 11 * 11, (number - 1) % 11 + 1))
                tree.stat("/a")
            self.assertEqual((tree.check(), tree.readdir("/")), ("lawful", ["a"]))
            self.assertEqual(atomfs.check(tree.journal()), "lawful")
            # It begins with the tree that the calls before have left.
            self.assertIn("\ndir /a\n", tree.journal())

    def test_none(self) -> None:
        with atomfs.Tree(journal=atomfs.NONE) as tree:
            tree.mknod("/f")
            tree.write("/f", 0, b"hello")
            with self.assertRaises(FileNotFoundError):
                tree.stat("/g")
            self.assertEqual((tree.read("/f"), *self.numbers(tree)), (b"hello", 3, 1))

    def test_told_later(self) -> None:
        """What is kept can be said at any time, also none and then all again."""
        for _ in range(20):
            self.tree.stat("/")
        self.tree.keep(atomfs.LAST(5))
        self.tree.stat("/")
        self.assertEqual(self.numbers(self.tree), (20, 1))
        self.tree.keep(atomfs.ALL)
        for _ in range(20):
            self.tree.stat("/")
        self.assertEqual(self.numbers(self.tree), (20, 21))

    def test_refused(self) -> None:
        """A call that does not begin is none that stands."""
        with atomfs.Tree(2, journal=atomfs.LAST(3)) as tree:
            tree.mkdir("/a")
            for _ in range(10):
                self.assertRaises(OSError, tree.mkdir, "/b")
                self.assertRaises(OSError, tree.mkdir, "no path")
            self.assertEqual((tree.calls_before + tree.calls, tree.readdir("/")), (1, ["a"]))

    def test_replies(self) -> None:
        """The reply of a call that is forgotten is no other call's."""
        with atomfs.Tree(journal=atomfs.NONE) as tree:
            seat = tree.seat()
            seat.begin.stat("/")
            while seat.step().did != atomfs.Did.RETURN:
                pass
            self.assertEqual(seat.reply(), atomfs.Stat(True, 0))
            tree.mkdir("/a")
            self.assertRaises(atomfs.Error, seat.reply)

    def test_under_way(self) -> None:
        """Nothing is forgotten amid a call, and by hand neither."""
        with atomfs.Tree(journal=atomfs.NONE) as tree:
            tree.mkdir("/a")
            seat = tree.seat()
            seat.begin.stat("/a")
            for _ in range(5):
                tree.stat("/")
            self.assertEqual(self.numbers(tree), (1, 6))
            self.assertRaises(atomfs.UnderWayError, tree.forget)
            self.assertEqual(seat.finish(), atomfs.Stat(True, 0))
            self.assertEqual((tree.forget(), *self.numbers(tree), tree.check()), (6, 7, 0, "lawful"))

    def test_checkpoints(self) -> None:
        for _ in range(4):
            self.tree.stat("/")
        self.tree.checkpoint()
        self.tree.stat("/")
        self.assertEqual(self.numbers(self.tree), (4, 1))

    def test_copies(self) -> None:
        """A copy keeps as many."""
        with atomfs.Tree(journal=atomfs.LAST(7)) as tree:
            with copy.copy(tree) as other:
                self.assertEqual(other.keeps, atomfs.LAST(7))

    def test_bad_words(self) -> None:
        for most in (-1, 2**32 - 1):
            self.assertRaises(ValueError, atomfs.LAST, most)
        self.assertRaises(TypeError, atomfs.LAST, 1.5)

    def test_memory(self) -> None:
        """A tree that forgets does not grow: of as many calls as would take 50 MB no entry is left that was."""
        with atomfs.Tree(journal=atomfs.LAST(1_000)) as tree:
            for _ in range(100_000):
                tree.stat("/")
            self.assertLessEqual(tree.calls, 1_001)
            self.assertEqual(tree.calls_before + tree.calls, 100_000)


class OpenAndClosed(OfTree):
    def test_closed(self) -> None:
        self.tree.close()
        self.tree.close()
        self.assertTrue(self.tree.closed)
        calls: typing.Tuple[typing.Callable[[], object], ...] = (
            lambda: self.tree.stat("/"),
            self.tree.journal,
            self.tree.checkpoint,
            self.tree.seat,
            self.tree.tree,
        )
        for call in calls:
            with self.assertRaises(atomfs.ClosedError) as raised:
                call()
            self.assertEqual(raised.exception.status, atomfs.Status.CLOSED)

    def test_limits(self) -> None:
        for limit in (0, -1, atomfs.NODE_LIMIT + 1):
            self.assertRaises(ValueError, atomfs.Tree, limit)
        self.assertRaises(ValueError, lambda: atomfs.Tree(limits=4))  # type: ignore[arg-type]
        for limits in atomfs.Limits:
            self.assertRaises(ValueError, atomfs.Tree, limits.nodes + 1, limits=limits)
            with atomfs.Tree(limits=limits) as tree:
                self.assertEqual((tree.limit, tree.limits), (limits.nodes, limits))

    def test_limits_of_names_and_files(self) -> None:
        """What each set of limits takes at most, and the version of the journal."""
        headers = (
            "atomfs-journal 1\n",
            "atomfs-journal 3\nstart\ndir /\nentries\n",
            "atomfs-journal 4\nstart\ndir /\nentries\n",
        )
        for limits, header in zip(atomfs.Limits, headers):
            name = "/" + "n" * limits.name_bytes
            with self.subTest(limits), atomfs.Tree(limits=limits) as tree:
                tree.mknod(name)
                self.assertEqual(tree.write(name, limits.file_bytes - 1, b"x"), 1)
                self.assertEqual(tree.stat(name), (False, limits.file_bytes))
                self.fails(OSError, errno.EFBIG, lambda: tree.write(name, limits.file_bytes, b"x"), name)
                self.fails(OSError, errno.ENAMETOOLONG, lambda: tree.mknod(name + "n"), name + "n")
                self.assertTrue(tree.journal().startswith(header + "begin 1 0 mknod"))
                self.assertEqual(atomfs.check(tree.journal()), "lawful")

    def test_copies(self) -> None:
        """A copy is a tree of its own, by the same limits, whose journal begins at what it has."""
        tree = atomfs.Tree(10, limits=atomfs.Limits.V1)
        self.addCleanup(tree.close)
        tree.mkdir("/a")
        tree.mknod("/a/f")
        tree.write("/a/f", 0, bytes(range(256)))
        copies = [copy.copy(tree), copy.deepcopy(tree), pickle.loads(pickle.dumps(tree))]
        tree.unlink("/a/f")
        tree.rename("/a", "/b")
        for one in copies:
            with one:
                self.assertTrue(one.journal().endswith("entries\n"))
                self.assertEqual(
                    (one.read("/a/f"), len(one), one.limit, one.limits), (bytes(range(256)), 3, 10, atomfs.Limits.V1)
                )
                one.unlink("/a/f")
                self.assertEqual(one.check(), "lawful")
        self.assertEqual(list(tree), ["/", "/b"])
        self.tree.close()
        self.assertRaises(atomfs.ClosedError, copy.copy, self.tree)
        self.assertRaises(atomfs.ClosedError, pickle.dumps, self.tree)

    def test_context(self) -> None:
        with atomfs.Tree() as tree:
            self.assertFalse(tree.closed)
            self.assertIn("open", repr(tree))
        self.assertIn("closed", repr(tree))


class Journals(OfTree):
    def test_journal(self) -> None:
        self.tree.mkdir("/a")
        self.assertEqual(
            self.tree.journal(), "atomfs-journal 4\nstart\ndir /\nentries\nbegin 1 0 mkdir /a\ncommit 1\nreturn 1 ok\n"
        )

    def test_check(self) -> None:
        """A verdict on any journal, and the line of what is none."""
        self.assertEqual(atomfs.check("atomfs-journal 1\n"), "lawful")
        with self.assertRaises(atomfs.Error) as raised:
            atomfs.check("no journal")
        self.assertEqual((raised.exception.status, raised.exception.about), (atomfs.Status.BAD_HEADER, 1))

    def test_a_journal_that_is_not_lawful(self) -> None:
        self.assertEqual(
            atomfs.check(b"atomfs-journal 1\nbegin 1 0 mkdir /a\ncommit 1\nreturn 1 failed ENOENT\n"),
            "fault 3 WrongReply",
        )

    def test_run(self) -> None:
        self.assertEqual(
            atomfs.run("atomfs 1\nschedule\nfinish\n"),
            "atomfs-journal 1\ntree\ndir /\nbegun 0 committed 0 returned 0\n",
        )

    def test_checkpoint(self) -> None:
        """The journal in pieces: each of them is lawful, and the tree stays."""
        self.tree.mkdir("/a")
        first = self.tree.checkpoint()
        self.assertEqual(first, "atomfs-journal 4\nstart\ndir /\nentries\nbegin 1 0 mkdir /a\ncommit 1\nreturn 1 ok\n")
        self.tree.mkdir("/a/b")
        second = self.tree.checkpoint()
        self.assertTrue(second.endswith("begin 1 0 mkdir /a/b\ncommit 1\nreturn 1 ok\n"))
        self.assertEqual([atomfs.check(piece) for piece in (first, second)], ["lawful", "lawful"])
        self.assertEqual(self.tree.readdir("/a"), ["b"])
        seat = self.tree.seat()
        number = seat.begin.mkdir("/c")
        with self.assertRaises(atomfs.UnderWayError) as raised:
            self.tree.checkpoint()
        self.assertEqual(raised.exception.about, number)
        seat.finish()
        self.tree.checkpoint()
        self.assertEqual(self.tree.stat("/"), Stat(True, 2))


class Seats(OfTree):
    def test_each_begin(self) -> None:
        """Each call of a seat comes to the reply of its kind."""
        seat = self.tree.seat()
        rows: Rows = (
            (seat.begin.mkdir, ("/a",), None),
            (seat.begin.mknod, ("/a/f",), None),
            (seat.begin.write, ("/a/f", 1, bytearray(b"hello")), 5),
            (seat.begin.read, ("/a/f", 1, 3), b"hel"),
            (seat.begin.read, ("/a/f", 0, 2**64 - 1), b"\0hello"),
            (seat.begin.truncate, ("/a/f", 2), None),
            (seat.begin.stat, ("/a/f",), Stat(False, 2)),
            (seat.begin.readdir, ("/a",), ["f"]),
            (seat.begin.readdir, (b"/a",), [b"f"]),
            (seat.begin.readdir, (pathlib.PurePosixPath("/a"),), ["f"]),
            (seat.begin.mkdir, ("/b",), None),
            (seat.begin.rename, ("/a/f", "/b/g"), None),
            (seat.begin.exchange, ("/a", "/b"), None),
            (seat.begin.unlink, ("/a/g",), None),
            (seat.begin.rmdir, ("/b",), None),
            (seat.begin.readdir, ("/a",), []),
        )
        for at, (begin, given, wanted) in enumerate(rows):
            with self.subTest(at):
                self.assertEqual(begin(*given), at + 1)
                self.assertEqual(seat.finish(), wanted)
                self.assertEqual(seat.reply(), wanted)

    def test_great_numbers(self) -> None:
        """What is greater than 64 bits is not taken for what is left of it."""
        self.tree.mknod("/f")
        seat = self.tree.seat()
        seat.begin.read("/f", 2**64, 2**64)
        self.assertEqual(seat.finish(), b"")
        seat.begin.write("/f", 2**64, b"x")
        self.fails(OSError, errno.EFBIG, seat.finish, "/f")
        seat.begin.truncate("/f", 2**64 + 1)
        self.fails(OSError, errno.EFBIG, seat.finish, "/f")
        for call in (
            lambda: seat.begin.read("/f", -1, 1),
            lambda: seat.begin.read("/f", 1, -1),
            lambda: seat.begin.truncate("/f", -1),
        ):
            self.assertRaises(ValueError, call)
        self.assertEqual(self.tree.read("/f", 2**64, 2**64), b"")
        self.assertEqual(self.tree.stat("/f").size, 0)

    def test_errors(self) -> None:
        seat = self.tree.seat()
        seat.begin.rename("/a", "/b")
        self.fails(FileNotFoundError, errno.ENOENT, seat.finish, "/a", "/b")
        self.fails(OSError, errno.EINVAL, lambda: seat.begin.mkdir("a"), "a")
        self.assertEqual(seat.step().did, Did.IDLE)
        seat.begin.stat("/")
        self.refuses(atomfs.Status.SEAT_BUSY, lambda: seat.begin.stat("/"))
        self.refuses(atomfs.Status.NO_REPLY, seat.reply)

    def refuses(self, status: atomfs.Status, call: typing.Callable[[], object]) -> None:
        with self.assertRaises(atomfs.Error) as raised:
            call()
        self.assertEqual(raised.exception.status, status)

    def test_replies_and_checkpoints(self) -> None:
        """A reply is not told after a checkpoint, where another call has the number."""
        seat, other = self.tree.seat(), self.tree.seat()
        self.refuses(atomfs.Status.NO_REPLY, seat.reply)
        seat.begin.mkdir("/a")
        seat.finish()
        self.tree.checkpoint()
        other.begin.mkdir("/b")
        other.finish()
        self.refuses(atomfs.Status.NO_REPLY, seat.reply)

    def test_names(self) -> None:
        """The name of a seat stands in the journal, in each piece of it, as a comment."""
        writer = self.tree.seat(name="writer")
        self.assertEqual((writer.name, self.tree.seat().name), ("writer", None))
        writer.begin.mkdir("/a")
        writer.finish()
        begins = "begin 1 1 mkdir /a\ncommit 1\nreturn 1 ok\n"
        self.assertEqual(self.tree.journal(), "atomfs-journal 4\n# seat 1 writer\nstart\ndir /\nentries\n" + begins)
        self.assertEqual(
            (self.tree.check(), self.tree.checkpoint()),
            ("lawful", self.tree.journal().replace("dir /a\n", "") + begins),
        )
        for name in ("", "Writer", "a b", "a\n", "finish", "a" * 17, "writer"):
            with self.subTest(name):
                self.assertRaises(ValueError, self.tree.seat, name)
        self.assertEqual(self.tree.seat().number, 3)
        with atomfs.Tree(limits=atomfs.Limits.V1) as tree:
            tree.seat(name="w")
            self.assertEqual((tree.journal(), tree.check()), ("atomfs-journal 1\n# seat 1 w\n", "lawful"))

    def test_helping(self) -> None:
        """A rename helps a mkdir that is half-way below the directory that it moves."""
        self.tree.mkdir("/a")
        self.tree.mkdir("/a/d")
        maker, mover = self.tree.seat(), self.tree.seat()
        number = maker.begin.mkdir("/a/d/x")
        for _ in range(5):
            maker.step()
        mover.begin.rename("/a", "/b")
        steps: typing.List[atomfs.Step] = []
        while not steps or steps[-1].did != Did.RETURN:
            steps.append(mover.step())
        self.assertIn(atomfs.Step(Did.HELP, number), steps)
        maker.finish()
        self.assertEqual(self.tree.readdir("/b/d"), ["x"])

    def test_step_any(self) -> None:
        """Of two calls, the first of which waits for the second, the second goes on; then the first does."""
        self.assertIsNone(self.tree.step_any())
        one, other = self.tree.seat(), self.tree.seat()
        number = other.begin.mkdir("/a")
        self.assertEqual(other.step().did, Did.TAKE)
        one.begin.rmdir("/a")
        self.assertEqual(one.step(), atomfs.Step(Did.WAIT, number))
        self.assertEqual(self.tree.step_any(), (other.number, atomfs.Step(Did.COMMIT, 0)))
        went = list(iter(self.tree.step_any, None))
        self.assertEqual([seat for seat, step in went if step.did == Did.RETURN], [one.number, other.number])
        self.assertNotIn(Did.WAIT, [step.did for _, step in went])
        self.assertIsNone(other.reply())
        self.assertIsNone(one.reply())
        self.assertFalse(self.tree.exists("/a"))

    def test_waits(self) -> None:
        """A call of the tree that meets a node of another seat stays under way, and the tree goes on with others."""
        self.tree.mkdir("/a")
        seat = self.tree.seat()
        seat.begin.mkdir("/a/x")
        while seat.step().did != Did.COMMIT:
            pass
        with self.assertRaises(atomfs.WaitsError) as raised:
            self.tree.stat("/a/x")
        waiting = raised.exception
        self.assertRaises(atomfs.WaitsError, waiting.seat.finish)
        seat.finish()
        self.assertEqual(waiting.seat.finish(), Stat(True, 0))
        self.assertEqual(self.tree.stat("/a"), Stat(True, 1))


class Threads(OfTree):
    def together(self, works: typing.Iterable[typing.Callable[[], object]]) -> None:
        """Runs works on threads of their own, and raises what one of them raised."""
        raised = []

        def guarded(work: typing.Callable[[], object]) -> None:
            try:
                work()
            except Exception as error:
                raised.append(error)

        threads = [threading.Thread(target=guarded, args=(work,)) for work in works]
        for thread in threads:
            thread.start()
        for thread in threads:
            thread.join()
        self.assertEqual(raised, [])

    def test_one_tree(self) -> None:
        """Threads share a tree without a lock of their own."""
        self.tree.mknod("/f")

        def work(thread: int) -> None:
            for round_ in range(200):
                self.tree.mkdir(f"/d{thread}")
                self.tree.write("/f", thread, bytes([thread]))
                self.assertEqual(self.tree.read("/f", thread, 1), bytes([thread]))
                self.tree.rmdir(f"/d{thread}")

        self.together([functools.partial(work, thread) for thread in range(4)])
        self.assertEqual(self.tree.readdir("/"), ["f"])

    def test_seats(self) -> None:
        """Each thread makes the steps of its own seat, so calls meet half-way."""

        def work(seat: typing.Any) -> None:
            begins: typing.Tuple[typing.Callable[[], object], ...] = (
                lambda: seat.begin.mkdir("/d"),
                lambda: seat.begin.rename("/d", "/e"),
                lambda: seat.begin.rmdir("/e"),
            )
            for _ in range(100):
                for begin in begins:
                    begin()
                    try:
                        seat.finish(wait=True)
                    except OSError:
                        pass

        seats = [self.tree.seat() for _ in range(4)]
        self.together([functools.partial(work, seat) for seat in seats])
        self.assertEqual(self.tree.journal().count("\nreturn "), 1200)

    def seats_of(self, pattern: str) -> typing.List[str]:
        """The seats of the calls of the journal that match."""
        return re.findall(rf"(?m)^begin \d+ (\d+) {pattern}", self.tree.journal())

    def test_seat_of_a_thread(self) -> None:
        """Each thread has one seat, and what a thread that has ended leaves is of another."""
        self.tree.mkdir("/main")
        for round_ in range(3):
            barrier = threading.Barrier(4)

            def work(thread: int) -> None:
                self.tree.mkdir(f"/{round_}_{thread}")
                barrier.wait(10)
                self.tree.stat(f"/{round_}_{thread}")

            self.together([functools.partial(work, thread) for thread in range(4)])
            self.assertEqual(sorted(self.seats_of(f"mkdir /{round_}_")), ["1", "2", "3", "4"])
            for thread in range(4):
                self.assertEqual(self.seats_of(f"stat /{round_}_{thread}"), self.seats_of(f"mkdir /{round_}_{thread}"))
        self.assertEqual((self.seats_of("mkdir /main"), self.tree.seat().number), (["0"], 5))

    def test_seat_of_a_call_that_waits(self) -> None:
        """A call that waits keeps the seat; its thread goes on with another, and no thread gets the first."""
        seat = self.tree.seat()
        seat.begin.mkdir("/a")
        seat.step()
        waiting = []

        def wait() -> None:
            with self.assertRaises(atomfs.WaitsError) as raised:
                self.tree.stat("/")
            waiting.append(raised.exception.seat)

        self.together([wait])
        seat.finish()
        self.assertEqual(waiting[0].number, 2)
        self.together([lambda: self.tree.stat("/a")])
        self.assertEqual(self.seats_of("stat /a"), ["3"])
        self.assertEqual(waiting[0].finish(), Stat(True, 1))

    def test_closed_tree(self) -> None:
        """A thread that comes to a closed tree gets no seat, and its error."""
        self.tree.close()
        self.together([lambda: self.assertRaises(atomfs.ClosedError, self.tree.stat, "/")])

    def test_pieces(self) -> None:
        """A thread hands the journal out whenever no call is under way, and no other misses a reply by that."""
        pieces, working = [], [True, True]

        def work(thread: int) -> None:
            seat = self.tree.seat()
            for _ in range(200):
                seat.begin.mkdir(f"/d{thread}")
                seat.finish(wait=True)
                seat.begin.readdir("/")
                self.assertIn(f"d{thread}", seat.finish(wait=True))  # type: ignore[arg-type]
                seat.begin.rmdir(f"/d{thread}")
                seat.finish(wait=True)
            working[thread] = False

        def hand_out() -> None:
            while any(working):
                try:
                    pieces.append(self.tree.checkpoint())
                except atomfs.UnderWayError:
                    time.sleep(0)

        self.together([lambda: work(0), lambda: work(1), hand_out])
        pieces.append(self.tree.checkpoint())
        self.assertEqual(sum(piece.count("\nreturn ") for piece in pieces), 1200)
        self.assertEqual({atomfs.check(piece) for piece in pieces}, {"lawful"})


class Names(unittest.TestCase):
    def test_words_of_os(self) -> None:
        """The words of `os` and `shutil` do what those of the calls do."""
        with atomfs.Tree() as tree:
            tree.touch("/f")
            tree.touch("/f")
            self.assertRaises(FileExistsError, tree.touch, "/f", exist_ok=False)
            tree.makedirs("/d/e")
            self.assertRaises(FileExistsError, tree.touch, "/d")
            tree.write("/f", 0, b"text")
            self.assertEqual(
                (tree.isdir("/d"), tree.isfile("/f"), tree.isdir("/f"), tree.isfile("/none")),
                (True, True, False, False),
            )
            self.assertEqual((tree.getsize("/f"), tree.getsize("/d")), (4, 1))
            self.assertRaises(FileNotFoundError, tree.getsize, "/none")
            tree.copytree("/d", "/c")
            self.assertRaises(NotADirectoryError, tree.copytree, "/f", "/c2")
            self.assertRaises(FileExistsError, tree.copytree, "/d", "/c")
            self.assertEqual(tree.move("/f", "/d"), "/d/f")
            tree.touch("/f")
            self.assertRaises(shutil.Error, tree.move, "/f", "/d")
            self.assertEqual(
                (tree.move("/f", "/g"), tree.last_calls(2)), ("/g", ["stat /g: failed ENOENT", "rename /f /g: ok"])
            )
            tree.replace("/g", "/d/f")
            tree.remove("/d/f")
            self.assertEqual((list(tree), tree.check()), (["/", "/c", "/c/e", "/d", "/d/e"], "lawful"))

    def test_near_words(self) -> None:
        with atomfs.Tree() as tree:
            for name, near in (
                ("is_fil", "is_file"),
                ("ls", "listdir"),
                ("makedir", "mkdir"),
                ("chmod", "atomfs.patch"),
            ):
                with self.assertRaisesRegex(
                    AttributeError, f"'Tree' object has no attribute '{name}': {near} is near to it"
                ):
                    getattr(tree, name)
            with self.assertRaisesRegex(AttributeError, "has no attribute 'zzzz'$"):
                tree.zzzz  # type: ignore[attr-defined]
            self.assertFalse(hasattr(tree, "__fspath__"))

    def test_errors_name_the_call(self) -> None:
        with atomfs.Tree() as tree:
            seat = tree.seat("writer")
            self.assertEqual(repr(seat), f"<atomfs.Seat {seat.number} 'writer': no call yet>")
            seat.begin.rename("/a", "/b")
            self.assertEqual(repr(seat), f"<atomfs.Seat {seat.number} 'writer': rename /a /b>")
            with self.assertRaisesRegex(atomfs.Error, "the seat has a call under way: rename /a /b$"):
                seat.begin.mkdir("/c")
            for call in (tree.checkpoint, tree.forget):
                with self.assertRaisesRegex(atomfs.UnderWayError, "a call is under way: rename /a /b$") as raised:
                    call()
                self.assertEqual(raised.exception.about, 1)
            self.assertRaises(FileNotFoundError, seat.finish)
            self.assertIsInstance(tree.checkpoint(), str)


if __name__ == "__main__":
    unittest.main()
