"""What `Tree` makes of several calls, and `Path`: the words that a Python programmer knows."""
import copy
import errno
import io
import pathlib
import pickle
import shutil
import stat
import sys
import tempfile
import threading
import typing
import unittest

import atomfs
from atomfs import Path, Stat

# Rows of a test.
Rows = typing.Iterable[typing.Tuple[typing.Any, ...]]
DRAWN = """\
/
├── a/
│   ├── b/
│   │   └── f (3 bytes)
│   └── g (1 byte)
└── z/"""


class OfTree(unittest.TestCase):
    """A test with a tree whose journal has to be lawful at its end."""

    def setUp(self) -> None:
        self.tree = atomfs.Tree(1000)
        self.addCleanup(self.tree.close)

    def tearDown(self) -> None:
        if not self.tree.closed:
            self.assertEqual(self.tree.check(), "lawful")

    def fill(self) -> None:
        self.tree.makedirs("/a/b")
        self.tree.write_bytes("/a/b/f", b"abc")
        self.tree.write_bytes("/a/g", b"g")
        self.tree.mkdir("/z")

    def fails(self, kind: typing.Type[OSError], number: int, call: typing.Callable[[], object], *paths: object) -> None:
        """A call that raises an `OSError` of this class, number and these paths, and leaves the tree as it was."""
        before = self.tree.tree()
        with self.assertRaises(OSError) as raised:
            call()
        error = raised.exception
        self.assertEqual((type(error), error.errno), (kind, number))
        self.assertEqual((error.filename, *([error.filename2] if error.filename2 else [])), paths)
        self.assertEqual(self.tree.tree(), before)


class Looks(OfTree):
    def test_views(self) -> None:
        """`repr`, `str`, `len`, iteration and `in`: without a call, but for `in`."""
        self.assertEqual(repr(self.tree), "<atomfs.Tree open: 1 of 1,000 nodes, 0 calls, Limits.V3>")
        self.assertEqual((str(self.tree), len(self.tree), list(self.tree)), ("/", 1, ["/"]))
        self.fill()
        calls = self.tree.calls
        self.assertEqual(str(self.tree), DRAWN)
        self.assertEqual(repr(self.tree), f"<atomfs.Tree open: 6 of 1,000 nodes, {calls} calls, Limits.V3>")
        self.assertEqual(list(self.tree), ["/", "/a", "/a/b", "/a/b/f", "/a/g", "/z"])
        self.assertEqual((len(self.tree), self.tree.calls), (6, calls))
        self.assertTrue(all(path in self.tree for path in self.tree) and b"/a/g" in self.tree and "/x" not in self.tree)
        self.assertTrue(self.tree)
        self.tree.close()
        self.assertEqual((repr(self.tree), str(self.tree), bool(self.tree)), (*("<atomfs.Tree closed>",) * 2, True))
        self.assertRaises(atomfs.ClosedError, len, self.tree)
        self.assertRaises(atomfs.ClosedError, list, self.tree)
        self.assertRaises(atomfs.ClosedError, lambda: "/" in self.tree)

    def test_names_as_they_are(self) -> None:
        """Names with any bytes, and a drawn tree on lines of its own."""
        self.tree.mknod(b"/\xff\n %")
        self.assertEqual(list(self.tree), ["/", "/\udcff\n %"])
        self.assertIn(list(self.tree)[1], self.tree)
        self.assertEqual(str(self.tree), "/\n└── \ufffd? % (0 bytes)")

    def test_drawn_in_part(self) -> None:
        """Of many nodes the first 40 are drawn, and the others counted; a branch goes on where more of it follows."""
        for at in range(60):
            self.tree.mknod(f"/{at:02}")
        lines = str(self.tree).splitlines()
        self.assertEqual((len(lines), lines[39], lines[40]), (41, "├── 38 (0 bytes)", "and 21 more"))

    def test_calls(self) -> None:
        """How many calls have begun, by the tree and by seats, and the last of them with their replies."""
        self.tree.mkdir("/a")
        seat = self.tree.seat()
        seat.begin.mkdir("/b")
        self.assertEqual((self.tree.calls, self.tree.last_calls()), (2, ["mkdir /a: ok", "mkdir /b"]))
        for at in range(40):
            self.assertRaises(FileExistsError, self.tree.mkdir, "/a")
        self.assertEqual((self.tree.calls, len(self.tree.last_calls())), (42, 30))
        self.assertEqual(self.tree.last_calls(2), ["mkdir /a: failed EEXIST"] * 2)
        seat.finish()
        self.tree.checkpoint()
        self.assertEqual((self.tree.calls, self.tree.last_calls()), (0, []))
        self.tree.mknod("/f")
        self.tree.write("/f", 0, bytes(1000))
        self.assertEqual(self.tree.last_calls(1), ["write /f 0 " + "0" * 89 + "..: wrote 1000"])

    def test_stat(self) -> None:
        """The fields of a stat that a tree has, and what it says of the others."""
        self.fill()
        of_file, of_root = self.tree.stat("/a/b/f"), self.tree.stat("/")
        self.assertEqual((of_file, of_file.st_size), (Stat(False, 3), 3))
        self.assertTrue(
            stat.S_ISREG(of_file.st_mode) and stat.S_ISDIR(of_root.st_mode) and not stat.S_ISDIR(of_file.st_mode)
        )
        for field, words in (
            ("st_mtime", "times"),
            ("st_uid", "owners"),
            ("st_ino", "numbers of nodes, devices and links"),
        ):
            with self.assertRaisesRegex(AttributeError, f"{field}: a tree keeps no {words}"):
                getattr(of_file, field)

    def test_kinds(self) -> None:
        self.fill()
        rows: Rows = (("/", True), ("/a/b", True), ("/a/g", False), ("/x", None), ("/a/g/x", None), (b"/z", True))
        for path, is_dir in rows:
            kinds = self.tree.exists(path), self.tree.is_dir(path), self.tree.is_file(path)
            self.assertEqual(kinds, (is_dir is not None, is_dir is True, is_dir is False))
        self.fails(OSError, errno.EINVAL, lambda: self.tree.is_dir("a"), "a")


class Directories(OfTree):
    def test_makedirs(self) -> None:
        self.tree.makedirs("/a/b/c")
        self.tree.makedirs(pathlib.PurePosixPath("/a/b/c"), exist_ok=True)
        self.fails(FileExistsError, errno.EEXIST, lambda: self.tree.makedirs("/a/b/c"), "/a/b/c")
        self.tree.mknod("/f")
        self.fails(FileExistsError, errno.EEXIST, lambda: self.tree.makedirs("/f", exist_ok=True), "/f")
        self.fails(NotADirectoryError, errno.ENOTDIR, lambda: self.tree.makedirs("/f/g"), "/f/g")
        self.fails(OSError, errno.ENAMETOOLONG, lambda: self.tree.makedirs("/x/" + "n" * 256), "/x/" + "n" * 256)
        self.assertEqual(list(self.tree), ["/", "/a", "/a/b", "/a/b/c", "/f"])
        self.tree.makedirs("//s//t///u")
        self.assertEqual(list(self.tree)[5:], ["/s", "/s/t", "/s/t/u"])

    def test_makedirs_of_threads(self) -> None:
        """Threads that make branches with one trunk come to all of them."""
        raised = []

        def work(thread: int) -> None:
            try:
                for at in range(30):
                    self.tree.makedirs(f"/{at}/d/{thread}")
            except OSError as error:
                raised.append(error)

        threads = [threading.Thread(target=work, args=(thread,)) for thread in range(4)]
        for thread in threads:
            thread.start()
        for thread in threads:
            thread.join()
        self.assertEqual((raised, len(self.tree)), ([], 1 + 30 * 6))

    def test_walk(self) -> None:
        self.fill()
        down = [("/", ["a", "z"], []), ("/a", ["b"], ["g"]), ("/a/b", [], ["f"]), ("/z", [], [])]
        self.assertEqual(list(self.tree.walk()), down)
        self.assertEqual(list(self.tree.walk("/a")), down[1:3])
        self.assertEqual([path for path, *_ in self.tree.walk(topdown=False)], ["/a/b", "/a", "/z", "/"])
        self.assertEqual(list(self.tree.walk("/x")), [])
        errors: typing.List[OSError] = []
        self.assertEqual(list(self.tree.walk("/x", onerror=errors.append)), [])
        self.assertEqual([error.filename for error in errors], ["/x"])
        for path, directories, _ in self.tree.walk():
            directories[:] = []
            self.assertEqual(path, "/")
        walked = self.tree.walk()
        next(walked)
        self.tree.rmtree("/a")
        self.assertEqual(list(walked), [("/z", [], [])])

    def test_glob(self) -> None:
        self.fill()
        self.tree.mknod("/z/.f")
        rows: Rows = (
            ("/*", ["/a", "/z"]),
            ("/a/?", ["/a/b", "/a/g"]),
            ("/*/[!b]", ["/a/g"]),
            ("/**/f", ["/a/b/f"]),
            ("/**/*f", ["/a/b/f", "/z/.f"]),
            ("/a/**", ["/a", "/a/b", "/a/b/f", "/a/g"]),
            ("/**/", ["/", "/a", "/a/b", "/z"]),
            ("/**/**/b", ["/a/b"]),
            ("/a/g/*", []),
            ("/x", []),
            ("/a/b", ["/a/b"]),
        )
        for pattern, paths in rows:
            with self.subTest(pattern):
                self.assertEqual(self.tree.glob(pattern), paths)
        self.fails(OSError, errno.EINVAL, lambda: self.tree.glob("a/*"), "a/*")

    def test_rmtree(self) -> None:
        self.fill()
        self.fails(FileNotFoundError, errno.ENOENT, lambda: self.tree.rmtree("/x"), "/x")
        self.fails(NotADirectoryError, errno.ENOTDIR, lambda: self.tree.rmtree("/a/g"), "/a/g")
        self.tree.rmtree("/x", ignore_errors=True)
        self.tree.rmtree("/a")
        self.assertEqual(list(self.tree), ["/", "/z"])
        self.tree.rmtree("/")
        self.assertEqual(list(self.tree), ["/"])

    def test_copy(self) -> None:
        self.fill()
        self.tree.copy("/a", "/c")
        self.assertEqual(list(self.tree)[5:], ["/c", "/c/b", "/c/b/f", "/c/g", "/z"])
        self.tree.copy("/c/b/f", "/c/g")
        self.tree.copy("/c/b/f", "/new")
        self.assertEqual((self.tree.read("/c/g"), self.tree.read("/new")), (b"abc", b"abc"))
        self.fails(FileExistsError, errno.EEXIST, lambda: self.tree.copy("/a", "/z"), "/z")
        self.fails(IsADirectoryError, errno.EISDIR, lambda: self.tree.copy("/new", "/z"), "/z")
        self.fails(FileNotFoundError, errno.ENOENT, lambda: self.tree.copy("/x", "/y"), "/x")
        for into in ("/a", "/a/b/c", "//a/b/c", "/a//b/c"):
            self.fails(OSError, errno.EINVAL, lambda: self.tree.copy("/a", into), "/a", into)
        self.fails(OSError, errno.EINVAL, lambda: self.tree.copy("/", "/z/r"), "/", "/z/r")
        for same in ("/new", "//new"):
            self.assertRaises(shutil.SameFileError, self.tree.copy, "/new", same)
        self.assertEqual(self.tree.read("/new"), b"abc")

    def test_rmtree_that_is_refused(self) -> None:
        """What cannot be removed is raised, or left with what is above it."""
        self.fill()
        self.tree.rmdir, refused = lambda path: self.tree.unlink("/x"), self.tree.rmdir  # type: ignore[assignment]
        self.assertRaises(FileNotFoundError, self.tree.rmtree, "/a")
        self.tree.rmtree("/a", ignore_errors=True)
        self.tree.rmdir = refused  # type: ignore[assignment]
        self.assertEqual(list(self.tree), ["/", "/a", "/a/b", "/z"])

    def test_copy_without_room(self) -> None:
        """Of a directory that is not copied whole nothing stays."""
        with atomfs.Tree(9) as tree:
            tree.makedirs("/a/b/c")
            tree.mknod("/a/b/f")
            tree.mknod("/a/g")
            before = tree.tree()
            with self.assertRaisesRegex(OSError, "All 9 nodes of the tree are in use"):
                tree.copy("/a", "/d")
            self.assertEqual(tree.tree(), before)


class Files(OfTree):
    def test_bytes_and_texts(self) -> None:
        self.assertEqual(self.tree.write_bytes("/f", b"longer"), 6)
        self.assertEqual(self.tree.write_bytes("/f", bytearray(b"abc")), 3)
        self.assertEqual((self.tree.read_bytes("/f"), self.tree.read_text("/f")), (b"abc", "abc"))
        self.assertEqual(self.tree.write_text("/t", "\N{SNOWMAN}\r\n"), 3)
        self.assertEqual((self.tree.read("/t"), self.tree.read_text("/t")), (b"\xe2\x98\x83\r\n", "\N{SNOWMAN}\n"))
        self.assertEqual(self.tree.read_text("/t", newline=""), "\N{SNOWMAN}\r\n")
        self.tree.write_text("/t", "a\nb", "utf-16-le", newline="\r\n")
        self.assertEqual(self.tree.read("/t"), "a\r\nb".encode("utf-16-le"))
        self.assertRaises(UnicodeEncodeError, self.tree.write_text, "/t", "\N{SNOWMAN}", "ascii")
        self.assertRaisesRegex(ValueError, "illegal newline value", self.tree.write_text, "/t", "\n", newline="x")
        self.tree.write_bytes("/t", b"\xff")
        self.assertRaises(UnicodeDecodeError, self.tree.read_text, "/t")
        with self.assertRaisesRegex(TypeError, "write_bytes takes bytes, and this is str: encode it"):
            self.tree.write_bytes("/f", "text")  # type: ignore[arg-type]
        with self.assertRaisesRegex(TypeError, "write_text takes str, and this is bytes"):
            self.tree.write_text("/f", b"bytes")  # type: ignore[arg-type]
        self.assertRaises(TypeError, self.tree.write_bytes, "/new", 3)
        self.assertEqual((self.tree.read("/f"), self.tree.exists("/new")), (b"abc", False))

    @unittest.skipIf(sys.version_info < (3, 10), "the encoding of the locale has a name from 3.10 on")
    def test_encoding_of_the_locale(self) -> None:
        self.assertEqual(self.tree.write_text("/t", "text", "locale"), 4)
        self.assertEqual(self.tree.read_text("/t", "locale"), "text")
        with self.tree.open("/t", "a", encoding="locale") as file:
            file.write("+")
        self.assertEqual(self.tree.read("/t"), b"text+")

    def test_a_write_that_fails(self) -> None:
        """The file is as it was, and one that was not there is not made."""
        self.tree = atomfs.Tree(limits=atomfs.Limits.V2)
        self.addCleanup(self.tree.close)
        self.tree.write_bytes("/f", b"abc")
        large = bytes(1_048_577)
        for path in ("/f", "/new"):
            self.fails(OSError, errno.EFBIG, lambda: self.tree.write_bytes(path, large), path)
            self.fails(FileNotFoundError, errno.ENOENT, lambda: self.tree.write_text("/x/f", "t"), "/x/f")

    def test_open(self) -> None:
        """Each mode in text and bytes, and what a file object is asked for."""
        with self.tree.open("/t", "w") as file:
            self.assertIsInstance(file, io.TextIOWrapper)
            self.assertEqual((file.name, file.mode, file.encoding, file.write("one\ntwo\n")), ("/t", "w", "utf-8", 8))  # type: ignore[attr-defined]
        with self.tree.open(pathlib.PurePosixPath("/t"), "a") as file:
            file.write("\N{SNOWMAN}")
        with self.tree.open("/t") as file:
            self.assertEqual(list(file), ["one\n", "two\n", "\N{SNOWMAN}"])
        with self.tree.open("/t", "r+") as file:
            file.write("ONE")
            file.seek(0)
            self.assertEqual(file.readline(), "ONE\n")
        with self.tree.open(b"/b", "xb") as file:
            file.write(b"0123")
        with self.tree.open("/b", "rb+") as file:
            file.seek(2)
            file.write(b"x")
        with self.tree.open("/b", "ab", buffering=0) as file:
            file.write(b"!")
        self.assertEqual(self.tree.read("/b"), b"01x3!")
        with self.tree.open("/b", "w+b") as file:
            file.write(b"new")
            file.seek(1)
            self.assertEqual(file.read(), b"ew")
        with self.tree.open("/l", "w", 1, newline="\r\n") as file:
            file.write("line\n")
            self.assertEqual(self.tree.read("/l"), b"line\r\n")

    def test_as_a_raw_file_of_the_disk(self) -> None:
        """What a file object without a buffer refuses is what one of the disk refuses, and it stays where it was."""
        self.tree.write_bytes("/f", b"abc")
        calls = (
            lambda file: file.readinto(b"abc"),
            lambda file: file.seek("1"),
            lambda file: file.truncate("1"),
            lambda file: (file.close(), file.readable()),
            lambda file: (file.close(), file.writable()),
            lambda file: (file.close(), file.seekable()),
            lambda file: (file.close(), file.tell()),
        )
        with tempfile.NamedTemporaryFile() as disk:
            pathlib.Path(disk.name).write_bytes(b"abc")
            for row, call in enumerate(calls):
                with self.subTest(row), open(disk.name, "rb+", 0) as real, self.tree.open("/f", "rb+", 0) as file:
                    found = [(type(self.raised(call, one)), one.closed or one.tell()) for one in (file, real)]
                    self.assertEqual(found[0], found[1])
        # Those of the disk take such numbers before 3.10.
        with self.tree.open("/f", "rb+", 0) as file:
            moves: typing.Tuple[typing.Callable[..., object], ...] = file.seek, file.truncate
            for move in moves:
                self.assertRaises(TypeError, move, 1.5)

    @staticmethod
    def raised(call: typing.Callable[..., object], *given: typing.Any) -> typing.Optional[Exception]:
        """The exception of a call, if it raises one."""
        try:
            call(*given)
        except Exception as error:
            return error
        return None

    def test_refused_opens(self) -> None:
        self.tree.write_bytes("/f", b"abc")
        self.fails(FileExistsError, errno.EEXIST, lambda: self.tree.open("/f", "x"), "/f")
        self.fails(FileNotFoundError, errno.ENOENT, lambda: self.tree.open("/x"), "/x")
        self.fails(IsADirectoryError, errno.EISDIR, lambda: self.tree.open("/", "w"), "/")
        self.fails(NotADirectoryError, errno.ENOTDIR, lambda: self.tree.open("/f/x", "w"), "/f/x")
        for given in (
            ("rw",),
            ("",),
            ("rr",),
            ("rbt",),
            ("rU",),
            ("b",),
            ("w", 0),
            ("wb", -1, "utf-8"),
            ("w", -1, None, None, "x"),
        ):
            with self.subTest(given):
                self.assertRaises(ValueError, self.tree.open, "/f", *given)
        self.assertRaises(LookupError, self.tree.open, "/f", "w", encoding="none")
        self.assertRaises(LookupError, self.tree.open, "/f", "w", errors="none")
        self.assertRaises(TypeError, self.tree.open, 3)
        self.assertEqual(self.tree.read("/f"), b"abc")

    def test_a_file_whose_path_went_away(self) -> None:
        self.tree.write_text("/f", "abc")
        file, after = self.tree.open("/f"), self.tree.open("/f", "r+")
        self.tree.rename("/f", "/g")
        self.assertRaises(FileNotFoundError, file.read)
        self.tree.write_text("/f", "other")
        self.assertEqual(file.read(), "other")
        after.write("x")
        self.tree.close()
        self.assertRaises(atomfs.ClosedError, after.flush)
        self.assertRaises(ValueError, after.close)


class Paths(OfTree):
    def setUp(self) -> None:
        super().setUp()
        self.fill()
        self.root = self.tree.path()

    def test_pure(self) -> None:
        """It is a pure path, and what pathlib makes of it is a path of the same tree."""
        path = Path("/a", "b/f", tree=self.tree)
        self.assertIsInstance(path, pathlib.PurePosixPath)
        self.assertEqual(
            (path, hash(path), str(path)),
            (pathlib.PurePosixPath("/a/b/f"), hash(pathlib.PurePosixPath("/a/b/f")), "/a/b/f"),
        )
        made = (
            path.parent,
            *path.parents,
            path / "x",
            path.with_name("g"),
            path.with_suffix(".t"),
            self.root.joinpath("a"),
            path.relative_to("/a"),
        )
        for one in made:
            self.assertIsInstance(one, Path)
            self.assertIs(one.tree, self.tree)
        self.assertEqual((repr(path), path.name, self.tree.path("/a/b/f")), ("atomfs.Path('/a/b/f')", "f", path))
        self.assertRaisesRegex(TypeError, "a Path is one of a tree", Path, "/a")

    def test_copies(self) -> None:
        """A copied path is of the same tree, and one that is deeply copied or pickled of a copy of its tree."""
        path = self.root / "a" / "g"
        self.assertIs(copy.copy(path).tree, self.tree)
        for other in (copy.deepcopy(path), pickle.loads(pickle.dumps(path))):
            self.addCleanup(other.tree.close)
            self.assertEqual((other, other.read_bytes(), other.tree is self.tree), (path, b"g", False))

    def test_looks(self) -> None:
        self.assertEqual([str(path) for path in self.root.iterdir()], ["/a", "/z"])
        self.assertEqual([str(path) for path in (self.root / "a").glob("*")], ["/a/b", "/a/g"])
        self.assertEqual([str(path) for path in self.root.rglob("f")], ["/a/b/f"])
        self.assertEqual([str(path) for path in self.root.glob(pathlib.PurePosixPath("a", "?"))], ["/a/b", "/a/g"])
        self.assertEqual(
            [(str(at), names, files) for at, names, files in (self.root / "a").walk()],
            [("/a", ["b"], ["g"]), ("/a/b", [], ["f"])],
        )
        file = self.root / "a" / "g"
        self.assertEqual(
            (file.stat(), file.lstat().st_size, file.exists(), file.is_file(), file.is_dir()),
            (Stat(False, 1), 1, True, True, False),
        )
        self.assertEqual((file.is_symlink(), file.is_mount(), self.root.is_mount()), (False, False, True))
        self.assertTrue(file.samefile("/a/g") and not file.samefile(self.root / "a"))
        self.assertTrue(
            file.samefile("//a//g") and self.tree.path("//a/g").samefile(file) and self.tree.path("//").is_mount()
        )
        self.assertRaises(FileNotFoundError, file.samefile, "/x")
        self.assertRaises(ValueError, self.root.glob, "")
        self.assertRaises(NotImplementedError, self.root.glob, "/a")
        self.assertRaises(NotImplementedError, self.root.rglob, "/f")

    def test_changes(self) -> None:
        path = self.root / "n" / "m"
        self.fails(FileNotFoundError, errno.ENOENT, path.mkdir, path)
        path.mkdir(parents=True)
        path.mkdir(exist_ok=True)
        path.mkdir(parents=True, exist_ok=True)
        self.fails(FileExistsError, errno.EEXIST, path.mkdir, path)
        file = path / "f"
        file.touch()
        file.touch()
        self.assertRaises(FileExistsError, file.touch, exist_ok=False)
        self.assertRaises(FileExistsError, file.mkdir, exist_ok=True)
        self.assertEqual((file.write_text("a\n"), file.read_text(), file.read_bytes()), (2, "a\n", b"a\n"))
        self.assertEqual(file.write_bytes(b"b"), 1)
        with file.open("a") as opened:
            opened.write("c")
        moved = file.rename("/moved")
        self.assertEqual((moved.read_text(), moved.tree is self.tree, file.exists()), ("bc", True, False))
        self.assertEqual(moved.replace(self.root / "a" / "g").copy("/copied").read_text(), "bc")
        moved.unlink(missing_ok=True)
        self.assertRaises(FileNotFoundError, moved.unlink)
        (self.root / "copied").unlink()
        path.rmdir()
        self.assertEqual(list(self.tree), ["/", "/a", "/a/b", "/a/b/f", "/a/g", "/n", "/z"])

    def test_resolve(self) -> None:
        self.assertEqual(str((self.root / "a/../../z").resolve(strict=True)), "/z")
        self.assertEqual(str(self.tree.path("a").absolute()), "/a")
        self.assertRaises(FileNotFoundError, (self.root / "x/../y").resolve, strict=True)
        self.fails(OSError, errno.EINVAL, self.tree.path("a").stat, self.tree.path("a"))

    def test_what_a_tree_has_not(self) -> None:
        for name, words in (
            *((name, "links") for name in ("symlink_to", "hardlink_to", "readlink")),
            *((name, "owners") for name in ("owner", "group")),
            *((name, "permissions") for name in ("chmod", "lchmod")),
            *((name, "working and no home directory") for name in ("cwd", "home", "expanduser")),
        ):
            with self.assertRaisesRegex(NotImplementedError, f"Path.{name}: a tree has no {words}"):
                getattr(self.root, name)()


if __name__ == "__main__":
    unittest.main()
