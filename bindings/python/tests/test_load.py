"""Trees that come from directories, zips and dictionaries, and go there; snapshots, and what differs."""
import copy
import errno
import io
import os
import pathlib
import pickle
import tempfile
import threading
import typing
import unittest
import zipfile

import atomfs
from atomfs import Limits, Snapshot, Tree

FILES = {"/a/b/f": b"abc", "/a/g": b"", "/e": None, "/z/\N{SNOWMAN} %": bytes(range(256))}

# A tree, of whichever class.
AnyTree = typing.TypeVar("AnyTree", bound=Tree)


class OfLoads(unittest.TestCase):
    def setUp(self) -> None:
        folder = tempfile.TemporaryDirectory()
        self.addCleanup(folder.cleanup)
        self.folder = pathlib.Path(folder.name)

    def kept(self, tree: AnyTree) -> AnyTree:
        """A tree that is closed at the end of the test, and lawful."""
        self.addCleanup(tree.close)
        self.addCleanup(lambda: self.assertEqual(tree.check(), "lawful"))
        return tree


class Dictionaries(OfLoads):
    def test_in_and_out(self) -> None:
        tree = self.kept(Tree.from_dict(FILES, 50, limits=Limits.V2))
        self.assertEqual((tree.to_dict(), tree.limit, tree.calls), (FILES, 50, 0))
        self.assertEqual(Tree.from_dict({}).to_dict(), {})
        tree.mkdir("/a/empty")
        self.assertEqual(tree.to_dict()["/a/empty"], None)

    def test_forms(self) -> None:
        """Paths with and without the first slash, texts as UTF-8, anything with bytes, and dictionaries in one another."""
        given = {
            "a/t": "\N{SNOWMAN}",
            "a": {"/u": bytearray(b"u"), "v": {}},
            "w/": None,
            "/x/y": memoryview(b"xy"),
            "m//n": b"",
        }
        wanted = {"/a/t": "\N{SNOWMAN}".encode(), "/a/u": b"u", "/a/v": None, "/w": None, "/x/y": b"xy", "/m/n": b""}
        self.assertEqual(self.kept(Tree.from_dict(given)).to_dict(), wanted)

    def test_refused(self) -> None:
        rows: typing.Iterable[typing.Tuple[typing.Any, ...]] = (
            ({"/a": b"", "/a/b": b""}, NotADirectoryError, "'/a/b'"),
            ({"/a/..": b""}, OSError, "A name of the path is . or ..: '/a/..'"),
            ({"/a": bytes(1_048_577)}, OSError, "The file would have more than 1,048,576 bytes: '/a'"),
            ({"/" + "n" * 65: b""}, OSError, "Path has a name of more than 64 bytes: '/nn"),
            ({"/a": 3}, TypeError, "int"),
            ({b"/a": b""}, TypeError, "a path is str, and this is bytes"),
        )
        for files, kind, words in rows:
            with self.subTest(words), self.assertRaisesRegex(kind, words):
                Tree.from_dict(files, limits=Limits.V2)
        with self.assertRaisesRegex(OSError, "All 3 nodes of the tree are in use"):
            Tree.from_dict({"/a/b": b"", "/c": b""}, 3)


class Directories(OfLoads):
    def test_in_and_out(self) -> None:
        tree = self.kept(Tree.from_dict(FILES))
        tree.to_directory(self.folder / "new" / "out")
        self.assertEqual((self.folder / "new" / "out" / "z" / "\N{SNOWMAN} %").read_bytes(), bytes(range(256)))
        again = self.kept(Tree.from_directory(self.folder / "new" / "out"))
        self.assertEqual((again.to_dict(), again.calls), (FILES, 0))
        self.assertRaises(FileExistsError, tree.to_directory, self.folder / "new" / "out")
        tree.write_bytes("/a/g", b"new")
        tree.to_directory(str(self.folder / "new" / "out"), exist_ok=True)
        self.assertEqual((self.folder / "new" / "out" / "a" / "g").read_bytes(), b"new")

    def fill(self) -> None:
        (self.folder / "sub").mkdir()
        (self.folder / "sub" / "f").write_bytes(b"f")
        (self.folder / "large").write_bytes(bytes(1_048_577))
        os.mkfifo(self.folder / "pipe")
        (self.folder / "file").symlink_to("sub/f")
        (self.folder / "folder").symlink_to("sub")
        (self.folder / "lost").symlink_to("nothing")

    def test_errors(self) -> None:
        """What a tree cannot have is raised with its path on the disk, left out, or told."""
        self.fill()
        with self.assertRaises(OSError) as raised:
            Tree.from_directory(self.folder, limits=Limits.V2)
        self.assertEqual(
            (raised.exception.errno, raised.exception.filename), (errno.ENOTSUP, str(self.folder / "folder"))
        )
        told: typing.List[OSError] = []
        tree = self.kept(Tree.from_directory(self.folder, on_error=told.append, limits=Limits.V2))
        self.assertEqual(tree.to_dict(), {"/file": b"f", "/sub/f": b"f"})
        wanted = {"folder": errno.ENOTSUP, "large": errno.EFBIG, "lost": errno.ENOENT, "pipe": errno.ENOTSUP}
        self.assertEqual({os.path.basename(error.filename): error.errno for error in told}, wanted)
        self.assertEqual(Tree.from_directory(self.folder, on_error="skip", limits=Limits.V2).to_dict(), tree.to_dict())
        more = self.kept(Tree.from_directory(self.folder, on_error="skip")).to_dict()
        self.assertEqual(more, {**tree.to_dict(), "/large": bytes(1_048_577)})
        self.assertRaises(ValueError, Tree.from_directory, self.folder, "ignore")
        for on_error in ("raise", "skip"):
            self.assertRaises(FileNotFoundError, Tree.from_directory, self.folder / "none", on_error)

    def test_limits(self) -> None:
        """Names of 255 bytes, which are the longest of the disk too, are there."""
        (self.folder / ("n" * 255)).touch()
        for limits, most in ((Limits.V1, 32), (Limits.V2, 64)):
            with self.assertRaisesRegex(
                OSError, rf"Path has a name of more than {most} bytes .on_error=.skip. leaves it out.: '{self.folder}"
            ):
                Tree.from_directory(self.folder, limits=limits)
        tree = self.kept(Tree.from_directory(self.folder))
        self.assertEqual(tree.to_dict(), {"/" + "n" * 255: b""})
        tree.to_directory(self.folder / "out")
        self.assertEqual(os.listdir(self.folder / "out"), ["n" * 255])
        with self.assertRaisesRegex(OSError, "All 1 nodes of the tree are in use: '" + str(self.folder)):
            Tree.from_directory(self.folder, limit=1)


class Zips(OfLoads):
    def test_in_and_out(self) -> None:
        tree, packed = self.kept(Tree.from_dict(FILES)), io.BytesIO()
        tree.to_zip(packed)
        self.assertEqual(self.kept(Tree.from_zip(packed)).to_dict(), FILES)
        tree.to_zip(self.folder / "f.zip")
        self.assertEqual((self.folder / "f.zip").read_bytes(), packed.getvalue())
        self.assertEqual(Tree.from_zip(self.folder / "f.zip").to_dict(), FILES)
        with zipfile.ZipFile(packed) as archive:
            self.assertEqual(archive.namelist()[:3], ["a/", "a/b/", "a/b/f"])
            self.assertIsNone(archive.testzip())

    def packed(self, **files: typing.Union[str, bytes]) -> io.BytesIO:
        packed = io.BytesIO()
        with zipfile.ZipFile(packed, "w") as archive:
            for name, data in files.items():
                archive.writestr(name.replace("_", "/"), data)
        return packed

    def test_refused(self) -> None:
        """A name that leads out of the tree, a file that is too long, and what is no zip."""
        for name in ("_a_b", "a__b"):
            self.assertEqual(Tree.from_zip(self.packed(**{name: b"x"})).to_dict(), {"/a/b": b"x"})
        with self.assertRaisesRegex(OSError, "A name of the path is . or ..: '/../a'"):
            Tree.from_zip(self.packed(**{".._a": b"x"}))
        with self.assertRaisesRegex(OSError, "The file would have more than 65,536 bytes: '/a'"):
            Tree.from_zip(self.packed(a=bytes(100_000)), limits=Limits.V1)
        self.assertRaises(zipfile.BadZipFile, Tree.from_zip, io.BytesIO(b"no zip"))
        tree = self.kept(Tree())
        tree.mknod(b"/\xff")
        self.assertRaises(UnicodeDecodeError, tree.to_zip, self.folder / "f.zip")
        self.assertFalse((self.folder / "f.zip").exists())


class Texts(OfLoads):
    def test_in_and_out(self) -> None:
        tree = self.kept(Tree.from_dict(FILES))
        again = self.kept(Tree.from_text(tree.tree(), 20))
        self.assertEqual((again.to_dict(), again.limit, again.calls), (FILES, 20, 0))
        self.assertEqual(Tree.from_text("tree\ndir /\n").to_dict(), {})

    def test_begins_there(self) -> None:
        """No call is made for it: the journal starts at the tree, whose seat 0 is this thread's."""
        for limits, header in zip(Limits, ("atomfs-journal 2", "atomfs-journal 3", "atomfs-journal 4")):
            with self.subTest(limits):
                text = "tree\ndir /\ndir /d\nfile /d/f 0068\n"
                tree = self.kept(Tree.from_text(text, limits=limits))
                self.assertEqual((tree.tree(), tree.limits, tree.calls, tree.calls_before), (text, limits, 0, 0))
                tree.unlink("/d/f")
                first = "start\ndir /\ndir /d\nfile /d/f 0068\nentries\nbegin 1 0 unlink /d/f\n"
                self.assertTrue(tree.journal().startswith(f"{header}\n{first}"))
                self.assertEqual(tree.seat().number, 1)

    def test_other_orders(self) -> None:
        """Each directory comes before what is in it, and else lines may stand in any order."""
        tree = self.kept(Tree.from_text("tree\ndir /\nfile /b 62\ndir /%61\ndir /c\nfile /a/f -\n"))
        self.assertEqual((tree.tree(), tree.calls), ("tree\ndir /\ndir /a\nfile /a/f -\nfile /b 62\ndir /c\n", 0))

    def test_limits(self) -> None:
        """A tree of more nodes than the limit, a name and a file that the limits do not allow, and a limit that is none."""
        text = "tree\ndir /\ndir /a\ndir /a/b\ndir /c\n"
        self.assertEqual(len(self.kept(Tree.from_text(text, 4))), 4)
        with self.assertRaisesRegex(OSError, "All 3 nodes of the tree are in use: '/'") as raised:
            Tree.from_text(text, 3)
        self.assertEqual(raised.exception.errno, errno.ENOSPC)
        for line, words in (
            (f"dir /{'n' * 33}", "Path has a name of more than 32 bytes"),
            (f"file /f {'00' * 65_537}", "more than 65,536 bytes"),
        ):
            self.assertEqual(len(self.kept(Tree.from_text(f"tree\ndir /\n{line}\n"))), 2)
            with self.assertRaisesRegex(OSError, words):
                Tree.from_text(f"tree\ndir /\n{line}\n", limits=Limits.V1)
        self.assertRaises(ValueError, Tree.from_text, text, 0)

    def test_a_long_text(self) -> None:
        """It may have more bytes than a script or a journal."""
        tree = self.kept(Tree(limits=Limits.V2))
        for name in "abcdefghi":
            tree.write_bytes(f"/{name}", name.encode() * 1_048_576)
        self.assertGreater(len(tree.tree()), 16_777_216)
        self.assertEqual(self.kept(Tree.from_text(tree.tree(), limits=Limits.V2)).tree(), tree.tree())

    def test_refused(self) -> None:
        start = "tree\ndir /\n"
        for text, kind, words in (
            ("", ValueError, "line 1 of the text of a tree is missing"),
            ("tree\n", ValueError, "line 2 of the text of a tree is missing"),
            ("atomfs 1\n", ValueError, "line 1 is none"),
            ("tree\ndir /a\n", ValueError, "line 2 is none"),
            (start + "dir a\n", ValueError, "line 3 is none"),
            (start + "file /a\n", ValueError, "line 3 is none"),
            (start + "dir /a\nfile /f 616\n", ValueError, "line 4 is none"),
            (start + "file /f -", ValueError, "line 3 is none"),
            (start + "file /f -\n\n", ValueError, "line 4 is none"),
            (start + "dir /a/b\n", FileNotFoundError, "/a/b"),
            (start + "dir /a/..\n", OSError, "A name of the path is . or .."),
            (start + "# a comment\n", ValueError, "line 3 is none"),
            ("\n" + start, ValueError, "line 1 is none"),
            ("atomfs-journal 3\nstart\ndir /\nentries\n", ValueError, "line 1 is none"),
            (start + "dir /\N{SNOWMAN}\n", ValueError, "line 3 is none"),
            (start + "file /f 6A\n", ValueError, "line 3 is none"),
            (start + "dir /a\ndir /a\n", FileExistsError, "/a"),
            (start + "file /f -\ndir /f/a\n", NotADirectoryError, "/f/a"),
        ):
            with self.subTest(text), self.assertRaisesRegex(kind, words):
                Tree.from_text(text)


class Housed(Tree):
    """A tree that has made a call before it is copied into."""

    def __init__(self, *given: typing.Any, **more: typing.Any) -> None:
        super().__init__(*given, **more)
        self.mkdir("/home")


class Seated(Tree):
    """A tree that has another seat from the beginning."""

    def __init__(self, *given: typing.Any, **more: typing.Any) -> None:
        super().__init__(*given, **more)
        self.writer = self.seat("writer")


class Named(Tree):
    """A tree whose copies have more than the tree."""

    name = "none"

    def __reduce__(self) -> typing.Any:
        return named, (super().__reduce__(), self.name)


def named(reduced: typing.Any, name: str) -> typing.Any:
    make, given = reduced
    tree = make(*given)
    tree.name = name
    return tree


class Narrow(Tree):
    """A tree with a limit of its own."""

    most = 10

    def __init__(self, limit: int = 0, **more: typing.Any) -> None:
        super().__init__(self.most, **more)


COPIES: typing.Tuple[typing.Callable[[typing.Any], typing.Any], ...] = (
    copy.copy,
    copy.deepcopy,
    lambda tree: pickle.loads(pickle.dumps(tree)),
)


class Copies(OfLoads):
    def test_begin_there(self) -> None:
        """No call is made for a copy: its journal starts at the tree, whose seat 0 is this thread's, and another thread has a seat of its own."""
        tree = self.kept(Tree.from_dict(FILES, 50))
        tree.mkdir("/new")
        for copied in COPIES:
            other = self.kept(copied(tree))
            self.assertEqual((other.tree(), other.limit, other.calls, other.calls_before), (tree.tree(), 50, 0, 0))
            other.mkdir("/c")
            thread = threading.Thread(target=other.rmdir, args=("/c",))
            thread.start()
            thread.join()
            self.assertEqual(
                [line for line in other.journal().splitlines() if "begin" in line],
                ["begin 1 0 mkdir /c", "begin 2 1 rmdir /c"],
            )
            self.assertFalse(tree.exists("/c"))

    def test_keep(self) -> None:
        tree = self.kept(Tree(journal=atomfs.LAST(7)))
        for copied in COPIES:
            other = self.kept(copied(tree))
            for _ in range(20):
                other.stat("/")
            self.assertEqual((other.keeps, other.calls + other.calls_before), (atomfs.LAST(7), 20))
            self.assertLessEqual(other.calls, 8)

    def test_under_way(self) -> None:
        """While a call is under way a copy has what has been committed."""
        tree = self.kept(Tree())
        seats = tree.seat(), tree.seat()
        seats[0].begin.mkdir("/a")
        seats[1].begin.mkdir("/b")
        while seats[0].step().did != atomfs.Did.COMMIT:
            pass
        for copied in COPIES:
            self.assertEqual(list(self.kept(copied(tree))), ["/", "/a"])
        for seat in seats:
            seat.finish()

    def test_deep(self) -> None:
        """More names than a path has, as a rename makes them."""
        tree = self.kept(Tree(limits=Limits.V2))
        tree.makedirs("/a" * 40)
        tree.makedirs("/b" * 40)
        tree.rename("/a", "/b" * 40 + "/a")
        deep = self.kept(
            Tree.from_text("tree\ndir /\n" + "".join(f"dir {'/n' * depth}\n" for depth in range(1, 2_051)))
        )

        def by_text(tree: Tree) -> Tree:
            return Tree.from_text(tree.tree(), limits=tree.limits)

        for one in (tree, deep):
            for copied in (*COPIES, by_text):
                self.assertEqual(self.kept(copied(one)).tree(), one.tree())

    def test_subclasses(self) -> None:
        """What a subclass does when it is made stays done, but for its tree; and it may reduce itself."""
        housed, seated, other = self.kept(Housed(20)), self.kept(Seated(20)), self.kept(Named(20))
        housed.rename("/home", "/h")
        seated.mkdir("/a")
        other.name = "given"
        for copied in COPIES:
            one, two, three = (self.kept(copied(tree)) for tree in (housed, seated, other))
            self.assertEqual((list(one), one.limit, one.calls, type(one)), (["/", "/h"], 20, 0, Housed))
            self.assertEqual((list(two), two.writer.number, two.writer.tree is two), (["/", "/a"], 1, True))
            two.writer.begin.mkdir("/b")
            two.writer.finish()
            self.assertIn("# seat 1 writer\n", two.journal())
            self.assertEqual((three.name, type(three)), ("given", Named))
        self.assertEqual(list(self.kept(Housed.from_text("tree\ndir /\ndir /x\n"))), ["/", "/x"])

    def test_refused(self) -> None:
        tree = self.kept(Narrow())
        tree.makedirs("/a/b")
        self.addCleanup(setattr, Narrow, "most", Narrow.most)
        Narrow.most = 2
        for copied in COPIES:
            with self.assertRaisesRegex(OSError, "All 2 nodes of the tree are in use: '/'"):
                copied(tree)
        self.assertEqual(list(tree), ["/", "/a", "/a/b"])
        closed = Tree()
        closed.close()
        for copied in COPIES:
            self.assertRaises(atomfs.ClosedError, copied, closed)


class Snapshots(OfLoads):
    def test_restore(self) -> None:
        """A tree is what it was, whatever became of it."""
        tree = self.kept(Tree.from_dict(FILES))
        snapshot = tree.snapshot()
        self.assertEqual(
            (repr(snapshot), len(snapshot), snapshot.to_dict()), ("<atomfs.Snapshot of 8 nodes, Limits.V3>", 8, FILES)
        )
        changes: typing.Tuple[typing.Callable[[], object], ...] = (
            lambda: None,
            lambda: tree.rmtree("/"),
            lambda: tree.write_bytes("/a/b/f", b"longer than it was"),
            lambda: tree.truncate("/a/b/f", 1),
            lambda: tree.write_bytes("/a/g", b"x"),
            lambda: (tree.rmdir("/e"), tree.write_bytes("/e", b"a file")),  # type: ignore[func-returns-value]
            lambda: (tree.unlink("/a/g"), tree.makedirs("/a/g/h/i")),  # type: ignore[func-returns-value]
            lambda: tree.exchange("/a/b/f", "/z"),
            lambda: tree.rename("/a", "/e/a"),
            lambda: [tree.makedirs(f"/new/{at}/d") for at in range(50)],  # type: ignore[func-returns-value]
        )
        for at, change in enumerate(changes):
            with self.subTest(at):
                change()
                tree.restore(snapshot)
                self.assertEqual(tree.snapshot(), snapshot)
        calls = tree.calls
        tree.restore(snapshot)
        self.assertEqual(tree.calls, calls)
        tree.write_bytes("/a/g", b"x")
        tree.restore(snapshot)
        self.assertEqual(tree.last_calls(1), ["truncate /a/g 0: ok"])

    def test_calls(self) -> None:
        """It makes calls for what has changed alone: two for a file that comes or has other bytes, one for what goes or is empty."""
        tree = self.kept(Tree.from_dict({f"d{at % 20}/{at}": b"bytes" for at in range(980)}))
        snapshot = tree.snapshot()

        def calls_after(*changes: typing.Any) -> int:
            for change, *given in changes:
                change(*given)
            before: int = tree.calls
            tree.restore(snapshot)
            return tree.calls - before

        self.assertEqual(len(tree), 1_001)
        self.assertEqual(calls_after((tree.rmtree, "/")), 20 + 2 * 980)
        self.assertEqual(
            calls_after((tree.write_bytes, "/d0/0", b"other"), (tree.unlink, "/d1/1"), (tree.mknod, "/new")), 2 + 2 + 1
        )
        self.assertEqual(calls_after(), 0)

    def test_a_full_tree(self) -> None:
        """What goes makes room for what comes: of nodes, and in a directory."""
        tree = self.kept(Tree.from_dict({str(at): b"" for at in range(256)}, 257, limits=Limits.V2))
        snapshot = tree.snapshot()
        for at in range(200):
            tree.rename(f"/{at}", f"/n{at}")
        tree.restore(snapshot)
        self.assertEqual(tree.snapshot(), snapshot)

    def test_refused(self) -> None:
        """By other limits, of too many nodes, while a call is under way, and of a closed tree: the tree stays as it was."""
        tree = self.kept(Tree(3))
        self.assertEqual(Tree(limits=Limits.V1).snapshot().limits, Limits.V1)
        with self.assertRaisesRegex(ValueError, "the snapshot is by Limits.V1, and the tree by Limits.V3"):
            tree.restore(Tree(limits=Limits.V1).snapshot())
        with self.assertRaisesRegex(OSError, "All 3 nodes of the tree are in use"):
            tree.restore(Tree.from_dict(FILES).snapshot())
        snapshot = tree.snapshot()
        tree.mkdir("/a")
        seats = tree.seat(), tree.seat()
        self.assertEqual([seat.begin.stat("/a") for seat in seats], [2, 3])
        seats[0].finish()
        with self.assertRaises(atomfs.UnderWayError) as raised:
            tree.restore(snapshot)
        self.assertEqual((raised.exception.about, list(tree)), (3, ["/", "/a"]))
        seats[1].finish()
        tree.restore(snapshot)
        self.assertEqual(list(tree), ["/"])
        closed = Tree()
        closed.close()
        self.assertRaises(atomfs.ClosedError, closed.restore, snapshot)
        self.assertRaises(atomfs.ClosedError, closed.snapshot)

    def test_values(self) -> None:
        """Snapshots are compared, are keys, and are pickled; one restores another tree too."""
        tree = self.kept(Tree.from_dict(FILES))
        one, other = tree.snapshot(), pickle.loads(pickle.dumps(tree.snapshot()))
        self.assertEqual(
            (one == other, hash(one) == hash(other), one == Tree().snapshot(), one == "text"),
            (True, True, False, False),
        )
        self.assertNotEqual(Tree(limits=Limits.V1).snapshot(), Tree().snapshot())
        another = self.kept(Tree())
        another.restore(other)
        self.assertEqual(another.to_dict(), FILES)
        self.assertIsInstance(other, Snapshot)

    def test_diff(self) -> None:
        tree = self.kept(Tree.from_dict(FILES))
        before = tree.snapshot()
        self.assertEqual(atomfs.diff(before, tree), [])
        tree.rename("/a/b", "/b")
        tree.write_bytes("/a/g", b"x")
        tree.rmdir("/e")
        tree.mknod("/e")
        differs = [
            ("removed", "/a/b"),
            ("removed", "/a/b/f"),
            ("changed", "/a/g"),
            ("added", "/b"),
            ("added", "/b/f"),
            ("changed", "/e"),
        ]
        self.assertEqual(atomfs.diff(before, tree), differs)
        turned = {"added": "removed", "removed": "added", "changed": "changed"}
        self.assertEqual(atomfs.diff(tree, before), [(turned[what], path) for what, path in differs])
        self.assertEqual(atomfs.diff(tree, Tree.from_dict(tree.to_dict())), [])


if __name__ == "__main__":
    unittest.main()
