"""`AtomFileSystem`, and `atomfs://`."""
import pathlib
import pickle
import tempfile
import typing
import unittest

import fsspec  # type: ignore[import]
from fsspec.implementations.local import LocalFileSystem  # type: ignore[import]

import atomfs
from atomfs.fsspec import AtomFileSystem


def plain(info: typing.Dict[str, typing.Any]) -> typing.Dict[str, typing.Any]:
    """What is of the tree alone."""
    return {name: info[name] for name in ("name", "size", "type")}


class Specs(unittest.TestCase):
    def setUp(self) -> None:
        self.tree = atomfs.Tree()
        self.files = AtomFileSystem(tree=self.tree)

    def tearDown(self) -> None:
        self.assertEqual(self.tree.check(), "lawful")
        self.tree.close()

    def test_protocol(self) -> None:
        """What is opened by its URL is one tree of the process."""
        with fsspec.open("atomfs://hello.txt", "wt") as file:
            file.write("hello")
        shared = fsspec.filesystem("atomfs")
        self.assertIsInstance(shared, AtomFileSystem)
        self.assertEqual(shared.cat("hello.txt"), b"hello")
        self.assertEqual(shared.cat("atomfs://hello.txt"), b"hello")
        self.assertEqual(shared.unstrip_protocol("/hello.txt"), "atomfs:///hello.txt")
        shared.rm("/hello.txt")
        self.assertFalse(self.files.exists("/hello.txt"))
        self.assertIsNot(shared.atom_tree, self.tree)

    def test_kept(self) -> None:
        """What a file system of the disk answers besides, and what `touch` and `rm` of a directory do there."""
        files = self.files
        with tempfile.TemporaryDirectory() as at:
            of_disk = LocalFileSystem()
            for system, path in ((of_disk, f"{at}/f"), (files, "/f")):
                system.pipe(path, b"bytes")
                system.touch(path, truncate=False)
            self.assertLessEqual(set(of_disk.info(f"{at}/f")) - {"islink", "destination"}, set(files.info("/f")))
            self.assertEqual(files.cat("/f"), of_disk.cat(f"{at}/f"))
            self.assertLess(abs(files.modified("/f") - of_disk.modified(f"{at}/f")).total_seconds(), 60)
            self.assertEqual(type(files.created("/f")), type(of_disk.created(f"{at}/f")))
        before = files.modified("/f")
        files.touch("/f", truncate=False)
        self.assertLess(before, files.modified("/f"))
        files.touch("/f")
        files.touch("/new")
        self.assertEqual((files.cat("/f"), files.cat("/new")), (b"", b""))
        files.mkdir("/d")
        self.assertRaises(IsADirectoryError, files.rm, "/d")
        self.assertRaises(IsADirectoryError, files.touch, "/d", truncate=False)
        self.assertEqual(pickle.loads(pickle.dumps(files)).info("/f")["ino"], files.info("/f")["ino"])

    def test_directories(self) -> None:
        files = self.files
        files.mkdir("/a/b/c")
        files.makedirs("/a/b/c", exist_ok=True)
        self.assertRaises(FileExistsError, files.makedirs, "/a/b/c")
        self.assertRaises(FileExistsError, files.mkdir, "/a")
        self.assertRaises(FileNotFoundError, files.mkdir, "/x/y", create_parents=False)
        files.pipe("/a/f", b"bytes")
        self.assertRaises(NotADirectoryError, files.makedirs, "/a/f", exist_ok=True)
        self.assertRaises(NotADirectoryError, files.makedirs, "/a/f/g")
        self.assertEqual(files.ls("/", detail=False), ["/a"])
        self.assertEqual(
            [plain(one) for one in files.ls("a")],
            [{"name": "/a/b", "size": 0, "type": "directory"}, {"name": "/a/f", "size": 5, "type": "file"}],
        )
        self.assertEqual(files.ls("/a/f", detail=False), ["/a/f"])
        self.assertRaises(FileNotFoundError, files.ls, "/x")
        self.assertRaises(OSError, files.rmdir, "/a")
        files.rmdir("/a/b/c")
        self.assertEqual(plain(files.info("/a/b")), {"name": "/a/b", "size": 0, "type": "directory"})
        self.assertEqual(files.info("/")["type"], "directory")
        self.assertTrue(files.isdir("/a") and files.isfile("/a/f") and not files.exists("/a/f/g"))

    def test_large_directories(self) -> None:
        """A directory comes whole, by several calls."""
        with atomfs.Tree() as tree:
            files, names = AtomFileSystem(tree=tree), [f"/d/{at:03}" for at in range(300)]
            files.makedirs("/d")
            for name in names:
                files.touch(name)
            self.assertEqual(files.ls("/d", detail=False), names)
            files.makedirs("/d", exist_ok=True)
            self.assertRaises(FileExistsError, files.makedirs, "/d")
            self.assertRaises(NotADirectoryError, files.makedirs, "/d/000", exist_ok=True)
            files.rm("/d", recursive=True)
            self.assertEqual(tree.check(), "lawful")

    def test_walks(self) -> None:
        files = self.files
        for path in ("/a/b/1.txt", "/a/2.txt", "/3.bin"):
            files.makedirs(files._parent(path), exist_ok=True)
            files.pipe(path, path.encode())
        self.assertEqual(files.find("/"), ["/3.bin", "/a/2.txt", "/a/b/1.txt"])
        self.assertEqual(files.glob("/a/*.txt"), ["/a/2.txt"])
        self.assertEqual(files.glob("**/*.txt"), ["/a/2.txt", "/a/b/1.txt"])
        self.assertEqual(
            list(files.walk("/")), [("/", ["a"], ["3.bin"]), ("/a", ["b"], ["2.txt"]), ("/a/b", [], ["1.txt"])]
        )
        self.assertEqual(files.du("/"), 6 + 8 + 10)
        self.assertEqual(
            files.cat("/a", recursive=True, on_error="omit"), {"/a/2.txt": b"/a/2.txt", "/a/b/1.txt": b"/a/b/1.txt"}
        )

    def test_files(self) -> None:
        files = self.files
        files.pipe("/f", b"0123456789")
        self.assertEqual(
            (files.cat("/f"), files.cat_file("/f", 2, -3), files.head("/f", 3), files.tail("/f", 2)),
            (b"0123456789", b"23456", b"012", b"89"),
        )
        self.assertEqual(files.read_block("/f", 3, 4), b"3456")
        with files.open("/f", "rb", 4) as file:
            self.assertEqual(file.read(), b"0123456789")
        with files.open("/f", "ab") as file:
            file.write(b"!")
        with files.open("/f", "r+b") as file:
            file.write(b"x")
        with files.open("/g", "xb") as file:
            file.write(b"new")
        self.assertRaises(FileExistsError, files.open, "/g", "xb")
        self.assertEqual((files.cat("/f"), files.size("/f"), files.cat("/g")), (b"x123456789!", 11, b"new"))
        files.touch("/f")
        self.assertEqual(files.size("/f"), 0)
        with files.open("/t", "w", encoding="utf-8") as file:
            file.write("\N{SNOWMAN}\n")
        self.assertEqual(files.read_text("/t", encoding="utf-8"), "\N{SNOWMAN}\n")
        with files.open("/z", "wb", compression="gzip") as file:
            file.write(b"packed")
        with files.open("/z", "rb", compression="gzip") as file:
            self.assertEqual(file.read(), b"packed")
        self.assertRaises(FileNotFoundError, files.open, "/x/y", "wb")
        self.assertRaises(IsADirectoryError, files.open, "/", "rb")
        self.assertRaises(IsADirectoryError, files.open, "/", "wb")

    def test_copies_and_moves(self) -> None:
        files = self.files
        files.mkdir("/a/b")
        files.pipe("/a/b/f", b"f")
        files.cp("/a", "/c", recursive=True)
        self.assertEqual(files.find("/"), ["/a/b/f", "/c/b/f"])
        files.mv("/c", "/d")
        self.assertEqual(files.cat("/d/b/f"), b"f")
        files.mv("/d/b/f", "/a/")
        self.assertRaises(FileExistsError, files.mkdir, "/a/f")
        files.mv(pathlib.PurePosixPath("/a/f"), pathlib.PurePosixPath("/g"))
        self.assertIn("rename /a/f /g", self.tree.journal())
        files.cp("/g", "/h")
        self.assertEqual(files.find("/"), ["/a/b/f", "/g", "/h"])
        files.rm("/a", recursive=True)
        files.rm(["/g", "/h"])
        self.assertRaises(OSError, files.rm, "/d")
        files.rm("/", recursive=True)
        self.assertEqual(files.ls("/"), [])
        self.assertIn("rename /c /d", self.tree.journal())

    def test_up_and_down(self) -> None:
        files = self.files
        with tempfile.TemporaryDirectory() as at:
            folder = pathlib.Path(at)
            (folder / "up" / "sub").mkdir(parents=True)
            (folder / "up" / "sub" / "f").write_bytes(b"bytes")
            files.put(str(folder / "up"), "/up", recursive=True)
            self.assertEqual(files.cat("/up/sub/f"), b"bytes")
            files.get("/up", str(folder / "down"), recursive=True)
            self.assertEqual((folder / "down" / "sub" / "f").read_bytes(), b"bytes")

    def test_mapper(self) -> None:
        keys = self.files.get_mapper("/store", create=True)
        keys["a/b"] = b"value"
        self.assertEqual((keys["a/b"], list(keys), len(keys)), (b"value", ["a/b"], 1))
        del keys["a/b"]
        self.assertEqual(list(keys), [])

    def test_transactions(self) -> None:
        """Files of a transaction come to their paths at its end, and to none of them where it fails."""
        files = self.files
        files.pipe("/old", b"old")
        files.pipe("/lines", b"one\ntwo\n")
        with files.transaction:
            with files.open("/new", "wb") as file:
                file.write(b"new")
            with files.open("/old", "ab") as file:
                file.write(b"+")
            with files.open("/text", "w") as file:
                file.write("text")
            with files.open("/lines", "r+b") as file:
                self.assertEqual(list(file), [b"one\n", b"two\n"])
                file.seek(0)
                file.write(b"ONE")
            with files.open("/lines", "rb") as file:
                self.assertEqual(file.read(), b"one\ntwo\n")
            self.assertRaises(IsADirectoryError, files.open, "/", "wb")
            self.assertRaises(FileExistsError, files.open, "/old", "xb")
            self.assertRaises(FileNotFoundError, files.open, "/x", "r+b")
            self.assertRaises(FileNotFoundError, files.open, "/x/y", "wb")
            self.assertFalse(files.exists("/new"))
            self.assertEqual(files.cat("/old"), b"old")
        self.assertEqual((files.cat("/new"), files.cat("/old"), files.cat("/text")), (b"new", b"old+", b"text"))
        self.assertEqual(files.cat("/lines"), b"ONE\ntwo\n")
        with self.assertRaises(ZeroDivisionError), files.transaction:
            for path, mode in (("/new", "wb"), ("/lines", "r+b")):
                with files.open(path, mode) as file:
                    file.write(b"lost")
            raise ZeroDivisionError
        self.assertEqual((files.cat("/new"), files.cat("/lines")), (b"new", b"ONE\ntwo\n"))
        self.assertEqual(files.ls("/", detail=False), ["/lines", "/new", "/old", "/text"])


if __name__ == "__main__":
    unittest.main()
