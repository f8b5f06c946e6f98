"""A first suite as a tester writes it: everything by `Tree` alone."""
import asyncio
import copy
import csv
import errno
import io
import json
import os
import pathlib
import pickle
import shutil
import sqlite3
import stat
import tempfile
import threading
import typing
import unittest
import zipfile

from atomfs import Limits, Tree, diff, patch


class FirstSuite(unittest.TestCase):
    def setUp(self) -> None:
        self.tree = Tree()
        self.addCleanup(self.tree.close)

    def tearDown(self) -> None:
        self.assertEqual(self.tree.check(), "lawful")

    def test_texts(self) -> None:
        self.tree.write_text("/hello.txt", "hällo\n")
        self.assertEqual(self.tree.read_text("/hello.txt"), "hällo\n")

    def test_bytes(self) -> None:
        self.tree.write_bytes("/data.bin", bytes(range(256)))
        self.assertEqual(self.tree.read_bytes("/data.bin"), bytes(range(256)))

    def test_a_file_is_made_by_its_first_write(self) -> None:
        self.assertNotIn("/new", self.tree)
        with self.tree.open("/new", "w") as file:
            file.write("made")
        self.assertTrue(self.tree.is_file("/new"))

    def test_errors(self) -> None:
        calls: typing.Tuple[typing.Tuple[typing.Type[OSError], typing.Callable[[], object]], ...] = (
            (FileNotFoundError, lambda: self.tree.read_text("/none")),
            (NotADirectoryError, lambda: self.tree.write_text("/f/g", "x")),
            (IsADirectoryError, lambda: self.tree.open("/d")),
            (FileExistsError, lambda: self.tree.mkdir("/d")),
        )
        for kind, call in calls:
            self.tree.makedirs("/d", exist_ok=True)
            self.tree.write_text("/f", "")
            with self.subTest(kind), self.assertRaises(kind) as raised:
                call()
            self.assertIn(raised.exception.filename, ("/none", "/f/g", "/d"))

    def test_a_path_object(self) -> None:
        self.tree.makedirs(pathlib.PurePosixPath("/a") / "b")
        path = self.tree.path() / "a" / "b" / "f.txt"
        path.write_text("by its path")
        self.assertEqual([str(found) for found in self.tree.path().rglob("*.txt")], ["/a/b/f.txt"])
        self.assertEqual(path.parent.parent.name, "a")

    def test_makedirs_walk_and_glob(self) -> None:
        self.tree.makedirs("/src/pkg/sub")
        for name in ("/src/pkg/a.py", "/src/pkg/sub/b.py", "/src/readme.txt"):
            self.tree.write_text(name, name)
        self.assertEqual(self.tree.glob("/src/**/*.py"), ["/src/pkg/a.py", "/src/pkg/sub/b.py"])
        walked = {path: (directories, files) for path, directories, files in self.tree.walk("/src")}
        self.assertEqual(walked["/src/pkg"], (["sub"], ["a.py"]))

    def test_open(self) -> None:
        with self.tree.open("/log.txt", "w") as file:
            print("one", "two", sep="\n", file=file)
        with self.tree.open("/log.txt", "a") as file:
            file.write("three\n")
        with self.tree.open("/log.txt") as file:
            self.assertEqual([line.strip() for line in file], ["one", "two", "three"])
        with self.tree.open("/log.txt", "rb+") as file:
            file.seek(-6, io.SEEK_END)
            file.truncate()
        self.assertEqual(self.tree.read_text("/log.txt"), "one\ntwo\n")
        self.assertRaises(FileExistsError, self.tree.open, "/log.txt", "x")

    def test_rmtree_and_copy(self) -> None:
        self.tree.makedirs("/a/b")
        self.tree.write_text("/a/b/f", "f")
        self.tree.copy("/a", "/c")
        self.tree.rmtree("/a")
        self.assertEqual((list(self.tree), self.tree.read_text("/c/b/f")), (["/", "/c", "/c/b", "/c/b/f"], "f"))

    def test_snapshot_and_restore(self) -> None:
        self.tree.write_text("/f", "before")
        before = self.tree.snapshot()
        self.tree.write_text("/f", "after")
        self.tree.mkdir("/d")
        self.assertEqual(diff(before, self.tree), [("added", "/d"), ("changed", "/f")])
        self.tree.restore(before)
        self.assertEqual(self.tree.to_dict(), {"/f": b"before"})

    def test_deepcopy_and_pickle(self) -> None:
        self.tree.write_text("/f", "kept")
        for other in (copy.copy(self.tree), copy.deepcopy(self.tree), pickle.loads(pickle.dumps(self.tree))):
            with other:
                self.tree.write_text("/f", "kept")
                other.write_text("/f", "changed")
                self.assertEqual(self.tree.read_text("/f"), "kept")

    def test_a_tree_from_its_text_and_from_a_directory(self) -> None:
        self.tree.write_text("/d.txt", "text")
        with tempfile.TemporaryDirectory() as folder:
            self.tree.to_directory(folder, exist_ok=True)
            self.assertEqual(pathlib.Path(folder, "d.txt").read_text(), "text")
            with Tree.from_directory(folder) as other, Tree.from_text(self.tree.tree()) as another:
                self.assertEqual(other.tree(), self.tree.tree())
                self.assertEqual(another.tree(), self.tree.tree())

    def test_iteration_and_length(self) -> None:
        self.assertEqual((len(self.tree), bool(self.tree)), (1, True))
        self.tree.mkdir("/a")
        self.assertEqual((len(self.tree), list(self.tree), "/a" in self.tree), (2, ["/", "/a"], True))
        self.assertIn("2 of 16,777,216 nodes, 2 calls, Limits.V3", repr(self.tree))
        self.assertEqual(str(self.tree), "/\n└── a/")

    def test_stat(self) -> None:
        self.tree.write_bytes("/f", b"12345")
        found = self.tree.stat("/f")
        self.assertEqual((found.st_size, stat.S_ISREG(found.st_mode), found.is_dir), (5, True, False))
        self.assertTrue(stat.S_ISDIR(self.tree.stat("/").st_mode))

    def test_what_a_tree_has_not(self) -> None:
        """Times, owners, links, and a file for a database or a process."""
        self.tree.write_bytes("/f", b"")
        for field in ("st_mtime", "st_uid"):
            with self.assertRaisesRegex(AttributeError, "a tree keeps no (times|owners)"):
                getattr(self.tree.stat("/f"), field)
        with self.assertRaisesRegex(NotImplementedError, "a tree has no links"):
            self.tree.path("/f").symlink_to("/g")  # type: ignore[attr-defined]
        with self.tree.open("/f", "rb") as file:
            self.assertRaises(io.UnsupportedOperation, file.fileno)
        self.assertRaises(sqlite3.OperationalError, sqlite3.connect, str(self.tree.path("/f") / "base"))

    def test_a_zip(self) -> None:
        with self.tree.open("/packed.zip", "wb") as file, zipfile.ZipFile(file, "w") as archive:
            archive.writestr("d/f.txt", "in a zip")
        with self.tree.open("/packed.zip", "rb") as file, Tree.from_zip(file) as other:
            self.assertEqual(other.to_dict(), {"/d/f.txt": b"in a zip"})
            with self.tree.open("/again.zip", "wb") as again:
                other.to_zip(again)
        with self.tree.open("/again.zip", "rb") as file:
            self.assertEqual(zipfile.ZipFile(file).read("d/f.txt"), b"in a zip")

    def test_the_builtin_open(self) -> None:
        """What a program does with `open`, `os`, pathlib and shutil goes to the tree, below one directory."""
        with patch(self.tree, at="/sandbox"):
            os.makedirs("/sandbox/a/b")
            with open("/sandbox/a/f.txt", "w") as file:
                file.write("by open")
            shutil.copytree("/sandbox/a", "/sandbox/c")
            self.assertEqual(
                sorted(map(str, pathlib.Path("/sandbox").rglob("*.txt"))), ["/sandbox/a/f.txt", "/sandbox/c/f.txt"]
            )
            os.utime("/sandbox/a/f.txt", (1, 2))
            self.assertEqual(os.stat("/sandbox/a/f.txt").st_mtime, 2)
            self.assertTrue(os.path.exists(__file__))
        self.assertEqual((self.tree.read_text("/c/f.txt"), os.path.exists("/sandbox")), ("by open", False))

    def test_csv_and_json(self) -> None:
        with self.tree.open("/t.csv", "w", newline="") as file:
            csv.writer(file).writerows([["a", "b"], ["1", "2"]])
        with self.tree.open("/t.csv", newline="") as file:
            self.assertEqual(list(csv.DictReader(file)), [{"a": "1", "b": "2"}])
        with self.tree.open("/t.json", "w") as file:
            json.dump({"a": [1, 2]}, file)
        with self.tree.open("/t.json") as file:
            self.assertEqual(json.load(file), {"a": [1, 2]})

    def test_threads(self) -> None:
        def work(thread: int) -> None:
            self.tree.makedirs(f"/shared/{thread}")
            for at in range(20):
                with self.tree.lock:
                    count = int(self.tree.read_text("/count"))
                    self.tree.write_text("/count", str(count + 1))
                self.tree.write_text(f"/shared/{thread}/{at}", "x")

        self.tree.write_text("/count", "0")
        threads = [threading.Thread(target=work, args=(thread,)) for thread in range(4)]
        for thread in threads:
            thread.start()
        for thread in threads:
            thread.join()
        self.assertEqual((self.tree.read_text("/count"), len(self.tree.glob("/shared/*/*"))), ("80", 80))

    def test_asyncio(self) -> None:
        async def write(at: int) -> None:
            await asyncio.get_running_loop().run_in_executor(None, self.tree.write_text, f"/{at}", str(at))

        async def write_all() -> None:
            await asyncio.gather(*(write(at) for at in range(10)))

        asyncio.run(write_all())
        self.assertEqual(len(self.tree), 11)

    def test_limits(self) -> None:
        """A file of 5.5 MB, a directory of 257 files and a long name are there, and by the second limits the error has the path and the
        limit, and the tree is as it was."""
        with Tree(limits=Limits.V2) as tree:
            before = tree.tree()
            with self.assertRaisesRegex(OSError, "more than 1,048,576 bytes: '/large'") as raised:
                tree.write_bytes("/large", bytes(5_505_024))
            self.assertEqual((raised.exception.errno, tree.tree()), (errno.EFBIG, before))
            for at in range(256):
                tree.mknod(f"/{at}")
                self.tree.mknod(f"/{at}")
            with self.assertRaisesRegex(OSError, "has 256 entries.*'/full'") as raised:
                tree.write_text("/full", "")
            self.assertEqual((raised.exception.errno, len(tree)), (errno.ENOSPC, 257))
            with self.assertRaisesRegex(OSError, "a name of more than 64 bytes: '/nn") as raised:
                tree.mkdir("/" + "n" * 255)
            self.assertEqual((raised.exception.errno, len(tree)), (errno.ENAMETOOLONG, 257))
        self.tree.write_text("/full", "")
        self.tree.mkdir("/" + "n" * 255)
        self.assertEqual(self.tree.write_bytes("/" + "n" * 255 + "/large", bytes(5_505_024)), 5_505_024)
        self.assertEqual(len(self.tree.listdir("/")), 258)

    def test_closed(self) -> None:
        tree = Tree()
        tree.write_text("/f", "text")
        file = tree.open("/f")
        tree.close()
        self.assertRaisesRegex(ValueError, "closed", tree.read_text, "/f")
        self.assertRaisesRegex(ValueError, "closed", file.read)
        self.assertEqual(repr(tree), "<atomfs.Tree closed>")


if __name__ == "__main__":
    unittest.main()
