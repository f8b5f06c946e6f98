"""What `AtomFS` does beside what PyFilesystem2's suite asks for."""
import errno
import gc
import io
import sys
import threading
import unittest

import fs
import fs.copy
from fs import errors
from fs.opener.errors import OpenerError

import atomfs
from atomfs.fs import AtomFS

LONG = "n" * 256


class Files(unittest.TestCase):
    def setUp(self) -> None:
        self.files = AtomFS(limit=500)
        self.tree = self.files.atom_tree

    def tearDown(self) -> None:
        self.assertEqual(self.tree.check(), "lawful")
        self.files.close()
        self.assertTrue(self.tree.closed)

    def test_opener(self) -> None:
        with fs.open_fs("atomfs://") as files:
            self.assertIsInstance(files, AtomFS)
            files.writetext("a", "text")
            self.assertEqual(files.readtext("a"), "text")

    def test_opener_refuses(self) -> None:
        """What a URL asks for beside a new tree is read by nobody, and refused."""
        for url in ("atomfs://?limit=3", "atomfs://x/y", "atomfs://user:word@", "atomfs://!/a"):
            with self.subTest(url):
                self.assertRaisesRegex(OpenerError, "takes no path", fs.open_fs, url)
        fs.open_fs("atomfs:///").close()

    def test_words_of_limits(self) -> None:
        with AtomFS(limits=atomfs.Limits.V2) as files:
            for at in range(256):
                files.create(str(at))
            with self.assertRaises(errors.InsufficientStorage) as raised:
                files.create("x")
        self.assertEqual(
            str(raised.exception), "path 'x': The directory has 256 entries, and no more may be made in it"
        )

    def test_given_tree(self) -> None:
        """A tree that is given stays open."""
        with atomfs.Tree() as tree:
            with AtomFS(tree) as files:
                files.makedir("a")
            self.assertEqual(tree.readdir("/"), ["a"])

    def test_no_tree(self) -> None:
        """One whose tree is refused is closed without a word."""
        self.addCleanup(setattr, sys, "unraisablehook", sys.unraisablehook)
        told = []
        sys.unraisablehook = lambda unraisable: told.append(str(unraisable.exc_value))
        self.assertRaises(ValueError, AtomFS, limit=0)
        gc.collect()
        self.assertEqual(told, [])

    def test_limits(self) -> None:
        self.assertEqual(
            self.files.getmeta("atomfs"), {"name_bytes": 255, "path_names": 2_048, "file_bytes": 2_147_483_648}
        )
        for path in (LONG, f"a/{LONG}/b", "n/" * 2_049):
            with self.subTest(path):
                self.assertRaises(errors.InvalidPath, self.files.makedir, path)
                self.assertRaises(errors.InvalidPath, self.files.validatepath, path)
                self.assertRaises(errors.InvalidPath, self.files.exists, path)
        self.files.makedir("n" * 255)

    def test_smaller_limits(self) -> None:
        """A file system by the first two sets refuses what one by the third takes."""
        for limits, name, size in ((atomfs.Limits.V1, 32, 65_536), (atomfs.Limits.V2, 64, 1_048_576)):
            with self.subTest(limits), AtomFS(limits=limits) as files:
                self.assertEqual(files.getmeta("atomfs"), {"name_bytes": name, "path_names": 64, "file_bytes": size})
                self.assertRaises(errors.InvalidPath, files.makedir, "n" * (name + 1))
                self.assertRaises(errors.InvalidPath, files.makedir, "n/" * 65)
                files.makedir("n" * name)
                self.assertRaises(OSError, files.writebytes, "f", bytes(size + 1))
                files.writebytes("f", bytes(size))

    def test_full(self) -> None:
        with AtomFS(limits=atomfs.Limits.V2) as files:
            for at in range(256):
                files.create(str(at))
            self.assertRaises(errors.InsufficientStorage, files.makedir, "one_more")
            self.assertRaises(errors.InsufficientStorage, files.create, "one_more")

    def test_modes(self) -> None:
        """What each mode does to a file with bytes, and where it begins."""
        rows = (
            ("r", b"old", b"old"),
            ("r+", b"NEW", b"NEW"),
            ("w", b"NEW", b"NEW"),
            ("w+", b"NEW", b"NEW"),
            ("a", b"NEW", b"oldNEW"),
            ("a+", b"NEW", b"oldNEW"),
        )
        for buffering in (-1, 0, 1, 2):
            for mode, written, wanted in rows:
                with self.subTest(f"{mode} {buffering}"):
                    self.files.writebytes("f", b"old")
                    with self.files.openbin("f", mode, buffering) as file:
                        self.assertEqual(file.tell(), 3 if "a" in mode else 0)
                        if mode != "r":
                            self.assertEqual(file.write(written), 3)
                    self.assertEqual(self.files.readbytes("f"), wanted)

    def test_a_file(self) -> None:
        """Positions, gaps and sizes."""
        with self.files.openbin("f", "w+") as file:
            self.assertEqual(file.seek(4), 4)
            file.write(b"end")
            self.assertEqual(file.seek(-7, io.SEEK_END), 0)
            self.assertEqual(file.read(), b"\0\0\0\0end")
            self.assertEqual(file.truncate(2), 2)
            self.assertEqual(file.tell(), 7)
            self.assertEqual(file.read(), b"")
            self.assertRaises(ValueError, file.seek, -1)
            self.assertRaises(ValueError, file.seek, 0, 9)
            self.assertRaises(ValueError, file.truncate, -1)
            self.assertRaises(io.UnsupportedOperation, file.fileno)
        self.assertRaises(ValueError, file.read)
        self.assertEqual(self.files.readbytes("f"), b"\0\0")

    def test_appends(self) -> None:
        """Each write of a file that appends goes to the end as it is then."""
        with self.files.openbin("f", "a", 0) as one, self.files.openbin("f", "a", 0) as other:
            one.write(b"1")
            other.write(b"2")
            one.write(b"3")
            self.assertEqual((one.tell(), other.tell()), (3, 2))
        self.assertEqual(self.files.readbytes("f"), b"123")

    def test_appends_of_threads(self) -> None:
        def work() -> None:
            with self.files.openbin("f", "a", 0) as file:
                for _ in range(100):
                    file.write(b"12345")

        threads = [threading.Thread(target=work) for _ in range(4)]
        for thread in threads:
            thread.start()
        for thread in threads:
            thread.join()
        self.assertEqual(self.files.readbytes("f"), b"12345" * 400)

    def test_copies_by_threads(self) -> None:
        """Threads write and read files while the file system's lock is held."""
        with fs.open_fs("mem://") as other, AtomFS() as files:
            for at in range(20):
                self.files.writebytes(str(at), b"x" * 60_000)
            for source, goal in ((self.files, other), (other, files)):
                fs.copy.copy_fs(source, goal, workers=3)
            self.assertEqual([files.getsize(str(at)) for at in range(20)], [60_000] * 20)

    def test_too_long(self) -> None:
        """A write that passes the limit of a file writes nothing."""
        with AtomFS(limits=atomfs.Limits.V2) as files:
            with files.openbin("f", "w", 0) as file:
                self.assertEqual(file.write(b"x" * 1_048_576), 1_048_576)
                with self.assertRaises(OSError) as raised:
                    file.write(b"y")
                self.assertEqual(raised.exception.errno, errno.EFBIG)
            self.assertEqual(files.getsize("f"), 1_048_576)

    def test_removed_meanwhile(self) -> None:
        """An open file is a path: behind its removal there is nothing to read."""
        self.files.writebytes("f", b"bytes")
        with self.files.openbin("f") as file:
            self.files.remove("f")
            self.assertRaises(FileNotFoundError, file.read)

    def test_one_call_for_a_file(self) -> None:
        """A file of up to 1,048,576 bytes is written by one call; one that the room holds is read by one, behind the read that looks for it."""
        for size, counts in ((65_536, (1, 2)), (1_048_576, (1, 3))):
            files = AtomFS()
            with files:
                files.writebytes("f", b"x" * size)
                self.assertEqual(files.readbytes("f"), b"x" * size)
                journal = files.atom_tree.journal()
                self.assertEqual((journal.count(" write /f"), journal.count(" read /f 0 ")), counts)

    def test_moves(self) -> None:
        """A file moves by one rename."""
        self.files.makedir("d")
        self.files.writebytes("f", b"f")
        self.files.writebytes("g", b"g")
        self.files.move("f", "g", overwrite=True)
        self.files.move("g", "g", overwrite=True)
        self.assertEqual((self.files.listdir("/"), self.files.readbytes("g")), (["d", "g"], b"f"))
        self.assertRaises(errors.FileExpected, self.files.move, "g", "d", overwrite=True)
        self.assertRaises(errors.ResourceNotFound, self.files.move, "g", "g/h")
        self.assertIn("rename /f /g", self.tree.journal())

    def test_kinds_of_errors(self) -> None:
        self.files.writebytes("f", b"")
        self.files.makedir("d")
        rows = (
            (errors.ResourceNotFound, lambda: self.files.getinfo("f/x")),
            (errors.DirectoryExpected, lambda: self.files.makedir("f/x")),
            (errors.DirectoryExpected, lambda: self.files.listdir("f")),
            (errors.DirectoryExists, lambda: self.files.makedir("f")),
            (errors.DirectoryExpected, lambda: self.files.makedir("f", recreate=True)),
            (errors.FileExpected, lambda: self.files.openbin("d", "a")),
            (errors.FileExpected, lambda: self.files.openbin("d", "r+")),
            (errors.FileExists, lambda: self.files.openbin("d", "x")),
            (errors.ResourceNotFound, lambda: self.files.openbin("f/x", "w")),
            (errors.ResourceNotFound, lambda: self.files.openbin("x", "r+")),
            (errors.DirectoryExpected, lambda: self.files.removedir("f")),
            (errors.RemoveRootError, lambda: self.files.removedir("/")),
            (errors.FileExpected, lambda: self.files.remove("/")),
        )
        for at, (kind, call) in enumerate(rows):
            with self.subTest(at):
                self.assertRaises(kind, call)

    def test_names(self) -> None:
        """Entries come in byte order of their names, and a name need not be UTF-8."""
        self.tree.mknod(b"/\xff")
        for name in ("b", "a", "\N{SNOWMAN}"):
            self.files.create(name)
        self.assertEqual(self.files.listdir("/"), ["a", "b", "\N{SNOWMAN}", "\udcff"])
        self.assertEqual([info.name for info in self.files.scandir("/", page=(1, 3))], ["b", "\N{SNOWMAN}"])
        self.assertTrue(self.files.exists("\udcff"))

    def test_large_directories(self) -> None:
        """A directory comes whole, by several calls."""
        files = AtomFS()
        with files:
            names = [f"{at:03}" for at in range(300)]
            for name in names:
                files.create(f"d{name}" if name == "000" else name)
            found = sorted(names[1:] + ["d000"])
            self.assertEqual(files.listdir("/"), found)
            self.assertEqual([info.name for info in files.scandir("/")], found)
            self.assertEqual(files.atom_tree.journal().count(" list / "), 4)
            files.makedirs("/n" * 2_048)
            self.assertRaises(errors.InvalidPath, files.exists, "/n" * 2_049)

    def test_removed_while_scanned(self) -> None:
        for name in "abc":
            self.files.create(name)
        scanned = self.files.scandir("/")
        self.assertEqual(next(scanned).name, "a")
        self.files.remove("b")
        self.assertEqual([info.name for info in scanned], ["c"])


if __name__ == "__main__":
    unittest.main()
