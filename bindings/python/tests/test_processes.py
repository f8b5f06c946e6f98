"""Programs of the disk and a tree: each is refused in words, or works in a real directory that comes back."""
import errno
import os
import shutil
import stat
import subprocess
import tempfile
import unittest
from typing import Any, Callable, Tuple

import atomfs
from test_patch import AT, NO_VARIABLES, OfPatch, filled, text_of, written

SH = str(shutil.which("sh"))


def by_shell(text: str, **words: Any) -> str:
    told: str = subprocess.run([SH, "-c", text], check=True, capture_output=True, text=True, **words).stdout
    return told


class Refused(OfPatch):
    def test_words(self) -> None:
        """Whatever would need the tree: nothing is started, and the error says by which word it would be."""
        with atomfs.patch(self.tree, at=AT):
            filled(AT)
            calls: Tuple[Callable[[], object], ...] = (
                lambda: subprocess.run(["cat", f"{AT}/f"]),
                lambda: subprocess.run(f"cat {AT}/f", shell=True),
                lambda: os.system(f"touch {AT}/f"),
                lambda: os.spawnv(os.P_WAIT, SH, ["sh", f"{AT}/f"]),
                lambda: os.posix_spawn(SH, ["sh", f"{AT}/f"], NO_VARIABLES),
                lambda: subprocess.run([SH, "-c", "true"], cwd=f"{AT}/d"),
            )
            for call in calls:
                with self.assertRaisesRegex(OSError, r"no program sees it without patch\(processes=True\)") as raised:
                    call()
                self.assertEqual(raised.exception.errno, errno.ENOTSUP)
            self.assertEqual(subprocess.run([SH, "-c", "exit 3"]).returncode, 3)


class Mirrored(OfPatch):
    def setUp(self) -> None:
        super().setUp()
        self.patch = atomfs.patch(self.tree, at=AT, processes=True)
        self.patch.__enter__()
        filled(AT)

    def tearDown(self) -> None:
        self.patch.__exit__()
        super().tearDown()

    def seen(self) -> bool:
        """Whether the directory is on the disk."""
        try:
            self.patch._real["os.lstat"](AT)
        except FileNotFoundError:
            return False
        return True

    def test_changes(self) -> None:
        """What a program makes, writes, removes, renames, links and lets run stands in the tree then."""
        os.symlink("f", f"{AT}/l")
        os.chmod(f"{AT}/f", 0o640)
        os.chdir(f"{AT}/d")
        try:
            told = by_shell(
                "pwd; cat ../l; stat -c %a ../f; echo more >> ../f; rm g; rmdir e; mkdir -p n/m; echo new > n/m/f; ln -s n/m ../k;"
                "chmod 700 ../f; mv n ../moved"
            )
        finally:
            os.chdir("/")
        self.assertEqual(told, f"{AT}/d\nhello640\n")
        self.assertEqual(
            self.tree.to_dict(), {"/d": None, "/f": b"hellomore\n", "/k": b"", "/l": b"", "/moved/m/f": b"new\n"}
        )
        self.assertEqual((os.readlink(f"{AT}/k"), oct(os.stat(f"{AT}/f").st_mode)), ("n/m", oct(stat.S_IFREG | 0o700)))
        self.assertFalse(self.seen())

    def test_pipes(self) -> None:
        """A program sees the pipes of the tree, and the tree those that it made; what has become another kind is so on both sides."""
        os.mkfifo(f"{AT}/p", 0o640)
        told = by_shell("stat -c '%F %a' p; rm f; mkfifo -m 600 f q; rm -r d/e; echo e > d/e", cwd=AT)
        self.assertEqual(told, "fifo 640\n")
        self.assertEqual(
            [oct(os.stat(f"{AT}/{name}").st_mode) for name in ("p", "f", "q")], ["0o10640", "0o10600", "0o10600"]
        )
        self.assertEqual(text_of(f"{AT}/d/e"), "e\n")
        for name in ("f", "q"):
            os.unlink(f"{AT}/{name}")
        os.mkdir(f"{AT}/q")
        os.unlink(f"{AT}/d/e")
        os.mkfifo(f"{AT}/d/e")
        self.assertEqual(by_shell("stat -c %F q d/e p", cwd=AT), "directory\nfifo\nfifo\n")

    def test_files(self) -> None:
        """Files of the tree as what a program reads and writes."""
        with open(f"{AT}/f") as source, open(f"{AT}/out", "w") as target, tempfile.TemporaryFile(dir=AT) as errors:
            target.write("first ")
            target.flush()
            subprocess.run([SH, "-c", "cat; echo ok >&2"], stdin=source, stdout=target, stderr=errors, check=True)
            target.write(" last")
            errors.seek(0)
            self.assertEqual((errors.read(), source.read()), (b"ok\n", ""))
        self.assertEqual((text_of(f"{AT}/out"), self.seen()), ("first hello last", False))

    def test_programs(self) -> None:
        """Each way of starting one."""
        touch = ["sh", "-c", 'echo x > "$0"']
        self.assertEqual(os.system(f"echo x > {AT}/1; exit 3"), 3 << 8)
        self.assertEqual(os.spawnv(os.P_WAIT, SH, [*touch, f"{AT}/2"]), 0)
        starts: Tuple[Tuple[Callable[[str], int], str], ...] = (
            (lambda path: os.spawnv(os.P_NOWAIT, SH, [*touch, path]), "3"),
            (lambda path: os.posix_spawn(SH, [*touch, path], os.environ), "4"),
        )
        for start, name in starts:
            pid = start(f"{AT}/{name}")
            self.assertTrue(self.seen())
            self.assertEqual(os.waitpid(pid, 0), (pid, 0))
        with open(f"{AT}/run", "w") as file:
            file.write(f"#!{SH}\necho x > {AT}/5\n")
        os.chmod(f"{AT}/run", 0o755)
        self.assertEqual(subprocess.call([f"{AT}/run"]), 0)
        os.chdir(AT)
        try:
            with os.popen("echo x > 6; echo told") as told:
                self.assertEqual(told.read(), "told\n")
            self.assertEqual(by_shell("cat f", cwd="d/.."), "hello")
            self.assertEqual(by_shell("pwd", cwd="/"), "/\n")
        finally:
            os.chdir("/")
        self.assertEqual([text_of(f"{AT}/{name}") for name in "123456"], ["x\n"] * 6)
        self.assertFalse(self.seen())

    def test_two_at_once(self) -> None:
        """The second finds what the tree has by then, and the directory goes after both."""
        with subprocess.Popen(
            [SH, "-c", f"read x; cat {AT}/new"], stdin=subprocess.PIPE, stdout=subprocess.PIPE
        ) as first:
            written(f"{AT}/new", "later")
            self.assertEqual(by_shell(f"cat {AT}/new; echo by > {AT}/second"), "later")
            self.assertEqual(text_of(f"{AT}/second"), "by\n")
            self.assertTrue(self.seen())
            self.assertEqual(first.communicate(b"\n")[0], b"later")
        self.assertFalse(self.seen())

    def test_none_started(self) -> None:
        before = self.tree.tree()
        with self.assertRaises(FileNotFoundError):
            subprocess.run([f"{AT}/none"])
        with self.assertRaises(OSError) as raised:
            with open(f"{AT}/f") as file:
                subprocess.run(["true"], pass_fds=[file.fileno()])
        self.assertEqual((raised.exception.errno, self.seen(), self.tree.tree()), (errno.ENOTSUP, False, before))

    def test_end(self) -> None:
        """A program that nobody waits for brings back what it has by the end of the patch."""
        process = subprocess.Popen(
            [SH, "-c", f"echo x > {AT}/new; echo; read x"], stdin=subprocess.PIPE, stdout=subprocess.PIPE
        )
        assert process.stdout
        process.stdout.readline()
        self.patch.__exit__()
        self.assertEqual(self.tree.read("/new"), b"x\n")
        self.assertFalse(os.path.lexists(AT))
        process.communicate(b"\n")
        self.patch.__enter__()

    def test_over_a_directory(self) -> None:
        with tempfile.TemporaryDirectory() as at, atomfs.Tree() as tree, atomfs.patch(tree, at=at, processes=True):
            with self.assertRaisesRegex(OSError, "a directory of the disk where the tree stands"):
                subprocess.run([SH, "-c", "true"], cwd=at)


if __name__ == "__main__":
    unittest.main()
