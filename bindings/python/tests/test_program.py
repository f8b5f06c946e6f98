"""The program of the package."""
import os
import pathlib
import subprocess
import sys
import tempfile
import unittest
from typing import Dict, Tuple

import atomfs
from atomfs._program import program

SCRIPT = "atomfs 1\nthread m\nmkdir /a\nmkdir /a/b\nthread r\nrename /a /b\nschedule\nm*8 r*2 finish\n"


def ran(*words: str, text: str = "", **more: str) -> Tuple[int, str, str]:
    done = subprocess.run(
        [sys.executable, "-m", "atomfs", *words], input=text, capture_output=True, text=True, env={**os.environ, **more}
    )
    return done.returncode, done.stdout, done.stderr


WORKS = """
import os, pathlib, subprocess, sys, tempfile

pathlib.Path("made").write_text("text")
os.symlink("made", "link")
os.chmod("made", 0o640)
with tempfile.TemporaryDirectory() as folder:
    print(sys.argv[1:], os.listdir(folder), __name__, os.path.exists("beside"))
print(subprocess.run(["cat", "link"], capture_output=True, text=True).stdout)
sys.exit(3)
"""


class Exec(unittest.TestCase):
    def setUp(self) -> None:
        folder = tempfile.TemporaryDirectory()
        self.addCleanup(folder.cleanup)
        self.folder = pathlib.Path(folder.name)
        (self.folder / "works.py").write_text(WORKS)
        (self.folder / "beside").write_text("")

    def ran(self, *words: str) -> Tuple[int, str, str]:
        command = [sys.executable, "-m", "atomfs", "exec", *words]
        done = subprocess.run(command, capture_output=True, text=True, cwd=self.folder)
        return done.returncode, done.stdout, done.stderr

    def test_exec(self) -> None:
        """A program works in memory, and what is asked for comes out: its status, its journal, and what it has made."""
        told = "['a', '--to'] [] __main__ {}\ntext\n"
        self.assertEqual(self.ran("works.py", "a", "--to"), (3, told.format(False), ""))
        self.assertEqual(sorted(path.name for path in self.folder.iterdir()), ["beside", "works.py"])
        found = self.ran("--journal", "journal", "--to", "out", "works.py", "a", "--to")
        self.assertEqual(found, (3, told.format(False), ""))
        self.assertEqual(atomfs.check((self.folder / "journal").read_text()), "lawful")
        self.assertIn("mknod /work/made", (self.folder / "journal").read_text())
        self.assertEqual((self.folder / "out" / "link").read_text(), "text")
        self.assertEqual(os.readlink(self.folder / "out" / "link"), "made")
        self.assertEqual((self.folder / "out" / "made").stat().st_mode & 0o777, 0o640)

    def test_at(self) -> None:
        """A directory of the disk begins as it is, and stays so; programs of the disk are refused where they would find the one of the disk."""
        (self.folder / "reads.py").write_text(
            "import os\nprint(sorted(os.listdir()))\nos.unlink('beside')\nopen('new', 'w').close()\n"
        )
        status, told, message = self.ran("--at", ".", "--to", "out", "reads.py")
        self.assertEqual((status, told, message), (0, "['beside', 'reads.py', 'works.py']\n", ""))
        self.assertEqual(sorted(path.name for path in self.folder.iterdir()), ["beside", "out", "reads.py", "works.py"])
        self.assertEqual(sorted(os.listdir(self.folder / "out")), ["new", "reads.py", "works.py"])

    def test_overlay(self) -> None:
        """A directory of the disk is read, and stays as it is; what is asked for has all that is there, with the changes."""
        (self.folder / "data").mkdir()
        (self.folder / "data" / "in").write_text("in")
        (self.folder / "reads.py").write_text(
            "import os\nprint(open('data/in').read())\nos.unlink('beside')\nopen('data/in', 'a').write('!')\n"
        )
        found = self.ran("--overlay", ".", "--to", "out", "--journal", "journal", "reads.py")
        self.assertEqual(found, (0, "in\n", ""))
        self.assertEqual((self.folder / "data" / "in").read_text(), "in")
        names = ["data", "reads.py", "works.py"]
        self.assertEqual(sorted(os.listdir(self.folder)), sorted([*names, "beside", "journal", "out"]))
        self.assertEqual(sorted(os.listdir(self.folder / "out")), names)
        self.assertEqual((self.folder / "out" / "data" / "in").read_text(), "in!")
        self.assertEqual((self.folder / "out" / "works.py").read_text(), WORKS)
        journal = (self.folder / "journal").read_text()
        self.assertEqual(atomfs.check(journal), "lawful")
        # What comes for the directory that is asked for is no call of the program's run.
        self.assertNotIn("write /works.py", journal)
        self.assertEqual(
            self.ran("--overlay", "none", "reads.py"), (2, "", "atomfs exec: there is no directory none\n")
        )

    def test_ends(self) -> None:
        for text, status, told in (
            ("raise KeyError('x')", 1, "KeyError: 'x'"),
            ("import sys; sys.exit('words')", 1, "words\n"),
            ("pass", 0, ""),
        ):
            (self.folder / "ends.py").write_text(text)
            found = self.ran("ends.py")
            self.assertEqual((found[0], found[1]), (status, ""))
            self.assertIn(told, found[2])
        self.assertEqual(self.ran("none.py")[0], 2)
        self.assertIn("there is no program none.py", self.ran("none.py")[2])
        self.assertEqual(self.ran()[0], 2)


class Program(unittest.TestCase):
    @unittest.skipUnless(os.path.exists(program()), "there is no program in the package: ATOMFS_PROGRAM names one")
    def test_module(self) -> None:
        """Its input, its output and its status are those of the program."""
        self.assertEqual(ran("--version"), (0, f"atomfs {atomfs.__version__}\n", ""))
        self.assertEqual(ran("run", text=SCRIPT), (0, atomfs.run(SCRIPT), ""))
        self.assertEqual(ran("check", text=atomfs.run(SCRIPT)), (0, "lawful\n", ""))
        status, told, message = ran("run", text="none")
        self.assertEqual((status, told), (3, ""))
        self.assertIn("line 1: BadHeader", message)

    @unittest.skipUnless(os.path.exists(program()), "there is no program in the package: ATOMFS_PROGRAM names one")
    def test_a_script_of_explore(self) -> None:
        """What explore raises is a script for the program."""
        with self.assertRaises(atomfs.ScheduleError) as raised:
            atomfs.explore({"m": ["mkdir /a"], "r": ["rename /a /b"]}, lambda tree, replies: False)
        status, told, _ = ran("run", text=raised.exception.script)
        self.assertEqual((status, told[: told.index("tree\n")]), (0, raised.exception.journal))

    def test_missing(self) -> None:
        """Without the program it says what is missing."""
        missing = pathlib.Path(__file__).with_name("none")
        status, told, message = ran("--version", ATOMFS_PROGRAM=str(missing))
        self.assertEqual((status, told), (127, ""))
        self.assertEqual(
            message,
            f"atomfs: there is no program: No such file or directory: {missing}; ATOMFS_PROGRAM names one that is elsewhere\n",
        )


class OfTheLibrary(unittest.TestCase):
    def told(self, named: Dict[str, str]) -> str:
        """The last line of what is told where the library that a variable names, or the package's own, is not there."""
        environment = {**{name: value for name, value in os.environ.items() if name != "ATOMFS_LIBRARY"}, **named}
        words = [sys.executable, "-c", "import atomfs; atomfs.Tree()"]
        done = subprocess.run(words, capture_output=True, text=True, env=environment)
        self.assertEqual(done.returncode, 1)
        return done.stderr.splitlines()[-1]

    def test_named(self) -> None:
        """A library that is named and not there: the message has its path and the variable."""
        self.assertRegex(
            self.told({"ATOMFS_LIBRARY": "/none/lib.so"}),
            "^OSError: the library of atomfs cannot be loaded: /none/lib.so: .*; ATOMFS_LIBRARY names it$",
        )

    @unittest.skipIf(pathlib.Path(atomfs.__file__).with_name("libatomfs.so").exists(), "the package has a library")
    def test_own(self) -> None:
        """Without a library of its own the package says what makes one."""
        self.assertRegex(self.told({}), "; embed/build makes one, and ATOMFS_LIBRARY names it$")


if __name__ == "__main__":
    unittest.main()
