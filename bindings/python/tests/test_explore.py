"""Interleavings that are drawn, and a check behind each."""
import errno
import importlib.util
import pathlib
import subprocess
import sys
import tempfile
import typing
import unittest

import atomfs
from atomfs import Limits, ScheduleError, Stat, explore

# The calls of threads, each a line or the words of it.
Threads = typing.Dict[str, typing.Sequence[typing.Union[str, typing.Tuple[typing.Any, ...]]]]

MOVED: Threads = {"m": ["mkdir /a/d/x", ("stat", "/a/d/x")], "r": [("rename", "/a", "/b")]}
BEFORE = ["mkdir /a", "mkdir /a/d"]
# Each call as a line and as what is the same.
SAME = (
    ("mkdir /d", ("mkdir", b"/d")),
    ("mknod /d/%FF%20%25", ("mknod", "/d/\udcff %")),
    ("write /d/%FF%20%25 2 68690a", ("write", b"/d/\xff %", 2, b"hi\n")),
    ("read /d/%FF%20%25 1 9", ("read", b"/d/\xff %", 1, 9)),
    ("truncate /d/%FF%20%25 3", ("truncate", b"/d/\xff %", 3)),
    ("stat /d/%FF%20%25", ("stat", b"/d/\xff %")),
    ("readdir /d", ("readdir", pathlib.PurePosixPath("/d"))),
    ("rename /d/%FF%20%25 /f", ("rename", b"/d/\xff %", "/f")),
    ("exchange /d /f", ("exchange", "/d", "/f")),
    ("write /d 0 -", ("write", "/d", 0, bytearray())),
    ("unlink /d", ("unlink", "/d")),
    ("rmdir /f", ("rmdir", "/f")),
    ("stat /", ("stat", "/")),
)
REPLIES = [None, None, 3, b"\0hi\n", None, Stat(False, 3), ["\udcff %"], None, None, 0, None, None, Stat(True, 0)]


def failed(case: unittest.TestCase, threads: Threads, **named: typing.Any) -> ScheduleError:
    """The error of a check that fails behind the first run."""
    with case.assertRaises(ScheduleError) as raised:
        explore(threads, lambda tree, replies: False, runs=1, **named)
    return raised.exception


class Runs(unittest.TestCase):
    def seen(self, threads: Threads, **named: typing.Any) -> typing.List[typing.Tuple[str, str]]:
        """The replies and the journal of each run."""
        found: typing.List[typing.Tuple[str, str]] = []
        explore(threads, lambda tree, replies: found.append((repr(replies), tree.journal())), **named)
        return found

    def test_seeds(self) -> None:
        """The same seed gives the same runs, and a later run is the first one of its own seed."""
        first = self.seen(MOVED, runs=50, seed=7, before=BEFORE)
        self.assertEqual(first, self.seen(MOVED, runs=50, seed=7, before=BEFORE))
        self.assertEqual(first[20:30], self.seen(MOVED, runs=10, seed=27, before=BEFORE))
        self.assertNotEqual(first, self.seen(MOVED, runs=50, seed=57, before=BEFORE))
        self.assertGreater(len(set(first)), 10)
        self.assertEqual({atomfs.check(journal) for _, journal in first}, {"lawful"})

    def test_each_outcome(self) -> None:
        """Either call is the first, or the rename helps the mkdir that is half-way."""
        found = self.seen(MOVED, runs=300, before=BEFORE)
        self.assertEqual(len({replies for replies, _ in found}), 3)
        helped = [
            journal
            for _, journal in found
            if "commit 4\nreturn 4 ok\nreturn 3 ok\n" in journal and "commit 3\ncommit 4\n" in journal
        ]
        self.assertTrue(helped)

    def test_replies(self) -> None:
        """Each call, as a line and as words, with its reply; of one that failed, its error."""
        for at in (0, 1):
            with self.subTest(at):
                error = failed(self, {"t": [both[at] for both in SAME]})
                self.assertEqual(error.replies, {"t": REPLIES})
                self.assertEqual(error.script.splitlines()[3:-2], [line for line, _ in SAME])
        (missing,) = failed(self, {"t": [("rename", "/a", "/b")]}).replies["t"]
        self.assertEqual(
            (type(missing), missing.errno, missing.filename, missing.filename2),
            (FileNotFoundError, errno.ENOENT, "/a", "/b"),
        )

    def test_scripts(self) -> None:
        """The script of a run has its journal, and names its seed."""
        threads: Threads = {
            **MOVED,
            "w": ["mknod /b/f", "write /a/f 3 00ff", "exchange /a/d /b/f"],
            "s": ["readdir /a", "rmdir /b/d", "readdir /"],
        }
        for limits in Limits:
            for seed in range(200):
                error = failed(self, threads, seed=seed, before=BEFORE, limits=limits)
                self.assertEqual(error.seed, seed)
                told = atomfs.run(error.script)
                self.assertEqual(told[: told.index("tree\n")], error.journal)
                self.assertIn(f"# seed {seed}\n", error.script)
                self.assertLessEqual(max(map(len, error.script.splitlines())), 72)

    def test_calls_of_the_check(self) -> None:
        """The check may call the tree; the journal of the error ends before that."""

        def check(tree: atomfs.Tree, replies: typing.Dict[str, typing.Any]) -> None:
            tree.rename("/a", "/c")
            self.assertEqual(tree.check(), "lawful")
            raise KeyError("none")

        with self.assertRaises(ScheduleError) as raised:
            explore({"t": ["mkdir /a"]}, check)
        error = raised.exception
        self.assertEqual(
            (type(error.__cause__), error.journal.count("\n"), atomfs.check(error.journal)), (KeyError, 7, "lawful")
        )
        for part in ("seed 1: KeyError: 'none'", error.script, error.journal):
            self.assertIn(part, str(error))

    def test_picture(self) -> None:
        """The error of a check draws its run, and has a page of it; where these were written, the plugin of pytest says."""
        error = failed(self, MOVED, before=BEFORE)
        self.assertEqual((error.draw(), error.picture), (atomfs.draw(error.script), None))
        page = atomfs.draw(error.script, html=True)
        self.assertEqual((error.page(), error.html, error.page_file), (page, page.html, None))

    def test_no_failure(self) -> None:
        """It tells how many runs there were; what a check answers is looked at for False alone."""
        self.assertEqual(explore({"t": ["mkdir /a"]}, lambda tree, replies: 0, runs=3), 3)
        self.assertEqual(explore({"t": []}, lambda tree, replies: replies == {"t": []}, runs=2), 2)
        self.assertEqual(explore({"t": []}, lambda tree, replies: False, runs=0), 0)
        self.assertEqual(failed(self, {"t": []}).journal, "atomfs-journal 4\nstart\ndir /\nentries\n")

    def test_lists(self) -> None:
        """By the third limits, which are those where none are named, threads list directories, and the script is one of these."""
        threads: Threads = {"m": ["mknod /b", "unlink /a"], "l": ["list / / 9", ("list", "/", "/a", 1)]}
        came = set()

        def check(tree: atomfs.Tree, replies: typing.Dict[str, typing.Any]) -> None:
            came.add(tuple(map(tuple, replies["l"])))

        explore(threads, check, runs=200, before=["mknod /a"])
        self.assertLessEqual({(("a",), ("b",)), (("b",), ("b",)), (("a",), ())}, came)
        error = failed(self, threads, before=["mknod /a"])
        self.assertTrue(error.script.startswith("atomfs 3\n"))
        self.assertIn("\nlist / / 9\nlist / /a 1\n", error.script)
        self.assertEqual(atomfs.run(error.script).partition("tree\n")[0], error.journal)
        for count in (2**32 - 1, 2**32, 2**64):
            error = failed(self, {"l": [("list", "/", "/", count), f"list / / {count}"]})
            self.assertIn("\nlist / / 4294967295\nlist / / 4294967295\nschedule\n", error.script)
            self.assertEqual(atomfs.run(error.script).partition("tree\n")[0], error.journal)

    def test_interrupted(self) -> None:
        def check(tree: atomfs.Tree, replies: typing.Dict[str, typing.Any]) -> None:
            raise KeyboardInterrupt

        self.assertRaises(KeyboardInterrupt, explore, {"t": []}, check)


class BadInput(unittest.TestCase):
    def test_calls(self) -> None:
        """What is no call raises the error of what it is, before any run."""
        for kind, words, call in (
            (ValueError, "'mkdr' is none of the twelve calls", "mkdr /a"),
            (ValueError, "'' is none of the twelve calls", ""),
            (ValueError, "7 is none of the twelve calls", (7,)),
            (TypeError, "mkdir takes path: 'mkdir /a /b'", "mkdir /a /b"),
            (TypeError, "read takes path, offset, count", ("read", "/a", 0)),
            (OSError, "Path does not begin with a slash: 'a'", "mkdir a"),
            (OSError, "more than 255 bytes", ("rename", "/a", "/" + "n" * 256)),
            (TypeError, "offset is a whole number, and this is str", ("read", "/a", "0", 0)),
            (ValueError, "a negative size", ("truncate", "/a", -1)),
            (TypeError, "write takes bytes, and this is str", ("write", "/a", 0, "text")),
            (ValueError, "non-hexadecimal", "write /a 0 xy"),
            (ValueError, "invalid literal", "truncate /a x"),
        ):
            with self.subTest(call):
                self.assertRaisesRegex(kind, words, explore, {"t": [call]}, self.fail)
                self.assertRaisesRegex(kind, words, explore, {"t": []}, self.fail, before=[call])
        for limits in (Limits.V1, Limits.V2):
            self.assertRaisesRegex(
                ValueError,
                f"no tree by {limits} has the call list",
                explore,
                {"t": ["list / / 1"]},
                self.fail,
                limits=limits,
            )

    def test_threads(self) -> None:
        for kind, threads in (
            (ValueError, {}),
            (ValueError, {"T": []}),
            (ValueError, {"finish": []}),
            (ValueError, {7: []}),
            (TypeError, {"t": "mkdir /a"}),
            (TypeError, {"t": [7]}),
            (ValueError, {f"t{at}": [] for at in range(257)}),
        ):
            self.assertRaises(kind, explore, threads, self.fail)
        for limits in (Limits.V1, Limits.V2):
            words = "1 to 256 threads make at most 65,536 calls"
            self.assertRaisesRegex(ValueError, words, explore, {"t": ["stat /"] * 65_537}, self.fail, limits=limits)
        self.assertEqual(explore({"t": ["stat /"] * 65_537}, self.fail, runs=0), 0)  # type: ignore[arg-type]
        self.assertRaisesRegex(ValueError, "thread before", explore, {"before": []}, self.fail, before=["mkdir /a"])
        self.assertRaises(ValueError, explore, {"t": []}, self.fail, runs=-1)
        self.assertRaises(TypeError, explore, {"t": []}, self.fail, seed="1")
        with self.assertRaisesRegex(OSError, "All 1 nodes of the tree are in use: '/a'"):
            explore({"t": ["mkdir /a"]}, self.fail, limit=1)  # type: ignore[arg-type]


class Simulate(unittest.TestCase):
    @atomfs.simulate({"m": ["mkdir /a"], "r": ["rmdir /a"]}, runs=200)
    def test_one_is_first(tree: typing.Any, replies: typing.Dict[str, typing.Any]) -> None:  # noqa: N805
        """A method without self is a test, too."""
        assert ("/a" in tree) == isinstance(replies["r"][0], FileNotFoundError)

    test_one_is_first = staticmethod(test_one_is_first)  # type: ignore[assignment]

    def test_function(self) -> None:
        @atomfs.simulate({"m": ["mkdir /a"]}, runs=3, seed=5, before=["mkdir /b"])
        def check(tree: atomfs.Tree, replies: typing.Dict[str, typing.Any]) -> None:
            """Both are there."""
            seen.append(list(tree))
            assert len(seen) < 3

        seen: typing.List[typing.List[str]] = []
        self.assertEqual((check.__name__, check.__doc__), ("check", "Both are there."))
        with self.assertRaises(ScheduleError) as raised:
            check()
        self.assertEqual((raised.exception.seed, seen[0]), (7, ["/", "/a", "/b"]))

    @unittest.skipUnless(importlib.util.find_spec("pytest"), "there is no pytest: apt-get install python3-pytest")
    def test_pytest(self) -> None:
        """pytest finds the tests, gives them no fixtures, and shows seed and script of one that fails, also by pytest.fail."""
        text = """
import atomfs, pytest

@atomfs.simulate({"m": ["mkdir /a"], "r": ["rmdir /a"]}, runs=50)
def test_passes(tree, replies):
    assert replies["m"] == [None]

@atomfs.simulate({"m": ["mkdir /a"], "r": ["rmdir /a"]}, runs=50)
def test_fails(tree, replies):
    if "/a" not in tree:
        pytest.fail("it is gone")
"""
        with tempfile.TemporaryDirectory() as folder:
            pathlib.Path(folder, "test_it.py").write_text(text)
            words = sys.executable, "-m", "pytest", "-q", "-p", "no:cacheprovider", "test_it.py"
            ran = subprocess.run(words, cwd=folder, capture_output=True, text=True)
        self.assertRegex(ran.stdout, "(?m)^1 failed, 1 passed")
        self.assertRegex(ran.stdout, r"ScheduleError: seed \d+: Failed: it is gone\n(.*\n)+E +schedule\n")


if __name__ == "__main__":
    unittest.main()
