"""The races of examples/races: each is found, made again and cut down, and its repair passes.

ATOMFS_RACES says how many runs of each repair are made.
"""
import concurrent.futures
import contextlib
import importlib
import importlib.util
import io
import os
import pathlib
import re
import subprocess
import sys
import tempfile
import typing
import unittest

import atomfs

FOLDER = pathlib.Path(__file__).resolve().parents[3] / "examples" / "races"
NAMES = sorted(path.stem for path in FOLDER.glob("*.py") if path.stem != "race")
# How many runs of each repair.
RUNS = int(os.environ.get("ATOMFS_RACES", "10000"))
# Of each the switches between threads that are left, and its calls by the names that they have in a script.
LEFT = {
    "exists_then_create": (2, "stat stat mknod write mknod stat truncate write"),
    "listing_in_pages": (2, "list rename list list"),
    "log_rotation": (2, "rename stat mknod stat"),
    "lost_update": (2, "stat read stat read mknod stat truncate write mknod stat truncate write"),
    "mkdir_p": (2, "stat stat mkdir stat mkdir stat mkdir mkdir"),
    "publish_by_rename": (2, "stat stat mknod write read rename stat read stat read"),
    "queue_by_rename": (2, "list list rename rename rename"),
    "stale_lock": (
        2,
        "mkdir stat read mkdir rmdir mkdir stat read mknod stat truncate write rmdir mknod stat truncate write rmdir",
    ),
}


def page_of(name: str) -> str:
    """The page of a race."""
    return (FOLDER / f"{name}.md").read_text()


@unittest.skipUnless(FOLDER.is_dir(), "the examples are those of a checkout")
class Races(unittest.TestCase):
    # The module race of the examples.
    race: typing.Any

    @classmethod
    def setUpClass(cls) -> None:
        sys.path.insert(0, str(FOLDER))
        cls.addClassCleanup(sys.path.remove, str(FOLDER))
        cls.race = importlib.import_module("race")

    @classmethod
    def found(cls, name: str) -> atomfs.ScheduleError:
        """The error of a race."""
        cls.setUpClass()
        try:
            error: atomfs.ScheduleError = cls.race.find(importlib.import_module(name))
            return error
        finally:
            cls.doClassCleanups()

    def test_all(self) -> None:
        self.assertEqual(NAMES, sorted(LEFT))

    def test_found(self) -> None:
        """By each kind of draws, in few runs; what is told has lines of the program alone."""
        for name in NAMES:
            module = importlib.import_module(name)
            for draws, most in (("both", 10), ("uniform", 20), (atomfs.PCT(3), 100)):
                with self.subTest(name, draws=draws):
                    error = self.race.find(module, draws=draws)
                    self.assertLessEqual(error.seed, most)
                    self.assertEqual(self.race.find(module, runs=1, seed=error.seed, draws=draws).seed, error.seed)
                    self.assertEqual({one.line.file for one in error.events}, {str(FOLDER / f"{name}.py")})

    def test_cut_down(self) -> None:
        """The one that is left is as short as it can be, and has a script, a lawful journal and a picture."""
        for name, (switches, calls) in LEFT.items():
            with self.subTest(name):
                error = self.race.find(importlib.import_module(name))
                self.assertEqual(
                    (error.switches, " ".join(one.call.split()[0] for one in error.events)), (switches, calls)
                )
                self.assertTrue(all(one.begins and one.reply for one in error.events))
                self.assertEqual(atomfs.run(error.script).partition("tree\n")[0], error.journal)
                self.assertEqual((error.verdict, error.draw().svg[:4]), ("lawful", "<svg"))

    def test_made_again(self) -> None:
        """The cut-down run is made again, and fails as it did."""
        for name in NAMES:
            with self.subTest(name):
                error = self.race.find(importlib.import_module(name))
                for _ in range(2):
                    again = error.replay()
                    self.assertEqual((again.events, again.journal), (error.events, error.journal))
                    self.assertEqual(str(again.__cause__), str(error.__cause__))

    def test_repaired(self) -> None:
        """Each repair passes so many runs, which the processes of all cores make."""
        modules = [importlib.import_module(name) for name in NAMES]
        with concurrent.futures.ProcessPoolExecutor(os.cpu_count()) as executor:
            for module in modules:
                with self.subTest(module.__name__):
                    seen = self.race.passes(module, RUNS, executor=executor)
                    self.assertEqual(seen, RUNS)
                    self.assertGreaterEqual(seen.pairs, seen.met)
                    if RUNS == 10_000:
                        self.assertIn(f"--runs 10000 --workers 4\n{seen.summary}\n", page_of(module.__name__))

    def test_repair_of_one(self) -> None:
        """By one process it is the same."""
        for name in ("listing_in_pages", "stale_lock"):
            module = importlib.import_module(name)
            with concurrent.futures.ProcessPoolExecutor(2) as executor:
                seen = self.race.passes(module, 200, executor=executor)
            self.assertEqual(self.race.passes(module, 200).summary, seen.summary)

    def test_programs(self) -> None:
        """Each is a program that tells its race, and its repair how much was seen."""
        words = [sys.executable, str(FOLDER / "mkdir_p.py")]
        ran = subprocess.run(words, capture_output=True, text=True)
        self.assertEqual(ran.returncode, 1, ran.stderr)
        self.assertIn("os.mkdir(at)               mkdir /a: failed EEXIST\n", ran.stdout)
        for workers in ("1", "2"):
            more = ["--repaired", "--runs", "50", "--seed", "9", "--workers", workers]
            ran = subprocess.run([*words, *more], capture_output=True, text=True)
            self.assertEqual(ran.stdout, "50 runs, 1 outcome, 1 new in the last 50 runs; 0 of 0 pairs of calls met\n")

    def test_table(self) -> None:
        """The page names the page of each, and nothing else; the page of a race names its program, and the one in Rust."""
        page = (FOLDER / "README.md").read_text()
        self.assertEqual(sorted(set(re.findall(r"\((\w+)\.md\)", page))), NAMES)
        for name in NAMES:
            links = re.findall(r"\]\((.*?)\)", (FOLDER / f"{name}.md").read_text())
            self.assertIn(f"{name}.py", links)
            self.assertIn(f"../../bindings/rust/examples/races/{name}.rs", links)
            self.assertTrue(all((FOLDER / link).is_file() for link in links), links)


@unittest.skipUnless(FOLDER.is_dir(), "the pages are those of a checkout")
class Pages(unittest.TestCase):
    """The blocks of docs/RACES.md, docs/SCHEDULES.md and of the page of the races."""

    PAGE, SCHEDULES = (FOLDER.parents[1] / "docs" / name for name in ("RACES.md", "SCHEDULES.md"))

    def blocks(self, page: pathlib.Path, language: str) -> typing.List[str]:
        found = re.findall(r"^```(\w*)\n(.*?)^```$", page.read_text(), re.M | re.S)
        return [text for word, text in found if word == language]

    def test_example(self) -> None:
        """The example raises what the page shows; how many runs it took depends on the patch."""
        (shown,) = self.blocks(self.PAGE, "")
        with tempfile.TemporaryDirectory() as folder:
            program = pathlib.Path(folder, "lead.py")
            program.write_text(self.blocks(self.PAGE, "python")[0])
            ran = subprocess.run([sys.executable, str(program)], capture_output=True, text=True)
        told = ran.stderr[ran.stderr.index("ScheduleError: ") + len("ScheduleError: ") :].splitlines()
        wanted = _without_counts(shown.splitlines())
        self.assertEqual(_without_counts(told)[: len(wanted)], wanted)

    def test_races(self) -> None:
        """So do the races that their pages show, but for what these leave out; and each page has the repair as its program has it."""
        for page in (FOLDER / "README.md", *(FOLDER / f"{name}.md" for name in NAMES)):
            with self.subTest(page.name):
                shown, *others = self.blocks(page, "")
                command, *lines = shown.splitlines()
                named = re.fullmatch(r"\$ python3 examples/races/(\w+)\.py", command)
                assert named
                self.assertIn(named[1], (page.stem, "mkdir_p"))
                if page.stem == named[1]:
                    self.look_at_repair(page, others)
                told = [line.rstrip() for line in str(Races.found(named[1])).splitlines()]
                pieces = "\n".join(_without_counts(lines)).split("\n  ..\n")
                pattern = r"\n(.*\n)*".join(map(re.escape, pieces)) + r"\n(.*\n)*"
                self.assertRegex("\n".join([*_without_counts(told), ""]), f"^{pattern}$")

    def look_at_repair(self, page: pathlib.Path, others: typing.List[str]) -> None:
        (repair,) = self.blocks(page, "python")
        self.assertIn(f"\n{repair}\n", page.with_suffix(".py").read_text())
        (passed,) = others
        self.assertTrue(passed.startswith(f"$ python3 examples/races/{page.stem}.py --repaired --runs 10000 "))

    def test_outcomes(self) -> None:
        first, second = self.blocks(self.PAGE, "python")
        space: typing.Dict[str, typing.Any] = {}
        exec(first.partition("atomfs.explore(")[0], space)
        with contextlib.redirect_stdout(io.StringIO()) as told:
            exec(second, space)
        self.assertRegex(
            told.getvalue(),
            r"^\d+ times, first by seed \d+: 1\n\d+ times, first by seed \d+: 2\n1,000 runs, 2 outcomes",
        )

    @unittest.skipUnless(
        importlib.util.find_spec("hypothesis"), "there is no hypothesis: apt-get install python3-hypothesis"
    )
    def test_hypothesis(self) -> None:
        """The recipes run and pass, here with few examples."""
        from hypothesis import settings  # type: ignore[import]

        given, stateful = self.blocks(self.SCHEDULES, "python")
        settings.register_profile("few", max_examples=15, database=None, derandomize=True)
        settings.load_profile("few")
        self.addCleanup(settings.load_profile, "default")
        space: typing.Dict[str, typing.Any] = {"__name__": "page"}
        exec(given, space)
        space["test_page"]()
        exec(stateful, space)
        result = unittest.TestResult()
        space["TestBox"]("runTest").run(result)
        self.assertEqual((result.testsRun, result.errors, result.failures), (1, [], []))


def _without_counts(lines: typing.List[str]) -> typing.List[str]:
    return [line for line in lines if " cut down from " not in line]


if __name__ == "__main__":
    unittest.main()
