"""What README.md, docs/FIRST-RACE.md, docs/TEST-A-FILE-SYSTEM.md and docs/PLAYER.md have a reader type in Python prints and writes what they say.

The blocks of a page are run one after the other.
"""
import json
import os
import pathlib
import re
import subprocess
import tempfile
import typing
import unittest

import harness
from documents import DOCS, README, blocks
from harness import DATA, ROOT, Case

FIRST_RACE, PLAYER, HISTORIES = (DOCS / f"{name}.md" for name in ("FIRST-RACE", "PLAYER", "TEST-A-FILE-SYSTEM"))
# Runs blocks of Python, and writes what each printed, and the script of an error of a race at which it ended.
DRIVER = """\
import contextlib, io, json, linecache, sys

names, told = {"__name__": "page"}, []
for number, block in enumerate(json.load(sys.stdin)):
    printed, script = io.StringIO(), None
    # By this a line of the block has its text, as one of a file.
    name = f"block_{number}.py"
    linecache.cache[name] = len(block), None, block.splitlines(keepends=True), name
    with contextlib.redirect_stdout(printed):
        try:
            exec(compile(block, name, "exec"), names)
        except names["atomfs"].ScheduleError as race:
            script = race.script
    told.append((printed.getvalue(), script))
# The test that a page has is a function without arguments, as pytest calls it.
for name, test in list(names.items()):
    if name.startswith("test_"):
        test()
        told.append((f"{name} passes\\n", None))
json.dump(told, sys.stdout)
"""


class Tutorials(Case):
    @staticmethod
    def printed(page: pathlib.Path) -> tuple[typing.Any, dict[str, str]]:
        """What each block in Python of a page prints, the script of the race that it finds, and the files that all of them write."""
        harness.library()
        variables = {
            "PYTHONPATH": str(ROOT / "bindings" / "python" / "src"),
            "ATOMFS_LIBRARY": os.path.abspath(harness.library_at()),
            "PYTHONDONTWRITEBYTECODE": "1",
        }
        with tempfile.TemporaryDirectory(prefix="atomfs-") as folder:
            done = subprocess.run(
                ["python3", "-c", DRIVER],
                input=json.dumps(blocks(page, "python")),
                cwd=folder,
                env=os.environ | variables,
                capture_output=True,
                text=True,
                timeout=harness.MOST_SECONDS,
            )
            made = {path.name: path.read_text() for path in sorted(pathlib.Path(folder).iterdir())}
        if done.returncode:
            raise AssertionError(done.stderr)
        return json.loads(done.stdout), made

    def test_readme(self) -> None:
        """The example ends with a race, whose script is the one that the page shows."""
        told, _ = self.printed(README)
        shown, *_ = blocks(README)
        self.same("README.md", told, [["", shown]])

    def test_first_race(self) -> None:
        """Each block prints what follows it; of a trace the page has a part, and says where each call commits."""
        told, made = self.printed(FIRST_RACE)
        race, trace, passes = blocks(FIRST_RACE)
        printed = [text for text, _ in told]
        self.same("the blocks that end with an error", [script for _, script in told if script], [])
        due = [race, passes, "", "test_never_half_written passes\n"]
        self.same("but for the trace", [printed[1], *printed[3:]], due)
        self.same("a part of the trace", trace in printed[2], True)
        said = re.findall(r"commits at event (\d+)|only at event (\d+)", FIRST_RACE.read_text())
        commits = re.findall(r"^(\d+) \S+ commits", printed[2], re.M)
        self.same("where each call commits", [first or last for first, last in said], commits)
        self.same("what it makes", list(made), ["race.script", "race.svg"])

    def test_histories(self) -> None:
        """The example records calls on the disk, which an order explains."""
        told, made = self.printed(HISTORIES)
        self.same("docs/TEST-A-FILE-SYSTEM.md", (told, list(made)), ([["Lawful()\n", None]], []))

    def test_pictures(self) -> None:
        """The example writes the page that plays the worked example: with its trace and its picture."""
        told, made = self.printed(PLAYER)
        self.same("docs/PLAYER.md", (told, list(made)), ([["", None]], ["run.html"]))
        trace = (DATA / "traces" / "helped_mkdir.trace").read_text()
        picture = (DATA / "pictures" / "helped_mkdir.svg").read_text()
        self.same("its parts", (f"\n{trace}</pre>" in made["run.html"], picture in made["run.html"]), (True, True))


class Missing(Case):
    """The examples in Python, if the package or its library is missing: one line, and the status of a usage error."""

    PROGRAMS = "examples/tour/6_race.py", "examples/races/mkdir_p.py", "examples/races/lost_update.py"

    def test_missing(self) -> None:
        with tempfile.TemporaryDirectory(prefix="atomfs-") as folder:
            pathlib.Path(folder, "atomfs.py").write_text("raise ImportError('it is not installed')\n")
            package, library = str(ROOT / "bindings" / "python" / "src"), "/none/libatomfs.so"
            rows = (
                ("no package", {"PYTHONPATH": folder}, "(it is not installed): bindings/python/README.md"),
                ("no library", {"PYTHONPATH": package, "ATOMFS_LIBRARY": library}, "; ATOMFS_LIBRARY names it): "),
            )
            for name, variables, wanted in rows:
                for program in self.PROGRAMS:
                    with self.subTest(f"{program}: {name}"):
                        self.look(program, os.environ | variables | {"PYTHONDONTWRITEBYTECODE": "1"}, wanted)

    def look(self, program: str, variables: dict[str, str], wanted: str) -> None:
        done = subprocess.run(
            ["python3", program],
            cwd=ROOT,
            env=variables,
            capture_output=True,
            text=True,
            timeout=harness.MOST_SECONDS,
        )
        self.same("the status, and the lines", (done.returncode, done.stdout, done.stderr.count("\n")), (2, "", 1))
        self.assertIn(": the package atomfs is missing (", done.stderr)
        self.assertIn(wanted, done.stderr)


if __name__ == "__main__":
    unittest.main()
