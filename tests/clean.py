"""A clone in which nothing is built: the tests that need no proof pass there, and the commands of the pages and of the tour run as they stand. Only
what compiles the unproved program is another one there: standin.py.
"""
import contextlib
import os
import pathlib
import pty
import re
import shlex
import shutil
import subprocess
import tempfile
import typing
import unittest
import unittest.mock

import costs
import grammar
import harness
import model
import packages
import progress
import unproved
from documents import EXAMPLES, PAGES, spans, table
from harness import ROOT, Case, match_in
from worked import TOUR

# What is built, and what a clone of files alone does not have.
NO_SOURCES = ".git", "out", "dist", "target", "__pycache__", "*.egg-info", "Cargo.lock"
MOST_SECONDS = 600
# The events of seed 7 of examples/moved_ancestor.script, and its first commits.
WORDS = """\
namer*2 mover writer*3 namer mover namer writer*2 mover namer mover*2
writer*3 mover namer writer namer writer mover writer namer mover
namer*2 mover namer*2 mover writer mover writer*2 namer mover writer
namer writer*2 mover*4 namer*2 writer mover*3 writer*3 mover writer*4
namer*2 mover*5 writer*2 mover writer*17
"""
COMMITS = """\
7 namer#1 commits, adds /a%20b
11 writer#1 commits, adds /work
24 mover#1 commits, moves /work to /done
29 namer#2 commits, moves /a%20b to /%C3%A9
36 writer#2 commits, fails ENOENT
"""

# A program that answers requests with their words, and one of them never.
SLOW = """\
import sys
with open(sys.stdin.buffer.readline().decode().strip(), "wb") as answers:
    while line := sys.stdin.buffer.readline():
        size, word = line[:-1].decode().split("\\t")
        while word == "endless":
            pass
        answers.write(b"0 %d 0\\n%s" % (len(word), word.encode()))
        answers.flush()
"""


class Clean(Case):
    folder: pathlib.Path
    clone: pathlib.Path
    compiled: pathlib.Path
    environment: dict[str, str]

    @classmethod
    def setUpClass(cls) -> None:
        harness.takes_a_process()
        cls.folder = pathlib.Path(cls.enterClassContext(tempfile.TemporaryDirectory(prefix="atomfs-")))
        cls.clone, tools = cls.folder / "clone", cls.folder / "tools"
        shutil.copytree(ROOT, cls.clone, ignore=shutil.ignore_patterns(*NO_SOURCES), symlinks=True)
        tools.mkdir()
        (tools / "rt").symlink_to(ROOT / "tests" / "standin.py")
        cls.compiled = cls.folder / "compiled"
        cls.compiled.touch()
        own = {name: value for name, value in os.environ.items() if name not in ("ATOMFS", "LIBATOMFS", "ROW", "CI")}
        stand_in = {
            "PROVED": os.path.abspath(harness.program()),
            "COMPILED": str(cls.compiled),
            "RT": shutil.which("rt") or "/bin/false",
        }
        cls.environment = own | stand_in | {"PATH": f"{tools}:{own['PATH']}"}

    def typed(self, command: str) -> subprocess.CompletedProcess[str]:
        """What comes of a command that is typed at the top of the clone."""
        return subprocess.run(
            ("bash", "-c", command),
            cwd=self.clone,
            env=self.environment,
            stdin=subprocess.DEVNULL,
            capture_output=True,
            text=True,
            timeout=MOST_SECONDS,
        )

    def succeeds(self, command: str) -> str:
        """What a command writes that is to end with status 0."""
        done = self.typed(command)
        self.same(command, (done.returncode, done.stderr if done.returncode else ""), (0, ""))
        return done.stdout

    def test_quick(self) -> None:
        """`tests/run --quick` passes, and has looked at no program that is built."""
        done = self.typed("tests/run --quick")
        last = re.fullmatch(r"(\d+) passed, (\d+) failed", done.stdout.splitlines()[-1])
        assert last
        passed, failed = last.groups()
        self.same("tests/run --quick", (int(failed), done.returncode, done.stderr if int(failed) else ""), (0, 0, ""))
        self.assertGreater(int(passed), 2_000)
        parts = re.findall(r"^tests/run: +[\d.]+ s +[\d.]+ processor-seconds tests/(\w+)\.py$", done.stderr, re.M)
        self.assertLessEqual({"documents", "worked", "progress", "clean"}, set(parts))
        self.assertRegex(done.stderr, r"(?m)^tests/run: in all +[\d.]+ processor-minutes$")
        self.assertFalse([path for path in self.clone.glob("crates/*/out")])

    def test_examples(self) -> None:
        """The rows of examples/README.md that need no proof."""
        rows = ((spans(runs)[0], prints) for _, _, runs, prints in table(EXAMPLES, "File", "Shows", "Run", "Prints"))
        found = [(command, command, prints) for command, prints in rows if command.startswith("examples/run ")]
        self.assertGreater(len(found), 3)
        self.each(found, self.example)

    def example(self, command: str, prints: str) -> None:
        done, status = self.typed(command), re.search(r"status (\d)", prints)
        self.same(command, done.returncode, int(status[1]) if status else 0)
        if " check " in command:
            self.same(command, done.stdout, f"{spans(prints)[0]}\n")
        else:
            self.same(command, model.replayed(done.stdout), None)

    @staticmethod
    def commands() -> typing.Iterator[tuple[str, str, list[str], str, str]]:
        """Each command of the program that a page, or a file of the tour, has a reader type, with its words, what it reads and what it writes."""
        found: set[str] = set()
        for path in (*PAGES, *TOUR.glob("*.*")):
            text = path.read_text()
            typed = spans(text) + [
                line.lstrip("# ") for line in text.splitlines() if line.lstrip("# ").startswith("examples/run ")
            ]
            found.update(command for command in typed if re.fullmatch(r"examples/run [a-z]+( .*)?", command))
        for command in sorted(found):
            parts = re.fullmatch(r"examples/run ([^<>]+?)(?: < (\S+))?(?: > (\S+))?", command)
            assert parts
            words, reads, writes = parts.groups("")
            if (ROOT / reads).is_file() or (not reads and " " in words):
                yield command, command, shlex.split(words), reads, writes

    def test_from_a_seed_to_a_picture(self) -> None:
        """From drawn runs to a kept one, one command after the other: the later ones read what the earlier ones wrote."""
        script = "< examples/moved_ancestor.script"
        self.same(
            "seeds",
            self.succeeds(f"examples/run seeds --seed 1 --runs 3 {script}"),
            "seed 1 lawful\nseed 2 lawful\nseed 3 lawful\n",
        )
        self.same("schedule", self.succeeds(f"examples/run schedule --seed 7 {script} > kept.script"), "")
        self.same("kept.script", (self.clone / "kept.script").read_text().split("\nschedule\n")[1], WORDS)
        kept = self.succeeds("examples/run run < kept.script")
        self.same("the run of kept.script", kept, self.succeeds(f"examples/run run --seed 7 {script}"))
        told = self.succeeds("examples/run trace < kept.script")
        self.same("its first commits", "".join(re.findall(r"^\d+ \S+ commits, .*\n", told, re.M)[:5]), COMMITS)
        self.same("its trace ends with its tree", told.partition("\ntree\n")[2], kept.partition("\ntree\n")[2])
        self.same("draw", self.succeeds("examples/run draw < kept.script > kept.svg"), "")
        self.assertTrue((self.clone / "kept.svg").read_text().startswith("<svg "))

    def test_commands(self) -> None:
        """They stand as a reader can type them, and write what the program writes."""
        rows = list(self.commands())
        self.assertGreater(len(rows), 12)
        self.each(rows, self.command)

    def command(self, command: str, words: list[str], reads: str, writes: str) -> None:
        wanted = harness.run((ROOT / reads).read_bytes() if reads else b"", *words)
        done = self.typed(command)
        written = (self.clone / writes).read_text() if writes else done.stdout
        self.same(command, (done.returncode, written), (wanted.status, wanted.output.decode()))
        self.assertIn(wanted.status, (0, 1))

    def test_each_word(self) -> None:
        """`examples/run` takes every command that the program has."""
        words = re.findall(
            r"^  (\w+) ", self.succeeds("examples/run help").split("Commands:\n")[1].split("\n\n")[0], re.M
        )
        self.assertIn("trace", words)
        self.each(((word, word) for word in words if word != "help"), self.word)

    def word(self, word: str) -> None:
        self.assertIn(f"Usage: atomfs {word}", self.succeeds(f"examples/run {word} --help"))

    def test_versions(self) -> None:
        """A script of each version runs, and a journal of each is refused as one."""
        self.each(((header.decode(), header.decode()) for header in grammar.SCRIPTS), self.script_of)
        self.each(((header.decode(), header.decode()) for header in grammar.JOURNALS), self.journal_of)

    def script_of(self, header: str) -> None:
        text = f"{header}\nthread a\nmkdir /a\nschedule\nfinish\n"
        told = self.succeeds(f"printf %s {shlex.quote(text)} | examples/run")
        self.same(header, told, harness.run(text.encode(), "run").output.decode())

    def journal_of(self, header: str) -> None:
        done = self.typed(f"echo {shlex.quote(header)} | examples/run")
        told = (
            "atomfs: line 1: BadHeader\nexamples/run: standard input: this is a journal: examples/run check reads it\n"
        )
        self.same(header, (done.returncode, done.stdout, done.stderr), (3, "", told))

    def test_other_header(self) -> None:
        """A script of no version is refused with the headers that there are."""
        done = self.typed("echo atomfs 4 | examples/run")
        last = done.stderr.splitlines()[-1].rpartition(": ")[2]
        named = [span.encode() for span in spans(last)]
        self.same("atomfs 4", (done.returncode, named), (3, list(grammar.SCRIPTS)))

    def test_seconds(self) -> None:
        """While a program is compiled a line says how many seconds that has taken: on a terminal in one line, which is gone at the end, else in lines."""
        ask = "import subprocess, unproved; process = subprocess.Popen(('sleep', '2.6')); unproved.wait(process, lambda seconds: f'compiles: {seconds} s', 1)"
        words: dict[str, typing.Any] = {"cwd": ROOT / "tests", "stdin": subprocess.DEVNULL}
        lines = subprocess.run(("python3", "-c", ask), stderr=subprocess.PIPE, text=True, check=True, **words).stderr
        self.same("in lines", lines, "compiles: 1 s\ncompiles: 2 s\n")
        ours, theirs = pty.openpty()
        subprocess.run(("python3", "-c", ask), stderr=theirs, check=True, **words)
        os.close(theirs)
        width = len("compiles: 1 s")
        self.same("on a terminal", progress.told_on(ours), f"\rcompiles: 1 s\rcompiles: 2 s\r{'':{width}}\r".encode())
        os.close(ours)

    def test_limit(self) -> None:
        """A program that takes too many processor-seconds is stopped: what it answered is judged, and the rest is left out."""
        batch = unproved.Batch(seconds=1)
        program = self.folder / "slow"
        program.write_text(SLOW)
        with unittest.mock.patch.object(unproved, "started", lambda crate: ["python3", str(program)]):
            batch.collect(
                ["module"], lambda module: [batch.record((word,), b"") for word in ("one", "two", "endless", "more")]
            )
        self.same("what is said", batch.told().partition(":")[0], "2 of 4 requests are answered")
        self.same("an answer", batch.answer(("two",), b""), harness.Outcome(0, b"two", b""))
        for word in ("endless", "more"):
            with self.assertRaisesRegex(unittest.SkipTest, "had taken its 1 processor-seconds"):
                batch.answer((word,), b"")

    def test_many(self) -> None:
        """Without a proved program `examples/many` runs the unproved one here, and sends no other machine any."""
        packages.wanted("parallel")
        done = self.typed("examples/many/seeds examples/one_name.script 1 3")
        self.same("here", (done.returncode, done.stdout), (0, "seed 1 lawful\nseed 2 lawful\nseed 3 lawful\n"))
        self.assertIn("so this run is unproved", done.stderr)
        done = self.typed("examples/many/seeds elsewhere examples/one_name.script 1 3")
        self.same("elsewhere", (done.returncode, done.stdout), (2, ""))
        if "rsync is not" not in done.stderr:
            self.assertIn("other machines get no other: examples/run --proved builds it", done.stderr)

    def test_moved_ancestor(self) -> None:
        """The example shows what its row says: the file is written below the directory that has moved."""
        text = self.succeeds("examples/run examples/moved_ancestor.script")
        (write,) = re.findall(r"^begin (\d+) .* write /work/today/notes", text, re.M)
        (rename,) = re.findall(r"^begin (\d+) .* rename /work /done", text, re.M)
        entries = text.splitlines()
        places = [
            entries.index(entry)
            for entry in (f"commit {write}", f"commit {rename}", f"return {rename} ok", f"return {write} wrote 5")
        ]
        self.same("the order of the entries", places, sorted(places))
        self.assertIn("file /done/first/notes 6e6f746573", entries)

    def test_kept(self) -> None:
        """The unproved program is compiled once for the same sources, and anew where one has changed."""
        for _ in range(2):
            self.succeeds("examples/run examples/one_name.script")
            self.succeeds("examples/run seeds --seed 1 --runs 2 < examples/one_name.script")
        before = self.compiled.read_text().splitlines()
        self.same("what was compiled", sorted(before), ["atomfs"])
        source = self.clone / "crates" / "fs_sched" / "src" / "lib.rt"
        text = source.read_text()
        with contextlib.ExitStack() as after:
            after.callback(source.write_text, text)
            source.write_text(f"{text}// Changed.\n")
            self.succeeds("examples/run examples/one_name.script")
        self.same("what is compiled after a change", self.compiled.read_text().splitlines()[len(before) :], ["atomfs"])
        self.succeeds("examples/run examples/one_name.script")
        self.same("what is compiled as it was before", len(self.compiled.read_text().splitlines()), len(before) + 1)


class Costs(Case):
    """What `tests/run` says at its end of the processors that its parts took."""

    KEPT = "done in this run: 4 of the 20 proofs (of crates and of their tests) and 1 of the 9 must-fail edits"
    TOO_MUCH = f"these are more than the {costs.MOST_MINUTES} processor-minutes that all tests may take from nothing: docs/CHANGING.md says what to do"
    LESS = f"what earlier runs kept is not counted; from nothing it may be {costs.MOST_MINUTES} processor-minutes"

    @staticmethod
    def parts(*processors: float) -> list[costs.Part]:
        kinds = costs.PROOFS, costs.LIBRARY, costs.TESTS, costs.TESTS
        return [
            costs.Part(f"part {number}", kind, 10.0, taken)
            for number, (kind, taken) in enumerate(zip(kinds, processors))
        ]

    def test_told(self) -> None:
        self.each(
            (
                ("from nothing", (14_000.0, 300.0, 60.0, 40.0), costs.FROM_NOTHING, "240.0", None),
                ("too much from nothing", (14_000.0, 300.0, 60.0, 46.0), costs.FROM_NOTHING, "240.1", self.TOO_MUCH),
                ("too much, and some kept", (15_000.0, 300.0, 60.0, 40.0), self.KEPT, "256.7", self.TOO_MUCH),
                ("some kept", (600.0, 300.0, 60.0, 40.0), self.KEPT, "16.7", self.LESS),
            ),
            self.look,
        )

    def look(self, processors: tuple[float, ...], work: str, minutes: str, last: str | None) -> None:
        lines = list(costs.told(self.parts(*processors), work))
        sums = [" ".join(line.split()) for line in lines[4:8]]
        kinds = (costs.PROOFS, processors[0]), (costs.LIBRARY, processors[1]), (costs.TESTS, sum(processors[2:]))
        self.same(
            "the sums",
            sums,
            [
                *(f"in all {taken} processor-seconds {kind}" for kind, taken in kinds),
                f"in all {minutes} processor-minutes; {work}",
            ],
        )
        self.same("what follows", lines[8:], [last] if last else [])

    def test_work(self) -> None:
        """How much `rt ci` did is read from its last line but one."""
        of = "rt: ok; handles allowed: none; must-fail edits: 3 refused; "
        self.each(
            (
                ("from nothing", f"{of}{costs.FROM_NOTHING}\n", costs.FROM_NOTHING),
                (
                    "some kept",
                    f"{of}{self.KEPT}; the others are kept from earlier runs of the same files on this machine\n",
                    self.KEPT,
                ),
            ),
            lambda line, work: self.same(line, match_in(costs.WORK, line)[0], work),
        )

    def test_measured(self) -> None:
        """The processors of what ended below are counted, and waiting is not."""
        parts: list[costs.Part] = []
        with costs.measured(parts, "busy", costs.TESTS):
            subprocess.run(("python3", "-c", "import time\nwhile time.process_time() < 0.5: pass"), check=True)
        with costs.measured(parts, "idle", costs.TESTS):
            subprocess.run(("sleep", "0.5"), check=True)
        # Processors are counted in hundredths of a second, and told as the difference of two such numbers.
        self.assertGreaterEqual(parts[0].processors, 0.45)
        self.assertGreaterEqual(parts[1].seconds, 0.5)
        self.assertLess(parts[1].processors, 0.4)


if __name__ == "__main__":
    unittest.main()
