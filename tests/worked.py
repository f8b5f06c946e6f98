"""The worked examples of tests/data/worked: what the program and the library make of each, whole.

runs/ has scripts. NAME.script writes NAME.text by its own schedule, and then ends with the status of NAME.status; by round robin it writes
NAME.robin.text, and by the threads that are drawn from 7 NAME.drawn.text, where these are others. journals/ has journals: the verdict on NAME.journal
is NAME.verdict, what is told of it NAME.message, and the status that of NAME.status. faults/ has texts that are neither: NAME.message is what is told
of each, and NAME.status is 3. A status that no file has is 0. The scripts and journals of examples/ are looked at too, and the commands that the files of
examples/tour/ show, of which tests/data/tour/ has what each writes.
"""
import os
import pathlib
import re
import shlex
import subprocess
import tempfile
import typing
import unittest

import grammar
import harness
from harness import DATA, ROOT, Case, Outcome, atomfs, library, run, told

RUNS, JOURNALS, FAULTS, EXAMPLES = (
    *(DATA / "worked" / folder for folder in ("runs", "journals", "faults")),
    ROOT / "examples",
)
TOUR = EXAMPLES / "tour"
# How many inputs a folder has, and what stands behind the name of one.
FOLDERS = (
    ("runs", RUNS, 51, ("script", "text", "robin.text", "drawn.text", "status")),
    ("journals", JOURNALS, 14, ("journal", "verdict", "message", "status")),
    ("faults", FAULTS, 44, ("script", "journal", "message", "status")),
)
RUN, ROBIN, DRAWN, THREADS, CHECK = ("run",), ("run", "--robin"), ("run", "--seed", "7"), ("threads",), ("check",)
LAWFUL = Outcome(0, b"lawful\n")
# The words that the program has for what the library answers: BAD_PATH is told as BadPath.
KINDS = {"".join(part.title() for part in status.name.split("_")): status for status in atomfs.Status}


def examples(folder: pathlib.Path, ending: str) -> typing.Iterator[tuple[pathlib.Path, bytes]]:
    """The paths of a folder's inputs without their ending, and their bytes."""
    for path in sorted(folder.glob(f"*.{ending}")):
        yield path.with_suffix(""), path.read_bytes()


def beside(example: pathlib.Path, *endings: str) -> bytes:
    """What stands in the first of these files that is there; nothing if none is."""
    paths = (pathlib.Path(f"{example}.{ending}") for ending in endings)
    return next((path.read_bytes() for path in paths if path.exists()), b"")


def status(example: pathlib.Path) -> int:
    return int(beside(example, "status") or 0)


def drawn(first: int, runs: int) -> tuple[tuple[str, ...], Outcome]:
    """How so many drawn runs are asked for, and what comes of them."""
    words = ("seeds", "--seed", str(first), "--runs", str(runs))
    return words, Outcome(0, b"".join(b"seed %d lawful\n" % seed for seed in range(first, first + runs)))


def calls(script: bytes) -> int:
    """How many calls a script has."""
    return sum(map(len, grammar.Script(script).calls.values()))


def fault(message: bytes) -> tuple[atomfs.Status, int]:
    """What the library answers where the program tells this: a status, and a line."""
    found = re.match(r"atomfs: line (\d+): (\w+)( \w+)?\n", message.decode())
    assert found
    line, kind = found.group(1, 2)
    return KINDS[kind], int(line)


class Files(Case):
    """No input gets lost, and each file belongs to one."""

    def look(self, folder: pathlib.Path, count: int, endings: tuple[str, ...]) -> None:
        files = [path.name.split(".", 1) for path in folder.iterdir()]
        inputs = {name for name, ending in files if ending in ("script", "journal")}
        self.same(f"the inputs of {folder.name}", len(inputs), count)
        self.same(
            f"the files of {folder.name} that belong to none",
            [file for file in files if file[0] not in inputs or file[1] not in endings],
            [],
        )

    def test_each_belongs_to_an_input(self) -> None:
        self.each(FOLDERS, self.look)


class OfTheProgram(Case):
    """What the program writes, tells and ends with. What is asked depends on the stored files alone."""

    def ends(self, words: tuple[str, ...], given: bytes, wanted: Outcome) -> None:
        shown = f"atomfs {' '.join(words)}\n{given.decode(errors='backslashreplace')}"
        self.same(shown, run(given, *words), harness.with_line(wanted, given))

    def all_end(self, rows: typing.Iterable[tuple[pathlib.Path, tuple[str, ...], bytes, Outcome]]) -> None:
        """Looks at rows of an example, words, an input, and the outcome."""
        self.each(((f"{example.name} {' '.join(words)}", words, *rest) for example, words, *rest in rows), self.ends)

    def test_runs_by_their_own_schedule(self) -> None:
        self.all_end(
            (example, RUN, script, Outcome(status(example), beside(example, "text")))
            for example, script in examples(RUNS, "script")
        )

    def test_runs_by_other_schedules(self) -> None:
        """These go on until no call is left."""
        self.all_end(
            (example, words, script, Outcome(0, beside(example, text, "text")))
            for example, script in examples(RUNS, "script")
            for words, text in ((ROBIN, "robin.text"), (DRAWN, "drawn.text"))
        )

    def test_texts_of_runs_are_lawful(self) -> None:
        self.all_end((example, CHECK, text, LAWFUL) for example, text in examples(RUNS, "text"))

    def test_drawn_runs(self) -> None:
        words, wanted = drawn(7, 3)
        self.all_end((example, words, script, wanted) for example, script in examples(RUNS, "script"))

    def test_a_hundred_drawn_runs(self) -> None:
        words, wanted = drawn(1, 100)
        self.all_end(
            (example, words, script, wanted)
            for folder in (EXAMPLES, TOUR)
            for example, script in examples(folder, "script")
        )
        helped = RUNS / "helped_rename"
        self.all_end([(helped, words, beside(helped, "script"), wanted)])

    def test_threads(self) -> None:
        self.all_end(
            (example, THREADS, script, Outcome(0, b"lawful calls %d\n" % calls(script)))
            for folder in (RUNS, EXAMPLES, TOUR)
            for example, script in examples(folder, "script")
        )

    def test_journals(self) -> None:
        rows = [
            (example, CHECK, journal, Outcome(status(example), beside(example, "verdict"), beside(example, "message")))
            for example, journal in examples(JOURNALS, "journal")
        ]
        told = b"atomfs: line 14: return 3 failed ENOENT; call 3 is mkdir /a/d/x on seat 0; due: ok\n"
        for name, wanted in (("moved_ancestor", LAWFUL), ("wrong_reply", Outcome(1, b"fault 12 WrongReply\n", told))):
            rows.append((EXAMPLES / name, CHECK, beside(EXAMPLES / name, "journal"), wanted))
        self.all_end(rows)

    def test_faults(self) -> None:
        self.all_end(
            (example, words, text, Outcome(status(example), b"", beside(example, "message")))
            for ending, ways in (("script", (RUN, ROBIN, DRAWN, drawn(7, 3)[0], THREADS)), ("journal", (CHECK,)))
            for example, text in examples(FAULTS, ending)
            for words in ways
        )


class OfTheLibrary(Case):
    """What the library answers: the same texts, or the kind of a fault and its line."""

    def answers(self, ask: typing.Callable[[bytes], object], given: bytes, wanted: object) -> None:
        self.same(given, told(ask, given), wanted)

    def all_answer(
        self, ask: typing.Callable[[bytes], object], rows: typing.Iterable[tuple[pathlib.Path, bytes, object]]
    ) -> None:
        """Looks at rows of an example, an input, and the answer."""
        self.each(((example.name, ask, given, wanted) for example, given, wanted in rows), self.answers)

    def test_runs(self) -> None:
        self.all_answer(
            library().run, ((example, script, beside(example, "text")) for example, script in examples(RUNS, "script"))
        )

    def test_texts_of_runs_are_lawful(self) -> None:
        self.all_answer(library().check, ((example, text, LAWFUL.output) for example, text in examples(RUNS, "text")))

    def test_journals(self) -> None:
        self.all_answer(
            library().check,
            ((example, journal, beside(example, "verdict")) for example, journal in examples(JOURNALS, "journal")),
        )

    def test_faults(self) -> None:
        for ending, ask in (("script", library().run), ("journal", library().check)):
            self.all_answer(
                ask, ((example, text, fault(beside(example, "message"))) for example, text in examples(FAULTS, ending))
            )


class Beginnings(Case):
    """The script `lowest_first`, cut behind each of its bytes: it is refused as tests/grammar.py has it, or has a lawful run."""

    SCRIPT = beside(RUNS / "lowest_first", "script")

    def due(self, beginning: bytes) -> object:
        try:
            grammar.Script(beginning)
        except grammar.Fault as first:
            return fault(f"atomfs: {first}\n".encode())
        return LAWFUL.output

    def look(self, beginning: bytes) -> None:
        self.same(
            beginning, told(lambda script: library().check(library().run(script)), beginning), self.due(beginning)
        )

    def test_each(self) -> None:
        self.each(((f"{end} bytes", self.SCRIPT[:end]) for end in range(len(self.SCRIPT))), self.look)

    def test_up_to_the_schedule(self) -> None:
        """The first that is not refused."""
        end = self.SCRIPT.index(b"schedule") + len(b"schedule")
        refused = [at for at in range(end + 1) if isinstance(told(library().run, self.SCRIPT[:at]), tuple)]
        self.same(self.SCRIPT, refused, list(range(end)))
        self.same(
            self.SCRIPT[:end],
            library().run(self.SCRIPT[:end]),
            b"atomfs-journal 1\ntree\ndir /\nbegun 0 committed 0 returned 0\n",
        )


class Command(typing.NamedTuple):
    """A command of the tour: the words behind `examples/run`, the file that it reads, and the one that it writes."""

    words: tuple[str, ...]
    reads: str
    writes: str


def shown(path: pathlib.Path) -> typing.Iterator[Command]:
    """The commands that a file of the tour shows, in order."""
    for line in re.findall(r"^#? +examples/run (.+)$", path.read_text(), re.M):
        found = re.fullmatch(r"([^<>]+?)(?: < (\S+))?(?: > (\S+))?", line)
        assert found
        words, reads, writes = found.groups("")
        yield Command(tuple(shlex.split(words)), reads, writes)


def without_comments(text: str) -> list[str]:
    return [line for line in text.splitlines() if line and not line.startswith("#")]


class Tour(Case):
    """examples/tour/: each command that its files show, what it writes, and what its page says to look for."""

    STEPS = (
        "1_one_call.script",
        "2_race.script",
        "3_helping_rename.script",
        "4_both_won.journal",
        "5_kept_seed.script",
        "6_race.py",
        "7_what_can_happen.script",
        "8_smallest.script",
    )
    # Stored elsewhere: what comes of the calls of the third step.
    HELPED = {"trace": DATA / "traces" / "helped_mkdir.trace", "draw": ROOT / "docs" / "helped_mkdir.svg"}
    # What the sixth step writes, and the commands behind it read.
    JOURNAL = "tour.journal"

    def commands(self) -> typing.Iterator[tuple[str, str, Command]]:
        """Each command as a row, but for those that read what the sixth step writes."""
        for step in self.STEPS:
            for command in shown(TOUR / step):
                if command.reads != self.JOURNAL:
                    yield f"{step} {' '.join(command.words)}", step, command

    @staticmethod
    def given(command: Command) -> bytes:
        return (ROOT / command.reads).read_bytes() if command.reads else b""

    def stored(self, command: Command) -> pathlib.Path:
        """Where what a command writes is kept, if it is."""
        reads = pathlib.Path(command.reads).name
        if reads == self.STEPS[2] and command.words[0] in self.HELPED:
            return self.HELPED[command.words[0]]
        return DATA / "tour" / f"{reads.split('.')[0]}.{'_'.join(re.findall('[A-Za-z0-9]+', ' '.join(command.words)))}"

    def test_steps(self) -> None:
        """Each file is a step, and each that the program reads ends with the command that draws it."""
        self.same("examples/tour", sorted(path.name for path in TOUR.iterdir()), sorted((*self.STEPS, "README.md")))
        for step in self.STEPS:
            reads = self.JOURNAL if step.endswith(".py") else f"examples/tour/{step}"
            self.same(
                f"the last command of {step}", list(shown(TOUR / step))[-1], Command(("draw",), reads, "tour.svg")
            )

    def test_what_they_write(self) -> None:
        self.each(self.commands(), self.look)

    def look(self, step: str, command: Command) -> None:
        came = run(self.given(command), *command.words)
        is_wrong = step.endswith(".journal") and command.words[0] in ("check", "draw")
        self.same(f"{step}: {command}", came.status, int(is_wrong and harness.compares))
        if command.words[0] == "explain":
            self.same(
                f"{step}: {command}", came.output.split(b":")[0], command.words[1].encode() if harness.compares else b""
            )
        elif command.words[0] == "draw" and not self.stored(command).exists():
            self.look_at_picture(step, command, came.output.decode())
        else:
            self.same(f"{step}: {command}", came.output, self.stored(command).read_bytes())

    def look_at_picture(self, step: str, command: Command, picture: str) -> None:
        """It has each call of the journal, with its reply; the reply that was due in place of a wrong one; and the waits that the file speaks of."""
        text = self.given(command).decode()
        text = text if step.endswith(".journal") else run(text.encode(), "run").output.decode()
        calls = dict(re.findall(r"^begin (\d+) \d+ (.*)$", text, re.M))
        replies = dict(re.findall(r"^return (\d+) (.*)$", text, re.M))
        told = re.findall(r"<title>(?:seat )?(\w+#\d+ .*)\n(call \d+),", picture)
        self.same(
            f"the calls in the picture of {step}",
            sorted((number, words.split(" ", 1)[1]) for words, number in told),
            [(f"call {call}", f"{calls[call]} &#8594; {replies[call]}") for call in calls],
        )
        waits = re.findall(r'<text class="v".*?>(.*?)</text>', picture)
        self.same(
            f"the waits in the picture of {step}",
            [
                wait
                for wait in re.findall(r"`(\w+#\d+)` says for which call", (TOUR / step).read_text())
                if wait not in waits
            ],
            [],
        )
        due = re.findall(r"^due: (.*?)</title>", picture, re.M)
        self.same(
            f"what is due in the picture of {step}",
            due,
            ["failed EEXIST"] if step.endswith(".journal") and harness.compares else [],
        )

    def test_page(self) -> None:
        """The page has a part for each step, which leads to its file; and each command that it shows is one of that file, with lines that it writes."""
        page = (TOUR / "README.md").read_text()
        parts = re.split(r"^## \d+\. .*$", page.partition("## Try it yourself")[0], flags=re.M)[1:]
        self.same("the parts of the page", len(parts), len(self.STEPS))
        for step, part in zip(self.STEPS, parts):
            self.same(f"the file of {step}", f"[{step}]({step})" in part, True)
            for block in re.findall(r"^```\n(.*?)^```$", part, re.M | re.S):
                if step == self.STEPS[5]:
                    self.look_at_python(block)
                else:
                    self.look_at_block(step, *block.splitlines())

    def look_at_block(self, step: str, first: str, *lines: str) -> None:
        """Without the lines `..` it is what the command writes, in order, and whole where it has none."""
        typed = first.removeprefix("$ examples/run ")
        commands = {
            f"{shlex.join(command.words)} < {command.reads}": command
            for _, of, command in self.commands()
            if of == step
        }
        self.same(f"a command of {step}", typed in commands, True)
        written = self.stored(commands[typed]).read_text()
        pieces = re.split(r"^\.\.\n", "".join(f"{line}\n" for line in lines), flags=re.M)
        pattern = ".*".join(map(re.escape, pieces))
        self.same(first, re.fullmatch(pattern, written, re.S) is not None, True)

    def test_third_step(self) -> None:
        """It is the worked example by the third limits, with comments."""
        header, *helped = (RUNS / "helped_mkdir.script").read_text().splitlines()
        self.same("the header of the worked example", header, "atomfs 1")
        self.same(self.STEPS[2], without_comments((TOUR / self.STEPS[2]).read_text()), ["atomfs 3", *helped])

    def test_kept_seeds(self) -> None:
        """The fifth step is what its first command writes of the second, the seventh what its second writes of the third, and the eighth what its first writes of the seventh, with other comments."""
        kept = [
            (step, command)
            for _, step, command in self.commands()
            if command.words[0] in ("schedule", "find", "shrink")
        ]
        self.same("what is kept", [step for step, _ in kept], [self.STEPS[4], self.STEPS[6], self.STEPS[7]])
        for step, command in kept:
            written = self.stored(command).read_text()
            self.same(step, without_comments((TOUR / step).read_text()), without_comments(written))

    def test_as_typed(self) -> None:
        """Each command as a reader types it, where the program is built."""
        harness.takes_a_process()
        if "ATOMFS" in os.environ:
            self.skipTest("examples/run runs the program that is built here, and another one is looked at")
        harness.program()
        with tempfile.TemporaryDirectory(prefix="atomfs-") as folder:
            pathlib.Path(folder, "examples").symlink_to(EXAMPLES)
            self.each(((name, folder, command) for name, _, command in self.commands()), self.look_as_typed)

    def look_as_typed(self, folder: str, command: Command) -> None:
        reads, writes = (
            f" {sign} {name}" if name else "" for sign, name in (("<", command.reads), (">", command.writes))
        )
        typed = f"examples/run {shlex.join(command.words)}{reads}{writes}"
        done = subprocess.run(
            ["bash", "-c", typed],
            cwd=folder,
            stdin=subprocess.DEVNULL,
            capture_output=True,
            timeout=harness.MOST_SECONDS,
        )
        written = pathlib.Path(folder, command.writes).read_bytes() if command.writes else done.stdout
        due = run(self.given(command), *command.words)
        self.same(typed, (done.returncode, written), (due.status, due.output))

    def in_python(self) -> tuple[str, str]:
        """What the sixth step writes, and what it tells on standard error."""
        harness.library()
        variables = {
            "PYTHONPATH": str(ROOT / "bindings" / "python" / "src"),
            "ATOMFS_LIBRARY": harness.library_at(),
            "PYTHONDONTWRITEBYTECODE": "1",
        }
        words = ["python3", f"examples/tour/{self.STEPS[5]}"]
        done = subprocess.run(
            words, cwd=ROOT, env=os.environ | variables, capture_output=True, text=True, timeout=harness.MOST_SECONDS
        )
        self.same(" ".join(words), done.returncode, 0)
        return done.stdout, done.stderr

    def look_at_python(self, block: str) -> None:
        """Without the lines `..` it is what the sixth step tells."""
        pattern = ".*".join(map(re.escape, re.split(r"^\.\.\n", block, flags=re.M)))
        told = self.in_python()[1]
        self.same("what the sixth step tells", re.fullmatch(pattern, told, re.S) is not None, True)

    def test_in_python(self) -> None:
        """The sixth step: both win the race that it finds, in a lawful journal, and one wins each run of the repair."""
        journal, told = self.in_python()
        *_, race, repair = told.splitlines()
        self.same("the race", re.fullmatch(r"seed \d+: ann won and bob won, lawful", race) is not None, True)
        self.same("the repair", repair.partition(",000 runs, 2 outcomes, ")[0], "1")
        self.same("what it writes", run(journal.encode(), "check"), LAWFUL)
        replies = re.findall(r"^return \d (.*)$", journal, re.M)
        self.same("what it writes", (replies.count("failed ENOENT"), replies.count("failed EEXIST")), (2, 1))


if __name__ == "__main__":
    unittest.main()
