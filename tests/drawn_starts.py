"""Drawn runs from a tree in a file, by `seeds --from` and `outcomes --from`.

They are compared with loops over `atomfs run --from`. They are also compared with drawn runs from the root, where the words before `!drawn` make the
tree. Of drawn calls (tests/drawn.py) those of the first thread make the tree, and the other threads meet there. tests/starts.py looks at a tree in which
all numbers are in use, and tests/objects.py at what `--json` writes.
"""
import random
import re
import shlex
import typing
import unittest

import checkpoints
import documents
import drawn
import find
import harness
import litmus
import outcomes
import prepared
import starts
from harness import Outcome, asks_of_answers, rows_of, run, with_line
from starts import ONE_CALL, in_file

SCRIPTS, RUNS = 40, 6
# Scripts of the third limits.
LISTING = 8
DRAWN = drawn.narrow, drawn.moving, drawn.exchanging, drawn.crowded
# So many drawn events are enough for a few calls.
EVENTS = 2_000
TWO_RUNS = "--seed", "1", "--runs", "2"
COMMANDS: tuple[tuple[str, ...], ...] = (
    ("seeds", *TWO_RUNS),
    ("seeds", *TWO_RUNS, "--json"),
    ("outcomes", *TWO_RUNS),
    ("outcomes", *TWO_RUNS, "--json", "--all"),
    ("outcomes", *TWO_RUNS, "--never", "helped t#1"),
)
# Two threads raise a counter that no call makes.
COUNTER = starts.tree_of("file /counter 30")
RAISED = "read /counter 0 1", "write /counter 0 31"
RACE = checkpoints.script("thread a", *RAISED, "thread b", *RAISED, "schedule", version=3)
BOTH_READ = "reply a#1 bytes 30 and reply b#1 bytes 30"
# The first seeds do not have it.
SEES_ONE = "reply b#1 bytes 31"
NO_FILE = "reply a#1 failed ENOENT or reply b#1 failed ENOENT"


class Start(typing.NamedTuple):
    """The calls that make a tree, and the threads that meet there."""

    made: list[str]
    threads: list[list[str]]
    version: int = 1

    def tree(self) -> bytes:
        return starts.played([self.made], self.version)

    def journal(self) -> bytes:
        """A journal that starts at the tree, with an entry that is read and not played."""
        head = b"atomfs-journal %d\nstart\n" % (self.version + 1)
        return head + self.tree().removeprefix(b"tree\n") + b"entries\nbegin 7 3 rmdir /a\n"

    def script(self) -> bytes:
        """The threads behind one that has no calls."""
        return drawn.script([[], *self.threads], version=self.version).encode()

    def from_root(self) -> bytes:
        """The same threads, and the first one makes the tree before a seed draws: what is drawn then is the same."""
        words = f"t0*{checkpoints.MOST} !drawn"
        return drawn.script([self.made, *self.threads], words, self.version).encode()

    def clauses(self, draw: random.Random) -> list[str]:
        """An assertion of each kind about the calls of the threads."""
        threads = {f"t{number}": calls for number, calls in enumerate(self.threads, 1)}
        return [
            word
            for quantifier in ("never", "always", "sometimes")
            for word in (f"--{quantifier}", find.drawn_clause(draw, threads))
        ]


def each_start(step: int = 1) -> typing.Iterator[tuple[str, int, Start]]:
    """Rows of drawn starts; with a step of 3 each third one."""
    for number in range(0, rows_of(SCRIPTS), step):
        made, *threads = DRAWN[number % len(DRAWN)](random.Random(f"start {number}"))
        yield f"script_{number}", number, Start(made, threads)
    for number in range(0, rows_of(LISTING), step):
        made, *threads = drawn.listing(random.Random(f"listing start {number}"))
        yield f"listing_{number}", number, Start(made, threads, 3)


def apart(words: typing.Sequence[str], came: Outcome) -> Outcome:
    """An outcome without how much was seen: of the pairs of calls some are of those that make the tree."""
    if words[0] != "outcomes":
        return came
    if "--json" not in words:
        return harness.without_seen(came)
    return came._replace(output=b"".join(came.output.splitlines(keepends=True)[:-1]))


def lawful(first: int, runs: int) -> Outcome:
    return Outcome(0, b"".join(b"seed %d lawful\n" % seed for seed in range(first, first + runs)))


class Drawn(starts.Asked):
    """Drawn threads that meet at a drawn tree."""

    def test_seeds(self) -> None:
        """Each run is lawful, from a tree and from a journal that starts at it."""

        def look(number: int, start: Start) -> None:
            words = "seeds", "--seed", str(number), "--runs", str(RUNS), "--from"
            for name, text in (("tree", start.tree()), ("journal", start.journal())):
                path = in_file(f"{self.row}.{name}", text)
                self.ends((*words, path), start.script(), lawful(number, RUNS))

        self.each(each_start(), look)

    def test_each_run(self) -> None:
        """The journal of each of these runs is lawful by `atomfs check` too."""
        asks_of_answers()

        def look(number: int, start: Start) -> None:
            path = in_file(f"{self.row}.tree", start.tree())
            for seed in range(number, number + RUNS):
                text = run(start.script(), "run", "--seed", str(seed), "--from", path).output
                self.same(text, run(text, "check"), Outcome(0, b"lawful\n"))

        self.each(each_start(3), look)

    def test_outcomes(self) -> None:
        """The ends are those of a loop over `atomfs run --from`, in each form of the lines."""

        def look(number: int, start: Start) -> None:
            given, seed = start.script(), number * 7
            paths = [
                in_file(f"{self.row}.{name}", text)
                for name, text in (("tree", start.tree()), ("journal", start.journal()))
            ]
            rows = outcomes.rows_of_runs(given, seed, RUNS, "--from", paths[0])
            for path, words in zip((*paths, *paths), ((), ("--all",), ("--trees",), ("--all", "--trees"))):
                wanted = Outcome(0, outcomes.lines(rows, "--all" in words, "--trees" in words))
                self.same(given, outcomes.asked(given, seed, RUNS, "--from", path, *words), wanted)

        self.each(each_start(), look)

    def test_greatest_seed(self) -> None:
        path, greatest = in_file("counter", COUNTER), outcomes.GREATEST
        rows = outcomes.rows_of_runs(RACE, greatest, 2, "--from", path)
        came = outcomes.asked(RACE, greatest, 2, "--all", "--from", path)
        self.same(RACE, came, Outcome(0, outcomes.lines(rows, every=True)))
        words = "seeds", "--seed", str(greatest), "--runs", "2", "--from", path
        self.ends(words, RACE, lawful(greatest, 2))

    def test_tree_that_calls_make(self) -> None:
        """Runs from a tree are as those from the root whose words before `!drawn` make it, and so is what is asserted of them."""

        def look(number: int, start: Start) -> None:
            path = in_file(f"{self.row}.tree", start.tree())
            drawn_from = "--seed", str(number * 3), "--runs", str(RUNS)
            asserted = start.clauses(random.Random(f"clauses {number}"))
            for words in (
                ("seeds", *drawn_from),
                ("outcomes", *drawn_from),
                ("outcomes", *drawn_from, "--trees", "--json"),
                ("outcomes", *drawn_from, *asserted),
                ("outcomes", *drawn_from, "--trees", "--json", *asserted),
            ):
                due, came = run(start.from_root(), *words), run(start.script(), *words, "--from", path)
                self.same(start.script(), apart(words, came), apart(words, due))

        self.each(each_start(), look)

    # find and shrink
    def test_search_in_a_tree_that_calls_make(self) -> None:
        """A search finds the same seed as from the root. From the tree the script that it writes has the run that was found."""
        asks_of_answers()

        def look(number: int, start: Start) -> None:
            path = in_file(f"{self.row}.tree", start.tree())
            what = start.clauses(random.Random(f"what {number}"))[1]
            words = "find", "--where", what, "--seed", str(number * 3), "--runs", str(RUNS)
            due, came = run(start.from_root(), *words), run(start.script(), *words, "--from", path)
            self.same(start.script(), (came.status, came.message), (due.status, due.message))
            if came.status == 0:
                seed = due.message.decode().split()[-1]
                found = run(start.script(), "run", "--seed", seed, "--from", path)
                self.same(came.output, run(came.output, "run", "--from", path), found)

        self.each(each_start(), look)

    def test_words_before_drawn(self) -> None:
        """The words before `!drawn` are played from the tree, and then what the seed draws. tests/prepared.py draws it anew."""

        def look(number: int) -> None:
            draw = random.Random(f"words {number}")
            threads = [[drawn.crowded_call(draw) for _ in range(draw.randint(1, 5))] for _ in range(draw.randint(1, 4))]
            count = len(threads)
            before = [f"t{draw.randrange(count)}*{draw.randint(1, 30)}" for _ in range(draw.randrange(4))]
            path = in_file(f"{self.row}.tree", starts.played([[drawn.crowded_call(draw) for _ in range(20)]]))
            given = drawn.script(threads, " ".join((*before, "!drawn"))).encode()
            ends = []
            for seed in range(number, number + 3):
                words = " ".join((*before, prepared.drawn_words(seed, count, EVENTS), "finish"))
                alone = run(drawn.script(threads, words).encode(), "run", "--from", path)
                self.ends(("run", "--seed", str(seed), "--from", path), given, alone)
                ends.append((seed, outcomes.end_of(alone.output, given)))
            wanted = Outcome(0, outcomes.lines(outcomes.table(ends), every=True))
            self.same(given, outcomes.asked(given, number, 3, "--all", "--from", path), wanted)
            self.ends(("seeds", "--seed", str(number), "--runs", "3", "--from", path), given, lawful(number, 3))

        self.each(((f"words_{number}", number) for number in range(rows_of(SCRIPTS))), look)

    def test_root_alone(self) -> None:
        """A tree that has the root alone is the one at which runs start without a file."""
        journals = {1: b"atomfs-journal 1\nbegin 1 0 mkdir /c\n", 3: b"atomfs-journal 4\nstart\ndir /\nentries\n"}
        tree = in_file("root", b"tree\ndir /")

        def look(number: int, start: Start) -> None:
            given, seeds = start.script(), ("--seed", str(number), "--runs", str(RUNS))
            journal = in_file(f"journal from the root, {start.version}", journals[start.version])
            asserted = start.clauses(random.Random(f"root {number}"))
            for words in (("seeds", *seeds), ("outcomes", *seeds, "--all"), ("outcomes", *seeds, *asserted)):
                for path in (tree, journal):
                    self.ends((*words, "--from", path), given, run(given, *words))

        self.each(each_start(3), look)


class LostUpdate(starts.Asked):
    """What is asserted of two threads that raise a counter, which the tree has."""

    RUNS = 40

    def counted(self, *words: str) -> Outcome:
        return outcomes.asked(RACE, 1, self.RUNS, "--from", in_file("counter", COUNTER), *words)

    def asserts(self, quantifier: str, what: str, status: int) -> None:
        """Each assertion is decided here once more, by the runs of `atomfs run --from`."""
        path, numbers = in_file("counter", COUNTER), range(1, 1 + self.RUNS)
        texts = [run(RACE, "run", "--seed", str(seed), "--from", path).output for seed in numbers]
        lines, came = self.counted().output, self.counted(f"--{quantifier}", what)
        objects = self.counted("--json", "--all").output, self.counted("--json", f"--{quantifier}", what, "--all")
        if not harness.compares:
            return
        runs = [find.seen(["a", "b"], text[text.index(b"entries\n") :], b"") for text in texts]
        having = [seed for seed, seen in zip(numbers, runs) if find.has(what, seen)]
        lacking = [seed for seed in numbers if seed not in having]
        told = litmus.broken(quantifier, what, 1, self.RUNS, having, lacking)
        self.same(what, bool(told), status == 1)
        self.same(what, came, Outcome(status, lines, told.encode()))
        self.same(what, objects[1], Outcome(status, objects[0], told.encode()))

    def test_each_quantifier(self) -> None:
        rows = (
            ("never", NO_FILE, 0),
            ("always", "tree file /counter 31", 0),
            ("always", "reply a#1 bytes 30 or reply b#1 bytes 30", 0),
            ("sometimes", BOTH_READ, 0),
            ("sometimes", "overlap a#1 b#2", 0),
            ("never", BOTH_READ, 1),
            ("never", "before b#2 a#1", 1),
            ("never", SEES_ONE, 1),
            ("always", "reply b#1 bytes 31", 1),
            ("sometimes", "tree dir /none", 1),
            ("sometimes", NO_FILE, 1),
        )
        self.each(((" ".join(row[:2]), *row) for row in rows), self.asserts)

    def test_without_the_tree(self) -> None:
        """From the root there is no file, so no update is lost."""
        root = outcomes.asked(RACE, 1, self.RUNS, "--sometimes", BOTH_READ, "--always", NO_FILE)
        self.same(RACE, root.status, 1)
        told = f"atomfs: sometimes {BOTH_READ}: no run of {self.RUNS} from seed 1 on has it\n"
        self.same(RACE, root.message, told.encode())
        self.same(RACE, self.counted("--sometimes", BOTH_READ, "--never", NO_FILE).status, 0)

    def test_several(self) -> None:
        """The messages come in the order of the quantifiers."""
        came = self.counted("--sometimes", NO_FILE, "--always", NO_FILE, "--never", "tree dir /", "--never", NO_FILE)
        none = f"atomfs: sometimes {NO_FILE}: no run of {self.RUNS} from seed 1 on has it\n"
        first = f"atomfs: never tree dir /: seed 1 has it\natomfs: always {NO_FILE}: seed 1 does not have it\n"
        self.same(RACE, (came.status, came.message), (1, f"{first}{none}".encode()))

    # find and shrink
    def test_found(self) -> None:
        """The first run is that of the assertion that it breaks, and from the tree the script that is written has this run."""
        asks_of_answers()
        path = in_file("counter", COUNTER)
        words = "find", "--where", SEES_ONE, "--seed", "1", "--runs", str(self.RUNS)
        found = run(RACE, *words, "--from", path)
        seed = found.message.decode().split()[-1]
        self.same(RACE, found._replace(output=b""), Outcome(0, b"", f"atomfs: seed {seed}\n".encode()))
        never = self.counted("--never", SEES_ONE)
        self.same(RACE, never.message, f"atomfs: never {SEES_ONE}: seed {seed} has it\n".encode())
        again = run(RACE, "run", "--seed", seed, "--from", path)
        self.same(found.output, run(found.output, "run", "--from", path), again)
        objects = run(RACE, *words, "--json", "--from", path)
        self.same(RACE, (objects.status, objects.message), (0, found.message))
        none = f"atomfs: no run of {self.RUNS} from seed 1 on has it\n"
        self.same(RACE, run(RACE, *words), Outcome(1, b"", none.encode()))

    # find and shrink
    def test_shrunk(self) -> None:
        """What the run from the tree does not need goes. From the root the script does not have it."""
        path, script = in_file("counter", COUNTER), RACE.removesuffix(b"schedule\n")
        given = script + b"schedule\na*6 b*6 finish\n"
        words = "shrink", "--where", "reply b#1 bytes 30"
        left = b"atomfs 3\nthread a\nthread b\nread /counter 0 1\nschedule\nfinish\n"
        told = b"atomfs: calls 1, words 1, where reply b#1 bytes 30\n"
        self.ends((*words, "--from", path), given, Outcome(0, left, told))
        self.ends(words, given, Outcome(1, b"", b"atomfs: its run does not have it\n"))


class Faults(starts.Asked):
    """What is wrong with the words, the tree or the script, and which of it is told first."""

    def each_command(self, look: typing.Callable[..., None], *rows: tuple[typing.Any, ...]) -> None:
        self.each(((f"{name}, {' '.join(words)}", words, *rest) for words in COMMANDS for name, *rest in rows), look)

    def test_files_without_a_tree(self) -> None:
        """The fault comes after the name of the file."""
        second = ONE_CALL.replace(b"atomfs 1", b"atomfs 2")
        journal = starts.journal_of(2, "dir /a")
        self.each_command(
            self.refused,
            ("another text", b"hello\n", ONE_CALL, "line 1: BadHeader"),
            ("nothing", b"", ONE_CALL, "line 1: BadHeader"),
            ("a script", ONE_CALL, ONE_CALL, "line 1: BadHeader"),
            ("no root", b"tree\ndir /a\n", ONE_CALL, "line 2: BadStart"),
            ("out of order", starts.tree_of("dir /b", "dir /a"), ONE_CALL, "line 4: BadStart"),
            ("a journal of the first version", journal, second, "line 1: BadHeader"),
            (
                "a journal with a fault",
                journal + b"begin 1 0 mkdir /c/\n",
                ONE_CALL,
                "line 6: BadPath TrailingSlash",
            ),
        )

    def test_files_that_cannot_be_read(self) -> None:
        self.each_command(self.unread, ("no file",))

    def test_script_first(self) -> None:
        """A fault of the script comes before one of the tree's text."""
        given = b"atomfs 1\nthread t\nmkdir /a/\nschedule\n"
        path = in_file("no tree", b"hello\n")
        wanted = with_line(Outcome(3, b"", b"atomfs: line 3: BadPath TrailingSlash\n"), given)
        self.each_command(lambda words: self.ends((*words, "--from", path), given, wanted), ("a slash too many",))

    def test_file_before_script(self) -> None:
        """The file of the tree is opened before the script is read."""
        path = f"{starts.FOLDER.name}/missing"
        wanted = Outcome(5, b"", f"atomfs: {path}: no such file\n".encode())
        self.each_command(lambda words: self.ends((*words, "--from", path), b"hello\n", wanted), ("no file",))

    def test_words_first(self) -> None:
        """Words that say nothing are told before a file is read."""
        for path in (f"{starts.FOLDER.name}/missing", starts.FOLDER.name, in_file("no tree", b"hello\n")):
            for option, what, why in (
                ("never", "t#1", find.WORDS),
                ("always", "helped t", find.CALL),
                ("sometimes", "tree dir a", find.LINE),
            ):
                words = "outcomes", *TWO_RUNS, "--from", path, f"--{option}", what
                self.ends(words, b"hello\n", Outcome(2, b"", b"atomfs: --" + option.encode() + b": " + why + b"\n"))

    def test_no_such_call(self) -> None:
        """A call that the script does not have is told after a fault of either text."""
        tree, no_tree = in_file("tree", starts.tree_of("dir /a")), in_file("no tree", b"hello\n")
        no_call = Outcome(2, b"", b"atomfs: the script has no such call\n")
        for words in (("--never", "helped t#2"), ("--always", "tree dir /", "--sometimes", "reply n#1 ok", "--json")):
            asked = "outcomes", *TWO_RUNS, *words, "--from"
            self.ends((*asked, tree), ONE_CALL, no_call)
            told = Outcome(3, b"", f"atomfs: {no_tree}: line 1: BadHeader\n".encode())
            self.ends((*asked, no_tree), ONE_CALL, with_line(told, b"hello\n", is_tree=True))
            told = Outcome(3, b"", b"atomfs: line 1: BadHeader\n")
            self.ends((*asked, tree), b"hello\n", with_line(told, b"hello\n"))

    # find and shrink
    def test_searches(self) -> None:
        """A search tells the same of the words, the tree and the script."""
        tree, no_tree = in_file("tree", starts.tree_of("dir /a")), in_file("no tree", b"hello\n")
        missing = f"{starts.FOLDER.name}/missing"
        no_file = Outcome(5, b"", f"atomfs: {missing}: no such file\n".encode())
        told = Outcome(3, b"", f"atomfs: {no_tree}: line 1: BadHeader\n".encode())
        of_tree = with_line(told, b"hello\n", is_tree=True)
        of_script = with_line(Outcome(3, b"", b"atomfs: line 1: BadHeader\n"), b"hello\n")
        no_call = Outcome(2, b"", b"atomfs: the script has no such call\n")
        for asked in (("find", *TWO_RUNS), ("find", *TWO_RUNS, "--json"), ("shrink",)):
            for what, path, given, wanted in (
                ("t#1", missing, b"hello\n", Outcome(2, b"", b"atomfs: --where: " + find.WORDS + b"\n")),
                ("helped t#1", missing, b"hello\n", no_file),
                ("helped t#1", no_tree, b"hello\n", of_script),
                ("helped t#2", no_tree, ONE_CALL, of_tree),
                ("helped t#2", tree, ONE_CALL, no_call),
            ):
                self.ends((*asked, "--where", what, "--from", path), given, wanted)
        pending = checkpoints.script("thread t", "mkdir /b", "schedule", "t !checkpoint")
        self.ends(("shrink", "--where", "helped t#1", "--from", tree), pending, checkpoints.under_way(1))


class Shown(documents.Sentences):
    """The example of docs/COMMANDS.md."""

    def test_page(self) -> None:
        """Its commands write what the page says."""
        commands, lines = documents.blocks(documents.COMMANDS)[2:4]
        files: dict[str, str] = {}
        for command in commands.splitlines():
            if made := re.fullmatch(r"printf '(.*)' > (\S+)", command):
                files[made[2]] = in_file(made[2], made[1].replace("\\n", "\n").encode())
            else:
                words = [files.get(word, word) for word in shlex.split(command)]
                self.same(
                    command, (words[0], apart(words[1:], run(b"", *words[1:]))), ("atomfs", Outcome(0, lines.encode()))
                )
        lost, *_ = lines.split(" ")
        self.says(documents.COMMANDS, f"So {lost} of 1,000 runs lose an update")

    def test_without_the_tree(self) -> None:
        """The text in which a thread makes the file has so many ends."""
        given = (harness.ROOT / "examples" / "litmus" / "lost_update.script").read_bytes()
        rows = [line.decode() for line in outcomes.asked(given, 1, 1_000).output.splitlines()]
        early = [int(row.split()[0]) for row in rows if " failed ENOENT" in row or " bytes - " in row]
        told = f"the same seeds have {len(rows)} ends, and in {sum(early)} runs a thread finds no file"
        self.says(documents.COMMANDS, told)


if __name__ == "__main__":
    unittest.main()
