"""Traces of runs, and the scripts that `atomfs schedule` writes: the words of each event, and that a written schedule is the run again.

tests/data/traces has the trace of each worked script by its own schedule. Each event of a trace is looked at beside what the library answers at it, and the
paths beside the tree that the library has then. Which events are told is worked out here once more, from a trace of every one. Behind a checkpoint the
numbers of calls begin again, and those of events go on; so do the places of calls among those of their threads.
"""
import collections
import ctypes
import os
import random
import re
import unittest
from pathlib import Path

import drawn
import events
import harness
import model
from harness import DATA, Case, Outcome, atomfs, library, run
from worked import EXAMPLES, RUNS, examples

TRACES = DATA / "traces"
# Drawn runs whose schedule is written and run, and drawn runs whose events are compared with the library's.
SEEDS = 1_000
DRAWN = 60
# Drawn runs whose places are looked at on the tree of the tests.
REPLAYED = 150
# Drawn runs in pieces of which the same is compared.
DRAWN_PIECES = 40
PATH = r"/(?:[!-\$&-.0-~]|%[0-9A-F]{2}|/)*"
WHO = r"([a-z][a-z0-9_]*)#([1-9][0-9]*)"
ERRNO = "ENOENT|ENOTDIR|EEXIST|ENOTEMPTY|EISDIR|EINVAL|EBUSY|EPERM|ENOSPC|EFBIG|EOVERFLOW"
EFFECT = rf"adds {PATH}|removes {PATH}|moves {PATH} (?:to|over) {PATH}|exchanges {PATH} with {PATH}|changes {PATH}|changes nothing|answers|fails (?:{ERRNO})"
WHAT = {
    "begun": re.compile(r"begins (.+), call ([1-9][0-9]*)"),
    "took": re.compile(rf"locks ({PATH})"),
    "busy": re.compile(rf"waits for ({PATH}) held by {WHO}"),
    "let go": re.compile(rf"unlocks ({PATH}?)(?:, (removed)|, locked as ({PATH}))?"),
    "helped": re.compile(rf"helps {WHO}, commits it at ({PATH})"),
    "committed": re.compile(rf"commits, ({EFFECT})"),
    "carried out": re.compile(rf"makes its change, ({EFFECT})"),
    "returned": re.compile(r"returns (.+)"),
}
EVENT = re.compile(rf"([1-9][0-9]*) (?:{WHO} (.*)|([a-z][a-z0-9_]*) has nothing left)")
LEFT = re.compile(rf"left (?:{WHO}|([a-z][a-z0-9_]*) unbegun) (.+)")
CHECKPOINT = "checkpoint, the next call is call 1"
# Its own schedule comes to two checkpoints, where no call is under way.
PIECES = (
    b"atomfs 1\nthread m\nmkdir /a\nmkdir /a/d\nthread r\nmknod /x\nschedule\nm*5 !checkpoint m*7 !checkpoint finish\n"
)
# The same where nothing is done at all, and where checkpoints stand before the first event, at one place and behind the last one.
NOTHING = b"atomfs 1\nschedule\n!checkpoint\n"
AT_THE_ENDS = (
    b"atomfs 1\nthread t\nmkdir /a\nschedule\n!checkpoint !checkpoint t*7 !checkpoint !checkpoint !checkpoint\n"
)
# The same where calls are under way, of which the least number is told.
MET = (
    (b"atomfs 1\nthread m\nmkdir /a\nschedule\nm*2 !checkpoint finish\n", 1),
    (PIECES.replace(b"m*7", b"r m*3"), 1),
    (PIECES.replace(b"m*7", b"r*3 m*3 r*2"), 2),
)
# Two calls are under way, and others have not begun.
CUT = b"atomfs 1\nthread m\nmkdir /a\nmkdir /a/d\nthread r\nmknod /x\nstat /a\nthread w\nmkdir /q\nschedule\nm*4 r*3\n"

# What is told of a call that is helped while its file or a directory above that moves, and where it stands.
HELPED = (
    (
        b"atomfs 1\nthread w\nmknod /f\nwrite /f 0 68\nthread r\nrename /f /b\nschedule\nw*9 r*6 finish\n",
        ("helps w#2, commits it at /f", "makes its change, changes /b"),
    ),
    (
        b"atomfs 1\nthread w\nmknod /f\ntruncate /f 1\nthread r\nrename /f /b\nschedule\nw*9 r*6 finish\n",
        ("helps w#2, commits it at /f", "makes its change, changes /b"),
    ),
    (
        b"atomfs 1\nthread w\nmkdir /a\nmknod /a/f\nwrite /a/f 0 68\nthread r\nrename /a /b\nschedule\nw*18 r*6 finish\n",
        ("helps w#3, commits it at /a/f", "makes its change, changes /b/f"),
    ),
    (
        b"atomfs 1\nthread w\nmkdir /a\nmknod /a/f\nunlink /a/f\nthread r\nrename /a /b\nschedule\nw*17 r*3 finish\n",
        ("helps w#3, commits it at /a", "makes its change, removes /a/f"),
    ),
    (
        b"atomfs 1\nthread w\nmkdir /a\nmkdir /a/d\nmknod /a/d/x\nrename /a/d/x /a/d\nthread r\nrename /a /b\nschedule\nw*26 r*3 finish\n",
        ("helps w#4, commits it at /a", "makes its change, fails EISDIR"),
    ),
)


class Event:
    """A line of a trace: its number, its thread, the place of its call among those of that, the number of the call, what it did, and what its words say of
    that; `Trace` finds the numbers of calls, which a line says where the call begins."""

    def __init__(self, line: str) -> None:
        found = EVENT.fullmatch(line)
        if not found:
            raise ValueError(f"no line of a trace: {line}")
        self.line, self.number, self.thread, self.turn = line, int(found[1]), found[2] or found[5], int(found[3] or 0)
        self.call = 0
        self.did = "idle"
        self.says: tuple[str, ...] = ()
        if found[4]:
            matches = [(did, match.groups()) for did, what in WHAT.items() if (match := what.fullmatch(found[4]))]
            if len(matches) != 1:
                raise ValueError(f"no line of a trace: {line}")
            self.did, self.says = matches[0]
        if self.did == "begun":
            self.says, self.call = self.says[:1], int(self.says[1])


class Trace:
    """A trace as its text says it."""

    def __init__(self, text: bytes) -> None:
        head, rest = text.decode().split("tree\n", 1)
        lines = head.splitlines()
        if lines[0] != "atomfs-trace 2":
            raise ValueError("the first line of a trace is another")
        self.threads = [line.removeprefix("thread ") for line in lines[1:] if line.startswith("thread ")]
        lines = lines[1 + len(self.threads) :]
        self.left = [line for line in lines if LEFT.fullmatch(line)]
        # Events, and the lines of checkpoints between.
        self.moments: list[str | Event] = [
            line if line == CHECKPOINT else Event(line) for line in lines[: len(lines) - len(self.left)]
        ]
        self.events = [moment for moment in self.moments if isinstance(moment, Event)]
        self.end = f"tree\n{rest}"
        self.find_calls()

    def find_calls(self) -> None:
        """Finds the number of the call of each event, and of the call that it waits for or helps, by the words of these."""
        self.numbers: dict[tuple[str, ...], int] = {}
        begun: collections.Counter[str] = collections.Counter()
        for event in self.events:
            who = event.thread, str(event.turn)
            if event.did == "begun":
                begun[event.thread] += 1
                if event.turn != begun[event.thread]:
                    raise ValueError(f"no place among the calls of a thread: {event.line}")
                self.numbers[who] = event.call
            event.call = self.numbers.get(who, 0)
            match event.did, event.says:
                case "busy", (path, *other):
                    event.says = path, other[0], str(self.numbers[tuple(other)])
                case "helped", (*other, path):
                    event.says = other[0], str(self.numbers[tuple(other)]), path

    def lines(self) -> list[str]:
        return [moment.line if isinstance(moment, Event) else moment for moment in self.moments]


def without_repetitions(moments: list[str | Event]) -> list[str]:
    """The lines of a trace that is not told to show every event: no idle turns, and no wait for whom its thread waited in its last event. Of one call such
    waits are for one node, whose path may have changed."""
    last: dict[str, tuple[str, ...] | None] = {}
    kept = []
    for event in moments:
        if isinstance(event, str):
            kept.append(event)
            continue
        waits = event.says[1:] if event.did == "busy" else None
        repeats = waits and last.get(event.thread) == waits
        last[event.thread] = waits
        if event.did != "idle" and not repeats:
            kept.append(event.line)
    return kept


def begun(moments: list[str | Event]) -> list[list[int]]:
    """The numbers of the calls that begin, piece by piece."""
    pieces: list[list[int]] = [[]]
    for moment in moments:
        if isinstance(moment, str):
            pieces.append([])
        elif moment.did == "begun":
            pieces[-1].append(moment.call)
    return pieces


def version_of(script: bytes) -> int:
    """The version of a script."""
    return int(script.split(b"\n")[0].removeprefix(b"atomfs "))


def words(*more: str) -> tuple[str, ...]:
    return ("trace", *more)


def script_of(number: int) -> bytes:
    """A drawn script of calls that meet, with renames and exchanges above them."""
    draw = random.Random(number)
    return drawn.script(drawn.exchanging(draw) if number % 3 == 0 else drawn.moving(draw)).encode()


def listing_of(number: int) -> bytes:
    """A drawn script of the third limits."""
    return drawn.script(drawn.listing(random.Random(f"listing {number}")), version=3).encode()


def in_pieces(tree_library: atomfs.Library, number: int) -> bytes:
    """A drawn script of calls that meet, and a drawn schedule with two to four checkpoints: before each the calls under way go on to their returns."""
    draw = random.Random(f"pieces {number}")
    threads = drawn.exchanging(draw) if number % 3 == 0 else drawn.moving(draw)
    given = []
    with atomfs.Tree(tree_library, 1_048_576) as tree:
        ran = events.Run(tree, threads)

        def event(seat: int) -> None:
            ran.event(seat)
            given.append(f"t{seat}")

        for _ in range(draw.randint(2, 4)):
            for _ in range(draw.randint(0, 150)):
                if ran.live:
                    event(draw.choice(sorted(ran.live)))
            while ran.under_way:
                event(draw.choice(sorted(ran.under_way)))
            given.append("!checkpoint")
    return drawn.script(threads, " ".join([*given, "finish"])).encode()


def calls_of(script: bytes) -> dict[str, list[str]]:
    """The lines of each thread's calls."""
    calls: dict[str, list[str]] = {}
    for line in script.decode("latin-1").split("\nschedule", 1)[0].splitlines()[1:]:
        if line.startswith("thread "):
            calls[line.removeprefix("thread ")] = []
        elif line and not line.startswith("#"):
            list(calls.values())[-1].append(line)
    return calls


class Stored(Case):
    """The trace of each worked script is stored."""

    def look(self, example: Path, script: bytes) -> None:
        cut = (RUNS / f"{example.name}.status").exists()
        self.told(script, (TRACES / f"{example.name}.trace"), int(cut))

    def told(self, script: bytes, stored: Path, status: int, *more: str) -> None:
        wanted = Outcome(status, stored.read_bytes() if stored.exists() else b"")
        self.same(script.decode(errors="backslashreplace"), run(script, *words(*more)), wanted)

    def test_every_event_of_a_run_in_pieces(self) -> None:
        """With idle turns and repeated waits, and the lines of checkpoints between."""
        self.told((RUNS / "in_pieces.script").read_bytes(), TRACES / "in_pieces.every.trace", 0, "--every")

    def test_worked_scripts(self) -> None:
        rows = [(path.name, path, script) for folder in (RUNS, EXAMPLES) for path, script in examples(folder, "script")]
        self.each(rows, self.look)

    def test_each_is_of_a_script(self) -> None:
        scripts = {path.name for folder in (RUNS, EXAMPLES) for path, _ in examples(folder, "script")}
        self.same(
            "the traces that are of no script",
            sorted(path.name for path in TRACES.iterdir() if path.name.split(".")[0] not in scripts),
            [],
        )


class Words(Case):
    """What stands in a trace, and what does not."""

    def ends_as_the_run(self, script: bytes, *schedule: str) -> None:
        every, short, ran = (run(script, *more, *schedule) for more in (words("--every"), words(), ("run",)))
        if not harness.compares:
            return
        given = script.decode(errors="backslashreplace")
        told, told_short = Trace(every.output), Trace(short.output)
        self.same(given, [event.number for event in told.events], list(range(1, len(told.events) + 1)))
        self.same(given, told_short.lines(), without_repetitions(told.moments))
        self.same(given, [list(range(1, len(piece) + 1)) for piece in begun(told.moments)], begun(told.moments))
        self.same(
            given,
            (told.end, every.status, told_short.end, told_short.left),
            (ran.output.decode()[-len(told.end) :], ran.status, told.end, told.left),
        )
        self.same(given, ran.output.decode().count("\ntree\n"), 1)
        self.same(given, len(told.end), len(ran.output.decode().split("\ntree\n", 1)[1]) + len("tree\n"))

    def test_by_each_schedule(self) -> None:
        rows = [
            (f"{path.name}_{'_'.join(schedule)}", script, *schedule)
            for folder in (RUNS, EXAMPLES)
            for path, script in examples(folder, "script")
            for schedule in ((), ("--robin",), ("--seed", "7"))
        ]
        self.each(rows, self.ends_as_the_run)

    def test_calls_left(self) -> None:
        told = run(CUT, *words())
        if harness.compares:
            wanted = [
                "left m#1 mkdir /a",
                "left m unbegun mkdir /a/d",
                "left r#1 mknod /x",
                "left r unbegun stat /a",
                "left w unbegun mkdir /q",
            ]
            self.same(CUT.decode(), (told.status, Trace(told.output).left), (1, wanted))

    def test_faults_are_those_of_run(self) -> None:
        for given in (b"", b"atomfs 1\nthread T\nschedule\n", b"atomfs 1\nthread t\nmkdir a\nschedule\n"):
            self.same(given.decode(), run(given, *words()), run(given, "run"))
            self.same(given.decode(), run(given, "schedule", "--robin"), run(given, "run"))


def tree_paths(text: str) -> set[str]:
    return {line.split(" ")[1] for line in text.splitlines() if line.startswith(("dir ", "file "))}


def moved(path: str, old: str, new: str) -> str:
    """A path after what is at `old` stands at `new`."""
    if path == old or path.startswith(old + "/"):
        return new + path[len(old) :]
    return path


class Checkpoints(Case):
    """A checkpoint has a line, and where calls are under way there is no trace; where the words of the script are not used, all is as without the word."""

    def told(self, given: bytes, *lines: str) -> None:
        for more in ((), ("--every",)):
            self.same(
                given.decode(),
                run(given, *words(*more)),
                Outcome(0, "".join(f"{line}\n" for line in ("atomfs-trace 2", *lines)).encode()),
            )

    def test_without_events(self) -> None:
        self.told(NOTHING, CHECKPOINT, "tree", "dir /", "begun 0 committed 0 returned 0")

    def test_at_the_ends(self) -> None:
        """Before the first event, several at one place, and behind the last event; the last line counts the last piece."""
        given = AT_THE_ENDS.replace(b"t*7", b"t*5")
        lines = (
            "1 t#1 begins mkdir /a, call 1",
            "2 t#1 locks /",
            "3 t#1 commits, adds /a",
            "4 t#1 unlocks /",
            "5 t#1 returns ok",
        )
        self.told(
            given,
            "thread t",
            *[CHECKPOINT] * 2,
            *lines,
            *[CHECKPOINT] * 3,
            "tree",
            "dir /",
            "dir /a",
            "begun 0 committed 0 returned 0",
        )

    def test_calls_left(self) -> None:
        """Those that have begun are told by their places among all calls of their threads."""
        told = run(PIECES.replace(b"!checkpoint finish", b"!checkpoint r*2"), *words())
        if harness.compares:
            self.same(PIECES.decode(), (told.status, Trace(told.output).left), (1, ["left r#1 mknod /x"]))

    def test_calls_under_way(self) -> None:
        for given, call in MET:
            for more in ((), ("--every",)):
                self.same(
                    given.decode(), run(given, *words(*more)), Outcome(1, b"", b"atomfs: call %d is pending\n" % call)
                )
            self.same(given.decode(), run(given, "run"), Outcome(1, b"", b"atomfs: call %d is pending\n" % call))

    def test_other_schedules(self) -> None:
        for given in (PIECES, NOTHING, MET[0][0]):
            plain = given.replace(b"!checkpoint ", b"").replace(b"!checkpoint", b"")
            for schedule in (("--robin",), ("--seed", "7")):
                for asked in (words(), words("--every"), ("schedule",)):
                    came = run(given, *asked, *schedule)
                    self.same(given.decode(), came, run(plain, *asked, *schedule))
                    self.same(given.decode(), (came.status, b"!checkpoint" in came.output), (0, False))

    def test_a_written_schedule(self) -> None:
        harness.takes_a_process()
        for given in (PIECES, NOTHING, MET[0][0]):
            for schedule in (("--robin",), ("--seed", "7")):
                written = run(given, "schedule", *schedule)
                self.same(given.decode(), run(written.output, "run"), run(given, "run", *schedule))


class Journals(Case):
    """A journal is told entry by entry, in the words that the trace of its run has."""

    @staticmethod
    def effects(moments: list[str | Event]) -> dict[int, tuple[str, bool]]:
        """What the calls of the last piece of a run changed, by their numbers, and whether that is told by the path that each names: the node
        of one that is helped may have moved before it is carried out."""
        told: dict[int, tuple[str, bool]] = {}
        for moment in moments:
            if isinstance(moment, str):
                told = {}
            elif moment.did in ("committed", "carried out"):
                told[moment.call] = moment.says[0], moment.did == "committed"
        return told

    @staticmethod
    def entries(text: bytes) -> list[str]:
        """The lines of a journal's entries."""
        lines = text.decode().partition("\ntree\n")[0].splitlines()
        return lines[lines.index("entries") + 1 if "entries" in lines else 1 :]

    def line(self, place: int, line: str, seats: dict[str, str], effects: dict[int, tuple[str, bool]]) -> str:
        """How a trace tells an entry, up to the paths of what a helped call changed."""
        kind, number, *rest = line.split(" ", 3 if line.startswith("begin ") else 2)
        if kind == "begin":
            seats[number] = rest[0]
        effect, is_told = effects.get(int(number), ("", False))
        says = {
            "begin": f"begins {rest[-1] if rest else ''}",
            "commit": f"commits, {effect if is_told else effect.split(' ')[0]}",
            "return": f"returns {rest[-1] if rest else ''}",
        }
        return f"{place} call {number} on seat {seats[number]} {says[kind]}"

    def look(self, script: bytes, *schedule: str) -> None:
        harness.asks_of_answers()
        text, of_run = run(script, "run", *schedule).output, Trace(run(script, "trace", "--every", *schedule).output)
        told, effects = run(text, "trace"), self.effects(of_run.moments)
        seats: dict[str, str] = {}
        head, _, end = told.output.decode().partition("tree\n")
        first, *lines = head.splitlines()
        left = [line for line in lines if line.startswith("left ")]
        wanted = [self.line(place, line, seats, effects) for place, line in enumerate(self.entries(text), 1)]
        came = [line if line.startswith(wish) else f"another than {wish}: {line}" for line, wish in zip(lines, wanted)]
        given, behind = (
            script.decode(errors="backslashreplace"),
            (run(text, "tree").output + text.splitlines(keepends=True)[-1]).decode(),
        )
        self.same(
            given,
            (told.status, told.message, first, came + left, f"tree\n{end}"),
            (0, b"", "atomfs-trace 2", lines, behind),
        )

        def as_of_a_journal(found: re.Match[str]) -> str:
            return f"left call {of_run.numbers[found.groups()]} on seat {of_run.threads.index(found[1])}"

        self.same(
            given,
            sorted(left),
            sorted(re.sub(f"^left {WHO}", as_of_a_journal, line) for line in of_run.left if " unbegun " not in line),
        )

    def test_worked_runs(self) -> None:
        rows = [
            (f"{path.name}_{'_'.join(schedule)}", script, *schedule)
            for folder in (RUNS, EXAMPLES)
            for path, script in examples(folder, "script")
            for schedule in ((), ("--robin",), ("--seed", "7"))
        ]
        self.each(rows, self.look)

    def test_drawn_runs(self) -> None:
        self.each(
            ((f"script_{number}", script_of(number), "--seed", str(number)) for number in range(DRAWN)), self.look
        )

    def test_faults(self) -> None:
        """What stands before the first fault is told, and then the fault."""
        harness.asks_of_answers()

        def look(number: int) -> None:
            text = run(script_of(number), "run", "--robin").output
            lines = text.partition(b"tree\n")[0].splitlines(keepends=True)
            left_out = random.Random(number).randrange(1, len(lines))
            bad = b"".join(lines[:left_out] + lines[left_out + 1 :])
            checked, told = run(bad, "check"), run(bad, "trace")
            if checked.status:
                place = int(checked.output.split()[1])
                front = run(b"".join(bad.splitlines(keepends=True)[:place]), "trace")
                reason = b"atomfs: " + checked.output.strip() + b", " + checked.message.removeprefix(b"atomfs: ")
                self.same(bad.decode(), told, front._replace(status=1, message=reason))

        self.each(((f"script_{number}", number) for number in range(DRAWN)), look)

    def test_schedules_and_every(self) -> None:
        """A journal has its own order, and each entry has a line."""
        text = (RUNS / "helped_mkdir.text").read_bytes()
        for more in (("--robin",), ("--seed", "7"), ("--every",)):
            self.same(text.decode(), run(text, "trace", *more), run(text, "trace"))
        self.same(text.decode(), run(text, "trace"), Outcome(0, (TRACES / "helped_mkdir.journal.trace").read_bytes()))


class OnTheLibrary(Case):
    """Each event of a trace of every one is what the library answers, and each path is that of the node of which it answers."""

    def follow(self, tree: atomfs.Tree, told: Trace, calls: dict[str, list[str]]) -> str | None:
        """Has the events of a trace on the library, and answers the first that is another."""
        seats = {name: tree.seat() for name in told.threads}
        names: dict[int, str] = {}
        did, about = ctypes.c_uint8(), ctypes.c_uint64()
        left = {name: list(calls[name])[::-1] for name in told.threads}
        begun = 0
        for event in told.moments:
            if isinstance(event, str):
                # The library refuses it where a call is under way.
                tree.checkpoint()
                begun = 0
                continue
            before = tree_paths(tree.tree().decode())
            if event.did == "idle":
                if left[event.thread]:
                    return f"{event.line}: a call is left"
                continue
            if event.did == "begun":
                call = left[event.thread].pop()
                tree.begin(seats[event.thread], call.encode("latin-1"))
                begun += 1
                entry = tree.journal().decode().splitlines()[-1]
                if entry != f"begin {event.call} {seats[event.thread]} {event.says[0]}" or event.call != begun:
                    return f"{event.line}: the journal says {entry}"
                continue
            tree.done(tree.library.atomfs_step(tree.handle, seats[event.thread], did, about))
            if events.STEPS[did.value] != event.did:
                return f"{event.line}: the library says {events.STEPS[did.value]}"
            if wrong := self.wrong(event, about.value, names, before, tree_paths(tree.tree().decode())):
                return f"{event.line}: {wrong}"
        return None

    def wrong(self, event: Event, about: int, names: dict[int, str], before: set[str], after: set[str]) -> str | None:
        """What is wrong with the words of an event, whose node or call the library names by a number; `names` has the paths of nodes so far."""
        says = event.says
        match event.did:
            case "took":
                if names.setdefault(about, says[0]) != says[0] or says[0] not in before:
                    return f"node {about} is at {names[about]}"
            case "busy":
                if int(says[2]) != about or says[0] not in before:
                    return f"call {about} holds it"
            case "let go" if says[1]:
                # A removed node gives its number back, and another node may get it.
                names.pop(about, None)
            case "let go":
                if names.get(about) != says[0] or says[0] not in before:
                    return f"node {about} is at {names.get(about)}"
            case "helped":
                if int(says[1]) != about or says[2] not in before:
                    return f"it helps call {about}"
            case "committed" | "carried out":
                return self.wrong_effect(says[0].split(" "), names, before, after)
            case "returned":
                return None
        return None

    def wrong_effect(self, effect: list[str], names: dict[int, str], before: set[str], after: set[str]) -> str | None:
        match effect:
            case ["adds", path]:
                wanted = before | {path}
            case ["removes", path]:
                wanted = before - {path}
            case ["moves", old, how, new]:
                if (how == "over") != (new in before):
                    return "it moves over what is there, and to what is not"
                wanted = {
                    moved(path, old, new)
                    for path in before
                    if how != "over" or not (path == new or path.startswith(new + "/"))
                }
                for node, path in names.items():
                    names[node] = moved(path, old, new)
            case ["exchanges", one, "with", other]:

                def swap(path: str) -> str:
                    return moved(moved(moved(path, one, "%"), other, one), "%", other)

                wanted = {swap(path) for path in before}
                for node, path in names.items():
                    names[node] = swap(path)
            case _:
                wanted = before
        return None if after == wanted else f"the tree changes by {sorted(before ^ after)}"

    def look(self, script: bytes, *schedule: str) -> None:
        tree_library = library()
        told = Trace(run(script, *words("--every"), *schedule).output)
        with atomfs.Tree(tree_library, 1_048_576, version=version_of(script)) as tree:
            self.same(script.decode(errors="backslashreplace"), self.follow(tree, told, calls_of(script)), None)

    def test_worked_scripts(self) -> None:
        library()
        rows = [(path.name, script) for folder in (RUNS, EXAMPLES) for path, script in examples(folder, "script")]
        self.each(rows, self.look)

    def test_drawn_scripts(self) -> None:
        library()
        rows = [
            (f"script_{number}_{order}", script_of(number), "--seed", str(number))
            for number in range(DRAWN)
            for order in ("seed",)
        ]
        rows += [(f"listing_{number}", listing_of(number), "--seed", str(number)) for number in range(DRAWN // 3)]
        self.each(rows, self.look)

    def test_drawn_pieces(self) -> None:
        """Scripts whose own schedule is drawn, with checkpoints where no call is under way."""
        tree_library = library()
        self.each(((f"script_{number}", in_pieces(tree_library, number)) for number in range(DRAWN_PIECES)), self.look)


def parts(words: list[str]) -> tuple[str, str]:
    """The paths of a call: of one that has one path, that path twice."""
    return (words[1], words[2]) if words[0] in ("rename", "exchange") else (words[1], words[1])


def steps(path: str) -> list[str]:
    """The names of a path, as they are written."""
    return [name for name in path.split("/") if name]


def target_len(words: list[str]) -> int:
    """How many names lead to the node of a call, to the directory of its entry, or to the common directory of its two entries."""
    first, second = map(steps, parts(words))
    if words[0] in ("stat", "readdir", "list", "read", "write", "truncate"):
        return len(first)
    return len(os.path.commonprefix([first[:-1], second[:-1]]))


class Held:
    """A node that a call holds: under which path it was taken, and where it is now; nowhere once it is removed."""

    def __init__(self, path: str) -> None:
        self.taken = path
        self.now: str | None = path


class Way:
    """A call under way: its words, how many nodes it took, and those that it holds, by their places among these."""

    def __init__(self, words: list[str]) -> None:
        self.words, self.took = words, 0
        self.held: dict[int, Held] = {}

    def position(self) -> int:
        """Where it stands: its walk takes one node for each name of the way to its target, the root first, and all that it takes behind that is no walk."""
        return max((place for place in self.held if place <= target_len(self.words)), default=-1)


class Replay:
    """A trace of every event, played on two trees of the tests: one has the calls in the order of their commits, and of the other each line says what it
    changes, and where."""

    def __init__(self, version: int) -> None:
        self.version = version
        self.ways: dict[int, Way] = {}
        self.due: dict[int, str] = {}
        self.placed: set[int] = set()
        self.committed, self.now = model.Tree(version), model.Tree(version)

    def here(self, path: str) -> bool:
        return model.path_of(path) in self.now.nodes

    def all_held(self) -> list[Held]:
        return [held for way in self.ways.values() for held in way.held.values()]

    def holding(self, way: Way, path: str) -> list[int]:
        """The places of the nodes that a call holds and that are here now."""
        return [place for place, held in way.held.items() if held.now == path]

    def commit(self, call: int) -> None:
        self.due[call] = self.committed.apply(self.ways[call].words)
        self.placed.add(call)

    def change(self, call: int, effect: str) -> str | None:
        """What is wrong with the words by which a call makes its change, if anything is."""
        way, words = self.ways[call], effect.split(" ")
        self.placed.discard(call)
        stands = way.held[way.position()].now if way.held else None
        last = [steps(path)[-1:] for path in parts(way.words)]
        wanted: tuple[str, ...]
        match words:
            case ["adds" | "removes", path]:
                wanted, paths = {"adds": ("mkdir", "mknod"), "removes": ("unlink", "rmdir")}[words[0]], [path]
                if stands is None or steps(path) != [*steps(stands), *last[0]]:
                    return f"the call stands at {stands}"
            case ["changes", path] if path != "nothing":
                wanted, paths = ("write", "truncate"), [path]
                if path != stands:
                    return f"the call stands at {stands}"
            case ["moves", one, "to" | "over" as how, other] | ["exchanges", one, "with" as how, other]:
                wanted, paths = ("rename" if words[0] == "moves" else "exchange",), [one, other]
                if [steps(path)[-1:] for path in paths] != last or not all(
                    self.holding(way, above(path)) for path in paths
                ):
                    return "the call holds other directories"
                if how in ("to", "over") and (how == "over") != self.here(other):
                    return "it moves over what is there, and to what is not"
            case _:
                reply = self.due[call]
                said = f"fails {reply.removeprefix('failed ')}" if reply.startswith("failed ") else effect
                return None if effect == said else f"the reply that is due is {reply}"
        if way.words[0] not in wanted:
            return f"the call is {' '.join(way.words)}"
        reply = self.now.apply([way.words[0], *paths, *way.words[1 + len(paths) :]])
        self.carry(words)
        return None if reply == self.due[call] else f"the tree replies {reply}, and {self.due[call]} is due"

    def carry(self, words: list[str]) -> None:
        """The nodes that are held go where a change takes them."""
        for held in self.all_held():
            if held.now is None:
                continue
            match words:
                case ["removes", path] if held.now == path:
                    held.now = None
                case ["moves", _, "over", path] if held.now == path:
                    held.now = None
                case ["moves", one, _, other]:
                    held.now = moved(held.now, one, other)
                case ["exchanges", one, _, other]:
                    held.now = moved(moved(moved(held.now, one, "%"), other, one), "%", other)

    def wrong(self, event: Event) -> str | None:
        """What is wrong with an event, if anything is."""
        call, way, says = event.call, self.ways.get(event.call), event.says
        match event.did:
            case "begun":
                self.ways[call] = Way(says[0].split(" "))
            case "took":
                assert way
                if not self.here(says[0]) or any(held.now == says[0] for held in self.all_held()):
                    return "no node that is free is there"
                way.held[way.took], way.took = Held(says[0]), way.took + 1
            case "busy":
                if not self.holding(self.ways[int(says[2])], says[0]):
                    return f"call {says[2]} holds no node there"
            case "let go":
                assert way
                now: str | None
                path, removed, taken = says
                now, taken = (None, path) if removed else (path, taken or path)
                places = [place for place, held in way.held.items() if (held.now, held.taken) == (now, taken)]
                if not places:
                    return f"it holds {[(held.now, held.taken) for held in way.held.values()]}"
                del way.held[places[0]]
            case "helped":
                other = self.ways[int(says[1])]
                if other.held[other.position()].now != says[2]:
                    return f"call {says[1]} stands at {other.held[other.position()].now}"
                self.commit(int(says[1]))
            case "committed":
                self.commit(call)
                return self.change(call, says[0])
            case "carried out":
                return self.change(call, says[0])
            case "returned":
                assert way
                if says[0] != self.due[call] or way.held:
                    return f"{self.due[call]} is due, and it holds {list(way.held)}"
                del self.ways[call]
        return None

    def follow(self, told: Trace) -> str | None:
        """The first line that says what is not so, and why."""
        for event in told.moments:
            if isinstance(event, str):
                self.ways, self.due = {}, {}
            elif wrong := self.wrong(event):
                return f"{event.line}: {wrong}"
            elif not self.placed and self.now.nodes != self.committed.nodes:
                return f"{event.line}: the tree is another than that of the commits"
        tree = "\n".join(self.now.text())
        return None if told.end.startswith(f"{tree}\nbegun ") else f"the tree at the end is\n{tree}"


def above(path: str) -> str:
    """The path of the directory of an entry."""
    return path[: path.rindex("/")] or "/"


class OnTheModel(Case):
    """Each node that a line names is where the line says when its event has happened: on a tree that each line changes as it says, and that is, where no
    call is placed that has not made its change, the tree of the commits."""

    def look(self, script: bytes, *schedule: str) -> None:
        ran = run(script, *words("--every"), *schedule)
        if harness.compares:
            replay = Replay(version_of(script))
            self.same(script.decode(errors="backslashreplace"), replay.follow(Trace(ran.output)), None)

    def test_worked_scripts(self) -> None:
        rows = [
            (f"{path.name}_{'_'.join(schedule)}", script, *schedule)
            for folder in (RUNS, EXAMPLES)
            for path, script in examples(folder, "script")
            for schedule in ((), ("--robin",), ("--seed", "7"))
        ]
        self.each(rows, self.look)

    def test_drawn_scripts(self) -> None:
        """Of the second half many calls are helped while a file or a directory on their ways moves."""
        rows: list[tuple[str | bytes, ...]] = [
            (f"script_{number}", script_of(number), "--seed", str(number)) for number in range(REPLAYED // 2)
        ]
        rows += [
            (f"helped_{number}", drawn.script(*drawn.helped(random.Random(number))).encode())
            for number in range(REPLAYED // 2)
        ]
        rows += [(f"listing_{number}", listing_of(number), "--seed", str(number)) for number in range(REPLAYED // 5)]
        self.each(rows, self.look)

    def test_helped_calls(self) -> None:
        """A file that is written or cut while it moves, alone and below a directory; a call that took its victim; and a call whose source head stands where
        its destination is."""
        for script, lines in HELPED:
            told = run(script, *words())
            if harness.compares:
                said = [
                    line.split(" ", 2)[2]
                    for line in told.output.decode().splitlines()
                    if " helps " in line or " makes its change, " in line
                ]
                self.same(script.decode(), said, list(lines))
            self.look(script)


class Schedules(Case):
    """A run by a written schedule has the very text of the run that was written."""

    def again(self, script: bytes, *schedule: str) -> None:
        harness.takes_a_process()
        ran, written = run(script, "run", *schedule), run(script, "schedule", *schedule)
        self.same(script.decode(errors="backslashreplace"), (written.status, written.message), (0, b""))
        self.same(written.output.decode(errors="backslashreplace"), run(written.output, "run"), ran)
        blocks = script.decode(errors="backslashreplace").split("\nschedule", 1)[0]
        self.same("the blocks", written.output.decode(errors="backslashreplace").split("\nschedule\n", 1)[0], blocks)
        self.same(
            "the width of a line", [line for line in written.output.splitlines() if b"*" in line and len(line) > 72], []
        )

    def test_worked_scripts(self) -> None:
        rows = [
            (f"{path.name}_{schedule[-1]}", script, *schedule)
            for folder in (RUNS, EXAMPLES)
            for path, script in examples(folder, "script")
            for schedule in (("--robin",), ("--seed", "7"))
        ]
        self.each(rows, self.again)

    def test_seeds(self) -> None:
        script = (EXAMPLES / "many_helped.script").read_bytes()
        self.each([(f"seed_{seed}", script, "--seed", str(seed)) for seed in range(SEEDS)], self.again)

    def test_too_many_events(self) -> None:
        """A run by rounds of so many waiting threads takes more events than a script gives."""
        harness.takes_a_process()
        blocks = "".join(f"thread t{thread}\n" + "mkdir /a\n" * 250 for thread in range(60))
        script = f"atomfs 1\n{blocks}schedule\n".encode()
        self.same(
            "60 threads with 250 calls each",
            run(script, "schedule", "--robin"),
            Outcome(4, b"", b"atomfs: the run takes more events than a script gives\n"),
        )

    def test_a_text_without_room(self) -> None:
        """The words of its events are one byte more than the text has room for."""
        harness.takes_a_process()
        head, tail, refused = (
            b"atomfs 1\nthread t\nmkdir /a\n#",
            b"\nschedule\n",
            (4, b"atomfs: the script would have more bytes than a text has\n"),
        )
        for version, more, wanted in ((1, 0, (0, b"")), (1, 1, refused), (2, 1, refused), (3, 1, (0, b""))):
            script = (
                head.replace(b"1", b"%d" % version, 1) + b"-" * (16_777_216 - len(head + tail + b"t*5\n") + more) + tail
            )
            came = run(script, "schedule", "--robin")
            self.same(f"a script by version {version} of {len(script)} bytes", (came.status, came.message), wanted)

    def test_its_own_schedule(self) -> None:
        """Without `--robin` or `--seed` the script is written with the events of its own schedule."""
        came = run(CUT, "schedule")
        self.same(CUT, came.status, 0)
        self.same(CUT, run(came.output, "run"), run(CUT, "run"))


if __name__ == "__main__":
    unittest.main()
