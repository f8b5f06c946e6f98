"""`--json` of `check`, `outcomes`, `find`, `seeds` and `trace`: each line is an object, and has what the line in words has.

What the words are is looked at in the tests of each command; here what `--json` writes is compared with them, byte for byte.
"""
import json
import random
import re
import unittest
from typing import Callable, Iterator, Sequence

import drawn
import harness
from harness import DATA, ROOT, Case, Outcome, asks_of_answers, run

SCRIPTS, TIMES = 60, 8
# Scripts of the third limits, behind these.
LISTING = 12
DRAWN = drawn.narrow, drawn.moving, drawn.exchanging, drawn.crowded
WRONG = b"atomfs-journal 1\nbegin 1 0 mkdir /a\ncommit 1\nreturn 1 failed EEXIST\n"
# Comments with every byte but a line feed, and a name with a quotation mark and a backslash.
BYTES = (
    b"atomfs 1\n#"
    + bytes(byte for byte in range(256) if byte != 10)
    + b'\nthread m\nmkdir /"\\"\nreaddir /\nthread r\nrmdir /"\\"\nschedule\nfinish\n'
)
# Its own schedule comes to checkpoints before the first event, at one place, and after the last event.
PIECES = b"atomfs 1\nthread t\nmkdir /a\nschedule\n!checkpoint t*7 !checkpoint !checkpoint\n"
# Two calls are pending, and others have not begun. One is pending at a checkpoint.
LEFT = b"atomfs 1\nthread m\nmkdir /a\nmkdir /a/d\nthread r\nmknod /x\nstat /a\nthread w\nmkdir /q\nschedule\nm*4 r*3\n"
UNDER_WAY = b"atomfs 1\nthread m\nmkdir /a\nschedule\nm*2 !checkpoint finish\n"
CHECKPOINT = "checkpoint, the next call is call 1"
# It starts at a tree, and some calls fail.
STARTED = (
    b"atomfs-journal 2\nstart\ndir /\ndir /a\nfile /a/f 6869\nentries\nbegin 7 0 rename /a /b\nbegin 9 31 mkdir /b\ncommit 7\ncommit 9\n"
    b"return 9 failed EEXIST\nreturn 7 ok\nbegin 12 0 truncate /b/f 2\ncommit 12\nreturn 12 ok\nbegin 13 0 exchange /b /b/f\n"
)
# A tree at which drawn runs start.
MOVED = str(DATA / "starts" / "moved.tree")
SHORT = {'"': '\\"', "\\": "\\\\", "\n": "\\n"}


def written(value: object) -> str:
    """A value of JSON as the program writes it: without spaces, in ASCII, and each byte of a string as the character of its number."""
    if isinstance(value, dict):
        return "{" + ",".join(f"{written(name)}:{written(member)}" for name, member in value.items()) + "}"
    if isinstance(value, str):
        return (
            '"'
            + "".join(SHORT.get(sign) or (sign if " " <= sign <= "~" else f"\\u{ord(sign):04x}") for sign in value)
            + '"'
        )
    return json.dumps(value)


def objects(*values: object) -> bytes:
    return "".join(f"{written(value)}\n" for value in values).encode()


def script_of(number: int) -> bytes:
    if number >= SCRIPTS:
        return drawn.script(drawn.listing(random.Random(f"listing {number}")), version=3).encode()
    return drawn.script(DRAWN[number % len(DRAWN)](random.Random(number))).encode()


def of_check(outcome: Outcome) -> dict[str, object]:
    """The object of a verdict, with what was told of it."""
    words = outcome.output.decode().split()
    if words == ["lawful"]:
        return {"lawful": True}
    reason = outcome.message.decode().removeprefix("atomfs: ").removesuffix("\n")
    return {"lawful": False, "place": int(words[1]), "kind": words[2], "reason": reason}


def of_row(line: str, tree: str) -> dict[str, object]:
    """The object of a line of `outcomes`, and of the tree behind it."""
    head, *parts = line.split(" | ")
    times, _, seed, _, digest = head.split(" ")
    replies = {name: reply for name, _, reply in (part.partition(" ") for part in parts)}
    return {
        "times": int(times),
        "seed": int(seed),
        "digest": digest,
        "replies": replies,
        **({"tree": tree} if tree else {}),
    }


def of_seen(message: bytes) -> dict[str, object]:
    """The object of the line that says how much was seen."""
    (numbers,) = harness.SEEN.findall(message)
    names = "runs", "outcomes", "new", "lately", "met", "pairs"
    return {name: int(number.replace(b",", b"")) for name, number in zip(names, numbers) if number}


def of_outcomes(plain: Outcome) -> bytes:
    """The objects of the lines of `outcomes`, and of the line that says how much was seen."""
    return objects(*(of_row(*row) for row in rows_of(plain.output)), of_seen(plain.message))


# What a line of a trace says of an event behind its call, with the members of its object. A path has no spaces.
NODE = r"(/\S*?)"
SAID = {
    "begins": (rf"begins (.+), call (\d+)", ("words", "number")),
    "locks": (rf"locks {NODE}", ("path",)),
    "waits": (rf"waits for {NODE} held by (\S+)", ("path", "holder")),
    "unlocks": (rf"unlocks {NODE}(?:, locked as {NODE})?", ("path", "locked_as")),
    "removed": (rf"unlocks {NODE}, removed", ("locked_as",)),
    "helps": (rf"helps (\S+), commits it at {NODE}", ("helped", "path")),
    "returns": (r"returns (.+)", ("reply",)),
}
CHANGED = re.compile(
    rf"(commits|makes its change), (?:(changes nothing|answers)|(fails) (\w+)|(\w+) {NODE}(?: (to|over|with) {NODE})?)"
)


def of_deed(said: str) -> dict[str, object]:
    """What the object of an event has behind its call, by the words of the line."""
    changed = CHANGED.fullmatch(said)
    if changed:
        did, alone, fails, error, change, path, joint, second = changed.groups()
        members = {"did": did, "change": alone or fails or change, "path": path, joint or "": second, "error": error}
        return {name: member for name, member in members.items() if member}
    for did, (form, names) in reversed(SAID.items()):
        found = re.fullmatch(form, said)
        if found and did == "removed":
            return {"did": "unlocks", "path": None, "locked_as": found[1]}
        if found:
            return {"did": did, **{name: member for name, member in zip(names, found.groups()) if member}}
    raise ValueError(f"no line of a trace: {said}")


def of_moment(line: str) -> dict[str, object]:
    """The object of a line of a trace above its tree."""
    if line == CHECKPOINT:
        return {"did": "checkpoint"}
    first, who, said = line.split(" ", 2) if line.count(" ") > 1 else (*line.split(" "), "")
    thread, _, place = who.partition("#")
    if first == "thread":
        return {"thread": who, "did": "starts"}
    if first == "left":
        words = said if place else said.removeprefix("unbegun ")
        return {"thread": thread, "did": f"has not {'returned' if place else 'begun'}", "call": who, "words": words}
    if said == "has nothing left":
        return {"event": int(first), "thread": who, "did": said}
    told = of_deed(said)
    if "number" in told:
        told = {"did": told["did"], "number": int(str(told["number"])), "words": told["words"]}
    return {"event": int(first), "thread": thread, "did": told.pop("did"), "call": who, **told}


def of_trace(text: bytes) -> Iterator[dict[str, object]]:
    """The objects of a trace: one of each line, and one of its tree and its counts; of a run that was refused none."""
    if not text:
        return
    head, tree, end = text.decode().partition("tree\n")
    begun: dict[str, int] = {}
    for line in head.splitlines()[1:]:
        told = of_moment(line)
        thread = str(told.get("thread"))
        begun[thread] = begun.get(thread, 0) + (told["did"] in ("begins", "has not begun"))
        if told["did"] == "has not begun":
            told["call"] = f"{thread}#{begun[thread]}"
        yield told
    *nodes, counts = end.splitlines(keepends=True)
    numbers = dict(zip(counts.split()[::2], map(int, counts.split()[1::2])))
    yield {"did": "ends", "tree": tree + "".join(nodes), **numbers}


def of_entry(line: str) -> dict[str, object]:
    """The object of a line of the trace of a journal, up to its tree."""
    if found := re.fullmatch(r"left call (\d+) on seat (\d+) (.*)", line):
        number, seat, words = found.groups()
        return {"did": "has not returned", "number": int(number), "seat": int(seat), "words": words}
    place, number, seat, said = harness.match_in(r"\A(\d+) call (\d+) on seat (\d+) (.*)\Z", line).groups()
    did, _, rest = said.partition(" ")
    told = {"words": rest} if did == "begins" else of_deed(said)
    return {
        "entry": int(place),
        "did": did.removesuffix(","),
        "number": int(number),
        "seat": int(seat),
        **{name: member for name, member in told.items() if name != "did"},
    }


def of_journal(text: bytes) -> Iterator[dict[str, object]]:
    """The objects of the trace of a journal: one of each line, and one of its tree and its counts."""
    head, tree, end = text.decode("latin-1").partition("tree\n")
    yield from map(of_entry, head.splitlines()[1:])
    *nodes, counts = end.splitlines(keepends=True)
    numbers = dict(zip(counts.split()[::2], map(int, counts.split()[1::2])))
    yield {"did": "ends", "tree": tree + "".join(nodes), **numbers}


def cut_off(journal: bytes, number: int) -> bytes:
    """A journal up to some entry."""
    entries = journal.partition(b"tree\n")[0].splitlines(keepends=True)
    return b"".join(entries[: random.Random(number).randrange(1, len(entries) + 1)])


def of_find(outcome: Outcome) -> bytes:
    """The object of a search: the seed and the script; where no run has it, no seed."""
    if outcome.status:
        return objects({"seed": None})
    return objects({"seed": int(outcome.message.split()[-1]), "script": outcome.output.decode("latin-1")})


def rows_of(text: bytes) -> list[list[str]]:
    """The lines of `outcomes`, each with its tree behind it."""
    rows: list[list[str]] = []
    for line in text.decode().splitlines(keepends=True):
        if line.startswith(("tree\n", "dir ", "file ")):
            rows[-1][1] += line
        else:
            rows.append([line.removesuffix("\n"), ""])
    return rows


class Objects(Case):
    def ends_alike(self, given: bytes, words: Sequence[str], object_of: Callable[[Outcome], bytes]) -> None:
        """With `--json` a command ends as without, and writes the objects of what it writes in words."""
        plain, told = run(given, *words), run(given, *words, "--json")
        if not harness.compares:
            return
        wanted = plain._replace(output=object_of(plain)) if plain.status in (0, 1) else plain
        if words[0] == "outcomes" and "--add" not in words and plain.status in (0, 1):
            wanted = harness.without_seen(wanted)
        self.same(given.decode("latin-1"), told, wanted)
        for line in told.output.decode("ascii").splitlines():
            self.same("it is JSON", written(json.loads(line)), line)

    def each_script(self, look: Callable[[int], None]) -> None:
        self.each(((f"script_{number}", number) for number in range(SCRIPTS + LISTING)), look)

    def test_check(self) -> None:
        """Of journals that are lawful, and of those that lack an entry."""
        asks_of_answers()

        def look(number: int) -> None:
            draw, journal = random.Random(number), run(script_of(number), "run", "--seed", str(number)).output
            entries = journal.partition(b"tree\n")[0].splitlines(keepends=True)
            self.ends_alike(journal, ("check",), lambda plain: objects(of_check(plain)))
            left_out = draw.randrange(1, len(entries)) if len(entries) > 1 else 0
            self.ends_alike(
                b"".join(entries[:left_out] + entries[left_out + 1 :]),
                ("check",),
                lambda plain: objects(of_check(plain)),
            )

        self.each_script(look)

    def test_seeds(self) -> None:
        def look(number: int) -> None:
            seeds = "seeds", "--seed", str(number), "--runs", str(TIMES)
            self.ends_alike(
                script_of(number),
                seeds,
                lambda plain: objects(
                    *({"seed": number + place, "lawful": True} for place in range(len(plain.output.splitlines())))
                ),
            )

        self.each_script(look)

    def test_outcomes(self) -> None:
        def look(number: int) -> None:
            draw = random.Random(number)
            words = (
                "outcomes",
                "--seed",
                str(number),
                "--runs",
                str(TIMES),
                *(word for word in ("--all", "--trees") if draw.randrange(2)),
            )
            self.ends_alike(script_of(number), words, of_outcomes)

        self.each_script(look)

    def test_from_a_tree(self) -> None:
        """Of drawn runs from a tree: the verdicts, the ends, and what is asserted of them."""

        def look(number: int) -> None:
            given, start = script_of(number), ("--seed", str(number), "--runs", str(TIMES), "--from", MOVED)
            lawful = ({"seed": number + place, "lawful": True} for place in range(TIMES))
            self.ends_alike(given, ("seeds", *start), lambda plain: objects(*lawful))
            for words in (("--all",), ("--trees", "--never", "tree dir /a/b", "--always", "tree dir /a/b")):
                self.ends_alike(given, ("outcomes", *start, *words), of_outcomes)

        self.each(((f"script_{number}", number) for number in range(0, SCRIPTS + LISTING, 6)), look)

    # find and shrink
    def test_find_from_a_tree(self) -> None:
        """Of drawn runs from a tree."""

        def look(number: int, what: str) -> None:
            words = "find", "--where", what, "--seed", str(number), "--runs", str(TIMES), "--from", MOVED
            self.ends_alike(script_of(number), words, of_find)

        whats = "tree dir /a/b", "not tree dir /a/b"
        numbers = range(0, SCRIPTS + LISTING, 6)
        self.each(((f"script_{number}, {what}", number, what) for number in numbers for what in whats), look)

    def test_added_outcomes(self) -> None:
        """Of lines that are added up the digits stand for the trees."""
        asks_of_answers()

        def look(number: int) -> None:
            pieces = b"".join(
                run(script_of(number), "outcomes", "--seed", seed, "--runs", str(TIMES), "--all").output
                for seed in ("1", "100")
            )
            for words in ((), ("--all",)):
                self.ends_alike(
                    pieces,
                    ("outcomes", "--add", *words),
                    lambda plain: objects(*(of_row(line, "") for line in plain.output.decode().splitlines())),
                )

        self.each_script(look)

    def test_find(self) -> None:
        """The seed and the script; where no run has it, no seed."""

        def look(given: bytes, what: str) -> None:
            self.ends_alike(given, ("find", "--where", what, "--seed", "1", "--runs", "50"), of_find)

        scripts = [
            (f"script_{number}", script_of(number), f"{no}reply t0#1 failed")
            for number in range(SCRIPTS)
            for no in ("", "not ")
        ]
        self.each((*scripts, ("bytes", BYTES, "reply r#1 failed"), ("other bytes", BYTES, 'tree dir /"\\"')), look)

    def test_trace(self) -> None:
        """Of each worked script by each schedule, with every event and without; of drawn ones, of names that are escaped, and where calls are left."""

        def look(given: bytes, *words: str) -> None:
            self.ends_alike(given, ("trace", *words), lambda plain: objects(*of_trace(plain.output)))

        folders = DATA / "worked" / "runs", ROOT / "examples"
        given = [(path.name, path.read_bytes()) for folder in folders for path in sorted(folder.glob("*.script"))]
        given += [(f"script_{number}", script_of(number)) for number in range(SCRIPTS + LISTING)]
        given += [("bytes", BYTES), ("pieces", PIECES), ("left", LEFT), ("under_way", UNDER_WAY)]
        words = ((), ("--every",), ("--robin",), ("--seed", "7"), ("--every", "--seed", "8"))
        self.each(
            [(f"{name}_{'_'.join(more)}", text, *more) for name, text in given for more in words],
            look,
        )

    def test_example_of_the_page(self) -> None:
        """docs/PICTURES.md has two lines of a worked script."""
        page = (ROOT / "docs" / "PICTURES.md").read_text()
        shown = re.findall(r'^\{"event".*\}$', page, re.M)
        told = run((DATA / "worked" / "runs" / "helped_mkdir.script").read_bytes(), "trace", "--json")
        if harness.compares:
            lines = told.output.decode().splitlines()
            self.same("docs/PICTURES.md", (len(shown), [line for line in lines if line in shown]), (2, shown))

    def test_trace_of_a_journal(self) -> None:
        """Of each worked journal and of those of drawn runs; of a fault those before it, and a journal that is cut off has calls that did not return."""
        asks_of_answers()

        def look(given: bytes) -> None:
            self.ends_alike(given, ("trace",), lambda plain: objects(*of_journal(plain.output)))

        folders = DATA / "worked" / "journals", ROOT / "examples"
        rows = [(path.name, path.read_bytes()) for folder in folders for path in sorted(folder.glob("*.journal"))]
        for number in range(0, SCRIPTS + LISTING, 3):
            journal = run(script_of(number), "run", "--seed", str(number)).output
            rows += [(f"script_{number}", journal), (f"cut_{number}", cut_off(journal, number))]
        rows += [("wrong", WRONG), ("started", STARTED), ("bytes", run(BYTES, "run").output)]
        self.each(rows, look)

    def test_example_of_a_journal(self) -> None:
        """docs/PICTURES.md has two lines of a journal."""
        page = (ROOT / "docs" / "PICTURES.md").read_text()
        shown = re.findall(r'^\{"entry".*\}$', page, re.M)
        told = run((ROOT / "examples" / "wrong_reply.journal").read_bytes(), "trace", "--json").output.decode()
        if harness.compares:
            self.same(
                "docs/PICTURES.md", (len(shown), [line for line in shown if line not in told.splitlines()]), (2, [])
            )

    def test_faults(self) -> None:
        """What cannot be read is told as without, and no object is written."""
        rows = (
            ("a script is checked", BYTES, "check"),
            ("a journal", WRONG, "seeds", "--seed", "1", "--runs", "2"),
            ("a journal's outcomes", WRONG, "outcomes", "--seed", "1", "--runs", "2"),
            ("no lines", WRONG, "outcomes", "--add"),
            ("no tree", BYTES, "seeds", "--seed", "1", "--runs", "2", "--from", str(ROOT / "README.md")),
            ("no tree of ends", BYTES, "outcomes", "--seed", "1", "--runs", "2", "--from", str(ROOT / "README.md")),
            ("no file", BYTES, "outcomes", "--seed", "1", "--runs", "2", "--from", "/nowhere"),
            ("a journal is searched", WRONG, "find", "--where", "helped m#1", "--seed", "1", "--runs", "2"),
            ("no such call", BYTES, "find", "--where", "helped m#9", "--seed", "1", "--runs", "2"),
            ("no condition", BYTES, "find", "--where", "helped", "--seed", "1", "--runs", "2"),
        )
        self.each(
            ((name, given, words) for name, given, *words in rows),
            lambda given, words: self.ends_alike(given, words, lambda plain: plain.output),
        )

    def test_a_fault_of_a_journal(self) -> None:
        """The words of the fault stand in the object, and on standard error."""
        reason = "line 4: return 1 failed EEXIST; call 1 is mkdir /a on seat 0; due: ok"
        wanted = b'{"lawful":false,"place":3,"kind":"WrongReply","reason":"' + reason.encode() + b'"}\n'
        self.same(WRONG.decode(), run(WRONG, "check", "--json"), Outcome(1, wanted, f"atomfs: {reason}\n".encode()))


if __name__ == "__main__":
    unittest.main()
