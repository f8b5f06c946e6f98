"""Histories of other trees: `atomfs linearize --as TREE`, by tables of the errors that they return.

A table is read here once more, and each history is widened by it: what the program says with the table is what it says, without one, of the history
with these open replies. Whether that has an order is known from every order, by tests/histories.py.
"""
import itertools
import os
import random
import tempfile
import typing
import unittest

import documents
import harness
import model
from harness import Case, Outcome, run, takes_a_process
from histories import BEGUN, ERRORS, HEADER, STARTS, Entry, Start, call, has_order, history, line_of, returned, text_of

DRAWN = 300
# A row of a table: a call, what this tree replies, and what the other one does; and one such error.
Row = tuple[str, str, list[str]]
Differs = tuple[str, str, str]
CALLS = "mkdir", "mknod", "unlink", "rmdir", "rename", "exchange", "stat", "readdir", "read", "write", "truncate"
# The files that have tables. They are there as long as the program answers.
FOLDER = tempfile.TemporaryDirectory()
TABLE = "atomfs-dialect 1"
# The tables of known trees: what this tree replies, and what they do.
MISSING = "mkdir", "mknod", "unlink", "rmdir", "stat", "readdir", "read", "write", "truncate"


def missing(*calls: str) -> list[Row]:
    """Rows of trees that do not say that a file is on the way."""
    return [(call, "ENOTDIR", ["ENOENT"]) for call in calls]


KNOWN: dict[str, list[Row]] = {
    "posix": [
        ("unlink", "EPERM", ["EBUSY"]),
        ("rmdir", "ENOTEMPTY", ["EEXIST"]),
        ("rmdir", "EBUSY", ["ENOTEMPTY", "EEXIST"]),
        ("rename", "ENOTEMPTY", ["EEXIST"]),
        ("rename", "EISDIR", ["ENOTEMPTY", "EEXIST"]),
        ("rename", "EBUSY", ["EINVAL", "ENOENT", "ENOTDIR"]),
        ("rename", "EINVAL", ["ENOENT", "ENOTDIR"]),
    ],
    "linux": [
        ("unlink", "EPERM", ["EISDIR"]),
        ("rename", "EISDIR", ["ENOTEMPTY"]),
        ("rename", "EBUSY", ["ENOENT", "ENOTDIR"]),
        ("rename", "EINVAL", ["ENOENT", "ENOTDIR"]),
        ("exchange", "EBUSY", ["ENOENT", "ENOTDIR"]),
        ("exchange", "EINVAL", ["ENOENT", "ENOTDIR"]),
    ],
    "afero": [
        *missing("rename", *MISSING[2:]),
        ("rename", "EBUSY", ["ENOENT"]),
        ("rename", "EINVAL", ["ENOENT"]),
    ],
    "jimfs": [
        *missing("rename", *MISSING[:-1]),
        ("rename", "EISDIR", ["ENOTEMPTY"]),
        ("rename", "EBUSY", ["ENOENT"]),
        ("rename", "EINVAL", ["ENOENT"]),
    ],
    "pyfilesystem": [
        *missing(*MISSING),
        ("mknod", "EEXIST", ["EISDIR"]),
        ("unlink", "EPERM", ["EISDIR", "ENOENT"]),
    ],
    "fsspec": [
        *missing("rename", *MISSING[2:6]),
        *((call, "ENOTDIR", ["EEXIST"]) for call in ("mknod", "read", "write", "truncate")),
        ("unlink", "EPERM", ["ENOENT"]),
        ("rename", "EBUSY", ["ENOENT"]),
        ("rename", "EINVAL", ["ENOENT"]),
    ],
}
# A tree, and calls that fail there: by the name and the error, the words of the first.
START = "atomfs-journal 4", "start", "dir /", "dir /a", "file /a/b 07", "dir /b", "file /f 07", "entries"


def failing() -> dict[tuple[str, str], str]:
    """Calls with their errors on this tree."""
    found: dict[tuple[str, str], str] = {}
    paths = ("/", "/a", "/b", "/f", "/a/b", "/none", "/f/none", "/a/none")
    for name in CALLS:
        more = {"read": ("0 1",), "write": ("0 07",), "truncate": ("0",)}.get(name, ("",))
        for path, last in itertools.product(paths, paths if name in ("rename", "exchange") else more):
            words = f"{name} {path} {last}".split()
            tree, _ = model.started(list(START))
            reply = tree.apply(words)
            if reply.startswith("failed "):
                found.setdefault((name, reply.removeprefix("failed ")), " ".join(words))
    return found


FAILING = failing()

# Each error, and how many histories of one thread are drawn, in so many texts.
ALL_ERRORS = *ERRORS, "ENOSPC", "EFBIG", "EOVERFLOW"
LEARNED, TEXTS = 2_000, 20


def each_of(rows: typing.Iterable[Row]) -> set[Differs]:
    return {(call, ours, error) for call, ours, theirs in rows for error in theirs}


def in_file(name: str, text: bytes) -> str:
    """The path of a file with this text."""
    path = os.path.join(FOLDER.name, name)
    with open(path, "wb") as file:
        file.write(text)
    return path


def drawn_table(draw: random.Random) -> list[Row]:
    """Rows of some calls: what this tree replies, and one error or more that another one does."""
    about = [(call, ours) for call in CALLS for ours in ERRORS]
    rows = []
    for call, ours in draw.sample(about, draw.randint(1, 12)):
        others = [error for error in ERRORS if error != ours]
        rows.append((call, ours, draw.sample(others, draw.choice((1, 1, 1, 2)))))
    return rows


def table_text(rows: typing.Iterable[Row]) -> bytes:
    return text_of(
        (TABLE, "# CALL OURS THEIRS", "", *(f"{call} {ours} {'|'.join(theirs)}" for call, ours, theirs in rows))
    )


def widened(rows: typing.Sequence[Row], entries: typing.Sequence[Entry]) -> list[Entry]:
    """Entries, each return with the errors of the rows of its call."""
    names = {entry[1]: entry[3][0] for entry in entries if entry[0] == "begin"}

    def ours_for(name: str, error: str) -> list[str]:
        return [ours for call, ours, theirs in rows if call == name and error in theirs]

    def wide(entry: Entry) -> Entry:
        kind, number, told, *_ = entry
        if kind == "begin" or not told.startswith("failed ") or told == "failed ?" or number not in names:
            return entry
        errors = []
        for error in told.removeprefix("failed ").split("|"):
            errors += [error, *ours_for(names[number], error)]
        return kind, number, "failed " + "|".join(errors)

    return [wide(entry) for entry in entries]


def as_theirs(draw: random.Random, rows: typing.Sequence[Row], entries: typing.Sequence[Entry]) -> list[Entry]:
    """Entries as another tree would return them: an error of this tree is now and then one of theirs."""
    names = {entry[1]: entry[3][0] for entry in entries if entry[0] == "begin"}

    def theirs(entry: Entry) -> Entry:
        if entry[0] == "begin":
            return entry
        kind, number, told = entry
        found = [errors for call, ours, errors in rows if call == names[number] and told == f"failed {ours}"]
        return (kind, number, f"failed {draw.choice(found[0])}") if found and draw.randrange(4) else entry

    return [theirs(entry) for entry in entries]


class Widened(Case):
    def answers(
        self,
        words: typing.Sequence[str],
        start: Start,
        rows: typing.Sequence[Row],
        entries: typing.Sequence[Entry],
        file: str,
    ) -> Outcome:
        """What is said with a table, and of the widened history without one: line for line the same, but for the replies that messages quote."""
        given = text_of((*start, *map(line_of, entries)))
        wide = text_of((*start, *map(line_of, widened(rows, entries))))
        came, wanted = run(given, "linearize", *words, "--as", file), run(wide, "linearize", *words)
        self.same((words, rows, given), came[:2], wanted[:2])
        self.same((words, rows, given), len(came.message.splitlines()), len(wanted.message.splitlines()))
        return came

    def look(self, seed: int) -> None:
        draw = random.Random(f"dialect {seed}")
        rows = drawn_table(draw)
        file = in_file(f"drawn_{seed}", table_text(rows))
        start, entries = history(draw)
        entries = as_theirs(draw, rows, entries)
        ways: tuple[tuple[str, ...], ...] = ((), (), ("--front",), ("--core",), ("--many",))
        words = draw.choice(ways)
        came = self.answers(words, start, rows, entries, file)
        if not words:
            self.same(rows, came.status, 0 if has_order(start, wide := widened(rows, entries), wide) else 1)

    def test_drawn(self) -> None:
        harness.asks_of_answers()
        self.each(((f"drawn {seed}", seed) for seed in range(DRAWN)), self.look)


def alone(draw: random.Random, rows: list[Row]) -> tuple[Start, list[Entry], list[Differs]]:
    """What one thread of another tree recorded: the lines before the entries and these, and the rows by which the trees differ.

    That tree replies errors of a table. Now and then a reply is open, or the last call is pending.
    """
    entries: list[Entry] = []
    differ: list[Differs] = []
    start = draw.choice(STARTS)
    tree, last = model.started(list(start))[0], draw.randint(1, 8)
    theirs = {(name, ours): errors for name, ours, errors in rows}
    for number in range(1, last + 1):
        words = call(draw)
        reply = tree.apply(words)
        ours = reply.removeprefix("failed ")
        entries.append(("begin", number, draw.randrange(3), words))
        known = theirs.get((words[0], ours))
        if number == last and not draw.randrange(4):
            break
        if known and draw.randrange(4):
            told = draw.sample(known, draw.randint(1, len(known)))
            differ += [(words[0], ours, error) for error in told]
            entries.append(("return", number, "failed " + "|".join(told)))
        else:
            entries.append(("return", number, returned(draw, reply)))
    return start, entries, differ


def learned(rows: list[Differs]) -> bytes:
    """The table of rows: each once, in the order of the calls and the errors, with how often it was seen."""
    lines = [TABLE]
    for name, ours in itertools.product(CALLS, ALL_ERRORS):
        seen = [error for error in ALL_ERRORS if (name, ours, error) in rows]
        if seen:
            counts = "".join(f" {error} {rows.count((name, ours, error))}" for error in seen)
            lines += [f"# times:{counts}", f"{name} {ours} {'|'.join(seen)}"]
    return text_of(lines)


class Learned(Case):
    """`--learn` proposes the rows that explain what one thread recorded."""

    def came(self, *lines: str) -> Outcome:
        return run(text_of((HEADER, *lines)), "linearize", "--learn")

    def look(self, seed: int) -> None:
        """Many histories in one text: the rows of all, by which each of them has an order."""
        draw = random.Random(f"learned {seed}")
        differ: list[Differs] = []
        rows, text = drawn_table(draw), b""
        for _ in range(LEARNED // TEXTS):
            start, entries, more = alone(draw, rows)
            differ += more
            text += text_of((*start, *map(line_of, entries)))
        came = run(text, "linearize", "--learn", *draw.choice(((), ("--many",))))
        self.same(text, came, Outcome(0, learned(differ)))
        file = in_file(f"learned_{seed}", came.output)
        told = run(text, "linearize", "--many", "--as", file).output.splitlines()[-1]
        self.same(text, told, b"lawful %d none 0 fault 0 unknown 0" % (LEARNED // TEXTS))

    def test_drawn(self) -> None:
        """What is proposed of 2,000 histories is what they differ by, and --as accepts them by it."""
        harness.asks_of_answers()
        self.each(((f"learned {seed}", seed) for seed in range(TEXTS)), self.look)

    def test_rows(self) -> None:
        wanted = learned(
            [("unlink", "EPERM", "EISDIR")] * 2 + [("unlink", "EPERM", "EBUSY"), ("mkdir", "EEXIST", "ENOSPC")]
        )
        first = "begin 1 0 mkdir /a", "return 1 ok", "begin 2 1 unlink /a", "return 2 failed EISDIR"
        second = "begin 3 0 mkdir /a", "return 3 failed ENOSPC", "begin 4 0 unlink /a", "return 4 failed EISDIR|EBUSY"
        open_ones = (
            "begin 5 0 rmdir /b",
            "return 5 failed ?",
            "begin 6 0 stat /a",
            "return 6 stat dir ?",
            "begin 7 0 stat /",
            "return 7 ?",
        )
        self.same("a table", self.came(*first, *second, *open_ones, "begin 8 0 rmdir /a"), Outcome(0, wanted))
        self.same("nothing", self.came(), Outcome(0, text_of((TABLE,))))
        self.same("no difference", self.came(*first[:2]), Outcome(0, text_of((TABLE,))))

    def test_page(self) -> None:
        """The example of docs/COMMANDS.md, and what it says that this writes."""
        command, table = documents.blocks(documents.COMMANDS)[-2:]
        text = harness.match_in(r"\Aprintf '(.*)' \| atomfs linearize --learn\n\Z", command)[1].replace("\\n", "\n")
        self.same(command, run(text.encode(), "linearize", "--learn"), Outcome(0, table.encode()))

    def test_unexplained(self) -> None:
        """Where one of two calls succeeds, or both do otherwise, learning ends: the line is said, and what was learned before it stays."""
        row = "begin 1 0 unlink /", "return 1 failed EISDIR"
        table = learned([("unlink", "EPERM", "EISDIR")])
        behind = "begin 3 0 rmdir /b", "return 3 failed ENOTDIR"
        for call, told, ours in (
            ("rmdir /a", "ok", "failed ENOENT"),
            ("mkdir /a", "failed EEXIST", "ok"),
            ("stat /", "stat dir 1", "stat dir 0"),
            ("readdir /", "stat dir 0", "names"),
            ("mkdir /a", "failed ?", "ok"),
            ("mkdir /a", "failed EEXIST|ENOENT", "ok"),
            ("mkdir /a", "stat dir ?", "ok"),
        ):
            message = f"atomfs: line 5: return 2 {told}; call 2 is {call} on seat 0\natomfs: no row explains it: this tree replies {ours}\n"
            came = self.came(*row, f"begin 2 0 {call}", f"return 2 {told}", *behind)
            self.same(call, came, Outcome(1, table, message.encode()))

    def test_others_go_on(self) -> None:
        """What is not explained of one history keeps nothing of another one from being learned."""
        one = HEADER, "begin 1 0 rmdir /a", "return 1 ok"
        other = HEADER, "begin 1 0 unlink /", "return 1 failed EISDIR"
        came = run(text_of(one * 23 + other), "linearize", "--learn", "--many")
        lines = came.message.splitlines()
        self.same("a table", came[:2], (1, learned([("unlink", "EPERM", "EISDIR")])))
        self.same("the messages", (len(lines), lines[-1]), (41, b"atomfs: and 3 more"))

    def test_refused(self) -> None:
        """Calls that overlap are refused with the line, and nothing is written; entries that are no history are named."""
        pending = "another call is pending: --learn reads histories of one thread each"
        none = "the entries up to there are no history"
        first = "begin 1 0 unlink /", "return 1 failed EISDIR"
        rows = (
            ("begin 3 1 stat /", "call 3 is stat / on seat 1", 2, pending),
            ("begin 2 1 stat /", "call 2 is stat / on seat 0", 1, none),
            ("begin 3 0 stat /", "call 3 is stat / on seat 0", 1, none),
            ("return 1 ok", "call 1 is unlink / on seat 0", 1, none),
            ("return 4 ok", "no call 4 has begun", 1, none),
        )
        for line, words, status, why in rows:
            came = self.came(*first, "begin 2 0 stat /", line)
            message = f"atomfs: line 5: {line}; {words}\natomfs: {why}\n".encode()
            self.same(line, came, Outcome(status, b"" if status == 2 else text_of((TABLE,)), message))
        both = text_of((HEADER, *first, HEADER, "begin 1 0 stat /", "begin 2 1 stat /"))
        self.same("one of two", run(both, "linearize", "--learn")[:2], (2, b""))
        self.same("no histories", run(b"", "linearize", "--learn"), Outcome(0, text_of((TABLE,))))
        self.same(
            "a bad line",
            run(text_of((HEADER, *first, HEADER, "x")), "linearize", "--learn").message.splitlines()[0],
            b"atomfs: line 5: BadLine",
        )


class Tables(Case):
    def refused(self, lines: tuple[str, ...] | bytes, number: int, why: str) -> None:
        file = in_file("refused", text_of(lines) if isinstance(lines, tuple) else lines)
        given = text_of((*BEGUN, "return 1 ok"))
        wanted = Outcome(3, b"", f"atomfs: {file}: line {number}: {why}\n".encode())
        self.same(lines, run(given, "linearize", "--as", file), wanted)

    def test_refused(self) -> None:
        """A text that is no table is refused by its first line that is no row, or says another thing than a row before it."""
        takes_a_process()
        row = "a row is CALL OURS THEIRS, as `rename ENOTEMPTY EEXIST`"
        header = "the first line of a table is `atomfs-dialect 1`"
        again = "an earlier row has this call and what this tree replies"
        self.each(
            (
                ("nothing", (), 1, header),
                ("another header", ("atomfs-dialect 2", "unlink EPERM EISDIR"), 1, header),
                ("a row in its place", ("unlink EPERM EISDIR",), 1, header),
                ("no word", (TABLE, " "), 2, row),
                ("two words", (TABLE, "unlink EPERM"), 2, row),
                ("four words", (TABLE, "unlink EPERM EISDIR EBUSY"), 2, row),
                ("a space behind it", (TABLE, "unlink EPERM EISDIR "), 2, row),
                ("no call", (TABLE, "# rows", "", "remove EPERM EISDIR"), 4, row),
                ("no error of this tree", (TABLE, "unlink EIO EISDIR"), 2, row),
                ("no error of the other", (TABLE, "unlink EPERM EIO"), 2, row),
                ("a question mark", (TABLE, "unlink EPERM ?"), 2, row),
                ("a bar at the end", (TABLE, "unlink EPERM EISDIR|"), 2, row),
                ("bars of this tree", (TABLE, "unlink EPERM|EBUSY EISDIR"), 2, row),
                ("one error", (TABLE, "unlink EPERM EPERM"), 2, "a row is of two different errors"),
                ("one error among others", (TABLE, "unlink EPERM EISDIR|EPERM"), 2, "a row is of two different errors"),
                ("the same again", (TABLE, "unlink EPERM EISDIR", "unlink EPERM EISDIR"), 3, again),
                ("another one", (TABLE, "unlink EPERM EISDIR", "rmdir EBUSY EPERM", "unlink EPERM EBUSY"), 4, again),
            ),
            self.refused,
        )

    def test_missing(self) -> None:
        takes_a_process()
        came = run(text_of(BEGUN), "linearize", "--as", f"{FOLDER.name}/none")
        self.assertEqual(came, Outcome(5, b"", f"atomfs: {FOLDER.name}/none: no such file\n".encode()))

    def test_known(self) -> None:
        """Each known tree has its rows, and no others: by each call that fails here, returned with each other error."""
        takes_a_process()
        told = [(call, ours, theirs) for call, ours in FAILING for theirs in ERRORS if theirs != ours]
        given = text_of(
            line
            for call, ours, theirs in told
            for line in (*START, f"begin 1 0 {FAILING[call, ours]}", f"return 1 failed {theirs}")
        )
        for name, rows in KNOWN.items():
            with self.subTest(name):
                came = run(given, "linearize", "--many", "--as", name)
                lawful = [line.startswith(b"lawful") for line in came.output.splitlines()[:-1]]
                self.assertEqual(
                    [one for one, is_lawful in zip(told, lawful, strict=True) if is_lawful],
                    [(call, ours, theirs) for call, ours, theirs in told if (call, ours, theirs) in each_of(rows)],
                )


class Failing(Case):
    """`--many` says which histories fail, and `--failing` writes them."""

    def test_words(self) -> None:
        lawful, none = text_of((*BEGUN, "return 1 ok")), text_of((*BEGUN, "return 2 stat dir 1", "return 1 ok"))
        busy = text_of((*BEGUN, "begin 3 1 stat /"))
        wanted = (
            b"atomfs: history 2, line 8: return 2 stat dir 1; call 2 is stat /a on seat 1\n"
            b"atomfs: history 3, line 13: begin 3 1 stat /; call 3 is stat / on seat 1\n"
        )
        given = lawful + none + busy
        self.same(
            given,
            run(given, "linearize", "--many"),
            Outcome(1, b"lawful 2\nnone 3 2\nfault 3 SeatBusy\nlawful 1 none 1 fault 1 unknown 0\n", wanted),
        )
        came = run(none * 23, "linearize", "--many")
        lines = came.message.splitlines()
        self.same("23 of them", (len(lines), lines[-1]), (21, b"atomfs: and 3 more"))

    def test_written(self) -> None:
        """Each is in a file of its own, and is refused as it was."""
        takes_a_process()
        lawful, none = text_of((*BEGUN, "return 1 ok")), text_of((*BEGUN, "return 2 stat dir 1", "return 1 ok"))
        with tempfile.TemporaryDirectory(prefix="atomfs-") as folder:
            into = os.path.join(folder, "some", "where")
            came = run(lawful + none + lawful + none, "linearize", "--failing", into)
            self.assertEqual(came[:2], run(lawful + none + lawful + none, "linearize", "--many")[:2])
            self.assertEqual(sorted(os.listdir(into)), ["2.history", "4.history"])
            for name in os.listdir(into):
                with open(os.path.join(into, name), "rb") as file:
                    self.assertEqual(file.read(), none)
            empty = os.path.join(folder, "empty")
            self.assertEqual(run(lawful, "linearize", "--many", "--failing", empty).status, 0)
            self.assertEqual(os.listdir(empty), [])

    def test_unwritten(self) -> None:
        """A place that cannot be written is said at once, before anything is read."""
        takes_a_process()
        for words in (("--core",), ("--front",)):
            self.assertEqual(run(b"", "linearize", "--failing", "x", *words).status, 2)
        file = in_file("file", b"")
        came = run(text_of(BEGUN), "linearize", "--failing", file)
        self.assertEqual(came, Outcome(5, b"", f"atomfs: {file}: cannot be written\n".encode()))


if __name__ == "__main__":
    unittest.main()
