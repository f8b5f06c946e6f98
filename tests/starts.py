"""Runs from a tree in a file: `atomfs run --from`, each schedule of it, and files that have none.

What a run from a tree writes is what a run writes that comes to the tree by calls and begins again there: tests/model.py says what that is.
tests/drawn_starts.py looks at drawn runs, but for those from a tree in which all numbers are in use.
"""
import os
import shlex
import tempfile
import typing
import unittest

import checkpoints
import harness
import model
from harness import DATA, Outcome, run, takes_a_process, with_line

SCRIPTS = 100
MOVED = DATA / "starts" / "moved"
NODE_LIMIT = 1_048_576
# The most bytes of a text by the first two sets of limits, and by the third.
TEXT_LIMIT, THIRD_TEXT_LIMIT = 16_777_216, 1_073_741_824
ONE_CALL = b"atomfs 1\nthread t\nmkdir /b\nschedule\nfinish\n"
LOOK = ONE_CALL.replace(b"mkdir /b", b"stat /")
ONE_RUN = "--seed", "1", "--runs", "1"
# The files that have trees. They stand as long as the program answers.
FOLDER = tempfile.TemporaryDirectory()


def of(ending: str) -> bytes:
    return MOVED.with_suffix(f".{ending}").read_bytes()


def in_file(name: str, text: bytes) -> str:
    """The path of a file with this text."""
    path = f"{FOLDER.name}/{name}"
    with open(path, "wb") as file:
        file.write(text)
    return path


# More entries than a directory has by the first two sets of limits.
CROWD = [f"file /{number:03} -" for number in range(300)]


def tree_of(*nodes: str) -> bytes:
    return checkpoints.text_of("tree", "dir /", *nodes)


def journal_of(version: int, *nodes: str) -> bytes:
    return checkpoints.text_of(f"atomfs-journal {version}", "start", "dir /", *nodes, "entries")


def played(pieces: typing.Sequence[typing.Sequence[str]], version: int = 1) -> bytes:
    """The text of the tree that the calls of some pieces make."""
    tree = model.Tree(version)
    for calls in pieces:
        for call in calls:
            tree.apply(call.split(" "))
    return checkpoints.text_of(*tree.text())


def many(nodes: int) -> bytes:
    """The text of a tree of so many nodes: no directory has more than 256 entries."""
    names = [f"{number:02x}" for number in range(256)]
    left, lines = nodes - 1, []
    for first in names:
        lines.append(f"dir /{first}")
        for second in names:
            if left <= len(lines):
                return tree_of(*lines[:left])
            lines.append(f"dir /{first}/{second}")
            lines += (f"dir /{first}/{second}/{third}" for third in names)
    return tree_of(*lines[:left])


class Asked(harness.Case):
    """What comes of a command whose runs start at a tree in a file."""

    def ends(self, words: typing.Sequence[str], given: bytes, wanted: Outcome) -> None:
        self.same(f"atomfs {shlex.join(words)}\n{given.decode()}", run(given, *words), wanted)

    def refused(self, words: typing.Sequence[str], text: bytes, given: bytes, told: str) -> None:
        assert self.row
        path = in_file("-".join(self.row.split()), text)
        wanted = Outcome(3, b"", f"atomfs: {path}: {told}\n".encode())
        self.ends((*words, "--from", path), given, with_line(wanted, text, is_tree=True))

    def unread(self, words: typing.Sequence[str]) -> None:
        """A file that is not there, a folder, and no name."""
        for path, why in (
            (f"{FOLDER.name}/missing", "no such file"),
            (FOLDER.name, "read failed"),
            ("", "no such file"),
        ):
            self.ends((*words, "--from", path), ONE_CALL, Outcome(5, b"", f"atomfs: {path}: {why}\n".encode()))


class Starts(Asked):
    def test_schedules(self) -> None:
        """From the tree alone, and from a journal that starts at it; the journal that is written starts there too."""
        tree, text, again = f"{MOVED}.tree", of("text"), f"{MOVED}.text"
        self.each(
            (
                ("given", ("run", "--from", tree), of("script"), Outcome(0, text)),
                ("given, behind an equals sign", ("run", f"--from={tree}"), of("script"), Outcome(0, text)),
                ("from a journal", ("run", "--from", again), of("script"), Outcome(0, text)),
                ("robin", ("run", "--robin", "--from", tree), of("script"), Outcome(0, of("robin.text"))),
                ("seed", ("run", "--from", tree, "--seed", "7"), of("script"), Outcome(0, of("drawn.text"))),
                ("lawful", ("check",), text, Outcome(0, b"lawful\n")),
                ("lawful by round robin", ("check",), of("robin.text"), Outcome(0, b"lawful\n")),
                ("lawful as it is drawn", ("check",), of("drawn.text"), Outcome(0, b"lawful\n")),
                (
                    "by the second version",
                    ("run", "--from", tree),
                    of("script").replace(b"atomfs 1", b"atomfs 2"),
                    Outcome(0, text.replace(b"journal 2", b"journal 3")),
                ),
                (
                    "calls are left",
                    ("run", "--from", tree),
                    b"atomfs 1\nthread t\nmkdir /b\nschedule\n",
                    Outcome(
                        1,
                        journal_of(2, *map(bytes.decode, of("tree").splitlines()[2:]))
                        + of("tree")
                        + b"begun 0 committed 0 returned 0\n",
                    ),
                ),
                (
                    "the root alone",
                    ("run", "--from", in_file("root", b"tree\ndir /")),
                    ONE_CALL,
                    run_of_one("atomfs-journal 1"),
                ),
                (
                    "a journal from the root",
                    ("run", "--from", in_file("rooted", b"atomfs-journal 1\nbegin 1 0 mkdir /c\n")),
                    ONE_CALL,
                    run_of_one("atomfs-journal 1"),
                ),
                (
                    "comments and empty lines",
                    ("run", "--from", in_file("told", b"tree\n# the root\n\ndir /\n\n# and\ndir /a\n")),
                    ONE_CALL,
                    run_of_one("atomfs-journal 2", "start", "dir /", "dir /a", "entries", nodes=("dir /a",)),
                ),
                (
                    "a call is under way",
                    ("run", "--from", tree),
                    b"atomfs 1\nthread t\nmkdir /b\nschedule\nt !checkpoint\n",
                    Outcome(1, b"", b"atomfs: call 1 is pending\n"),
                ),
            ),
            self.ends,
        )

    def test_third_limits(self) -> None:
        """From a directory of more names than a call answers."""
        calls = [
            "readdir /",
            "list / / 300",
            "list / /255 300",
            "mknod /x",
            "stat /",
            "exchange /000 /x",
            "unlink /000",
            "list / /000 1",
        ]
        tree, entries = model.Tree.of({(): None, **{(line[6:9].encode(),): b"" for line in CROWD}}, 3), []
        for number, call in enumerate(calls, 1):
            entries += [
                f"begin {number} 0 {call}",
                f"commit {number}",
                f"return {number} {tree.apply(call.split(' '))}",
            ]
        count = len(calls)
        wanted = journal_of(4, *CROWD) + checkpoints.text_of(
            *entries, *tree.text(), f"begun {count} committed {count} returned {count}"
        )
        given = checkpoints.text_of("atomfs 3", "thread t", *calls, "schedule", "finish")
        for name, text in (("a tree", tree_of(*CROWD)), ("a journal", journal_of(4, *CROWD))):
            self.ends(("run", "--from", in_file(f"crowd, {name}", text)), given, Outcome(0, wanted))
        self.ends(("check",), wanted, Outcome(0, b"lawful\n"))

    def test_behind_one_another(self) -> None:
        """A run from the tree that calls made is the run that makes these calls, and begins again behind them."""

        def look(number: int) -> None:
            pieces = checkpoints.drawn_pieces(number)
            wanted = Outcome(0, checkpoints.piece_text(pieces))
            tree = in_file(f"tree_{number}", played(pieces[:-1]))
            calls: list[list[str]] = [[], *(list[str]() for piece in pieces[1:-1]), pieces[-1]]
            given = checkpoints.in_pieces(calls, "finish").replace(b" !checkpoint", b"")
            self.ends(("run",), checkpoints.in_pieces(pieces), wanted)
            self.ends(("run", "--from", tree), given, wanted)
            self.ends(("run", "--from", in_file(f"journal_{number}", wanted.output)), given, wanted)

        self.each(((f"pieces_{number}", number) for number in range(SCRIPTS)), look)

    def test_files_without_a_tree(self) -> None:
        long, short = "dir /" + "n" * 33, "dir /" + "n" * 32
        large = "file /f " + "61" * 65_537
        second, third = (ONE_CALL.replace(b"atomfs 1", b"atomfs %d" % version) for version in (2, 3))
        rows = (
            ("another text", b"hello\n", ONE_CALL, "line 1: BadHeader"),
            ("nothing", b"", ONE_CALL, "line 1: BadHeader"),
            ("a script", ONE_CALL, ONE_CALL, "line 1: BadHeader"),
            ("no root", b"tree\ndir /a\n", ONE_CALL, "line 2: BadStart"),
            ("the line tree alone", b"tree\n", ONE_CALL, "line 2: BadStart"),
            ("a file in the place of the root", b"tree\nfile / -\n", ONE_CALL, "line 2: BadStart"),
            ("the root twice", tree_of("dir /"), ONE_CALL, "line 3: BadStart"),
            ("the word tree alone", b"tree", ONE_CALL, "line 2: BadStart"),
            ("entries in the place of the root", b"tree\nentries\n", ONE_CALL, "line 2: BadStart"),
            ("the line that ends the start tree of a journal", tree_of("entries"), ONE_CALL, "line 3: BadStart"),
            (
                "with entries",
                tree_of("dir /a", "entries", "begin 1 0 mkdir /b", "commit 7", "tree") + b"\xff \n",
                ONE_CALL,
                "line 4: BadStart",
            ),
            ("a fault before the entries", tree_of("# a", "dir b", "entries"), ONE_CALL, "line 4: BadStart"),
            ("out of order", tree_of("dir /b", "dir /a"), ONE_CALL, "line 4: BadStart"),
            ("twice", tree_of("dir /b", "dir /b"), ONE_CALL, "line 4: BadStart"),
            ("a file in no directory", tree_of("file /a/f 6869"), ONE_CALL, "line 3: BadStart"),
            (
                "a directory again behind its file",
                tree_of("dir /a", "file /a/f -", "dir /a"),
                ONE_CALL,
                "line 5: BadStart",
            ),
            (
                "a file behind the next directory",
                tree_of("dir /a", "dir /b", "file /a/f -"),
                ONE_CALL,
                "line 5: BadStart",
            ),
            ("in a file", tree_of("file /a -", "file /a/f -"), ONE_CALL, "line 4: BadStart"),
            ("below a file", tree_of("dir /a", "file /a/f -", "dir /a/f/x"), ONE_CALL, "line 5: BadStart"),
            ("in no directory", tree_of("dir /b/a"), ONE_CALL, "line 3: BadStart"),
            (
                "with the counts of a run",
                tree_of("dir /a") + b"begun 0 committed 0 returned 0\n",
                ONE_CALL,
                "line 4: BadStart",
            ),
            ("a name of 33 bytes", tree_of(short, long), ONE_CALL, "line 4: BadStart"),
            ("a name of 65 bytes", tree_of("dir /" + "n" * 65), second, "line 3: BadStart"),
            ("a file of 65,537 bytes", tree_of(large), ONE_CALL, "line 3: BadStart"),
            ("a file of 1,048,577 bytes", tree_of("file /f " + "61" * 1_048_577), second, "line 3: BadStart"),
            ("257 entries by the first limits", tree_of(*CROWD[:257]), ONE_CALL, "line 259: BadStart"),
            ("a journal of the other version", journal_of(3, "dir /a"), ONE_CALL, "line 1: BadHeader"),
            ("a journal of the first version", journal_of(2, "dir /a"), second, "line 1: BadHeader"),
            (
                "a name of 256 bytes by the third limits",
                tree_of("dir /" + "n" * 255, "dir /" + "n" * 256),
                third,
                "line 4: BadStart",
            ),
            ("257 entries", tree_of(*CROWD[:257]), second, "line 259: BadStart"),
            ("a journal of the third limits", journal_of(4, "dir /a"), second, "line 1: BadHeader"),
            ("a journal of the second limits", journal_of(3, "dir /a"), third, "line 1: BadHeader"),
            ("a journal without entries", b"atomfs-journal 2\nstart\ndir /\n", ONE_CALL, "line 4: BadStart"),
            (
                "a journal with a fault",
                journal_of(2, "dir /a") + b"begin 1 0 mkdir /c/\n",
                ONE_CALL,
                "line 6: BadPath TrailingSlash",
            ),
        )
        self.each(((name, ("run",), *rest) for name, *rest in rows), self.refused)
        self.each(((f"{name}, by round robin", ("run", "--robin"), *rest) for name, *rest in rows[:5]), self.refused)

    def at_limit(self, version: int, nodes: typing.Sequence[str], call: str, reply: str) -> None:
        """A tree goes in as it is, and a call finds it there."""
        assert self.row
        script = checkpoints.script("thread t", call, "schedule", "finish", version=version)
        entries = f"begin 1 0 {call}", "commit 1", f"return 1 {reply}"
        tree = checkpoints.text_of(*entries, "tree", "dir /", *nodes, "begun 1 committed 1 returned 1")
        wanted = Outcome(0, journal_of(version + 1, *nodes) + tree)
        self.ends(("run", "--from", in_file("-".join(self.row.split()), tree_of(*nodes))), script, wanted)

    def test_at_each_limit(self) -> None:
        """As many entries, as long a file, and more names on a branch than a path has."""
        rows = []
        for version, bytes_of_file, name in ((1, 65_536, 32), (2, 1_048_576, 64), (3, 1_048_577, 70)):
            branch = ["dir " + count * ("/" + name * "d") for count in range(1, 71)]
            rows += [
                (f"256 entries, version {version}", version, CROWD[:256], "stat /", "stat dir 256"),
                (
                    f"a file, version {version}",
                    version,
                    ["file /f " + bytes_of_file * "61"],
                    "stat /f",
                    f"stat file {bytes_of_file}",
                ),
                (f"a branch, version {version}", version, branch, "stat /", "stat dir 1"),
            ]
        self.each(rows, self.at_limit)

    def test_verdicts(self) -> None:
        """A journal is checked from the tree at which it starts."""
        rows = (
            ("a directory that is there", "mkdir /a", "failed EEXIST", b"lawful\n"),
            ("a directory that is made again", "mkdir /a", "ok", b"fault 3 WrongReply\n"),
            ("a directory that goes", "rmdir /a", "ok", b"lawful\n"),
        )
        self.each(((name, *rest) for name, *rest in rows), self.checked)

    def checked(self, call: str, reply: str, wanted: bytes) -> None:
        given = journal_of(2, "dir /a") + checkpoints.text_of(f"begin 1 0 {call}", "commit 1", f"return 1 {reply}")
        came = run(given, "check")
        if harness.compares:
            self.same(given, (came.status, came.output), (int(wanted != b"lawful\n"), wanted))

    def test_fault_of_the_script_first(self) -> None:
        path, given = in_file("no tree", b"hello\n"), b"atomfs 1\nthread t\nmkdir /a/\nschedule\n"
        wanted = with_line(Outcome(3, b"", b"atomfs: line 3: BadPath TrailingSlash\n"), given)
        self.ends(("run", "--from", path), given, wanted)

    def test_files_that_cannot_be_read(self) -> None:
        self.unread(("run",))

    def test_limits(self) -> None:
        """As many nodes as there are numbers, one more, and texts that are too long."""
        takes_a_process()
        full = in_file("full", many(NODE_LIMIT))
        self.ends(("run", "--from", full), ONE_CALL, Outcome(4, b"", b"atomfs: full\n"))
        self.same("stat /", run(LOOK, "run", "--from", full).status, 0)
        self.drawn_from_full(full)
        self.same(
            "by the third limits", run(ONE_CALL.replace(b"atomfs 1", b"atomfs 3"), "run", "--from", full).status, 0
        )
        self.row = "a node too many"
        self.refused(("run",), many(NODE_LIMIT + 1), ONE_CALL, f"line {NODE_LIMIT + 2}: TooLarge")
        journal = (
            many(NODE_LIMIT + 1).replace(b"tree\n", b"atomfs-journal 2\n# behind its version\nstart\n") + b"entries\n"
        )
        self.row = "a node too many in a journal"
        self.refused(("run",), journal, ONE_CALL, f"line {NODE_LIMIT + 4}: TooLarge")
        self.row = "a byte too many"
        self.refused(("run",), b"tree\n".ljust(TEXT_LIMIT + 1, b"#"), ONE_CALL, "line 1: TooLarge")
        self.row = "a byte too many in a journal"
        self.refused(("run",), b"atomfs-journal 2\n".ljust(TEXT_LIMIT + 1, b"#"), ONE_CALL, "line 1: TooLarge")

    def drawn_from_full(self, full: str) -> None:
        """Drawn runs from there end as that by a script's own schedule does."""
        for words in (("seeds",), ("outcomes",), ("outcomes", "--never", "helped t#1")):
            self.ends((*words, *ONE_RUN, "--from", full), ONE_CALL, Outcome(4, b"", b"atomfs: full\n"))
        self.ends(("seeds", *ONE_RUN, "--from", full), LOOK, Outcome(0, b"seed 1 lawful\n"))
        # find and shrink
        for words in (("find", *ONE_RUN), ("shrink",)):
            asked = *words, "--where", "helped t#1", "--from", full
            self.ends(asked, ONE_CALL, Outcome(4, b"", b"atomfs: full\n"))

    def test_third_texts(self) -> None:
        """A tree of more nodes, and texts that would be too long by the others; and one that is too long."""
        takes_a_process()
        second, third = (ONE_CALL.replace(b"atomfs 1", b"atomfs %d" % version) for version in (2, 3))
        self.same("a node more", run(third, "run", "--from", in_file("more", many(NODE_LIMIT + 1))).status, 0)
        for name, head in (("a tree", tree_of("dir /a")), ("a journal", journal_of(4, "dir /a"))):
            long = in_file(f"long, {name}", head.ljust(TEXT_LIMIT + 1, b"#"))
            self.same(
                name, run(third, "run", "--from", long), run(third, "run", "--from", in_file(f"short, {name}", head))
            )
        self.row = "a tree by the second limits"
        self.refused(("run",), tree_of("dir /a").ljust(TEXT_LIMIT + 1, b"#"), second, "line 1: TooLarge")
        for head in (tree_of("dir /a"), journal_of(4, "dir /a")):
            path = in_file("too long", head + b"#")
            os.truncate(path, THIRD_TEXT_LIMIT + 1)
            wanted = Outcome(3, b"", f"atomfs: {path}: line 1: TooLarge\n".encode())
            self.ends(("run", "--from", path), third, with_line(wanted, head, is_tree=True))


def run_of_one(*head: str, nodes: typing.Sequence[str] = ()) -> Outcome:
    """The outcome of the script of one call."""
    return Outcome(
        0,
        checkpoints.text_of(
            *head,
            "begin 1 0 mkdir /b",
            "commit 1",
            "return 1 ok",
            "tree",
            "dir /",
            *nodes,
            "dir /b",
            "begun 1 committed 1 returned 1",
        ),
    )


if __name__ == "__main__":
    unittest.main()
