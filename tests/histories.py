"""Histories through `atomfs linearize`, beside every order of their commits by tests/model.py.

Of drawn histories of two to six calls, some from a start tree, some with calls that never return or replies that are left open, half with a changed reply,
each answer is what all orders say: a journal that is lawful by `atomfs check` and is the history without its commits, or the first return up to
which there is no order, while there is one up to the entry before it; the replies that the call could have had there are those that some order
gives it; and the entry that is named beside it is the first up to which there is none with the replies that are recorded later. Journals of runs come back lawful without their commits.
"""
import copy
import random
import re
import resource
import typing
import unittest

import drawn
import harness
import model
from harness import Outcome, run, with_line

HISTORIES = 1_000
RUNS = 20
MAKING = (
    "mkdir",
    "mkdir",
    "mknod",
    "mknod",
    "unlink",
    "rmdir",
    "truncate",
    "write",
    "rename",
    "rename",
    "exchange",
    "stat",
    "stat",
    "readdir",
    "read",
)
PATHS = "/a", "/b", "/a/a", "/a/b", "/b/a"
# The lines before the entries; a begin with its number, seat and words, or a return with its number and reply; the tree and the replies behind entries.
Start = tuple[str, ...]
Entry = tuple[typing.Any, ...]
Explained = tuple[model.Tree, dict[int, str]]
STARTS: tuple[Start, ...] = (
    ("atomfs-journal 1",),
    ("atomfs-journal 2", "start", "dir /", "dir /a", "file /a/b 07", "entries"),
    ("atomfs-journal 3", "start", "dir /", "dir /a", "dir /b", "entries"),
)
# Of journals of the fourth version, which are drawn by themselves.
LISTING = *MAKING, "list", "list", "list", "list"
AFTER = "/", "/", "/a", "/b", "/x/a"
THIRD_STARTS: tuple[Start, ...] = (
    ("atomfs-journal 4", "start", "dir /", "entries"),
    ("atomfs-journal 4", "start", "dir /", "dir /a", "file /a/b 07", "dir /b", "entries"),
)
THIRD_HISTORIES = 300
ERRORS = "ENOENT", "ENOTDIR", "EEXIST", "ENOTEMPTY", "EISDIR", "EINVAL", "EBUSY", "EPERM"
CHANGED = (
    "ok",
    "failed ENOENT",
    "failed EEXIST",
    "stat dir 0",
    "stat dir 1",
    "names a",
    "bytes 07",
    "failed EEXIST|ENOTDIR",
)


def text_of(lines: typing.Iterable[str]) -> bytes:
    return "".join(f"{line}\n" for line in lines).encode()


def call(draw: random.Random, making: typing.Sequence[str] = MAKING) -> list[str]:
    """The words of a drawn call."""
    kind, path = draw.choice(making), draw.choice(PATHS)
    match kind:
        case "list":
            return [kind, draw.choice(("/", "/a", path)), draw.choice(AFTER), str(draw.randrange(4))]
        case "rename" | "exchange":
            return [kind, path, draw.choice(PATHS)]
        case "write":
            return [kind, path, str(draw.randrange(2)), draw.choice(("-", "07", "0808"))]
        case "read":
            return [kind, path, "0", "4"]
        case "truncate":
            return [kind, path, str(draw.randrange(3))]
        case _:
            return [kind, path]


def returned(draw: random.Random, reply: str) -> str:
    """A reply as it is told: some are left open."""
    if draw.randrange(6):
        return reply
    if not draw.randrange(5):
        return "?"
    if reply.startswith("failed "):
        return draw.choice(("failed ?", f"failed {'|'.join(one_of(draw, reply.removeprefix('failed ')))}"))
    return "stat dir ?" if reply.startswith("stat dir ") else reply


def one_of(draw: random.Random, error: str) -> list[str]:
    """Two to four errors, of which this is one."""
    errors = [error, *draw.sample([other for other in ERRORS if other != error], draw.randint(1, 3))]
    return draw.sample(errors, len(errors))


def history(
    draw: random.Random, starts: typing.Sequence[Start] = STARTS, making: typing.Sequence[str] = MAKING
) -> tuple[Start, list[Entry]]:
    """The lines before the entries, and the entries: calls on two to four seats, whose replies come from a hidden order."""
    start = draw.choice(starts)
    entries: list[Entry] = []
    calls: dict[int, list[str]] = {}
    replies: dict[int, str] = {}
    under_way: dict[int, int] = {}
    tree, seats, count = model.started(list(start))[0], draw.randint(2, 4), draw.randint(2, 6)
    while len(calls) < count or under_way and draw.randrange(30):
        seat = draw.randrange(seats)
        if seat not in under_way and len(calls) < count:
            number = len(calls) + 1
            calls[number], under_way[seat] = call(draw, making), number
            entries.append(("begin", number, seat, calls[number]))
        elif seat in under_way and under_way[seat] not in replies:
            replies[under_way[seat]] = tree.apply(calls[under_way[seat]])
        elif seat in under_way and draw.randrange(2):
            number = under_way.pop(seat)
            entries.append(("return", number, returned(draw, replies[number])))
    ends = [place for place, entry in enumerate(entries) if entry[0] == "return"]
    if ends and draw.randrange(2):
        place = draw.choice(ends)
        entries[place] = ("return", entries[place][1], draw.choice(CHANGED))
    return start, entries


def line_of(entry: Entry) -> str:
    if entry[0] == "begin":
        return f"begin {entry[1]} {entry[2]} {' '.join(entry[3])}"
    return f"return {entry[1]} {entry[2]}"


def fits(told: str, reply: str) -> bool:
    """Whether a reply is the one of which this is told."""
    if told.startswith("failed ") and "|" in told:
        return reply.removeprefix("failed ") in told.removeprefix("failed ").split("|")
    return (
        told in (reply, "?")
        or told == "failed ?"
        and reply.startswith("failed ")
        or told == "stat dir ?"
        and reply.startswith("stat dir ")
    )


def orders(start: Start, entries: typing.Sequence[Entry], whole: typing.Sequence[Entry]) -> typing.Iterator[Explained]:
    """The tree and the replies behind entries, by each order of commits that explains them and gives calls the replies that the whole history records of them."""
    told = {entry[1]: entry[2] for entry in whole if entry[0] == "return"}
    calls = {entry[1]: entry[3] for entry in entries if entry[0] == "begin"}

    def goes_on(
        place: int, tree: model.Tree, under_way: frozenset[int], replies: dict[int, str]
    ) -> typing.Iterator[Explained]:
        if place == len(entries):
            yield tree, replies
        else:
            kind, number, *_ = entries[place]
            if kind == "begin":
                yield from goes_on(place + 1, tree, under_way | {number}, replies)
            elif number in replies:
                yield from goes_on(place + 1, tree, under_way - {number}, replies)
        for other in under_way - replies.keys():
            later = copy.deepcopy(tree)
            reply = later.apply(calls[other])
            if other not in told or fits(told[other], reply):
                yield from goes_on(place, later, under_way, {**replies, other: reply})

    return goes_on(0, model.started(list(start))[0], frozenset(), {})


def has_order(start: Start, entries: typing.Sequence[Entry], whole: typing.Sequence[Entry]) -> bool:
    """Whether some order of commits explains entries: every order is tried."""
    return any(True for _ in orders(start, entries, whole))


def first_without(
    start: Start,
    entries: typing.Sequence[Entry],
    whole: typing.Callable[[typing.Sequence[Entry]], typing.Sequence[Entry]],
) -> int:
    """The first place, counted from 1, up to which no order explains entries; `whole` says which replies of those up to there count."""
    return next(
        place for place in range(1, len(entries) + 1) if not has_order(start, entries[:place], whole(entries[:place]))
    )


def could_reply(start: Start, before: typing.Sequence[Entry], number: int) -> set[str]:
    """What the call of a number can reply behind entries, in each order that explains them."""
    words = next(entry[3] for entry in before if entry[:2] == ("begin", number))
    return {replies.get(number) or copy.deepcopy(tree).apply(words) for tree, replies in orders(start, before, before)}


def named(start: Start, entries: typing.Sequence[Entry], place: int) -> str:
    """The entry of a place, as a message names it."""
    _, number, *_ = entries[place - 1]
    _, _, seat, words = next(entry for entry in entries if entry[:2] == ("begin", number))
    return (
        f"line {len(start) + place}: {line_of(entries[place - 1])}; call {number} is {' '.join(words)} on seat {seat}"
    )


COULD = "the call could have replied: "
LATER = "with the replies of later lines nothing explains "


def without_commits(text: bytes) -> bytes:
    return b"".join(line for line in text.splitlines(keepends=True) if not line.startswith(b"commit "))


def refused(text: typing.Sequence[str], line: bytes, status: int = 1, message: bytes = b"") -> tuple[bytes, Outcome]:
    return text_of(text), Outcome(status, line, message)


def unexplained(text: typing.Sequence[str], place: int, line: int, call: str, *told: str) -> tuple[bytes, Outcome]:
    """No order explains the return in a line, of which the call is told, and what it could have replied."""
    number = text[line - 1].split(" ")[1]
    lines = f"line {line}: {text[line - 1]}; call {number} is {call}", *told
    return refused(
        text, f"none {place} {number}\n".encode(), 1, "".join(f"atomfs: {said}\n" for said in lines).encode()
    )


def could(*replies: str) -> str:
    """What is told of the replies that a call could have had."""
    return COULD + ", ".join(replies)


HEADER = "atomfs-journal 1"
# What standard error says where a search made as many configurations as it may.
LIMIT = b"atomfs: the limit was reached: give a larger one with --limit N\n"
BEGUN = HEADER, "begin 1 0 mkdir /a", "begin 2 1 stat /a"
ROWS = {
    "an empty history": refused((HEADER,), b"atomfs-journal 1\n", 0),
    "a stat before the mkdir": refused(
        (*BEGUN, "return 2 failed ENOENT", "return 1 ok"),
        text_of((*BEGUN, "commit 2", "return 2 failed ENOENT", "commit 1", "return 1 ok")),
        0,
    ),
    "a stat behind it": refused(
        (*BEGUN, "return 2 stat dir 0", "return 1 ok"),
        text_of((*BEGUN, "commit 1", "commit 2", "return 2 stat dir 0", "return 1 ok")),
        0,
    ),
    "a size that is left open": refused(
        (*BEGUN, "return 2 stat dir ?", "return 1 ok"),
        text_of((*BEGUN, "commit 1", "commit 2", "return 2 stat dir 0", "return 1 ok")),
        0,
    ),
    "an error that is left open": refused(
        (*BEGUN, "return 1 ok", "return 2 failed ?"),
        text_of((*BEGUN, "commit 2", "commit 1", "return 1 ok", "return 2 failed ENOENT")),
        0,
    ),
    "one of two errors": refused(
        (*BEGUN, "return 1 ok", "return 2 failed ENOTDIR|ENOENT"),
        text_of((*BEGUN, "commit 2", "commit 1", "return 1 ok", "return 2 failed ENOENT")),
        0,
    ),
    "any reply": refused(
        (*BEGUN, "return 1 ok", "return 2 ?"),
        text_of((*BEGUN, "commit 2", "commit 1", "return 1 ok", "return 2 failed ENOENT")),
        0,
    ),
    "one of two errors that nothing explains": unexplained(
        (*BEGUN, "return 1 failed ENOENT|EEXIST", "return 2 ?"), 3, 4, "mkdir /a on seat 0", could("ok")
    ),
    "one error before a bar": refused((*BEGUN, "return 2 failed ENOENT|"), b"", 3, b"atomfs: line 4: BadReply\n"),
    "two bars": refused((*BEGUN, "return 2 failed ENOENT||EEXIST"), b"", 3, b"atomfs: line 4: BadReply\n"),
    "an error that is none": refused((*BEGUN, "return 2 failed ENOENT|EIO"), b"", 3, b"atomfs: line 4: BadReply\n"),
    "a question mark among errors": refused(
        (*BEGUN, "return 2 failed ENOENT|?"), b"", 3, b"atomfs: line 4: BadReply\n"
    ),
    "any reply of a call that is none": refused((*BEGUN, "return x ?"), b"", 3, b"atomfs: line 4: BadNumber\n"),
    "a reply that nothing explains": unexplained(
        (*BEGUN, "return 2 stat dir 1", "return 1 ok"),
        3,
        4,
        "stat /a on seat 1",
        could("failed ENOENT", "stat dir 0"),
    ),
    "a later reply does not count": unexplained(
        (*BEGUN, "return 2 stat dir 0", "return 1 failed EEXIST"),
        4,
        5,
        "mkdir /a on seat 0",
        could("ok"),
        f"{LATER}line 4: return 2 stat dir 0; call 2 is stat /a on seat 1",
    ),
    "two creates that both fail": unexplained(
        (HEADER, "begin 1 0 mkdir /b", "begin 2 1 mkdir /b", "return 1 failed EEXIST", "return 2 failed EEXIST"),
        4,
        5,
        "mkdir /b on seat 1",
        could("ok"),
        f"{LATER}line 4: return 1 failed EEXIST; call 1 is mkdir /b on seat 0",
    ),
    "its own reply does not count": unexplained(
        (HEADER, "begin 1 0 stat /a", "begin 2 1 mkdir /a", "return 2 ok", "return 1 ok"),
        4,
        5,
        "stat /a on seat 0",
        could("failed ENOENT", "stat dir 0"),
    ),
    "the first of two returns": unexplained(
        (*BEGUN, "return 1 failed EEXIST", "return 2 stat dir 0"), 3, 4, "mkdir /a on seat 0", could("ok")
    ),
    "an open reply that nothing explains": unexplained(
        (HEADER, "begin 7 0 rmdir /", "", "# none", "return 7 failed ?", "begin 8 0 stat /", "return 8 failed ?"),
        4,
        7,
        "stat / on seat 0",
        could("stat dir 0"),
    ),
    "three replies": unexplained(
        (*BEGUN, "begin 3 2 mkdir /a/b", "return 2 stat dir 7"),
        4,
        5,
        "stat /a on seat 1",
        could("failed ENOENT", "stat dir 0", "stat dir 1"),
    ),
    "calls that do not meet it make no replies": unexplained(
        (*BEGUN, "begin 3 2 mkdir /b", "return 2 stat dir 1"),
        4,
        5,
        "stat /a on seat 1",
        could("failed ENOENT", "stat dir 0"),
    ),
    "a reply that is cut": unexplained(
        (
            "atomfs-journal 2",
            "start",
            "dir /",
            f"file /f {'07' * 200}",
            "entries",
            "begin 1 0 read /f 0 200",
            "return 1 ok",
        ),
        2,
        7,
        "read /f 0 200 on seat 0",
        could(f"bytes {'07' * 117}.."),
    ),
    "a call that is cut": refused(
        (HEADER, f"begin 1 0 write /a 0 {'00' * 200}", f"return 1 names {'x' * 30} {'y' * 30}"),
        b"none 2 1\n",
        1,
        f"atomfs: line 3: return 1 names {'x' * 30} {'y' * 30}; call 1 is write /a 0 {'0' * 229}.. on seat 0\natomfs: {could('failed ENOENT')}\n".encode(),
    ),
    "a number twice": refused(
        (*BEGUN, "begin 1 2 stat /"),
        b"fault 3 BeginTwice\n",
        1,
        b"atomfs: line 4: begin 1 2 stat /; call 1 is mkdir /a on seat 0\n",
    ),
    "a busy seat": refused(
        (*BEGUN, "begin 3 1 stat /"),
        b"fault 3 SeatBusy\n",
        1,
        b"atomfs: line 4: begin 3 1 stat /; call 3 is stat / on seat 1\n",
    ),
    "a return without a begin": refused(
        (HEADER, "return 7 ok"), b"fault 1 ReturnUnbegun\n", 1, b"atomfs: line 2: return 7 ok; no call 7 has begun\n"
    ),
    "a return twice": refused(
        (*BEGUN, "return 2 failed ?", "return 2 failed ?"),
        b"fault 4 ReturnTwice\n",
        1,
        b"atomfs: line 5: return 2 failed ?; call 2 is stat /a on seat 1\n",
    ),
    "a commit": refused((*BEGUN, "commit 1", "return 1 ok"), b"", 3, b"atomfs: line 4: BadLine\n"),
    "a size of a file that is left open": refused(
        (*BEGUN, "return 2 stat file ?"), b"", 3, b"atomfs: line 4: BadNumber\n"
    ),
    "up to the tree": refused(
        (*BEGUN, "return 2 failed ENOENT", "tree", "return 2 failed ?"),
        text_of((*BEGUN, "commit 2", "return 2 failed ENOENT")),
        0,
    ),
}


class Histories(harness.Case):
    def answered(self, given: bytes, wanted: Outcome) -> None:
        self.same(given, run(given, "linearize"), with_line(wanted, given))

    def test_rows(self) -> None:
        self.each(((name, *row) for name, row in ROWS.items()), self.answered)

    def fronts(self, given: bytes, wanted: bytes, last: bytes) -> None:
        """The front of a history, whose last entry is the first that `check` refuses."""
        self.same(given, run(given, "linearize", "--front")[:2], (1, wanted))
        place = sum(line.split(b" ")[0] in (b"begin", b"commit", b"return") for line in wanted.splitlines())
        self.same(wanted, run(wanted, "check"), Outcome(1, f"fault {place} ReturnUncommitted\n".encode(), last))

    def test_front(self) -> None:
        """With `none` the journal up to that return; what is lawful or a fault is written as ever."""
        self.each(
            (
                (
                    "an exact reply",
                    text_of((*BEGUN, "return 2 stat dir 1", "return 1 ok")),
                    text_of((*BEGUN, "return 2 stat dir 1")),
                    b"atomfs: line 4: return 2 stat dir 1; call 2 is stat /a on seat 1; it has not committed\n",
                ),
                (
                    "an error that is left open",
                    text_of((HEADER, "begin 1 0 stat /", "return 1 failed ?")),
                    text_of((HEADER, "begin 1 0 stat /", "return 1 failed ENOENT")),
                    b"atomfs: line 3: return 1 failed ENOENT; call 1 is stat / on seat 0; it has not committed\n",
                ),
                (
                    "one of two errors",
                    text_of((*BEGUN, "return 1 failed EBUSY|EPERM")),
                    text_of((*BEGUN, "return 1 failed EBUSY")),
                    b"atomfs: line 4: return 1 failed EBUSY; call 1 is mkdir /a on seat 0; it has not committed\n",
                ),
                (
                    "a size that is left open",
                    text_of((*BEGUN, "return 1 stat dir ?")),
                    text_of((*BEGUN, "return 1 stat dir 0")),
                    b"atomfs: line 4: return 1 stat dir 0; call 1 is mkdir /a on seat 0; it has not committed\n",
                ),
                (
                    "behind others, from a start tree",
                    text_of(
                        (
                            "atomfs-journal 2",
                            "start",
                            "dir /",
                            "dir /b",
                            "entries",
                            "begin 1 0 rmdir /b",
                            "begin 2 1 mkdir /b",
                            "return 2 ok",
                            "begin 3 1 stat /b",
                            "return 3 stat file 0",
                            "return 1 ok",
                        )
                    ),
                    text_of(
                        (
                            "atomfs-journal 2",
                            "start",
                            "dir /",
                            "dir /b",
                            "entries",
                            "begin 1 0 rmdir /b",
                            "begin 2 1 mkdir /b",
                            "commit 1",
                            "commit 2",
                            "return 2 ok",
                            "begin 3 1 stat /b",
                            "return 3 stat file 0",
                        )
                    ),
                    b"atomfs: line 12: return 3 stat file 0; call 3 is stat /b on seat 1; it has not committed\n",
                ),
            ),
            self.fronts,
        )
        for name in ("a stat behind it", "a number twice", "a commit"):
            given, wanted = ROWS[name]
            self.same(given, run(given, "linearize", "--front"), with_line(wanted, given))

    def many(self, histories: typing.Sequence[bytes], wanted: Outcome, words: typing.Sequence[str] = ()) -> None:
        """Histories one after the other, of which each begins with its header line."""
        given = b"".join(histories)
        self.same(given, run(given, "linearize", "--many", *words), with_line(wanted, given))

    def test_many(self) -> None:
        lawful, none, fault = (
            ROWS[name][0] for name in ("a size that is left open", "a reply that nothing explains", "a busy seat")
        )
        started = text_of(
            (
                "atomfs-journal 3",
                "start",
                "dir /",
                "entries",
                "begin 1 0 stat /",
                "return 1 stat dir 0",
                "tree",
                "no line of a journal",
            )
        )
        self.each(
            (
                ("none", (), Outcome(0, b"lawful 0 none 0 fault 0 unknown 0\n")),
                ("one", (lawful,), Outcome(0, b"lawful 2\nlawful 1 none 0 fault 0 unknown 0\n")),
                (
                    "lawful ones",
                    (started, lawful, started),
                    Outcome(0, b"lawful 1\nlawful 2\nlawful 1\nlawful 3 none 0 fault 0 unknown 0\n"),
                ),
                (
                    "one that nothing explains",
                    (lawful, none, started),
                    Outcome(
                        1,
                        b"lawful 2\nnone 3 2\nlawful 1\nlawful 2 none 1 fault 0 unknown 0\n",
                        b"atomfs: history 2, line 9: return 2 stat dir 1; call 2 is stat /a on seat 1\n",
                    ),
                ),
                (
                    "one with a fault",
                    (lawful, b"# one more\n", fault),
                    Outcome(
                        1,
                        b"lawful 2\nfault 3 SeatBusy\nlawful 1 none 0 fault 1 unknown 0\n",
                        b"atomfs: history 2, line 10: begin 3 1 stat /; call 3 is stat / on seat 1\n",
                    ),
                ),
                (
                    "one that is not known",
                    (started, none),
                    Outcome(4, b"lawful 1\nunknown 3\nlawful 1 none 0 fault 0 unknown 1\n", LIMIT),
                    ("--limit", "3"),
                ),
                (
                    "one that is not known, and a fault",
                    (none, fault),
                    Outcome(
                        1,
                        b"unknown 3\nfault 3 SeatBusy\nlawful 0 none 0 fault 1 unknown 1\n",
                        b"atomfs: history 2, line 9: begin 3 1 stat /; call 3 is stat / on seat 1\n" + LIMIT,
                    ),
                    ("--limit", "2"),
                ),
                (
                    "a fault of the text",
                    (lawful, lawful, text_of((*BEGUN, "commit 1"))),
                    Outcome(3, b"", b"atomfs: line 14: BadLine\n"),
                ),
                (
                    "what comes before a header",
                    (b"# histories\n", lawful),
                    Outcome(3, b"", b"atomfs: line 1: BadHeader\n"),
                ),
                ("no version", (lawful, b"atomfs-journal 5\n"), Outcome(3, b"", b"atomfs: line 6: BadLine\n")),
            ),
            self.many,
        )

    def test_limit(self) -> None:
        """At one configuration nothing is known, and standard error says how to go on."""
        given = text_of((*BEGUN, "return 2 stat dir 1"))
        self.same(given, run(given, "linearize", "--limit", "1"), Outcome(4, b"unknown 2\n", LIMIT))

    def drawn_front(self, given: bytes, more: tuple[str, ...]) -> None:
        front = run(given, "linearize", "--front", *more)
        is_journal = front.output.startswith(b"atomfs-journal")
        # What a page says of a history: whether an order explains it, and what standard error says after its first line.
        _, *replies = front.message.removesuffix(b"\n").split(b"\n")
        said = [b"history none", *(b"reply " + reply.removeprefix(b"atomfs: ") for reply in replies)]
        notes = b"".join(b"# %s\n" % note for note in (said if front.status else [b"history lawful"]))
        for option, words in (("--draw", ("draw",)), ("--html", ("draw", "--html"))):
            drawn = run(front.output, *words).output if is_journal else b""
            if option == "--html":
                drawn = re.sub(rb"(?=^# (?:lawful|fault))", lambda _: notes, drawn, count=1, flags=re.M)
            told = front.message if is_journal else b"atomfs: " + front.output + front.message
            self.same(given, run(given, "linearize", option, *more), Outcome(front.status, drawn, told))

    def test_drawn_front(self) -> None:
        """`--draw` and `--html` draw what `--front` writes, and a page says what the return at fault could have replied. Of a fault, and of what is not
        known, nothing is drawn."""
        harness.asks_of_answers()
        none = text_of((*BEGUN, "return 2 stat dir 1"))
        self.each(
            (
                ("lawful", text_of((*BEGUN, "return 2 stat dir 0", "return 1 ok")), ()),
                ("no order", none, ()),
                (
                    "read by a table",
                    text_of((HEADER, "begin 1 0 unlink /", "return 1 failed EISDIR")),
                    ("--as", "linux"),
                ),
                ("a fault", text_of((*BEGUN, "begin 3 1 stat /")), ()),
                ("not known", none, ("--limit", "1")),
            ),
            self.drawn_front,
        )
        self.same("no history", run(b"x\n", "linearize", "--draw"), run(b"x\n", "linearize"))

    def test_meeting(self) -> None:
        """What meets neither the call that returns nor one that meets it is not tried: each such call would double the configurations."""
        given = text_of(
            (
                HEADER,
                *(f"begin {at} {at} mkdir /{name}" for at, name in enumerate("abcdefghijkl")),
                "begin 20 20 stat /z",
                "return 20 stat dir 0",
            )
        )
        self.same(given, run(given, "linearize", "--limit", "100")[:2], (1, b"none 14 20\n"))

    def explained(self, given: bytes, came: Outcome) -> None:
        """A lawful journal, which is the history once its commits are taken out; of what is left open nothing is compared."""
        self.same(given, (came.status, came.message), (0, b""))
        self.same(came.output, run(came.output, "check"), Outcome(0, b"lawful\n"))
        for told, line in zip(
            given.decode().splitlines(), without_commits(came.output).decode().splitlines(), strict=True
        ):
            if told.startswith("return "):
                _, number, told_reply = told.split(" ", 2)
                self.same(given, (line.split(" ")[1], fits(told_reply, line.split(" ", 2)[2])), (number, True))
            else:
                self.same(given, line, told)

    def by_every_order(self, start: Start, entries: typing.Sequence[Entry]) -> None:
        given = text_of((*start, *map(line_of, entries)))
        came = run(given, "linearize")
        if has_order(start, entries, entries):
            self.explained(given, came)
            return
        first = first_without(start, entries, lambda front: front)
        held = first_without(start, entries, lambda front: entries)
        number = entries[first - 1][1]
        self.same(given, (came.status, came.output), (1, f"none {first} {number}\n".encode()))
        entry, replies, *later = (line.removeprefix("atomfs: ") for line in came.message.decode().splitlines())
        self.same(given, entry, named(start, entries, first))
        told = replies.removeprefix(COULD).split(", ")
        self.same(given, (set(told), len(told)), (of := could_reply(start, entries[: first - 1], number), len(of)))
        self.same(given, later, [LATER + named(start, entries, held)] if held < first else [])

    def test_more_replies(self) -> None:
        """Of more than ten replies ten are named, and two points say that there are more."""
        given = text_of(
            (
                HEADER,
                *(f"begin {at} {at} mkdir /{name}" for at, name in enumerate("abcd")),
                "begin 9 9 readdir /",
                "return 9 ok",
            )
        )
        of = {
            "names" + "".join(f" {name}" for at, name in enumerate("abcd") if chosen >> at & 1) for chosen in range(16)
        }
        came = run(given, "linearize")
        *told, rest = came.message.decode().splitlines()[1].removeprefix(f"atomfs: {COULD}").split(", ")
        self.same(given, came[:2], (1, b"none 6 9\n"))
        self.same(given, (rest, len(told), len({*told} & of)), ("..", 10, 10))

    def test_every_order(self) -> None:
        harness.asks_of_answers()
        self.each(((f"drawn {seed}", *history(random.Random(seed))) for seed in range(HISTORIES)), self.by_every_order)

    def test_every_order_of_lists(self) -> None:
        """Of the third limits, with calls that list a directory in pieces."""
        harness.asks_of_answers()
        drawn_ones = (
            (f"drawn {seed}", history(random.Random(f"third {seed}"), THIRD_STARTS, LISTING))
            for seed in range(THIRD_HISTORIES)
        )
        self.each(((name, *one) for name, one in drawn_ones), self.by_every_order)

    def comes_back(self, script: bytes) -> None:
        """The journal of a run, without its commits."""
        journal, tree, _ = run(script, "run", "--robin").output.partition(b"tree\n")
        self.explained(without_commits(journal), run(without_commits(journal) + tree, "linearize"))

    def test_runs(self) -> None:
        harness.asks_of_answers()
        rows = [
            (f"drawn {seed}", drawn.script(drawn.moving(random.Random(seed)), version=2).encode())
            for seed in range(RUNS)
        ]
        rows += [
            (f"listing {seed}", drawn.script(drawn.listing(random.Random(seed)), version=3).encode())
            for seed in range(RUNS // 2)
        ]
        self.each(rows, self.comes_back)

    @staticmethod
    def page() -> tuple[str, bytes, bytes]:
        """docs/TEST-A-FILE-SYSTEM.md, and the two histories that it shows: one without an order, and one that has an order."""
        page = (harness.ROOT / "docs" / "TEST-A-FILE-SYSTEM.md").read_text()
        first, second = re.findall(r"^printf '(.*)' \| atomfs linearize$", page, re.M)
        one, other = (shown.replace("\\n", "\n").encode() for shown in (first, second))
        return page, one, other

    def test_page(self) -> None:
        """The second history of the page is explained."""
        harness.asks_of_answers()
        _, _, given = self.page()
        self.explained(given, run(given, "linearize"))

    def test_page_without_order(self) -> None:
        """Of the first one the page says what is printed, and what the call could have replied."""
        page, given, _ = self.page()
        (due,) = re.findall(r"^It prints `(.*)`: nothing explains", page, re.M)
        (reply,) = re.findall(r"`(the call could have replied: .*?)`", page)
        came = run(given, "linearize")
        self.same("docs/TEST-A-FILE-SYSTEM.md", came[:2], (1, f"{due}\n".encode()))
        self.same("what the page says of its replies", reply.encode() in came.message or not harness.compares, True)


class Long(harness.Case):
    """The time of a process: it grows as a text does."""

    def setUp(self) -> None:
        harness.takes_a_process()

    def seconds(self, replies: int) -> float:
        """The processor time that a text of so many open replies takes, of which the first is refused."""
        given = text_of((HEADER, *(f"return {number} failed ?" for number in range(replies, 0, -1))))
        before = resource.getrusage(resource.RUSAGE_CHILDREN)
        self.same(
            f"{replies} open replies",
            run(given, "linearize"),
            Outcome(
                1,
                b"fault 1 ReturnUnbegun\n",
                f"atomfs: line 2: return {replies} failed ?; no call {replies} has begun\n".encode(),
            ),
        )
        after = resource.getrusage(resource.RUSAGE_CHILDREN)
        return after.ru_utime + after.ru_stime - before.ru_utime - before.ru_stime

    def test_open_replies(self) -> None:
        few = max(self.seconds(20_000) for _ in range(3))
        self.assertLess(self.seconds(100_000), 10 * few + 0.1)

    def judged_seconds(self, replies: typing.Iterable[str], status: int) -> float:
        """The processor time that a history of lookups takes, one after another, with these replies."""
        calls = ((f"begin {number} 0 stat /a", f"return {number} {reply}") for number, reply in enumerate(replies, 1))
        given = text_of((HEADER, *(line for call in calls for line in call)))
        before = resource.getrusage(resource.RUSAGE_CHILDREN)
        self.same("the status", run(given, "linearize").status, status)
        after = resource.getrusage(resource.RUSAGE_CHILDREN)
        return after.ru_utime + after.ru_stime - before.ru_utime - before.ru_stime

    def test_open_errors(self) -> None:
        """Calls that fail with an error that is not recorded: what each was is found without a look back at all of them."""
        few = max(self.judged_seconds(["failed ?"] * 2_000, 0) for _ in range(3))
        self.assertLess(self.judged_seconds(["failed ?"] * 20_000, 0), 25 * few + 0.5)

    def test_wrong_reply(self) -> None:
        """The last reply is wrong, and what could have been replied is found without a look back from each call."""
        few = max(self.judged_seconds([*["failed ENOENT"] * 4_000, "stat dir 0"], 1) for _ in range(3))
        self.assertLess(self.judged_seconds([*["failed ENOENT"] * 40_000, "stat dir 0"], 1), 25 * few + 0.5)


if __name__ == "__main__":
    unittest.main()
