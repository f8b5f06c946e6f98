"""What the program and the library read of a text: the rows of tests/data/texts, and 24,000 drawn texts.

A row is a text, what is asked of it, and the answer. `|LINE` adds a line to the text, `*COUNT LINE` so many, with the number of each for #, and
`+COUNT BYTES` so many copies of bytes without a line feed. Asked are
    script              the fault, or the calls with their seats and the words of the schedule
    counts              how many threads, calls and words there are
    seat NAME           the seat of a thread
    journal             the fault, or the lines that are its entries
    verdict             the line of the verdict
and in `paths`, where the text is made from a word,
    path WORD           the fault of the word in a call, or the path as it is written
    long COUNT WORD     the same behind so many times /n
    name WORD           the fault of the word in a reply, or the name as it is written
The program has to give each of these answers, and so has tests/grammar.py. The library is compared with the grammar, at rows and at drawn texts.
"""
import os
import random
import re
import typing
import unittest

import grammar
import model
import harness
from harness import DATA, Case, Outcome, atomfs, library, run, with_line
from worked import RUNS, examples

# A text, what is asked of it, and the lines of the answer.
Question = tuple[bytes, str, list[str]]
# The kind of an entry's fault, and what the entry disagrees with; or none.
Wrong = tuple[str, str] | None
# How a text is drawn.
Drawing = typing.Callable[[random.Random], bytes]
# How often each worked journal is changed.
DRAWN_EACH = 12
READERS: dict[str, typing.Callable[[bytes], typing.Any]] = {"script": grammar.Script, "journal": grammar.journal}
COMMANDS = {
    "script": (
        ("run",),
        ("run", "--robin"),
        ("run", "--seed", "7"),
        ("seeds", "--seed", "7", "--runs", "1"),
        ("threads",),
    ),
    "journal": (("check",),),
}
# What can come of a text.
PATH_FAULTS = [
    f"BadPath {fault}" for fault in ("NotAbsolute", "Nul", "TooManyNames", "NameTooLong", "Dot", "TrailingSlash")
]
KINDS = {
    "script": [
        "BadHeader",
        "BadLine",
        "BadThread",
        "ThreadTwice",
        *PATH_FAULTS,
        "BadNumber",
        "BadHex",
        "NoSchedule",
        "BadWord",
        "TooLarge",
    ],
    "journal": ["BadHeader", "BadLine", *PATH_FAULTS, "BadNumber", "BadHex", "BadReply"],
    "verdict": [
        "lawful",
        "BeginTwice",
        "SeatBusy",
        "CommitUnbegun",
        "CommitTwice",
        "ReturnUncommitted",
        "ReturnTwice",
        "WrongReply",
    ],
}


def text_of(*lines: str) -> bytes:
    return "".join(f"{line}\n" for line in lines).encode()


def repeated(line: str) -> bytes:
    """So many copies of what stands in a line of a row."""
    count, _, copied = line[1:].partition(" ")
    if line.startswith("+"):
        return copied.encode() * int(count)
    return text_of(*(copied.replace("#", str(place)) for place in range(int(count))))


def of_word(word: str, answer: list[str]) -> Question:
    """The row of a word in a call."""
    answer = [f"line 3: {answer[0]}"] if answer[0].startswith("Bad") else [f"0 stat {answer[0]}", "finish"]
    return text_of("atomfs 1", "thread t", f"stat {word}", "schedule", "finish"), "script", answer


def of_long_word(count: str, word: str, answer: list[str]) -> Question:
    """The row of so many times /n and a word, in a call."""
    word = "/n" * int(count) + word
    return of_word(word, [word] if answer == ["as it stands"] else answer)


def of_name(word: str, answer: list[str]) -> Question:
    """The row of a word in a reply: in that of a directory with an entry of this name."""
    if answer[0].startswith("Bad"):
        return text_of("atomfs-journal 1", f"return 1 names {word}"), "journal", [f"line 2: {answer[0]}"]
    made = f"begin 1 0 mknod /{answer[0]}", "commit 1", "return 1 ok"
    return (
        text_of("atomfs-journal 1", *made, "begin 2 0 readdir /", "commit 2", f"return 2 names {word}"),
        "verdict",
        ["lawful"],
    )


def row(text: bytes, ask: str, answer: list[str]) -> Question:
    """A row, with its text where that is made from a word."""
    kind, _, word = ask.partition(" ")
    match kind:
        case "path":
            return of_word(word, answer)
        case "long":
            count, _, word = word.partition(" ")
            return of_long_word(count, word, answer)
        case "name":
            return of_name(word, answer)
    return text, ask, answer


def asked(file: str) -> list[tuple[str, bytes, str, list[str]]]:
    """What is asked in a file: of each its name, the text so far, the question, and the lines of the answer."""
    questions: list[tuple[str, bytes, str, list[str]]] = []
    text = b""
    for line in (DATA / "texts" / file).read_text().split("\n"):
        match line[:1]:
            case "":
                text = b""
            case "#":
                title, before = line[2:].rstrip("."), len(questions)
            case "|":
                text += text_of(line[1:])
            case "*" | "+":
                text += repeated(line)
            case " ":
                questions[-1][-1].append(line.strip())
            case _:
                ask, _, answer = line.partition(" -> ")
                questions.append((f"{title} {len(questions) - before + 1}", text, ask, [answer] if answer else []))
    return questions


def rows(file: str) -> list[tuple[str, bytes, str, list[str]]]:
    return [(name, *row(text, ask, answer)) for name, text, ask, answer in asked(file)]


def attempted(kind: str, text: bytes) -> typing.Any:
    """What a text says as a script or a journal by the grammar, or the fault."""
    try:
        return READERS[kind](text)
    except grammar.Fault as fault:
        return fault


def told(kind: str, text: bytes) -> typing.Any:
    """What the library answers to a script or a journal: a text, or a status and a line."""
    return harness.told({"script": library().run, "journal": library().check}[kind], text)


def status_of(fault: grammar.Fault) -> tuple[object, int | None]:
    """The status and the line by which the library tells a fault."""
    name = re.sub("(?<=[a-z])(?=[A-Z])", "_", fault.kind.split(" ")[0])
    return atomfs.Status[name.upper()], fault.line


def outcome_of(fault: object, text: bytes) -> Outcome:
    """The outcome by which the program tells a fault of a text, whose line it shows."""
    return with_line(Outcome(3, b"", f"atomfs: {fault}\n".encode()), text)


def written(text: bytes) -> bytes:
    """The journal again: what stands before its entries, and these in canonical form."""
    _, behind = grammar.start(text)
    return b"".join(line + b"\n" for line in text.split(b"\n")[:behind]) + text_of(*grammar.journal(text))


class History:
    """The entries of a journal so far, by the table of verdicts of docs/SPECIFICATION.md: an entry answers the kind of its fault and what it disagrees with, or
    None. `told` has the words of the entry at a place."""

    def __init__(self, start: dict[typing.Any, bytes | None], version: int, told: typing.Callable[[int], str]) -> None:
        self.tree, self.told = model.Tree.of(start, version), told
        self.calls: dict[str, tuple[str, ...]] = {}
        self.due: dict[str, str] = {}
        self.last: dict[str, str] = {}
        self.begun: dict[str, int] = {}
        self.committed: dict[str, int] = {}
        self.returned: dict[str, int] = {}

    def who(self, number: str) -> str:
        seat, *words = self.calls.get(number, ("",))
        return f"; call {number} is {cut(' '.join(words))} on seat {seat}" if words else f"; no call {number} has begun"

    def begin(self, place: int, number: str, seat: str, *words: str) -> Wrong:
        if number in self.calls:
            return "BeginTwice", f"; call {number} began before, at {self.told(self.begun[number])}"
        if seat in self.last and self.last[seat] not in self.returned:
            return (
                "SeatBusy",
                f"; seat {seat} has a call that has not returned, begun at {self.told(self.begun[self.last[seat]])}",
            )
        self.calls[number], self.last[seat], self.begun[number] = (seat, *words), number, place
        return None

    def commit(self, place: int, number: str) -> Wrong:
        if number not in self.calls:
            return "CommitUnbegun", self.who(number)
        if number in self.due:
            return "CommitTwice", f"{self.who(number)}; it committed before, at {self.told(self.committed[number])}"
        self.due[number], self.committed[number] = self.tree.apply(self.calls[number][1:]), place
        return None

    def returns(self, place: int, number: str, *reply: str) -> Wrong:
        if number not in self.due:
            return "ReturnUncommitted", self.who(number) + "; it has not committed" * (number in self.calls)
        if number in self.returned:
            return "ReturnTwice", f"{self.who(number)}; it returned before, at {self.told(self.returned[number])}"
        if self.due[number] != " ".join(reply):
            return "WrongReply", f"{self.who(number)}; due: {cut(self.due[number])}"
        self.returned[number] = place
        return None


def cut(words: str) -> str:
    """Words in a message: of more than so many bytes the rest is left out."""
    return f"{words[:240]}.." if len(words) > 240 else words


def checked(text: bytes) -> tuple[str, bytes]:
    """What `atomfs check` makes of a journal, by the model: the line of the verdict, and the message."""
    entries, (start, behind) = grammar.journal(text), grammar.start(text)
    numbers = [
        number
        for number, line in enumerate(text.split(b"\n"), 1)
        if number > behind and line and not line.startswith(b"#")
    ]
    told: typing.Callable[[int], str] = lambda place: f"line {numbers[place - 1]}: {cut(entries[place - 1])}"
    history = History(start, model.VERSIONS[text.split(b"\n")[0].decode()], told)
    take: dict[str, typing.Callable[..., Wrong]] = {
        "begin": history.begin,
        "commit": history.commit,
        "return": history.returns,
    }
    for place, entry in enumerate(entries, 1):
        kind, *words = entry.split(" ")
        if fault := take[kind](place, *words):
            return f"fault {place} {fault[0]}", f"atomfs: {told(place)}{fault[1]}\n".encode()
    return "lawful", b""


def verdict(text: bytes) -> str:
    """The line of the verdict on a journal, by the model."""
    return checked(text)[0]


class Rows:
    """The rows, whose answers are looked at in one way."""

    # Those of the tests that take these rows.
    each: typing.Callable[..., None]
    look_at_fault: typing.Callable[..., None]

    def test_scripts(self) -> None:
        self.each(rows("scripts"), self.look)

    def test_journals(self) -> None:
        self.each(rows("journals"), self.look)

    def test_starts(self) -> None:
        self.each(rows("starts"), self.look)

    def test_versions(self) -> None:
        self.each(rows("versions"), self.look)

    def test_listing(self) -> None:
        self.each(rows("listing"), self.look)

    def test_lines(self) -> None:
        self.each(rows("lines"), self.look)

    def test_paths(self) -> None:
        self.each(rows("paths"), self.look)

    def look(self, text: bytes, ask: str, answer: list[str]) -> None:
        kind, *more = ask.split(" ")
        if answer[0].startswith("line "):
            self.look_at_fault(text, kind, answer[0])
        else:
            getattr(self, f"look_at_{kind}")(text, answer, *more)


class OfTheGrammar(Rows, Case):
    """What tests/grammar.py says of each row."""

    def look_at_fault(self, text: bytes, kind: str, fault: str) -> None:
        self.same(text, str(attempted(kind, text)), fault)

    def look_at_script(self, text: bytes, answer: list[str]) -> None:
        script = grammar.Script(text)
        seats = {thread: seat for seat, thread in enumerate(script.calls)}
        calls = [f"{seats[thread]} {call}" for thread, calls in script.calls.items() for call in calls]
        words = [f"{seats[thread]}*{times}" if thread in seats else thread for thread, times in script.events] + [
            "!drawn" if script.is_drawn else "finish"
        ] * script.finishes
        self.same(text, calls + words or ["no call, no word"], answer)

    def look_at_counts(self, text: bytes, answer: list[str]) -> None:
        script = grammar.Script(text)
        calls = sum(map(len, script.calls.values()))
        self.same(text, f"{len(script.calls)} threads, {calls} calls, {len(script.events)} words", answer[0])

    def look_at_seat(self, text: bytes, answer: list[str], thread: str) -> None:
        threads = list(grammar.Script(text).calls)
        self.same(text, str(threads.index(thread)) if thread in threads else "none", answer[0])

    def look_at_journal(self, text: bytes, answer: list[str]) -> None:
        count = re.fullmatch(r"as its first (\d+) lines", answer[0])
        wanted = b"".join(text.splitlines(keepends=True)[: int(count[1]) if count else None])
        self.same(text, written(text), wanted)

    def look_at_verdict(self, text: bytes, answer: list[str]) -> None:
        self.same(text, verdict(text), answer[0])


class OfTheProgram(Rows, Case):
    """What the program says of each row."""

    def look_at_fault(self, text: bytes, kind: str, fault: str) -> None:
        for words in COMMANDS[kind]:
            self.same(text, run(text, *words), outcome_of(fault, text))

    def look_at_script(self, text: bytes, answer: list[str]) -> None:
        """Rounds to the end begin its calls, and it runs as the script that is written from its calls and its events."""
        calls = [line for line in answer if re.match(r"\d+ ", line)]
        begun = model.begun(run(text, "run", "--robin").output.decode())
        self.same(text, [f"{seat} {call}" for seat in sorted(begun) for call in begun[seat]], calls)
        self.look_at_counts(text, [f"{len(calls)} calls"])

    def look_at_counts(self, text: bytes, answer: list[str]) -> None:
        """Rounds to the end make so many calls, and it runs as the script that is written from its calls and its events."""
        calls = harness.match_in(r"(\d+) calls", answer[0])[1]
        last = run(text, "run", "--robin").output.decode().splitlines()[-1:]
        self.same(text, last, [f"begun {calls} committed {calls} returned {calls}"])
        self.same(text, run(text, "run"), run(grammar.Script(text).text(), "run"))

    def look_at_seat(self, text: bytes, answer: list[str], thread: str) -> None:
        """The thread gets a call, and an event that begins it."""
        given = text.replace(text_of(f"thread {thread}"), text_of(f"thread {thread}", "stat /")) + text_of(thread)
        came = run(given, "run")
        if answer == ["none"]:
            self.same(given, came, outcome_of(f"line {len(given.splitlines())}: BadWord", given))
        else:
            self.same(given, model.begun(came.output.decode()), {int(answer[0]): ["stat /"]})

    def look_at_journal(self, text: bytes, _: list[str]) -> None:
        """Its verdict is that of the journal that is written from its entries."""
        came, again = run(text, "check"), run(written(text), "check")
        self.same(text, came[:2], again[:2])
        self.same(text, came.message, checked(text)[1])

    def look_at_verdict(self, text: bytes, answer: list[str]) -> None:
        self.same(text, run(text, "check"), Outcome(int(answer != ["lawful"]), text_of(answer[0]), checked(text)[1]))


class Unlawful(Case):
    """Journals of the worked runs in which entries were taken out, exchanged, doubled or given another reply: the verdict, and what is told of it."""

    OTHERS = "ok", "failed ENOENT", "names q", "bytes 00", "wrote 3"

    def changed(self, draw: random.Random, journal: bytes) -> bytes:
        lines = journal.split(b"\ntree\n", 1)[0].decode("latin-1").split("\n")
        behind = lines.index("entries") + 1 if "entries" in lines else 1
        head, entries = lines[:behind], lines[behind:]
        for _ in range(draw.randint(1, 3)):
            one, other = draw.randrange(len(entries)), draw.randrange(len(entries))
            match draw.randrange(5):
                case 0 if len(entries) > 1:
                    del entries[one]
                case 1:
                    entries[one], entries[other] = entries[other], entries[one]
                case 2:
                    entries.insert(other, entries[one])
                case 3 if entries[one].startswith("return "):
                    entries[one] = f"{' '.join(entries[one].split(' ')[:2])} {draw.choice(self.OTHERS)}"
                case 4:
                    entries.insert(one, draw.choice(("# no entry", "")))
        return "".join(f"{line}\n" for line in (*head, *entries)).encode("latin-1")

    def look(self, text: bytes) -> None:
        line, told = checked(text)
        self.same(text, run(text, "check"), Outcome(int(line != "lawful"), text_of(line), told))

    def test_drawn(self) -> None:
        journals = [
            (path.name, text)
            for path, text in examples(RUNS, "text")
            if text.count(b"\nreturn ") > 2 and len(text) < 2_000
        ]
        rows = [
            (f"{name} {number}", self.changed(random.Random(f"{name} {number}"), text))
            for name, text in journals
            for number in range(DRAWN_EACH)
        ]
        self.each(rows, self.look)
        kinds = {checked(text)[0].split(" ")[-1] for _, text in rows}
        self.same("the kinds that come", sorted(kinds), sorted(KINDS["verdict"]))


def starting(version: int, *nodes: str) -> bytes:
    """A journal without entries that starts at the tree of these nodes behind the root."""
    return text_of(f"atomfs-journal {version}", "start", "dir /", *nodes, "entries")


class Starts(Case):
    """Start trees at a limit, and past it: the fault is at the line of the last node."""

    BRANCH = ["/n" * depth for depth in range(1, 66)]
    ROWS = {
        "256 entries": [f"dir /{place:03}" for place in range(256)],
        "entries below a file's": ["dir /a", *(f"file /a/{place:03} -" for place in range(256)), "file /b -"],
        "more names than a path has": [f"dir {path}" for path in BRANCH],
        "a file below them": [*(f"dir {path}" for path in BRANCH), f"file {BRANCH[-1]}/f 00"],
    }
    # The most bytes of a name and of a file, by the version of the journal; a text has no file that is too large by the third limits.
    LENGTHS = {2: (32, 65_536), 3: (64, 1_048_576), 4: (255, None)}
    PAST = {
        "257 entries": [f"dir /{place:03}" for place in range(257)],
        "257 entries of a directory": ["dir /a", *(f"file /a/{place:03} -" for place in range(257))],
    }

    @staticmethod
    def lengths(name: int, content: int | None) -> dict[str, list[str]]:
        """Nodes with a name, or with bytes, of this length."""
        files = {f"a file of {content} bytes": ["file /f " + "00" * content]} if content else {}
        return {
            f"a name of {name} bytes": ["dir /" + "n" * name],
            f"{name} escaped bytes": ["dir /" + "%FF" * name],
            **files,
        }

    def of_each_version(self, nodes: dict[str, list[str]], more: int) -> typing.Iterator[tuple[str, bytes, int]]:
        """Journals of each version that start at these nodes, and at some whose lengths are the greatest and so many more."""
        for version, greatest in self.LENGTHS.items():
            for name, lines in {
                **nodes,
                **self.lengths(greatest[0] + more, greatest[1] and greatest[1] + more),
            }.items():
                yield f"{name}, version {version}", starting(version, *lines), 3 + len(lines)

    def test_within(self) -> None:
        self.each(((name, text) for name, text, _ in self.of_each_version(self.ROWS, 0)), self.look)

    def look(self, text: bytes) -> None:
        self.same(text, verdict(text), "lawful")
        self.same(text, run(text, "check"), Outcome(0, b"lawful\n"))

    def test_past(self) -> None:
        """By the third limits a directory has more entries than there are here."""
        self.each(
            (row for row in self.of_each_version(self.PAST, 1) if not re.fullmatch("257 .*, version 4", row[0])),
            self.look_past,
        )

    def test_within_the_third_limits(self) -> None:
        self.each(((name, starting(4, *lines)) for name, lines in self.PAST.items()), self.look)

    def look_past(self, text: bytes, line: int) -> None:
        fault = attempted("journal", text)
        self.same(text, str(fault), f"line {line}: BadStart")
        self.same(text, run(text, "check"), outcome_of(fault, text))


# What texts are drawn from. A letter P, N, C, H, E or T that is a word, or the thread of a word, stands for one of these.
WORDS_OF = {
    "P": ("/", "/a", "/b", "/a/b", "/a/a", "/b/a", "//a", "/%61/b", "/%C3%A9", "/a%20b", "/a%2Fb", "/c~"),
    "N": (
        "0",
        "1",
        "1",
        "2",
        "2",
        "3",
        "4",
        "10",
        "65535",
        "65536",
        "65537",
        "1048576",
        "1048577",
        "18446744073709551615",
    ),
    "C": ("0", "1", "1", "2", "2", "3", "10", "255", "256", "257", "4294967295"),
    "H": ("-", "00", "6869", "fFeE01"),
    "E": ("ENOENT", "ENOTDIR", "EEXIST", "ENOTEMPTY", "EISDIR", "EINVAL", "EBUSY", "EPERM", "ENOSPC", "EFBIG"),
    "T": ("t", "u_2", "thread"),
}
SCRIPTS = "atomfs 1", "atomfs 1", "atomfs 2"
JOURNALS = "atomfs-journal 1", "atomfs-journal 1", "atomfs-journal 3\nstart\ndir /\nentries"
CALLS = (
    *("mkdir P", "mknod P", "mkdir P", "unlink P", "rmdir P", "rename P P", "exchange P P"),
    *("stat P", "readdir P", "read P N N", "write P N H", "truncate P N"),
)
# Of the third version alone, whose texts are drawn by themselves.
LISTING = "list P P C", "list / / C", "list P P C"
OVERFLOWS = ("failed EOVERFLOW",)
THIRD_JOURNAL = "atomfs-journal 4\nstart\ndir /\nentries"
REPLIES = (
    "ok",
    "stat dir N",
    "stat file N",
    "names",
    "names a",
    "names a b%20c %C3%A9",
    "bytes H",
    "wrote N",
    "failed E",
)
EVENTS = "T", "T*1", "T*2", "T*5", "T*9", "T*40"
BEGINNINGS = (
    *("", "atomfs 1\n", "atomfs 1\nthread t\n", "atomfs 1\nthread t\nmkdir /a\nschedule\n"),
    *("atomfs 2\nthread t\n", "atomfs-journal 3\nstart\ndir /\nentries\n"),
    *("atomfs-journal 1\n", "atomfs-journal 1\nbegin 1 0 mkdir /a\n"),
)
# Words of all lines, right and wrong ones.
WORDS = (
    *("", "#", "t", "T", "t*2", "t*0", "t*1000000", "t*1000001", "u", "finish", "thread", "schedule", "tree", "atomfs"),
    *("mkdir", "mknod", "unlink", "rmdir", "rename", "exchange", "stat", "readdir", "read", "write", "truncate"),
    *("begin", "commit", "return"),
    *("ok", "dir", "file", "names", "bytes", "wrote", "failed", "ENOENT", "ENOMEM"),
    *("0", "1", "2", "01", "65537", "18446744073709551616", "-", "ff", "abc"),
    *(
        "/",
        "/a",
        "/a/b",
        "/a/",
        "/./a",
        "/a/..",
        "a",
        "/%00",
        "/a%2fb",
        "/%",
        "/a-name-of-more-bytes-than-thirty-two",
        "/n" * 65,
    ),
    *("\r", "\t", "%"),
)
BYTES = b" \n/%#*-0159af.tr\r\t\0\xFF"


def filled(draw: random.Random, pattern: str) -> str:
    return re.sub(r"\b[PNCHET]\b", lambda letter: draw.choice(WORDS_OF[letter[0]]), pattern)


def some(draw: random.Random, patterns: typing.Sequence[str], most: int) -> list[str]:
    """Lines, each from one of the patterns."""
    return [filled(draw, draw.choice(patterns)) for _ in range(draw.randrange(most))]


def blocks(draw: random.Random, calls: typing.Sequence[str] = CALLS) -> list[str]:
    return [line for thread in WORDS_OF["T"] for line in (f"thread {thread}", *some(draw, calls, 6))]


def drawn_script(
    draw: random.Random, headers: typing.Sequence[str] = SCRIPTS, calls: typing.Sequence[str] = CALLS
) -> bytes:
    return text_of(
        draw.choice(headers),
        *blocks(draw, calls),
        "schedule",
        *some(draw, EVENTS, 8),
        *["finish"] * draw.choice((0, 1, 1)),
    )


def drawn_journal(
    draw: random.Random,
    headers: typing.Sequence[str] = JOURNALS,
    calls: typing.Sequence[str] = CALLS,
    replies: typing.Sequence[str] = REPLIES,
) -> bytes:
    entries = "commit N", *(f"begin N N {call}" for call in calls), *(f"return N {reply}" for reply in replies)
    weights = 99, *[9] * len(calls), *[11] * len(replies)
    return text_of(
        draw.choice(headers), *(filled(draw, entry) for entry in draw.choices(entries, weights, k=draw.randrange(10)))
    )


def drawn_run(
    draw: random.Random, headers: typing.Sequence[str] = SCRIPTS, calls: typing.Sequence[str] = CALLS
) -> bytes:
    """The text of a run of a drawn script."""
    return library().run(text_of(draw.choice(headers), *blocks(draw, calls), "schedule", "finish"))


def third_script(draw: random.Random) -> bytes:
    """A script of the third version, which may list directories in pieces."""
    return drawn_script(draw, ("atomfs 3",), (*CALLS, *LISTING))


def third_journal(draw: random.Random) -> bytes:
    return drawn_journal(draw, (THIRD_JOURNAL,), (*CALLS, *LISTING), (*REPLIES, *OVERFLOWS))


def third_run(draw: random.Random) -> bytes:
    return drawn_run(draw, ("atomfs 3",), (*CALLS, *LISTING))


def drawn_lines(draw: random.Random) -> bytes:
    """Lines of words behind a beginning."""
    lines = (" ".join(draw.choices(WORDS, k=draw.randrange(1, 5))) for _ in range(draw.randrange(4)))
    return draw.choice(BEGINNINGS).encode() + text_of(*lines)


def drawn_byte(draw: random.Random) -> bytes:
    """One of the bytes that texts are made of, or any."""
    return bytes([draw.choice((draw.choice(BYTES), draw.randrange(256)))])


def drawn_bytes(draw: random.Random) -> bytes:
    return draw.choice(BEGINNINGS).encode() + b"".join(drawn_byte(draw) for _ in range(draw.randrange(40)))


def byte_changed(draw: random.Random, text: bytes) -> bytes:
    """The text with another byte, without a byte, or with a byte twice."""
    at = draw.randrange(len(text))
    front, byte, back = text[:at], text[at : at + 1], text[at + 1 :]
    return front + draw.choice((drawn_byte(draw), b"", byte + byte)) + back


def lines_exchanged(draw: random.Random, text: bytes) -> bytes:
    """The text with two of its lines behind the first exchanged."""
    lines = text.split(b"\n")
    one, other = (draw.randrange(min(1, len(lines) - 1), len(lines)) for _ in range(2))
    lines[one], lines[other] = lines[other], lines[one]
    return b"\n".join(lines)


def line_doubled(draw: random.Random, text: bytes) -> bytes:
    lines = text.split(b"\n")
    lines.insert(draw.randrange(len(lines)), draw.choice(lines))
    return b"\n".join(lines)


def word_changed(draw: random.Random, text: bytes) -> bytes:
    pieces = re.split(rb"([ \n])", text)
    pieces[draw.randrange(0, len(pieces), 2)] = draw.choice(WORDS).encode()
    return b"".join(pieces)


CHANGES = *[byte_changed] * 3, *[word_changed] * 2, lines_exchanged, line_doubled


def changed(drawn: Drawing) -> Drawing:
    """The same texts with one or two changes."""

    def text(draw: random.Random) -> bytes:
        given = drawn(draw)
        for _ in range(draw.choice((1, 2))):
            given = draw.choice(CHANGES)(draw, given)
        return given

    return text


# In each way: how a text is drawn, how many are, and what each of them has to be.
WAYS: dict[str, tuple[Drawing, int, str | None]] = {
    "script": (drawn_script, 1_000, "script"),
    "changed script": (changed(drawn_script), 6_000, None),
    "journal": (drawn_journal, 1_000, "journal"),
    "changed journal": (changed(drawn_journal), 4_000, None),
    "changed text of a run": (changed(drawn_run), 4_000, None),
    "lines of words": (drawn_lines, 3_000, None),
    "bytes": (drawn_bytes, 1_000, None),
    "script of the third version": (third_script, 500, "script"),
    "changed script of the third version": (changed(third_script), 1_500, None),
    "journal of the third version": (third_journal, 500, "journal"),
    "changed text of a run of the third version": (changed(third_run), 1_500, None),
}


def drawn_texts() -> typing.Iterator[tuple[str, bytes, str | None]]:
    """All texts by their names, each drawn from its name alone, and what it has to be."""
    for way, (drawn, count, kind) in WAYS.items():
        for number in range(1, count + 1):
            yield f"{way} {number}", drawn(random.Random(f"{way} {number}")), kind


class OfTheLibrary(Case):
    """What the library says of the texts of all rows, and of drawn ones: valid ones, changed ones, lines of the grammar's words, and bytes."""

    def setUp(self) -> None:
        library()
        self.came: set[tuple[str, str]] = set()

    def test_rows(self) -> None:
        rows_of = {file: rows(file) for file in ("scripts", "journals", "lines", "paths", "versions", "listing")}
        self.each(((f"{file}: {name}", text) for file, rows in rows_of.items() for name, text, _, _ in rows), self.look)

    def test_drawn_texts(self) -> None:
        """The program tells of each kind of fault too, of the first text that has it. Each kind comes."""
        self.each(drawn_texts(), self.look_at_drawn)
        if "ROW" not in os.environ:
            wanted = {(kind, came) for kind, kinds in KINDS.items() for came in kinds}
            self.same("all drawn texts: the kinds that did not come", sorted(wanted - self.came), [])

    def look_at_drawn(self, text: bytes, kind: str | None) -> None:
        for reader in self.look(text):
            self.assertNotEqual(reader, kind, "a valid text is refused")

    def look(self, text: bytes) -> dict[str, grammar.Fault]:
        """Looks at a text as a script and as a journal. Answers which of them it is not."""
        said = {kind: attempted(kind, text) for kind in READERS}
        faults = {kind: fault for kind, fault in said.items() if isinstance(fault, grammar.Fault)}
        for kind, fault in faults.items():
            self.look_at_fault(text, kind, fault)
        if "script" not in faults:
            self.look_at_script(text, said["script"])
        if "journal" not in faults:
            self.look_at_journal(text)
        return faults

    def look_at_fault(self, text: bytes, kind: str, fault: grammar.Fault) -> None:
        self.same(text, told(kind, text), status_of(fault))
        if (kind, fault.kind) not in self.came:
            self.came.add((kind, fault.kind))
            self.same(text, run(text, *COMMANDS[kind][0]), outcome_of(fault, text))

    def look_at_script(self, text: bytes, script: grammar.Script) -> None:
        """It begins calls of the script, and all where rounds follow. It runs as the script that is written from its calls and its events."""
        came = told("script", text)
        self.same(text, came, told("script", script.text()))
        begun = model.begun(came.decode())
        calls = {
            seat: calls if script.finishes else calls[: len(begun.get(seat, []))]
            for seat, calls in enumerate(script.calls.values())
        }
        self.same(text, begun, {seat: given for seat, given in calls.items() if given})
        self.same(text, told("journal", came), b"lawful\n")
        self.same(text, verdict(came), "lawful")

    def look_at_journal(self, text: bytes) -> None:
        """Its verdict is that of the model, and that of the journal that is written from its entries."""
        wanted = verdict(text)
        self.came.add(("verdict", wanted.split(" ")[-1]))
        self.same(text, told("journal", text), text_of(wanted))
        self.same(text, told("journal", written(text)), text_of(wanted))


if __name__ == "__main__":
    unittest.main()
