"""Pictures of runs and journals: well-formed, with a bar for each call and a dot for each commit, and as they were when they were looked at.

tests/data/pictures has pictures of a few inputs; `cut` and `odd` are made here, and the others stand in tests/data/worked and examples/. Where Chromium is
installed, pictures are rendered, and no text leaves its picture or meets another label.
"""
import json
import pathlib
import random
import re
import resource
import shutil
import subprocess
import tempfile
import typing
import unittest
import xml.etree.ElementTree as ElementTree

import drawn
import geometry
import harness
import traces
from harness import DATA, ROOT, Case, run
from worked import EXAMPLES, JOURNALS, RUNS, examples

PICTURES = DATA / "pictures"
SVG = "{http://www.w3.org/2000/svg}"
CHROMIUM = shutil.which("chromium")
# So many seats a journal has of which each is drawn, in at most some seconds.
SEATS = 64_000
# Names with the signs of XML, with bytes that are escaped, and longer ones than a label or a box has room for.
ODD = (
    b"atomfs 1\nthread aaaaaaaaaaaaaaaa\nmkdir /%3Cb%3E&%22'\nmkdir /<b>&\"'\nmkdir /"
    + b"%FF" * 32
    + b"\nrename /"
    + b"%FF" * 32
    + b" /]]>\nmknod /]]>/a,b\n"
    b"write /]]>/a,b 0 "
    + b"3c" * 40
    + b"\nread /]]>/a,b 0 100\nstat /<!--/x/y/zzzzzzzzzzzzzzzzzz/wwwwwwwwwwwwwwwwwwwwww\n"
    b"thread b\nreaddir /\nreaddir /]]>\nexchange /]]> /<b>&\"'\nschedule\nfinish\n"
)
UNLAWFUL = b"atomfs-journal 1\nbegin 1 0 mkdir /a\ncommit 1\nbegin 2 5 stat /a\ncommit 1\nreturn 1 ok\n"
# A journal of the second version, whose last reply is another than its start tree and its commits give.
STARTED = (
    b"atomfs-journal 2\nstart\ndir /\ndir /a\nfile /a/f 6869\nentries\nbegin 1 0 stat /a/f\nbegin 2 1 rename /a /b\ncommit 1\ncommit 2\nreturn 2 ok\n"
    b"begin 3 1 read /b/f 0 9\nreturn 1 stat file 2\ncommit 3\nreturn 3 bytes 6869\n"
)
WRONGLY = STARTED.replace(b"bytes 6869", b"bytes 68")
IN_PIECES = (RUNS / "in_pieces.script").read_bytes()
# Each call is the first of its piece. A row has room for nine of them.
MANY_PIECES = (
    b"atomfs 1\nthread t\n"
    + b"".join(b"mkdir /%d\n" % call for call in range(12))
    + b"thread u\nschedule\n"
    + b" ".join([b"t*5 !checkpoint"] * 12)
    + b"\n"
)
# The journal that `linearize --front` writes for a history that no order explains: it ends with the return at fault.
FRONT = (
    b"atomfs-journal 1\nbegin 1 0 mkdir /a\ncommit 1\nreturn 1 ok\nbegin 2 0 rmdir /a\nbegin 3 1 mkdir /a/b\ncommit 3\n"
    b"return 3 ok\nreturn 2 ok\n"
)
# Directories whose names are alike at their beginnings, and differ at their ends or in their middle.
ALIKE = (
    b"atomfs 1\nthread t\n"
    + b"".join(
        b"mkdir %s\n" % b"".join(b"/directory_%d_of_many" % level for level in range(depth)) for depth in range(1, 7)
    )
    + b"schedule\nfinish\n"
)
# The last of fifteen calls, each of which commits alone.
LATER = (
    b"atomfs 1\nthread t\n"
    + b"".join(b"mkdir /d%d\n" % number for number in range(1, 15))
    + b"mkdir /d14/x\nschedule\nfinish\n"
)
# Bytes that are text, and such that are none.
BYTES = (
    b"atomfs 3\nthread w\nmknod /config\nwrite /config 0 706f72743d38300a\nwrite /config 8 00ff\nread /config 0 99\n"
    b"thread r\nread /config 0 99\nschedule\nw*6 r*8 finish\n"
)
# A call waits for another one, again and again.
WAITS = b"atomfs 1\nthread m\nmkdir /a\nmkdir /a/b\nthread r\nrmdir /a\nstat /a\nschedule\nm*2 r*2 m r m r m r m r m r m*2 r*3 finish\n"
# A tree of more entries than are shown, of which two commits move and add some.
LARGE_TREE = (
    b"atomfs-journal 4\nstart\ndir /\n"
    + b"".join(b"dir /d%02d\nfile /d%02d/a_file_with_a_long_name 686868\n" % (place, place) for place in range(20))
    + b"entries\nbegin 1 0 rename /d07 /moved\nbegin 2 1 mkdir /d11/new\ncommit 1\ncommit 2\nreturn 1 ok\nreturn 2 ok\n"
)
# Each stored picture: its name, its input and what is asked.
STORED: tuple[tuple[typing.Any, ...], ...] = (
    ("helped_mkdir", (RUNS / "helped_mkdir.script").read_bytes()),
    ("helped_mkdir_journal", (RUNS / "helped_mkdir.text").read_bytes()),
    ("moved_ancestor", (EXAMPLES / "moved_ancestor.script").read_bytes(), "--seed", "7"),
    ("moved_ancestor_journal", (EXAMPLES / "moved_ancestor.journal").read_bytes()),
    ("wrong_reply", (EXAMPLES / "wrong_reply.journal").read_bytes()),
    ("commit_twice", UNLAWFUL),
    ("started", STARTED),
    ("started_wrong_reply", WRONGLY),
    ("cut", traces.CUT),
    ("odd", ODD, "--seed", "4"),
    ("around", (EXAMPLES / "many_helped.script").read_bytes(), "--around", "5"),
    ("empty", b"atomfs 1\nschedule\n"),
    ("in_pieces", IN_PIECES),
    ("in_pieces_around", IN_PIECES, "--around", "3"),
    ("many_pieces", MANY_PIECES),
    ("checkpoints_at_the_ends", traces.AT_THE_ENDS),
    ("nothing_but_a_checkpoint", traces.NOTHING),
    ("narrow", (RUNS / "helped_mkdir.script").read_bytes(), "--width", "560"),
    ("folded", WAITS, "--fold"),
    ("front", FRONT),
    ("alike", ALIKE),
    ("bytes", BYTES),
    ("large_tree", LARGE_TREE),
)
# What a page tells of a picture that it shows: texts that leave it, labels, or words and numbers of the axis, that meet, and labels on lines of
# checkpoints.
LOOK = """
<script>
const svg = document.querySelector('svg'), frame = svg.getBoundingClientRect(), wrong = [];
const boxes = [...svg.querySelectorAll('text')].map(text => [text, text.getBoundingClientRect()]);
for (const [text, box] of boxes)
  if (box.right > frame.right + 1 || box.left < frame.left - 1 || box.bottom > frame.bottom + 1) wrong.push('leaves: ' + text.textContent);
for (const names of [['b'], ['a', 'checkpoint']]) {
  const labels = boxes.filter(([text]) => names.includes(text.parentNode.getAttribute('class')));
  for (let i = 0; i < labels.length; i++)
    for (let k = i + 1; k < labels.length; k++) {
      const [a, b] = [labels[i][1], labels[k][1]];
      if (a.left < b.right && b.left < a.right && a.top < b.bottom - 4 && b.top < a.bottom - 4) wrong.push('meet: ' + labels[i][0].textContent + ' | ' + labels[k][0].textContent);
    }
}
for (const line of [...svg.querySelectorAll('.checkpoint path')].map(path => path.getBoundingClientRect()))
  for (const [text, box] of boxes.filter(([text]) => text.parentNode.getAttribute('class') == 'b'))
    if (box.left < line.right && line.left < box.right && box.top < line.bottom && line.top < box.bottom) wrong.push('crossed: ' + text.textContent);
document.body.innerHTML = '<pre>' + JSON.stringify([boxes.length, wrong]).replace(/&/g, '&amp;').replace(/</g, '&lt;') + '</pre>';
</script>
"""


def parsed(text: str | bytes) -> typing.Any:
    """The element of a picture."""
    return ElementTree.fromstring(text)


def crowd(threads: int, calls: int, number: int) -> bytes:
    """A script of threads with so many drawn calls each."""
    draw = random.Random(number)
    return drawn.script(
        [[drawn.moving_call(draw, drawn.CROWDED) for _ in range(calls)] for _ in range(threads)]
    ).encode()


def crowd_in_pieces(pieces: int, threads: int, calls: int, number: int) -> bytes:
    """The same of threads that have all their calls in one piece: drawn events, and then rounds that are enough for these calls."""
    draw = random.Random(number)
    names = [[f"t{piece * threads + thread}" for thread in range(threads)] for piece in range(pieces)]
    lists = [[drawn.moving_call(draw, drawn.CROWDED) for _ in range(calls)] for _ in range(pieces * threads)]
    words = [" ".join([*draw.choices(piece, k=80), *(f"{name}*5" for name in piece * 100)]) for piece in names]
    return drawn.script(lists, " !checkpoint\n".join(words)).encode()


# Runs that are too large to be stored: eight threads, 500 calls, many seats, and pieces of many calls.
LARGE: tuple[tuple[typing.Any, ...], ...] = (
    ("eight_threads", crowd(8, 6, 1), "--seed", "3"),
    ("fourteen_threads", crowd(14, 5, 21), "--seed", "3"),
    ("five_hundred_calls", crowd(4, 125, 2), "--seed", "3"),
    ("twenty_threads", crowd(20, 3, 3), "--seed", "3"),
    ("eight_pieces", crowd_in_pieces(8, 3, 5, 4)),
    ("lists", drawn.script(drawn.listing(random.Random(5)), version=3).encode(), "--seed", "3"),
    ("eight_threads_narrow", crowd(8, 6, 1), "--seed", "3", "--width", "320"),
    ("twenty_threads_narrow", crowd(20, 3, 3), "--seed", "3", "--width", "480"),
    ("five_hundred_calls_wide", crowd(4, 125, 2), "--seed", "3", "--width", "4000"),
    ("odd_narrow", ODD, "--seed", "4", "--width", "320"),
    ("many_pieces_narrow", MANY_PIECES, "--width", "400"),
    ("wrong_reply_narrow", (EXAMPLES / "wrong_reply.journal").read_bytes(), "--width", "320"),
    ("large_tree_narrow", LARGE_TREE, "--width", "320"),
)


def inputs() -> typing.Iterator[tuple[typing.Any, ...]]:
    """The worked scripts and journals, those of the examples, and the stored and the large ones."""
    for folder, ending in ((RUNS, "script"), (EXAMPLES, "script"), (JOURNALS, "journal"), (EXAMPLES, "journal")):
        for path, given in examples(folder, ending):
            yield f"{path.name}_{ending}", given
    yield from STORED
    yield from LARGE


def schedule_in(words: typing.Sequence[str]) -> typing.Sequence[str]:
    """The words that say by which schedule a run is drawn, which a trace takes too."""
    return words[words.index("--seed") :][:2] if "--seed" in words else ()


def counts(root: typing.Any) -> tuple[int, ...]:
    """How many calls, commits by the call itself, commits by another one, and checkpoints a picture has."""
    classes = [element.get("class") for element in root.iter() if element.tag in (SVG + "g", SVG + "circle")]
    return tuple(classes.count(name) for name in ("call", "c", "k", "checkpoint"))


def crossed(root: typing.Any) -> typing.Iterator[str]:
    """The bars that cross the line of a checkpoint in their row."""
    lines = [
        harness.match_in(r"\AM (\d+) (\d+)V (\d+)", group.find(SVG + "path").get("d"))
        for group in root.iter(SVG + "g")
        if group.get("class") == "checkpoint"
    ]
    spans = [tuple(map(int, line.groups())) for line in lines]
    bars = [
        path.get("d")
        for group in root.iter(SVG + "g")
        if group.get("class") in ("call", "more")
        for path in group.iter(SVG + "path")
    ]
    for bar in bars:
        if found := re.match(r"M (\d+) (\d+)H (\d+)v16", bar):
            one, y, other = map(int, found.groups())
            if any(min(one, other) < x < max(one, other) and top < y < bottom for x, top, bottom in spans):
                yield bar


class Counted(Case):
    """A picture is well-formed, and has what its journal has, or the trace of its run, which tells of each piece."""

    def look(self, given: bytes, *words: str) -> None:
        came = run(given, "draw", *words)
        is_journal = given.startswith(b"atomfs-journal")
        told = given if is_journal else run(given, "trace", *schedule_in(words)).output
        if not harness.compares:
            return
        shown = given.decode(errors="backslashreplace")
        root = parsed(came.output)
        self.same(
            shown,
            (
                root.tag,
                came.output.isascii(),
                root.find(SVG + "title") is not None,
                root.find(SVG + "desc") is not None,
            ),
            (SVG + "svg", True, True, True),
        )
        self.same(shown, list(crossed(root)), [])
        if "--around" in words or came.status and is_journal:
            return
        lines = told.decode().split("\ntree\n", 1)[0].splitlines()
        if is_journal:
            wanted = *(sum(line.startswith(f"{word} ") for line in lines) for word in ("begin", "commit")), 0
        else:
            moments: list[typing.Any] = traces.Trace(told).moments
            wanted = *(
                sum(moment != traces.CHECKPOINT and moment.did in did for moment in moments)
                for did in (("begun",), ("committed", "helped"))
            ), moments.count(traces.CHECKPOINT)
        calls, own, given_by_another, checkpoints = counts(root)
        self.same(shown, (calls, own + given_by_another, checkpoints), wanted)

    def test_each(self) -> None:
        self.each(inputs(), self.look)


class Stored(Case):
    """Pictures that were looked at."""

    def look(self, name: str, given: bytes, *words: str) -> None:
        came = run(given, "draw", *words)
        stored = PICTURES / f"{name}.svg"
        self.same(given.decode(errors="backslashreplace"), came.output, stored.read_bytes() if stored.exists() else b"")

    def test_each(self) -> None:
        self.each([(row[0], *row) for row in STORED], self.look)

    def test_of_the_pages(self) -> None:
        """The pictures of docs/pictures are those of the texts beside them, and each is on a page."""
        folder = ROOT / "docs" / "pictures"
        texts = sorted(path for path in folder.iterdir() if path.suffix in (".script", ".journal"))
        pages = "".join(page.read_text() for page in (ROOT / "docs").glob("*.md"))
        shown = sorted(re.findall(r"\]\(pictures/(\w+)\.svg\)", pages))
        self.same("the pictures", sorted(path.stem for path in folder.glob("*.svg")), [path.stem for path in texts])
        self.same("the pictures that pages show", sorted(set(shown)), [path.stem for path in texts])
        self.each(((path.name, path) for path in texts), self.look_at_text)

    def look_at_text(self, path: pathlib.Path) -> None:
        """It says itself by which words it is drawn. `docs/pictures/draw` draws all anew."""
        given = path.read_bytes()
        (words,) = re.findall(rb"^# Drawn by: (.*)$", given, re.M)
        self.same(path.name, run(given, *words.decode().split(" ")).output, path.with_suffix(".svg").read_bytes())

    def test_lines_of_helping(self) -> None:
        """The lines of a trace that docs/HELPING.md explains are those of the run that it draws."""
        given = (ROOT / "docs" / "pictures" / "rename_helps.script").read_bytes()
        trace = run(given, "trace").output.decode()
        shown = re.findall(r"^\| `(\d+ .*)` \| ", (ROOT / "docs" / "HELPING.md").read_text(), re.M)
        self.same("how many there are", len(shown), 3)
        self.same("the lines that it has not", [line for line in shown if line not in trace.splitlines()], [])

    def test_of_the_documents(self) -> None:
        """The picture that the README shows."""
        came = run((RUNS / "helped_mkdir.script").read_bytes(), "draw")
        self.same("docs/helped_mkdir.svg", came.output, (ROOT / "docs" / "helped_mkdir.svg").read_bytes())

    def test_each_is_asked_for(self) -> None:
        self.same(
            "tests/data/pictures", sorted(path.stem for path in PICTURES.iterdir()), sorted(row[0] for row in STORED)
        )


class Asked(Case):
    """What is asked of a picture, and how it ends."""

    def test_statuses(self) -> None:
        wrong = (EXAMPLES / "wrong_reply.journal").read_bytes()
        for given, words, status in (
            (traces.CUT, (), 1),
            (wrong, (), 1),
            (UNLAWFUL, (), 1),
            (ODD, (), 0),
            (b"", (), 3),
            (ODD, ("--around", "99"), 2),
        ):
            self.same(
                given.decode(errors="backslashreplace"),
                run(given, "draw", *words).status,
                status if harness.compares else 0,
            )

    def test_no_such_call(self) -> None:
        self.same(
            "--around 99", run(ODD, "draw", "--around", "99"), harness.Outcome(2, b"", b"atomfs: there is no call 99\n")
        )

    def test_a_wrong_reply_is_told_with_the_one_due(self) -> None:
        came = run((EXAMPLES / "wrong_reply.journal").read_bytes(), "draw").output.decode()
        if harness.compares:
            self.same("wrong_reply.journal", re.findall(r", due (\w+)", came), ["ok"])


class Widths(Case):
    """A picture is as wide as `--width` says, with one row or several; without it as wide as what is drawn."""

    def look(self, given: bytes, width: int, *words: str) -> None:
        came = run(given, "draw", "--width", str(width), *words)
        if harness.compares:
            root = parsed(came.output)
            self.same(given.decode(), (root.get("width"), root.get("viewBox").split()[2]), (str(width), str(width)))

    def test_each(self) -> None:
        helped, crowded = (RUNS / "helped_mkdir.script").read_bytes(), crowd(20, 3, 3)
        wrong = (EXAMPLES / "wrong_reply.journal").read_bytes()
        rows = [(helped, width) for width in (320, 560, 2_000, 16_384)] + [(crowded, 560, "--seed", "3"), (wrong, 560)]
        self.each([(f"{number}", *row) for number, row in enumerate(rows)], self.look)

    def test_refused(self) -> None:
        """A width has its range; a page has no width, folds nothing, and is never around a call."""
        for words in (
            ("--width", "319"),
            ("--width", "16385"),
            ("--width", "wide"),
            ("--html", "--width", "560"),
            ("--html", "--fold"),
            ("--html", "--around", "1"),
        ):
            self.same(" ".join(words), run(ODD, "draw", *words).status, 2)


class SeatNames(Case):
    """A comment of a journal names a seat's lane, where the name is one that a thread may have; of two comments the last counts."""

    def look(self, comments: typing.Sequence[str], names: typing.Sequence[str]) -> None:
        given = "\n".join(
            [
                "atomfs-journal 1",
                *comments,
                "begin 1 0 stat /",
                "begin 2 12 stat /",
                "commit 1",
                "return 1 stat dir 0",
                "",
            ]
        )
        came = run(given.encode(), "draw")
        self.same("status", came.status, 0)
        if harness.compares:
            root = parsed(came.output)
            self.same("lanes", [text.text for text in root.iter(SVG + "text") if text.get("class") == "t"][-2:], names)
            self.same(
                "lanes and places of calls in tips, and their numbers",
                [
                    (title.text.split(" stat ")[0], title.text.split("\n")[1].split(",")[0])
                    for title in root.iter(SVG + "title")
                    if " stat /" in title.text and not title.get("id")
                ],
                [(f"{name}#1", f"call {number}") for number, name in enumerate(names, 1)],
            )

    def test_comments(self) -> None:
        rows = [
            ("none", [], ["seat 0", "seat 12"]),
            ("one of two", ["# seat 12 writer"], ["seat 0", "writer"]),
            ("both, one twice", ["# seat 0 a", "# seat 12 writer_2", "# seat 0 b"], ["b", "writer_2"]),
            (
                "no names",
                [
                    "# seat 0 A",
                    "# seat 0 <b>",
                    "# seat 0 abcdefghijklmnopq",
                    "# seat 00 a",
                    "# seat 12 a b",
                    "#seat 12 a",
                ],
                ["seat 0", "seat 12"],
            ),
            ("another seat", ["# seat 3 a"], ["seat 0", "seat 12"]),
        ]
        self.each(rows, self.look)


class Faults(Case):
    """The call at the first fault of a journal is marked: by the kind, or by the reply that was due. A call that does not begin as its entry says, or not
    before it, is drawn at that entry; and `--around` takes it. Its label has its place among the calls of its seat."""

    def look(self, journal: bytes, number: int, place: int, told: str) -> None:
        for more in ((), ("--around", str(number))):
            came = run(journal, "draw", *more)
            if harness.compares:
                texts = parsed(came.output).iter(SVG + "text")
                marked = [
                    (text.text.split(" ")[0], text.find(SVG + "tspan").text)
                    for text in texts
                    if text.find(SVG + "tspan") is not None
                ]
                self.same(f"{journal.decode()}{more}", (came.status, marked), (1, [(f"#{place}", told)]))

    def test_each_kind(self) -> None:
        journals = {path.name: journal for path, journal in examples(JOURNALS, "journal")}
        rows = [
            ("begin_twice", 1, 1, ", BeginTwice"),
            ("seat_busy", 2, 2, ", SeatBusy"),
            ("commit_twice", 7, 1, ", CommitTwice"),
            ("return_before_its_commit", 1, 1, ", before its commit"),
            ("return_twice", 7, 1, ", ReturnTwice"),
            ("wrong_names", 2, 2, ", due names a"),
        ]
        begun_behind = b"atomfs-journal 1\nbegin 1 0 stat /\ncommit 7\nbegin 7 1 stat /\n"
        busy = b"atomfs-journal 1\nbegin 7 0 stat /\nbegin 8 0 mkdir /a\ncommit 7\n"
        others = (
            ("begun behind", begun_behind, 7, 1, ", CommitUnbegun"),
            ("on a busy seat", busy, 8, 2, ", SeatBusy"),
            ("a return that no order explains", FRONT, 2, 2, ", no order explains it"),
        )
        self.each([*((name, journals[name], *more) for name, *more in rows), *others], self.look)

    def test_no_such_call(self) -> None:
        """Where no entry begins it, there is no call to mark."""
        for entry in (b"commit 7", b"return 7 ok"):
            given = b"atomfs-journal 1\nbegin 1 0 stat /\n%s\n" % entry
            came = run(given, "draw")
            self.same(
                given.decode(), (came.status, b"<tspan" in came.output), (1, False) if harness.compares else (0, False)
            )
            self.same(
                given.decode(),
                run(given, "draw", "--around", "7"),
                harness.Outcome(2, b"", b"atomfs: there is no call 7\n"),
            )


class Checkpoints(Case):
    """A run in pieces is drawn whole, with a line at each checkpoint; a journal that starts at another tree is judged from there."""

    def drawn(self, given: typing.Any, *words: str) -> typing.Any:
        """The picture of a run that went well."""
        came = run(given, "draw", *words)
        self.same(given.decode(), (came.status, came.message), (0, b""))
        return parsed(came.output if harness.compares else b"<svg/>")

    def labels(self, root: typing.Any) -> list[str]:
        """The labels of the calls, up to their replies."""
        return [
            text.text
            for group in root.iter(SVG + "g")
            if group.get("class") == "b"
            for text in group.iter(SVG + "text")
        ]

    def test_the_given_schedule(self) -> None:
        """All pieces are drawn; call numbers begin again, and so do those of commits."""
        root = self.drawn(IN_PIECES)
        if harness.compares:
            orders = [
                group.find(SVG + "title").text.split("\n")[2].split(",")[0]
                for group in root.iter(SVG + "g")
                if group.get("class") == "call"
            ]
            self.same("calls, dots and checkpoints", counts(root), (8, 6, 2, 2))
            tips = [
                group.find(SVG + "title").text.split("\n")
                for group in root.iter(SVG + "g")
                if group.get("class") == "call"
            ]
            self.same(
                "the numbers of calls",
                sorted(tip[1].split(",")[0] for tip in tips),
                [f"call {number}" for number in (1, 1, 1, 2, 2, 3, 3, 4)],
            )
            places = [
                f"{thread}#{place}"
                for thread, calls in traces.calls_of(IN_PIECES).items()
                for place in range(1, len(calls) + 1)
            ]
            self.same("the calls of each thread", sorted(tip[0].split(" ")[0] for tip in tips), places)
            self.same(
                "the places in labels",
                sorted(label.split(" ")[0] for label in self.labels(root)),
                sorted(f"#{place.split('#')[1]}" for place in places),
            )
            self.same(
                "the numbers of commits",
                sorted(orders),
                [f"commit number {number}" for number in (1, 1, 1, 2, 2, 3, 3, 4)],
            )
            news = "rename /a /b helped mkdir /a/d/x, and 1 more was helped"
            self.same(
                "its headline, and the line below",
                [root.find(SVG + "title").text, *root.find(SVG + "desc").text.split(". ")[:2]],
                [f"AtomFS: {news}", news, "8 calls on 3 threads, 2 helped by another, 2 checkpoints"],
            )

    def test_what_a_line_tells(self) -> None:
        root = self.drawn(traces.PIECES)
        if harness.compares:
            told = ["".join(group.itertext()) for group in root.iter(SVG + "g") if group.get("class") == "checkpoint"]
            self.same(
                "its tooltip and its word",
                told,
                ["the journal begins again here, and the next call is call 1checkpoint"] * 2,
            )

    def test_calls_under_way(self) -> None:
        for given, call in traces.MET:
            for more in ((), ("--around", "1")):
                self.same(
                    given.decode(),
                    run(given, "draw", *more),
                    harness.Outcome(1, b"", b"atomfs: call %d is pending\n" % call),
                )

    def test_around_a_call_of_each_piece(self) -> None:
        """A number is that of a call of each piece which has so many; the checkpoints between what is drawn are drawn."""
        rows = ((IN_PIECES, "1", 5, 2), (IN_PIECES, "3", 6, 1), (IN_PIECES, "4", 3, 0), (MANY_PIECES, "1", 12, 11))
        for given, number, calls, checkpoints in rows:
            root = self.drawn(given, "--around", number)
            if harness.compares:
                self.same(
                    f"{given.decode()}--around {number}", (counts(root)[0], counts(root)[3]), (calls, checkpoints)
                )
        self.same(
            "--around 5",
            run(IN_PIECES, "draw", "--around", "5"),
            harness.Outcome(2, b"", b"atomfs: there is no call 5\n"),
        )

    def test_pieces_without_the_number(self) -> None:
        """Each checkpoint between two calls that are drawn has its line, also where the piece between has no such call."""
        given = b"atomfs 1\nthread t\nmkdir /a\nmkdir /b\nmkdir /c\nmkdir /d\nmkdir /e\nschedule\nt*10 !checkpoint t*5 !checkpoint t*10\n"
        root = self.drawn(given, "--around", "2")
        if harness.compares:
            self.same(
                given.decode(),
                (counts(root), self.labels(root)),
                ((2, 2, 0, 2), ["#2 mkdir /b \u2192 ok", "#5 mkdir /e \u2192 ok"]),
            )

    def test_rows(self) -> None:
        """A checkpoint before a call that stands in the next row stands there too: in each row but for the last a call is behind the last line."""
        root = self.drawn(MANY_PIECES)
        if not harness.compares:
            return
        lines = [
            harness.match_in(r"\AM (\d+) (\d+)V (\d+)", group.find(SVG + "path").get("d"))
            for group in root.iter(SVG + "g")
            if group.get("class") == "checkpoint"
        ]
        bars = [
            harness.match_in(r"\AM (\d+) (\d+)", group.find(SVG + "path").get("d"))
            for group in root.iter(SVG + "g")
            if group.get("class") == "call"
        ]
        rows = sorted({(int(line[2]), int(line[3])) for line in lines})
        self.same("its rows", len(rows), 2)
        for top, bottom in rows:
            last = max(int(line[1]) for line in lines if int(line[2]) == top)
            behind = [bar[0] for bar in bars if top < int(bar[2]) < bottom and int(bar[1]) > last]
            self.same(f"what is behind the last line from {top} to {bottom}", len(behind), int(bottom < rows[-1][1]))
        first = min(int(line[1]) for line in lines if int(line[2]) == rows[1][0])
        self.same(
            "what is before the first line of the second row",
            [bar[0] for bar in bars if int(bar[2]) > rows[1][0] and int(bar[1]) < first],
            [],
        )

    def test_other_schedules(self) -> None:
        for schedule in (("--robin",), ("--seed", "7")):
            plain = traces.PIECES.replace(b"!checkpoint ", b"")
            came = run(traces.PIECES, "draw", *schedule)
            self.same(traces.PIECES.decode(), (came.status, came), (0, run(plain, "draw", *schedule)))

    def test_its_last_piece(self) -> None:
        """The journal of the last piece can be drawn."""
        harness.takes_a_process()
        came = run(run(traces.PIECES, "run").output, "draw")
        self.same(traces.PIECES.decode(), (came.status, came.output.count(b'class="call"')), (0, 1))

    def test_started(self) -> None:
        for given, status, due in ((STARTED, 0, []), (WRONGLY, 1, ["bytes"])):
            came = run(given, "draw")
            if harness.compares:
                self.same(
                    given.decode(),
                    (came.status, came.output.count(b'class="call"'), re.findall(r", due (\w+)", came.output.decode())),
                    (status, 3, due),
                )


class ManySeats(Case):
    """The picture of a journal takes time in proportion to its seats: of each seat one call that did not return, one that did, and half of the calls on one
    seat while the others are under way."""

    def drawn(self, given: typing.Any) -> typing.Any:
        before = resource.getrusage(resource.RUSAGE_CHILDREN).ru_utime
        came = run("\n".join(("atomfs-journal 1", *given, "")).encode(), "draw")
        self.same(f"{len(given)} entries", (came.status, came.message), (0, b""))
        self.assertLess(resource.getrusage(resource.RUSAGE_CHILDREN).ru_utime - before, 4)

    def test_time(self) -> None:
        harness.takes_a_process()
        begins = [f"begin {call} {call} stat /" for call in range(1, SEATS + 1)]
        ends = [f"commit {call}\nreturn {call} stat dir 0" for call in range(1, SEATS + 1)]
        on_one = [f"begin {call} 0 stat /\n{ends[call - 1]}" for call in range(SEATS // 2 + 1, SEATS + 1)]
        shapes = (
            ("begun", begins),
            ("returned", [f"{begin}\n{end}" for begin, end in zip(begins, ends)]),
            ("on one", [*begins[: SEATS // 2], *on_one]),
        )
        self.each(shapes, self.drawn)


class Measured(Case):
    """No text leaves its picture, meets another one, or has a line through it: by the widths of the font that the picture names."""

    def look(self, given: bytes, *words: str) -> None:
        came = run(given, "draw", *words)
        if not harness.compares:
            return
        shown = given.decode(errors="backslashreplace")[:2_000]
        look = geometry.Look(parsed(came.output))
        self.same(f"{shown}: clipped", look.clipped(), [])
        self.same(f"{shown}: struck through", list(look.struck()), [])
        self.same(f"{shown}: meeting", list(look.meeting()), [])

    def test_each(self) -> None:
        self.each(inputs(), self.look)

    def test_of_the_pages(self) -> None:
        """The pictures that pages show."""
        for path in [ROOT / "docs" / "helped_mkdir.svg", *sorted((ROOT / "docs" / "pictures").glob("*.svg"))]:
            look = geometry.Look(parsed(path.read_bytes()))
            self.same(path.name, [look.clipped(), list(look.struck()), list(look.meeting())], [[], [], []])

    def test_what_is_found(self) -> None:
        """A line that is drawn behind a text, or before it and not hidden, is found; so is a text that leaves the picture."""
        text = '<text x="10" y="20">ab</text>'
        line, apart = (f'<path class="g" d="M {x} 0V 40"/>' for x in (15, 30))
        cover = '<path class="B" d="M 8 8H 30v16H 8z"/>'
        rows = (
            (text, 0, 0),
            (line + text, 0, 1),
            (text + line, 0, 1),
            (line + cover + text, 0, 0),
            (cover + line + text, 0, 1),
            (apart + text, 0, 0),
            ('<text x="90" y="20">ab</text>', 1, 0),
        )
        for body, clipped, struck in rows:
            picture = f'<svg xmlns="{SVG[1:-1]}" width="100" height="40" font-size="12"><style/>{body}</svg>'
            look = geometry.Look(parsed(picture))
            self.same(body, (len(look.clipped()), len(list(look.struck()))), (clipped, struck))


class News(Case):
    """The headline says what happened."""

    def look(self, wanted: str, given: bytes, *words: str) -> None:
        came = run(given, "draw", *words)
        if harness.compares:
            found = next(parsed(came.output).iter(SVG + "text")).text
            self.same(given.decode(errors="backslashreplace"), found, wanted)

    def test_each(self) -> None:
        rows = (
            ("rename /a /b helped mkdir /a/d/x", (RUNS / "helped_mkdir.script").read_bytes()),
            ("call 2 rmdir /a returned ok, no order explains it", FRONT),
            ("call 3 mkdir /a/d/x failed ENOENT, but ok was due", (EXAMPLES / "wrong_reply.journal").read_bytes()),
            ("call 1 mkdir /a: CommitTwice", UNLAWFUL),
            ("m#1 mkdir /a and 1 other call have not returned", traces.CUT),
            ("5 calls on 2 threads, all returned", BYTES),
            ("call 1 stat / has not returned", b"atomfs-journal 1\nbegin 1 0 stat /\n"),
        )
        self.each([(row[0], *row) for row in rows], self.look)


class Trees(Case):
    """The tree before the first commit, and after each of at most twelve; an entry that is new is marked."""

    def trees(self, given: bytes, *words: str) -> list[list[str]]:
        """The lines of each tree: its words, and a `*` after a new one."""
        came = run(given, "draw", *words)
        columns: list[list[str]] = []
        for group in parsed(came.output if harness.compares else b"<svg/>").iter(SVG + "g"):
            if group.get("class") != "tree":
                continue
            for text in group.iter(SVG + "text"):
                if text.text in ("before", "after", "at the end"):
                    columns.append([])
                elif text.get("class") not in ("o", "m"):
                    columns[-1].append(text.text + ("*" if "Y" in text.get("class") else ""))
        return columns

    def test_helped(self) -> None:
        wanted = [["/"], ["/", "a*"], ["/", "a", "d*"], ["/", "a", "d", "x*"], ["/", "b*", "d*", "x*"]]
        for ending in ("script", "text"):
            given = (RUNS / f"helped_mkdir.{ending}").read_bytes()
            self.same(given.decode(), self.trees(given), wanted if harness.compares else [])

    def test_bytes(self) -> None:
        wanted = [
            ["/"],
            ["/", "config*", '""*'],
            ["unchanged"],
            ["/", "config*", '"port=80\\n"*'],
            ["/", "config*", "706f72743d38300\u2026*"],
            ["unchanged"],
        ]
        self.same(BYTES.decode(), self.trees(BYTES), wanted if harness.compares else [])

    def test_more_than_twelve(self) -> None:
        """Of more commits, or of pieces, the first tree and the last."""
        head, calls, end = (
            b"atomfs 1\nthread t\n",
            [b"mkdir /%d\n" % place for place in range(13)],
            b"schedule\nfinish\n",
        )
        rows = (head + b"".join(calls) + end, 2), (head + b"".join(calls[:12]) + end, 13), (IN_PIECES, 2)
        for given, trees in rows:
            self.same(given.decode(), len(self.trees(given)), trees if harness.compares else 0)

    def test_around(self) -> None:
        """With `--around` the first tree is the one before the first commit that is drawn, which calls that are not drawn have made."""
        harness.asks_of_answers()
        found, of_journal = self.trees(LATER, "--around", "15"), self.trees(run(LATER, "run").output, "--around", "15")
        if harness.compares:
            self.same("how many trees of all", len(self.trees(LATER)), 2)
            self.same("how many lines", [len(lines) for lines in found], [13, 13])
            self.same("what is new", [[word for word in lines if "*" in word] for lines in found], [[], ["x*"]])
            self.same("of its journal", of_journal, found)

    def test_of_a_large_tree(self) -> None:
        """What changed is shown, with what is above it."""
        found = self.trees(LARGE_TREE)
        if harness.compares:
            self.same("how many lines", [len(lines) <= 25 for lines in found], [True] * 3)
            self.same("what is new at first", [word for word in found[0] if word.endswith("*")], [])
            self.same("what is moved", "moved*" in found[1], True)
            self.same("what is added", found[2][-3:], ["d11", "new*", "\u2026"])


class Folded(Case):
    """If more than eight threads are drawn, each wait is one: the picture of fourteen threads is lower, and has fewer texts."""

    def look(self, name: str) -> tuple[typing.Any, list[str]]:
        """The picture of a large input, and the words of its waits."""
        given, words = next((row[1], row[2:]) for row in LARGE if row[0] == name)
        came = run(given, "draw", *words)
        root = parsed(came.output if harness.compares else b"<svg/>")
        waits: list[str] = [text.text for text in root.iter(SVG + "text") if text.get("class") == "v"]
        return root, waits

    def test_fourteen_threads(self) -> None:
        root, waits = self.look("fourteen_threads")
        if harness.compares:
            self.same("words of waits that say who holds a node", [word for word in waits if "#" in word], [])
            self.assertLess(int(root.get("height")), 3_800)
            self.assertLess(sum(1 for _ in root.iter(SVG + "text")), 600)

    def test_eight_threads(self) -> None:
        _, waits = self.look("eight_threads")
        if harness.compares:
            self.same("whether who holds a node is said", any("#" in word for word in waits), True)

    def test_asked_for(self) -> None:
        """With `--fold` each wait is one in the picture of two threads too; of more than eight it changes nothing."""
        drawn = [run(WAITS, "draw", *words).output for words in ((), ("--fold",))]
        if harness.compares:
            waits = [
                [text.text for text in parsed(picture).iter(SVG + "text") if text.get("class") == "v"]
                for picture in drawn
            ]
            self.same("who holds the node", [any("m#" in word for word in words) for words in waits], [True, False])
            self.same("what is waited for", [word for word in waits[1] if word == "/"], ["/", "/", "/"])
        given, *words = next(row[1:] for row in LARGE if row[0] == "fourteen_threads")
        self.same("fourteen threads", run(given, "draw", *words, "--fold"), run(given, "draw", *words))


class Words(Case):
    """Bytes are shown as text where they are one, and names that are alike are cut apart."""

    def test_bytes(self) -> None:
        came = run(BYTES, "draw")
        if harness.compares:
            found = ["".join(text.itertext()) for text in parsed(came.output).iter(SVG + "text")]
            for wanted in (
                '#2 write /config 0 "port=80\\n" \u2192 wrote 8',
                "#3 write /config 8 00ff \u2192 wrote 2",
                '#1 read /config 0 99 \u2192 bytes ""',
            ):
                self.same(wanted, wanted in found, True)

    def test_names_that_are_alike(self) -> None:
        """The cut names of different nodes differ."""
        came = run(ALIKE, "draw")
        if harness.compares:
            texts = parsed(came.output).iter(SVG + "text")
            names = {text.text for text in texts if text.get("class") == "n" and "\u2026" in text.text}
            digits = [set(re.findall(r"\d", name)) for name in names]
            self.same(f"whether each has the digit by which it differs: {sorted(names)}", all(digits), True)
            self.same("the digits of names", set().union(*digits), set("01234"))


class Rendered(Case):
    """Chromium shows a picture with no text cut off, and no label on another."""

    def look(self, given: bytes, *words: str) -> None:
        picture = run(given, "draw", *words).output.decode()
        with tempfile.TemporaryDirectory(prefix="atomfs-") as folder:
            page = pathlib.Path(folder) / "page.html"
            page.write_text(f"<!DOCTYPE html><meta charset=utf-8><body style='margin:0'>{picture}{LOOK}")
            chromium = (
                str(CHROMIUM),
                "--headless",
                "--no-sandbox",
                "--disable-gpu",
                f"--user-data-dir={folder}/profile",
                "--dump-dom",
                page.as_uri(),
            )
            shown = subprocess.run(chromium, capture_output=True, text=True, timeout=harness.MOST_SECONDS).stdout
        found = re.search(r"<pre>(.*)</pre>", shown, re.S)
        told = json.loads(found[1].replace("&lt;", "<").replace("&gt;", ">").replace("&amp;", "&")) if found else None
        self.same(given.decode(errors="backslashreplace")[:2_000], told and told[1], [])

    def test_each(self) -> None:
        harness.takes_a_process()
        if not CHROMIUM:
            self.skipTest("pictures are rendered where Chromium is installed")
        self.each([*STORED, LARGE[0], *LARGE[2:]], self.look)


if __name__ == "__main__":
    unittest.main()
