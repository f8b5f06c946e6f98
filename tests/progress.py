"""What a terminal shows: how far a long command is, and words in colours.

tests/data/progress has the line of a long command, with every number as N, and each text once where it is repeated. What is written to standard output
is the same with a terminal and without one, and without its escape sequences the same in colours and without.
"""
import concurrent.futures
import contextlib
import os
import pathlib
import pty
import re
import subprocess
import tempfile
import unittest
from typing import Sequence

from harness import DATA, MOST_SECONDS, Case, program, run, takes_a_process

PROGRESS = DATA / "progress"
# A tree at which drawn runs start.
MOVED = str(DATA / "starts" / "moved.tree")
# A rename of what is not there, 60 names deep, which holds the root until it has found that out.
DEEP = b"/a" * 60
RENAME = b"rename %s/x /y\n" % DEEP


def renames(threads: int, calls: int) -> bytes:
    """A script whose first thread makes the directories, and in which each other thread has so many such renames."""
    first = b"".join(b"mkdir %s\n" % DEEP[: 2 * depth] for depth in range(1, 61))
    others = b"".join(b"thread t%d\n" % number + calls * RENAME for number in range(1, threads))
    return b"atomfs 1\nthread t0\n" + first + others + b"schedule\nfinish\n"


def exchanges(rounds: int, histories: int = 1) -> bytes:
    """Histories in which the first of ten exchanges of two directories returns while all are under way, again and again, behind two writes of one byte.
    Of many rounds a read at the end says which came first: not the one that is tried first, so all orders are looked at.
    """
    lines = ["atomfs-journal 2", "start", "dir /", "dir /a", "dir /b", "file /f 00", "entries"]
    lines += ["begin 1 0 write /f 0 07", "begin 2 1 write /f 0 08", "return 1 wrote 1", "return 2 wrote 1"]
    for first in range(3, 10 * rounds + 3, 10):
        lines += [f"begin {first + seat} {seat} exchange /a /b" for seat in range(10)] + [
            f"return {first + seat} ok" for seat in range(10)
        ]
    if rounds > 1:
        last = 10 * rounds + 3
        lines += [f"begin {last} 0 read /f 0 4", f"return {last} bytes 07"]
    return histories * "".join(f"{line}\n" for line in lines).encode()


# Each takes longer than the quarter of a second after which something is shown first.
SHORT = b"atomfs 1\nthread a\nmkdir /a\nschedule\nfinish\n"
ROWS: tuple[tuple[str, bytes, tuple[str, ...]], ...] = (
    ("run", renames(200, 100), ("run",)),
    ("run_drawn", renames(200, 100), ("run", "--seed", "7")),
    ("seeds", renames(4, 100), ("seeds", "--seed", "1", "--runs", "1000")),
    ("seeds", renames(4, 100), ("seeds", "--seed", "1", "--runs", "1000", "--from", MOVED)),
    ("threads", renames(5, 16_000), ("threads",)),
    ("linearize", exchanges(100), ("linearize",)),
    ("linearize_many", exchanges(1, 30_000), ("linearize", "--many")),
)


def told_on(terminal: int) -> bytes:
    """What is told on a terminal until nobody has it any more."""
    told = b""
    with contextlib.suppress(OSError):
        while more := os.read(terminal, 65_536):
            told += more
    return told


def spoken_to(
    words: Sequence[str], out: int, err: int, given: int = subprocess.PIPE, no_color: str | None = "1"
) -> subprocess.Popen[bytes]:
    """The program with these words, and with this value of NO_COLOR, if it is to have one."""
    variables = {name: value for name, value in os.environ.items() if name != "NO_COLOR"}
    if no_color is not None:
        variables["NO_COLOR"] = no_color
    return subprocess.Popen([program(), *words], stdin=given, stdout=out, stderr=err, env=variables)


def on_terminal(given: bytes, *words: str) -> tuple[int, bytes, bytes]:
    """The status, standard output, and what stood on the terminal that standard error was."""
    ours, theirs = pty.openpty()
    with concurrent.futures.ThreadPoolExecutor(1) as pool, spoken_to(words, subprocess.PIPE, theirs) as process:
        os.close(theirs)
        # A terminal holds few bytes: a program of which nobody reads what it tells stands still.
        told = pool.submit(told_on, ours)
        try:
            output, _ = process.communicate(given, timeout=MOST_SECONDS)
        except BaseException:
            process.kill()
            raise
    os.close(ours)
    return process.returncode, output, told.result()


def on_one_terminal(given: bytes, *words: str, no_color: str | None = "1") -> tuple[int, list[bytes], bytes]:
    """What stands at last, line by line, on the terminal that standard output and standard error both were, and all that was told there."""
    ours, theirs = pty.openpty()
    with (
        concurrent.futures.ThreadPoolExecutor(1) as pool,
        spoken_to(words, theirs, theirs, no_color=no_color) as process,
    ):
        os.close(theirs)
        told = pool.submit(told_on, ours)
        process.communicate(given, timeout=MOST_SECONDS)
    os.close(ours)
    return process.returncode, screen_of(told.result()), told.result()


def screen_of(told: bytes) -> list[bytes]:
    """The lines of a terminal: what is written behind a carriage return stands in the place of what stood there."""
    lines, at = [bytearray()], 0
    for byte in told:
        if byte == ord("\n"):
            lines.append(bytearray())
            at = 0
        elif byte == ord("\r"):
            at = 0
        else:
            lines[-1][at : at + 1] = bytes([byte])
            at += 1
    return [bytes(line).rstrip(b" ") for line in lines]


def shown(told: bytes) -> bytes:
    """The texts of a line that is written anew, each once where it is repeated, with every number as N and without the spaces that fill it."""
    texts = [re.sub(rb"\d+", b"N", text).rstrip() for text in told.split(b"\r")]
    return b"".join(text + b"\n" for place, text in enumerate(texts) if place == 0 or text != texts[place - 1])


def numbers(told: bytes) -> list[int]:
    """How much was done, as each text of the line says."""
    return [int(done) for done in re.findall(rb"(\d+) of \d+ ", told)]


class Progress(Case):
    def setUp(self) -> None:
        takes_a_process()

    def test_terminal(self) -> None:
        for name, given, words in ROWS:
            with self.subTest(name):
                status, output, told = on_terminal(given, *words)
                silent = run(given, *words)
                self.assertEqual((status, output), (silent.status, silent.output))
                self.assertEqual(silent.message, b"")
                self.assertEqual(shown(told).decode(), (PROGRESS / name).read_text())
                done = numbers(told)
                self.assertGreater(len(done), 1)
                self.assertTrue(name == "threads" or done == sorted(done), done)
                self.assertLessEqual(max(len(text) for text in told.split(b"\r")), 72)

    def test_one_terminal(self) -> None:
        """Where output goes to the same terminal, the line is away before the first byte, and never comes back."""
        for name, given, words in ROWS:
            with self.subTest(name):
                status, lines, told = on_one_terminal(given, *words)
                silent = run(given, *words)
                self.assertGreater(len(numbers(told)), 1)
                self.assertEqual((status, lines), (silent.status, silent.output.split(b"\n")))

    def test_a_fault_on_one_terminal(self) -> None:
        """The line is away before the message of a fault that comes late."""
        words = ["t0*4000", *(f"t{number}*4999" for number in range(1, 200)), "!checkpoint"]
        given = renames(200, 100).replace(b"schedule\nfinish\n", f"schedule\n{' '.join(words)}\n".encode())
        status, lines, told = on_one_terminal(given, "run")
        silent = run(given, "run")
        self.assertEqual((status, lines), (silent.status, silent.message.split(b"\n")))
        self.assertEqual((silent.status, silent.message[:13]), (1, b"atomfs: call "))
        if not numbers(told):
            self.skipTest("this machine plays a million events before the line is shown")

    def test_standard_input(self) -> None:
        """Where standard input is a terminal and no file is named, one line says that it is read."""
        row = b"atomfs: reading standard input; end it with Ctrl-D\n"
        for words, told in ((("run",), row), (("run", "-"), b""), (("check",), row), (("explain", "Dot"), b"")):
            with self.subTest(" ".join(words)):
                ours, theirs = pty.openpty()
                with spoken_to(words, subprocess.PIPE, subprocess.PIPE, theirs) as process:
                    os.close(theirs)
                    given = SHORT if words[0] == "run" else b"atomfs-journal 1\n"
                    # The end of standard input is this byte at the begin of a line.
                    os.write(ours, given + b"\x04")
                    output, message = process.communicate(timeout=MOST_SECONDS)
                os.close(ours)
                wanted = run(given, *words)
                self.assertEqual((process.returncode, output, message), (wanted.status, wanted.output, told))

    def test_a_picture_on_a_terminal(self) -> None:
        """It is refused, and read is nothing; a file takes it."""
        with tempfile.TemporaryDirectory(prefix="atomfs-") as folder:
            script = pathlib.Path(folder, "script")
            script.write_bytes(SHORT)
            for words in (("draw",), ("draw", str(script)), ("draw", "--robin", "/nowhere"), ("linearize", "--draw")):
                with self.subTest(" ".join(words)):
                    refusal = (
                        b"atomfs: a terminal shows no picture: write it to a file with `> run.svg` after the command"
                    )
                    self.assertEqual(on_one_terminal(SHORT, *words)[:2], (2, [refusal, b""]))
            for words in (("draw", "--html"), ("draw", "--html", "/nowhere"), ("linearize", "--html", "/nowhere")):
                with self.subTest(" ".join(words)):
                    refusal = (
                        b"atomfs: a terminal shows no page: write it to a file with `> run.html` after the command"
                    )
                    self.assertEqual(on_one_terminal(SHORT, *words)[:2], (2, [refusal, b""]))
            self.assertEqual(run(b"", "draw", str(script)), run(SHORT, "draw"))
        self.assertEqual(on_one_terminal(SHORT, "run")[1], run(SHORT, "run").output.split(b"\n"))

    def test_short(self) -> None:
        """What ends at once tells nothing, nor does a command that is none of these."""
        for words in (
            ("run",),
            ("seeds", "--seed", "1", "--runs", "3"),
            ("threads",),
            ("trace",),
            ("draw",),
            ("schedule", "--robin"),
        ):
            with self.subTest(words[0]):
                self.assertEqual(on_terminal(SHORT, *words)[2], b"")
        self.assertEqual(on_terminal(exchanges(1), "linearize")[2], b"")

    def test_fault(self) -> None:
        """The message of a fault stands alone."""
        status, output, told = on_terminal(b"atomfs 1\nthread t\nmkdir /a/\nschedule\n", "run")
        self.assertEqual((status, output), (3, b""))
        self.assertTrue(told.startswith(b"atomfs: line 3"), told)


# A trace of this has each colour of a thread and an error, and a wait.
MEET = b"atomfs 1\nthread m\nmkdir /a\nmkdir /a\nthread r\nrmdir /b\nschedule\nm r m r finish\n"
WRONG = b"atomfs-journal 1\nbegin 1 0 mkdir /a\ncommit 1\nreturn 1 failed EEXIST\n"
IN_COLOURS: tuple[tuple[str, ...], ...] = (
    ("run",),
    ("run", "--robin"),
    ("trace",),
    ("trace", "--every"),
    ("outcomes", "--seed", "1", "--runs", "9", "--all", "--trees"),
    ("seeds", "--seed", "1", "--runs", "2"),
    ("threads", "--journal"),
)
RED, FIRST, SECOND, NO = b"\x1b[31m", b"\x1b[36m", b"\x1b[33m", b"\x1b[0m"


def plain(text: bytes) -> bytes:
    """A text without its escape sequences."""
    return re.sub(rb"\x1b\[\d*m", b"", text)


def spaced(text: bytes) -> bytes:
    """A text with one space between two words, and none at the ends of lines."""
    return re.sub(rb"^ +| +$", b"", re.sub(rb" +", b" ", text), flags=re.M)


def painted(text: bytes) -> bytes:
    """A text in which `{r:word}` is red, and `{1:word}` and `{2:word}` have the colours of the first and the second thread."""
    colours = {b"r": RED, b"1": FIRST, b"2": SECOND}
    return re.sub(rb"\{(\w):([^}]*)\}", lambda found: colours[found[1]] + found[2] + NO, text)


class Colours(Case):
    """What `--color` does, with and without a terminal."""

    def same_words(self, given: bytes, *words: str) -> None:
        """Colours change nothing but colours, and `auto` and `never` have none without a terminal."""
        bare, always = run(given, *words), run(given, *words, "--color", "always")
        if words[0] != "threads":
            self.same(given.decode("latin-1"), (always.status, plain(always.output)), (bare.status, bare.output))
        for when in ("auto", "never"):
            found = run(given, *words, "--color", when)
            self.same(when, (found.status, b"\x1b" in found.output), (bare.status, False))

    def test_words(self) -> None:
        folders = DATA / "worked" / "runs", DATA.parent.parent / "examples"
        rows = [
            (f"{path.name}_{' '.join(words)}", path.read_bytes(), *words)
            for folder in folders
            for path in sorted(folder.glob("*.script"))
            for words in IN_COLOURS
        ]
        self.each(rows, self.same_words)

    def test_which(self) -> None:
        """Threads in the order in which they are named, errors with their names, and faults."""
        rows = (
            (
                MEET,
                ("trace",),
                b"atomfs-trace 2\nthread {1:m}\nthread {2:r}\n1 {1:m#1} begins mkdir /a, call 1\n2 {2:r#1} begins rmdir /b, call 2\n"
                b"3 {1:m#1} locks /\n4 {2:r#1} waits for / held by {1:m#1}\n5 {1:m#1} commits, adds /a\n7 {1:m#1} unlocks /\n"
                b"8 {2:r#1} locks /\n9 {1:m#1} returns ok\n10 {2:r#1} commits, {r:fails} {r:ENOENT}\n11 {1:m#2} begins mkdir /a, call 3\n"
                b"12 {2:r#1} unlocks /\n13 {1:m#2} locks /\n14 {2:r#1} returns {r:failed} {r:ENOENT}\n15 {1:m#2} commits, {r:fails} {r:EEXIST}\n"
                b"17 {1:m#2} unlocks /\n19 {1:m#2} returns {r:failed} {r:EEXIST}\n"
                b"tree\ndir /\ndir /a\nbegun 3 committed 3 returned 3\n",
            ),
            (WRONG, ("check",), b"{r:fault} {r:3} {r:WrongReply}\n"),
            (WRONG.replace(b"commit 1\n", b""), ("linearize",), b"{r:none} {r:2} {r:1}\n"),
            (
                MEET,
                ("outcomes", "--seed", "1", "--runs", "1", "--all"),
                b"1 seed 1 tree DIGEST | {1:m#1} ok | {1:m#2} {r:failed} {r:EEXIST} | {2:r#1} {r:failed} {r:ENOENT}\n",
            ),
        )
        for given, words, wanted in rows:
            output = run(given, *words, "--color", "always").output
            self.same(given.decode(), re.sub(rb"tree [0-9a-f]{16}", b"tree DIGEST", output), painted(wanted))

    def test_objects(self) -> None:
        """What a program reads is never in colours."""
        rows: tuple[tuple[bytes, tuple[str, ...]], ...] = (
            (MEET, ("trace", "--json")),
            (MEET, ("seeds", "--seed", "1", "--runs", "2", "--json")),
            (MEET, ("outcomes", "--seed", "1", "--runs", "2", "--json")),
            (WRONG, ("check", "--json")),
        )
        for given, words in rows:
            self.same(words[0], run(given, *words, "--color", "always"), run(given, *words))

    def test_terminal(self) -> None:
        """On a terminal there are colours, unless NO_COLOR has a value or the option says never."""
        takes_a_process()
        bare = run(MEET, "trace").output
        for more, no_color, has in (
            ((), None, True),
            ((), "", True),
            ((), "1", False),
            (("--color", "never"), None, False),
            (("--color", "auto"), None, True),
            (("--color", "auto"), "1", False),
            (("--color", "always"), "1", True),
        ):
            with self.subTest(f"{more} {no_color}"):
                status, _, told = on_one_terminal(MEET, "trace", *more, no_color=no_color)
                told = told.replace(b"\r\n", b"\n")
                self.assertEqual((status, spaced(plain(told)), b"\x1b" in told), (0, bare, has))


# Threads with names of other lengths, of which one has nothing left; and checkpoints.
NAMES = b"atomfs 1\nthread w\nmkdir /a\nthread reader\nrmdir /a\nstat /\nschedule\nw*6 !checkpoint reader*4 finish\n"
BEGUN = b"atomfs-journal 1\nbegin 1 0 mkdir /a\nbegin 12 10 mkdir /a/b\ncommit 1\nreturn 1 ok\ncommit 12\n"
PIECES = b"990 seed 3 tree 0123456789abcdef | m#1 ok | r#1 failed ENOENT\n9 seed 17 tree 1123456789abcdef | m#1 failed EEXIST | r#1 ok\n"
PIECES += b"1 seed 2000 tree 2123456789abcdef | m#1 ok | r#1 ok\n"


class Layouts(Case):
    """What a terminal shows in columns. Elsewhere every byte is as before."""

    def setUp(self) -> None:
        takes_a_process()

    def test_trace(self) -> None:
        """Events, threads and calls are in columns, which are as wide as the longest; a thread ends where its call begins."""
        _, lines, _ = on_one_terminal(NAMES, "trace", "--every")
        shown = [line.decode() for line in lines]
        self.assertEqual(
            shown[:4], ["atomfs-trace 2", "thread w", "thread reader", " 1       w#1  begins mkdir /a, call 1"]
        )
        self.assertIn(" 6       w    has nothing left", shown)
        self.assertIn("checkpoint, the next call is call 1", shown)
        self.assertIn(" 7  reader#1  begins rmdir /a, call 1", shown)
        self.assertIn("10  reader#1  commits, removes /a", shown)
        self.assertIn("begun 2 committed 2 returned 2", shown)
        bare = run(NAMES, "trace", "--every").output
        self.assertEqual(spaced(b"\n".join(lines)), bare)

    def test_trace_of_a_journal(self) -> None:
        _, lines, _ = on_one_terminal(BEGUN, "trace")
        wanted = [
            b"atomfs-trace 2",
            b"1  call 1 on seat 0    begins mkdir /a",
            b"2  call 12 on seat 10  begins mkdir /a/b",
            b"3  call 1 on seat 0    commits, adds /a",
            b"4  call 1 on seat 0    returns ok",
            b"5  call 12 on seat 10  commits, adds /a/b",
            b"left call 12 on seat 10 mkdir /a/b",
        ]
        self.assertEqual(lines[:7], wanted)

    def test_outcomes(self) -> None:
        """A table with per cent and seeds. An end that came has more than none, and less than all if others came."""
        _, lines, _ = on_one_terminal(PIECES, "outcomes", "--add")
        wanted = [
            b"990  (99.0%)  seed    3  tree 0123456789abcdef | m#1 ok            | r#1 failed ENOENT",
            b"  9   (0.9%)  seed   17  tree 1123456789abcdef | m#1 failed EEXIST | r#1 ok",
            b"  1   (0.1%)  seed 2000  tree 2123456789abcdef | m#1 ok            | r#1 ok",
            b"",
        ]
        self.assertEqual(lines, wanted)
        bracket = PIECES.replace(b"failed ENOENT", b"names (a ((b")
        self.assertIn(b"| r#1 names (a ((b", on_one_terminal(bracket, "outcomes", "--add")[1][0])
        most = PIECES.replace(b"990 ", b"9999990 ")
        shares = [re.findall(rb"\((.*?)\)", line) for line in on_one_terminal(most, "outcomes", "--add")[1]]
        self.assertEqual(shares, [[b"99.9%"], [b"0.1%"], [b"0.1%"], []])
        one = on_one_terminal(MEET, "outcomes", "--seed", "1", "--runs", "7", "--trees")[1]
        bare = run(MEET, "outcomes", "--seed", "1", "--runs", "7", "--trees")
        self.assertEqual(spaced(re.sub(rb"\(\S*%\)", b"", b"\n".join(one))), bare.output + bare.message)
        self.assertRegex(one[0], rb"^\d+ +\(\d+\.\d%\)  seed +\d+  tree [0-9a-f]{16}")

    def test_examples_of_the_page(self) -> None:
        """docs/COMMANDS.md shows what a terminal does of lines of ends."""
        page = (DATA.parent.parent / "docs" / "COMMANDS.md").read_bytes()
        table, *_ = re.findall(rb"^```\n(.*?)^```$", page, re.M | re.S)
        given = spaced(re.sub(rb"\(\S*%\)", b"", table))
        self.assertEqual(b"\n".join(on_one_terminal(given, "outcomes", "--add")[1]), table)

    def test_entry_at_fault(self) -> None:
        """`check` and `linearize` show the line of the entry at fault and three before it: in red, if there are colours, and before what is wrong with it."""
        wrong = (DATA.parent.parent / "examples" / "wrong_reply.journal").read_bytes()
        history = WRONG.replace(b"commit 1\n", b"\tbegin 2 9 stat /\\\r\n# \xff" + b"x" * 90 + b"\n")
        page = (DATA.parent.parent / "docs" / "COMMANDS.md").read_bytes()
        _, shown, *_ = re.findall(rb"^```\n(.*?)^```$", page, re.M | re.S)
        cut = b"# \\xff" + b"x" * 71 + b"..."
        rows = (
            (wrong, ("check",), shown),
            (
                history.replace(b"\tbegin 2 9 stat /\\\r\n", b""),
                ("linearize",),
                b"       1 | atomfs-journal 1\n       2 | begin 1 0 mkdir /a\n       3 | "
                + cut
                + b"\n>      4 | return 1 failed EEXIST\n",
            ),
        )
        for given, words, excerpt in rows:
            bare = run(given, *words)
            told = bare.output + excerpt + bare.message
            self.assertEqual(on_one_terminal(given, *words)[2].replace(b"\r\n", b"\n"), told)
            _, _, coloured = on_one_terminal(given, *words, no_color=None)
            *_, marked = excerpt.splitlines()
            self.assertIn(RED + marked + NO + b"\r\n", coloured)
            self.assertEqual(plain(coloured).replace(b"\r\n", b"\n"), told)
            # Standard error alone is a terminal: what a program reads there is as before.
            self.assertEqual(on_terminal(given, *words)[2].replace(b"\r\n", b"\n"), bare.message)
        late = b"atomfs-journal 1\n" + b"#\n" * 40_000 + WRONG.partition(b"\n")[2]
        self.assertEqual(
            on_one_terminal(late, "check")[1],
            run(late, "check").output.split(b"\n")[:1] + run(late, "check").message.split(b"\n"),
        )
        lawful = WRONG.replace(b"failed EEXIST", b"ok")
        self.assertEqual(on_one_terminal(lawful, "check")[1], [b"lawful", b""])

    def test_columns_and_colours(self) -> None:
        """Columns are of a terminal, in colours or not; colours elsewhere bring none."""
        bare = run(MEET, "trace").output
        _, _, told = on_one_terminal(MEET, "trace", "--color", "never", no_color=None)
        _, _, coloured = on_one_terminal(MEET, "trace", no_color=None)
        self.assertEqual(told, plain(coloured))
        self.assertNotEqual(told.replace(b"\r\n", b"\n"), bare)
        self.assertEqual(plain(run(MEET, "trace", "--color", "always").output), bare)
        for words in (("trace", "--json"), ("run",), ("schedule", "--robin")):
            self.assertEqual(on_one_terminal(MEET, *words)[1], run(MEET, *words).output.split(b"\n"))


if __name__ == "__main__":
    unittest.main()
