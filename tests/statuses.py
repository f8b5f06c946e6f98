"""The command line of the program, the statuses that it ends with and what it tells: each word, range and status of docs/FORMATS.md.

tests/data/help has the help of the program and of its commands. A device that fails, status 5, is looked at in tests/devices.py; `atomfs: full`, which
only a run from a tree can tell, in tests/starts.py.
"""
import hashlib
import pathlib
import re
import resource
import shlex
import typing
import unittest

import harness
from harness import DATA, ROOT, Case, Outcome, match_in, run, spawned, takes_a_process, with_line

HELP = DATA / "help"
MEBIBYTE = 2**20
MOVED = DATA / "starts" / "moved"
HELPED, ONE_CALL, CUT = (DATA / "worked" / "runs" / name for name in ("helped_mkdir", "first_mkdir", "first_mkdir_cut"))
# What the program says to try first, as it can be pasted into a shell.
ONE_CALL_PASTED = r"printf 'atomfs 1\nthread t\nmkdir /a\nschedule\nfinish\n' | atomfs run"
EMPTY = b"atomfs 1\nschedule\n"
DIGEST = hashlib.sha256(b"tree\ndir /\ndir /a\n").hexdigest()[:16].encode()
# The third call is not begun, and the second is under way.
THREE_CALLS = b"atomfs 1\nthread t\nmkdir /a\nmkdir /b\nmkdir /c\nschedule\nt*9\n"
NINE_EVENTS = b"""atomfs-journal 1
begin 1 0 mkdir /a
commit 1
return 1 ok
begin 2 0 mkdir /b
commit 2
tree
dir /
dir /a
dir /b
begun 2 committed 2 returned 1
"""
NO_CALL_BEGUN = b"atomfs-journal 1\ntree\ndir /\nbegun 0 committed 0 returned 0\n"
WRONG = b"atomfs-journal 1\nbegin 1 0 mkdir /a\ncommit 1\nreturn 1 failed EEXIST\n"
SLASH = b"atomfs 1\nthread t\nmkdir /a/\nschedule\n"
COMMANDS = (
    ("run",),
    ("run", "--robin"),
    ("run", "--seed", "1"),
    ("seeds", "--seed", "1", "--runs", "2"),
    ("outcomes", "--seed", "1", "--runs", "2"),
    ("tree",),
    ("threads",),
    ("check",),
    ("trace",),
    ("draw",),
    ("draw", "--html"),
    ("schedule", "--robin"),
)
# How much is seen in three runs of one call.
ONE_END = b'{"runs":3,"outcomes":1,"new":1,"lately":3,"met":0,"pairs":0}\n'
# What `atomfs explain` knows. tests/documents.py looks at each.
KINDS = match_in(r"possible values: (.*)\]", (HELP / "explain").read_text())[1].split(", ")
NOT_UTF_8 = Outcome(2, b"", b"atomfs: an argument is not UTF-8\n")


def of(example: pathlib.Path, ending: str = "script") -> bytes:
    return example.with_suffix(f".{ending}").read_bytes()


def well(example: pathlib.Path, ending: str = "text") -> Outcome:
    return Outcome(0, of(example, ending))


def lawful(first: int, runs: int) -> Outcome:
    return Outcome(0, b"".join(b"seed %d lawful\n" % seed for seed in range(first, first + runs)))


def malformed(fault: str) -> Outcome:
    return Outcome(3, b"", f"atomfs: {fault}\n".encode())


def misused(what: str, usage: str | None = None) -> Outcome:
    """The end of a command line that asks for nothing which the program does."""
    lines = [f"error: {what}", *([f"Usage: atomfs {usage}"] if usage else []), "For more information, try '--help'.\n"]
    return Outcome(2, b"", "\n\n".join(lines).encode())


def unexpected(word: str, usage: str | None) -> Outcome:
    """An option that a command which takes a file has not."""
    return misused(f"unexpected argument '{word}' found\n\n  tip: to pass '{word}' as a value, use '-- {word}'", usage)


def unread(value: object, option: str, why: str) -> Outcome:
    return misused(f"invalid value '{value}' for '{option}': {why}")


def no_kind(word: str, argument: str, tip: str = "") -> Outcome:
    return misused(f"invalid value '{word}' for '{argument}'\n  [possible values: {', '.join(KINDS)}]{tip}")


class Words(Case):
    """The words of the command line."""

    def ends(self, words: tuple[str, ...], given: bytes, wanted: Outcome) -> None:
        shown = given.decode(errors="backslashreplace")
        self.same(f"atomfs {shlex.join(words)}\n{shown}", run(given, *words), with_line(wanted, given))

    def all_end(self, rows: typing.Iterable[tuple[str, str, bytes, Outcome]]) -> None:
        """Looks at rows of a name, words as a shell has them, an input, and the outcome."""
        self.each(((name, tuple(shlex.split(words)), *rest) for name, words, *rest in rows), self.ends)

    def test_commands(self) -> None:
        self.all_end(
            (words, words, given, wanted)
            for words, given, wanted in (
                ("run", of(HELPED), well(HELPED)),
                ("run --robin", of(HELPED), well(HELPED, "robin.text")),
                ("run --seed 7", of(HELPED), well(HELPED, "drawn.text")),
                ("run --seed=7", of(HELPED), well(HELPED, "drawn.text")),
                ("run --seed 0", of(ONE_CALL), well(ONE_CALL)),
                (f"run --from {MOVED}.tree", of(MOVED), well(MOVED)),
                ("run --seed 18446744073709551615", of(ONE_CALL), well(ONE_CALL)),
                ("seeds --seed 7 --runs 3", of(HELPED), lawful(7, 3)),
                ("seeds --seed=7 --runs=3", of(HELPED), lawful(7, 3)),
                ("seeds --runs 1 --seed 0", of(HELPED), lawful(0, 1)),
                ("seeds --seed 9223372036854775807 --runs 2", of(HELPED), lawful(9_223_372_036_854_775_807, 2)),
                ("seeds --seed 1 --runs 10000", EMPTY, lawful(1, 10_000)),
                (f"seeds --seed 7 --runs 3 --from {MOVED}.tree", of(MOVED), lawful(7, 3)),
                (f"seeds --from={MOVED}.text --seed=7 --runs=3", of(MOVED), lawful(7, 3)),
                (
                    "tree",
                    of(HELPED),
                    Outcome(0, b"tree\n" + of(HELPED, "text").partition(b"\ntree\n")[2].rpartition(b"begun ")[0]),
                ),
                ("tree --seed=7 --at=0", of(ONE_CALL), Outcome(0, b"tree\ndir /\n")),
                ("tree --robin --before t#1", of(ONE_CALL), Outcome(0, b"tree\ndir /\n")),
                ("tree --who /a", of(ONE_CALL), Outcome(0, b"commit 1 call 1 t#1 mkdir /a\n")),
                (
                    "seeds --seed 7 --runs 2 --json",
                    of(HELPED),
                    Outcome(0, b'{"seed":7,"lawful":true}\n{"seed":8,"lawful":true}\n'),
                ),
                (
                    "outcomes --seed 7 --runs 3 --json --all",
                    of(ONE_CALL),
                    Outcome(0, b'{"times":3,"seed":7,"digest":"%s","replies":{"t#1":"ok"}}\n%s' % (DIGEST, ONE_END)),
                ),
                (
                    "outcomes --seed 7 --runs 3 --never 'helped t#1' --always 'tree dir /' --json --all",
                    of(ONE_CALL),
                    Outcome(0, b'{"times":3,"seed":7,"digest":"%s","replies":{"t#1":"ok"}}\n%s' % (DIGEST, ONE_END)),
                ),
                (
                    "find --where 'helped t#1' --seed 7 --runs 3 --json",
                    of(ONE_CALL),
                    Outcome(1, b'{"seed":null}\n', b"atomfs: no run of 3 from seed 7 on has it\n"),
                ),
                ("threads", of(HELPED), Outcome(0, b"lawful calls 4\n")),
                ("threads --journal", of(ONE_CALL), Outcome(0, of(ONE_CALL, "text").partition(b"tree\n")[0])),
                ("check", of(HELPED, "text"), Outcome(0, b"lawful\n")),
                ("check --json", of(HELPED, "text"), Outcome(0, b'{"lawful":true}\n')),
                ("trace", of(HELPED), Outcome(0, (DATA / "traces" / "helped_mkdir.trace").read_bytes())),
                ("draw", of(HELPED), Outcome(0, (DATA / "pictures" / "helped_mkdir.svg").read_bytes())),
                (
                    "draw --seed 7",
                    of(HELPED, "text"),
                    Outcome(0, (DATA / "pictures" / "helped_mkdir_journal.svg").read_bytes()),
                ),
                ("schedule --robin", of(ONE_CALL), Outcome(0, b"atomfs 1\nthread t\nmkdir /a\nschedule\nt*5\n")),
                ("--version", b"", Outcome(0, f"atomfs {harness.declared().version}\n".encode())),
                ("-V", b"", Outcome(0, f"atomfs {harness.declared().version}\n".encode())),
            )
        )

    def test_calls_left(self) -> None:
        """Only a run by the script's own schedule ends with any."""
        self.all_end(
            (
                ("one under way", "run", of(CUT), Outcome(1, of(CUT, "text"))),
                ("one under way, and one not begun", "run", THREE_CALLS, Outcome(1, NINE_EVENTS)),
                ("all not begun", "run", THREE_CALLS.removesuffix(b"t*9\n"), Outcome(1, NO_CALL_BEGUN)),
                ("there are none", "run", EMPTY, Outcome(0, NO_CALL_BEGUN)),
                ("none by round robin", "run --robin", of(CUT), well(CUT, "robin.text")),
                ("none of a drawn run", "run --seed 7", of(CUT), well(CUT, "drawn.text")),
                ("none of drawn runs", "seeds --seed 7 --runs 3", of(CUT), lawful(7, 3)),
                ("none on threads", "threads", of(CUT), Outcome(0, b"lawful calls 1\n")),
                (
                    "told by a trace",
                    "trace",
                    THREE_CALLS.replace(b"t*9", b"t*1"),
                    Outcome(
                        1,
                        b"atomfs-trace 2\nthread t\n1 t#1 begins mkdir /a, call 1\nleft t#1 mkdir /a\nleft t unbegun mkdir /b\nleft t unbegun mkdir /c\ntree\ndir /\nbegun 1 committed 0 returned 0\n",
                    ),
                ),
                ("there are none on threads", "threads", EMPTY, Outcome(0, b"lawful calls 0\n")),
            )
        )

    def test_faults_of_the_input(self) -> None:
        self.all_end(
            (
                (
                    "a journal that is not lawful",
                    "check",
                    WRONG,
                    Outcome(
                        1,
                        b"fault 3 WrongReply\n",
                        b"atomfs: line 4: return 1 failed EEXIST; call 1 is mkdir /a on seat 0; due: ok\n",
                    ),
                ),
                ("a script is checked", "check", of(HELPED), malformed("line 1: BadHeader")),
                ("nothing is checked", "check", b"", malformed("line 1: BadHeader")),
                ("a journal is run", "run", of(HELPED, "text"), malformed("line 1: BadHeader")),
                ("nothing is run", "run --robin", b"", malformed("line 1: BadHeader")),
                ("a journal on threads", "threads", of(HELPED, "text"), malformed("line 1: BadHeader")),
                ("a slash too many", "run", SLASH, malformed("line 3: BadPath TrailingSlash")),
                ("a slash too many by round robin", "run --robin", SLASH, malformed("line 3: BadPath TrailingSlash")),
                ("a slash too many in a drawn run", "run --seed 1", SLASH, malformed("line 3: BadPath TrailingSlash")),
                (
                    "a journal on threads for its journal",
                    "threads --journal",
                    of(HELPED, "text"),
                    malformed("line 1: BadHeader"),
                ),
                (
                    "a journal that is not lawful is traced",
                    "trace",
                    WRONG,
                    Outcome(
                        1,
                        b"atomfs-trace 2\n1 call 1 on seat 0 begins mkdir /a\n2 call 1 on seat 0 commits, adds /a\nleft call 1 on seat 0 mkdir /a\ntree\ndir /\ndir /a\nbegun 1 committed 1 returned 0\n",
                        b"atomfs: fault 3 WrongReply, line 4: return 1 failed EEXIST; call 1 is mkdir /a on seat 0; due: ok\n",
                    ),
                ),
                (
                    "a word that is no line of a journal is traced",
                    "trace",
                    b"atomfs-journal 1\ncommit\n",
                    malformed("line 2: BadLine"),
                ),
                ("a schedule of a journal", "schedule --robin", of(HELPED, "text"), malformed("line 1: BadHeader")),
                ("a slash too many in a trace", "trace", SLASH, malformed("line 3: BadPath TrailingSlash")),
                ("a slash too many in a picture", "draw", SLASH, malformed("line 3: BadPath TrailingSlash")),
                ("a slash too many in a page", "draw --html", SLASH, malformed("line 3: BadPath TrailingSlash")),
                (
                    "a journal of another version is drawn",
                    "draw",
                    b"atomfs-journal 5\n",
                    malformed("line 1: BadHeader"),
                ),
                (
                    "a call that no journal has",
                    "draw --around 5",
                    of(HELPED, "text"),
                    Outcome(2, b"", b"atomfs: there is no call 5\n"),
                ),
                ("a slash too many on threads", "threads", SLASH, malformed("line 3: BadPath TrailingSlash")),
                ("ends of a journal", "outcomes --seed 0 --runs 1", of(HELPED, "text"), malformed("line 1: BadHeader")),
                ("a script is added up", "outcomes --add", of(HELPED), malformed("line 1: BadLine")),
                (
                    "no schedule in drawn runs",
                    "seeds --seed 0 --runs 1",
                    b"atomfs 1\nthread t\nstat /\n",
                    malformed("line 4: NoSchedule"),
                ),
            )
        )

    def test_files(self) -> None:
        """Each command that reads takes the file behind it, and `-` is standard input; of a file that is not there nothing is printed."""
        files = {ending: str(HELPED.with_suffix(ending)) for ending in (".script", ".text")}
        of_script: tuple[str, ...] = (
            "run",
            "run --seed 7",
            "seeds --seed 1 --runs 3",
            "outcomes --seed 1 --runs 3",
            f"outcomes --seed 1 --runs 3 --from {MOVED}.tree",
            "find --where 'helped m#2' --seed 1 --runs 9",
        )
        of_script += (
            "shrink --where 'tree dir /'",
            "tree --robin",
            "threads",
            "trace --every",
            "draw --robin",
            "draw --html",
            "schedule --seed 7",
        )
        commands = [(words, ".script") for words in of_script]
        commands += [
            (words, ".text") for words in ("check", "check --json", "tree --at 1", "trace", "draw", "draw --html")
        ]

        def alike(words: tuple[str, ...], name: str) -> None:
            with open(name, "rb") as file:
                wanted = run(file.read(), *words)
            self.same(f"{words} behind the words", run(b"", *words, name), wanted)
            self.same(f"{words} before the options", run(b"", words[0], name, *words[1:]), wanted)
            with open(name, "rb") as file:
                self.same(f"{words} of standard input", run(file.read(), *words, "-"), wanted)

        self.each(((words, tuple(shlex.split(words)), files[ending]) for words, ending in commands), alike)
        self.all_end(
            (
                f"{words} of a file that is not there",
                f"{words} /nowhere/at/all",
                of(HELPED),
                Outcome(5, b"", b"atomfs: /nowhere/at/all: no such file\n"),
            )
            for words, _ in (*commands, ("linearize", ""), ("linearize --many", ""), ("outcomes --add", ""))
        )
        from_nowhere = f"--from /nowhere {files['.script']}"
        no_tree = Outcome(5, b"", b"atomfs: /nowhere: no such file\n")
        self.all_end(
            (
                ("a tree that is not there", f"run {from_nowhere}", b"", no_tree),
                ("no tree of drawn runs", f"seeds --seed 1 --runs 1 {from_nowhere}", b"", no_tree),
                ("no tree of ends", f"outcomes --seed 1 --runs 1 {from_nowhere}", b"", no_tree),
                # find and shrink
                ("no tree of a search", f"find --where 'tree dir /' --seed 1 --runs 1 {from_nowhere}", b"", no_tree),
                ("no tree of a smaller script", f"shrink --where 'tree dir /' {from_nowhere}", b"", no_tree),
                (
                    "below a file",
                    f"run {files['.script']}/x",
                    b"",
                    Outcome(5, b"", f"atomfs: {files['.script']}/x: no such file\n".encode()),
                ),
                ("a folder", "run /", b"", Outcome(5, b"", b"atomfs: read failed\n")),
                ("no name", "run ''", b"", Outcome(5, b"", b"atomfs: : no such file\n")),
            )
        )

    def test_lines_of_faults(self) -> None:
        """The message of a fault shows its line, and says what a text is whose first line is another than it has to be."""
        begun, long = b"atomfs 1\nthread t\n", b"x" * 100
        header, end = "line 1: BadHeader", "`atomfs explain BadHeader` says what to write instead"
        rows = (
            (
                "a word",
                "run",
                begun + b"mkdr /a\n",
                ("line 3: BadLine", "  mkdr /a", "`atomfs explain BadLine` says what to write instead"),
            ),
            (
                "control bytes",
                "run",
                begun + b"\tmk\x1b[1mdir\\ \xc3\xa9\r\n",
                (
                    "line 3: BadLine",
                    "  \\tmk\\x1b[1mdir\\\\ \\xc3\\xa9\\r",
                    "`atomfs explain BadLine` says what to write instead",
                ),
            ),
            (
                "80 columns",
                "run",
                begun + long[:80],
                ("line 3: BadLine", "  " + "x" * 80, "`atomfs explain BadLine` says what to write instead"),
            ),
            (
                "81 columns",
                "run",
                begun + long[:81],
                ("line 3: BadLine", "  " + "x" * 77 + "...", "`atomfs explain BadLine` says what to write instead"),
            ),
            (
                "an escape at the end",
                "run",
                begun + long[:79] + b"\x01",
                ("line 3: BadLine", "  " + "x" * 77 + "...", "`atomfs explain BadLine` says what to write instead"),
            ),
            (
                "two words of a fault",
                "run",
                begun + b"mkdir a\n",
                (
                    "line 3: BadPath NotAbsolute",
                    "  mkdir a",
                    "`atomfs explain BadPath NotAbsolute` says what to write instead",
                ),
            ),
            (
                "behind the last line",
                "run",
                begun,
                ("line 3: NoSchedule", "`atomfs explain NoSchedule` says what to write instead"),
            ),
            ("nothing", "run", b"", (header, "the text is empty", end)),
            ("an empty line", "run", b"\n", (header, end)),
            ("another text", "check", b"hello\n", (header, "  hello", end)),
            (
                "a journal",
                "run",
                b"atomfs-journal 1\n",
                (header, "  atomfs-journal 1", "this is a journal: `atomfs check` reads it", end),
            ),
            (
                "a journal with a start tree",
                "seeds --seed 1 --runs 1",
                b"atomfs-journal 4\nstart\n",
                (header, "  atomfs-journal 4", "this is a journal: `atomfs check` reads it", end),
            ),
            ("a journal of no version", "draw", b"atomfs-journal 5\n", (header, "  atomfs-journal 5", end)),
            (
                "a script",
                "check",
                b"atomfs 3\n",
                (header, "  atomfs 3", "this is a script: `atomfs run` reads it", end),
            ),
            (
                "a script for threads",
                "linearize",
                b"atomfs 1\nthread t",
                (header, "  atomfs 1", "this is a script: `atomfs run` reads it", end),
            ),
            (
                "a tree",
                "trace",
                b"tree\ndir /\n",
                (header, "  tree", "this is a tree: `atomfs run --from` reads it", end),
            ),
            (
                "a trace",
                "tree",
                b"atomfs-trace 2\n",
                (header, "  atomfs-trace 2", "this is a trace, which no command reads", end),
            ),
            (
                "CR LF",
                "threads",
                b"atomfs 1\r\nthread t\r\n",
                (header, "  atomfs 1\\r", "the lines end with CR LF: write LF alone", end),
            ),
            (
                "a byte order mark",
                "shrink --where 'helped t#1'",
                b"\xef\xbb\xbfatomfs 1\n",
                (
                    header,
                    "  \\xef\\xbb\\xbfatomfs 1",
                    "the text begins with a byte order mark: write it without one",
                    end,
                ),
            ),
        )
        self.all_end(
            (name, words, given, Outcome(3, b"", "".join(f"atomfs: {line}\n" for line in told).encode()))
            for name, words, given, told in rows
        )

    def test_usage(self) -> None:
        """The words are `clap`'s. Nothing is run, though the input is a script."""
        program, of_run, of_seeds, of_explain = (
            "<COMMAND>",
            "run [OPTIONS] [FILE]",
            "seeds --seed <N> --runs <K> [OPTIONS] [FILE]",
            "explain <KIND> [KIND]",
        )
        of_outcomes = "outcomes <--seed <N> --runs <K>|--add> [OPTIONS] [FILE]"
        missing = "the following required arguments were not provided:"
        self.all_end(
            (words, words, of(ONE_CALL), wanted)
            for words, wanted in (
                ("", misused(f"no command is given\n\nTry first a script of one call:\n  {ONE_CALL_PASTED}", program)),
                ("walk", misused("unrecognized subcommand 'walk'", program)),
                ("RUN", misused("unrecognized subcommand 'RUN'", program)),
                ("''", misused("unrecognized subcommand ''", program)),
                ("läuft", misused("unrecognized subcommand 'läuft'", program)),
                ("help walk", misused("unrecognized subcommand 'walk'", program)),
                ("rnu", misused("unrecognized subcommand 'rnu'\n\n  tip: a similar subcommand exists: 'run'", program)),
                (
                    "chek",
                    misused("unrecognized subcommand 'chek'\n\n  tip: a similar subcommand exists: 'check'", program),
                ),
                (
                    "outcome",
                    misused(
                        "unrecognized subcommand 'outcome'\n\n  tip: a similar subcommand exists: 'outcomes'", program
                    ),
                ),
                (
                    "linearise",
                    misused(
                        "unrecognized subcommand 'linearise'\n\n  tip: a similar subcommand exists: 'linearize'",
                        program,
                    ),
                ),
                (
                    "lineraise --many",
                    misused(
                        "unrecognized subcommand 'lineraise'\n\n  tip: a similar subcommand exists: 'linearize'",
                        program,
                    ),
                ),
                ("--robin", misused("unexpected argument '--robin' found", program)),
                ("run --fast", unexpected("--fast", of_run)),
                ("run --version", unexpected("--version", of_run)),
                ("run a b", misused("unexpected argument 'b' found", of_run)),
                ("run --robin --robin", misused("the argument '--robin' cannot be used multiple times", of_run)),
                ("run --robin=1", misused("unexpected value '1' for '--robin' found; no more were expected", of_run)),
                ("run --robin --seed 1", misused("the argument '--robin' cannot be used with '--seed <N>'", of_run)),
                ("run --seed 1 --seed 2", misused("the argument '--seed <N>' cannot be used multiple times", of_run)),
                ("run --seed", misused("a value is required for '--seed <N>' but none was supplied")),
                ("run --seed=", unread("", "--seed <N>", "cannot parse integer from empty string")),
                ("run --seed x", unread("x", "--seed <N>", "invalid digit found in string")),
                ("run --seed=-1", unread("-1", "--seed <N>", "invalid digit found in string")),
                (
                    "run --seed 18446744073709551616",
                    unread(2**64, "--seed <N>", "number too large to fit in target type"),
                ),
                ("run --from", misused("a value is required for '--from <TREE>' but none was supplied")),
                (
                    "run --from a --from b",
                    misused("the argument '--from <TREE>' cannot be used multiple times", of_run),
                ),
                ("threads --from a", unexpected("--from", "threads [OPTIONS] [FILE]")),
                ("check --from a", unexpected("--from", "check [OPTIONS] [FILE]")),
                (
                    "seeds --seed 1 --runs 1 --from",
                    misused("a value is required for '--from <TREE>' but none was supplied"),
                ),
                (
                    "seeds --from a --seed 1 --runs 1 --from b",
                    misused("the argument '--from <TREE>' cannot be used multiple times", of_seeds),
                ),
                ("seeds --from a", misused(f"{missing}\n  --seed <N>\n  --runs <K>", of_seeds)),
                ("seeds", misused(f"{missing}\n  --seed <N>\n  --runs <K>", of_seeds)),
                ("seeds --runs 1", misused(f"{missing}\n  --seed <N>", of_seeds)),
                ("seeds --seed 1", misused(f"{missing}\n  --runs <K>", of_seeds)),
                (
                    "seeds --seed 9223372036854775808 --runs 1",
                    unread(2**63, "--seed <N>", f"{2**63} is not in 0..={2**63 - 1}"),
                ),
                ("seeds --seed 7 --runs 0", unread(0, "--runs <K>", "0 is not in 1..=10000")),
                ("seeds --seed 7 --runs 10001", unread(10_001, "--runs <K>", "10001 is not in 1..=10000")),
                (
                    "find",
                    misused(
                        f"{missing}\n  --where <WHAT>\n  --seed <N>\n  --runs <K>",
                        "find --where <WHAT> --seed <N> --runs <K> [OPTIONS] [FILE]",
                    ),
                ),
                ("find --where 'tree dir /' --seed 7 --runs 0", unread(0, "--runs <K>", "0 is not in 1..=1000000")),
                (
                    "find --where 'tree dir /' --seed 7 --runs 1000001",
                    unread(1_000_001, "--runs <K>", "1000001 is not in 1..=1000000"),
                ),
                ("shrink", misused(f"{missing}\n  --where <WHAT>", "shrink --where <WHAT> [OPTIONS] [FILE]")),
                (
                    "shrink --where 'tree dir /' --seed 7",
                    unexpected("--seed", "shrink --where <WHAT> [OPTIONS] [FILE]"),
                ),
                ("tree --at x", unread("x", "--at <N>", "invalid digit found in string")),
                (
                    "tree --at 1 --before a#1",
                    misused("the argument '--at <N>' cannot be used with '--before <CALL>'", "tree [OPTIONS] [FILE]"),
                ),
                (
                    "tree --who / --before a#1",
                    misused(
                        "the argument '--who <PATH>' cannot be used with '--before <CALL>'", "tree [OPTIONS] [FILE]"
                    ),
                ),
                ("threads --seed 1", unexpected("--seed", "threads [OPTIONS] [FILE]")),
                ("check - now", misused("unexpected argument 'now' found", "check [OPTIONS] [FILE]")),
                ("outcomes", misused(f"{missing}\n  --seed <N>\n  --runs <K>", of_outcomes)),
                ("outcomes --seed 1", misused(f"{missing}\n  --runs <K>", of_outcomes)),
                ("outcomes --seed 1 --runs 0", unread(0, "--runs <K>", "0 is not in 1..=1000000")),
                ("outcomes --seed 1 --runs 1000001", unread(1_000_001, "--runs <K>", "1000001 is not in 1..=1000000")),
                (
                    "outcomes --add --runs 1",
                    misused("the argument '--add' cannot be used with '--runs <K>'", of_outcomes),
                ),
                ("outcomes --from a --seed 1", misused(f"{missing}\n  --runs <K>", of_outcomes)),
                (
                    "outcomes --add --from a",
                    misused("the argument '--add' cannot be used with '--from <TREE>'", of_outcomes),
                ),
                (
                    "outcomes --from a --add",
                    misused("the argument '--from <TREE>' cannot be used with '--add'", of_outcomes),
                ),
                ("outcomes --add --trees", misused("the argument '--add' cannot be used with '--trees'", of_outcomes)),
                (
                    "outcomes --add --sometimes 'helped t#1'",
                    misused("the argument '--add' cannot be used with '--sometimes <WHAT>'", of_outcomes),
                ),
                (
                    "linearize --front --many",
                    misused("the argument '--front' cannot be used with '--many'", "linearize [OPTIONS] [FILE]"),
                ),
                (
                    "linearize --core --front",
                    misused("the argument '--core' cannot be used with '--front'", "linearize [OPTIONS] [FILE]"),
                ),
                (
                    "linearize --many --core",
                    misused("the argument '--many' cannot be used with '--core'", "linearize [OPTIONS] [FILE]"),
                ),
                *(
                    (
                        f"linearize {words}",
                        misused(
                            f"the argument '{words.split()[0]}' cannot be used with '{words.split()[1]}'",
                            "linearize [OPTIONS] [FILE]",
                        ),
                    )
                    for words in ("--draw --front", "--html --front", "--html --draw", "--many --draw", "--core --html")
                ),
                *(
                    (
                        f"linearize --learn {other}",
                        misused(f"the argument '--learn' cannot be used with '{name}'", "linearize [OPTIONS] [FILE]"),
                    )
                    for other, name in (
                        ("--front", "--front"),
                        ("--draw", "--draw"),
                        ("--html", "--html"),
                        ("--core", "--core"),
                        ("--as linux", "--as <TREE>"),
                        ("--failing x", "--failing <DIR>"),
                        ("--limit 7", "--limit <N>"),
                    )
                ),
                (
                    "linearize --many --many",
                    misused("the argument '--many' cannot be used multiple times", "linearize [OPTIONS] [FILE]"),
                ),
                ("linearize --limit 0", unread(0, "--limit <N>", "0 is not in 1..=1000000000")),
                ("trace --all", unexpected("--all", "trace [OPTIONS] [FILE]")),
                (
                    "trace --robin --seed 1",
                    misused("the argument '--robin' cannot be used with '--seed <N>'", "trace [OPTIONS] [FILE]"),
                ),
                ("draw --around -1", unexpected("-1", "draw [OPTIONS] [FILE] > PICTURE")),
                ("draw --around x", unread("x", "--around <NUMBER>", "invalid digit found in string")),
                (
                    "draw --html --around 1",
                    misused(
                        "the argument '--html' cannot be used with '--around <NUMBER>'",
                        "draw [OPTIONS] [FILE] > PICTURE",
                    ),
                ),
                (
                    "schedule --robin --seed 1",
                    misused(
                        "the argument '--robin' cannot be used with '--seed <N>'",
                        "schedule [OPTIONS] [FILE]",
                    ),
                ),
                ("explain", misused(f"{missing}\n  <KIND>", of_explain)),
                ("explain Slash", no_kind("Slash", "<KIND>")),
                ("explain badpath", no_kind("badpath", "<KIND>", "\n\n  tip: a similar value exists: 'BadPath'")),
                ("explain BadPath Slash", no_kind("Slash", "[KIND]")),
                ("explain BadPath Dot Nul", misused("unexpected argument 'Nul' found", of_explain)),
            )
        )

    def test_help(self) -> None:
        rows = [(words, "atomfs") for words in ("help", "--help", "-h")]
        rows += [
            (words, name)
            for name in (
                "run",
                "seeds",
                "outcomes",
                "find",
                "shrink",
                "tree",
                "threads",
                "check",
                "linearize",
                "trace",
                "draw",
                "schedule",
                "explain",
            )
            for words in (f"help {name}", f"{name} --help", f"{name} -h")
        ]
        self.all_end((words, words, b"", Outcome(0, (HELP / name).read_bytes())) for words, name in rows)

    def pasted(self, line: str) -> tuple[str, bytes]:
        """The words and the input of an example: `WORDS FILE`, up to a pipe or `> FILE`, `printf TEXT | WORDS`, or words without a file."""
        first, *behind = line.strip().split(" > ")[0].split(" | ")
        if first.startswith("printf "):
            return behind[0], shlex.split(first)[1].replace("\\n", "\n").encode()
        return first.replace(" examples/", f" {ROOT}/examples/"), b""

    def do_the_example(self, name: str) -> None:
        """The last line of a help is done."""
        line = (HELP / name).read_text().splitlines()[-1]
        words, given = self.pasted(line)
        came = run(given, *shlex.split(words)[1:])
        # A search tells the seed that it found, and `outcomes` how much was seen.
        message = re.sub(rb"^atomfs: (seed \d+|calls .*)\n$", b"", harness.SEEN.sub(b"", came.message))
        self.same(line, (came.status, message), (0, b""))

    def test_examples_of_the_help(self) -> None:
        self.each(((path.name, path.name) for path in sorted(HELP.iterdir())), self.do_the_example)


class Process(Case):
    """What takes a process of its own: arguments that are no text, too little memory, and messages that nobody takes."""

    def setUp(self) -> None:
        takes_a_process()

    def ends(self, words: typing.Sequence[str], given: bytes, wanted: Outcome, **other: typing.Any) -> None:
        self.same(f"atomfs {words}", spawned(words, given, **other), wanted)

    def test_arguments_that_are_not_utf_8(self) -> None:
        self.each(
            (
                ("the command", (b"\xff",), of(ONE_CALL), NOT_UTF_8),
                ("an option", ("run", b"--\xff"), of(ONE_CALL), NOT_UTF_8),
                ("a number", ("run", "--seed", b"7\xff"), of(ONE_CALL), NOT_UTF_8),
            ),
            self.ends,
        )

    def starve(self, words: tuple[str, ...]) -> None:
        """A text as long as may be, in no more memory than it has bytes."""
        header = b"atomfs-journal 1\n" if words == ("check",) else EMPTY
        confine = lambda: resource.setrlimit(resource.RLIMIT_AS, (16 * MEBIBYTE, 16 * MEBIBYTE))
        self.ends(
            words, header.ljust(16 * MEBIBYTE, b"#"), Outcome(4, b"", b"atomfs: out of memory\n"), preexec_fn=confine
        )

    def test_out_of_memory(self) -> None:
        self.each(((" ".join(words), words) for words in COMMANDS), self.starve)

    def test_no_worker(self) -> None:
        """A thread's stack takes more memory than there is."""

        def confine() -> None:
            resource.setrlimit(resource.RLIMIT_STACK, (64 * MEBIBYTE, resource.getrlimit(resource.RLIMIT_STACK)[1]))
            resource.setrlimit(resource.RLIMIT_AS, (48 * MEBIBYTE, 48 * MEBIBYTE))

        self.ends(("threads",), of(ONE_CALL), Outcome(4, b"", b"atomfs: no worker\n"), preexec_fn=confine)
        self.ends(("run",), of(ONE_CALL), well(ONE_CALL), preexec_fn=confine)

    def unheard(self, words: tuple[str, ...], given: bytes, status: int) -> None:
        with open("/dev/full", "wb") as full:
            self.ends(words, given, Outcome(status), stdout=full, stderr=full)

    def test_messages_that_nobody_takes(self) -> None:
        """The status says it all the same, and a write that failed before all else."""
        self.each(
            (
                ("usage", ("walk",), b"", 2),
                ("not UTF-8", (b"\xff",), b"", 2),
                ("a script with a fault", ("run",), SLASH, 3),
                ("a script as a journal", ("check",), of(HELPED), 3),
                ("a script as a tree", ("run", "--from", f"{MOVED}.script"), of(MOVED), 3),
                ("no file", ("run", "--from", f"{MOVED}.missing"), of(MOVED), 5),
                (
                    "a script as the tree of ends",
                    ("outcomes", "--seed", "1", "--runs", "1", "--from", f"{MOVED}.script"),
                    of(MOVED),
                    3,
                ),
                ("a run", ("run",), of(ONE_CALL), 5),
                ("a run with calls left", ("run",), of(CUT), 5),
                ("a journal that is not lawful", ("check",), WRONG, 5),
                ("a trace", ("trace",), of(ONE_CALL), 5),
                ("a tree of commits", ("tree",), of(ONE_CALL), 5),
                ("a picture", ("draw",), of(ONE_CALL), 5),
                ("a page", ("draw", "--html"), of(ONE_CALL), 5),
                ("what a fault means", ("explain", "Dot"), b"", 5),
            ),
            self.unheard,
        )


if __name__ == "__main__":
    unittest.main()
