"""What README and the pages of docs/ and examples/ show: each example, command, path and number that can be compared with what it speaks of.

A row is what a page says. It is compared with what the program answers, a stored run, a source of the repository, or a count by the page's own rule.

`python3 tests/documents.py --names CALL` prints the files that a further call like this one touches, and `--limit NAME` those that a change of a limit
touches.
"""
import collections
import functools
import os
import pathlib
import re
import shlex
import shutil
import subprocess
import sys
import typing
import unittest

import harness
import model
import unproved
from harness import DATA, ROOT, Case, Outcome, match_in, run
from promised import promises

README, EXAMPLES, DOCS = ROOT / "README.md", ROOT / "examples" / "README.md", ROOT / "docs"
FORMATS, COMMANDS, PICTURES, SPECIFICATION, READING, CHANGING, CHOOSING, EMBEDDING, HISTORIES, PERFORMANCE, RATTLE = (
    DOCS / f"{name}.md"
    for name in (
        "FORMATS",
        "COMMANDS",
        "PICTURES",
        "SPECIFICATION",
        "READING-LIST",
        "CHANGING",
        "CHOOSING",
        "EMBEDDING",
        "TEST-A-FILE-SYSTEM",
        "PERFORMANCE",
        "RATTLE",
    )
)
CRATES = ROOT / "crates"
OF_CRATES = sorted(CRATES.glob("*/README.md"))
FOLDERS = "docs/*.md", "examples/**/*.md", "bindings/*/README.md", "embed/*.md"
# Those that speak of what is there now; the changelog also of what was.
NOW = (
    README,
    ROOT / "CONTRIBUTING.md",
    *(page for pattern in FOLDERS for page in sorted(ROOT.glob(pattern))),
    *OF_CRATES,
)
PAGES = ROOT / "CHANGELOG.md", *NOW
# Those that have a page beside their program.
RACES = [path.stem for path in sorted((ROOT / "examples" / "races").glob("*.md")) if path.stem != "README"]
HELPED = DATA / "worked" / "runs" / "helped_mkdir"
# What `atomfs schedule` writes of it, and what with `--robin`.
BLOCKS = b"atomfs 1\nthread m\nmkdir /a\nmkdir /a/d\nmkdir /a/d/x\nthread r\nrename /a /b\nschedule\n"
BY_ITSELF, BY_ROBIN = BLOCKS + b"m*18 r*6 m*3\n", BLOCKS + b"m r m r m r m r m r m r m r m*8\n"
# README is read in seven minutes, the first tutorial in five, the page of a crate in one.
MOST_WORDS, MOST_OF_A_CRATE = {README: 1_450, DOCS / "FIRST-RACE.md": 1_000}, 140


def by_path(pages: typing.Iterable[pathlib.Path]) -> typing.Iterator[tuple[str, pathlib.Path]]:
    """Rows of pages by their paths."""
    return ((str(page.relative_to(ROOT)), page) for page in pages)


def blocks(page: pathlib.Path, language: str = "") -> list[str]:
    """The fenced blocks of a page in a language."""
    fenced = re.findall(r"^```(\w*)\n(.*?)^```$", page.read_text(), re.M | re.S)
    return [block for of, block in fenced if of == language]


def prose(page: pathlib.Path) -> str:
    """A page without its fenced blocks."""
    return re.sub(r"^```.*?^```$", "", page.read_text(), flags=re.M | re.S)


def spans(text: str) -> list[str]:
    """What stands in backquotes."""
    return re.findall(r"`([^`\n]+)`", text)


def tables(page: pathlib.Path, *head: str) -> list[list[list[str]]]:
    """The tables of a page with these columns, each as the cells of its rows."""
    found = re.findall(r"(?:^\|.*\|\n)+", page.read_text(), re.M)
    rows = [[[cell.strip() for cell in line[1:-1].split("|")] for line in table.splitlines()] for table in found]
    return [table[2:] for table in rows if table[0] == list(head)]


def table(page: pathlib.Path, *head: str) -> list[list[str]]:
    (only,) = tables(page, *head)
    return only


def source(name: str) -> str:
    return (CRATES / name).read_text()


def constants(name: str) -> dict[str, int]:
    """The numbers that a source names."""
    return {
        name: int(value.replace("_", "")) for name, value in re.findall(r"const (\w+): \w+ = ([\d_]+);", source(name))
    }


def body_of(name: str, enum: str) -> str:
    """What stands between the braces of an enum."""
    return match_in(rf"enum {enum} \{{(.*?)^\}}", source(name), re.M | re.S)[1]


def variants(name: str, enum: str) -> list[tuple[int, str]]:
    """The variants of an enum behind their numbers."""
    return [(int(value), variant) for variant, value in re.findall(r"^    (\w+) = (\d+),", body_of(name, enum), re.M)]


def number(text: str) -> int:
    """The first number of a text."""
    return int(match_in(r"[\d,]+", text)[0].replace(",", ""))


# What stands for a word in a line or a command of a page, and the words that are put there.
FILLED = {
    **{"PATH": ("/a", "/b"), "NUMBER": ("1", "2"), "HEX": ("6869",), "ERRNO": ("ENOENT",)},
    **{
        "p": ("/a",),
        "q": ("/b",),
        "after": ("/b",),
        "offset": ("1",),
        "count": ("2",),
        "bytes": ("6869",),
        "size": ("1",),
    },
    **{"N": ("7",), "K": ("3",), "KIND": ("TrailingSlash",), "FILE": ("-",), "WHAT": ("'not helped m#3'",)},
}


def filled(pattern: str) -> str:
    """A line or a command of a page, with words in the place of what stands for them."""
    left = {name: iter(words) for name, words in FILLED.items()}
    first, *rest = pattern.split(" ")
    return " ".join([first, *(next(left[word]) if word in left else word for word in rest)])


def text_of(*lines: str) -> bytes:
    return "".join(f"{line}\n" for line in lines).encode()


# The pages that the packages show.
PACKAGES = {language: ROOT / "bindings" / language / "README.md" for language in ("python", "rust")}


def example_for(command: str, *options: str) -> bytes:
    """The worked example as a command reads it: its script, the journal of its run, or that without commits; for `--core` a history without an order, for `--learn` one of one thread."""
    if command.startswith("shrink"):
        return BY_ROBIN
    if "--core" in options:
        return b"atomfs-journal 1\nbegin 1 0 mkdir /a\nbegin 2 1 mkdir /a\nreturn 1 ok\nreturn 2 ok\n"
    if "--learn" in options:
        return b"atomfs-journal 1\nbegin 1 0 mkdir /a\nreturn 1 ok\n"
    if command not in ("check", "linearize"):
        return HELPED.with_suffix(".script").read_bytes()
    lines = HELPED.with_suffix(".text").read_bytes().splitlines(keepends=True)
    return b"".join(line for line in lines if command == "check" or not line.startswith(b"commit "))


class Page(Case):
    """A test of what pages say. Of a row that fails it tells which side is the page, and which the repository or this machine."""

    def agrees(self, subject: object, page: object, found: object) -> None:
        """What a page says of a subject is what is found in the repository, or on this machine. Of two lists it tells what one alone has."""
        if isinstance(page, list) and isinstance(found, list):
            alone = [one for one in page if one not in found], [one for one in found if one not in page]
            if any(alone):
                self.alike(subject, ("the page alone says", alone[0]), ("it does not say", alone[1]))
        self.alike(subject, ("the page says", page), ("it is", found))


class Sentences(Page):
    def says(self, page: pathlib.Path, sentence: str) -> None:
        """A page has a sentence with these numbers, or with others in their place."""
        pattern = re.sub(r"\d+(,\d+)*", r"\\d+(,\\d+)*", re.escape(sentence))
        found = re.search(pattern, page.read_text())
        self.agrees(page.relative_to(ROOT), found[0] if found else "no such sentence, with whatever numbers", sentence)


class Pages(Page):
    """What every page names is there."""

    # What a page names and no repository has: what is built, what stands for a name, and the files that a reader makes.
    ELSEWHERE = re.compile(
        r"(dist|lib|include|bin|PREFIX)/.*|.*/out/.*|.*\.\..*|proofs/MODULE/FUNCTION|call\.(c|rs|py)|(kept|race|tour)\.(script|svg|journal)"
    )
    A_PATH = re.compile(r"\w[\w.-]*(/[\w.-]+)+|\w+\.(md|rt|antt|py|c|h|rs|script|journal|text|edit)")

    @staticmethod
    @functools.cache
    def ends() -> set[str]:
        """The ends of all paths of the repository, each from any folder on."""
        ends: set[str] = set()
        for folder, folders, files in os.walk(ROOT):
            folders[:] = [name for name in folders if name not in (".git", "out", "dist", "__pycache__")]
            for name in (*folders, *files):
                parts = os.path.relpath(os.path.join(folder, name), ROOT).split("/")
                ends.update("/".join(parts[at:]) for at in range(len(parts)))
        return ends

    def test_links(self) -> None:
        self.each(by_path(PAGES), self.look_at_links)

    @staticmethod
    def anchors(page: pathlib.Path) -> set[str]:
        """The places of a page to which a link may lead: its headings."""
        headings = re.findall(r"^#+ (.*)", prose(page), re.M)
        return {re.sub(r"[^\w -]", "", heading.lower()).replace(" ", "-") for heading in headings}

    def look_at_links(self, page: pathlib.Path) -> None:
        """Each but those into the net leads to a file or a folder that is there, and to a heading of it where it names one."""
        lost = []
        for link in re.findall(r"\]\(([^)\s]+)\)", prose(page)):
            if "://" in link:
                continue
            path, _, anchor = link.partition("#")
            at = page.parent / path if path else page
            if not at.exists() or (anchor and anchor not in self.anchors(at)):
                lost.append(link)
        self.same(page.name, lost, [])

    def test_paths(self) -> None:
        self.each(by_path(NOW), self.look_at_paths)

    def look_at_paths(self, page: pathlib.Path) -> None:
        words = [word.removeprefix("../").rstrip("/") for span in spans(prose(page)) for word in span.split(" ")]
        paths = [word for word in words if self.A_PATH.fullmatch(word) and not self.ELSEWHERE.fullmatch(word)]
        self.same(page.name, [path for path in paths if not self.ends() & {path, f"{path}.antt"}], [])

    def test_lengths(self) -> None:
        self.each(((page.name, page, most) for page, most in MOST_WORDS.items()), self.look_at_length)

    def look_at_length(self, page: pathlib.Path, most: int) -> None:
        words = len(page.read_text().split())
        self.same(f"{page.name}, in words", max(words, most), most)

    def test_each_crate(self) -> None:
        """Each crate of the product has a page, and no other crate has one."""
        self.same("the crates with a page", [page.parent.name for page in OF_CRATES], sorted(promises.product()))

    def test_of_crates(self) -> None:
        """A crate's page is short, says what for and where to enter, and its paths are those of the crate, or begin with the name of another."""
        self.each(((page.parent.name, page) for page in OF_CRATES), self.look_at_crate)

    def look_at_crate(self, page: pathlib.Path) -> None:
        text = page.read_text()
        words = len(text.split())
        self.same(f"{page.parent.name}, in words", max(words, MOST_OF_A_CRATE), MOST_OF_A_CRATE)
        self.same(
            "its head and its leads",
            re.findall(r"^# .*|\*\*(?:For|Enter)\*\*", text, re.M),
            [f"# {page.parent.name}", "**For**", "**Enter**"],
        )
        paths = [span for span in spans(text) if re.match(r"(src|specs|proofs)/", span)]
        self.same("its paths that are not there", [path for path in paths if not (page.parent / path).exists()], [])


class Sizes(Page):
    """How large a crate is. Contracts go with the proofs, and so do ghost lines: neither is counted, nor are comments and blank lines."""

    MOST_LINES, MOST_FUNCTIONS = 1_500, 100
    # What begins a clause or a ghost line, which may go on over more lines.
    UNCOUNTED = re.compile(r"(requires|ensures|decreases|(pub )?ghost)\b")
    FUNCTION = re.compile(r"^ *(?:pub(?:\(\w+\))? )?(?:const )?(?:unsafe )?(?:extern \"C\" )?fn \w+", re.M)
    # Functions that are there to be proved: laws and worked examples.
    PROOFS = "laws.rt", "examples.rt"
    # Crates that have more until they are split. These numbers only fall.
    LARGER: dict[str, tuple[int, int]] = {}
    # Crates below this heading of crates.txt measure and check the product, and have as many functions as they have rows.
    BESIDE = "# No part of the product"

    @staticmethod
    def opened(line: str) -> int:
        """How many brackets a line opens beyond those that it closes."""
        return sum(map(line.count, "{(")) - sum(map(line.count, "})"))

    def lines(self, text: str) -> int:
        """How many lines of a source are counted."""
        counted, depth, goes_on = 0, 0, False
        for line in map(str.strip, text.splitlines()):
            if depth or goes_on or self.UNCOUNTED.match(line):
                depth += self.opened(line)
                goes_on = depth == 0 and not line.endswith((";", "}", ","))
            elif line and not line.startswith("//"):
                counted += 1
        return counted

    def test_lines(self) -> None:
        """The rule by which lines are counted."""
        text = """//! A file.
ghost use A.{
    b,
};

/// Answers one.
fn one() -> u8
    requires { x ≡ y }
    ensures named {
        result ≡ 1
    }
{
    // Why.
    1
}
"""
        self.same(text, self.lines(text), 4)

    def test_crates(self) -> None:
        product, _, _ = (ROOT / "crates.txt").read_text().partition(self.BESIDE)
        names = re.findall(r"^(\w+)[^:\n]*:", product, re.M)
        self.each(((name, name) for name in names), self.look_at_crate)

    def look_at_crate(self, name: str) -> None:
        texts = [(path, path.read_text()) for path in (ROOT / "crates" / name / "src").rglob("*.rt")]
        lines = sum(self.lines(text) for _, text in texts)
        functions = sum(len(self.FUNCTION.findall(text)) for path, text in texts if path.name not in self.PROOFS)
        most_lines, most_functions = self.LARGER.get(name, (self.MOST_LINES, self.MOST_FUNCTIONS))
        self.same(f"{name}, in lines", max(lines, most_lines), most_lines)
        self.same(f"{name}, in functions", max(functions, most_functions), most_functions)


class Named(Page):
    """Each name in backquotes is one of the sources."""

    # Files of which the names alone are looked at: pages, pictures, and this one, which has the names of others.
    NO_SOURCE = ".md", ".svg", "documents.py"
    # What pages name of others: commands and their words, the standard libraries, other packages and their tests; and what stands for a word.
    OF_OTHERS = re.compile(
        r"[0-9a-f]{7}|MODULE|FUNCTION|PREFIX|CALLNO|plant|ulimit|rpath|bashrc|linux_x86_64|manylinux\w*|CMAKE_PREFIX_PATH|LD_LIBRARY_PATH|NotImplementedError|(up|down)load|test_(up|down)load_\d|settimes|created|modified|SystemRandom|datetime|localtime|urandom|uuid4?"
    )
    # Names of the standard libraries, by their paths.
    OF_LIBRARIES = re.compile(r"(std|thread)::.*")

    @classmethod
    @functools.cache
    def sources(cls) -> dict[pathlib.Path, str]:
        """The text of each source by its path."""
        texts = {}
        for folder, folders, files in os.walk(ROOT):
            folders[:] = [
                name
                for name in folders
                if not name.startswith(".") and name not in ("out", "dist", "__pycache__", "target", "build")
            ]
            for name in files:
                path = pathlib.Path(folder, name)
                texts[path.relative_to(ROOT)] = "" if name.endswith(cls.NO_SOURCE) else path.read_text(errors="replace")
        return texts

    @classmethod
    @functools.cache
    def words(cls) -> set[str]:
        """The words of all sources, and of their paths."""
        return {word for path, text in cls.sources().items() for word in re.findall(r"\w+", f"{path}\n{text}")}

    @classmethod
    @functools.cache
    def paths(cls) -> set[str]:
        """The last two parts of the path of each function, type, constant and variant of the crates."""
        found = set()
        for path, text in cls.sources().items():
            if path.suffix in (".rt", ".rs"):
                owners = path.stem, path.parts[1]
                names = re.findall(r"\bpub (?:const|struct|enum|trait|type) (\w+)", text)
                functions = [function.name for function in promises.functions_of(text, "")]
                found |= {f"{owner}::{name}" for owner in owners for name in (*names, *functions, path.stem)} | set(
                    functions
                )
                for name, body in re.findall(r"enum (\w+)[^{]*\{(.*?)^\}", text, re.M | re.S):
                    found |= {f"{name}::{variant}" for variant in re.findall(r"^    (\w+)", body, re.M)}
        return found

    def test_each(self) -> None:
        self.each(by_path(NOW), self.look)

    def look(self, page: pathlib.Path) -> None:
        shown = spans(prose(page))
        words = {word for span in shown for word in re.findall(r"\w+", span) if not self.OF_LIBRARIES.match(span)}
        lost = [
            word
            for word in sorted(words - self.words() - self.own_words(page))
            if not word.isdigit() and not self.OF_OTHERS.fullmatch(word)
        ]
        self.same("words that no source has", [word for word in lost if not self.is_part(word)], [])
        self.same("paths of no function or type", [span for span in shown if not self.is_there(span)], [])

    @staticmethod
    def own_words(page: pathlib.Path) -> set[str]:
        """What a page itself names in its examples in Python, which are run."""
        return set(re.findall(r"\w+", "".join(blocks(page, "python"))))

    def is_part(self, word: str) -> bool:
        """Whether it begins or ends with an underline, as words do that are named by one part."""
        return (
            word.endswith("_")
            and any(one.startswith(word) for one in self.words())
            or word.startswith("_")
            and any(one.endswith(word) for one in self.words())
        )

    def is_there(self, span: str) -> bool:
        """Whether a path of names ends at a function, a type or a variant, or stands so in a source."""
        if not re.fullmatch(r"\w+(::\w+)+", span) or self.OF_LIBRARIES.match(span):
            return True
        return "::".join(span.split("::")[-2:]) in self.paths() or any(span in text for text in self.sources().values())


class Shown(Page):
    """The examples of pages are files that are run elsewhere, or parts of them."""

    def test_worked_example(self) -> None:
        """Its script and its run text; README has lines of its trace."""
        script, text, *_ = blocks(FORMATS)
        self.agrees("its script", script, HELPED.with_suffix(".script").read_text())
        self.agrees("its run text", text, HELPED.with_suffix(".text").read_text())
        *_, part = blocks(README)
        trace = (DATA / "traces" / "helped_mkdir.trace").read_text()
        self.agrees("its trace", part, part if f"\n{part}" in trace else trace)

    def test_example_of_readme(self) -> None:
        """Before the one in C stands what it prints. examples/embed/run runs it, and compares."""
        runs = (ROOT / "examples" / "embed" / "run").read_text()
        said = re.findall(r"this prints `(.*)`:\n\n```c\n", README.read_text())
        self.agrees("in C", said, re.findall(r'^prints readme_c README\.md "(.*?)" ', runs, re.M))

    def test_archive_of_readme(self) -> None:
        """The archive that README unpacks is the one that embed/build makes."""
        version = harness.declared().version
        named = set(re.findall(r"atomfs-[\d.]*\d-[\w-]+", README.read_text()))
        self.agrees("the archive", sorted(named), [f"atomfs-{version}-x86_64-linux"])

    # The blocks of each page in a language, how many there are, and the file that has them run or compared; a drawing has none.
    BLOCKS = (
        ("README.md", "", 3, "tests/documents.py, tests/recorders.py, tests/tutorials.py"),
        ("README.md", "python", 1, "tests/tutorials.py"),
        ("README.md", "c", 1, "examples/embed/run"),
        ("docs/FIRST-RACE.md", "", 3, "tests/tutorials.py"),
        ("docs/FIRST-RACE.md", "python", 5, "tests/tutorials.py"),
        ("docs/FIRST-RACE.md", "sh", 1, None),
        ("docs/EMBEDDING.md", "c", 2, "examples/embed/run"),
        ("bindings/python/README.md", "python", 1, "examples/embed/run"),
        ("bindings/rust/README.md", "rust", 1, "examples/embed/run"),
        ("docs/RATTLE.md", "rust", 2, "tests/documents.py"),
        ("docs/READING-LIST.md", "", 1, "tests/documents.py"),
        ("docs/FORMATS.md", "", 2, "tests/documents.py"),
        ("docs/COMMANDS.md", "", 6, "tests/progress.py, tests/drawn_starts.py, tests/dialects.py"),
        ("docs/PICTURES.md", "", 3, "tests/objects.py"),
        ("docs/PLAYER.md", "python", 1, "tests/tutorials.py"),
        ("docs/TEST-A-FILE-SYSTEM.md", "", 4, "tests/histories.py, tests/recorders.py"),
        ("docs/TEST-A-FILE-SYSTEM.md", "python", 1, "tests/tutorials.py"),
        ("docs/ARCHITECTURE.md", "", 2, "tests/documents.py"),
        ("docs/MACHINE.md", "", 2, None),
        ("examples/tour/README.md", "", 12, "tests/worked.py"),
        ("docs/RACES.md", "", 1, "bindings/python/tests/test_races.py"),
        ("docs/RACES.md", "python", 2, "bindings/python/tests/test_races.py"),
        ("docs/SCHEDULES.md", "python", 2, "bindings/python/tests/test_races.py"),
        ("examples/races/README.md", "", 1, "bindings/python/tests/test_races.py"),
        *((f"examples/races/{name}.md", "", 2, "bindings/python/tests/test_races.py") for name in RACES),
        *((f"examples/races/{name}.md", "python", 1, "bindings/python/tests/test_races.py") for name in RACES),
        ("examples/litmus/README.md", "", 1, "tests/documents.py"),
    )

    def test_each_block(self) -> None:
        """Each is one that some test runs or compares, or a drawing."""
        found = collections.Counter(
            (str(page.relative_to(ROOT)), language)
            for page in PAGES
            for language in re.findall(r"^```(\w*)\n.*?^```$", page.read_text(), re.M | re.S)
        )
        self.agrees(
            "the blocks of pages",
            sorted((*where, number) for where, number in found.items()),
            sorted((page, language, number) for page, language, number, _ in self.BLOCKS),
        )
        runs = re.findall(r"^example (\S+) (\w+) ", (ROOT / "examples" / "embed" / "run").read_text(), re.M)
        self.agrees(
            "those that are run",
            sorted(runs),
            sorted(
                (page, language)
                for page, language, number, by in self.BLOCKS
                for _ in range(number)
                if by == "examples/embed/run"
            ),
        )

    def test_headline(self) -> None:
        """The clauses that docs/READING-LIST.md shows are those of `Core::run`."""
        (clauses,) = blocks(READING)
        (run_of,) = (function for function in promises.public(CRATES / "fs_core") if function.name == "Core::run")
        due = [
            f"ensures {clause.name} {{ {clause.text} }}"
            for clause in run_of.ensures
            if clause.name in ("linearizable", "spelled")
        ]
        self.agrees("READING-LIST", clauses.splitlines(), due)

    def test_excerpts(self) -> None:
        """Each block in Rust stands in the source to which the page leads before it."""
        found = re.findall(r"\]\((\S+\.rt)\)((?:(?!^```).)*?)^```rust\n(.*?)^```$", RATTLE.read_text(), re.M | re.S)
        self.agrees(
            "the examples in Rust with a link before them", [shown for _, _, shown in found], blocks(RATTLE, "rust")
        )
        self.each(((link, link, shown) for link, _, shown in found), self.look_at_excerpt)

    def look_at_excerpt(self, link: str, shown: typing.Any) -> None:
        lines = [line.strip() for line in (DOCS / link).read_text().splitlines()]
        self.same(link, [line for line in shown.splitlines() if line.strip() not in lines], [])


# What `atomfs explain` is to print of each word, in a file of its name.
EXPLAINED = DATA / "explained"


class Faults(Page):
    """What `atomfs explain` says to write instead: the refused line has the fault, and with the other one the text is accepted."""

    # The texts of which one line is replaced, and what reads them.
    TEXTS = {
        "script": ("run", ["atomfs 1", "thread t", "stat /a", "schedule", "t*9 finish"]),
        "journal": ("check", ["atomfs-journal 1", "begin 1 0 readdir /", "commit 1", "return 1 names"]),
        "start": (
            "check",
            [
                "atomfs-journal 2",
                "start",
                "dir /",
                "dir /a",
                "file /a/f 6869",
                "entries",
                "begin 1 0 readdir /",
                "commit 1",
                "return 1 names a",
            ],
        ),
    }
    # The line that each row of a word replaces, in their order.
    LINES = {
        **{
            "BadHeader": (1, 1),
            "BadLine": (2, 3, 3, 3, 2, 3),
            "BadThread": (2, 2),
            "ThreadTwice": (3,),
            "NotAbsolute": (3, 2),
            "Nul": (3,),
        },
        **{
            "NameTooLong": (3,),
            "TooManyNames": (3,),
            "Dot": (3,),
            "TrailingSlash": (3,),
            "BadNumber": (3, 3, 3),
            "BadHex": (3, 3, 4),
        },
        **{"NoSchedule": (4,), "BadWord": (5, 5, 5), "TooLarge": (5,), "BadReply": (4, 4), "BadStart": (2, 3, 4, 5, 6)},
    }
    # The program writes another message in its place.
    OF_NO_TEXT = "OutOfMemory"
    ROW = re.compile(r"^In a (\w+), for {1,6}(.*)\nwrite {15}(.*)\nbecause {13}.+\n", re.M)

    @staticmethod
    def named() -> tuple[list[str], list[str]]:
        """The faults that the sources name: of words, and of paths."""
        kinds, paths = (
            re.findall(r'#\[error\("([A-Z]\w+)', source(name))
            for name in ("fs_words/src/fault.rt", "fs_names/src/fault.rt")
        )
        return kinds, [path for path in paths if path != Faults.OF_NO_TEXT]

    def rows(self) -> typing.Iterator[tuple[typing.Any, ...]]:
        """Of each row the command that reads its text."""
        _, paths = self.named()
        for word, numbers in self.LINES.items():
            for number, (kind, refused, instead) in zip(
                numbers, self.ROW.findall((EXPLAINED / word).read_text()), strict=True
            ):
                command, lines = self.TEXTS["start" if word == "BadStart" else kind]
                fault = f"BadPath {word}" if word in paths else word
                refused = [] if refused.startswith("nothing") else [refused]
                yield f"{command} {number} {' '.join(refused)}", command, lines, number, fault, refused, [instead]

    @staticmethod
    def with_line(lines: list[str], number: int, line: list[str]) -> bytes:
        """The text with another line of this number; it ends before it where there is none."""
        return text_of(*lines[: number - 1], *line, *(lines[number:] if line else ()))

    def look(
        self, command: str, lines: list[str], number: int, fault: str, refused: list[str], instead: list[str]
    ) -> None:
        given = self.with_line(lines, number, refused)
        wanted = Outcome(3, b"", f"atomfs: line {number}: {fault}\n".encode())
        self.same(given, run(given, command), harness.with_line(wanted, given))
        given = self.with_line(lines, number, instead)
        status, output, message = run(given, command)
        self.same(given, (status, message), (0, b""))
        if command == "check":
            self.same(given, output, b"lawful\n")
        else:
            self.same(given, model.replayed(output.decode()), None)

    def test_each_row(self) -> None:
        self.each(self.rows(), self.look)

    def test_each_fault_has_a_row(self) -> None:
        """The faults that the sources name, with those of paths, are those of the page; and each has a row."""
        kinds, paths = self.named()
        means = {spans(fault)[0]: spans(meaning) for fault, meaning, _ in table(FORMATS, "Fault", "Means", "Line")}
        self.agrees("the table of faults", sorted(means), sorted([*kinds, *(f"BadPath {path}" for path in paths)]))
        self.agrees("the faults of paths", sorted(means["BadPath"]), sorted(paths))
        checks = [spans(fault)[0] for _, fault in table(SPECIFICATION, "Check", "Fault")]
        self.agrees("the checks of paths", sorted(checks), sorted(paths))
        self.same("the faults with a row", sorted(self.LINES), sorted({*kinds, *paths} - {"BadPath", self.OF_NO_TEXT}))
        begun = {path.name: path.read_text().count("In a ") for path in EXPLAINED.iterdir()}
        self.same(
            "how many rows each text has",
            {name: rows for name, rows in begun.items() if rows},
            {word: len(lines) for word, lines in self.LINES.items()},
        )


def explanations() -> dict[str, bytes]:
    """What `atomfs explain` is to print of each word."""
    return {path.name: path.read_bytes() for path in EXPLAINED.iterdir()}


class Explained(Page):
    """What `atomfs explain` prints of each fault is what is stored, and means what the tables of docs/FORMATS.md and docs/SPECIFICATION.md say."""

    def test_each_kind(self) -> None:
        self.each(((word, word) for word in sorted(explanations())), self.look)
        listed = match_in(r"\[possible values: (.*)\]", (DATA / "help" / "explain").read_text())[1]
        self.agrees("the words that have a text", sorted(explanations()), sorted(listed.split(", ")))

    def look(self, word: str) -> None:
        self.same(f"atomfs explain {word}", run(b"", "explain", word), Outcome(0, explanations()[word]))

    def test_meanings(self) -> None:
        means = {
            spans(fault)[0].split(" ")[-1]: meaning for fault, meaning, _ in table(FORMATS, "Fault", "Means", "Line")
        }
        means |= {spans(kind)[0]: wrong for _, kind, wrong in table(SPECIFICATION, "Number", "Kind", "What is wrong")}
        found = {
            spans(line)[0]: meaning
            for line, _, meaning, _ in table(HISTORIES, "It writes", "Status", "Says", "Proved by `linearize`")
            if spans(line)
        }
        means |= {
            "none": found["none PLACE CALL"],
            "unknown": found["unknown PLACE"],
            "ReturnUnbegun": means["CommitUnbegun"],
        }
        shown = {word: text.decode().splitlines()[0] for word, text in explanations().items()}
        self.agrees("what the words mean", {word: f"{word}: {meaning}" for word, meaning in means.items()}, shown)

    def test_two_words(self) -> None:
        """As a message has them."""
        for path in spans(match_in(r"^\| `BadPath` and .*", FORMATS.read_text(), re.M)[0])[1:]:
            texts = explanations()
            self.same(
                f"atomfs explain BadPath {path}",
                run(b"", "explain", "BadPath", path),
                Outcome(0, texts["BadPath"] + b"\n" + texts[path]),
            )


class Grammar(Page):
    """Each line of a call, and each reply, that a page shows."""

    def test_calls(self) -> None:
        shown = [span for row in table(FORMATS, "Line", "The words after the first") for span in spans(row[0])]
        also = [call for row in table(SPECIFICATION, "Call", "Errors, in order", "Else") for call in row[0].split(", ")]
        self.each(((line, filled(line)) for line in (*shown, *also)), self.look_at_call)
        for lines in (shown, also):
            self.agrees(lines, sorted(call.split(" ")[0] for call in lines), sorted(calls()))

    def look_at_call(self, call: str) -> None:
        """By the third limits, which have every call."""
        given = text_of("atomfs 3", "thread t", call, "schedule", "finish")
        self.same(given, model.begun(run(given, "run").output.decode()), {0: [call]})

    def test_replies(self) -> None:
        """A reply that can be read is that of a call which never began."""
        replies = [span for row in table(FORMATS, "Text", "Reply") for span in spans(row[0])]
        self.each(((reply, f"return 1 {filled(reply)}") for reply in replies), self.look_at_reply)

    def look_at_reply(self, entry: str) -> None:
        given = text_of("atomfs-journal 1", entry)
        self.same(
            given,
            run(given, "check"),
            Outcome(1, b"fault 1 ReturnUncommitted\n", text_of(f"atomfs: line 2: {entry}; no call 1 has begun")),
        )


class Commands(Page):
    """Each command that a page shows and that takes less than a minute, as it stands."""

    def due(self) -> dict[str, bytes]:
        """What comes of a command on the worked example."""
        text, robin, drawn = (
            HELPED.with_suffix(ending).read_bytes() for ending in (".text", ".robin.text", ".drawn.text")
        )
        helps = {name: (DATA / "help" / name).read_bytes() for name in ("atomfs", "run")}
        version = harness.declared().version
        return {
            "run": text,
            "run --robin": robin,
            "run --seed 7": drawn,
            "seeds --seed 7 --runs 3": b"seed 7 lawful\nseed 8 lawful\nseed 9 lawful\n",
            "outcomes --seed 7 --runs 3": b"3 seed 7 tree 84901e4addb59faf\n",
            "find --where 'not helped m#3' --seed 7 --runs 3": run(
                HELPED.with_suffix(".script").read_bytes(), "schedule", "--seed", "7"
            ).output,
            "shrink --where 'not helped m#3'": b"atomfs 1\nthread m\nmkdir /a/d/x\nthread r\nschedule\n",
            "tree": text[text.index(b"tree\n") :].rpartition(b"begun ")[0],
            "threads": b"lawful calls 4\n",
            "check": b"lawful\n",
            "linearize": text.partition(b"tree\n")[0],
            "trace": (DATA / "traces" / "helped_mkdir.trace").read_bytes(),
            "schedule": BY_ITSELF,
            "schedule --robin": BY_ROBIN,
            "schedule --seed 7": run(HELPED.with_suffix(".script").read_bytes(), "schedule", "--seed", "7").output,
            "draw": (DOCS / "helped_mkdir.svg").read_bytes(),
            "explain TrailingSlash": explanations()["TrailingSlash"],
            "--version": f"atomfs {version}\n".encode(),
            "--help": helps["atomfs"],
            "help run": helps["run"],
            "run --help": helps["run"],
        }

    @staticmethod
    def shown(cell: str) -> list[str]:
        """The commands of a cell, of which the later ones may be options of the first."""
        first, *more = spans(cell)
        return [first, *(f"{first.split(' --')[0]} {span}" if span.startswith("--") else span for span in more)]

    def test_of_the_program(self) -> None:
        rows = table(COMMANDS, "Command", "Writes")
        shown = [filled(command).removeprefix("atomfs ") for row in rows for command in self.shown(row[0])]
        self.each(((words, words) for words in shown), self.look)
        self.agrees("the commands of COMMANDS", sorted(shown), sorted(self.due()))
        named = spans(match_in("The program `atomfs` runs scripts (.*)", README.read_text())[1])
        self.agrees(
            "the commands of README",
            sorted(named),
            sorted({words.split(" ")[0] for words in shown if words[0] != "-"} - {"help"}),
        )

    def look(self, words: typing.Any) -> None:
        told = {
            "find": b"atomfs: seed 7\n",
            "shrink": b"atomfs: calls 1, words 0, where not helped m#1\n",
        }
        said = told.get(words.split(" ")[0], b"")
        came = run(example_for(words), *shlex.split(words))
        self.same(
            f"atomfs {words}",
            harness.without_seen(came) if words.startswith("outcomes ") else came,
            Outcome(0, self.due().get(words, b"no such command"), said),
        )

    def test_of_examples(self) -> None:
        """What examples/README.md says that each command prints."""
        kinds = (
            ("examples/run check < (.*)", self.look_at_journal),
            (r"examples/run (\S*)", self.look_at_script),
            ("cd (.*) && rt run", self.look_at_crate),
        )
        rows = ((spans(runs)[0], prints) for _, _, runs, prints in table(EXAMPLES, "File", "Shows", "Run", "Prints"))
        found = [
            (command, look, named[1], prints)
            for command, prints in rows
            for kind, look in kinds
            if (named := re.fullmatch(kind, command))
        ]
        self.each(found, lambda look, named, prints: look(named, prints))

    def look_at_journal(self, journal: str, prints: str) -> None:
        status = re.search(r"status (\d)", prints)
        self.same(
            journal,
            run((ROOT / journal).read_bytes(), "check")[:2],
            (int(status[1]) if status else 0, text_of(spans(prints)[0])),
        )

    def look_at_script(self, script: str, _: str) -> None:
        status, output, _message = run((ROOT / script).read_bytes(), "run")
        self.same(script, (status, model.replayed(output.decode())), (0, None))

    def look_at_crate(self, crate: str, prints: str) -> None:
        """What it is to print is stored beside it. A line of it ends with what is told, and all do where that is one for all."""
        lines, ends = (ROOT / crate / "stdout").read_text().splitlines(), spans(prints)
        ends = ends if len(ends) > 1 else ends * len(lines)
        self.agrees(crate, ends, [line[-len(end) :] for line, end in zip(lines, ends, strict=True)])

    @staticmethod
    def of_a_shell(pattern: str) -> list[tuple[str, str]]:
        """Rows of the commands of all pages that are of a pattern."""
        commands = sorted({span for page in PAGES for span in spans(prose(page)) if re.fullmatch(pattern, span)})
        return [(command, command) for command in commands]

    def output(self, command: str) -> bytes:
        """What a command writes, which ends with status 0 and tells nothing else."""
        words = ["bash", "-c", command]
        done = subprocess.run(
            words, cwd=ROOT, stdin=subprocess.DEVNULL, capture_output=True, timeout=harness.MOST_SECONDS
        )
        self.same(command, (done.returncode, done.stderr if done.returncode else b""), (0, b""))
        return done.stdout

    def test_of_the_model(self) -> None:
        self.each(self.of_a_shell(r"python3 tests/model\.py \S+"), self.output)

    def test_of_a_row(self) -> None:
        """The command that is told of a row that failed looks at this row, and at none where none is called so."""
        harness.takes_a_process()
        self.each((("a row", "BadHex", "OK"), ("no row", "no word", "OK (skipped=1)")), self.look_at_row)

    def look_at_row(self, row: str, told: str) -> None:
        case = Explained("test_each_kind")
        case.row = row
        done = subprocess.run(
            ["bash", "-c", case.alone()],
            cwd=ROOT,
            stdin=subprocess.DEVNULL,
            capture_output=True,
            text=True,
            timeout=harness.MOST_SECONDS,
        )
        self.same(case.alone(), (done.returncode, done.stderr.splitlines()[-1]), (0, told))

    def test_examples_run(self) -> None:
        """The program that is built here runs the worked example, or the script that is named."""
        harness.takes_a_process()
        if "ATOMFS" in os.environ:
            self.skipTest("examples/run runs the program that is built here, and another one is looked at")
        harness.program()
        self.each(self.of_a_shell(r"examples/run( examples/\S+)?"), self.look_at_run)

    def look_at_run(self, command: str) -> None:
        text = self.output(command).decode()
        self.same(command, model.replayed(text), None)
        if command == "examples/run":
            self.same(command, text, HELPED.with_suffix(".text").read_text())

    def test_examples_run_refuses(self) -> None:
        """What can be told without the program is told at once."""
        self.each(
            (
                (
                    "a script that is not there",
                    ("examples/none",),
                    b"",
                    2,
                    "examples/run: cannot read examples/none: No such file or directory",
                ),
                ("a folder", ("examples",), b"", 2, "examples/run: cannot read examples: Is a directory"),
                ("an option that is none", ("--fast",), b"", 2, "usage: examples/run [--proved] [SCRIPT ..]"),
                ("no header", ("examples/one_name.script", "README.md"), b"", 3, "atomfs: line 1: BadHeader"),
                ("no header on standard input", (), b"mkdir /a\n", 3, "atomfs: line 1: BadHeader"),
            ),
            self.look_at_refusal,
        )

    def test_examples_run_names_commands(self) -> None:
        """Its usage names each command of the program."""
        usage = subprocess.run(
            (ROOT / "examples" / "run", "--help"),
            cwd=ROOT,
            capture_output=True,
            text=True,
            timeout=harness.MOST_SECONDS,
        ).stdout
        (named,) = re.findall(r"^COMMAND is [^:]*: ([^:]*) or --version:$", usage, re.M)
        commands = re.findall(r"^  (\w+)  ", (DATA / "help" / "atomfs").read_text().partition("Options:")[0], re.M)
        self.agrees("the commands of examples/run", sorted(re.split(r",\s", named)), sorted(commands))

    def look_at_refusal(self, words: typing.Any, given: bytes, status: int, message: str) -> None:
        done = subprocess.run(
            (ROOT / "examples" / "run", *words),
            cwd=ROOT,
            input=given,
            capture_output=True,
            timeout=harness.MOST_SECONDS,
        )
        self.same(
            f"examples/run {' '.join(words)}",
            (done.returncode, done.stderr.decode().splitlines()[0]),
            (status, message),
        )

    def test_logic_of_the_kit(self) -> None:
        """README names the logic by which all is proved. The letter of the kit before it may be another."""
        if not shutil.which("rt"):
            self.skipTest("the command rt is not on the path")
        version = subprocess.run(["rt", "version"], capture_output=True, text=True, timeout=harness.MOST_SECONDS).stdout
        logic = re.compile(r"logic [0-9a-f]{16}")
        self.agrees(
            "the kit's logic",
            [span for span in spans(README.read_text()) if logic.fullmatch(span)],
            logic.findall(version)[:1],
        )


class Corners(Page):
    """What sentences of docs/FORMATS.md, docs/COMMANDS.md, docs/PICTURES.md and docs/TEST-A-FILE-SYSTEM.md say of inputs that have two faults, or that end early."""

    UNBEGUN = text_of("atomfs-journal 1", "begin 1 0 mkdir /a", "return 1 failed ENOENT", "return 9 ok")
    OPEN = text_of("atomfs-journal 1", "begin 2 1 mkdir /b", "begin 1 0 mkdir /a", "commit 1")
    LEFT = text_of("atomfs 1", "thread a", "mkdir /a", "mkdir /b", "schedule", "a*2")
    WRONG = text_of("atomfs 1", "thread a", "mkdr /a", "schedule")
    ROWS = (
        (
            HISTORIES,
            "A fault is reported even if a `none` comes before it",
            UNBEGUN,
            ("linearize",),
            1,
            b"fault 3 ReturnUnbegun\n",
        ),
        (
            FORMATS,
            "so is `list` in a text of version 1 or 2",
            LEFT.replace(b"mkdir /b", b"list / / 1"),
            ("run",),
            3,
            b"",
        ),
        (
            FORMATS,
            "If both texts have a fault, that of the script is reported.",
            WRONG,
            ("run", "--from", str(README)),
            3,
            b"",
        ),
        (
            PICTURES,
            "It has no lines `thread`",
            OPEN,
            ("trace",),
            0,
            b"atomfs-trace 2\n1 call 2 on seat 1 begins mkdir /b\n",
        ),
        (
            PICTURES,
            "in the order in which these calls began",
            OPEN,
            ("trace",),
            0,
            b"left call 2 on seat 1 mkdir /b\nleft call 1 on seat 0 mkdir /a\ntree\n",
        ),
        (COMMANDS, "`atomfs tree` still ends with status 0", LEFT, ("tree",), 0, b"tree\ndir /\n"),
    )

    def test_each(self) -> None:
        self.each(((sentence, page, sentence, *rest) for page, sentence, *rest in self.ROWS), self.look)

    def look(
        self, page: pathlib.Path, sentence: str, given: bytes, words: typing.Any, status: int, part: bytes
    ) -> None:
        self.agrees(page.name, sentence in page.read_text(), True)
        came = run(given, *words)
        self.same(words, (came.status, part in came.output), (status, True))
        if status == 3:
            self.assertRegex(came.message, rb"\Aatomfs: line \d: BadLine\n")


class EachCommand(Page):
    """Each command of a page can be typed: it is run here or by another test, or it is named below as one that wants what the tests have not."""

    # The first words of commands, in backquotes or at the start of a line of a block without a language, or of one of a shell.
    BEGINS = r"(?:ROW=.* )?(?:atomfs|examples/run|examples/many/\w+|tests/\w+|bench/\w+|embed/\w+|\.ci/run|python3|rt|cc|pip|tar|cargo|cmake|cd|git)"
    COMMAND = re.compile(BEGINS + r"(?: [^|].*)?")
    # What is named and no command.
    NO_COMMAND = re.compile(r"atomfs [123]|atomfs = .*|tests/(data|model|worked)|(bench|tests)/\w+\.\w+")
    # Of the kit, of compilers, of installers: `tests/embedded.py` and `tests/packages.py` build and install as these lines do.
    OF_OTHERS = re.compile(
        r"rt|cc|python3|pip|cmake|cargo|rt (check|ci|run|plant|tidy|fmt|verdict|must-fail|doc|version).*|cc -I dist/include .*|cc main\.c \$\(.*|pip install --no-index .*|tar xf atomfs-.*|git show .*|cd \S+"
    )
    # The words that stand for others.
    PUT = {
        "CRATE": "fs_calls",
        "NAME": "fs_calls",
        "COMMAND": "run",
        "CALL": "1",
        **dict.fromkeys(("TREE", "counter.tree"), str(DATA / "starts" / "moved.tree")),
        **dict.fromkeys(("SCRIPT", "A", "B", "C", "counter.script"), "examples/one_name.script"),
        "none.history": "-",
        "alone.history": "-",
    }
    # What stands for an input.
    INPUTS = None, "FILE", "SCRIPT", "INPUT", "A", "kept.script"
    # What the program says of the first words of a command.
    IN_PART = re.compile(
        rb"error: (the following required arguments were not provided:|a value is required for .* but none was supplied)\n"
    )
    # What takes longer than a test may, or is the gate, or run by tests/many.py, tests/recorders.py or the tests of a package: that it is there and can be run is looked at.
    LONG = re.compile(
        r"(?:python3 )?(\.ci/run|tests/run|bench/\w+|embed/\w+|examples/many/\w+|examples/record/record\.py|examples/(?:races|tour)/\w+\.py)(?: .*)?"
    )

    @classmethod
    def shown(cls, page: pathlib.Path) -> list[str]:
        text = page.read_text()
        lines = [
            line.removeprefix("$ ")
            for block in re.findall(r"^```(?:sh|text)?\n(.*?)^```$", text, re.M | re.S)
            for line in block.splitlines()
        ]
        found = [
            line
            for line in (*spans(prose(page)), *lines)
            if cls.COMMAND.fullmatch(line) and not cls.NO_COMMAND.fullmatch(line)
        ]
        return list(dict.fromkeys(re.sub(r"^cd \S+ && ", "", line) for line in found))

    def rows(self) -> list[tuple[str, str]]:
        commands: dict[str, pathlib.Path] = {}
        for page in PAGES:
            for command in self.shown(page):
                commands.setdefault(command, page)
        return [(f"{page.relative_to(ROOT)}: {command}", command) for command, page in commands.items()]

    def test_each(self) -> None:
        self.each(self.rows(), self.look)

    def look(self, command: str) -> None:
        kinds: tuple[tuple[str, typing.Callable[..., None]], ...] = (
            (
                r"(?:atomfs|examples/run(?: --proved)?)((?: -?-?[a-zA-Z0-9.][^<>]*)?)(?: < (\S+))?(?: > \S+)?",
                self.look_at_program,
            ),
            (r"(tests/promises(?: .*)?)", self.look_at_promises),
            (r"(ROW=.* )?python3 (tests/\w+\.py) ?(.*)", self.look_at_module),
            (r"cargo run --example (\w+)(?: .*)?", self.look_at_example),
        )
        for pattern, look in kinds:
            if named := re.fullmatch(pattern, command):
                return look(*named.groups())
        if named := self.LONG.fullmatch(command):
            wanted = os.R_OK if command.startswith("python3 ") else os.X_OK
            return self.same("whether it is there", os.access(ROOT / named[1], wanted), True)
        self.same("whether it is one of others", self.OF_OTHERS.fullmatch(command) is not None, True)

    def look_at_example(self, name: str) -> None:
        """The crate for Rust has the example; tests/packages.py runs it."""
        at = ROOT / "bindings" / "rust" / "examples"
        self.same(
            "whether it is there", any(path.is_file() for path in (at / f"{name}.rs", at / name / "main.rs")), True
        )

    def look_at_program(self, typed: str, given: str) -> None:
        """The program takes these words, or words that begin so; what it prints is looked at where a page says so."""
        words = [self.PUT.get(word, word) for word in shlex.split(filled(typed.strip())) if word != ".."]
        if not words or (ROOT / words[0]).exists():
            return self.same(
                "the scripts that are not there", [word for word in words if not (ROOT / word).exists()], []
            )
        outcome = run((ROOT / given).read_bytes() if given not in self.INPUTS else example_for(*words), *words)
        # A check tells what is wrong beside the verdict, a search the seed that it found, `outcomes` how much was seen, and `shrink` and `--core` what is
        # left.
        is_told = (
            self.IN_PART.match(outcome.message)
            or outcome.output.startswith(b"fault ")
            or words[0] in ("find", "outcomes", "shrink")
            or "--core" in words
        )
        message = b"" if is_told else outcome.message
        self.same("what it tells", message, b"")

    def look_at_promises(self, command: str) -> None:
        words = [self.PUT.get(word, word) for word in re.sub(r"\[|\]| \.\.", "", command).split(" ")]
        done = subprocess.run(words, cwd=ROOT, capture_output=True, timeout=harness.MOST_SECONDS)
        self.same(command, (done.returncode, done.stderr), (0, b""))

    def look_at_module(self, row: str, module: str, words: typing.Any) -> None:
        """`Commands` runs it."""
        self.same("whether there is such a module", (ROOT / module).is_file(), True)


# A module of `specs/`, and a name in it.
Place = tuple[str, str]


class Definitions:
    """The definitions of `specs/` that clauses use, directly or by another one."""

    WORD = re.compile(r"[^\s(){}\[\];,.:λ→∷+=|&×]+")

    def __init__(self, roots: typing.Iterable[Place]) -> None:
        self.found, seen, left = collections.defaultdict(set), set(), list(roots)
        while left:
            module, name = place = left.pop()
            definitions, imports = self.file(module)
            if name not in definitions and name in imports:
                # A page that hands it on.
                left.append(imports[name])
            if place not in seen and name in definitions:
                seen.add(place)
                self.found[module].add(definitions[name])
                left += [
                    (module, word) if word in definitions else imports.get(word, place)
                    for word in self.words(definitions[name])
                ]

    @staticmethod
    def imports(text: str) -> dict[str, Place]:
        """The module of each name that a text imports, and the name."""
        lists = re.findall(r"use Rattle\.([\w.]+)\.\{(.*)\}", text)
        return {name.strip(): (module, name.strip()) for module, names in lists for name in names.split(",")}

    @classmethod
    @functools.cache
    def file(cls, module: str) -> tuple[dict[str, tuple[str, ...]], dict[str, Place]]:
        """The lines of each definition of a file by its name, with the comment above, and what the file imports."""
        crate, _, rest = module.partition(".")
        path = CRATES / crate / f"{rest.replace('.', '/')}.antt"
        text = path.read_text() if path.exists() else ""
        definitions: dict[str, tuple[str, ...]] = {}
        for paragraph in re.split(r"\n\s*\n", text):
            lines = tuple(line for line in paragraph.splitlines() if is_counted(line))
            head = next((line for line in lines if not line.startswith("--")), "")
            if named := re.match(r"(?:(?:pub|abbrev|unfoldable|record|data) )*(\S+)", head):
                constructors = re.findall(r"^  (\w+) :", paragraph, re.M) if "data " in head else []
                definitions |= dict.fromkeys((named[1], *constructors), lines)
        return definitions, cls.imports(text)

    @classmethod
    def words(cls, lines: typing.Iterable[str]) -> set[str]:
        """The words of a definition but those of comments and the names of fields."""
        code = "\n".join(line for line in lines if not line.strip().startswith("--"))
        return set(cls.WORD.findall(re.sub(r"([{;]\s*)\w+ = ", r"\1", re.sub(r"\.\w+", "", code))))

    def counts(self) -> tuple[int, int, int, int]:
        """How many definitions, files and lines there are, and how many of these lines are comments."""
        each = [lines for found in self.found.values() for lines in found]
        comments = [line for lines in each for line in lines if line.strip().startswith("--")]
        return len(each), len(self.found), sum(map(len, each)), len(comments)


def is_counted(line: str) -> bool:
    """Whether a line of a file of definitions is neither blank nor an import."""
    return bool(line.strip()) and not re.match("(pub )?use ", line)


def of_headline(clauses: typing.Iterable[str], models: typing.Iterable[Place]) -> Definitions:
    """What some clauses of `Core::run` use, and the models of the values that they speak of."""
    text = source("fs_core/src/events.rt")
    imports = Definitions.imports(text)
    used = [match_in(rf"ensures {clause} \{{ (.*) \}}", text[text.index("pub fn run(") :])[1] for clause in clauses]
    return Definitions([*models, *(imports[word] for word in Definitions.words(used) if word in imports)])


class Believed(Sentences):
    """What docs/READING-LIST.md counts: the definitions behind the headline, over their own references."""

    # What the models of a timeline, a core and a store name.
    MODELS = (
        ("fs_timeline.specs.Timeline", "TimelineValue"),
        ("fs_core.specs.CoreValues", "CoreValue"),
        ("fs_nodes_places.specs.Plains", "plains"),
    )

    def setUp(self) -> None:
        self.headline = of_headline(("linearizable", "spelled"), self.MODELS)

    def test_files(self) -> None:
        """So many lines of each file are used, of those that it has."""
        shown = [(spans(file)[0], lines) for _, file, _, lines in table(READING, "", "File", "Says", "Lines")]
        used = {
            f"{module.replace('.', '/')}.antt": sum(map(len, found)) for module, found in self.headline.found.items()
        }
        self.agrees("the files of the headline", sorted(file for file, _ in shown), sorted(used))
        self.each(((file, file, lines, used[file]) for file, lines in shown), self.look)

    def look(self, file: str, shown: str, used: int) -> None:
        self.agrees(file, shown, f"{used} of {sum(map(is_counted, source(file).splitlines()))}")

    def test_sums(self) -> None:
        definitions, files, lines, comments = self.headline.counts()
        self.says(
            READING, f"They use {definitions} definitions of {files} files, {lines} lines, {comments} of them comments"
        )
        self.says(README, f"read {files} files of definitions with {lines - comments} lines")
        definitions, files, lines, comments = of_headline(("linearizable",), self.MODELS[:1]).counts()
        self.says(
            READING,
            f"the first clause alone uses {definitions} of {files} files, {lines} lines, {comments} of them comments",
        )

    def test_linearizable(self) -> None:
        """The functions that have the clause in the words of Herlihy and Wing are those that the page names."""
        named = spans(
            match_in(r"^The clause `linearizable` of (`Core::run` is also on [^.]*)\.", READING.read_text(), re.M)[1]
        )
        found = [
            function.name
            for crate in ("fs_core", "fs_sched", "fs_sched_start", "fs_share")
            for function in promises.public(CRATES / crate)
            if "linearizable" in [clause.name for clause in function.ensures]
        ]
        self.agrees(
            "READING-LIST", sorted(named), sorted(name.replace("AtomFs::close_told", "close_told") for name in found)
        )

    def test_memory(self) -> None:
        """The lines of what counts refused memory."""
        lines = (line.strip().removeprefix("ghost ") for line in source("fs_memory/src/memory.rt").splitlines())
        self.says(READING, f"`fs_memory/src/memory.rt` has {sum(map(is_counted, lines))} lines")

    def test_glue(self) -> None:
        """Nothing outside the folders `specs/code` uses what is inside."""
        files = set(CRATES.glob("*fs*/specs/**/*.antt"))
        inside = {path for path in files if "code" in path.parts}
        self.same("what uses glue", [str(path) for path in files - inside if ".specs.code." in path.read_text()], [])

    # The declaration of a type with its fields or variants, and the model of one.
    TYPE = r"^(?:pub(?:\([^)]*\))? )?(?:struct|enum) (\w+)[^{;(]*(?:\{(.*?)^\}|\((.*?)\);|\{([^\n]*)\})"
    MODEL = r"^impl(?:<.*>)? Model for (\w+)[^{]*\{\n.*?ghost view = \{(.*?)\};"

    def models_of_a_core(self) -> dict[str, list[Place]]:
        """What the model of each type of which a core is made uses, with its module, that is in none of the files of the headline."""
        parts: dict[str, str] = collections.defaultdict(str)
        models: dict[str, list[Place]] = {}
        for crate in unproved.stands_on("fs_core"):
            for path in (CRATES / crate / "src").rglob("*.rt"):
                text = re.sub(r"//.*", "", path.read_text())
                for name, *bodies in re.findall(self.TYPE, text, re.M | re.S):
                    parts[name] += "".join(bodies)
                imports = Definitions.imports(text)
                for name, view in re.findall(self.MODEL, text, re.M | re.S):
                    words = re.findall(r"(?<![\w.])\w+", view)
                    used = sorted({imports[word] for word in words if word in imports})
                    models[name] = [
                        (at, word) for at, word in used if at.startswith("fs_") and at not in self.headline.found
                    ]
        seen, left = set(), ["Core"]
        while left:
            name = left.pop()
            if name in parts and name not in seen:
                seen.add(name)
                left += re.findall(r"\b[A-Z]\w+", parts[name])
        self.assertGreater(len(seen), 40)
        return {name: models[name] for name in seen if models.get(name)}

    def test_models(self) -> None:
        """The models of the types of a core that use more than the files of the headline, and by which functions they are tied."""
        rows = table(READING, "Type", "Is seen by", "In", "Which is tied to what a caller gets by")
        shown = sorted((name, spans(seen), spans(file)) for names, seen, file, _ in rows for name in spans(names))
        found = [
            (
                name,
                sorted(word for _, word in used),
                list(dict.fromkeys(f"{module.replace('.', '/')}.antt" for module, _ in used)),
            )
            for name, used in self.models_of_a_core().items()
        ]
        self.agrees("the models", shown, sorted(found))

    @staticmethod
    def size(paths: typing.Iterable[pathlib.Path]) -> tuple[int, int, int]:
        """How many definitions, files and lines there are, but for pages that only hand on or name others."""
        texts = {path: [line for line in path.read_text().splitlines() if is_counted(line)] for path in paths}
        texts = {path: lines for path, lines in texts.items() if not all(line.startswith("pub mod") for line in lines)}
        modules = (".".join(path.relative_to(CRATES).with_suffix("").parts) for path in texts)
        definitions = sum(len(set(Definitions.file(module)[0].values())) for module in modules)
        return definitions, len(texts), sum(map(len, texts.values()))

    def test_sizes(self) -> None:
        """What need not be read is about as long as the page says: each number is right within a twentieth."""
        specs, proofs, bodies = (
            list(CRATES.glob(pattern))
            for pattern in ("*fs*/specs/**/*.antt", "*fs*/proofs/**/*.antt", "*fs*/src/**/*.rt")
        )
        lines = [sum(len(path.read_text().splitlines()) for path in paths) for paths in (proofs, bodies)]
        rows = (
            (
                "definitions",
                r"All `specs/` together are some ([\d,]+) definitions of ([\d,]+) files, ([\d,]+) lines",
                self.size(specs),
            ),
            (
                "glue",
                r"of its crate has: some ([\d,]+) definitions of ([\d,]+) files, ([\d,]+) lines",
                self.size(path for path in specs if "code" in path.parts),
            ),
            ("proofs", r"All of `proofs/`: some ([\d,]+) files, ([\d,]+) lines", (len(proofs), lines[0])),
            ("bodies", r"The bodies of functions: some ([\d,]+) lines of ([\d,]+) files", (lines[1], len(bodies))),
        )
        self.each(((name, name, *row) for name, *row in rows), self.look_at_size)

    def look_at_size(self, name: str, pattern: str, found: tuple[int, ...]) -> None:
        shown = tuple(map(number, match_in(pattern, READING.read_text()).groups()))
        self.agrees(name, shown, tuple(one if abs(one - due) <= due / 20 else due for one, due in zip(shown, found)))


# What is no code of a file: its comments, and what it imports.
NO_CODE = {".rt": r"//.*|^\s*(pub )?(ghost )?use [^;]*;", ".antt": r"--.*|^(pub )?use .*"}


@functools.cache
def text_at(path: pathlib.Path) -> str:
    return path.read_text(errors="replace")


@functools.cache
def code_at(path: pathlib.Path) -> str:
    return re.sub(NO_CODE[path.suffix], "", text_at(path), flags=re.M)


def product(*parts: str) -> list[pathlib.Path]:
    """The files of the product's crates in these folders."""
    return [path for crate in CRATES.glob("*fs*") for part in parts for path in (crate / part).rglob("*.*t")]


def is_example(path: pathlib.Path) -> re.Match[str] | None:
    return re.match(r"(tests|examples|Examples)\b", path.relative_to(CRATES).parts[2])


def beside() -> list[pathlib.Path]:
    """The files beside the product that a change of it may touch: programs that are none of it, tests, benches, and what stands on the library for C."""
    crates = [path for crate in CRATES.iterdir() if "fs" not in crate.name for path in (crate / "src").rglob("*.rt")]
    folders = (
        "tests/*.*",
        "tests/data/texts/*",
        "tests/data/transcripts/*",
        "bench/*",
        "embed/*",
        "examples/embed/*",
        "bindings/*/*.md",
        "bindings/*/*/**/*",
    )
    files = (
        path
        for pattern in folders
        for path in ROOT.glob(pattern)
        if path.is_file() and path.suffix not in (".pyc", ".so") and "target" not in path.parts
    )
    return [*crates, *files]


# The words of calls that are others than their names as constructors.
WORDS = {"ListAfter": "list"}


def calls() -> dict[str, str]:
    """The calls by their words, with their names as constructors."""
    return {
        WORDS.get(name, name.lower()): name
        for name in re.findall(r"^    (\w+)\(", body_of("fs_calls/src/call.rt", "Call"), re.M)
    }


@functools.cache
def naming_call(call: str) -> dict[str, list[pathlib.Path]]:
    """The files that a further call like this one touches: those that name it as a constructor, and beside the product those that have its word."""
    name = calls()[call]
    parts = {"source": "src", "definitions": "specs", "proofs": "proofs"}
    found = {
        part: [path for path in product(folder) if not is_example(path) and re.search(rf"\b{name}\b", code_at(path))]
        for part, folder in parts.items()
    }
    has_word = re.compile(rf"\b{name}\b|[\"']{call}[ \"']|\b(def |fn |atomfs_){call}\b|CALL_{call.upper()}\b")
    return found | {"beside the product": [path for path in beside() if has_word.search(text_at(path))]}


def limits() -> dict[str, list[int]]:
    """The limits by their constants, and those that each set of limits has, of trees and of texts, which are three numbers each."""
    of_texts = (
        "fs_words/src/limits.rt",
        "fs_script/src/limits.rt",
        "fs_sched/src/schedule.rt",
        "fs_sched/src/seeding.rt",
    )
    of_searches = (
        "fs_sched_seen/src/meetings.rt",
        "fs_sched_outcomes/src/running.rt",
        "fs_sched_find/src/finding.rt",
        "fs_sched_shrink/src/limits.rt",
        "fs_linearize_minimal/src/limits.rt",
        "fs_linearize_text/src/linearizing.rt",
    )
    found = {
        name: [value]
        for file in ("fs_names/src/limits.rt", *of_texts, *of_searches)
        for name, value in constants(file).items()
    }
    return found | harness.limits_of_sets() | harness.limits_of_texts()


@functools.cache
def naming_limit(limit: str) -> dict[str, list[pathlib.Path]]:
    """The files that a change of a limit touches: those that name it, and those where its number is written out."""
    found = {"named": [path for path in product("src", "specs") if re.search(rf"\b{limit}\b", code_at(path))]}
    files = dict.fromkeys([*product("src", "specs", "proofs"), *beside(), *PAGES, *EXPLAINED.iterdir()])
    for value in limits()[limit]:
        written = "|".join(sorted({f"{value}", f"{value:_}", f"{value:,}"}))
        pattern = re.compile(rf"(?<![\w^.,-])(?<!\^ )({written})(?![\w^]|[.,]\d)")
        found[f"{value:,} written out"] = [path for path in files if pattern.search(text_at(path))]
    return found


def printed(found: typing.Mapping[str, typing.Sequence[pathlib.Path]]) -> str:
    """Lists of files under their heads."""
    return "".join(
        f"{head}: {len(paths)} files\n" + "".join(f"  {path.relative_to(ROOT)}\n" for path in sorted(paths))
        for head, paths in found.items()
    )


class Touched(Sentences):
    """What --names and --limit print: the files that a change of a call or of a limit touches, found in the sources."""

    # Where calls and limits stand that no compiler and no prover points to.
    HAVE = (
        *(
            ("rename", file)
            for file in (
                "crates/fs_calls/src/table.rt",
                "crates/fs_calls/specs/Rows.antt",
                "crates/fs_machine/specs/Moves.antt",
                "tests/model.py",
                "embed/atomfs.h",
            )
        ),
        *(
            ("PATH_LIMIT", file)
            for file in (
                "crates/fs_walk/src/walk.rt",
                "crates/fs_names/specs/Keys.antt",
                "tests/data/explained/TooManyNames",
            )
        ),
        *(
            ("path_limit", file)
            for file in (
                "crates/fs_names/specs/Reading.antt",
                "crates/fs_text/specs/Fits.antt",
                "tests/data/explained/TooManyNames",
            )
        ),
        *(
            ("entry_limit", file)
            for file in (
                "crates/fs_calls/specs/Forms.antt",
                "crates/fs_calls/specs/Examples.antt",
                "crates/fs_seq/specs/Rows.antt",
                "tests/data/transcripts/trees",
            )
        ),
        *(
            ("NODE_LIMIT", file)
            for file in (
                "crates/fs_nodes/src/store.rt",
                "crates/fs_names/specs/Limits.antt",
                "embed/atomfs.h",
                "docs/SPECIFICATION.md",
            )
        ),
        *(
            ("node_limit", file)
            for file in ("crates/fs_laws/specs/Events.antt", "tests/core.py", "bindings/rust/src/limits.rs")
        ),
        *(
            ("TEXT_LIMIT", file)
            for file in (
                "crates/fs_verdict/src/source.rt",
                "crates/fs_words/src/headers.rt",
                "docs/FORMATS.md",
                "tests/data/explained/TooLarge",
            )
        ),
        *(
            ("text_limit", file)
            for file in (
                "crates/fs_words/specs/Headers.antt",
                "crates/fs_script/specs/Laws.antt",
                "docs/FORMATS.md",
                "tests/data/explained/TooLarge",
            )
        ),
        *(
            ("call_limit", file)
            for file in (
                "crates/fs_script/src/draft.rt",
                "crates/fs_script/specs/Limits.antt",
                "bindings/python/src/atomfs/_script.py",
                "docs/FORMATS.md",
            )
        ),
        *(
            ("file_limit", file)
            for file in (
                "crates/fs_names/specs/Limits.antt",
                "crates/fs_calls/specs/Examples.antt",
                "tests/data/transcripts/trees",
                "embed/atomfs.h",
            )
        ),
    )

    def test_known_places(self) -> None:
        self.each(((f"{what} {file}", what, file) for what, file in self.HAVE), self.look)

    def look(self, what: str, file: str) -> None:
        found = naming_call(what) if what in calls() else naming_limit(what)
        self.same(
            f"{file} is touched by a change of {what}",
            ROOT / file in {path for paths in found.values() for path in paths},
            True,
        )

    def test_counts(self) -> None:
        """How many files of the product name a call of each form."""
        node, entry, pair = (
            sum(len(naming_call(call)[part]) for part in ("source", "definitions", "proofs"))
            for call in ("truncate", "rmdir", "rename")
        )
        self.says(
            CHANGING,
            f"a node touches {node} files of the product (`truncate`), an entry {entry} (`rmdir`), a pair {pair} (`rename`)",
        )

    def test_every_call(self) -> None:
        """docs/CHANGING.md lists the sources that have a case for each call."""
        found = set.intersection(*(set(naming_call(call)["source"]) for call in calls()))
        listed = match_in(r"has a case in each of ([^.]*(?:\.rt[^.]*)*)\.\s", CHANGING.read_text())[1]
        shown, folder = [], ""
        for span in spans(listed):
            folder = span if span.endswith("/") else folder
            shown += [] if span.endswith("/") else [span if "/" in span else f"{folder}{span}"]
        self.agrees(
            "the sources with a case for each call",
            sorted(shown),
            sorted(str(path.relative_to(CRATES)) for path in found),
        )

    def test_code_alone(self) -> None:
        """A comment and an import name nothing, nor does an example."""
        texts = (
            "//! Call::Rename\n",
            "use fs_calls::{\n    Call,\n    Rename,\n};\n",
            "let call = Call::Rename(a, b); // so\n",
        )
        self.agrees(
            "what is code", [re.sub(NO_CODE[".rt"], "", text, flags=re.M).count("Rename") for text in texts], [0, 0, 1]
        )
        texts = "-- Rename\n", "use Rattle.fs_calls.{Rename}\n", "reserves (Rename p q) = false -- so\n"
        self.agrees(
            "what is defined",
            [re.sub(NO_CODE[".antt"], "", text, flags=re.M).count("Rename") for text in texts],
            [0, 0, 1],
        )
        files = [
            path for call in calls() for part in ("source", "definitions", "proofs") for path in naming_call(call)[part]
        ]
        self.agrees("examples", [path for path in files if path.stem.lower() == "examples"], [])

    def test_commands(self) -> None:
        """Those that the pages name, and words that are none."""
        commands = Commands.of_a_shell(r"python3 tests/documents\.py --\w+ \w+")
        self.same("commands", len(commands) >= 2, True)
        self.each(commands, self.look_at_command)
        self.each(
            (("--names", "--names", "renam", calls()), ("--limit", "--limit", "NODES", limits())), self.look_at_refusal
        )

    def asked(self, *words: str) -> tuple[int, str, str]:
        done = subprocess.run(
            ["python3", "tests/documents.py", *words],
            cwd=ROOT,
            capture_output=True,
            text=True,
            timeout=harness.MOST_SECONDS,
        )
        return done.returncode, done.stdout, done.stderr

    def look_at_command(self, command: str) -> None:
        _, _, option, word = command.split(" ")
        found = naming_call(word) if option == "--names" else naming_limit(word)
        self.same(command, self.asked(option, word), (0, printed(found), ""))

    def look_at_refusal(self, option: str, word: str, known: typing.Iterable[str]) -> None:
        self.same(f"{option} {word}", self.asked(option, word), (2, "", f"{word} is none of {', '.join(known)}\n"))


class Guarantees(Sentences):
    """What docs/PROMISES.md says carries a promise, or rejects a mutant, is there."""

    PAGE = DOCS / "PROMISES.md"
    # How many wrong bodies stand in all crates at most, in one at most, and in one that has some at least.
    MOST_EDITS, MOST_OF_A_CRATE, LEAST_OF_A_CRATE = 46, 9, 3

    def test_promises(self) -> None:
        """Each crate of the product has a row in the table of what a user relies on it for, with functions and clauses of it."""
        rows = [row for rows in tables(self.PAGE, "Crate", "Main promise", "Carried by") for row in rows]
        self.agrees("its crates", sorted(crate for row in rows for crate in spans(row[0])), sorted(promises.product()))
        self.each(((row[0], spans(row[0])[0], spans(row[2])) for row in rows), self.look_at_crate)

    def look_at_crate(self, crate: str, words: typing.Any) -> None:
        of = self.records(crate)
        for function in promises.public(CRATES / crate):
            of[function.name] = of[f"{pathlib.Path(function.file).stem}::{function.name}"] = [
                clause.name for clause in function.ensures
            ]
        groups: list[tuple[str, list[str]]] = []
        for word in words:
            if word in of or not groups:
                groups.append((word, []))
            else:
                groups[-1][1].append(word)
        for function, clauses in groups:
            self.same(
                f"the clauses of {function}",
                [clause for clause in clauses or ["only"] if clause not in of.get(function, ())],
                [],
            )

    @staticmethod
    def records(crate: str) -> dict[str, list[str]]:
        """The records of a crate's definitions, each with its fields: that of a command says what it makes."""
        texts = (path.read_text() for path in (CRATES / crate / "specs").glob("*.antt"))
        blocks = (block.splitlines() for text in texts for block in re.split(r"^(?=pub record )", text, flags=re.M)[1:])
        return {words[0].split()[2]: re.findall(r"^  pub (\w+) :", "\n".join(words[1:]), re.M) for words in blocks}

    def test_wrong_bodies(self) -> None:
        """Each has an edit in its crate, a function of a check that is called, or a test in Python, behind the name of the crate or file."""
        rows = table(self.PAGE, "A body that", "Is refused by")
        self.same("how many there are", len(rows), 30)
        self.each(((body, spans(refused)) for body, refused in rows), self.look_at_body)

    def look_at_body(self, names: str) -> None:
        place, missing, named = "", list[str](), 0
        for name in names:
            if (CRATES / name).is_dir() or (ROOT / name).is_file():
                place = name
            else:
                named += 1
                missing += [] if self.is_there(place, name) else [f"{place} {name}"]
        self.same("what is not there", missing, [])
        self.same("whether one is named", named > 0, True)

    @staticmethod
    def is_there(place: str, name: str) -> bool:
        if place.endswith(".py"):
            loader = unittest.TestLoader()
            found = loader.loadTestsFromName(f"{pathlib.Path(place).stem}.{name}")
            return not loader.errors and found.countTestCases() == 1
        if "::" in name:
            texts = {path.stem: path.read_text() for path in (CRATES / place / "src").rglob("*.rt")}
            module, function = name.split("::")
            named = sum(len(re.findall(rf"^(?! *//).*\b{function}\b", text, re.M)) for text in texts.values())
            return re.search(rf"\bfn {function}\b", texts.get(module, "")) is not None and named > 1
        return (CRATES / place / "must-fail" / f"{name}.edit").exists()

    def test_budget(self) -> None:
        self.says(
            DOCS / "DECISIONS.md",
            f"at most {self.MOST_EDITS}, at most {self.MOST_OF_A_CRATE} in a crate, and three or none",
        )
        edits = collections.Counter(path.parts[-3] for path in CRATES.glob("*/must-fail/*.edit"))
        self.same("the edits of all crates", max(edits.total(), self.MOST_EDITS), self.MOST_EDITS)
        beyond = {
            crate: number
            for crate, number in edits.items()
            if not self.LEAST_OF_A_CRATE <= number <= self.MOST_OF_A_CRATE
        }
        self.same("those of a crate", beyond, {})


class Listed(Page):
    """What tables of pages list is what the sources have."""

    @staticmethod
    def product() -> dict[str, list[str]]:
        """The crates of the product, and which of them each names."""
        lines = (line.split(":") for line in (ROOT / "crates.txt").read_text().splitlines() if not line.startswith("#"))
        named = {crate.split()[0]: below.split() for crate, below in lines}
        return {
            crate: [one for one in below if one in named]
            for crate, below in named.items()
            if re.match("fs_|atomfs", crate)
        }

    def test_libraries(self) -> None:
        """Each crate names the libraries that crates.txt lists for it."""
        for line in (ROOT / "crates.txt").read_text().splitlines():
            crate, _, libraries = line.partition(":")
            if not line.startswith("#"):
                files = [
                    path
                    for path in (CRATES / crate.split()[0]).rglob("*")
                    if path.suffix in (".rt", ".antt") and "out" not in path.parts
                ]
                words = set(re.findall(r"\w+", "\n".join(path.read_text() for path in files)))
                self.agrees(crate, [name for name in libraries.split() if name not in words], [])

    def test_trusted_libraries(self) -> None:
        """docs/TRUST.md has each library of the kit that a crate names, but the core library."""
        lines = [line.split(":") for line in (ROOT / "crates.txt").read_text().splitlines() if not line.startswith("#")]
        used = (
            {name for _, below in lines for name in below.split()} - {crate.split()[0] for crate, _ in lines} - {"core"}
        )
        said = match_in(r"^- The statements of the kit's crates .*", (DOCS / "TRUST.md").read_text(), re.M)[0]
        self.agrees("the kit's crates", sorted(spans(said)), sorted(used))

    @staticmethod
    def rooms() -> dict[str, list[str]]:
        """The rooms of docs/ARCHITECTURE.md from the top down, each with its crates as they come in the list."""
        rooms = [room.splitlines() for room in blocks(DOCS / "ARCHITECTURE.md")[1].split("\n\n")]
        return {name: [line.split()[0] for line in crates] for name, *crates in rooms}

    def test_rooms(self) -> None:
        """Each crate of the product is in a room of the drawing. In the list it comes above all that it uses, and none of these is in a room beside."""
        drawing, _ = blocks(DOCS / "ARCHITECTURE.md")
        rows = [{cell.strip(" +-") for cell in line.split("|")} - {""} for line in drawing.splitlines()]
        rooms = self.rooms()
        self.agrees("the rooms of the drawing", sorted(set().union(*rows)), sorted(rooms))
        order = [crate for crates in rooms.values() for crate in crates]
        self.agrees("the crates of the list", sorted(order), sorted(self.product()))
        used = [(crate, one) for crate, named in self.product().items() for one in named]
        above = [f"{crate} uses {one}" for crate, one in used if order.index(one) <= order.index(crate)]
        self.agrees("what a crate uses that is not below it", [], above)
        room_of = {crate: room for room, crates in rooms.items() for crate in crates}
        pairs = [{room_of[crate], room_of[one]} for crate, one in used if room_of[crate] != room_of[one]]
        self.agrees("rooms that use one beside them", [], [pair for pair in pairs for row in rows if pair <= row])

    def test_laws(self) -> None:
        """docs/MACHINE.md has each law of the machine and of its runs, by the name of the function that states it."""
        laws = [
            name
            for file in (
                "fs_machine/src/laws.rt",
                *(f"fs_laws/src/{part}.rt" for part in ("laws", "numbers", "endings")),
            )
            for name in re.findall(r"^pub fn (\w+)\(", source(file), re.M)
        ]
        shown = [name for names, _ in table(DOCS / "MACHINE.md", "Law", "Says") for name in spans(names)]
        self.agrees("the laws", sorted(shown), sorted(laws))

    def test_numbers_of_errors(self) -> None:
        """The numbers of errors, and of the kinds of a verdict."""
        cells = [cell for row in table(SPECIFICATION, "Number", "Error", "Number", "Error") for cell in row]
        errors = sorted((int(value), error) for value, error in zip(cells[::2], cells[1::2]) if value)
        self.agrees(
            "errors", errors, [(value, error.upper()) for value, error in variants("fs_calls/src/errno.rt", "Errno")]
        )
        kinds = [
            (int(value), spans(kind)[0]) for value, kind, _ in table(SPECIFICATION, "Number", "Kind", "What is wrong")
        ]
        self.agrees("kinds", kinds, variants("fs_timeline/src/verdict.rt", "FaultKind"))

    def test_messages(self) -> None:
        """The statuses at which something is told, and each message that the sources have."""
        rows = table(COMMANDS, "Status", "Message", "When")
        statuses = re.findall(r"^  (\d)  ", (DATA / "help" / "atomfs").read_text(), re.M)
        shown = sorted({status for status, *_ in rows})
        self.agrees("the statuses", shown, [status for status in statuses if status != "0"])
        # find and shrink: fs_sched_shrink
        searches = "fs_sched_find", "fs_sched_outcomes", "fs_sched_shrink"
        sources = "".join(
            source(f"{crate}/src/fault.rt")
            for crate in ("fs_verdict", "fs_sched_threads", "fs_trace", *searches, "fs_draw", "fs_trace_replay")
        )
        told = re.findall(r'#\[error\("(?!CALL is )([^"]*\w \w[^"]*|full)"', sources) + re.findall(
            r'"atomfs: ([^"]*\bha(?:s|ve) it\b[^"]*)"', source("atomfs_answers/src/status.rt")
        )
        messages = {re.sub(r"\{\w*\}", "N", message) for message in told}
        said = {span for _, message, _ in rows for span in spans(message)}
        self.agrees("the messages", sorted(said - {"line N: KIND"}), sorted(messages))

    def test_library(self) -> None:
        """The functions of embed/atomfs.h, and its statuses after which something has changed."""
        calls = [name for _, cell in table(EMBEDDING, "To", "Call") for name in spans(cell)]
        self.agrees(
            "the functions",
            sorted(calls),
            sorted(
                f"atomfs_{name}"
                for name, function in harness.declared().functions.items()
                if function.answers == "uint8_t"
            ),
        )
        shown = [spans(status)[0] for status, *_ in table(EMBEDDING, "Status", "Means", "What to do")]
        header = (ROOT / "embed" / "atomfs.h").read_text()
        before = header[: header.index("From here to ATOMFS_FAILED nothing has changed")]
        self.agrees("the statuses", shown, re.findall(r"^    (ATOMFS_\w+) =\s+\d+,", before, re.M))


class Numbers(Sentences):
    """Numbers in sentences and tables of pages, and where else they stand."""

    def test_limits_of_trees(self) -> None:
        rows = {
            spans(name)[0]: sets for _, *sets, name in table(SPECIFICATION, "What", "`V1`", "`V2`", "`V3`", "Named by")
        }
        named = {
            "path_names": "path_limit",
            "name": "name_limit",
            "entries": "entry_limit",
            "file": "file_limit",
            "read": "read_limit",
            "nodes": "node_limit",
        }
        told = {limit: [*map(number, rows[f"Limits::{what}"])] for what, limit in named.items()}
        self.agrees("the sets of limits", told, harness.limits_of_sets())
        names, reads = constants("fs_names/src/limits.rt")["LIST_LIMIT"], told["read_limit"]
        rooms = {"PATH_LIMIT": max(told["path_limit"]), "NODE_LIMIT": max(told["node_limit"]), "LIST_LIMIT": names}
        self.agrees("what each set has room for", rooms, constants("fs_names/src/limits.rt"))
        first, second, third = ({what: sets[at] for what, sets in told.items()} for at in range(3))
        self.says(SPECIFICATION, f"No call answers more than {names} names")
        self.says(SPECIFICATION, f"A **path** is a key of at most {third['path_limit']:,} names")
        told_of = f"{third['entry_limit']:,} entries in a directory, {third['node_limit']:,} nodes"
        self.says(README, f"names of {third['name_limit']} bytes, files of {third['file_limit'] >> 30} GiB, {told_of}")
        told_of = f"{third['file_limit']:,} bytes in a file, {third['name_limit']} in a name"
        self.says(CHOOSING, f"{third['entry_limit']:,} entries in a directory, {told_of}")
        self.says(
            CHOOSING, f"{second['entry_limit']} entries, {second['file_limit']:,} bytes and {second['name_limit']}"
        )
        self.says(SPECIFICATION, f"A **name** is 1 to {third['name_limit']} bytes")
        words = f"more than {first['name_limit']} bytes, in a text of version 2 more than {second['name_limit']}, of version 3 more than {third['name_limit']}"
        self.says(FORMATS, f"a name in a path has {words}")
        header = (ROOT / "embed" / "atomfs.h").read_text()
        nodes = {
            f"ATOMFS{which}_NODE_LIMIT": sets["node_limit"]
            for which, sets in (("", first), ("", second), ("_V3", third))
        }
        due = {**nodes, "ATOMFS_LIST_LIMIT": names, "ATOMFS_READ_LIMIT": max(reads)}
        self.agrees("embed/atomfs.h", {name: number(match_in(f"#define {name} (.*)", header)[1]) for name in due}, due)

    def test_limits_of_texts(self) -> None:
        scripts, (nodes, third_nodes) = constants("fs_script/src/limits.rt"), limits()["node_limit"][1:]
        (first_text, text, third_text), (first_calls, calls, third_calls) = harness.limits_of_texts().values()
        self.agrees("the first two sets", (first_text, first_calls), (text, calls))
        rooms = {"TEXT_LIMIT": text, "LARGEST_TEXT": third_text, "CALL_LIMIT": third_calls}
        found = constants("fs_words/src/limits.rt") | scripts
        self.agrees("what each set has room for", rooms, {name: found[name] for name in rooms})
        draws, seeds = constants("fs_sched/src/schedule.rt"), constants("fs_sched/src/seeding.rt")
        events = scripts["EVENT_LIMIT"]
        sentences = (
            f"A text of more than {text:,} bytes (by version 3, or of a tree, {third_text:,}) is `TooLarge`",
            f"The {scripts['THREAD_LIMIT'] + 1:,}th thread, the {calls + 1:,}th call, in version 3 the {third_calls + 1:,}th, and the {events + 1:,}st given event",
            f"`THREAD*NUMBER` (1 to {events:,} events)",
            f"with a number outside 1 to {events:,}",
            f"a limit is exceeded: {text:,} bytes of a text, {scripts['THREAD_LIMIT']} threads, {calls:,} calls, {events:,} given events or {nodes:,} nodes; in version 3 {third_text:,} bytes, {third_calls:,} calls or {third_nodes:,} nodes",
            f"then at most {scripts['THREAD_NAME_LIMIT'] - 1} of `a` to `z`",
            f"or {draws['DRAW_LIMIT']:,} are drawn",
            f"at most {2**64 - 1:,} | `BadNumber`",
            f"the count, at most {2**32 - 1:,}; in texts of version 3 alone",
        )
        of_commands = (
            f"N from 0 to {seeds['SEED_LIMIT']:,}, K from 1 to {seeds['RUN_LIMIT']:,}",
            f"of such runs, K from 1 to {constants('fs_sched_outcomes/src/running.rt')['OUTCOME_LIMIT']:,}",
            f"that has WHAT; K from 1 to {constants('fs_sched_find/src/finding.rt')['SEARCH_LIMIT']:,}",
            f"where it stopped at {constants('fs_sched_shrink/src/limits.rt')['TRIAL_LIMIT']:,} runs",
            f"A run of more than {events:,} events",
        )
        self.each(((sentence, COMMANDS, sentence) for sentence in of_commands), self.says)
        self.each(((sentence, FORMATS, sentence) for sentence in sentences), self.says)
        self.says(EXPLAINED / "TooLarge", f"at most {events:,} events are given")

    def test_counts(self) -> None:
        """How many there are of what pages count."""
        inputs = [path for path in (DATA / "worked").rglob("*") if path.suffix in (".script", ".journal")]
        stack = (ROOT / "tests" / "limits.py").read_text()
        rows = (
            (EXAMPLES, f"`tests/data/worked` has {len(inputs)} more scripts, journals and broken texts"),
            (
                RATTLE,
                f"There are places for {constants('fs_share_observe/src/publisher.rt')['READER_PLACES']} observers",
            ),
            (
                EMBEDDING,
                f"`embed/checks.c`, {len((ROOT / 'embed' / 'checks.c').read_text().splitlines())} lines that are not proved",
            ),
            (COMMANDS, f"It needs a stack of {match_in(r'^STACK = ([0-9]+) . 1024$', stack, re.M)[1]} KiB"),
        )
        self.each(((page.stem, page, sentence) for page, sentence in rows), self.says)

    def test_figures(self) -> None:
        """The figures of docs/CHOOSING.md are those of docs/PERFORMANCE.md."""
        heads = (
            (
                ("Call", "disk (tmpfs)", "`atomfs.patch`", "pyfakefs"),
                ("Call", "disk", "`atomfs.patch`", "pyfakefs", "patch over disk"),
            ),
            (("Call", "`os` on tmpfs", "`Tree`"), ("Call", "`os`", "`Tree`, by the extension", "`Tree`, by ctypes")),
        )
        for here, there in heads:
            known = [row[: len(here)] for row in table(PERFORMANCE, *there)]
            self.same("figures that it has not", [row for row in table(CHOOSING, *here) if row not in known], [])

    def test_ratios(self) -> None:
        """README's ratios are those of docs/PERFORMANCE.md, the least and the most of times, to a tenth."""
        rows = {
            (spans(job)[0], measure): " ".join(ratios)
            for job, measure, *ratios in table(PERFORMANCE, "Job", "Measure", "Few names", "A tree that grows")
        }
        times = [
            sorted(map(float, re.findall(r"[\d.]+", rows[f"atomfs {command}", "time"]))) for command in ("run", "check")
        ]
        long, checks = (f"{least:.1f} to {most:.1f} times" for least, *_, most in times)
        self.says(README, f"`atomfs run` takes {long} as long as a plain, unproved tree in Rust")
        self.says(README, f"`atomfs check` {checks}")
        throughput = dict(table(PERFORMANCE, "Threads", "Throughput"))
        self.says(README, f"two make {throughput['2']} times as many calls, four {throughput['4']} times")


def main(option: str, word: str) -> None:
    """Prints the files that a further call like the named one touches (--names CALL), or a change of a limit (--limit NAME)."""
    known = list(calls()) if option == "--names" else list(limits())
    naming = naming_call if option == "--names" else naming_limit
    if word not in known:
        print(f"{word} is none of {', '.join(known)}", file=sys.stderr)
        sys.exit(2)
    print(printed(naming(word)), end="")


if __name__ == "__main__":
    if len(sys.argv) == 3 and sys.argv[1] in ("--names", "--limit"):
        main(*sys.argv[1:])
    else:
        unittest.main()
