"""The pages for `man` and the completions for bash, zsh and fish that embed/manual makes of the program's help: they have each command, option, value and
status of it, the pages are set without a warning, and the shells themselves offer what they say.

A shell or a command that is not there is named, with the package of Debian by which it comes, and its test is left out.
"""
import contextlib
import os
import pathlib
import pty
import re
import shlex
import shutil
import subprocess
import tempfile
import typing
import unittest

import harness
from harness import DATA, ROOT, Case, match_in
from packages import wanted

HELPS = {path.name: path.read_text() for path in sorted((DATA / "help").iterdir())}
PROGRAM = "atomfs"
COMMANDS = [name for name in HELPS if name != PROGRAM]
LISTED = re.findall(r"^  (\w+)  ", HELPS[PROGRAM].partition("Options:")[0], re.M)
KINDS = match_in(r"possible values: (.*)\]", HELPS["explain"])[1].split(", ")
# The files of the folder in which a shell completes.
FILES = ["a script", "journal", "other.script"]
# How wide a page is set, so that no sentence of it is broken.
WIDE = 10_000
# What a shell has offered is written to a file, a line for what was typed, by a widget that runs as soon as there is a line.
BY_ZSH = """\
PS1='' fpath=($MADE/share/zsh/site-functions $fpath)
autoload -Uz compinit && compinit -u -D
offer() {
    compadd() {
        local -a found
        if [[ "$*" != *-[AOD]\\ * ]]; then
            builtin compadd -A found "$@"
            offered+=("${(@Q)found}")
        fi
        builtin compadd "$@"
    }
    _main_complete
    compstate[insert]='' compstate[list]=''
    unfunction compadd
}
zle -C offer complete-word offer
each() {
    local line
    for line in "${(@f)$(<$TYPED)}"; do
        typeset -ga offered=()
        BUFFER=$line CURSOR=$#line
        zle offer
        print -r -- ${(pj:\\t:)offered} >> $OFFERED
    done
    exit
}
zle -N zle-line-init each
"""


def options(name: str) -> list[str]:
    """The options of a help, all names of all."""
    listed = match_in(r"^Options:\n(.*?)(?:\n\n|\Z)", HELPS[name], re.M | re.S)[1]
    terms = [line.strip().split("  ")[0] for line in listed.splitlines()]
    return [word for term in terms for word in re.findall(r"(?<!\S)--?[\w-]+", term)]


def plain(text: str) -> str:
    """A text without the signs that a page has no need of, and with single spaces."""
    return " ".join(re.sub("[`<>]", "", text).split())


def made(folder: str | pathlib.Path, *more: pathlib.Path) -> subprocess.CompletedProcess[str]:
    """Has embed/manual fill a folder."""
    words = [str(ROOT / "embed" / "manual"), str(folder), *map(str, more)]
    return subprocess.run(words, capture_output=True, text=True, timeout=harness.MOST_SECONDS)


class Made(Case):
    """A test in a folder that embed/manual has filled."""

    folder: pathlib.Path
    share: pathlib.Path
    done: subprocess.CompletedProcess[str]

    @classmethod
    def setUpClass(cls) -> None:
        cls.folder = pathlib.Path(tempfile.mkdtemp(prefix="atomfs-manual-"))
        cls.addClassCleanup(shutil.rmtree, cls.folder)
        cls.done = made(cls.folder)
        cls.share = cls.folder / "share"

    def ran(self, words: typing.Sequence[str | pathlib.Path], **more: typing.Any) -> str:
        """What a command writes that is to end with status 0 and without a message."""
        ran: subprocess.CompletedProcess[str] = subprocess.run(
            [str(word) for word in words], capture_output=True, text=True, timeout=harness.MOST_SECONDS, **more
        )
        self.same(" ".join(map(str, words)), (ran.returncode, ran.stderr), (0, ""))
        return ran.stdout


class Pages(Made):
    def pages(self) -> list[tuple[str, str, pathlib.Path]]:
        """The names of the helps with their pages."""
        named = {PROGRAM: PROGRAM, **{name: f"{PROGRAM}-{name}" for name in COMMANDS}}
        return [(name, name, self.share / "man" / "man1" / f"{page}.1") for name, page in named.items()]

    def test_files(self) -> None:
        """There is a page for the program and for each command, and a file for each shell, where each is looked for."""
        due = [page for _, _, page in self.pages()]
        due += [self.share / "bash-completion" / "completions" / PROGRAM]
        due += [self.share / "zsh" / "site-functions" / f"_{PROGRAM}"]
        due += [self.share / "fish" / "vendor_completions.d" / f"{PROGRAM}.fish"]
        self.same("embed/manual", (self.done.returncode, self.done.stdout, self.done.stderr), (0, "", ""))
        self.same("its files", sorted(path for path in self.share.rglob("*") if path.is_file()), sorted(due))

    def test_other_help(self) -> None:
        """What the help has is on the page, and a help of another form is refused."""
        with tempfile.TemporaryDirectory(prefix="atomfs-") as folder:
            helps = pathlib.Path(shutil.copytree(DATA / "help", pathlib.Path(folder, "help")))
            run = helps / "run"
            run.write_text(HELPS["run"].replace("  -h, --help ", "      --more <M>  More\n  -h, --help "))
            self.same("a further option", made(folder, helps).returncode, 0)
            page = pathlib.Path(folder, "share", "man", "man1", "atomfs-run.1").read_text()
            self.same("the page", r"\fB\-\-more\fR \fIM\fR" in page, True)
            run.write_text(HELPS["run"].replace("      --robin ", "      robin "))
            came = made(folder, helps)
            self.same("an option without a sign", (came.returncode, "robin" in came.stderr), (1, True))

    def set(self, name: str, page: pathlib.Path, *words: str | pathlib.Path) -> None:
        self.same(name, (self.ran([*words, page])), "")

    def test_groff(self) -> None:
        wanted("groff")
        self.each(((*row, *("groff", "-man", "-ww", "-z", "-Tutf8")) for row in self.pages()), self.set)

    def test_mandoc(self) -> None:
        wanted("mandoc")
        self.each(((*row, *("mandoc", "-Tlint", "-Wwarning")) for row in self.pages()), self.set)

    def test_man(self) -> None:
        """`man atomfs run` shows the page of the command, and has no warning."""
        wanted("man")
        variables = os.environ | {"MANPATH": str(self.share / "man"), "MANWIDTH": "80", "LC_ALL": "C.UTF-8"}
        for words in ((), *((name,) for name in COMMANDS)):
            with self.subTest(words):
                text = self.ran(["man", "--warnings", PROGRAM, *words], env=variables)
                self.same("its first line", text.split("(1)")[0], "-".join([PROGRAM, *words]).upper())

    def test_words(self) -> None:
        """Each sentence of the help, each option with its value, each status and each example is on its page, as `man` shows it."""
        wanted("groff")
        self.each(self.pages(), self.look_at_words)

    def look_at_words(self, name: str, page: pathlib.Path) -> None:
        words = ("groff", "-man", "-Tascii", "-P-cbou", f"-rLL={WIDE}n", page)
        text = "\n".join(plain(line) for line in self.ran(words).splitlines())
        about, *rest = HELPS[name].splitlines()
        self.same(about, f"{about}.".replace("`", "") in text.splitlines(), True)
        for line in filter(None, rest):
            if not re.match(r"Usage: |[A-Z][a-z]+(?: \w+)?:$", line):
                term, _, says = line.strip().partition("  ")
                named = f"{PROGRAM}-{term}(1)" if term in COMMANDS else term
                form = r"\s+".join(re.escape(plain(part)) for part in (named, says) if part)
                self.same(line, bool(re.search(f"^{form}$", text, re.M)), True)


class Completions(Made):
    """What three shells offer for what is typed."""

    place: pathlib.Path

    @classmethod
    def setUpClass(cls) -> None:
        super().setUpClass()
        cls.place = cls.folder / "place"
        cls.place.mkdir()
        for name in FILES:
            (cls.place / name).touch()

    def rows(self) -> typing.Iterator[tuple[tuple[str, ...], str, list[str]]]:
        """What is typed after the program, the word that is begun apart, and what is to be offered."""
        yield (), "", LISTED
        yield (), "ou", ["outcomes"]
        yield (), "--v", ["--version"]
        yield ("help",), "sh", ["shrink"]
        for name in COMMANDS:
            yield (name,), "--", [word for word in options(name) if word.startswith("--")]
        yield ("run",), "", FILES
        yield ("run",), "o", ["other.script"]
        yield ("run", "--robin"), "j", ["journal"]
        yield ("run", "--seed", "7"), "j", ["journal"]
        yield ("run", "--seed"), "j", []
        yield ("run", "--from"), "j", ["journal"]
        yield ("run", "--from", "journal"), "o", ["other.script"]
        for name in ("seeds", "outcomes"):
            yield (name, "--from"), "j", ["journal"]
            yield (name, "--seed", "1", "--runs", "2", "--from", "journal"), "o", ["other.script"]
        # find and shrink
        for name in ("find", "shrink"):
            yield (name, "--from"), "j", ["journal"]
        yield ("tree", "--who"), "j", []
        yield ("explain",), "", KINDS
        yield ("explain", "BadPath"), "Tra", ["TrailingSlash"]
        yield ("explain",), "j", []

    def look(self, offered: typing.Callable[[list[tuple[str, ...]]], list[list[str]]]) -> None:
        rows = list(self.rows())
        came = offered([(*words, begun) for words, begun, _ in rows])
        self.same("how many answers there are", len(came), len(rows))
        for (words, begun, due), found in zip(rows, came):
            with self.subTest([*words, begun]):
                self.same([*words, begun], sorted(found), sorted(due))

    def test_short_options(self) -> None:
        """They have short names too."""
        self.same("the options of the program", options(PROGRAM), ["-h", "--help", "-V", "--version"])
        ends = "--color", "-h", "--help"
        self.same("those of run", options("run"), ["--robin", "--seed", "--priorities", "--from", *ends])
        self.same("those of seeds", options("seeds"), ["--seed", "--runs", "--priorities", "--from", "--json", *ends])
        lines, asserted = ("--trees", "--all", "--add"), ("--never", "--always", "--sometimes")
        due = ["--seed", "--runs", "--priorities", "--from", *lines, *asserted, "--json", *ends]
        self.same("those of outcomes", options("outcomes"), due)

    def by_bash(self, typed: typing.Iterable[tuple[str, ...]]) -> list[list[str]]:
        """What the function leaves, which bash calls with the words."""
        lines = [f"source {shlex.quote(str(self.share / 'bash-completion' / 'completions' / PROGRAM))}"]
        for words in typed:
            lines.append(f"COMP_WORDS=({shlex.join([PROGRAM, *words])}) COMP_CWORD={len(words)}")
            lines.append("_atomfs; (IFS=$'\\t'; echo \"${COMPREPLY[*]}\")")
        told = self.ran(["bash", "--norc", "--noprofile", "-c", "\n".join(lines)], cwd=self.place)
        return [line.split("\t") if line else [] for line in told.splitlines()]

    def by_zsh(self, typed: typing.Iterable[tuple[str, ...]]) -> list[list[str]]:
        """What the functions hand to zsh, which completes a line of each."""
        text, offered = self.folder / "typed", self.folder / "offered"
        text.write_text("".join(f"{' '.join([PROGRAM, *words])}\n" for words in typed))
        variables = {"MADE": str(self.folder), "TYPED": str(text), "OFFERED": str(offered)}
        (self.folder / ".zshrc").write_text(BY_ZSH)
        self.at_a_terminal(["zsh", "-d", "-i"], b"", variables)
        return [line.split("\t") if line else [] for line in offered.read_text().splitlines()]

    def told_by_fish(self, typed: typing.Iterable[tuple[str, ...]]) -> list[list[tuple[str, str]]]:
        """What fish offers, each word with what is said of it."""
        lines = [f"source {shlex.quote(str(self.share / 'fish' / 'vendor_completions.d' / f'{PROGRAM}.fish'))}"]
        for words in typed:
            lines.append(f"complete -C {shlex.quote(' '.join([PROGRAM, *words]))}; echo =")
        told = self.ran(["fish", "--no-config", "-c", "\n".join(lines)], cwd=self.place, env=os.environ | self.home())
        return [[line.partition("\t")[::2] for line in part.splitlines()] for part in told.split("=\n")[:-1]]

    def by_fish(self, typed: typing.Iterable[tuple[str, ...]]) -> list[list[str]]:
        return [[word for word, _ in offered] for offered in self.told_by_fish(typed)]

    def home(self) -> dict[str, str]:
        """What keeps a shell from the files of whoever runs the test."""
        places = dict.fromkeys(("HOME", "ZDOTDIR", "XDG_CONFIG_HOME", "XDG_DATA_HOME"), str(self.folder))
        return {**places, "TERM": "vt100", "INPUTRC": "/dev/null"}

    def at_a_terminal(self, words: list[str], given: bytes, variables: dict[str, str]) -> None:
        """Runs a shell that has a terminal, and types something there."""
        here, there = pty.openpty()
        command = ["timeout", "--foreground", str(harness.MOST_SECONDS), *words]
        with subprocess.Popen(
            command,
            cwd=self.place,
            env=os.environ | self.home() | variables,
            stdin=there,
            stdout=there,
            stderr=there,
            start_new_session=True,
        ) as child:
            os.close(there)
            os.write(here, given)
            with contextlib.suppress(OSError):
                while os.read(here, 4096):
                    pass
        os.close(here)
        self.same(" ".join(words), child.returncode, 0)

    def test_bash(self) -> None:
        wanted("bash")
        self.look(self.by_bash)

    def test_bash_words(self) -> None:
        """Short options, and `--from=FILE`, of which bash makes three words."""
        wanted("bash")
        rows = [(name, options(name)) for name in COMMANDS]
        self.same("-", self.by_bash([(name, "-") for name, _ in rows]), [due for _, due in rows])
        typed = ("run", "--from", "=", "j"), ("run", "--from", "="), ("run", "--seed", "=", "7", "j"), ("run", "-", "j")
        self.same("=", self.by_bash(typed), [["journal"], FILES, ["journal"], []])

    def test_bash_at_a_terminal(self) -> None:
        """A line is completed as it is typed, and a space in the name of a file with it."""
        wanted("bash")
        typed = b"atomfs ou\t--so\tx a\t\natomfs run --from=j\to\t\nexit\n"
        (self.folder / "rc").write_text(
            f"source {shlex.quote(str(self.share / 'bash-completion' / 'completions' / PROGRAM))}\n"
            f"atomfs() {{ (IFS='|'; echo \"$*\" >> {shlex.quote(str(self.folder / 'ran'))}); }}\n"
        )
        self.at_a_terminal(["bash", "--noprofile", "--rcfile", str(self.folder / "rc"), "-i"], typed, {})
        due = ["outcomes|--sometimes|x|a script", "run|--from=journal|other.script"]
        self.same(typed.decode(), (self.folder / "ran").read_text().splitlines(), due)

    def test_zsh(self) -> None:
        wanted("zsh")
        self.look(self.by_zsh)

    def test_fish(self) -> None:
        wanted("fish")
        self.look(self.by_fish)

    def test_sentences(self) -> None:
        """What is said of each command and of each option is the sentence of the help."""
        wanted("fish")
        offered = self.told_by_fish([("",), *((name, "--") for name in COMMANDS)])
        for name, words in zip([PROGRAM, *COMMANDS], offered, strict=True):
            lines = [re.sub(r"^ +(-\w, )?|<\w+>", "", line).split("  ", 1) for line in HELPS[name].splitlines()]
            said = {word.strip(): says.strip() for word, *rest in lines for says in rest}
            self.same(name, dict(words), {word: said[word] for word, _ in words})


if __name__ == "__main__":
    unittest.main()
