"""The texts of examples/litmus: each command does what the head of its text says; and what `--never`, `--always` and `--sometimes` answer, beside `atomfs find`.

Of drawn scripts each assertion is decided here once more, by the runs of `atomfs find`: the first run that has WHAT, or has it not.
"""
import pathlib
import random
import re
import shlex
import unittest
from typing import Sequence

import find
import harness
from harness import ROOT, Case, Outcome, asks_of_answers, rows_of, run

FOLDER = ROOT / "examples" / "litmus"
SCRIPTS, RUNS = 200, 8
RACE = find.RACE


def head(path: pathlib.Path) -> tuple[list[str], int, bytes]:
    """The words of the command that the head of a text has, its status, and the message that it has to write."""
    text = path.read_text()
    indented = re.findall(r"^#     (.*)$", text, re.MULTILINE)
    messages = [line for line in indented if line.startswith("atomfs: ")]
    command = " ".join(line.removesuffix("\\") for line in indented if line not in messages)
    status = re.search(r"^# Status ([01])\b", text, re.MULTILINE)
    if status is None:
        raise ValueError(f"{path}: no line says the status")
    return shlex.split(command), int(status[1]), "".join(f"{line}\n" for line in messages).encode()


class Texts(Case):
    def look(self, path: pathlib.Path) -> None:
        words, status, message = head(path)
        self.same(path, words[:2] + words[-1:], ["atomfs", "outcomes", str(path.relative_to(ROOT))])
        came = harness.without_seen(run(b"", *words[1:-1], str(path)))
        plain = run(b"", *words[1:6], str(path))
        self.same(shlex.join(words), (came.status, came.message), (status, message))
        self.same(f"the lines of {path.name}", came.output, plain.output)

    def test_each_text(self) -> None:
        """Its status and its message are those that its head says, and the lines are those without assertions."""
        self.each(((path.stem, path) for path in sorted(FOLDER.glob("*.script"))), self.look)

    def test_both_statuses(self) -> None:
        """Some texts hold, and some are broken: a program that answers one status to all is found out."""
        statuses = [head(path)[1] for path in FOLDER.glob("*.script")]
        self.same("texts", len(statuses), 12)
        self.same("statuses", set(statuses), {0, 1})

    def test_page(self) -> None:
        """The page has a line for each text, with its status."""
        rows = re.findall(r"^\| `(\w+)` \| .* \| ([01]) \|$", (FOLDER / "README.md").read_text(), re.MULTILINE)
        self.same(
            "examples/litmus/README.md",
            sorted(rows),
            sorted((path.stem, str(head(path)[1])) for path in FOLDER.glob("*.script")),
        )


def broken(
    quantifier: str, what: str, first: int, runs: int, seeds_with: Sequence[int], seeds_without: Sequence[int]
) -> str:
    """How a message names an assertion that does not hold; nothing if it holds."""
    match quantifier:
        case "never" if seeds_with:
            return f"atomfs: never {what}: seed {seeds_with[0]} has it\n"
        case "always" if seeds_without:
            return f"atomfs: always {what}: seed {seeds_without[0]} does not have it\n"
        case "sometimes" if not seeds_with:
            return f"atomfs: sometimes {what}: no run of {runs} from seed {first} on has it\n"
    return ""


class Asserts(Case):
    def outcomes(self, text: bytes, first: int, *words: str) -> Outcome:
        return harness.without_seen(run(text, "outcomes", "--seed", str(first), "--runs", str(RUNS), *words))

    def look(self, number: int) -> None:
        """A drawn script, and some of what `find` may look for, under drawn quantifiers."""
        draw = random.Random(number)
        script, what = find.drawn_script(draw)
        text, first, names = script.text(), draw.randrange(1000), list(script.threads)
        seeds = range(first, first + RUNS)
        given = [(draw.choice(("never", "always", "sometimes")), what)]
        given += [
            (quantifier, find.drawn_clause(draw, script.threads))
            for quantifier in ("never", "always", "sometimes")
            if draw.randrange(3)
        ]
        runs = [
            find.seen(
                names,
                run(text, "run", "--seed", str(seed)).output,
                run(text, "trace", "--seed", str(seed)).output,
            )
            for seed in seeds
        ]
        told = ""
        for quantifier in ("never", "always", "sometimes"):
            for other, said in given:
                if other == quantifier:
                    having = [seed for seed, seen in zip(seeds, runs) if find.has(said, seen)]
                    lacking = [seed for seed in seeds if seed not in having]
                    told += broken(quantifier, said, first, RUNS, having, lacking)
        words = [word for quantifier, said in given for word in (f"--{quantifier}", said)]
        wanted = Outcome(1 if told else 0, self.outcomes(text, first).output, told.encode())
        self.same(f"atomfs outcomes {shlex.join(words)}\n{text.decode()}", self.outcomes(text, first, *words), wanted)

    def test_drawn_scripts(self) -> None:
        asks_of_answers()
        self.each(((f"script_{number}", number) for number in range(rows_of(SCRIPTS))), self.look)

    def ends(self, words: str, wanted: Outcome) -> None:
        came = run(RACE, *shlex.split(words))
        has_words = came.status in (0, 1) and "--json" not in words
        self.same(f"atomfs {words}", harness.without_seen(came) if has_words else came, wanted)

    def test_each_quantifier(self) -> None:
        """What holds and what is broken, of each quantifier; several at once; and with the other forms of the lines."""
        seeds = "outcomes --seed 1 --runs 50"
        lines = run(RACE, *seeds.split()).output
        objects = run(RACE, *seeds.split(), "--json", "--all").output
        none, always = "no run of 50 from seed 1 on has it", "reply m#1 ok"
        self.each(
            (
                (f"{words}", f"{seeds} {words}", Outcome(1 if told else 0, output, told))
                for words, output, told in (
                    ("--never 'tree dir /none'", lines, b""),
                    ("--always 'reply m#1 ok'", lines, b""),
                    ("--sometimes 'tree dir /b'", lines, b""),
                    (f"--never '{always}'", lines, f"atomfs: never {always}: seed 1 has it\n".encode()),
                    ("--always 'tree dir /none'", lines, b"atomfs: always tree dir /none: seed 1 does not have it\n"),
                    ("--sometimes 'tree dir /none'", lines, f"atomfs: sometimes tree dir /none: {none}\n".encode()),
                    (
                        f"--sometimes 'tree dir /none' --never '{always}' --always '{always}' --never 'not {always}'",
                        lines,
                        f"atomfs: never {always}: seed 1 has it\natomfs: sometimes tree dir /none: {none}\n".encode(),
                    ),
                    ("--json --all --never 'tree dir /none'", objects, b""),
                )
            ),
            self.ends,
        )

    def test_first_seed(self) -> None:
        """The first seed that breaks an assertion is the one that `atomfs find` finds."""
        asks_of_answers()
        for what in ("reply r#1 ok", "reply m#2 failed ENOENT", "before r#1 m#2"):
            found = run(RACE, "find", "--where", what, "--seed", "1", "--runs", "100").message.decode()
            told = harness.without_seen(run(RACE, "outcomes", "--seed", "1", "--runs", "100", "--never", what))
            self.same(what, told.message.decode(), f"atomfs: never {what}: {found[8:-1]} has it\n")

    def test_bad_words(self) -> None:
        """They are read before any run, and the message names the option."""
        seeds = "outcomes --seed 1 --runs 5"
        no_call = Outcome(2, b"", b"atomfs: the script has no such call\n")

        def bad(option: bytes, why: bytes) -> Outcome:
            return Outcome(2, b"", b"atomfs: --" + option + b": " + why + b"\n")

        self.each(
            (
                ("never", f"{seeds} --never m#1", bad(b"never", find.WORDS)),
                ("always", f"{seeds} --always 'helped m'", bad(b"always", find.CALL)),
                ("sometimes", f"{seeds} --sometimes 'reply m#1 done'", bad(b"sometimes", find.REPLY)),
                ("a line", f"{seeds} --never 'helped m#1' --never 'tree dir a'", bad(b"never", find.LINE)),
                ("nothing", f"{seeds} --sometimes ''", bad(b"sometimes", find.WORDS)),
                ("no call", f"{seeds} --never 'helped m#3'", no_call),
                ("no such thread", f"{seeds} --never 'helped m#1' --always 'helped n#1'", no_call),
            ),
            self.ends,
        )


if __name__ == "__main__":
    unittest.main()
