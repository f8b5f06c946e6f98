"""Reads the help of the program `atomfs`, as `atomfs help` and `atomfs help COMMAND` print it and tests/data/help keeps it.

A help has blocks with empty lines between them: what the command does, its usage, lists under a title, and paragraphs. A list has a line for each term,
with what is said of it after two spaces or more. What is laid out in another way is refused.
"""
import functools
import pathlib
import re
import typing

PROGRAM = "atomfs"
TITLE = re.compile(r"([A-Z][a-z]+(?: [a-z]+)?):")
# `-h, --help`, or `--seed <N>`.
OPTION = re.compile(r"(-\w(?:, --[\w-]+)?|--[\w-]+)(?: <(\w+)>)?")
ARGUMENT = re.compile(r"[<\[](\w+)[>\]]")


class Entry(typing.NamedTuple):
    """A term of a list, and what is said of it."""

    term: str
    says: str


class Block(typing.NamedTuple):
    """A list or a paragraph; a paragraph has no title."""

    title: str
    lines: tuple[str, ...]


class Value(typing.NamedTuple):
    """What is written for an argument or after an option: a file, one of some words, or anything."""

    name: str
    is_file: bool
    words: tuple[str, ...]


class Option(typing.NamedTuple):
    """An option by its names, and the value that it takes, if it takes one."""

    names: tuple[str, ...]
    value: typing.Optional[Value]
    says: str


class Argument(typing.NamedTuple):
    """What a command takes after its options."""

    value: Value
    says: str


class Help(typing.NamedTuple):
    """The help of the program or of a command: what it does, how it is used, and its blocks in their order."""

    name: str
    about: str
    usage: str
    blocks: tuple[Block, ...]

    def entries(self, title: str) -> list[Entry]:
        """The list under a title."""
        return [entry_of(line) for block in self.blocks if block.title == title for line in block.lines]

    def options(self) -> list[Option]:
        return [option_of(entry) for entry in self.entries("Options")]

    def arguments(self) -> list[Argument]:
        """The arguments; a later one of the same name takes the words of the first, beside which they are listed."""
        made = [argument_of(entry) for entry in self.entries("Arguments")]
        firsts = {one.value.name: one.value for one in reversed(made)}
        return [one._replace(value=firsts[one.value.name]) for one in made]


class Manual(typing.NamedTuple):
    """All helps: that of the program, and those of its commands in the order of its list."""

    program: Help
    commands: tuple[Help, ...]

    def listed(self) -> list[Entry]:
        """The commands and what they do; one of them, `help`, has no help of its own and takes the name of another."""
        return self.program.entries("Commands")

    def without_help(self) -> list[Entry]:
        named = {command.name for command in self.commands}
        return [entry for entry in self.listed() if entry.term not in named]


def matched(form: typing.Pattern[str], line: str) -> typing.Match[str]:
    """The match of a whole line."""
    found = form.fullmatch(line)
    if not found:
        raise ValueError(f"a help has a line of another form than {form.pattern}: {line}")
    return found


def entry_of(line: str) -> Entry:
    """The term of a line, and what is said of it."""
    found = matched(re.compile(r" {2,}(\S+(?: \S+)*) {2,}(\S.*)"), line)
    return Entry(found[1], found[2])


def value_of(name: str, says: str) -> Value:
    """A value by its name: a file where it is called so, or where `the file NAME` is spoken of; else one of the possible values, where they are listed."""
    listed = re.search(r"\[possible values: (.*)\]$", says)
    is_file = name == "FILE" or bool(re.search(rf"\bfile {name}\b", says))
    return Value(name, is_file, tuple(listed[1].split(", ")) if listed else ())


def option_of(entry: Entry) -> Option:
    found = matched(OPTION, entry.term)
    return Option(tuple(found[1].split(", ")), value_of(found[2], entry.says) if found[2] else None, entry.says)


def argument_of(entry: Entry) -> Argument:
    return Argument(value_of(matched(ARGUMENT, entry.term)[1], entry.says), entry.says)


def block_of(text: str) -> Block:
    """A list under its title, or a paragraph."""
    first, *lines = text.splitlines()
    title = TITLE.fullmatch(first)
    return Block(title[1], tuple(lines)) if title else Block("", (first, *lines))


def help_of(name: str, text: str) -> Help:
    about, usage, *blocks = text.strip("\n").split("\n\n")
    used = matched(re.compile(r"Usage: (.*)"), usage)
    return Help(name, about, used[1], tuple(block_of(block) for block in blocks))


def manual_of(folder: pathlib.Path) -> Manual:
    """The helps that a folder keeps, each in a file with the name of its command."""
    read = functools.partial(pathlib.Path.read_text, encoding="utf-8")
    program = help_of(PROGRAM, read(folder / PROGRAM))
    kept = (entry.term for entry in program.entries("Commands") if (folder / entry.term).is_file())
    return Manual(program, tuple(help_of(name, read(folder / name)) for name in kept))
