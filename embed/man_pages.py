"""Makes pages for `man` of the help of the program: one for the program, and one for each command, since `man atomfs run` then shows the page
`atomfs-run`, as with git and cargo.
"""
import itertools
import re
import typing

from help_texts import PROGRAM, Block, Help, Manual, entry_of

# What is no letter of its own to `man`, or is printed as another one.
ESCAPES = str.maketrans({"\\": r"\(rs", "-": r"\-", "'": r"\(aq", "`": r"\(ga", "^": r"\(ha", "~": r"\(ti"})
# In a term or a usage: what stands for a value, a word that is typed, and anything else.
TOKENS = re.compile(r"(?P<value>[A-Z]+(?![\w-]))|(?P<typed>[\w-]+)|(?P<other>.)")
# In a sentence: code between backticks, and an option without them.
TYPED = re.compile(r"`([^`]+)`|(?<![\w-])(--[a-z][\w-]*)")


def escaped(text: str) -> str:
    """A text as `man` prints it."""
    return text.translate(ESCAPES)


def line(text: str) -> str:
    """A line of escaped text, which would be a request if it began with a dot."""
    return rf"\&{text}" if text.startswith(".") else text


def bold(text: str) -> str:
    return rf"\fB{escaped(text)}\fR"


def italic(text: str) -> str:
    return rf"\fI{escaped(text)}\fR"


def sentence(text: str) -> str:
    """A text with what is typed in bold."""
    parts, end = [], 0
    for found in TYPED.finditer(text):
        parts += [escaped(text[end : found.start()]), bold(found[1] or found[2])]
        end = found.end()
    return line("".join([*parts, escaped(text[end:])]))


def words(text: str) -> str:
    """A term or a usage: what is typed in bold, values in italics, and braces in place of `<` and `>` around a choice."""
    plain = re.sub(r"<([A-Z]+)>", r"\1", text)
    chosen = re.sub(r"<(-[^<>]*)>", r"{\1}", plain).replace("|", " | ")
    marks = {"value": italic, "typed": bold, "other": escaped}
    return "".join(marks[str(token.lastgroup)](token[0]) for token in TOKENS.finditer(chosen))


def page_name(command: str) -> str:
    """The name of the page of a command, or of the program."""
    return PROGRAM if command == PROGRAM else f"{PROGRAM}-{command}"


def reference(command: str) -> str:
    """A page as another one names it."""
    return rf"{bold(page_name(command))}(1)"


def item(term: str, says: str) -> list[str]:
    return [".TP", term, sentence(says)]


def paragraph(text: str) -> list[str]:
    """A line of a paragraph as a paragraph of its own, or as a term of a list."""
    entry = entry_of(text) if text.startswith("  ") else None
    return item(words(entry.term), entry.says) if entry else [".PP", sentence(text)]


def examples(lines: typing.Iterable[str]) -> list[str]:
    return [".EX", *(line(escaped(one.strip())) for one in lines), ".EE"]


def section(block: Block, paged: typing.Collection[str]) -> list[str]:
    """A list under its title; commands that have a page by the names of their pages."""
    if block.title.startswith("Example"):
        return [".SH EXAMPLES", *examples(block.lines)]
    listed = [entry_of(one) for one in block.lines]
    named = paged if block.title == "Commands" else ()
    items = [item(reference(one.term) if one.term in named else words(one.term), one.says) for one in listed]
    return [f".SH {block.title.upper()}", *itertools.chain.from_iterable(items)]


def notes(blocks: typing.Iterable[Block]) -> list[str]:
    """The paragraphs that follow one another."""
    _, *lines = itertools.chain.from_iterable(paragraph(one) for block in blocks for one in block.lines)
    return [".SH NOTES", *lines]


def body(help: Help, paged: typing.Collection[str]) -> list[str]:
    """The blocks of a help in their order."""
    lines: list[str] = []
    for title, blocks in itertools.groupby(help.blocks, lambda block: block.title):
        lines += itertools.chain.from_iterable(section(one, paged) for one in blocks) if title else notes(blocks)
    return lines


def named_in(help: Help, paged: typing.Collection[str]) -> list[str]:
    """The program, and the commands that a help names, without its own."""
    text = "\n".join(one for block in help.blocks for one in block.lines)
    named = {PROGRAM, *re.findall(rf"`{PROGRAM} (?:help )?(\w+)", text)} & {PROGRAM, *paged}
    return [name for name in (PROGRAM, *paged) if name in named and name != help.name]


def page(help: Help, paged: typing.Collection[str], version: str, date: str) -> str:
    """The text of a page."""
    name = escaped(page_name(help.name))
    others = named_in(help, paged)
    lines = [
        r".\" embed/manual made this of `atomfs help`.",
        f'.TH {name.upper()} 1 {date} "{PROGRAM} {version}" "AtomFS"',
        *(".SH NAME", rf"{name} \- {sentence(help.about[0].lower() + help.about[1:])}"),
        *(".SH SYNOPSIS", words(help.usage)),
        *(".SH DESCRIPTION", f"{sentence(help.about)}."),
        *body(help, paged),
        *([".SH SEE ALSO", ",\n".join(map(reference, others))] if others else []),
    ]
    return "\n".join([*lines, ""])


def pages(manual: Manual, version: str, date: str) -> typing.Iterator[tuple[str, str]]:
    """The names of all pages with their texts."""
    paged = [command.name for command in manual.commands]
    for help in (manual.program, *manual.commands):
        yield f"{page_name(help.name)}.1", page(help, paged, version, date)
