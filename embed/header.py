#!/usr/bin/env python3
"""Reads atomfs.h, and writes what repeats it: embed/header.py, or embed/header.py --check, which says what is not as it would be written.

It writes `proved.h`, the prototypes of the proved functions, for checks.c; `_header.py` of the package for Python, with the version, the numbers, the
structures and what each function takes; and the version into the other files that have it. Tests read the header by `Header`.
"""
import pathlib
import re
import sys
import typing

EMBED = pathlib.Path(__file__).resolve().parent
ROOT = EMBED.parent
PROVED, PYTHON = EMBED / "proved.h", ROOT / "bindings" / "python" / "src" / "atomfs" / "_header.py"
# Where the version is, as a pattern around it.
VERSIONS = (
    ("crates/atomfs_arguments/src/cli.rt", r'(pub const VERSION: &str = ")[^"]*(";)'),
    ("bindings/rust/Cargo.toml", r'(?m)(^version = ")[^"]*(")'),
    ("README.md", r"(atomfs-)\d+\.\d+\.\d+(-x86_64-linux)"),
    ("docs/EMBEDDING.md", r"(atomfs-)\d+\.\d+\.\d+(-x86_64-linux)"),
    ("CITATION.cff", r"(?m)(^version: )\d+\.\d+\.\d+($)"),
)
# What Python calls a list of numbers, by the first of them, how its names begin, and what it says.
NUMBERED = {
    "OK": ("Status", "", "What a function of the library answers, where no call failed."),
    "DID_IDLE": ("Did", "DID_", "What a step did."),
    "FAULT_NONE": ("Fault", "FAULT_", "What is wrong with an entry of a journal."),
    "CALL_MKDIR": ("Call", "CALL_", "Which call a request asks for."),
    "GIVEN": ("By", "", "By which schedule a script runs."),
    "FOUND_LAWFUL": ("Found", "FOUND_", "What came of a history."),
    "TELL_LINE": ("Tell", "TELL_", "What is told of a history that is not lawful."),
}
# The numbers that are in no class of these, or in one that has more to say of them.
ALONE = ("FAILED", "V1", "V2", "V3")
STRUCTURES = {"atomfs": "Handle", "atomfs_stat": "CStat", "atomfs_request": "Request"}
# How Python names what stands in C: a number, bytes that are given, or the address of what is told.
TYPES = {
    **{"uint8_t": "Byte", "uint32_t": "Word", "size_t": "Size", "uint64_t": "Number"},
    **{"const char *": "Bytes", "const void *": "Bytes", "char *": "Room", "void *": "Room"},
    **{"uint8_t *": "ByteAt", "size_t *": "SizeAt", "uint64_t *": "NumberAt"},
    **{"atomfs *": "HandleAt", "struct atomfs_stat *": "StatAt", "const atomfs_request *": "RequestAt"},
}
CTYPES = {
    **{"uint8_t": "c_uint8", "uint32_t": "c_uint32", "size_t": "c_size_t", "uint64_t": "c_uint64"},
    **{"const char *": "c_char_p", "const void *": "c_char_p", "void *": "c_void_p"},
}


class Field(typing.NamedTuple):
    """What a function takes, or a structure has."""

    type: str
    name: str


class Function(typing.NamedTuple):
    """A function, by its name without `atomfs_`."""

    answers: str
    name: str
    takes: tuple[Field, ...]


class Header:
    """What a header declares: `version`, `numbers` by lists, `structures` and `functions`, all names without `atomfs_`."""

    def __init__(self, text):
        self.version = re.search(r'^#define ATOMFS_VERSION "(.*)"$', text, re.M)[1]
        bare = " ".join(re.sub(r"/\*.*?\*/", " ", re.sub(r"(?m)^#.*(?:\\\n.*)*$", "", text), flags=re.S).split())
        lists = re.findall(r"enum \{ (.*?) \};", bare)
        self.numbers = [dict(self._numbers(names)) for names in lists]
        bodies = re.findall(r"struct (\w+) \{ (.*?) \}", bare)
        self.structures = {name: self._fields(body.rstrip("; ").split(";")) for name, body in bodies}
        found = re.findall(r"(uint8_t|const char \*) ?atomfs_(\w+)\((.*?)\);", bare)
        self.functions = {name: Function(answers, name, self._taken(takes)) for answers, name, takes in found}

    @staticmethod
    def _numbers(names):
        for one in names.split(","):
            name, value = one.split("=")
            yield name.strip().removeprefix("ATOMFS_"), int(value)

    @staticmethod
    def _fields(fields):
        return tuple(Field(*re.fullmatch(r"\s*(.*?[ *])(\w+)\s*", field).groups()) for field in fields)

    def _taken(self, takes):
        return () if takes == "void" else self._fields(takes.split(","))


def header():
    """The header of this folder."""
    return Header((EMBED / "atomfs.h").read_text())


def by_c():
    """The functions that files of this folder make of others."""
    sources = "".join((EMBED / name).read_text() for name in ("files.c", "shared.c"))
    return set(re.findall(r"^uint8_t atomfs_(\w+)\(", sources, re.M))


def prototypes(of):
    """The text of `proved.h`."""
    lines = [
        "/* The proved functions, each as atomfs.h declares the one of its name: a request by its fields. embed/header.py writes this. */",
        *("#ifndef ATOMFS_PROVED_H", "#define ATOMFS_PROVED_H", "", '#include "atomfs.h"', ""),
        *("#define PROVED(name) proved_atomfs_##name", ""),
    ]
    there = by_c()
    for name, function in of.functions.items():
        if function.answers == "uint8_t" and name not in there and not name.startswith("shared_"):
            fields = [field for one in function.takes for field in spread(of, one)]
            taken = ", ".join(field.type.strip() for field in fields)
            lines += wrapped(f"uint8_t PROVED({name})(", taken)
    return "\n".join([*lines, "", "#endif", ""])


def spread(of, field):
    """What is taken in the place of a request: each field of it."""
    return of.structures["atomfs_request"] if field.type.startswith("const atomfs_request") else (field,)


def wrapped(head, rest, width=120):
    """The lines of a prototype, none longer than so many characters, the later ones below the first argument."""
    lines, line = [], head
    for word in f"{rest});".split(" "):
        if len(line) + 1 + len(word) > width:
            lines, line = [*lines, line], " " * len(head) + word
        else:
            line += word if line in (head, " " * len(head)) else f" {word}"
    return [*lines, line]


def numbered(numbers):
    """The lines of a class of Python, or of names alone."""
    name, begins, says = NUMBERED.get(next(iter(numbers)), ("", "", ""))
    if not name:
        return []
    kind = "Worded" if name in ("Status", "Fault") else "enum.IntEnum"
    lines = ["", "", f"class {name}({kind}):", f'    """{says}"""', ""]
    return lines + [f"    {key.removeprefix(begins)} = {value}" for key, value in numbers.items() if key not in ALONE]


def structure(of, name):
    """The lines of a structure of ctypes."""
    fields = of.structures[name]
    lines = ["", "", f"class {STRUCTURES[name]}(ctypes.Structure):", "    _fields_ = ["]
    return lines + [f'        ("{field.name}", ctypes.{CTYPES[field.type.strip()]}),' for field in fields] + ["    ]"]


def declared(function, width=120):
    """The lines of a function of Python that takes what one in C takes."""
    taken = ["self", *(f"{field.name}: {TYPES[field.type.strip()]}" for field in function.takes)]
    head, tail, body = f"    def {function.name}(", ") -> Byte:", "        raise NotImplementedError"
    if len(whole := f"{head}{', '.join(taken)}{tail}") <= width:
        return ["", whole, body]
    if len(inner := f"        {', '.join(taken)}") <= width:
        return ["", head, inner, f"    {tail}", body]
    return ["", head, *(f"        {one}," for one in taken), f"    {tail}", body]


def module(of):
    """The text of `_header.py`."""
    told = {name: function for name, function in of.functions.items() if function.answers == "uint8_t"}
    ours = [function for name, function in told.items() if not name.startswith("shared_")]
    numbers = {key: value for one in of.numbers for key, value in one.items()}
    lines = [
        '"""What atomfs.h declares: its version, its numbers, its structures, and what each function takes. embed/header.py writes this."""',
        *("from __future__ import annotations", "", "import ctypes", "import enum", ""),
        f'VERSION = "{of.version}"',
        *(f"{name} = {numbers[name]}" for name in ALONE),
        "",
        "# A number of so many bits, bytes that are given, and the address of what is written to, or of a structure.",
        *(f"{name} = {'bytes' if name == 'Bytes' else 'int'}" for name in dict.fromkeys(TYPES.values())),
        *("", "", "class Worded(enum.IntEnum):", '    """Numbers for which the program has words."""', ""),
        *("    @property", "    def kind(self) -> str:"),
        '        """The word that the program `atomfs` has for it: `BadLine` for `BAD_LINE`."""',
        '        return "".join(part.title() for part in self.name.split("_"))',
        *(line for one in of.numbers for line in numbered(one)),
        *(line for name in STRUCTURES for line in structure(of, name)),
        *("", "", "class Functions:"),
        '    """The functions on a handle, on texts and on paths, each under its name without `atomfs_`: who loads the library has them."""',
        *(line for function in ours for line in declared(function)),
    ]
    return "\n".join([*lines, ""])


def written():
    """Each file that repeats the header, and what it is to be."""
    of = header()
    yield PROVED, prototypes(of)
    yield PYTHON, module(of)
    for name, pattern in VERSIONS:
        path = ROOT / name
        # The first place alone in what has versions of others too.
        count = 1 if path.suffix in (".toml", ".rt") else 0
        yield path, re.sub(pattern, rf"\g<1>{of.version}\g<2>", path.read_text(), count=count)


def main(words):
    if words not in ([], ["--check"]):
        print("usage: embed/header.py [--check]", file=sys.stderr)
        return 2
    stale = [(path, text) for path, text in written() if not path.exists() or path.read_text() != text]
    for path, text in stale:
        if words:
            print(f"{path.relative_to(ROOT)} is not what embed/header.py makes of embed/atomfs.h", file=sys.stderr)
        else:
            path.write_text(text)
            print(f"written: {path.relative_to(ROOT)}")
    return 1 if words and stale else 0


if __name__ == "__main__":
    sys.exit(main(sys.argv[1:]))
