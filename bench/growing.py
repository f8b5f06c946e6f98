"""What a call costs in trees of several sizes, by rows: bench/growth prints it, and tests/growth.py holds it to a bound."""
import math
import pathlib
import subprocess
import typing

from counting import counted, instructions_of

ROOT = pathlib.Path(__file__).resolve().parent.parent


class Row(typing.NamedTuple):
    """What grows, what a call is there, and where the gate looks at it.

    The subject is one of growth.c, or a command of the program, which reads of creates in one directory. A round has so many calls. Between the two small
    sizes the instructions of a call may grow by this power of the size: tests/growth.py looks at rows that have them.
    """

    subject: str
    words: str
    calls: int = 4
    rounds: int = 250
    sizes: tuple[int, ...] = (1_000, 10_000, 100_000)
    small: tuple[int, int] | None = (300, 2_400)
    most: float = 0.1


class Cost(typing.NamedTuple):
    """The instructions of a call, and how often it misses its data beyond 1 MiB."""

    instructions: float
    far: float


# The subjects that the program has, and not growth.c.
COMMANDS = "check", "linearize"
CALLS = "a stat, mknod, rename or unlink"
WRITE = "a write of 4 KiB somewhere in a file of so many KiB, the last 100 calls kept"
OF_FILE = 1, 2_000, (1_024, 16_384, 262_144)
ROWS = (
    Row("entries", f"{CALLS} in one directory of so many entries"),
    Row("nodes", f"{CALLS} among so many files, 100 a directory, the last 1,000 calls kept", rounds=1_000, most=0.2),
    Row("new", f"{WRITE}, whose blocks still share the bytes of the calls that made them", *OF_FILE, None),
    # Beside few nodes and a small file, the tree at which the journal starts is copied each time that calls are forgotten.
    Row("file", f"{WRITE}, whose blocks share nothing", *OF_FILE, (512, 4_096)),
    Row("beside", f"{WRITE}, whose blocks share nothing, beside 1,000 other files", *OF_FILE, None),
    Row("array", "a copy of 4 KiB to somewhere in an array of so many KiB, in C alone", *OF_FILE, None),
    Row("seats", f"{CALLS} on the last of so many seats"),
    Row("journal", f"{CALLS} after so many calls, all of which are kept"),
    Row("forget", "a create that is forgotten, in one directory of so many entries", 1, most=0.25),
    Row(
        "check",
        "a create in one directory of so many entries, which `atomfs check` reads",
        1,
        small=(1_000, 4_000),
        most=0.25,
    ),
    # The search copies the whole tree at each change: the aim is 0.2.
    Row("linearize", "the same, which `atomfs linearize` reads", 1, 100, (300, 1_000, 3_000), (300, 1_200), 0.6),
)


def path_of(number: int) -> str:
    """The path of a file. The names that follow one another have no order."""
    return f"/{number * 0x9E3779B97F4A7C15 % 2**64:016x}"


def journal(calls: int, commits: bool) -> bytes:
    """So many creates in one directory, one after the other, with their commits or without."""
    lines = ["atomfs-journal 4", "start", "dir /", "entries"]
    for number in range(1, calls + 1):
        lines.append(f"begin {number} 0 mknod {path_of(number)}")
        if commits:
            lines.append(f"commit {number}")
        lines.append(f"return {number} ok")
    return "\n".join([*lines, ""]).encode()


def words_of(row: Row, size: int, rounds: int) -> tuple[list[str], bytes]:
    """The words by which a program makes so many rounds at a size, and what it reads."""
    if row.subject in COMMANDS:
        return [row.subject], journal(size + rounds, row.subject == "check")
    return [row.subject, str(size), str(rounds)], b""


def cost(row: Row, program: str, size: int) -> Cost:
    """What a call costs at a size: so many rounds with what comes before them, without it."""
    none, some = (counted(program, *words_of(row, size, rounds)) for rounds in (0, row.rounds))
    calls = row.rounds * row.calls
    return Cost((some.instructions - none.instructions) / calls, (some.far - none.far) / calls)


def grows(row: Row, program: str) -> tuple[float, list[float]]:
    """By which power the instructions of a call grow between the small sizes of a row, and the instructions at both."""
    costs = []
    for size in row.small or ():
        none, some = (instructions_of(program, *words_of(row, size, rounds)) for rounds in (0, row.rounds))
        costs.append((some - none) / (row.rounds * row.calls))
    return power(row.small, costs), costs


def power(sizes: tuple[int, int], costs: tuple[float, float]) -> float:
    """By which power of the size a cost grows: 0 if it stays the same, 1 if it doubles as the size does."""
    return math.log(costs[1] / costs[0]) / math.log(sizes[1] / sizes[0])


def built(folder: str, archive: pathlib.Path | str) -> str:
    """The program that cc makes of growth.c and the library."""
    program, source = f"{folder}/growth", ROOT / "bench" / "growth.c"
    subprocess.run(["cc", "-O2", "-pthread", "-I", ROOT / "embed", source, archive, "-o", program], check=True)
    return program
