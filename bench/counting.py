"""Counts the instructions of the program and its misses of data by valgrind, which are the same under any load, and keeps those of some small jobs in
bench/kept.txt.

Misses are those of a cache that is always of the same size, whatever the machine has: of its first level, and of its last one, of 1 MiB, beyond which a
miss costs much time. A block of that file is of one machine: the line of `rt version`, the C library, and the processor as valgrind shows it. Another kit
compiles otherwise, and other libraries have other counts. A block from before misses of the last level were counted has no lines of them.
"""
import concurrent.futures
import os
import pathlib
import platform
import re
import shutil
import subprocess
import sys
import tempfile
import typing

import workloads

HERE = pathlib.Path(__file__).resolve().parent
KEPT = HERE / "kept.txt"
HEAD = "# The instructions of the jobs of bench/kept and their misses, a block for each kit, C library and processor. `bench/kept --write` counts anew.\n"
# How many drawn runs of a script are counted, and how many calls a script of one thread has.
RUNS = {"campaign": 40, "crowd": 6}
CALLS = 2_000
# By these valgrind chooses the processor that it shows, and the C library its functions.
FEATURES = ("pni", "ssse3", "cx16", "sse4_2", "movbe", "abm", "rdtscp", "avx", "bmi1", "bmi2", "avx2")
# The cache of which misses are counted: bytes, ways, bytes of a line, for instructions, data and the last level.
CACHE = ("--cache-sim=yes", "--I1=32768,8,64", "--D1=32768,8,64", "--LL=1048576,16,64")
# What a job's misses are called in the file: at the first level, and at the last one.
MISSES = "misses of "
FAR = "misses beyond 1 MiB of "


class Bounds(typing.NamedTuple):
    """A count above the first share of the one that is kept is a loss. Below the second, the kept one is to follow."""

    loss: float
    gain: float


def bounds(job):
    """Where a few blocks of the heap stand decides some misses, so a miss more is a loss later than an instruction more."""
    return Bounds(1.05, 0.95) if job.startswith((MISSES, FAR)) else Bounds(1.03, 0.97)


class Counted(typing.NamedTuple):
    """The instructions of a program on an input, its misses of data at the first level and at the last one, and what it wrote."""

    instructions: int
    misses: int
    far: int
    said: bytes

    def of(self, job):
        return {job: self.instructions, MISSES + job: self.misses, FAR + job: self.far}


def collected(program, words, text, *options):
    """What callgrind collects of a program on an input by these options, and what the program wrote.

    Where blocks of the heap stand, and so what copies cost, depends on how long the program's name is. So it is always called the same. And it reads
    a file, since of a pipe it may get more pieces or fewer.
    """
    with tempfile.TemporaryDirectory() as folder:
        os.symlink(os.path.abspath(program), f"{folder}/atomfs")
        given = pathlib.Path(folder, "given")
        given.write_bytes(text)
        valgrind = [
            shutil.which("valgrind") or "valgrind",
            "--tool=callgrind",
            f"--callgrind-out-file={os.devnull}",
            *options,
        ]
        with given.open("rb") as source:
            done = subprocess.run(
                [*valgrind, "./atomfs", *words], stdin=source, capture_output=True, cwd=folder, env={"PATH": os.defpath}
            )
    found = re.search(rb"Collected : ([\d ]+)", done.stderr)
    if done.returncode or not found:
        sys.exit(
            f"valgrind {program} {' '.join(words)}: status {done.returncode}\n{done.stderr.decode(errors='replace')}"
        )
    return [int(count) for count in found[1].split()], done.stdout


def counted(program, words, text):
    """The instructions of a program on an input, its misses, and what it wrote."""
    # Behind instructions, reads and writes come the misses of instructions, reads and writes at the first level, and then those at the last one.
    (instructions, _, _, _, *near, _, read, written), said = collected(program, words, text, *CACHE)
    return Counted(instructions, sum(near), read + written, said)


def instructions_of(program, words, text):
    """The instructions alone, in half of the time."""
    return collected(program, words, text)[0][0]


def seeds(program, name):
    """Drawn runs of a stored script."""
    drawn = counted(
        program, ("seeds", "--seed", "1", "--runs", str(RUNS[name])), (HERE / f"{name}.script").read_bytes()
    )
    if drawn.said.count(b" lawful\n") != RUNS[name]:
        sys.exit(f"seeds {name}: a run is not lawful")
    return drawn.of(f"seeds {name}")


def texts(program, make):
    """The run of a drawn script of one thread, and the check of its journal."""
    ran = counted(program, ("run",), make(CALLS))
    checked = counted(program, ("check",), ran.said)
    if checked.said != b"lawful\n":
        sys.exit(f"check {make.__name__}: {checked.said.decode()}")
    return ran.of(f"run {make.__name__}") | checked.of(f"check {make.__name__}")


def counts(program):
    """The instructions of each job by its name, and its misses."""
    makers = (workloads.few, workloads.broad, workloads.wide, workloads.deep, workloads.pieces, workloads.moves)
    with concurrent.futures.ThreadPoolExecutor(os.cpu_count()) as pool:
        parts = [
            *(pool.submit(seeds, program, name) for name in RUNS),
            *(pool.submit(texts, program, make) for make in makers),
        ]
        return {job: count for part in parts for job, count in part.result().items()}


def told(*words):
    """What a command tells in one line."""
    return subprocess.run(words, cwd=HERE, capture_output=True, text=True, check=True).stdout.strip()


def machine():
    """What counts depend on besides the program's sources, a line each."""
    flags = re.search(r"^flags\s*: (.*)", pathlib.Path("/proc/cpuinfo").read_text(), re.M)
    shown = [name for name in FEATURES if flags and name in flags[1].split()]
    return (
        f"kit {told('rt', 'version')}",
        f"library {' '.join(platform.libc_ver())}",
        f"processor {platform.machine()} {' '.join(shown)}, {told('valgrind', '--version')}",
    )


def commit():
    """The commit of the sources, and whether they have changed since."""
    try:
        changed = told("git", "status", "--porcelain", HERE.parent / "crates")
        return told("git", "rev-parse", "--short=9", "HEAD") + (" with changes" if changed else "")
    except (OSError, subprocess.CalledProcessError):
        return "unknown"


class Block(typing.NamedTuple):
    """The counts of one machine."""

    machine: tuple[str, ...]
    commit: str
    counts: dict[str, int]

    def __str__(self):
        return "\n".join(
            [*self.machine, f"commit {self.commit}", *(f"{count:>12,} {job}" for job, count in self.counts.items()), ""]
        )


def read(text):
    """The blocks of a text."""
    paragraphs = re.split(r"\n{2,}", re.sub(r"^#.*\n", "", text, flags=re.M).strip())
    return [block(paragraph.splitlines()) for paragraph in paragraphs if paragraph]


def block(lines):
    counts = dict(reversed(line.split(maxsplit=1)) for line in lines[4:])
    return Block(
        tuple(lines[:3]),
        lines[3].removeprefix("commit "),
        {job: int(count.replace(",", "")) for job, count in counts.items()},
    )


def written(blocks):
    """The text of some blocks."""
    return "\n".join([HEAD, *map(str, blocks)])


def kept():
    """The blocks that are kept."""
    return read(KEPT.read_text()) if KEPT.exists() else []


def fitting(blocks, here):
    """The block of this machine, if there is one."""
    return next((block for block in blocks if block.machine == here), None)


def renewed(blocks, new):
    """The blocks with a new one in the place of that of the same machine, or behind the others."""
    places = [place for place, block in enumerate(blocks) if block.machine == new.machine] or [len(blocks)]
    return [*blocks[: places[0]], new, *blocks[places[0] + 1 :]]


def keep(new):
    KEPT.write_text(written(renewed(kept(), new)))
