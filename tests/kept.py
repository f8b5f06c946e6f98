"""What was gained in speed is kept: the instructions of small jobs and their misses of data, beside those that bench/kept.txt keeps for this kit, C library
and processor.

`bench/counting.py` has the jobs, and `bench/contended.py` makes two of their scripts. Where the file has no counts of this machine, they are printed,
and nothing is judged.
"""
import importlib
import shutil
import sys
import typing
import unittest

import harness
from harness import ROOT, Case

sys.path.insert(0, str(ROOT / "bench"))
contended: typing.Any = importlib.import_module("contended")
counting: typing.Any = importlib.import_module("counting")

NEEDED = (
    ("valgrind", "valgrind, by which instructions are counted, is not installed"),
    ("rt", "the command rt is not on the path, and counts are kept for each kit"),
)
NO_BLOCK = "bench/kept.txt has no counts of this kit, C library and processor: tests/kept.py has printed them"


def comparable(counts: dict[str, int], block: typing.Any) -> dict[str, int]:
    """The counts that are kept, too: all, or all but the misses beyond 1 MiB, of which older blocks have no lines."""
    return {job: count for job, count in counts.items() if job in block.counts or not job.startswith(counting.FAR)}


def change(job: str, count: int, block: typing.Any) -> tuple[str | None, str]:
    """What is told of a count that differs from the one that is kept: nothing, a gain or a loss."""
    kept, bounds = block.counts[job], counting.bounds(job)
    share = count / kept
    told = f"{job}: {count:,}, {share:.3f} of the {kept:,} that bench/kept.txt keeps since commit {block.commit}"
    if share > bounds.loss:
        return "loss", f"{told}: mend it, or write the count anew (bench/kept --write) in a commit that says why"
    if share < bounds.gain:
        return "gain", f"{told}: the count that is kept should follow (bench/kept --write)"
    return None, ""


class Counts(Case):
    def test_counts(self) -> None:
        """No job takes notably more instructions, or misses its data notably more often, than is kept."""
        harness.takes_a_process()
        for command, reason in NEEDED:
            if not shutil.which(command):
                self.skipTest(reason)
        here = counting.machine()
        counts, block = counting.counts(harness.program()), counting.fitting(counting.kept(), here)
        if not block:
            print(
                f"tests/kept.py: for bench/kept.txt:\n\n{counting.Block(here, counting.commit(), counts)}",
                file=sys.stderr,
            )
            self.skipTest(NO_BLOCK)
        compared = comparable(counts, block)
        self.same("the jobs of bench/kept.txt", list(block.counts), list(compared))
        self.each(((job, job, count, block) for job, count in compared.items()), self.look)

    def look(self, job: str, count: int, block: typing.Any) -> None:
        kind, told = change(job, count, block)
        if kind == "gain":
            print(f"tests/kept.py: {told}", file=sys.stderr)
        if kind == "loss":
            self.fail(told)


class Scripts(Case):
    def test_contended(self) -> None:
        """What makes the scripts of the drawn runs makes them as they are stored."""
        self.each(((name, name) for name in counting.RUNS), self.look)

    def look(self, name: str) -> None:
        self.same(
            f"python3 bench/contended.py {name}",
            contended.scripts()[name],
            (ROOT / "bench" / f"{name}.script").read_bytes(),
        )


class Kept(Case):
    """How counts are judged, and how they are kept."""

    OLD, OTHER, NEW = (
        counting.Block(
            (f"kit {kit}", "library glibc 2", "processor x86_64 avx, valgrind-3"),
            commit,
            {"run few": few, "misses of run few": few, "misses beyond 1 MiB of run few": few},
        )
        for kit, commit, few in (("a", "0123", 100_000), ("b", "4567 with changes", 7), ("a", "89ab", 90_000))
    )

    def test_changes(self) -> None:
        instructions = (103_000, None), (103_001, "loss"), (97_000, None), (96_999, "gain")
        misses = (105_000, None), (105_001, "loss"), (95_000, None), (94_999, "gain")
        rows = [("run few", row) for row in instructions]
        rows += [(f"{of} run few", row) for of in ("misses of", "misses beyond 1 MiB of") for row in misses]
        self.each(((f"{job} {count}", job, count, kind) for job, (count, kind) in rows), self.look_at_change)

    def look_at_change(self, job: str, count: int, kind: str | None) -> None:
        self.same(count, change(job, count, self.OLD)[0], kind)

    def test_older_block(self) -> None:
        """A block without misses beyond 1 MiB is compared without them, and one without another count is not."""
        instructions, misses, far = self.OLD.counts
        for kept, wanted in (
            ([instructions, misses, far], [instructions, misses, far]),
            ([instructions, misses], [instructions, misses]),
            ([misses, far], [instructions, misses, far]),
        ):
            older = self.OLD._replace(counts={job: 7 for job in kept})
            self.same(kept, list(comparable(self.OLD.counts, older)), wanted)

    def test_blocks(self) -> None:
        """What is written is read again, and a block takes the place of one of the same machine alone."""
        rows: tuple[tuple[str, list[typing.Any]], ...] = (
            ("none", []),
            ("one", [self.OLD]),
            ("two", [self.OLD, self.OTHER]),
        )
        self.each(((name, blocks, blocks) for name, blocks in rows), self.look_at_blocks)
        self.same(
            "a block of the same machine", counting.renewed([self.OTHER, self.OLD], self.NEW), [self.OTHER, self.NEW]
        )
        self.same("a block of another machine", counting.renewed([self.OLD], self.OTHER), [self.OLD, self.OTHER])

    def look_at_blocks(self, blocks: list[typing.Any], wanted: list[typing.Any]) -> None:
        text = counting.written(blocks)
        self.same(text, counting.read(text), wanted)
        self.same(text, [counting.fitting(blocks, block.machine) for block in blocks], wanted)


if __name__ == "__main__":
    unittest.main()
