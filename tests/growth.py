"""What a call costs grows no faster with the size of what it works in than bench/growing.py says: entries of a directory, nodes of a tree, a file, seats,
calls that are kept or forgotten, and the texts that `atomfs check` and `atomfs linearize` read. Instructions are counted at two small sizes.
"""
import importlib
import pathlib
import shutil
import sys
import tempfile
import typing
import unittest

import harness
from harness import ROOT, Case

sys.path.insert(0, str(ROOT / "bench"))
growing: typing.Any = importlib.import_module("growing")


class Growth(Case):
    def test_powers(self) -> None:
        harness.takes_a_process()
        for command in ("valgrind", "cc"):
            if not shutil.which(command):
                self.skipTest(f"{command} is not on the path")
        with tempfile.TemporaryDirectory(prefix="atomfs-") as folder:
            in_c = growing.built(folder, pathlib.Path(harness.library_at()).with_name("libatomfs.a"))
            rows = [row for row in growing.ROWS if row.small]
            programs = [harness.program() if row.subject in growing.COMMANDS else in_c for row in rows]
            self.each(((row.subject, row, program) for row, program in zip(rows, programs)), self.look)

    def look(self, row: typing.Any, program: str) -> None:
        power, (small, large) = growing.grows(row, program)
        told = f"{row.words}: {small:,.0f} instructions at {row.small[0]:,}, {large:,.0f} at {row.small[1]:,}"
        self.assertLessEqual(power, row.most, told)


if __name__ == "__main__":
    unittest.main()
