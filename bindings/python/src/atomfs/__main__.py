"""The program `atomfs`, which is in the package: `python -m atomfs run FILE`, or `atomfs` by itself.

It is started in the place of Python, so what it reads, writes and ends with is its own. `python -m atomfs exec PROGRAM.py` runs a program
of Python in trees in memory.
"""
from __future__ import annotations

import os
import sys
from typing import NoReturn

from ._program import no_program, program


def main() -> NoReturn:
    """Runs the program by the words of the command line."""
    if sys.argv[1:2] == ["exec"]:
        from ._exec import execute

        sys.exit(execute(sys.argv[2:]))
    path = program()
    try:
        os.execv(path, ["atomfs", *sys.argv[1:]])
    except OSError as error:
        print(f"atomfs: {no_program(path, error)}", file=sys.stderr)
        sys.exit(127)


if __name__ == "__main__":
    main()
