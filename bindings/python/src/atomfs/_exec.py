"""`python -m atomfs exec PROGRAM.py`: a program of Python works in trees, and nothing of what it changes there comes to the disk."""
from __future__ import annotations

import argparse
import os
import pathlib
import runpy
import sys
import traceback
from typing import List, Sequence

from . import _load
from ._inside import Inside

_EPILOG = """
The program finds an empty working directory, and temporary files are in memory too. With --at DIR a directory of the disk is a tree that begins as
what is there, and with --overlay DIR one that reads there what the program asks for; if the working directory is below, it stays. Programs that it
starts find the same, but none an overlay. The status is that of the program, and 70
where a journal is not lawful.
"""
_UNLAWFUL = 70


def _words(given: Sequence[str]) -> argparse.Namespace:
    words = argparse.ArgumentParser(
        prog="atomfs exec", description="Runs a program of Python in trees in memory.", epilog=_EPILOG
    )
    words.add_argument(
        "--at", action="append", default=[], metavar="DIR", help="let a directory be a tree, as it is now"
    )
    words.add_argument(
        "--overlay", action="append", default=[], metavar="DIR", help="read a directory, but keep each change in memory"
    )
    words.add_argument("--journal", metavar="FILE", help="write the journal of the calls to a file of the disk")
    words.add_argument(
        "--to", metavar="DIR", help="write the tree of the working directory to a new directory of the disk"
    )
    words.add_argument("program", metavar="PROGRAM.py")
    words.add_argument("arguments", nargs=argparse.REMAINDER, metavar="ARGUMENT")
    return words.parse_args(given)


def execute(given: Sequence[str]) -> int:
    """Runs a program by the words of the command line, and answers its status."""
    words = _words(given)
    program = os.path.abspath(words.program)
    if not os.path.exists(program):
        print(f"atomfs exec: there is no program {words.program}", file=sys.stderr)
        return 2
    journal, out = (path and os.path.abspath(path) for path in (words.journal, words.to))
    for path in words.overlay:
        if not os.path.isdir(path):
            print(f"atomfs exec: there is no directory {path}", file=sys.stderr)
            return 2
    with Inside(words.at, words.overlay) as inside:
        working = os.getcwd()
        inside.begin()
        status = _status_of(program, words.arguments)
        path, tree = next((path, tree) for path, tree in inside.trees.items() if f"{working}/".startswith(f"{path}/"))
        own = tree.journal() if journal else ""
        if out:
            inside.copy_up(path)
        with inside.aside():
            if journal:
                pathlib.Path(journal).write_text(own)
            if out:
                _load.to_directory(tree, out, False, working[len(path) :])
        verdict = inside.verdict()
    if verdict is not None:
        print(f"atomfs exec: the journal of {verdict}", file=sys.stderr)
        return _UNLAWFUL
    return status


def _status_of(program: str, arguments: List[str]) -> int:
    """The status with which a program ends."""
    before = sys.argv[:], sys.path[:]
    sys.argv, sys.path[:1] = [program, *arguments], [os.path.dirname(program)]
    try:
        runpy.run_path(program, run_name="__main__")
    except SystemExit as error:
        if error.code is None or isinstance(error.code, int):
            return (error.code or 0) & 0xFF
        print(error.code, file=sys.stderr)
        return 1
    except BaseException:
        traceback.print_exc()
        return 1
    finally:
        sys.argv, sys.path[:] = before
    return 0
