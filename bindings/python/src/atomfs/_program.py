"""The program `atomfs`, which is in the package."""
from __future__ import annotations

import os
import pathlib


def program() -> str:
    """The path of the program: the one of the package, or the one that `ATOMFS_PROGRAM` names."""
    return os.environ.get("ATOMFS_PROGRAM") or str(pathlib.Path(__file__).parent / "bin" / "atomfs")


def no_program(path: str, error: OSError) -> str:
    """What is said where the program does not start."""
    what = "there is no program" if isinstance(error, FileNotFoundError) else "the program does not start"
    return f"{what}: {error.strerror}: {path}; ATOMFS_PROGRAM names one that is elsewhere"
