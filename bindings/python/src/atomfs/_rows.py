"""A tree as rows: each node's path, with the bytes of a file, or none of a directory; read from the text of a tree.

The text is of one moment, whatever other threads do, and takes no call.
"""
from __future__ import annotations

import re
from typing import Dict, List, Optional, Tuple
from urllib.parse import unquote_to_bytes

Row = Tuple[bytes, Optional[bytes]]
# How many nodes a drawn tree has at most.
DRAWN = 40


def row_of(line: str) -> Row:
    """The row of a line `dir PATH` or `file PATH HEX`."""
    word, path, *rest = line.split(" ")
    if word == "dir":
        return unquote_to_bytes(path), None
    return unquote_to_bytes(path), b"" if rest[0] == "-" else bytes.fromhex(rest[0])


def path_of(line: str) -> bytes:
    """The path of a line."""
    return unquote_to_bytes(line.split(" ", 2)[1])


def rows_of(text: str) -> List[Row]:
    """The rows of a text, the root first, each directory before what is in it."""
    return [row_of(line) for line in text.splitlines()[1:]]


def told(path: bytes) -> str:
    """A path as a string."""
    return path.decode("utf-8", "surrogateescape")


def drawn(text: str, most: int = DRAWN) -> str:
    """A tree as lines with branches, its first nodes alone where there are more."""
    lines = text.splitlines()[1:]
    shown = [_shown(line) for line in lines[:most]]
    # Which of the shown nodes are the last of their directory, among all nodes.
    last = {path.rpartition("/")[0]: path for path in (line.split(" ")[1] for line in lines) if path != "/"}
    told_lines = ["/"]
    for path, words in shown[1:]:
        parts = path.split("/")[1:]
        above = ("/".join(["", *parts[: count + 1]]) for count in range(len(parts) - 1))
        lead = "".join("    " if last[at.rpartition("/")[0]] == at else "│   " for at in above)
        told_lines.append(f"{lead}{'└── ' if last[path.rpartition('/')[0]] == path else '├── '}{words}")
    if len(lines) > most:
        told_lines.append(f"and {len(lines) - most:,} more")
    return "\n".join(told_lines)


def _shown(line: str) -> Tuple[str, str]:
    """The path of a line, and what a drawn tree has of it: a name, and of a file how many bytes."""
    word, path, *rest = line.split(" ")
    name = re.sub(r"[\x00-\x1f\x7f]", "?", unquote_to_bytes(path.rpartition("/")[2]).decode("utf-8", "replace"))
    if word == "dir":
        return path, f"{name}/"
    count = 0 if rest[0] == "-" else len(rest[0]) // 2
    return path, f"{name} ({count:,} byte{'s' if count != 1 else ''})"


def differences(old: Dict[bytes, Optional[bytes]], new: Dict[bytes, Optional[bytes]]) -> List[Tuple[str, str]]:
    """What became of each path from one tree to the other, in byte order: `added`, `removed` or `changed`."""
    kinds = {
        path: "added" if path not in old else "removed" if path not in new else "changed"
        for path in old.keys() | new.keys()
    }
    return [(what, told(path)) for path, what in sorted(kinds.items()) if what != "changed" or old[path] != new[path]]
