#!/usr/bin/env python3
"""Publish by rename, read in pieces: a writer replaces a file whole, and a reader still gets half of each.

The writer does it right: a new file under another name, then `os.replace`. The reader opens the path anew for each piece, so one piece is
of the old file and the next of the new one.

The repair opens once. A descriptor is of the file that was opened, whatever is at the path later.
"""
import os

import race

PAGE, PIECE = "/sandbox/page", 4


def before():
    with open(PAGE, "w") as file:
        file.write("old old old ")


def publish():
    with open(f"{PAGE}.new", "w") as file:
        file.write("new new new ")
    os.replace(f"{PAGE}.new", PAGE)


def read():
    data, size = b"", os.path.getsize(PAGE)
    while len(data) < size:
        with open(PAGE, "rb", buffering=0) as file:
            file.seek(len(data))
            data += file.read(PIECE)
    return data


def read_one():
    data = b""
    with open(PAGE, "rb", buffering=0) as file:
        while piece := file.read(PIECE):
            data += piece
    return data


def check(tree, replies):
    assert replies["reader"] in (b"old old old ", b"new new new "), replies["reader"]


THREADS = {"writer": publish, "reader": read}
REPAIRED = {"writer": publish, "reader": read_one}

if __name__ == "__main__":
    raise SystemExit(race.main(__name__))
