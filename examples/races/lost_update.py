#!/usr/bin/env python3
"""A lost update: two functions read a number from a file, add one, and write it back.

Each reads 0 before the other has written, so each writes 1, and one addition is lost. The file system keeps no promise over two calls:
each read and each write is atomic, and what lies between them is not.

The repair takes a lock file. `open` with mode "x" makes the file or fails, in one call, so one function at a time has it; the other
sleeps and tries again.
"""
import os
import time

import race

COUNTER, LOCK = "/sandbox/counter", "/sandbox/lock"


def before():
    with open(COUNTER, "w") as file:
        file.write("0")


def add_one():
    with open(COUNTER) as file:
        number = int(file.read())
    with open(COUNTER, "w") as file:
        file.write(str(number + 1))


def add_one_alone():
    while True:
        try:
            open(LOCK, "x").close()
            break
        except FileExistsError:
            time.sleep(0.01)
    try:
        add_one()
    finally:
        os.unlink(LOCK)


def check(tree, replies):
    assert replies == {"ann": None, "bob": None}, replies
    assert tree.read_text("/counter") == "2", tree.read_text("/counter")


THREADS = {"ann": add_one, "bob": add_one}
REPAIRED = {"ann": add_one_alone, "bob": add_one_alone}

if __name__ == "__main__":
    raise SystemExit(race.main(__name__))
