#!/usr/bin/env python3
"""Exists, then create: a function makes a file unless it is there, and believes that it is the one who made it.

Between the answer of `os.path.exists` and the call that makes the file another function makes it. Both believe that they are the first,
and the second one empties what the first has written.

The repair asks and makes in one call: `open` with mode "x" raises `FileExistsError` where the file is there.
"""
import functools
import os

import race

LEADER = "/sandbox/leader"


def before():
    pass


def lead(name):
    if os.path.exists(LEADER):
        return False
    with open(LEADER, "w") as file:
        file.write(name)
    return True


def lead_alone(name):
    try:
        with open(LEADER, "x") as file:
            file.write(name)
    except FileExistsError:
        return False
    return True


def check(tree, replies):
    (leader,) = [name for name, leads in replies.items() if leads]
    assert tree.read_text("/leader") == leader


THREADS = {name: functools.partial(lead, name) for name in ("ann", "bob")}
REPAIRED = {name: functools.partial(lead_alone, name) for name in ("ann", "bob")}

if __name__ == "__main__":
    raise SystemExit(race.main(__name__))
