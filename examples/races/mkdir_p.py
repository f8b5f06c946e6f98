#!/usr/bin/env python3
"""mkdir -p by hand: a function makes each directory of a path that is not there yet.

Two functions with paths below the same directory both see that it is missing. The one that comes second gets `FileExistsError`, though
what it wanted is there.

The repair takes that error as success, as `os.makedirs` does with `exist_ok=True`.
"""
import functools
import os

import race

PATHS = {"ann": "a/b/c", "bob": "a/b/d"}


def before():
    pass


def make(path):
    at = "/sandbox"
    for name in path.split("/"):
        at = os.path.join(at, name)
        if not os.path.isdir(at):
            os.mkdir(at)


def make_all(path):
    os.makedirs(os.path.join("/sandbox", path), exist_ok=True)


def check(tree, replies):
    assert replies == {"ann": None, "bob": None}, replies
    assert list(tree) == ["/", "/a", "/a/b", "/a/b/c", "/a/b/d"], list(tree)


THREADS = {name: functools.partial(make, path) for name, path in PATHS.items()}
REPAIRED = {name: functools.partial(make_all, path) for name, path in PATHS.items()}

if __name__ == "__main__":
    raise SystemExit(race.main(__name__))
