#!/usr/bin/env python3
"""A rename while a directory is listed in pages: the file that was renamed is in no page.

A listing in pages is several calls, as `readdir` of a large directory is on any system. If a file moves from a later page to an earlier
one between two of them, the listing has neither its old name nor its new one, though the file was there all the time.

The repair lists again until two listings agree. A file that moves before the first and back again still deceives it. If that can happen,
use one `readdir`, which lists a directory of at most 256 entries as it is at one moment.
"""
import race

PATCH = False


def before(tree):
    tree.mkdir("/box")
    for name in "bcde":
        tree.mknod(f"/box/{name}")


def pages(tree):
    names, after = [], "/"
    while True:
        page = tree.list("/box", after, 2)
        if not page:
            return names
        names += page
        after = f"/{page[-1]}"


def pages_twice(tree):
    names = pages(tree)
    while True:
        again = pages(tree)
        if names == again:
            return names
        names = again


def move(tree):
    tree.rename("/box/e", "/box/a")


def check(tree, replies):
    assert {"a", "e"} & set(replies["reader"]), replies["reader"]


THREADS = {"reader": pages, "mover": move}
REPAIRED = {"reader": pages_twice, "mover": move}

if __name__ == "__main__":
    raise SystemExit(race.main(__name__))
