#!/usr/bin/env python3
"""Log rotation: a writer appends at the size that it asked for, and by then the log is another one.

The writer asks how long the log is and writes there. Between the two the log is renamed and a new one made, so the line is written
far after the end of the new log, with zeros before it; or there is no log at all for a moment.

The repair opens for appending: mode "a" makes the log if it is missing, and writes at its end, wherever that is.
"""
import os

import race

LOG = "/sandbox/log"


def before():
    with open(LOG, "w") as file:
        file.write("first\n")


def rotate():
    os.rename(LOG, f"{LOG}.1")
    open(LOG, "a").close()


def append():
    size = os.path.getsize(LOG)
    with open(LOG, "r+") as file:
        file.seek(size)
        file.write("second\n")


def append_at_end():
    with open(LOG, "a") as file:
        file.write("second\n")


def check(tree, replies):
    assert replies["writer"] is None, replies["writer"]
    logs = [tree.read_text(path) for path in ("/log.1", "/log")]
    assert logs in (["first\n", "second\n"], ["first\nsecond\n", ""]), logs


THREADS = {"writer": append, "rotator": rotate}
REPAIRED = {"writer": append_at_end, "rotator": rotate}

if __name__ == "__main__":
    raise SystemExit(race.main(__name__))
