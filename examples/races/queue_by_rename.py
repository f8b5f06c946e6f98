#!/usr/bin/env python3
"""A queue whose jobs are claimed by rename: the worker that comes second falls over.

A job is a file, and whoever renames it has it: that is right, since one rename alone succeeds. But the names are of a listing made before,
and the worker whose rename comes second gets `FileNotFoundError` and ends, with jobs left in the queue or not.

The repair takes that error as "another has it", and goes on with the next.
"""
import os

import race

QUEUE, TAKEN = "/sandbox/queue", "/sandbox/taken"


def before():
    os.mkdir(QUEUE)
    os.mkdir(TAKEN)
    for job in ("1", "2"):
        open(f"{QUEUE}/{job}", "x").close()


def work():
    done = []
    for job in os.listdir(QUEUE):
        os.rename(f"{QUEUE}/{job}", f"{TAKEN}/{job}")
        done.append(job)
    return done


def work_beside():
    done = []
    for job in os.listdir(QUEUE):
        try:
            os.rename(f"{QUEUE}/{job}", f"{TAKEN}/{job}")
        except FileNotFoundError:
            continue
        done.append(job)
    return done


def check(tree, replies):
    for reply in replies.values():
        assert isinstance(reply, list), reply
    assert sorted(replies["ann"] + replies["bob"]) == ["1", "2"], replies


THREADS = {"ann": work, "bob": work}
REPAIRED = {"ann": work_beside, "bob": work_beside}

if __name__ == "__main__":
    raise SystemExit(race.main(__name__))
