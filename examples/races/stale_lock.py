#!/usr/bin/env python3
"""A lock by mkdir whose stale lock is broken: it seemed to be left over, but somebody has it.

`os.mkdir` makes a directory or fails, so it is a lock. A function that finds it taken believes that its owner has died, removes it, and
takes it. If the owner is at work, both are, and an update is lost.

The repair breaks no lock: it sleeps and tries again. Whoever has to break one must know that its owner is dead, for example by a process number in it.
"""
import os
import time

import race

COUNTER, LOCK = "/sandbox/counter", "/sandbox/lock"


def before():
    with open(COUNTER, "w") as file:
        file.write("0")


def add_one():
    with open(COUNTER) as file:
        number = int(file.read() or "0")
    with open(COUNTER, "w") as file:
        file.write(str(number + 1))


def breaks():
    while True:
        try:
            os.mkdir(LOCK)
            break
        except FileExistsError:
            try:
                os.rmdir(LOCK)
            except FileNotFoundError:
                pass
    add_one()
    try:
        os.rmdir(LOCK)
    except FileNotFoundError:
        pass


def waits():
    while True:
        try:
            os.mkdir(LOCK)
            break
        except FileExistsError:
            time.sleep(0.01)
    add_one()
    os.rmdir(LOCK)


def check(tree, replies):
    assert replies == {"ann": None, "bob": None}, replies
    assert tree.read_text("/counter") == "2", tree.read_text("/counter")


THREADS = {"ann": breaks, "bob": breaks}
REPAIRED = {"ann": waits, "bob": waits}

if __name__ == "__main__":
    raise SystemExit(race.main(__name__))
