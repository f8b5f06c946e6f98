"""Makes campaign.script and crowd.script of this folder, whose threads are in each other's way: python3 bench/contended.py campaign|crowd.

Both are drawn from one number, the campaign first. tests/kept.py compares them with the files, byte for byte.
"""
import random
import sys

NUMBER = 20261126
# Of the campaign: the directories before the files, as its first thread makes them, the same as the tree has them, and the names of renames.
DIRS = "/src /src/lib /src/lib/io /tmp /tmp/build /doc".split()
FILES = "/src/lib/io/read.c /src/main.c /tmp/build/main.o /doc/index.html".split()
NODES = "/src /src/lib /src/lib/io /src/lib/io/read.c /src/main.c /tmp /tmp/build /tmp/build/main.o /doc /doc/index.html".split()
NAMES = "/src /old /src/lib /tmp/lib /tmp /tmp/build /src/build /doc /tmp/doc".split()
# How many of a hundred calls each is, and how many calls each thread has.
SHARES = {
    "mkdir": 14,
    "mknod": 10,
    "rename": 16,
    "write": 8,
    "read": 10,
    "readdir": 10,
    "stat": 16,
    "unlink": 5,
    "rmdir": 5,
    "truncate": 6,
}
KINDS = [kind for kind, share in SHARES.items() for _ in range(share)]
CALLS = 40, 12, 33, 5, 41, 27, 19, 48
# How many threads the crowd has.
CROWD = 240


def text(name, threads):
    """The script of some threads, which are called by this name and their number."""
    blocks = "".join(
        f"thread {name}{number}\n" + "".join(f"{line}\n" for line in lines) for number, lines in enumerate(threads)
    )
    return f"atomfs 1\n{blocks}schedule\nfinish\n".encode()


def call(draw):
    """A call of the campaign."""
    kind = draw.choice(KINDS)
    if kind == "stat":
        return f"stat {draw.choice(NODES)}"
    # No call uses this number, but those that follow come after it.
    draw.randrange(5)
    match kind:
        case "rename":
            return f"rename {draw.choice(NAMES)} {draw.choice(NAMES)}"
        case "mkdir" | "rmdir":
            return f"{kind} {draw.choice(DIRS)}"
        case "readdir":
            return f"readdir {draw.choice([*DIRS, '/'])}"
        case "read":
            return f"read {draw.choice(FILES)} {draw.randrange(16)} {draw.randrange(1, 64)}"
        case "write":
            return f"write {draw.choice(FILES)} {draw.randrange(64)} {draw.randbytes(draw.randrange(1, 24)).hex()}"
        case "truncate":
            return f"truncate {draw.choice(FILES)} {draw.randrange(64)}"
        case _:
            return f"{kind} {draw.choice(FILES)}"


def campaign(draw):
    """Eight threads with 5 to 50 calls of all kinds on paths that they share. The first one makes the tree before."""
    first, *others = ([call(draw) for _ in range(calls)] for calls in CALLS)
    making = [*(f"mkdir {path}" for path in DIRS), *(f"mknod {path}" for path in FILES)]
    return text("worker", [making + first, *others])


def hot_call(draw, thread):
    """The call of a thread of the crowd."""
    kind, looked_at, moved = draw.randrange(6), draw.randrange(CROWD), draw.randrange(CROWD)
    return (
        f"mknod /hot/file{thread}",
        f"stat /hot/file{looked_at}",
        f"mkdir /hot/in/dir{thread}",
        "readdir /hot/in",
        f"rename /hot/file{moved} /hot/in/file{thread}",
        "stat /hot/in",
    )[kind]


def crowd(draw):
    """240 threads with one call each, all of which want the root or one directory below it. The first one makes that before."""
    first, *others = ([hot_call(draw, thread)] for thread in range(CROWD))
    return text("t", [["mkdir /hot", "mkdir /hot/in", *first], *others])


def scripts():
    """Both scripts, by their names."""
    draw = random.Random(NUMBER)
    return {"campaign": campaign(draw), "crowd": crowd(draw)}


if __name__ == "__main__":
    sys.stdout.buffer.write(scripts()[sys.argv[1]])
