#!/usr/bin/env python3
"""Records the calls of threads on a tree in memory, of PyFilesystem2, pyfakefs, fsspec or this package, and finds an order of them.

Install the package, or build the library with `embed/build` and say where it is:

    export PYTHONPATH=bindings/python/src ATOMFS_LIBRARY=dist/lib/libatomfs.so

    python3 examples/record/record.py Tree
    python3 examples/record/record.py MemoryFS > none.history
    python3 examples/record/record.py pyfakefs > none.history
    python3 examples/record/record.py fsspec > none.history

MemoryFS is a tree of PyFilesystem2: Debian's python3-fs, or `pip install fs`. One of its threads removes a directory, and what another
one made in it meanwhile is lost. pyfakefs is a tree for tests: Debian's python3-pyfakefs, or `pip install pyfakefs`. fsspec has a tree in memory too: Debian's
python3-fsspec, or `pip install fsspec`. To record another tree, add a function that makes one call on it.

One thread records first: if even that has no order, the tree is of another kind. Then three threads make four random calls each,
round after round. The first history that no order explains goes to standard output.

Exit status: 0 all histories are lawful; 1 one of threads is not; 2 one of one thread is not, a usage error, or a package is missing.
"""
import argparse
import concurrent.futures
import inspect
import os
import random
import re
import stat
import sys
import threading
import time

try:
    import atomfs

    atomfs.library_version()
except (ImportError, OSError) as error:
    atomfs, why_missing = None, error

ALONE, THREADS, CALLS = 20, 3, 4
NAMES = *3 * ["mkdir", "rmdir"], "mknod", "unlink", "stat", "readdir"
PATHS = "/a", "/b", "/a/a", "/a/b"
# The tree of fsspec makes missing parents of files, and files that are there anew. So directories alone are recorded, below the root.
OF_DIRECTORIES, TOP = (*3 * ["mkdir", "rmdir"], "stat", "readdir"), ("/a", "/b")


def on_memory_fs(files, name, path, answer):
    """Makes a call on a tree of PyFilesystem2."""
    if name == "mkdir":
        files.makedir(path)
    elif name == "mknod":
        files.openbin(path, "x").close()
    elif name == "unlink":
        files.remove(path)
    elif name == "rmdir":
        files.removedir(path)
    elif name == "readdir":
        answer.names(files.listdir(path))
    else:
        info = files.getinfo(path, ["details"])
        answer.stat(info.is_dir, info.size)


def on_fake_os(files, name, path, answer):
    """Makes a call on a tree of pyfakefs, which stands in for the module `os`."""
    if name == "mknod":
        files.close(files.open(path, os.O_CREAT | os.O_EXCL | os.O_WRONLY))
    elif name == "readdir":
        answer.names(files.listdir(path))
    elif name == "stat":
        found = files.stat(path)
        answer.stat(stat.S_ISDIR(found.st_mode), found.st_size)
    else:
        getattr(files, name)(path)


def fake_os():
    """A tree of pyfakefs with nothing in it."""
    from pyfakefs import fake_filesystem

    files = fake_filesystem.FakeFilesystem()
    return fake_filesystem.FakeOsModule(files)


def on_fsspec(files, name, path, answer):
    """Makes a call on the tree in memory of fsspec."""
    if name == "mkdir":
        files.mkdir(path, create_parents=False)
    elif name == "rmdir":
        files.rmdir(path)
    elif name == "readdir":
        answer.names([entry.rpartition("/")[2] for entry in files.ls(path, detail=False)])
    else:
        found = files.info(path)
        answer.stat(found["type"] == "directory", found["size"])


def fsspec_tree():
    """The tree in memory of fsspec, with nothing in it: a process has one."""
    from fsspec.implementations.memory import MemoryFileSystem

    files = MemoryFileSystem()
    files.store.clear()
    files.pseudo_dirs[:] = [""]
    return files


def on_tree(tree, name, path, answer):
    """Makes a call on a tree of this package, whose `stat` knows how many entries a directory has."""
    reply = getattr(tree, name)(path)
    if name == "readdir":
        answer.names(reply)
    elif name == "stat":
        answer.stat(reply.is_dir, reply.size, entries=reply.size)


def record(tree, make, lists):
    """The history of lists of calls, each on a thread of its own."""
    # If a path leads through a file, MemoryFS says that an assertion failed; pyfakefs unlinks no directory, and says so; fsspec does not
    # find a directory in a list that another thread has removed. Nothing changes.
    any_error = {AssertionError: None, IsADirectoryError: None, ValueError: None}
    history, together = atomfs.History(errors=any_error), threading.Barrier(len(lists))

    def work(calls):
        together.wait()
        for name, path in calls:
            with history.call(name, path) as answer:
                make(tree, name, path, answer)

    with concurrent.futures.ThreadPoolExecutor(len(lists)) as pool:
        # What a thread raised, since it is no reply, is raised here.
        list(pool.map(work, lists))
    return history


def drawn(draw, threads, calls, names, paths):
    return [[(draw.choice(names), draw.choice(paths)) for _ in range(calls)] for _ in range(threads)]


def pauses(draw, kind):
    """Stops threads for a moment at drawn lines of the module that has a class, so that others go on: Python itself seldom does."""
    file = inspect.getfile(kind)

    def at_line(frame, event, argument):
        if draw.random() < 0.2:
            time.sleep(1e-5)
        return at_line

    return lambda frame, event, argument: at_line if frame.f_code.co_filename == file else None


def judge(history, what, status):
    """Ends with this status where no order explains a history."""
    found, text = history.linearize(), history.text()
    if isinstance(found, atomfs.Lawful):
        return
    print(f"{what}: {found.verdict}", file=sys.stderr)
    if isinstance(found, atomfs.NoOrder):
        begun, returned = (re.search(rf"^{word} {found.call} (.*)$", text, re.M)[1] for word in ("begin", "return"))
        print(f"no order explains that `{begun.split(' ', 1)[1]}` returned `{returned}`", file=sys.stderr)
    print(text, end="")
    sys.exit(status)


def needs(name, why):
    """Ends for want of a package, by the status that no verdict has."""
    print(f"examples/record/record.py: {name} is missing ({why}): see --help", file=sys.stderr)
    sys.exit(2)


def main():
    words = argparse.ArgumentParser(description=__doc__, formatter_class=argparse.RawDescriptionHelpFormatter)
    words.add_argument("tree", choices=("MemoryFS", "pyfakefs", "fsspec", "Tree"))
    words.add_argument("--rounds", type=int, default=2_000)
    words.add_argument("--seed", type=int, default=0, help="draws the calls, and where threads stop")
    given = words.parse_args()
    if atomfs is None:
        needs("the package atomfs", why_missing)
    if given.tree == "MemoryFS":
        try:
            from fs.memoryfs import MemoryFS as new
        except ImportError as error:
            needs("PyFilesystem2", error)
        make, traced = on_memory_fs, new
    elif given.tree == "pyfakefs":
        try:
            traced = type(fake_os().filesystem)
        except ImportError as error:
            needs("pyfakefs", error)
        new, make = fake_os, on_fake_os
    elif given.tree == "fsspec":
        try:
            traced = type(fsspec_tree())
        except ImportError as error:
            needs("fsspec", error)
        new, make = fsspec_tree, on_fsspec
    else:
        new, make, traced = atomfs.Tree, on_tree, atomfs.Tree
    draw = random.Random(given.seed)
    of = (OF_DIRECTORIES, TOP) if given.tree == "fsspec" else (NAMES, PATHS)
    for _ in range(ALONE):
        judge(
            record(new(), make, drawn(draw, 1, THREADS * CALLS, *of)), "one thread, so this is another kind of tree", 2
        )
    threading.settrace(pauses(draw, traced))
    for at in range(given.rounds):
        judge(record(new(), make, drawn(draw, THREADS, CALLS, *of)), f"round {at}", 1)
    print(f"all are lawful: {ALONE} histories of one thread, {given.rounds} of {THREADS} threads")


if __name__ == "__main__":
    main()
