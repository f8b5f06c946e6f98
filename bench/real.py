"""Plays a list of bench/real into something that holds files, by Python, and reads all back: real.py LIST WHAT LIMITS FOLDER.

WHAT is tree, checkpoints, forgetting, folder, MemoryFS or pyfakefs. What a list is, and what is printed: real.c.
"""
import errno
import os
import pathlib
import re
import sys
import time

# How many names a call answers at most.
PIECE, LEAST, LISTED = 65_536, 1_000, 256


class Node:
    """A directory or a file of the list: how many bytes of a file are to be played and are in it, how many entries of a directory are."""

    __slots__ = "held", "is_dir", "is_in", "path", "size", "source"

    def __init__(self, is_dir, path, source, size):
        self.is_dir, self.path, self.source, self.size, self.held, self.is_in = is_dir, path, source, size, 0, False


def read_list(path):
    folder, *words = pathlib.Path(path).read_bytes().split(b"\0")[:-1]
    nodes, words = [], iter(words)
    for word in words:
        is_dir, path = word[:1] == b"d", word[1:]
        nodes.append(
            Node(is_dir, path.decode("utf-8", "surrogateescape"), folder + path, 0 if is_dir else int(next(words)))
        )
    nodes[0].is_in = True
    return nodes


class Opened:
    """What holds files by files that are opened, made or for reading, until `end`."""

    file = None

    def write(self, path, offset, piece):
        self.file.write(piece)

    def read(self, path, offset):
        return self.file.read(PIECE)

    def end(self):
        self.file.close()


class Folder(Opened):
    """A folder, by the words of `os` and `open`."""

    def __init__(self, of, opened, top):
        self.of, self.opened, self.top = of, opened, top

    def make_dir(self, path):
        self.of.mkdir(self.top + path)

    def make_file(self, path):
        self.file = self.opened(self.top + path, "xb", buffering=0)

    def open_file(self, path):
        self.file = self.opened(self.top + path, "rb", buffering=0)

    def entries(self, path):
        return len(self.of.listdir(self.top + path))


class OfPyFilesystem(Opened):
    """A file system of PyFilesystem2."""

    def __init__(self, files):
        self.files = files

    def make_dir(self, path):
        self.files.makedir(path)

    def make_file(self, path):
        self.file = self.files.openbin(path, "x")

    def open_file(self, path):
        self.file = self.files.openbin(path, "r")

    def entries(self, path):
        return len(self.files.listdir(path))


class OfTree:
    """A tree, each call by its path."""

    def __init__(self, tree):
        self.tree, self.make_dir, self.make_file, self.write = tree, tree.mkdir, tree.mknod, tree.write

    def open_file(self, path):
        pass

    def end(self):
        pass

    def read(self, path, offset):
        return self.tree.read(path, offset, PIECE)

    def entries(self, path):
        return len(self.tree.listdir(path))

    def lists_of(self, entries):
        """By how many calls so many entries are listed."""
        return 1 + (entries // LISTED if self.tree.limits.has_list else 0)


class BeginningAgain(OfTree):
    """A tree whose journal begins again where as many calls have come since as it has nodes, or 1,000 where it has fewer."""

    def __init__(self, tree, again):
        super().__init__(tree)
        self.again, self.made, self.since, self.times, self.seconds = again, 1, 0, 0, 0.0
        for name in ("make_dir", "make_file", "write", "read", "entries"):
            setattr(self, name, self.counted(getattr(self, name), name.startswith("make")))

    def counted(self, call, makes):
        def made(*given):
            reply = call(*given)
            self.made += makes
            self.since += 1
            if self.since >= max(self.made, LEAST):
                self.begin_again()
            return reply

        return made

    def begin_again(self):
        began = time.process_time()
        self.again()
        self.seconds += time.process_time() - began
        self.times, self.since = self.times + 1, 0


def holder_of(what, limits, folder):
    """What holds files, of this name."""
    if what in ("tree", "checkpoints", "forgetting"):
        import atomfs

        tree = atomfs.Tree(limits=atomfs.Limits[limits])
        return (
            OfTree(tree)
            if what == "tree"
            else BeginningAgain(tree, tree.checkpoint if what == "checkpoints" else tree.forget)
        )
    if what == "folder":
        return Folder(os, open, folder)
    if what == "MemoryFS":
        from fs.memoryfs import MemoryFS

        return OfPyFilesystem(MemoryFS())
    from pyfakefs import fake_filesystem

    files = fake_filesystem.FakeFilesystem()
    return Folder(fake_filesystem.FakeOsModule(files), fake_filesystem.FakeFileOpen(files), "")


def next_piece(source, node, at, end):
    """The bytes of the next piece of a file of the disk, of which so many are played."""
    size = min(PIECE, end - at)
    piece = source.read(size)
    if len(piece) != size:
        sys.exit(f"{node.source!r} has become shorter")
    return piece


def read_alone(nodes):
    for node in nodes:
        if node.is_dir:
            continue
        with open(node.source, "rb", buffering=0) as source:
            for at in range(0, node.size, PIECE):
                next_piece(source, node, at, node.size)


class Played:
    """The rounds, and how many calls they made."""

    def __init__(self, nodes, holder):
        self.nodes, self.holder, self.calls = nodes, holder, 0

    def refused(self, number, call, error):
        print("refused", number, call, self.nodes[number].held, errno.errorcode[error.errno], error.strerror)

    def fill(self, number, node):
        """Writes a file that was made, as far as it is taken."""
        with open(node.source, "rb", buffering=0) as source:
            while node.held < node.size:
                piece = next_piece(source, node, node.held, node.size)
                self.calls += 1
                try:
                    self.holder.write(node.path, node.held, piece)
                except OSError as error:
                    self.refused(number, "write", error)
                    return
                node.held += len(piece)

    def make_one(self, number, node):
        self.calls += 1
        try:
            (self.holder.make_dir if node.is_dir else self.holder.make_file)(node.path)
        except OSError as error:
            self.refused(number, "mkdir" if node.is_dir else "mknod", error)
            return
        node.is_in = True
        if not node.is_dir:
            self.fill(number, node)
            self.holder.end()

    def make(self):
        """The directory that a node is in is the last one before it with one name less: what is below one that was refused has none."""
        above = {0: self.nodes[0]}
        for number, node in enumerate(self.nodes[1:], 1):
            depth = node.path.count("/")
            if node.is_dir:
                above[depth] = node
            if above[depth - 1].is_in:
                self.make_one(number, node)
                above[depth - 1].held += node.is_in

    def is_same(self, node):
        """Whether a file has the bytes that it has of the one on the disk, and no others."""
        with open(node.source, "rb", buffering=0) as source:
            at = 0
            while True:
                piece = next_piece(source, node, at, node.held)
                self.calls += 1
                if self.holder.read(node.path, at) != piece:
                    return False
                at += len(piece)
                if len(piece) < PIECE:
                    return True

    def back_of(self, node):
        """What is wrong with a node that went in."""
        try:
            if node.is_dir:
                entries = self.holder.entries(node.path)
                self.calls += self.holder.lists_of(entries) if isinstance(self.holder, OfTree) else 1
                return None if entries == node.held else "other entries"
            self.holder.open_file(node.path)
            is_same = self.is_same(node)
            self.holder.end()
            return None if is_same else "other bytes"
        except OSError as error:
            return str(error)

    def back(self):
        """All that went in is looked at by its path, and a directory has as many entries as went in: so it has no others."""
        for number, node in enumerate(self.nodes):
            if node.is_in and (why := self.back_of(node)):
                print("wrong", number, why)


def most_held():
    """The most memory that the process had so far, in KiB. What its parent had counts in getrusage, and not here."""
    return int(re.search(r"VmHWM:\s*(\d+)", pathlib.Path("/proc/self/status").read_text())[1])


def main():
    path, what, limits, folder = sys.argv[1:]
    nodes = read_list(path)
    played = Played(nodes, holder_of(what, limits, folder))
    clocks, held = [time.process_time()], []
    for part in (lambda: read_alone(nodes), played.make, played.back):
        part()
        clocks.append(time.process_time())
        held.append(most_held())
    again = getattr(played.holder, "times", 0), getattr(played.holder, "seconds", 0.0)
    print(
        "used",
        played.calls,
        *(f"{end - begin:.6f}" for begin, end in zip(clocks, clocks[1:])),
        *held,
        again[0],
        f"{again[1]:.6f}",
    )


main()
