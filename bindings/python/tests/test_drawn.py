"""Drawn calls of `os` and `open`, each on the disk and in a tree: both answer and raise the same, and what is below is the same at the end."""
# Several functions answer nothing, and that is compared too.
# mypy: disable-error-code="func-returns-value"
import errno
import fcntl
import os
import random
import stat
import tempfile
import unittest
from typing import Any, Dict, List, Sequence, Tuple

import atomfs
from test_patch import AT, OfPatch

NAMES = "a", "b", "c"
# What is above the place where the calls are made, which dots may lead to.
ABOVE = "u/v/w/x"
RUNS, CALLS = 60, 60

# The name of a function, and its words.
Call = Tuple[Any, ...]
# What calls answered, and what is below the place then.
Outcome = Tuple[List[object], Dict[str, object]]


def a_path(draw: random.Random) -> str:
    """A relative path of a few names, some with dots or a slash at the end."""
    names = [draw.choice(NAMES) for _ in range(draw.choice((1, 1, 1, 2, 2, 3)))]
    if draw.random() < 0.08:
        names.insert(draw.randrange(len(names) + 1), draw.choice((".", "..")))
    return "/".join(names) + ("/" if draw.random() < 0.06 else "")


def a_call(draw: random.Random) -> Call:
    """A function and its words, without the place."""
    path, other = a_path(draw), a_path(draw)
    mode = draw.choice((0o700, 0o750, 0o777, 0o1777, 0o640))
    return draw.choice(
        (
            ("mkdir", path, mode),
            ("mkdir", path),
            ("mknod", path),
            ("unlink", path),
            ("rmdir", path),
            ("rename", path, other),
            ("rename", path, other),
            ("symlink", draw.choice((other, f"../{other}", f"@/{other}")), path),
            ("readlink", path),
            ("stat", path),
            ("lstat", path),
            ("listdir", path),
            ("scandir", path),
            ("access", path, draw.choice((os.F_OK, os.R_OK, os.X_OK))),
            ("chmod", path, mode),
            ("utime", path, (draw.randrange(10**9), draw.randrange(10**9))),
            ("truncate", path, draw.randrange(9)),
            ("write", path, draw.choice(("w", "a", "r+", "x", "w+")), draw.randrange(9)),
            ("read", path),
            ("open", path, draw.choice(FLAGS)),
            ("realpath", path),
            ("chdir", path),
            ("getcwd",),
        )
    )


FLAGS = (
    *(os.O_RDONLY, os.O_WRONLY, os.O_RDWR | os.O_CREAT, os.O_WRONLY | os.O_CREAT | os.O_EXCL, os.O_RDONLY | os.O_TRUNC),
    *(os.O_RDONLY | os.O_NOFOLLOW, os.O_RDONLY | os.O_DIRECTORY, os.O_RDONLY | os.O_CREAT | os.O_NOFOLLOW),
)


def of_stat(found: os.stat_result) -> Tuple[object, ...]:
    # Reads leave the time of access of a tree, and the length of a link depends on the place.
    size = found.st_size if stat.S_ISREG(found.st_mode) else None
    return (
        oct(found.st_mode),
        size,
        found.st_uid,
        found.st_gid,
        found.st_mtime_ns if found.st_mtime < 10**9 else "now",
    )


def scanned(path: str) -> List[Tuple[object, ...]]:
    with os.scandir(path) as entries:
        return sorted(
            (one.name, one.is_dir(), one.is_file(), one.is_symlink(), one.is_dir(follow_symlinks=False))
            for one in entries
        )


def answer(at: str, call: Call) -> object:
    """What a call answers, or its error, with the place left out."""
    name, *words = call

    def placed(path: str) -> str:
        # Where the process works moves, so some paths begin at the place, and some where it is.
        return path if len(path) % 3 == 0 and name != "symlink" else f"{at}/{path}"

    paths = [placed(word) if isinstance(word, str) and at_first < 2 else word for at_first, word in enumerate(words)]
    try:
        if name == "symlink":
            return os.symlink(words[0].replace("@", at), f"{at}/{words[1]}")
        if name == "write":
            with open(paths[0], words[1]) as file:
                return file.write("x" * words[2]), file.tell()
        if name == "read":
            with open(paths[0]) as file:
                return file.read()
        if name == "open":
            number = os.open(paths[0], words[1], 0o640)
            found = of_stat(os.fstat(number))
            os.close(number)
            return found
        if name == "scandir":
            return scanned(paths[0])
        if name == "listdir":
            return sorted(os.listdir(paths[0]))
        if name in ("stat", "lstat"):
            return of_stat(getattr(os, name)(paths[0]))
        if name == "realpath":
            return os.path.realpath(paths[0]).replace(at[: -len(ABOVE)], "@")
        if name == "rename":
            return os.rename(placed(words[0]), placed(words[1]))
        came: object = getattr(os, name)(*paths)
        return came.replace(at[: -len(ABOVE)], "@") if isinstance(came, str) else came
    except OSError as error:
        return errno.errorcode.get(error.errno), *(
            str(path).replace(at, "@") for path in (error.filename, error.filename2)
        )


def below(at: str) -> Dict[str, object]:
    """All that is below a place, without following links."""
    found: Dict[str, object] = {}
    for folder, folders, files in os.walk(at):
        for name in (*folders, *files):
            path = os.path.join(folder, name)
            kept = of_stat(os.lstat(path))
            if os.path.islink(path):
                found[path[len(at) :]] = kept[0], os.readlink(path).replace(at, "@")
            elif os.path.isfile(path):
                with open(path) as file:
                    found[path[len(at) :]] = kept, file.read()
            else:
                found[path[len(at) :]] = kept
    return found


def outcome(at: str, calls: Sequence[Call]) -> Outcome:
    at = f"{at}/{ABOVE}"
    os.makedirs(at)
    os.chdir(at)
    answers = [answer(at, call) for call in calls]
    os.chdir(at)
    return answers, below(at)


def a_call_of_descriptors(draw: random.Random) -> Call:
    """A function on one of three descriptors, or one that opens it or changes what it is of."""
    one, path, other = draw.randrange(3), draw.choice("ab"), draw.choice("abc")
    size = draw.randrange(12)
    flags = draw.choice((os.O_RDONLY, os.O_WRONLY, os.O_RDWR)) | draw.choice(
        (0, os.O_CREAT, os.O_TRUNC, os.O_APPEND, os.O_CREAT | os.O_APPEND)
    )
    return draw.choice(
        (
            ("open", one, path, flags),
            ("open", one, path, flags),
            ("close", one),
            ("read", one, size),
            ("write", one, b"x" * size),
            ("pread", one, size, draw.randrange(9)),
            ("pwrite", one, b"y" * size, draw.randrange(9)),
            ("lseek", one, draw.randrange(-3, 9), draw.choice((0, 1, 2))),
            ("ftruncate", one, size),
            ("fstat", one),
            ("fchmod", one, draw.choice((0o600, 0o640, 0o4755))),
            ("utime", one, (5, size)),
            ("dup", one, draw.randrange(3)),
            ("fsync", one),
            ("posix_fallocate", one, draw.randrange(5), size),
            ("readv", one, size),
            ("copy_file_range", one, draw.randrange(3), size),
            ("fcntl", one),
            ("rename", path, other),
            ("unlink", path),
            ("mkdir", path),
            ("rmdir", path),
            ("truncate", path, size),
            ("listdir", "."),
        )
    )


class Opened:
    """Three descriptors at most, by their places, and what calls on them answer."""

    def __init__(self, at: str) -> None:
        self.at = at
        self.of: Dict[int, int] = {}

    def close(self) -> None:
        for number in self.of.values():
            os.close(number)

    def answer(self, call: Call) -> object:
        name, one, *words = call
        try:
            if name in ("rename", "unlink", "mkdir", "rmdir", "truncate", "listdir"):
                paths = [f"{self.at}/{word}" if isinstance(word, str) else word for word in (one, *words)]
                found = getattr(os, name)(*paths)
                return sorted(found) if name == "listdir" else found
            if name == "open":
                new = os.open(f"{self.at}/{words[0]}", words[1], 0o640)
                if one in self.of:
                    os.close(self.of.pop(one))
                self.of[one] = new
                return None
            if one not in self.of:
                return None
            return self.on(name, one, self.of[one], words)
        except OSError as error:
            return errno.errorcode.get(error.errno)

    def on(self, name: str, one: int, number: int, words: Sequence[Any]) -> object:
        if name == "close":
            return os.close(self.of.pop(one))
        if name == "dup":
            if words[0] in self.of:
                return None
            self.of[words[0]] = os.dup(number)
            return None
        if name == "readv":
            room = [bytearray(2), bytearray(words[0])]
            return os.readv(number, room), room
        if name == "copy_file_range":
            # Linux refuses the file itself, where the ranges overlap.
            if words[0] not in self.of or os.path.sameopenfile(number, self.of[words[0]]):
                return None
            return os.copy_file_range(number, self.of[words[0]], words[1])
        if name == "fcntl":
            return fcntl.fcntl(number, fcntl.F_GETFL) & (os.O_ACCMODE | os.O_APPEND)
        if name == "fstat":
            found = os.fstat(number)
            return of_stat(found), found.st_nlink if stat.S_ISREG(found.st_mode) else None
        # Where a directory ends differs between file systems of the disk.
        if name == "lseek" and words[1] == os.SEEK_END and stat.S_ISDIR(os.fstat(number).st_mode):
            return None
        # At its offset, as POSIX has it: Linux appends.
        if name == "pwrite" and fcntl.fcntl(number, fcntl.F_GETFL) & os.O_APPEND:
            return None
        return getattr(os, name)(number, *words)


class Drawn(OfPatch):
    def test_descriptors(self) -> None:
        """Calls on descriptors, while what they are of is renamed, replaced and removed."""
        for seed in range(RUNS):
            draw = random.Random(seed)
            calls = [a_call_of_descriptors(draw) for _ in range(3 * CALLS)]
            both = []
            with tempfile.TemporaryDirectory() as disk, atomfs.Tree() as tree, atomfs.patch(tree, at=AT):
                for at in (disk, AT):
                    opened = Opened(at)
                    both.append(([opened.answer(call) for call in calls], below(at)))
                    opened.close()
                self.assertEqual(tree.check(), "lawful")
            with self.subTest(seed):
                for number, (call, one, other) in enumerate(zip(calls, both[0][0], both[1][0])):
                    self.assertEqual(other, one, f"call {number} of seed {seed}: {call}, after {calls[:number]}")
                self.assertEqual(both[1][1], both[0][1])

    def test_runs(self) -> None:
        before = os.getcwd()
        self.addCleanup(os.chdir, before)
        for seed in range(RUNS):
            draw = random.Random(seed)
            calls = [a_call(draw) for _ in range(CALLS)]
            with tempfile.TemporaryDirectory() as folder:
                disk = os.path.realpath(folder)
                wanted = outcome(disk, calls)
                os.chdir(before)
            with atomfs.Tree() as tree, atomfs.patch(tree, at=AT):
                found = outcome(AT, calls)
                os.chdir("/")
                self.assertEqual(tree.check(), "lawful")
            with self.subTest(seed):
                for number, (call, one, other) in enumerate(zip(calls, wanted[0], found[0])):
                    self.assertEqual(other, one, f"call {number} of seed {seed}: {call}, after {calls[:number]}")
                self.assertEqual(found[1], wanted[1])


if __name__ == "__main__":
    unittest.main()
