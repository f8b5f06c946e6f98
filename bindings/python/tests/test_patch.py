"""A tree at a directory of the disk: each row does the same as in a directory of the disk itself, and nothing comes to the disk."""
# A row has the answers of several calls, and some of these answer nothing.
# mypy: disable-error-code="func-returns-value"
import bz2
import codecs
import contextlib
import ctypes
import dbm
import errno
import faulthandler
import fcntl
import fileinput
import glob
import gzip
import importlib
import inspect
import io
import linecache
import lzma
import mmap
import os
import pathlib
import re
import shelve
import shutil
import signal
import socket
import sqlite3
import stat
import subprocess
import sys
import tarfile
import tempfile
import termios
import threading
import unittest
import zipfile
from multiprocessing.util import spawnv_passfds
from os import listdir as captured
from typing import IO, Any, Callable, Dict, Iterator, List, Optional, Tuple

import atomfs
from atomfs import _table

AT = "/sandbox_of_atomfs"
# What a row of the tables does in a directory, and what it answers.
Row = Callable[[str], object]


class Kept:
    """What a class and defaults of arguments have kept of `os`."""

    listed = staticmethod(os.listdir)

    def of_default(
        self, path: str, listed: Callable[[str], List[str]] = os.listdir, *, opened: object = open
    ) -> Tuple[List[str], object]:
        return listed(path), opened


def of_default(path: str, *, listed: Callable[[str], List[str]] = os.listdir) -> List[str]:
    return listed(path)


def written(path: str, text: str = "text") -> str:
    with open(path, "w") as file:
        file.write(text)
    return path


def text_of(path: str) -> str:
    with open(path) as file:
        return file.read()


def all_of(at: str) -> List[object]:
    """What is below a path, with the bytes of files."""
    found: List[object] = []
    for folder, folders, files in os.walk(at):
        folders.sort()
        found += [f"{folder}/{name}/" for name in folders]
        for name in sorted(files):
            with open(f"{folder}/{name}", "rb") as file:
                found.append((f"{folder}/{name}", file.read()))
    return found


@contextlib.contextmanager
def descriptor(path: str, flags: int = os.O_RDWR) -> Iterator[int]:
    number = os.open(path, flags)
    try:
        yield number
    finally:
        os.close(number)


def with_descriptor(work: Callable[[int], object], flags: int = os.O_RDWR, name: str = "f") -> Row:
    """A row: what a function answers of a descriptor, and what is below the directory then."""

    def row(at: str) -> object:
        with descriptor(f"{at}/{name}", flags) as number:
            return work(number), os.lseek(number, 0, os.SEEK_CUR) if name == "f" else None

    return row


def of_stat(found: os.stat_result) -> Tuple[int, Optional[int]]:
    return stat.S_IFMT(found.st_mode), found.st_size if stat.S_ISREG(found.st_mode) else None


def in_folder(work: Row) -> Row:
    """A row that is run from a directory of the place."""

    def row(at: str) -> object:
        before = os.getcwd()
        os.chdir(f"{at}/d")
        try:
            return work(at)
        finally:
            os.chdir(before)

    return row


def duplicate(number: int) -> int:
    other = os.dup(number)
    os.write(other, b"ab")
    os.close(other)
    return os.write(number, b"cd")


def into_buffers(function: Callable[..., object]) -> Callable[..., object]:
    def work(*given: object) -> object:
        first, second = bytearray(2), bytearray(9)
        return function(given[0], [first, second], *given[1:]), first, second

    return work


def no_links(at: str) -> Optional[int]:
    try:
        os.readlink(f"{at}/f")
    except OSError as error:
        return error.errno
    return None


def sent(function: Callable[..., object]) -> Row:
    def row(at: str) -> object:
        written(f"{at}/to", "")
        with descriptor(f"{at}/f") as source, descriptor(f"{at}/to") as target:
            function(source, target)
        return all_of(at)

    return row


def renamed(function: Callable[..., object]) -> Row:
    def row(at: str) -> object:
        function(f"{at}/f", f"{at}/d/g")
        function(f"{at}/d", f"{at}/e")
        return all_of(at)

    return row


def scanned(at: str) -> object:
    with os.scandir(f"{at}/d") as entries:
        found = sorted(
            (one.name, one.path, os.fspath(one), one.is_dir(), one.is_file(), one.is_symlink(), of_stat(one.stat()))
            for one in entries
        )
    with descriptor(f"{at}/d", os.O_RDONLY) as number, os.scandir(number) as entries:
        return found, sorted(one.path for one in entries), sorted(one.name for one in os.scandir(os.fsencode(at)))


def closed(at: str) -> Optional[int]:
    number = os.open(f"{at}/f", os.O_RDONLY)
    os.close(number)
    try:
        os.read(number, 1)
    except OSError as error:
        return error.errno
    return None


def closed_range(at: str) -> Optional[int]:
    number = os.open(f"{at}/f", os.O_RDONLY)
    os.closerange(number, number + 1)
    try:
        os.fstat(number)
    except OSError as error:
        return error.errno
    return None


def packed(at: str) -> object:
    with zipfile.ZipFile(f"{at}/z.zip", "w") as archive:
        archive.write(f"{at}/d/g", "g")
        archive.writestr("x/y", "written")
    with zipfile.ZipFile(f"{at}/z.zip") as archive:
        archive.extractall(f"{at}/out")
        return archive.namelist(), all_of(f"{at}/out")


def tarred(at: str) -> object:
    with tarfile.open(f"{at}/t.tar.gz", "w:gz") as archive:
        archive.add(f"{at}/d", "d")
    with tarfile.open(f"{at}/t.tar.gz") as archive:
        archive.extractall(f"{at}/out")
        return archive.getnames(), all_of(f"{at}/out")


def compressed(module: Any) -> Row:
    def row(at: str) -> object:
        with module.open(f"{at}/z", "wt") as file:
            file.write("text")
        with module.open(f"{at}/z", "rt") as file:
            return file.read()

    return row


def archived(at: str) -> object:
    for kind in ("zip", "gztar"):
        shutil.make_archive(f"{at}/e", kind, f"{at}/d")
    return sorted(os.listdir(at)), zipfile.ZipFile(f"{at}/e.zip").namelist()


def unpacked(at: str) -> object:
    shutil.make_archive(f"{at}/e", "zip", f"{at}/d")
    shutil.unpack_archive(f"{at}/e.zip", f"{at}/out")
    return all_of(f"{at}/out")


def of_file_objects(at: str) -> object:
    with open(f"{at}/f", "rb") as source, open(f"{at}/to", "wb") as target:
        shutil.copyfileobj(source, target)
    return text_of(f"{at}/to")


def copied(function: Callable[..., object]) -> Row:
    def row(at: str) -> object:
        function(f"{at}/f", f"{at}/to")
        function(f"{at}/f", f"{at}/d/g")
        return all_of(at)

    return row


def named_file(at: str) -> object:
    with tempfile.NamedTemporaryFile("w+", dir=at) as file:
        file.write("text")
        file.flush()
        found = text_of(file.name), len(os.listdir(at))
    return found, sorted(os.listdir(at))


def unnamed_file(at: str) -> object:
    with tempfile.TemporaryFile(dir=at) as file:
        file.write(b"text")
        file.seek(1)
        return file.read(), os.fstat(file.fileno()).st_size, sorted(os.listdir(at))


def made_file(at: str) -> object:
    number, path = tempfile.mkstemp(dir=at)
    os.write(number, b"text")
    os.close(number)
    return text_of(path), os.path.dirname(path)


def temporary_folder(at: str) -> object:
    with tempfile.TemporaryDirectory(dir=at) as folder:
        os.makedirs(f"{folder}/a/b")
        written(f"{folder}/a/f")
        found = len(os.listdir(at))
    return found, sorted(os.listdir(at))


def rolled(at: str) -> object:
    with tempfile.SpooledTemporaryFile(2, dir=at) as file:
        file.write(b"text")
        file.seek(0)
        return file.read(), sorted(os.listdir(at))


def opened(at: str) -> object:
    found: List[object] = []
    for mode, text in (("w", "one\ntwo\n"), ("a", "three\n"), ("r+", "ONE"), ("a+", "four"), ("w+", "x\r\ny")):
        with open(f"{at}/o", mode) as file:
            found.append((file.write(text), file.tell(), file.name, file.mode, file.seekable(), file.isatty()))
        with open(f"{at}/o", "rb", 0) as file:
            found.append(
                (file.read(3), file.readall(), file.seek(-1, 2), file.tell(), file.read(), file.fileno() > 2, file.mode)
            )
        with open(f"{at}/o", newline="", buffering=1) as file:
            found.append(list(file))
    with open(f"{at}/o", "rb+") as file:
        found += [file.truncate(2), file.seek(0, 2), file.write(b"z"), file.seek(0), file.read()]
    with open(f"{at}/new", "x", opener=lambda path, flags: os.open(path, flags, 0o600)) as file:
        found.append(file.name)
    with open(pathlib.Path(at, "f").open().fileno(), closefd=False) as file:
        found.append(file.read())
    return found


def open_code(at: str) -> object:
    with io.open_code(f"{at}/f") as file:
        return file.read()


def touched(at: str) -> object:
    path = pathlib.Path(at, "t")
    path.touch()
    path.touch()
    return path.stat().st_size


def by_pathlib(name: str, *given: object) -> Row:
    return lambda at: getattr(pathlib.Path(at, "f"), name)(*given)


def changed(function: Callable[..., object]) -> Row:
    """A row: what is below the directory after a change."""

    def row(at: str) -> object:
        answered = function(at)
        return answered, all_of(at)

    return row


def metadata_of(path: str) -> Tuple[object, ...]:
    """What is kept of a node: no times that nobody has set."""
    found = os.lstat(path)
    times = [one if one < 10**12 else "now" for one in (found.st_atime_ns, found.st_mtime_ns)]
    return (
        oct(found.st_mode),
        found.st_uid,
        found.st_gid,
        found.st_nlink if stat.S_ISREG(found.st_mode) else None,
        times,
    )


def changed_of(function: Callable[..., object]) -> Row:
    """A row: what is kept of each node after a change."""

    def row(at: str) -> object:
        os.chmod(f"{at}/d/g", 0o600)
        os.utime(f"{at}/d/g", (7, 8))
        answered = function(at)
        return answered, [metadata_of(f"{at}/{name}") for name in ("f", "d", "d/g")]

    return row


def masked(at: str) -> object:
    was = os.umask(0o027)
    try:
        os.mkdir(f"{at}/n", 0o777)
        written(f"{at}/n/f")
        return os.umask(0o027), [metadata_of(f"{at}/{name}") for name in ("n", "n/f")]
    finally:
        os.umask(was)


def linked(at: str) -> object:
    os.symlink("f", f"{at}/l")
    os.symlink("../d", f"{at}/d/up")
    os.symlink(f"{at}/none", f"{at}/dangling")
    return (
        [os.readlink(f"{at}/{name}").replace(at, "AT") for name in ("l", "d/up", "dangling")],
        text_of(f"{at}/l"),
        sorted(os.listdir(f"{at}/d/up/up")),
        sorted((one.name, one.is_dir(), one.is_symlink()) for one in os.scandir(at)),
    )


def number_of(call: Callable[..., object], *given: object) -> Optional[int]:
    """The number of the error that a call raises."""
    try:
        call(*given)
    except OSError as error:
        return error.errno
    return None


def attributes(at: str) -> object:
    """Extended attributes, as a file system of the disk has them; one of memory may have none."""
    path = f"{at}/f"
    with contextlib.suppress(OSError):
        os.setxattr(path, "user.a", b"one")
        os.setxattr(path, b"user.b", b"two", os.XATTR_CREATE)
        with descriptor(path) as number:
            os.setxattr(number, "user.c", b"three")
            found = sorted(os.listxattr(number)), os.getxattr(number, "user.a")
        os.removexattr(path, "user.a")
        return (
            found,
            sorted(os.listxattr(path)),
            number_of(os.getxattr, path, "user.a"),
            number_of(os.setxattr, path, "user.b", b"", os.XATTR_CREATE),
            number_of(os.setxattr, path, "user.a", b"", os.XATTR_REPLACE),
            number_of(os.getxattr, f"{at}/none", "user.a"),
        )
    return None


def traced(at: str) -> object:
    with open(f"{at}/trace", "w+") as file:
        faulthandler.dump_traceback(file, all_threads=False)
        file.seek(0)
        return "in traced" in file.read()


def kept_words(at: str) -> object:
    """A dictionary in a file, by whichever kind of database is there."""
    with dbm.open(f"{at}/base", "c") as base:
        base["a"] = "one"
    with shelve.open(f"{at}/shelf") as shelf:
        shelf["b"] = [1]
    with dbm.open(f"{at}/base") as base, shelve.open(f"{at}/shelf", "r") as shelf:
        return base["a"], list(base.keys()), dict(shelf)


def locked(at: str) -> object:
    """Two that are open are in each other's way, and a copy of a descriptor is not."""
    both = fcntl.LOCK_EX | fcntl.LOCK_NB
    with open(f"{at}/f") as file, open(f"{at}/f") as other:
        found = [
            fcntl.flock(file, both),
            number_of(fcntl.flock, other, both),
            number_of(fcntl.flock, other, fcntl.LOCK_SH | fcntl.LOCK_NB),
        ]
        found += [
            fcntl.flock(file, fcntl.LOCK_SH),
            fcntl.flock(other, fcntl.LOCK_SH | fcntl.LOCK_NB),
            number_of(fcntl.flock, other, both),
        ]
        found += [fcntl.flock(file, fcntl.LOCK_UN), fcntl.flock(other, both)]
    with open(f"{at}/f") as file:
        return found, fcntl.flock(file, both), number_of(fcntl.flock, file, 64)


def mapped(at: str) -> object:
    with open(f"{at}/f", "r+b") as file:
        with mmap.mmap(file.fileno(), 0) as area:
            area[1:3] = b"EL"
            area.flush()
            found = [area[:], text_of(f"{at}/f"), area.size(), area.find(b"L")]
            area.resize(7)
            area[5:] = b"!?"
        with mmap.mmap(file.fileno(), 3, access=mmap.ACCESS_COPY) as area:
            area[0:1] = b"x"
            found.append(area[:])
        with mmap.mmap(file.fileno(), 0, access=mmap.ACCESS_READ) as area:
            with contextlib.suppress(TypeError):
                area[0:1] = b"x"
            found += [area.read(3), isinstance(area, mmap.mmap)]
    with open(f"{at}/f", "rb") as file:
        found.append(number_of(mmap.mmap, file.fileno(), 0))
        with contextlib.suppress(ValueError):
            mmap.mmap(file.fileno(), 99, access=mmap.ACCESS_READ)
    return found


def spliced(at: str) -> object:
    from_pipe, to_pipe = os.pipe()
    with descriptor(f"{at}/f") as number:
        found = os.splice(number, to_pipe, 3), os.read(from_pipe, 9), os.lseek(number, 0, os.SEEK_CUR)  # type: ignore[attr-defined]
    os.close(from_pipe)
    os.close(to_pipe)
    return found


def sizes(at: str) -> object:
    os.truncate(f"{at}/f", 2)
    with descriptor(f"{at}/d/g") as number:
        os.truncate(number, 9)
    return all_of(at)


def there(function: Callable[..., object]) -> Row:
    return lambda at: [
        function(f"{at}/{name}")
        for name in ("", "f", "d", "f/", "d/", "none", "f/x", "d/../f", "./d//g", "none/..", "f/..")
    ]


def same(function: Callable[..., object]) -> Row:
    return lambda at: [function(f"{at}/f", f"{at}/{name}") for name in ("f", "d/../f", "d/g")]


# What each name does below a directory that has a file `f` and a directory `d` with a file `g` and a directory `e`.
ROWS: Dict[str, Row] = {
    "builtins.open": opened,
    "io.open": lambda at: io.open(f"{at}/f", "rb").read(),
    "io.open_code": open_code,
    "io.FileIO": lambda at: [
        (file.read(), file.mode, file.close()) for file in (io.FileIO(f"{at}/f"), io.FileIO(file=f"{at}/n", mode="xb+"))
    ],
    "os.stat": lambda at: [
        of_stat(os.stat(one)) for one in (at, f"{at}/f", f"{at}/d/", os.fsencode(at), pathlib.Path(at, "f"))  # type: ignore[arg-type]
    ],
    "os.lstat": lambda at: of_stat(os.lstat(f"{at}/f")),
    "os.access": there(lambda path: os.access(path, os.R_OK | os.W_OK)),
    "os.listdir": lambda at: (
        sorted(os.listdir(at)),
        sorted(os.listdir(os.fsencode(f"{at}/d"))),
        with_descriptor(lambda number: sorted(os.listdir(number)), 0, "d")(at),
    ),
    "os.scandir": scanned,
    "os.readlink": no_links,
    "os.chdir": in_folder(
        lambda at: (
            os.getcwd(),
            text_of("g"),
            sorted(os.listdir()),
            sorted(os.listdir("..")),
            os.path.exists("../../none_of_atomfs"),
        )
    ),
    "os.getcwd": in_folder(lambda at: os.getcwd()),
    "os.getcwdb": in_folder(lambda at: os.getcwdb()),
    "os.fchdir": in_folder(lambda at: (with_descriptor(lambda number: os.fchdir(number), 0, "d/e")(at), os.getcwd())),
    "os.mkdir": changed(lambda at: (os.mkdir(f"{at}/n"), os.mkdir(f"{at}/n/m/", 0o700), os.mkdir(path=f"{at}/k"))),
    "os.mkfifo": lambda at: (os.mkfifo(f"{at}/p"), oct(os.stat(f"{at}/p").st_mode)),
    "os.mknod": changed(lambda at: os.mknod(f"{at}/n", stat.S_IFREG | 0o600)),
    "os.unlink": changed(lambda at: os.unlink(f"{at}/f")),
    "os.remove": changed(lambda at: os.remove(f"{at}/d/g")),
    "os.rmdir": changed(lambda at: os.rmdir(f"{at}/d/e")),
    "os.rename": renamed(lambda *paths: os.rename(*paths)),
    "os.replace": renamed(lambda *paths: os.replace(*paths)),
    "os.truncate": sizes,
    "os.open": lambda at: with_descriptor(lambda number: os.open("e", 0, dir_fd=number) > 2, 0, "d")(at),
    "os.fstat": with_descriptor(lambda number: of_stat(os.fstat(number))),
    "os.close": closed,
    "os.closerange": closed_range,
    "os.read": with_descriptor(lambda number: (os.read(number, 2), os.read(number, 9), os.read(number, 9))),
    "os.write": changed(
        with_descriptor(
            lambda number: (os.write(number, b"ab"), os.write(number, memoryview(b"cd"))), os.O_RDWR | os.O_APPEND
        )
    ),
    "os.pread": with_descriptor(lambda number: os.pread(number, 2, 1)),
    "os.pwrite": changed(with_descriptor(lambda number: os.pwrite(number, b"ab", 7))),
    "os.readv": with_descriptor(lambda number: into_buffers(os.readv)(number)),
    "os.preadv": with_descriptor(lambda number: into_buffers(os.preadv)(number, 1)),
    "os.writev": changed(with_descriptor(lambda number: os.writev(number, [b"ab", b"cd"]))),
    "os.pwritev": changed(with_descriptor(lambda number: os.pwritev(number, [b"ab", b"cd"], 3))),
    "os.lseek": with_descriptor(lambda number: [os.lseek(number, *to) for to in ((3, 0), (1, 1), (-1, 2), (9, 0))]),
    "os.ftruncate": changed(with_descriptor(lambda number: os.ftruncate(number, 7))),
    "os.posix_fallocate": changed(with_descriptor(lambda number: os.posix_fallocate(number, 3, 7))),
    "os.posix_fadvise": with_descriptor(lambda number: os.posix_fadvise(number, 0, 0, os.POSIX_FADV_NORMAL)),
    "os.fsync": with_descriptor(lambda number: os.fsync(number)),
    "os.fdatasync": with_descriptor(lambda number: os.fdatasync(number)),
    "os.isatty": with_descriptor(lambda number: os.isatty(number)),
    "os.get_inheritable": with_descriptor(lambda number: os.get_inheritable(number)),
    "os.set_inheritable": with_descriptor(lambda number: os.set_inheritable(number, False)),
    "os.get_blocking": with_descriptor(lambda number: os.get_blocking(number)),
    "os.set_blocking": with_descriptor(lambda number: os.set_blocking(number, True)),
    "os.dup": changed(with_descriptor(duplicate)),
    "os.sendfile": sent(
        lambda source, target: (os.sendfile(target, source, 1, 3), os.sendfile(target, source, None, 9))
    ),
    "os.copy_file_range": sent(
        lambda source, target: (os.copy_file_range(source, target, 2), os.copy_file_range(source, target, 9, 1, 4))
    ),
    "os.fdopen": lambda at: os.fdopen(os.open(f"{at}/f", os.O_RDONLY)).read(),
    "os.makedirs": changed(lambda at: (os.makedirs(f"{at}/n/m/k"), os.makedirs(f"{at}/n/m", exist_ok=True))),
    "os.removedirs": changed(lambda at: (os.makedirs(f"{at}/n/m/k"), os.removedirs(f"{at}/n/m/k"))),
    "os.renames": changed(lambda at: os.renames(f"{at}/f", f"{at}/n/m/f")),
    "os.walk": lambda at: sorted(
        (path, sorted(folders), sorted(files)) for path, folders, files in os.walk(at, topdown=False)
    ),
    "os.fwalk": lambda at: sorted((path, sorted(folders), sorted(files)) for path, folders, files, _ in os.fwalk(at)),
    "os.path.exists": there(os.path.exists),
    "os.path.lexists": there(os.path.lexists),
    "os.path.isdir": there(os.path.isdir),
    "os.path.isfile": there(os.path.isfile),
    "os.path.islink": there(os.path.islink),
    "os.path.ismount": lambda at: os.path.ismount(f"{at}/d"),
    "os.path.getsize": lambda at: os.path.getsize(f"{at}/f"),
    "os.path.getmtime": lambda at: os.path.getmtime(f"{at}/f") > 0,
    "os.path.samefile": same(os.path.samefile),
    "os.path.sameopenfile": with_descriptor(lambda number: os.path.sameopenfile(number, number)),
    "os.path.abspath": in_folder(lambda at: os.path.abspath("../f")),
    "os.path.realpath": in_folder(lambda at: (os.path.realpath("e/../g"), os.path.realpath(f"{at}/d/../f"))),
    "os.path.relpath": in_folder(lambda at: os.path.relpath(f"{at}/f")),
    "pathlib.Path.exists": there(lambda path: pathlib.Path(path).exists()),
    "pathlib.Path.is_dir": there(lambda path: pathlib.Path(path).is_dir()),
    "pathlib.Path.is_file": there(lambda path: pathlib.Path(path).is_file()),
    "pathlib.Path.is_symlink": by_pathlib("is_symlink"),
    "pathlib.Path.is_mount": by_pathlib("is_mount"),
    "pathlib.Path.stat": lambda at: of_stat(pathlib.Path(at, "f").stat()),
    "pathlib.Path.lstat": lambda at: of_stat(pathlib.Path(at, "f").lstat()),
    "pathlib.Path.iterdir": lambda at: sorted(map(str, pathlib.Path(at).iterdir())),
    "pathlib.Path.glob": lambda at: sorted(map(str, pathlib.Path(at).glob("*/[eg]"))),
    "pathlib.Path.rglob": lambda at: sorted(map(str, pathlib.Path(at).rglob("*"))),
    "pathlib.Path.mkdir": changed(
        lambda at: (pathlib.Path(at, "n/m").mkdir(parents=True), pathlib.Path(at, "n").mkdir(exist_ok=True))
    ),
    "pathlib.Path.rmdir": changed(lambda at: pathlib.Path(at, "d/e").rmdir()),
    "pathlib.Path.touch": touched,
    "pathlib.Path.unlink": changed(
        lambda at: (pathlib.Path(at, "f").unlink(), pathlib.Path(at, "f").unlink(missing_ok=True))
    ),
    "pathlib.Path.rename": changed(lambda at: str(pathlib.Path(at, "f").rename(f"{at}/n"))),
    "pathlib.Path.replace": changed(lambda at: str(pathlib.Path(at, "f").replace(f"{at}/d/g"))),
    "pathlib.Path.open": lambda at: pathlib.Path(at, "f").open().read(),
    "pathlib.Path.read_text": by_pathlib("read_text"),
    "pathlib.Path.write_text": changed(by_pathlib("write_text", "other")),
    "pathlib.Path.read_bytes": by_pathlib("read_bytes"),
    "pathlib.Path.write_bytes": changed(by_pathlib("write_bytes", b"other")),
    "pathlib.Path.samefile": same(lambda path, other: pathlib.Path(path).samefile(other)),
    "pathlib.Path.resolve": in_folder(
        lambda at: (str(pathlib.Path("../f").resolve()), str(pathlib.Path(at, "f").resolve(strict=True)))
    ),
    "pathlib.Path.absolute": in_folder(lambda at: str(pathlib.Path("g").absolute())),
    "pathlib.Path.cwd": in_folder(lambda at: str(pathlib.Path.cwd())),
    "shutil.copyfile": copied(shutil.copyfile),
    "shutil.copyfileobj": of_file_objects,
    "shutil.copy": copied(shutil.copy),
    "shutil.copy2": copied(shutil.copy2),
    "os.chmod": changed_of(lambda at: os.chmod(f"{at}/f", 0o2640)),
    "os.fchmod": changed_of(with_descriptor(lambda number: os.fchmod(number, 0o750))),
    "os.chown": changed_of(lambda at: os.chown(f"{at}/f", -1, -1)),
    "os.lchown": changed_of(lambda at: os.lchown(f"{at}/f", os.getuid(), -1)),
    "os.fchown": changed_of(with_descriptor(lambda number: os.fchown(number, -1, os.getgid()))),
    "os.utime": changed_of(
        lambda at: (os.utime(f"{at}/f", (1.5, 2.000000123)), os.utime(f"{at}/d", ns=(3, 4_000_000_005)))
    ),
    "os.umask": masked,
    "os.symlink": linked,
    "os.splice": spliced,
    "dbm.open": kept_words,
    "faulthandler.dump_traceback": traced,
    "os.DirEntry": lambda at: [isinstance(one, os.DirEntry) for one in os.scandir(at)],
    "os.statvfs": lambda at: (
        os.statvfs(f"{at}/f").f_frsize == os.statvfs(at).f_frsize,
        os.statvfs(at).f_namemax,
        number_of(os.statvfs, f"{at}/none"),
    ),
    "os.fstatvfs": with_descriptor(lambda number: os.fstatvfs(number).f_bsize > 0),
    "os.pathconf": lambda at: os.pathconf(at, "PC_NAME_MAX"),
    "os.fpathconf": with_descriptor(lambda number: os.fpathconf(number, "PC_NAME_MAX")),
    "os.getxattr": attributes,
    "os.setxattr": attributes,
    "os.listxattr": attributes,
    "os.removexattr": attributes,
    "os.lockf": with_descriptor(
        lambda number: (os.lockf(number, os.F_LOCK, 0), os.lockf(number, os.F_TEST, 0), os.lockf(number, os.F_ULOCK, 0))
    ),
    "os.ttyname": with_descriptor(lambda number: number_of(os.ttyname, number)),
    "fcntl.flock": locked,
    "fcntl.lockf": lambda at: [
        fcntl.lockf(file, kind)
        for file in (open(f"{at}/f", "r+"),)
        for kind in (fcntl.LOCK_EX, fcntl.LOCK_SH, fcntl.LOCK_UN)
    ],
    "fcntl.fcntl": changed(
        with_descriptor(
            lambda number: (
                fcntl.fcntl(number, fcntl.F_GETFL) & (os.O_ACCMODE | os.O_APPEND),
                fcntl.fcntl(number, fcntl.F_SETFL, os.O_APPEND),
                os.write(number, b"!"),
                fcntl.fcntl(number, fcntl.F_GETFD),
                os.close(fcntl.fcntl(number, fcntl.F_DUPFD, 200)),
            )
        )
    ),
    "fcntl.ioctl": with_descriptor(lambda number: number_of(fcntl.ioctl, number, termios.TCGETS)),
    "mmap.mmap": changed(mapped),
    "shutil.copystat": changed_of(lambda at: (os.chmod(f"{at}/f", 0o604), shutil.copystat(f"{at}/f", f"{at}/d/g"))),
    "shutil.copymode": changed_of(lambda at: (os.chmod(f"{at}/f", 0o604), shutil.copymode(f"{at}/f", f"{at}/d/g"))),
    "shutil.copytree": changed(lambda at: shutil.copytree(f"{at}/d", f"{at}/c/k")),
    "shutil.move": changed(lambda at: (shutil.move(f"{at}/f", f"{at}/d"), shutil.move(f"{at}/d", f"{at}/k"))),
    "shutil.rmtree": changed(lambda at: shutil.rmtree(f"{at}/d")),
    "shutil.make_archive": archived,
    "shutil.unpack_archive": unpacked,
    "tempfile.mkstemp": made_file,
    "tempfile.mkdtemp": lambda at: os.path.isdir(tempfile.mkdtemp(dir=at)),
    "tempfile.TemporaryFile": unnamed_file,
    "tempfile.NamedTemporaryFile": named_file,
    "tempfile.TemporaryDirectory": temporary_folder,
    "tempfile.SpooledTemporaryFile": rolled,
    "zipfile.ZipFile": packed,
    "zipfile.is_zipfile": lambda at: (packed(at), zipfile.is_zipfile(f"{at}/z.zip"), zipfile.is_zipfile(f"{at}/f")),
    "zipfile.Path": lambda at: (packed(at), zipfile.Path(f"{at}/z.zip", "g").read_text()),
    "tarfile.open": tarred,
    "gzip.open": compressed(gzip),
    "bz2.open": compressed(bz2),
    "lzma.open": compressed(lzma),
    "glob.glob": lambda at: sorted(glob.glob(f"{at}/**", recursive=True)),
    "glob.iglob": lambda at: sorted(glob.iglob(f"{at}/*/g")),
    "codecs.open": lambda at: codecs.open(f"{at}/f", encoding="utf-8").read(),
    "fileinput.input": lambda at: list(fileinput.FileInput([f"{at}/f", f"{at}/d/g"])),
    "linecache.getline": lambda at: (linecache.checkcache(), linecache.getline(f"{at}/f", 1)),
}

# The environment of a program.
NO_VARIABLES: Dict[str, str] = {}

# What is refused below the directory, and how it is called there.
REFUSALS: Dict[str, Row] = {
    "os.chroot": lambda at: os.chroot(f"{at}/d"),
    "os.link": lambda at: os.link(f"{at}/f", f"{at}/l"),
    "os.execv": lambda at: os.execv(f"{at}/f", ["f"]),
    "os.execve": lambda at: os.execve(f"{at}/f", ["f"], NO_VARIABLES),
    "os.posix_spawn": lambda at: os.posix_spawn(f"{at}/f", ["f"], NO_VARIABLES),
    "os.posix_spawnp": lambda at: os.posix_spawnp(f"{at}/f", ["f"], NO_VARIABLES),
    "os.system": in_folder(lambda at: os.system("true")),
    "os._spawnvef": in_folder(lambda at: os.spawnv(os.P_WAIT, str(shutil.which("true")), ["true"])),
    "_posixsubprocess.fork_exec": in_folder(
        lambda at: spawnv_passfds(os.fsencode(str(shutil.which("true"))), ["true"], [])
    ),
    "subprocess.Popen": lambda at: subprocess.run(["true"], cwd=at),
    "os.dup2": with_descriptor(lambda number: os.dup2(number, 1)),
    "sqlite3.connect": lambda at: sqlite3.connect(f"file://{at}/base?mode=rwc", uri=True),
    "sqlite3.Connection": lambda at: sqlite3.Connection(f"{at}/base"),
    "faulthandler.enable": lambda at: with_file(at, faulthandler.enable),
    "faulthandler.register": lambda at: with_file(at, lambda file: faulthandler.register(signal.SIGUSR1, file)),
    "_gdbm.open": in_folder(lambda at: importlib.import_module("_gdbm").open("base", "c")),
    "_dbm.open": lambda at: importlib.import_module("_dbm").open(f"{at}/base", "c"),
    "socket.socket.bind": in_folder(lambda at: with_socket(lambda one: one.bind("s"))),
    "socket.socket.connect": lambda at: with_socket(lambda one: one.connect(f"{at}/s")),
    "socket.socket.connect_ex": lambda at: with_socket(lambda one: one.connect_ex(os.fsencode(f"{at}/s"))),
}


def with_file(at: str, work: Callable[[IO[str]], object]) -> object:
    with open(f"{at}/f") as file:
        return work(file)


def with_socket(work: Callable[[socket.socket], object]) -> object:
    with socket.socket(socket.AF_UNIX) as one:
        return work(one)


def filled(at: str) -> None:
    os.makedirs(f"{at}/d/e")
    written(f"{at}/f", "hello")
    written(f"{at}/d/g", "in d")


class OfPatch(unittest.TestCase):
    def setUp(self) -> None:
        self.tree = atomfs.Tree()
        self.addCleanup(self.tree.close)
        self.assertFalse(os.path.lexists(AT))

    def tearDown(self) -> None:
        self.assertFalse(os.path.lexists(AT))
        self.assertEqual(self.tree.check(), "lawful")

    def outcome(self, row: Row, at: str) -> str:
        """What a row answers, or raises, without the path of the place and the names that are drawn."""
        filled(at)
        try:
            found = repr(row(at))
        except OSError as error:
            found = repr((type(error), error.errno, error.filename, error.filename2))
        return re.sub(r"\btmp[a-z0-9_]{8}\b", "TMP", found.replace(at, "AT"))

    def compare(self, row: Row) -> None:
        with tempfile.TemporaryDirectory() as at:
            wanted = self.outcome(row, at)
        self.tree.rmtree("/")
        with atomfs.patch(self.tree, at=AT):
            found = self.outcome(row, AT)
        self.assertEqual(found, wanted)


def there_here(name: str) -> bool:
    """Whether this Python has what the table names."""
    module, _, rest = name.partition(".")
    found = sys.modules.get(module) or _table.found(name)
    for part in rest.split("."):
        found = getattr(found, part, None)
    return found is not None


class Table(OfPatch):
    def test_rows(self) -> None:
        """Each name that is covered has a row here, and each that is refused."""
        self.assertEqual(
            {name for name in ROWS if there_here(name)}, {name for name in atomfs.patch.covered if there_here(name)}
        )
        self.assertEqual(len(set(atomfs.patch.covered)), len(atomfs.patch.covered))
        self.assertEqual(
            {name for name in REFUSALS if there_here(name)}, {name for name in atomfs.patch.refused if there_here(name)}
        )
        # What only some versions or systems have.
        self.assertLessEqual({*ROWS, *REFUSALS}, {*atomfs.patch.covered, *atomfs.patch.refused})

    def test_covered(self) -> None:
        for name, row in ((name, row) for name, row in ROWS.items() if there_here(name)):
            with self.subTest(name):
                self.compare(row)

    def test_refused(self) -> None:
        for name, call in ((name, call) for name, call in REFUSALS.items() if there_here(name)):
            with self.subTest(name), atomfs.patch(self.tree, at=AT):
                self.tree.rmtree("/")
                filled(AT)
                before = self.tree.tree()
                with self.assertRaises(OSError) as raised:
                    call(AT)
                number = errno.EPERM if name in ("os.link", "socket.socket.bind") else errno.ENOTSUP
                self.assertEqual((raised.exception.errno, self.tree.tree()), (number, before))
                self.assertIn(f": a tree {atomfs.patch.refused[name]}", str(raised.exception))

    def test_refused_by_other_words(self) -> None:
        """By the names of arguments, from descriptors, and as a program or a file of a process."""
        with atomfs.patch(self.tree, at=AT):
            filled(AT)
            before = self.tree.tree()
            each: Tuple[Callable[..., object], ...] = (
                lambda: sqlite3.connect(database=f"{AT}/base"),
                lambda: sqlite3.connect(f"file://localhost{AT}/base", uri=True),
                lambda: sqlite3.connect(f"file:{AT.replace('/', '%2F')}/base", uri=True),
                lambda: sqlite3.Connection(database=pathlib.Path(AT, "base")),
                lambda: subprocess.Popen([f"{AT}/f"]),
                lambda: subprocess.Popen(one for one in (f"{AT}/f",)),  # type: ignore[call-overload]
                lambda: subprocess.Popen(["true"], executable=f"{AT}/f"),
                lambda: subprocess.Popen(["true"], stdout=open(f"{AT}/f")),
                in_folder(lambda at: subprocess.Popen(["true"])),
                in_folder(lambda at: os.posix_spawn("/bin/true", ["true"], NO_VARIABLES)),
                in_folder(lambda at: os.execv("/bin/true", ["true"])),
                lambda: os.posix_spawn(
                    "/bin/true",
                    ["true"],
                    NO_VARIABLES,
                    file_actions=[(os.POSIX_SPAWN_OPEN, 1, f"{AT}/f", os.O_WRONLY, 0)],
                ),
                with_descriptor(
                    lambda number: os.posix_spawn(
                        "/bin/true", ["true"], NO_VARIABLES, file_actions=[(os.POSIX_SPAWN_DUP2, number, 1)]
                    )
                ),
                with_descriptor(lambda number: subprocess.Popen(["true"], pass_fds=[number])),
                with_descriptor(lambda number: os.dup2(number, 1)),
            )
            for call in each:
                with self.subTest(call), self.assertRaises(OSError) as raised:
                    call(AT) if call.__code__.co_argcount else call()
                self.assertEqual((raised.exception.errno, self.tree.tree()), (errno.ENOTSUP, before))

    def test_all_of_os(self) -> None:
        """Each function of `os` that takes a path or a descriptor is in the table, or is made of those that are."""
        made = {
            "fdopen",
            "fwalk",
            "makedirs",
            "removedirs",
            "renames",
            "walk",
            "popen",
            "get_exec_path",
            "fspath",
            "fsencode",
            "fsdecode",
        }
        # Of terminals, other processes, and numbers that no descriptor is.
        others = {
            "get_terminal_size",
            "device_encoding",
            "openpty",
            "tcgetpgrp",
            "tcsetpgrp",
            "major",
            "minor",
            "makedev",
            "eventfd_read",
        }
        others |= {"eventfd_write", "waitid", "login_tty", "ptsname", "grantpt", "unlockpt", "setns", "pidfd_open"}
        others |= {f"timerfd_{name}{end}" for name in ("gettime", "settime") for end in ("", "_ns")}
        words = {"path", "src", "dst", "fd", "fd2", "fd_low", "in_fd", "out_fd", "source", "target"}
        for name in sorted(set(os.__all__) - made - others):  # type: ignore[attr-defined]
            function = getattr(os, name)
            if not callable(function) or isinstance(function, type) or name.startswith(("exec", "spawn", "_")):
                continue
            text = getattr(function, "__text_signature__", None) or ""
            if words & set(text.strip("()").replace("$", "").replace("=", " ").replace(",", " ").split()):
                with self.subTest(name):
                    self.assertIn(f"os.{name}", _table.REPLACED)


class Errors(OfPatch):
    def test_errors(self) -> None:
        """Each raises what it raises on the disk, with the paths as they were given."""
        for at, row in enumerate(
            (
                lambda at: open(f"{at}/none"),
                lambda at: open(f"{at}/d"),
                lambda at: open(f"{at}/d", "w"),
                lambda at: open(f"{at}/f/x", "w"),
                lambda at: open(f"{at}/none/x", "w"),
                lambda at: open(f"{at}/new/", "w"),
                lambda at: open(f"{at}/f", "x"),
                lambda at: os.open(f"{at}/d", os.O_WRONLY),
                lambda at: os.open(f"{at}/f", os.O_DIRECTORY),
                lambda at: os.open(f"{at}/f", os.O_CREAT | os.O_EXCL),
                lambda at: os.stat(f"{at}/none"),
                lambda at: os.stat(f"{at}/f/"),
                lambda at: os.stat(f"{at}/f/."),
                lambda at: os.stat(f"{at}/none/../f"),
                lambda at: os.stat(f"{at}/f/../f"),
                lambda at: os.listdir(f"{at}/f"),
                lambda at: os.listdir(os.fsencode(f"{at}/none")),
                lambda at: os.scandir(f"{at}/none"),
                lambda at: os.mkdir(f"{at}/d"),
                lambda at: os.mkdir(f"{at}/f"),
                lambda at: os.mkdir(at),
                lambda at: os.rmdir(f"{at}/d"),
                lambda at: os.rmdir(f"{at}/f"),
                lambda at: os.unlink(f"{at}/d"),
                lambda at: os.unlink(f"{at}/none"),
                lambda at: os.remove(pathlib.Path(at, "none")),
                lambda at: os.rename(f"{at}/none", f"{at}/x"),
                lambda at: os.rename(f"{at}/d", f"{at}/d/e/x"),
                lambda at: os.rename(f"{at}/f", f"{at}/d"),
                lambda at: os.rename(f"{at}/d", f"{at}/f"),
                lambda at: os.rename(f"{at}/f", f"{at}/x/"),
                lambda at: os.replace(f"{at}/d/e", f"{at}/d"),
                lambda at: os.rename(f"{at}/f", "/proc/none"),
                lambda at: os.rename("/proc/version", f"{at}/f"),
                lambda at: os.truncate(f"{at}/d", 0),
                lambda at: os.truncate(f"{at}/f", -1),
                lambda at: os.chdir(f"{at}/f"),
                lambda at: os.chdir(f"{at}/none"),
                lambda at: os.makedirs(f"{at}/f/x"),
                lambda at: os.makedirs(f"{at}/d"),
                lambda at: shutil.rmtree(f"{at}/none"),
                lambda at: shutil.copyfile(f"{at}/f", f"{at}/f"),
                lambda at: shutil.copytree(f"{at}/d", f"{at}/d/e"),
                lambda at: pathlib.Path(at, "none").read_text(),
                lambda at: pathlib.Path(at, "x").resolve(strict=True),
                lambda at: tempfile.TemporaryFile(dir=f"{at}/none"),
                with_descriptor(lambda number: os.read(number, 1), os.O_WRONLY),
                with_descriptor(lambda number: os.write(number, b"x"), os.O_RDONLY),
                with_descriptor(lambda number: os.read(number, 1), os.O_RDONLY, "d"),
                with_descriptor(lambda number: os.lseek(number, -1, os.SEEK_SET)),
                with_descriptor(lambda number: os.ftruncate(number, -1)),
                with_descriptor(lambda number: os.stat("x", dir_fd=number)),
                with_descriptor(lambda number: os.pread(number, 1, -1)),
                with_descriptor(lambda number: os.posix_fallocate(number, -1, 1)),
                with_descriptor(lambda number: os.posix_fallocate(number, 0, 0)),
            )
        ):
            with self.subTest(at):
                self.compare(row)

    def test_other_errors(self) -> None:
        """What is no path, no mode, no buffer: the class of the error is that of the disk."""
        each: Tuple[Row, ...] = (
            lambda at: open(f"{at}/f", "q"),
            lambda at: open(f"{at}/f", "rw"),
            lambda at: open(f"{at}/f", "b"),
            lambda at: open(f"{at}/f", "rb", encoding="utf-8"),
            lambda at: open(f"{at}/f", encoding="none"),
            lambda at: open(f"{at}/f", buffering=0),
            lambda at: open(f"{at}/f", closefd=False),
            lambda at: open(f"{at}/f", 7),  # type: ignore[call-overload]
            lambda at: open(1.5),  # type: ignore[call-overload]
            lambda at: open(None),  # type: ignore[call-overload]
            lambda at: open(f"{at}/a\0b"),
            lambda at: os.stat(f"{at}/a\0b"),
            lambda at: os.stat(None),  # type: ignore[arg-type]
            lambda at: os.stat(f"{at}/f", dir_fd="1"),  # type: ignore[arg-type]
            lambda at: os.lstat(0),  # type: ignore[arg-type]
            lambda at: os.mkdir(os.open(at, os.O_RDONLY)),  # type: ignore[arg-type]
            lambda at: os.stat(),  # type: ignore[call-arg]
            lambda at: os.rename(f"{at}/f"),  # type: ignore[call-arg]
            lambda at: os.rename(1.5, f"{at}/f"),  # type: ignore[arg-type]
            lambda at: os.listdir(1.5),  # type: ignore[call-overload]
            lambda at: open(f"{at}/f").write("x"),
            lambda at: open(f"{at}/f", "wb").read(),
            lambda at: open(f"{at}/f", "wb").write("x"),  # type: ignore[arg-type]
            lambda at: open(f"{at}/f", "rb", 0).readinto(b"abc"),  # type: ignore[arg-type]
            lambda at: os.write(os.open(f"{at}/f", os.O_WRONLY), "x"),  # type: ignore[arg-type]
            lambda at: os.mkdir(f"{at}/x", no=1) if sys.flags.optimize else os.mkdir(),  # type: ignore[call-arg]
        )
        for call in each:
            kinds = []
            with tempfile.TemporaryDirectory() as at:
                filled(at)
                with self.assertRaises(Exception) as raised:
                    call(at)
                kinds.append(type(raised.exception))
            self.tree.rmtree("/")
            with atomfs.patch(self.tree, at=AT):
                filled(AT)
                before = self.tree.tree()
                with self.assertRaises(Exception) as raised:
                    call(AT)
                kinds.append(type(raised.exception))
            with self.subTest(kinds[0]):
                self.assertEqual(kinds[1], kinds[0])
                self.assertIn(self.tree.tree(), (before, before.replace("f 68656c6c6f", "f -")))

    def test_places_that_are_no_whole_numbers(self) -> None:
        """They are refused as those of the disk are from 3.10 on."""
        with atomfs.patch(self.tree, at=AT):
            filled(AT)
            with open(f"{AT}/f", "rb", 0) as file:
                self.assertRaises(TypeError, file.seek, 1.5)
                self.assertRaises(TypeError, os.lseek, file.fileno(), 1.5, os.SEEK_SET)

    def test_limits(self) -> None:
        """The error has the path as it was given, and the limit."""
        with atomfs.Tree(limits=atomfs.Limits.V2) as tree, atomfs.patch(tree, at=AT):
            with self.assertRaisesRegex(OSError, f"more than 1,048,576 bytes: '{AT}/f'") as raised:
                with open(f"{AT}/f", "wb", 0) as file:
                    file.write(bytes(5_505_024))
            self.assertEqual((raised.exception.errno, os.path.getsize(f"{AT}/f")), (errno.EFBIG, 0))
            with self.assertRaisesRegex(OSError, f"more than 64 bytes: '{AT}/{'n' * 65}'"):
                os.mkdir(f"{AT}/{'n' * 65}")
            with tempfile.TemporaryFile(dir=AT) as file, self.assertRaisesRegex(OSError, "more than 1,048,576 bytes"):
                file.truncate(1_048_577)

    def test_patches(self) -> None:
        for at in ("/", "//", "/."):
            with self.subTest(at):
                self.assertRaises(ValueError, atomfs.patch, self.tree, at)
        self.assertRaises(TypeError, atomfs.patch, self.tree, 7)
        with atomfs.patch(self.tree, at=AT) as patch:
            self.assertRaises(RuntimeError, patch.__enter__)
            self.assertTrue(os.path.isdir(AT))
        with atomfs.patch() as patch:
            written(f"{patch.at}/f")
            self.assertEqual((os.fspath(patch), patch.tree.read("/f")), ("/sandbox", b"text"))
            self.assertTrue(repr(patch).startswith("<atomfs.patch at '/sandbox': <atomfs.Tree open: 2 of "))
        self.assertIn("', not there: ", repr(patch))
        patch.tree.close()
        with atomfs.Tree() as closed:
            pass
        before = os.stat
        self.assertRaises(atomfs.ClosedError, atomfs.patch(closed, at=AT).__enter__)
        self.assertIs(os.stat, before)


class Outside(OfPatch):
    def test_the_disk(self) -> None:
        """What is not below the directory is on the disk, and nothing of it is in the tree."""
        with tempfile.TemporaryDirectory() as at, atomfs.patch(self.tree, at=AT):
            filled(at)
            self.assertEqual(sorted(os.listdir(at)), ["d", "f"])
            with descriptor(f"{at}/f") as number:
                self.assertEqual((os.read(number, 2), os.fstat(number).st_size, number < 1 << 20), (b"he", 5, True))
                with mmap.mmap(number, 0) as mapped:
                    self.assertEqual((mapped[:], isinstance(mapped, mmap.mmap)), (b"hello", True))
            with open(f"{at}/f", "rb", 0) as file:
                self.assertIsInstance(file, io.FileIO)
            os.chmod(f"{at}/f", 0o600)
            os.mkdir(f"{AT}/working")
            os.chdir(f"{AT}/working")
            os.symlink("f", f"{at}/l")
            self.assertEqual(subprocess.run(iter(["cat", "f"]), cwd=at, capture_output=True).stdout, b"hello")  # type: ignore[call-overload]
            os.chdir("/")
            os.rmdir(f"{AT}/working")
            self.assertEqual(
                (os.readlink(f"{at}/l"), subprocess.run(["cat", "l"], cwd=at, capture_output=True).stdout),
                ("f", b"hello"),
            )
            with contextlib.closing(sqlite3.connect(f"{at}/base")) as base, contextlib.closing(
                sqlite3.connect(":memory:")
            ):
                base.execute("create table t (x)")
            self.assertEqual(os.path.exists(f"{AT}x/{AT}"), False)
            shutil.copytree(at, f"{AT}/copy")
            self.assertEqual(self.tree.read("/copy/f"), b"hello")
            shutil.rmtree(f"{at}/d")
            shutil.move(f"{AT}/copy/d", at)
            self.assertEqual((text_of(f"{at}/d/g"), self.tree.readdir("/copy")), ("in d", ["base", "f", "l"]))

    def test_border(self) -> None:
        """A path that leads over the border by dots, and from a working directory."""
        before = os.getcwd()
        with tempfile.TemporaryDirectory() as at:
            place = os.path.join(os.path.realpath(at), "place")
            written(f"{at}/real", "real")
            with atomfs.patch(self.tree, at=place):
                os.makedirs(f"{place}/d")
                written(f"{at}/place/f", "tree")
                self.assertEqual(
                    (text_of(f"{place}/../real"), text_of(f"{place}/d/../../real"), text_of(f"{at}/./place//d/../f")),
                    ("real", "real", "tree"),
                )
                os.chdir(at)
                self.assertEqual(
                    (text_of("place/f"), text_of("real"), sorted(os.listdir())), ("tree", "real", ["real"])
                )
                os.chdir("place/d")
                self.assertEqual((os.getcwd(), text_of("../f"), text_of("../../real")), (f"{place}/d", "tree", "real"))
                os.rename(f"{place}/d", f"{place}/moved")
                self.assertEqual(os.getcwd(), f"{place}/moved")
                with self.assertRaises(OSError) as raised:
                    os.rename("../f", "../../f")
                self.assertEqual(
                    (raised.exception.errno, raised.exception.filename, raised.exception.filename2),
                    (errno.EXDEV, "../f", "../../f"),
                )
                os.rmdir(f"{place}/moved")
                self.assertRaises(FileNotFoundError, os.getcwd)
                self.assertRaises(FileNotFoundError, os.stat, "x")
                os.chdir("/")
                self.assertEqual(
                    (os.getcwd(), os.path.realpath("x"), os.path.exists("d"), os.path.exists("proc")),
                    ("/", "/x", False, True),
                )
                os.chdir(place)
                with descriptor(at, os.O_RDONLY) as number:
                    os.fchdir(number)
                self.assertEqual((os.getcwd(), text_of("place/f")), (os.path.realpath(at), "tree"))
                os.chdir("/")
                os.chdir(place)
            self.assertEqual((os.getcwd(), os.path.lexists(place)), ("/", False))
            os.chdir(before)

    def test_links_of_the_disk(self) -> None:
        """Over a directory of the disk the tree hides what is there, by whatever link it is reached."""
        with tempfile.TemporaryDirectory() as at:
            os.mkdir(f"{at}/place")
            written(f"{at}/place/hidden")
            os.symlink("place", f"{at}/link")
            with atomfs.patch(self.tree, at=f"{at}/place"):
                self.assertEqual(
                    (os.listdir(f"{at}/place"), os.listdir(f"{at}/link"), os.path.islink(f"{at}/link")), ([], [], True)
                )
                written(f"{at}/link/f", "tree")
                self.assertEqual((self.tree.read("/f"), text_of(f"{at}/link/../place/f")), (b"tree", "tree"))
                os.unlink(f"{at}/link")
            self.assertEqual(sorted(os.listdir(f"{at}/place")), ["hidden"])

    def test_restored(self) -> None:
        """All is as it was after the end, whatever happens, and what a module has taken meanwhile goes to the disk."""
        names = [name for name in _table.REPLACED if _table.found(name) is not None]
        before = [_table.found(name) for name in names] + [
            io.open,
            os.supports_dir_fd,
            tempfile._TemporaryFileCloser.__dict__,  # type: ignore[attr-defined]
        ]
        taken: List[Callable[..., object]] = []
        with self.assertRaises(KeyError), atomfs.patch(self.tree, at=AT):
            taken += [os.stat, open, io.FileIO]
            self.assertEqual(
                [captured(AT), Kept.listed(AT), Kept().of_default(AT), of_default(AT)], [[], [], ([], open), []]
            )
            self.assertIn(os.stat, os.supports_dir_fd)

            class Taken:
                listed = os.listdir

            self.assertEqual(
                (Taken().listed(AT), os.listdir.__name__, inspect.signature(os.listdir).parameters.keys()),  # type: ignore[call-overload, misc]
                ([], "listdir", {"path"}),
            )
            raise KeyError
        after = [_table.found(name) for name in names] + [
            io.open,
            os.supports_dir_fd,
            tempfile._TemporaryFileCloser.__dict__,  # type: ignore[attr-defined]
        ]
        self.assertEqual([name for name, one, other in zip(names, before, after) if one is not other], [])
        self.assertEqual(before[-3:], after[-3:])
        each: Tuple[Callable[..., object], ...] = (*taken, captured, Kept.listed, Kept().of_default, of_default)
        for call in each:
            self.assertRaises(FileNotFoundError, call, AT)

    def test_two_trees(self) -> None:
        with atomfs.Tree() as other, atomfs.patch(self.tree, at=AT), atomfs.patch(other, at=f"{AT}2"):
            written(f"{AT}/f", "one")
            written(f"{AT}2/f", "other")
            with descriptor(f"{AT}/f") as number, descriptor(f"{AT}2/f") as another:
                self.assertEqual((os.read(number, 9), os.read(another, 9)), (b"one", b"other"))
            with self.assertRaises(OSError) as raised:
                os.rename(f"{AT}/f", f"{AT}2/g")
            self.assertEqual(raised.exception.errno, errno.EXDEV)
            shutil.move(f"{AT}/f", f"{AT}2/g")
            self.assertEqual((other.read("/g"), self.tree.readdir("/")), (b"one", []))

    def test_decorator(self) -> None:
        @atomfs.patch(self.tree, at=AT)
        def work() -> str:
            return written(f"{AT}/f")

        self.assertEqual([work(), work(), self.tree.read("/f")], [f"{AT}/f", f"{AT}/f", b"text"])


class NothingOnTheDisk(OfPatch):
    """What knows nothing of a patch, and is made by relative paths, finds no directory of the disk while the tree has the working one."""

    def test_relative(self) -> None:
        libc, before = ctypes.CDLL(None, use_errno=True), os.getcwd()
        with tempfile.TemporaryDirectory() as at:
            os.chdir(at)
            with atomfs.patch(self.tree, at=AT) as patch:
                filled(AT)
                os.chdir(f"{AT}/d")
                self.assertEqual((libc.creat(b"leak", 0o600), ctypes.get_errno()), (-1, errno.ENOENT))
                self.assertEqual(sorted(os.listdir()), ["e", "g"])
                with self.assertRaises(FileNotFoundError):
                    patch._real["os.mkdir"]("leak")
                child = os.fork()
                if not child:
                    try:
                        written("of_child")
                        os.execv("/bin/sh", ["sh", "-c", "echo > leak"])
                    finally:
                        os._exit(7)
                self.assertEqual(os.waitpid(child, 0)[1] >> 8, 7)
                self.assertEqual(sorted(os.listdir()), ["e", "g"])
                os.chdir(at)
                self.assertEqual((os.getcwd(), patch._real["os.getcwd"]()), (os.path.realpath(at),) * 2)
                os.chdir(AT)
            self.assertEqual((os.getcwd(), os.listdir(), os.listdir(at)), (os.path.realpath(at), [], []))
            os.chdir(before)


class Open(OfPatch):
    def test_a_moved_and_a_removed_file(self) -> None:
        """A descriptor goes with its file, and has it after it was removed or replaced."""

        def row(at: str) -> object:
            with open(f"{at}/f", "r+") as file, open(f"{at}/d/g", "rb+", 0) as other, descriptor(
                f"{at}/d", 0
            ) as folder:
                os.rename(f"{at}/d", f"{at}/k")
                os.rename(f"{at}/f", f"{at}/k/f")
                file.write("J")
                file.flush()
                found: List[object] = [
                    text_of(f"{at}/k/f"),
                    sorted(os.listdir(folder)),
                    of_stat(os.stat("f", dir_fd=folder)),
                ]
                os.replace(f"{at}/k/f", f"{at}/k/g")
                found += [other.read(), other.write(b"!"), os.fstat(other.fileno()).st_size, text_of(f"{at}/k/g")]
                os.unlink(f"{at}/k/g")
                file.seek(0)
                found += [file.read(), file.write("more"), file.truncate(7), file.seek(0), file.read()]
                return found, all_of(at)

        self.compare(row)

    def test_large_files(self) -> None:
        """Whole files of the greatest length, and longer than what is read at once."""

        def row(at: str) -> object:
            found: List[object] = []
            for size in (65_535, 65_536, 65_537, 1_048_576):
                data = bytes(range(256)) * (size // 256) + b"x" * (size % 256)
                pathlib.Path(at, "f").write_bytes(data)
                with open(f"{at}/f", "rb") as file:
                    found += [file.read() == data, file.read(), file.seek(3), file.read(9), file.read() == data[12:]]
                shutil.copyfile(f"{at}/f", f"{at}/g")
                found.append(pathlib.Path(at, "g").read_bytes() == data)
            return found

        self.compare(row)

    def test_large_trees(self) -> None:
        """Directories and files that one call does not tell come whole, and names are as long as those of the disk."""
        with atomfs.Tree() as tree, atomfs.patch(tree, at=AT):
            os.mkdir(f"{AT}/d")
            names = [f"{at:03}" for at in range(300)]
            for name in names:
                pathlib.Path(AT, "d", name).touch()
            self.assertEqual(os.listdir(f"{AT}/d"), names)
            self.assertEqual([entry.name for entry in os.scandir(f"{AT}/d")], names)
            self.assertEqual(sorted(os.listdir(os.fsencode(f"{AT}/d"))), [name.encode() for name in names])
            data = bytes(range(251)) * 12_600
            pathlib.Path(AT, "f").write_bytes(data)
            shutil.copyfile(f"{AT}/f", f"{AT}/g")
            self.assertEqual(pathlib.Path(AT, "g").read_bytes(), data)
            with descriptor(f"{AT}/f") as number:
                self.assertEqual(
                    (os.read(number, 2_000_000), os.read(number, 2**31)), (data[:2_000_000], data[2_000_000:])
                )
            shutil.rmtree(f"{AT}/d")
            os.rename(f"{AT}/g", f"{AT}/{'n' * 255}")
            with self.assertRaisesRegex(OSError, "a name of more than 255 bytes: '") as raised:
                os.mkdir(f"{AT}/{'n' * 256}")
            self.assertEqual(
                (raised.exception.errno, raised.exception.filename), (errno.ENAMETOOLONG, f"{AT}/{'n' * 256}")
            )
            self.assertEqual((sorted(os.listdir(AT)), tree.check()), (["f", "n" * 255], "lawful"))

    def test_calls(self) -> None:
        """A function is one call of the tree, where one is enough."""
        with atomfs.patch(self.tree, at=AT):
            filled(AT)
            rows: Tuple[Tuple[List[str], Callable[[], object]], ...] = (
                (["rename /f /n: ok"], lambda: os.rename(f"{AT}/f", f"{AT}/n")),
                (["rename /n /f: ok"], lambda: os.replace(f"{AT}/n", f"{AT}/f")),
                (["stat /f: stat file 5"], lambda: os.path.exists(f"{AT}/f")),
                (["list /d / 256: names e g"], lambda: os.listdir(f"{AT}/d")),
                (["stat /f: stat file 5", "read /f 0 65536: bytes 68656c6c6f"], lambda: text_of(f"{AT}/f")),
                (["mknod /m: ok", "write /m 0 74657874: wrote 4"], lambda: written(f"{AT}/m")),
                (["unlink /m: ok"], lambda: os.unlink(f"{AT}/m")),
                (["mkdir /m: ok", "rmdir /m: ok"], lambda: (os.mkdir(f"{AT}/m"), os.rmdir(f"{AT}/m/"))),
                (["truncate /f 2: ok"], lambda: os.truncate(f"{AT}/f", 2)),
            )
            for calls, function in rows:
                before = self.tree.calls
                function()
                count = self.tree.calls - before
                with self.subTest(calls):
                    self.assertEqual(self.tree.last_calls(count), calls)

    def test_threads(self) -> None:
        def work(thread: int) -> None:
            for at in range(20):
                path = f"{AT}/{thread}/{at}"
                os.makedirs(os.path.dirname(path), exist_ok=True)
                written(path, str(at))
                os.replace(path, f"{AT}/{thread}/last")

        with atomfs.patch(self.tree, at=AT):
            threads = [threading.Thread(target=work, args=(thread,)) for thread in range(4)]
            for thread in threads:
                thread.start()
            for thread in threads:
                thread.join()
            self.assertEqual([text_of(f"{AT}/{thread}/last") for thread in range(4)], ["19"] * 4)

    def test_a_file_that_another_thread_moves(self) -> None:
        """A descriptor goes with its file also where that is moved, or loses its entry, once the other thread has begun its call."""
        calls = (
            lambda number: os.pread(number, 3, 1),
            lambda number: os.pwrite(number, b"E", 1),
            lambda number: os.ftruncate(number, 4),
            lambda number: os.fstat(number).st_size,
        )
        wanted = [b"ell", 1, None, 4]
        for gone in (False, True):
            with self.subTest(gone), atomfs.patch(self.tree, at=AT):
                self.tree.rmtree("/")
                filled(AT)
                with descriptor(f"{AT}/f") as number:
                    found = [self.meanwhile(call, number, at, gone) for at, call in enumerate(calls)]
                self.assertEqual(found, wanted)

    def meanwhile(self, call: Callable[[int], object], number: int, at: int, gone: bool) -> object:
        """What a thread comes to that has begun its call before this one moves the file, or replaces what it was moved to."""
        came = []

        def asks() -> None:
            try:
                came.append(call(number))
            except OSError as error:
                came.append(error)

        with self.tree.lock:
            thread = threading.Thread(target=asks)
            thread.start()
            # The other thread has time to come to the lock.
            thread.join(0.1)
            old, new = ("f" if at == 0 else f"f{at}"), f"f{at + 1}"
            if os.path.exists(f"{AT}/{old}"):
                os.rename(f"{AT}/{old}", f"{AT}/{new}")
            if gone:
                written(f"{AT}/other")
                os.replace(f"{AT}/other", f"{AT}/{new}")
        thread.join()
        return came[0]


if __name__ == "__main__":
    unittest.main()
