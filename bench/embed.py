"""The same calls as embed.c, from Python: embed.py LIBRARY CALLS, or embed.py LIBRARY --long CALLS. With --checkpoints CALLS, of the long ones those with
checkpoints alone.

With CALLS alone also what files of others take by the same words: a directory on tmpfs, pyfakefs, PyFilesystem2's and fsspec's memory, each beside
the tree by these words. Of them those are left out, and told, that are not there: Debian's python3-pyfakefs, python3-fs, python3-fsspec.
With --beside CALLS [TABLE ..] these alone, or the tables that are named, word by word and by turns: of each word the processor time of so many, the least of five turns, in microseconds,
and as a ratio to the first of its table. Each word is called a thousand times first, which is what a tree keeps: so each pays for its own calls,
and not for those before it that are forgotten.

The extension of the package is built for it, where this Python takes one; with ATOMFS_PURE=1 calls go by ctypes.
"""
import atexit
import builtins
import contextlib
import importlib.util
import os
import pathlib
import resource
import shutil
import subprocess
import sys
import tempfile
import time
import typing

ROOT = pathlib.Path(__file__).resolve().parent.parent
sys.dont_write_bytecode = True
os.environ["ATOMFS_LIBRARY"] = str(pathlib.Path(sys.argv[1]).resolve())


def built():
    """A copy of the package, with its extension."""
    folder = tempfile.mkdtemp(prefix="atomfs-embed-")
    atexit.register(shutil.rmtree, folder)
    made = shutil.copytree(ROOT / "bindings" / "python", f"{folder}/python", ignore=shutil.ignore_patterns("*.abi3.so"))
    words = sys.executable, "setup.py", "-q", "build_ext", "--inplace"
    subprocess.run(words, cwd=made, check=True, stdout=subprocess.DEVNULL)
    return f"{made}/src"


sys.path.insert(0, built())
import atomfs

PIECE, EVERY, EARLY, MOST_KEPT = bytes(k * 7 % 256 for k in range(4000)), 10_000, 100_000, 1_000_000


def lines():
    """What the tests make of calls as lines."""
    spec = importlib.util.spec_from_file_location("lines", ROOT / "tests" / "atomfs.py")
    module = importlib.util.module_from_spec(spec)
    spec.loader.exec_module(module)
    return module


def names_by_lines(tree, seat, i):
    name = i // 4 % 100
    line = (f"mkdir /a{name}", f"stat /a{name}", f"rename /a{name} /b", "rmdir /b")[i % 4]
    assert not tree.call(seat, line.encode()).startswith(b"failed")


def place(i):
    return i % 16 * len(PIECE)


def write_by_line(tree, seat, i):
    assert tree.call(seat, f"write /f {place(i)} {PIECE.hex()}".encode()) == b"wrote 4000"


def read_by_line(tree, seat, i):
    reply = tree.call(seat, f"read /f {place(i)} {len(PIECE)}".encode())
    assert len(bytes.fromhex(reply[len("bytes ") :].decode())) == len(PIECE)


def names_typed(tree, i):
    name = f"/a{i // 4 % 100}"
    if i % 4 == 0:
        tree.mkdir(name)
    elif i % 4 == 1:
        tree.stat(name)
    elif i % 4 == 2:
        tree.rename(name, "/b")
    else:
        tree.rmdir("/b")


def write_typed(tree, i):
    tree.write("/f", place(i), PIECE)


def read_typed(tree, i):
    assert len(tree.read("/f", place(i), len(PIECE))) == len(PIECE)


@contextlib.contextmanager
def tree_of_lines(lines, library):
    with lines.Tree(library, 1000) as tree:
        seat = tree.seat()
        for line in (b"mknod /f", b"truncate /f 64000"):
            tree.call(seat, line)
        yield tree, seat


@contextlib.contextmanager
def typed_tree():
    with atomfs.Tree(1000) as tree:
        tree.mknod("/f")
        tree.truncate("/f", 64_000)
        yield (tree,)


class Files(typing.NamedTuple):
    """The words for files that some package has, and one that is open without a buffer."""

    make: typing.Callable
    ask: typing.Callable
    move: typing.Callable
    remove: typing.Callable
    file: typing.BinaryIO


def names_of_files(files, i):
    name = f"/a{i // 4 % 100}"
    if i % 4 == 0:
        files.make(name)
    elif i % 4 == 1:
        files.ask(name)
    elif i % 4 == 2:
        files.move(name, "/b")
    else:
        files.remove("/b")


def write_of_files(files, i):
    files.file.seek(place(i))
    files.file.write(PIECE)


def read_of_files(files, i):
    files.file.seek(place(i))
    assert len(files.file.read(len(PIECE))) == len(PIECE)


@contextlib.contextmanager
def filled(files):
    with files.file:
        files.file.write(bytes(64_000))
        yield (files,)


def by_os(of, opened, top):
    """The words of `os` and `open`."""
    names = (
        lambda path: of.mknod(top + path),
        lambda path: of.stat(top + path),
        lambda path, other: of.rename(top + path, top + other),
    )
    return filled(Files(*names, lambda path: of.remove(top + path), opened(f"{top}/f", "w+b", buffering=0)))


@contextlib.contextmanager
def on_tmpfs():
    with tempfile.TemporaryDirectory(dir="/dev/shm") as folder, by_os(os, open, folder) as given:
        yield given


@contextlib.contextmanager
def patched():
    with atomfs.Tree() as tree, atomfs.patch(tree, "/sandbox"), by_os(os, builtins.open, "/sandbox") as given:
        yield given


def of_pyfakefs():
    from pyfakefs import fake_filesystem

    files = fake_filesystem.FakeFilesystem()
    return by_os(fake_filesystem.FakeOsModule(files), fake_filesystem.FakeFileOpen(files), "")


def by_pyfilesystem(files):
    return filled(Files(files.create, files.getinfo, files.move, files.remove, files.openbin("/f", "w+", buffering=0)))


def of_memoryfs():
    from fs.memoryfs import MemoryFS

    return by_pyfilesystem(MemoryFS())


def of_atomfs():
    from atomfs.fs import AtomFS

    return by_pyfilesystem(AtomFS())


def by_fsspec(files):
    files.touch("/f")
    return filled(Files(files.touch, files.info, files.mv, files.rm_file, files.open("/f", "rb+")))


def of_fsspec():
    from fsspec.implementations.memory import MemoryFileSystem

    files = MemoryFileSystem(skip_instance_cache=True)
    files.store.clear()
    return by_fsspec(files)


def of_atomfilesystem():
    from atomfs.fsspec import AtomFileSystem

    return by_fsspec(AtomFileSystem(tree=atomfs.Tree(journal=atomfs.LAST(BEFORE))))


# By whose words files are made, what they are of, and the module that is needed.
OTHERS = (
    *(("os", "tmpfs", on_tmpfs, "os"), ("os", "pyfakefs", of_pyfakefs, "pyfakefs"), ("os", "a patch", patched, "os")),
    *(("fs", "MemoryFS", of_memoryfs, "fs"), ("fs", "AtomFS", of_atomfs, "fs")),
    *(("fsspec", "memory", of_fsspec, "fsspec"), ("fsspec", "atomfs", of_atomfilesystem, "fsspec")),
)


def measure(name, opened, call, calls):
    """The best of three rounds, each on a tree of its own."""
    best = 0
    for _ in range(3):
        with opened() as given:
            start = time.process_time()
            for i in range(calls):
                call(*given, i)
            best = max(best, calls / (time.process_time() - start))
    print(f"Python  {name:23} {best:9.0f} calls/s", flush=True)


def measure_others(calls):
    for words, of, opened, module in OTHERS:
        if importlib.util.find_spec(module) is None:
            print(f"Python  {words}, {of}: there is no {module}")
            continue
        for kind, call, part in (
            ("names", names_of_files, 1),
            ("writes", write_of_files, 8),
            ("reads", read_of_files, 8),
        ):
            measure(f"{kind}, {words}, {of}", opened, call, calls // part)


def measure_all(calls):
    by_lines = lines()
    library = by_lines.Library(sys.argv[1])
    kinds = (
        ("names", names_by_lines, names_typed, 1),
        ("writes", write_by_line, write_typed, 8),
        ("reads", read_by_line, read_typed, 8),
    )
    for name, one, other, part in kinds:
        measure(f"{name}, lines", lambda: tree_of_lines(by_lines, library), one, calls // part)
        measure(f"{name}, typed", typed_tree, other, calls // part)


# ---- Word by word, by turns

TURNS, SMALL, LISTED, BEFORE = 5, PIECE[:64], 20, 1_000


def words_of_os(of, opened, top):
    """What programs ask of `os` and `open`, below a directory that is there."""
    of.mkdir(f"{top}/d")
    for name in (f"{top}/f", *(f"{top}/d/{number}" for number in range(LISTED))):
        with opened(name, "wb") as file:
            file.write(bytes(64_000 if name == f"{top}/f" else 0))

    def missing():
        with contextlib.suppress(FileNotFoundError):
            of.stat(f"{top}/d/none")

    def names():
        of.mkdir(f"{top}/a")
        of.stat(f"{top}/a")
        of.rename(f"{top}/a", f"{top}/b")
        of.rmdir(f"{top}/b")

    def read(size):
        with opened(f"{top}/f", "rb") as file:
            file.read(size)

    def write(data):
        with opened(f"{top}/f", "r+b") as file:
            file.write(data)

    def rename():
        of.rename(f"{top}/d/0", f"{top}/d/new")
        of.rename(f"{top}/d/new", f"{top}/d/0")

    def scan():
        with of.scandir(f"{top}/d") as entries:
            return sum(entry.is_file() for entry in entries)

    return {
        "stat": lambda: of.stat(f"{top}/f"),
        "stat, missing": missing,
        "mkdir to rmdir": names,
        "2 renames": rename,
        "listdir of 20": lambda: of.listdir(f"{top}/d"),
        "scandir, is_file": scan,
        "open, read 64": lambda: read(64),
        "open, read 4,000": lambda: read(4_000),
        "open, write 64": lambda: write(SMALL),
        "open, write 4,000": lambda: write(PIECE),
    }


def words_of_descriptors(top):
    """The calls of a tree, by the words of `os` that are next to them."""

    def opened(flags, call, *given):
        file = os.open(f"{top}/f", flags)
        call(file, *given)
        os.close(file)

    of = words_of_os(os, open, top)
    return {name: of[name] for name in ("stat", "stat, missing", "mkdir to rmdir", "2 renames", "listdir of 20")} | {
        "read 64": lambda: opened(os.O_RDONLY, os.pread, 64, 8_000),
        "read 4,000": lambda: opened(os.O_RDONLY, os.pread, 4_000, 8_000),
        "write 64": lambda: opened(os.O_WRONLY, os.pwrite, SMALL, 8_000),
        "write 4,000": lambda: opened(os.O_WRONLY, os.pwrite, PIECE, 8_000),
    }


def words_of_tree(tree):
    tree.mkdir("/d")
    tree.write_bytes("/f", bytes(64_000))
    for number in range(LISTED):
        tree.mknod(f"/d/{number}")

    def missing():
        with contextlib.suppress(FileNotFoundError):
            tree.stat("/d/none")

    def names():
        tree.mkdir("/a")
        tree.stat("/a")
        tree.rename("/a", "/b")
        tree.rmdir("/b")

    def rename():
        tree.rename("/d/0", "/d/new")
        tree.rename("/d/new", "/d/0")

    return {
        "stat": lambda: tree.stat("/f"),
        "stat, missing": missing,
        "mkdir to rmdir": names,
        "2 renames": rename,
        "listdir of 20": lambda: tree.listdir("/d"),
        "read 64": lambda: tree.read("/f", 8_000, 64),
        "read 4,000": lambda: tree.read("/f", 8_000, 4_000),
        "write 64": lambda: tree.write("/f", 8_000, SMALL),
        "write 4,000": lambda: tree.write("/f", 8_000, PIECE),
    }


def words_of_files(files):
    """The words of PyFilesystem2 or fsspec, with a file that is open."""

    def names():
        files.make("/a")
        files.ask("/a")
        files.move("/a", "/b")
        files.remove("/b")

    def at(call, *given):
        files.file.seek(8_000)
        call(*given)

    return {
        "make, ask, move, remove": names,
        "read 4,000": lambda: at(files.file.read, 4_000),
        "write 4,000": lambda: at(files.file.write, PIECE),
    }


@contextlib.contextmanager
def on_a_folder(words, patched=False):
    with tempfile.TemporaryDirectory(dir="/dev/shm") as folder, contextlib.ExitStack() as stack:
        if patched:
            stack.enter_context(atomfs.patch(stack.enter_context(atomfs.Tree()), "/sandbox"))
        yield words(os, builtins.open, folder) if words is words_of_os else words(folder)


@contextlib.contextmanager
def in_a_patch():
    with atomfs.Tree(journal=atomfs.LAST(BEFORE)) as tree, atomfs.patch(tree, "/sandbox"):
        yield words_of_os(os, builtins.open, "/sandbox")


@contextlib.contextmanager
def in_pyfakefs():
    from pyfakefs import fake_filesystem

    files = fake_filesystem.FakeFilesystem()
    files.create_dir("/top")
    yield words_of_os(fake_filesystem.FakeOsModule(files), fake_filesystem.FakeFileOpen(files), "/top")


@contextlib.contextmanager
def in_a_tree():
    with atomfs.Tree(journal=atomfs.LAST(BEFORE)) as tree:
        yield words_of_tree(tree)


@contextlib.contextmanager
def in_files(opened):
    with opened() as (files,):
        yield words_of_files(files)


TABLES = {
    "Tree beside os": (
        ("tmpfs", lambda: on_a_folder(words_of_descriptors), "os"),
        ("Tree", in_a_tree, "os"),
    ),
    "a patch beside the disk": (
        ("tmpfs", lambda: on_a_folder(words_of_os), "os"),
        ("a patch", in_a_patch, "os"),
        ("disk in a patch", lambda: on_a_folder(words_of_os, True), "os"),
        ("pyfakefs", in_pyfakefs, "pyfakefs"),
    ),
    "PyFilesystem2": (
        ("MemoryFS", lambda: in_files(of_memoryfs), "fs"),
        ("AtomFS", lambda: in_files(of_atomfs), "fs"),
    ),
    "fsspec": (
        ("memory", lambda: in_files(of_fsspec), "fsspec"),
        ("atomfs", lambda: in_files(of_atomfilesystem), "fsspec"),
    ),
}


def least_of_turns(sides, calls):
    """Of each side and word the least processor time of a turn, a call, in microseconds. What stands for a side alone stands in its turns alone."""
    least = {}
    for _ in range(TURNS):
        for side, opened, _ in sides:
            with opened() as words:
                for word, call in words.items():
                    for _ in range(BEFORE):
                        call()
                    began = time.process_time()
                    for _ in range(calls):
                        call()
                    spent = (time.process_time() - began) * 1e6 / calls
                    least[side, word] = min(spent, least.get((side, word), spent))
    return least


def measure_beside(calls, titles):
    print(f"by {atomfs.binding()}; microseconds, least of {TURNS} turns of {calls}, and over the first")
    for title, sides in TABLES.items():
        if titles and title not in titles:
            continue
        there = [side for side in sides if importlib.util.find_spec(side[2]) is not None]
        for side in sides:
            if side not in there:
                print(f"{title}: there is no {side[2]}")
        if len(there) < 2:
            continue
        least = least_of_turns(there, calls)
        print(f"{title:24}", *(f"{side[0]:>20}" for side in there))
        for word in dict.fromkeys(word for _, word in least):
            first = least[there[0][0], word]
            row = (f"{least[side[0], word]:11.2f} ({least[side[0], word] / first:5.2f})" for side in there)
            print(f"{word:24}", *(f"{one:>20}" for one in row), flush=True)


def peak():
    return resource.getrusage(resource.RUSAGE_SELF).ru_maxrss


FORGOTTEN, HANDED_OUT, KEPT = f"forgotten behind each {EVERY}", f"a checkpoint behind each {EVERY}", "all kept"


def run_long(calls, journal):
    """The calls, of which the tree forgets all but the last by itself, or which checkpoints hand out, or which are kept."""
    with typed_tree() as (tree,):
        if journal == FORGOTTEN:
            tree.keep(atomfs.LAST(EVERY))
        early, began = 0, time.process_time()
        for i in range(calls):
            if i % 10 < 8:
                names_typed(tree, i // 10 * 8 + i % 10)
            elif i % 10 == 8:
                write_typed(tree, i // 10)
            else:
                read_typed(tree, i // 10)
            if journal == HANDED_OUT and (i + 1) % EVERY == 0:
                tree.checkpoint()
            if i + 1 == EARLY:
                early = peak()
        spent = time.process_time() - began
    print(
        f"Python  {calls} calls, {journal}: {spent * 1e9 / calls:.0f} ns a call; {early} KiB after {EARLY}, at most {peak()} KiB"
    )


if sys.argv[2] == "--long":
    given = int(sys.argv[3])
    for journal, calls in ((FORGOTTEN, given), (HANDED_OUT, given), (KEPT, min(given, MOST_KEPT))):
        run_long(calls, journal)
elif sys.argv[2] == "--beside":
    measure_beside(int(sys.argv[3]), sys.argv[4:])
elif sys.argv[2] == "--checkpoints":
    run_long(int(sys.argv[3]), HANDED_OUT)
else:
    measure_all(int(sys.argv[2]))
    measure_others(int(sys.argv[2]))
