"""The sequential tree as docs/SPECIFICATION.md has it, written anew in Python, and the replay of a run text against it.

Calls and replies are the words of docs/FORMATS.md. `python3 tests/model.py FILE ..` replays run texts, as `atomfs run` writes them.
"""
import argparse
import pathlib
import sys
import typing
from urllib.parse import unquote_to_bytes

# The most names that a call answers.
LISTED = 256
# By the version of a script the most entries of a directory, bytes of a file, and bytes that a read answers; and that version, by the first line of a journal.
ENTRIES = {1: 256, 2: 256, 3: 1_048_576}
BYTES = {1: 65_536, 2: 1_048_576, 3: 2_147_483_648}
READ = {1: 65_536, 2: 1_048_576, 3: 1_048_576}
VERSIONS = {"atomfs-journal 1": 1, "atomfs-journal 2": 1, "atomfs-journal 3": 2, "atomfs-journal 4": 3}


# The names of a path.
Path = tuple[bytes, ...]


class Failed(Exception):
    """A call's error, by its name."""


def path_of(word: str) -> Path:
    """The names of a path."""
    return tuple(name for name in unquote_to_bytes(word).split(b"/") if name)


def escaped(name: bytes) -> str:
    return "".join(chr(byte) if 0x20 < byte < 0x7F and byte != 0x25 else f"%{byte:02X}" for byte in name)


class File:
    """The bytes of a file: how many there are, and by its offset each that is not 0. No call changes one: it makes another."""

    def __init__(self, content: bytes = b"") -> None:
        self.size, self.kept = len(content), {at: byte for at, byte in enumerate(content) if byte}

    def __len__(self) -> int:
        return self.size

    def __eq__(self, other: object) -> bool:
        return isinstance(other, File) and (self.size, self.kept) == (other.size, other.kept)

    def part(self, offset: int, count: int) -> bytes:
        return bytes(self.kept.get(at, 0) for at in range(offset, min(offset + count, self.size)))

    def resized(self, size: int) -> "File":
        made = File()
        made.size, made.kept = size, {at: byte for at, byte in self.kept.items() if at < size}
        return made

    def written(self, offset: int, more: bytes) -> "File":
        made = self.resized(max(self.size, offset + len(more)))
        made.kept = {at: byte for at, byte in made.kept.items() if not offset <= at < offset + len(more)}
        made.kept |= {at: byte for at, byte in enumerate(more, offset) if byte}
        return made

    def hex(self) -> str:
        return self.part(0, self.size).hex()


# A file, or the names of a directory.
Node = File | set[bytes]


class Tree:
    """Nodes by their paths: a directory's are its entries' names, a file's its bytes."""

    def __init__(self, version: int = 1) -> None:
        self.nodes: dict[Path, Node] = {(): set()}
        self.version = version

    @classmethod
    def of(cls, nodes: dict[Path, bytes | None], version: int = 1) -> "Tree":
        """The tree of these nodes, by their paths in order, where None stands for a directory."""
        tree = cls(version)
        for path, content in nodes.items():
            if path:
                tree.nodes[path] = set() if content is None else File(content)
                tree.directory(path[:-1]).add(path[-1])
        return tree

    def resolve(self, path: Path) -> Node:
        """The node at a path, or the error of its longest prefix that is there."""
        for depth in range(len(path)):
            node = self.nodes[path[:depth]]
            if isinstance(node, File):
                raise Failed("ENOTDIR")
            if path[depth] not in node:
                raise Failed("ENOENT")
        return self.nodes[path]

    def directory(self, path: Path) -> set[bytes]:
        node = self.resolve(path)
        if isinstance(node, File):
            raise Failed("ENOTDIR")
        return node

    def file(self, path: Path) -> File:
        node = self.resolve(path)
        if not isinstance(node, File):
            raise Failed("EISDIR")
        return node

    def add(self, path: Path, node: Node) -> str:
        if not path:
            raise Failed("EEXIST")
        entries = self.directory(path[:-1])
        if path[-1] in entries:
            raise Failed("EEXIST")
        if len(entries) == ENTRIES[self.version]:
            raise Failed("ENOSPC")
        entries.add(path[-1])
        self.nodes[path] = node
        return "ok"

    def remove(self, path: Path) -> None:
        self.directory(path[:-1]).discard(path[-1])
        del self.nodes[path]

    def mkdir(self, path: Path) -> str:
        return self.add(path, set())

    def mknod(self, path: Path) -> str:
        return self.add(path, File())

    def entry(self, path: Path) -> Node:
        """The node of an entry that is looked for in its directory."""
        if path[-1] not in self.directory(path[:-1]):
            raise Failed("ENOENT")
        return self.nodes[path]

    def unlink(self, path: Path) -> str:
        if not path or not isinstance(self.entry(path), File):
            raise Failed("EPERM")
        self.remove(path)
        return "ok"

    def rmdir(self, path: Path) -> str:
        if not path:
            raise Failed("EBUSY")
        node = self.entry(path)
        if isinstance(node, File):
            raise Failed("ENOTDIR")
        if node:
            raise Failed("ENOTEMPTY")
        self.remove(path)
        return "ok"

    def rename(self, old: Path, new: Path) -> str:
        if not old or not new:
            raise Failed("EBUSY")
        if len(old) < len(new) and new[: len(old)] == old:
            raise Failed("EINVAL")
        source, dest = self.directory(old[:-1]), self.directory(new[:-1])
        if old[-1] not in source:
            raise Failed("ENOENT")
        if old == new:
            return "ok"
        moved, victim = self.nodes[old], self.nodes.get(new)
        if victim is not None:
            if isinstance(victim, File) and not isinstance(moved, File):
                raise Failed("ENOTDIR")
            if isinstance(moved, File) and not isinstance(victim, File):
                raise Failed("EISDIR")
            if not isinstance(victim, File) and victim:
                raise Failed("ENOTEMPTY")
            self.remove(new)
        elif old[:-1] != new[:-1] and len(dest) == ENTRIES[self.version]:
            raise Failed("ENOSPC")
        source.discard(old[-1])
        dest.add(new[-1])
        for path in [path for path in self.nodes if path[: len(old)] == old]:
            self.nodes[new + path[len(old) :]] = self.nodes.pop(path)
        return "ok"

    def exchange(self, one: Path, other: Path) -> str:
        if not one or not other:
            raise Failed("EBUSY")
        if one != other and (other[: len(one)] == one or one[: len(other)] == other):
            raise Failed("EINVAL")
        first, second = self.directory(one[:-1]), self.directory(other[:-1])
        if one[-1] not in first or other[-1] not in second:
            raise Failed("ENOENT")

        def turned(path: Path) -> Path:
            if path[: len(one)] == one:
                return other + path[len(one) :]
            return one + path[len(other) :] if path[: len(other)] == other else path

        self.nodes = {turned(path): node for path, node in self.nodes.items()}
        return "ok"

    def stat(self, path: Path) -> str:
        node = self.resolve(path)
        return f"stat {'file' if isinstance(node, File) else 'dir'} {len(node)}"

    def readdir(self, path: Path) -> str:
        entries = self.directory(path)
        if len(entries) > LISTED:
            raise Failed("EOVERFLOW")
        return " ".join(["names", *(escaped(name) for name in sorted(entries))])

    def list(self, path: Path, after: Path, count: int) -> str:
        """The names above the last one of `after`, and all where that has none."""
        above = sorted(name for name in self.directory(path) if not after or name > after[-1])
        return " ".join(["names", *(escaped(name) for name in above[: min(count, LISTED)])])

    def read(self, path: Path, offset: int, count: int) -> str:
        return f"bytes {self.file(path).part(offset, min(count, READ[self.version])).hex() or '-'}"

    def write(self, path: Path, offset: int, more: bytes) -> str:
        old = self.file(path)
        if more and offset + len(more) > BYTES[self.version]:
            raise Failed("EFBIG")
        if more:
            self.nodes[path] = old.written(offset, more)
        return f"wrote {len(more)}"

    def truncate(self, path: Path, size: int) -> str:
        old = self.file(path)
        if size > BYTES[self.version]:
            raise Failed("EFBIG")
        self.nodes[path] = old.resized(size)
        return "ok"

    def apply(self, words: typing.Sequence[str]) -> str:
        """The reply to a call, and what it leaves."""
        kind, first, more = words[0], path_of(words[1]), words[2:]
        try:
            match kind:
                case "rename":
                    return self.rename(first, path_of(more[0]))
                case "exchange":
                    return self.exchange(first, path_of(more[0]))
                case "list" if self.version == 3:
                    return self.list(first, path_of(more[0]), int(more[1]))
                case "read":
                    return self.read(first, int(more[0]), int(more[1]))
                case "write":
                    return self.write(first, int(more[0]), bytes.fromhex(more[1].replace("-", "")))
                case "truncate":
                    return self.truncate(first, int(more[0]))
                case "mkdir" | "mknod" | "unlink" | "rmdir" | "stat" | "readdir":
                    on_one: typing.Callable[[Path], str] = getattr(self, kind)
                    return on_one(first)
        except Failed as failed:
            return f"failed {failed}"
        raise ValueError(kind)

    def text(self) -> typing.List[str]:
        """The lines of a tree text."""
        lines = ["tree"]
        for path in sorted(self.nodes):
            node, shown = self.nodes[path], "/" + "/".join(escaped(name) for name in path)
            lines.append(f"file {shown} {node.hex() or '-'}" if isinstance(node, File) else f"dir {shown}")
        return lines


def started(lines: list[str]) -> tuple[Tree, int]:
    """The tree at which a journal starts, and how many lines tell it."""
    version = VERSIONS[lines[0]]
    nodes: dict[Path, bytes | None] = {(): None}
    if lines[0] == "atomfs-journal 1":
        return Tree(version), 1
    behind = lines.index("entries")
    for line in lines[2:behind]:
        kind, path, *content = line.split(" ")
        nodes[path_of(path)] = bytes.fromhex(content[0].replace("-", "")) if kind == "file" else None
    return Tree.of(nodes, version), behind + 1


def replayed(text: str) -> str | None:
    """What is wrong with a run text by the model, if anything is."""
    lines = text.splitlines()
    if not lines or lines[0] not in VERSIONS or "tree" not in lines:
        return "this is no run text"
    at = lines.index("tree")
    tree, behind = started(lines)
    calls: dict[str, list[str]] = {}
    seats: dict[str, str] = {}
    due: dict[str, str] = {}
    returned, busy = set(), set()
    for place, line in enumerate(lines[behind:at], 1):
        match line.split(" "):
            case "begin", number, seat, *call if number not in calls and seat not in busy:
                calls[number], seats[number] = call, seat
                busy.add(seat)
            case "commit", number if number in calls and number not in due:
                due[number] = tree.apply(calls[number])
            case "return", number, *reply if number not in returned and " ".join(reply) == due.get(number):
                returned.add(number)
                busy.remove(seats[number])
            case _, number, *_:
                return f"entry {place}, {line}, where the call is {calls.get(number)} and {due.get(number)} is due"
            case _:
                return f"entry {place}, {line}, is none"
    if lines[at:-1] != tree.text():
        return "\n".join(["the tree is another than", *tree.text()])
    if lines[-1] != (counts := f"begun {len(calls)} committed {len(due)} returned {len(returned)}"):
        return f"the counts are others than {counts}"
    return None


def begun(text: str) -> dict[int, list[str]]:
    """The calls that a run text begins on each seat, in order."""
    calls: dict[int, list[str]] = {}
    for line in text.splitlines():
        match line.split(" ", 3):
            case "begin", _, seat, call:
                calls.setdefault(int(seat), []).append(call)
    return calls


def fault(text: str, calls: dict[int, list[str]]) -> str | None:
    """What is wrong with the run text of all calls of some seats, by their numbers, if anything is."""
    if wrong := replayed(text):
        return wrong
    if begun(text) != {seat: given for seat, given in calls.items() if given}:
        return "other calls have begun than were given"
    count = sum(map(len, calls.values()))
    if not text.endswith(f"\nbegun {count} committed {count} returned {count}\n"):
        return "not all calls have returned"
    return None


def read(name: str) -> tuple[str, str]:
    """A file as `argparse` takes it: its name, and its text."""
    try:
        return name, pathlib.Path(name).read_text(errors="replace")
    except OSError as error:
        raise argparse.ArgumentTypeError(f"{name} cannot be read: {error.strerror}") from error


def main() -> int:
    """Says of each run text whether its replies and its tree are the model's; the status is 1 where one's are not."""
    words = argparse.ArgumentParser(
        prog="python3 tests/model.py",
        description="Replays run texts on a tree in Python, and says of each whether its replies and its tree are those of the calls committed before.",
        epilog="The exit status is 0 where all of them are, else 1; 2 where a file cannot be read.",
    )
    words.add_argument("FILE", nargs="+", type=read, help="a run text, as `atomfs run` and examples/run write it")
    wrong = {name: replayed(text) for name, text in words.parse_args().FILE}
    for name, what in wrong.items():
        print(f"{name}: {what or 'every reply and the tree are as the calls committed before say'}")
    return int(any(wrong.values()))


if __name__ == "__main__":
    sys.exit(main())
