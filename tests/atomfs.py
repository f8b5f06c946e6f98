"""The library for C by ctypes, as tests ask it: a tree and its journal, with typed calls, and with calls and replies as lines of bytes.

The functions are those of embed/atomfs.h, lines and texts those of docs/FORMATS.md. Paths are bytes. A function of the library
holds the interpreter's lock (`PyDLL`), so threads may share a `Tree`. Programs use the package of bindings/python.
"""
import ctypes
import importlib.util
import os
import pathlib
import typing

_PATH = pathlib.Path(__file__).resolve().parent.parent / "bindings" / "python" / "src" / "atomfs" / "_header.py"
_SPEC = importlib.util.spec_from_file_location("atomfs_header", _PATH)
assert _SPEC and _SPEC.loader
# What the header declares, as embed/header.py has written it for Python.
header = importlib.util.module_from_spec(_SPEC)
_SPEC.loader.exec_module(header)
Status, Did, Schedule, Found, Tell = header.Status, header.Did, header.By, header.Found, header.Tell
FAILED, VERSION, Handle, Stat = header.FAILED, header.VERSION, header.Handle, header.CStat

# By this number a whole text is drawn.
WHOLE = 2**64 - 1
# No tree has a seat of this number.
NO_SEAT = 2**64 - 1


# What stands in the place of a type of the header, by ctypes.
TYPES: dict[str, typing.Any] = {
    **{"Byte": ctypes.c_uint8, "Word": ctypes.c_uint32, "Size": ctypes.c_size_t, "Number": ctypes.c_uint64},
    **{"Bytes": ctypes.c_char_p, "Room": ctypes.c_char_p, "HandleAt": ctypes.POINTER(Handle)},
    **{"ByteAt": ctypes.POINTER(ctypes.c_uint8), "SizeAt": ctypes.POINTER(ctypes.c_size_t)},
    **{"NumberAt": ctypes.POINTER(ctypes.c_uint64), "StatAt": ctypes.POINTER(Stat)},
    "RequestAt": ctypes.POINTER(header.Request),
}


# What asks a function for a text: with room for it, how much that is, and where its length goes.
Ask = typing.Callable[..., int]


class Error(Exception):
    """A status that is not OK. `about` is the number of the call that WAITS, or the line of a text's fault, and else 0."""

    def __init__(self, status: int, about: int = 0) -> None:
        super().__init__(Status(status).name)
        self.status, self.about = Status(status), about


class Library:
    """The shared object at a path."""

    def __init__(self, path: str) -> None:
        self.lib = ctypes.PyDLL(path)
        for name, declared in vars(header.Functions).items():
            # An archive of the proved functions alone has no others.
            if not name.startswith("_") and hasattr(self.lib, f"atomfs_{name}"):
                function = getattr(self.lib, f"atomfs_{name}")
                kinds = [TYPES[kind] for one, kind in declared.__annotations__.items() if one != "return"]
                function.argtypes, function.restype = kinds, ctypes.c_uint8
                setattr(self, f"atomfs_{name}", function)

    if typing.TYPE_CHECKING:

        def __getattr__(self, name: str) -> typing.Callable[..., int]:
            """The functions that are set above."""

    def text(self, ask: Ask, room: int = 4096) -> bytes:
        """The text that a function tells, with as much room as it turns out to want."""
        while True:
            out, count = ctypes.create_string_buffer(room), ctypes.c_size_t()
            status = ask(out, len(out), count)
            if status == Status.OK:
                return out.raw[: count.value]
            if status != Status.TOO_SMALL:
                raise Error(status, count.value)
            room = count.value

    def run(self, script: bytes) -> bytes:
        """The run text of a script, by its own schedule."""
        return self.text(lambda *told: self.atomfs_run(script, len(script), *told))

    def check(self, journal: bytes) -> bytes:
        """The line of the verdict on a journal."""
        return self.text(lambda *told: self.atomfs_check(journal, len(journal), *told))

    def trace(self, script: bytes, schedule: int = Schedule.GIVEN, seed: int = 0, every: int = 0) -> bytes:
        """The trace of a script's run by a schedule."""
        return self.text(lambda *told: self.atomfs_trace(script, len(script), schedule, seed, every, *told))

    def draw(self, text: bytes, schedule: int = Schedule.GIVEN, seed: int = 0, around: int = WHOLE) -> bytes:
        """The picture of a script's run by a schedule, or of a journal."""
        return self.text(lambda *told: self.atomfs_draw(text, len(text), schedule, seed, around, *told))

    def page(self, text: bytes, schedule: int = Schedule.GIVEN, seed: int = 0) -> bytes:
        """The page that plays a script's run by a schedule, or a journal."""
        return self.text(lambda *told: self.atomfs_page(text, len(text), schedule, seed, *told))

    def schedule(self, script: bytes, schedule: int = Schedule.ROUND_ROBIN, seed: int = 0) -> bytes:
        """A script with the events of its run by a schedule as its words."""
        return self.text(lambda *told: self.atomfs_schedule(script, len(script), schedule, seed, *told))

    def seeds(self, script: bytes, seed: int = 0, runs: int = 1) -> bytes:
        """The lines of so many drawn runs of a script."""
        return self.text(lambda *told: self.atomfs_seeds(script, len(script), seed, runs, *told))

    def linearize(self, history: bytes, tell: int = Tell.LINE, limit: int = 1_000_000) -> tuple[typing.Any, bytes]:
        """What came of a history, and the text of it."""
        found = ctypes.c_uint8()
        text = self.text(lambda *told: self.atomfs_linearize(history, len(history), limit, tell, *told, found))
        return Found(found.value), text

    def explain(self, word: bytes) -> bytes:
        """What the word of a fault means."""
        return self.text(lambda *told: self.atomfs_explain(word, len(word), *told))

    def check_path(self, path: bytes, version: int = 1) -> typing.Any:
        """Whether bytes are a path by the limits of a version, or why they are none."""
        return Status(self.atomfs_check_path(path, len(path), version))


class Tree:
    """A tree of at most so many nodes, its root included, by the limits of a version. It is to be closed, as by `with`."""

    def __init__(
        self,
        library: Library,
        limit: int,
        version: int = 1,
        text: bytes | None = None,
        other: "Tree | None" = None,
    ) -> None:
        """An empty one; one that opens at the tree of a text; or one that opens where another stands, by the limits of that."""
        self.library, self.handle = library, Handle()
        line, number = ctypes.c_size_t(), ctypes.c_uint64()
        if text is not None:
            self.done(library.atomfs_open_from(self.handle, limit, version, text, len(text), line), line.value)
        elif other is not None:
            self.done(library.atomfs_open_at(self.handle, limit, other.handle, number), number.value)
        else:
            self.done(library.atomfs_open_with(self.handle, limit, version))

    def __enter__(self) -> "Tree":
        return self

    def __exit__(self, *error: object) -> None:
        self.close()

    def close(self) -> None:
        self.done(self.library.atomfs_close(self.handle))

    @staticmethod
    def done(status: int, about: int = 0) -> None:
        """Raises what a status tells: the error of a call, or why there was no call."""
        if status >= FAILED:
            raise OSError(status - FAILED, os.strerror(status - FAILED))
        if status != Status.OK:
            raise Error(status, about)

    def seat(self) -> int:
        """The number of a new seat."""
        seat = ctypes.c_uint64()
        self.done(self.library.atomfs_seat(self.handle, seat))
        return seat.value

    def made(self, name: str, seat: int, *given: typing.Any) -> int:
        """Makes a typed call, and answers its number."""
        number = ctypes.c_uint64()
        self.done(getattr(self.library, "atomfs_" + name)(self.handle, seat, *given, number), number.value)
        return number.value

    def mkdir(self, seat: int, path: bytes) -> None:
        """Makes an empty directory."""
        self.made("mkdir", seat, path, len(path))

    def mknod(self, seat: int, path: bytes) -> None:
        """Makes an empty file."""
        self.made("mknod", seat, path, len(path))

    def unlink(self, seat: int, path: bytes) -> None:
        """Removes the entry of a file."""
        self.made("unlink", seat, path, len(path))

    def rmdir(self, seat: int, path: bytes) -> None:
        """Removes the entry of an empty directory."""
        self.made("rmdir", seat, path, len(path))

    def rename(self, seat: int, path: bytes, other: bytes) -> None:
        """Moves what stands at a path to another."""
        self.made("rename", seat, path, len(path), other, len(other))

    def exchange(self, seat: int, path: bytes, other: bytes) -> None:
        """Lets what stands at two paths change places."""
        self.made("exchange", seat, path, len(path), other, len(other))

    def stat(self, seat: int, path: bytes) -> typing.Any:
        """What stands at a path."""
        stat = Stat()
        self.made("stat", seat, path, len(path), stat)
        return stat

    def readdir(self, seat: int, path: bytes, room: int = 1024) -> typing.List[bytes]:
        """The names of a directory. The call is made once: where they have no room, the others are asked for behind the last one."""
        return self.names(self.library.atomfs_readdir, seat, path, len(path), room=room)

    def list(self, seat: int, path: bytes, after: bytes, most: int, room: int = 1024) -> typing.List[bytes]:
        """Names of a directory above the last one of a path, at most so many."""
        return self.names(self.library.atomfs_list, seat, path, len(path), after, len(after), most, room=room)

    def names(self, function: typing.Callable[..., int], *given: typing.Any, room: int) -> typing.List[bytes]:
        """The names that a call replies."""
        out, count, number = ctypes.create_string_buffer(room), ctypes.c_size_t(), ctypes.c_uint64()
        status = function(self.handle, *given, out, room, count, number)
        if status == Status.OK:
            return out.raw[: count.value].split(b"\0")[:-1]
        if status not in (Status.TOO_SMALL, Status.UNTOLD):
            self.done(status, number.value)
        names = [b""]
        while True:
            self.done(self.library.atomfs_reply_names(self.handle, number, names[-1], len(names[-1]), out, room, count))
            if count.value == 0:
                return names[1:]
            names += out.raw[: count.value].split(b"\0")[:-1]

    def read(self, seat: int, path: bytes, offset: int, size: int) -> bytes:
        """At most so many bytes of a file, from an offset on."""
        out, count = ctypes.create_string_buffer(size), ctypes.c_size_t()
        self.made("read", seat, path, len(path), offset, out, size, count)
        return out.raw[: count.value]

    def write(self, seat: int, path: bytes, offset: int, data: bytes) -> int:
        """Writes bytes into a file at an offset, and answers how many."""
        wrote = ctypes.c_uint64()
        self.made("write", seat, path, len(path), offset, data, len(data), wrote)
        return wrote.value

    def truncate(self, seat: int, path: bytes, size: int) -> None:
        """Cuts a file to a size, or adds zeros up to it."""
        self.made("truncate", seat, path, len(path), size)

    def begin(self, seat: int, line: bytes) -> int:
        """The number of the call of a line that begins."""
        number = ctypes.c_uint64()
        self.done(self.library.atomfs_begin(self.handle, seat, line, len(line), number))
        return number.value

    def step(self, seat: int) -> tuple[typing.Any, int]:
        """What the step did, and what that speaks of."""
        did, about = ctypes.c_uint8(), ctypes.c_uint64()
        self.done(self.library.atomfs_step(self.handle, seat, did, about))
        return Did(did.value), about.value

    def step_any(self) -> tuple[int | None, typing.Any, int]:
        """The seat whose call went on by a step, what it did, and what that speaks of; none of a seat where no call is under way."""
        seat, did, about = ctypes.c_uint64(NO_SEAT), ctypes.c_uint8(), ctypes.c_uint64()
        self.done(self.library.atomfs_step_any(self.handle, seat, did, about))
        return None if seat.value == NO_SEAT else seat.value, Did(did.value), about.value

    def run(self, seat: int, line: bytes, room: int = 256) -> tuple[int, bytes]:
        """The number of a call that begins and returns, and its reply. A call is made once: a long reply is asked for again."""
        out, count, number = ctypes.create_string_buffer(room), ctypes.c_size_t(), ctypes.c_uint64()
        status = self.library.atomfs_call(self.handle, seat, line, len(line), out, len(out), count, number)
        if status in (Status.TOO_SMALL, Status.UNTOLD):
            return number.value, self.reply(number.value)
        self.done(status, number.value)
        return number.value, out.raw[: count.value]

    def call(self, seat: int, line: bytes) -> bytes:
        """The reply of a call that begins and returns."""
        return self.run(seat, line)[1]

    def reply(self, number: int) -> bytes:
        """The reply of a call that has returned."""
        return self.library.text(lambda *told: self.library.atomfs_reply(self.handle, number, *told))

    def entries(self, first: int = 0) -> tuple[bytes, int]:
        """The journal's lines from an entry on, and how many entries there are."""
        count = ctypes.c_size_t()
        lines = self.library.text(lambda *told: self.library.atomfs_journal(self.handle, first, *told, count))
        return lines, count.value

    def opening(self) -> bytes:
        """What stands before the first entry of the journal: after a checkpoint the tree at which it begins too."""
        return self.library.text(lambda *told: self.library.atomfs_opening(self.handle, *told))

    def journal(self) -> bytes:
        """The journal, which `Library.check` and `atomfs check` read."""
        return self.opening() + self.entries()[0]

    def checkpoint(self) -> bytes:
        """The journal, which is handed out and begins again at the tree as it stands, with no entries and call numbers at 1."""
        number = ctypes.c_uint64()
        try:
            return self.library.text(lambda *told: self.library.atomfs_checkpoint(self.handle, *told, number))
        except Error as error:
            raise Error(error.status, number.value) from None

    def forget(self) -> int:
        """How many calls are forgotten: the journal begins again at the tree as it stands."""
        number = ctypes.c_uint64()
        self.done(self.library.atomfs_forget(self.handle, number), number.value)
        return number.value

    def keep(self, most: int) -> None:
        """From now on more calls than so many are forgotten before one begins."""
        self.done(self.library.atomfs_keep(self.handle, most))

    def verdict(self) -> tuple[int, int]:
        """The place of the first entry that does not fit and what is wrong with it, or 0 and 0."""
        place, kind = ctypes.c_uint64(), ctypes.c_uint8()
        self.done(self.library.atomfs_verdict(self.handle, place, kind))
        return place.value, kind.value

    def tree(self) -> bytes:
        """The text of the tree as it stands now."""
        return self.library.text(lambda *told: self.library.atomfs_tree(self.handle, *told))
