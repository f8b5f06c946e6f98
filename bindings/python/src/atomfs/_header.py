"""What atomfs.h declares: its version, its numbers, its structures, and what each function takes. embed/header.py writes this."""
from __future__ import annotations

import ctypes
import enum

VERSION = "0.3.0"
FAILED = 128
V1 = 1
V2 = 2
V3 = 3

# A number of so many bits, bytes that are given, and the address of what is written to, or of a structure.
Byte = int
Word = int
Size = int
Number = int
Bytes = bytes
Room = int
ByteAt = int
SizeAt = int
NumberAt = int
HandleAt = int
StatAt = int
RequestAt = int


class Worded(enum.IntEnum):
    """Numbers for which the program has words."""

    @property
    def kind(self) -> str:
        """The word that the program `atomfs` has for it: `BadLine` for `BAD_LINE`."""
        return "".join(part.title() for part in self.name.split("_"))


class Status(Worded):
    """What a function of the library answers, where no call failed."""

    OK = 0
    TOO_SMALL = 1
    UNTOLD = 2
    WAITS = 3
    CLOSED = 4
    ALREADY_OPEN = 5
    BAD_LIMIT = 6
    NO_MEMORY = 7
    NO_SEAT = 8
    SEAT_BUSY = 9
    FULL = 10
    NO_REPLY = 11
    UNDER_WAY = 12
    BAD_VERSION = 13
    NULL = 14
    BAD_LENGTH = 15
    BAD_HEADER = 16
    BAD_LINE = 17
    BAD_THREAD = 18
    THREAD_TWICE = 19
    BAD_PATH = 20
    BAD_NUMBER = 21
    BAD_HEX = 22
    NO_SCHEDULE = 23
    BAD_WORD = 24
    TOO_LARGE = 25
    BAD_REPLY = 26
    BAD_START = 27
    PATH_NOT_ABSOLUTE = 28
    PATH_NUL = 29
    PATH_NAME_TOO_LONG = 30
    PATH_TOO_MANY_NAMES = 31
    PATH_DOT = 32
    PATH_TRAILING_SLASH = 33
    NO_CALL = 34
    BAD_CHOICE = 35


class Did(enum.IntEnum):
    """What a step did."""

    IDLE = 0
    TAKE = 1
    WAIT = 2
    LET_GO = 3
    HELP = 4
    COMMIT = 5
    CARRY_OUT = 6
    RETURN = 7
    BEGIN = 8


class Fault(Worded):
    """What is wrong with an entry of a journal."""

    NONE = 0
    BEGIN_TWICE = 1
    SEAT_BUSY = 2
    COMMIT_UNBEGUN = 3
    COMMIT_TWICE = 4
    RETURN_UNCOMMITTED = 5
    RETURN_TWICE = 6
    WRONG_REPLY = 7


class Call(enum.IntEnum):
    """Which call a request asks for."""

    MKDIR = 0
    MKNOD = 1
    UNLINK = 2
    RMDIR = 3
    RENAME = 4
    EXCHANGE = 5
    STAT = 6
    READDIR = 7
    READ = 8
    WRITE = 9
    TRUNCATE = 10
    LIST = 11


class By(enum.IntEnum):
    """By which schedule a script runs."""

    GIVEN = 0
    ROUND_ROBIN = 1
    SEEDED = 2


class Found(enum.IntEnum):
    """What came of a history."""

    LAWFUL = 0
    NO_ORDER = 1
    NO_HISTORY = 2
    UNKNOWN = 3


class Tell(enum.IntEnum):
    """What is told of a history that is not lawful."""

    LINE = 0
    FRONT = 1
    WORDS = 2


class Handle(ctypes.Structure):
    _fields_ = [
        ("is_open", ctypes.c_uint8),
        ("most", ctypes.c_uint32),
        ("at", ctypes.c_void_p),
    ]


class CStat(ctypes.Structure):
    _fields_ = [
        ("is_dir", ctypes.c_uint8),
        ("size", ctypes.c_uint64),
    ]


class Request(ctypes.Structure):
    _fields_ = [
        ("call", ctypes.c_uint8),
        ("path", ctypes.c_char_p),
        ("length", ctypes.c_size_t),
        ("other", ctypes.c_char_p),
        ("other_length", ctypes.c_size_t),
        ("offset", ctypes.c_uint64),
        ("size", ctypes.c_uint64),
        ("bytes", ctypes.c_char_p),
        ("bytes_length", ctypes.c_size_t),
    ]


class Functions:
    """The functions on a handle, on texts and on paths, each under its name without `atomfs_`: who loads the library has them."""

    def open(self, fs: HandleAt, limit: Size) -> Byte:
        raise NotImplementedError

    def open_with(self, fs: HandleAt, limit: Size, version: Byte) -> Byte:
        raise NotImplementedError

    def open_from(self, fs: HandleAt, limit: Size, version: Byte, text: Bytes, length: Size, line: SizeAt) -> Byte:
        raise NotImplementedError

    def open_at(self, fs: HandleAt, limit: Size, other: HandleAt, number: NumberAt) -> Byte:
        raise NotImplementedError

    def close(self, fs: HandleAt) -> Byte:
        raise NotImplementedError

    def seat(self, fs: HandleAt, seat: NumberAt) -> Byte:
        raise NotImplementedError

    def mkdir(self, fs: HandleAt, seat: Number, path: Bytes, length: Size, number: NumberAt) -> Byte:
        raise NotImplementedError

    def mknod(self, fs: HandleAt, seat: Number, path: Bytes, length: Size, number: NumberAt) -> Byte:
        raise NotImplementedError

    def unlink(self, fs: HandleAt, seat: Number, path: Bytes, length: Size, number: NumberAt) -> Byte:
        raise NotImplementedError

    def rmdir(self, fs: HandleAt, seat: Number, path: Bytes, length: Size, number: NumberAt) -> Byte:
        raise NotImplementedError

    def rename(
        self, fs: HandleAt, seat: Number, path: Bytes, length: Size, other: Bytes, other_length: Size, number: NumberAt
    ) -> Byte:
        raise NotImplementedError

    def exchange(
        self, fs: HandleAt, seat: Number, path: Bytes, length: Size, other: Bytes, other_length: Size, number: NumberAt
    ) -> Byte:
        raise NotImplementedError

    def stat(self, fs: HandleAt, seat: Number, path: Bytes, length: Size, stat: StatAt, number: NumberAt) -> Byte:
        raise NotImplementedError

    def readdir(
        self,
        fs: HandleAt,
        seat: Number,
        path: Bytes,
        length: Size,
        out: Room,
        room: Size,
        count: SizeAt,
        number: NumberAt,
    ) -> Byte:
        raise NotImplementedError

    def list(
        self,
        fs: HandleAt,
        seat: Number,
        path: Bytes,
        length: Size,
        after: Bytes,
        after_length: Size,
        most: Word,
        out: Room,
        room: Size,
        count: SizeAt,
        number: NumberAt,
    ) -> Byte:
        raise NotImplementedError

    def read(
        self,
        fs: HandleAt,
        seat: Number,
        path: Bytes,
        length: Size,
        offset: Number,
        out: Room,
        room: Size,
        count: SizeAt,
        number: NumberAt,
    ) -> Byte:
        raise NotImplementedError

    def write(
        self,
        fs: HandleAt,
        seat: Number,
        path: Bytes,
        length: Size,
        offset: Number,
        bytes: Bytes,
        bytes_length: Size,
        wrote: NumberAt,
        number: NumberAt,
    ) -> Byte:
        raise NotImplementedError

    def truncate(self, fs: HandleAt, seat: Number, path: Bytes, length: Size, size: Number, number: NumberAt) -> Byte:
        raise NotImplementedError

    def read_file(
        self, fs: HandleAt, seat: Number, path: Bytes, length: Size, out: Room, room: Size, count: SizeAt
    ) -> Byte:
        raise NotImplementedError

    def write_file(
        self, fs: HandleAt, seat: Number, path: Bytes, length: Size, bytes: Bytes, bytes_length: Size
    ) -> Byte:
        raise NotImplementedError

    def mkdirs(self, fs: HandleAt, seat: Number, path: Bytes, length: Size) -> Byte:
        raise NotImplementedError

    def begin_call(self, fs: HandleAt, seat: Number, request: RequestAt, number: NumberAt) -> Byte:
        raise NotImplementedError

    def step(self, fs: HandleAt, seat: Number, did: ByteAt, about: NumberAt) -> Byte:
        raise NotImplementedError

    def step_any(self, fs: HandleAt, seat: NumberAt, did: ByteAt, about: NumberAt) -> Byte:
        raise NotImplementedError

    def reply_done(self, fs: HandleAt, number: Number) -> Byte:
        raise NotImplementedError

    def reply_stat(self, fs: HandleAt, number: Number, stat: StatAt) -> Byte:
        raise NotImplementedError

    def reply_names(
        self, fs: HandleAt, number: Number, after: Bytes, after_length: Size, out: Room, room: Size, count: SizeAt
    ) -> Byte:
        raise NotImplementedError

    def reply_bytes(self, fs: HandleAt, number: Number, out: Room, room: Size, count: SizeAt) -> Byte:
        raise NotImplementedError

    def reply_wrote(self, fs: HandleAt, number: Number, wrote: NumberAt) -> Byte:
        raise NotImplementedError

    def journal(self, fs: HandleAt, first: Size, out: Room, room: Size, count: SizeAt, entries: SizeAt) -> Byte:
        raise NotImplementedError

    def opening(self, fs: HandleAt, out: Room, room: Size, count: SizeAt) -> Byte:
        raise NotImplementedError

    def checkpoint(self, fs: HandleAt, out: Room, room: Size, count: SizeAt, number: NumberAt) -> Byte:
        raise NotImplementedError

    def forget(self, fs: HandleAt, number: NumberAt) -> Byte:
        raise NotImplementedError

    def keep(self, fs: HandleAt, most: Word) -> Byte:
        raise NotImplementedError

    def verdict(self, fs: HandleAt, place: NumberAt, kind: ByteAt) -> Byte:
        raise NotImplementedError

    def tree(self, fs: HandleAt, out: Room, room: Size, count: SizeAt) -> Byte:
        raise NotImplementedError

    def begin(self, fs: HandleAt, seat: Number, line: Bytes, length: Size, number: NumberAt) -> Byte:
        raise NotImplementedError

    def call(
        self,
        fs: HandleAt,
        seat: Number,
        line: Bytes,
        length: Size,
        out: Room,
        room: Size,
        count: SizeAt,
        number: NumberAt,
    ) -> Byte:
        raise NotImplementedError

    def reply(self, fs: HandleAt, number: Number, out: Room, room: Size, count: SizeAt) -> Byte:
        raise NotImplementedError

    def run(self, script: Bytes, length: Size, out: Room, room: Size, count: SizeAt) -> Byte:
        raise NotImplementedError

    def check(self, journal: Bytes, length: Size, out: Room, room: Size, count: SizeAt) -> Byte:
        raise NotImplementedError

    def trace(
        self,
        script: Bytes,
        length: Size,
        schedule: Byte,
        seed: Number,
        every: Byte,
        out: Room,
        room: Size,
        count: SizeAt,
    ) -> Byte:
        raise NotImplementedError

    def draw(
        self,
        text: Bytes,
        length: Size,
        schedule: Byte,
        seed: Number,
        around: Number,
        out: Room,
        room: Size,
        count: SizeAt,
    ) -> Byte:
        raise NotImplementedError

    def page(
        self, text: Bytes, length: Size, schedule: Byte, seed: Number, out: Room, room: Size, count: SizeAt
    ) -> Byte:
        raise NotImplementedError

    def schedule(
        self, script: Bytes, length: Size, schedule: Byte, seed: Number, out: Room, room: Size, count: SizeAt
    ) -> Byte:
        raise NotImplementedError

    def seeds(
        self, script: Bytes, length: Size, seed: Number, runs: Number, out: Room, room: Size, count: SizeAt
    ) -> Byte:
        raise NotImplementedError

    def linearize(
        self,
        history: Bytes,
        length: Size,
        limit: Number,
        tell: Byte,
        out: Room,
        room: Size,
        count: SizeAt,
        found: ByteAt,
    ) -> Byte:
        raise NotImplementedError

    def explain(self, word: Bytes, length: Size, out: Room, room: Size, count: SizeAt) -> Byte:
        raise NotImplementedError

    def check_path(self, path: Bytes, length: Size, version: Byte) -> Byte:
        raise NotImplementedError
