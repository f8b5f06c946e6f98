"""The grammar of docs/FORMATS.md, written anew in Python: what a script or a journal says, or its first fault.

Calls and replies come in their canonical form, as the program writes them.
"""
import collections.abc
import re
import typing

THREADS, EVENTS = 256, 1_000_000
GREATEST, GREATEST_COUNT = 2**64 - 1, 2**32 - 1


class Limits(typing.NamedTuple):
    """A set of limits."""

    path_names: int
    name_bytes: int
    entries: int
    file_bytes: int
    has_list: bool
    text_bytes: int
    calls: int


# What reads a word, and the readers of the last words of each form, by its first words.
Reader = collections.abc.Callable[[bytes, Limits], str]
Forms = dict[tuple[bytes, ...], list[Reader]]
# The names of a path, and the nodes of a tree by theirs.
Path = tuple[bytes, ...]
Nodes = dict[Path, bytes | None]

V1 = Limits(64, 32, 256, 65_536, False, 16_777_216, 65_536)
V2 = Limits(64, 64, 256, 1_048_576, False, 16_777_216, 65_536)
V3 = Limits(2_048, 255, 1_048_576, 2_147_483_648, True, 1_073_741_824, 4_194_304)
SCRIPTS = {b"atomfs 1": V1, b"atomfs 2": V2, b"atomfs 3": V3}
JOURNALS = {b"atomfs-journal 1": V1, b"atomfs-journal 2": V1, b"atomfs-journal 3": V2, b"atomfs-journal 4": V3}

CHECKPOINT = b"!checkpoint"
DRAWN = b"!drawn"
ERRORS = (
    "ENOENT",
    "ENOTDIR",
    "EEXIST",
    "ENOTEMPTY",
    "EISDIR",
    "EINVAL",
    "EBUSY",
    "EPERM",
    "ENOSPC",
    "EFBIG",
    "EOVERFLOW",
)


class Fault(Exception):
    """The first fault of a text, and the line that has it."""

    def __init__(self, kind: str, line: int | None = None) -> None:
        super().__init__(kind)
        self.kind, self.line = kind, line

    def __str__(self) -> str:
        return f"line {self.line}: {self.kind}"


def decoded(word: bytes) -> bytes:
    """The bytes that a word spells: any other % stands for itself."""
    return re.sub(rb"%([0-9A-Fa-f]{2})", lambda escape: bytes([int(escape[1], 16)]), word)


def escaped(name: bytes) -> str:
    return "".join(chr(byte) if 0x20 < byte < 0x7F and byte != 0x25 else f"%{byte:02X}" for byte in name)


def fixed(word: bytes, _limits: Limits) -> str:
    """A word that stands for itself."""
    return word.decode()


def number(word: bytes, _limits: Limits, greatest: int = GREATEST) -> str:
    if not re.fullmatch(rb"0|[1-9][0-9]{0,19}", word) or int(word) > greatest:
        raise Fault("BadNumber")
    return word.decode()


def count(word: bytes, limits: Limits) -> str:
    """How many names a list asks for."""
    return number(word, limits, GREATEST_COUNT)


def hexadecimal(word: bytes, _limits: Limits) -> str:
    if not re.fullmatch(rb"-|([0-9A-Fa-f]{2})+", word):
        raise Fault("BadHex")
    return word.decode().lower()


def path(word: bytes, limits: Limits) -> str:
    given = decoded(word)
    if not given.startswith(b"/"):
        raise Fault("BadPath NotAbsolute")
    if b"\0" in given:
        raise Fault("BadPath Nul")
    names = [name for name in given.split(b"/") if name]
    for place, name in enumerate(names):
        if place == limits.path_names:
            raise Fault("BadPath TooManyNames")
        if len(name) > limits.name_bytes:
            raise Fault("BadPath NameTooLong")
        if name in (b".", b".."):
            raise Fault("BadPath Dot")
    if names and given.endswith(b"/"):
        raise Fault("BadPath TrailingSlash")
    return "/" + "/".join(map(escaped, names))


def name(word: bytes, limits: Limits) -> str:
    """A name of a reply."""
    given = decoded(word)
    if not 0 < len(given) <= limits.name_bytes or given in (b".", b"..") or re.search(rb"[/\0]", given):
        raise Fault("BadReply")
    return escaped(given)


def error(word: bytes, _limits: Limits) -> str:
    if word.decode("latin-1") not in ERRORS:
        raise Fault("BadReply")
    return word.decode()


READERS: dict[str, Reader] = {"PATH": path, "NUMBER": number, "COUNT": count, "HEX": hexadecimal, "ERRNO": error}


def forms(*lines: str) -> Forms:
    """The readers of each form's last words, by its first ones, which stand for themselves."""
    words = [line.split() for line in lines]
    return {
        tuple(word.encode() for word in form if word not in READERS): [
            READERS[word] for word in form if word in READERS
        ]
        for form in words
    }


CALL_FORMS = forms(
    *("mkdir PATH", "mknod PATH", "unlink PATH", "rmdir PATH", "rename PATH PATH", "exchange PATH PATH"),
    *("stat PATH", "readdir PATH", "read PATH NUMBER NUMBER", "write PATH NUMBER HEX", "truncate PATH NUMBER"),
)
LIST_FORM = forms("list PATH PATH COUNT")
REPLY_FORMS = forms("ok", "stat dir NUMBER", "stat file NUMBER", "bytes HEX", "wrote NUMBER", "failed ERRNO")


def readers_of(words: list[bytes], among: Forms, fault: str) -> list[Reader]:
    """The readers of all words of the form that the words have."""
    for count in (1, 2):
        readers = among.get(tuple(words[:count]))
        if readers is not None and len(words) == count + len(readers):
            return [fixed] * count + readers
    raise Fault(fault)


def spelled(words: list[bytes], readers: list[Reader], limits: Limits) -> str:
    """The words in canonical form: the first from the left that cannot be read is the fault."""
    return " ".join(read(word, limits) for read, word in zip(readers, words, strict=True))


def room(left: int, more: int) -> int:
    """What is left of a limit."""
    if more > left:
        raise Fault("TooLarge")
    return left - more


def call_readers(words: list[bytes], limits: Limits) -> list[Reader]:
    """The readers of the words of a call: only texts of some limits have the call that lists a directory in pieces."""
    return readers_of(words, CALL_FORMS | LIST_FORM if limits.has_list else CALL_FORMS, "BadLine")


def call(words: list[bytes], limits: Limits) -> str:
    return spelled(words, call_readers(words, limits), limits)


def reply(words: list[bytes], limits: Limits) -> str:
    if words[0] == b"names":
        return " ".join(["names", *(name(word, limits) for word in words[1:])])
    return spelled(words, readers_of(words, REPLY_FORMS, "BadReply"), limits)


def entry(words: list[bytes], limits: Limits) -> str:
    """An entry of a journal."""
    match words:
        case [b"begin", _, _, _, *_]:
            return spelled(words, [fixed, number, number, *call_readers(words[3:], limits)], limits)
        case [b"commit", _]:
            return spelled(words, [fixed, number], limits)
        case [b"return", which, _, *_]:
            return f"return {number(which, limits)} {reply(words[2:], limits)}"
    raise Fault("BadLine")


def cut(line: bytes) -> list[bytes]:
    """The words of a line."""
    words = line.split(b" ")
    if b"" in words:
        raise Fault("BadLine")
    return words


def first_line(text: bytes) -> bytes:
    """The first line of a text, which tells how long the text may be, whatever reads it."""
    first = text.partition(b"\n")[0]
    limits = V3 if first == b"tree" else (SCRIPTS | JOURNALS).get(first, V1)
    if len(text) > limits.text_bytes:
        raise Fault("TooLarge", 1)
    return first


def read(
    text: bytes,
    headers: dict[bytes, Limits],
    take: collections.abc.Callable[[list[bytes], Limits], None],
    end: bytes | None = None,
    behind: int = 1,
) -> int:
    """Hands the words of each line that is not passed over to `take`, with the limits of the first line, from behind so many lines up to a line
    that is the end. Answers how many lines there are.
    """
    first = first_line(text)
    if first not in headers:
        raise Fault("BadHeader", 1)
    lines = text.removesuffix(b"\n").split(b"\n")[1:]
    for place, line in enumerate(lines[behind - 1 :], 1 + behind):
        if line == end:
            break
        if not line or line.startswith(b"#"):
            continue
        try:
            take(cut(line), headers[first])
        except Fault as fault:
            raise Fault(fault.kind, place) from None
    return 1 + len(lines)


def node(line: bytes, limits: Limits) -> tuple[Path, bytes | None]:
    """The node of a line of a tree, which is the very line that is written of it: its path, and its bytes unless it is a directory."""
    match line.split(b" "):
        case [b"dir", word]:
            content = None
        case [b"file", word, digits] if digits == b"-" or re.fullmatch(rb"([0-9a-f]{2})+", digits):
            content = bytes.fromhex(digits.decode().removeprefix("-"))
        case _:
            raise Fault("BadStart")
    root, *pieces = [b""] if word == b"/" else word.split(b"/")
    if not word or root or any(name(piece, limits).encode() != piece for piece in pieces):
        raise Fault("BadStart")
    return tuple(map(decoded, pieces)), content


def add_node(nodes: Nodes, line: bytes, limits: Limits) -> None:
    """Adds the node of a line to those of a tree, whose next one it is."""
    path, content = node(line, limits)
    if not path or not nodes:
        right = not path and not nodes and content is None
    else:
        parent, siblings = path[:-1], [other for other in nodes if other[:-1] == path[:-1] and other]
        right = (
            path > next(reversed(nodes))
            and nodes.get(parent, b"") is None
            and len(siblings) < limits.entries
            and len(content or b"") <= limits.file_bytes
        )
    if not right:
        raise Fault("BadStart")
    nodes[path] = content


def start(text: bytes) -> tuple[Nodes, int]:
    """The nodes of the tree at which a journal starts, each None or a file's bytes by its path in order, and how many lines tell them."""
    header, *lines = text.removesuffix(b"\n").split(b"\n")
    if header not in JOURNALS or header == b"atomfs-journal 1":
        return {(): None}, 1
    nodes: Nodes = {}
    begun, limits = False, JOURNALS[header]
    for place, line in enumerate(lines, 2):
        if not line or line.startswith(b"#"):
            continue
        if line == b"entries" and nodes:
            return nodes, place
        try:
            if begun:
                add_node(nodes, line, limits)
            elif line != b"start":
                raise Fault("BadStart")
        except Fault:
            raise Fault("BadStart", place) from None
        begun = True
    raise Fault("BadStart", 2 + len(lines))


def journal(text: bytes) -> list[str]:
    """The entries of a journal."""
    first_line(text)
    entries: list[str] = []
    _, behind = start(text)
    read(text, JOURNALS, lambda words, limits: entries.append(entry(words, limits)), b"tree", behind)
    return entries


class Script:
    """The calls of each thread, by the order of the blocks; the events of the schedule, as threads with numbers, and its checkpoints, as a word
    that is no thread; whether rounds follow, and whether the last word leaves the rest to a seed.
    """

    def __init__(self, text: bytes) -> None:
        first = first_line(text)
        self.header, self.finishes, self.is_drawn = first.decode("latin-1"), False, False
        self.calls: dict[str, list[str]] = {}
        self.events: list[tuple[str, int]] = []
        self.has_schedule = False
        self.calls_left, self.events_left = SCRIPTS.get(first, V1).calls, EVENTS
        lines = read(text, SCRIPTS, self.take)
        if not self.has_schedule:
            raise Fault("NoSchedule", lines + 1)

    def take(self, words: list[bytes], limits: Limits) -> None:
        if self.has_schedule:
            for word in words:
                self.take_word(word)
        elif words[0] == b"thread" and len(words) == 2:
            self.take_thread(words[1].decode("latin-1"))
        elif words == [b"schedule"]:
            self.has_schedule = True
        elif self.calls:
            self.take_call(call(words, limits))
        else:
            raise Fault("BadLine")

    def take_thread(self, thread: str) -> None:
        if not re.fullmatch("[a-z][a-z0-9_]{0,15}", thread) or thread == "finish":
            raise Fault("BadThread")
        if thread in self.calls:
            raise Fault("ThreadTwice")
        if len(self.calls) == THREADS:
            raise Fault("TooLarge")
        self.calls[thread] = []

    def take_call(self, line: str) -> None:
        """A call of the last thread."""
        self.calls_left = room(self.calls_left, 1)
        self.calls[next(reversed(self.calls))].append(line)

    def take_word(self, word: bytes) -> None:
        """A word of the schedule."""
        thread, star, times = word.decode("latin-1").partition("*")
        if self.finishes:
            raise Fault("BadWord")
        if word in (b"finish", DRAWN):
            self.finishes, self.is_drawn = True, word == DRAWN
            return
        if word == CHECKPOINT:
            self.events.append((word.decode(), 1))
            return
        if thread not in self.calls or star and not re.fullmatch("[1-9][0-9]{0,6}", times) or int(times or 1) > EVENTS:
            raise Fault("BadWord")
        self.events_left = room(self.events_left, int(times or 1))
        self.events.append((thread, int(times or 1)))

    def text(self) -> bytes:
        """A script that says the same: each call in canonical form, and each event as a word, unless they are very many."""
        blocks = [line for thread, calls in self.calls.items() for line in (f"thread {thread}", *calls)]
        words = [
            word
            for thread, times in self.events
            for word in ([thread] * times if times <= 1_000 else [f"{thread}*{times}"])
        ]
        return "".join(
            f"{line}\n"
            for line in (
                self.header,
                *blocks,
                "schedule",
                *words,
                *["!drawn" if self.is_drawn else "finish"] * self.finishes,
            )
        ).encode()
