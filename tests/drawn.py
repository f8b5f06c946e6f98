"""Drawn calls, the threads that make them, and scripts of these. Each drawing takes its numbers from a `random.Random` that is handed over."""
import re
from collections.abc import Iterable
from random import Random

# Of these a name is drawn for calls that are to meet: the last one is the rarest.
LETTERS = "a" * 10 + "b" * 9 + "c"
# Of these the number of names of a path is drawn: of a call, mostly three or four, and of a rename or an exchange, mostly one or two.
LOW = [0] * 1 + [1] * 2 + [2] * 3 + [3] * 10 + [4] * 24
HIGH = [1] * 14 + [2] * 4 + [3] * 2
# How many of a hundred calls each is.
MOVING = {
    "rename": 40,
    "mkdir": 16,
    "mknod": 10,
    "stat": 6,
    "write": 6,
    "unlink": 5,
    "rmdir": 5,
    "readdir": 4,
    "read": 4,
    "truncate": 4,
}
EXCHANGING = {**MOVING, "rename": 8, "exchange": 32}
CROWDED = {
    "mkdir": 22,
    "rename": 16,
    "exchange": 6,
    "mknod": 10,
    "write": 9,
    "stat": 8,
    "readdir": 7,
    "rmdir": 6,
    "read": 6,
    "unlink": 5,
    "truncate": 5,
}
# Of the third limits, whose calls are drawn by themselves, and what stands there for two of the three names.
LONG = {"b": 100 * "c", "c": 255 * "c"}
LISTING = {
    "list": 24,
    "mkdir": 16,
    "mknod": 16,
    "rename": 12,
    "exchange": 5,
    "write": 5,
    "stat": 5,
    "readdir": 5,
    "rmdir": 4,
    "read": 3,
    "unlink": 4,
    "truncate": 2,
}
HELPED = {"rename": 28, "exchange": 12, "write": 20, "truncate": 10, "unlink": 14, "above": 8, "mknod": 4, "rmdir": 4}
# The directories of a tree for moving calls, those above before those below. The last ones, /b and those below it, are mostly left out.
DIRECTORIES = "/a /a/a /a/b /a/a/a /a/a/b /a/b/a /a/b/b /b /b/a /b/b /b/a/a /b/a/b /b/b/a /b/b/b".split()
OUTSIDE_B = 7


def kind(draw: Random, shares: dict[str, int]) -> str:
    return draw.choices(list(shares), list(shares.values()))[0]


def names(draw: Random, count: int) -> list[str]:
    return [draw.choice(LETTERS) for _ in range(count)]


def path(names: Iterable[str]) -> str:
    return "/" + "/".join(names)


def beside(names: list[str]) -> list[str]:
    """The names of a path that differs in the last one alone."""
    last = "c" if len(names) > 1 else "b" if names == ["a"] else "a"
    return [*names[:-1], last]


def rename(draw: Random) -> str:
    """A rename of what stands high, mostly to a name beside it."""
    old = names(draw, draw.choice(HIGH))
    new = beside(old) if draw.randrange(3) else names(draw, draw.choice(HIGH))
    return f"rename {path(old)} {path(new)}"


def exchange(draw: Random) -> str:
    """An exchange of what stands high, mostly with what stands beside it."""
    one = names(draw, draw.choice(HIGH))
    other = [*one[:-1], "b" if one[-1] == "a" else "a"] if draw.randrange(3) else names(draw, draw.choice(HIGH))
    return f"exchange {path(one)} {path(other)}"


def moving_call(draw: Random, shares: dict[str, int] = MOVING) -> str:
    """A rename or an exchange of what stands high, or a call on what stands low."""
    chosen = kind(draw, shares)
    if chosen == "rename":
        return rename(draw)
    if chosen == "exchange":
        return exchange(draw)
    first = f"{chosen} {path(names(draw, draw.choice(LOW)))}"
    match chosen:
        case "read":
            return f"{first} 1 4"
        case "write":
            return f"{first} {draw.randrange(8)} {''.join(names(draw, draw.randrange(6))).encode().hex() or '-'}"
        case "truncate":
            return f"{first} 3"
        case _:
            return first


def making(draw: Random) -> list[str]:
    """The calls that make a tree for the others."""
    count = OUTSIDE_B if draw.randrange(4) else len(DIRECTORIES)
    directories = [f"mkdir {directory}" for directory in DIRECTORIES[:count] if draw.randrange(16)]
    return directories + [f"mknod {path(names(draw, 4))}" for _ in range(4)]


def moving(draw: Random) -> list[list[str]]:
    """A thread that makes a tree, and two to six threads of three to eight calls that use it."""
    return [making(draw), *([moving_call(draw) for _ in range(draw.randint(3, 8))] for _ in range(draw.randint(2, 6)))]


def exchanging(draw: Random) -> list[list[str]]:
    """A thread that makes all directories, and two to six threads of three to eight calls that use them, many of which are exchanges."""
    made = [f"mkdir {directory}" for directory in DIRECTORIES] + [f"mknod {path(names(draw, 4))}" for _ in range(4)]
    return [
        made,
        *([moving_call(draw, EXCHANGING) for _ in range(draw.randint(3, 8))] for _ in range(draw.randint(2, 6))),
    ]


def helped_call(draw: Random) -> str:
    """A rename or an exchange of what stands high, or a call on a file below, or a rename of that to a directory above it."""
    chosen = kind(draw, HELPED)
    if chosen in ("rename", "exchange"):
        return rename(draw) if chosen == "rename" else exchange(draw)
    directory = draw.choice(DIRECTORIES)
    match chosen:
        case "rmdir":
            return f"rmdir {directory}"
        case "above":
            return f"rename {directory}/c {directory}"
        case "write":
            return f"write {directory}/c {draw.randrange(4)} {draw.randbytes(draw.randint(1, 3)).hex()}"
        case "truncate":
            return f"truncate {directory}/c {draw.randrange(4)}"
        case _:
            return f"{chosen} {directory}/c"


def helped(draw: Random) -> tuple[list[list[str]], str]:
    """A thread that makes all directories and a file in each, two to six threads of three to eight calls, many of which move what others have on their
    ways; and a schedule in which the first thread is done before the others begin."""
    made = [f"mkdir {directory}" for directory in DIRECTORIES] + [f"mknod {directory}/c" for directory in DIRECTORIES]
    threads = [made, *([helped_call(draw) for _ in range(draw.randint(3, 8))] for _ in range(draw.randint(2, 6)))]
    # A begin, a commit, a return, and for each name of the path a take and a let go.
    events = sum(3 + 2 * call.count("/") for call in made)
    words = [f"t{draw.randrange(1, len(threads))}" for _ in range(draw.randint(50, 250))]
    return threads, " ".join([f"t0*{events}", *words, "finish"])


def narrow_call(draw: Random) -> str:
    return f"{draw.choice(('mkdir', 'stat'))} {path(names(draw, draw.randint(1, 3)))}"


def narrow(draw: Random) -> list[list[str]]:
    """Three threads of six calls that make directories and look at them."""
    return [[narrow_call(draw) for _ in range(6)] for _ in range(3)]


def crowded_path(draw: Random) -> str:
    return path(draw.choice("abc") for _ in range(draw.choice((1, 1, 2, 2, 2, 3, 3, 4))))


def crowded_call(draw: Random) -> str:
    """Any call, over three names, at most four deep."""
    chosen = kind(draw, CROWDED)
    first = f"{chosen} {crowded_path(draw)}"
    match chosen:
        case "rename" | "exchange":
            return f"{first} {crowded_path(draw)}"
        case "read":
            return f"{first} {draw.randrange(40)} {draw.randrange(40)}"
        case "write":
            return f"{first} {draw.choice((0, 3, 30, 65_530))} {draw.randbytes(draw.randrange(12)).hex() or '-'}"
        case "truncate":
            return f"{first} {draw.choice((0, 5, 50, 65_537))}"
        case _:
            return first


def crowded(draw: Random) -> list[list[str]]:
    """Two to sixteen threads of few or of many calls."""
    most = draw.choice((3, 10, 60))
    return [[crowded_call(draw) for _ in range(draw.randrange(1, most))] for _ in range(draw.randint(2, 16))]


def lengthened(call: str) -> str:
    """The call with long names in the place of some."""
    return re.sub("/([bc])", lambda name: f"/{LONG[name[1]]}", call)


def listing_call(draw: Random) -> str:
    """Any call of the third limits, over three names, at most four deep; of those that are listed some above a name, of a path of one or more."""
    chosen = kind(draw, LISTING)
    first = f"{chosen} {crowded_path(draw)}"
    match chosen:
        case "list":
            path = draw.choice(("/", first.split(" ")[1]))
            return f"list {path} {draw.choice(('/', '/a', '/b', crowded_path(draw)))} {draw.choice((0, 1, 1, 2, 3, 256, 257))}"
        case "rename" | "exchange":
            return f"{first} {crowded_path(draw)}"
        case "read":
            return f"{first} {draw.randrange(40)} {draw.choice((3, 40, 1_048_577))}"
        case "write":
            return f"{first} {draw.choice((0, 3, 30, 2_147_483_647))} {draw.randbytes(draw.randrange(2, 12)).hex()}"
        case "truncate":
            return f"{first} {draw.choice((0, 5, 50, 2_147_483_649))}"
        case _:
            return first


def listing(draw: Random) -> list[list[str]]:
    """Two to six threads of a few calls by the third limits."""
    return [[lengthened(listing_call(draw)) for _ in range(draw.randint(3, 12))] for _ in range(draw.randint(2, 6))]


def script(threads: Iterable[list[str]], schedule: str = "finish", version: int = 1) -> str:
    """The script of some threads: t0, t1, t2 and so on."""
    blocks = "".join(
        f"thread t{number}\n" + "".join(f"{line}\n" for line in calls) for number, calls in enumerate(threads)
    )
    return f"atomfs {version}\n{blocks}schedule\n{schedule}\n"
