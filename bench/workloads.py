"""Scripts of one thread that end in `finish`, drawn from fixed numbers, for the measurements of this folder."""
import random


def text(lines):
    return "\n".join(["atomfs 1", "thread t", *lines, "schedule", "finish", ""]).encode()


def few(calls):
    """All kinds of calls but exchanges, over some two thousand names, six deep, with hits and misses; files of up to 300 bytes."""
    draw = random.Random(1)
    dirs, files, lines = [""], [], []
    while len(lines) < calls:
        kind, above = draw.random(), draw.choice(dirs)
        name = f"{above}/name{draw.randrange(12)}"
        if kind < 0.08 and above.count("/") < 6:
            lines.append(f"mkdir {name}")
            if name not in dirs and len(dirs) < 400:
                dirs.append(name)
        elif kind < 0.16:
            lines.append(f"mknod {name}")
            files.append(name)
        elif kind < 0.20:
            lines.append(f"unlink {name}")
        elif kind < 0.22:
            lines.append(f"rmdir {name}")
        elif kind < 0.25:
            lines.append(f"rename {name} {draw.choice(dirs)}/name{draw.randrange(12)}")
        elif kind < 0.28:
            lines.append(f"truncate {draw.choice(files or ['/x'])} {draw.randrange(200)}")
        elif kind < 0.45:
            lines.append(
                f"write {draw.choice(files or ['/x'])} {draw.randrange(200)} {draw.randbytes(draw.randrange(1, 100)).hex()}"
            )
        elif kind < 0.67:
            lines.append(f"read {draw.choice(files or ['/x'])} {draw.randrange(100)} {draw.randrange(300)}")
        elif kind < 0.72:
            lines.append(f"readdir {above or '/'}")
        else:
            lines.append(f"stat {name}")
    return text(lines)


def broad(calls):
    """Every tenth call makes a node, 64 to a directory, so that the tree and its paths grow with the calls."""
    draw = random.Random(2)
    dirs, files, lines, fill = [""], [], [], {"": 0}
    while len(lines) < calls:
        kind, above = draw.random(), draw.choice(dirs[-40:])
        name = f"{above}/n{len(lines)}"
        if kind < 0.012 and above.count("/") < 6 and fill[above] < 64:
            lines.append(f"mkdir {name}")
            dirs.append(name)
            fill[name] = 0
            fill[above] += 1
        elif kind < 0.10 and fill[above] < 64:
            lines.append(f"mknod {name}")
            files.append(name)
            fill[above] += 1
        elif kind < 0.22 and files:
            lines.append(f"write {draw.choice(files[-256:])} {draw.randrange(64)} {draw.randbytes(16).hex()}")
        elif kind < 0.42 and files:
            lines.append(f"read {draw.choice(files)} 0 32")
        elif kind < 0.45:
            lines.append(f"readdir {above or '/'}")
        elif kind < 0.90:
            lines.append(f"stat {draw.choice(files or dirs) or '/'}")
        else:
            lines.append(f"stat {name}")
    return text(lines)


def wide(calls):
    """Looks into a directory of 250 files, one in ten at a name that is not there."""
    draw = random.Random(4)
    lines = ["mkdir /dir", *(f"mknod /dir/entry{number}" for number in range(250))]
    while len(lines) < calls:
        number = draw.randrange(250) + (1_000 if draw.random() < 0.1 else 0)
        lines.append(f"stat /dir/entry{number}")
    return text(lines)


def deep(calls):
    """A chain of 60 directories, each with a file, of which those at its lower third are looked at, read and written."""
    draw = random.Random(5)
    lines, path, files = [], "", []
    for number in range(60):
        path += f"/dir{number}"
        files.append(f"{path}/file")
        lines += [f"mkdir {path}", f"mknod {files[-1]}"]
    while len(lines) < calls:
        kind, file = draw.random(), draw.choice(files[40:])
        if kind < 0.6:
            lines.append(f"stat {file}")
        elif kind < 0.8:
            lines.append(f"read {file} 0 16")
        else:
            lines.append(f"write {file} 0 {draw.randbytes(8).hex()}")
    return text(lines)


def pieces(calls):
    """Large files, one after the other: each is written to its end in pieces of 4,000 bytes, read so, and removed."""
    draw = random.Random(6)
    contents, lines = [draw.randbytes(4_000).hex() for _ in range(16)], []
    while len(lines) < calls:
        file = f"/file{len(lines)}"
        lines.append(f"mknod {file}")
        lines += [f"write {file} {4_000 * piece} {draw.choice(contents)}" for piece in range(16)]
        lines += [f"read {file} {4_000 * draw.randrange(16)} 4000" for _ in range(8)]
        lines.append(f"unlink {file}")
    return text(lines[:calls])


def moves(calls):
    """Directories that move about between two of 180 and more entries, a quarter of them onto another one; some are made and removed beside."""
    draw = random.Random(7)
    entries = {above: [f"{above}/sub{number}" for number in range(180)] for above in ("/a", "/b")}
    lines = [f"mkdir {path}" for above, below in entries.items() for path in (above, *below)]
    while len(lines) < calls:
        kind, new = draw.random(), f"sub{len(lines)}"
        here, there = entries[draw.choice("/a /b".split())], draw.choice("/a /b".split())
        if kind < 0.6:
            old = here.pop(draw.randrange(len(here)))
            onto = draw.random() < 0.25
            lines.append(f"rename {old} {draw.choice(entries[there]) if onto else f'{there}/{new}'}")
            if not onto:
                entries[there].append(f"{there}/{new}")
        elif len(entries[there]) < 200:
            lines.append(f"mkdir {there}/{new}")
            entries[there].append(f"{there}/{new}")
        else:
            lines.append(f"rmdir {here.pop(draw.randrange(len(here)))}")
    return text(lines)


def sandbox(calls):
    """A tree of files eight directories deep is unpacked below one that is then moved into its place; its files are looked at, read and written, and removed."""
    draw = random.Random(9)
    dirs, files, unpacked = [""], [], []
    while len(unpacked) < 0.45 * calls:
        if draw.random() < 0.06:
            above = draw.choice([path for path in dirs[-40:] if path.count("/") < 8] or dirs[:40])
            dirs.append(f"{above}/part{len(dirs)}")
            unpacked.append(("mkdir", dirs[-1], ""))
        else:
            files.append(f"{draw.choice(dirs[-12:])}/file{len(files)}.txt")
            size = min(4_000, int(20 / (1 - draw.random())))
            unpacked += [("mknod", files[-1], ""), ("write", files[-1], f" 0 {draw.randbytes(size).hex()}")]
    lines = ["mkdir /new", *(f"{kind} /new{path}{rest}" for kind, path, rest in unpacked), "rename /new /app"]
    while len(lines) < calls - len(files) - len(dirs):
        kind, file = draw.random(), draw.choice(files)
        if kind < 0.5:
            lines.append(f"stat /app{file}{draw.choice(('', '', '', '.missing'))}")
        elif kind < 0.8:
            lines.append(f"read /app{file} 0 4000")
        elif kind < 0.9:
            lines.append(f"readdir /app{file.rpartition('/')[0]}")
        else:
            lines.append(f"write /app{file} 0 {draw.randbytes(40).hex()}")
    removed = [f"unlink /app{path}" for path in reversed(files)] + [f"rmdir /app{path}" for path in reversed(dirs)]
    return text(lines + removed)


def exchanges(calls):
    """Directories and files of a tree that change places, half of them with what stands beside them; files are looked at and read between."""
    draw = random.Random(8)
    dirs = [f"/top{above}/dir{number}" for above in range(8) for number in range(16)]
    files = [f"{path}/file{number}" for path in dirs for number in range(8)]
    lines = (
        [f"mkdir /top{above}" for above in range(8)]
        + [f"mkdir {path}" for path in dirs]
        + [f"mknod {path}" for path in files]
    )
    while len(lines) < calls:
        kind, file = draw.random(), draw.choice(files)
        if kind < 0.2:
            lines.append(f"exchange {draw.choice(dirs)} {draw.choice(dirs)}")
        elif kind < 0.4:
            lines.append(f"exchange {file} {file.rpartition('/')[0]}/file{draw.randrange(8)}")
        elif kind < 0.5:
            lines.append(f"exchange {file} {draw.choice(dirs)}")
        elif kind < 0.8:
            lines.append(f"stat {file}")
        else:
            lines.append(f"read {file} 0 16")
    return text(lines)


def threads(count, calls):
    """So many threads, each with so many calls over few names, for drawn schedules."""
    draw, lines = random.Random(3), ["atomfs 1"]
    kinds = [
        "mkdir /a",
        "mknod /a/b",
        "stat /a/b",
        "write /a/b 0 6869",
        "read /a/b 0 8",
        "readdir /a",
        "rename /a /c",
        "unlink /c/b",
        "rename /c /a",
    ]
    for number in range(count):
        lines += [f"thread t{number}", *(draw.choice(kinds) for _ in range(calls))]
    return "\n".join([*lines, "schedule", "finish", ""]).encode()
