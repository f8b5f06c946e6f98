"""Drawn histories of calls that overlap, for bench/linearize."""
import pathlib
import random
import sys

sys.path.insert(0, str(pathlib.Path(__file__).resolve().parent.parent / "tests"))
import model

KINDS = (
    ["mkdir"] * 5
    + ["mknod"] * 3
    + ["unlink", "rmdir"]
    + ["rename"] * 5
    + ["stat", "stat", "readdir", "readdir", "read", "write", "write", "truncate"]
)
NAMES = "abcdefghijkl"


def path(draw):
    return "".join("/" + draw.choice(NAMES) for _ in range(draw.choice((1, 2, 2, 3))))


def call(draw):
    """The words of a drawn call."""
    kind, at = draw.choice(KINDS), path(draw)
    match kind:
        case "rename":
            return [kind, at, path(draw)]
        case "read":
            return [kind, at, "0", "8"]
        case "write":
            return [kind, at, "0", f"{draw.randrange(256):02x}"]
        case "truncate":
            return [kind, at, "1"]
        case _:
            return [kind, at]


def write(seats, calls, changed, seed=1):
    """Writes a history of so many calls, whose replies come from a hidden order; where it is changed, one reply of the last tenth is another one."""
    draw, tree, under_way, lines, ends, begun = random.Random(seed), model.Tree(), {}, ["atomfs-journal 1"], [], 0
    while begun < calls or under_way:
        seat = draw.randrange(seats)
        if seat not in under_way:
            if begun < calls:
                begun += 1
                under_way[seat] = [begun, call(draw), None]
                lines.append(f"begin {begun} {seat} {' '.join(under_way[seat][1])}")
        elif under_way[seat][2] is None:
            under_way[seat][2] = tree.apply(under_way[seat][1])
        elif draw.random() < 0.34:
            number, _, reply = under_way.pop(seat)
            ends.append((len(lines), number, reply))
            lines.append(f"return {number} {reply}")
    if changed:
        place, number, reply = draw.choice(ends[-max(1, calls // 10) :])
        lines[place] = f"return {number} {'ok' if reply.startswith('failed') else 'failed ENOENT'}"
    print("\n".join(lines))
