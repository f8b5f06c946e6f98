"""Two seats on one tree from Python: calls, and a rename that helps a mkdir which is half-way below the directory that it moves.

Replies go to standard error, and the journal to standard output, for `atomfs check`.
"""
import sys

import atomfs


def tell(*words):
    print(*words, file=sys.stderr)


def main():
    with atomfs.Tree(1000) as tree:
        tree.mkdir("/a")
        tree.mkdir("/a/d")
        tree.mknod("/a/f")
        tell("wrote", tree.write("/a/f", 0, b"hello"))
        tell("read", tree.read("/a/f"), tree.stat("/a/f"))
        for call in (lambda: tree.stat("/nowhere"), lambda: tree.rename("/a", "/a/d"), lambda: tree.stat("a")):
            try:
                call()
            except OSError as error:
                tell(type(error).__name__, error)

        # The mkdir walks to /a/d and waits there, half-way; the rename runs to its end, and helps it.
        maker, mover = tree.seat(), tree.seat()
        number = maker.begin.mkdir("/a/d/x")
        for _ in range(5):
            maker.step()
        mover.begin.rename("/a", "/b")
        step = mover.step()
        while step.did != atomfs.Did.RETURN:
            if step.did == atomfs.Did.HELP:
                tell("helps the mkdir:", step.about == number)
            step = mover.step()
        maker.finish()
        tell("readdir", tree.readdir("/b/d"), tree.check())
        print(tree.journal(), end="")


if __name__ == "__main__":
    main()
