"""`Tree(pauses=SEED)`: calls of threads overlap, and each answers what it answers on any tree."""
import contextlib
import functools
import os
import random
import threading
import time
import unittest
import unittest.mock
from typing import Any, Callable, Dict, List, Optional, Set, Tuple

import atomfs

PATHS = "/a", "/b", "/a/x", "/b/x", "/a/x/y", "/none/z"
# How many threads make how many calls each.
THREADS, CALLS = 4, 150


# A method of a tree, and its arguments.
Asked = Tuple[str, Tuple[Any, ...]]


def a_call(draw: random.Random) -> Asked:
    """A method of a tree and its arguments."""
    name = draw.choice(
        (
            "mkdir",
            "mknod",
            "unlink",
            "rmdir",
            "rename",
            "exchange",
            "stat",
            "readdir",
            "listdir",
            "list",
            "read",
            "write",
        )
        + ("truncate", "exists", "read_bytes")
    )
    path, other = draw.choice(PATHS), draw.choice(PATHS)
    more: Dict[str, Tuple[object, ...]] = {
        "rename": (other,),
        "exchange": (other,),
        "list": (other, 2),
        "read": (1, 3),
        "write": (draw.randrange(3), b"abc"),
        "truncate": (draw.randrange(5),),
    }
    return name, (path, *more.get(name, ()))


def answer(tree: atomfs.Tree, call: Asked) -> object:
    """What a call returns, or its error in words."""
    name, given = call
    try:
        found: object = getattr(tree, name)(*given)
        return found
    except (OSError, atomfs.Error, ValueError, TypeError) as error:
        return type(error), str(error)


def overlapping(journal: str) -> Tuple[int, int]:
    """How many calls a journal has, and how many of them overlap with another."""
    pending: Set[str] = set()
    met: Set[str] = set()
    total = 0
    for line in journal.splitlines():
        word, number = (line.split(" ", 2) + [""])[:2]
        if word == "begin":
            met |= {number, *pending} if pending else set()
            pending.add(number)
            total += 1
        elif word == "return":
            pending.remove(number)
    return total, len(met)


def run(*functions: Callable[[], object]) -> None:
    """Runs functions, each on a thread, and raises what one of them raised."""
    errors: List[BaseException] = []

    def caught(function: Callable[[], object]) -> None:
        try:
            function()
        except BaseException as error:
            errors.append(error)

    threads = [threading.Thread(target=caught, args=(function,)) for function in functions]
    for thread in threads:
        thread.start()
    for thread in threads:
        thread.join()
    if errors:
        raise errors[0]


def works(tree: atomfs.Tree, seed: int, calls: int = CALLS) -> Callable[[], List[object]]:
    draw = random.Random(seed)
    return lambda: [answer(tree, a_call(draw)) for _ in range(calls)]


class Pauses(unittest.TestCase):
    def overlap(self, pauses: Optional[int]) -> bool:
        """Whether more than a quarter of the calls of threads overlap. The journal is lawful."""
        with atomfs.Tree(pauses=pauses) as tree:
            run(*(works(tree, seed) for seed in range(THREADS)))
            journal = tree.journal()
            total, met = overlapping(journal)
            self.assertGreaterEqual(total, THREADS * CALLS)
            self.assertEqual((tree.check(), atomfs.check(journal)), ("lawful", "lawful"))
            seats = {line.split()[2] for line in journal.splitlines() if line.startswith("begin ")}
            self.assertTrue(pauses is not None or met == 0)
            return met > total // 4 and len(seats) > 1

    def test_overlap(self) -> None:
        """Calls of threads never overlap by themselves. With pauses most do: of ten trees at least on one, on a machine that has other things to do."""
        self.assertFalse(self.overlap(None))
        for pauses in (1, 7):
            with self.subTest(pauses):
                self.assertTrue(any(self.overlap(pauses) for _ in range(10)))

    def test_replies(self) -> None:
        """One thread gets the same replies and errors as from a tree without pauses, by the same calls."""
        for limits in atomfs.Limits:
            with atomfs.Tree(limits=limits) as plain, atomfs.Tree(limits=limits, pauses=3) as paused:
                draw = random.Random(1)
                calls: List[Asked] = [a_call(draw) for _ in range(400)]
                calls += [
                    ("mkdir", ("no slash",)),
                    ("rename", ("/a", "b")),
                    ("read", ("/a", -1)),
                    ("write", ("/a", 0, "s")),
                ]
                calls += [
                    ("truncate", ("/a", "x")),
                    ("list", ("/a", "/", -1)),
                    ("stat", (b"/a",)),
                    ("listdir", (b"/",)),
                ]
                for call in calls:
                    self.assertEqual(answer(paused, call), answer(plain, call), call)
                self.assertEqual((paused.journal(), len(paused)), (plain.journal(), len(plain)))

    def test_large(self) -> None:
        """A file of several pieces is read whole, also while others write it."""
        size = 3_000_000
        with atomfs.Tree(pauses=5) as tree:
            tree.write_bytes("/f", bytes(size))

            def writes() -> None:
                for byte in (b"1", b"2", b"3"):
                    tree.write("/f", 0, byte * size)

            def reads() -> None:
                for _ in range(4):
                    self.assertEqual(len(set(tree.read("/f"))), 1)
                    self.assertEqual(len(tree.read("/f", 5, 2_000_000)), 2_000_000)

            run(writes, reads)
            self.assertEqual(tree.read_bytes("/f"), b"3" * size)

    def test_lock(self) -> None:
        """A thread that has the lock makes several calls one, and finds none half-way."""
        with atomfs.Tree(pauses=2) as tree:
            tree.mkdir("/a")

            def holds() -> None:
                for _ in range(20):
                    with tree.lock, tree.lock:
                        before = tree.calls
                        tree.write_text("/own", "1")
                        tree.stat("/own")
                        made = tree.last_calls(tree.calls - before)
                        self.assertTrue(all("/own" in call and ": " in call for call in made), made)
                    time.sleep(0)

            run(holds, *(works(tree, seed, 60) for seed in range(3)))
            self.assertRaises(RuntimeError, tree.lock.release)
            self.assertEqual(tree.check(), "lawful")

    def test_whole_journals(self) -> None:
        """Checkpoints, `forget` and trees that forget come between calls of threads, which lose no reply."""
        with atomfs.Tree(pauses=4) as tree, atomfs.Tree(pauses=4, journal=atomfs.LAST(20)) as forgets:

            def hands_out() -> None:
                for _ in range(15):
                    self.assertEqual(atomfs.check(tree.checkpoint()), "lawful")
                    tree.forget()
                    tree.snapshot()

            def counts(of: atomfs.Tree, who: str) -> None:
                for number in range(40):
                    path = f"/{who}_{number}"
                    of.mknod(path)
                    self.assertEqual(of.write(path, 0, b"abc"), 3)
                    self.assertEqual(of.read(path), b"abc")

            one, other = functools.partial(counts, tree), functools.partial(counts, forgets)
            run(
                hands_out,
                *(functools.partial(one, who) for who in "abc"),
                *(functools.partial(other, who) for who in "de"),
            )
            self.assertEqual((len(tree), len(forgets)), (121, 81))
            self.assertEqual((tree.check(), forgets.check()), ("lawful", "lawful"))

    def test_seats(self) -> None:
        """A call that waits for one that was begun on a seat raises, as on any tree, and goes on later."""
        with atomfs.Tree(pauses=1) as tree:
            tree.mkdir("/a")
            seat = tree.seat("slow")
            seat.begin.rename("/a", "/b")
            while seat.step().did != atomfs.Did.TAKE:
                pass
            with self.assertRaises(atomfs.WaitsError) as raised:
                tree.mkdir("/c")
            seat.finish()
            raised.exception.seat.finish()
            tree.mkdir("/d")
            self.assertEqual(tree.listdir("/"), ["b", "c", "d"])
            self.assertEqual(tree.check(), "lawful")

    def test_interrupted(self) -> None:
        """A call that is interrupted in a pause is not left half-way."""
        with atomfs.Tree(pauses=1) as tree:
            with unittest.mock.patch("time.sleep", side_effect=KeyboardInterrupt):
                for number in range(20):
                    with contextlib.suppress(KeyboardInterrupt):
                        tree.mkdir(f"/{number}")
            self.assertEqual(len(tree.listdir("/")), 20)
            self.assertEqual((tree.check(), overlapping(tree.journal())[1]), ("lawful", 0))

    def test_closed(self) -> None:
        """A tree that is closed while threads call brings their calls to an end."""
        tree, begun = atomfs.Tree(pauses=6), threading.Event()

        def calls() -> None:
            with contextlib.suppress(atomfs.ClosedError):
                while True:
                    tree.exists("/a")
                    begun.set()

        def closes() -> None:
            begun.wait()
            tree.close()

        run(calls, calls, closes)
        self.assertTrue(tree.closed)

    def test_patch(self) -> None:
        """Under a patch calls are whole."""
        at = "/sandbox_of_pauses"
        with atomfs.Tree(pauses=1) as tree, atomfs.patch(tree, at=at):

            def writes(who: str) -> None:
                for number in range(30):
                    with open(f"{at}/{who}_{number}", "w") as file:
                        file.write("text")

            run(*(functools.partial(writes, who) for who in "abc"))
            self.assertEqual(len(os.listdir(at)), 90)
            self.assertEqual((overlapping(tree.journal())[1], tree.check()), (0, "lawful"))

    def test_seeds(self) -> None:
        self.assertRaises(ValueError, atomfs.Tree, pauses=-1)
        self.assertRaises(TypeError, atomfs.Tree, pauses="1")
        with atomfs.Tree(pauses=0) as tree, atomfs.Tree(pauses=0) as other:
            slept: List[List[float]] = []
            with unittest.mock.patch("time.sleep", side_effect=lambda seconds: slept[-1].append(seconds)):
                for one in (tree, other):
                    slept.append([])
                    works(one, 1)()
            self.assertEqual(slept[0], slept[1])
            self.assertGreater(len(slept[0]), CALLS)


if __name__ == "__main__":
    unittest.main()
