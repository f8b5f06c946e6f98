"""Searches of histories by slices: with what they say of how far they are, and interrupted."""
import signal
import threading
import time
import unittest
import unittest.mock
from typing import List, Tuple

import atomfs
from atomfs import Lawful, NoOrder, Unknown


def hard(writes: int, read: str) -> str:
    """A history of writes side by side, each over the last one, and a read: a search makes some 2 ^ writes configurations."""
    begun = [f"begin {number + 2} {number} write /f {number % 2} {number:02x}{number:02x}" for number in range(writes)]
    last = f"begin {writes + 2} {writes} read /f 0 3", f"return {writes + 2} bytes {read}"
    return "\n".join(["atomfs-journal 1", "begin 1 0 mknod /f", "return 1 ok", *begun, *last, ""])


NONE = hard(9, "ffffff")


class Slices(unittest.TestCase):
    def test_progress(self) -> None:
        """Each slice makes four times as many configurations as the one before, up to the limit, and the search finds what one slice finds."""
        told: List[Tuple[int, ...]] = []
        self.assertEqual(
            atomfs.linearize(hard(11, "ffffff"), 9_000, progress=lambda *far: told.append(far)), Unknown(15)
        )
        self.assertEqual(told, [(1_000, 15), (4_000, 15)])
        told.clear()
        found = atomfs.linearize(NONE, progress=lambda *far: told.append(far))
        self.assertEqual((found, [count for count, _ in told]), (NoOrder(13, 11), [1_000, 4_000][: len(told)]))
        self.assertGreater(len(told), 0)

    def test_same(self) -> None:
        """What slices find is what one search finds, with its words and its journal."""
        for text in (NONE, hard(9, "020100"), hard(9, "?"), hard(2, "000101")):
            for limit in (1, 999, 1_000, 1_001, 50_000):
                told: List[object] = []
                for first in (1, 1_000, 10**9):
                    with unittest.mock.patch("atomfs._linearize._FIRST", first):
                        try:
                            found = atomfs.linearize(text, limit)
                            told.append((found, getattr(found, "words", ""), getattr(found, "journal", "")))
                        except atomfs.Error as error:
                            told.append(str(error))
                self.assertEqual(told, told[:1] * 3)

    def test_lawful(self) -> None:
        found = atomfs.linearize(hard(8, "010303"))
        self.assertIsInstance(found, (Lawful, NoOrder))
        if isinstance(found, Lawful):
            self.assertEqual(atomfs.check(found.journal), "lawful")

    def test_progress_raises(self) -> None:
        """An error of `progress` ends the search."""
        far: List[int] = []

        def progress(count: int, place: int) -> None:
            far.append(count)
            raise ValueError("enough")

        self.assertRaisesRegex(ValueError, "enough", atomfs.linearize, hard(14, "ffffff"), progress=progress)
        self.assertEqual(far, [1_000])

    def test_interrupted(self) -> None:
        """A signal whose handler raises ends a search at once, and another one can be made."""

        def alarm(number: int, frame: object) -> None:
            raise TimeoutError("enough")

        was = signal.signal(signal.SIGALRM, alarm)
        self.addCleanup(signal.signal, signal.SIGALRM, was)
        self.addCleanup(signal.setitimer, signal.ITIMER_REAL, 0)
        began = time.monotonic()
        # The whole search takes seconds. The slice in which the signal comes ends a little later, by itself.
        signal.setitimer(signal.ITIMER_REAL, 0.5)
        self.assertRaisesRegex(TimeoutError, "enough", atomfs.linearize, hard(18, "ffffff"), 100_000)
        self.assertLess(time.monotonic() - began, 20)
        self.assertEqual(atomfs.linearize(hard(3, "ffffff")).verdict, "none 7 5")

    def test_without_threads(self) -> None:
        """Where there is no thread more, the search is made all the same; and on a thread that is not the first."""
        with unittest.mock.patch.object(threading.Thread, "start", side_effect=RuntimeError("can't start new thread")):
            self.assertEqual(atomfs.linearize(NONE), NoOrder(13, 11))
        found: List[object] = []
        thread = threading.Thread(target=lambda: found.append(atomfs.linearize(NONE)))
        thread.start()
        thread.join()
        self.assertEqual(found, [NoOrder(13, 11)])

    def test_errors_aside(self) -> None:
        """An error of a slice on a thread of its own is the caller's."""
        with unittest.mock.patch("atomfs._linearize._FIRST", 0):
            self.assertRaisesRegex(atomfs.Error, "line 2: BadLine", atomfs.linearize, "atomfs-journal 1\nnothing\n")


if __name__ == "__main__":
    unittest.main()
