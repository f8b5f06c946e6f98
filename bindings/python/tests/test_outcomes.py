"""What comes of functions, how often, and what may never come."""
import concurrent.futures
import unittest
from typing import Any, Callable, Dict, Tuple

import atomfs
from atomfs import ScheduleError, outcomes


def add(tree: atomfs.Tree) -> None:
    number = int(tree.read("/n"))
    tree.write("/n", 0, b"%d" % (number + 1))


def zero(tree: atomfs.Tree) -> None:
    tree.mknod("/n")
    tree.write("/n", 0, b"0")


def number(tree: atomfs.Tree, replies: Dict[str, Any]) -> int:
    return int(tree.read("/n"))


class Thing:
    """Its `repr` has an address."""


THREADS = {"a": add, "b": add}


class Outcomes(unittest.TestCase):
    def test_counts(self) -> None:
        """Each value with how often it came, the most frequent first, and a seed by which it comes."""
        found = outcomes(THREADS, number, 400, before=zero)
        self.assertEqual(sorted(row.value for row in found), [1, 2])
        self.assertEqual((sum(row.runs for row in found), found.seen), (400, 400))
        self.assertGreaterEqual(found[0].runs, found[1].runs)
        for row in found:
            self.assertEqual(found.count(row.value), row.runs)
            self.assertEqual([one.value for one in outcomes(THREADS, number, 1, row.seed, before=zero)], [row.value])
        first = found[0]
        self.assertIn(f"{first.runs} times, first by seed {first.seed}: {first.value}\n", str(found))
        self.assertEqual(str(found).splitlines()[-1], found.seen.summary)
        self.assertEqual((found.seen.outcomes, found.seen.pairs), (2, 4))

    def test_asserts(self) -> None:
        """Each passes or raises; an error is of a run that is cut down, and says how many break it."""
        found = outcomes(THREADS, number, 400, before=zero)
        self.assertIs(found.never(0).sometimes(1).sometimes(2).always(lambda value: value in (1, 2)), found)
        lost = found.count(1)
        rows: Tuple[Tuple[Callable[[], object], str], ...] = (
            (lambda: found.never(1), f"never 1: {lost} of 400 runs break it"),
            (lambda: found.always(2), f"always 2: {lost} of 400 runs break it"),
        )
        for broken, words in rows:
            with self.assertRaises(ScheduleError) as raised:
                broken()
            error = raised.exception
            self.assertEqual((str(error.__cause__), error.switches), (words, 2))
            self.assertEqual(error.seed, next(row.seed for row in found if row.value == 1))
            self.assertEqual(atomfs.run(error.script).partition("tree\n")[0], error.journal)
            self.assertEqual(str(error.replay().__cause__), words)
        self.assertRaisesRegex(AssertionError, "^sometimes 3: it came in none of these\n.*2\n", found.sometimes, 3)

    def test_addresses(self) -> None:
        """Values that differ by an address alone are one."""
        found = outcomes(THREADS, lambda tree, replies: [Thing()], 30, before=zero)
        self.assertEqual((len(found), found[0].runs), (1, 30))

    def test_executor(self) -> None:
        """By processes it is the same."""
        alone = outcomes(THREADS, number, 350, before=zero)
        with concurrent.futures.ProcessPoolExecutor(2) as executor:
            by = outcomes(THREADS, number, 350, before=zero, executor=executor)
        self.assertEqual((str(by), list(by)), (str(alone), list(alone)))

    def test_lists(self) -> None:
        """Of lists of calls too."""
        found = outcomes({"a": ["mkdir /a"], "b": ["mkdir /a"]}, lambda tree, replies: replies["a"] == [None], 200)
        self.assertEqual({row.value for row in found}, {True, False})

    def test_bad(self) -> None:
        """A run that comes to no end, and one that cannot be observed, are no outcomes."""

        def endless(tree: atomfs.Tree) -> None:
            while True:
                tree.exists("/")

        with self.assertRaises(ScheduleError) as raised:
            outcomes({"a": endless}, number, budget=500)
        self.assertIs(type(raised.exception.__cause__), atomfs.BudgetError)
        with self.assertRaises(ScheduleError) as raised:
            outcomes({"a": zero}, lambda tree, replies: tree.read("/none"))
        self.assertIs(type(raised.exception.__cause__), FileNotFoundError)
        self.assertRaisesRegex(ValueError, "a seed is below", outcomes, THREADS, number, seed=2**63)


if __name__ == "__main__":
    unittest.main()
