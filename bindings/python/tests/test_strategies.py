"""Schedules that hypothesis draws and shrinks."""
import importlib.util
import sys
import typing
import unittest
from unittest import mock

import atomfs
import atomfs.strategies
from atomfs import Schedule, ScheduleError, explore

HAS = importlib.util.find_spec("hypothesis")


def add(by: int) -> typing.Callable[[atomfs.Tree], None]:
    def function(tree: atomfs.Tree) -> None:
        number = int(tree.read("/n"))
        data = b"%d" % (number + by)
        tree.write("/n", 0, data)
        tree.truncate("/n", len(data))

    return function


def zero(tree: atomfs.Tree) -> None:
    tree.mknod("/n")
    tree.write("/n", 0, b"0")


def passes(tree: atomfs.Tree, replies: typing.Dict[str, object]) -> None:
    pass


class Schedules(unittest.TestCase):
    def threads(self, switches: typing.Tuple[typing.Tuple[int, int], ...], **named: typing.Any) -> str:
        """Who begins each call by a schedule, as one word."""
        found = []

        def check(tree: atomfs.Tree, replies: typing.Dict[str, object]) -> None:
            begins = [line.split()[2] for line in tree.journal().splitlines() if line.startswith("begin")]
            found.append("".join(" abc"[int(seat)] for seat in begins[2:]))

        count = explore({"a": add(1), "b": add(1)}, check, draws=Schedule(switches), before=zero, **named)
        self.assertEqual((count, len(found)), (1, 1))
        return found[0]

    def test_switches(self) -> None:
        """Without a switch one thread goes after the other; each switch is behind so many turns, and once all are made nobody is interrupted."""
        self.assertEqual(self.threads(()), "aaabbb")
        self.assertEqual(self.threads(((0, 0),), runs=5), "bbbaaa")
        # A read and a write take seven turns, so no call is left half-way here.
        self.assertEqual(self.threads(((0, 7), (7, 3))), "baaabb")
        self.assertEqual(self.threads(((7, 0), (7, 0), (7, 0))), "ababba")

    def test_as_it_is(self) -> None:
        """A failing run of a schedule is not cut down, which hypothesis does."""
        with self.assertRaises(ScheduleError) as raised:
            explore(
                {"a": add(1), "b": add(1)}, lambda tree, replies: False, draws=Schedule(((4, 0), (3, 0))), before=zero
            )
        self.assertEqual(raised.exception.trials, 0)
        self.assertGreater(raised.exception.switches, 2)

    @unittest.skipUnless(HAS, "there is no hypothesis: apt-get install python3-hypothesis")
    def test_shrinks(self) -> None:
        """Data and schedule shrink together: to the least numbers and one interruption, at the first place where it matters."""
        from hypothesis import Phase, given, settings, strategies  # type: ignore[import]

        seen: typing.List[typing.Tuple[Schedule, int, int]] = []

        def test(schedule: Schedule, one: int, other: int) -> None:
            def check(tree: atomfs.Tree, replies: typing.Dict[str, object]) -> None:
                if int(tree.read("/n")) != one + other:
                    seen.append((schedule, one, other))
                    raise AssertionError("lost")

            explore({"a": add(one), "b": add(other)}, check, draws=schedule, before=zero)

        numbers = strategies.integers(0, 99)
        drawn = given(schedule=atomfs.strategies.schedules(), one=numbers, other=numbers)
        fixed: typing.Dict[str, typing.Any] = {"deadline": None, "database": None, "derandomize": True}
        limited = settings(max_examples=300, phases=(Phase.generate, Phase.shrink), **fixed)
        self.assertRaises(ScheduleError, limited(drawn(test)))
        schedule, one, other = seen[-1]
        self.assertEqual((len(schedule.switches), one, other), (1, 0, 1))

    @unittest.skipUnless(HAS, "there is no hypothesis: apt-get install python3-hypothesis")
    def test_bounds(self) -> None:
        from hypothesis import find, settings

        two = lambda schedule: len(schedule.switches) == 2  # noqa: E731
        found = find(atomfs.strategies.schedules(2, 5), two, settings=settings(database=None))
        self.assertEqual(found, Schedule(((0, 0), (0, 0))))
        for bad in (-1, "1"):
            self.assertRaises((ValueError, TypeError), atomfs.strategies.schedules, bad)

    def test_missing(self) -> None:
        """Where there is no hypothesis, it says what is missing."""
        with mock.patch.dict(sys.modules, {"hypothesis.strategies": None, "hypothesis": None}):
            self.assertRaisesRegex(ImportError, "needs hypothesis: apt-get install", atomfs.strategies.schedules)


if __name__ == "__main__":
    unittest.main()
