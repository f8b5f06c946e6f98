"""Runs by executors: processes, and the workers of dask's `distributed` where that is installed."""
import concurrent.futures
import importlib.util
import io
import os
import pathlib
import sys
import tempfile
import typing
import unittest
import zlib
from unittest import mock

import atomfs
from atomfs import ScheduleError, explore

# Where a worker that is to die leaves a file, so that it dies once.
DIES = "ATOMFS_TEST_DIES"


def add(tree: atomfs.Tree) -> None:
    number = int(tree.read("/n"))
    tree.write("/n", 0, b"%d" % (number + 1))


def zero(tree: atomfs.Tree) -> None:
    tree.mknod("/n")
    tree.write("/n", 0, b"0")


def add_twice(tree: atomfs.Tree) -> None:
    add(tree)
    add(tree)


def seldom(tree: atomfs.Tree, replies: typing.Dict[str, object]) -> None:
    """One run of some 300 fails, by what its calls were."""
    assert zlib.crc32(tree.journal().encode()) % 300


def passes(tree: atomfs.Tree, replies: typing.Dict[str, object]) -> None:
    """A worker that is to die does so, once, or each time."""
    place = os.environ.get(DIES)
    if place and tree.read("/n") == b"2":
        if place == "always":
            os._exit(9)
        if not os.path.exists(place):
            pathlib.Path(place).touch()
            os._exit(9)


THREADS = {"a": add_twice, "b": add_twice}


class Processes(unittest.TestCase):
    def first(self, **named: typing.Any) -> ScheduleError:
        with self.assertRaises(ScheduleError) as raised:
            explore(THREADS, seldom, runs=3_000, before=zero, draws="uniform", **named)
        return raised.exception

    def test_first_seed(self) -> None:
        """The first seed that fails is the one that one process finds, and so is all that is told."""
        alone = self.first()
        with concurrent.futures.ProcessPoolExecutor(3) as executor:
            by = self.first(executor=executor)
        self.assertEqual((by.seed, str(by)), (alone.seed, str(alone)))
        self.assertGreater(by.seed, 100)
        self.assertEqual(by.replay().events, alone.events)

    def test_seen(self) -> None:
        """Where all pass, what was seen is the same too; lists of calls are run as well."""
        lists = {"a": ["mkdir /a", "rmdir /a"], "b": ["mkdir /a"]}
        with concurrent.futures.ProcessPoolExecutor(2) as executor:
            rows: typing.Iterable[typing.Tuple[typing.Any, typing.Dict[str, typing.Any]]]
            rows = [(THREADS, {"before": zero}), (lists, {})]
            ways: typing.Tuple[typing.Dict[str, typing.Any], ...] = {}, {"executor": executor}
            for threads, named in rows:
                seen = [explore(threads, passes if named else _any, runs=450, **named, **by) for by in ways]
                self.assertEqual(seen[0].summary, seen[1].summary)

    def test_threads(self) -> None:
        """The workers of a thread pool take turns, since a process explores one thing at a time."""
        with concurrent.futures.ThreadPoolExecutor(2) as executor:
            self.assertEqual(explore(THREADS, passes, runs=250, before=zero, executor=executor), 250)

    def test_lost_worker(self) -> None:
        """The range of a worker that dies is done again."""
        with tempfile.TemporaryDirectory() as folder:
            with mock.patch.dict(os.environ, {DIES: f"{folder}/died"}):
                with concurrent.futures.ProcessPoolExecutor(2) as executor:
                    seen = explore(THREADS, passes, runs=500, before=zero, executor=executor)
                self.assertTrue(os.path.exists(f"{folder}/died"))
        self.assertEqual(seen.summary, explore(THREADS, passes, runs=500, before=zero).summary)

    def test_lost_for_good(self) -> None:
        """A range in which each worker dies is named."""
        with mock.patch.dict(os.environ, {DIES: "always"}):
            with concurrent.futures.ProcessPoolExecutor(1) as executor:
                with self.assertRaisesRegex(RuntimeError, "a worker died 3 times in the runs of the seeds 1 to 100"):
                    explore(THREADS, passes, runs=500, before=zero, executor=executor)

    def test_errors(self) -> None:
        """What is raised at a worker besides a failing run is raised here."""
        with concurrent.futures.ProcessPoolExecutor(1) as executor:
            with self.assertRaises(FileNotFoundError):
                explore(THREADS, passes, runs=10, before=_bad, executor=executor)

    def test_not_sent(self) -> None:
        """A function that no process can be sent is named before any run; threads take it."""

        def local(tree: atomfs.Tree) -> None:
            tree.mknod("/n")

        rows: typing.Iterable[typing.Tuple[str, typing.Any, typing.Any, typing.Any]] = (
            ("thread b", {"a": add, "b": local}, passes, zero),
            ("check", THREADS, lambda tree, replies: True, zero),
            ("before", THREADS, passes, local),
        )
        with concurrent.futures.ProcessPoolExecutor(1) as executor:
            for name, threads, check, before in rows:
                with self.assertRaisesRegex(TypeError, f"^{name} cannot be sent to a process, as a function of a mod"):
                    explore(threads, check, runs=10, before=before, executor=executor)
            with self.assertRaisesRegex(TypeError, "^observe cannot be sent to a process"):
                atomfs.outcomes(THREADS, lambda tree, replies: 1, 10, before=zero, executor=executor)
        with concurrent.futures.ThreadPoolExecutor(1) as threads_alone:
            self.assertEqual(explore({"a": local}, lambda tree, replies: True, runs=5, executor=threads_alone), 5)


def _any(tree: atomfs.Tree, replies: typing.Dict[str, object]) -> None:
    pass


def _bad(tree: atomfs.Tree) -> None:
    tree.rmdir("/none")


@unittest.skipUnless(
    importlib.util.find_spec("distributed"), "there is no distributed: apt-get install python3-distributed"
)
class Dask(unittest.TestCase):
    def test_cluster(self) -> None:
        """The workers of a local cluster find the same first seed."""
        import distributed  # type: ignore[import]

        words = {"n_workers": 2, "threads_per_worker": 1, "dashboard_address": None}
        with self.assertRaises(ScheduleError) as alone:
            explore(THREADS, seldom, runs=3_000, before=zero, draws="uniform")
        with tempfile.TemporaryDirectory() as folder:
            with distributed.LocalCluster(local_directory=folder, **words) as cluster, distributed.Client(
                cluster
            ) as client:
                with self.assertRaises(ScheduleError) as raised:
                    explore(THREADS, seldom, runs=3_000, before=zero, draws="uniform", executor=client.get_executor())
                seen = explore(THREADS, passes, runs=250, before=zero, executor=client.get_executor())
        self.assertEqual(str(raised.exception), str(alone.exception))
        self.assertEqual(seen.summary, explore(THREADS, passes, runs=250, before=zero).summary)


class Terminal(io.StringIO):
    """A standard error that is a terminal, or is none."""

    def __init__(self, is_one: bool) -> None:
        super().__init__()
        self._is_one = is_one

    def isatty(self) -> bool:
        return self._is_one


class Bars(unittest.TestCase):
    def shown(self, is_one: bool, modules: typing.Any) -> str:
        """What comes to standard error."""
        from atomfs._explore import bar

        file = Terminal(is_one)
        with mock.patch.dict(sys.modules, modules), mock.patch.object(sys, "stderr", file), mock.patch.object(
            bar, "_AFTER", 0
        ):
            explore(THREADS, _any, runs=200, before=zero)
        return file.getvalue()

    def test_line(self) -> None:
        """Without tqdm a line, which goes away at the end; nothing where there is no terminal."""
        line = self.shown(True, {"tqdm": None})
        self.assertRegex(line, r"^\r[1-9]\d* of 200 runs, \d+ %")
        self.assertRegex(line, r"\r +\r$")
        self.assertEqual(self.shown(False, {"tqdm": None}), "")

    @unittest.skipUnless(importlib.util.find_spec("tqdm"), "there is no tqdm: apt-get install python3-tqdm")
    def test_tqdm(self) -> None:
        self.assertRegex(self.shown(True, {}), r"\| \d+/200 \[")
        self.assertEqual(self.shown(False, {}), "")


if __name__ == "__main__":
    unittest.main()
