"""Functions under interleavings that are drawn: what is found, that a seed repeats, and what bad input is told."""
import _thread
import gc
import html
import linecache
import os
import pathlib
import pickle
import queue
import random
import re
import signal
import subprocess
import sys
import tempfile
import threading
import time
import unittest
import unittest.mock
import weakref
from typing import Any, Callable, Dict, List, Optional, Set, Tuple

import atomfs
from atomfs import PCT, ScheduleError, explore
from atomfs._explore import hooks

N = "/sandbox/n"
THIS = os.path.basename(__file__)
# Locks that no run has made: of the module, of a class, of an object.
OLD = threading.Lock()


class Store:
    lock = threading.RLock()

    def __init__(self) -> None:
        self.own = threading.Lock()


STORE = Store()


def add(tree: atomfs.Tree) -> None:
    number = int(tree.read("/n"))
    tree.write("/n", 0, b"%d" % (number + 1))


def add_by_open() -> None:
    with open(N) as file:
        number = int(file.read() or "0")
    with open(N, "w") as file:
        file.write(str(number + 1))


def zero(tree: atomfs.Tree) -> None:
    tree.mknod("/n")
    tree.write("/n", 0, b"0")


def zero_by_open() -> None:
    pathlib.Path(N).write_text("0")


def is_two(tree: atomfs.Tree, replies: Dict[str, Any]) -> None:
    assert tree.read("/n") == b"2", tree.read("/n")


def passes(tree: atomfs.Tree, replies: Dict[str, Any]) -> None:
    pass


async def _coroutine(tree: atomfs.Tree) -> None:
    pass


def failed(case: unittest.TestCase, *given: Any, **named: Any) -> ScheduleError:
    """The error of a run that fails."""
    with case.assertRaises(ScheduleError) as raised:
        explore(*given, **named)
    return raised.exception


def line_of(event: Any) -> Any:
    """The line of source of an event."""
    return event.line


def sources(error: ScheduleError) -> Dict[str, str]:
    """The lines of source that the page of an error has, each as it is escaped, by the number of the call."""
    return dict(re.findall("^# source ([0-9]+) (.*)$", html.unescape(error.html), re.M))


class Found(unittest.TestCase):
    def look(self, error: ScheduleError) -> None:
        """The script has the journal, and the run that is made again is the same."""
        self.assertEqual(atomfs.run(error.script).partition("tree\n")[0], error.journal)
        self.assertEqual(error.verdict, "lawful")
        again = error.replay()
        self.assertEqual((again.events, again.schedule, again.journal), (error.events, error.schedule, error.journal))
        self.assertEqual((type(again.__cause__), str(again.__cause__)), (type(error.__cause__), str(error.__cause__)))
        self.assertEqual(error.draw(), atomfs.draw(error.script))
        self.assertEqual(error.trace, atomfs.trace(error.script))

    def test_lost_update(self) -> None:
        """Of a tree: two switches are left, at which both have read before one has written."""
        for draws in ("both", "uniform", PCT(2), PCT(3)):
            with self.subTest(draws):
                error = failed(self, {"a": add, "b": add}, is_two, before=zero, draws=draws)
                self.look(error)
                self.assertEqual((error.switches, error.replies), (2, {"a": None, "b": None}))
                self.assertEqual([one.call.split()[0] for one in error.events], ["read", "read", "write", "write"])
                first, second, third, last = (one.thread for one in error.events)
                self.assertTrue(first == last != second == third)

    def test_by_open(self) -> None:
        """Of the same function over `open`, unchanged: each event has the line that made the call."""
        error = failed(self, {"a": add_by_open, "b": add_by_open}, is_two, before=zero_by_open, patch=True)
        self.look(error)
        self.assertEqual(error.switches, 2)
        lines = {line_of(one).text for one in error.events}
        self.assertLessEqual({"with open(N) as file:", 'number = int(file.read() or "0")'}, lines)
        first = error.events[0]
        self.assertEqual((line_of(first).file, first.call, first.reply), (__file__, "stat /n", "stat file 1"))
        self.assertIn(f"{first.thread}  {THIS}:{line_of(first).number}  {line_of(first).text}", str(error))
        self.assertFalse(os.path.exists(N))

    def test_source_in_page(self) -> None:
        """The page has the line that made each call, the ones before the threads too, and so has that of a copy of the error."""
        error = failed(self, {"a": add_by_open, "b": add_by_open}, is_two, before=zero_by_open, patch=True)
        begun = [f"{one.line} {line_of(one).text}" for one in error.events if one.begins]
        told = list(sources(error).values())
        self.assertEqual(list(sources(error)), [str(number) for number in range(1, len(told) + 1)])
        self.assertEqual(told[-len(begun) :], begun)
        self.assertEqual({one.split(" ", 1)[1] for one in told[: -len(begun)]}, {'pathlib.Path(N).write_text("0")'})
        self.assertEqual(len(told), error.journal.count("\nbegin "))
        self.assertEqual(pickle.loads(pickle.dumps(error)).html, error.html)
        self.assertEqual(sources(failed(self, {"a": ["stat /"]}, lambda tree, replies: False)), {})

    def test_hostile_source(self) -> None:
        """Whatever the line and its file are called, the page is printable and has no element more; and no sign of it comes to a terminal."""
        line = "tree.mkdir('/a') # </pre><script>run()</script> \x1b[2J \u202e \xe4 %41"
        file = "<b>\udcff\n.py"
        self.addCleanup(linecache.cache.pop, file)
        linecache.cache[file] = len(line), None, [line + "\n"], file
        space: Dict[str, Any] = {}
        exec(compile(f"def hostile(tree): {line}\n", file, "exec"), space)
        error = failed(self, {"a": space["hostile"]}, lambda tree, replies: False)
        shown = "<b>\\udcff%0A.py:1 tree.mkdir('/a') # </pre><script>run()</script> %1B[2J %E2%80%AE %C3%A4 %2541"
        self.assertEqual(sources(error), {"1": shown})
        plain = atomfs.draw(error.script, html=True).html
        self.assertEqual([error.html.count(one) for one in "<>"], [plain.count(one) for one in "<>"])
        self.assertIsNone(re.search("[^\n -~]", error.html))
        self.assertIn("\\x1b[2J \\u202e \xe4 %41", str(error))
        self.assertIsNone(re.search("[\x1b\u202e\udcff]", str(error)))
        linecache.cache[file] = 999, None, ["x" * 999 + "\n"], file
        self.assertEqual(sources(error), {"1": "<b>\\udcff%0A.py:1 " + "x" * 200 + ".."})

    def test_directory(self) -> None:
        """The tree stands where it is said."""

        def make() -> None:
            os.mkdir("/elsewhere/d")

        error = failed(self, {"a": make, "b": make}, lambda tree, replies: replies["b"] is None, patch="/elsewhere")
        self.assertIsInstance(error.replies["b"], FileExistsError)
        self.assertEqual(error.replies["b"].filename, "/elsewhere/d")

    def test_mixed(self) -> None:
        """A list of calls beside a function makes these, and so it does before."""
        error = failed(
            self, {"a": ["mkdir /a", "stat /a"], "b": lambda tree: tree.rename("/b", "/a")},
            lambda tree, replies: isinstance(replies["b"], OSError), before=["mkdir /b"],
        )  # fmt: skip
        self.look(error)
        self.assertEqual((error.replies["b"], len(error.replies["a"])), (None, 2))
        self.assertEqual(failed(self, {"a": ["mkdir /a"]}, lambda tree, replies: False, before=zero).switches, 0)

    def test_helped(self) -> None:
        """Calls meet half-way: a rename helps a mkdir that is under way below what it moves."""
        journals = []

        def move(tree: atomfs.Tree) -> None:
            tree.rename("/a", "/b")

        def make(tree: atomfs.Tree) -> None:
            tree.mkdir("/a/d/x")

        def prepare(tree: atomfs.Tree) -> None:
            tree.makedirs("/a/d")

        explore({"m": make, "r": move}, lambda tree, replies: journals.append(tree.journal()), runs=100, before=prepare)
        helped = [one for one in journals if one.endswith("commit 4\ncommit 5\nreturn 5 ok\nreturn 4 ok\n")]
        self.assertTrue(helped)

    def test_calls_of_the_check(self) -> None:
        """A check may change the tree; the journal and the script of the error end before that."""

        def check(tree: atomfs.Tree, replies: Dict[str, Any]) -> None:
            tree.rename("/n", "/m")
            self.assertEqual(tree.check(), "lawful")
            raise KeyError("none")

        error = failed(self, {"a": add}, check, before=zero)
        self.look(error)
        self.assertIs(type(error.__cause__), KeyError)
        self.assertNotIn("rename", error.journal)

    def test_debugged(self) -> None:
        """A debugger stops at each line that makes a call, in the order in which the threads of the cut-down run come there."""
        program = f"""
import sys
sys.path.insert(0, {os.path.dirname(__file__)!r})
import test_functions as these, atomfs
try:
    atomfs.explore({{"a": these.add, "b": these.add}}, these.is_two, before=these.zero)
except atomfs.ScheduleError as error:
    print("again", error.replay(debug=True).events == error.events)
"""
        words = "p 'thread ' + __import__('threading').current_thread().name\nc\n" * 4
        ran = subprocess.run([sys.executable, "-c", program], input=words, capture_output=True, text=True, timeout=60)
        self.assertEqual(ran.returncode, 0, ran.stderr)
        stops = re.findall(r"add\(\)\n-> (.*)\n\(Pdb\) 'thread (.)'", ran.stdout)
        read, write = 'number = int(tree.read("/n"))', 'tree.write("/n", 0, b"%d" % (number + 1))'
        first, last = stops[0][1], stops[-1][1]
        self.assertEqual(stops, [(read, first), (write, first), (read, last), (write, last)])
        self.assertNotEqual(first, last)
        self.assertRegex(ran.stdout, "again True")

    def test_list_of_nothing(self) -> None:
        """An error of a listing names one path, as it does elsewhere."""
        replies = failed(self, {"a": lambda tree: tree.listdir("/none")}, lambda tree, replies: False).replies
        self.assertEqual((replies["a"].filename, replies["a"].filename2), ("/none", None))

    def test_goes_away(self) -> None:
        """The tree of a run goes away with it, though no garbage is looked for: many runs take no more memory than few."""
        trees = []

        def check(tree: atomfs.Tree, replies: Dict[str, Any]) -> None:
            trees.append(weakref.ref(tree))
            self.assertLessEqual(sum(one() is not None for one in trees), 2)

        explore({"a": add, "b": add}, check, runs=20, before=zero)
        explore({"a": add_by_open, "b": add_by_open}, check, runs=20, before=zero_by_open, patch=True)
        self.assertEqual(len(trees), 40)

    def test_pickled(self) -> None:
        """The error goes to another process, where it does not run again."""
        error = failed(self, {"a": add, "b": add}, is_two, before=zero)
        copy = pickle.loads(pickle.dumps(error))
        self.assertEqual((str(copy), copy.events, copy.seed), (str(error), error.events, error.seed))
        self.assertRaisesRegex(RuntimeError, "in the process that found it", copy.replay)

    def test_passes(self) -> None:
        """How many runs passed, and how much was seen."""
        seen = explore({"a": add, "b": add}, passes, runs=200, before=zero)
        self.assertEqual((seen, seen.outcomes, seen.new, seen.lately), (200, 2, 2, 200))
        self.assertEqual((seen.pairs, seen.met), (4, 4))
        self.assertEqual((str(seen), f"{seen:,}"), ("200", "200"))
        self.assertEqual(seen.summary, "200 runs, 2 outcomes, 2 new in the last 200 runs; 4 of 4 pairs of calls met")
        seen = explore({"a": add, "b": add}, passes, runs=1_500, before=zero)
        self.assertEqual((seen.new, seen.lately), (0, 1_000))
        self.assertEqual(pickle.loads(pickle.dumps(seen)).outcomes, 2)


class Draws(unittest.TestCase):
    def orders(self, draws: Any, runs: int) -> List[Tuple[str, bytes]]:
        """Of each run which thread begins each call, and what the file has at the end."""
        found = []

        def check(tree: atomfs.Tree, replies: Dict[str, Any]) -> None:
            begins = [line.split()[2] for line in tree.journal().splitlines() if line.startswith("begin")]
            found.append(("".join(begins[2:]), tree.read("/n")))

        explore({"a": add, "b": add}, check, runs=runs, before=zero, draws=draws)
        return found

    def test_by_turns(self) -> None:
        """Odd seeds are drawn one way and even ones the other."""
        both = self.orders("both", 40)
        self.assertEqual(both[::2], self.orders("uniform", 40)[::2])
        self.assertEqual(both[1::2], self.orders(PCT(3), 40)[1::2])
        self.assertNotEqual(both, self.orders("uniform", 40))

    def test_depth(self) -> None:
        """Where no priority changes no thread is interrupted, and else at most as often as one does."""
        for depth in (1, 2, 3):
            switches = {
                sum(one != other for one, other in zip(order, order[1:])) for order, _ in self.orders(PCT(depth), 200)
            }
            self.assertEqual(switches, set(range(1, depth + 1)))

    def test_bound(self) -> None:
        """A lost update has depth 2, and is found more often than the bound says."""
        self.assertEqual((PCT(3).bound(2, 10), PCT(1).bound(4, 1_000)), (1 / 200, 1 / 4))
        found = self.orders(PCT(2), 500)
        lost = sum(number == b"1" for _, number in found)
        self.assertGreater(lost / len(found), PCT(2).bound(2, 28))
        self.assertEqual({number for _, number in self.orders(PCT(1), 100)}, {b"2"})

    def test_loop(self) -> None:
        """A thread of the highest priority that waits in a loop lets the others go on."""

        def wait(tree: atomfs.Tree) -> str:
            while not tree.exists("/n"):
                pass
            return "there"

        def sleep(tree: atomfs.Tree) -> str:
            while not tree.exists("/n"):
                time.sleep(1)
            return "there"

        each: Tuple[Any, ...] = (PCT(1), PCT(3), "uniform")
        for function in (wait, sleep):
            for draws in each:
                explore({"a": function, "b": zero}, lambda tree, replies: replies["a"] == "there", runs=30, draws=draws)

    def test_bad(self) -> None:
        for draws in ("random", 3, None):
            self.assertRaisesRegex(ValueError, "draws are 'both'", explore, {"a": add}, passes, draws=draws)
        for depth in (0, 1_001):
            self.assertRaisesRegex(ValueError, "a depth is 1 to 1,000", PCT, depth)
        self.assertRaises(TypeError, PCT, "3")


class Waits(unittest.TestCase):
    """Locks, conditions, events and queues that are made within a run, sleeps, and what ends a wait."""

    def run_all(self, threads: Any, check: Any, **named: Any) -> int:
        return explore(threads, check, runs=100, **named)

    def test_lock(self) -> None:
        """A lock repairs the lost update, of every kind, and one of the tree does."""

        def within(lock: List[Any]) -> Any:
            def function(tree: atomfs.Tree) -> None:
                with lock[0]:
                    add(tree)

            return function

        def of_tree(tree: atomfs.Tree) -> None:
            with tree.lock:
                add(tree)

        for kind in ("Lock", "RLock", "Condition", "Semaphore"):
            lock: List[Any] = []

            def before(tree: atomfs.Tree, kind: str = kind) -> None:
                lock[:] = [getattr(threading, kind)()]
                zero(tree)

            self.run_all({"a": within(lock), "b": within(lock), "c": within(lock)}, _is_three, before=before)
        self.run_all({"a": of_tree, "b": of_tree, "c": of_tree}, _is_three, before=zero)

    def test_old_locks(self) -> None:
        """So do locks that were made before, in the variables of a module, a class and an object; behind the runs they are as they were."""

        def adds(lock: Callable[[], Any]) -> Any:
            def function(tree: atomfs.Tree) -> None:
                with lock():
                    add(tree)

            return function

        def leaves(tree: atomfs.Tree) -> None:
            OLD.acquire()

        real = OLD, Store.lock, STORE.own
        for lock in (lambda: OLD, lambda: Store.lock, lambda: STORE.own):
            self.run_all({"a": adds(lock), "b": adds(lock), "c": adds(lock)}, _is_three, before=zero)
        self.run_all({"a": leaves}, passes)
        for one, other in zip((OLD, Store.lock, STORE.own), real):
            self.assertIs(one, other)
        self.assertFalse(OLD.locked())

    def test_handed_on(self) -> None:
        """By an event, a condition, a queue of each kind and a barrier, one thread waits for the other."""

        def before(tree: atomfs.Tree) -> None:
            made.update(event=threading.Event(), queue=queue.Queue(), simple=queue.SimpleQueue())
            made.update(condition=threading.Condition(), barrier=threading.Barrier(2))

        def puts(tree: atomfs.Tree) -> None:
            made["queue"].put(1)
            made["simple"].put(2)
            tree.mkdir("/a")
            made["event"].set()
            made["barrier"].wait()
            with made["condition"]:
                tree.mkdir("/c")
                made["condition"].notify()

        def gets(tree: atomfs.Tree) -> List[object]:
            found = [made["queue"].get(), made["simple"].get()]
            made["event"].wait()
            found.append(tree.exists("/a"))
            made["barrier"].wait()
            with made["condition"]:
                made["condition"].wait_for(lambda: tree.exists("/c"))
            return found

        made: Dict[str, Any] = {}
        self.run_all({"p": puts, "g": gets}, lambda tree, replies: replies["g"] == [1, 2, True], before=before)

    def test_time(self) -> None:
        """A sleep and a wait take none. A wait ends by its time where no other thread can go on, and the clock is there then."""

        def sleeps(tree: atomfs.Tree) -> Tuple[float, ...]:
            times = time.time(), time.monotonic_ns(), time.perf_counter()
            time.sleep(1_000_000)
            return time.time() - times[0], time.monotonic_ns() - times[1], time.perf_counter() - times[2]

        def waits(tree: atomfs.Tree) -> Optional[Tuple[bool, float]]:
            event, since = threading.Event(), time.monotonic()
            came = event.wait(3_600)
            try:
                queue.Queue().get(timeout=3_600)
            except queue.Empty:
                return came, time.monotonic() - since
            return None

        began = time.monotonic()
        answers = []
        self.run_all({"s": sleeps, "w": waits}, lambda tree, replies: answers.append(replies))
        self.assertLess(time.monotonic() - began, 60)
        for answer in answers:
            for seconds, per in zip(answer["s"], (1, 10**9, 1)):
                self.assertLess(abs(seconds / per - 1_000_000), 7_300)
            came, seconds = answer["w"]
            self.assertFalse(came)
            self.assertGreaterEqual(seconds, 7_200)

    def test_deadlock(self) -> None:
        """Two locks in two orders: who waits for what is told, at which line, and who has it since when."""

        def before(tree: atomfs.Tree) -> None:
            locks[:] = [threading.Lock(), threading.RLock()]

        def one(tree: atomfs.Tree) -> None:
            with locks[0]:
                tree.mkdir("/one")
                with locks[1]:
                    pass

        def other(tree: atomfs.Tree) -> None:
            with locks[1]:
                with locks[0]:
                    pass

        locks: List[Any] = []
        error = failed(self, {"a": one, "b": other}, passes, before=before)
        self.assertIs(type(error.__cause__), atomfs.DeadlockError)
        for name, lock, since, of in (("a", 1, 0, "b"), ("b", 0, 1, "a")):
            words = rf"{name} waits for a lock that {of} has since {THIS}:\d+: with locks\[{lock}\]: at {THIS}:\d+: with locks\[{lock}\]:"
            self.assertRegex(str(error), words)
        self.assertEqual(atomfs.run(error.script).partition("tree\n")[0], error.journal)
        self.assertIs(type(error.replay().__cause__), atomfs.DeadlockError)

    def test_nobody_ends_it(self) -> None:
        """An event that nobody sets, and a lock whose thread has come to its end."""

        def waits(tree: atomfs.Tree) -> None:
            threading.Event().wait()

        error = failed(self, {"a": waits, "b": add}, passes)
        self.assertRegex(
            str(error.__cause__), rf"a waits for what another has to do at {THIS}:\d+: threading.Event\(\).wait\(\)"
        )

        def before(tree: atomfs.Tree) -> None:
            lock[:] = [threading.Lock()]

        lock: List[Any] = []
        takes: Callable[[atomfs.Tree], object] = lambda tree: lock[0].acquire()  # noqa: E731
        error = failed(self, {"a": takes, "b": takes}, passes, before=before)
        self.assertRegex(str(error.__cause__), "waits for a lock that . has since .*, and has come to its end")

    def test_as_they_are(self) -> None:
        """Locks of a run answer as those of Python do."""

        def function(tree: atomfs.Tree) -> object:
            lock, again = threading.Lock(), threading.RLock()
            found: List[object] = [
                lock.acquire(),
                lock.locked(),
                lock.acquire(False),
                lock.acquire(timeout=5),
                lock.release(),  # type: ignore[func-returns-value]
                lock.locked(),
            ]
            found += [again.acquire(), again.acquire(), again.release(), again.release()]  # type: ignore[func-returns-value]
            both: Tuple[Any, ...] = (lock, again)
            for unlocked in both:
                try:
                    unlocked.release()
                except RuntimeError as error:
                    found.append(str(error))
            lock.acquire()
            found.append(lock.acquire(timeout=0))
            try:
                lock.acquire(False, 1)
            except ValueError as error:
                found.append(str(error))
            return found

        answers = []
        explore({"a": function}, lambda tree, replies: answers.append(replies["a"]), runs=1)
        self.assertEqual(answers, [_LOCKS])

    def test_left_alone(self) -> None:
        """Outside of a run all is as it was, also behind one that fails; a turn is nothing there."""
        real = time.sleep, time.time, threading.Lock, threading.RLock, queue.SimpleQueue, tempfile._name_sequence  # type: ignore[attr-defined]
        state, collects, processors = random.getstate(), gc.isenabled(), os.sched_getaffinity(0)
        failed(self, {"a": add, "b": add}, is_two, before=zero)
        now = time.sleep, time.time, threading.Lock, threading.RLock, queue.SimpleQueue, tempfile._name_sequence  # type: ignore[attr-defined]
        self.assertEqual(now, real)
        self.assertEqual((random.getstate(), gc.isenabled(), os.sched_getaffinity(0)), (state, collects, processors))
        self.assertIsNone(atomfs.turn())  # type: ignore[func-returns-value]
        self.assertGreater(time.time(), 1_600_000_000)

    def test_interrupted(self) -> None:
        """An interrupt from the keyboard ends the run and its threads, and leaves nothing behind."""

        def interrupts(tree: atomfs.Tree) -> None:
            signal.pthread_kill(main, signal.SIGINT)
            goes_on(tree)

        def goes_on(tree: atomfs.Tree) -> None:
            while True:
                tree.exists("/")

        # What starts the tests may have told them to take no notice of an interrupt.
        self.addCleanup(signal.signal, signal.SIGINT, signal.signal(signal.SIGINT, signal.default_int_handler))
        main = threading.main_thread().ident or 0
        real, count = time.sleep, threading.active_count()
        self.assertRaises(KeyboardInterrupt, explore, {"a": interrupts, "b": goes_on}, passes, budget=10**9)
        self.assertEqual((time.sleep, threading.active_count()), (real, count))

    def test_turn(self) -> None:
        """Another thread may go on at `turn`, where nothing else lets it."""

        def function(tree: atomfs.Tree) -> object:
            found.append(0)
            number = len(found)
            atomfs.turn()
            return number == len(found)

        def before(tree: atomfs.Tree) -> None:
            found.clear()

        found: List[int] = []
        seen: Set[object] = set()
        explore(
            {"a": function, "b": function},
            lambda tree, replies: seen.add((replies["a"], replies["b"])),
            runs=50,
            before=before,
        )
        self.assertEqual(len(seen), 3)


def _is_three(tree: atomfs.Tree, replies: Dict[str, Any]) -> None:
    assert tree.read("/n") == b"3", tree.read("/n")


_LOCKS = [
    *(True, True, False, False, None, False, True, True, None, None),
    *("release unlocked lock", "cannot release un-acquired lock", False),
    "can't specify a timeout for a non-blocking call",
]


class OfLater(unittest.TestCase):
    """What Python 3.13 has and those before have not: locks that are classes, and another function that starts threads."""

    class lock:
        """In the place of `_thread.lock`, which can be called there."""

        def __init__(self) -> None:
            self.real = _thread.allocate_lock()

        def __enter__(self) -> bool:
            return self.real.acquire()

        def __exit__(self, *error: object) -> None:
            self.real.release()

        def __getattr__(self, name: str) -> Any:
            return getattr(self.real, name)

    def test_class(self) -> None:
        """A class in the place of one: what it makes, and what is of it."""
        kind: Any = hooks._made(self.lock, hooks.Lock)
        self.assertIsInstance(kind, type)
        self.assertEqual((kind.__name__, kind.__doc__), ("lock", self.lock.__doc__))
        self.assertIs(type(kind()), self.lock)
        ident = _thread.get_ident()
        with unittest.mock.patch.dict(hooks.THREADS, {ident: None}):  # type: ignore[attr-defined]
            made = kind()
        self.assertIs(type(made), hooks.Lock)
        for one in (made, kind()):
            self.assertIsInstance(one, kind)
        self.assertNotIsInstance(3, kind)
        self.assertTrue(issubclass(hooks.Lock, kind) and issubclass(self.lock, kind) and not issubclass(int, kind))
        # As a type it may stand in annotations.
        self.assertEqual(str(kind[int]), "test_functions.lock[int]".replace("test_functions", self.lock.__module__))
        self.assertTrue(callable(hooks._made(_thread.allocate_lock, hooks.Lock)))

    def test_in_runs(self) -> None:
        """Functions of a run are given the locks of the run where `threading.Lock` is a class, and after it the class is there again."""
        kinds = set()

        def work(tree: atomfs.Tree) -> None:
            lock = threading.Lock()
            kinds.add((type(lock), isinstance(lock, threading.Lock)))
            with lock:
                tree.exists("/f")

        with unittest.mock.patch.object(threading, "Lock", self.lock):
            explore({"a": work, "b": work}, lambda tree, replies: True, 3)
            self.assertIs(threading.Lock, self.lock)
        self.assertEqual(kinds, {(hooks.Lock, True)})

    def test_joinable(self) -> None:
        """A thread of its own is refused also where another function starts it."""
        started = []

        def start_joinable_thread(function: object, handle: object = None, daemon: bool = True) -> None:
            started.append((function, handle, daemon))

        start = hooks._starts(start_joinable_thread)
        start(print, handle=3, daemon=False)
        self.assertEqual(started, [(print, 3, False)])
        me = unittest.mock.Mock()
        me.run.starts.side_effect = KeyError
        with unittest.mock.patch.dict(hooks.THREADS, {_thread.get_ident(): me}):  # type: ignore[attr-defined]
            self.assertRaises(KeyError, start, threading.Thread(name="mine")._bootstrap, handle=3)  # type: ignore[attr-defined]
        me.run.starts.assert_called_once_with(me, "mine")
        self.assertEqual(len(started), 1)


class BadInput(unittest.TestCase):
    def cause(self, threads: Any, **named: Any) -> BaseException:
        """What ended a run."""
        error = failed(self, threads, passes, runs=1, **named)
        self.assertEqual(error.seed, 1)
        self.assertIsInstance(error.__cause__, atomfs.RunError)
        assert error.__cause__
        return error.__cause__

    def test_endless(self) -> None:
        """A function that never ends: its last lines are told."""

        def endless(tree: atomfs.Tree) -> None:
            while True:
                tree.exists("/a")

        cause = self.cause({"a": endless, "b": add}, before=zero, budget=2_000)
        self.assertIs(type(cause), atomfs.BudgetError)
        words = rf"^the functions took more than 2,000 turns; their last calls:(\n  . at {THIS}:\d+: .*){{8}}$"
        self.assertRegex(str(cause), words)

    def test_raises(self) -> None:
        """What a function raises is its reply."""

        def raises(tree: atomfs.Tree) -> None:
            raise SystemExit(3)

        def misses(tree: atomfs.Tree) -> None:
            tree.read("/none")

        replies = failed(self, {"a": raises, "b": misses}, lambda tree, replies: False).replies
        self.assertEqual((replies["a"].code, replies["b"].filename), (3, "/none"))
        self.assertIsInstance(replies["b"], FileNotFoundError)

    def test_starts_a_thread(self) -> None:
        """A function that starts a thread is told so by name, also where it takes no notice."""

        def starts(tree: atomfs.Tree) -> None:
            try:
                threading.Thread(target=print, name="mine").start()
            except atomfs.ThreadError:
                pass

        cause = self.cause({"a": starts})
        self.assertIs(type(cause), atomfs.ThreadError)
        self.assertRegex(str(cause), f"thread a starts a thread of its own, mine at {THIS}:")

    def test_stranger(self) -> None:
        """A call from a thread that nobody knows is refused there, and ends the run."""

        def serve() -> None:
            tree = trees.get()
            try:
                tree.mkdir("/a")
            except atomfs.ThreadError as error:
                refused.append(error)

        def asks(tree: atomfs.Tree) -> None:
            trees.put(tree)
            while True:
                tree.exists("/")

        trees: Any = queue.Queue()
        refused: List[object] = []
        threading.Thread(target=serve, name="stranger", daemon=True).start()
        cause = self.cause({"a": asks}, budget=10**9)
        self.assertEqual(refused, [cause])
        self.assertRegex(str(cause), f"thread stranger calls the tree of a run, and is none of its threads at {THIS}:")

    def test_patience(self) -> None:
        """A function that stays away, here at a lock that is Python's own, is told so by name and line; the others end."""

        def takes(tree: atomfs.Tree) -> None:
            with old:
                pass

        def ends(tree: atomfs.Tree) -> None:
            try:
                for _ in range(9):
                    tree.exists("/")
            finally:
                ended.append(1)

        ended: List[int] = []
        old = threading.Lock()
        with old:
            error = failed(self, {"a": takes, "b": ends}, passes, runs=1, patience=0.2)
        cause = error.__cause__
        self.assertIs(type(cause), atomfs.PatienceError)
        self.assertRegex(str(cause), rf"^thread a has made no call for 0.2 seconds at {THIS}:\d+: with old:")
        self.assertTrue(ended)

    def test_check(self) -> None:
        """What a check raises is the cause; what stops a program stops it."""

        def check(tree: atomfs.Tree, replies: Dict[str, Any]) -> None:
            raise KeyboardInterrupt

        self.assertRaises(KeyboardInterrupt, explore, {"a": add}, check)
        self.assertIs(type(failed(self, {"a": add}, lambda tree, replies: 1 / 0).__cause__), ZeroDivisionError)

    def test_seeds(self) -> None:
        for seed, runs in ((2**63, 1), (2**63 - 1, 2), (1, 2**63), (2**70, 0)):
            with self.assertRaisesRegex(ValueError, f"a seed is below {2**63}"):
                explore({"a": add}, passes, runs, seed)
        self.assertRaisesRegex(ValueError, "a negative seed", explore, {"a": add}, passes, 1, -1)
        self.assertRaisesRegex(TypeError, "number of runs is a whole number", explore, {"a": add}, passes, "1")
        self.assertEqual(explore({"a": add}, passes, 1, 2**63 - 1), 1)

    def test_threads(self) -> None:
        rows: Tuple[Tuple[Any, str, Any, Dict[str, Any]], ...] = (
            (ValueError, "1 to 256 functions", {}, {"before": zero}),
            (ValueError, "a thread has a name as in a script", {"A": add}, {}),
            (ValueError, "the thread before", {"before": add}, {"before": zero}),
            (TypeError, "a function or a list of calls", {"a": add, "b": "mkdir /a"}, {}),
            (TypeError, "thread a is a coroutine function", {"a": _coroutine}, {}),
            (TypeError, "patch is for functions", {"a": ["mkdir /a"]}, {"patch": True}),
            (ValueError, "a budget is 1 turn", {"a": add}, {"budget": 0}),
            (ValueError, "patience is some seconds", {"a": add}, {"patience": 0}),
            (ValueError, "a directory below the root", {"a": add}, {"patch": "/"}),
            (ValueError, "none of the twelve calls", {"a": add, "b": ["mkdr /a"]}, {}),
        )
        for kind, words, threads, named in rows:
            with self.subTest(words):
                self.assertRaisesRegex(kind, words, explore, threads, passes, **named)

    def test_before(self) -> None:
        """What prepares the tree raises as it is, and waits for nobody."""
        self.assertRaises(FileNotFoundError, explore, {"a": add}, passes, before=lambda tree: tree.rmdir("/none"))
        self.assertRaises(
            atomfs.DeadlockError, explore, {"a": add}, passes, before=lambda tree: threading.Event().wait()
        )

    def test_within(self) -> None:
        """A function that is explored does not explore."""
        replies = failed(self, {"a": lambda tree: explore({"a": add}, passes)}, lambda tree, replies: False).replies
        self.assertEqual(str(replies["a"]), "a function that is explored does not explore")


if __name__ == "__main__":
    unittest.main()
