"""The two ways by which calls go to the library, the extension in C and ctypes: the same replies, errors and journals."""
import ctypes
import errno
import os
import pathlib
import random
import subprocess
import sys
import sysconfig
import threading
import time
import types
import unittest
import unittest.mock
from typing import Any, Callable, Dict, List, Set, Tuple

import atomfs
from atomfs import _calls, _values
from atomfs._tree import Stat, Step

# How many calls are drawn, and for how long a thread is looked at that is to wait.
DRAWN, SOON = int(os.environ.get("ATOMFS_DRAWN", "3000")), 0.2
HAS_EXTENSION = atomfs.binding() == "extension"
# A tree by each way.
Pair = Tuple[atomfs.Tree, atomfs.Tree]


class Odd:
    """A path, or a number, of a type of its own."""

    def __init__(self, value: Any) -> None:
        self.value = value

    def __fspath__(self) -> Any:
        return self.value

    def __index__(self) -> Any:
        return self.value

    def __repr__(self) -> str:
        return f"Odd({self.value!r})"


class Text(str):
    """A string of a type of its own."""


PATHS: List[Any] = [
    *("/", "/a", "/a/b", "/a/b/c", "/f", "/f/x", "/ü", "/a/\udcff", "//a//", "/a/", "", "a", "/.", "/a/..", "/\0"),
    *(b"/a", b"/f", b"/a/\xff", Text("/a"), Odd("/a"), Odd(b"/f"), pathlib.PurePosixPath("/a/b")),
    *("/" + 255 * "n", "/" + 256 * "n", 2_048 * "/m", 2_049 * "/m", "/\ud800"),
    *(None, 3, 1.5, Odd(3), Odd(None), ["/a"], bytearray(b"/a"), memoryview(b"/a")),
]
NUMBERS: List[Any] = [
    *(
        0,
        1,
        63,
        4_096,
        65_536,
        65_537,
        65_538,
        2**20,
        2**20 + 1,
        2**31,
        2**32,
        2**63 - 1,
        2**63,
        2**64 - 1,
        2**64,
        2**80,
    ),
    *(-1, -(2**63), -(2**80), True, None, "1", 1.0, Odd(5), Odd(-5), Odd("x")),
]
DATA: List[Any] = [
    *(
        b"",
        b"x",
        bytes(range(256)),
        bytes(65_536),
        bytes(65_537),
        bytes(1_048_577),
        bytearray(b"abc"),
        bytearray(70_000),
    ),
    *(memoryview(b"abcdef")[::2], memoryview(bytes(16)).cast("i"), "text", None, 7, [1, 2], Odd(b"x")),
]
# The calls, and what each takes.
CALLS: Dict[str, Tuple[List[Any], ...]] = {
    **dict.fromkeys(("mkdir", "mknod", "unlink", "rmdir", "stat", "readdir", "listdir"), (PATHS,)),
    **dict.fromkeys(("exists", "is_dir", "is_file"), (PATHS,)),
    **dict.fromkeys(("rename", "exchange"), (PATHS, PATHS)),
    **{"list": (PATHS, PATHS, NUMBERS), "read": (PATHS, NUMBERS, NUMBERS), "write": (PATHS, NUMBERS, DATA)},
    **{"truncate": (PATHS, NUMBERS), "write_bytes": (PATHS, DATA)},
}
# Sizes and places that would take the memory of the machine.
HUGE = 2**21


def by_ctypes(tree: atomfs.Tree) -> atomfs.Tree:
    """Lets the calls of a tree go by ctypes."""
    tree._calls = _calls.ByCtypes(Stat, Step)
    return tree


def told(call: Callable[..., object], *given: Any) -> Tuple[Any, ...]:
    """What a call answers, or raises, with what its error says."""
    try:
        answer = call(*given)
        return type(answer), answer
    except (OSError, TypeError, ValueError, MemoryError, atomfs.Error) as error:
        filenames = getattr(error, "filename", None), getattr(error, "filename2", None)
        return type(error), getattr(error, "errno", None), str(error), *map(repr, filenames)


@unittest.skipUnless(HAS_EXTENSION, f"there is no extension here: {atomfs.binding()}")
class BothWays(unittest.TestCase):
    def pair(self, *given: Any, **named: Any) -> Pair:
        trees = atomfs.Tree(*given, **named), by_ctypes(atomfs.Tree(*given, **named))
        for tree in trees:
            self.addCleanup(tree.close)
        return trees

    def same(self, name: str, trees: Pair, *given: Any) -> Tuple[Any, ...]:
        """A call answers the same by both ways."""
        one, other = (told(getattr(tree, name), *given) for tree in trees)
        self.assertEqual(one, other, f"{name}{given!r}"[:500])
        return one

    def same_journals(self, trees: Pair) -> None:
        one, other = trees
        self.assertEqual([len(tree) for tree in trees], [one.tree().count("\n") - 1] * 2)
        self.assertEqual(one.journal(), other.journal())
        self.assertEqual((one.tree(), one.calls, one.calls_before), (other.tree(), other.calls, other.calls_before))
        self.assertEqual((one.check(), other.check()), ("lawful", "lawful"))

    def drawn(self, seed: int, trees: Pair, calls: int = DRAWN) -> Set[object]:
        """Calls that are drawn, of which some are refused."""
        draw, kinds = random.Random(seed), set()
        for _ in range(calls):
            name = draw.choice(list(CALLS))
            given = [draw.choice(kind[:5] if draw.random() < 0.6 else kind) for kind in CALLS[name]]
            if name in ("truncate", "write") and isinstance(given[1], int) and HUGE < given[1] < 2**32:
                continue
            kinds.add(self.same(name, trees, *given)[0])
        return kinds

    def test_drawn(self) -> None:
        """Drawn calls, of which many are given what is none: answers, errors with their words and paths, and journals."""
        trees = self.pair(64)
        kinds = self.drawn(20261130, trees)
        wanted: Set[object] = {FileNotFoundError, FileExistsError, TypeError, ValueError, Stat, bytes, int, list}
        self.assertLessEqual(wanted, kinds if DRAWN >= 3_000 else wanted)
        self.same_journals(trees)

    def test_forgets(self) -> None:
        """The same of trees that forget by themselves."""
        for journal in (atomfs.NONE, atomfs.LAST(7)):
            trees = self.pair(64, journal=journal)
            self.drawn(journal.most, trees, min(DRAWN, 500))
            self.assertGreater(trees[0].calls_before, min(DRAWN, 500) // 5)
            self.same_journals(trees)
        trees = self.pair(64)
        for most in (atomfs.LAST(3), atomfs.ALL, atomfs.LAST(5)):
            for tree in trees:
                tree.keep(most)
            self.drawn(most.most, trees, min(DRAWN, 200))
            self.same_journals(trees)

    def test_limits(self) -> None:
        """The same by the first two sets of limits, and of little room for names."""
        for limits in (atomfs.Limits.V1, atomfs.Limits.V2):
            trees = self.pair(limits=limits)
            self.drawn(limits.value, trees, 500)
            self.same_journals(trees)
        trees = self.pair(64, room=3)
        for number in range(20):
            self.same("mknod", trees, f"/{number}")
        self.drawn(3, trees, 500)
        self.same_journals(trees)

    def test_full_directory(self) -> None:
        """Words of limits: of a full directory, of too many names, of a full tree, of a file that would be too large."""
        trees = self.pair(300, limits=atomfs.Limits.V1)
        for number in range(257):
            last = self.same("mknod", trees, f"/{number:03}")
        self.assertEqual(
            last[1:3], (errno.ENOSPC, "[Errno 28] The directory has 256 entries, and no more may be made in it: '/256'")
        )
        self.assertEqual(self.same("write", trees, "/000", 65_536, b"x")[1], errno.EFBIG)
        trees = self.pair(400)
        for number in range(400):
            last = self.same("mknod", trees, f"/{number:03}")
        self.assertIn("All 400 nodes of the tree are in use", last[2])
        self.assertEqual(self.same("readdir", trees, "/")[1], errno.EOVERFLOW)
        self.assertEqual(len(self.same("listdir", trees, "/")[1]), 399)
        self.assertEqual(self.same("list", trees, b"/", b"/397", 2**40)[1], [b"398"])

    def test_closed(self) -> None:
        """A closed tree, on whichever thread."""
        trees = self.pair()
        for tree in trees:
            tree.close()
        for name, kinds in CALLS.items():
            self.same(name, trees, *(kind[1] for kind in kinds))
        for tree in trees:
            self.assertRaises(atomfs.ClosedError, tree.stat, "/")

    def test_long(self) -> None:
        """Bytes of which more threads run meanwhile, and files of several pieces."""
        trees = self.pair()
        data = bytes(k * 7 % 256 for k in range(3 * 2**20 + 5))
        self.same("write_bytes", trees, "/f", data)
        for offset, count in (
            (0, None),
            (1, None),
            (5, 2**20),
            (0, 2**21 + 1),
            (2**20, 65_537),
            (len(data), 70_000),
            (7, 65_536),
        ):
            came = self.same("read", trees, "/f", offset, count)[1]
            self.assertEqual(came, data[offset:][:count])
        self.assertEqual(self.same("write", trees, "/f", 10, memoryview(bytearray(100_000)))[1], 100_000)
        self.same_journals(trees)

    def test_lengths(self) -> None:
        """How many nodes there are, without the text of the tree but behind a rename and calls by steps."""
        for tree in self.pair(100):
            texts = []
            plain = tree._told_tree
            tree._told_tree = lambda: texts.append(1) or plain()  # type: ignore[assignment, func-returns-value]
            for name in ("/a", "/a/b", "/a", "/x/y"):
                told(tree.mkdir, name)
            tree.write_bytes("/a/f", b"abc")
            tree.exchange("/a/f", "/a/b")
            told(tree.rename, "/none", "/a")
            told(tree.unlink, "/a")
            tree.unlink("/a/b")
            self.assertEqual((len(tree), repr(tree).split(" ")[2], texts), (3, "3", []))
            tree.mknod("/g")
            tree.mknod("/h")
            tree.rename("/g", "/h")
            self.assertEqual((len(tree), len(texts)), (4, 1))
            tree.rmdir("/a/f")
            self.assertEqual((len(tree), len(texts)), (3, 1))
            seat = tree.seat()
            seat.begin.mkdir("/late")
            self.assertEqual(len(tree), 3)
            seat.finish()
            self.assertEqual(len(tree), 4)
            tree.close()
            self.assertRaises(atomfs.ClosedError, len, tree)

    def test_own_stat(self) -> None:
        """What is made of a `stat` asks the one that a subclass has."""

        class Own(atomfs.Tree):
            def stat(self, path: Any) -> Stat:
                asked.append(path)
                return super().stat(path)

        asked: List[object] = []
        with Own() as tree:
            tree.mkdir("/a")
            self.assertEqual((tree.is_dir("/a"), tree.exists("/b"), tree.is_file("/a/c")), (True, False, False))
        self.assertEqual(asked, ["/a", "/b", "/a/c"])

    def test_steps(self) -> None:
        """Calls step by step, those that wait among them, and what is asked of a seat that has none."""
        trees = self.pair(50)
        for tree in trees:
            tree.makedirs("/a/b")
        seats = [[tree.seat() for _ in range(2)] for tree in trees]
        draw = random.Random(7)
        for _ in range(400):
            number, name = draw.randrange(2), draw.choice(("mkdir", "rmdir", "stat", "readdir", "list", "rename"))
            given = draw.choices(("/a/b", "/a/b/c", "/a", "/d"), k=2 if name == "rename" else 1)
            pair = [one[number] for one in seats]
            doings = ("begin", "step", "step", "step", "finish", "reply")
            what = draw.choice(doings)
            if what == "begin":
                one, other = (told(getattr(seat.begin, name), *given) for seat in pair)
            else:
                one, other = (told(getattr(seat, what)) for seat in pair)
            self.assertEqual(one, other, (what, name, given))
        self.same_journals(trees)

    def test_waits(self) -> None:
        """A call that waits for one of a seat keeps its seat, by which it goes on."""
        for tree in self.pair(50):
            tree.mkdir("/a")
            seat = tree.seat()
            seat.begin.rename("/a", "/b")
            while seat.step().did != atomfs.Did.TAKE:
                pass
            with self.assertRaises(atomfs.WaitsError) as raised:
                tree.mkdir("/a/c")
            self.assertEqual(raised.exception.about, 3)
            seat.finish()
            self.assertRaises(FileNotFoundError, raised.exception.seat.finish)
            self.assertEqual(tree.listdir("/"), ["b"])

    def test_nothing_is_kept(self) -> None:
        """No call keeps an object of Python beyond its answer, or its error."""
        tree = self.pair(64, journal=atomfs.NONE)[0]
        tree.write_bytes("/f", bytes(100_000))
        draw = random.Random(3)
        given = [(name, [draw.choice(kind) for kind in kinds]) for name, kinds in 12 * list(CALLS.items())]
        given = [
            (name, args) for name, args in given if name != "write" and name != "truncate" or args[1] in range(HUGE)
        ]

        def made() -> None:
            for name, args in given:
                told(getattr(tree, name), *args)
            seat = tree.seat()
            told(seat.begin.mkdir, "/a")
            told(seat.finish)

        def grown() -> int:
            """By how many blocks of memory Python grows in twenty rounds."""
            before = sys.getallocatedblocks()
            for _ in range(20):
                made()
            return sys.getallocatedblocks() - before

        # Python itself grows now and then, and one object that each round keeps is in all of them.
        self.assertLess(min(grown() for _ in range(6)), 20)

    def test_copies(self) -> None:
        """A tree that begins at another one's, or at a text, and makes calls on a handle of its own."""
        trees = self.pair()
        for tree in trees:
            tree.write_bytes("/f", b"abc")
            for copy in (atomfs.Tree.from_text(tree.tree()), tree.__class__.from_dict(tree.to_dict())):
                copy.write("/f", 1, b"x")
                self.assertEqual((copy.read("/f"), tree.read("/f")), (b"axc", b"abc"))

    def test_arguments(self) -> None:
        """The extension itself refuses what nothing in the package gives it."""
        tree = self.pair()[0]
        calls = tree._calls
        for name in (
            "mkdir",
            "rename",
            "stat",
            "kind",
            "readdir",
            "list",
            "piece",
            "read",
            "write",
            "truncate",
            "begin",
            "step",
            "on",
        ):
            self.assertRaises(TypeError, getattr(calls, name))
        self.assertRaises(TypeError, calls.on, ctypes.c_uint8(), tree._mine, tree._standing, None, tree._nodes)
        self.assertRaises(TypeError, calls.on, tree._handle, tree._mine, tree._standing, ctypes.c_uint8(), tree._nodes)
        self.assertRaises(
            (TypeError, BufferError), calls.on, b"0123456789", tree._mine, tree._standing, None, tree._nodes
        )
        self.assertEqual(tree.stat("/"), Stat(True, 0))
        module = _calls.extension
        self.assertRaises(KeyError, module.functions, {})
        self.assertRaises(TypeError, module.functions, dict.fromkeys(_calls._FUNCTIONS, "x"))
        self.assertRaises(ValueError, module.functions, dict.fromkeys(_calls._FUNCTIONS, 0))
        self.assertRaises(TypeError, module.Calls)
        given = _calls._functions(), tree._number, tree.lock, 10, Stat, Step, tuple(atomfs.Did), str.encode
        new = module.Calls(*given, _values.number_of, _values.bytes_of)
        self.assertRaises(RuntimeError, new.stat, tree, "/")
        self.assertRaises(TypeError, module.Calls, *given[:4], int, *given[5:], _values.number_of, _values.bytes_of)
        self.assertRaises(ValueError, module.Calls, object(), *given[1:], _values.number_of, _values.bytes_of)


class Replaced(unittest.TestCase):
    """Where a patch finds the functions that it replaces."""

    def module(self, name: str, **names: Any) -> Any:
        made = types.ModuleType(name)
        vars(made).update(names)
        sys.modules[name] = made
        self.addCleanup(sys.modules.pop, name, None)  # type: ignore[call-arg]
        return made

    def test_places(self) -> None:
        """The places of objects in dictionaries, by both ways."""
        looked_for = [object() for _ in range(90)]
        spaces = [{f"name{number}": object() for number in range(200)} for _ in range(30)]
        wanted = []
        for number, one in enumerate(looked_for):
            spaces[number % 30][f"found{number}"] = one
        for space in spaces:
            wanted += [(id(space), key) for key in space if key.startswith("found")]
        ids = {id(one): None for one in looked_for}
        for module in {_calls.extension, None}:
            with unittest.mock.patch.object(_calls, "extension", module):
                self.assertEqual([(id(space), key) for space, key in _calls.places(spaces, ids)], wanted)
                self.assertEqual(_calls.places([], ids), [])
                self.assertEqual(_calls.places([{}, {"a": 1}], {}), [])
        if HAS_EXTENSION:
            places = _calls.extension.places
            for given in ((), ([],), ({}, {}), ([1], {}), ([], {"x": 1}), ([], dict.fromkeys(range(1, 2_050)))):
                self.assertRaises(TypeError, places, *given)

    def test_came_since(self) -> None:
        """Modules and names that came since the last patch, or during one; a module in the place of another; one that is gone."""
        tree = atomfs.Tree()
        self.addCleanup(tree.close)
        first = self.module("atomfs_came_first", stat=None)
        there: Callable[[Any], Any] = lambda module: module.stat("/sandbox/f").st_size
        with atomfs.patch(tree, "/sandbox"):
            with open("/sandbox/f", "w") as file:
                file.write("four")
            during = self.module("atomfs_came_during", stat=os.stat)
            first.stat = os.stat
            self.assertEqual((there(first), there(during)), (4, 4))
        for module in (first, during):
            self.assertIs(module.stat, os.stat)
            self.assertRaises(FileNotFoundError, there, module)
        del sys.modules["atomfs_came_during"]
        other = self.module("atomfs_came_first", stat=os.stat)
        with atomfs.patch(tree, "/sandbox"):
            self.assertEqual(there(other), 4)
            self.assertRaises(FileNotFoundError, there, first)

    def test_makes_names(self) -> None:
        """A module that makes its names as they are asked for is left to do so."""

        class Lazy(types.ModuleType):
            @property
            def __dict__(self) -> Any:  # type: ignore[override]
                raise RuntimeError("nothing is to be made")

        lazy: Any = Lazy("atomfs_lazy")
        sys.modules["atomfs_lazy"] = lazy
        self.addCleanup(sys.modules.pop, "atomfs_lazy")
        lazy.stat = os.stat
        with atomfs.Tree() as tree, atomfs.patch(tree, "/sandbox"):
            self.assertIs(lazy.stat, os.stat)
        self.assertIs(lazy.stat, os.stat)


class Threads(unittest.TestCase):
    """What holds by the way that is taken here."""

    def setUp(self) -> None:
        self.tree = atomfs.Tree()
        self.addCleanup(self.tree.close)

    def test_lock(self) -> None:
        """A call waits for a thread that has the lock of the tree, and other threads run meanwhile."""
        done = []
        caller = threading.Thread(target=lambda: done.append(self.tree.stat("/")))
        with self.tree.lock:
            caller.start()
            time.sleep(SOON)
            self.assertEqual((done, self.tree.exists("/")), ([], True))
        caller.join()
        self.assertEqual(done, [Stat(True, 0)])

    @unittest.skipUnless(HAS_EXTENSION, "ctypes keeps the lock of Python during each call of a tree")
    def test_lets_go(self) -> None:
        """The lock of Python is let go for a call on many bytes, and kept for one on few: who waits for it runs then, and not before."""
        data, go, ran = bytes(2**20), threading.Lock(), []
        self.tree.write_bytes("/f", data)
        go.acquire()
        other = threading.Thread(target=lambda: (go.acquire(), ran.append(True)))  # type: ignore[func-returns-value]
        other.start()
        self.addCleanup(sys.setswitchinterval, sys.getswitchinterval())
        # Nobody is put off now who does not let the lock go.
        sys.setswitchinterval(1_000)
        go.release()
        for _ in range(2_000):
            self.tree.stat("/f")
            self.tree.read("/f", 0, 65_536)
        kept, soon = not ran, time.monotonic() + 20
        while not ran and time.monotonic() < soon:
            self.tree.write("/f", 0, data)
            self.tree.read("/f", 0, len(data))
        self.assertEqual((kept, ran), (True, [True]))
        other.join()

    def test_seats(self) -> None:
        """Each thread has a seat of its own, whatever the calls."""

        together = threading.Barrier(4)

        def work(name: str) -> None:
            self.tree.exists(f"/{name}")
            together.wait(60)
            # So many bytes that other threads run during the calls.
            for number in range(10, 40):
                self.tree.write_bytes(f"/{name}", b"%d" % number * 40_000)
                self.assertEqual(self.tree.read(f"/{name}"), b"%d" % number * 40_000)

        threads = [threading.Thread(target=work, args=(name,)) for name in "abcd"]
        for thread in threads:
            thread.start()
        for thread in threads:
            thread.join()
        seats = {line.split(" ")[2] for line in self.tree.journal().splitlines() if line.startswith("begin ")}
        self.assertEqual((len(seats), self.tree.check(), self.tree.listdir("/")), (4, "lawful", list("abcd")))

    def test_error_lets_go(self) -> None:
        """A call that fails lets the lock go."""
        for path in ("/none", "none", None):
            self.assertRaises((OSError, TypeError), self.tree.stat, path)
        other = threading.Thread(target=self.tree.mkdir, args=("/a",))
        other.start()
        other.join(10)
        self.assertEqual(self.tree.listdir("/"), ["a"])

    def test_is_freed(self) -> None:
        """A tree goes away with its last name, and no cycle keeps it."""
        import gc
        import weakref

        gc.disable()
        self.addCleanup(gc.enable)
        tree = atomfs.Tree(journal=atomfs.LAST(3))
        tree.mkdir("/a")
        there = weakref.ref(tree)
        del tree
        self.assertIsNone(there())


class Chosen(unittest.TestCase):
    """Which way is taken."""

    def said(self, code: str, **more: str) -> str:
        ran = subprocess.run(
            [sys.executable, "-c", code], env=os.environ | more, capture_output=True, text=True, timeout=60
        )
        self.assertEqual((ran.returncode, ran.stderr), (0, ""))
        return ran.stdout.strip()

    def test_pure(self) -> None:
        """ATOMFS_PURE chooses ctypes."""
        code = "import atomfs; t = atomfs.Tree(); t.mkdir('/a'); print(atomfs.binding(), t.listdir('/'))"
        self.assertEqual(self.said(code, ATOMFS_PURE="1"), "ctypes: ATOMFS_PURE is set ['a']")
        self.assertIn(self.said(code, ATOMFS_PURE="0"), (f"extension ['a']", f"{atomfs.binding()} ['a']"))

    def test_says_why(self) -> None:
        """Where there is no extension, `binding` says why."""
        if not HAS_EXTENSION:
            self.assertRegex(
                atomfs.binding(), "^ctypes: (ATOMFS_PURE is set|the package is not built|the extension is for )"
            )
        free = bool(sysconfig.get_config_var("Py_GIL_DISABLED"))
        self.assertFalse(HAS_EXTENSION and (free or sys.version_info < (3, 11)))

    def test_interpreters(self) -> None:
        """An interpreter below the first that shares its lock has what the first has. One with a lock of its own takes ctypes, and none
        where ctypes itself is refused there, as by 3.12."""
        try:
            import _interpreters as interpreters  # type: ignore[import]
        except ImportError:
            try:
                import _xxsubinterpreters as interpreters  # type: ignore[import]
            except ImportError:
                self.skipTest("this Python has no interpreters below the first")
        code = (
            f"import sys; sys.path[:] = {sys.path!r}\nimport atomfs\n"
            "with atomfs.Tree() as t:\n    t.mkdir('/a'); t.write_bytes('/a/f', b'abc')\n"
            "    assert (t.read('/a/f'), t.check()) == (b'abc', 'lawful')\n"
            "assert atomfs.binding() {}, atomfs.binding()\n"
        )
        last = sys.version_info >= (3, 13)
        sharing = ("legacy",) if last else ()
        named = {"isolated": False} if not last else {}
        self.assertIn(self.run_in(interpreters, code.format(f"== {atomfs.binding()!r}"), *sharing, **named), (None, ""))
        if sys.version_info >= (3, 12):
            came = self.run_in(interpreters, code.format(".startswith('ctypes: ')"))
            self.assertIn("_ctypes does not support loading in subinterpreters" if came else "", str(came))

    @staticmethod
    def run_in(interpreters: Any, code: str, *given: Any, **named: Any) -> object:
        """What goes wrong with a text in an interpreter of its own."""
        interpreter = interpreters.create(*given, **named)
        try:
            return interpreters.run_string(interpreter, code)
        except Exception as error:
            return error
        finally:
            interpreters.destroy(interpreter)


if __name__ == "__main__":
    unittest.main()
