"""The functions of a patch by both ways, the extension in C and Python: the same answers, errors, names in errors, journals and trees."""
import contextlib
import copy
import errno
import gc
import inspect
import io
import os
import pathlib
import pickle
import random
import re
import shutil
import tempfile
import threading
import unittest
import unittest.mock
import warnings
import weakref
from typing import Any, Callable, Dict, Iterator, List, Tuple

import atomfs
from atomfs import _calls, _descriptors, _door, _metadata, _sandbox
from atomfs._places import Place

# How many calls are drawn.
DRAWN = int(os.environ.get("ATOMFS_DRAWN", "3000"))
AT = "/sandbox_of_door"
HAS_EXTENSION = atomfs.binding() == "extension"
# A function that a row calls.
Function = Callable[..., Any]


class Odd:
    """A path of a type of its own, which may raise."""

    def __init__(self, path: Any) -> None:
        self.path = path

    def __repr__(self) -> str:
        return f"Odd({self.path!r})"

    def __fspath__(self) -> Any:
        if self.path is None:
            raise LookupError("this path cannot be had")
        return self.path


class Text(str):
    """A string of a type of its own."""


def in_python(stack: contextlib.ExitStack) -> None:
    """Lets a patch that begins within be made in Python alone."""
    ways: Tuple[Tuple[Any, Dict[str, Any]], ...] = (
        (_calls, {"extension": None}),
        (_metadata, {"_kept": _metadata._kept_in_python}),
        (_door, {"extension": None}),
        (_descriptors, {"extension": None}),
        *((module, {"Node": _descriptors.PureNode}) for module in (_descriptors, _sandbox)),
        *((module, {"Description": _descriptors.PureDescription}) for module in (_descriptors, _sandbox)),
    )
    for module, names in ways:
        for name, value in names.items():
            stack.enter_context(unittest.mock.patch.object(module, name, value))


@contextlib.contextmanager
def patched(way: str, at: str = AT, **words: Any) -> Iterator[atomfs.Tree]:
    """A tree and a patch, by one way."""
    with contextlib.ExitStack() as stack:
        if way == "python":
            in_python(stack)
        tree = stack.enter_context(atomfs.Tree(**words))
        stack.enter_context(atomfs.patch(tree, at, clock=iter(range(10**9, 10**12)).__next__))
        os.mkdir(f"{at}/d")
        with open(f"{at}/f", "wb") as file:
            file.write(b"some bytes")
        yield tree


def paths(at: str, folder: str) -> List[Any]:
    """Paths of all shapes: of a tree at a directory, beside it, and on the disk."""
    below: Tuple[str, ...] = (
        "",
        "/",
        "/f",
        "/f/",
        "/d",
        "/d/",
        "/d/g",
        "/d/g/h",
        "//f",
        "/./f",
        "/d/../f",
        "/d/.",
        "/d/..",
        "/.f",
        "/d/..g",
    )
    below += ("/\0", "/ü", "/\udcff", "/" + 256 * "n", "x", "x/f", "/...", "/d//g", "/f\n")
    texts = [f"{at}{one}" for one in below]
    # Of the disk nothing but what is below the folder is named, also by a path from the tree on.
    texts += [f"/..{at}/f", f"//{at[1:]}/f", f"{folder}/f", f"{folder}/in{at}", f"{folder}/in/..{at}/f", "", folder]
    texts += ["f", "d/g", "d/../f", at[1:]]
    kinds: List[Function] = [
        os.fsencode,
        Odd,
        Text,
        pathlib.PurePosixPath,
        lambda text: Odd(os.fsencode(text)),
        lambda text: memoryview(os.fsencode(text)),
    ]
    some = [kind(text) for text in texts[:8] + texts[-9:] for kind in kinds if "\0" not in text]
    return [*texts, *some, Odd(None), Odd(3), None, 1.5, ["x"], 10**6]


def calls() -> Tuple[List[Function], List[Function]]:
    """Calls of one path, of two, and of descriptors, which are drawn."""
    one: List[Any] = [
        os.stat,
        os.lstat,
        os.listdir,
        os.mkdir,
        os.rmdir,
        os.unlink,
        os.remove,
        os.readlink,
        os.path.exists,
        os.path.isdir,
    ]
    one += [
        lambda path: os.stat(path, follow_symlinks=False),
        lambda path: os.stat(path, dir_fd=None),
        lambda path: os.stat(path=path),
    ]
    one += [
        lambda path: os.access(path, os.R_OK),
        lambda path: os.truncate(path, 3),
        lambda path: os.chmod(path, 0o600),
    ]
    one += [
        lambda path: os.utime(path, (1, 2)),
        lambda path: os.mkdir(path, 0o700),
        lambda path: os.mknod(path),
        lambda path: os.stat(path, 1),  # type: ignore[misc]
    ]
    one += [lambda path: sorted(entry.name for entry in os.scandir(path)), lambda path: os.stat(path, dir_fd=3.5)]  # type: ignore[arg-type]
    one += [opened(mode) for mode in ("r", "rb", "wb", "ab", "xb", "r+b", "w+", "a+b", "rw", "b", 3, "rbt")]
    one += [lambda path: descriptors(path, os.O_RDONLY), lambda path: descriptors(path, os.O_RDWR | os.O_APPEND)]
    one += [
        lambda path: descriptors(path, os.O_CREAT | os.O_WRONLY),
        lambda path: descriptors(path, os.O_RDONLY | os.O_NOFOLLOW),
    ]
    one += [
        lambda path: descriptors(path, os.O_RDONLY | os.O_DIRECTORY),
        lambda path: descriptors(path, os.O_WRONLY | os.O_TRUNC),
    ]
    two: List[Any] = [
        os.rename,
        os.replace,
        os.link,
        lambda path, other: os.rename(path, dst=other),
        lambda path, other: os.rename(path, other, src_dir_fd=None),
    ]
    return one, two


def opened(mode: Any) -> Function:
    def call(path: Any) -> List[object]:
        with open(path, mode) as file:
            told = [
                file.read(3) if file.readable() else None,
                file.write(b"ab" if "b" in file.mode else "ab") if file.writable() else 0,
            ]
            return [*told, file.tell(), file.seek(0, 2), file.name]

    return call


def descriptors(path: Any, flags: int) -> List[object]:
    """What a descriptor answers to each call: its number is of the process, and is left out."""
    number = os.open(path, flags)
    answers = []
    each: Tuple[Function, ...] = (
        lambda: os.fstat(number),
        lambda: os.read(number, 4),
        lambda: os.write(number, bytearray(b"xyz")),
        lambda: os.write(number, "x"),  # type: ignore[arg-type]
        lambda: os.write(number, [1, 2]),  # type: ignore[arg-type]
        lambda: os.write(number, memoryview(b"abcdef")[::2]),
        lambda: os.lseek(number, 2, os.SEEK_SET),
        lambda: os.lseek(number, -1, os.SEEK_CUR),
        lambda: os.lseek(number, -100, os.SEEK_END),
        lambda: os.lseek(number, 2**63, os.SEEK_SET),
        lambda: os.lseek(number, 2**63 - 1, os.SEEK_CUR),
        lambda: os.pread(number, 3, 1),
        lambda: os.ftruncate(number, 8),
        lambda: os.readv(number, [bytearray(2), bytearray(3)]),
        lambda: os.close(os.dup(number)),
        lambda: os.close(number),
        lambda: os.close(number),
    )
    for call in each:
        answers.append(outcome(call))
    return answers


def outcome(call: Function, *given: Any) -> Any:
    """What a call answers, or its error in full."""
    try:
        answer = call(*given)
    except Exception as error:
        more = (error.errno, str(error.filename), str(error.filename2)) if isinstance(error, OSError) else ()
        return type(error).__name__, *(re.sub("0x[0-9a-f]+", "0x", str(one)) for one in (error, more))
    if isinstance(answer, os.stat_result):
        # The device of a patch is one that no other has, and the numbers of the disk are its own.
        return answer.st_mode, answer.st_nlink, answer.st_size
    return answer


def opened_by(tree: atomfs.Tree) -> List[Any]:
    """The descriptors of patches that a tree has still."""
    return [
        one._of
        for one in gc.get_objects()
        if isinstance(one, _descriptors.Descriptors) and one.tree is tree and one._of
    ]


class BothWays(unittest.TestCase):
    """The same calls by both ways."""

    def setUp(self) -> None:
        if not HAS_EXTENSION:
            self.skipTest(atomfs.binding())
        self.folder = os.path.join(tempfile.mkdtemp(), "of_disk")
        self.addCleanup(shutil.rmtree, os.path.dirname(self.folder))
        self.addCleanup(os.chdir, os.getcwd())

    def both(
        self, played: Callable[[atomfs.Tree], List[Any]], begin: Callable[[], object] = lambda: None, **words: Any
    ) -> List[Any]:
        """What both ways answer, with their journals and trees, is the same."""
        found = []
        for way in ("extension", "python"):
            os.makedirs(f"{self.folder}/in")
            os.chdir(self.folder)
            begin()
            with patched(way, **words) as tree, warnings.catch_warnings():
                warnings.simplefilter("ignore")
                kind = type(os.stat).__module__ + "." + type(os.stat).__name__
                self.assertEqual(kind, "atomfs._fast.Function" if way == "extension" else "atomfs._door.Replaced")
                answers = played(tree)
                found.append((answers, tree.journal(), tree.tree()))
                self.assertEqual(tree.check(), "lawful")
            os.chdir("/")
            shutil.rmtree(self.folder)
        for number, (one, other) in enumerate(zip(*(answers for answers, _, _ in found))):
            self.assertEqual(one, other, number)
        self.assertEqual(found[0], found[1])
        return found[0][0]

    def drawn(self, seed: int) -> List[Any]:
        at, (one, two) = f"{self.folder}/sandbox", calls()
        given = paths(at, self.folder)

        def played(tree: atomfs.Tree) -> List[Any]:
            draw, answers = random.Random(seed), []
            for _ in range(DRAWN):
                if draw.random() < 0.02:
                    outcome(os.chdir, draw.choice([at, f"{at}/d", self.folder]))
                call = draw.choice(one if draw.random() < 0.85 else two)
                words = [draw.choice(given) for _ in range(2 if call in two else 1)]
                answers.append((repr(words), outcome(call, *words)))
                for name in ("f", "d"):
                    # Most of it stays there.
                    if draw.random() < 0.3:
                        outcome((opened("wb") if name == "f" else os.mkdir), f"{at}/{name}")  # type: ignore[arg-type]
            return answers

        return self.both(played, at=at)

    def test_drawn(self) -> None:
        """Drawn calls with paths of all shapes."""
        answers = self.drawn(1)
        kinds = {told[0] for _, told in answers if isinstance(told, tuple) and isinstance(told[0], str)}
        self.assertLess(
            {"FileNotFoundError", "NotADirectoryError", "TypeError", "ValueError", "LookupError"},
            kinds | {"LookupError"},
        )
        self.assertGreater(sum(not isinstance(told, tuple) for _, told in answers), DRAWN // 10)

    def test_link(self) -> None:
        """With a link in the tree no path is plain: it is followed."""

        def played(tree: atomfs.Tree) -> Iterator[object]:
            os.symlink("d", f"{AT}/l")
            yield outcome(os.mkdir, f"{AT}/l/g")
            yield outcome(os.listdir, f"{AT}/d")
            yield outcome(os.rename, f"{AT}/l/g", f"{AT}/h")
            yield outcome(os.unlink, f"{AT}/l")
            yield outcome(os.listdir, AT)

        answers = self.both(lambda tree: list(played(tree)))
        self.assertEqual(answers, [None, ["g"], None, None, ["d", "f", "h"]])

    def test_there(self) -> None:
        """A directory of the disk stands where the tree does: links of the disk may lead into the tree, so that each path is walked."""
        at = f"{self.folder}/tree"

        def begin() -> None:
            os.mkdir(at)
            os.symlink(at, f"{self.folder}/in/link")

        def played(tree: atomfs.Tree) -> Iterator[object]:
            yield from (outcome(os.listdir, path) for path in (f"{self.folder}/in/link", at, f"{self.folder}/in"))
            # Also by a path that does not name the tree.
            yield outcome(os.mkdir, f"{self.folder}/in/link/g")
            yield outcome(os.rename, f"{at}/g", f"{self.folder}/in/link/h")
            yield outcome(os.stat, f"{at}/h"), outcome(os.listdir, at)

        answers = self.both(lambda tree: list(played(tree)), begin, at=at)
        self.assertEqual(answers[:3], [["d", "f"], ["d", "f"], ["link"]])
        self.assertEqual((answers[3:5], answers[5][1]), ([None, None], ["d", "f", "h"]))

    def test_removed(self) -> None:
        """An open file that is removed, renamed and replaced; one that another descriptor has; a closed one."""

        def played(tree: atomfs.Tree) -> Iterator[object]:
            with open(f"{AT}/f", "r+b", buffering=0) as file, open(f"{AT}/f", "rb", buffering=0) as other:
                yield outcome(file.write, b"new ")
                os.rename(f"{AT}/f", f"{AT}/d/f")
                yield outcome(file.write, b"more")
                yield outcome(other.read, 4)
                os.unlink(f"{AT}/d/f")
                yield outcome(file.write, b"gone")
                yield outcome(file.seek, 0), outcome(file.read), outcome(other.read)
                yield outcome(os.fstat, file.fileno())
            yield outcome(file.read), outcome(file.write, b""), outcome(file.tell), outcome(os.close, 10**6)

        answers = self.both(lambda tree: list(played(tree)))
        self.assertEqual(answers[2:6], [b"new ", 4, (0, b"new moregone", b"moregone"), answers[5]])

    def test_full(self) -> None:
        """What a limit of the tree refuses has the path that was given."""

        def played(tree: atomfs.Tree) -> List[Any]:
            answers = [outcome(os.mkdir, pathlib.Path(f"{AT}/{number}")) for number in range(5)]
            with open(f"{AT}/f", "r+b", buffering=0) as file:
                file.seek(tree.limits.file_bytes)
                answers.append(outcome(file.write, b"x"))
                answers.append(outcome(file.readinto, b"x"))
                answers.append(outcome(file.readinto, bytearray(4)))
            return answers

        answers = self.both(played, limit=6)
        self.assertEqual([told[0] if told else told for told in answers[:5]], [None, None, None, "OSError", "OSError"])
        self.assertEqual(answers[4][2], str((errno.ENOSPC, f"{AT}/4", "None")))
        self.assertEqual((answers[5][2][:4], answers[6][0], answers[7]), (f"({errno.EFBIG},", "TypeError", 0))

    def test_own_tree(self) -> None:
        """A class that is made of `Tree` has its own calls asked."""

        class Own(atomfs.Tree):
            asked = 0

            def stat(self, path: Any) -> atomfs.Stat:
                self.asked += 1
                return super().stat(path)

        for way in ("extension", "python"):
            with contextlib.ExitStack() as stack:
                if way == "python":
                    in_python(stack)
                tree = stack.enter_context(Own())
                stack.enter_context(atomfs.patch(tree, AT))
                os.mkdir(f"{AT}/d")
                before = tree.asked
                os.stat(f"{AT}/d")
                os.close(os.open(f"{AT}/d", os.O_RDONLY))
                self.assertEqual(tree.asked, before + 2, way)


class Functions(unittest.TestCase):
    """What the functions of a patch are besides, by the way that is taken here."""

    def test_as_functions(self) -> None:
        """Their words, their copies and pickles, and that a class which has one binds it to no instance."""

        class Has:
            stat = os.stat

        words, call = repr(os.stat), open
        with atomfs.Tree() as tree, atomfs.patch(tree, AT):

            class Keeps:
                stat = os.stat

            self.assertEqual((repr(os.stat), os.stat.__name__, os.stat.__doc__[:7]), (words, "stat", "Perform"))  # type: ignore[index]
            self.assertEqual(inspect.signature(os.stat), inspect.signature(Has.stat))
            self.assertEqual(Keeps().stat(AT).st_mode, os.stat(AT).st_mode)  # type: ignore[arg-type, misc]
            for function in (os.stat, os.rename, os.close, open):
                self.assertIs(copy.deepcopy({"it": function})["it"], function)
                self.assertIs(pickle.loads(pickle.dumps(function)), function)
                self.assertIs(weakref.ref(function)(), function)
            os.stat.more = 3  # type: ignore[attr-defined]
            self.assertEqual(vars(os.stat)["more"], 3)
            kept = os.stat
        self.assertFalse(hasattr(os.stat, "more"))
        self.assertIs(open, call)
        # What was kept goes to the disk once the patch has ended.
        self.assertRaises(FileNotFoundError, kept, AT)
        self.assertTrue(os.path.samestat(kept("/"), os.stat("/")))

    def test_warnings(self) -> None:
        """A warning names the line of the caller."""
        for way in ("extension", "python"):
            with patched(way), warnings.catch_warnings(record=True) as told:
                warnings.simplefilter("always")
                open(f"{AT}/f", "rb", buffering=1).close()
                open(f"{AT}/./f", "rb", buffering=1).close()
                os.stat(bytearray(os.fsencode(AT)))
                os.rename(bytearray(os.fsencode(f"{AT}/f")), f"{AT}/g")
            kinds = [(one.category, one.filename) for one in told]
            wanted = [RuntimeWarning] * 2 + [DeprecationWarning] * 2
            self.assertEqual(kinds, [(kind, __file__) for kind in wanted], way)

    def test_is_freed(self) -> None:
        """A patch that has ended goes away with its functions, descriptors and tree."""

        class Seen(atomfs.Tree):
            pass

        tree = Seen()
        with atomfs.patch(tree, AT) as patch:
            file = open(f"{AT}/f", "wb")
            file.write(b"x")
            file.close()
        seen: Tuple[Any, ...] = weakref.ref(tree), weakref.ref(patch)
        tree.close()
        del tree, patch, file
        gc.collect()
        self.assertEqual([one() for one in seen], [None, None])

    def test_threads(self) -> None:
        """Threads open, write, read and close at once."""
        with atomfs.Tree() as tree, atomfs.patch(tree, AT):
            faults = []

            def work(name: str) -> None:
                try:
                    for number in range(60):
                        with open(f"{AT}/{name}", "wb") as file:
                            file.write(f"{name} {number}".encode())
                        with open(f"{AT}/{name}", "rb") as file:
                            self.assertEqual(file.read(), f"{name} {number}".encode())
                except BaseException as error:
                    faults.append(error)

            threads = [threading.Thread(target=work, args=(name,)) for name in "abcd"]
            for thread in threads:
                thread.start()
            for thread in threads:
                thread.join()
            self.assertEqual((faults, tree.check(), sorted(os.listdir(AT))), ([], "lawful", ["a", "b", "c", "d"]))

    @unittest.skipUnless(HAS_EXTENSION, "the types of the extension")
    def test_types(self) -> None:
        """The types of the extension refuse what is not of them."""
        of_c = _calls.extension
        self.assertRaises(TypeError, of_c.Door)
        self.assertRaises(TypeError, of_c.Door, 1, 2, 3, int, (), "", False)
        door = of_c.Door(1, 2, 3, Place, (), "x", False)
        for given in ((), (door,), (3, 1, 1, 1, 1, False), (door, -1, 1, 1, 1, False), (door, 5, 1, 1, 1, False)):
            self.assertRaises(TypeError, of_c.Function, *given)
        # Its patch is none.
        self.assertRaises(AttributeError, of_c.Function(door, 0, len, len, len, False), "x")
        node = of_c.Node("/f", False, None)
        self.assertRaises(TypeError, of_c.Node, "/f")
        self.assertRaises(TypeError, of_c.Description, None, 0)
        description = of_c.Description(node, os.O_RDWR | os.O_APPEND)
        self.assertEqual(
            (description.reads, description.writes, description.appends, description.at), (True, True, True, 0)
        )
        for name, value in (("at", "x"), ("flags", None), ("appends", 1), ("opened", "x"), ("node", node)):
            self.assertRaises((TypeError, AttributeError), setattr, description, name, value)
        for given in ((), (1, {}, {}, 1, 1, int, int), (1, [], {}, 1, 1, of_c.Node, of_c.Description)):
            self.assertRaises(TypeError, of_c.Files, *given)
        with atomfs.Tree() as tree:
            files = of_c.Files(tree, {3: "no description"}, {}, None, None, of_c.Node, of_c.Description)
            for call, count in ((files.read_into, 1), (files.write, 3), (files.seek, 2), (files.open_there, 0)):
                self.assertRaises(TypeError, call, *range(count))
            for call in (
                files.close,
                lambda number: files.read_into(number, bytearray(3)),
                lambda number: files.write(number, b"x"),
            ):
                # There is nothing that does the rest.
                self.assertRaises(AttributeError, call, 3)
            self.assertIsNone(files.open_there("/", os.O_CREAT))

    @unittest.skipUnless(HAS_EXTENSION, "the extension")
    def test_kept(self) -> None:
        """What is kept of a node is found by both ways."""
        with atomfs.Tree() as tree, atomfs.patch(tree, AT):
            os.makedirs(f"{AT}/a/ü")
            with open(f"{AT}/a/ü/\udcff", "w"), open(f"{AT}/f", "w"):
                pass
            root: Any = tree._metadata.root  # type: ignore[union-attr]
        paths = (
            "",
            "/",
            "//",
            "/a",
            "/a/",
            "//a//ü",
            "/a/ü/\udcff",
            "/f",
            "/f/",
            "/f/x",
            "/none",
            "/a/none",
            "a/ü",
            "/a/ü/none/x",
        )
        for path in paths:
            for is_dir in (True, False):
                found = [
                    kept("entries", root, path, is_dir) for kept in (_calls.extension.kept, _metadata._kept_in_python)
                ]
                # Of a path that is no UTF-8 the rest speaks.
                self.assertIs(found[0], None if "\udcff" in path else found[1], (path, is_dir))
        self.assertIs(_calls.extension.kept("entries", root, "/a", True), root.entries["a"])
        for given in ((), (1, root, "/", True), ("entries", root, 1, True), ("entries", root, "/")):
            self.assertRaises(TypeError, _calls.extension.kept, *given)
        self.assertIsNone(_calls.extension.kept("entries", 3, "/", True))


if __name__ == "__main__":
    unittest.main()
