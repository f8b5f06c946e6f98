"""Histories of any tree: how they are recorded, and what the library finds of them."""
import asyncio
import errno
import html
import os
import pathlib
import re
import tempfile
import threading
import unittest
import unittest.mock
from typing import Any, Callable, Dict, List, Set, Tuple, Type, Union

import fs.errors
import fs.memoryfs

import atomfs
from atomfs import Error, History, Lawful, Limits, NoHistory, NoOrder, Status, Tree, Unknown
from atomfs._library import library

HEADER = "atomfs-journal 1\n"
LONG = f"write /f 0 {'07' * 200}"
BEGUN = HEADER + "begin 1 0 mkdir /a\nbegin 2 1 stat /a\n"


def lines(history: History) -> List[str]:
    """The lines of the entries."""
    return history.text().partition("entries\n")[2].splitlines()


def played(page: atomfs.Page) -> Tuple[str, str]:
    """The picture and the text of a page."""
    picture, text = re.search("<noscript>\n(.*?)</noscript>", page.html, re.S), re.search(
        "<pre[^>]*>\n(.*?)</pre>", page.html, re.S
    )
    assert picture and text
    return picture[1], html.unescape(text[1])


def replies(history: History) -> List[str]:
    """The replies, in the order of the returns."""
    return [line.split(" ", 2)[2] for line in lines(history) if line.startswith("return ")]


def journal_of(found: object) -> str:
    """The journal of a history that has an order."""
    assert isinstance(found, Lawful)
    return found.journal


def words_of(found: object) -> str:
    """The words about the entry that was found."""
    assert isinstance(found, (NoOrder, NoHistory))
    return found.words


def front_of(history: str) -> str:
    """The front of a history without an order."""
    front = atomfs.front(history)
    assert front is not None
    return front


class Linearize(unittest.TestCase):
    def test_lawful(self) -> None:
        texts: Tuple[Union[str, bytes], ...] = (
            BEGUN + "return 2 failed ?\nreturn 1 ok\n",
            (BEGUN + "return 2 stat dir ?\nreturn 1 ok\n").encode(),
        )
        for text in texts:
            found = atomfs.linearize(text)
            self.assertIsInstance(found, Lawful)
            self.assertEqual((found.verdict, atomfs.check(journal_of(found))), ("lawful", "lawful"))
            self.assertEqual(journal_of(found).count("commit "), 2)

    def test_others(self) -> None:
        for text, limit, wanted in (
            (BEGUN + "return 2 stat dir 1\n", None, NoOrder(3, 2)),
            (BEGUN + "return 2 stat dir 1\n", 1, Unknown(2)),
            (BEGUN + "begin 3 1 stat /\n", None, NoHistory(3, "SeatBusy")),
            (HEADER + "return 7 ok\n", 5, NoHistory(1, "ReturnUnbegun")),
        ):
            with self.subTest(wanted):
                self.assertEqual(atomfs.linearize(text, limit=limit), wanted)
        self.assertNotEqual(NoOrder(3, 2), NoOrder(3, 1))
        others: Tuple[Union[NoOrder, NoHistory, Unknown], ...] = (NoOrder(3, 2), NoHistory(3, "SeatBusy"), Unknown(2))
        verdicts = [found.verdict for found in others]
        self.assertEqual(verdicts, ["none 3 2", "fault 3 SeatBusy", "unknown 2"])

    def test_drawn(self) -> None:
        """The picture and the page of a history have the order that was found, or end at the return at fault; the page has later calls too."""
        text = BEGUN + "return 2 stat dir ?\nreturn 1 ok\n"
        journal, picture = journal_of(atomfs.linearize(text)), atomfs.draw_history(text)
        self.assertEqual(picture, atomfs.draw(journal))
        self.assertEqual(
            played(atomfs.draw_history(text, html=True)), (picture.svg, "# lawful\n# history lawful\n" + journal)
        )
        # The replies of later calls may be open.
        none, later = (
            BEGUN + "return 2 stat dir 1\n# 3\rreturn 9 ok\nreturn 1 ok\n",
            "begin 3 0 stat /b\nreturn 3 failed ?\n",
        )
        front, picture = front_of(none), atomfs.draw_history((none + later).encode())
        self.assertEqual(picture, atomfs.draw(front))
        notes = f"# {atomfs.check(front)}\n# history none 3 2\n"
        notes += "".join(f"# reply {line}\n" for line in words_of(atomfs.linearize(none)).splitlines()[1:])
        self.assertIn("# reply the call could have replied: ", notes)
        page = played(atomfs.draw_history(none + later, html=True))
        self.assertEqual(page, (picture.svg, notes + front + "return 1 ok\n" + later))

    def test_not_drawn(self) -> None:
        none = BEGUN + "return 2 stat dir 1\n"
        rows: Tuple[Tuple[Type[Exception], str, Tuple[Any, ...]], ...] = (
            (ValueError, "the search reached its limit, so give a larger one: unknown 2", (none, 1)),
            (ValueError, "this is no history: fault 3 SeatBusy", (BEGUN + "begin 3 1 stat /\n",)),
            (Error, "line 1: BadHeader: ", ("",)),
            (TypeError, "bytes-like", (7,)),
        )
        for kind, words, given in rows:
            for html in (False, True):
                with self.subTest(words, html=html), self.assertRaisesRegex(kind, words):
                    atomfs.draw_history(*given, html=html)

    def test_drawn_recorded(self) -> None:
        history = History()
        with history.call("mkdir", "/a"):
            pass
        self.assertEqual(history.draw(), atomfs.draw_history(history.text()))
        self.assertEqual(history.draw(html=True), atomfs.draw_history(history.text(), html=True))
        self.assertRaises(ValueError, history.draw, 0)

    def test_refused(self) -> None:
        rows: Tuple[Tuple[Type[Exception], str, Callable[[], object]], ...] = (
            (Error, "line 1: BadHeader: ", lambda: atomfs.linearize("")),
            (Error, "line 4: BadLine: ", lambda: atomfs.linearize(BEGUN + "commit 1\n")),
            (Error, "line 4: BadReply: ", lambda: atomfs.linearize(BEGUN + "return 1 done\n")),
            (Error, "line 4: BadNumber: ", lambda: atomfs.linearize(BEGUN + "return 2 stat file ?\n")),
            (Error, "line 2: BadPath: ", lambda: atomfs.linearize(HEADER + "begin 1 0 mkdir a\n")),
            (Error, "line 1: TooLarge: ", lambda: atomfs.linearize(HEADER + "#" * 2**24)),
            (Error, "line 1: TooLarge: ", lambda: atomfs.linearize("atomfs-journal 3\n" + "#" * 2**24)),
            (Error, "line 2: BadStart: ", lambda: atomfs.linearize("atomfs-journal 4\nend\n" + "#" * 2**24)),
            (ValueError, "a limit is 1 to 1,000,000,000 configurations, and not 0", lambda: atomfs.linearize(BEGUN, 0)),
            (
                ValueError,
                "a limit is 1 to 1,000,000,000 configurations, and not 1,000,000,001",
                lambda: atomfs.linearize(BEGUN, 10**9 + 1),
            ),
            (ValueError, "a negative limit", lambda: atomfs.linearize(BEGUN, -1)),
            (TypeError, "limit is a whole number, and this is str", lambda: atomfs.linearize(BEGUN, "1")),  # type: ignore[arg-type]
            (TypeError, "memoryview: ", lambda: atomfs.linearize(7)),  # type: ignore[arg-type]
        )
        for kind, words, call in rows:
            with self.subTest(words), self.assertRaises(kind) as raised:
                call()
            self.assertEqual((type(raised.exception), str(raised.exception)[: len(words)]), (kind, words))
        with self.assertRaises(Error) as refused:
            atomfs.linearize(BEGUN + "commit 1\n")
        self.assertEqual((refused.exception.status, refused.exception.about), (Status.BAD_LINE, 4))

    def test_words(self) -> None:
        """What the entry says, which call it is, and what that could have replied; the rest of a long one is left out, and what is no text stands for itself."""
        could = "the call could have replied:"
        rows: Tuple[Tuple[Union[str, bytes], str], ...] = (
            (
                BEGUN + "return 2 stat dir 1\n",
                "line 4: return 2 stat dir 1; call 2 is stat /a on seat 1\nthe call could have replied: failed ENOENT, stat dir 0",
            ),
            (BEGUN + "begin 3 1 stat /\n", "line 4: begin 3 1 stat /; call 3 is stat / on seat 1"),
            (HEADER + "return 7 ok\n", "line 2: return 7 ok; no call 7 has begun"),
            (
                HEADER + "begin 1 0 stat /\nreturn 1 failed ?\n" + "# \n" * 50_000,
                f"line 3: return 1 failed ?; call 1 is stat / on seat 0\n{could} stat dir 0",
            ),
            (
                HEADER + f"begin 1 0 {LONG}\nreturn 1 ok\n",
                f"line 3: return 1 ok; call 1 is {LONG[:240]}.. on seat 0\n{could} failed ENOENT",
            ),
            (
                HEADER.encode() + b"begin 1 0 stat /\xff\nreturn 1 ok\n",
                f"line 3: return 1 ok; call 1 is stat /\ufffd on seat 0\n{could} failed ENOENT",
            ),
        )
        for text, wanted in rows:
            with self.subTest(wanted):
                self.assertEqual(words_of(atomfs.linearize(text)), wanted)

    def test_front(self) -> None:
        """With no order the journal up to that return, which is the first fault of it; else there is none."""
        told = front_of(BEGUN + "return 2 stat dir 1\nreturn 1 ok\n")
        self.assertEqual((told, atomfs.check(told)), (BEGUN + "return 2 stat dir 1\n", "fault 3 ReturnUncommitted"))
        self.assertIn("fault 3 ReturnUncommitted", str(atomfs.draw(told)))
        for text, limit in (
            (BEGUN + "return 2 stat dir 1\n", 1),
            (BEGUN + "return 1 ok\n", None),
            (BEGUN + "begin 3 1 stat /\n", None),
        ):
            self.assertIsNone(atomfs.front(text, limit))
        with self.assertRaisesRegex(Error, "line 4: BadLine: "):
            atomfs.front(BEGUN + "commit 1\n")

    def test_room(self) -> None:
        """A journal that is longer than the room for it is asked for once more."""
        text = "atomfs-journal 3\nstart\ndir /\nentries\n" + "".join(
            f"begin {at} {at} stat /{chr(233) * 30}\n" for at in range(1, 4_000)
        )
        found = atomfs.linearize(text)
        self.assertEqual(atomfs.check(journal_of(found)), "lawful")
        self.assertGreater(len(journal_of(found)), 2 * len(text.encode()) + 2**16)

    def test_no_memory(self) -> None:
        with unittest.mock.patch.object(library(), "linearize", return_value=Status.NO_MEMORY), self.assertRaises(
            MemoryError
        ):
            History().linearize()


class Texts(unittest.TestCase):
    """What is recorded of one thread."""

    def setUp(self) -> None:
        self.history = History()

    def test_replies(self) -> None:
        with self.history.call("mkdir /a%20b"):
            pass
        with self.history.call("write", "/a b/f", 0, b"\x07") as answer:
            answer.wrote(1)
        with self.history.call("read", "/a b/f", 1, 4) as answer:
            answer.data(b"")
        with self.history.call("read", b"/a b/f", 0, 4) as answer:
            answer.data(bytearray(b"\x07"))
        with self.history.call("readdir", pathlib.PurePosixPath("/a b")) as answer:
            answer.names(["g\xe9", b"f", "%"])
        with self.history.call("readdir /") as answer:
            answer.names(iter(()))
        for is_dir, size, entries in ((True, 4096, None), (True, None, 2), (False, 5, None), (False, 5, 5)):
            with self.history.call("stat", "/x") as answer:
                answer.stat(is_dir, size, entries=entries)
        with self.history.call("rename", "/x", "/y") as answer:
            answer.failed(errno.ENOENT)
        with self.history.call("rename /x /y") as answer:
            answer.failed()
        begun = [line.split(" ", 3)[3] for line in lines(self.history) if line.startswith("begin ")]
        self.assertEqual(
            begun[:5],
            ["mkdir /a%20b", "write /a%20b/f 0 07", "read /a%20b/f 1 4", "read /a%20b/f 0 4", "readdir /a%20b"],
        )
        wanted = [
            "ok",
            "wrote 1",
            "bytes -",
            "bytes 07",
            "names %25 f g%C3%A9",
            "names",
            "stat dir ?",
            "stat dir 2",
            "stat file 5",
            "stat file 5",
        ]
        self.assertEqual(replies(self.history), [*wanted, "failed ENOENT", "failed ?"])
        self.assertEqual(
            lines(self.history)[:3], ["begin 1 0 mkdir /a%20b", "return 1 ok", "begin 2 0 write /a%20b/f 0 07"]
        )

    def test_errors(self) -> None:
        """An error that is a reply ends the block, and is kept."""
        for line, error, word in (
            ("mkdir /a", OSError(errno.EEXIST, "there"), "EEXIST"),
            ("mkdir /a", FileNotFoundError("as fsspec says it"), "ENOENT"),
            ("rmdir /a", OSError(errno.ENOTEMPTY, "full"), "ENOTEMPTY"),
            ("unlink /a", IsADirectoryError(errno.EISDIR, "Linux says so"), "EPERM"),
            ("truncate /a 1", IsADirectoryError(errno.EISDIR, "a directory"), "EISDIR"),
            ("stat /a", OSError(errno.ELOOP, "no tree has it"), "?"),
            ("readdir /a", OSError("without a number"), "?"),
            ("stat /a", PermissionError("without a number"), "?"),
        ):
            with self.subTest(line=line, error=error):
                with self.history.call(line) as answer:
                    raise error
                self.assertEqual(replies(self.history)[-1], f"failed {word}")
                self.assertIs(answer.error, error)

    def test_errors_of_others(self) -> None:
        """A library's own errors are named; the first class that fits decides."""
        history = History(
            errors={KeyError: errno.ENOENT, LookupError: None, TimeoutError: None, FileExistsError: errno.EBUSY}
        )
        for error, word in (
            (KeyError("a"), "ENOENT"),
            (IndexError(), "?"),
            (TimeoutError(), "?"),
            (FileExistsError(), "EBUSY"),
        ):
            with history.call("stat /a"):
                raise error
            self.assertEqual(replies(history)[-1], f"failed {word}")

    def test_under_way(self) -> None:
        """Behind what is no reply the call stays under way, and what was raised goes on; the next call has another seat."""
        for error in (
            RuntimeError(),
            KeyboardInterrupt(),
            TimeoutError(),
            ConnectionResetError(),
            OSError(errno.EIO, "broken"),
        ):
            with self.assertRaises(type(error)), self.history.call("mkdir /a"):
                raise error
        with self.history.call("stat /a") as answer:
            answer.stat(True)
        self.assertEqual(
            lines(self.history),
            [*(f"begin {at + 1} {at} mkdir /a" for at in range(5)), "begin 6 5 stat /a", "return 6 stat dir ?"],
        )
        self.assertEqual(repr(self.history), "<atomfs.History of 6 calls, 5 of them under way>")

    def test_told_before_an_error(self) -> None:
        """A reply that was told is recorded, whatever is raised behind it."""
        with self.assertRaises(OSError), self.history.call("readdir /") as answer:
            answer.names([])
            raise OSError(errno.ENOENT, "of something else")
        self.assertEqual(replies(self.history), ["names"])

    def test_not_told(self) -> None:
        """A reply that is not told leaves the call under way; one that is none of the call's is refused."""
        for line in ("stat /", "readdir /", "read / 0 1", "write / 0 07"):
            with self.subTest(line), self.assertRaisesRegex(
                TypeError, "has ended, and its reply is not told: "
            ), self.history.call(line):
                pass
        self.assertEqual(replies(self.history), [])
        rows: Tuple[Tuple[str, Callable[[Any], object], Type[Exception], str], ...] = (
            ("mkdir /a", lambda answer: answer.names([]), TypeError, "names tells no reply of mkdir"),
            ("readdir /", lambda answer: answer.data(b""), TypeError, "data tells no reply of readdir"),
            ("readdir /", lambda answer: answer.names("ab"), TypeError, "names takes several names, and this is str"),
            ("readdir /", lambda answer: answer.names(["a/b"]), ValueError, "b'a/b' is no name"),
            ("readdir /", lambda answer: answer.names([".."]), ValueError, "b'..' is no name"),
            ("readdir /", lambda answer: answer.names([""]), ValueError, "b'' is no name"),
            ("readdir /", lambda answer: answer.names(["a" * 256]), ValueError, "b'aaa"),
            (
                "readdir /",
                lambda answer: (answer.names([]), answer.names([])),
                TypeError,
                "the reply is told already: names",
            ),
            (
                "stat /",
                lambda answer: answer.stat(os.stat("/")),
                TypeError,
                "stat takes whether there is a directory, and this is stat_result",
            ),
            ("stat /", lambda answer: answer.stat(False), TypeError, "the size of a file is not told"),
            ("stat /", lambda answer: answer.stat(False, -1), ValueError, "a negative size"),
            ("read / 0 1", lambda answer: answer.data("a"), TypeError, "data takes bytes, and this is str: encode it"),
            (
                "write / 0 07",
                lambda answer: answer.wrote(b"a"),
                TypeError,
                "count is a whole number, and this is bytes",
            ),
        )
        for line, tell, kind, words in rows:
            with self.subTest(words), self.assertRaises(kind) as raised, self.history.call(line) as answer:
                tell(answer)
            self.assertEqual(str(raised.exception)[: len(words)], words)

    def test_lists(self) -> None:
        """By the third limits, which are those where none are named, a history has lists, and the error of a directory that is too large for
        one reply; others have neither."""
        history = History()
        with history.call("mkdir /a"):
            pass
        with history.call("list", "/", "/x", 2) as answer:
            answer.names([])
        with history.call("list / / 2") as answer:
            answer.names(["a"])
        self.assertIsInstance(history.linearize(), Lawful)
        with history.call("readdir /a"):
            raise OSError(errno.EOVERFLOW, "too many")
        self.assertEqual(
            lines(history)[2:],
            [
                "begin 2 0 list / /x 2",
                "return 2 names",
                "begin 3 0 list / / 2",
                "return 3 names a",
                "begin 4 0 readdir /a",
                "return 4 failed EOVERFLOW",
            ],
        )
        self.assertEqual(history.linearize(), NoOrder(8, 4))
        history = History(limits=Limits.V2)
        with self.assertRaisesRegex(ValueError, "no tree by Limits.V2 has the call list"):
            history.call("list / / 2")
        with history.call("readdir /"):
            raise OSError(errno.EOVERFLOW, "too many")
        self.assertEqual(lines(history)[-1], "return 1 failed ?")

    def test_no_call(self) -> None:
        """What is no call is refused, by no error that looks like one of the tree; and nothing is recorded."""
        rows: Tuple[Tuple[Type[Exception], str, Tuple[Any, ...]], ...] = (
            (ValueError, "'touch /a' is no call: 'touch' is none of the twelve calls", ("touch /a",)),
            (ValueError, "'mkdir a' is no call: ", ("mkdir a",)),
            (ValueError, "('mkdir', '/..') is no call: ", ("mkdir", "/..")),
            (ValueError, f"'mkdir /{'a' * 256}' is no call: ", (f"mkdir /{'a' * 256}",)),
            (ValueError, "'read / 0 x' is no call: ", ("read / 0 x",)),
            (ValueError, "'write / 0 0' is no call: ", ("write / 0 0",)),
            (TypeError, "rename takes path, path", ("rename /a",)),
            (TypeError, "mkdir takes path", ("mkdir", "/a", 0o777)),
            (TypeError, "call takes the name of a call, or its line, and this is tuple", (("mkdir", "/a"),)),
        )
        for kind, words, given in rows:
            with self.subTest(words), self.assertRaises(kind) as raised:
                self.history.call(*given)
            self.assertEqual((type(raised.exception), str(raised.exception)[: len(words)]), (kind, words))
        self.assertEqual(lines(self.history), [])

    def test_with(self) -> None:
        """A call that no block makes is not recorded, and that is told; one is for one block."""
        with self.assertWarnsRegex(RuntimeWarning, "^mkdir /a is not recorded: "):
            self.history.call("mkdir /a")
        call = self.history.call("mkdir /a")
        with call:
            pass
        with self.assertRaisesRegex(RuntimeError, "^mkdir /a is recorded already: "), call:
            self.fail("the block began")
        self.assertEqual(lines(self.history), ["begin 1 0 mkdir /a", "return 1 ok"])

    def test_start(self) -> None:
        """The start tree is that of the moment when the history was made, and its limits are those of the history."""
        with Tree.from_dict({"a/f": "\x07", "b": None}, limits=Limits.V1) as tree:
            history, nodes = History(tree), "start\ndir /\ndir /a\nfile /a/f 07\ndir /b\nentries\n"
            tree.rmdir("/b")
            self.assertEqual((history.text(), history.limits), (f"atomfs-journal 2\n{nodes}", Limits.V1))
            self.assertEqual(
                History(tree.snapshot(), limits=Limits.V1).text(),
                f"atomfs-journal 2\n{nodes.replace('dir /b' + chr(10), '')}",
            )
            with self.assertRaisesRegex(ValueError, "the start tree is by Limits.V1, and not by Limits.V2"):
                History(tree, limits=Limits.V2)
        self.assertEqual(History(limits=Limits.V1).text(), HEADER)
        for limits, number in ((None, 4), (Limits.V3, 4), (Limits.V2, 3)):
            self.assertEqual(History(limits=limits).text(), f"atomfs-journal {number}\nstart\ndir /\nentries\n")
        for limits in Limits:
            with self.assertRaisesRegex(ValueError, "is no call: "):
                History(limits=limits).call("mkdir", "/" + "a" * (limits.name_bytes + 1))


class Threads(unittest.TestCase):
    def look(self, history: History, calls: int) -> Set[str]:
        """Each call is there, on a seat where no other is under way."""
        self.assertEqual(repr(history), f"<atomfs.History of {calls:,} calls, 0 of them under way>")
        busy: Set[str] = set()
        seat_of: Dict[str, str] = {}
        for line in lines(history):
            word, number, *rest = line.split()
            if word == "begin":
                self.assertEqual((int(number), rest[0] in busy), (len(seat_of) + 1, False))
                seat_of[number] = rest[0]
                busy.add(rest[0])
            else:
                busy.remove(seat_of[number])
        self.assertEqual(len(seat_of), calls)
        return set(seat_of.values())

    def test_threads(self) -> None:
        """Each thread has a seat of its own."""
        history, together = History(), threading.Barrier(4)

        def work() -> None:
            together.wait()
            for _ in range(500):
                with history.call("mkdir /a"):
                    pass

        threads = [threading.Thread(target=work) for _ in range(4)]
        for thread in threads:
            thread.start()
        for thread in threads:
            thread.join()
        self.assertEqual(self.look(history, 2_000), set("0123"))

    def test_interval(self) -> None:
        """What another thread records while a call is under way stands between its begin and its return."""
        history = History()

        def other() -> None:
            with history.call("mkdir /b"):
                pass

        with history.call("mkdir /a"):
            thread = threading.Thread(target=other)
            thread.start()
            thread.join()
        self.assertEqual(lines(history), ["begin 1 0 mkdir /a", "begin 2 1 mkdir /b", "return 2 ok", "return 1 ok"])

    def test_tasks(self) -> None:
        """Calls of one thread that overlap have seats of their own, which later calls get again."""
        history = History()

        async def work(at: int) -> None:
            for _ in range(3):
                with history.call(f"mkdir /{at}"):
                    await asyncio.sleep(0)

        async def all_of_them() -> None:
            await asyncio.gather(*map(work, range(5)))

        asyncio.run(all_of_them())
        self.assertEqual(self.look(history, 15), set("01234"))

    def test_tree(self) -> None:
        """What threads do on a tree of this package is lawful."""
        with Tree() as tree:
            history = History(tree)

            def work(at: object) -> None:
                for name in "abcd":
                    with history.call("mkdir", f"/{name}"):
                        tree.mkdir(f"/{name}")
                    with history.call("readdir /") as answer:
                        answer.names(tree.readdir("/"))
                    with history.call("rename", f"/{name}", f"/{at}"):
                        tree.rename(f"/{name}", f"/{at}")
                    with history.call("stat", f"/{name}") as answer:
                        reply = tree.stat(f"/{name}")
                        answer.stat(reply.is_dir, reply.size, entries=reply.size)

            threads = [threading.Thread(target=work, args=(at,)) for at in range(3)]
            for thread in threads:
                thread.start()
            for thread in threads:
                thread.join()
        self.look(history, 48)
        self.assertEqual(history.linearize().verdict, "lawful")


class Others(unittest.TestCase):
    """Trees of others."""

    def test_kernel(self) -> None:
        """One thread on a directory of this machine is lawful."""
        history = History()
        with tempfile.TemporaryDirectory() as folder:
            rows: Tuple[Tuple[str, Callable[[Any], object]], ...] = (
                ("mkdir /a", lambda answer: os.mkdir(f"{folder}/a")),
                ("mkdir /a", lambda answer: os.mkdir(f"{folder}/a")),
                ("mknod /a/f", lambda answer: os.mknod(f"{folder}/a/f")),
                (
                    "write /a/f 0 0707",
                    lambda answer: answer.wrote(pathlib.Path(folder, "a", "f").write_bytes(b"\x07\x07")),
                ),
                ("mkdir /a/f/b", lambda answer: os.mkdir(f"{folder}/a/f/b")),
                ("unlink /a", lambda answer: os.unlink(f"{folder}/a")),
                ("rmdir /a", lambda answer: os.rmdir(f"{folder}/a")),
                ("rename /a /b", lambda answer: os.rename(f"{folder}/a", f"{folder}/b")),
                ("readdir /b", lambda answer: answer.names(os.listdir(f"{folder}/b"))),
                ("stat /b", lambda answer: answer.stat(True, os.stat(f"{folder}/b").st_size)),
                ("stat /b/f", lambda answer: answer.stat(False, os.stat(f"{folder}/b/f").st_size)),
                ("truncate /b/f 1", lambda answer: os.truncate(f"{folder}/b/f", 1)),
                ("read /b/f 0 9", lambda answer: answer.data(pathlib.Path(folder, "b", "f").read_bytes())),
            )
            for line, made in rows:
                with history.call(line) as answer:
                    made(answer)
        wanted = ["ok", "failed EEXIST", "ok", "wrote 2", "failed ENOTDIR", "failed EPERM", "failed ENOTEMPTY", "ok"]
        self.assertEqual(replies(history), [*wanted, "names f", "stat dir ?", "stat file 2", "ok", "bytes 07"])
        self.assertEqual(history.linearize().verdict, "lawful")

    def test_memory_fs(self) -> None:
        """`removedir` of PyFilesystem2 looks whether a directory is empty before it takes the lock: one that is made meanwhile is lost."""
        looked, made = threading.Event(), threading.Event()

        class Slow(fs.memoryfs.MemoryFS):
            def isempty(self, path: str) -> bool:
                empty = super().isempty(path)
                looked.set()
                made.wait(10)
                return empty

        files, history = Slow(), History()

        def remove() -> None:
            with history.call("rmdir /a"):
                files.removedir("/a")

        with history.call("mkdir /a"):
            files.makedir("/a")
        thread = threading.Thread(target=remove)
        thread.start()
        looked.wait(10)
        with history.call("mkdir /a/b"):
            files.makedir("/a/b")
        made.set()
        thread.join()
        self.assertEqual(replies(history), ["ok", "ok", "ok"])
        self.assertEqual(history.linearize(), NoOrder(6, 2))

    def test_errors_of_fs(self) -> None:
        history = History()
        for line, error, word in (
            ("mkdir /a", fs.errors.DirectoryExists("/a"), "EEXIST"),
            ("mkdir /a/b", fs.errors.ResourceNotFound("/a"), "?"),
            ("readdir /f", fs.errors.DirectoryExpected("/f"), "ENOTDIR"),
            ("unlink /a", fs.errors.FileExpected("/a"), "EPERM"),
            ("read /a 0 1", fs.errors.FileExpected("/a"), "EISDIR"),
            ("rmdir /a", fs.errors.DirectoryNotEmpty("/a"), "ENOTEMPTY"),
            ("rmdir /", fs.errors.RemoveRootError(), "EBUSY"),
            ("stat /a", fs.errors.FilesystemClosed(), "?"),
        ):
            with history.call(line) as answer:
                raise error
            self.assertEqual((replies(history)[-1], answer.error), (f"failed {word}", error))
        for kind in (fs.errors.OperationTimeout, fs.errors.RemoteConnectionError):
            with self.assertRaises(kind), history.call("mkdir /a"):
                raise kind("/a")


if __name__ == "__main__":
    unittest.main()
