"""What the library makes of texts, beside what the program writes: pictures, traces, schedules, verdicts, explanations; and what it refuses."""
import functools
import html
import os
import pathlib
import random
import re
import subprocess
import tempfile
import typing
import unittest
import xml.etree.ElementTree as ElementTree

import atomfs
from atomfs import Error, Limits, Page, Picture, Status, Tree
from atomfs._program import program

SVG = "{http://www.w3.org/2000/svg}"
# The rename of another thread helps the second call, which is half-way.
SCRIPT = "atomfs 1\nthread m\nmkdir /a\nmkdir /a/b\nthread r\nrename /a /b\nschedule\nm*9 r*9 finish\n"
LEFT = "atomfs 1\nthread m\nmkdir /a\nmkdir /b\nschedule\nm*3\n"
IN_PIECES = "atomfs 1\nthread m\nmkdir /a\nschedule\nm*2 !checkpoint finish\n"
WRONG = "atomfs-journal 1\nbegin 1 0 stat /\ncommit 1\nreturn 1 stat file 0\n"
CALLS = (
    "mkdir /a",
    "mkdir /b",
    "mkdir /a/c",
    "mknod /b/c",
    "unlink /b/c",
    "rmdir /a/c",
    "rename /a /b",
    "exchange /a /b",
    "stat /a",
    "readdir /",
    *("read /b/c 0 9", "write /b/c 1 ff", "truncate /b/c 3", "rename /b/c /a/c"),
)


def written(*words: str, given: str) -> str:
    """What the program itself writes."""
    return subprocess.run([program(), *words], input=given.encode(), capture_output=True, check=True).stdout.decode()


def elements(picture: object) -> typing.Dict[typing.Optional[str], typing.List[ElementTree.Element]]:
    """The elements of a picture by their classes, once it is one SVG element."""
    root = ElementTree.fromstring(str(picture))
    assert root.tag == SVG + "svg" and not list(root.iter(SVG + "svg"))[1:], root.tag
    found: typing.Dict[typing.Optional[str], typing.List[ElementTree.Element]] = {}
    for element in root.iter():
        found.setdefault(element.get("class"), []).append(element)
    return found


def begun(journal: str) -> typing.List[str]:
    """The numbers of the calls of a journal."""
    return re.findall(r"(?m)^begin (\d+) ", journal)


def entries(journal: str) -> typing.List[str]:
    return re.findall(r"(?m)^(?:begin|commit|return) .*\n", journal)


class OfTools(unittest.TestCase):
    def setUp(self) -> None:
        folder = tempfile.TemporaryDirectory()
        self.addCleanup(folder.cleanup)
        self.folder = pathlib.Path(folder.name)


@unittest.skipUnless(os.path.exists(program()), "there is no program in the package: ATOMFS_PROGRAM names one")
class Tools(OfTools):
    def test_draw(self) -> None:
        """A script by each schedule, in text and bytes, and a journal."""
        journal = atomfs.run(SCRIPT)
        for words, given, picture in (
            ((), SCRIPT, atomfs.draw(SCRIPT)),
            ((), SCRIPT, atomfs.draw(bytearray(SCRIPT.encode()))),
            (("--seed", "7"), SCRIPT, atomfs.draw(SCRIPT, seed=7)),
            (("--robin",), SCRIPT, atomfs.draw(SCRIPT, robin=True)),
            (("--around", "1"), SCRIPT, atomfs.draw(SCRIPT, 1)),
            (("--seed", "7", "--around", "3"), SCRIPT, atomfs.draw(SCRIPT, seed=7, around=3)),
            ((), journal, atomfs.draw(journal)),
            (("--around", "3"), journal, atomfs.draw(journal, around=3)),
        ):
            with self.subTest(words):
                self.assertEqual(str(picture), written("draw", *words, given=given))
                elements(picture)
        found = elements(atomfs.draw(SCRIPT))
        self.assertEqual([len(found[name]) for name in ("call", "c", "k")], [3, 2, 1])
        self.assertEqual(len(elements(atomfs.draw(SCRIPT, around=1))["call"]), 1)

    def test_page_of_the_program(self) -> None:
        """The page of a script's run or of a journal is the one that the program writes."""
        journal = atomfs.run(SCRIPT)
        for words, given, page in (
            ((), SCRIPT, atomfs.draw(SCRIPT, html=True)),
            (("--seed", "7"), SCRIPT, atomfs.draw(SCRIPT, seed=7, html=True)),
            (("--robin",), SCRIPT, atomfs.draw(SCRIPT, robin=True, html=True)),
            ((), journal, atomfs.draw(journal, html=True)),
        ):
            with self.subTest(words):
                self.assertEqual(str(page), written("draw", "--html", *words, given=given))

    def test_pictures_of_faults(self) -> None:
        """Calls that are left, and a journal that is not lawful, are drawn."""
        self.assertEqual(len(elements(atomfs.draw(LEFT))["call"]), 1)
        self.assertIn("WrongReply", str(atomfs.draw(WRONG)))

    def test_picture(self) -> None:
        picture = atomfs.draw(SCRIPT)
        self.assertEqual((str(picture), picture._repr_svg_()), (picture.svg, picture.svg))
        self.assertEqual((picture, hash(picture)), (Picture(picture.svg), hash(Picture(picture.svg))))
        self.assertNotEqual(picture, atomfs.draw(LEFT))
        self.assertEqual(
            repr(picture),
            f"<atomfs.Picture of {len(picture.svg):,} bytes: AtomFS: rename /a /b helped mkdir /a/b>",
        )
        self.assertEqual(repr(Picture("<svg/>")), "<atomfs.Picture of 6 bytes>")
        path = self.folder / "run.svg"
        self.assertEqual((picture.save(os.fspath(path)), picture.save(path)), (path, path))
        self.assertEqual(path.read_bytes(), picture.svg.encode())
        self.assertRaises(FileNotFoundError, picture.save, self.folder / "none" / "run.svg")

    def test_names_of_seats(self) -> None:
        """A seat that has a name is drawn by it, also where the last calls alone are."""
        with atomfs.Tree() as tree:
            writer = tree.seat(name="writer")
            for path in ("/a", "/b"):
                writer.begin.mkdir(path)
                writer.finish()
            for picture in (tree.draw(), tree.draw(last=1)):
                self.assertIn("<title>writer#", picture.svg)

    def test_trace(self) -> None:
        for words, told in (
            ((), atomfs.trace(SCRIPT)),
            (("--seed", "7"), atomfs.trace(SCRIPT.encode(), seed=7)),
            (("--robin",), atomfs.trace(SCRIPT, robin=True)),
            (("--every",), atomfs.trace(SCRIPT, every=True)),
        ):
            self.assertEqual(told, written("trace", *words, given=SCRIPT))
        self.assertIn("r#1 helps m#2, commits it at /a\n", atomfs.trace(SCRIPT))
        self.assertIn("left m unbegun mkdir /b\n", atomfs.trace(LEFT))

    def test_schedule(self) -> None:
        """What comes back runs as the run did; a comment in it stays as it is, also where it is no text."""
        for seed in range(9):
            self.assertEqual(
                atomfs.run(atomfs.schedule(SCRIPT, seed=seed)), written("run", "--seed", str(seed), given=SCRIPT)
            )
        self.assertEqual(atomfs.run(atomfs.schedule(SCRIPT, robin=True)), written("run", "--robin", given=SCRIPT))
        comment = "# \N{SNOWMAN}\n".encode() + b"# \xff\n"
        told = atomfs.schedule(SCRIPT.encode().replace(b"thread m\n", comment + b"thread m\n"), seed=1)
        self.assertIn(comment.decode("utf-8", "surrogateescape"), told)
        self.assertEqual(atomfs.schedule(told, seed=1), told)

    def test_seeds(self) -> None:
        """The runs of `schedule` with the same seeds."""
        told = atomfs.seeds(SCRIPT, 5, 3)
        self.assertEqual(told, [(5, "lawful"), (6, "lawful"), (7, "lawful")])
        self.assertEqual((told[1].seed, told[1].verdict), (6, "lawful"))
        self.assertEqual(atomfs.seeds(SCRIPT.encode(), seed=2**63 - 1, runs=1), [(2**63 - 1, "lawful")])
        self.assertEqual(
            "".join(f"seed {seed} {verdict}\n" for seed, verdict in told),
            written("seeds", "--seed", "5", "--runs", "3", given=SCRIPT),
        )

    def test_explain(self) -> None:
        self.assertRegex(atomfs.explain("BadHex"), r"(?s)^BadHex: .*\nwrite ")
        self.assertEqual(
            atomfs.explain(" BadPath  TrailingSlash"), written("explain", "BadPath", "TrailingSlash", given="")
        )
        for status in Status:
            if Status.BAD_HEADER <= status < Status.PATH_NOT_ABSOLUTE:
                self.assertTrue(atomfs.explain(status.kind).startswith(f"{status.kind}: "))


class Pages(OfTools):
    """Pages that play a run: `run.html` of the package, with the picture and the text in it."""

    def parts(self, page: object) -> typing.Tuple[str, str]:
        """The picture and the text of a page, whose other parts are those of the package."""
        stored = pathlib.Path(atomfs.__file__).with_name("run.html").read_text()
        form = re.escape(stored).replace("@PICTURE@\\\n", "(.*?)").replace("@RUN@", "(.*?)")
        found = re.fullmatch(form, str(page), re.S)
        assert found
        return found[1], html.unescape(found[2])

    def test_scripts(self) -> None:
        """The picture and the trace of the same run."""
        rows: typing.Tuple[typing.Dict[str, typing.Any], ...] = {}, {"seed": 7}, {"robin": True}
        for more in rows:
            with self.subTest(more):
                page = atomfs.draw(SCRIPT, html=True, **more)
                self.assertEqual(self.parts(page), (atomfs.draw(SCRIPT, **more).svg, atomfs.trace(SCRIPT, **more)))

    def test_journals(self) -> None:
        """A journal is as it is, after a line with the verdict on it."""
        journal = "atomfs-journal 1\n# seat 0 m\n# fault 9 None\n#\nbegin 1 0 stat /\ncommit 1\nreturn 1 stat dir 0\n"
        self.assertEqual(
            self.parts(atomfs.draw(journal, html=True)), (atomfs.draw(journal).svg, f"# lawful\n{journal}")
        )
        wrong = "# fault 3 WrongReply\n" + WRONG
        self.assertEqual(self.parts(atomfs.draw(WRONG, html=True)), (atomfs.draw(WRONG).svg, wrong))

    def test_trees(self) -> None:
        """The journal of a tree, with the names of its seats; or its last calls."""
        with atomfs.Tree() as tree:
            writer = tree.seat(name="writer")
            for path in ("/a", "/b"):
                writer.begin.mkdir(path)
                writer.finish()
            self.assertEqual(self.parts(tree.draw(html=True)), (tree.draw().svg, f"# lawful\n{tree.journal()}"))
            picture, text = self.parts(tree.draw(last=1, html=True))
            self.assertEqual((picture, begun(text)), (tree.draw(last=1).svg, ["2"]))
            self.assertRaisesRegex(ValueError, "whole run", tree.draw, 1, html=True)
        self.assertRaisesRegex(ValueError, "whole run", atomfs.draw, SCRIPT, 1, html=True)

    def test_hostile(self) -> None:
        """No byte of a name comes to the page as a sign of HTML, or as one that is not ASCII."""
        script = b"atomfs 3\nthread t\nmkdir /</pre><script>\nmkdir /&lt;\nmkdir /\xff\xfe\nschedule\nfinish\n"
        journal = b"atomfs-journal 1\n# seat 0 </pre>\nbegin 1 0 stat /<\xc3\r>\ncommit 1\nreturn 1 failed ENOENT\n"
        for given in (script, journal):
            page = str(atomfs.draw(given, html=True))
            self.assertTrue(page.isascii() and "\r" not in page)
            self.assertEqual((page.count("</pre>"), page.count("<script>")), (1, 2))
        self.assertIn("begin 1 0 stat /<%C3%0D>", self.parts(atomfs.draw(journal, html=True))[1])

    def test_refused(self) -> None:
        """What is no script and no journal has no page."""
        for given in ("", "atomfs 1\nmkdir /a\n", "atomfs-journal 1\nbegin\n"):
            self.assertRaises(Error, atomfs.draw, given, html=True)

    def test_page(self) -> None:
        page = atomfs.draw(SCRIPT, html=True)
        self.assertEqual((str(page), page, hash(page)), (page.html, Page(page.html), hash(Page(page.html))))
        told = "rename /a /b helped mkdir /a/b"
        self.assertEqual(repr(page), f"<atomfs.Page of {len(page.html):,} bytes: {told}>")
        self.assertEqual(repr(Page("<p>")), "<atomfs.Page of 3 bytes>")
        path = self.folder / "run.html"
        self.assertEqual((page.save(os.fspath(path)), page.save(path)), (path, path))
        self.assertEqual(path.read_bytes(), page.html.encode())
        self.assertRaises(FileNotFoundError, page.save, self.folder / "none" / "run.html")

    def test_notebooks(self) -> None:
        """A notebook has the page in a frame of its own, which may run its script and nothing else."""
        page = atomfs.draw(SCRIPT, html=True)
        found = re.fullmatch(
            r'<iframe [^<>]* sandbox="allow-scripts" [^<>]*srcdoc="([^"<>]*)"></iframe>', page._repr_html_()
        )
        assert found
        self.assertEqual(html.unescape(found[1]), page.html)


class Refused(OfTools):
    def look(self, kind: typing.Type[BaseException], words: str, call: typing.Callable[[], object]) -> typing.Any:
        """A call raises an exception of this very class, which says this."""
        with self.assertRaises(kind) as raised:
            call()
        self.assertEqual((type(raised.exception), str(raised.exception)[: len(words)]), (kind, words))
        return raised.exception

    def test_faults_of_texts(self) -> None:
        """As `run` and `check` raise them."""
        for text in (
            "",
            "atomfs 1\nthread T\n",
            "atomfs 1\nthread m\nmkdr /a\nschedule\n",
            "atomfs 1\nthread m\nread /a 0 x\nschedule\n",
        ):
            wanted = self.look(Error, "line ", lambda: atomfs.run(text))
            tools: typing.Tuple[typing.Callable[[str], object], ...] = (
                atomfs.draw,
                atomfs.trace,
                lambda given: atomfs.schedule(given, seed=1),
                lambda given: atomfs.seeds(given, 1, 1),
            )
            for tool in tools:
                error = self.look(Error, str(wanted), lambda: tool(text))
                self.assertEqual((str(error), error.status, error.about), (str(wanted), wanted.status, wanted.about))
        journal = "atomfs-journal 1\nbegin 1 0 mkdir /a\ncommit 1 2\n"
        self.assertEqual(
            str(self.look(Error, "line 3: ", lambda: atomfs.draw(journal))),
            str(self.look(Error, "line 3: ", lambda: atomfs.check(journal))),
        )
        error = self.look(
            Error, "line 3: BadPath: no path", lambda: atomfs.draw("atomfs 1\nthread m\nmkdir /.\nschedule\n")
        )
        self.assertEqual((error.status, error.about), (Status.BAD_PATH, 3))
        error = self.look(Error, "line 1: BadHeader", lambda: atomfs.trace("atomfs-journal 1\n"))
        self.assertEqual((error.status, error.status.kind), (Status.BAD_HEADER, "BadHeader"))
        self.look(Error, "line 1: TooLarge", lambda: atomfs.draw(b"\n" * 16_777_217))
        self.look(Error, "line 1: TooLarge", lambda: atomfs.draw(b"atomfs 2\nschedule\n" + b"\n" * 16_777_217))
        elements(atomfs.draw(b"atomfs 3\nschedule\n" + b"\n" * 16_777_217))

    def test_runs_that_end_early(self) -> None:
        tools: typing.Tuple[typing.Callable[[str], object], ...] = atomfs.draw, atomfs.trace
        for tool in tools:
            self.assertEqual(self.look(atomfs.UnderWayError, "a call is under way", lambda: tool(IN_PIECES)).about, 1)
        deep = ["/" + "/".join("d" * at) for at in range(1, 64)]
        script = "\n".join(
            ["atomfs 1", "thread t", *(f"mkdir {path}" for path in deep), *[f"stat {deep[-1]}"] * 8_000, "schedule\n"]
        )
        error = self.look(
            Error, "the run takes more events than a script gives", lambda: atomfs.schedule(script, robin=True)
        )
        self.assertEqual((error.status, error.about), (Status.TOO_LARGE, 0))

    def test_arguments(self) -> None:
        rows: typing.Iterable[typing.Tuple[typing.Any, ...]] = (
            (ValueError, "there is no call 4", lambda: atomfs.draw(SCRIPT, 4)),
            (ValueError, "there is no call 0", lambda: atomfs.draw(SCRIPT, around=0)),
            (ValueError, "a negative number of a call", lambda: atomfs.draw(SCRIPT, -1)),
            (TypeError, "number of a call is a whole number, and this is str", lambda: atomfs.draw(SCRIPT, "1")),  # type: ignore[call-overload]
            (
                ValueError,
                "a schedule is drawn by a seed, or goes round robin, and not both",
                lambda: atomfs.draw(SCRIPT, seed=0, robin=True),
            ),
            (
                ValueError,
                "a schedule is drawn by a seed, or goes round robin, and not both",
                lambda: atomfs.trace(SCRIPT, seed=0, robin=True),
            ),
            (
                ValueError,
                "a schedule is drawn by a seed, or goes round robin, and not both",
                lambda: atomfs.schedule(SCRIPT, seed=0, robin=True),
            ),
            (TypeError, "schedule takes a seed, or robin=True", lambda: atomfs.schedule(SCRIPT)),
            (TypeError, "seed is a whole number, and this is float", lambda: atomfs.trace(SCRIPT, seed=1.0)),  # type: ignore[arg-type]
            (ValueError, "there is no call 18446744073709551615", lambda: atomfs.draw(SCRIPT, 2**64 - 1)),
            (ValueError, "there are 1 to 10,000 runs, and not 0", lambda: atomfs.seeds(SCRIPT, 1, 0)),
            (ValueError, "there are 1 to 10,000 runs, and not 10001", lambda: atomfs.seeds(SCRIPT, 1, 10_001)),
            (
                ValueError,
                "a seed is below 9223372036854775808, and this is 9223372036854775808",
                lambda: atomfs.seeds(SCRIPT, 2**63, 1),
            ),
            (ValueError, "a negative number of runs", lambda: atomfs.seeds(SCRIPT, 1, -1)),
            *(
                (ValueError, f"{word!r} is none of BadHeader, ", functools.partial(atomfs.explain, word))
                for word in ("Dott", "--help", "--", "Dot\0", "\udcff")
            ),
            (ValueError, "explain takes one word or two, and not 0", lambda: atomfs.explain(" ")),
            (ValueError, "explain takes one word or two, and not 3", lambda: atomfs.explain("BadPath Dot Dot")),
            (TypeError, "explain takes str, and this is bytes", lambda: atomfs.explain(b"Dot")),  # type: ignore[arg-type]
            (TypeError, "memoryview: ", functools.partial(atomfs.draw, 7)),
            (TypeError, "memoryview: ", functools.partial(atomfs.trace, 7)),
        )
        for kind, words, call in rows:
            with self.subTest(words):
                self.look(kind, words, call)

    def test_words(self) -> None:
        """The words that `explain` lists are those that it knows, and those of the program."""
        with self.assertRaises(ValueError) as raised:
            atomfs.explain("Dott")
        words = str(raised.exception).removeprefix("'Dott' is none of ").split(", ")
        listed = re.search(r"possible values: (.*)\]", written("explain", "--help", given=""))
        assert listed
        self.assertEqual(sorted(words), sorted(listed[1].split(", ")))
        for word in words:
            self.assertTrue(atomfs.explain(word).startswith(f"{word}: "))


class OfTrees(OfTools):
    def setUp(self) -> None:
        super().setUp()
        self.tree = Tree(1000)
        self.addCleanup(self.tree.close)

    def test_draw(self) -> None:
        """All calls so far, around one, and the last of them; without a call of its own."""
        self.assertNotIn("call", elements(self.tree.draw()))
        seat = self.tree.seat(name="writer")
        seat.begin.mkdir("/a")
        for at in range(5):
            self.tree.exists(f"/{at}")
        self.assertEqual(self.tree.draw(), atomfs.draw(self.tree.journal()))
        self.assertEqual(len(elements(self.tree.draw())["call"]), 6)
        self.assertEqual(self.tree.draw(3), atomfs.draw(self.tree.journal(), around=3))
        self.assertEqual(len(elements(self.tree.draw(last=3))["call"]), 3)
        self.assertEqual([len(elements(self.tree.draw(last=last)).get("call", ())) for last in (0, 6, 7)], [0, 6, 6])
        self.assertEqual(len(elements(self.tree.draw(6, last=2))["call"]), 2)
        self.assertEqual(self.tree.calls, 6)
        seat.finish()
        for kind, call in (
            (ValueError, lambda: self.tree.draw(7)),
            (ValueError, lambda: self.tree.draw(last=-1)),
            (TypeError, lambda: self.tree.draw("1")),  # type: ignore[call-overload]
        ):
            self.assertRaises(kind, call)
        self.tree.close()
        self.assertRaises(atomfs.ClosedError, self.tree.draw)

    def test_too_large(self) -> None:
        """A journal that is no text any more is refused; of its last calls there is a picture."""
        with Tree(1000, limits=Limits.V2) as tree:
            for one in (tree, self.tree):
                for _ in range(9):
                    one.write_bytes("/f", bytes(1_000_000))
                elements(one.draw(last=2))
            with self.assertRaisesRegex(Error, "line 1: TooLarge"):
                tree.draw()
            self.assertIsNone(tree._repr_svg_())
        elements(self.tree.draw())

    def test_notebook(self) -> None:
        """The last calls, at most 100; nothing where there is none, or where it would take long."""
        self.assertIsNone(self.tree._repr_svg_())
        for calls, shown in ((1, 1), (100, 100), (250, 100)):
            for at in range(calls - self.tree.calls):
                self.tree.exists(f"/{at}")
            picture = self.tree._repr_svg_() or ""
            self.assertEqual(len(elements(picture)["call"]), shown)
        self.assertIn("\ncall 250, ", picture)
        for _ in range(10_000 - 250):
            self.tree.exists("/a")
        self.assertIsInstance(self.tree._repr_svg_(), str)
        self.tree.exists("/a")
        self.assertIsNone(self.tree._repr_svg_())
        self.tree.forget()
        self.assertIsNone(self.tree._repr_svg_())
        self.tree.close()
        self.assertIsNone(self.tree._repr_svg_())

    def test_in_a_patch(self) -> None:
        """A picture is drawn and saved where a tree stands, also where that is worked in."""
        before = os.getcwd()
        with atomfs.patch(self.tree, self.folder / "sandbox") as patched:
            os.chdir(patched.at)
            self.tree.mkdir("/a")
            self.assertEqual(self.tree.draw().save("a/run.svg"), pathlib.Path("a/run.svg"))
            self.assertEqual(os.listdir("a"), ["run.svg"])
            os.chdir(before)
        self.assertEqual((list(self.tree), os.listdir(self.folder)), (["/", "/a", "/a/run.svg"], []))


class LastCalls(unittest.TestCase):
    """A journal of the last calls of another one."""

    def look(self, journal: str, limits: Limits, most: int) -> typing.List[str]:
        """It is lawful, has as many calls as it may, and ends as the whole journal does."""
        from atomfs._last import of_last

        last = of_last(Tree, journal, limits, most)
        self.assertEqual(atomfs.check(last), "lawful", (journal, last))
        kept, of = begun(last), begun(journal)
        if len(of) <= most:
            self.assertEqual(last, journal)
        self.assertLessEqual(len(kept), most)
        self.assertEqual([number for number in of if number in kept], kept)
        tail = [line for line in entries(journal) if line.split()[1] in kept]
        self.assertEqual(sorted(entries(last)), sorted(tail))
        self.assertEqual(
            [line for line in entries(last) if not line.startswith("begin")],
            [line for line in tail if not line.startswith("begin")],
        )
        return kept

    def test_of_one_thread(self) -> None:
        """Of calls one behind the other as many as are asked for."""
        for limits in Limits:
            with Tree.from_dict({"a/f": "text", "b": None}, limits=limits) as tree:
                tree.seat(name="other")
                for call in range(20):
                    tree.rename("/a", "/c")
                    tree.rename("/c", "/a")
                    tree.write("/a/f", call, b"x")
                for most in (1, 7, 59):
                    kept = self.look(tree.journal(), limits, most)
                    self.assertEqual(kept, [str(number) for number in range(61 - most, 61)])

    def test_of_threads(self) -> None:
        """Of drawn runs, whole and cut off anywhere, where calls are under way."""
        draw = random.Random(7)

        def check(tree: atomfs.Tree, replies: typing.Dict[str, typing.Any]) -> None:
            journal = tree.journal()
            opening = journal[: journal.index("begin")]
            cut = draw.randrange(len(entries(journal)) + 1)
            for text in (journal, opening + "".join(entries(journal)[:cut])):
                for most in (0, 1, 2, 3, 5, 8, 99):
                    self.look(text, tree.limits, most)

        for seed in range(30):
            threads = {name: draw.choices(CALLS, k=4) for name in "abcd"}
            before = ["mkdir /a", "mkdir /b"] if seed % 2 else []
            atomfs.explore(threads, check, runs=2, seed=seed, before=before, limits=draw.choice(list(Limits)))


if __name__ == "__main__":
    unittest.main()
