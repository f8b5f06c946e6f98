"""The plugin of pytest, by pytest's own `pytester`: test_plugin.py has pytest run this file."""
import io
import os
import pathlib
import re
import typing
import xml.etree.ElementTree as ElementTree
import zipfile

import pytest

SECTION = [
    "*- atom_tree -*",
    "<atomfs.Tree open: 3 of 16,777,216 nodes, 3 calls, Limits.V3>",
    "/",
    "└── a/",
    "    └── f (2 bytes)",
    "The last calls:",
]


def outcomes(pytester: pytest.Pytester, text: str, *options: str, **counts: int) -> pytest.RunResult:
    pytester.makepyfile(text)
    result = pytester.runpytest("-p", "no:cacheprovider", "--strict-markers", *options)
    result.assert_outcomes(**counts)
    return result


def test_fixtures(pytester: pytest.Pytester) -> None:
    """The three are one tree, and each test has its own."""
    text = """
        import atomfs
        import pytest

        @pytest.mark.parametrize("at", range(3))
        def test_one(atom_tree, atom_path, at):
            assert isinstance(atom_tree, atomfs.Tree) and isinstance(atom_path, atomfs.Path)
            assert list(atom_tree) == ["/"] and atom_tree.calls == 0
            (atom_path / "a").mkdir()
            assert "/a" in atom_tree

        def test_fs(atom_fs, atom_tree):
            atom_fs.writetext("f", "text")
            assert atom_tree.read_text("/f") == "text"

        def test_none():
            pass
    """
    outcomes(pytester, text, passed=5)


def test_mark(pytester: pytest.Pytester) -> None:
    """A directory, a zip and a dictionary, read from the folder where pytest is run, and limits."""
    (pytester.mkdir("data") / "f").write_text("text")
    packed = io.BytesIO()
    with zipfile.ZipFile(packed, "w") as archive:
        archive.writestr("z/f", "packed")
    (pytester.path / "data.zip").write_bytes(packed.getvalue())
    text = """
        import atomfs
        import os
        import pytest

        pytestmark = pytest.mark.atomfs(load="data")

        @pytest.mark.parametrize("at", range(2))
        def test_directory(atom_tree, at):
            assert atom_tree.to_dict() == {"/f": b"text"}
            atom_tree.unlink("/f")
            if os.path.exists("data/f"):
                os.remove("data/f")

        @pytest.mark.atomfs(load="data.zip", limit=9, limits=atomfs.Limits.V1)
        def test_zip(atom_tree):
            assert atom_tree.to_dict() == {"/z/f": b"packed"}
            assert (atom_tree.limit, atom_tree.limits) == (9, atomfs.Limits.V1)

        @pytest.mark.atomfs({"a/b": "text"})
        def test_dictionary(atom_path):
            assert (atom_path / "a/b").read_text() == "text"
    """
    outcomes(pytester, text, passed=4)


@pytest.mark.parametrize(
    "words, told",
    [
        ("lod='data'", "*the mark atomfs: *unexpected keyword argument 'lod'*"),
        ("load='none'", "*No such file or directory: *none*"),
        ("load={'a': b'', 'b': b''}, limit=2", "*All 2 nodes of the tree are in use: '/b'*"),
    ],
)
def test_mark_refused(pytester: pytest.Pytester, words: str, told: str) -> None:
    text = f"import pytest\n@pytest.mark.atomfs({words})\ndef test_one(atom_tree):\n    pass\n"
    outcomes(pytester, text, errors=1).stdout.fnmatch_lines([told])


def test_markers(pytester: pytest.Pytester) -> None:
    pytester.runpytest("--markers").stdout.fnmatch_lines(["@pytest.mark.atomfs(load=None, *"])


FAILS = """
    def test_one(atom_path):
        (atom_path / "a").mkdir()
        (atom_path / "a" / "f").write_bytes(b"ab")
        assert {}
"""


def test_patch(pytester: pytest.Pytester) -> None:
    """The tree of the test stands at the directory of the mark until the test ends, also where it fails."""
    text = """
        import os
        import pathlib
        import pytest

        def test_one(atom_patch, atom_tree):
            assert atom_patch.at == pathlib.Path("/sandbox")
            os.makedirs("/sandbox/a")
            (atom_patch.at / "a" / "f").write_text("text")
            assert atom_tree.to_dict() == {"/a/f": b"text"}

        @pytest.mark.atomfs({"f": "text"}, at="/elsewhere/below")
        def test_elsewhere(atom_patch):
            os.chdir("/elsewhere/below")
            assert open("f").read() == "text" and not os.path.exists("/sandbox")
            assert False

        def test_behind():
            assert not os.path.exists("/elsewhere/below") and not os.path.exists("/sandbox")
            assert os.path.isdir(os.getcwd())

        @pytest.mark.atomfs(at="/")
        def test_root(atom_patch):
            pass
    """
    result = outcomes(pytester, text, passed=2, failed=1, errors=1)
    result.stdout.fnmatch_lines(["*ValueError: a tree stands at a directory below the root*"])


def test_section(pytester: pytest.Pytester) -> None:
    """A test that fails shows the tree and the last calls, and one that passes does not."""
    result = outcomes(pytester, FAILS.format(False), failed=1)
    result.stdout.fnmatch_lines([*SECTION, "mkdir /a: ok", "mknod /a/f: ok", "write /a/f 0 6162: wrote 2"])
    outcomes(pytester, FAILS.format(True), "-rA", passed=1).stdout.no_fnmatch_line("*The last calls*")


def pictured(result: pytest.RunResult) -> typing.List[pathlib.Path]:
    """The paths of the pictures that a report names, each of one SVG element. A page that plays the same calls is beside each."""
    paths = [pathlib.Path(path) for path in re.findall(r"(?m)^The picture: (.*)$", result.stdout.str())]
    pages = [pathlib.Path(path) for path in re.findall(r"(?m)^The page: (.*)$", result.stdout.str())]
    for path in paths:
        root = ElementTree.parse(path).getroot()
        assert root.tag.endswith("}svg") and "call" in {element.get("class") for element in root}
        page = path.with_suffix(".html")
        assert page in pages and path.read_text() in page.read_text()
    return paths


def test_picture(pytester: pytest.Pytester) -> None:
    """It is in the tmp_path of the test, or in a folder of its own beside those; a test that makes no call has none."""
    text = """
        def test_own(atom_tree, tmp_path):
            atom_tree.mkdir("/a")
            assert not list(tmp_path.iterdir())
            assert False

        def test_beside(atom_tree):
            atom_tree.mkdir("/a")
            assert False

        def test_removed(atom_tree, tmp_path):
            atom_tree.mkdir("/a")
            tmp_path.rmdir()
            assert False

        def test_no_call(atom_tree):
            assert False
    """
    result = outcomes(pytester, text, "--basetemp=temp", failed=4)
    temp = pytester.path / "temp"
    assert pictured(result) == [
        temp / name / "atom_tree.svg" for name in ("test_own0", "test_beside0", "test_removed0")
    ]


def test_picture_of_a_patch(pytester: pytest.Pytester) -> None:
    """It is on the disk, also where the tree stands above it, and where the test works in the tree."""
    text = f"""
        import os
        import pytest

        @pytest.mark.atomfs(at={os.fspath(pytester.path / "temp")!r})
        def test_above(atom_patch):
            (atom_patch.at / "a").mkdir()
            os.chdir(atom_patch.at / "a")
            assert False
    """
    assert len(pictured(outcomes(pytester, text, "--basetemp=temp", failed=1))) == 1


def test_no_picture(pytester: pytest.Pytester) -> None:
    """A report says why it has none."""
    text = """
        def test_taken(atom_tree, tmp_path):
            atom_tree.mkdir("/a")
            (tmp_path / "atom_tree.svg").mkdir()
            assert False
    """
    result = outcomes(pytester, text, failed=1)
    result.stdout.fnmatch_lines(["*- atom_tree -*", "No picture: *Is a directory: *", "The page: *atom_tree.html"])
    assert pictured(result) == []


def test_explore(pytester: pytest.Pytester) -> None:
    """The report of a run that fails names its picture and its page, which the exception has too."""
    text = """
        import atomfs
        import pytest

        CALLS = {"m": ["mkdir /a"], "r": ["rmdir /a"]}

        @atomfs.simulate(CALLS, runs=50)
        def test_simulate(tree, replies):
            assert "/a" in tree

        def test_explore(tmp_path, atom_tree):
            atomfs.explore(CALLS, lambda tree, replies: "/a" in tree)
    """
    pytester.makeconftest(
        """
        def pytest_exception_interact(call):
            print("It is at", call.excinfo.value.picture, call.excinfo.value.page_file)
    """
    )
    result = outcomes(pytester, text, "--basetemp=temp", "-s", failed=2)
    paths = pictured(result)
    assert paths == [pytester.path / "temp" / name / "explore.svg" for name in ("test_simulate0", "test_explore0")]
    result.stdout.fnmatch_lines(
        [
            *(f"*It is at {path} {path.with_suffix('.html')}" for path in paths),
            "*- atomfs.explore -*",
            f"The picture: {paths[0]}",
        ]
    )


def test_functions(pytester: pytest.Pytester) -> None:
    """The report of functions has the lines of the test's own file, and those of the package not."""
    text = """
        import os
        import atomfs

        def lead():
            if not os.path.exists("/sandbox/leader"):
                open("/sandbox/leader", "w").close()
                return "leads"

        @atomfs.simulate({"ann": lead, "bob": lead}, runs=50, patch=True)
        def test_simulate(tree, replies):
            assert list(replies.values()).count("leads") == 1

        def test_outcomes():
            found = atomfs.outcomes({"ann": lead, "bob": lead}, lambda tree, replies: replies["ann"], 50, patch=True)
            found.sometimes("leads").sometimes(None).never("leads")
    """
    result = outcomes(pytester, text, "--basetemp=temp", failed=2)
    result.stdout.fnmatch_lines(
        [
            ">       assert list(replies.values()).count(*",
            "The above exception was the direct cause of the following exception:",
            "E * atomfs.ScheduleError: seed *: AssertionError: *",
            "E * test_functions.py:5  if not os.path.exists(*)*stat /leader: failed ENOENT",
            "E * test_functions.py:6  open(*)*mknod /leader: ok",
            "*- atomfs.explore -*",
            "E * AssertionError: never 'leads': * of 50 runs break it",
            ">       found.sometimes(*",
        ]
    )
    lines = result.stdout.str().splitlines()
    assert not [line for line in lines if "_explore/" in line or "tracebackhide" in line]
    assert len(pictured(result)) == 2


def test_section_of_last_calls(pytester: pytest.Pytester) -> None:
    text = """
        def test_one(atom_tree):
            for at in range(50):
                atom_tree.exists(f"/{at}")
            assert False
    """
    result = outcomes(pytester, text, failed=1)
    result.stdout.fnmatch_lines(["The last calls:", "stat /20: failed ENOENT", "*", "stat /49: failed ENOENT"])
    result.stdout.no_fnmatch_line("stat /19:*")


def test_verdict(pytester: pytest.Pytester) -> None:
    """A journal that is not lawful is an error at the end of the test, with the tree."""
    text = """
        def test_one(atom_tree):
            atom_tree.mkdir("/a")
            atom_tree.check = lambda: "fault 3 WrongReply"
    """
    result = outcomes(pytester, text, passed=1, errors=1)
    result.stdout.fnmatch_lines(
        ["the journal of atom_tree: fault 3 WrongReply", "<atomfs.Tree open: *", "└── a/", "mkdir /a: ok"]
    )


def test_closed(pytester: pytest.Pytester) -> None:
    """A tree that the test closes has no verdict, and where the test fails too its report says so."""
    text = """
        def test_passes(atom_tree):
            atom_tree.close()

        def test_fails(atom_tree):
            atom_tree.close()
            atom_tree.mkdir("/a")
    """
    outcomes(pytester, text, passed=1, failed=1).stdout.fnmatch_lines(["*- atom_tree -*", "<atomfs.Tree closed>"])


def test_large_journal(pytester: pytest.Pytester) -> None:
    """A journal is checked also where no text could hold it."""
    text = """
        def test_one(atom_tree):
            for at in range(9):
                atom_tree.write_bytes("/f", bytes(1_048_576))
    """
    outcomes(pytester, text, passed=1)


IN_MEMORY = """
    import os
    import pathlib
    import subprocess
    import sys
    import tempfile
    import unittest

    import pytest

    @pytest.fixture(scope="session")
    def shared(tmp_path_factory):
        folder = tmp_path_factory.mktemp("shared")
        (folder / "f").write_text("of the session")
        return folder

    def test_paths(tmp_path, tmpdir, shared):
        (tmp_path / "f").write_text("text")
        tmpdir.join("g").write("text")
        assert (shared / "f").read_text() == "of the session"
        pathlib.Path("relative").write_text("text")
        with tempfile.NamedTemporaryFile() as file:
            assert os.path.dirname(file.name) == tempfile.gettempdir()

    def test_later(shared, monkeypatch, tmp_path):
        assert (shared / "f").read_text() == "of the session" and os.path.exists("relative")
        monkeypatch.chdir(tmp_path)
        assert os.listdir() == []
        told = subprocess.run([sys.executable, "-c", "open('by_program', 'w').write('x'); print('told')"], capture_output=True)
        assert told.stdout == b"told\\n" and os.listdir() == ["by_program"]

    class TestOfUnittest(unittest.TestCase):
        def test_one(self):
            with tempfile.TemporaryDirectory() as folder:
                os.symlink("none", f"{folder}/l")
                os.chmod(folder, 0o711)
                self.assertEqual(os.stat(folder).st_mode & 0o777, 0o711)
"""


def test_in_memory(pytester: pytest.Pytester, tmp_path: pathlib.Path) -> None:
    """Tests that know nothing of this run in trees by one word, and leave nothing on the disk."""
    pytester.makepyfile(IN_MEMORY)
    outcomes(pytester, IN_MEMORY, "--atomfs", passed=3)
    left = [path for path in pytester.path.rglob("*") if "__pycache__" not in path.parts and path.is_file()]
    assert [path.suffix for path in left] == [".py"]
    outcomes(pytester, IN_MEMORY, passed=3)
    assert (pytester.path / "relative").exists()


def test_in_memory_at(pytester: pytest.Pytester) -> None:
    """A directory of the disk is as it was, whatever tests do there; a failed test has its tree, its journal and its picture."""
    (pytester.mkdir("data") / "f").write_text("data")
    text = """
        import os
        import pathlib

        def test_reads():
            assert pathlib.Path("data/f").read_text() == "data"

        def test_writes():
            pathlib.Path("data/f").write_text("changed")
            os.mkdir("new")
            assert False

        def test_after():
            assert pathlib.Path("data/f").read_text() == "changed" and False
    """
    result = outcomes(pytester, text, "--atomfs", "--atomfs-at", ".", passed=1, failed=2)
    assert (pytester.path / "data" / "f").read_text() == "data" and not (pytester.path / "new").exists()
    told = result.stdout.str()
    result.stdout.fnmatch_lines([f"*- atomfs: {pytester.path} -*", "The last calls:", "mkdir /new: ok"])
    kept = re.findall(r"The (journal|picture|page): (.*)", told)
    assert [name for name, _ in kept][:3] == ["journal", "picture", "page"]
    journal = pathlib.Path(kept[0][1]).read_text()
    # Of this test alone: the one before has another.
    assert journal.startswith("atomfs-journal") and "mkdir /new" in journal and "begin 1 " in journal
    assert "<svg" in pathlib.Path(kept[1][1]).read_text()
    assert pathlib.Path(kept[2][1]).read_text().count("mkdir /new") > 1
    assert "stat /data/f" not in journal.split("mkdir /new")[1]


def below(top: pathlib.Path) -> typing.Dict[pathlib.Path, typing.Tuple[int, typing.Union[bool, bytes]]]:
    """All that is below a directory of the disk, with times and contents."""
    paths = (path for path in top.rglob("*") if "__pycache__" not in path.parts and path.name != ".pytest_cache")
    return {path: (path.lstat().st_mtime_ns, path.is_file() and path.read_bytes()) for path in paths}


def test_in_memory_overlay(pytester: pytest.Pytester) -> None:
    """Tests read the project's own files, and what they change there is theirs alone."""
    data = pytester.mkdir("data")
    (data / "in.txt").write_text("of the disk")
    (data / "large").write_bytes(bytes(3_000_000))
    (data / "link").symlink_to("in.txt")
    pytester.makepyfile(helper="VALUE = 17")
    text = """
        import os
        import pathlib
        import shutil

        HERE = pathlib.Path(__file__).parent

        def test_reads():
            import helper
            assert helper.VALUE == 17
            assert pathlib.Path("data/in.txt").read_text() == (HERE / "data/link").read_text() == "of the disk"
            assert sorted(os.listdir("data")) == ["in.txt", "large", "link"]

        def test_writes(tmp_path):
            shutil.copy("data/in.txt", tmp_path)
            shutil.copytree("data", "data2", symlinks=True)
            pathlib.Path("data/in.txt").write_text("changed")
            os.rename("data/large", "larger")
            os.remove("data/link")
            os.chmod("helper.py", 0o600)
            pathlib.Path("out").mkdir()

        def test_after():
            assert pathlib.Path("data/in.txt").read_text() == "changed" and os.path.exists("data2/link")
            assert os.listdir("data") == ["in.txt"] and len(pathlib.Path("larger").read_bytes()) == 3_000_000
            assert False
    """
    (module,) = [pytester.makepyfile(text)]
    before = below(pytester.path)
    words = "-p", "no:cacheprovider", "--atomfs", "--atomfs-overlay", "."
    result = pytester.runpytest(*words)
    result.assert_outcomes(passed=2, failed=1)
    assert below(pytester.path) == before and module in before
    kept = re.findall(r"The (journal|picture|page): (.*)", result.stdout.str())
    journal = pathlib.Path(kept[0][1]).read_text()
    # The bytes that came for tests before are in the tree where this journal begins.
    assert "# seat 1 overlay" in journal and "write /data/in.txt" not in journal
    result = pytester.runpytest(*words[:-1], "data", "-k", "test_reads")
    result.stdout.fnmatch_lines(["*FileNotFoundError*data/in.txt*"])
    result = pytester.runpytest(*words[:-1], "none")
    assert result.ret == pytest.ExitCode.USAGE_ERROR
    result.stderr.fnmatch_lines(["ERROR: --atomfs-overlay: there is no directory none"])


def test_in_memory_with_fixtures(pytester: pytest.Pytester) -> None:
    """Pytest's own fixtures and those of this plugin do there what they do elsewhere."""
    text = """
        import os
        import subprocess
        import sys

        def test_capfd(capfd, capfdbinary=None):
            os.write(1, b"of os ")
            subprocess.run([sys.executable, "-c", "print('of a program')"])
            assert capfd.readouterr().out == "of os of a program\\n"

        def test_capsys(capsys):
            print("text")
            assert capsys.readouterr().out == "text\\n"

        def test_patch(atom_patch, tmp_path):
            (atom_patch.at / "f").write_text("text")
            (tmp_path / "f").write_text("other")
            assert atom_patch.tree.read("/f") == b"text" and (tmp_path / "f").read_text() == "other"

        def test_logs(caplog, recwarn, monkeypatch, tmp_path_factory, request):
            monkeypatch.setattr(os, "getcwd", lambda: "/nowhere")
            assert os.getcwd() == "/nowhere"

        def test_after():
            assert os.getcwd() != "/nowhere" and os.path.isdir(os.getcwd())
    """
    outcomes(pytester, text, "--atomfs", passed=5)


def test_in_memory_with_xdist(pytester: pytest.Pytester) -> None:
    """Each worker has trees of its own."""
    pytest.importorskip("xdist")
    text = """
        import pathlib
        import pytest

        @pytest.mark.parametrize("number", range(6))
        def test_one(tmp_path, number):
            (tmp_path / "f").write_text("text")
            assert not pathlib.Path(f"only_{number}").exists()
            pathlib.Path(f"only_{number}").write_text("text")
    """
    outcomes(pytester, text, "--atomfs", "-n", "2", passed=6)
    assert not list(pytester.path.glob("only_*"))


def test_options(pytester: pytest.Pytester) -> None:
    pytester.runpytest("--help").stdout.fnmatch_lines(["*--atomfs *", "*--atomfs-at=DIR*", "*--atomfs-overlay=DIR*"])
