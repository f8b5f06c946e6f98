#!/usr/bin/env python3
"""CPython's own tests, on the disk and in a tree: python3 cpython.py [--quick] [--seconds N] [MODULE ..].

Each module runs twice in a process of its own, with its working directory and its temporary files in a directory of the disk, and then in a
tree. A test that passes on the disk and not in the tree needs a reason out of `REASONS`; one without a reason fails, and so does a module
that leaves a file on the disk. The last lines are the counts, by module. It needs Debian's libpython3.11-testsuite.
"""
import argparse
import collections
import contextlib
import importlib
import io
import json
import os
import pathlib
import re
import shutil
import subprocess
import sys
import tempfile
import traceback
import typing
import unittest

PACKAGE = "libpython3.11-testsuite"
# A few that take under a minute together: tests/run has these.
QUICK = (
    "test_genericpath",
    "test_glob",
    "test_fileinput",
    "test_filecmp",
    "test_dbm_dumb",
    "test_stat",
    "test_uu",
    "test_file",
    "test_zipapp",
)
MODULES = (
    *("test_os", "test_posix", "test_posixpath", "test_genericpath", "test_shutil", "test_pathlib", "test_tempfile"),
    *(
        "test_zipfile",
        "test_tarfile",
        "test_glob",
        "test_fnmatch",
        "test_fileinput",
        "test_file",
        "test_fileio",
        "test_io",
    ),
    *("test_bufio", "test_univnewlines", "test_filecmp", "test_linecache", "test_mailbox", "test_dbm_dumb", "test_dbm"),
    *("test_shelve", "test_gzip", "test_bz2", "test_lzma", "test_csv", "test_json.test_tool", "test_configparser"),
    *("test_netrc", "test_plistlib", "test_logging", "test_compileall", "test_py_compile", "test_runpy"),
    *(
        "test_importlib.source.test_file_loader",
        "test_importlib.source.test_finder",
        "test_importlib.source.test_path_hook",
    ),
    *(
        "test_zipapp",
        "test_zipimport",
        "test_pkgutil",
        "test_unicode_file",
        "test_unicode_file_functions",
        "test_contextlib",
    ),
    *(
        "test_argparse",
        "test_array",
        "test_marshal",
        "test_hashlib",
        "test_codecs",
        "test_mimetypes",
        "test_httpservers",
    ),
    *("test_wave", "test_uu", "test_gettext", "test_zoneinfo", "test_distutils", "test_builtin", "test_largefile"),
    *(
        "test_mmap",
        "test_fcntl",
        "test_trace",
        "test_tabnanny",
        "test_urllib",
        "test_http_cookiejar",
        "test_sax",
        "test_stat",
    ),
    *("test_pyclbr", "test_doctest", "test_imghdr", "test_aifc", "test_cgi", "test_warnings", "test_support"),
)
GOOD = ("passed", "expected")
# What became of tests, and the words of their errors.
Outcomes = typing.Dict[str, typing.Tuple[str, str]]
# Why a test that passes on the disk does not in a tree: by its name and its error, as `Class.test | error`.
REASONS = {
    "a tree has no hard links": (
        r"os\.link: a tree has no hard links",
        r"^(CommandLineTests\w+|HardlinkDedupTests\w+)\.(test_hardlink|test_duplicated_levels|test_only_two_levels|test_recompilation)\b",
    ),
    "a tree has no devices and no sockets, and its pipes carry no bytes": (
        r"os\.mknod: a tree has no devices",
        r"\[Errno 6\] No such device or address",
        r"socket\.socket\.\w+: a tree has no sockets",
        r"^Unix(Datagram|Socket|SysLog)Handler",
    ),
    "another process has a copy of the tree": (
        r"^CompileallTests\w+\.test_ddir_(empty_)?multiple_workers\b",
        r"^Test(MMDF|Mbox)\.test_lock_conflict\b",
    ),
    "C opens the file itself": (
        r"_g?dbm\.open: a tree has no files",
        r"^CAPI_TestCase\.",
        r"^WhichDBTestCase\.test_whichdb\b",
    ),
    "a file of a tree has at most 2,147,483,648 bytes": (
        r"more than 2,147,483,648 bytes",
        r"^LargeMmapTests\.",
        r"^(\w*LargeFileTest|TestCopyfile|TestSocketSendfile)\.\w+ \| $",
    ),
    "the system tells of no change in a tree": (r"^TestFcntl\.test_fcntl_64_bit\b",),
    "a trace sees what a patch does": (r"^TestCoverage\.test_coverage_ignore \|.*atomfs\._",),
    "the extension calls one function more": (r"\.test_main_recursion_error \|.*RecursionError",),
}


class Result(unittest.TestResult):
    """What became of each test, with the last lines of its error."""

    def __init__(self) -> None:
        super().__init__()
        self.of: Outcomes = {}

    def addSuccess(self, test: typing.Any) -> None:
        self.of.setdefault(test.id(), ("passed", ""))

    def addExpectedFailure(self, test: typing.Any, error: typing.Any) -> None:
        self.of[test.id()] = "expected", ""

    def addSkip(self, test: typing.Any, reason: str) -> None:
        super().addSkip(test, reason)
        self.of.setdefault(test.id(), ("skipped", str(reason)))

    def addFailure(self, test: typing.Any, error: typing.Any) -> None:
        self.of[test.id()] = "failed", words_of(error)

    def addError(self, test: typing.Any, error: typing.Any) -> None:
        self.of[test.id()] = "error", words_of(error)

    def addSubTest(self, test: typing.Any, subtest: typing.Any, error: typing.Any) -> None:
        if error is not None:
            self.of[test.id()] = "failed" if issubclass(error[0], test.failureException) else "error", words_of(error)


def words_of(error: typing.Any) -> str:
    """An error in a few lines: where it was raised, and its words."""
    frames = traceback.extract_tb(error[2])
    at = [f"{pathlib.Path(frame.filename).name}:{frame.lineno} {frame.name}" for frame in frames[-4:]]
    return f"{' < '.join(reversed(at))} | {''.join(traceback.format_exception_only(*error[:2])).strip()[-1500:]}"


def run_module(name: str) -> Outcomes:
    """The outcome of each test of a module, which is imported where it is to work."""
    importlib.import_module(f"test.{name}")
    result = Result()
    suite = unittest.defaultTestLoader.loadTestsFromName(f"test.{name}")
    with contextlib.redirect_stderr(io.StringIO()):
        suite.run(result)
    return result.of


def below(folder: str) -> typing.List[str]:
    """What is on the disk below a directory."""
    return sorted(os.path.join(at, name) for at, folders, files in os.walk(folder) for name in (*folders, *files))


def child(place: str, name: str, folder: str) -> typing.NoReturn:
    """Runs a module in this process, and tells what came of it as a line of JSON."""
    out = os.dup(1)
    os.dup2(2, 1)
    real = os.path.join(folder, "real")
    os.mkdir(real)
    os.chdir(real)
    there = set(os.listdir("/"))
    if place == "disk":
        tempfile.tempdir = real
        outcomes, left = run_module(name), list[str]()
    else:
        outcomes, left = in_tree(name, folder, real, there)
    os.write(out, json.dumps({"of": outcomes, "left": left}).encode() + b"\n")
    os.close(out)
    # What a test has left running is not waited for.
    os._exit(0)


def in_tree(name: str, folder: str, real: str, there: typing.Set[str]) -> typing.Tuple[Outcomes, typing.List[str]]:
    """The same in a tree that stands beside a real directory, and what came to the disk."""
    import atomfs

    at = os.path.join(folder, "tree")
    with atomfs.Tree(journal=atomfs.LAST(10_000)) as tree:
        with atomfs.patch(tree, at=at, **PATCH):
            tempfile.tempdir = at
            os.chdir(at)
            outcomes = run_module(name)
            os.chdir("/")
        verdict = tree.check()
    if verdict != "lawful":
        outcomes["journal"] = "failed", verdict
    # Others may make files in the root meanwhile.
    return outcomes, [*below(real), *(f"/{one}" for one in set(os.listdir("/")) - there if one.startswith("@test"))]


PATCH: typing.Dict[str, typing.Any] = {"processes": True}


def ran(place: str, name: str, seconds: int) -> typing.Any:
    """What a process that runs a module has told: none where it was ended by the limit of time."""
    folder = tempfile.mkdtemp(prefix="cpython-")
    try:
        words = [sys.executable, os.path.abspath(__file__), "--child", place, name, folder]
        with subprocess.Popen(
            words, stdout=subprocess.PIPE, stderr=subprocess.DEVNULL, stdin=subprocess.DEVNULL, start_new_session=True
        ) as process:
            try:
                told, _ = process.communicate(timeout=seconds)
            except subprocess.TimeoutExpired:
                process.kill()
                return None
        return json.loads(told) if told else None
    finally:
        shutil.rmtree(folder, ignore_errors=True)


def reason_of(name: str, words: str) -> typing.Optional[str]:
    """Why a test does not pass in a tree, if there is a reason for it."""
    text = f"{'.'.join(name.split('.')[-2:])} | {words}"
    return next((why for why, patterns in REASONS.items() if any(re.search(one, text) for one in patterns)), None)


def lost(disk: Outcomes, tree: Outcomes) -> typing.Iterator[typing.Tuple[str, typing.Optional[str], str]]:
    """The tests that pass on the disk and not in a tree, with the reason for each, or none, and the error."""
    for name, (kind, _) in disk.items():
        now, words = tree.get(name, ("missing", ""))
        if kind in GOOD and now not in GOOD:
            yield name, reason_of(name, words), words


def counts(of: Outcomes) -> str:
    found = collections.Counter({"expected": "passed"}.get(kind, kind) for kind, _ in of.values())
    return " / ".join(str(found[kind]) for kind in ("passed", "failed", "error", "skipped"))


def kept(path: typing.Optional[pathlib.Path], place: str, name: str, seconds: int) -> typing.Any:
    """What a module came to, from a file of before, if it is there."""
    file = path and path / f"{name}.{place}.json"
    if file and file.exists():
        return json.loads(file.read_text())
    found = ran(place, name, seconds)
    if path and file and found:
        path.mkdir(exist_ok=True)
        file.write_text(json.dumps(found))
    return found


def compared(
    name: str, seconds: int, disk: typing.Optional[pathlib.Path] = None, tree: typing.Optional[pathlib.Path] = None
) -> typing.Tuple[str, int, int, typing.List[str], typing.List[str]]:
    """The line of a module, how many of its tests pass on the disk and in a tree, why others do not, and what is wrong."""
    both = [kept(path, place, name, seconds) for place, path in (("disk", disk), ("tree", tree))]
    if None in both:
        return f"{name}: ended after {seconds} seconds", 0, 0, [], [f"{name} has not ended"] if both[0] else []
    on_disk, in_tree = both
    gone = list(lost(on_disk["of"], in_tree["of"]))
    faults = [f"{test}: no reason: {words}" for test, why, words in gone if why is None]
    faults += [f"{name} left {path} on the disk" for path in in_tree["left"]]
    if "journal" in in_tree["of"]:
        faults.append(f"{name}: the journal: {in_tree['of']['journal'][1]}")
    passed = sum(kind in GOOD for kind, _ in on_disk["of"].values())
    line = f"{name}: disk {counts(on_disk['of'])}, tree {counts(in_tree['of'])}"
    return line, passed, passed - len(gone), [why for _, why, _ in gone if why], faults


def main() -> None:
    words = argparse.ArgumentParser(description=__doc__, formatter_class=argparse.RawDescriptionHelpFormatter)
    words.add_argument("--quick", action="store_true", help="only the modules that tests/run has")
    words.add_argument("--seconds", type=int, default=300, help="end a module after so many")
    words.add_argument(
        "--disk", type=pathlib.Path, help="keep in this directory what came on the disk, and take it from there"
    )
    words.add_argument("--tree", type=pathlib.Path, help="the same of the tree")
    words.add_argument("modules", nargs="*", metavar="MODULE")
    given = words.parse_args()
    sums, faults = [0, 0], list[str]()
    reasons: typing.Counter[str] = collections.Counter()
    for name in given.modules or (QUICK if given.quick else MODULES):
        line, on_disk, in_tree, why, wrong = compared(name, given.seconds, given.disk, given.tree)
        print(line, flush=True)
        sums = [sums[0] + on_disk, sums[1] + in_tree]
        reasons.update(why)
        faults += wrong
    print(f"of {sums[0]:,} tests that pass on the disk {sums[1]:,} pass in a tree")
    for reason, count in reasons.most_common():
        print(f"{count} do not, since {reason}")
    print(*faults, sep="\n")
    sys.exit(bool(faults))


if __name__ == "__main__":
    if sys.argv[1:2] == ["--child"]:
        child(*sys.argv[2:])
    else:
        main()
