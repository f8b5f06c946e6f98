"""The packages for C, Python and Rust: they install from the archive that embed/build makes, without the kit, and pass their tests; and one version
stands in all of them.

A command or a module that is not there is named, with the package of Debian by which it comes, and the test that wants it is left out.
"""
import contextlib
import functools
import importlib
import os
import pathlib
import re
import shutil
import subprocess
import sys
import tempfile
import types
import typing
import unittest
import unittest.mock
import zipfile

import harness
from documents import PACKAGES, blocks, constants, spans
from harness import ROOT, Case, match_in
from website import has_markdown

BINDINGS, EMBED, CRATES = ROOT / "bindings", ROOT / "embed", ROOT / "crates"
# What shared.c calls besides what the header declares.
ASLEEP = EMBED / "asleep.h"
HEADER = (EMBED / "atomfs.h").read_text()
VERSION = harness.declared().version
# The numbers of the header by their names.
NUMBERS = {name: value for one in harness.declared().numbers for name, value in one.items()}
MOST_SECONDS = 5 * harness.MOST_SECONDS
# How what the tests use comes in Debian.
COMMANDS = {
    **{
        "cmake": "cmake",
        "pkg-config": "pkgconf",
        "make": "make",
        "cc": "gcc",
        "cargo": "cargo",
        "cargo-clippy": "rust-clippy",
        "rustfmt": "rustfmt",
        "mypy": "mypy",
        "black": "black",
        "clang-format": "clang-format",
        "go": "golang-go",
        "java": "default-jre-headless",
    },
    **{"parallel": "parallel", "rsync": "rsync", "ssh": "openssh-client", "sshd": "openssh-server", "strace": "strace"},
    **{"groff": "groff-base", "man": "man-db", "mandoc": "mandoc", "bash": "bash", "zsh": "zsh", "fish": "fish"},
}
MODULES = {
    **{"fs": "python3-fs", "fsspec": "python3-fsspec", "pytest": "python3-pytest"},
    **{"pip": "python3-pip", "setuptools": "python3-setuptools", "wheel": "python3-wheel"},
}
# Where Debian puts the packages of Go, and those of Java.
GO, JARS = pathlib.Path("/usr/share/gocode"), pathlib.Path("/usr/share/java")
# What is set here for another Python or another crate is none of the packages'.
ELSEWHERE = (
    "ATOMFS_LIBRARY",
    "ATOMFS_PROGRAM",
    "ATOMFS_LIB_DIR",
    "ATOMFS_PURE",
    "PYTHONPATH",
    "PYTHONHOME",
    "VIRTUAL_ENV",
    "RUSTFLAGS",
    "CARGO_TARGET_DIR",
)

# The words of a command.
Words = typing.Sequence[str | pathlib.Path]


def done(words: Words, folder: str | pathlib.Path, **more: str) -> tuple[int, str]:
    """What a command ends with and tells."""
    variables = {name: value for name, value in os.environ.items() if name not in ELSEWHERE}
    ran = subprocess.run(
        words, cwd=folder, env=variables | more, capture_output=True, text=True, errors="replace", timeout=MOST_SECONDS
    )
    return ran.returncode, ran.stdout + ran.stderr


def wanted(*commands: str) -> None:
    """Leaves a test out for want of a command."""
    for command in commands:
        if not shutil.which(command) and not shutil.which(command, path="/usr/sbin"):
            raise unittest.SkipTest(f"{command} is not on the path: apt-get install {COMMANDS[command]}")


@functools.cache
def missing(python: str) -> list[str]:
    """The modules that a Python has not; all of them where there is no such Python."""
    ask = (
        f"import importlib.util\nprint(*(name for name in {tuple(MODULES)} if importlib.util.find_spec(name) is None))"
    )
    with contextlib.suppress(OSError):
        ran = subprocess.run([python, "-c", ask], capture_output=True, text=True, timeout=MOST_SECONDS)
        if ran.returncode == 0:
            return ran.stdout.split()
    return list(MODULES)


def python() -> str:
    """A Python that has what the package and its tests use: $PYTHON, python3, or Debian's own."""
    debians = "/usr/bin/python3"
    for found in filter(None, (os.environ.get("PYTHON"), shutil.which("python3"), debians)):
        if not missing(found):
            return found
    absent = missing(debians)
    raise unittest.SkipTest(
        f"{debians} has no {', '.join(absent)}: apt-get install {' '.join(MODULES[name] for name in absent)}"
    )


@functools.cache
def archive() -> pathlib.Path:
    """The archive, which is to be no older than what it is made of."""
    harness.library()
    name = f"atomfs-{VERSION}-{os.uname().machine}-linux"
    found = pathlib.Path(harness.found("ATOMFS_ARCHIVE", f"dist/{name}.tar.gz", "embed/build makes it"))
    parts = [
        path
        for folder in (BINDINGS, EMBED, harness.DATA / "help")
        for path in folder.rglob("*")
        if path.is_file() and "__pycache__" not in path.parts
    ]
    if "ATOMFS_ARCHIVE" not in os.environ and (
        newer := [path for path in parts if path.stat().st_mtime > found.stat().st_mtime]
    ):
        sys.exit(f"{found} is older than {newer[0].relative_to(ROOT)}: embed/build makes it")
    return found


class Installed(Case):
    """A test in a folder with the archive unpacked at `prefix`."""

    folder: pathlib.Path
    prefix: pathlib.Path

    @classmethod
    def setUpClass(cls) -> None:
        made = archive()
        cls.folder = pathlib.Path(tempfile.mkdtemp(prefix="atomfs-packages-"))
        cls.addClassCleanup(shutil.rmtree, cls.folder)
        shutil.unpack_archive(made, cls.folder)
        (cls.prefix,) = cls.folder.iterdir()

    def ends(self, words: Words, folder: pathlib.Path | None = None, pattern: str = "", **more: typing.Any) -> str:
        """A command ends with status 0, and tells something of this form."""
        typed = [str(word) for word in words]
        status, told = done(typed, folder or self.folder, **more)
        if status or not re.search(pattern, told):
            self.fail(f"{' '.join(typed)}: status {status}, and not /{pattern}/\n{told[-8_000:]}")
        return told

    def copied(self, source: pathlib.Path, name: str) -> pathlib.Path:
        return pathlib.Path(shutil.copytree(source, self.folder / name))


def crate_at(folder: pathlib.Path) -> pathlib.Path:
    """The crate for Rust in a folder of its own, with the page that plays runs, as embed/package puts it there."""
    shutil.copytree(BINDINGS / "rust", folder, ignore=shutil.ignore_patterns("target"))
    shutil.copy(BINDINGS / "python" / "src" / "atomfs" / "run.html", folder / "src")
    return folder


class OfTheArchive(Installed):
    def test_files(self) -> None:
        """It has the library, its header, what CMake and pkg-config read, the program, the wheel, the crate, and the pages that the header names."""
        self.same(archive().name, self.prefix.name, archive().name.removesuffix(".tar.gz"))
        for name in (
            *(
                "lib/libatomfs.a",
                "lib/libatomfs.so",
                "lib/cmake/atomfs/atomfs-config.cmake",
                "lib/pkgconfig/atomfs.pc",
                "include/atomfs.h",
            ),
            *("bin/atomfs", "share/atomfs/README.md", "share/atomfs/rust/Cargo.toml"),
            *("share/man/man1/atomfs.1", "share/man/man1/atomfs-run.1", "share/bash-completion/completions/atomfs"),
            *("share/zsh/site-functions/_atomfs", "share/fish/vendor_completions.d/atomfs.fish"),
        ):
            with self.subTest(name):
                self.assertTrue((self.prefix / name).is_file())
        named = {pathlib.Path(page) for page in re.findall(r"docs/[\w-]+\.md", HEADER)}
        for page in (*sorted(named), pathlib.Path("docs/SPECIFICATION.md"), pathlib.Path("CHANGELOG.md")):
            with self.subTest(str(page)):
                self.same(page, (self.prefix / "share" / "atomfs" / page.name).read_text(), (ROOT / page).read_text())
        self.same("include/atomfs.h", (self.prefix / "include" / "atomfs.h").read_text(), HEADER)
        pages = self.prefix / "share" / "atomfs" / "rust" / "src" / "run.html"
        self.same(
            "the page that plays a run, which the packages share",
            (pages.is_symlink(), pages.read_text()),
            (False, (BINDINGS / "python" / "src" / "atomfs" / "run.html").read_text()),
        )
        if has_markdown():
            first = self.prefix / "share" / "doc" / "atomfs" / "index.html"
            self.same("the pages for a browser", first.is_file(), True)

    def test_no_paths(self) -> None:
        """No file of it names the folder where it was built."""
        files = [path for path in self.prefix.rglob("*") if path.is_file()]
        self.same("the archive", [path.name for path in files if str(ROOT).encode() in path.read_bytes()], [])

    def test_install_over_what_runs(self) -> None:
        """`embed/package --prefix` puts it anew where a program of the folder runs, and that goes on with what it has."""
        checkout, into = self.folder / "checkout", self.folder / "into"
        for part in ("embed", "bindings", "docs", "tests/data/help"):
            shutil.copytree(
                ROOT / part,
                checkout / part,
                ignore=shutil.ignore_patterns("target", "build", "*.egg-info", "__pycache__"),
            )
        for part in ("lib", "include", "bin"):
            shutil.copytree(self.prefix / part, checkout / "dist" / part, symlinks=True)
        shutil.copy(ROOT / "CHANGELOG.md", checkout)
        install: Words = checkout / "embed" / "package", "--prefix", into
        self.ends(install, pattern="(?m)^installed: ")
        with subprocess.Popen([into / "bin" / "atomfs", "run"], stdin=subprocess.PIPE, stdout=subprocess.PIPE) as runs:
            self.ends(install, pattern="(?m)^installed: ")
            output, _ = runs.communicate(b"atomfs 1\nschedule\n")
        self.same(
            "the run",
            (runs.returncode, output),
            (0, b"atomfs-journal 1\ntree\ndir /\nbegun 0 committed 0 returned 0\n"),
        )

    def test_program(self) -> None:
        self.same(
            "atomfs --version",
            done([self.prefix / "bin" / "atomfs", "--version"], self.folder),
            (0, f"atomfs {VERSION}\n"),
        )


class ForC(Installed):
    def test_cmake(self) -> None:
        """A project out of tree finds the package, and runs with the shared object and with the archive."""
        wanted("cmake", "make", "cc")
        example, build = self.copied(BINDINGS / "c" / "example", "example"), self.folder / "build"
        self.ends(
            [
                "cmake",
                "-S",
                example,
                "-B",
                build,
                f"-DCMAKE_PREFIX_PATH={self.prefix}",
                "-DCMAKE_C_FLAGS=-std=c99 -Wall -Wextra -Werror",
            ]
        )
        self.ends(["cmake", "--build", build])
        self.ends(["ctest", "--output-on-failure"], build, "100% tests passed, 0 tests failed out of 2")
        for name in ("shared", "static"):
            self.same(name, done([build / name], self.folder), (0, "hello\n"))
        major, minor, _ = VERSION.split(".")
        for asked, found in (
            (VERSION, True),
            (f"{major}.{minor}", True),
            (f"{major}.{int(minor) + 1}", False),
            (f"{major}.{int(minor) - 1}", False),
        ):
            with self.subTest(asked):
                self.look_at_version(asked, found)

    def look_at_version(self, asked: str, found: bool) -> None:
        """Whether a project that asks for a version finds the package."""
        project = self.folder / f"project-{asked}"
        project.mkdir()
        (project / "CMakeLists.txt").write_text(
            f"cmake_minimum_required(VERSION 3.13)\nproject(asks LANGUAGES C)\nfind_package(atomfs {asked} REQUIRED)\n"
        )
        status, told = done(
            ["cmake", "-S", str(project), "-B", str(project / "build"), f"-DCMAKE_PREFIX_PATH={self.prefix}"],
            self.folder,
        )
        self.same(f"find_package(atomfs {asked})", status == 0 or told, found or told)

    def test_pkg_config(self) -> None:
        wanted("pkg-config", "cc")
        where: dict[str, typing.Any] = {"PKG_CONFIG_PATH": str(self.prefix / "lib" / "pkgconfig")}
        self.same(
            "pkg-config --modversion atomfs",
            done(["pkg-config", "--modversion", "atomfs"], self.folder, **where),
            (0, f"{VERSION}\n"),
        )
        flags = self.ends(["pkg-config", "--cflags", "--libs", "atomfs"], **where).split()
        self.ends(
            [
                "cc",
                "-std=c99",
                "-Wall",
                "-Werror",
                BINDINGS / "c" / "example" / "main.c",
                *flags,
                "-o",
                self.folder / "by_pkg_config",
            ]
        )
        ran = done([self.folder / "by_pkg_config"], self.folder, LD_LIBRARY_PATH=str(self.prefix / "lib"))
        self.same("the example, built by pkg-config", ran, (0, "hello\n"))

    def test_installed_page(self) -> None:
        """The command that the archive's page has for pkg-config, as it is typed there: what it makes finds the shared object by itself."""
        wanted("pkg-config", "cc")
        page = (self.prefix / "share" / "atomfs" / "README.md").read_text()
        (command,) = (span for span in spans(page) if span.startswith("cc main.c "))
        shutil.copy(BINDINGS / "c" / "example" / "main.c", self.folder)
        self.ends(["bash", "-c", command.replace("PREFIX", str(self.prefix))])
        self.same("a.out", done([self.folder / "a.out"], self.folder), (0, "hello\n"))
        (started,) = (span for span in spans(page) if span.startswith("LD_LIBRARY_PATH="))
        self.ends(["bash", "-c", command.replace("PREFIX", str(self.prefix)).split(" -Wl,-rpath,")[0]])
        self.same(
            started, done(["bash", "-c", started.replace("PREFIX", str(self.prefix))], self.folder), (0, "hello\n")
        )


class ForPython(Installed):
    """The wheel of the archive and the package of the checkout, each in a new environment, with the tests of the package."""

    def test_wheel(self) -> None:
        found = python()
        (wheel,) = (self.prefix / "share" / "atomfs").glob("*.whl")
        installed = self.installed(found, "by_wheel", wheel)
        self.ends(
            [
                installed,
                "-c",
                f"import atomfs; assert atomfs.__version__ == {VERSION!r}; assert atomfs.library_version() == {VERSION!r}",
            ]
        )
        self.binds(
            installed,
            "extension" if self.takes_extension(found) else "ctypes: the extension is for CPython 3.11 and later",
        )
        programs: tuple[Words, ...] = (installed, "-m", "atomfs"), (installed.with_name("atomfs"),)
        for words in programs:
            self.same("the program of the wheel", done([*words, "--version"], self.folder), (0, f"atomfs {VERSION}\n"))
        (example,) = blocks(PACKAGES["python"], "python")
        self.same("the example of its page", done([installed, "-c", example], self.folder), (0, "hello\nlawful\n"))
        told = self.passes(installed, ATOMFS_RACES="200")
        self.passes(installed, ATOMFS_PURE="1", ATOMFS_RACES="200")
        # The repairs of races make all their runs here, and few above.
        self.passes(installed, "-p", "test_races.py")
        (said,) = re.findall(r"^With `Limits\.V2`, .*", PACKAGES["python"].read_text(), re.M)
        listed = [name for name in spans(said) if name.startswith("test_")]
        # What only wants a package of Debian is named with it.
        skipped = re.findall(r"^(test_\w+) .*\.\.\. skipped (?!.*apt-get install)", told, re.M)
        self.same("the tests that its page lists as left out", sorted(listed), sorted(skipped))

    def test_platform(self) -> None:
        """The wheel is for every Linux whose C library has the symbols of the shared object and the program, as `objdump` tells them."""
        (wheel,) = (self.prefix / "share" / "atomfs").glob("*.whl")
        with zipfile.ZipFile(wheel) as files:
            extensions = [
                files.extract(name, self.folder)
                for name in files.namelist()
                if "/_fast." in name and name.endswith(".so")
            ]
        wanted = self.platform(self.prefix / "lib" / "libatomfs.so", self.prefix / "bin" / "atomfs", *extensions)
        self.same("the wheel", wheel.name, f"atomfs-{VERSION}-py3-none-{wanted}.whl")
        with zipfile.ZipFile(wheel) as files:
            (told,) = (files.read(name).decode() for name in files.namelist() if name.endswith("/WHEEL"))
        self.assertIn(f"Tag: py3-none-{wheel.stem.split('-none-')[1]}\n", told)

    @staticmethod
    def platform(*paths: typing.Any) -> str:
        symbols = subprocess.run(["objdump", "-T", *paths], capture_output=True, text=True, check=True).stdout
        major, minor = max(
            (int(major), int(minor)) for major, minor in re.findall(r"\(GLIBC_(\d+)\.(\d+)[.\d]*\)", symbols)
        )
        return f"manylinux_{major}_{minor}_{os.uname().machine}"

    def test_platform_of_others(self) -> None:
        """A shared object with a newer symbol is for newer systems; one that needs another library is for none but those like this one."""
        wanted("cc")
        ask = (
            "import importlib.util as u, pathlib, sys; spec = u.spec_from_file_location('setup_of_atomfs', sys.argv[1]); made = u.module_from_spec(spec); "
            "spec.loader.exec_module(made); print(made.platform(pathlib.Path(sys.argv[2]), 'linux_' + sys.argv[3]))"
        )
        of_build = f"linux_{os.uname().machine}"
        rows: tuple[tuple[str, str, Words], ...] = (
            ("random", "#include <sys/random.h>\nlong f(void *p) { return getrandom(p, 1, 0); }\n", []),
            (
                "copy",
                "#include <string.h>\nvoid *f(void *p, void *q, unsigned long n) { return memcpy(p, q, n); }\n",
                [],
            ),
            ("other", "int f(void) { return 1; }\n", ["-Wl,--no-as-needed", "-L", self.folder, "-l:libother.so"]),
        )
        for name, text, flags in rows:
            with self.subTest(name):
                source, made = self.folder / f"{name}.c", self.folder / f"lib{name}.so"
                source.write_text(text)
                if name == "other":
                    self.ends(["cc", "-shared", "-fPIC", "-o", made, source])
                    made = self.folder / "libneeds.so"
                self.ends(["cc", "-shared", "-fPIC", "-O2", "-fno-builtin", "-o", made, source, *flags])
                words = [python(), "-c", ask, str(BINDINGS / "python" / "setup.py"), str(made), os.uname().machine]
                self.same(
                    name,
                    done(words, self.folder, PYTHONDONTWRITEBYTECODE="1"),
                    (0, f"{of_build if name == 'other' else self.platform(made)}\n"),
                )

    def test_sources(self) -> None:
        """The package is built and installed from its sources, offline."""
        library = str(self.prefix / "lib" / "libatomfs.so")
        installed = self.installed(
            python(), "by_sources", self.copied(BINDINGS / "python", "python"), ATOMFS_LIBRARY=library
        )
        self.ends(
            [
                installed,
                "-c",
                "import atomfs\nwith atomfs.Tree() as tree: tree.mkdir('/a'); assert tree.check() == 'lawful'",
            ]
        )
        self.ends(
            [
                installed,
                "-c",
                "import atomfs, importlib.resources as r; assert (r.files(atomfs) / 'py.typed').is_file()",
            ]
        )
        if self.takes_extension(python()):
            self.binds(installed, "extension")

    def test_no_compiler(self) -> None:
        """Without a compiler, or without the header, the package is built all the same: calls go by ctypes, and it says so."""
        if not self.takes_extension(python()):
            self.skipTest("the extension is for CPython 3.11 and later")
        library = self.prefix / "lib" / "libatomfs.so"
        alone = self.folder / "without_header" / "lib"
        alone.mkdir(parents=True)
        shutil.copy(library, alone)
        for name, given, why in (
            ("no_compiler", {"ATOMFS_LIBRARY": str(library), "CC": "/nowhere/cc"}, r"command '/nowhere/cc' failed"),
            ("no_header", {"ATOMFS_LIBRARY": str(alone / "libatomfs.so")}, r"there is no \S+/atomfs\.h"),
        ):
            with self.subTest(name):
                source = self.copied(BINDINGS / "python", name)
                words = python(), "setup.py", "build", "--build-base", self.folder / f"{name}_build"
                told = self.ends(words, source, rf"atomfs: the extension in C is left out: .*{why}", **given)
                self.assertIn("Calls go by ctypes, and take 2 to 5 times as long.", told)
                (made,) = (self.folder / f"{name}_build").glob("lib*")
                self.same("what is built", [path.name for path in made.glob("atomfs/_fast.*so")], [])
                code = "import atomfs; print(atomfs.binding()); atomfs.Tree().mkdir('/a')"
                self.same(
                    name,
                    done([python(), "-c", code], made),
                    (0, "ctypes: the package is not built, or was built without a compiler\n"),
                )

    def takes_extension(self, found: str) -> bool:
        """Whether a Python takes the extension."""
        ask = "import sys, sysconfig; print(sys.version_info >= (3, 11) and not sysconfig.get_config_var('Py_GIL_DISABLED'))"
        return done([found, "-c", ask], self.folder) == (0, "True\n")

    def binds(self, installed: pathlib.Path, wanted: str) -> None:
        """By what the calls of an installed package go to the library."""
        self.same(
            "the binding",
            done([installed, "-c", "import atomfs; print(atomfs.binding())"], self.folder),
            (0, f"{wanted}\n"),
        )

    def test_types(self) -> None:
        """The types of the package are right for the least Python that it is for."""
        wanted("mypy")
        least = match_in(r'^requires-python = ">=(.*)"$', (BINDINGS / "python" / "pyproject.toml").read_text(), re.M)[1]
        table = BINDINGS / "python" / "pyproject.toml"
        self.same(table, re.findall(r'^python_version = "(.*)"$', table.read_text(), re.M), [least])
        words = "mypy", "--config-file", table, "--cache-dir", self.folder / "types"
        self.ends((*words, BINDINGS / "python" / "src" / "atomfs"), pattern="^Success: ")

    def test_no_library(self) -> None:
        """Without the shared object the build says what is missing."""
        status, told = done([python(), "setup.py", "bdist_wheel"], self.copied(BINDINGS / "python", "alone"))
        self.assertNotEqual(status, 0)
        self.assertIn("embed/build makes it, and ATOMFS_LIBRARY names it", told)

    def installed(self, found: str, name: str, package: pathlib.Path, **more: typing.Any) -> pathlib.Path:
        """The Python of a new environment in which a package was installed."""
        self.ends([found, "-m", "venv", "--system-site-packages", "--without-pip", self.folder / name])
        new: pathlib.Path = self.folder / name / "bin" / "python"
        words = "-m", "pip", "install", "--no-index", "--no-build-isolation", "--no-cache-dir", package
        self.ends([new, *words], pattern="Successfully installed atomfs", **more)
        return new

    def passes(self, new: pathlib.Path, *which: str, **more: typing.Any) -> str:
        """What the tests of the package tell, all or those of some file."""
        tests = str(BINDINGS / "python" / "tests")
        words = "-W", "ignore", "-m", "unittest", "discover", "-v", "-s", tests, *which
        return self.ends([new, *words], pattern=r"(?m)^OK", PYTHONDONTWRITEBYTECODE="1", **more)


class ForRust(Installed):
    def test_crate(self) -> None:
        """The crate of the archive finds the library beside it; its tests and the examples of its pages pass. With the package for Python beside it they
        compare their pages."""
        wanted("cargo", "cc")
        crate = self.prefix / "share" / "atomfs" / "rust"
        shutil.copytree(BINDINGS / "python" / "src", crate.with_name("python") / "src")
        told = self.ends(["cargo", "test", "--offline", "--quiet"], crate, CARGO_TARGET_DIR=str(self.folder / "target"))
        passed = [
            int(count) for count in re.findall(r"^test result: ok\. (\d+) passed; 0 failed; 0 ignored", told, re.M)
        ]
        self.assertTrue(len(passed) >= 4 and sum(count > 0 for count in passed) >= 3, told)

    def test_races(self) -> None:
        """Its program of races finds one, runs a repair, and says how it is used."""
        wanted("cargo", "cc")
        crate = self.prefix / "share" / "atomfs" / "rust"
        words = "cargo", "run", "--offline", "--quiet", "--example", "races"
        rows = (
            (("mkdir_p",), 1, r"^seed \d+: (ann|bob): .*EEXIST.*\n(.*\n)*script:\natomfs 3\n"),
            (
                ("mkdir_p", "repair", "50"),
                0,
                r"^50 runs, \d outcomes?, \d new in the last 50 runs; \d of 4 pairs of calls met\n$",
            ),
            (("mkdir_p", "twice"), 2, r"^usage: cargo run --example races NAME .*NAME is exists_then_create, "),
            (("mkdirs",), 2, "^usage: "),
            ((), 2, "^usage: "),
        )
        for more, wanted_status, pattern in rows:
            with self.subTest(more):
                status, told = done([*words, *more], crate, CARGO_TARGET_DIR=str(self.folder / "target"))
                self.same("the status", status, wanted_status)
                self.assertRegex(told, pattern)

    def test_clippy(self) -> None:
        """Rust's own linter has nothing to say of the crate, its tests and its examples, and each unsafe block has its reason."""
        wanted("cargo", "cargo-clippy")
        crate = self.prefix / "share" / "atomfs" / "rust"
        self.ends(
            [
                *("cargo", "clippy", "--offline", "--all-targets", "--", "-D", "warnings"),
                *("-D", "clippy::undocumented_unsafe_blocks"),
            ],
            crate,
            CARGO_TARGET_DIR=str(self.folder / "clippy"),
        )

    def test_no_library(self) -> None:
        """Without the library the build says what is missing."""
        wanted("cargo")
        crate = crate_at(self.folder / "rust")
        status, told = done(
            ["cargo", "build", "--offline"],
            crate,
            CARGO_TARGET_DIR=str(self.folder / "other"),
            ATOMFS_LIB_DIR="/nowhere",
        )
        self.assertNotEqual(status, 0)
        self.assertIn("embed/build makes it", told)


class Layout(Case):
    """The sources in Rust, Python and C are laid out by rustfmt, black and clang-format, with one line length: by rustfmt.toml, .clang-format and the tables
    in pyproject.toml. Another version than the one named here may lay out otherwise, and is not asked. The tests
    have types, as the tables of mypy ask.
    """

    VERSIONS = {"black": "23.1", "clang-format": "14.0"}

    def formatter(self, command: str) -> str:
        """A formatter of the version by which the sources are laid out."""
        wanted(command)
        _, told = done([command, "--version"], ROOT)
        if not re.search(rf"\b{re.escape(self.VERSIONS[command])}\b", told):
            raise unittest.SkipTest(f"{command} {self.VERSIONS[command]} is not there")
        return command

    @staticmethod
    def sources() -> typing.Iterator[pathlib.Path]:
        """The files of the repository, but for crates and what is built."""
        left_out = "crates", "out", "dist", "target", "build", "__pycache__"
        for folder, folders, names in os.walk(ROOT):
            folders[:] = [name for name in folders if not name.startswith(".") and name not in left_out]
            yield from (pathlib.Path(folder, name) for name in sorted(names))

    def test_black(self) -> None:
        command = self.formatter("black")
        written = [path for path in self.sources() if path.suffix in (".py", ".pyi") or self.is_script(path)]
        for folder in (BINDINGS / "python", ROOT):
            files = [str(path) for path in written if (BINDINGS / "python" in path.parents) == (folder != ROOT)]
            self.same(f"black in {folder}", done([command, "--check", "--quiet", *files], folder), (0, ""))

    @staticmethod
    def is_script(path: pathlib.Path) -> bool:
        """Whether a file without a name's end is a program in Python."""
        with path.open("rb") as file:
            return not path.suffix and file.readline().endswith(b"python3\n")

    def test_types(self) -> None:
        """The types of all tests are right."""
        wanted("mypy")
        with tempfile.TemporaryDirectory(prefix="atomfs-") as cache:
            words = "mypy", "--config-file", ROOT / "pyproject.toml", "--cache-dir", cache
            names = sorted(path.name for path in (ROOT / "tests").glob("*.py"))
            status, told = done([*words, *names], ROOT / "tests")
        self.same(f"mypy --strict\n{told}", status, 0)

    def test_types_of_python(self) -> None:
        """The types of all tests of the package for Python are right."""
        wanted("mypy")
        package = BINDINGS / "python"
        with tempfile.TemporaryDirectory(prefix="atomfs-") as cache:
            # Some tests import packages that are optional, or have no types.
            words = (
                "mypy",
                "--config-file",
                package / "pyproject.toml",
                "--no-warn-unused-ignores",
                "--cache-dir",
                cache,
            )
            names = sorted(path.name for path in (package / "tests").glob("*.py"))
            status, told = done([*words, *names], package / "tests")
        self.same(f"mypy --strict\n{told}", status, 0)

    def test_clang_format(self) -> None:
        command = self.formatter("clang-format")
        files = [str(path) for path in self.sources() if path.suffix in (".c", ".h")]
        self.same("clang-format", done([command, "--dry-run", "--Werror", *files], ROOT), (0, ""))

    def test_rustfmt(self) -> None:
        wanted("rustfmt")
        sources = []
        for folder, edition in (("bindings/rust", "2021"), ("examples", "2021"), ("bench", "2024")):
            found = sorted(path for path in (ROOT / folder).rglob("*.rs") if "target" not in path.parts)
            words = ["rustfmt", "--check", "--edition", edition, *map(str, found)]
            self.same(f"rustfmt --check in {folder}", done(words, ROOT), (0, ""))
            sources += found
        long = [
            f"{path.relative_to(ROOT)}:{number}"
            for path in sources
            for number, line in enumerate(path.read_text().splitlines(), 1)
            if len(line) > 120
        ]
        self.same("lines of more than 120 columns", long, [])

    def test_reasons(self) -> None:
        """Each unsafe block and impl of the crate and its tests has a comment that says why it may be, at its statement: clippy's lint, without clippy."""
        self.same(
            "the lint of lib.rs",
            re.findall(r"^#!\[deny\(clippy::(\w+)\)\]", (BINDINGS / "rust/src/lib.rs").read_text(), re.M),
            ["undocumented_unsafe_blocks"],
        )
        found = 0
        for path in (path for folder in ("src", "tests") for path in sorted((BINDINGS / "rust" / folder).glob("*.rs"))):
            lines = path.read_text().splitlines()
            for number, line in enumerate(lines):
                if not re.search(r"\bunsafe (\{|impl\b)", line) or line.lstrip().startswith("//"):
                    continue
                found += 1
                # The comment stands above the block, or above the statement whose second or third line has it.
                before = [one.strip() for one in lines[max(number - 3, 0) : number]]
                self.assertTrue(any(one.startswith("// SAFETY: ") for one in before), f"{path.name}:{number + 1}")
        self.assertGreater(found, 30)


class Without(Case):
    """What the packages do without the library, or without what builds them."""

    # Runs setup.py where no package has the command that makes wheels.
    NO_WHEEL = """if True:
        import runpy, sys
        for name in ("wheel", "wheel.bdist_wheel", "setuptools.command.bdist_wheel"):
            sys.modules[name] = None
        sys.argv = ["setup.py", "--version"]
        runpy.run_path("setup.py", run_name="__main__")
    """

    def setUp(self) -> None:
        harness.takes_a_process()
        self.folder = pathlib.Path(self.enterContext(tempfile.TemporaryDirectory(prefix="atomfs-")))

    def test_no_wheel(self) -> None:
        """Without the package `wheel` the build says so in one line."""
        status, told = done([python(), "-c", self.NO_WHEEL], BINDINGS / "python")
        self.same("setup.py", (status, len(told.splitlines())), (1, 1))
        self.assertIn("has no package wheel: pip install wheel, or apt-get install python3-wheel", told)

    def test_pages_of_the_crate(self) -> None:
        """Rust's own pages of the crate are made without the library, and without a warning."""
        wanted("cargo")
        words = ["cargo", "doc", "--offline", "--no-deps", "--quiet"]
        crate = crate_at(self.folder / "rust")
        told = done(words, crate, DOCS_RS="1", ATOMFS_LIB_DIR="/nowhere", CARGO_TARGET_DIR=str(self.folder / "target"))
        self.same(" ".join(words), told, (0, ""))
        self.assertTrue((self.folder / "target" / "doc" / "atomfs" / "struct.Tree.html").is_file())


class Numbers(Case):
    """What the packages write out again is what the header and the crates have."""

    @staticmethod
    def source(*names: str) -> str:
        return BINDINGS.joinpath(*names).read_text()

    def test_written(self) -> None:
        """What repeats the header is what embed/header.py makes of it: prototypes, the module for Python, and the version, which so has one file."""
        self.each(
            ((str(path.relative_to(ROOT)), path, text) for path, text in harness.reader().written()),
            lambda path, text: self.same(path.relative_to(ROOT), path.read_text(), text),
        )
        self.same("embed/header.py --check", done([sys.executable, EMBED / "header.py", "--check"], ROOT), (0, ""))
        self.same("embed/header.py --chek", done([sys.executable, EMBED / "header.py", "--chek"], ROOT)[0], 2)

    def test_new_version(self) -> None:
        """A version that is new in the header comes into every file that has one, and a new number and function into what is made of it."""
        with tempfile.TemporaryDirectory() as folder:
            top = pathlib.Path(folder)
            for path in (*(path for path, _ in harness.reader().written()), *EMBED.iterdir()):
                to = top / path.relative_to(ROOT)
                to.parent.mkdir(parents=True, exist_ok=True)
                shutil.copy(path, to)
            there = top / "embed" / "atomfs.h"
            new = "uint8_t atomfs_new(atomfs *fs, const void *bytes, size_t length, uint64_t *number);\n"
            there.write_text(
                HEADER.replace(f'"{VERSION}"', '"7.8.9"', 1)
                .replace("ATOMFS_BAD_CHOICE = 35,", "ATOMFS_BAD_CHOICE = 35, ATOMFS_NEW = 36,")
                .replace("uint8_t atomfs_close(", f"{new}uint8_t atomfs_close(")
            )
            words: list[str | pathlib.Path] = [sys.executable, top / "embed" / "header.py"]
            status, told = done([*words, "--check"], top)
            self.assertEqual((status, told.count("is not what embed/header.py makes")), (1, 7), told)
            self.same("embed/header.py", done(words, top)[0], 0)
            self.same("and then --check", done([*words, "--check"], top), (0, ""))
            for path, _, pattern in self.versions():
                self.same(path, match_in(pattern, (top / path).read_text(), re.M)[1], "7.8.9")
            self.assertIn(
                "uint8_t PROVED(new)(atomfs *, const void *, size_t, uint64_t *);",
                (top / "embed" / "proved.h").read_text(),
            )
            module = (top / "bindings/python/src/atomfs/_header.py").read_text()
            self.assertIn("def new(self, fs: HandleAt, bytes: Bytes, length: Size, number: NumberAt) -> Byte:", module)
            self.assertIn("    NEW = 36\n", module)

    @staticmethod
    def versions() -> tuple[tuple[str, str, str], ...]:
        """The files that have the version, each with a pattern."""
        return (
            ("crates/atomfs_arguments/src/cli.rt", "the program", r'VERSION: &str = "(.*)"'),
            ("bindings/python/src/atomfs/_header.py", "the package for Python", r'^VERSION = "(.*)"'),
            ("bindings/rust/Cargo.toml", "the package for Rust", r'^version = "(.*)"'),
        )

    def test_versions(self) -> None:
        """One version stands in the header, the program, the packages and the list of changes."""
        rows = (*self.versions(), ("CHANGELOG.md", "the list of changes", r"^## (\S+)"))
        self.each(((name, ROOT / path, pattern) for path, name, pattern in rows), self.look_at_version)

    def look_at_version(self, path: pathlib.Path, pattern: str) -> None:
        self.same(path.relative_to(ROOT), match_in(pattern, path.read_text(), re.M)[1], VERSION)

    def test_statuses(self) -> None:
        """Statuses, what a step did, calls, what came of histories, and sets of limits, as the header numbers them."""
        of_rust = {
            name: int(value)
            for name, value in re.findall(r"^pub const (\w+): u8 = (\d+);", self.source("rust", "src", "ffi.rs"), re.M)
        }
        self.same("ffi.rs", of_rust, {name: NUMBERS.get(name) for name in of_rust})
        self.assertGreater(len(of_rust), 25)

    def test_kinds(self) -> None:
        """The crate has the program's word for each fault of a text, in the order of the statuses."""
        statuses = [
            name for name, value in NUMBERS.items() if not name.startswith(("DID", "CALL")) and 16 <= value < 28
        ]
        words = ["".join(part.title() for part in name.split("_")) for name in statuses]
        kinds = match_in(r"let kinds = \[(.*?)\];", self.source("rust", "src", "error.rs"), re.S)[1]
        self.same("the kinds of error.rs", re.findall(r'"(\w+)"', kinds), words)
        declared = re.findall(r'#\[error\("([A-Z]\w+)', (CRATES / "fs_words" / "src" / "fault.rt").read_text())
        self.same(
            "the kinds of the program that are no fault of a text", sorted(set(declared) - set(words)), ["OutOfMemory"]
        )

    @staticmethod
    def types(text: str) -> list[str]:
        """The types of the parameters of a prototype in C, without the names that they may have."""
        words = (re.findall(r"\w+|\*", one) for one in text.split(","))
        types = [[word for word in one if word != "*"] + ["*"] * one.count("*") for one in words if one != ["void"]]
        known = "const struct void char atomfs atomfs_stat atomfs_request atomfs_shared atomfs_session atomfs_gate atomfs_asleep atomfs_went".split()
        kept = ([word for word in one if word in known or word.endswith("_t") or word == "*"] for one in types)
        return [" ".join(one) for one in kept]

    @staticmethod
    def width(type: str) -> typing.Any:
        """How an argument of a type is handed over: as an address, or as a number of so many bits."""
        addresses = "c_void_p", "c_char_p", "atomfs_gate", "Option<Gate>"
        return "address" if "*" in type or type in addresses else Numbers.BITS[type]

    BITS = {
        **dict.fromkeys(("uint8_t", "u8", "c_ubyte"), 8),
        **dict.fromkeys(("uint32_t", "u32", "c_uint"), 32),
        **dict.fromkeys(("uint64_t", "size_t", "u64", "usize", "c_ulong"), 64),
    }

    def test_functions(self) -> None:
        """Rust declares no function that the header has not, each with arguments of the same kinds in the same order."""
        header = {
            name: [self.width(field.type.strip()) for field in function.takes]
            for name, function in harness.declared().functions.items()
        }
        of_rust = {
            name: [self.width(one.split(":")[1].strip()) for one in arguments.split(",") if one.strip()]
            for name, arguments in re.findall(r"pub fn atomfs_(\w+)\(([^)]*)\)", self.source("rust", "src", "ffi.rs"))
        }
        self.same("ffi.rs", of_rust, {name: header.get(name) for name in of_rust})

    # The types in C of a parameter of a proved function; `char` may be `void` there.
    IN_C: dict[str, list[str]] = {
        # It has no bytes, so nothing is handed over.
        "Global": [],
        "&mut Handle": ["atomfs *"],
        "&mut Stat": ["struct atomfs_stat *"],
        "&mut Asleep": ["struct atomfs_asleep *"],
        "&mut Went": ["struct atomfs_went *"],
        "&[u8]": ["const char *", "size_t"],
        "&mut [u8]": ["char *", "size_t"],
        "&mut usize": ["size_t *"],
        "&mut u64": ["uint64_t *"],
        "&mut u8": ["uint8_t *"],
        "usize": ["size_t"],
        "u64": ["uint64_t"],
        "u32": ["uint32_t"],
        "u8": ["uint8_t"],
    }

    def exports(self) -> dict[str, list[str]]:
        """The types of the parameters of each proved function, as C has them."""
        found = {}
        for path in (CRATES / "atomfs_c" / "src").glob("*.rt"):
            for name, text in re.findall(r'^pub extern "C" fn atomfs_(\w+)\(([^)]*)\) -> u8$', path.read_text(), re.M):
                types = [one.split(":")[1].strip() for one in text.split(",") if one.strip()]
                found[name] = [of_c for type in types for of_c in self.IN_C[type]]
        return found

    def test_prototypes(self) -> None:
        """embed/proved.h and embed/asleep.h declare each proved function with the parameters that it has, in their order."""
        text = re.sub(r"\n +", " ", harness.reader().PROVED.read_text() + ASLEEP.read_text())
        declared = {
            name: [type.replace("void *", "char *") for type in self.types(arguments)]
            for name, arguments in re.findall(r"^uint8_t PROVED\((\w+)\)\(([^;]*)\);", text, re.M)
        }
        self.assertGreater(len(declared), 40)
        self.same("the prototypes", declared, self.exports())

    # The structures of embed/asleep.h, by their names in Rattle, and their types there.
    OF_SLEEPERS = {"Noted": "atomfs_noted", "Asleep": "atomfs_asleep", "Went": "atomfs_went"}
    ITS_TYPES = {"bool": "bool", "u8": "uint8_t", "u64": "uint64_t"}

    def test_sleepers(self) -> None:
        """The structures of embed/asleep.h have the fields of those in Rattle, in their order, and as many queues as there are."""
        of_c = {
            name: re.findall(r"([\w ]+?) (\w+)(?:\[\w+\])?;", fields)
            for name, fields in re.findall(r"^struct (\w+) \{(.*?)^\};", ASLEEP.read_text(), re.M | re.S)
        }
        rattle = (CRATES / "atomfs_c" / "src" / "sleepers.rt").read_text()
        of_rattle = {
            self.OF_SLEEPERS[name]: [
                (self.ITS_TYPES.get(type) or f"struct {self.OF_SLEEPERS[type[1:].split(';')[0]]}", field)
                for field, type in re.findall(r"pub (\w+): (.*),", fields)
            ]
            for name, fields in re.findall(r"^pub struct (\w+) \{(.*?)^\}", rattle, re.M | re.S)
        }
        stripped = {name: [(type.strip(), field) for type, field in fields] for name, fields in of_c.items()}
        self.same("embed/asleep.h", stripped, of_rattle)
        queues = match_in(r"QUEUES: usize = (\d+);", (CRATES / "fs_share_wait" / "src" / "sleepers.rt").read_text())[1]
        self.same("its queues", match_in(r"ATOMFS_QUEUES = (\d+)", ASLEEP.read_text())[1], queues)
        self.same("the queues of its structure", re.findall(r"\[Noted; (\d+)\]", rattle), [queues])

    def test_handed_on(self) -> None:
        """Each function of embed/checks.c that takes what the proved one takes hands its parameters on in their order."""
        wanted("cc")
        words = ("cc", "-E", "-P", "-I", EMBED, EMBED / "checks.c")
        text = subprocess.run(words, check=True, capture_output=True, text=True).stdout
        heads = re.finditer(r"uint8_t atomfs_(\w+)\(([^;{)]*)\)\s*\{", text)
        looked_at = {}
        for head in heads:
            name, parameters = head.groups()
            names = [one.split()[-1].lstrip("*") for one in parameters.split(",")]
            call = f"proved_atomfs_{name}("
            looked_at[name] = names, self.arguments(text[text.index(call, head.end()) + len(call) :])
        # What these take is put together from other things.
        for name in ("begin_call", "open_at"):
            looked_at.pop(name)
        of_shared = re.findall(r"PROVED\((\w+)\)", ASLEEP.read_text())
        handed = set(self.exports()) - {"begin_call", "open_at"} - set(of_shared)
        self.same("the functions", sorted(looked_at), sorted(handed))
        self.each(((name, f"atomfs_{name}", came, due) for name, (due, came) in looked_at.items()), self.same)

    @staticmethod
    def arguments(text: str) -> list[str]:
        """The arguments of a call, up to its closing bracket, each by the name that it hands on."""
        depth, ends = 0, [0]
        for at, letter in enumerate(text):
            if letter in ",)" and depth == 0:
                ends.append(at + 1)
            if letter == ")" and depth == 0:
                break
            depth += (letter in "({") - (letter in ")}")
        given = (text[start : end - 1].strip() for start, end in zip(ends, ends[1:]))
        return [re.sub(r"^(?:from|into)\((\w+)\)$|^\(?\((\w+)\) != .*$", r"\1\2", one, flags=re.S) for one in given]

    def test_limits(self) -> None:
        """Each set of limits has the same numbers in the packages as in the crates."""
        named = {
            "path_names": "path_limit",
            "name_bytes": "name_limit",
            "entries": "entry_limit",
            "file_bytes": "file_limit",
            "read_bytes": "read_limit",
            "nodes": "node_limit",
        }
        wanted = {what: harness.limits_of_sets()[limit] for what, limit in named.items()}
        source = self.source("rust", "src", "limits.rs")
        arms = re.findall(
            r"pub const fn (\w+)\(self\) -> usize \{\n        match self \{\n(.*?)        \}", source, re.S
        )
        self.same(
            "limits.rs",
            {what: [int(value) for value in re.findall(r"Limits::V\d => ([\d_]+)", lines)] for what, lines in arms},
            wanted,
        )
        package = types.ModuleType("atomfs_package")
        package.__path__ = [str(BINDINGS / "python" / "src" / "atomfs")]
        with unittest.mock.patch.dict(sys.modules, {"atomfs_package": package}):
            library = importlib.import_module("atomfs_package._library")
        Limits = library.Limits
        self.same("_library.py", {what: [getattr(limits, what) for limits in Limits] for what in wanted}, wanted)
        self.same(
            "of the set where none is given",
            (library.NODE_LIMIT, library.PATH_LIMIT),
            (wanted["nodes"][2], wanted["path_names"][2]),
        )
        calls = match_in(r"^_CALLS, \w+ = \{(.*)\}", self.source("python", "src", "atomfs", "_script.py"), re.M)[1]
        of_texts = dict(zip(("V1", "V2", "V3"), harness.limits_of_texts()["call_limit"], strict=True))
        self.same(
            "_script.py", {name: int(value) for name, value in re.findall(r"Limits\.(V\d): ([\d_]+)", calls)}, of_texts
        )
        names = [library.LISTED, int(match_in(r"LISTED: usize = ([\d_]+)", source)[1])]
        self.same("how many names a call answers", names, [constants("fs_names/src/limits.rt")["LIST_LIMIT"]] * 2)


if __name__ == "__main__":
    unittest.main()
