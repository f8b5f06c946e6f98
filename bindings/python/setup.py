"""Puts the shared object into the package: the one that ATOMFS_LIBRARY names, or the one of dist/, which embed/build makes.

The program beside it comes too, or the one that ATOMFS_PROGRAM names; without one, the package has none. The extension in C, by
which calls go to the shared object, is built for CPython 3.11 and later; where it cannot be, this is said, and calls go by ctypes.
"""
import contextlib
import os
import pathlib
import re
import shutil
import struct
import sys
import sysconfig

from setuptools import Distribution, Extension, setup
from setuptools.command.build_ext import build_ext
from setuptools.command.build_py import build_py

try:
    from setuptools.command.bdist_wheel import bdist_wheel
except ImportError:
    # Before 70.1 setuptools had it from another package.
    try:
        from wheel.bdist_wheel import bdist_wheel
    except ImportError:
        sys.exit(f"atomfs: {sys.executable} has no package wheel: pip install wheel, or apt-get install python3-wheel")

HERE = pathlib.Path(__file__).resolve().parent
NAME = "libatomfs.so"


def shared_object():
    """The path of the shared object."""
    beside = HERE.parents[1] / "dist" / "lib" / NAME, HERE.parents[1] / "lib" / NAME
    given = os.environ.get("ATOMFS_LIBRARY")
    found = [path for path in ([pathlib.Path(given)] if given else beside) if path.is_file()]
    if not found:
        sys.exit(
            f"atomfs: there is no {given or beside[0]}: embed/build makes it, and ATOMFS_LIBRARY names it where it is elsewhere"
        )
    return found[0]


def program():
    """The paths of the program: one, or none."""
    given = os.environ.get("ATOMFS_PROGRAM")
    found = pathlib.Path(given) if given else shared_object().parent.with_name("bin") / "atomfs"
    if given and not found.is_file():
        sys.exit(f"atomfs: there is no {given}, which ATOMFS_PROGRAM names")
    return [found] if found.is_file() else []


def extension():
    """The extension: one, or none, and why."""
    if sys.implementation.name != "cpython" or sys.version_info < (3, 11):
        return [], "it is for CPython 3.11 and later"
    if sysconfig.get_config_var("Py_GIL_DISABLED"):
        return [], "it is for a Python with its lock (the GIL)"
    beside = [HERE.parents[1] / "embed"]
    with contextlib.suppress(SystemExit):
        beside.insert(0, shared_object().parent.with_name("include"))
    folders = [str(folder) for folder in beside if (folder / "atomfs.h").is_file()]
    if not folders:
        return [], f"there is no {beside[0] / 'atomfs.h'}"
    made = Extension(
        "atomfs._fast",
        [f"src/atomfs/{name}.c" for name in ("_fast", "_door", "_files")],
        depends=["src/atomfs/_fast.h"],
        include_dirs=folders[:1],
        define_macros=[("Py_LIMITED_API", "0x030B0000")],
        extra_compile_args=["-std=gnu11", "-O2", "-fvisibility=hidden"],
        extra_link_args=["-Wl,--strip-debug"],
        py_limited_api=True,
    )
    return [made], ""


def leave_out(why):
    """Says that there is no extension."""
    print(
        f"atomfs: the extension in C is left out: {why}. Calls go by ctypes, and take 2 to 5 times as long.",
        file=sys.stderr,
    )


class BuildExt(build_ext):
    """Builds the extension, or says why there is none."""

    def run(self):
        try:
            super().run()
        except Exception as error:
            leave_out(error)
            self.extensions = []


class Elf:
    """What a shared object or a program of 64 bits asks of the system that loads it."""

    STRINGS, DYNAMIC, VERSIONS, NEEDED = 3, 6, 0x6FFFFFFE, 1

    def __init__(self, path):
        self.data = path.read_bytes()
        if self.data[:6] != b"\x7fELF\x02\x01":
            sys.exit(f"atomfs: {path} is no shared object or program of 64 bits, with the low byte first")
        (start,), (size, count) = self.at("<Q", 0x28), self.at("<HH", 0x3A)
        # Of each section the kind, the place, the size, and the section of its strings.
        self.sections = [
            (kind, offset, length, link)
            for _, kind, _, _, offset, length, link in (self.at("<IIQQQQI", start + size * at) for at in range(count))
        ]

    def at(self, form, offset):
        return struct.unpack_from(form, self.data, offset)

    def string(self, section, offset):
        start = self.sections[section][1] + offset
        return self.data[start : self.data.index(b"\0", start)].decode()

    def needed(self):
        """The libraries that it needs."""
        for kind, start, length, link in self.sections:
            for entry in range(start, start + length, 16) if kind == self.DYNAMIC else ():
                tag, value = self.at("<QQ", entry)
                if tag == self.NEEDED:
                    yield self.string(link, value)

    def versions(self):
        """The versions of the symbols that it needs, as `GLIBC_2.14`."""
        for kind, start, _, link in self.sections:
            entry, more = start, kind == self.VERSIONS
            while more:
                _, count, _, first, more = self.at("<HHIII", entry)
                symbol = entry + first
                for _ in range(count):
                    _, _, _, name, step = self.at("<IHHII", symbol)
                    yield self.string(link, name)
                    symbol += step
                entry += more


# The libraries of every Linux with the GNU C library, which PEP 513 lets a wheel need.
OF_THE_SYSTEM = {
    "libc.so.6",
    "libm.so.6",
    "libpthread.so.0",
    "libdl.so.2",
    "librt.so.1",
    "libgcc_s.so.1",
    "ld-linux-x86-64.so.2",
    "ld-linux-aarch64.so.1",
}


def platform(found, of_build, *more):
    """The platform of a wheel with a shared object, and what is beside it: where these need the GNU C library alone, its least version that has all symbols; else the one of the build."""
    elves = [Elf(path) for path in (found, *more)]
    versions = [re.fullmatch(r"GLIBC_(\d+)\.(\d+)(?:\.\d+)?", name) for elf in elves for name in elf.versions()]
    if (
        not {name for elf in elves for name in elf.needed()} <= OF_THE_SYSTEM
        or not all(versions)
        or not of_build.startswith("linux_")
    ):
        return of_build
    # Before 2.5 no wheel has a platform.
    major, minor = max([(2, 5), *(tuple(map(int, version.groups())) for version in versions)])
    return f"manylinux_{major}_{minor}_{of_build.removeprefix('linux_')}"


class BuildPy(build_py):
    def run(self):
        super().run()
        made = pathlib.Path(self.build_lib) / "atomfs"
        shutil.copyfile(shared_object(), made / NAME)
        for found in program():
            (made / "bin").mkdir(exist_ok=True)
            shutil.copyfile(found, made / "bin" / "atomfs")
            (made / "bin" / "atomfs").chmod(0o755)


class Wheel(bdist_wheel):
    """A wheel for any Python 3 on this machine's kind: the shared object knows nothing of Python, and asks only for some version of the C
    library. A Python that does not take the extension leaves it alone."""

    def get_tag(self):
        built = map(pathlib.Path, self.get_finalized_command("build_ext").get_outputs())
        extensions = [path for path in built if path.is_file()]
        return "py3", "none", platform(shared_object(), super().get_tag()[2], *program(), *extensions)


class WithSharedObject(Distribution):
    def has_ext_modules(self):
        return True


if __name__ == "__main__":
    modules, why = extension()
    if why:
        leave_out(why)
    setup(
        cmdclass={"build_py": BuildPy, "build_ext": BuildExt, "bdist_wheel": Wheel},
        distclass=WithSharedObject,
        ext_modules=modules,
    )
