"""What `patch` covers and what it refuses: each function by its name, and what it takes."""
from __future__ import annotations

import errno
import importlib
import sys
from typing import Any, Dict, Optional, Set, Tuple

# Functions of a path, and the name of that argument.
OF_PATH: Dict[str, str] = {
    **dict.fromkeys(
        ("os.stat", "os.lstat", "os.access", "os.listdir", "os.scandir", "os.readlink", "os.chdir"), "path"
    ),
    **dict.fromkeys(("os.mkdir", "os.mknod", "os.unlink", "os.remove", "os.rmdir", "os.truncate", "os.open"), "path"),
    **dict.fromkeys(
        ("os.chmod", "os.lchmod", "os.chown", "os.lchown", "os.utime", "os.chflags", "os.lchflags", "os.chroot"), "path"
    ),
    **dict.fromkeys(
        ("os.mkfifo", "os.statvfs", "os.pathconf", "os.execv", "os.execve", "os.posix_spawn", "os.posix_spawnp"), "path"
    ),
    **dict.fromkeys(("os.getxattr", "os.setxattr", "os.listxattr", "os.removexattr"), "path"),
}
# Of these, those that speak of the entry and follow no link at its end.
OF_ENTRIES = {
    *("os.lstat", "os.readlink", "os.mkdir", "os.mknod", "os.unlink", "os.remove", "os.rmdir"),
    *("os.lchmod", "os.lchown", "os.lchflags"),
}
# Those that take the working directory where no path is given.
HERE = {"os.listdir", "os.scandir", "os.listxattr"}
# Those that take a descriptor in the place of the path, and are another function then.
BY_DESCRIPTOR = {
    **{"os.stat": "os.fstat", "os.truncate": "os.ftruncate", "os.chdir": "os.fchdir", "os.utime": "os.futime"},
    **{"os.chmod": "os.fchmod", "os.chown": "os.fchown", "os.statvfs": "os.fstatvfs", "os.pathconf": "os.fpathconf"},
    **{f"os.{name}xattr": f"os.f{name}xattr" for name in ("get", "set", "list", "remove")},
}
# Those whose function over the tree has another name, since another has theirs.
NAMES = {"os.lockf": "lock_section"}
# Those that follow a link at the end of a path only where a slash is behind it.
OF_LINKS = {"os.lstat", "os.readlink", "os.lchmod", "os.lchown", "os.lchflags"}
# Those whose errors have no path.
PATHLESS = {"os.mkfifo", "os.mknod", "os.utime"}
# Those that start a program, which would work in a directory that the system does not know.
EXECS, SPAWNS = ("os.execv", "os.execve"), ("os.posix_spawn", "os.posix_spawnp")
# What says that a program has ended: nothing of it is of a tree.
WAITS = ("os.waitpid", "os.wait", "os.wait3", "os.wait4")
# Those behind which the working directory is another.
WORKS = ("os.chdir", "os.fchdir")
# Functions of two paths.
OF_PATHS: Dict[str, Tuple[str, str]] = dict.fromkeys(("os.rename", "os.replace", "os.link"), ("src", "dst"))
# Functions of descriptors.
OF_DESCRIPTORS: Dict[str, Tuple[str, ...]] = {
    **dict.fromkeys(
        ("os.fstat", "os.close", "os.read", "os.write", "os.pread", "os.pwrite", "os.readv", "os.preadv"), ("fd",)
    ),
    **dict.fromkeys(
        ("os.writev", "os.pwritev", "os.lseek", "os.ftruncate", "os.posix_fallocate", "os.posix_fadvise"), ("fd",)
    ),
    **dict.fromkeys(
        ("os.fsync", "os.fdatasync", "os.isatty", "os.get_inheritable", "os.set_inheritable", "os.get_blocking"),
        ("fd",),
    ),
    **dict.fromkeys(
        ("os.set_blocking", "os.dup", "os.fchdir", "os.fchmod", "os.fchown", "os.fpathconf", "os.fstatvfs"), ("fd",)
    ),
    **dict.fromkeys(("os.lockf", "os.ttyname", "fcntl.fcntl", "fcntl.flock", "fcntl.lockf", "fcntl.ioctl"), ("fd",)),
    "os.sendfile": ("out_fd", "in_fd"),
    "os.copy_file_range": ("src", "dst"),
    "os.splice": ("src", "dst"),
    "os.dup2": ("fd", "fd2"),
}
# What is replaced by functions of their own.
_OWN = (
    *("builtins.open", "io.open_code", "os.getcwd", "os.getcwdb", "os.closerange", "os.symlink", "os.umask"),
    *("sqlite3.connect", "os.system", "os._spawnvef", "_posixsubprocess.fork_exec", "dbm.open"),
    "faulthandler.dump_traceback",
)
# What opens a file by itself.
DATABASES = ("_gdbm.open", "_dbm.open")
# What lets C write a trace at any moment.
TRACES = ("faulthandler.enable", "faulthandler.register")
# Classes, and the name of their first argument.
CLASSES: Dict[str, str] = {
    "io.FileIO": "file",
    "mmap.mmap": "fileno",
    "sqlite3.Connection": "database",
    "os.DirEntry": "",
}
REPLACED = (*OF_PATH, *OF_PATHS, *OF_DESCRIPTORS, *_OWN, *WAITS, *DATABASES, *TRACES, *CLASSES)

_NO_PROGRAM = "is of this process, and no program sees it without patch(processes=True)"
# What raises below the directory, and why: "a tree ..".
REFUSED: Dict[str, str] = {
    "os.link": "has no hard links",
    **dict.fromkeys(("os.chflags", "os.lchflags"), "keeps no flags"),
    **dict.fromkeys((*EXECS, *SPAWNS, "os.system", "os._spawnvef", "_posixsubprocess.fork_exec"), _NO_PROGRAM),
    **{"os.chroot": _NO_PROGRAM, "subprocess.Popen": _NO_PROGRAM},
    **dict.fromkeys(("os.dup2", *TRACES), "has no descriptor of the system"),
    **dict.fromkeys(("socket.socket.bind", "socket.socket.connect", "socket.socket.connect_ex"), "has no sockets"),
    **dict.fromkeys(
        ("sqlite3.connect", "sqlite3.Connection", *DATABASES), "has no files that a database opens by itself"
    ),
}
# What raises for some of its arguments.
_REFUSED_IN_PART = {"os.mknod": "has no devices and no sockets"}
# The numbers of these errors; that of all others is `ENOTSUP`.
NUMBERS: Dict[str, int] = dict.fromkeys(("os.link", "os.mknod", "socket.socket.bind"), errno.EPERM)


def refusal(name: str, *paths: Any) -> OSError:
    """The error of what is refused."""
    return OSError(
        NUMBERS.get(name, errno.ENOTSUP), f"{name}: a tree {REFUSED.get(name) or _REFUSED_IN_PART[name]}", *paths
    )


_PATHLIB = "exists is_dir is_file is_symlink is_mount stat lstat iterdir glob rglob mkdir rmdir touch unlink rename replace open"
# What goes to the tree since it is made of what is replaced.
_MADE = (
    *("io.open", "os.fdopen", "os.makedirs", "os.removedirs", "os.renames", "os.walk", "os.fwalk"),
    *(
        f"os.path.{name}"
        for name in "exists lexists isdir isfile islink ismount getsize getmtime samefile sameopenfile".split()
    ),
    *(f"os.path.{name}" for name in "abspath realpath relpath".split()),
    *(f"pathlib.Path.{name}" for name in _PATHLIB.split()),
    *(
        f"pathlib.Path.{name}"
        for name in "read_text write_text read_bytes write_bytes samefile resolve absolute cwd".split()
    ),
    *(
        f"shutil.{name}"
        for name in "copyfile copyfileobj copystat copymode copy copy2 copytree move rmtree make_archive unpack_archive".split()
    ),
    *(
        f"tempfile.{name}"
        for name in "mkstemp mkdtemp TemporaryFile NamedTemporaryFile TemporaryDirectory SpooledTemporaryFile".split()
    ),
    *("zipfile.ZipFile", "zipfile.is_zipfile", "zipfile.Path", "tarfile.open", "gzip.open", "bz2.open", "lzma.open"),
    *("glob.glob", "glob.iglob", "codecs.open", "fileinput.input", "linecache.getline"),
)
# What goes to the tree.
COVERED: Tuple[str, ...] = (*(name for name in REPLACED if name not in (*REFUSED, *WAITS)), *_MADE)


# Modules that this Python has not.
_absent: Set[str] = set()


def found(name: str) -> Optional[Any]:
    """What has this name, where this Python has it."""
    module, _, rest = name.partition(".")
    there = sys.modules.get(module)
    if there is None and module not in _absent:
        try:
            there = importlib.import_module(module)
        except ImportError:
            _absent.add(module)
    return getattr(there, rest, None)
