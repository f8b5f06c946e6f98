"""What `tests/promises` prints: of a small crate each line, and of the product each public function and each clause."""
import importlib.machinery
import importlib.util
import pathlib
import re
import subprocess
import tempfile
import typing
import unittest

from harness import ROOT, Case

PROMISES = ROOT / "tests" / "promises"


def loaded() -> typing.Any:
    """The command as a module."""
    loader = importlib.machinery.SourceFileLoader("promises", str(PROMISES))
    spec = importlib.util.spec_from_loader("promises", loader)
    assert spec
    module = importlib.util.module_from_spec(spec)
    loader.exec_module(module)
    return module


promises = loaded()

# A crate with each thing that the command tells apart.
ROOM = """\
//! Rooms of a house, one behind
//! the other. Enter at `Room`.

mod inner;
pub mod door;

pub use inner::{House, Room};
"""
INNER = """\
//! No part of what is printed.

/// A room.
pub struct Room {
    pub size: usize,
}

impl<'a, F: Fn(&[u8]) -> Room> Room {
    /// A room
    /// of this size. It is empty.
    #[inline]
    pub fn new(size: usize) -> Room
        requires small { size < 2 ^ 63 }
        requires { size ≢ 0 }
        ensures size { result.size ≡ size }

        // A comment { between.
        ensures none {
            count result ≡ 0
        }
    {
        Room { size }
    }

    /// No part of it.
    pub(crate) fn size(&self) -> usize {
        self.size
    }

    fn hidden(&self) {}
}

impl House for Room {
    fn rooms(&self) -> [u8; 2]
        ensures { true }
    {
        [0; 2]
    }
}

/// What has rooms.
pub trait House {
    /// How many there are
    fn rooms(&self) -> [u8; 2]
        ensures most { result ≤ 4 };
}

/// Only for its neighbours.
pub fn beside() {}
"""
DOOR = """\
/// Opens it. And more.
pub const fn open(key: u64) -> Room
    ensures* here { IsOpen (record { key = key }) }
{
    Room { size: 1 }
}
"""
PRINTED = """\
small: Rooms of a house, one behind the other.

open  src/door.rt:2
    Opens it.
    needs     nothing
    promises  here

Room::new  src/inner.rt:12
    A room of this size.
    needs     small, only
    promises  size, none

House::rooms  src/inner.rt:44
    How many there are
    needs     nothing
    promises  most

beside  src/inner.rt:49, inside the crate
    Only for its neighbours.
    needs     nothing
    promises  nothing
"""
OF_NEW = """\
    needs
        small: size < 2 ^ 63
        only: size ≢ 0
    promises
        size: result.size ≡ size
        none: count result ≡ 0
"""


def sources(crate: str) -> typing.Iterator[tuple[str, str]]:
    """The lines of a crate's sources, with where they stand."""
    for path in sorted((ROOT / "crates" / crate / "src").rglob("*.rt")):
        for number, line in enumerate(path.read_text().splitlines(), 1):
            yield f"{path.relative_to(ROOT / 'crates' / crate)}:{number}", line


class Promised(Case):
    def test_a_small_crate(self) -> None:
        with tempfile.TemporaryDirectory() as folder:
            crate = pathlib.Path(folder) / "small"
            (crate / "src").mkdir(parents=True)
            for name, text in (("lib", ROOM), ("inner", INNER), ("door", DOOR)):
                (crate / "src" / f"{name}.rt").write_text(text)
            self.same("what is printed", "\n".join(promises.printed(crate, False)) + "\n", PRINTED)
            of_new, *_ = "\n".join(promises.printed(crate, True)).split("Room::new")[1].split("\n\n")
            self.same("the clauses of a function", of_new.split("size.\n")[1] + "\n", OF_NEW)

    def test_each_public_function(self) -> None:
        """Those of the product: each is printed with where it stands and with what is said of it."""
        self.each(((crate, crate) for crate in promises.product()), self.look_at_crate)

    def look_at_crate(self, crate: str) -> None:
        printed = [
            line.split("  ")[1].split(",")[0]
            for line in promises.printed(ROOT / "crates" / crate, False)
            if re.search(r"  src/", line)
        ]
        due = [place for place, line in sources(crate) if re.match(r'\s*pub (const |unsafe |extern "C" )*fn ', line)]
        self.same("the functions that are not printed", [place for place in due if place not in printed], [])
        self.same(
            "those without a comment",
            [function.name for function in promises.public(ROOT / "crates" / crate) if not function.sentence],
            [],
        )

    def test_each_clause(self) -> None:
        """Each clause of a source is one of a function, but for those of closures, which stand deeper."""
        self.each(((crate, crate) for crate in promises.product()), self.look_at_clauses)

    def look_at_clauses(self, crate: str) -> None:
        found = sum(
            len(function.requires) + len(function.ensures) for function in promises.functions(ROOT / "crates" / crate)
        )
        self.same(
            crate, found, sum(1 for _, line in sources(crate) if re.match(r" {4}(?: {4})?(requires|ensures)\b", line))
        )

    def test_command(self) -> None:
        """Without a crate it prints all of the product, and of a name that is none it says so."""
        told = subprocess.run([PROMISES], capture_output=True, text=True, check=True).stdout
        self.same("the crates", re.findall(r"^((?:fs_|atomfs)\w*): ", told, re.M), promises.product())
        one = subprocess.run([PROMISES, "fs_calls", "--full"], capture_output=True, text=True, check=True).stdout
        self.same("fs_calls", one, "\n".join(promises.printed(ROOT / "crates" / "fs_calls", True)) + "\n")
        none = subprocess.run([PROMISES, "fs_none"], capture_output=True, text=True)
        self.same(
            "fs_none",
            (none.returncode, none.stdout, none.stderr.splitlines()[-1]),
            (2, "", "tests/promises: error: there is no crate fs_none; crates.txt lists them"),
        )


class Types(Case):
    """What types alone promise."""

    # What a call has that may wait for others.
    RUNTIME = re.compile(r"\brt: &")

    @staticmethod
    def head(crate: str, function: typing.Any) -> str:
        """A function up to its clauses, or to its body."""
        lines = (ROOT / "crates" / crate / function.file).read_text().splitlines()[function.line - 1 :]
        return re.split(r"\b(?:requires|ensures)\b|\{", "\n".join(lines))[0]

    def waiting(self, crate: str, owner: str) -> list[str]:
        """The calls of a type that take the runtime."""
        listed = [
            function for function in promises.public(ROOT / "crates" / crate) if function.name.startswith(f"{owner}::")
        ]
        return [function.name for function in listed if self.RUNTIME.search(self.head(crate, function))]

    def test_observers_wait_for_nobody(self) -> None:
        """To wait for a lock a call takes the runtime: a session's calls do, and none of an observer's does."""
        self.same("an observer", self.waiting("fs_share_observe", "Observer"), [])
        self.same("a session", self.waiting("fs_share", "Session"), ["Session::call", "Session::call_told"])


if __name__ == "__main__":
    unittest.main()
