"""PyFilesystem2's own conformance suite on `AtomFS`: its tests as they are, but those that are named here with their reason."""
import errno
import unittest

from fs import errors
from fs.test import FSTestCases

from atomfs import Limits
from atomfs.fs import AtomFS

# What a test of the suite needs, and a tree by the second limits has not.
LONG_FILES = "it stores files of up to 5,505,024 bytes, and a file has at most 1,048,576"
LEFT_OUT = {f"test_{way}_{workers}": LONG_FILES for way in ("upload", "download") for workers in (0, 1, 2, 4)}


class Checked(AtomFS):
    """A file system whose journal is checked where it is closed."""

    verdict = None

    def close(self) -> None:
        if not self.isclosed():
            self.verdict = self.atom_tree.check()
        super().close()


class Conformance(FSTestCases, unittest.TestCase):
    """Each test of the suite passes, and the journal of its tree is lawful."""

    def make_fs(self) -> Checked:
        return Checked()

    def destroy_fs(self, fs: Checked) -> None:
        fs.close()
        self.assertEqual(fs.verdict, "lawful")


class OfTheSecondLimits(FSTestCases, unittest.TestCase):
    """By these all do but those that are left out."""

    make_fs, destroy_fs = lambda self: Checked(limits=Limits.V2), Conformance.destroy_fs


class LeftOut(unittest.TestCase):
    """A test that is left out would fail, and for its reason: a file becomes longer than the tree lets it."""

    def test_each(self) -> None:
        for name in LEFT_OUT:
            with self.subTest(name), self.assertRaises((OSError, errors.BulkCopyFailed)) as raised:
                suite = type(
                    "Suite", (FSTestCases, unittest.TestCase), {"make_fs": lambda self: AtomFS(limits=Limits.V2)}
                )(name)
                suite.setUp()
                getattr(suite, name)()
            causes = getattr(raised.exception, "errors", [raised.exception])
            self.assertEqual({cause.errno for cause in causes}, {errno.EFBIG})


for name, reason in LEFT_OUT.items():
    setattr(OfTheSecondLimits, name, unittest.skip(reason)(getattr(FSTestCases, name)))

if __name__ == "__main__":
    unittest.main()
