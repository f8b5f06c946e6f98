"""Some modules of CPython's own tests pass in a tree as on the disk: all of them are run by cpython.py."""
import importlib.util
import unittest

import cpython


@unittest.skipUnless(
    importlib.util.find_spec("test.test_os"), f"CPython's tests are not there: apt-get install {cpython.PACKAGE}"
)
class CPython(unittest.TestCase):
    def test_modules(self) -> None:
        """Each test that passes on the disk passes in a tree, or has a reason; nothing comes to the disk, and each journal is lawful."""
        sums = [0, 0]
        for name in cpython.QUICK:
            with self.subTest(name):
                line, on_disk, in_tree, _, faults = cpython.compared(name, 120)
                self.assertEqual(faults, [], line)
                self.assertGreater(on_disk, 0)
                sums = [sums[0] + on_disk, sums[1] + in_tree]
        self.assertGreater(sums[1], 0.95 * sums[0])

    def test_reasons(self) -> None:
        """A reason is for what it names alone."""
        words = "PermissionError: os.link: a tree has no hard links"
        for name, told, due in (
            ("test.test_os.LinkTests.test_link", words, "a tree has no hard links"),
            ("test.test_os.LinkTests.test_link", "AssertionError: 1 != 2", None),
            (
                "test.test_mailbox.TestMbox.test_lock_conflict",
                "AssertionError",
                "another process has a copy of the tree",
            ),
            ("test.test_mailbox.TestMbox.test_lock", "AssertionError", None),
        ):
            self.assertEqual(cpython.reason_of(name, told), due)
        disk = {"a.B.c": ("passed", ""), "a.B.d": ("passed", ""), "a.B.e": ("failed", "")}
        tree = {"a.B.c": ("passed", ""), "a.B.d": ("error", "KeyError"), "a.B.e": ("error", "")}
        self.assertEqual(list(cpython.lost(disk, tree)), [("a.B.d", None, "KeyError")])


if __name__ == "__main__":
    unittest.main()
