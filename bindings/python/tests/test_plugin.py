"""The plugin of pytest: its cases, in plugin_cases.py, are run by pytest itself."""
import importlib.util
import pathlib
import re
import subprocess
import sys
import unittest

CASES = pathlib.Path(__file__).with_name("plugin_cases.py")


@unittest.skipUnless(importlib.util.find_spec("pytest"), "there is no pytest: apt-get install python3-pytest")
class Plugin(unittest.TestCase):
    def test_cases(self) -> None:
        words = "-m", "pytest", "-q", "-p", "pytester", "-p", "no:cacheprovider", str(CASES)
        ran = subprocess.run([sys.executable, *words], capture_output=True, text=True)
        self.assertEqual(ran.returncode, 0, ran.stdout + ran.stderr)
        self.assertRegex(ran.stdout, r"(?m)^\d+ passed(, \d+ skipped)? in ")
        cases = len(re.findall(r"(?m)^def test_", CASES.read_text()))
        passed = re.search(r"(\d+) passed", ran.stdout)
        assert passed is not None
        self.assertGreaterEqual(int(passed[1]), cases)


if __name__ == "__main__":
    unittest.main()
