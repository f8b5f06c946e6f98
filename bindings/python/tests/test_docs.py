"""Doc lines: each public name of the package has one, and so has each public method, which says what it raises."""
import importlib.util
import inspect
import re
import unittest
from typing import Iterator, Tuple

import atomfs

# What a doc line names that says so: an exception, or where errors go.
RAISES = re.compile(r"\b[Rr]aise[sd]?\b|\b\w*Error\b|\bErrors go\b|\b(?:is|are) refused\b")
# A class says it once for all its methods.
OF_ALL = re.compile(r"\bEach\b[^.]*\braises\b")
# What other packages have to be there for.
OF_OTHERS = {"atomfs.fs": "fs", "atomfs.fsspec": "fsspec"}


def methods(kind: type) -> Iterator[Tuple[str, object, bool]]:
    """The public methods and properties that a class has of its own, each with its doc line."""
    for name, value in vars(kind).items():
        function = value.__func__ if isinstance(value, (staticmethod, classmethod)) else value
        if not name.startswith("_") and (inspect.isfunction(function) or isinstance(function, property)):
            yield name, function, inspect.isfunction(function)


def lacks(name: str, value: object) -> Iterator[str]:
    """What has no doc line below a public name, or one that does not say what is raised."""
    if inspect.isclass(value):
        # A dataclass that has none gets its own signature.
        if not (value.__doc__ or "").strip() or (value.__doc__ or "").startswith(f"{value.__name__}("):
            yield name
        of_all = OF_ALL.search(value.__doc__ or "")
        for below, function, is_method in methods(value):
            if not function.__doc__ or (is_method and not of_all and not RAISES.search(function.__doc__)):
                yield f"{name}.{below}"
    elif inspect.isfunction(value) and not (value.__doc__ and RAISES.search(value.__doc__)):
        yield name


class Docs(unittest.TestCase):
    maxDiff = None

    def test_package(self) -> None:
        self.assertEqual([one for name in atomfs.__all__ for one in lacks(name, getattr(atomfs, name))], [])

    def test_modules(self) -> None:
        """Those by which trees are file systems of other packages."""
        for module, needed in OF_OTHERS.items():
            if importlib.util.find_spec(needed) is None:
                continue
            space = vars(importlib.import_module(module))
            own = {name: one for name, one in space.items() if getattr(one, "__module__", None) == module}
            public = {name: one for name, one in own.items() if not name.startswith("_") and name != "AnyFile"}
            with self.subTest(module):
                self.assertEqual([one for name, value in public.items() for one in lacks(name, value)], [])

    def test_rule(self) -> None:
        """What the rule finds, of classes and functions made for it."""

        def function() -> None:
            """Does something."""

        class Bare:
            def method(self) -> None:
                """Raises nothing."""

        class Said:
            """Something. Each method raises `OSError`."""

            def method(self) -> None:
                """Does something."""

            def other(self) -> None:
                pass

        self.assertEqual(list(lacks("function", function)), ["function"])
        self.assertEqual(list(lacks("Bare", Bare)), ["Bare"])
        self.assertEqual(list(lacks("Said", Said)), ["Said.other"])


if __name__ == "__main__":
    unittest.main()
