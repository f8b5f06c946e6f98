"""Imports from a tree: the modules of the import system ask the functions that a patch has replaced, and have to forget what they know."""
from __future__ import annotations

import importlib
import sys


def imports_again(at: str) -> None:
    """Lets imports look anew at what is below a directory."""
    for path in [path for path in sys.path_importer_cache if path == at or path.startswith(f"{at}/")]:
        del sys.path_importer_cache[path]
    importlib.invalidate_caches()
