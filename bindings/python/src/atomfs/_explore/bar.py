"""How far a long exploration is, on a terminal alone."""
from __future__ import annotations

import importlib
import sys
import time
from typing import Any

# After so many seconds something is shown, and then as often.
_AFTER, _OFTEN = 0.5, 0.1
_now = time.monotonic


class Bar:
    """A bar of `tqdm` where that is installed, and else a line, on standard error if that is a terminal."""

    def __init__(self, total: int) -> None:
        self._total, self._done, self._bar = total, 0, None  # type: int, int, Any
        self._shows = sys.stderr is not None and sys.stderr.isatty()
        self._next = _now() + _AFTER if self._shows else 0.0
        self._line = ""

    def __enter__(self) -> Bar:
        return self

    def add(self, count: int) -> None:
        """So many runs more are done."""
        self._done += count
        if self._shows and _now() >= self._next:
            self._next = _now() + _OFTEN
            self._show()

    def _show(self) -> None:
        if self._bar is None and not self._line:
            try:
                self._bar = importlib.import_module("tqdm").tqdm(
                    total=self._total, unit=" runs", file=sys.stderr, leave=False
                )
            except ImportError:
                pass
        if self._bar is not None:
            self._bar.update(self._done - self._bar.n)
            return
        self._line = f"{self._done:,} of {self._total:,} runs, {100 * self._done // max(1, self._total)} %"
        sys.stderr.write(f"\r{self._line}")
        sys.stderr.flush()

    def __exit__(self, *error: object) -> None:
        if self._bar is not None:
            self._bar.close()
        elif self._line:
            sys.stderr.write("\r" + " " * len(self._line) + "\r")
            sys.stderr.flush()
