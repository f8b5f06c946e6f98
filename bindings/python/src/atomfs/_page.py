"""A page that plays a run event by event: one file with all that it needs.

`run.html` is the page without a run. Two texts come into it: the run's picture, which is seen where scripts are off, and the trace of a script's
run, or a journal. Lines before the trace or the journal say more of it. Each begins with `# `: the verdict, what was found of a history, and which
line of the caller's source made a call.
"""
from __future__ import annotations

import dataclasses
import functools
import html
import pathlib
import re
from typing import Sequence, Tuple

from ._errors import StrPath

# How many pixels a page is high in a notebook.
_HEIGHT = 720


@dataclasses.dataclass(frozen=True, repr=False)
class Page:
    """A page that plays a run: `str` is its text, a file of HTML and ASCII alone; `save` writes it, and notebooks show it."""

    #: The text of the HTML file.
    html: str

    def __str__(self) -> str:
        return self.html

    def __repr__(self) -> str:
        title = re.search("<title id=[^>]*>AtomFS: ([^<]*)", self.html)
        return f"<atomfs.Page of {len(self.html):,} bytes{f': {title[1]}' if title else ''}>"

    def _repr_html_(self) -> str:
        page = html.escape(self.html)
        frame = f'width="100%" height="{_HEIGHT}" sandbox="allow-scripts" title="A run of AtomFS" style="border: 0"'
        return f'<iframe {frame} srcdoc="{page}"></iframe>'

    def save(self, path: StrPath) -> pathlib.Path:
        """Writes the HTML file to a path of the disk, and returns that; a file there is replaced.

        Raises the `OSError` of the disk.
        """
        at = pathlib.Path(path)
        at.write_bytes(self.html.encode())
        return at


def page_of(text: bytes, picture: str, notes: Sequence[bytes] = ()) -> Page:
    """The page of a trace or a journal, with the picture of the same run, and with notes on it."""
    before, between, after = _parts()
    played = b"".join(b"# %s\n" % note.replace(b"\n", b" ") for note in notes) + text
    return Page(before + picture + between + html.escape(_ascii(played), quote=False) + after)


def source_note(number: int, source: str) -> bytes:
    """The note that a line of source made the call of this number, counted by their begins."""
    words = re.sub(rb"[^ -$&-~]", lambda found: b"%%%02X" % found[0][0], source.encode("utf-8", "backslashreplace"))
    return b"source %d %s" % (number, words)


@functools.lru_cache(maxsize=None)
def _parts() -> Tuple[str, str, str]:
    """What is before the picture in the page, between the picture and the text, and after the text."""
    page = pathlib.Path(__file__).with_name("run.html").read_text("ascii")
    before, between, after = re.split("@PICTURE@\n|@RUN@", page)
    return before, between, after


def _ascii(text: bytes) -> str:
    """A text in which each byte that is no printable character is escaped, as names are in texts."""
    return re.sub(rb"[^\n -~]", lambda found: b"%%%02X" % found[0][0], text).decode("ascii")
