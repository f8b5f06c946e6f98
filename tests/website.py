"""The folder of pages that docs/build makes: it has each page, and each link leads somewhere."""
import importlib
import importlib.util
import os
import pathlib
import re
import subprocess
import sys
import tempfile
import typing
import unittest

import harness
from documents import PAGES
from harness import ROOT, Case, match_in
from promised import promises

sys.path.insert(0, str(ROOT / "docs" / "site"))
site_links: typing.Any = importlib.import_module("site_links")

BUILD = ROOT / "docs" / "build"
# The other Python that docs/build takes, where this one has no markdown.
SYSTEM = "/usr/bin/python3"


def has_markdown() -> bool:
    """Whether docs/build finds the module markdown."""
    if importlib.util.find_spec("markdown"):
        return True
    asks = [SYSTEM, "-c", "import markdown"]
    return os.access(SYSTEM, os.X_OK) and subprocess.run(asks, capture_output=True).returncode == 0


class Links(Case):
    """What is found to lead nowhere."""

    def test_lost(self) -> None:
        with tempfile.TemporaryDirectory(prefix="atomfs-") as folder:
            here = pathlib.Path(folder)
            (here / "api" / "c").mkdir(parents=True)
            (here / "api" / "c" / "of_others.html").write_text('<a href="nowhere.html">')
            (here / "b.html").write_text('<h2 id="there">')
            words = "b.html", "b.html#there", "#own", "https://there.example", "c.html", "b.html#not-there", "#nor-here"
            (here / "a.html").write_text('<p id="own">' + "".join(f'<a href="{word}">' for word in words))
            found = [link for _, link in site_links.lost(here)]
            self.same("the links", found, ["c.html", "b.html#not-there", "#nor-here"])


class Site(Case):
    """The pages and the promises. References of other languages need tools that tests of pages do not."""

    def setUp(self) -> None:
        if not has_markdown():
            self.skipTest("there is no module markdown: apt-get install python3-markdown")
        folder = tempfile.TemporaryDirectory(prefix="atomfs-")
        self.addCleanup(folder.cleanup)
        self.folder = pathlib.Path(folder.name)
        words = [str(BUILD), "--pages-only", str(self.folder)]
        self.done = subprocess.run(words, capture_output=True, text=True, timeout=5 * harness.MOST_SECONDS)

    def test_pages(self) -> None:
        """Each page is there, with its heading and its tables, and no link is lost."""
        self.same("docs/build", (self.done.returncode, self.done.stderr), (0, ""))
        self.each(((str(page.relative_to(ROOT)), page) for page in PAGES), self.look_at_page)
        self.each(((crate, crate) for crate in promises.product()), self.look_at_crate)
        made = (self.folder / "index.html").read_text()
        self.same("what the first page shows", 'src="docs/helped_mkdir.svg"' in made, True)

    def look_at_page(self, page: pathlib.Path) -> None:
        name = page.relative_to(ROOT)
        name = name.with_name("index.html") if name.name == "README.md" else name.with_suffix(".html")
        made = (self.folder / name).read_text()
        heads = len(re.findall(r"^\\|(?:---\\|)+$".replace("\\\\", "\\"), page.read_text(), re.M))
        self.same("how many tables and headings it has", (made.count("<table>"), made.count("<h1")), (heads, 1))

    def look_at_crate(self, crate: str) -> None:
        """The page of a crate has each public function and each of its clauses."""
        made = (self.folder / "api" / "rattle" / f"{crate}.html").read_text()
        for function in promises.public(ROOT / "crates" / crate):
            (part,) = re.findall(
                rf'<h2 id="{re.escape(function.name)}">(?:(?!<h2).)*{function.file}:{function.line}<(?:(?!<h2).)*',
                made,
                re.S,
            )
            clauses = re.findall(r"<dd><b>(\w+)</b>", part)
            due = [clause.name for clause in (*function.requires, *function.ensures)]
            self.same(f"the clauses of {function.name}", clauses, due)

    def test_definitions(self) -> None:
        """The words of the headline lead to where they are defined."""
        made = (self.folder / "api" / "rattle" / "fs_core.html").read_text()
        for name in ("IsLinearizable", "IsAtRest", "graph_shapes"):
            with self.subTest(name):
                page, line = match_in(rf'<a href="(specs/[\w.]+\.html)#L(\d+)">{name}</a>', made).groups()
                text = (self.folder / "api" / "rattle" / page).read_text()
                self.assertRegex(text, rf'<span id="L{line}">[^<]*\b{name}\b')


if __name__ == "__main__":
    unittest.main()
