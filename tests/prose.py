"""How pages are written: what a test can hold of the ten rules of CONTRIBUTING.md."""
import itertools
import pathlib
import re
import typing
import unittest

from documents import DOCS, OF_CRATES, PACKAGES, PAGES, by_path, prose, tables
from harness import ROOT, Case, match_in

# No sentence has more words than this. A span of code is one word; tables and blocks are no sentences.
MOST_OF_A_SENTENCE = 30
# Words and forms that the rules replace, and how often all pages together may have them. These numbers only become smaller.
MOST = {
    r"\b(?:told|tells?)\b": 0,
    r"\b(?:stands?|stood)\b": 0,
    r"\bbehind\b": 1,
    r"\bunder\s+way\b": 0,
    r"\bwant\s+of\s+memory\b": 0,
    r"(?:^|[.;:|] )[Oo]f [^.|]*\bwhat\b": 0,
}
# The same of the comments that are documentation in the crates: heads of modules, and doc lines.
MOST_OF_CRATES = dict(zip(MOST, (60, 82, 50, 8, 3, 11), strict=True))
# This page shows the forms that it warns of.
CONTRIBUTING = ROOT / "CONTRIBUTING.md"
IN_WORDS = [page for page in PAGES if page != CONTRIBUTING]
CRATE = ROOT / "bindings" / "rust" / "src"
SOURCES = sorted((ROOT / "crates").glob("*/src/**/*.rt"))
INDEX, GLOSSARY = DOCS / "README.md", DOCS / "GLOSSARY.md"
# Pages that are read in one sitting have at most so many words, without blocks. A reference has what it needs.
MOST_OF_A_PAGE = 1_200
SITTINGS = "Tutorial", "How-to", "Explanation"
# The words of these pages that a reader has not met, which are linked or glossed where a page has them first.
TERMS = "seat", "commit", "journal", "lawful", "stamp", "tally", "victim", "mutant"
# Pages that explain no words: the list of changes, those of crates, and those that are lists themselves.
UNGLOSSED = (ROOT / "CHANGELOG.md", CONTRIBUTING, GLOSSARY, INDEX, *OF_CRATES)


def paragraphs(text: str) -> list[str]:
    """The paragraphs and the items of lists of a page without blocks, headings and tables, each as one line."""
    lines = []
    for line in text.splitlines():
        if not line.strip() or line.startswith(("#", "|")):
            lines.append("")
        elif item := re.match(r" *(?:- |\d+\. )(.*)", line):
            lines += ["", item[1]]
        else:
            lines.append(line)
    return [" ".join(part.split()) for part in "\n".join(lines).split("\n\n") if part.strip()]


def doc_lines(path: pathlib.Path) -> str:
    """The doc comments of a source in Rust as one text, without the blocks of code in them."""
    lines = (re.match(r"\s*//[/!] ?(.*)", line) for line in path.read_text().splitlines())
    return re.sub(r"^```.*?^```$", "", "\n".join(line[1] if line else "" for line in lines), flags=re.M | re.S)


def head_of(path: pathlib.Path) -> str:
    """What a source in Rattle begins with: the doc comment of its crate or module."""
    lines = itertools.takewhile(lambda line: line.startswith("//!"), path.read_text().splitlines())
    return "\n".join(line.removeprefix("//!").removeprefix(" ") for line in lines)


def sentences(text: str) -> typing.Iterator[str]:
    """The sentences of a page, with a word in place of each span of code, and without links and stress."""
    for paragraph in paragraphs(text):
        bare = re.sub(r"`[^`]*`", "CODE", re.sub(r"!?\[([^\]]*)\]\([^)]*\)", r"\1", paragraph)).replace("*", "")
        yield from re.split(r"(?<=[.!?])[)\"]? +(?=[A-Z(])", bare)


class Rules(Case):
    def test_sentences(self) -> None:
        """The rule by which a page is cut into sentences."""
        text = "# No. Head\n\nOne `a. B` is [a link. Here](x.md). Two.\n\n- Three\n  more: 1.5 of it. (Four.)\n\n| No | Row |\n"
        self.same(
            text, list(sentences(text)), ["One CODE is a link.", "Here.", "Two.", "Three more: 1.5 of it.", "(Four.)"]
        )

    def test_long_sentences(self) -> None:
        self.each(by_path(PAGES), self.look_at_sentences)

    def look_at_sentences(self, page: pathlib.Path) -> None:
        """Each has at most so many words."""
        long = [one for one in sentences(prose(page)) if len(one.split()) > MOST_OF_A_SENTENCE]
        self.same(f"{page.name}: sentences above {MOST_OF_A_SENTENCE} words", long, [])

    def test_words(self) -> None:
        """Words that the rules replace do not become more. Of a form that did, each place is named."""
        for form, most in MOST.items():
            found = [place for page in IN_WORDS for place in self.places(form, page)]
            self.same(f"`{form}`, at most {most} times", found if len(found) > most else [], [])

    def test_doc_lines(self) -> None:
        """The doc lines of the crate for Rust keep to the same rules, and have none of the words."""
        paths = sorted(CRATE.glob("*.rs"))
        self.each(((path.name, path, doc_lines(path)) for path in paths), self.look_at_comments)

    def test_heads(self) -> None:
        """So do the heads of the crates in Rattle."""
        roots = [path for path in SOURCES if path.parent.name == "src" and path.stem in ("lib", "main")]
        self.each(((path.parts[-3], path, head_of(path)) for path in roots), self.look_at_comments)

    def look_at_comments(self, path: pathlib.Path, text: str) -> None:
        name = path.relative_to(ROOT)
        long = [one for one in sentences(text) if len(one.split()) > MOST_OF_A_SENTENCE]
        self.same(f"{name}: sentences above {MOST_OF_A_SENTENCE} words", long, [])
        self.same(f"{name}: words", [place for form in MOST for place in self.places(form, path, text)], [])

    def test_words_of_crates(self) -> None:
        """The words do not become more in the heads of modules and the doc lines of the crates either."""
        texts = [(path, doc_lines(path)) for path in SOURCES]
        for form, most in MOST_OF_CRATES.items():
            found = [place for path, text in texts for place in self.places(form, path, text)]
            self.same(f"`{form}`, at most {most} times", found if len(found) > most else [], [])

    @staticmethod
    def places(form: str, page: pathlib.Path, text: str | None = None) -> typing.Iterator[str]:
        """Where a page has a form, with some words around it."""
        text = re.sub(r"`[^`\n]*`", "CODE", prose(page) if text is None else text)
        for found in re.finditer(form, text, re.M | re.I):
            around = text[max(0, found.start() - 40) : found.end() + 40]
            yield f"{page.relative_to(ROOT)}: {' '.join(around.split())}"

    def test_kinds(self) -> None:
        """The list of pages has each page of docs/, with its kind."""
        rows = [row for rows in tables(INDEX, "Page", "Kind", "Answers") for row in rows]
        self.same("the kinds", sorted({kind for _, kind, _ in rows} - {*SITTINGS, "Reference"}), [])
        shown = sorted(self.page_of(row) for row in rows)
        others = [ROOT / "CONTRIBUTING.md", ROOT / "CHANGELOG.md", *PACKAGES.values()]
        others += [ROOT / "examples" / name / "README.md" for name in ("", "tour", "races")]
        listed = {page for page in DOCS.glob("*.md")} - {INDEX, GLOSSARY, DOCS / "FAQ.md"}
        self.same("the pages", shown, sorted((*listed, *others)))
        self.each(((page.name, page) for page, kind in self.of_a_sitting(rows)), self.look_at_length)

    @staticmethod
    def page_of(row: list[str]) -> pathlib.Path:
        return (DOCS / match_in(r"\]\((.*?)\)", row[0])[1]).resolve()

    def of_a_sitting(self, rows: list[list[str]]) -> list[tuple[pathlib.Path, str]]:
        return [(self.page_of(row), row[1]) for row in rows if row[1] in SITTINGS]

    def look_at_length(self, page: pathlib.Path) -> None:
        words = len(prose(page).split())
        self.same(f"{page.relative_to(ROOT)}, in words", max(words, MOST_OF_A_PAGE), MOST_OF_A_PAGE)

    def test_terms(self) -> None:
        """Each is a word of the glossary, and is linked or glossed where a page has it first."""
        rows = [row for rows in tables(GLOSSARY, "Word", "In the field", "Here") for row in rows]
        words = {word for row in rows for word in row[0].split(", ")}
        self.same("the words that the glossary has not", [term for term in TERMS if term not in words], [])
        self.each(by_path(page for page in PAGES if page not in UNGLOSSED), self.look_at_terms)

    def look_at_terms(self, page: pathlib.Path) -> None:
        lines = [line for line in prose(page).splitlines() if not line.startswith(("#", "|"))]
        text = re.sub(r"`[^`\n]*`", "CODE", re.sub(r"#[\w-]*\)", ")", "\n".join(lines)))
        bare = [term for term in TERMS if not self.is_glossed(term, text)]
        self.same(f"{page.relative_to(ROOT)}: first uses without a link or a gloss in italics", bare, [])

    @staticmethod
    def is_glossed(term: str, text: str) -> bool:
        """Whether the first use is in italics, or the text of a link to the glossary or to a page about it."""
        stem = term.removesuffix("y")
        first = re.search(rf"\b{stem}(?:y|ies|s|es|ted|ting)?\b", text, re.I)
        marked = rf"(?:\*|\[)[^*\]\n]*\b{stem}(?:y|ies|s|es|ted|ting)?\b[^*\]\n]*(?:\*|\]\([^)]*\.md[^)]*\))"
        return not first or any(found.start() < first.end() <= found.end() for found in re.finditer(marked, text, re.I))


if __name__ == "__main__":
    unittest.main()
