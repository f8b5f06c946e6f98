"""The pages of the repository as HTML."""
import html
import os
import pathlib
import re
import shutil

import markdown

ROOT = pathlib.Path(__file__).resolve().parent.parent.parent
PATTERNS = (
    "README.md",
    "CONTRIBUTING.md",
    "CHANGELOG.md",
    "docs/*.md",
    "examples/**/*.md",
    "bindings/*/*.md",
    "embed/*.md",
    "crates/*/README.md",
)
# What the bar at the side of each page leads to.
BAR = (
    (
        "Start",
        (
            ("README.md", "AtomFS"),
            ("docs/README.md", "All pages"),
            ("docs/FAQ.md", "Questions"),
            ("docs/GLOSSARY.md", "Glossary"),
        ),
    ),
    (
        "Use",
        (
            ("docs/FIRST-RACE.md", "First race"),
            ("examples/tour/README.md", "Tour"),
            ("docs/RACES.md", "Your own functions"),
            ("docs/SCHEDULES.md", "Schedules"),
            ("docs/PATCHES.md", "Patches"),
            ("docs/TEST-A-FILE-SYSTEM.md", "Test a file system"),
            ("bindings/python/README.md", "Python"),
            ("bindings/rust/README.md", "Rust"),
            ("docs/EMBEDDING.md", "C and C++"),
            ("docs/CHOOSING.md", "Choosing"),
            ("docs/SPECIFICATION.md", "Specification"),
            ("docs/FORMATS.md", "Formats"),
            ("docs/COMMANDS.md", "Commands"),
            ("docs/PICTURES.md", "Traces and pictures"),
            ("docs/PLAYER.md", "Playing a run"),
            ("docs/PERFORMANCE.md", "Performance"),
        ),
    ),
    (
        "Believe",
        (
            ("docs/HELPING.md", "How helping works"),
            ("docs/TRUST.md", "Trust"),
            ("docs/MACHINE.md", "The machine"),
            ("docs/PROMISES.md", "Promises"),
            ("docs/READING-LIST.md", "Reading list"),
        ),
    ),
    (
        "Change",
        (("CONTRIBUTING.md", "Contributing"), ("docs/ARCHITECTURE.md", "Architecture"), ("CHANGELOG.md", "Changes")),
    ),
)


def slug(heading, _separator=None):
    """The place of a heading, as links of the pages have it."""
    return re.sub(r"[^\w -]", "", heading.lower()).replace(" ", "-")


def sources():
    return sorted({path for pattern in PATTERNS for path in ROOT.glob(pattern)})


def name_of(path):
    """Where the page of a file is, from the top of the folder: a README is the first page of its own folder."""
    name = path.relative_to(ROOT)
    if path.is_dir():
        return str(name / "index.html") if (path / "README.md").is_file() else f"{name}.files.html"
    if name.suffix == ".md":
        return str(name.with_name("index.html") if name.name == "README.md" else name.with_suffix(".html"))
    return str(name) if name.suffix == ".svg" else f"{name}.html"


class Site:
    """The folder that is made, and the files beside the pages to which these lead."""

    def __init__(self, folder, references, played):
        self.folder, self.beside = folder, set()
        listed = [[(link, title) for title, link in sorted(links.items())] for links in (references, played)]
        # What the bar at the side of each page leads to.
        self.bars = [*BAR, *((head, rows) for head, rows in zip(("Reference", "Play a run"), listed) if rows)]
        self.style = (ROOT / "docs" / "site" / "style.css").read_text()

    def relative(self, link, name):
        return os.path.relpath(link, pathlib.Path(name).parent)

    def link(self, path, link, name):
        """A link of a page, as one from HTML to HTML."""
        if re.match(r"[a-z]+:|#", link):
            return link
        target, _, anchor = link.partition("#")
        at = (path.parent / target).resolve()
        if at.suffix != ".md":
            self.beside.add(at)
        return self.relative(name_of(at), name) + (f"#{anchor}" if anchor else "")

    def bar(self, name):
        parts = []
        for head, rows in self.bars:
            items = []
            for page, title in rows:
                to = page if page.startswith("api/") else name_of(ROOT / page)
                here = ' aria-current="page"' if to == name else ""
                items.append(f'<li><a href="{self.relative(to, name)}"{here}>{title}</a></li>')
            parts.append(f"<h2>{head}</h2><ul>{''.join(items)}</ul>")
        menu = '<input type="checkbox" id="menu"><label for="menu">Pages</label>'
        return f'<nav aria-label="Pages">{menu}<div>{"".join(parts)}</div></nav>'

    def put(self, name, title, body):
        at = self.folder / name
        at.parent.mkdir(parents=True, exist_ok=True)
        head = f'<meta charset="utf-8"><meta name="viewport" content="width=device-width"><title>{html.escape(title)}</title>'
        style = f'<link rel="stylesheet" href="{self.relative("style.css", name)}">'
        at.write_text(
            f'<!doctype html><html lang="en"><head>{head}{style}</head><body>{self.bar(name)}<main>{body}</main></body></html>\n'
        )

    def page(self, path):
        """A page in Markdown as one of the folder."""
        text, name = path.read_text(), name_of(path)
        made = markdown.Markdown(
            extensions=["tables", "fenced_code", "toc", "sane_lists"], extension_configs={"toc": {"slugify": slug}}
        ).convert(text)
        made = re.sub(
            r'(<(?:a|img)\b[^>]*?\b(?:href|src)=")([^"]*)(")',
            lambda found: found[1] + html.escape(self.link(path, html.unescape(found[2]), name)) + found[3],
            made,
        )
        made = made.replace("<table>", '<div class="wide"><table>').replace("</table>", "</table></div>")
        title = re.search(r"^# (.*)", text, re.M)[1]
        self.put(name, title, made)

    def beside_pages(self):
        """The sources and the folders to which pages lead."""
        for path in sorted(self.beside):
            name = name_of(path)
            if path.suffix == ".svg":
                (self.folder / name).parent.mkdir(parents=True, exist_ok=True)
                shutil.copy(path, self.folder / name)
            elif path.is_dir():
                if not (path / "README.md").is_file():
                    rows = "".join(f"<li>{html.escape(one.name)}</li>" for one in sorted(path.iterdir()))
                    self.put(name, path.name, f"<h1>{path.relative_to(ROOT)}/</h1><ul>{rows}</ul>")
            else:
                text = html.escape(path.read_text(errors="replace"))
                self.put(name, path.name, f"<h1>{path.relative_to(ROOT)}</h1><pre><code>{text}</code></pre>")


def write(folder, references, played):
    """Writes all pages into a folder, with what leads to references and to runs that are played."""
    site = Site(folder, references, played)
    folder.mkdir(parents=True, exist_ok=True)
    (folder / "style.css").write_text(site.style)
    for path in sources():
        site.page(path)
    site.beside_pages()
