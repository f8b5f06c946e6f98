"""What `tests/promises --html FOLDER` writes: a page for each crate, with each public function, its comment and its clauses, whose definitions lead to
the files that have them."""
import functools
import html
import pathlib
import re
import typing

STYLE = """\
body{font:16px/1.5 system-ui,sans-serif;max-width:60rem;margin:0 auto;padding:1rem;color:#1f2328;background:#fff}
code,pre{font:14px/1.5 ui-monospace,"DejaVu Sans Mono",Menlo,Consolas,monospace}
pre{overflow-x:auto;background:#f6f8fa;padding:.75rem;border-radius:6px}
h2{border-top:1px solid #d0d7de;padding-top:1rem;font-size:1.1rem;overflow-wrap:anywhere}
dt{font-weight:600;margin-top:.5rem}dd{margin:0 0 .25rem 1rem}dd code{overflow-wrap:anywhere}
.at{color:#59636e;font-weight:400;font-size:.85rem}a{color:#0969da}:target{background:#fff8c5}
@media(prefers-color-scheme:dark){body{background:#0d1117;color:#e6edf3}pre{background:#161b22}a{color:#4493f8}.at{color:#9198a1}
h2{border-color:#30363d}:target{background:#3b2e00}}
"""
# A definition of a file of `specs/`, by the line at which it begins: its name, or that of a constructor of one.
HEAD = re.compile(r"^(?:(?:pub|abbrev|unfoldable|record|data) )*([^\s({]+)(?= |$)")
CONSTRUCTOR = re.compile(r"^  (\w+) :")
NO_DEFINITION = "use", "--", "infix", "infixl", "infixr", "module"
IMPORT = re.compile(r"use Rattle\.([\w.]+)\.\{(.*?)\}", re.S)
WORD = re.compile(r"[^\s(){}\[\];,.:=+|&×→∷]+")


def imports(text: str) -> dict[str, str]:
    """The module of each name that a text imports."""
    return {name.strip(): module for module, names in IMPORT.findall(text) for name in names.split(",")}


class Definitions:
    """The files of `specs/` with what they define."""

    def __init__(self, crates: pathlib.Path) -> None:
        self.crates = crates

    def path(self, module: str) -> pathlib.Path:
        crate, _, rest = module.partition(".")
        return self.crates / crate / f"{rest.replace('.', '/')}.antt"

    @functools.lru_cache(maxsize=None)
    def file(self, module: str) -> tuple[dict[str, int], dict[str, str]]:
        """The line of each definition of a file by its name, and what the file imports."""
        path = self.path(module)
        text = path.read_text() if path.is_file() else ""
        found: dict[str, int] = {}
        for number, line in enumerate(text.splitlines(), 1):
            named = CONSTRUCTOR.match(line) or (not line.startswith(NO_DEFINITION) and HEAD.match(line))
            if named:
                found.setdefault(named[1], number)
        return found, imports(text)

    def place(self, module: str, name: str) -> typing.Optional[tuple[str, int]]:
        """The module and the line of a definition, also where a file hands it on."""
        for _ in range(8):
            found, others = self.file(module)
            if name in found:
                return module, found[name]
            if name not in others:
                return None
            module = others[name]
        return None

    def modules(self) -> typing.Iterator[str]:
        """All files of `specs/` of the crates."""
        for path in sorted(self.crates.glob("*/specs/**/*.antt")):
            yield ".".join(path.relative_to(self.crates).with_suffix("").parts)


def page(title: str, body: str) -> str:
    head = (
        f'<meta charset="utf-8"><meta name="viewport" content="width=device-width"><title>{html.escape(title)}</title>'
    )
    return f'<!doctype html><html lang="en"><head>{head}<style>{STYLE}</style></head><body>{body}</body></html>\n'


def linked(text: str, names: typing.Mapping[str, str], definitions: Definitions) -> str:
    """A clause as HTML, in which each name of a definition leads to it."""

    def link(found: re.Match[str]) -> str:
        word, shown = found[0], html.escape(found[0])
        place = definitions.place(names[word], word) if word in names else None
        return f'<a href="specs/{place[0]}.html#L{place[1]}">{shown}</a>' if place else shown

    parts, at = [], 0
    for found in WORD.finditer(text):
        parts += [html.escape(text[at : found.start()]), link(found)]
        at = found.end()
    return "".join(parts) + html.escape(text[at:])


def function_as_html(function: typing.Any, names: typing.Mapping[str, str], definitions: Definitions) -> str:
    name = html.escape(function.name)
    lines = [f'<h2 id="{name}"><code>{name}</code> <span class="at">{function.file}:{function.line}</span></h2>']
    lines.append(f"<p>{html.escape(function.sentence)}</p>")
    for word, clauses in (("needs", function.requires), ("promises", function.ensures)):
        if clauses:
            shown = "".join(
                f"<dd><b>{clause.name}</b> <code>{linked(clause.text, names, definitions)}</code></dd>"
                for clause in clauses
            )
            lines.append(f"<dl><dt>{word}</dt>{shown}</dl>")
    return "\n".join(lines)


def crate_as_html(
    crate: pathlib.Path, head: str, functions: typing.Sequence[typing.Any], definitions: Definitions
) -> str:
    """The page of a crate, whose names are those that each of its files imports."""
    known = {str(path.relative_to(crate)): imports(path.read_text()) for path in (crate / "src").rglob("*.rt")}
    body = [f'<p><a href="index.html">All crates</a></p><h1>{crate.name}</h1><p>{html.escape(head)}</p>']
    body += [function_as_html(function, known[function.file], definitions) for function in functions]
    return page(f"{crate.name}: promises", "\n".join(body))


def definitions_as_html(module: str, path: pathlib.Path) -> str:
    lines = [
        f'<span id="L{number}">{html.escape(line)}</span>'
        for number, line in enumerate(path.read_text().splitlines(), 1)
    ]
    title = str(path.relative_to(path.parents[len(module.split(".")) - 1]))
    return page(
        title, f'<p><a href="../index.html">All crates</a></p><h1>{title}</h1><pre>' + "\n".join(lines) + "</pre>"
    )


def write(
    folder: str | pathlib.Path,
    crates: pathlib.Path,
    listed: typing.Iterable[tuple[pathlib.Path, str, typing.Sequence[typing.Any]]],
) -> None:
    """The pages of crates, each a pair of its folder and what is said of it, with its functions."""
    folder, definitions = pathlib.Path(folder), Definitions(crates)
    (folder / "specs").mkdir(parents=True, exist_ok=True)
    rows = []
    for crate, head, functions in listed:
        (folder / f"{crate.name}.html").write_text(crate_as_html(crate, head, functions, definitions))
        clauses = sum(len(function.ensures) for function in functions)
        rows.append(
            f'<dt><a href="{crate.name}.html">{crate.name}</a> <span class="at">{len(functions)} functions, '
            f"{clauses} promises</span></dt><dd>{html.escape(head)}</dd>"
        )
    for module in definitions.modules():
        (folder / "specs" / f"{module}.html").write_text(definitions_as_html(module, definitions.path(module)))
    says = (
        "<p>What each public function needs and promises, from the bottom up. The prover has checked each clause.</p>"
    )
    (folder / "index.html").write_text(page("Promises", f"<h1>Promises</h1>{says}<dl>{''.join(rows)}</dl>"))
