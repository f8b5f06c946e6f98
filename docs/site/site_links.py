"""The links of a folder of pages."""
import functools
import html
import pathlib
import re
import urllib.parse


@functools.lru_cache(maxsize=None)
def anchors(path):
    """The places of a page to which a link may lead."""
    return set(re.findall(r'\b(?:id|name)="([^"]*)"', path.read_text(errors="replace")))


def lost(folder):
    """The links of the pages of this repository, and of the promises, that lead to nothing in the folder. Those into the net are not looked at."""
    found = []
    for page in sorted(pathlib.Path(folder).rglob("*.html")):
        name = page.relative_to(folder)
        # What other tools wrote is theirs.
        if name.parts[0] == "api" and name.parts[1] != "rattle":
            continue
        for link in re.findall(r'\b(?:href|src)="([^"]*)"', page.read_text()):
            if not is_there(page, html.unescape(link)):
                found.append((str(name), link))
    return found


def is_there(page, link):
    if re.match(r"[a-z]+:", link):
        return True
    path, _, anchor = link.partition("#")
    at = page.parent / urllib.parse.unquote(path) if path else page
    return at.is_file() and (not anchor or urllib.parse.unquote(anchor) in anchors(at.resolve()))
