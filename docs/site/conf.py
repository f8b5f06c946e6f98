"""How Sphinx makes the reference of the package for Python."""
import re

project = "AtomFS for Python"
extensions = ["sphinx.ext.autodoc"]
autodoc_member_order = "bysource"
autodoc_typehints = "signature"
html_theme = "basic"
html_copy_source = False
html_show_sourcelink = False


def setup(app):
    app.connect("autodoc-process-docstring", as_text)


def as_text(app, what, name, thing, options, lines):
    """Doc lines are plain text: what is in backquotes is code, and so is what is indented after an empty line."""
    made, is_code = [], False
    for line in lines:
        if line.startswith("    ") and not is_code and made and not made[-1].strip():
            made += ["::", ""]
            is_code = True
        elif line.strip() and not line.startswith("    "):
            is_code = False
        made.append(line if is_code else re.sub(r"`([^`]+)`", r"``\1``", line))
    lines[:] = made
