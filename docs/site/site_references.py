"""The references of each language, by the tools of each."""
import os
import pathlib
import shutil
import subprocess
import sys
import tempfile

ROOT = pathlib.Path(__file__).resolve().parent.parent.parent
DOXYGEN = """\
PROJECT_NAME = "AtomFS for C and C++"
INPUT = {root}/embed/atomfs.h
OUTPUT_DIRECTORY = {folder}
STRIP_FROM_PATH = {root}/embed
GENERATE_LATEX = NO
OPTIMIZE_OUTPUT_FOR_C = YES
JAVADOC_AUTOBRIEF = YES
EXTRACT_ALL = YES
HAVE_DOT = NO
SEARCHENGINE = NO
QUIET = YES
WARNINGS = NO
"""
MODULES = "atomfs", "atomfs.patch", "atomfs.fs", "atomfs.fsspec", "atomfs.strategies", "atomfs.pytest_plugin"
MOST_SECONDS = 600


class Missing(Exception):
    """A tool that a reference needs is not there, or has failed."""


def ran(words, **more):
    """A command that is to end with status 0."""
    try:
        done = subprocess.run(words, capture_output=True, text=True, errors="replace", timeout=MOST_SECONDS, **more)
    except FileNotFoundError:
        raise Missing(f"{words[0]} is not there") from None
    if done.returncode:
        raise Missing(f"{words[0]} failed: {(done.stderr or done.stdout).strip()[-500:]}")


def rattle(folder):
    ran([sys.executable, "-B", str(ROOT / "tests" / "promises"), "--html", str(folder)])
    return "index.html"


def c(folder):
    with tempfile.TemporaryDirectory(prefix="atomfs-") as work:
        settings = pathlib.Path(work, "Doxyfile")
        settings.write_text(DOXYGEN.format(root=ROOT, folder=work))
        ran(["doxygen", str(settings)])
        shutil.copytree(pathlib.Path(work, "html"), folder, dirs_exist_ok=True)
    return "atomfs_8h.html"


def rust(folder):
    with tempfile.TemporaryDirectory(prefix="atomfs-") as work:
        words = ["cargo", "doc", "--offline", "--no-deps", "--quiet", "--target-dir", work]
        ran(words, cwd=ROOT / "bindings" / "rust", env=os.environ | {"DOCS_RS": "1"})
        shutil.copytree(pathlib.Path(work, "doc"), folder, dirs_exist_ok=True)
    return "atomfs/index.html"


def library():
    """The library that Python's package loads."""
    path = pathlib.Path(os.environ.get("ATOMFS_LIBRARY", ROOT / "dist" / "lib" / "libatomfs.so"))
    if not path.is_file():
        raise Missing(f"{path.name} is not there: embed/build makes it, or ATOMFS_LIBRARY names it")
    return str(path.resolve())


def python(folder):
    variables = os.environ | {"ATOMFS_LIBRARY": library(), "PYTHONPATH": str(ROOT / "bindings" / "python" / "src")}
    with tempfile.TemporaryDirectory(prefix="atomfs-") as work:
        source = pathlib.Path(work, "source")
        source.mkdir()
        shutil.copy(pathlib.Path(__file__).parent / "conf.py", source)
        names = "".join(f"   {name}\n" for name in MODULES)
        (source / "index.rst").write_text(f"AtomFS for Python\n=================\n\n.. toctree::\n\n{names}")
        for name in MODULES:
            options = ":members:\n   :undoc-members:\n" + ("   :imported-members:\n" if name == "atomfs" else "")
            (source / f"{name}.rst").write_text(f"{name}\n{'=' * len(name)}\n\n.. automodule:: {name}\n   {options}")
        ran(
            [sys.executable, "-B", "-m", "sphinx", "-q", "-b", "html", str(source), str(pathlib.Path(work, "made"))],
            env=variables,
        )
        shutil.copytree(pathlib.Path(work, "made"), folder, dirs_exist_ok=True, ignore=shutil.ignore_patterns(".*"))
    return "index.html"


PLAYED = {
    "A rename helps": "docs/pictures/rename_helps.script",
    "An exchange helps": "docs/pictures/both_sides.script",
    "A reply that no order explains": "docs/pictures/memoryfs.journal",
}
PLAYS = "import sys, atomfs; atomfs.draw(open(sys.argv[1]).read(), html=True).save(sys.argv[2])"


def players(folder):
    """Pages that play runs, each with its title; and why they are left out, if they are."""
    made = {}
    try:
        variables = os.environ | {"ATOMFS_LIBRARY": library(), "PYTHONPATH": str(ROOT / "bindings" / "python" / "src")}
        folder.mkdir(parents=True, exist_ok=True)
        for title, text in PLAYED.items():
            name = f"{pathlib.Path(text).stem}.html"
            ran([sys.executable, "-B", "-c", PLAYS, str(ROOT / text), str(folder / name)], env=variables)
            made[title] = f"api/players/{name}"
    except Missing as missing:
        return {}, [("pages that play runs", str(missing))]
    return made, []


KINDS = {"rattle": ("Rattle", rattle), "c": ("C and C++", c), "rust": ("Rust", rust), "python": ("Python", python)}


def made(folder, promises_only):
    """The references that are made in a folder, each a language with its first page, and those that are left out, with why."""
    found, left_out = {}, []
    for name, (language, make) in KINDS.items():
        if promises_only and name != "rattle":
            continue
        shutil.rmtree(folder / name, ignore_errors=True)
        (folder / name).mkdir(parents=True)
        try:
            found[language] = f"api/{name}/{make(folder / name)}"
        except Missing as missing:
            shutil.rmtree(folder / name)
            left_out.append((f"the reference of {language}", str(missing)))
    return found, left_out
