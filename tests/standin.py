#!/usr/bin/env python3
"""Stands in for the command `rt` of the kit where a clone is looked at in which nothing is built (clean.py).

A program that `rt try` would compile unproved, which takes minutes, is here the proved one, with the two words more that unproved.py gives it. PROVED names
the proved one, COMPILED the file to which the name of each crate is written that is compiled so, and RT the real command, which has all else.
"""
import os
import pathlib
import subprocess
import sys

PROGRAM = """\
#!/usr/bin/env bash
if [ "${{1-}}" = --answer-each ]; then exec {python} {here} --answer-each; fi
exec -a atomfs {proved} "$@"
"""


def keep_in(folder: str) -> None:
    """Leaves what an unproved program would leave."""
    crate = pathlib.Path.cwd().name
    with open(os.environ["COMPILED"], "a") as compiled:
        compiled.write(f"{crate}\n")
    program = pathlib.Path(folder, "program")
    program.write_text(
        PROGRAM.format(python=sys.executable, here=os.path.realpath(__file__), proved=os.environ["PROVED"])
    )
    pathlib.Path(folder, "program.words").write_text(f"{program}\0--keep-in\0{folder}\0")


def answer_each() -> None:
    """Answers the requests on standard input as unproved.py has them."""
    with open(sys.stdin.buffer.readline().decode().strip(), "wb") as answers:
        while line := sys.stdin.buffer.readline():
            size, *words = line[:-1].decode().split("\t")
            given = sys.stdin.buffer.read(int(size))
            done = subprocess.run(("atomfs", *words), executable=os.environ["PROVED"], input=given, capture_output=True)
            answers.write(
                b"%d %d %d\n" % (done.returncode, len(done.stdout), len(done.stderr)) + done.stdout + done.stderr
            )


def main(words: list[str]) -> None:
    if words == ["--answer-each"]:
        answer_each()
    elif words[0] == "try" and words[-2] == "--keep-in":
        keep_in(words[-1])
    else:
        os.execv(os.environ["RT"], ("rt", *words))


main(sys.argv[1:])
