"""6. A race of your own functions, in Python.

Ann and Bob want one lock. Each looks whether it is there, and makes it if not. `explore` finds a run in which both win, cuts it down, and
`replay` makes it again. The repair makes the lock at once, as in step 2.

Install the package, or build the library with `embed/build` and say where it is:

    export PYTHONPATH=bindings/python/src ATOMFS_LIBRARY=dist/lib/libatomfs.so

This shows the race, runs the repair, and writes the journal of the race:

    python3 examples/tour/6_race.py > tour.journal

Draw it:

    examples/run draw < tour.journal > tour.svg
"""
import sys

try:
    import atomfs

    atomfs.library_version()
except (ImportError, OSError) as error:
    print(
        f"examples/tour/6_race.py: the package atomfs is missing ({error}): bindings/python/README.md says how to install it",
        file=sys.stderr,
    )
    sys.exit(2)


def look_first(tree):
    if tree.exists("/lock"):
        return "lost"
    tree.write_text("/lock", "")
    return "won"


def at_once(tree):
    try:
        tree.mkdir("/lock")
    except FileExistsError:
        return "lost"
    return "won"


def one_wins(tree, replies):
    return sorted(replies.values()) == ["lost", "won"]


def main():
    try:
        atomfs.explore({"ann": look_first, "bob": look_first}, one_wins)
    except atomfs.ScheduleError as race:
        for event in race.events:
            print(f"{event.thread}  {event.line.text:28}  {event}", file=sys.stderr)
        replies = " and ".join(f"{name} {reply}" for name, reply in race.replay().replies.items())
        print(f"seed {race.seed}: {replies}, {race.verdict}", file=sys.stderr)
        print(race.journal)
    seen = atomfs.explore({"ann": at_once, "bob": at_once}, one_wins, runs=1_000)
    print(seen.summary, file=sys.stderr)


if __name__ == "__main__":
    main()
