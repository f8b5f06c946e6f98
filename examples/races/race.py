"""Plays a race of this folder: what each program here does when it is run.

    python3 examples/races/lost_update.py                                      the race, cut down
    python3 examples/races/lost_update.py --repaired --runs 10000 --workers 4  the repair, which passes

Exit status: 0 no race was found; 1 one was; 2 a usage error, or the package atomfs is missing.

A race is a module with the functions THREADS, those of its repair REPAIRED, `before`, which prepares the tree, and `check`.
"""
import argparse
import concurrent.futures
import contextlib
import sys

try:
    import atomfs

    atomfs.library_version()
except (ImportError, OSError) as error:
    print(
        f"examples/races: the package atomfs is missing ({error}): bindings/python/README.md says how to install it",
        file=sys.stderr,
    )
    sys.exit(2)


def options(module):
    """How the functions of a race run: over `open` and `os`, or with the tree."""
    return {"before": module.before, "patch": getattr(module, "PATCH", True)}


def find(module, runs=1_000, seed=1, **more):
    """The error of the first run that fails, or none."""
    try:
        atomfs.explore(module.THREADS, module.check, runs, seed, **options(module), **more)
    except atomfs.ScheduleError as error:
        return error
    return None


def passes(module, runs=1_000, seed=1, **more):
    """So many runs of the repair, each of which passes."""
    return atomfs.explore(module.REPAIRED, module.check, runs, seed, **options(module), **more)


def workers(count):
    """What makes runs on so many cores: an executor of processes, or with one core none."""
    return concurrent.futures.ProcessPoolExecutor(count) if count > 1 else contextlib.nullcontext()


def main(name):
    """Plays the race of a module, by the words of the command line."""
    module = sys.modules[name]
    parser = argparse.ArgumentParser(description=module.__doc__, formatter_class=argparse.RawDescriptionHelpFormatter)
    parser.add_argument("--repaired", action="store_true", help="run the repair")
    parser.add_argument("--runs", type=int, default=1_000, help="how many runs at most (1,000)")
    parser.add_argument("--seed", type=int, default=1, help="the seed of the first run (1)")
    parser.add_argument("--workers", type=int, default=1, help="how many processes make the runs (1)")
    words = parser.parse_args()
    with workers(words.workers) as executor:
        if words.repaired:
            print(passes(module, words.runs, words.seed, executor=executor).summary)
            return 0
        error = find(module, words.runs, words.seed, executor=executor)
    print(error if error is not None else f"no race in {words.runs:,} runs")
    return int(error is not None)
