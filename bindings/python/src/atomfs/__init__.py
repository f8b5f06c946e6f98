"""AtomFS: a file tree in memory, in which every call is proved to be atomic.

    import atomfs

    with atomfs.Tree() as tree:
        tree.mkdir("/a")
        tree.mknod("/a/f")
        tree.write("/a/f", 0, b"hello")
        print(tree.read("/a/f"), tree.check())

`atomfs.patch` lets `open`, `os` and what is made of them go to a tree below a directory. `atomfs.explore` runs your functions in
interleavings that a seed draws, and `atomfs.draw` makes a picture of a run. `atomfs.History` records the calls of any other tree, and
judges them. `atomfs.fs` is the same as a file system of PyFilesystem2, `atomfs.fsspec` as one of fsspec.
"""
from ._calls import binding
from ._errors import ClosedError, Error, UnderWayError, WaitsError
from ._explore import (
    PCT,
    BudgetError,
    DeadlockError,
    Event,
    Line,
    PatienceError,
    RunError,
    Schedule,
    ScheduleError,
    Seen,
    ThreadError,
    explore,
    simulate,
    turn,
)
from ._explore.outcomes import Outcome, Outcomes, outcomes
from ._header import VERSION as _VERSION
from ._history import Answer, History
from ._journal import ALL, LAST, NONE, Journal
from ._library import NODE_LIMIT, PATH_LIMIT, Did, Limits, Status
from ._library import library as _shared_object
from ._linearize import Lawful, Linearized, NoHistory, NoOrder, Unknown, front, linearize
from ._load import Snapshot, diff
from ._orders import draw_history
from ._page import Page
from ._patch import patch
from ._path import Path
from ._texts import check, run
from ._tools import Picture, SeedVerdict, draw, explain, schedule, seeds, trace
from ._tree import Begin, Seat, Stat, Step, Tree

__version__ = _VERSION

# The names by which errors are shown.
for _error in (ScheduleError, RunError, DeadlockError, BudgetError, PatienceError, ThreadError):
    _error.__module__ = __name__


def library_version() -> str:
    """The version of the shared object.

    Raises `OSError` if it is not there, or can't be loaded.
    """
    return _shared_object().version()


__all__ = [
    "ALL",
    "Answer",
    "Begin",
    "BudgetError",
    "ClosedError",
    "DeadlockError",
    "Did",
    "Error",
    "Event",
    "History",
    "Journal",
    "LAST",
    "Lawful",
    "Limits",
    "Line",
    "Linearized",
    "NODE_LIMIT",
    "NONE",
    "NoHistory",
    "NoOrder",
    "Outcome",
    "Outcomes",
    "PATH_LIMIT",
    "PCT",
    "Page",
    "Path",
    "PatienceError",
    "Picture",
    "RunError",
    "Schedule",
    "ScheduleError",
    "Seat",
    "SeedVerdict",
    "Seen",
    "Snapshot",
    "Stat",
    "Status",
    "Step",
    "ThreadError",
    "Tree",
    "UnderWayError",
    "Unknown",
    "WaitsError",
    "binding",
    "check",
    "diff",
    "draw",
    "draw_history",
    "explain",
    "explore",
    "front",
    "library_version",
    "linearize",
    "outcomes",
    "patch",
    "run",
    "schedule",
    "seeds",
    "simulate",
    "trace",
    "turn",
]
