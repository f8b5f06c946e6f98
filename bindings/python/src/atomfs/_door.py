"""The functions that come in the place of those of the disk. The extension makes them in C: then they decide the usual cases themselves."""
from __future__ import annotations

import functools
from typing import TYPE_CHECKING, Any, Callable, Optional

from ._calls import extension
from ._descriptors import Descriptors
from ._places import Place, Places

if TYPE_CHECKING:
    from ._patch import patch

Function = Callable[..., Any]
# What a function takes of which the extension looks where it leads.
_KINDS = "other", "path", "paths", "descriptor", "open"


class Replaced:
    """A function in the place of one of C: as that it is bound to no instance where a class has it."""

    def __init__(self, patch: patch, made: Function, real: Function) -> None:
        functools.update_wrapper(self, real)
        self._patch, self._made, self._real = patch, made, real

    def __repr__(self) -> str:
        return repr(self._real)

    def __call__(self, *given: Any, **named: Any) -> Any:
        return (self._made if self._patch._active else self._real)(*given, **named)

    def __reduce__(self) -> str:
        # A copy is the same, and a pickle names it, as of any function.
        name: str = self.__qualname__  # type: ignore[attr-defined]
        return name


class Door:
    """What all functions of a patch have in common."""

    def __init__(self, patch: patch, files: Descriptors, places: Places) -> None:
        self._patch = patch
        self._of_c: Any = None
        if extension is not None:
            # By an overlay no path is plain before what is on its way has come from the disk.
            roots = tuple(places._roots) if places.overlay is None else ()
            where = roots, places._name, places._shadows
            self._of_c = extension.Door(patch, files, places, Place, *where)

    def function(
        self, kind: str, made: Function, real: Function, inside: Optional[Function] = None, pathless: bool = False
    ) -> Any:
        """What comes in the place of `real`. `made` is for whatever is given. What is of the disk for certain may go to `real` at once,
        and what is plainly of the tree to `inside`, whose errors name the paths that were given, or none where it is `pathless`.
        """
        if self._of_c is None:
            return Replaced(self._patch, made, real)
        of_c = extension.Function(self._of_c, _KINDS.index(kind), made, real, inside or made, pathless)
        return functools.update_wrapper(of_c, real)
