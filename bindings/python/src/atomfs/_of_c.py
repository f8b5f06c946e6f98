"""What opens or writes files in C by itself, while a tree stands at a directory of the disk: it is refused there, or led around."""
from __future__ import annotations

import functools
import os
import re
import sys
from typing import Any, Callable, Dict
from urllib.parse import unquote

from . import _table
from ._descriptors import Descriptors
from ._processes import Processes, number_of
from ._sandbox import Sandbox

Function = Callable[..., Any]


class OfC:
    """The functions that come in the place of those; the rest of a patch is `patch`."""

    _active: bool
    _files: Descriptors
    _processes: Processes
    _real: Dict[str, Function]
    _sandbox: Sandbox

    def _opened_by_c(self, name: str, real: Function) -> Function:
        """What opens a file by itself, whose path is to be of the disk."""

        def function(filename: Any, *given: Any, **named: Any) -> Any:
            if self._processes.inside(filename):
                raise _table.refusal(name, filename)
            return real(filename, *given, **named)

        return function

    def _traced(self, real: Function) -> Function:
        """`faulthandler.dump_traceback`, which writes in C: into a scratch file first."""

        def function(file: Any = None, all_threads: bool = True) -> None:
            number = None if file is None else number_of(file)
            if number is None or number not in self._files:
                return real(sys.stderr if file is None else file, all_threads)  # type: ignore[no-any-return]
            scratch = os.memfd_create("atomfs")
            try:
                real(scratch, all_threads)
                text = self._real["os.pread"](scratch, self._real["os.fstat"](scratch).st_size, 0)
            finally:
                self._real["os.close"](scratch)
            self._sandbox.write(number, text)

        return function

    def _traced_by_c(self, name: str, real: Function) -> Function:
        """What lets C write at a moment at which no Python runs."""
        place = 1 if name.endswith("register") else 0

        def function(*given: Any, **named: Any) -> Any:
            file = given[place] if len(given) > place else named.get("file")
            if number_of(file) in self._files:
                raise _table.refusal(name)
            return real(*given, **named)

        return function

    def _database(self, real: Function) -> Function:
        """`dbm.open`: a new database of the tree is of the kind that is written in Python."""

        def function(file: Any, flag: str = "r", mode: int = 0o666) -> Any:
            import dbm.dumb

            new = flag[:1] == "n" or (flag[:1] == "c" and dbm.whichdb(file) is None)
            if new and self._processes.inside(file):
                return dbm.dumb.open(file, flag, mode)
            return real(file, flag, mode)

        return function

    def _check_address(self, name: str, real: Function) -> Function:
        """A method of sockets, whose address is no path of the tree."""

        def function(one: Any, address: Any, *given: Any) -> Any:
            unix = isinstance(address, (str, bytes, bytearray)) and bytes(os.fsencode(address))[:1] not in (b"", b"\0")
            if self._active and unix and self._processes.inside(bytes(os.fsencode(address))):
                raise _table.refusal(f"socket.socket.{name}", address)
            return real(one, address, *given)

        return functools.wraps(real)(function)

    def _check_connection(self, database: Any) -> None:
        text = os.fsdecode(database) if isinstance(database, (str, bytes, os.PathLike)) else ""
        if text.startswith("file:"):
            text = unquote(re.split("[?#]", text[5:])[0])
            text = re.sub("^//(localhost)?/", "/", text)
        if text != ":memory:" and self._processes.inside(text):
            raise _table.refusal("sqlite3.connect", database)

    def _connect(self, real: Function) -> Function:
        def function(*given: Any, **named: Any) -> Any:
            self._check_connection(given[0] if given else named.get("database"))
            return real(*given, **named)

        return function
