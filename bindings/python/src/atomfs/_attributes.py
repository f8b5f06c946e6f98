"""The functions of `os` over what is kept beside a tree that is neither a permission, an owner nor a time: attributes, limits, locks."""
from __future__ import annotations

import errno
import fcntl
import os
from typing import TYPE_CHECKING, Any, Callable, Dict, List, Union

from ._descriptors import Description, Descriptors, failed, together
from ._locks import CHANGING, GETS, SETS, Locks
from ._metadata import BLOCK, Inode, Metadata
from ._places import Place

if TYPE_CHECKING:
    from ._tree import Tree

Name = Union[str, bytes]
# What `os.setxattr` asks for, and how long a name and a value may be on Linux.
_NEW, _OLD = getattr(os, "XATTR_CREATE", 1), getattr(os, "XATTR_REPLACE", 2)
_NAME, _VALUE = 255, 65_536
_SPACES = "user.", "trusted.", "security."


class Attributes:
    """These functions; the rest of the door is `Sandbox`."""

    tree: Tree
    _files: Descriptors
    _real: Dict[str, Callable[..., Any]]
    _metadata: Callable[[], Metadata]
    _locks: Locks

    def inode(self, place: Place) -> Inode:
        raise NotImplementedError

    # ---- Extended attributes

    @together
    def getxattr(self, place: Place, attribute: Name, **named: Any) -> bytes:
        return self._value(self.inode(place), attribute)

    @together
    def fgetxattr(self, fd: int, attribute: Name, **named: Any) -> bytes:
        return self._value(self._files.of(fd).node.inode, attribute)

    @together
    def setxattr(self, place: Place, attribute: Name, value: Any, flags: int = 0, **named: Any) -> None:
        self._set(self.inode(place), attribute, value, flags)

    @together
    def fsetxattr(self, fd: int, attribute: Name, value: Any, flags: int = 0, **named: Any) -> None:
        self._set(self._files.of(fd).node.inode, attribute, value, flags)

    @together
    def listxattr(self, place: Place, **named: Any) -> List[str]:
        return list(self.inode(place).attributes or ())

    @together
    def flistxattr(self, fd: int, **named: Any) -> List[str]:
        return list(self._files.of(fd).node.inode.attributes or ())

    @together
    def removexattr(self, place: Place, attribute: Name, **named: Any) -> None:
        self._remove(self.inode(place), attribute)

    @together
    def fremovexattr(self, fd: int, attribute: Name, **named: Any) -> None:
        self._remove(self._files.of(fd).node.inode, attribute)

    @staticmethod
    def _name(attribute: Name) -> str:
        name = os.fsdecode(attribute)
        if not name or len(os.fsencode(name)) > _NAME:
            failed(errno.ERANGE)
        if not name.startswith(_SPACES):
            failed(errno.ENOTSUP)
        return name

    def _value(self, inode: Inode, attribute: Name) -> bytes:
        value = (inode.attributes or {}).get(self._name(attribute))
        return value if value is not None else failed(errno.ENODATA)

    def _set(self, inode: Inode, attribute: Name, value: Any, flags: int) -> None:
        name, data = self._name(attribute), memoryview(value).tobytes()
        if inode.target is not None and name.startswith("user."):
            failed(errno.EPERM)
        there = name in (inode.attributes or {})
        if flags & _NEW and there:
            failed(errno.EEXIST)
        if flags & _OLD and not there:
            failed(errno.ENODATA)
        if len(data) > _VALUE:
            failed(errno.E2BIG)
        inode.attributes = {**(inode.attributes or {}), name: data}
        inode.changed = self._metadata().clock()

    def _remove(self, inode: Inode, attribute: Name) -> None:
        self._value(inode, attribute)
        name = self._name(attribute)
        inode.attributes = {one: value for one, value in (inode.attributes or {}).items() if one != name}
        inode.changed = self._metadata().clock()

    # ---- Limits

    @together
    def statvfs(self, place: Place) -> os.statvfs_result:
        self.inode(place)
        return self._limits()

    @together
    def fstatvfs(self, fd: int) -> os.statvfs_result:
        self._files.of(fd)
        return self._limits()

    def _limits(self) -> os.statvfs_result:
        """What a tree may have: so many nodes, each of so many bytes."""
        nodes, free = self.tree.limit, self.tree.limit - len(self.tree)
        blocks = -(-self.tree.limits.file_bytes // BLOCK)
        words = (BLOCK, BLOCK, nodes * blocks, free * blocks, free * blocks, nodes, free, free, 0)
        return os.statvfs_result((*words, self.tree.limits.name_bytes, 0))

    def pathconf(self, place: Place, name: Any) -> int:
        self.inode(place)
        return self._limit_of(name)

    def fpathconf(self, fd: int, name: Any) -> int:
        self._files.of(fd)
        return self._limit_of(name)

    def _limit_of(self, name: Any) -> int:
        names = os.pathconf_names
        number = names.get(name) if isinstance(name, str) else name
        own = {names["PC_NAME_MAX"]: self.tree.limits.name_bytes, names["PC_LINK_MAX"]: 1}
        # Of the rest, what Linux says of the root.
        found: int = own[number] if number in own else self._real["os.pathconf"]("/", name)
        return found

    # ---- Locks, and what else `fcntl` asks

    def _description(self, file: Any) -> Description:
        return self._files.of(file if isinstance(file, int) else file.fileno())

    def flock(self, fd: Any, operation: int) -> None:
        self._locks.flock(self._description(fd), operation)

    def lockf(self, fd: Any, cmd: int, len: int = 0, start: int = 0, whence: int = 0) -> None:
        """`fcntl.lockf`."""
        kind = cmd & ~fcntl.LOCK_NB
        if kind not in (fcntl.LOCK_SH, fcntl.LOCK_EX, fcntl.LOCK_UN):
            raise ValueError("unrecognized lockf argument")
        description = self._description(fd)
        if kind != fcntl.LOCK_UN:
            self._locks.check(description, kind == fcntl.LOCK_EX)

    def lock_section(self, fd: int, command: int, length: int) -> None:
        """`os.lockf`."""
        description = self._description(fd)
        if command not in (os.F_LOCK, os.F_TLOCK, os.F_ULOCK, os.F_TEST):
            failed(errno.EINVAL)
        if command in (os.F_LOCK, os.F_TLOCK):
            self._locks.check(description, True)

    def fcntl(self, fd: Any, cmd: int, arg: Any = 0) -> Any:
        number = fd if isinstance(fd, int) else fd.fileno()
        description = self._files.of(number)
        if cmd in SETS:
            return arg
        if cmd in GETS:
            return (fcntl.F_UNLCK).to_bytes(2, "little") + bytes(arg)[2:]
        if cmd == fcntl.F_GETFL:
            return description.flags & ~(os.O_CREAT | os.O_EXCL | os.O_TRUNC | os.O_CLOEXEC)
        if cmd == fcntl.F_SETFL:
            description.flags = description.flags & ~CHANGING | arg & CHANGING
            description.appends = bool(arg & os.O_APPEND)
            return 0
        if cmd in (fcntl.F_GETFD, fcntl.F_SETFD):
            return self._real["fcntl.fcntl"](number, cmd, arg)
        if cmd in (fcntl.F_DUPFD, fcntl.F_DUPFD_CLOEXEC):
            return self._files.put(self._real["fcntl.fcntl"](number, cmd, arg), description)
        return failed(errno.EINVAL)

    def ioctl(self, fd: Any, *given: Any) -> Any:
        """A file answers none."""
        self._description(fd)
        failed(errno.ENOTTY)

    def ttyname(self, fd: int) -> str:
        self._files.of(fd)
        return failed(errno.ENOTTY)
