"""A file's bytes in memory, without a file descriptor that stays open."""
import ctypes
import errno
import io
import mmap
import os
import stat
from ctypes import c_int, c_long, c_size_t, c_void_p
from typing import List, Union

from ._library import Lent

MAP_FIXED = 0x10
_system = ctypes.CDLL(None, use_errno=True)
_system.mmap.argtypes, _system.mmap.restype = [c_void_p, c_size_t, c_int, c_int, c_int, c_long], c_void_p
# areas over which no file could be mapped
_lost: List[mmap.mmap] = []


def mapped(path: Union[str, "os.PathLike[str]"]) -> Lent:
    """The bytes of a regular file, mapped. They are unmapped when they go.

    Errors: OSError, also if the file is a folder, a pipe or a device."""
    _require_regular(os.stat(path), path)
    # it may have become a pipe by now, which to open would be to wait for a writer; no bytecode runs between the two calls, so
    # that no signal handler's exception can come where nobody has the descriptor
    with next(map(io.FileIO, map(os.open, [path], [os.O_RDONLY | os.O_NONBLOCK | os.O_CLOEXEC]))) as file:
        found = os.fstat(file.fileno())
        _require_regular(found, path)
        length = found.st_size
        return _lent(file.fileno(), length, path) if length else Lent(b"", os.fsdecode(path))


def _require_regular(found: os.stat_result, path: Union[str, "os.PathLike[str]"]) -> None:
    if not stat.S_ISREG(found.st_mode):
        raise OSError(errno.EISDIR if stat.S_ISDIR(found.st_mode) else errno.EINVAL, "not a regular file", os.fspath(path))


def _lent(file: int, length: int, path: Union[str, "os.PathLike[str]"]) -> Lent:
    """The file is mapped over an area of Python's `mmap`, which unmaps it: of a file that module keeps a descriptor."""
    area = mmap.mmap(-1, length, flags=mmap.MAP_PRIVATE | mmap.MAP_ANONYMOUS, prot=mmap.PROT_READ)
    lent = Lent(area, os.fsdecode(path))
    if _system.mmap(lent.address, length, mmap.PROT_READ, mmap.MAP_SHARED | MAP_FIXED, file, 0) != lent.address:
        fault = ctypes.get_errno()
        # the area may be unmapped by now, and its addresses be another's: it must not be unmapped later
        _lost.append(area)
        raise OSError(fault, os.strerror(fault), os.fspath(path))
    return lent
