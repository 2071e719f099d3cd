"""The C library: its calls, its statuses and what lends it memory. szg.h documents each call."""
import ctypes
import os
from ctypes import (
    POINTER, byref, c_bool, c_char, c_char_p, c_int, c_int8, c_int64, c_size_t, c_uint8, c_uint16, c_uint32, c_uint64, c_void_p,
    py_object,
)
from functools import lru_cache
from pathlib import Path
from typing import Any, Callable, List, NoReturn, Optional, Tuple

from ._errors import BadBlock, Changed, Refused, Untold
from ._version import __version__

# enum szg_status. MAN to OUTSIDE_MAP, EN_PASSANT, IN_CHECK and CONTRADICTION say why tables have no entry.
DONE, NAME, REFUSED, MEMORY, RANGE, CLOSED, MAN, MEN = range(8)
OUTSIDE_MAP, CHANGED, BAD_BLOCK, EN_PASSANT, IN_CHECK, MISSING, CONTRADICTION = range(16, 23)
# those with which a result names the table that it lacks: the men have no index in it, or it has no class
OTHER_MATERIAL, WRONG_SIDE, NO_CLASS = 10, 13, 14
MAX_MEN, MAX_MOVES = 6, 128
NO_RESULT = 127
TEXT_SIZE = 32


class Answer(ctypes.Structure):
    _fields_ = [("place", c_uint64), ("reason", c_uint32)]


class Handle(ctypes.Structure):
    """A szg_front. It is closed when it goes."""

    _fields_ = [("held", c_void_p)]


class TablebaseHandle(ctypes.Structure):
    """A szg_tablebase. It is closed when it goes, and then the bytes of its tables' files are given back."""

    _fields_ = [("held", c_void_p)]
    lent: "Tuple[Lent, ...]" = ()


class NamedBlock(ctypes.Structure):
    _fields_ = [("block", c_uint32), ("offset", c_uint64)]


class FoundSpot(ctypes.Structure):
    _fields_ = [("part", c_uint8), ("side", c_uint8), ("index", c_uint64)]


class MissingTable(ctypes.Structure):
    _fields_ = [("name", c_char * 8), ("dtz", c_bool), ("block", c_uint32), ("offset", c_uint64)]


class Distance(ctypes.Structure):
    _fields_ = [("wdl", c_int8), ("dtz", c_int64)]


class FoundMove(ctypes.Structure):
    _fields_ = [("start", c_uint8), ("end", c_uint8), ("promotion", c_uint8), ("wdl", c_int8), ("dtz", c_int64),
                ("zeroing", c_bool), ("mate", c_bool), ("stalemate", c_bool)]


def _signatures() -> "dict[str, list[Any]]":
    handle, tablebase, subtable = POINTER(Handle), POINTER(TablebaseHandle), [c_uint8, c_uint8]
    file = [c_char_p, c_size_t, c_bool, c_void_p, c_size_t]
    # men, as Position.men
    placement = [c_char_p, c_size_t, c_uint8]
    text = [c_char_p, c_size_t]
    return {
        "szg_version": text,
        "szg_status_text": [c_uint32, *text],
        "szg_reason_text": [c_uint32, *text],
        "szg_check": [*file, POINTER(Answer)],
        "szg_values": [*file, *subtable, POINTER(c_uint16), c_size_t, POINTER(Answer)],
        "szg_open_front": [*file, handle, POINTER(Answer)],
        "szg_share_front": [handle, handle],
        "szg_front_size": [handle, *subtable, POINTER(c_uint64)],
        "szg_front_get": [handle, c_void_p, c_size_t, *subtable, c_uint64, POINTER(c_uint16), POINTER(NamedBlock)],
        "szg_front_index": [handle, *placement, POINTER(FoundSpot)],
        "szg_front_placement": [handle, *subtable, c_uint64, c_char_p, c_size_t, POINTER(c_size_t), POINTER(c_uint8)],
        "szg_front_probe": [handle, c_void_p, c_size_t, *placement, c_int8, POINTER(c_int64), POINTER(NamedBlock)],
        "szg_front_number": [handle, c_uint8, c_int8, c_uint16, POINTER(c_uint32)],
        "szg_close_front": [handle],
        "szg_tablebase_add": [tablebase, *file, POINTER(Answer)],
        "szg_share_tablebase": [tablebase, tablebase],
        "szg_tablebase_wdl": [tablebase, *placement, c_uint8, POINTER(c_int8), POINTER(MissingTable)],
        "szg_tablebase_wdl_of_fens": [tablebase, *text, POINTER(c_int8), c_size_t],
        "szg_tablebase_dtz": [tablebase, *placement, c_uint8, c_uint32, POINTER(Distance), POINTER(MissingTable)],
        "szg_tablebase_moves": [
            tablebase, *placement, c_uint8, c_uint32, POINTER(FoundMove), c_size_t, POINTER(c_size_t), POINTER(MissingTable)],
        "szg_close_tablebase": [tablebase],
    }


# Short calls, which keep the interpreter's lock: meanwhile no other thread calls with the same handle, and none forks.
LOCKED = ("szg_share_tablebase", "szg_tablebase_wdl", "szg_tablebase_wdl_of_fens", "szg_tablebase_dtz", "szg_tablebase_moves")


def _load() -> ctypes.CDLL:
    """The library of SZG_LIBRARY if it is set, else the one beside this file, else the system's.

    Errors: OSError if it cannot be loaded; ImportError if it lacks a call."""
    beside = Path(__file__).resolve().parent / "libszg.so"
    library = ctypes.CDLL(os.environ.get("SZG_LIBRARY") or (str(beside) if beside.exists() else f"libszg.so.{__version__.split('.')[0]}"))
    locked = ctypes.PyDLL(library._name)
    for name, arguments in _signatures().items():
        try:
            call = getattr(locked if name in LOCKED else library, name)
        except AttributeError:
            raise ImportError(f"{library._name} has no {name}: szg {__version__} needs another library") from None
        setattr(library, name, call)
        call.argtypes, call.restype = arguments, c_uint32
        if name.startswith("szg_close"):
            call.restype = None
        if name == "szg_version" or name.endswith("_text"):
            call.restype = c_size_t
    return library


def _finalizer(call: Callable[..., Any]) -> Any:
    """A function of C as `__del__`: no bytecode runs, so that no signal handler can come between and raise an exception.

    Of the callables that are written in C, a cache's wrapper binds its first argument. This one keeps nothing."""
    return lru_cache(maxsize=0)(call)


library = _load()
Handle.__del__ = _finalizer(library.szg_close_front)  # type: ignore[attr-defined]
TablebaseHandle.__del__ = _finalizer(library.szg_close_tablebase)  # type: ignore[attr-defined]


def _text(call: Callable[..., int], *words: int) -> str:
    """The text that a call of the library writes for these numbers."""
    text = ctypes.create_string_buffer(TEXT_SIZE)
    length = call(*words, text, len(text))
    if length >= len(text):
        text = ctypes.create_string_buffer(length + 1)
        call(*words, text, len(text))
    return text.value.decode("ascii")


def status_text(status: int) -> str:
    """The name of a status, such as OtherMaterial; empty for a number that is no status."""
    return _text(library.szg_status_text, status)


def reason_text(reason: int) -> str:
    """The name of a reason, such as Truncated; empty for a number that is no reason."""
    return _text(library.szg_reason_text, reason)


def require_version(found: str) -> str:
    """Returns the library's version. Errors: ImportError if this package needs another: major and minor number are its own."""
    if found.split(".")[:2] != __version__.split(".")[:2]:
        raise ImportError(f"{library._name} has the version {found}, and szg {__version__} needs its own")
    return found


version = require_version(_text(library.szg_version))


class _PyBuffer(ctypes.Structure):
    """Python's Py_buffer. What it holds is given back when it goes."""

    _fields_ = [
        ("buf", c_void_p), ("obj", py_object), ("len", ctypes.c_ssize_t), ("itemsize", ctypes.c_ssize_t),
        ("readonly", c_int), ("ndim", c_int), ("format", c_char_p), ("shape", c_void_p),
        ("strides", c_void_p), ("suboffsets", c_void_p), ("internal", c_void_p),
    ]


# a handle of our own: other packages may give ctypes.pythonapi's functions other argument types
_python = ctypes.PyDLL(None)
_python.PyObject_GetBuffer.argtypes = [py_object, POINTER(_PyBuffer), c_int]
_python.PyBuffer_Release.argtypes, _python.PyBuffer_Release.restype = [POINTER(_PyBuffer)], None
_PyBuffer.__del__ = _finalizer(_python.PyBuffer_Release)  # type: ignore[attr-defined]


class Lent:
    """The memory of a bytes-like object, lent to the library without a copy until this object goes.

    `path` is that of the file that is mapped there. Errors: TypeError if it is not bytes-like or not contiguous."""

    address: int
    length: int

    def __init__(self, data: Any, path: Optional[str] = None) -> None:
        self.path = path
        self._view = _PyBuffer()
        try:
            _python.PyObject_GetBuffer(data, self._view, 0)
        except (TypeError, BufferError, ValueError):
            # ValueError: numpy's, for an array that is not contiguous
            raise TypeError(f"data must be a contiguous bytes-like object, not {type(data).__name__}") from None
        # a pointer to no bytes is still one
        self._none = ctypes.create_string_buffer(1)
        self.length = int(self._view.len)
        self.address = int(self._view.buf or ctypes.addressof(self._none))


def judge(status: int) -> None:
    """Raises what a status means; nothing for DONE."""
    if status != DONE:
        _raise(status)


def _raise(status: int) -> NoReturn:
    if MAN <= status <= OUTSIDE_MAP or status in (EN_PASSANT, IN_CHECK, CONTRADICTION):
        raise Untold(status_text(status))
    if status == RANGE:
        raise IndexError("the table has no such part, side or index")
    if status == CLOSED:
        raise ValueError("the table is closed")
    if status == CHANGED:
        raise Changed("the table's file was changed")
    if status == MEMORY:
        raise MemoryError("no memory for the table")
    raise RuntimeError(f"the library returned the status {status}")


def ask_file(call: Callable[..., int], name: str, kind: str, lent: Lent, *words: Any) -> int:
    """Makes a call on a file's bytes, with these arguments after them. Returns the number that it answers with.

    Errors: Refused; ValueError for a name; those of `judge`."""
    text, answer = name.encode(errors="replace"), Answer()
    status = call(text, len(text), kind == "dtz", lent.address, lent.length, *words, byref(answer))
    if status == REFUSED:
        raise Refused(answer.place, reason_text(answer.reason), lent.path)
    if status == NAME:
        raise ValueError(f"{name!r} is no material's name")
    judge(status)
    return int(answer.place)


class Handles:
    """A table of this name and kind, in bytes that are lent, opened by its front; and handles on this front.

    A handle serves one call at a time, so each call takes one that is idle: there are as many as calls at once, and one that
    is shared only. No call waits for another one, which may be what a signal handler or a destructor has interrupted, or
    have been left in the process that was forked. What a call takes is popped from a list at once, and a handle that an
    exception takes from it is closed.
    """

    def __init__(self, name: str, kind: str, lent: Lent) -> None:
        self._name, self._kind = name, kind
        self._lent: Optional[Lent] = lent
        self._idle: List[Handle] = []
        self._first = [self._opened()]

    def lent(self) -> Lent:
        """The bytes. Errors: ValueError after `close`."""
        lent = self._lent
        if lent is None:
            _raise(CLOSED)
        return lent

    def is_closed(self) -> bool:
        return self._lent is None

    def ask(self, call: Callable[..., int], *words: Any) -> int:
        """Makes a call on the whole file: see `ask_file`."""
        return ask_file(call, self._name, self._kind, self.lent(), *words)

    def __call__(self, call: Callable[..., int], *words: Any) -> None:
        """Calls the library with an idle handle and these arguments. Errors: those of the status."""
        judge(self._status(call, *words))

    def fetch(self, call: Callable[..., int], *words: Any) -> None:
        """The same for a call that fetches a value out of the bytes. Errors: BadBlock too."""
        lent, bad = self.lent(), NamedBlock()
        status = self._status(call, lent.address, lent.length, *words, byref(bad))
        if status == BAD_BLOCK:
            raise BadBlock(bad.block, bad.offset, lent.path)
        judge(status)

    def _status(self, call: Callable[..., int], *words: Any) -> int:
        try:
            handle = self._idle.pop()
        except IndexError:
            handle = self._made()
        status = call(handle, *words)
        self._put(self._idle, handle)
        return status

    def _opened(self) -> Handle:
        opened = Handle()
        self.ask(library.szg_open_front, opened)
        return opened

    def _made(self) -> Handle:
        """A new handle, shared with the first one; if that is being shared already, the front is opened once more."""
        try:
            first = self._first.pop()
        except IndexError:
            return self._opened()
        made = Handle()
        status = library.szg_share_front(first, made)
        self._put(self._first, first)
        judge(status)
        return made

    def _put(self, handles: List[Handle], handle: Handle) -> None:
        handles.append(handle)
        if self.is_closed():
            handles.clear()

    def close(self) -> None:
        """Closes all handles, and gives the bytes back: after the calls that run."""
        self._lent = None
        self._idle.clear()
        self._first.clear()
