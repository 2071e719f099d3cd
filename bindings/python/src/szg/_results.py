"""Results of positions over files of tables: only this file knows which calls of the C library give them."""
from ctypes import byref, c_int8, c_size_t
from functools import partial
from typing import Any, Callable, List, Mapping, NamedTuple, NoReturn, Optional, Sequence, Tuple

from ._errors import BadBlock, Changed, MissingTableError, Untold
from ._library import (
    BAD_BLOCK, CHANGED, DONE, MAX_MOVES, MEN, MISSING, NO_CLASS, NO_RESULT, OTHER_MATERIAL, WRONG_SIDE, Distance, FoundMove, MissingTable,
    TablebaseHandle, ask_file, judge, library, status_text,
)
from ._mapped import mapped
from ._placement import KING, LETTERS, SQUARES, Position

Key = Tuple[str, str]


class RankedMove(NamedTuple):
    """A legal move, and what it gives the player who makes it."""

    uci: str
    """The move, as `e7e8q`."""
    wdl: int
    """2 win, 1 cursed win, 0 draw, -1 blessed loss, -2 loss, with the fifty-move counter."""
    dtz: int
    """From the position before the move, in plies, as `Tablebase.probe_dtz`; 1 for a move that mates."""
    zeroing: bool
    """Whether it is a capture or a pawn move."""
    mate: bool
    stalemate: bool


class Results:
    """The tables of these files, each mapped and opened when a position first needs it.

    A handle's tables stay as they are: for one that is lacking, a new handle shares them, adds it and takes the old one's
    place. The interpreter's lock is kept while a position is probed, and not while a table is opened. So no call waits for
    another one, and two calls that open a table at once both open it."""

    def __init__(self, paths: Mapping[Key, str], most: Optional[int]) -> None:
        self._paths, self._most = paths, most
        self._handle = TablebaseHandle()

    def wdl(self, position: Position) -> int:
        wdl = c_int8()
        self._probe(library.szg_tablebase_wdl, position, byref(wdl))
        return wdl.value

    def of_fens(self, fens: Sequence[str]) -> List[Optional[int]]:
        """The class of each of these FENs, read by the library; None for one of another form, with castling rights or a line feed, or
        for which a table isn't open."""
        text = "\n".join(["" if "\n" in fen else fen for fen in fens]).encode(errors="replace")
        classes = (c_int8 * len(fens))()
        library.szg_tablebase_wdl_of_fens(self._handle, text, len(text), classes, len(fens))
        return [None if wdl == NO_RESULT else wdl for wdl in classes]

    def dtz(self, position: Position) -> int:
        distance = Distance()
        self._probe(library.szg_tablebase_dtz, position, 0, byref(distance))
        return int(distance.dtz)

    def moves(self, position: Position) -> List[RankedMove]:
        moves, count = (FoundMove * MAX_MOVES)(), c_size_t()
        self._probe(library.szg_tablebase_moves, position, position.counter, moves, MAX_MOVES, byref(count))
        return [RankedMove(f"{SQUARES[move.start]}{SQUARES[move.end]}{LETTERS[move.promotion].strip().lower()}", move.wdl, move.dtz,
                           move.zeroing, move.mate, move.stalemate) for move in moves[:count.value]]

    def _probe(self, call: Callable[..., int], position: Position, *words: Any) -> None:
        """Makes a call on a position, again with each table that it lacks. Errors: those of `_raise`; KeyError."""
        if position.beyond:
            raise KeyError(f"tables know no {position.beyond}")
        men, missing, handle = position.men, MissingTable(), self._handle
        if self._most is not None and len(handle.lent) > self._most:
            handle = self._handle = TablebaseHandle()
        while True:
            status = call(handle, men, len(men) // 3, position.mover, position.en_passant, *words, byref(missing))
            if status == DONE:
                return
            key = missing.name.decode(), "dtz" if missing.dtz else "wdl"
            if status != MISSING:
                self._raise(status, men, key, missing)
            handle = self._handle = self._with(handle, key)

    def _raise(self, status: int, men: bytes, key: Key, missing: MissingTable) -> NoReturn:
        """Raises what a status means. Errors: BadBlock; Changed; Untold; MissingTableError for too many men; those of `judge`."""
        if status == BAD_BLOCK:
            raise BadBlock(missing.block, missing.offset, self._paths[key])
        if status == CHANGED:
            raise Changed(f"{self._paths[key]} was changed")
        if status == NO_CLASS or OTHER_MATERIAL <= status <= WRONG_SIDE:
            raise Untold(status_text(status), self._paths[key])
        kings = [color for kind, color in zip(men[::3], men[1::3]) if kind == KING]
        if status == MEN and sorted(kings) == [0, 1]:
            raise MissingTableError(f"no table of {len(men) // 3} men was added")
        judge(status)
        raise AssertionError

    def _with(self, handle: TablebaseHandle, key: Key) -> TablebaseHandle:
        """The tables of a handle and one more. Errors: MissingTableError; Refused; OSError; MemoryError."""
        path = self._paths.get(key)
        if path is None:
            raise MissingTableError(f"no {key[1].upper()} table of {key[0]} was added")
        if any(lent.path == path for lent in handle.lent):
            raise RuntimeError(f"the library lacks {path}, which was added")
        more, lent = TablebaseHandle(), mapped(path)
        if handle.lent:
            judge(library.szg_share_tablebase(handle, more))
        more.lent = (*handle.lent, lent)
        ask_file(partial(library.szg_tablebase_add, more), *key, lent)
        return more
