"""One table."""
import ctypes
import os
from ctypes import byref, c_int64, c_size_t, c_uint8, c_uint16, c_uint32, c_uint64
from pathlib import Path
from typing import Any, Callable, NamedTuple, Optional, Tuple, Union

from ._library import MAX_MEN, FoundSpot, Handles, Lent, library
from ._mapped import mapped
from ._placement import Man, Placement, Position, integer, position_of

KINDS = {".rtbw": "wdl", ".rtbz": "dtz"}


class Spot(NamedTuple):
    """Where a table stores a placement: `Table.get(spot.index, spot.part, spot.side)` is the stored value."""

    part: int
    side: int
    index: int  # type: ignore[assignment]  # a tuple's own `index` is not needed


class Table:
    """One Syzygy table: WDL (`.rtbw`) or DTZ (`.rtbz`), for one material of three to six men.

    Any number of threads use one Table at once, and signal handlers and forked processes too: no call waits for another.
    After `close`, or the end of a `with` block, each call raises ValueError. A copy, also one by `pickle`, is a Table of its
    own: of the file's path, or of a copy of the bytes.

    A table has parts and sides. With pawns the parts 0 to 3 are for the files a to d of the leading pawn; without pawns
    there is part 0. In a WDL table side 0 is where the first side of the name moves, side 1 where the second does;
    symmetric and DTZ tables have only side 0.

    A placement that a call takes is one of: a board of python-chess, or anything with its `piece_map()` and `turn`;
    a FEN, whole or only its piece placement; men as tuples (kind, colour, square), numbered as in python-chess. `turn`
    (True if White moves) must be given if the placement does not say who moves, and comes first if it does.
    Castling, en passant, captures and checks are not looked at.
    """

    name: str
    """The material, such as KQvKR."""
    kind: str
    """`wdl` or `dtz`."""
    _path: Optional[str] = None

    def __init__(self, name: str, kind: str, data: Any, *, verify: bool = False) -> None:
        """Opens the table that bytes begin with: checks all of it but its blocks, and these too with `verify`.

        A block is checked each time a value is fetched from it. `data` is bytes-like and contiguous. The Table refers to
        it until it is closed; it must not change meanwhile.

        Errors: Refused if the bytes are not a table of this name and kind; ValueError for another name or kind; TypeError;
        MemoryError."""
        self._open(name, kind, Lent(data), verify)

    @classmethod
    def open(cls, path: Union[str, "os.PathLike[str]"], *, verify: bool = False) -> "Table":
        """Maps a file and opens its table: checks all of it but its blocks, and these too with `verify`.

        The file's name has its material and kind, as in KQvKR.rtbw. The file must stay as it is while the Table is open. If
        it is changed, a value may be another one or raise BadBlock; if it is truncated, the system may end the program (by
        SIGBUS). No file descriptor stays open.

        Errors: Refused if the file is not such a table, an empty one too; ValueError for another file name; OSError, also
        for what is no regular file, such as a pipe; MemoryError."""
        name, kind = named(path)
        table = cls.__new__(cls)
        table._open(name, kind, mapped(path), verify)
        # a copy is opened in any folder
        table._path = os.path.abspath(os.fsdecode(path))
        return table

    def _open(self, name: str, kind: str, lent: Lent, verify: bool) -> None:
        if not isinstance(name, str):
            raise TypeError(f"name must be a str, not {type(name).__name__}")
        if kind not in KINDS.values():
            raise ValueError(f"kind must be 'wdl' or 'dtz', not {kind!r}")
        self.name, self.kind = name, kind
        self._front = Handles(name, kind, lent)
        if verify:
            self.verify()

    def size(self, part: int = 0, side: int = 0) -> int:
        """The number of positions of a part's side. Errors: IndexError if the table has no such part or side."""
        part, side, size = _byte(part, "part"), _byte(side, "side"), c_uint64()
        self._front(library.szg_front_size, part, side, byref(size))
        return size.value

    def get(self, index: int, part: int = 0, side: int = 0) -> int:
        """The stored value at an index: not the result (`Tablebase.probe_wdl`, `probe_dtz`) if a capture or pawn move decides.

        In WDL, where only captures count, it is the stored class plus 2; in DTZ a value that `number` decodes.

        Errors: IndexError if the table has no such part, side or index; BadBlock if its block does not decode."""
        part, side, index, value = _byte(part, "part"), _byte(side, "side"), _index(index), c_uint16()
        self._front.fetch(library.szg_front_get, part, side, index, byref(value))
        return value.value

    def values(self, part: int = 0, side: int = 0) -> memoryview:
        """All stored values of a part's side (see `get`), in the order of their indexes. All of the table is checked for it.

        The memoryview has one dimension, `size(part, side)` items and the format H (16 bits, unsigned);
        `numpy.asarray` takes it without a copy. It stays valid after `close`. While it is made it takes the file's
        bytes too.

        Errors: IndexError if the table has no such part or side; Refused; MemoryError."""
        values = (c_uint16 * self.size(part, side))()
        self._front.ask(library.szg_values, part, side, values, len(values))
        # ctypes' own format, <H, cannot be indexed by memoryview
        return memoryview(values).cast("B").cast("H")

    def number(self, value: int, *, wdl: int, part: int = 0) -> int:
        """The stored number of a DTZ value in a class: not the DTZ (`Tablebase.probe_dtz`) if a capture or pawn move decides.

        `Table.probe_dtz` returns it for a placement with this value.

        `wdl` is the class of the side to move: 2 win, 1 cursed win, -1 blessed loss, -2 loss.

        Errors: Untold `Draw` for the class 0, `OutsideMap` if the table's map has no such value; IndexError if there is
        no such part or value; ValueError for a WDL table or another class."""
        value = integer(value, "value")
        if not 0 <= value < 1 << 16:
            raise IndexError(f"the table has no value {value}")
        self._require("dtz")
        part, wdl, number = _byte(part, "part"), _class(wdl), c_uint32()
        self._front(library.szg_front_number, part, wdl, value, byref(number))
        return number.value

    def index(self, board: Placement, turn: Optional[bool] = None) -> Spot:
        """Where the table stores a placement. Errors: Untold if it has no index; TypeError; ValueError for a bad FEN."""
        position, spot = position_of(board, turn), FoundSpot()
        self._front(library.szg_front_index, position.men, len(position.men) // 3, position.mover, byref(spot))
        return Spot(spot.part, spot.side, spot.index)

    def placement(self, part: int, side: int, index: int) -> Tuple[Tuple[Man, ...], bool]:
        """The placement of an index: the men as tuples (kind, colour, square), and who moves (True if White).

        It is the inverse of `index`: `table.index(*table.placement(part, side, i))` is `Spot(part, side, i)`, and
        `table.placement(*table.index(board))` is an image of the board. The name's first side is White. The men come in the
        table's own order. In a DTZ table the stored side moves.

        Errors: IndexError if the table has no such part, side or index; Untold if the part's side has no placements:
        `Irregular`, or `WrongSide` for a DTZ table with pawns that stores Black if both sides have the same men."""
        part, side, index = _byte(part, "part"), _byte(side, "side"), _index(index)
        men, count, mover = ctypes.create_string_buffer(3 * MAX_MEN), c_size_t(), c_uint8()
        self._front(library.szg_front_placement, part, side, index, men, MAX_MEN, byref(count), byref(mover))
        found = men.raw[:3 * count.value]
        return tuple((kind, color == 0, square) for kind, color, square in zip(found[::3], found[1::3], found[2::3])), mover.value == 0

    def probe_wdl(self, board: Placement, turn: Optional[bool] = None) -> int:
        """The stored class of a placement: not the position's (`Tablebase.probe_wdl`) if a capture decides, but maybe lower.

        It is that of the side to move: 2 win, 1 cursed win, 0 draw, -1 blessed loss, -2 loss. En passant isn't known to the
        table. python-chess's `probe_wdl_table` returns the same.

        Errors: Untold if the table has no class for it; BadBlock; ValueError for a DTZ table or a bad FEN; TypeError."""
        self._require("wdl")
        return self._probe(position_of(board, turn), 0)

    def probe_dtz(self, board: Placement, turn: Optional[bool] = None, *, wdl: int) -> int:
        """The stored number n of a placement: not the DTZ (`Tablebase.probe_dtz`) if a capture or pawn move decides.

        It counts the plies before the zeroing one (a capture, a pawn move or mate), without sign; in the classes 1 and -1
        from the 101st on. En passant and the fifty-move counter aren't known to the table. `wdl` is the class of the side
        to move: 2 win, 1 cursed win, -1 blessed loss, -2 loss. n is the first number of python-chess's `probe_dtz_table`.
        What a table counts in moves is doubled, and the distance may be one ply more.

        Errors: Untold `WrongSide` if the table stores the other side to move only, `Draw` for the class 0, or another
        reason; BadBlock; ValueError for a WDL table, another class or a bad FEN; TypeError."""
        self._require("dtz")
        return self._probe(position_of(board, turn), _class(wdl))

    def _probe(self, position: Position, wdl: int) -> int:
        outcome = c_int64()
        self._front.fetch(library.szg_front_probe, position.men, len(position.men) // 3, position.mover, wdl, byref(outcome))
        return outcome.value

    def verify(self) -> int:
        """Checks all bytes of the table, as they are now; returns its number of bytes.

        No check of the format finds a changed bit that still decodes: keep sums of the files.

        Errors: Refused with the first check that fails; MemoryError."""
        return self._front.ask(library.szg_check)

    def _require(self, kind: str) -> None:
        if self.kind != kind:
            raise ValueError(f"{self.name} is a {self.kind.upper()} table, and this call needs a {kind.upper()} table")

    def close(self) -> None:
        """Closes the table. A second call does nothing."""
        self._front.close()

    def __enter__(self) -> "Table":
        return self

    def __exit__(self, *error: object) -> None:
        self.close()

    def __reduce__(self) -> Tuple[Callable[..., "Table"], Tuple[Any, ...]]:
        lent = self._front.lent()
        if self._path is not None:
            return type(self).open, (self._path,)
        return type(self), (self.name, self.kind, ctypes.string_at(lent.address, lent.length))

    def __repr__(self) -> str:
        path, closed = "" if self._path is None else f" {self._path!r}", ", closed" if self._front.is_closed() else ""
        return f"<szg.Table {self.name} {self.kind}{path}{closed}>"


def named(path: Union[str, "os.PathLike[str]"]) -> "tuple[str, str]":
    """The material and the kind in a file's name. Errors: ValueError if it ends with neither .rtbw nor .rtbz."""
    file = Path(path)
    if file.suffix not in KINDS:
        raise ValueError(f"{file.name!r} must end with .rtbw or .rtbz")
    return file.stem, KINDS[file.suffix]


def _byte(number: int, what: str) -> int:
    """A part or side that the library can be asked for: a number that is no byte would be cut to one."""
    number = integer(number, what)
    if not 0 <= number < 256:
        raise IndexError(f"the table has no {what} {number}")
    return number


def _index(index: int) -> int:
    """An index that the library can be asked for. Errors: IndexError for another integer; TypeError."""
    index = integer(index, "index")
    if not 0 <= index < 1 << 64:
        raise IndexError(f"the table has no index {index}")
    return index


def _class(wdl: int) -> int:
    wdl = integer(wdl, "wdl")
    if not -2 <= wdl <= 2:
        raise ValueError(f"wdl must be from -2 to 2, not {wdl}")
    return wdl
