"""Positions and placements as callers have them: boards, FEN texts, lists of men."""
import re
from functools import lru_cache, partial
from operator import index as integer_of
from typing import Any, Iterable, Mapping, NamedTuple, Optional, Protocol, Tuple, Union

from ._errors import Untold

PAWN, KNIGHT, BISHOP, ROOK, QUEEN, KING = range(1, 7)
WHITE, BLACK = True, False
LETTERS = " PNBRQK"
SQUARES = [file + rank for rank in "12345678" for file in "abcdefgh"]
NO_SQUARE = 64
# what the en passant field of a FEN can be
PASSED = {"-": NO_SQUARE, **{name: number for number, name in enumerate(SQUARES) if name[1] in "36"}}
# the fields that a FEN may leave out
REST = ("", "", "-", "-", "0")


class Board(Protocol):
    """What is asked of a board: python-chess's `piece_map()`, and, where it has them, `turn`, `ep_square`, `castling_rights`,
    `halfmove_clock` and `uci_variant`."""

    def piece_map(self) -> Mapping[int, Any]:
        """The pieces by their squares, each with `piece_type` and `color`."""


Man = Tuple[int, bool, int]
Placement = Union[Board, str, Iterable[Man]]


class Position(NamedTuple):
    """Men, who moves, and what else a FEN says."""

    men: bytes
    """Three bytes a man, as szg.h's szg_man: kind (1 to 6), colour (White 0, Black 1), square (a1 0, b1 1, .. h8 63)."""
    turn: bool
    en_passant: int
    """The square that a pawn has just passed over, or NO_SQUARE."""
    counter: int
    """Plies since the last capture or pawn move."""
    beyond: str
    """What no table knows: castling rights, or a variant; empty for neither."""

    @property
    def mover(self) -> int:
        """The number of the side to move for the library."""
        return 0 if self.turn else 1


def table_name(men: bytes) -> Optional[str]:
    """The name of the table for these men, such as KQvKR. None if no material of three to six men has them."""
    sides = [sorted((kind for kind, color in zip(men[::3], men[1::3]) if color == side), reverse=True) for side in (0, 1)]
    if not 9 <= len(men) <= 18 or any(side.count(KING) != 1 or side[-1] < PAWN or side[0] > KING for side in sides):
        return None
    sides.sort(key=lambda side: (len(side), side), reverse=True)
    return "v".join("".join(LETTERS[kind] for kind in side) for side in sides)


def is_table_name(name: str) -> bool:
    """Whether a name is as `table_name` writes it."""
    if not re.fullmatch("K[QRBNP]*vK[QRBNP]*", name):
        return False
    return table_name(bytes(byte for side, letters in enumerate(name.split("v")) for letter in letters
                            for byte in (LETTERS.index(letter), side, 0))) == name


def integer(number: Any, what: str) -> int:
    """An integer. Errors: TypeError for anything else, a bool too."""
    if isinstance(number, bool):
        raise TypeError(f"{what} must be an integer, not bool")
    try:
        return integer_of(number)
    except TypeError:
        raise TypeError(f"{what} must be an integer, not {type(number).__name__}") from None


def _color(color: Any, what: str) -> bool:
    if not isinstance(color, bool):
        raise TypeError(f"{what} must be True for White or False for Black, not {type(color).__name__}")
    return color


def _men_of_rank(number: int, rank: str) -> bytes:
    """The men of a rank of a FEN; ranks are numbered from 0. Errors: ValueError."""
    men, file = b"", 0
    for letter in rank:
        if letter in "12345678":
            file += int(letter)
        elif letter.upper() in LETTERS[1:]:
            men += bytes((LETTERS.index(letter.upper()), letter.islower(), 8 * number + file))
            file += 1
        else:
            raise ValueError(f"{letter!r} cannot come there")
    if file != 8:
        raise ValueError(f"rank {number + 1} must have eight squares")
    return men


# a function for each rank, from the eighth on: most ranks of endgames are among few
RANKS = [lru_cache(maxsize=1024)(partial(_men_of_rank, number)) for number in range(7, -1, -1)]


def _of_fen(text: str) -> Tuple[bytes, Optional[bool], int, int, str]:
    """The fields of a Position; None for the side to move if the FEN has only its first field. Errors: ValueError."""
    fields = text.split()[:5]
    pieces, mover, castling, passed, counter = (*fields, *REST[len(fields):])
    ranks = pieces.split("/")
    if len(ranks) != 8:
        raise ValueError("it must have eight ranks")
    men = b"".join([read(rank) for read, rank in zip(RANKS, ranks) if rank != "8"])
    if mover not in ("w", "b", ""):
        raise ValueError("w or b must follow the pieces")
    if castling != "-" and not re.fullmatch("[A-HKQa-hkq]+", castling):
        raise ValueError(f"{castling!r} are no castling rights")
    if passed not in PASSED:
        raise ValueError(f"{passed!r} is no en passant square")
    if not (counter.isascii() and counter.isdigit() and len(counter) < 10):
        raise ValueError(f"{counter!r} is no number of plies")
    return men, mover == "w" if mover else None, PASSED[passed], int(counter), "" if castling == "-" else "castling rights"


def _of_board(board: Any) -> Tuple[bytes, Optional[bool], int, int, str]:
    """The fields of a Position; None for the side to move if the board has none. Errors: Untold; TypeError; ValueError."""
    men = _of_list((piece.piece_type, piece.color, square) for square, piece in board.piece_map().items())
    passed, counter = getattr(board, "ep_square", None), integer(getattr(board, "halfmove_clock", 0), "halfmove_clock")
    if passed is not None and not 0 <= integer(passed, "ep_square") < NO_SQUARE:
        raise Untold("EnPassant")
    if not 0 <= counter < 1 << 32:
        raise ValueError(f"halfmove_clock must be a number of plies, not {counter}")
    variant = getattr(board, "uci_variant", "chess")
    beyond = f"variant {variant}" if variant != "chess" else "castling rights" if getattr(board, "castling_rights", 0) else ""
    return men, getattr(board, "turn", None), NO_SQUARE if passed is None else passed, counter, beyond


def _of_list(men: Any) -> bytes:
    """The men of a list, for the library. Errors: TypeError; Untold `Man` for a number that is no byte."""
    wrong = f"a placement must be a board, a FEN text or men (kind, colour, square), not {type(men).__name__}"
    if isinstance(men, (bytes, bytearray, memoryview)):
        raise TypeError(wrong)
    try:
        listed = [tuple(man) for man in men]
    except TypeError:
        raise TypeError(wrong) from None
    if any(len(man) != 3 for man in listed):
        raise TypeError("a man must be (kind, colour, square)")
    numbers = [number for kind, color, square in listed for number in (
        integer(kind, "a man's kind"), 0 if _color(color, "a man's colour") else 1, integer(square, "a man's square"))]
    try:
        return bytes(numbers)
    except ValueError:
        raise Untold("Man") from None


def position_of(board: Placement, turn: Optional[bool] = None) -> Position:
    """The position of a board, a FEN or a list of men. `turn` comes before the board's own side to move; where it is the other
    one, no square was passed over.

    Errors: TypeError for another type, or if nothing says who moves; ValueError for a text that is no FEN; Untold."""
    own: Any = None
    if isinstance(board, str):
        try:
            men, own, passed, counter, beyond = _of_fen(board)
        except ValueError as error:
            raise ValueError(f"{board!r} is no FEN: {error}") from None
    elif hasattr(board, "piece_map"):
        men, own, passed, counter, beyond = _of_board(board)
    else:
        men, passed, counter, beyond = _of_list(board), NO_SQUARE, 0, ""
    moves = own if turn is None else turn
    if moves is None:
        raise TypeError("turn, the side to move, must be given with men or a FEN that do not have it")
    return Position(men, _color(moves, "turn"), passed if moves is own else NO_SQUARE, counter, beyond)
