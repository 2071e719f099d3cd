"""A board with python-chess's names over the rules of `checks/chess_rules.py`, and results by what true tables store."""
from typing import Callable, Dict, Iterable, List, NamedTuple, Optional, Tuple

import conftest  # noqa: F401  # it adds the folder checks
import chess_rules
import szg

Move = Tuple[Tuple[int, int], Tuple[int, int], Optional[str]]


class Piece(NamedTuple):
    piece_type: int
    color: bool


class Board:
    """A position, and those before it; plies since the last zeroing move. Of a position no castling is known."""

    def __init__(self, fen: str) -> None:
        self.now, self.halfmove_clock = chess_rules.parse(fen)[0], 0
        self.stack: List[Tuple[chess_rules.Board, int]] = []

    @classmethod
    def of(cls, men: Iterable[Tuple[int, bool, int]], turn: bool) -> "Board":
        """The board of men as tuples (kind, colour, square), which need not be a legal position."""
        board = cls("")
        letters = {(square % 8, square // 8): (" PNBRQK" if color else " pnbrqk")[kind] for kind, color, square in men}
        board.now = chess_rules.Board(letters, "w" if turn else "b", None)
        return board

    @property
    def turn(self) -> bool:
        return self.now.mover == "w"

    @property
    def ep_square(self) -> Optional[int]:
        return None if self.now.passed is None else self.now.passed[0] + 8 * self.now.passed[1]

    def piece_map(self) -> Dict[int, Piece]:
        return {file + 8 * rank: Piece(" pnbrqk".index(letter.lower()), letter.isupper()) for (file, rank), letter in self.now.men.items()}

    def fen(self) -> str:
        return f"{self.now.fen()} {self.halfmove_clock} 1"

    def is_pawn_move(self, move: Move) -> bool:
        return self.now.men[move[0]].lower() == "p"

    def is_capture(self, move: Move) -> bool:
        """Whether it is a capture, en passant aside."""
        return move[1] in self.now.men

    def is_zeroing(self, move: Move) -> bool:
        return self.is_capture(move) or self.is_pawn_move(move)

    def is_passing(self, move: Move) -> bool:
        return self.is_pawn_move(move) and move[0][0] != move[1][0] and not self.is_capture(move)

    def legal_moves(self) -> List[Move]:
        """All legal moves but en passant."""
        return [move for move in self.now.legal_moves() if not self.is_passing(move)]

    def generate_legal_ep(self) -> List[Move]:
        return [move for move in self.now.legal_moves() if self.is_passing(move)]

    def is_in_check(self, color: bool) -> bool:
        return self.now.is_attacked(self.now.king("w" if color else "b"), "b" if color else "w")

    def uci(self, move: Move) -> str:
        return chess_rules.uci_of(move)

    def is_checkmate(self) -> bool:
        return self.now.is_check() and not self.now.legal_moves()

    def push(self, move: Move) -> None:
        self.stack.append((self.now, self.halfmove_clock))
        self.halfmove_clock = 0 if self.is_zeroing(move) else self.halfmove_clock + 1
        self.now = self.now.made(move)

    def pop(self) -> None:
        self.now, self.halfmove_clock = self.stack.pop()

    def after(self, move: Move, probe: Callable[["Board"], int]) -> int:
        """What a move gives the player who makes it."""
        self.push(move)
        try:
            return -probe(self)
        finally:
            self.pop()


def dtz_before_zeroing(wdl: int) -> int:
    return ((wdl > 0) - (wdl < 0)) * (1 if abs(wdl) == 2 else 101)


def distance(tables: szg.Tablebase, board: Board) -> int:
    """The DTZ of a position that is decided within the fifty-move rule, by tables whose stored values are true: the number that
    is stored, or if it is the other side's, the best that one ply gives."""
    wdl = tables.probe_wdl_table(board)
    if wdl == 0:
        return 0
    plies, is_stored = tables.probe_dtz_table(board, wdl)
    sign = 1 if wdl > 0 else -1
    if is_stored == 1:
        return sign * (plies + 1)
    after = [(board.is_zeroing(move), -board.after(move, lambda after: distance(tables, after))) for move in board.legal_moves()]
    found = [1 if is_zeroing or plies == -1 else abs(plies) + 1 for is_zeroing, plies in after if plies * sign < 0]
    return min(found) if wdl > 0 else -max(found, default=1)
