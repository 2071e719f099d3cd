"""Placements as callers write them."""
import pytest
import szg
from conftest import PAWN, UNPAIRED, says, untold
from stand_in import Board
from szg import BLACK, KING, QUEEN, WHITE

MEN = [(KING, WHITE, 60), (QUEEN, WHITE, 0), (KING, BLACK, 7)]
FEN = "4K3/8/8/8/8/8/8/Q6k"


@pytest.fixture
def table():
    with szg.Table("KQvK", "wdl", UNPAIRED.data) as opened:
        yield opened


def test_every_form_of_a_placement_is_the_same(table: szg.Table) -> None:
    for turn, letter in ((WHITE, "w"), (BLACK, "b")):
        wanted = table.index(MEN, turn)
        assert wanted == (0, 0 if turn else 1, 11711)
        for board in (Board.of(MEN, turn), FEN + f" {letter}", FEN + f" {letter} - - 0 1", f" {FEN}  {letter} -", FEN.replace("8", "44") + f" {letter}"):
            assert table.index(board) == wanted
        for board in (FEN, iter(MEN), tuple(reversed(MEN)), [list(man) for man in MEN], Board.of(MEN, not turn), FEN + " w - - 0 1"):
            assert table.index(board, turn) == wanted


def test_all_letters_of_a_fen() -> None:
    with szg.Table("KPvK", "dtz", PAWN.data) as table:
        assert table.index("4k3/8/8/8/8/8/4P3/4K3 w") == (3, 0, 21564)
        assert table.index("4k3/4p3/8/8/8/8/8/4K3 b") == (3, 0, 21564)
        for letters, reason in (("N", "OtherMaterial"), ("B", "OtherMaterial"), ("R", "OtherMaterial"), ("Q", "OtherMaterial"),
                                ("K", "Men"), ("p", "WrongSide")):
            assert untold(table.index, f"4k3/8/8/8/8/8/4{letters}3/4K3 w") == reason


@pytest.mark.parametrize("text", [
    "", " ", "4K3/8/8/8/8/8/8", "4K3/8/8/8/8/8/8/Q6k/8", "4K4/8/8/8/8/8/8/Q6k", "4K2/8/8/8/8/8/8/Q6k", "45/8/8/8/8/8/8/Q5kK",
    "4X3/8/8/8/8/8/8/Q6k", "9/8/8/8/8/8/8/Q6k", "0K7/8/8/8/8/8/8/Q6k", "4K3/8/8/8/8/8/8/Q6k W", "4K3/8/8/8/8/8/8/Q6k white",
    "4K3/8/8/8/8/8/8/Q~6k", "4K\u00b33/8/8/8/8/8/8/Q6k", FEN + " w x", FEN + " w - e4", FEN + " w - E3", FEN + " w - - x", FEN + " w - - -1",
    FEN + " w - - \u00b3", FEN + " w - - 1234567890",
])
def test_what_is_no_fen(table: szg.Table, text: str) -> None:
    with pytest.raises(ValueError, match="is no FEN: ") as caught:
        table.index(text, WHITE)
    assert not isinstance(caught.value, szg.Refused)


def test_the_side_to_move_must_be_known(table: szg.Table) -> None:
    for board in (MEN, FEN, type("BaseBoard", (), {"piece_map": Board.of(MEN, WHITE).piece_map})()):
        says(TypeError, "^turn, the side to move, must be given", table.probe_wdl, board)
        assert table.probe_wdl(board, WHITE) == 2
    for turn in ("w", 1, 0, szg.Spot(0, 0, 0)):
        says(TypeError, "^turn must be True for White or False for Black, not ", table.probe_wdl, MEN, turn)


@pytest.mark.parametrize("board, said", [
    (7, "a placement must be a board, a FEN text or men"), (None, "a placement must be a board, a FEN text or men"),
    (b"4K3/8", "a placement must be a board, a FEN text or men"), ([7], "a placement must be a board, a FEN text or men"),
    ([(KING, WHITE)], "a man must be"), (["Ke1"], "a man's kind must be an integer, not str"),
    ([("K", WHITE, 4)], "a man's kind must be an integer, not str"), ([(KING, 0, 4)], "a man's colour must be True for White"),
    ([(KING, "w", 4)], "a man's colour must be True for White"), ([(KING, WHITE, "e1")], "a man's square must be an integer"),
    ([(KING, WHITE, 4.0)], "a man's square must be an integer"), ([(True, WHITE, 4)], "a man's kind must be an integer, not bool"),
])
def test_wrong_types(table: szg.Table, board: object, said: str) -> None:
    for call in (table.probe_wdl, table.index):
        with pytest.raises(TypeError) as caught:
            call(board, WHITE)
        assert str(caught.value).startswith(said) and "\n" not in str(caught.value)
