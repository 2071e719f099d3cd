"""Results of positions: probe_wdl, probe_dtz, get_wdl, get_dtz, rank_moves, probe_many."""
import os
import random
import re
from pathlib import Path
from typing import Iterator, Optional

import pytest
import stand_in
import szg
from conftest import ROOT, is_closed, says, untold
from stand_in import Board
from szg import _library
from table_writer import file_of

# three men each; the tables of the second folder store anything where a capture or a pawn move decides
FOLDERS = [ROOT / "samples", ROOT / "samples/any"]
MATE_FEN, ROOK_FEN = "7k/8/5K2/8/8/8/8/6Q1 w - - 0 1", "4K3/8/8/8/8/8/7k/R7 w"
# in the sample of data/, whose values are those of no game
QUEEN_FEN, KNIGHT_FEN = "4K3/8/8/8/8/8/7k/Q7 w", "4k3/8/8/8/8/8/8/N3K3 w"


@pytest.fixture(params=FOLDERS, ids=["true", "any"])
def tables(request: pytest.FixtureRequest) -> Iterator[szg.Tablebase]:
    with szg.open_tablebase(request.param) as opened:
        yield opened


@pytest.mark.parametrize("fen, wdl, dtz", [
    ("8/4k3/8/4K3/4P3/8/8/8 w - -", 0, 0),  # Black has the opposition
    ("8/4k3/8/4K3/4P3/8/8/8 b - -", -2, None),
    ("7k/8/7K/7P/8/8/8/8 w - -", 0, 0),
    ("4k3/8/4K3/4P3/8/8/8/8 w - -", 2, 3),  # the pawn moves at the third ply
    ("8/1k2P3/8/8/8/8/8/K7 w - -", 2, 1),  # it moves now
    (MATE_FEN, 2, 1),  # mate in one
    ("7k/6Q1/5K2/8/8/8/8/8 b - -", -2, -1),  # mated
    ("7k/8/5KQ1/8/8/8/8/8 b - -", 0, 0),  # stalemate
    ("8/8/8/8/8/1Q6/2k5/K7 b - -", 0, 0),  # the king takes the queen
    ("1k6/8/1K6/8/8/8/8/R7 b - -", -2, -4),  # 1.. Kc8 2. Rd1 Kb8 3. Rd8
    ("2k5/8/1K6/8/8/8/8/R7 w - -", 2, 3),  # the table stores Black to move: the next positions are probed
    ("k7/8/8/8/8/8/8/K7 w - -", 0, 0),
])
def test_positions_of_three_men(tables: szg.Tablebase, fen: str, wdl: int, dtz: Optional[int]) -> None:
    board = Board(fen)
    for position in (fen, board, fen.split(" ")[0]):
        turn = None if position in (fen, board) else board.turn
        assert tables.probe_wdl(position, turn) == tables.get_wdl(position, turn=turn) == wdl
        assert tables.get_dtz(position, turn=turn) == tables.probe_dtz(position, turn)
    assert dtz is None or tables.probe_dtz(board) == dtz
    # colours exchanged
    turned = "/".join(reversed(fen.split(" ")[0].swapcase().split("/")))
    assert tables.probe_wdl(turned, not board.turn) == wdl and (dtz is None or tables.probe_dtz(turned, not board.turn) == dtz)


def boards(name: str, count: int) -> Iterator[Board]:
    """Legal positions of a sample table, chosen at random."""
    rng = random.Random(name)
    with szg.Table.open(ROOT / f"samples/{name}.rtbw") as table:
        while count:
            part, side = rng.randrange(4) if name == "KPvK" else 0, rng.randrange(2)
            board = Board.of(*table.placement(part, side, rng.randrange(table.size(part, side))))
            if len(board.piece_map()) == 3 and not board.is_in_check(not board.turn):
                count -= 1
                yield board


@pytest.mark.parametrize("name", ["KQvK", "KRvK", "KPvK", "KBvK", "KNvK"])
def test_results_are_what_true_tables_store(tables: szg.Tablebase, name: str) -> None:
    found = list(boards(name, 100))
    with szg.open_tablebase(FOLDERS[0]) as true:
        wanted = [true.probe_wdl_table(board) for board in found]
        assert [tables.probe_wdl(board) for board in found] == tables.probe_many(found) == tables.probe_many(iter(found)) == wanted
        assert [tables.probe_dtz(board) for board in found] == [stand_in.distance(true, board) for board in found]


def test_fens_of_many_are_as_one_by_one(tables: szg.Tablebase) -> None:
    """The library reads whole FENs, once their table is open; others come between them, each in its own place."""
    fens = [board.fen() for name in ("KQvK", "KRvK", "KPvK") for board in boards(name, 40)]
    others = [QUEEN_FEN, Board(MATE_FEN), MATE_FEN[:-4], MATE_FEN[:-2], f"\t{MATE_FEN}\n7", MATE_FEN.replace(" w", "\nw"), MATE_FEN.replace("5", "23"),
              "4K2R/8/8/8/8/8/8/7k w K - 0 1", "rnbqkbnr/pppppppp/8/8/8/8/PPPPPPPP/RNBQKBNR w - - 0 1", "4k3/8/8/8/8/8/8/4K3 w - - 0 1"]
    mixed = [board for fen in fens for board in (fen, *others)]
    wanted = [tables.get_wdl(board) for board in mixed]
    assert wanted[1:11] == [2, 2, 2, 2, 2, 2, 2, None, None, 0] and tables.probe_many(iter(mixed)) == wanted
    for count in (0, 1, 255, 256, 257):
        assert tables.probe_many((fens * 3)[:count]) == [tables.probe_wdl(fen) for fen in (fens * 3)[:count]]
    for wrong in ("", "\n", MATE_FEN.replace("Q", "X"), MATE_FEN.replace("0", "x"), MATE_FEN.replace("w", "\ud800")):
        says(ValueError, "is no FEN: ", tables.probe_many, [MATE_FEN, wrong])
    pytest.raises(TypeError, tables.probe_many, [MATE_FEN, b"7k/8/5K2/8/8/8/8/6Q1 w - - 0 1"])


@pytest.mark.parametrize("name", ["KQvK", "KRvK", "KPvK"])
def test_moves_are_ranked(tables: szg.Tablebase, name: str) -> None:
    """Each legal move is there once with the result of the position after it, and the first ones are the best."""
    for board in boards(name, 25):
        moves, legal = tables.rank_moves(board), {board.uci(move): move for move in board.now.legal_moves()}
        assert sorted(move.uci for move in moves) == sorted(legal)
        for uci, wdl, dtz, zeroing, mate, stalemate in moves:
            move = legal[uci]
            board.push(move)
            assert wdl == -tables.probe_wdl(board) and (dtz > 0) - (dtz < 0) == (wdl > 0) - (wdl < 0)
            assert mate == board.is_checkmate()
            assert stalemate == (not board.now.legal_moves() and not board.is_in_check(board.turn))
            if not board.halfmove_clock or mate:
                assert abs(dtz) == abs(stand_in.dtz_before_zeroing(wdl))
            elif dtz:
                assert dtz == (1 if dtz > 0 else -1) - tables.probe_dtz(board)
            board.pop()
            assert zeroing == board.is_zeroing(move)
        assert [move[1:3] for move in moves] == sorted((move[1:3] for move in moves), key=lambda move: (-move[0], move[1]))
        assert not moves or moves[0].wdl == tables.probe_wdl(board) and moves[0].dtz == tables.probe_dtz(board)


@pytest.mark.parametrize("counter, wdl", [(0, 2), (97, 2), (98, 1), (1000, 1)])
def test_the_fifty_move_counter_counts_for_moves_alone(tables: szg.Tablebase, counter: int, wdl: int) -> None:
    fen = f"2k5/8/1K6/8/8/8/8/R7 w - - {counter} 80"
    board = Board(fen)
    board.halfmove_clock = counter
    for position in (fen, board):
        assert tables.rank_moves(position)[0].wdl == wdl
        assert tables.probe_wdl(position) == 2 and tables.probe_dtz(position) == 3


def test_turn_comes_before_the_boards_own(tables: szg.Tablebase) -> None:
    for call in (tables.probe_wdl, tables.get_wdl, tables.probe_dtz, tables.get_dtz, tables.rank_moves):
        assert call(ROOK_FEN, turn=False) == call(ROOK_FEN.replace(" w", " b")) != call(ROOK_FEN)


@pytest.fixture(params=range(5), ids=["loss", "blessed loss", "draw", "cursed win", "win"])
def passing(request: pytest.FixtureRequest, tmp_path: Path) -> szg.Tablebase:
    """True tables of three men, and such of KPvKP."""
    for ending, magic, value in ("rtbw", "71e8235d", request.param), ("rtbz", "d7660ca5", 0):
        (tmp_path / f"KPvKP.{ending}").write_bytes(file_of(f"{magic} 02" + "0011119966ee" * 4, [bytes([128, value])] * 4))
    tables = szg.open_tablebase(ROOT / "samples")
    assert tables.add_directory(tmp_path) == 2
    assert tables.probe_wdl_table("4k3/8/8/8/1pP5/8/8/4K3 b") == request.param - 2
    return tables


def passed_boards(count: int) -> Iterator[Board]:
    """Positions in which a pawn may be taken en passant."""
    rng = random.Random(13)
    while count:
        file, side, color = rng.randrange(8), rng.choice((-1, 1)), rng.random() < 0.5
        kings = rng.sample(range(64), 2)
        rank = 3 if color else 4
        men = {8 * rank + file: (1, color), 8 * rank + file + side: (1, not color), kings[0]: (6, color), kings[1]: (6, not color)}
        behind = [8 * (rank + step * (-1 if color else 1)) + file for step in (1, 2)]
        if not 0 <= file + side < 8 or len(men) < 4 or set(behind) & set(men):
            continue
        board = Board.of([(kind, own, square) for square, (kind, own) in men.items()], not color)
        board.now.passed = (file, behind[0] // 8)
        if not board.is_in_check(color) and board.generate_legal_ep():
            count -= 1
            yield board


def test_en_passant_counts(passing: szg.Tablebase) -> None:
    stored = passing.probe_wdl_table("4k3/8/8/8/1pP5/8/8/4K3 b")
    for board in passed_boards(150):
        moves = board.generate_legal_ep()
        best = max(board.after(move, passing.probe_wdl) for move in moves)
        others = [board.after(move, passing.probe_wdl) for move in board.legal_moves() if board.is_capture(move)]
        wdl, dtz = passing.probe_wdl(board), passing.probe_dtz(board)
        assert wdl == (max(stored, best, *others) if board.legal_moves() else best)
        assert passing.probe_many([board, board.fen()]) == [wdl] * 2
        # without the right there is no such move
        assert any(move.uci in map(board.uci, moves) for move in passing.rank_moves(board))
        is_only = not board.legal_moves()
        board.now.passed = None
        assert passing.probe_wdl(board) == max(stored, *others, -2)
        if is_only or best == wdl and (wdl > 0 or wdl > passing.probe_wdl(board)):
            assert dtz == stand_in.dtz_before_zeroing(wdl)
        else:
            assert dtz == passing.probe_dtz(board)


def test_the_square_that_was_passed(passing: szg.Tablebase) -> None:
    fen = "4k3/8/8/8/1pP5/8/8/4K3 b - {} 0 1"
    with_right = passing.rank_moves(fen.format("c3"))
    assert {move.uci for move in with_right} - {move.uci for move in passing.rank_moves(fen.format("-"))} == {"b4c3"}
    # no pawn can take there; the other side's right is over when turn says that it moves
    assert passing.probe_wdl("4k3/8/8/8/2P4p/8/8/4K3 b - c3") == passing.probe_wdl("4k3/8/8/8/2P4p/8/8/4K3 b - -")
    board = Board(fen.format("c3"))
    assert passing.probe_wdl(board, True) == passing.probe_wdl(fen.format("-"), True)
    for wrong in ("d3", "c6", "b3"):
        assert untold(passing.probe_wdl, fen.format(wrong)) == "EnPassant"
    for square in (-1, 64, 100):
        board = type("Other", (Board,), {"ep_square": square})(fen.format("-"))
        assert untold(passing.probe_wdl, board) == "EnPassant"


class Fields:
    """A board with these attributes."""

    def __init__(self, **fields: object) -> None:
        self.turn = True
        vars(self).update(fields)

    def piece_map(self) -> dict:
        return Board(QUEEN_FEN + " - -").piece_map()


@pytest.mark.parametrize("board, said", [
    ("4K2R/8/8/8/8/8/8/7k w K - 0 1", "tables know no castling rights"), ("4K2R/8/8/8/8/8/8/7k w Hq - 0 1", "tables know no castling rights"),
    (Fields(castling_rights=1 << 7), "tables know no castling rights"), (Fields(uci_variant="atomic"), "tables know no variant atomic"),
])
def test_what_no_table_knows(tables: szg.Tablebase, board: object, said: str) -> None:
    assert tables.probe_many([ROOK_FEN, QUEEN_FEN]) == [2, 2]
    for call in (tables.probe_wdl, tables.probe_dtz, tables.rank_moves):
        caught = pytest.raises(KeyError, call, board).value
        assert type(caught) is KeyError and caught.args == (said,)
    assert tables.get_wdl(board) is None and tables.get_dtz(board, 7) == 7 and tables.probe_many([board, MATE_FEN]) == [None, 2]
    # what one table stores is another matter
    assert isinstance(board, str) or tables.probe_wdl_table(board) == 2


def test_boards_of_python_chess(tables: szg.Tablebase) -> None:
    assert tables.probe_wdl(Fields(castling_rights=0, uci_variant="chess", halfmove_clock=7, ep_square=None, chess960=True)) == 2
    pytest.raises(ValueError, tables.probe_wdl, Fields(halfmove_clock=-1))
    pytest.raises(ValueError, tables.probe_wdl, Fields(halfmove_clock=1 << 32))
    pytest.raises(TypeError, tables.probe_wdl, Fields(halfmove_clock="0"))
    chess = pytest.importorskip("chess")
    assert tables.probe_dtz(chess.Board(MATE_FEN)) == 1
    pytest.raises(KeyError, tables.probe_wdl, chess.Board("4K2R/8/8/8/8/8/8/7k w K - 0 1"))


def test_missing_tables(tmp_path: Path) -> None:
    for name in ("KQvK.rtbw", "KPvK.rtbw", "KPvK.rtbz"):
        (tmp_path / name).write_bytes((ROOT / "samples" / name).read_bytes())
    with szg.open_tablebase(tmp_path) as tables:
        for call, fen, said in (
            (tables.probe_wdl, ROOK_FEN, "no WDL table of KRvK was added"), (tables.probe_dtz, ROOK_FEN, "no WDL table of KRvK was added"),
            (tables.probe_dtz, MATE_FEN, "no DTZ table of KQvK was added"), (tables.rank_moves, MATE_FEN, "no DTZ table of KQvK was added"),
            (tables.probe_wdl, "rnbqkbnr/pppppppp/8/8/8/8/PPPPPPPP/RNBQKBNR w - - 0 1", "no table of 32 men was added"),
            (tables.rank_moves, "k7/8/8/8/8/8/6R1/KBNNBR2 w", "no table of 8 men was added"),
            # a promotion leads to the next material's tables
            (tables.rank_moves, "8/1k2P3/8/8/8/8/8/K7 w", "no WDL table of K[RBN]vK was added"),
        ):
            assert re.fullmatch(said, str(pytest.raises(szg.MissingTableError, call, fen).value))
        assert issubclass(szg.MissingTableError, KeyError)
        assert tables.get_wdl(ROOK_FEN) is None and tables.get_wdl(ROOK_FEN, 7) == 7
        assert tables.get_dtz(MATE_FEN) is None and tables.get_dtz(MATE_FEN, "none") == "none"
        assert tables.probe_many([ROOK_FEN, MATE_FEN, "4k3/8/8/8/8/8/8/4K3 w"]) == [None, 2, 0]
    with szg.open_tablebase(FOLDERS[0], load_dtz=False) as tables:
        assert tables.get_wdl(MATE_FEN) == 2 and tables.get_dtz(MATE_FEN) is None
    with szg.open_tablebase(FOLDERS[0], load_wdl=False) as tables:
        assert tables.get_wdl(MATE_FEN) is None and tables.probe_dtz_table("4k3/8/4K3/4P3/8/8/8/8 w", 2)[1] == 1


def test_a_file_that_changes(tmp_path: Path) -> None:
    path, fen = tmp_path / "KQvK.rtbw", "7k/8/5K2/8/8/8/8/6Q1 b"
    path.write_bytes((ROOT / "samples" / path.name).read_bytes())
    with szg.open_tablebase(tmp_path) as tables:
        assert tables.probe_wdl(fen) == -2
        # the sparse index leads beyond the last block
        with path.open("r+b") as file:
            file.write(b"\xff" * path.stat().st_size)
        assert str(path) in str(pytest.raises(szg.Changed, tables.probe_wdl, fen).value)


@pytest.mark.parametrize("position, reason", [
    ("8/8/8/8/8/8/8/Q6k w", "Men"), ("K7/8/8/8/8/8/8/K6k w", "Men"), ("8/8/8/8/8/8/PPPPP3/KK6 w", "Men"), ("4K3/8/8/8/8/8/8/P6k w", "PawnRank"), ("7k/6Q1/5K2/8/8/8/8/8 w", "InCheck"),
    ([(6, True, 0), (6, False, 63), (5, True, 63)], "SameSquare"), ([(6, True, 0), (6, False, 63), (7, True, 5)], "Man"),
    ([(6, True, 0), (6, False, 63), (5, True, 64)], "Man"), ([(6, True, 0), (6, False, 63), (5, True, 256)], "Man"), ([], "Men"),
])
def test_what_is_no_position(tables: szg.Tablebase, position: object, reason: str) -> None:
    for call in (tables.probe_wdl, tables.get_wdl, tables.probe_dtz, tables.get_dtz, tables.rank_moves):
        caught = pytest.raises(szg.Untold, call, position, turn=True).value
        assert caught.reason == reason and caught.path is None and not isinstance(caught, KeyError)
    if isinstance(position, str):
        assert untold(tables.probe_many, [MATE_FEN, position]) == reason


def test_files_are_mapped_without_a_descriptor_and_given_back(folder: Path) -> None:
    def maps() -> set:
        return {line.split("/")[-1] for line in Path("/proc/self/maps").read_text().splitlines() if f"{folder}/" in line}
    (folder / "KPvK.rtbw").write_bytes((ROOT / "samples/KPvK.rtbw").read_bytes())
    before = len(os.listdir("/proc/self/fd"))
    tables = szg.open_tablebase(folder)
    assert maps() == set()
    tables.probe_wdl(QUEEN_FEN), tables.get_wdl("4k3/8/4K3/4P3/8/8/8/8 w")
    assert maps() == {"KQvK.rtbw", "KPvK.rtbw"} and len(os.listdir("/proc/self/fd")) == before
    tables.close()
    assert maps() == set()
    for call in (tables.probe_wdl, tables.get_wdl, tables.probe_dtz, tables.get_dtz, tables.rank_moves):
        assert is_closed(call, QUEEN_FEN)
    assert is_closed(tables.probe_many, [])


def test_a_bound_on_open_tables(tables: szg.Tablebase) -> None:
    """A position may need more tables than the bound. Then all are closed before the next one."""
    pawn = "8/1k2P3/8/8/8/8/8/K7 w"
    wanted = tables.rank_moves(pawn), tables.probe_dtz(MATE_FEN), tables.probe_wdl(ROOK_FEN)
    for bound in (1, 2, 3):
        with szg.Tablebase(max_tables=bound) as few:
            few.add_directory(tables._folders[0].path)
            for _ in range(3):
                assert (few.rank_moves(pawn), few.probe_dtz(MATE_FEN), few.probe_wdl(ROOK_FEN)) == wanted
                assert len(few._current.results._handle.lent) <= bound + 1
            # tables within the bound stay open
            handle = few._current.results._handle
            assert few.probe_wdl(ROOK_FEN) == wanted[2] and (bound > 1 or few._current.results._handle is handle)


def test_handles_are_closed(monkeypatch: pytest.MonkeyPatch) -> None:
    """Each handle of a tablebase is closed once, however it goes; no collection is waited for."""
    held, made = set(), [0]

    def note(handle: object) -> None:
        made[0] += 1
        held.add(handle.held)
    for name, at in (("szg_share_tablebase", 1), ("szg_tablebase_add", 0)):
        def call(*words, real=getattr(_library.library, name), at=at):
            held.discard(words[at].held)
            status = real(*words)
            note(words[at])
            return status
        monkeypatch.setattr(_library.library, name, call)

    def close(handle, real=_library.library.szg_close_tablebase):
        held.discard(handle.held)
        real(handle)
    assert hasattr(_library.TablebaseHandle, "__del__")
    monkeypatch.setattr(_library.TablebaseHandle, "__del__", close)
    tables = szg.open_tablebase(FOLDERS[0])
    tables.rank_moves("8/1k2P3/8/8/8/8/8/K7 w")
    assert made[0] > 4 and len(held) == 1
    tables.close()
    assert not held


def test_a_library_that_adds_nothing_is_not_asked_for_ever(monkeypatch: pytest.MonkeyPatch) -> None:
    monkeypatch.setattr(_library.library, "szg_tablebase_add", lambda *_: 0)
    monkeypatch.setattr(_library.library, "szg_share_tablebase", lambda *_: 0)
    with szg.open_tablebase(FOLDERS[0]) as tables:
        pytest.raises(RuntimeError, tables.probe_wdl, MATE_FEN)
