"""Folders of tables."""
import copy
import os
import pickle
from pathlib import Path

import pytest
import szg
from conftest import PAIRED, UNPAIRED, is_closed, untold
from stand_in import Board
from szg import BLACK, KING, QUEEN, WHITE

QUEEN_MEN = [(KING, WHITE, 60), (QUEEN, WHITE, 0), (KING, BLACK, 7)]
QUEEN_FEN, ROOK_FEN = "4K3/8/8/8/8/8/8/Q6k w", "4K3/8/8/8/8/8/8/R6k w"
# where no king is in check, for results
QUEEN_POSITION, ROOK_POSITION = "4K3/8/8/8/8/8/7k/Q7 w", "4K3/8/8/8/8/8/7k/R7 w"
PAWN_FEN, KNIGHT_FEN = "4k3/8/8/8/8/8/1P6/4K3 w", "4k3/8/8/8/8/8/8/N3K3 w"


def test_a_folder_of_tables(folder: Path) -> None:
    with szg.open_tablebase(folder) as tables:
        assert repr(tables) == "<szg.Tablebase with 3 tables>"
        assert [tables.probe_wdl_table(Board.of(QUEEN_MEN, turn)) for turn in (WHITE, BLACK)] == [2, 0]
        assert tables.probe_wdl_table(QUEEN_MEN, WHITE) == tables.probe_wdl_table(QUEEN_FEN) == 2
        # colours exchanged, and the name with them
        assert tables.probe_wdl_table("4k3/8/8/8/8/8/8/q6K b") == 2
        assert tables.probe_dtz_table(PAWN_FEN, 2) == (600, 1)
        assert tables.probe_dtz_table("4k3/1p6/8/8/8/8/8/4K3 b", 2) == (600, 1)
        assert tables.probe_dtz_table(PAWN_FEN.replace("w", "b"), 2) == (0, -1)
        assert tables.probe_wdl_table("4k3/8/8/8/8/8/8/4K3 w") == 0


def test_missing_tables(folder: Path) -> None:
    with szg.open_tablebase(str(folder)) as tables:
        for fen, said in ((ROOK_FEN, "no WDL table of KRvK was added"), (PAWN_FEN, "no WDL table of KPvK was added"),
                          ("rnbqkbnr/pppppppp/8/8/8/8/PPPPPPPP/RNBQKBNR w", "no table of 32 men was added")):
            caught = pytest.raises(szg.MissingTableError, tables.probe_wdl_table, fen).value
            assert isinstance(caught, KeyError) and str(caught) == said
        for fen, said in ((ROOK_FEN, "no DTZ table of KRvK was added"), (QUEEN_FEN, "no DTZ table of KQvK was added"),
                          ("4k3/8/8/8/8/8/8/4K3 w", "no DTZ table has two kings alone")):
            assert str(pytest.raises(szg.MissingTableError, tables.probe_dtz_table, fen, 2).value) == said
        for fen, reason in (("8/8/8/8/8/8/8/Q6k w", "Men"), ("K7/8/8/8/8/8/8/K6k w", "Men")):
            for words in ((tables.probe_wdl_table, fen), (tables.probe_dtz_table, fen, 2)):
                assert untold(*words) == reason
        for kind in (0, 7):
            assert untold(tables.probe_wdl_table, [(kind, True, 0), (KING, True, 1), (KING, False, 60)], True) == "Man"
        for wdl, reason in ((0, "Draw"), (-1, "OutsideMap")):
            assert untold(tables.probe_dtz_table, "4k3/8/8/8/8/8/P7/4K3 w", wdl) == reason
        for wdl in (3, -3):
            pytest.raises(ValueError, tables.probe_dtz_table, PAWN_FEN, wdl)
        pytest.raises(TypeError, tables.probe_dtz_table, PAWN_FEN, True)
        pytest.raises(TypeError, tables.probe_wdl_table, 7)


def test_what_is_loaded(folder: Path, tmp_path: Path) -> None:
    tables = szg.Tablebase()
    assert tables.add_directory(folder, load_dtz=False) == 2
    pytest.raises(szg.MissingTableError, tables.probe_dtz_table, PAWN_FEN, 2)
    assert tables.add_directory(folder, load_wdl=False) == 1
    assert tables.probe_dtz_table(PAWN_FEN, 2) == (600, 1)
    assert tables.add_directory(tmp_path) == 0
    pytest.raises(FileNotFoundError, tables.add_directory, tmp_path / "none")
    pytest.raises(FileNotFoundError, szg.open_tablebase, tmp_path / "none")
    for number in (0, -1):
        pytest.raises(ValueError, szg.Tablebase, max_tables=number)
    for wrong in (None, 3, [folder]):
        pytest.raises(TypeError, tables.add_directory, wrong)
        pytest.raises(TypeError, szg.open_tablebase, wrong)
    assert szg.Tablebase().add_directory(os.fsencode(folder)) == 3


def test_the_folder_that_was_added_last_serves(folder: Path, other: Path) -> None:
    with szg.open_tablebase(folder) as tables:
        for value in 0, 2:
            assert tables.probe_wdl_table(KNIGHT_FEN) == tables.probe_wdl(KNIGHT_FEN) == value and tables.probe_wdl_table(QUEEN_FEN) == 2
            tables.add_directory(other)


def test_errors_name_the_file(folder: Path) -> None:
    (folder / "KRvK.rtbw").rmdir()
    for data, place in ((b"", 0), (PAIRED.data[:200], 6)):
        (folder / "KRvK.rtbw").write_bytes(data)
        with szg.open_tablebase(folder) as tables:
            for call in (tables.probe_wdl_table, tables.probe_wdl_table, tables.probe_wdl, tables.get_wdl, tables.probe_dtz, tables.rank_moves):
                caught = pytest.raises(szg.Refused, call, ROOK_POSITION).value
                assert caught.reason in ("Truncated", "Pieces") and (caught.place, caught.path) == (place, str(folder / "KRvK.rtbw"))
                assert str(caught).startswith(f"{folder / 'KRvK.rtbw'}: refused at ")
            assert tables.probe_wdl_table(QUEEN_FEN) == 2 and tables.probe_wdl(KNIGHT_FEN) == 0
    (folder / "KRvK.rtbw").unlink()
    with szg.open_tablebase(folder) as tables:
        (folder / "KQvK.rtbw").unlink()
        pytest.raises(FileNotFoundError, tables.probe_wdl_table, QUEEN_POSITION)
        assert pytest.raises(FileNotFoundError, tables.get_wdl, QUEEN_POSITION).value.filename == str(folder / "KQvK.rtbw")
    # a constant table of a class that isn't one
    (folder / "KNvK.rtbw").write_bytes((folder / "KNvK.rtbw").read_bytes()[:11] + b"\x07" + (folder / "KNvK.rtbw").read_bytes()[12:])
    with szg.open_tablebase(folder) as tables:
        caught = pytest.raises(szg.Untold, tables.get_wdl, KNIGHT_FEN).value
        assert (caught.reason, caught.path) == ("NoClass", str(folder / "KNvK.rtbw"))
        assert str(caught) == f"{folder / 'KNvK.rtbw'}: the table has no entry: NoClass"


def test_a_bad_block_spoils_no_other_probe(folder: Path) -> None:
    sub, data, paired = PAIRED.read.subs[0], bytearray(PAIRED.data), szg.Table("KQvK", "wdl", PAIRED.data)
    block = max(number for number in range(sub.block_count) if sub.starts[number] <= paired.index(QUEEN_POSITION).index)
    at = sub.place + (block << sub.block_bits)
    data[at:at + (1 << sub.block_bits)] = bytes(1 << sub.block_bits)
    (folder / "KQvK.rtbw").write_bytes(data)
    with szg.open_tablebase(folder) as tables:
        for call in (tables.probe_wdl_table, tables.probe_wdl, tables.get_wdl):
            caught = pytest.raises(szg.BadBlock, call, QUEEN_POSITION).value
            assert (caught.block, caught.offset, caught.path) == (block, at, str(folder / "KQvK.rtbw"))
        assert tables.probe_wdl_table(QUEEN_POSITION, False) == tables.probe_wdl(QUEEN_POSITION, False) == paired.probe_wdl(QUEEN_POSITION, False)
        assert tables.probe_dtz_table(PAWN_FEN, 2) == (600, 1) and tables.probe_wdl(KNIGHT_FEN) == 0


def test_a_link_serves_by_its_own_name(folder: Path, tmp_path: Path) -> None:
    store = tmp_path / "store"
    store.mkdir()
    (store / "KRvK.rtbz").write_bytes(UNPAIRED.data)
    (folder / "KQvK.rtbw").unlink()
    (folder / "KQvK.rtbw").symlink_to(store / "KRvK.rtbz")
    with szg.open_tablebase(folder) as tables:
        assert tables.probe_wdl_table(QUEEN_FEN) == 2


def test_relative_folders_stay(folder: Path) -> None:
    at = os.getcwd()
    try:
        os.chdir(folder.parent)
        tables = szg.open_tablebase(folder.name)
        os.chdir(folder)
        assert tables.probe_wdl_table(QUEEN_FEN) == 2
    finally:
        os.chdir(at)


def test_a_bound_on_open_tables(folder: Path) -> None:
    with szg.open_tablebase(folder, max_tables=1) as tables:
        for _ in range(3):
            assert tables.probe_wdl_table(QUEEN_FEN) == 2
            assert tables.probe_dtz_table(PAWN_FEN, 2) == (600, 1)
            assert list(tables._current.tables) == [("KPvK", "dtz")]
    with szg.open_tablebase(folder) as tables:
        tables.probe_wdl_table(QUEEN_FEN), tables.probe_dtz_table(PAWN_FEN, 2)
        assert len(tables._current.tables) == 2


def test_what_goes_wrong_between_calls(folder: Path, other: Path, monkeypatch: pytest.MonkeyPatch) -> None:
    """A call that comes in the middle of another one: it closes, it adds a folder, it opens the same table."""
    fen, opening = KNIGHT_FEN, szg.Table.open
    for bound in (None, 1):
        for what in ("close", "add", "probe"):
            tables, comes = szg.open_tablebase(folder, max_tables=bound), [True]
            assert tables.probe_wdl_table(QUEEN_FEN) == 2

            def opened(path: str) -> szg.Table:
                if comes.pop() if comes else False:
                    {"close": tables.close, "add": lambda: tables.add_directory(other), "probe": lambda: tables.probe_wdl_table(fen)}[what]()
                return opening(path)
            with monkeypatch.context() as patch:
                patch.setattr(szg.Table, "open", opened)
                # the call that is interrupted goes on with the folders that it began with
                assert tables.probe_wdl_table(fen) == 0
            if what == "close":
                assert is_closed(tables.probe_wdl_table, fen)
            else:
                assert tables.probe_wdl_table(fen) == (2 if what == "add" else 0)
            assert not comes
            tables.close()
            assert not tables._current.tables


def test_which_tables_were_added(folder: Path, other: Path) -> None:
    added = [("KNvK", "wdl"), ("KPvK", "dtz"), ("KQvK", "wdl")]
    with szg.open_tablebase(folder) as tables:
        assert tables.tables == added and tables.most_men == 3
        (other / "KQRBvKN.rtbw").touch()
        assert tables.add_directory(folder) == 3 and tables.add_directory(other) == 2
        assert tables.tables == sorted([*added, ("KQRBvKN", "wdl")]) and tables.most_men == 6
    with szg.open_tablebase(folder, load_wdl=False) as tables:
        assert tables.tables == [("KPvK", "dtz")] and tables.most_men == 0
    assert is_closed(lambda: tables.tables) and is_closed(lambda: tables.most_men)


def test_other_files_hide_no_folder(folder: Path) -> None:
    for name in (".rtbw", ".rtbz", "..rtbw", "KQvK", "KNvK.rtbz.rtbz"):
        (folder / name).write_bytes(UNPAIRED.data)
    (folder / "KRvK.rtbz").symlink_to("nowhere")
    (folder / "KBvK.rtbw").symlink_to("KBvK.rtbw")
    os.mkfifo(folder / "KPvK.rtbw")
    os.mkfifo(os.fsencode(folder) + b"/K\xffvK.rtbw")
    with szg.open_tablebase(folder) as tables:
        assert repr(tables) == "<szg.Tablebase with 3 tables>"
        assert tables.probe_wdl_table(QUEEN_FEN) == 2 and tables.get_wdl("8/8/8/8/8/8/1P5k/4K3 w") is None
    assert repr(tables) == "<szg.Tablebase with 0 tables, closed>"


@pytest.mark.parametrize("again", [copy.copy, copy.deepcopy, lambda tables: pickle.loads(pickle.dumps(tables))])
def test_a_copy_has_the_same_folders(folder: Path, other: Path, again, monkeypatch: pytest.MonkeyPatch) -> None:
    monkeypatch.chdir(folder.parent)
    tables = szg.open_tablebase(folder.name, load_dtz=False, max_tables=1)
    tables.add_directory("other", load_wdl=False), tables.add_directory("other")
    monkeypatch.chdir("/")
    second = again(tables)
    tables.close()
    assert second.probe_wdl_table(KNIGHT_FEN) == second.probe_wdl_table(QUEEN_FEN) == 2
    pytest.raises(szg.MissingTableError, second.probe_dtz_table, PAWN_FEN, 2)
    assert repr(second) == "<szg.Tablebase with 2 tables>" and list(second._current.tables) == [("KQvK", "wdl")]
    assert is_closed(again, tables)


def test_a_closed_tablebase(folder: Path) -> None:
    with pytest.raises(ZeroDivisionError):
        with szg.open_tablebase(folder) as tables:
            tables.probe_wdl_table(QUEEN_FEN)
            raise ZeroDivisionError
    tables.close()
    for call in (lambda: tables.probe_wdl_table(QUEEN_FEN), lambda: tables.probe_dtz_table(PAWN_FEN, 2), lambda: tables.add_directory(folder)):
        assert is_closed(call)


def test_names_of_materials(tmp_path: Path) -> None:
    names = ["KQvKR", "KRvKQ", "KNNvKB", "KBvKNN", "KBPvKN", "KQQvKQ", "KRvKR", "KPvKP", "KvK", "KQRBNvK", "KQRBNPvK", "KQPvKRR", "KRRvKQP", "KNBvK",
             "KQvKRv", "QKvK", "KQvKR.old", "kqvk"]
    for name in names:
        (tmp_path / f"{name}.rtbw").write_bytes(b"")
    (tmp_path / "KQvKR.RTBW").write_bytes(b"")
    with szg.open_tablebase(tmp_path) as tables:
        assert sorted(name for name, _ in tables._files().paths) == sorted(
            ["KQvKR", "KNNvKB", "KBPvKN", "KQQvKQ", "KRvKR", "KPvKP", "KQRBNvK", "KQPvKRR"])
        # each is asked by both colours
        for fen in ("4k3/8/8/8/8/8/8/nn2K2B w", "4k3/8/8/8/8/8/8/NN2K2b w", "4k3/8/8/8/8/8/8/q3K2R b"):
            pytest.raises(szg.Refused, tables.probe_wdl_table, fen)
