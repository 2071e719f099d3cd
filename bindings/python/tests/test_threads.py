"""Many threads use one object."""
import sys
import threading
from pathlib import Path
from typing import Callable, List

import pytest
import szg
from conftest import ROOT, UNPAIRED

SAMPLES = ROOT / "samples"
QUEEN_FEN, PAWN_FEN, KNIGHT_FEN = "4K3/8/8/8/8/8/8/Q6k w", "4k3/8/8/8/8/8/1P6/4K3 w", "4k3/8/8/8/8/8/8/N3K3 w"


@pytest.fixture(autouse=True)
def quick_switches():
    interval = sys.getswitchinterval()
    sys.setswitchinterval(1e-6)
    yield
    sys.setswitchinterval(interval)


def in_threads(count: int, ask: Callable[[int], None]) -> None:
    """Runs `ask` in threads at once; raises the first exception of any."""
    faults: List[BaseException] = []
    start = threading.Barrier(count)

    def run(number: int) -> None:
        try:
            start.wait()
            ask(number)
        except BaseException as error:
            faults.append(error)

    threads = [threading.Thread(target=run, args=(number,)) for number in range(count)]
    for thread in threads:
        thread.start()
    for thread in threads:
        thread.join()
    if faults:
        raise faults[0]


@pytest.mark.parametrize("is_mapped", [False, True])
def test_threads_use_one_table(queen_file: Path, is_mapped: bool) -> None:
    values = UNPAIRED.read.subs[0].all_values()
    with szg.Table.open(queen_file) if is_mapped else szg.Table("KQvK", "wdl", UNPAIRED.data) as table:
        def ask(number: int) -> None:
            for index in range(number, len(values), 31):
                assert table.get(index) == values[index]
                if index % 5 == 0:
                    assert table.probe_wdl(QUEEN_FEN) == 2 and table.size() == 31332
            assert table.values().tolist() == values and table.verify() == 4304

        in_threads(8, ask)


def close_in_use(opened, use: Callable[[int], object]) -> None:
    """Four threads use what a fifth closes once each has used it; then each finds it closed."""
    asked, closed = [0] * 4, [0] * 4

    def ask(number: int) -> None:
        if number == 4:
            while min(asked) < 3:
                pass
            opened.close()
            return
        while not closed[number]:
            try:
                use(number + 977 * asked[number])
                asked[number] += 1
            except ValueError as error:
                assert str(error) in ("the table is closed", "the tablebase is closed")
                closed[number] += 1
            except BaseException:
                asked[number] = 3  # or the fifth would wait for ever
                raise

    in_threads(5, ask)


@pytest.mark.parametrize("is_mapped", [False, True])
def test_a_table_is_closed_while_threads_use_it(queen_file: Path, is_mapped: bool) -> None:
    values = UNPAIRED.read.subs[0].all_values()
    for _ in range(30):
        table = szg.Table.open(queen_file) if is_mapped else szg.Table("KQvK", "wdl", bytearray(UNPAIRED.data))

        def use(number: int) -> None:
            assert table.get(number % len(values)) == values[number % len(values)] and table.probe_wdl(QUEEN_FEN) == 2

        close_in_use(table, use)


def test_threads_use_one_tablebase(folder: Path) -> None:
    for max_tables in (None, 1, 2):
        with szg.open_tablebase(folder, max_tables=max_tables) as tables:
            def ask(number: int) -> None:
                for _ in range(60):
                    assert tables.probe_wdl_table(QUEEN_FEN) == 2
                    assert tables.probe_dtz_table(PAWN_FEN, 2) == (600, 1)
                    assert tables.probe_wdl_table(KNIGHT_FEN) == tables.probe_wdl(KNIGHT_FEN) == 0
                    if number == 0:
                        tables.add_directory(folder)

            in_threads(6, ask)


def test_threads_open_tables_for_results() -> None:
    pawn = "8/1k2P3/8/8/8/8/8/K7 w"
    with szg.open_tablebase(SAMPLES) as tables:
        wanted = tables.rank_moves(pawn)
    for _ in range(20):
        for max_tables in (None, 1):
            with szg.open_tablebase(SAMPLES, max_tables=max_tables) as tables:
                def ask(number: int) -> None:
                    assert tables.rank_moves(pawn) == wanted and tables.probe_many([pawn] * 3) == [2] * 3

                in_threads(6, ask)


def test_a_tablebase_is_closed_while_threads_use_it(folder: Path) -> None:
    for _ in range(20):
        tables = szg.open_tablebase(folder)

        def use(_: int) -> None:
            assert tables.probe_wdl_table(QUEEN_FEN) == 2 and tables.probe_wdl(KNIGHT_FEN) == 0

        close_in_use(tables, use)


def test_a_handle_serves_one_call_at_a_time() -> None:
    """No two calls that run at once have one handle: each call of six threads returns once all six are in a call."""
    with szg.Table("KQvK", "wdl", UNPAIRED.data) as table:
        handles, together, busy = table._front, threading.Barrier(6, timeout=100), [set() for _ in range(20)]

        def slow(handle, turn: int) -> int:
            busy[turn].add(id(handle))
            together.wait()
            return 0

        in_threads(6, lambda number: [handles(slow, turn) for turn in range(20)] and None)
        assert [len(at_once) for at_once in busy] == [6] * 20
        assert len(handles._idle) <= 6
