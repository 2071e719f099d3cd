"""Single tables, held against the second reader."""
import array
import copy
import ctypes
import gc
import mmap
import os
import pickle
import resource
import struct
from pathlib import Path

import pytest
import szg
import table_reader
from conftest import DAMAGED, PAIRED, PAWN, UNPAIRED, Sample, is_closed, refused, says, untold
from damaged_files import Damaged
from stand_in import Board
from szg import BLACK, KING, QUEEN, WHITE, _library, _mapped

QUEEN_MEN = [(KING, WHITE, 60), (QUEEN, WHITE, 0), (KING, BLACK, 7)]
PAWN_MEN = [(KING, WHITE, 4), (szg.PAWN, WHITE, 12), (KING, BLACK, 60)]
SPOT_VALUES = 101


def pawn_on(square: int) -> list:
    return [(KING, WHITE, 4), (szg.PAWN, WHITE, square), (KING, BLACK, 60)]


def opened(sample: Sample, tmp_path, way: str) -> szg.Table:
    if way == "bytes":
        return szg.Table(sample.name, sample.kind, sample.data)
    path = tmp_path / sample.file_name
    path.write_bytes(sample.data)
    return szg.Table.open(path if way == "path" else str(path))


@pytest.mark.parametrize("way", ["bytes", "path", "text of a path"])
def test_values_are_the_second_readers(each_sample: Sample, tmp_path, way: str) -> None:
    with opened(each_sample, tmp_path, way) as table:
        assert (table.name, table.kind) == (each_sample.name, each_sample.kind)
        path = "" if way == "bytes" else f" {str(tmp_path / each_sample.file_name)!r}"
        assert repr(table) == f"<szg.Table {each_sample.name} {each_sample.kind}{path}>"
        for sub in each_sample.read.subs:
            assert table.size(sub.part, sub.side) == sub.size
            assert table.values(sub.part, sub.side).tolist() == sub.all_values()
            for index in [*range(0, sub.size, SPOT_VALUES), sub.size - 1]:
                assert table.get(index, sub.part, sub.side) == sub.value(index)
            for index in (sub.size, -1, 1 << 64, 1 << 70):
                pytest.raises(IndexError, table.get, index, sub.part, sub.side)
        for part, side in ((4, 0), (0, 2), (256, 0), (0, 256), (-1, 0), (0, -1)):
            for call in (table.size, table.values, lambda part, side: table.get(0, part, side)):
                pytest.raises(IndexError, call, part, side)
        assert table.verify() == len(each_sample.data)
    assert repr(table) == f"<szg.Table {each_sample.name} {each_sample.kind}{path}, closed>"


def test_values_are_a_buffer_of_their_own() -> None:
    with szg.Table("KQvK", "wdl", UNPAIRED.data) as table:
        values = table.values()
    assert (values.format, values.itemsize, values.ndim, values.shape) == ("H", 2, 1, (31332,))
    assert values.tolist() == UNPAIRED.read.subs[0].all_values()
    numpy = pytest.importorskip("numpy")
    listed = numpy.asarray(values)
    assert listed.dtype == numpy.uint16 and numpy.shares_memory(listed, numpy.frombuffer(values, numpy.uint16))
    assert listed.tolist() == values.tolist()


def test_all_values_take_one_list() -> None:
    """35 MB of values, where a second list of them has no room."""
    data = bytes.fromhex("71e8235d01" + "00" + "665555 55ee 00" + "8002 8002")
    limits = resource.getrlimit(resource.RLIMIT_AS)
    with szg.Table("KQQQvK", "wdl", data.ljust(64, b"\0") + bytes(16)) as table:
        size = 2 * table.size()
        taken = int(Path("/proc/self/statm").read_text().split()[0]) * resource.getpagesize()
        resource.setrlimit(resource.RLIMIT_AS, (taken + size * 3 // 2, limits[1]))
        try:
            values = table.values()
        finally:
            resource.setrlimit(resource.RLIMIT_AS, limits)
    assert values.nbytes == size > 30 << 20 and set(values[::997]) == {2}


def test_any_bytes_like_object_is_taken(tmp_path) -> None:
    path = tmp_path / "file"
    path.write_bytes(PAIRED.data)
    with path.open("rb") as file:
        read_only = mmap.mmap(file.fileno(), 0, access=mmap.ACCESS_READ)
    words = memoryview(array.array("I", struct.unpack(f"={len(PAIRED.data) // 4}I", PAIRED.data)))
    assert words.format == "I"
    for data in (PAIRED.data, bytearray(PAIRED.data), memoryview(PAIRED.data), memoryview(bytearray(PAIRED.data)), read_only, words):
        with szg.Table("KQvK", "wdl", data) as table:
            assert table.values().tolist() == PAIRED.read.subs[0].all_values()
            assert table.verify() == len(PAIRED.data)


def test_lent_memory_is_given_back() -> None:
    data = bytearray(PAIRED.data)
    table = szg.Table("KQvK", "wdl", data)
    pytest.raises(BufferError, data.append, 0)
    table.close()
    gc.collect()
    data.append(0)
    pytest.raises(szg.Refused, szg.Table, "KQvK", "dtz", data)
    gc.collect()
    data.append(0)


@pytest.mark.parametrize("data", ["text", 7, None, [1, 2], memoryview(PAIRED.data)[::2]])
def test_what_is_not_bytes_is_a_type_error(data: object) -> None:
    says(TypeError, "^data must be a contiguous bytes-like object, not ", szg.Table, "KQvK", "wdl", data)


def test_an_array_that_is_not_contiguous_is_a_type_error(monkeypatch: pytest.MonkeyPatch) -> None:
    """numpy raises ValueError for one."""
    def refuse(*_: object) -> None:
        raise ValueError("ndarray is not C-contiguous")
    with monkeypatch.context() as patch:
        patch.setattr(_library._python, "PyObject_GetBuffer", refuse)
        says(TypeError, "^data must be a contiguous bytes-like object, not bytes$", szg.Table, "KQvK", "wdl", PAIRED.data)
    numpy = pytest.importorskip("numpy")
    square = numpy.zeros((70, 70), numpy.uint8)
    for wrong in (square[::2], square.T, square[:, 1:]):
        says(TypeError, "^data must be a contiguous bytes-like object, not ndarray$", szg.Table, "KQvK", "wdl", wrong)


def test_another_package_has_its_own_argument_types() -> None:
    class View(ctypes.Structure):
        _fields_ = [("buf", ctypes.c_void_p)]
    calls = ctypes.pythonapi.PyObject_GetBuffer, ctypes.pythonapi.PyBuffer_Release
    before = [(call.argtypes, call.restype) for call in calls]
    data = bytearray(PAIRED.data)
    try:
        for call in calls:
            call.argtypes, call.restype = [ctypes.POINTER(View)], ctypes.c_void_p
        szg.Table("KQvK", "wdl", data).close()
        gc.collect()
    finally:
        for call, (arguments, result) in zip(calls, before):
            call.argtypes, call.restype = arguments, result
    data.append(0)


def test_each_reason_with_its_byte(each_damaged: Damaged, tmp_path) -> None:
    """Opening finds each fault but one in a block, which `verify` finds."""
    name, kind, data = each_damaged.name, each_damaged.kind, each_damaged.data
    path = tmp_path / f"{name}.{'rtbw' if kind == 'wdl' else 'rtbz'}"
    path.write_bytes(data)
    opening = [lambda: szg.Table(name, kind, data), lambda: szg.Table.open(path)]
    calls = [lambda: szg.Table(name, kind, data, verify=True), lambda: szg.Table.open(path, verify=True)]
    if each_damaged.reason == "Word":
        calls += [lambda: opening[0]().verify(), lambda: opening[1]().verify()]
    else:
        calls += opening
    for number, call in enumerate(calls):
        with pytest.raises(szg.Refused) as caught:
            call()
        assert (caught.value.place, caught.value.reason) == (each_damaged.place, each_damaged.reason)
        # bytes and files in turn
        of_file = number % 2 == 1
        assert caught.value.path == (str(path) if of_file else None)
        assert str(caught.value) == f"{path}: " * of_file + f"refused at {each_damaged.place}: {each_damaged.reason}"
        assert isinstance(caught.value, ValueError)


def test_opening_looks_at_no_block(tmp_path) -> None:
    """Whatever the blocks are, the table is opened, and refused with `verify`."""
    sub = PAIRED.read.subs[0]
    data = bytearray(PAIRED.data)
    data[sub.place:sub.place + (sub.block_count << sub.block_bits)] = bytes(sub.block_count << sub.block_bits)
    path = tmp_path / "KQvK.rtbw"
    path.write_bytes(data)
    for table, of_file in ((szg.Table("KQvK", "wdl", data), None), (szg.Table.open(path), str(path))):
        assert table.size() == sub.size and table.index(QUEEN_MEN, WHITE).index == 11711
        for call in (lambda: table.get(11711), lambda: table.probe_wdl(QUEEN_MEN, WHITE)):
            with pytest.raises(szg.BadBlock) as caught:
                call()
            assert caught.value.offset == sub.place + (caught.value.block << sub.block_bits)
            assert caught.value.path == of_file
        for call in (table.verify, table.values):
            assert refused(call) == (sub.place, "Word")


def test_a_bad_block_is_one_sentence() -> None:
    error = szg.BadBlock(3, 320)
    assert (error.block, error.offset, error.path, str(error)) == (3, 320, None, "block 3 at 320 does not decode")
    assert str(szg.BadBlock(3, 320, "KQvK.rtbw")) == "KQvK.rtbw: block 3 at 320 does not decode"
    assert isinstance(error, ValueError) and not isinstance(error, szg.Refused)


def test_all_reasons_are_tried() -> None:
    """The second reader refuses the files alike."""
    assert len({case.reason for case in DAMAGED}) == 18
    for case in DAMAGED:
        caught = pytest.raises(table_reader.Refused, table_reader.Reader(case.name, case.kind, case.data).read).value
        assert (caught.place, caught.reason) == (case.place, case.reason)


def test_verify_sees_the_bytes_as_they_are(tmp_path) -> None:
    data = bytearray(PAIRED.data)
    with szg.Table("KQvK", "wdl", data) as table:
        data[0] = 0
        assert refused(table.verify) == (0, "Magic")
    path = tmp_path / "KQvK.rtbw"
    path.write_bytes(PAIRED.data)
    with szg.Table.open(path) as table:
        with path.open("r+b") as file:
            file.seek(256)
            file.write(bytes(32))
        assert refused(table.verify) == (256, "Word")
        with pytest.raises(szg.BadBlock) as bad:
            table.get(15000)
        assert (bad.value.block, bad.value.offset) == (0, 256)
        assert isinstance(szg.Changed(), ValueError)
        # the other block is as it was
        assert table.get(31331) == PAIRED.read.subs[0].value(31331)


def test_an_empty_file_is_refused(tmp_path) -> None:
    path = tmp_path / "KQvK.rtbw"
    path.write_bytes(b"")
    for call in (lambda: szg.Table.open(path), lambda: szg.Table("KQvK", "wdl", b""), lambda: szg.Table("KQvK", "wdl", bytearray())):
        assert refused(call) == (0, "Truncated")


def test_names_and_kinds(tmp_path) -> None:
    for name in ("KvKQ", "", "KQvK\0", "KQvK ", "K\udcffvK", "QvK"):
        says(ValueError, "is no material's name$", szg.Table, name, "wdl", UNPAIRED.data)
    says(ValueError, "^kind must be 'wdl' or 'dtz', not 'WDL'$", szg.Table, "KQvK", "WDL", UNPAIRED.data)
    says(TypeError, "^name must be a str, not bytes$", szg.Table, b"KQvK", "wdl", UNPAIRED.data)
    says(ValueError, "must end with .rtbw or .rtbz$", szg.Table.open, tmp_path / "KQvK.bin")
    pytest.raises(FileNotFoundError, szg.Table.open, tmp_path / "KQvK.rtbw")
    for wrong in (7, None, [tmp_path]):
        pytest.raises(TypeError, szg.Table.open, wrong)
    with pytest.raises(IsADirectoryError) as caught:
        (tmp_path / "KRvK.rtbw").mkdir()
        szg.Table.open(tmp_path / "KRvK.rtbw")
    assert str(tmp_path / "KRvK.rtbw") in str(caught.value)
    (tmp_path / "KBvK.rtbw").symlink_to("/dev/zero")
    with pytest.raises(OSError, match="not a regular file"):
        szg.Table.open(tmp_path / "KBvK.rtbw")


def test_a_mapped_table_keeps_no_descriptor(queen_file: Path) -> None:
    """A thousand tables where sixteen more files may be open; they are unmapped when they go."""
    def maps() -> int:
        return Path("/proc/self/maps").read_text().count(str(queen_file))
    limits = resource.getrlimit(resource.RLIMIT_NOFILE)
    resource.setrlimit(resource.RLIMIT_NOFILE, (len(os.listdir("/proc/self/fd")) + 16, limits[1]))
    try:
        tables = [szg.Table.open(queen_file) for _ in range(1000)]
    finally:
        resource.setrlimit(resource.RLIMIT_NOFILE, limits)
    assert maps() == 1000 and all(table.get(11711) == 4 for table in tables)
    tables[0].close()
    assert maps() == 999
    del tables
    assert maps() == 0


def test_a_file_that_the_system_maps_not_is_its_error(queen_file: Path, monkeypatch: pytest.MonkeyPatch) -> None:
    def refuse(*_: int) -> int:
        ctypes.set_errno(12)
        return (1 << 64) - 1
    lost = len(_mapped._lost)
    monkeypatch.setattr(_mapped._system, "mmap", refuse)
    with pytest.raises(OSError) as caught:
        szg.Table.open(queen_file)
    assert str(caught.value) == f"[Errno 12] Cannot allocate memory: {str(queen_file)!r}"
    # what is there by now is another's
    assert len(_mapped._lost) == lost + 1


@pytest.mark.parametrize("way", ["bytes", "path", "text of a path"])
@pytest.mark.parametrize("again", [copy.copy, copy.deepcopy, lambda table: pickle.loads(pickle.dumps(table))])
def test_a_copy_is_a_table_of_its_own(tmp_path: Path, way: str, again, monkeypatch: pytest.MonkeyPatch) -> None:
    monkeypatch.chdir(tmp_path)
    table = opened(UNPAIRED, Path("."), way)
    monkeypatch.chdir("/")
    second = again(table)
    assert (type(second), second.name, second.kind, repr(second)) == (szg.Table, "KQvK", "wdl", repr(table))
    table.close()
    assert second.get(11711) == 4 and second.values().tolist() == UNPAIRED.read.subs[0].all_values()
    assert is_closed(again, table)


def test_a_copy_has_its_class(queen_file: Path) -> None:
    own = type("Own", (szg.Table,), {})
    for one in (own.open(queen_file), own("KQvK", "wdl", UNPAIRED.data), type("Own", (szg.Tablebase,), {})()):
        assert type(copy.copy(one)) is type(one)


def test_a_closed_table(each_sample: Sample, tmp_path) -> None:
    for way in ("bytes", "path"):
        table = opened(each_sample, tmp_path, way)
        table.close()
        table.close()
        calls = [lambda: table.get(0), table.size, table.values, table.verify, lambda: table.index(QUEEN_MEN, WHITE)]
        if each_sample.kind == "wdl":
            calls.append(lambda: table.probe_wdl(QUEEN_MEN, WHITE))
        else:
            calls += [lambda: table.probe_dtz(PAWN_MEN, WHITE, wdl=2), lambda: table.number(0, wdl=2)]
        for call in calls:
            assert is_closed(call)


def test_a_with_block_lets_exceptions_through() -> None:
    with pytest.raises(ZeroDivisionError):
        with szg.Table("KQvK", "wdl", UNPAIRED.data) as table:
            raise ZeroDivisionError
    assert is_closed(table.get, 0)


@pytest.mark.parametrize("way", ["bytes", "path"])
def test_probe_wdl(tmp_path, way: str) -> None:
    with opened(UNPAIRED, tmp_path, way) as table:
        # e8 a1 h1 is flipped to d1 h8 a8, which is 11711 by the numbering of the format
        assert table.index(Board.of(QUEEN_MEN, WHITE)) == szg.Spot(0, 0, 11711)
        assert table.index(iter(QUEEN_MEN), BLACK) == szg.Spot(0, 1, 11711)
        assert [table.probe_wdl(Board.of(QUEEN_MEN, turn)) for turn in (WHITE, BLACK)] == [2, 0]
        assert table.probe_wdl(QUEEN_MEN, WHITE) == table.get(11711) - 2
        # the colours exchanged: the side of the name's first side is Black's
        exchanged = [(kind, not color, square) for kind, color, square in QUEEN_MEN]
        assert [table.index(exchanged, turn).side for turn in (WHITE, BLACK)] == [1, 0]
        assert [table.probe_wdl(exchanged, turn) for turn in (WHITE, BLACK)] == [0, 2]
        says(ValueError, "^KQvK is a WDL table, and this call needs a DTZ table$", table.probe_dtz, QUEEN_MEN, WHITE, wdl=2)
        says(ValueError, "needs a DTZ table$", table.number, 0, wdl=2)


@pytest.mark.parametrize("way", ["bytes", "path"])
def test_probe_dtz(tmp_path, way: str) -> None:
    with opened(PAWN, tmp_path, way) as table:
        # by the maps of the sample: 7 moves in part a, 300 in part b, no map in part c
        assert [table.number(0, wdl=2, part=part) for part in range(3)] == [14, 600, 0]
        assert table.number(7, wdl=-1, part=3) == 14
        for square, distance in ((10, 0), (9, 600), (8, 14)):
            for board in (Board.of(pawn_on(square), WHITE), pawn_on(square)):
                assert table.probe_dtz(board, WHITE, wdl=2) == distance
            assert table.index(pawn_on(square), WHITE).part == square - 8
        # White's pawn on e2, kings on e1 and e8: the leading pawn of a placement is on the files a to d
        assert table.index(PAWN_MEN, WHITE) == (3, 0, 21564)
        men, turn = table.placement(3, 0, 21564)
        assert sorted(men) == [(szg.PAWN, WHITE, 11), (KING, BLACK, 59), (KING, WHITE, 3)] and turn is WHITE
        flipped = [(kind, not color, square ^ 56) for kind, color, square in PAWN_MEN]
        assert table.index(flipped, BLACK) == (3, 0, 21564)
        for wdl, turn, reason in ((-1, WHITE, "OutsideMap"), (0, WHITE, "Draw"), (2, BLACK, "WrongSide")):
            assert untold(table.probe_dtz, pawn_on(8), turn, wdl=wdl) == reason
        for wdl in (3, -3, 2 + 256):
            for call in (lambda: table.probe_dtz(PAWN_MEN, WHITE, wdl=wdl), lambda: table.number(0, wdl=wdl)):
                says(ValueError, "^wdl must be from -2 to 2, not ", call)
        for value in (-1, 1 << 16):
            pytest.raises(IndexError, table.number, value, wdl=2)
        pytest.raises(IndexError, table.number, 0, wdl=2, part=4)
        assert untold(table.number, 1, wdl=2) == "OutsideMap"
        says(ValueError, "^KPvK is a DTZ table, and this call needs a WDL table$", table.probe_wdl, PAWN_MEN, WHITE)


def test_the_class_of_a_dtz_probe_is_a_keyword_and_an_integer() -> None:
    with szg.Table("KPvK", "dtz", PAWN.data) as table:
        pytest.raises(TypeError, table.probe_dtz, PAWN_MEN, WHITE)
        pytest.raises(TypeError, table.probe_dtz, PAWN_MEN, WHITE, 2)
        pytest.raises(TypeError, table.number, 0, 2)
        for wdl in (True, 2.0, "2", None):
            says(TypeError, f"^wdl must be an integer, not {type(wdl).__name__}$", table.probe_dtz, PAWN_MEN, WHITE, wdl=wdl)


def test_wrong_types_of_numbers() -> None:
    with szg.Table("KQvK", "wdl", UNPAIRED.data) as table:
        for wrong in ("0", 0.0, None, True):
            for what, call in (("index", lambda: table.get(wrong)), ("part", lambda: table.size(wrong)),
                               ("side", lambda: table.values(0, wrong))):
                says(TypeError, f"^{what} must be an integer, not {type(wrong).__name__}$", call)
        numpy = pytest.importorskip("numpy")
        assert table.get(numpy.uint32(11711)) == 4


@pytest.mark.parametrize("reason, men", [
    ("Man", [(KING, WHITE, 60), (QUEEN + 256, WHITE, 0), (KING, BLACK, 7)]),
    ("Man", [(KING, WHITE, 60), (QUEEN, WHITE, -1), (KING, BLACK, 7)]),
    ("Man", [(KING, WHITE, 60), (QUEEN, WHITE, 64), (KING, BLACK, 7)]),
    ("Men", []),
    ("Men", QUEEN_MEN + [(szg.KNIGHT, BLACK, square) for square in range(20, 24)]),
    ("OtherMaterial", [(KING, WHITE, 60), (szg.KNIGHT, WHITE, 0), (KING, BLACK, 7)]),
])
def test_men_that_have_no_index(reason: str, men: list) -> None:
    with szg.Table("KQvK", "wdl", UNPAIRED.data) as table:
        for call in (table.probe_wdl, table.index):
            assert untold(call, men, WHITE) == reason


def test_an_index_has_a_placement_that_has_the_index(each_sample: Sample) -> None:
    with szg.Table(each_sample.name, each_sample.kind, each_sample.data) as table:
        for sub in each_sample.read.subs:
            for index in [*range(0, sub.size, SPOT_VALUES), sub.size - 1]:
                men, turn = table.placement(sub.part, sub.side, index)
                assert table.index(men, turn) == (sub.part, sub.side, index)
                assert table.placement(*table.index(men, turn)) == (men, turn)
                letters = {color: sorted(kind for kind, one, _ in men if one is color) for color in (WHITE, BLACK)}
                first, second = (sorted(" PNBRQK".index(letter) for letter in side) for side in each_sample.name.split("v"))
                assert letters == {WHITE: first, BLACK: second}
                assert turn is (sub.side == 0)
            for index in (sub.size, -1, 1 << 64, 1 << 70):
                pytest.raises(IndexError, table.placement, sub.part, sub.side, index)
        for part, side in ((4, 0), (0, 2), (256, 0), (0, 256), (-1, 0), (0, -1)):
            pytest.raises(IndexError, table.placement, part, side, 0)
        says(TypeError, "^index must be an integer, not str$", table.placement, 0, 0, "0")
    assert is_closed(table.placement, 0, 0, 0)
