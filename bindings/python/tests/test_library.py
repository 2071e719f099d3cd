"""The package's face, and what becomes of each status of the library."""
import gc
import inspect
import os
import pickle
import re
import subprocess
import sys
from pathlib import Path

import pytest
import szg
from conftest import ROOT, UNPAIRED, says
from szg import _library, _placement, _version

HEADER = (ROOT / "bindings/szg.h").read_text(encoding="utf-8")


def test_the_package_says_what_it_has() -> None:
    assert szg.__version__ == _version.__version__ == re.search(r'#define SZG_VERSION "([^"]*)"', HEADER)[1]
    numbers = [re.search(rf"#define SZG_VERSION_{part} (\d+)", HEADER)[1] for part in ("MAJOR", "MINOR", "PATCH")]
    assert ".".join(numbers) == szg.__version__
    assert sorted(szg.__all__) == szg.__all__
    assert (Path(szg.__file__).parent / "py.typed").exists()
    for name in szg.__all__:
        one = getattr(szg, name)
        if inspect.isfunction(one):
            assert one.__doc__
        if inspect.isclass(one) and one.__module__.startswith("szg"):
            assert one.__doc__
            for member, function in list(vars(one).items()):
                if inspect.isfunction(function) and not member.startswith("_"):
                    assert function.__doc__, f"{name}.{member}"
    assert (szg.PAWN, szg.KNIGHT, szg.BISHOP, szg.ROOK, szg.QUEEN, szg.KING, szg.WHITE, szg.BLACK) == (1, 2, 3, 4, 5, 6, True, False)


def test_the_examples_of_the_readme_run(folder: Path, monkeypatch: pytest.MonkeyPatch, capsys: pytest.CaptureFixture) -> None:
    text = (ROOT / "bindings/python/README.md").read_text(encoding="utf-8")
    program, others = re.findall(r"```python\n(.*?)```", text, re.S)
    monkeypatch.chdir(ROOT)
    exec(program, {})
    assert capsys.readouterr().out.splitlines() == re.findall("`(.*?)`", re.search("^It prints (.*)", text, re.M)[1])
    monkeypatch.chdir(folder.parent)
    found = {"szg": szg, "data": UNPAIRED.data}
    exec(others, found)
    assert found["spot"].index < 31332


def test_errors_are_pickled() -> None:
    for error in (szg.Refused(7, "Word"), szg.Refused(7, "Word", "KQvK.rtbw"), szg.Untold("Man"), szg.Untold("NoClass", "KQvK.rtbw"), szg.Changed("it"), szg.MissingTableError("none"),
                  szg.BadBlock(3, 320), szg.BadBlock(3, 320, "KQvK.rtbw")):
        again = pickle.loads(pickle.dumps(error))
        assert type(again) is type(error) and str(again) == str(error) and vars(again) == vars(error)


def enumerators(name: str) -> dict:
    body = re.sub(r"/\*.*?\*/", "", re.search(rf"enum {name} \{{(.*?)\}};", HEADER, re.S)[1], flags=re.S)
    found, value = {}, -1
    for item in body.split(","):
        if not item.strip():
            continue
        word, _, number = (part.strip() for part in item.partition("="))
        value = int(number) if number else value + 1
        found[word] = value
    return found


def spelled(name: str) -> str:
    """SPLIT_BIT as SplitBit."""
    return "".join(part.capitalize() for part in name.split("_"))


def test_statuses_and_reasons_are_the_headers() -> None:
    reasons = {spelled(name[4:]): number for name, number in enumerators("szg_reason").items()}
    assert reasons == {_library.reason_text(number): number for number in range(1, 19)}
    statuses = {name[4:]: number for name, number in enumerators("szg_status").items()}
    assert {spelled(name): number for name, number in statuses.items()} == {_library.status_text(number): number for number in range(23)}
    for name in ("DONE", "NAME", "REFUSED", "MEMORY", "RANGE", "CLOSED", "MAN", "MEN", "OTHER_MATERIAL", "WRONG_SIDE", "NO_CLASS", "OUTSIDE_MAP",
                 "CHANGED", "BAD_BLOCK", "EN_PASSANT", "IN_CHECK", "MISSING", "CONTRADICTION"):
        assert getattr(_library, name) == statuses[name]
    sizes = {name: int(size) for name, size in re.findall(r"#define SZG_(TEXT_SIZE|MAX_MEN|MAX_MOVES|NO_SQUARE|NO_RESULT) (\d+)", HEADER)}
    assert sizes.pop("NO_SQUARE") == _placement.NO_SQUARE and sizes == {name: getattr(_library, name) for name in sizes} and len(sizes) == 4
    assert [_library.reason_text(number) for number in (0, 19, 1 << 31)] == [_library.status_text(number) for number in (23, 256, 1 << 31)] == [""] * 3


@pytest.mark.parametrize("length", [_library.TEXT_SIZE - 1, _library.TEXT_SIZE, 2 * _library.TEXT_SIZE])
def test_a_text_that_fills_the_buffer_is_whole(length: int) -> None:
    said = "x" * length

    def write(text, capacity: int) -> int:
        text.value = said[:capacity - 1].encode()
        return len(said)
    assert _library._text(write) == said


def test_the_version_is_the_librarys(monkeypatch: pytest.MonkeyPatch) -> None:
    assert szg.version == szg.__version__ == _library._text(_library.library.szg_version)
    major, minor, patch = map(int, szg.__version__.split("."))
    for fine in (szg.__version__, f"{major}.{minor}.{patch + 3}"):
        assert _library.require_version(fine) == fine
    for other in (f"{major}.{minor + 1}.{patch}", f"{major + 1}.{minor}.{patch}", f"{major}.1{minor}.{patch}", ""):
        says(ImportError, f"has the version {other}, and szg {szg.__version__} needs its own$", _library.require_version, other)


def test_calls_with_a_tablebase_keep_the_interpreters_lock() -> None:
    """So no other thread calls with the same handle, and none forks while one of them has the library's memory in hand."""
    keeps_lock = 4  # ctypes' FUNCFLAG_PYTHONAPI
    assert _library.LOCKED == tuple(name for name in _library._signatures() if getattr(_library.library, name)._flags_ & keeps_lock)


def test_a_library_that_lacks_a_call_is_an_import_error(monkeypatch: pytest.MonkeyPatch) -> None:
    # the system's C library has none of the calls
    monkeypatch.setenv("SZG_LIBRARY", "libc.so.6")
    says(ImportError, f"^libc.so.6 has no szg_version: szg {szg.__version__} needs another library$", _library._load)


UNTOLD = ("Man Men SameSquare PawnRank OtherMaterial Irregular KingsTouch WrongSide NoClass Draw OutsideMap EnPassant InCheck "
          "Contradiction").split()
FAULTS = {
    "Memory": (MemoryError, "no memory for the table"), "Range": (IndexError, "the table has no such part, side or index"),
    "Closed": (ValueError, "the table is closed"), "Changed": (szg.Changed, "the table's file was changed"),
    "BadBlock": (szg.BadBlock, "block 0 at 0 does not decode"), **{name: (szg.Untold, f"the table has no entry: {name}") for name in UNTOLD},
}


@pytest.mark.parametrize("status", range(1, 24))
def test_each_status_of_a_call_is_an_exception(status: int) -> None:
    fault, said = FAULTS.get(_library.status_text(status), (RuntimeError, f"the library returned the status {status}"))
    with szg.Table("KQvK", "wdl", UNPAIRED.data) as table:
        front = table._front
        for call in (front, front.fetch) if status != _library.BAD_BLOCK else (front.fetch,):
            with pytest.raises(fault) as caught:
                call(lambda *_: status)
            assert type(caught.value) is fault and str(caught.value) == said
        front(lambda *_: 0), front.fetch(lambda *_: 0)
        assert table.get(11711) == 4


@pytest.mark.parametrize("call", ["szg_open_front", "szg_share_front", "szg_check", "szg_values", "szg_front_size", "szg_front_get", "szg_front_probe",
                                  "szg_front_index", "szg_front_placement", "szg_tablebase_add", "szg_share_tablebase", "szg_tablebase_wdl",
                                  "szg_tablebase_dtz", "szg_tablebase_moves"])
def test_no_call_loses_want_of_memory(call: str, queen_file: Path, monkeypatch: pytest.MonkeyPatch) -> None:
    fen = "7k/8/5K2/8/8/8/8/6Q1 w"

    def use() -> None:
        with szg.Table.open(queen_file) as mapped, szg.Table("KQvK", "wdl", UNPAIRED.data) as table, szg.open_tablebase(ROOT / "samples") as tables:
            for one in (mapped, table):
                one.get(0), one.size(), one.values(), one.verify(), one.index(fen), one.probe_wdl(fen), one.placement(0, 0, 0)
            tables.probe_wdl(fen), tables.probe_dtz(fen), tables.rank_moves(fen)

    use()
    monkeypatch.setattr(_library.library, call, lambda *_: 3)
    pytest.raises(MemoryError, use)


@pytest.mark.parametrize("call", [lambda path: szg.Table.open(path, verify=True), lambda _: szg.Table("KQvK", "wdl", UNPAIRED.data, verify=True)])
def test_verifying_at_opening_loses_no_want_of_memory(call, queen_file: Path, monkeypatch: pytest.MonkeyPatch) -> None:
    call(queen_file).close()
    monkeypatch.setattr(_library.library, "szg_check", lambda *_: 3)
    pytest.raises(MemoryError, call, queen_file)


def test_closing_lets_the_librarys_handles_go(queen_file: Path, monkeypatch: pytest.MonkeyPatch) -> None:
    """Each handle that is made is closed once, however the table goes; no collection is waited for."""
    open_handles = set()
    for name in ("szg_open_front", "szg_share_front"):
        def make(*words, call=getattr(_library.library, name), at=-2 if "open" in name else -1):
            status = call(*words)
            open_handles.add(words[at].held)
            return status
        monkeypatch.setattr(_library.library, name, make)

    def close(handle, call=_library.library.szg_close_front):
        if handle.held:
            open_handles.remove(handle.held)
        call(handle)
        assert not handle.held
    assert hasattr(_library.Handle, "__del__")
    monkeypatch.setattr(_library.Handle, "__del__", close)
    gc.disable()
    try:
        for way in ("closed", "dropped", "closed while it serves", "closed by an exception", "shared by two calls"):
            table = szg.Table.open(queen_file)
            table.get(0), table.size()
            front = table._front
            assert len(open_handles) == 2
            if way == "closed":
                table.close()
            if way == "closed while it serves":
                front(lambda *_: table.close() or 0)
            assert len(open_handles) == (0 if "closed" in way and "exception" not in way else 2)
            if way == "closed by an exception":
                pytest.raises(ZeroDivisionError, front, lambda *_: 1 // 0)
                assert len(open_handles) == 1 and table.get(11711) == 4 and len(open_handles) == 2
            if way == "shared by two calls":
                # as a call that comes while another one shares: its front is opened once more
                front._idle.clear(), front._first.clear()
                assert table.get(11711) == 4 and len(open_handles) == 1
            del table, front
            assert not open_handles, way
    finally:
        gc.enable()


def test_the_library_is_found(tmp_path: Path) -> None:
    """SZG_LIBRARY comes first; what is no library is an OSError."""
    code = "import szg; print(szg._library.library._name)"
    env = {**os.environ, "PYTHONPATH": str(Path(szg.__file__).parents[1])}
    copy = tmp_path / "a library.so"
    copy.write_bytes(Path(_library.library._name).read_bytes())
    found = subprocess.run([sys.executable, "-c", code], env={**env, "SZG_LIBRARY": str(copy)}, capture_output=True, text=True)
    assert found.stdout.strip() == str(copy)
    empty = subprocess.run([sys.executable, "-c", code], env={**env, "SZG_LIBRARY": ""}, capture_output=True, text=True)
    assert empty.returncode == 0 and empty.stdout.strip() == _library.library._name
    missing = subprocess.run([sys.executable, "-c", code], env={**env, "SZG_LIBRARY": str(tmp_path / "none")}, capture_output=True, text=True)
    assert missing.returncode != 0 and "OSError" in missing.stderr
