"""What the tests share: the sample tables, the second reader, files that are refused."""
import shutil
import sys
from pathlib import Path
from typing import Callable, Iterator, NamedTuple, Tuple, Type

import pytest
import szg

ROOT = Path(__file__).resolve().parents[3]
sys.path.insert(0, str(ROOT / "checks"))
import common  # noqa: E402
from common import sample  # noqa: E402
from damaged_files import Damaged, damaged  # noqa: E402
from table_reader import Reader  # noqa: E402


class Sample(NamedTuple):
    """A sample table: its bytes, and the second reader's reading of them."""

    name: str
    kind: str
    data: bytes
    read: Reader

    @property
    def file_name(self) -> str:
        return f"{self.name}.{'rtbw' if self.kind == 'wdl' else 'rtbz'}"


def read_sample(name: str, kind: str, file: str) -> Sample:
    return Sample(name, kind, sample(file), Reader(name, kind, sample(file)).read())


SAMPLES = [read_sample(name, kind, file) for name, kind, file, _ in common.SAMPLES]
KNIGHT, UNPAIRED, PAIRED, PAWN = SAMPLES
DAMAGED = list(damaged())


@pytest.fixture(params=SAMPLES, ids=["constant", "unpaired", "paired", "mapped"])
def each_sample(request: pytest.FixtureRequest) -> Sample:
    return request.param


@pytest.fixture(params=DAMAGED, ids=[case.reason for case in DAMAGED])
def each_damaged(request: pytest.FixtureRequest) -> Damaged:
    return request.param


@pytest.fixture
def folder(tmp_path: Path) -> Iterator[Path]:
    """A folder with the constant, the unpaired and the mapped sample, and files that are no tables."""
    tables = tmp_path / "tables"
    tables.mkdir()
    for one in (KNIGHT, UNPAIRED, PAWN):
        (tables / one.file_name).write_bytes(one.data)
    (tables / "notes.txt").write_text("no table")
    (tables / "KvKQ.rtbw").write_bytes(UNPAIRED.data)
    (tables / "KQvKX.rtbw").write_bytes(UNPAIRED.data)
    (tables / "KRvK.rtbw").mkdir()
    yield tables
    shutil.rmtree(tables, ignore_errors=True)


@pytest.fixture
def queen_file(tmp_path: Path) -> Path:
    """The unpaired sample in a file."""
    (tmp_path / UNPAIRED.file_name).write_bytes(UNPAIRED.data)
    return tmp_path / UNPAIRED.file_name


@pytest.fixture
def other(tmp_path: Path) -> Path:
    """Another folder, with a table of KNvK in which White wins."""
    folder = tmp_path / "other"
    folder.mkdir()
    (folder / "KNvK.rtbw").write_bytes(KNIGHT.data[:11] + b"\x04" + KNIGHT.data[12:])
    return folder


def says(error: Type[BaseException], text: str, call: Callable[..., object], *words: object, **more: object) -> None:
    """A call raises an error whose text has a pattern in it."""
    with pytest.raises(error, match=text):
        call(*words, **more)


def untold(call: Callable[..., object], *words: object, **more: object) -> str:
    """The reason for which a call has no entry."""
    with pytest.raises(szg.Untold) as caught:
        call(*words, **more)
    assert str(caught.value) == f"the table has no entry: {caught.value.reason}" and isinstance(caught.value, LookupError)
    return caught.value.reason


def refused(call: Callable[..., object], *words: object) -> Tuple[int, str]:
    """The byte and the reason for which a call refuses a file."""
    with pytest.raises(szg.Refused) as caught:
        call(*words)
    return caught.value.place, caught.value.reason


def is_closed(call: Callable[..., object], *words: object) -> bool:
    """Whether a call says that its table is closed."""
    says(ValueError, "^the table(base)? is closed$", call, *words)
    return True
