"""Files that are refused, one for each of the 18 reasons, by checks/damaged_files.txt."""
from typing import Iterator, NamedTuple

from common import ROOT, sample


class Damaged(NamedTuple):
    reason: str
    name: str
    kind: str
    data: bytes
    place: int


FILES = {
    "constant": ("knvk_wdl_constant.rtbw", "KNvK", "wdl"),
    "paired": ("kqvk_wdl_paired.rtbw", "KQvK", "wdl"),
    "mapped": ("kpvk_dtz_mapped.rtbz", "KPvK", "dtz"),
}


def damaged() -> Iterator[Damaged]:
    for line in (ROOT / "checks/damaged_files.txt").read_text(encoding="utf-8").splitlines():
        if line.startswith("#"):
            continue
        reason, which, at, changed, place = line.split()
        file, name, kind = FILES[which]
        data, begin = sample(file), int(at)
        end = begin + len(bytes.fromhex(changed)) if changed != "cut" else len(data)
        yield Damaged(reason, name, kind, data[:begin] + bytes.fromhex(changed.removeprefix("cut")) + data[end:], int(place))
