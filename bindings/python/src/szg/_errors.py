"""The exceptions of the package."""
from typing import Optional


def _of(path: Optional[str]) -> str:
    """What comes before the text of an error in a file's bytes."""
    return "" if path is None else f"{path}: "


class Refused(ValueError):
    """The bytes are not a table of this material and kind.

    `place` is the byte offset of the first check that fails, `reason` its name, such as `Truncated`; `path` is that of the file,
    None for other bytes."""

    def __init__(self, place: int, reason: str, path: Optional[str] = None) -> None:
        super().__init__(place, reason, path)
        self.place = place
        self.reason = reason
        self.path = path

    def __str__(self) -> str:
        return f"{_of(self.path)}refused at {self.place}: {self.reason}"


class Untold(LookupError):
    """The tables have no entry for the placement or the value. `reason` is why:

    - the men are no placement: `Man` (no such kind, colour or square), `Men` (not three to six men, or a colour without
      exactly one king), `SameSquare`, `PawnRank`;
    - they are no position: `EnPassant` (no pawn can just have passed over that square), `InCheck` (the side not to move);
    - the table has no index for it: `OtherMaterial`, `Irregular`, `KingsTouch`, `WrongSide` (a DTZ table stores one side
      to move only);
    - the value means nothing: `NoClass`, `Draw` (a draw has no DTZ), `OutsideMap`; or values contradict each other:
      `Contradiction`.

    `path` is that of the table's file where a result needs it; else None."""

    def __init__(self, reason: str, path: Optional[str] = None) -> None:
        super().__init__(reason, path)
        self.reason = reason
        self.path = path

    def __str__(self) -> str:
        return f"{_of(self.path)}the table has no entry: {self.reason}"


class BadBlock(ValueError):
    """The block that has the value does not decode: the file is damaged there, or was changed after it was opened.

    `block` is its number in its part and side, `offset` its byte offset in the file; `path` is that of the file, None for
    other bytes. Other blocks return their values as before."""

    def __init__(self, block: int, offset: int, path: Optional[str] = None) -> None:
        super().__init__(block, offset, path)
        self.block = block
        self.offset = offset
        self.path = path

    def __str__(self) -> str:
        return f"{_of(self.path)}block {self.block} at {self.offset} does not decode"


class Changed(ValueError):
    """The bytes are fewer than when the table was opened, or lead to no block."""


class MissingTableError(KeyError):
    """No table of this material and kind is in the folders that were added."""

    def __str__(self) -> str:
        return str(self.args[0]) if self.args else ""
