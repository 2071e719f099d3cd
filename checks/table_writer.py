"""Writes the files of tables by what their subtables are, as docs/FORMAT.md says: for benches and checks of costs."""
import struct
from typing import List, Sequence, Tuple, Union

LEAF = 4095


class Subtable:
    """A subtable that isn't constant: pairs (of a leaf the right half is LEAF), the longest word and the lowest symbols from the
    least length on, sparse entries (block, offset), block lengths less one, of which the last `extra` are of no block."""

    def __init__(self, pairs: Sequence[Tuple[int, int]], longest: int, lowest: Sequence[int], block_bits: int, span_bits: int,
                 sparse: Sequence[Tuple[int, int]], lengths: Sequence[int], extra: int, blocks: bytes) -> None:
        self.pairs, self.longest, self.lowest, self.block_bits, self.span_bits = pairs, longest, lowest, block_bits, span_bits
        self.sparse, self.lengths, self.extra, self.blocks = sparse, lengths, extra, blocks

    def header(self) -> bytes:
        count, codes = len(self.pairs), len(self.lowest)
        packed = b"".join(bytes([left & 255, left >> 8 | right % 16 << 4, right >> 4]) for left, right in self.pairs)
        shape = struct.pack("<4BI2B", 0, self.block_bits, self.span_bits, self.extra, len(self.lengths) - self.extra, self.longest, self.longest - codes + 1)
        return shape + struct.pack(f"<{codes}HH", *self.lowest, count) + packed + bytes(count % 2)


def middles(size: int, span_bits: int) -> List[int]:
    """The middle of each span, which has a sparse entry."""
    span = 1 << span_bits
    return [span * j + span // 2 for j in range(-(-size // span))]


def front_of(start: str, subtables: Sequence[Union[Subtable, bytes]]) -> bytes:
    """The file up to the sparse indexes: its first bytes as hexadecimal digits, and the headers. Bytes are a constant one's."""
    out = bytes.fromhex(start)
    return out + bytes(len(out) % 2) + b"".join(sub if isinstance(sub, bytes) else sub.header() for sub in subtables)


def file_of(start: str, subtables: Sequence[Union[Subtable, bytes]]) -> bytes:
    out, with_blocks = bytearray(front_of(start, subtables)), [sub for sub in subtables if isinstance(sub, Subtable)]
    for sub in with_blocks:
        out += b"".join(struct.pack("<IH", *entry) for entry in sub.sparse)
    for sub in with_blocks:
        out += struct.pack(f"<{len(sub.lengths)}H", *sub.lengths)
    for sub in with_blocks:
        out += bytes(-len(out) % 64) + sub.blocks
    return bytes(out + bytes(-len(out) % 64) + bytes(range(16)))


def in_long_words(size: int, entries: Sequence[Tuple[int, int]], span_bits: int, extra: Sequence[int] = ()) -> Subtable:
    """Values of symbol 0, which has 256, in words of one bit and blocks of 32 bytes."""
    held = 65536
    lengths = [min(held, size - start) - 1 for start in range(0, size, held)]
    starts = [held * block for block in range(len(lengths))]
    ends = [size]
    for length in extra:
        ends.append(ends[-1] + length + 1)
    sparse = []
    for middle in middles(size, span_bits):
        block = min(middle // held, len(lengths) - 1)
        if middle - starts[block] < held:
            sparse.append((block, middle - starts[block]))
        else:
            number = max(i for i, end in enumerate(ends) if end <= middle)
            sparse.append((len(lengths) + number, middle - ends[number]))
    return Subtable(entries, 1, [0], 5, span_bits, sparse, [*lengths, *extra], len(extra), bytes(32 * len(lengths)))


def chains(count: int) -> List[Tuple[int, int]]:
    """Chains of 256 symbols, each a pair of the next and a leaf, from the end of the list to its beginning; those that
    no pair can name are pairs of a chain and a leaf."""
    entries = []
    for s in range(min(count, 4096 - 256)):
        leaf = s % 256 == 255 or s == min(count, 4096 - 256) - 1
        entries.append((2, LEAF) if leaf else (s + 1, 255))
    return entries + [(1 + s % 14 * 256, 255) for s in range(count - len(entries))]
