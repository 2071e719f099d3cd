#!/usr/bin/env python3
"""Writes a WDL table for timing: tables.py FILE plain|deep, or tables.py FILE KQRBvK|KQRBNvK

plain, deep: of KQRvK. Side 0 has 1,911,252 values. Plain: drawn from 0 to 4, in words of two and three bits. Deep: short runs of
them, in words of eleven and twelve bits of symbols that have up to 120 values by deep pairs. A block has 64 bytes. PROGRAM
builds the table.
KQRBvK, KQRBNvK: a file of 76 MB or about 1 GB, whose blocks are zeros, so that it is sparse: it takes 2.3 or 34 MB of the disk.
Side 0 has 114,675,120 values in 1,146,752 blocks, or 6,765,832,080 in 16,747,110: 4 at even indexes, 2 at odd ones.
Side 1 of each is constant."""
import array
import random
import struct
import subprocess
import sys
from pathlib import Path

sys.path.insert(0, str(Path(__file__).resolve().parent.parent / "checks"))
from common import PROGRAM, arguments, need_program, wdl_dump  # noqa: E402
from table_writer import LEAF, Subtable, front_of, middles  # noqa: E402

SIZE = 31332 * 61
# The men, the number of values, and the number of values of a block: a word is one bit, a symbol two values; the last block may
# have fewer.
SPARSE = {"KQRBvK": ("66 55 44 33 ee", SIZE * 60, 100), "KQRBNvK": ("66 55 44 33 22 ee", SIZE * 60 * 59, 404)}
BLOCK_BITS, SPAN_BITS = 6, 16


def build(file, form):
    need_program()
    rng = random.Random(1)
    values = rng.choices(range(5), k=SIZE)
    if form == "deep":
        lengths = rng.choices([1, 2, 3, 40], [4, 2, 1, 1], k=SIZE)
        values = [value for value, length in zip(values, lengths) for _ in range(length)][:SIZE]
    rounds = "4000" if form == "deep" else "0"
    words = [PROGRAM, "build", "--block", str(BLOCK_BITS), "--span", "10", "--rounds", rounds, "-o", file]
    subprocess.run(words, input=wdl_dump("KQRvK", "6655ee44", [values, [2] * SIZE]), check=True)


def write_sparse(path, men, size, held):
    count = -(-size // held)
    lengths = array.array("H", [held - 1]) * count
    lengths[-1] = size - (count - 1) * held - 1
    if sys.byteorder == "big":
        lengths.byteswap()
    # symbol 0 is the values 4 and 2, and has the word 0; side 1 is constant
    side = Subtable([(1, 2), (4, LEAF), (2, LEAF)], 1, [0], BLOCK_BITS, SPAN_BITS, [], lengths, 0, b"")
    with open(path, "wb") as file:
        file.write(front_of("71e8235d 01 00" + men, [side, bytes([128, 2])]))
        for middle in middles(size, SPAN_BITS):
            block = min(middle // held, count - 1)
            file.write(struct.pack("<IH", block, middle - block * held))
        lengths.tofile(file)
        file.seek((file.tell() + 63) // 64 * 64 + (count << BLOCK_BITS))
        file.write(bytes(16))


words = arguments({"file": Path, "form": str})
if words.form in SPARSE:
    write_sparse(words.file, *SPARSE[words.form])
else:
    build(words.file, words.form)
