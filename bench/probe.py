#!/usr/bin/env python3
"""Times classes of random positions by the Python package: probe.py FOLDER NAME

Prints the least time of a FEN in several rounds, by probe_wdl and by probe_many. PYTHONPATH has the package, SZG_LIBRARY the
shared library."""
import random
import sys
import time
from pathlib import Path

sys.path.insert(0, str(Path(__file__).resolve().parent.parent / "checks"))
import chess_rules  # noqa: E402
from common import arguments  # noqa: E402

POSITIONS, ROUNDS = 10000, 7


def draw_fen(rng, name):
    """A text of the name's men on random squares, which needn't be a position."""
    first, second = name.split("v")
    squares = [divmod(square, 8) for square in rng.sample(range(64), len(name) - 1)]
    return f"{chess_rules.Board(dict(zip(squares, first + second.lower())), rng.choice('wb'), None).fen()} 0 1"


def is_position(tables, fen):
    try:
        return tables.get_wdl(fen) is not None
    except (LookupError, ValueError):
        return False


def least(call):
    times = []
    for _ in range(ROUNDS):
        began = time.process_time()
        call()
        times.append(time.process_time() - began)
    return min(times) / POSITIONS * 1e6


def main():
    words = arguments({"folder": str, "name": str})
    import szg

    rng = random.Random(1)
    with szg.open_tablebase(words.folder) as tables:
        fens = []
        while len(fens) < POSITIONS:
            fen = draw_fen(rng, words.name)
            if is_position(tables, fen):
                fens.append(fen)
        if tables.probe_many(fens) != [tables.probe_wdl(fen) for fen in fens]:
            sys.exit("the results differ")
        one, many = least(lambda: [tables.probe_wdl(fen) for fen in fens]), least(lambda: tables.probe_many(fens))
    print(f"{words.name} from Python: probe_wdl of a FEN {one:.2f} us, probe_many {many:.2f} us a FEN")


main()
