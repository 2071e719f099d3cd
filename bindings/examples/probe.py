#!/usr/bin/env python3
"""Probes positions in a folder of tables: probe.py FOLDER < FENS

Each line of standard input is a FEN. Printed are its class for the side to move, its DTZ if the tables for it are there, and
the best move; or what is missing.
"""
import sys

import szg


def probe(tables: szg.Tablebase, fen: str) -> str:
    try:
        words = [tables.probe_wdl(fen)]
        if tables.get_dtz(fen) is not None:
            words += [tables.probe_dtz(fen), *(move.uci for move in tables.rank_moves(fen)[:1])]
    except (LookupError, ValueError) as error:
        return str(error)
    return " ".join(map(str, words))


def main() -> None:
    if len(sys.argv) != 2:
        sys.exit("usage: probe.py FOLDER < FENS")
    with szg.open_tablebase(sys.argv[1]) as tables:
        for line in sys.stdin:
            print(probe(tables, line.strip()))


main()
