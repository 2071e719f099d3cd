"""Syzygy tables, read with proof: results over folders of tables in python-chess's words, and single tables.

    import szg
    with szg.open_tablebase("tables") as tables:
        tables.probe_wdl(board)                            # a board of python-chess
        tables.probe_dtz("4k3/8/8/8/8/8/8/Q3K3 w - - 0 1")  # or a FEN
        tables.rank_moves("4k3/8/8/8/8/8/8/Q3K3 w - - 0 1")  # the legal moves, the best first

    with szg.Table.open("tables/KQvK.rtbw") as table:
        table.probe_wdl([(szg.KING, szg.WHITE, 60), (szg.QUEEN, szg.WHITE, 0), (szg.KING, szg.BLACK, 7)], szg.WHITE)
        table.placement(0, 0, 11711)                       # the men of an index, and who moves
        table.values()                                     # all stored values: numpy.asarray takes them

What a single table stores (`Table`, `probe_wdl_table`, `probe_dtz_table`) isn't the position's result (`probe_wdl`,
`probe_dtz` and `rank_moves` of a Tablebase) if a capture (WDL), or a capture or pawn move (DTZ), decides.

Opening a table checks all of it but its blocks, and these too with verify=True: you get the table, or Refused with the
first check that fails and its byte. Each block is checked when a value is fetched from it: you get the value, or BadBlock.
The checks are not made here: the C library makes them. It is that of SZG_LIBRARY, a path, if it is set, else the one
in this package, else the system's. `version` is the library's own version, whose first two numbers are always those of
`__version__`: another library is an ImportError.
"""
from ._errors import BadBlock, Changed, MissingTableError, Refused, Untold
from ._library import version
from ._placement import BISHOP, BLACK, KING, KNIGHT, PAWN, QUEEN, ROOK, WHITE, Board, Placement
from ._results import RankedMove
from ._table import Spot, Table
from ._tablebase import Tablebase, open_tablebase
from ._version import __version__

__all__ = [
    "BISHOP", "BLACK", "BadBlock", "Board", "Changed", "KING", "KNIGHT", "MissingTableError", "PAWN", "Placement", "QUEEN", "ROOK",
    "RankedMove", "Refused", "Spot", "Table", "Tablebase", "Untold", "WHITE", "__version__", "open_tablebase", "version",
]
