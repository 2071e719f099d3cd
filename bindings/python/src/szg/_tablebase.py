"""Folders of tables."""
import os
from itertools import islice
from typing import Any, Callable, Dict, Iterable, List, NamedTuple, Optional, Sequence, Tuple, Type, TypeVar, Union, overload

from ._errors import MissingTableError, Untold
from ._placement import Placement, Position, is_table_name, position_of, table_name
from ._results import Key, RankedMove, Results
from ._table import KINDS, Table, _class

Directory = Union[str, "os.PathLike[str]"]
Default = TypeVar("Default")
# so few FENs are probed under the interpreter's lock that no thread waits for long
BATCH = 256


class Folder(NamedTuple):
    """A folder that was added, and the tables that were found in it."""

    path: str
    load_wdl: bool
    load_dtz: bool
    paths: Dict[Key, str]


class Files:
    """The files of some folders, and the tables of them that are open. Folders that are added later make other Files."""

    def __init__(self, folders: Sequence[Folder], most: Optional[int]) -> None:
        self.count = len(folders)
        self.paths = {key: path for folder in folders for key, path in folder.paths.items()}
        self.results = Results(self.paths, most)
        # for what one table stores
        self.tables: Dict[Key, Table] = {}


class Tablebase:
    """The tables of any number of folders, in python-chess's words and with its meanings. Any number of threads use one
    Tablebase at once, and signal handlers and forked processes too: no call waits for another.

    `board` is a board of python-chess, or anything with its `piece_map()`, `turn`, `ep_square`, `castling_rights` and
    `halfmove_clock`; a FEN, whole or only its first fields; or men as tuples (kind, colour, square), numbered as in
    python-chess. `turn` (True if White moves) must be given if the board does not say who moves, and comes first if it does.

    Each table is mapped, and checked but for its blocks, when a position first needs it; then Refused may come, at each probe
    of a file that is not a table. A block is checked when a value is fetched from it, and may raise BadBlock. If a probe
    finds more than `max_tables` tables open, it closes them first.

    A copy, also one by `pickle`, has the tables that are in the folders by then. In a Python without the interpreter's lock
    each thread needs a copy of its own.
    """

    def __init__(self, *, max_tables: Optional[int] = None) -> None:
        if max_tables is not None and max_tables < 1:
            raise ValueError(f"max_tables must be at least 1, not {max_tables}")
        self._max_tables = max_tables
        self._folders: List[Folder] = []
        self._current = Files([], max_tables)
        self._is_closed = False

    def add_directory(self, directory: Directory, *, load_wdl: bool = True, load_dtz: bool = True) -> int:
        """Adds the tables of a folder, by their names (KQvKR.rtbw); returns their number. No file is opened.

        If two folders have a table of one name, the one that was added last serves. Other files are passed over, and links
        that lead nowhere.

        Errors: OSError if the folder cannot be listed; TypeError; ValueError if the tablebase is closed."""
        self._files()
        folder = os.path.join(os.getcwd(), os.fsdecode(directory))
        kinds = [kind for kind, is_loaded in (("wdl", load_wdl), ("dtz", load_dtz)) if is_loaded]
        with os.scandir(folder) as entries:
            keys = [(key, entry) for entry in entries for key in [_key(entry.name)] if key is not None and key[1] in kinds]
            found = {key: entry.path for key, entry in keys if _is_file(entry)}
        self._folders.append(Folder(folder, load_wdl, load_dtz, found))
        return len(found)

    @property
    def tables(self) -> List[Key]:
        """The names and kinds of the tables that were added, sorted: ("KQvK", "dtz"), ("KQvK", "wdl"), ..

        Errors: ValueError if the tablebase is closed."""
        return sorted(self._files().paths)

    @property
    def most_men(self) -> int:
        """The most men of a WDL table that was added, 0 without one. Errors: ValueError if the tablebase is closed."""
        return max((len(name) - 1 for name, kind in self._files().paths if kind == "wdl"), default=0)

    def probe_wdl(self, board: Placement, turn: Optional[bool] = None) -> int:
        """The class of a position for the side to move: 2 win, 1 cursed win, 0 draw, -1 blessed loss, -2 loss.

        It is the result with the fifty-move rule, at a counter of 0: captures and en passant are probed too.

        Errors: MissingTableError, a KeyError, if no folder has a table that it needs; KeyError for castling rights or a
        variant; Untold if it is no position; Refused; BadBlock; OSError; TypeError; ValueError."""
        return self._files().results.wdl(position_of(board, turn))

    def probe_dtz(self, board: Placement, turn: Optional[bool] = None) -> int:
        """The plies to the next capture or pawn move that keeps the class, or to mate, as python-chess's `probe_dtz`.

        Negative for a loss, 0 for a draw, 100 more for a cursed win or a blessed loss, -1 if the side to move is mated. The
        fifty-move counter isn't looked at. What a table counts in moves is doubled, and may be one ply more.

        Errors: as for `probe_wdl`, and Untold `Contradiction`."""
        return self._files().results.dtz(position_of(board, turn))

    def rank_moves(self, board: Placement, turn: Optional[bool] = None) -> List[RankedMove]:
        """The legal moves, the best first: by class, then a win by the least DTZ and a loss by the greatest.

        The fifty-move counter of the board counts: a win that comes too late is a cursed one. An empty list is mate or
        stalemate. Errors: as for `probe_dtz`."""
        return self._files().results.moves(position_of(board, turn))

    def probe_many(self, boards: Iterable[Placement]) -> List[Optional[int]]:
        """The class of each position, as `get_wdl`: whole FENs without castling rights in a fifth of its time."""
        results, rest = self._files().results, iter(boards)
        found: List[Optional[int]] = []
        for batch in iter(lambda: list(islice(rest, BATCH)), []):
            read = results.of_fens([board if isinstance(board, str) else "" for board in batch])
            found += [self.get_wdl(board) if wdl is None else wdl for board, wdl in zip(batch, read)]
        return found

    def probe_wdl_table(self, board: Placement, turn: Optional[bool] = None) -> int:
        """The class that a WDL table stores: not the position's (`probe_wdl`) if a capture decides, but maybe lower.

        Two kings are a draw without a table. It is what python-chess's `probe_wdl_table` returns.

        Errors: MissingTableError, a KeyError, if no folder has the table; Untold if the table has no class for the
        placement; Refused; BadBlock; OSError; TypeError; ValueError."""
        position = position_of(board, turn)
        table = self._table(position, "wdl")
        return 0 if table is None else table._probe(position, 0)

    def probe_dtz_table(self, board: Placement, wdl: int, turn: Optional[bool] = None) -> Tuple[int, int]:
        """The number n that a DTZ table stores, not the DTZ (`probe_dtz`) if a capture or pawn move decides; and 1.

        It is that of the class `wdl`; `Table.probe_dtz` says what it counts. (0, -1) if the table stores the other side to
        move only. It is what python-chess's `probe_dtz_table` returns.

        Errors: MissingTableError, a KeyError, if no folder has the table; Untold if the table has no number, as for a
        draw; Refused; BadBlock; OSError; TypeError; ValueError for another class than -2 to 2."""
        position, wdl = position_of(board, turn), _class(wdl)
        table = self._table(position, "dtz")
        if table is None:
            raise MissingTableError("no DTZ table has two kings alone")
        try:
            return table._probe(position, wdl), 1
        except Untold as error:
            if error.reason != "WrongSide":
                raise
            return 0, -1

    @overload
    def get_wdl(self, board: Placement, default: None = None, turn: Optional[bool] = None) -> Optional[int]: ...
    @overload
    def get_wdl(self, board: Placement, default: Default, turn: Optional[bool] = None) -> Union[int, Default]: ...
    def get_wdl(self, board: Placement, default: Any = None, turn: Optional[bool] = None) -> Any:
        """The class, as `probe_wdl`; `default` where that raises a KeyError."""
        try:
            return self.probe_wdl(board, turn)
        except KeyError:
            return default

    @overload
    def get_dtz(self, board: Placement, default: None = None, turn: Optional[bool] = None) -> Optional[int]: ...
    @overload
    def get_dtz(self, board: Placement, default: Default, turn: Optional[bool] = None) -> Union[int, Default]: ...
    def get_dtz(self, board: Placement, default: Any = None, turn: Optional[bool] = None) -> Any:
        """The distance, as `probe_dtz`; `default` where that raises a KeyError."""
        try:
            return self.probe_dtz(board, turn)
        except KeyError:
            return default

    def _files(self) -> Files:
        """The files of all folders that were added. Errors: ValueError if the tablebase is closed."""
        files = self._current
        if self._is_closed:
            raise ValueError("the tablebase is closed")
        if files.count != len(self._folders):
            files = self._current = Files(list(self._folders), self._max_tables)
        return files

    def _table(self, position: Position, kind: str) -> Optional[Table]:
        """The table of these men, opened if it isn't open yet: twice, if two calls come at once, and one is dropped. None for
        two kings alone."""
        files, name = self._files(), table_name(position.men)
        if name is None:
            # it is no placement, or there are too many men; or two kings
            Results({}, None).wdl(position)
            return None
        table = files.tables.get((name, kind))
        if table is None:
            path = files.paths.get((name, kind))
            if path is None:
                raise MissingTableError(f"no {kind.upper()} table of {name} was added")
            if self._max_tables is not None and len(files.tables) >= self._max_tables:
                # a probe that runs keeps its table until it ends
                files.tables.clear()
            table = files.tables.setdefault((name, kind), Table.open(path))
        return table

    def close(self) -> None:
        """Closes all tables. A second call does nothing; probes raise ValueError then."""
        self._is_closed = True
        files, self._current = self._current, Files([], None)
        for table in list(files.tables.values()):
            table.close()

    def __reduce__(self) -> Tuple[Callable[..., "Tablebase"], Tuple[Any, ...]]:
        self._files()
        return _with_folders, (type(self), self._max_tables, [folder[:3] for folder in self._folders])

    def __enter__(self) -> "Tablebase":
        return self

    def __exit__(self, *error: object) -> None:
        self.close()

    def __repr__(self) -> str:
        count = 0 if self._is_closed else len(self._files().paths)
        return f"<szg.Tablebase with {count} tables{', closed' if self._is_closed else ''}>"


def open_tablebase(
    directory: Directory, *, load_wdl: bool = True, load_dtz: bool = True, max_tables: Optional[int] = None,
) -> Tablebase:
    """A Tablebase with the tables of one folder. Errors: OSError if the folder cannot be listed."""
    tables = Tablebase(max_tables=max_tables)
    tables.add_directory(directory, load_wdl=load_wdl, load_dtz=load_dtz)
    return tables


def _with_folders(kind: Type[Tablebase], max_tables: Optional[int], folders: List[Tuple[str, bool, bool]]) -> Tablebase:
    """What a copy is made of."""
    tables = kind(max_tables=max_tables)
    for folder, load_wdl, load_dtz in folders:
        tables.add_directory(folder, load_wdl=load_wdl, load_dtz=load_dtz)
    return tables


def _key(file: str) -> Optional[Key]:
    """The material and the kind in a file's name. None if it is not a table's."""
    name, ending = os.path.splitext(file)
    return (name, KINDS[ending]) if ending in KINDS and is_table_name(name) else None


def _is_file(entry: "os.DirEntry[str]") -> bool:
    try:
        return entry.is_file()
    except OSError:
        # a link that leads to itself, or where nobody may look
        return False
