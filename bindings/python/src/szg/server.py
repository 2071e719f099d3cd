"""Responds as lichess's tablebase does, over folders of tables: python -m szg.server [--host HOST] [--port PORT] FOLDER..

    /standard?fen=FEN    JSON: category, dtz, checkmate, stalemate, insufficient_material, and the moves, best first
    /?fen=FEN            a page with the board and its moves, which lead on

As lichess has it, what is said of a move is of the position after it, for the player who is to move then; and the blanks of a
FEN may be underscores. A category takes the fifty-move counter into account, a dtz doesn't. A FEN that is no position has
the status 400, one that needs a table that isn't there 404, and a damaged table 500.
"""
import argparse
import html
import json
from http.server import BaseHTTPRequestHandler, ThreadingHTTPServer
from typing import Any, Dict, List, Optional, Tuple
from urllib.parse import parse_qs, quote, urlsplit

from . import BISHOP, KING, KNIGHT, PAWN, RankedMove, Refused, Tablebase, Untold, BadBlock
from ._placement import LETTERS, NO_SQUARE, SQUARES, Position, position_of

CATEGORIES = {2: "win", 1: "cursed-win", 0: "draw", -1: "blessed-loss", -2: "loss"}
FIRST = "4k3/8/4K3/4P3/8/8/8/8 w - - 0 1"
Men = Dict[int, Tuple[int, bool]]

PAGE = """<!DOCTYPE html>
<html lang="en"><meta charset="utf-8"><title>{title}</title>
<style>
body {{ font-family: sans-serif; margin: 2em }} .board td {{ width: 1.2em; height: 1.2em; font-size: 2em; text-align: center }}
.board tr:nth-child(odd) td:nth-child(even), .board tr:nth-child(even) td:nth-child(odd) {{ background: #b6c9a8 }}
.board {{ border-collapse: collapse; border: 1px solid; float: left; margin-right: 2em }} .moves td {{ padding: 0 .6em }}
</style>
<form><input name="fen" size="70" value="{fen}"> <button>Probe</button></form>
<h1>{title}</h1>
<table class="board">{board}</table>
<table class="moves">{moves}</table>
"""


def men_of(position: Position) -> Men:
    men = position.men
    return {square: (kind, color == 0) for kind, color, square in zip(men[::3], men[1::3], men[2::3])}


def after(position: Position, uci: str) -> Position:
    """The position after a legal move."""
    men, start, end = men_of(position), SQUARES.index(uci[:2]), SQUARES.index(uci[2:4])
    kind, color = men.pop(start)
    counter = 0 if kind == PAWN or end in men else position.counter + 1
    if kind == PAWN and end == position.en_passant:
        del men[end - 8 if color else end + 8]
    men[end] = (LETTERS.index(uci[4].upper()) if uci[4:] else kind, color)
    passed = (start + end) // 2 if kind == PAWN and abs(end - start) == 16 else NO_SQUARE
    coded = bytes(number for square, (kind, color) in men.items() for number in (kind, not color, square))
    return Position(coded, not position.turn, passed, counter, "")


def fen_of(position: Position) -> str:
    letters = {square: LETTERS[kind] if color else LETTERS[kind].lower() for square, (kind, color) in men_of(position).items()}
    text = "/".join("".join(letters.get(square, "1") for square in range(8 * rank, 8 * rank + 8)) for rank in range(7, -1, -1))
    for count in range(8, 1, -1):
        text = text.replace("1" * count, str(count))
    passed = "-" if position.en_passant == NO_SQUARE else SQUARES[position.en_passant]
    return f"{text} {'w' if position.turn else 'b'} - {passed} {position.counter} 1"


def is_check(tables: Tablebase, position: Position) -> bool:
    """Whether the side to move is in check: then the other one can't be to move."""
    try:
        tables.get_wdl(fen_of(position._replace(turn=not position.turn, en_passant=NO_SQUARE)))
    except Untold as error:
        return error.reason == "InCheck"
    return False


def is_insufficient(men: Men) -> bool:
    """Whether no moves lead to mate: kings and one knight, or kings and bishops on squares of one colour."""
    others = [(kind, (square ^ square >> 3) & 1) for square, (kind, _) in men.items() if kind != KING]
    return [kind for kind, _ in others] == [KNIGHT] or all(kind == BISHOP for kind, _ in others) and len(set(others)) <= 1


def san(position: Position, move: RankedMove, moves: List[RankedMove], gives_check: bool) -> str:
    men, start, end = men_of(position), move.uci[:2], move.uci[2:4]
    kind = men[SQUARES.index(start)][0]
    takes = "x" if SQUARES.index(end) in men or kind == PAWN and start[0] != end[0] else ""
    if kind == PAWN:
        text = (start[0] if takes else "") + takes + end + (f"={move.uci[4].upper()}" if move.uci[4:] else "")
    else:
        others = [other.uci[:2] for other in moves if other.uci[2:4] == end and other.uci[:2] != start and men[SQUARES.index(other.uci[:2])][0] == kind]
        where = "" if not others else start[0] if all(one[0] != start[0] for one in others) else start[1] if all(one[1] != start[1] for one in others) else start
        text = LETTERS[kind] + where + takes + end
    return text + ("#" if move.mate else "+" if gives_check else "")


def described(tables: Tablebase, position: Position, category: int, mate: bool, stalemate: bool) -> Dict[str, Any]:
    return {"category": CATEGORIES[category], "dtz": tables.probe_dtz(fen_of(position)), "checkmate": mate, "stalemate": stalemate,
            "variant_win": False, "variant_loss": False, "insufficient_material": is_insufficient(men_of(position))}


def answer(tables: Tablebase, fen: str) -> Dict[str, Any]:
    """What lichess's tablebase returns, as far as tables know it. Errors: those of `Tablebase.rank_moves`."""
    position, moves = position_of(fen), tables.rank_moves(fen)
    is_mate = not moves and is_check(tables, position)
    best = moves[0].wdl if moves else -2 if is_mate else 0
    found = described(tables, position, best, is_mate, not moves and not is_mate)
    found["moves"] = []
    for move in moves:
        then = after(position, move.uci)
        found["moves"].append({
            "uci": move.uci, "san": san(position, move, moves, is_check(tables, then)), "zeroing": move.zeroing,
            **described(tables, then, -move.wdl, move.mate, move.stalemate)})
    return found


def page(tables: Tablebase, fen: str) -> str:
    """The page of a position. Errors: those of `answer`."""
    found, position = answer(tables, fen), position_of(fen)
    men = men_of(position)
    cells = [f"<td>{'&#' + str(9818 - men[square][0] + (0 if men[square][1] else 6)) + ';' if square in men else ''}</td>" for square in range(64)]
    rows = [f"<tr>{''.join(cells[8 * rank:8 * rank + 8])}</tr>" for rank in range(7, -1, -1)]
    moves = [f"<tr><td><a href=\"/?fen={quote(fen_of(after(position, move['uci'])))}\">{move['san']}</a><td>{move['category']}<td>{move['dtz']}</tr>"
             for move in found["moves"]]
    title = f"{'White' if position.turn else 'Black'} to move: {found['category']}, DTZ {found['dtz']}"
    return PAGE.format(title=title, fen=html.escape(fen), board="".join(rows), moves="".join(moves))


class Handler(BaseHTTPRequestHandler):
    """Responds to the requests of one connection."""

    tables: Tablebase

    def do_GET(self) -> None:
        asked = urlsplit(self.path)
        fen = parse_qs(asked.query).get("fen", [FIRST if asked.path == "/" else ""])[0].replace("_", " ")
        try:
            if asked.path == "/standard":
                self.send(200, "application/json", json.dumps(answer(self.tables, fen)))
            elif asked.path == "/":
                self.send(200, "text/html; charset=utf-8", page(self.tables, fen))
            else:
                self.send(404, "text/plain", "no such page")
        except (Refused, BadBlock, OSError, MemoryError) as error:
            self.send(500, "text/plain", str(error))
        except KeyError as error:
            self.send(404, "text/plain", str(error))
        except (Untold, ValueError, TypeError) as error:
            is_of_tables = isinstance(error, Untold) and (error.path is not None or error.reason == "Contradiction")
            self.send(500 if is_of_tables else 400, "text/plain", str(error))

    def send(self, status: int, kind: str, text: str) -> None:
        data = text.encode()
        self.send_response(status)
        self.send_header("Content-Type", kind)
        self.send_header("Content-Length", str(len(data)))
        self.send_header("Access-Control-Allow-Origin", "*")
        self.end_headers()
        self.wfile.write(data)


def server(tables: Tablebase, host: str = "127.0.0.1", port: int = 9000) -> ThreadingHTTPServer:
    """A server for the address, which its `serve_forever` runs; port 0 is any free one."""
    return ThreadingHTTPServer((host, port), type("Handler", (Handler,), {"tables": tables}))


def main(words: Optional[List[str]] = None) -> None:
    parser = argparse.ArgumentParser(prog="python -m szg.server", description=(__doc__ or "").splitlines()[0])
    parser.add_argument("folders", metavar="FOLDER", nargs="+")
    parser.add_argument("--host", default="127.0.0.1")
    parser.add_argument("--port", type=int, default=9000)
    given = parser.parse_args(words)
    with Tablebase() as tables:
        for folder in given.folders:
            tables.add_directory(folder)
        with server(tables, given.host, given.port) as running:
            print(f"http://{given.host}:{running.server_port}/", flush=True)
            running.serve_forever()


if __name__ == "__main__":
    main()
