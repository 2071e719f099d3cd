"""The server of results: python -m szg.server."""
import json
import os
import re
import shutil
import subprocess
import sys
import threading
import urllib.error
import urllib.request
from pathlib import Path
from typing import Iterator, Optional, Tuple
from urllib.parse import quote

import pytest
import stand_in
import szg
from common import LIMIT
from conftest import KNIGHT, PAIRED, ROOT
from szg import server
from table_writer import file_of

PROMOTES = "8/1k2P3/8/8/8/8/8/K7 w - - 0 1"


@pytest.fixture(scope="module")
def address() -> Iterator[str]:
    env = {**os.environ, "PYTHONPATH": str(Path(szg.__file__).parents[1])}
    words = [sys.executable, "-m", "szg.server", "--port", "0", str(ROOT / "data"), str(ROOT / "samples")]
    with subprocess.Popen(words, env=env, stdout=subprocess.PIPE, stderr=subprocess.DEVNULL, text=True) as running:
        try:
            yield running.stdout.readline().strip()
        finally:
            running.kill()


def got(address: str, path: str) -> Tuple[int, str, str]:
    """The status, the type and the text of an answer."""
    try:
        with urllib.request.urlopen(address + path, timeout=LIMIT) as answer:
            assert answer.headers["Access-Control-Allow-Origin"] == "*"
            return answer.status, answer.headers["Content-Type"], answer.read().decode()
    except urllib.error.HTTPError as error:
        return error.code, error.headers["Content-Type"], error.read().decode()


def test_an_answer_has_the_fields_of_lichess(address: str) -> None:
    for path in (f"standard?fen={PROMOTES.replace(' ', '_')}", f"standard?fen={quote(PROMOTES)}"):
        status, kind, text = got(address, path)
        assert (status, kind) == (200, "application/json")
        found = json.loads(text)
        moves = found.pop("moves")
        assert found == {"category": "win", "dtz": 1, "checkmate": False, "stalemate": False, "variant_win": False, "variant_loss": False,
                         "insufficient_material": False}
        # of the position after it, for the player who moves then: Black has lost
        assert moves[0] == {**found, "uci": "e7e8q", "san": "e8=Q", "zeroing": True, "category": "loss", "dtz": moves[0]["dtz"]}
        assert all(move["zeroing"] == ("=" in move["san"]) for move in moves)
        assert moves[0]["dtz"] < 0 and {move["san"] for move in moves} >= {"e8=Q", "e8=R", "e8=N", "e8=B", "Ka2"}
        draw = next(move for move in moves if move["san"] == "e8=N")
        assert (draw["category"], draw["dtz"], draw["insufficient_material"]) == ("draw", 0, True)


@pytest.mark.parametrize("fen, wanted", [
    ("7k/6Q1/5K2/8/8/8/8/8 b - - 0 1", ("loss", -1, True, False)), ("7k/8/5KQ1/8/8/8/8/8 b - - 0 1", ("draw", 0, False, True)),
    ("2k5/8/1K6/8/8/8/8/R7 w - - 98 80", ("cursed-win", 3, False, False)), ("1k6/8/1K6/8/8/8/8/R7 b - - 99 80", ("blessed-loss", -4, False, False)),
])
def test_ends_and_the_counter(address: str, fen: str, wanted: tuple) -> None:
    found = json.loads(got(address, "standard?fen=" + quote(fen))[2])
    assert (found["category"], found["dtz"], found["checkmate"], found["stalemate"]) == wanted
    assert bool(found["moves"]) == (not wanted[2] and not wanted[3])
    opposite = {"cursed-win": "blessed-loss", "blessed-loss": "cursed-win"}
    assert not found["moves"] or found["moves"][0]["category"] == opposite[wanted[0]]


def test_moves_that_end_the_game(address: str) -> None:
    moves = json.loads(got(address, "standard?fen=" + quote("7k/8/5K2/8/6Q1/8/8/8 w - - 0 1"))[2])["moves"]
    assert {(move["san"], move["category"]) for move in moves if move["checkmate"]} == {("Qg7#", "loss")}
    assert ("Qg6", "draw") in {(move["san"], move["category"]) for move in moves if move["stalemate"]}


def test_moves_are_written_as_in_games() -> None:
    """Against the rules that checks/chess_rules.py has, in positions with captures, promotions and en passant too."""
    fens = [PROMOTES, "8/8/8/8/8/1Q6/2k5/K7 b - -", "7k/8/5K2/8/8/8/8/6Q1 w - -", "4k3/8/8/8/1pP5/8/8/4K3 b - c3", "3rk3/4P3/8/8/8/8/8/K7 w - -",
            "1k6/8/8/R7/8/R7/8/4K2R w - -", "k7/8/8/3N1N2/8/8/8/K4N2 w - -", "7k/4P3/8/8/8/8/8/K7 w - - 5 9", "4k3/8/8/8/8/8/2P5/4K3 w - -", "8/8/8/1k6/8/8/2P5/K7 w - -"]
    with szg.open_tablebase(ROOT / "samples") as tables:
        for fen in fens:
            board, position = stand_in.Board(fen), server.position_of(fen)
            legal = board.now.legal_moves()
            moves = [szg.RankedMove(board.uci(move), 0, 0, False, False, False) for move in legal]
            for move, one in zip(legal, moves):
                then, after = server.after(position, one.uci), board.now.made(move)
                mate = one._replace(mate=after.is_check() and not after.legal_moves())
                assert server.san(position, mate, moves, server.is_check(tables, then)) == board.now.san(move, legal)
                text = server.fen_of(then)
                assert stand_in.Board(text).now.men == after.men and text.split()[1] == after.mover
                passed = "-" if after.passed is None else "abcdefgh"[after.passed[0]] + str(after.passed[1] + 1)
                zeroing = board.is_zeroing(move)
                assert text.split()[2:] == ["-", passed, "0" if zeroing else str(position.counter + 1), "1"]


@pytest.mark.parametrize("men, wanted", [
    ("k7/8/8/8/8/8/8/K7", True), ("k7/8/8/8/8/8/8/KN6", True), ("k7/8/8/8/8/8/8/KB6", True), ("k7/8/8/8/8/8/b7/KB6", True),
    ("kb6/8/8/8/8/8/8/KB6", False), ("k7/8/8/8/8/8/8/KNN5", False), ("kn6/8/8/8/8/8/8/KN6", False), ("kn6/8/8/8/8/8/8/KB6", False),
    ("k7/8/8/8/8/8/P7/K7", False), ("k7/8/8/8/8/8/R7/K7", False), ("k7/8/8/8/8/8/B1B5/K7", True),
])
def test_what_is_insufficient(men: str, wanted: bool) -> None:
    assert server.is_insufficient(server.men_of(server.position_of(men, True))) == wanted


def test_the_page_has_the_board_and_moves_that_lead_on(address: str) -> None:
    status, kind, text = got(address, "")
    assert (status, kind) == (200, "text/html; charset=utf-8") and "White to move: win, DTZ 3" in text
    board = re.search(r'<table class="board">(.*?)</table>', text, re.S)[1]
    rows = [re.findall("<td>(.*?)</td>", row) for row in board.split("</tr>")[:-1]]
    assert [len(row) for row in rows] == [8] * 8
    # 4k3/8/4K3/4P3: a white king, a white pawn, a black king
    assert (rows[0][4], rows[2][4], rows[3][4]) == ("&#9818;", "&#9812;", "&#9817;") and sum(map(bool, sum(rows, []))) == 3
    links = re.findall('<a href="/([^"]*)">', text)
    assert len(links) == 4 and ">Kd6</a>" in text
    status, _, text = got(address, links[0])
    assert status == 200 and "Black to move: loss" in text
    assert {"&#9819;", "&#9812;"} < set(re.findall("&#98..;", got(address, "?fen=" + quote("7k/8/8/8/8/8/q7/3K4 b"))[2]))
    # what follows the counter is nobody's
    assert "&quot;&gt;&lt;b&gt;" in got(address, "?fen=" + quote(PROMOTES + '"><b>'))[2]


def test_the_page_in_a_browser(address: str, tmp_path: Path) -> None:
    browser = shutil.which("chromium") or shutil.which("google-chrome")
    if browser is None:
        pytest.skip("there is no Chromium")

    def shown(path: str) -> str:
        words = [browser, "--headless", "--no-sandbox", "--disable-gpu", f"--user-data-dir={tmp_path}", "--dump-dom", address + path]
        return subprocess.run(words, stdout=subprocess.PIPE, stderr=subprocess.DEVNULL, text=True, timeout=600, check=True).stdout

    text = shown("?fen=" + quote("4k3/8/4K3/4P3/8/8/8/8 w"))
    board = re.search(r'<table class="board"><tbody>(.*?)</tbody>', text, re.S)[1]
    rows = ["".join(man or " " for man in re.findall("<td>(.?)</td>", row)) for row in board.split("</tr>")[:-1]]
    assert rows == [" " * 4 + man + " " * 3 for man in "♚ ♔♙    "]
    moves = re.findall('<a href="/([^"]*)">([^<]*)</a></td><td>([^<]*)</td><td>([^<]*)</td>', text)
    assert len(moves) == 4 and moves[0][1:] == ("Kd6", "loss", "-2")
    assert "<h1>Black to move: loss, DTZ -2</h1>" in shown(moves[0][0])


@pytest.mark.parametrize("path, status, said", [
    ("standard", 400, "eight ranks"), ("standard?fen=4k3", 400, "eight ranks"), ("?fen=%3Cb%3E", 400, "is no FEN"),
    ("standard?fen=7k/6Q1/5K2/8/8/8/8/8_w", 400, "InCheck"), ("standard?fen=7k/6Q1/5K2/8/8/8/8/8", 400, "turn"),
    ("standard?fen=4K2R/8/8/8/8/8/8/7k_w_K_-_0_1", 404, "castling"), ("standard?fen=k7/8/8/8/8/8/8/KBN5_w", 404, "no WDL table of KBNvK was added"),
    ("elsewhere", 404, "no such page"), ("standard?fen=%C3%A9", 400, "eight ranks"),
])
def test_what_is_refused(address: str, path: str, status: int, said: str) -> None:
    found, kind, text = got(address, path)
    assert (found, kind) == (status, "text/plain") and said in text


@pytest.mark.parametrize("name, data", [
    ("KQvK", b""), ("KQvK", None), ("KQvK", PAIRED.data[:PAIRED.read.subs[0].place].ljust(len(PAIRED.data), b"\0")),
    ("KNvK", KNIGHT.data[:11] + b"\x07" + KNIGHT.data[12:]),
], ids=["empty", "gone", "bad block", "no class"])
def test_a_damaged_table_is_the_servers_fault(tmp_path: Path, name: str, data: Optional[bytes]) -> None:
    path = tmp_path / f"{name}.rtbw"
    path.write_bytes(data or b"")
    with szg.open_tablebase(tmp_path) as tables:
        if data is None:
            path.unlink()
        status, text = served(tables, f"7k/8/5K2/8/8/8/8/6{name[1]}1 w - - 0 1")
    assert status == 500 and str(path) in text


def served(tables: szg.Tablebase, fen: str) -> Tuple[int, str]:
    """The status and the text of an answer from these tables."""
    with server.server(tables, port=0) as running:
        thread = threading.Thread(target=running.serve_forever)
        thread.start()
        try:
            status, _, text = got(f"http://127.0.0.1:{running.server_port}/", "standard?fen=" + quote(fen))
        finally:
            running.shutdown()
            thread.join()
    return status, text


def test_tables_that_contradict_each_other_are_the_servers_fault(tmp_path: Path) -> None:
    """Black wins each position where he is to move, the DTZ table stores White to move, and no move of White's is won for Black."""
    (tmp_path / "KNvK.rtbw").write_bytes(KNIGHT.data[:11] + b"\x02\x80\x04" + KNIGHT.data[14:])
    (tmp_path / "KNvK.rtbz").write_bytes(file_of("d7660ca5 0100 06 22 0e 00", [b"\x80\x00"]))
    with szg.open_tablebase(tmp_path) as tables:
        assert served(tables, "7k/8/5K2/8/8/8/8/6N1 w - - 0 1") == (500, "the table has no entry: Contradiction")


def test_the_words_of_the_server(monkeypatch: pytest.MonkeyPatch, tmp_path: Path) -> None:
    asked = []

    def made(tables: szg.Tablebase, host: str, port: int) -> None:
        asked.append((len(tables._folders), host, port))
        raise KeyboardInterrupt
    monkeypatch.setattr(server, "server", made)
    for words, wanted in (["--host", "::1", "--port", "7"], ("::1", 7)), ([], ("127.0.0.1", 9000)):
        pytest.raises(KeyboardInterrupt, server.main, [*words, str(tmp_path), str(ROOT / "samples")])
        assert asked.pop() == (2, *wanted)
