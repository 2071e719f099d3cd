"""The rules of chess a second time, for positions without castling: a board of 8 x 8 cells, moves by making them on a copy,
texts in Forsyth-Edwards Notation, moves as text. Written from the rules alone. Also loads the library szg_bench."""
import ctypes
import subprocess
from pathlib import Path

from common import CC, bench_libraries

STRAIGHT = [(1, 0), (-1, 0), (0, 1), (0, -1)]
DIAGONAL = [(1, 1), (1, -1), (-1, 1), (-1, -1)]
JUMPS = [(1, 2), (2, 1), (-1, 2), (-2, 1), (1, -2), (2, -1), (-1, -2), (-2, -1)]
STEPS = {"n": JUMPS, "k": STRAIGHT + DIAGONAL, "r": STRAIGHT, "b": DIAGONAL, "q": STRAIGHT + DIAGONAL}
FAULTS = ["none", "letter", "rank", "men", "kings", "same square", "pawn rank", "side to move", "castling", "en passant", "opponent in check", "counters"]


def is_inside(square):
    return 0 <= square[0] < 8 and 0 <= square[1] < 8


def is_white(letter):
    return letter.isupper()


def up_of(letter):
    """The ranks that a pawn goes up by a step."""
    return 1 if is_white(letter) else -1


def name_of(square):
    return "abcdefgh"[square[0]] + str(square[1] + 1)


class Board:
    """Men by square (file, rank), both from 0; the side to move, w or b; the en passant square or None."""

    def __init__(self, men, mover, passed):
        self.men, self.mover, self.passed = men, mover, passed

    def is_own(self, letter):
        return is_white(letter) == (self.mover == "w")

    def king(self, mover):
        return next(square for square, letter in self.men.items() if letter == ("K" if mover == "w" else "k"))

    def is_attacked(self, square, by):
        for start, letter in self.men.items():
            if is_white(letter) == (by == "w") and self.attacks(start, letter, square):
                return True
        return False

    def attacks(self, start, letter, square):
        if letter.lower() == "p":
            return abs(square[0] - start[0]) == 1 and square[1] - start[1] == up_of(letter)
        return square in self.targets(start, letter)

    def is_check(self):
        return self.is_attacked(self.king(self.mover), "b" if self.mover == "w" else "w")

    def targets(self, start, letter):
        """The squares that a man may go to, if it doesn't leave its king in check."""
        if letter.lower() == "p":
            yield from self.pawn_targets(start, letter)
            return
        for step in STEPS[letter.lower()]:
            cell = (start[0] + step[0], start[1] + step[1])
            while is_inside(cell):
                man = self.men.get(cell)
                if man is None or is_white(man) != is_white(letter):
                    yield cell
                if man is not None or letter in "NnKk":
                    break
                cell = (cell[0] + step[0], cell[1] + step[1])

    def pawn_targets(self, start, letter):
        up = up_of(letter)
        ahead, twice = (start[0], start[1] + up), (start[0], start[1] + 2 * up)
        if ahead not in self.men:
            yield ahead
            if start[1] == (1 if up == 1 else 6) and twice not in self.men:
                yield twice
        for side in (-1, 1):
            cell = (start[0] + side, start[1] + up)
            if is_inside(cell) and (cell == self.passed or cell in self.men and is_white(self.men[cell]) != is_white(letter)):
                yield cell

    def made(self, move):
        start, target, promoted = move
        men = dict(self.men)
        letter = men.pop(start)
        if letter.lower() == "p" and start[0] != target[0] and target not in self.men:
            del men[(target[0], start[1])]
        men[target] = (promoted.upper() if is_white(letter) else promoted) if promoted else letter
        is_double = letter.lower() == "p" and abs(start[1] - target[1]) == 2
        return Board(men, "b" if self.mover == "w" else "w", (start[0], (start[1] + target[1]) // 2) if is_double else None)

    def legal_moves(self):
        moves = []
        for start, letter in self.men.items():
            if self.is_own(letter):
                for target in self.targets(start, letter):
                    for promoted in "qrbn" if letter.lower() == "p" and target[1] in (0, 7) else [None]:
                        move = (start, target, promoted)
                        after = self.made(move)
                        if not after.is_attacked(after.king(self.mover), after.mover):
                            moves.append(move)
        return moves

    def san(self, move, moves):
        """The move in standard algebraic notation, given the legal moves."""
        start, target, promoted = move
        letter = self.men[start]
        captures = target in self.men or letter.lower() == "p" and start[0] != target[0]
        if letter.lower() == "p":
            text = "abcdefgh"[start[0]] if captures else ""
        else:
            text = letter.upper()
            others = [m[0] for m in moves if m[1] == target and m[0] != start and self.men[m[0]] == letter]
            if others:
                on_file, on_rank = any(s[0] == start[0] for s in others), any(s[1] == start[1] for s in others)
                if not on_file:
                    text += "abcdefgh"[start[0]]
                elif not on_rank:
                    text += str(start[1] + 1)
                else:
                    text += name_of(start)
        text += ("x" if captures else "") + name_of(target) + (f"={promoted.upper()}" if promoted else "")
        after = self.made(move)
        if after.is_check():
            text += "+" if after.legal_moves() else "#"
        return text

    def fen(self):
        rows = []
        for rank in range(7, -1, -1):
            cells = "".join(self.men.get((file, rank), ".") for file in range(8))
            for count in range(8, 0, -1):
                cells = cells.replace("." * count, str(count))
            rows.append(cells)
        return f"{'/'.join(rows)} {self.mover} - {name_of(self.passed) if self.passed else '-'}"


def uci_of(move):
    return name_of(move[0]) + name_of(move[1]) + (move[2] or "")


def parse(text):
    """A board, the counters and 0; or None, None and the number of the first fault, in the order of FAULTS."""
    fields = text.split(" ")
    ranks = fields[0].split("/")
    if any(letter not in "pnbrqkPNBRQK12345678/" for letter in fields[0]):
        return None, None, 1
    if len(ranks) != 8:
        return None, None, 2
    men = {}
    for number, rank in enumerate(ranks):
        file = 0
        for letter in rank:
            if letter.isdigit():
                file += int(letter)
            else:
                men[(file, 7 - number)] = letter
                file += 1
        if file != 8:
            return None, None, 2
    letters = "".join(men.values())
    if not 2 <= len(men) <= 6:
        return None, None, 3
    if letters.count("K") != 1 or letters.count("k") != 1:
        return None, None, 4
    if any(letter in "Pp" and square[1] in (0, 7) for square, letter in men.items()):
        return None, None, 6
    mover, castling, passed_text = (fields[1:4] + ["", "", ""])[:3]
    if mover not in ("w", "b"):
        return None, None, 7
    if castling != "-":
        return None, None, 8
    passed = None
    if passed_text != "-":
        if len(passed_text) != 2 or passed_text[0] not in "abcdefgh" or passed_text[1] not in "36":
            return None, None, 9
        passed = ("abcdefgh".index(passed_text[0]), int(passed_text[1]) - 1)
        # White to move: Black's pawn came from the seventh rank to the fifth
        rank, ahead, origin, pawn = (5, 4, 6, "p") if mover == "w" else (2, 3, 1, "P")
        if passed[1] != rank or passed in men or (passed[0], origin) in men or men.get((passed[0], ahead)) != pawn:
            return None, None, 9
    board = Board(men, mover, passed)
    if board.is_attacked(board.king("b" if mover == "w" else "w"), mover):
        return None, None, 10
    counters = fields[4:]
    if counters and not (len(counters) == 2 and all(1 <= len(count) <= 9 and count.isascii() and count.isdigit() for count in counters)):
        return None, None, 11
    return board, tuple(map(int, counters)) if counters else (0, 1), 0


class Library:
    """The calls of crates/szg_bench, linked into a shared object in a folder."""

    def __init__(self, folder):
        path = Path(folder) / "libszg_bench.so"
        subprocess.run([CC, "-shared", "-o", path, "-Wl,--whole-archive", *bench_libraries(), "-Wl,--no-whole-archive"], check=True)
        self.calls = ctypes.CDLL(str(path))
        pair = [ctypes.c_char_p, ctypes.c_size_t]
        self.calls.szg_bench_fen.argtypes = [*pair, ctypes.POINTER(ctypes.c_uint32), ctypes.c_size_t, ctypes.c_char_p, ctypes.c_size_t]
        self.calls.szg_bench_fen.restype = ctypes.c_uint8
        self.calls.szg_bench_moves.argtypes = [*pair, ctypes.c_uint8, ctypes.c_char_p, ctypes.c_size_t]
        self.calls.szg_bench_moves.restype = ctypes.c_uint8
        self.counters, self.text, self.lines = (ctypes.c_uint32 * 2)(), ctypes.create_string_buffer(128), ctypes.create_string_buffer(8192)

    def parse(self, text):
        """The position's text, the counters and 0; or None, None and the number of the fault."""
        fault = self.calls.szg_bench_fen(text, len(text), self.counters, 2, self.text, 128)
        return (None, None, fault) if fault else (self.text.value.decode(), tuple(self.counters), 0)

    def moves(self, fen, depth):
        """The legal moves: by UCI text the text in algebraic notation and the number of sequences of this length."""
        status = self.calls.szg_bench_moves(fen.encode(), len(fen), depth, self.lines, 8192)
        if status:
            raise ValueError(f"{fen}: status {status}")
        rows = [line.split() for line in self.lines.value.decode().splitlines()]
        return {uci: (san, int(count)) for uci, san, count in rows}
