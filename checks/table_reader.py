"""A second reader of tables, plain and slow, written from docs/FORMAT.md alone. `checks/fuzz` holds the program
against it."""
import bisect
from math import comb, prod

MAGIC = {"wdl": bytes.fromhex("71e8235d"), "dtz": bytes.fromhex("d7660ca5")}
CODES = {"P": 1, "N": 2, "B": 3, "R": 4, "Q": 5, "K": 6}
ORDER = "KQRBNP"
LEAF = 4095


def pawn_number(square):
    """P of section 3."""
    rank, file = divmod(square, 8)
    left = min(file, 7 - file)
    number = 47 - 12 * left - 2 * (rank - 1)
    return number if file < 4 else number - 1


class Refused(Exception):
    """A check failed, or the bytes ended."""

    def __init__(self, place, reason):
        super().__init__(f"refused at {place}: {reason}")
        self.place = place
        self.reason = reason


def is_name(text):
    """Whether a text is the name of a material (section 1)."""
    sides = text.split("v")
    if len(sides) != 2 or not all(letter in ORDER for side in sides for letter in side):
        return False
    for side in sides:
        places = [ORDER.index(letter) for letter in side]
        if not side.startswith("K") or side.count("K") != 1 or places != sorted(places):
            return False
    first, second = ([ORDER.index(letter) for letter in side] for side in sides)
    return (-len(first), first) <= (-len(second), second) and 3 <= len(first) + len(second) <= 6


class Material:
    def __init__(self, name):
        sides = [[CODES[letter] for letter in side] for side in name.split("v")]
        self.name = name
        self.men = sides[0] + [code + 8 for code in sides[1]]
        self.symmetric = sides[0] == sides[1]
        pawns = [side.count(1) for side in sides]
        self.has_pawns = sum(pawns) > 0
        lead = 0 if pawns[1] == 0 or 0 < pawns[0] <= pawns[1] else 1
        self.lead_code = 1 + 8 * lead
        self.lead, self.other = pawns[lead], pawns[1 - lead]
        self.has_single = any(self.men.count(code) == 1 for code in self.men if code % 8 != 6)
        self.parts = 4 if self.has_pawns else 1
        self.orders = 2 if self.has_pawns and self.other else 1

    def sides(self, kind):
        return 2 if kind == "wdl" and not self.symmetric else 1

    def lead_ways(self, part):
        if not self.has_pawns:
            return 31332 if self.has_single else 462
        return sum(comb(pawn_number(8 * rank + part), self.lead - 1) for rank in range(1, 7))

    def group_lengths(self, slots):
        lengths = [self.lead if self.has_pawns else 3 if self.has_single else 2]
        if self.has_pawns and self.other:
            lengths.append(self.other)
        at = sum(lengths)
        while at < len(slots):
            run = 1
            while at + run < len(slots) and slots[at + run] == slots[at]:
                run += 1
            lengths.append(run)
            at += run
        return lengths

    def size(self, part, slots, places):
        """The size of a part's side, or the reason why its order doesn't stand."""
        if sorted(slots) != sorted(self.men):
            return "Pieces"
        if self.has_pawns:
            other_code = 9 if self.lead_code == 1 else 1
            if slots[: self.lead + self.other] != [self.lead_code] * self.lead + [other_code] * self.other:
                return "PawnsFirst"
        lengths = self.group_lengths(slots)
        if len(set(places)) != len(places) or max(places) >= len(lengths):
            return "OrderPlace"
        ways, free = [self.lead_ways(part)], 64 - lengths[0]
        rest = lengths[1:]
        if self.has_pawns and self.other:
            ways.append(comb(48 - self.lead, self.other))
            free, rest = free - self.other, rest[1:]
        for run in rest:
            ways.append(comb(free, run))
            free -= run
        return prod(ways)


class Subtable:
    """What a head tells; `values` is filled by the blocks, where it isn't constant."""

    def __init__(self, part, side, size, flags):
        self.part, self.side, self.size, self.flags = part, side, size, flags
        self.constant = None
        self.sparse, self.values = [], None

    def value(self, index):
        return self.values[index] if self.constant is None else self.constant

    def steps(self, index):
        """How a look-up by the sparse index finds a value (section 6): its moves, words, descents and fetches."""
        if self.constant is not None:
            return 0, 0, 0, 0
        span = 1 << self.span_bits
        block, offset = self.sparse[index // span]
        number, moves = offset + index % span - span // 2, 0
        while number < 0:
            block, moves = block - 1, moves + 1
            number += self.starts[block + 1] - self.starts[block]
        while number >= self.starts[block + 1] - self.starts[block]:
            number -= self.starts[block + 1] - self.starts[block]
            block, moves = block + 1, moves + 1
        for words, symbol in enumerate(self.words[block], 1):
            if number < len(self.expansions[symbol]):
                return moves, words, self.descents(symbol, number), 1
            number -= len(self.expansions[symbol])

    def descents(self, symbol, number):
        """How many pairs stand above a value of a symbol."""
        count = 0
        while self.pairs[symbol][1] != LEAF:
            left, right = self.pairs[symbol]
            symbol, count = left, count + 1
            if number >= len(self.expansions[left]):
                symbol, number = right, number - len(self.expansions[left])
        return count

    def all_values(self):
        return self.values if self.constant is None else [self.constant] * self.size


class Reader:
    def __init__(self, name, kind, data):
        self.material, self.kind, self.data, self.at = Material(name), kind, data, 0

    def take(self, count):
        if len(self.data) - self.at < count:
            raise Refused(len(self.data), "Truncated")
        self.at += count
        return self.data[self.at - count : self.at]

    def number(self, count):
        return int.from_bytes(self.take(count), "little")

    def fill_to(self, multiple):
        self.take(-self.at % multiple)

    def read(self, is_front=False):
        """Reads the table. Of a front the blocks aren't read, but the file must have room for them."""
        for sub in self.sections():
            self.fill_to(64)
            sub.place = self.at
            if is_front:
                self.take(sub.block_count << sub.block_bits)
            else:
                self.blocks(sub)
        self.fill_to(64)
        self.last = self.take(16)
        return self

    def sections(self):
        """Reads what precedes the blocks. Returns the subtables that have blocks."""
        self.opening()
        self.parts = [self.part(part) for part in range(self.material.parts)]
        self.fill_to(2)
        self.subs = [self.head(part, side) for part in range(self.material.parts) for side in range(len(self.parts[part][2]))]
        self.maps = [self.map_of(sub) for sub in self.subs] if self.kind == "dtz" else []
        if self.kind == "dtz":
            self.fill_to(2)
        paired = [sub for sub in self.subs if sub.constant is None]
        for sub in paired:
            self.index(sub)
        for sub in paired:
            self.measures(sub)
        return paired

    def opening(self):
        if self.take(4) != MAGIC[self.kind]:
            raise Refused(0, "Magic")
        self.flags = self.number(1)
        if self.kind == "wdl" and (self.flags & 1 != 0) == self.material.symmetric:
            raise Refused(4, "SplitBit")
        if (self.flags & 2 != 0) != self.material.has_pawns:
            raise Refused(4, "PawnBit")

    def part(self, part):
        place, orders = self.at, self.material.orders
        taken = self.take(orders + len(self.material.men))
        sizes = []
        for side in range(self.material.sides(self.kind)):
            nibbles = [byte >> 4 * side & 15 for byte in taken]
            size = self.material.size(part, nibbles[orders:], nibbles[:orders])
            if isinstance(size, str):
                raise Refused(place if size == "OrderPlace" else place + orders, size)
            sizes.append(size)
        return taken[:orders], taken[orders:], sizes

    def head(self, part, side):
        sub = Subtable(part, side, self.parts[part][2][side], self.number(1))
        if sub.flags & 128:
            byte = self.number(1)
            sub.constant = byte if self.kind == "wdl" else 0
            return sub
        sub.block_bits = self.checked(1, lambda bits: bits <= 18, "BlockBits")
        sub.span_bits = self.checked(1, lambda bits: 1 <= bits <= 31, "SpanBits")
        numbers, place = self.take(7), self.at - 2
        sub.extra, sub.block_count = numbers[0], int.from_bytes(numbers[1:5], "little")
        sub.longest, sub.shortest = numbers[5], numbers[6]
        if not 1 <= sub.shortest <= sub.longest <= 32:
            raise Refused(place, "CodeLengths")
        self.code(sub)
        self.dictionary(sub)
        return sub

    def checked(self, count, passes, reason):
        place, number = self.at, self.number(count)
        if not passes(number):
            raise Refused(place, reason)
        return number

    def code(self, sub):
        place, count = self.at, sub.longest - sub.shortest + 1
        taken = self.take(2 * count)
        lowest = [int.from_bytes(taken[2 * i : 2 * i + 2], "little") for i in range(count)]
        for i in range(1, count):
            if lowest[i] > lowest[i - 1]:
                raise Refused(place + 2 * i, "LowestOrder")
        base = [0] * count
        for i in reversed(range(count - 1)):
            base[i] = (base[i + 1] + lowest[i] - lowest[i + 1]) // 2
            if 2 * base[i] < base[i + 1]:
                raise Refused(place + 2 * i, "TooFull")
        if base[0] >= 1 << sub.shortest:
            raise Refused(place, "TooFull")
        sub.lowest, sub.base = lowest, base

    def dictionary(self, sub):
        count, place = self.number(2), self.at
        taken = self.take(3 * count)
        pairs = []
        for s in range(count):
            x, y, z = taken[3 * s : 3 * s + 3]
            pairs.append((x + 256 * (y % 16), 16 * z + y // 16))
        sub.symbols, sub.pairs = count, pairs
        sub.expansions, faults = expansions_of(pairs)
        if faults:
            symbol, reason = faults
            raise Refused(place + 3 * symbol, reason)
        if count % 2:
            self.take(1)

    def map_of(self, sub):
        if not sub.flags & 2:
            return None
        width = 2 if sub.flags & 16 else 1
        if width == 2:
            self.fill_to(2)
        lists = []
        for _ in range(4):
            taken = self.take(width * self.number(width))
            lists.append([int.from_bytes(taken[i : i + width], "little") for i in range(0, len(taken), width)])
        return lists

    def index(self, sub):
        sub.index_place = self.at
        taken = self.take(6 * -(-sub.size >> sub.span_bits))
        sub.sparse = [(int.from_bytes(taken[i : i + 4], "little"), int.from_bytes(taken[i + 4 : i + 6], "little")) for i in range(0, len(taken), 6)]

    def measures(self, sub):
        place, count = self.at, sub.block_count + sub.extra
        taken = self.take(2 * count)
        sub.starts = [0]
        for i in range(0, len(taken), 2):
            sub.starts.append(sub.starts[-1] + int.from_bytes(taken[i : i + 2], "little") + 1)
        if sub.starts[sub.block_count] < sub.size:
            raise Refused(place, "ShortTotal")
        span = 1 << sub.span_bits
        for j, (block, offset) in enumerate(sub.sparse):
            if block > count or sub.starts[block] + offset != j * span + span // 2:
                raise Refused(sub.index_place + 6 * j, "SparseEntry")

    def blocks(self, sub):
        sub.values, sub.words = [], []
        for j in range(sub.block_count):
            place = self.at
            values, symbols = decoded(sub, j, self.take(1 << sub.block_bits))
            if values is None:
                raise Refused(place, "Word")
            sub.values += values
            sub.words.append(symbols)

    def fetched(self, sub, index):
        """The value at an index by the front alone and one block; if it doesn't decode, its number and offset in a tuple."""
        if sub.constant is not None:
            return sub.constant
        j = bisect.bisect_right(sub.starts, index) - 1
        place = sub.place + (j << sub.block_bits)
        values, _ = decoded(sub, j, self.data[place : place + (1 << sub.block_bits)])
        return (j, place) if values is None else values[index - sub.starts[j]]


def decoded(sub, j, block):
    """The values that block j must have and its symbols; no values where it has fewer."""
    needed = max(0, min(sub.starts[j + 1], sub.size) - sub.starts[j])
    values, symbols = [], []
    for symbol in words_of(sub, block):
        if len(values) >= needed:
            break
        symbols.append(symbol)
        values += sub.expansions[symbol]
    return values[:needed] if len(values) >= needed else None, symbols


def expansions_of(pairs):
    """Each symbol's values, and the fault if there is one: the least symbol of the first check that fails."""
    count = len(pairs)
    for s, (left, right) in enumerate(pairs):
        if right != LEAF and (left >= count or right >= count):
            return None, (s, "Child")
    # grown from the leaves upwards: what is never reached has no finite expansion
    lengths = [1 if right == LEAF else None for _, right in pairs]
    above, waits = [[] for _ in pairs], [0] * count
    for s, (left, right) in enumerate(pairs):
        if right != LEAF:
            waits[s] = 2
            above[left].append(s)
            above[right].append(s)
    ready = [s for s in range(count) if lengths[s] == 1]
    order = []
    while ready:
        s = ready.pop()
        order.append(s)
        for t in above[s]:
            waits[t] -= 1
            if not waits[t]:
                lengths[t] = min(257, lengths[pairs[t][0]] + lengths[pairs[t][1]])
                ready.append(t)
    for s in range(count):
        if lengths[s] is None:
            return None, (s, "Cycle")
    for s in range(count):
        if lengths[s] > 256:
            return None, (s, "LongSymbol")
    values = [None] * count
    for s in order:
        left, right = pairs[s]
        values[s] = [left] if right == LEAF else values[left] + values[right]
    return values, None


def words_of(sub, block):
    """The symbols of a block's words, up to the first place where no word stands."""
    width, at = 8 * len(block), 0
    bits = format(int.from_bytes(block, "big"), f"0{width}b")
    while True:
        for length in range(sub.shortest, sub.longest + 1):
            if at + length > width:
                return
            number, i = int(bits[at : at + length], 2), length - sub.shortest
            if number >= sub.base[i]:
                break
        else:
            return
        symbol = sub.lowest[i] + number - sub.base[i]
        if symbol >= sub.symbols:
            return
        at += length
        yield symbol


def shown(table):
    """What `szg show` prints of a table (docs/CLI.md)."""
    lines = [f"name {table.material.name}", f"kind {table.kind}", f"bytes {table.at}", f"flags {table.flags}"]
    lines += [f"part {'abcd'[p]} order {order.hex()} men {men.hex()}" for p, (order, men, _) in enumerate(table.parts)]
    for number, sub in enumerate(table.subs):
        line = f"sub {'abcd'[sub.part]} {sub.side} flags {sub.flags} "
        if sub.constant is not None:
            line += f"constant {sub.constant}"
        else:
            line += f"size {sub.size} block {sub.block_bits} span {sub.span_bits} extra {sub.extra} blocks {sub.block_count} "
            line += f"min {sub.shortest} max {sub.longest} symbols {sub.symbols}"
        lines.append(line)
        if table.maps and table.maps[number] is not None:
            lines.append(f"map {'abcd'[sub.part]} " + " ".join(str(len(items)) for items in table.maps[number]))
    return "\n".join(lines + [f"end {table.last.hex()}", ""])
