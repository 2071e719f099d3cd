"""A second writer and reader of dumps, plain and slow, written from docs/FORMAT.md, section 14, alone. `checks/fuzz`
holds the program against it."""
import itertools
import re

from table_reader import Material, is_name

PARTS = "abcd"
COUNT_MOST = 2**63 - 1


class Refused(Exception):
    """A line that isn't the one due, or a plan of which no table can be built: what `szg build` says."""


def dump_of(table, form):
    """The dump of a table that the second reader has read."""
    material, parts = table.material, zip(PARTS, table.parts)
    lines = [f"szg-dump {form}", f"name {material.name}", f"kind {table.kind}", f"end {table.last.hex()}"]
    lines += [f"part {letter} order {order.hex()} men {men.hex()}" for letter, (order, men, _) in parts]
    for number, sub in enumerate(table.subs):
        lines.append(f"sub {PARTS[sub.part]} {sub.side}")
        if table.kind == "dtz":
            lines.append(f"flags {sub.flags % 32}")
            for j, items in enumerate(table.maps[number] or []):
                lines += [f"map {j} {len(items)}", *map(str, items)]
        lines.append(f"values {sub.size}")
        if form == 1:
            lines += map(str, sub.all_values())
        elif sub.constant is not None:
            lines.append(f"{sub.size} {sub.constant}")
        else:
            lines += [f"{len(list(run))} {value}" for value, run in itertools.groupby(sub.values)]
    return "\n".join([*lines, ""]).encode()


class Dump:
    """The dump that a text begins with; Refused where it begins with none, or with one of no table."""

    def __init__(self, text):
        self.text, self.at, self.line = text, 0, 0
        self.form = self.first()
        self.material = Material(self.name())
        self.kind = self.one_of(self.due("kind", None)[0], [b"wdl", b"dtz"]).decode()
        self.last = self.bytes_of(self.due("end", None)[0], 16)
        self.parts = [self.part(letter) for letter in PARTS[: self.material.parts]]
        self.flags, self.maps, self.lists, self.sizes = [], [], [], []
        for part in range(self.material.parts):
            for side in range(self.material.sides(self.kind)):
                self.subtable(part, side)
        self.plan()

    def refuse(self, fault):
        raise Refused(f"refused line {self.line}: {fault}")

    def words(self):
        """The words of the next line."""
        self.line += 1
        end = self.text.find(b"\n", self.at, self.at + 81)
        if end < 0:
            self.refuse("Field" if len(self.text) - self.at > 80 else "Ended")
        line, self.at = self.text[self.at : end], end + 1
        return line.split(b" ")

    def due(self, *form):
        """The words of the next line that stand where its form has None."""
        words = self.words()
        if len(words) != len(form) or any(fixed is not None and word != fixed.encode() for word, fixed in zip(words, form)):
            self.refuse("Field")
        return [word for word, fixed in zip(words, form) if fixed is None]

    def one_of(self, word, allowed):
        return word if word in allowed else self.refuse("Field")

    def number(self, word, most, least=0):
        if not re.fullmatch(rb"0|[1-9][0-9]*", word) or not least <= int(word) <= most:
            self.refuse("Number")
        return int(word)

    def bytes_of(self, word, count=None):
        if not re.fullmatch(rb"([0-9a-f]{2})*", word) or count is not None and len(word) != 2 * count:
            self.refuse("Hex")
        return bytes.fromhex(word.decode())

    def first(self):
        form = self.due("szg-dump", None)[0]
        return int(form) if form in (b"1", b"2") else self.refuse("Version")

    def name(self):
        name = self.due("name", None)[0].decode("latin-1")
        return name if is_name(name) else self.refuse("Name")

    def part(self, letter):
        order, men = self.due("part", letter, "order", None, "men", None)
        return self.bytes_of(order), self.bytes_of(men)

    def subtable(self, part, side):
        self.due("sub", PARTS[part], str(side))
        if self.form == 2 and not self.sizes:
            self.sizes = self.sizes_told()
        if self.kind == "dtz":
            self.flags.append(self.number(self.due("flags", None)[0], 31))
            self.maps.append(self.map_of(self.flags[-1]))
        count = self.number(self.due("values", None)[0], COUNT_MOST)
        if self.form == 2 and count != self.sizes[len(self.lists)]:
            raise Refused("refused build: Length")
        self.lists.append(self.numbers(count, 65535) if self.form == 1 else self.runs(count))

    def map_of(self, flags):
        if not flags & 2:
            return None
        lists = []
        for j in range(4):
            count = self.number(self.due("map", str(j), None)[0], COUNT_MOST)
            lists.append(self.numbers(count, 65535 if flags & 16 else 255))
        return lists

    def numbers(self, count, most):
        numbers = []
        while len(numbers) < count:
            numbers.append(self.number(self.due(None)[0], most))
        return numbers

    def runs(self, count):
        values = []
        while len(values) < count:
            length, value = self.due(None, None)
            length, value = self.number(length, COUNT_MOST, 1), self.number(value, 65535)
            if length > count - len(values):
                self.refuse("Run")
            values += [value] * length
        return values

    def sizes_told(self):
        """The size of each subtable by its part's order."""
        material, sizes = self.material, []
        for part, (order, men) in enumerate(self.parts):
            if (len(order), len(men)) != (material.orders, len(material.men)):
                raise Refused("refused build: Order")
            for side in range(material.sides(self.kind)):
                slots, places = ([byte >> 4 * side & 15 for byte in bytes] for bytes in (men, order))
                sizes.append(material.size(part, slots, places))
        if any(isinstance(size, str) for size in sizes):
            raise Refused("refused build: Order")
        return sizes

    def plan(self):
        """What the builder refuses, the first kind of fault that some list has."""
        sizes, most = self.sizes_told(), 4 if self.kind == "wdl" else 4095
        length_most = [65535 if flags & 16 else 255 for flags in self.flags]
        for fault, stands in [
            ("Length", any(len(values) != size for values, size in zip(self.lists, sizes))),
            ("Value", any(max(values) > most for values in self.lists if values)),
            ("TooManyValues", any(len(set(values)) > 4095 for values in self.lists)),
            ("Map", any(len(items) > room for lists, room in zip(self.maps, length_most) for items in lists or [])),
        ]:
            if stands:
                raise Refused(f"refused build: {fault}")
