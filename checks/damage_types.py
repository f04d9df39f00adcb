"""Draws damaged assemblies by a seed, most of them damaged on purpose where the types of a file stand: in signatures and
descriptors, and in the rows of the tables that say what a type, a field, a method or a parameter is."""
import random

import reference_imports
from reference.signatures import compressed

# The columns that are damaged, how often a table is drawn, and why: TypeRef names core types and types of the file; TypeDef has
# flags, Extends and where fields and methods begin; Field, MethodDef and Param their flags, blobs and numbers; InterfaceImpl and
# MethodImpl decide nothing for stubs; the others are layouts, descriptors, nesting, TypeSpecs and imports.
TABLES = {
    0x01: 3, 0x02: 8, 0x04: 4, 0x06: 6, 0x08: 6, 0x09: 1, 0x0D: 6, 0x0F: 6, 0x10: 6, 0x19: 2, 0x1A: 1, 0x1B: 2, 0x1C: 4, 0x29: 3,
}
# the blobs of these tables, and how often each is drawn
BLOBS = {0x04: 4, 0x06: 6, 0x0D: 6, 0x1B: 2, 0x11: 1}
# element types, native types, numbers at the ends of their spellings, and bytes that begin no number
TELLING = bytes((*range(0x00, 0x31), 0x40, 0x41, 0x45, 0x50, 0x60, 0x65, 0x7F, 0x80, 0x81, 0xBF, 0xC0, 0xDF, 0xE0, 0xFF))
LAYOUT_FLAGS = (0x00, 0x08, 0x10, 0x18, 0x10000, 0x20000)
FEW_NUMBERS = (0, 1, 2, 3, 4, 6, 8, 16, 64, 128, 129, 256, 0xFFFF, 1 << 16, 1 << 20, (1 << 20) + 1, 1 << 31, (1 << 32) - 1)


class Damage:
    """An assembly, and a source of drawn numbers by which it is damaged."""

    def __init__(self, data, seed):
        self.whole = data
        self.draw = random.Random(seed)
        self.tables = reference_imports.Tables(data, reference_imports.read_streams(data, reference_imports.read_headers(data)))
        self.used = [it for it in TABLES if self.tables.rows[it]]
        self.blobs = {it: self.places_of_blobs(it) for it in BLOBS if self.tables.rows[it]}

    def places_of_blobs(self, table):
        """Where the blobs stand that the rows of a table name: from the number that says their size on to their end."""
        column = reference_imports.COLUMNS[table].split().index("B")
        heap = self.tables.heaps["B"]
        places = []
        for number in range(1, self.tables.rows[table] + 1):
            start = heap.at + self.tables.row(table, number)[column]
            found = compressed(self.whole, start, heap.at + heap.size)
            if found:
                places.append((start, found[1], found[0]))
        return places

    def damaged(self):
        """Returns what was done, and the bytes."""
        data, said = bytearray(self.whole), []
        for _ in range(self.draw.choice((1, 1, 1, 2, 2, 3, 4))):
            said.append(self.draw.choices((self.cell, self.blob, self.any_byte), (10, 8, 1))[0](data))
        return "; ".join(said), bytes(data)

    def cell(self, data):
        table = self.draw.choices(self.used, [TABLES[it] for it in self.used])[0]
        columns, widths = reference_imports.COLUMNS[table].split(), self.tables.widths[table]
        row, column = self.draw.randint(1, self.tables.rows[table]), self.draw.randrange(len(columns))
        at = self.tables.starts[table] + (row - 1) * sum(widths) + sum(widths[:column])
        old = int.from_bytes(data[at : at + widths[column]], "little")
        new = self.value(table, columns[column], column, old) & (1 << 8 * widths[column]) - 1
        data[at : at + widths[column]] = new.to_bytes(widths[column], "little")
        return f"table {table:02x} row {row} column {column}: {old} to {new}"

    def value(self, table, column, number, old):
        """A new value for a cell: most often one that the part `cell` accepts."""
        other = self.tables.row(table, self.draw.randint(1, self.tables.rows[table]))[number]
        near = old + self.draw.choice((-1, 1))
        if column.isdigit() and len(column) == 1:
            return self.draw.choice((other, near, old ^ 1 << self.draw.randrange(20), old ^ self.draw.choice(LAYOUT_FLAGS), self.draw.choice(FEW_NUMBERS)))
        if column in reference_imports.CODED:
            return self.draw.choice((other, near, 0, self.coded(column), self.coded(column), self.coded(column)))
        if column in ("S", "B", "G"):
            return self.draw.choice((other, other, other, near, self.draw.randrange(self.tables.heaps[column].size + 1)))
        rows = self.tables.rows[int(column.removeprefix("list:"), 16)]
        return self.draw.choice((other, near, 0, self.draw.randint(1, rows + 1), self.draw.randint(1, max(rows, 1))))

    def coded(self, column):
        bits, tables = reference_imports.CODED[column]
        tag = self.draw.choice([n for n, it in enumerate(tables) if it is not None and self.tables.rows[it]])
        return self.draw.randint(1, self.tables.rows[tables[tag]]) << bits | tag

    def blob(self, data):
        table = self.draw.choices(list(self.blobs), [BLOBS[it] for it in self.blobs])[0]
        start, first, size = self.draw.choice(self.blobs[table])
        # one time in eight the number that says how long the blob is
        at = start if size == 0 or self.draw.randrange(8) == 0 else self.draw.randrange(first, first + size)
        old = data[at]
        data[at] = self.draw.choice((self.draw.choice(TELLING), self.draw.choice(TELLING), self.draw.randrange(256), old ^ 1 << self.draw.randrange(8)))
        return f"a blob of table {table:02x}, byte {at - start} of {size}: {old:02x} to {data[at]:02x}"

    def any_byte(self, data):
        headers = reference_imports.read_headers(self.whole)
        at = self.draw.randrange(headers.root, headers.root + headers.size)
        old = data[at]
        data[at] = self.draw.randrange(256)
        return f"byte {at}: {old:02x} to {data[at]:02x}"
