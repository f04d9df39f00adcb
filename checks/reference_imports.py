#!/usr/bin/env python3
"""A second reader of .NET assemblies, to hold `plhost imports` against.

It was written from the public standard (ECMA-335 partition II, sections 22, 24 and 25) and shares no code with plhost.
`reference_imports.py imports FILE` prints what `plhost imports FILE` must print, and ends with the same status and the
same line on standard error. It reads in one order, and the first part of the file that is missing or wrong is refused,
with the file offset of the field at which that shows.

Nothing here is fast: it checks every cell one by one.
"""
import os
import struct
import sys
from collections import namedtuple

MOST_BYTES = 67_108_864

# Cells of these tables are checked: Module, TypeRef, TypeDef, Field, MethodDef, Param, InterfaceImpl, MemberRef,
# FieldMarshal, ClassLayout, FieldLayout, StandAloneSig, MethodImpl, ModuleRef, TypeSpec, ImplMap, FieldRVA, AssemblyRef and
# NestedClass. The other tables are only measured, since their rows stand between those that are read.
CHECKED_TABLES = (0x00, 0x01, 0x02, 0x04, 0x06, 0x08, 0x09, 0x0A, 0x0D, 0x0F, 0x10, 0x11, 0x19, 0x1A, 0x1B, 0x1C, 0x1D, 0x23, 0x29)

# The columns of each table (ECMA-335 II 22). A digit is a number of that many bytes; S, G and B are offsets into
# #Strings, #GUID and #Blob; a hexadecimal pair is the number of a row in that table; `list:` is such a number that begins
# a run of rows, which ends where the run of the next row begins; any other word is a coded index.
COLUMNS = {
    0x00: "2 S G G G",
    0x01: "ResolutionScope S S",
    0x02: "4 S S TypeDefOrRef list:04 list:06",
    0x04: "2 S B",
    0x06: "4 2 2 S B list:08",
    0x08: "2 2 S",
    0x09: "02 TypeDefOrRef",
    0x0A: "MemberRefParent S B",
    0x0B: "1 1 HasConstant B",
    0x0C: "HasCustomAttribute CustomAttributeType B",
    0x0D: "HasFieldMarshal B",
    0x0E: "2 HasDeclSecurity B",
    0x0F: "2 4 02",
    0x10: "4 04",
    0x11: "B",
    0x12: "02 14",
    0x14: "2 S TypeDefOrRef",
    0x15: "02 17",
    0x17: "2 S B",
    0x18: "2 06 HasSemantics",
    0x19: "02 MethodDefOrRef MethodDefOrRef",
    0x1A: "S",
    0x1B: "B",
    0x1C: "2 MemberForwarded S 1A",
    0x1D: "4 04",
    0x20: "4 2 2 2 2 4 B S S",
    0x21: "4",
    0x22: "4 4 4",
    0x23: "2 2 2 2 4 B S S B",
    0x24: "4 23",
    0x25: "4 4 4 23",
    0x26: "4 S B",
    0x27: "4 4 S S Implementation",
    0x28: "4 4 S Implementation",
    0x29: "02 02",
    0x2A: "2 2 TypeOrMethodDef S",
    0x2B: "MethodDefOrRef B",
    0x2C: "2A TypeDefOrRef",
}

# The coded indexes (ECMA-335 II 24.2.6): bits of the tag, and the table of each tag; None is a tag that names nothing.
CODED = {
    "TypeDefOrRef": (2, (0x02, 0x01, 0x1B)),
    "HasConstant": (2, (0x04, 0x08, 0x17)),
    "HasCustomAttribute": (5, (0x06, 0x04, 0x01, 0x02, 0x08, 0x09, 0x0A, 0x00, 0x0E, 0x17, 0x14, 0x11, 0x1A, 0x1B, 0x20, 0x23, 0x26, 0x27, 0x28, 0x2A, 0x2C, 0x2B)),
    "HasFieldMarshal": (1, (0x04, 0x08)),
    "HasDeclSecurity": (2, (0x02, 0x06, 0x20)),
    "MemberRefParent": (3, (0x02, 0x01, 0x1A, 0x06, 0x1B)),
    "HasSemantics": (1, (0x14, 0x17)),
    "MethodDefOrRef": (1, (0x06, 0x0A)),
    "MemberForwarded": (1, (0x04, 0x06)),
    "Implementation": (2, (0x26, 0x23, 0x27)),
    "CustomAttributeType": (3, (None, None, 0x06, 0x0A)),
    "ResolutionScope": (2, (0x00, 0x1A, 0x23, 0x01)),
    "TypeOrMethodDef": (1, (0x02, 0x06)),
}


# Where the headers stand in the file: the count of directories, each section's header, the CLI header, and the metadata's
# root, with the metadata's size.
Headers = namedtuple("Headers", "directories sections cli root size")
# Where a stream stands in the file, its size, and where its header stands.
Stream = namedtuple("Stream", "at size header")


class Bad(Exception):
    """The first part of the image that is missing or wrong, and the offset at which that shows."""

    def __init__(self, part, at):
        super().__init__(f"{part} at {at}")


def u16(data, at):
    return struct.unpack_from("<H", data, at)[0]


def u32(data, at):
    return struct.unpack_from("<I", data, at)[0]


def place_of(data, sections, rva, size):
    """Returns the file offset of a range in memory: the first section that holds it whole, and in the file, counts."""
    for header in sections:
        start, raw_size, raw_at = (u32(data, header + field) for field in (12, 16, 20))
        within = rva - start
        if within >= 0 and within + size <= raw_size and raw_at + within + size <= len(data):
            return raw_at + within
    return None


def read_headers(data):
    """Reads the headers of the file (II 25)."""
    if data[:2] != b"MZ":
        raise Bad("mz", 0)
    if len(data) < 64:
        raise Bad("pe offset", 60)
    pe = u32(data, 60)
    if data[pe : pe + 4] != b"PE\0\0":
        raise Bad("pe signature", pe)
    if len(data) < pe + 24:
        raise Bad("coff header", pe + 4)
    count, optional_size = u16(data, pe + 6), u16(data, pe + 20)
    optional = pe + 24
    magic = u16(data, optional) if len(data) >= optional + 2 else None
    if magic not in (0x10B, 0x20B):
        raise Bad("optional header", optional)
    # the count of directories, behind numbers that have 8 bytes in PE32+ in the place of 4
    directories = optional + (92 if magic == 0x10B else 108)
    if len(data) < directories + 4 or u32(data, directories) < 15:
        raise Bad("directories", directories)
    cli_directory = directories + 4 + 14 * 8
    if len(data) < cli_directory + 8 or u32(data, cli_directory) == 0:
        raise Bad("directories", cli_directory)
    if count > 96:
        raise Bad("sections", pe + 6)
    sections = []
    for n in range(count):
        at = optional + optional_size + 40 * n
        if len(data) < at + 40:
            raise Bad("sections", at)
        sections.append(at)
    cli = place_of(data, sections, u32(data, cli_directory), 72)
    if cli is None:
        raise Bad("cli header", cli_directory)
    # code for this machine alone (bit 0 clear) or a native entry point (bit 4) is nothing that plhost runs
    if u32(data, cli + 16) & 0x11 != 0x01:
        raise Bad("cli flags", cli + 16)
    size = u32(data, cli + 12)
    root = place_of(data, sections, u32(data, cli + 8), size)
    if root is None:
        raise Bad("metadata root", cli + 8)
    return Headers(directories, sections, cli, root, size)


def read_streams(data, headers):
    """Reads the metadata root and the stream headers (II 24.2.1, 24.2.2). Returns {name: Stream}."""
    root, size = headers.root, headers.size
    end = root + size
    if size < 4 or u32(data, root) != 0x424A5342:
        raise Bad("metadata root", root)
    if size < 16:
        raise Bad("metadata root", root + 12)
    text = u32(data, root + 12)
    if 16 + text > size:
        raise Bad("metadata root", root + 12)
    if 20 + text > size:
        raise Bad("metadata root", root + 18 + text)
    count = u16(data, root + 18 + text)
    streams = {}
    at = root + 20 + text
    for _ in range(count):
        if at + 4 > end or u32(data, at) > size:
            raise Bad("streams", at)
        if at + 8 > end or u32(data, at) + u32(data, at + 4) > size:
            raise Bad("streams", at + 4)
        zero = data.find(b"\0", at + 8, end)
        # a name has its zero, and then as many zeros as fill it up to a multiple of four bytes
        after = at + 8 + (zero + 1 - (at + 8) + 3) // 4 * 4
        if zero < 0 or after > end or data[at + 8 : zero] == b"#-":
            raise Bad("streams", at + 8)
        # where two have one name the first counts
        streams.setdefault(data[at + 8 : zero], Stream(root + u32(data, at), u32(data, at + 4), at))
        at = after
    if b"#~" not in streams:
        raise Bad("streams", at)
    return streams


class Tables:
    """The tables of the #~ stream (II 24.2.6): where their rows and row counts stand, and the width of each column."""

    def __init__(self, data, streams):
        self.data = data
        names = {"S": b"#Strings", "G": b"#GUID", "B": b"#Blob"}
        # a heap that is missing is empty
        self.heaps = {letter: streams.get(name, Stream(0, 0, 0)) for letter, name in names.items()}
        at, size, _ = streams[b"#~"]
        if size < 24:
            raise Bad("tables", at)
        self.wide_heaps = dict(zip("SGB", (data[at + 6] & bit != 0 for bit in (1, 2, 4))))
        valid = struct.unpack_from("<Q", data, at + 8)[0]
        present = [n for n in range(64) if valid >> n & 1]
        if any(n not in COLUMNS for n in present):
            raise Bad("tables", at + 8)
        self.counts = {}
        for k, n in enumerate(present):
            if 24 + 4 * k + 4 > size:
                raise Bad("tables", at + 24 + 4 * k)
            self.counts[n] = at + 24 + 4 * k
        self.rows = {n: u32(data, self.counts[n]) if n in self.counts else 0 for n in COLUMNS}
        self.widths = {n: [self.width(it) for it in columns.split()] for n, columns in COLUMNS.items()}
        self.starts = {}
        start = at + 24 + 4 * len(present)
        for n in present:
            self.starts[n] = start
            start += self.rows[n] * sum(self.widths[n])
            if start > at + size:
                raise Bad("tables", self.counts[n])

    def width(self, column):
        if column.isdigit() and len(column) == 1:
            return int(column)
        if column in "SGB":
            return 4 if self.wide_heaps[column] else 2
        if column in CODED:
            bits, tables = CODED[column]
            return 2 if all(self.rows[n] < 1 << 16 - bits for n in tables if n is not None) else 4
        return 2 if self.rows[int(column.removeprefix("list:"), 16)] < 1 << 16 else 4

    def row(self, table, number):
        """The cells of a row, numbered from 1."""
        at = self.starts[table] + (number - 1) * sum(self.widths[table])
        cells = []
        for width in self.widths[table]:
            cells.append(int.from_bytes(self.data[at : at + width], "little"))
            at += width
        return cells

    def is_good(self, column, cell, before):
        """Whether a cell names something that is there. `before` is the cell above it in its column, 0 in the first row."""
        if column.isdigit() and len(column) == 1:
            return True
        if column == "G":
            return 16 * cell <= self.heaps["G"].size
        if column in "SB":
            return cell < self.heaps[column].size or cell == 0
        if column in CODED:
            bits, tables = CODED[column]
            tag, number = cell & (1 << bits) - 1, cell >> bits
            return cell == 0 or (tag < len(tables) and tables[tag] is not None and 1 <= number <= self.rows[tables[tag]])
        rows = self.rows[int(column.removeprefix("list:"), 16)]
        if column.startswith("list:"):
            return max(1, before) <= cell <= rows + 1
        return cell <= rows

    def check_cells(self):
        for table in CHECKED_TABLES:
            columns, above = COLUMNS[table].split(), [0] * 9
            for number in range(1, self.rows[table] + 1):
                cells = self.row(table, number)
                for k, column in enumerate(columns):
                    if not self.is_good(column, cells[k], above[k]):
                        raise Bad("cell", self.starts[table] + (number - 1) * sum(self.widths[table]) + sum(self.widths[table][:k]))
                above = cells

    def string(self, offset):
        """The bytes of a name, up to its zero; empty where the heap ends before one."""
        heap = self.heaps["S"]
        zero = self.data.find(b"\0", heap.at + offset, heap.at + heap.size)
        return self.data[heap.at + offset : zero] if zero >= 0 else b""


def imports_of(data):
    """Returns the two names of each row of ImplMap, in order: its module's and its entry's. Raises Bad."""
    tables = Tables(data, read_streams(data, read_headers(data)))
    tables.check_cells()
    found = []
    for number in range(1, tables.rows[0x1C] + 1):
        _flags, _method, entry, module = tables.row(0x1C, number)
        found.append((tables.string(tables.row(0x1A, module)[0]) if module else b"", tables.string(entry)))
    return found


def escape(name):
    """Writes a name as one word: bytes 0x21 to 0x7E but for the backslash stand as they are, others as \\ and two digits."""
    return "".join(chr(b) if 0x21 <= b <= 0x7E and b != 0x5C else f"\\{b:02x}" for b in name)


def lines_of(imports):
    return "".join(f"{escape(module)} {escape(entry)}\n" for module, entry in imports)


def imports_text(data):
    """What `plhost imports` prints of these bytes. Raises Bad."""
    return lines_of(imports_of(data))


def answer(name, text_of=imports_text):
    """Returns the status, standard output and standard error of `plhost imports NAME`, or of what `text_of` prints."""
    shown = escape(os.fsencode(name))
    try:
        with open(name, "rb") as file:
            data = file.read(MOST_BYTES + 1)
    except FileNotFoundError:
        return 202, "", f"plhost: absent: {shown}\n"
    except OSError:
        return 203, "", f"plhost: cannot read: {shown}\n"
    return answer_bytes(data, shown, text_of)


def answer_bytes(data, shown, text_of=imports_text):
    """The same for a file that holds these bytes, and whose name is shown so."""
    if len(data) > MOST_BYTES:
        return 212, "", f"plhost: too large: {shown}\n"
    try:
        return 0, text_of(data), ""
    except Bad as bad:
        return 204, "", f"plhost: bad image: {bad}\n"


if __name__ == "__main__":
    if len(sys.argv) != 3 or sys.argv[1] != "imports":
        sys.exit("usage: reference_imports.py imports FILE")
    status, out, err = answer(sys.argv[2])
    sys.stdout.write(out)
    sys.stderr.write(err)
    sys.exit(status)
