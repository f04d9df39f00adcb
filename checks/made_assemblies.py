"""Makes assemblies from rows and blobs, for checks that want what no compiler writes. The file's headers are those of
bench/generate.py."""
import os
import struct
import sys

import reference_imports

ROOT = os.path.dirname(os.path.dirname(os.path.realpath(__file__)))
sys.path.insert(0, os.path.join(ROOT, "bench"))
import generate

TYPE_REF, TYPE_DEF, FIELD, METHOD, PARAM, TYPE_SPEC = 0x01, 0x02, 0x04, 0x06, 0x08, 0x1B
INTERFACE_IMPL, FIELD_MARSHAL, CLASS_LAYOUT, FIELD_LAYOUT, MODULE_REF, IMPL_MAP, NESTED_CLASS = 0x09, 0x0D, 0x0F, 0x10, 0x1A, 0x1C, 0x29
SEQUENTIAL, EXPLICIT = 0x08, 0x10
STATIC, PRESERVE_SIG = 0x10, 0x80
VOID, INT, DOUBLE = b"\x01", b"\x08", b"\x0d"

# the TypeRefs that each made assembly has, as (namespace, name); their numbers are their places from 1
REFERENCES = [
    (b"System", b"Object"), (b"System", b"ValueType"), (b"System", b"Enum"), (b"System", b"MulticastDelegate"),
    (b"System.Runtime.InteropServices", b"SafeHandle"),
]


def compressed(number):
    """The shortest spelling of a compressed number (II.23.2)."""
    if number < 0x80:
        return bytes([number])
    return struct.pack(">H", number | 0x8000) if number < 0x4000 else struct.pack(">I", number | 0xC000_0000)


def coded(column, table, row):
    """A coded index (II.24.2.6)."""
    bits, tables = reference_imports.CODED[column]
    return row << bits | tables.index(table)


def type_token(table, row):
    """A type in the extends column of a TypeDef row."""
    return coded("TypeDefOrRef", table, row)


def named(row, table=TYPE_DEF):
    """A type in a signature."""
    return b"\x11" + compressed(type_token(table, row))


def core(name):
    """A core type in the extends column."""
    return type_token(TYPE_REF, 1 + [it[1] for it in REFERENCES].index(name))


def method_sign(result, *parameters):
    return b"\0" + compressed(len(parameters)) + result + b"".join(parameters)


class Assembly:
    def __init__(self):
        self.rows = {table: [] for table in reference_imports.COLUMNS}
        self.heaps = {"S": bytearray(b"\0"), "B": bytearray(b"\0")}
        self.known = {}
        self.add(0x00, 0, self.text(b"made.dll"), 1, 0, 0)
        self.add(0x23, 4, 0, 0, 0, 0, 0, self.text(b"mscorlib"), 0, 0)
        for namespace, name in REFERENCES:
            self.add(TYPE_REF, coded("ResolutionScope", 0x23, 1), self.text(name), self.text(namespace))
        self.add(MODULE_REF, self.text(b"native"))
        self.type(b"<Module>", 0, 0)

    def add(self, table, *cells):
        """Adds a row, and returns its number."""
        self.rows[table].append(cells)
        return len(self.rows[table])

    def text(self, name):
        return self.entry("S", name + b"\0")

    def blob(self, data):
        return self.entry("B", compressed(len(data)) + data)

    def entry(self, heap, whole):
        if (heap, whole) not in self.known:
            self.known[heap, whole] = len(self.heaps[heap])
            self.heaps[heap] += whole
        return self.known[heap, whole]

    def type(self, name, extends, flags=0):
        """Adds a type; the fields and methods that are added after it are its own."""
        return self.add(TYPE_DEF, flags, self.text(name), 0, extends, len(self.rows[FIELD]) + 1, len(self.rows[METHOD]) + 1)

    def value_type(self, name, *fields, flags=SEQUENTIAL):
        """Adds a struct with fields of these types."""
        row = self.type(name, core(b"ValueType"), flags)
        for sign in fields:
            self.field(sign)
        return row

    def field(self, sign, offset=None, descriptor=None):
        row = self.add(FIELD, 0, self.text(b"f"), self.blob(b"\x06" + sign))
        if offset is not None:
            self.add(FIELD_LAYOUT, offset, row)
        if descriptor is not None:
            self.add(FIELD_MARSHAL, coded("HasFieldMarshal", FIELD, row), self.blob(descriptor))
        return row

    def method(self, name, sign, flags=STATIC):
        return self.add(METHOD, 0, PRESERVE_SIG, flags, self.text(name), self.blob(sign), len(self.rows[PARAM]) + 1)

    def delegate(self, name, sign):
        row = self.type(name, core(b"MulticastDelegate"))
        self.method(b"Invoke", sign, flags=0)
        return row

    def imported(self, name, sign):
        """Adds an import of the module `native`."""
        self.add(IMPL_MAP, 0, coded("MemberForwarded", METHOD, self.method(name, sign)), self.text(name), 1)

    def image(self):
        widths = self.widths()
        present = [table for table, rows in self.rows.items() if rows]
        stream = struct.pack("<IBBBBQQ", 0, 2, 0, 0x05, 1, sum(1 << it for it in present), 0)
        stream += b"".join(struct.pack("<I", len(self.rows[it])) for it in present)
        for table in present:
            form = struct.Struct("<" + "".join({1: "B", 2: "H", 4: "I"}[it] for it in widths[table]))
            stream += b"".join(form.pack(*row) for row in self.rows[table])
        streams = [(b"#~", stream), (b"#Strings", bytes(self.heaps["S"])), (b"#GUID", bytes(range(16))), (b"#Blob", bytes(self.heaps["B"]))]
        meta = whole_metadata(streams)
        return generate.image(meta, generate.RAW + 72 + len(meta))

    def widths(self):
        """The width of each column; offsets into #Strings and #Blob have four bytes."""
        return {table: [self.width(it) for it in columns.split()] for table, columns in reference_imports.COLUMNS.items()}

    def width(self, column):
        if column in reference_imports.CODED:
            bits, tables = reference_imports.CODED[column]
            return 2 if all(len(self.rows[it]) < 1 << 16 - bits for it in tables if it is not None) else 4
        if column.isdigit() and len(column) == 1:
            return int(column)
        if column in "SGB":
            return 2 if column == "G" else 4
        return 2 if len(self.rows[int(column.removeprefix("list:"), 16)]) < 1 << 16 else 4


def whole_metadata(streams):
    """The metadata root, the stream headers and the streams (II.24.2.1 and 2)."""
    version = b"v4.0.30319\0\0"
    root = struct.pack("<IHHII", 0x424A5342, 1, 1, 0, len(version)) + version + struct.pack("<HH", 0, len(streams))
    streams = [(generate.padded(name + b"\0", 4), generate.padded(body, 4)) for name, body in streams]
    at, headers = len(root) + sum(8 + len(name) for name, _ in streams), []
    for name, body in streams:
        headers.append(struct.pack("<II", at, len(body)) + name)
        at += len(body)
    return root + b"".join(headers) + b"".join(body for _, body in streams)
