#!/usr/bin/env python3
"""Writes assemblies of a wanted size, for timings: `generate.py imports SIZE FILE` or `generate.py name SIZE FILE`.

`imports` is full of imports: each has a row of MethodDef, a row of ImplMap and a name of its own. `name` has one import,
whose name is as long as fits, of letters outside ASCII, so that each of its bytes is printed as three. Both are whole
assemblies (ECMA-335 II 22 to 25), which Mono's tools read too.
"""
import struct
import sys

RVA, RAW = 0x2000, 0x200  # where the one section stands in memory and in the file
MODULES = 64
METHODS_OF_TYPE = 1000
NAME = "native_function_%07d"


def padded(data, to):
    return data + bytes(-len(data) % to)


class Strings:
    """A heap of names."""

    def __init__(self):
        self.parts, self.size = [b"\0"], 1

    def add(self, name):
        at = self.size
        self.parts.append(name + b"\0")
        self.size += len(name) + 1
        return at


def metadata(entries, wide):
    """Returns the metadata of a program that imports these entries. `wide` says that there are 2^16 of them or more."""
    strings, blob = Strings(), b"\0\x03\x00\x00\x01"  # at 1: a static method without parameters that returns nothing
    program, mscorlib = strings.add(b"bench"), strings.add(b"mscorlib")
    system, object_, module_type = strings.add(b"System"), strings.add(b"Object"), strings.add(b"<Module>")
    modules = [strings.add(b"library_%02d" % n) for n in range(MODULES)]
    method, type_ = ("I", "I") if wide else ("H", "H")
    method_def = struct.Struct("<IHHIHH")
    impl_map = struct.Struct(f"<H{method}IH")
    type_def = struct.Struct(f"<IIIHH{type_}")
    types = [type_def.pack(0, module_type, 0, 0, 1, 1)]
    methods, imports = [], []
    for n, entry in enumerate(entries):
        if n % METHODS_OF_TYPE == 0:
            # extends the TypeRef 1, System.Object
            types.append(type_def.pack(0x180, strings.add(b"Natives%d" % (n // METHODS_OF_TYPE)), 0, 1 << 2 | 1, 1, n + 1))
        name = strings.add(entry)
        # static, from native code, and its signature kept as it is
        methods.append(method_def.pack(0, 0x80, 0x2016, name if len(entry) < 1000 else program, 1, 1))
        imports.append(impl_map.pack(0x100, n + 1 << 1 | 1, name, n % MODULES + 1))
    tables = [
        (0x00, 1, struct.pack("<HIHHH", 0, program, 1, 0, 0)),
        (0x01, 1, struct.pack("<HII", 1 << 2 | 2, object_, system)),
        (0x02, len(types), b"".join(types)),
        (0x06, len(methods), b"".join(methods)),
        (0x1A, MODULES, struct.pack(f"<{MODULES}I", *modules)),
        (0x1C, len(imports), b"".join(imports)),
        (0x20, 1, struct.pack("<IHHHHIHII", 0x8004, 1, 0, 0, 0, 0, 0, program, 0)),
        (0x23, 1, struct.pack("<HHHHIHIIH", 4, 0, 0, 0, 0, 0, mscorlib, 0, 0)),
    ]
    # offsets into #Strings have four bytes, those into the other heaps two
    stream = struct.pack("<IBBBBQQ", 0, 2, 0, 0x01, 1, sum(1 << n for n, _, _ in tables), 0)
    stream += b"".join(struct.pack("<I", count) for _, count, _ in tables) + b"".join(rows for _, _, rows in tables)
    streams = [(b"#~", stream), (b"#Strings", b"".join(strings.parts)), (b"#GUID", bytes(range(16))), (b"#Blob", blob)]
    version = b"v4.0.30319\0\0"
    root = struct.pack("<IHHII", 0x424A5342, 1, 1, 0, len(version)) + version + struct.pack("<HH", 0, len(streams))
    streams = [(padded(name + b"\0", 4), padded(body, 4)) for name, body in streams]
    at, headers = len(root) + sum(8 + len(name) for name, _ in streams), []
    for name, body in streams:
        headers.append(struct.pack("<II", at, len(body)) + name)
        at += len(body)
    return root + b"".join(headers) + b"".join(body for _, body in streams)


def image(meta, size):
    """Returns a PE32 file of one section, which holds the CLI header and the metadata, filled up with zeros."""
    section = struct.pack("<IHHII", 72, 2, 5, RVA + 72, len(meta)) + struct.pack("<II", 1, 0) + bytes(48) + meta
    raw = size - RAW
    assert len(section) <= raw, f"{len(section)} bytes do not fit {raw}"
    in_memory = (raw + 0x1FFF) // 0x2000 * 0x2000
    dos = b"MZ" + bytes(58) + struct.pack("<I", 0x80) + bytes(64)
    coff = b"PE\0\0" + struct.pack("<HHIIIHH", 0x14C, 1, 0, 0, 0, 0xE0, 0x2102)
    optional = struct.pack("<HBBIIIIII", 0x10B, 8, 0, raw, 0, 0, 0, RVA, RVA + in_memory)
    optional += struct.pack("<IIIHHHHHHIIIIHHIIIIII", 0x400000, 0x2000, 0x200, 4, 0, 0, 0, 4, 0, 0, RVA + in_memory, RAW, 0, 3, 0, 0x100000, 0x1000, 0x100000, 0x1000, 0, 16)
    optional += bytes(14 * 8) + struct.pack("<II", RVA, 72) + bytes(8)
    header = b".text\0\0\0" + struct.pack("<IIIIIIHHI", raw, RVA, raw, RAW, 0, 0, 0, 0, 0x60000020)
    front = dos + coff + optional + header
    return front + bytes(RAW - len(front)) + section + bytes(raw - len(section))


def imports(size):
    # a row of MethodDef, a row of ImplMap, and a name with its zero; a type's row and name for each thousand of them
    each = 16 + 12 + len(NAME % 0) + 1 + 40 / METHODS_OF_TYPE
    count = int((size - 4096) / each)
    assert 1 << 16 <= count <= 9_999_999, "a file of this size has too few or too many imports for these widths"
    return image(metadata([(NAME % n).encode() for n in range(count)], True), size)


def name(size):
    letter = "ä".encode()
    return image(metadata([letter * ((size - 8192) // len(letter))], False), size)


if __name__ == "__main__":
    what, size, path = sys.argv[1:]
    with open(path, "wb") as file:
        file.write({"imports": imports, "name": name}[what](int(size)))
