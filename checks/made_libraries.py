"""Small RISC-V libraries put together by hand, with what linkers make seldom or never."""
import struct

# fold(address, count): the bytes of a range as digits to the base 31, modulo 2^64
FOLD = struct.pack(
    "<11I",
    0x00000613,  # addi a2, zero, 0
    0x02058063,  # beq a1, zero, 32
    0x00054683,  # lbu a3, 0(a0)
    0x00561713,  # slli a4, a2, 5
    0x40C70633,  # sub a2, a4, a2
    0x00D60633,  # add a2, a2, a3
    0x00150513,  # addi a0, a0, 1
    0xFFF58593,  # addi a1, a1, -1
    0xFE0594E3,  # bne a1, zero, -24
    0x00060513,  # addi a0, a2, 0
    0x00008067,  # jalr zero, 0(ra)
)
RETURN = FOLD[-4:]
RIGHTS = {"r": 4, "w": 2, "x": 1}
LOCAL, GLOBAL, WEAK = 0, 1, 2
UNTYPED, OBJECT, FUNCTION, SECTION, THREAD = 0, 1, 2, 3, 6
DEFAULT, INTERNAL, HIDDEN, PROTECTED = 0, 1, 2, 3


class Pieces:
    """A file that grows piece by piece; each piece's address is its offset and the distance that holds where it is put."""

    def __init__(self):
        self.data = bytearray()
        self.distance = 0

    def put(self, piece, alignment=8):
        """Adds a piece and returns its address."""
        self.data += bytes(-len(self.data) % alignment)
        at = len(self.data) + self.distance
        self.data += piece
        return at

    def place(self, at, piece):
        """Writes a piece over what stands at an offset."""
        self.data[at : at + len(piece)] = piece


def names_of(words):
    """A string table, and the offset of each word in it."""
    table = b"\0"
    places = {"": 0}
    for word in words:
        if word not in places:
            places[word] = len(table)
            table += word.encode() + b"\0"
    return table, places


def symbol_table(symbols, places):
    """Symbols as (name, binding, kind, other, section, value, size), behind number 0."""
    table = bytes(24)
    for name, binding, kind, other, section, value, size in symbols:
        table += struct.pack("<IBBHQQ", places[name], binding << 4 | kind, other, section, value, size)
    return table


def relocation_table(relocations):
    """Relocations as (offset, type, symbol, addend)."""
    return b"".join(struct.pack("<QIIq", offset, kind, symbol, addend) for offset, kind, symbol, addend in relocations)


def hash_table(count, buckets=2):
    """A table of DT_HASH with so many chains; the symbols are shared out to the buckets in turn."""
    heads, chains = [0] * buckets, [0] * count
    for symbol in range(1, count):
        heads[symbol % buckets], chains[symbol] = symbol, heads[symbol % buckets]
    return struct.pack(f"<II{buckets}I{count}I", buckets, count, *heads, *chains)


def gnu_hash_table(first, heads, ends, filters=2):
    """A table of DT_GNU_HASH: the first symbol with a hash, the symbols that begin chains, whether each hashed symbol ends one."""
    words = [0x10 * number | end for number, end in enumerate(ends, 1)]
    return struct.pack(f"<IIII{filters}Q{len(heads)}I{len(words)}I", len(heads), first, filters, 6, *[0] * filters, *heads, *words)


def dynamic_section(entries):
    return b"".join(struct.pack("<QQ", tag, value) for tag, value in entries + [(0, 0)])


def put_headers(data, headers, flags=4):
    """Writes the file header, and program headers as (type, rights, offset, address, file size, size) behind it."""
    ident = b"\x7fELF\x02\x01\x01" + bytes(9)
    data[:64] = ident + struct.pack("<HHIQQQIHHHHHH", 3, 243, 1, 0, 64, 0, flags, 64, 56, len(headers), 64, 0, 0)
    at = 64
    for kind, rights, offset, address, file_size, size in headers:
        bits = sum(RIGHTS[right] for right in rights)
        data[at : at + 56] = struct.pack("<IIQQQQQQ", kind, bits, offset, address, address, file_size, size, 4096)
        at += 56


def with_everything(unknown="nobody"):
    """Two loads, the second with zeros behind its bytes, and a third of no bytes; both hash tables; each kind of symbol; each
    type of relocation, with a jump slot of an unknown function; DT_INIT, and an array of initializers with 0 and -1."""
    file = Pieces()
    file.put(bytes(64 + 7 * 56))
    words = ["fold", "counter", "ready", "malloc", unknown, "maybe", "inner", "shown", "local", "thread", "absolute"]
    strings, places = names_of(words)
    code = file.put(FOLD + RETURN + RETURN)
    first_return, second_return = code + len(FOLD), code + len(FOLD) + 4
    strings_at = file.put(strings, 1)
    symbols_at = file.put(bytes(24 * 13))
    hash_at = file.put(hash_table(13))
    gnu_hash_at = file.put(gnu_hash_table(4, [4, 8, 0], [0, 0, 0, 1, 0, 0, 0, 0, 1]))
    relocations_at = file.put(bytes(24 * 12))
    slots_at = file.put(bytes(24 * 4))
    first_end = len(file.data)

    file.distance = 0x2000
    data_at = file.put(b"\x11" * 96, 1)
    dynamic_at = file.put(bytes(16 * 17))
    array_at = file.put(bytes(8 * 5))
    second_end = len(file.data)
    zeros_at = array_at + 40

    symbols = [
        ("malloc", GLOBAL, FUNCTION, DEFAULT, 0, 0, 0),
        (unknown, GLOBAL, UNTYPED, DEFAULT, 0, 0, 0),
        ("maybe", WEAK, UNTYPED, DEFAULT, 0, 0, 0),
        ("fold", GLOBAL, FUNCTION, DEFAULT, 1, code, len(FOLD)),
        ("counter", GLOBAL, OBJECT, DEFAULT, 2, data_at, 8),
        ("ready", WEAK, UNTYPED, PROTECTED, 2, data_at + 8, 8),
        ("inner", WEAK, OBJECT, HIDDEN, 2, data_at + 16, 8),
        ("shown", GLOBAL, FUNCTION, 0x80 | PROTECTED, 1, first_return, 4),
        ("counter", GLOBAL, OBJECT, DEFAULT, 2, data_at + 24, 8),
        ("local", LOCAL, SECTION, DEFAULT, 2, data_at, 0),
        ("thread", WEAK, THREAD, DEFAULT, 2, 0, 8),
        ("absolute", GLOBAL, OBJECT, DEFAULT, 0xFFF1, 0x1234, 0),
    ]
    relocations = [
        (data_at, 2, 5, 5),  # 64, counter
        (data_at + 12, 1, 6, -3),  # 32, ready
        (data_at + 16, 3, 0, first_return),  # relative
        (data_at + 24, 2, 7, 1),  # 64, a weak symbol that is hidden
        (1 << 63, 0, 99, 7),  # none
        (data_at + 32, 2, 3, -1),  # 64, a weak symbol without a section
        (data_at + 40, 2, 0, 77),  # 64, no symbol
        (data_at + 48, 2, 11, 2),  # 64, a weak symbol of threads
        (zeros_at + 3, 2, 12, 0),  # 64, an absolute symbol, in the zeros
        (array_at, 3, 0, first_return),
        (array_at + 24, 3, 0, second_return),
        (data_at + 3, 1, 8, 1 << 40),  # 32, over another word
    ]
    slots = [
        (data_at + 56, 5, 1, 9),
        (data_at + 64, 5, 2, 9),
        (data_at + 72, 5, 4, 9),
        (data_at + 80, 5, 9, 9),
    ]
    entries = [
        (1, 1),  # DT_NEEDED
        (4, hash_at),
        (0x6FFFFEF5, gnu_hash_at),
        (5, strings_at),
        (6, symbols_at),
        (10, len(strings)),
        (11, 24),
        (7, relocations_at),
        (8, 24 * 12 + 7),
        (9, 24),
        (23, slots_at),
        (2, 24 * 4),
        (20, 7),
        (12, first_return),
        (25, array_at),
        (27, 8 * 5 - 3),
    ]
    file.place(symbols_at, symbol_table(symbols, places))
    file.place(relocations_at, relocation_table(relocations))
    file.place(slots_at, relocation_table(slots))
    file.place(dynamic_at - 0x2000, dynamic_section(entries))
    file.place(array_at - 0x2000, struct.pack("<5Q", 0, 0, (1 << 64) - 1, 0, 0x99))
    headers = [
        (6, "r", 64, 64, 7 * 56, 7 * 56),
        (1, "rx", 0, 0, first_end, first_end),
        (1, "rw", first_end, first_end + 0x2000, second_end - first_end, second_end - first_end + 64),
        (2, "rw", dynamic_at - 0x2000, dynamic_at, 16 * 17, 16 * 17),
        (1, "", second_end, second_end + 0x2040, 0, 0),
        (0x6474E551, "rw", 0, 0, 0, 0),
        (1, "w", 0, second_end + 0x2040, 16, 4096),
    ]
    put_headers(file.data, headers)
    return bytes(file.data)


def in_one_load(hashed):
    """One load with all rights that holds the whole file; symbols by DT_GNU_HASH alone, or by DT_HASH alone; the string table,
    whose names share their ends, at the end of the file; no initializer but those of the array."""
    file = Pieces()
    file.put(bytes(64 + 3 * 56))
    code = file.put(FOLD + RETURN)
    symbols_at = file.put(bytes(24 * 5))
    table = gnu_hash_table(1, [3, 1], [0, 1, 0, 1], 1) if hashed == "gnu" else hash_table(5, 1)
    hash_at = file.put(table)
    relocations_at = file.put(bytes(24 * 5))
    array_at = file.put(struct.pack("<3Q", (1 << 64) - 1, 0, 0))
    data_at = file.put(b"\x22" * 40)
    dynamic_at = file.put(bytes(16 * 10))
    strings = b"\0unfold\0free\0"
    strings_at = file.put(strings, 1)
    symbols = [
        ("fold", GLOBAL, UNTYPED, DEFAULT, 1, code, len(FOLD)),
        ("unfold", GLOBAL, OBJECT, DEFAULT, 1, data_at, 8),
        ("", LOCAL, SECTION, DEFAULT, 1, 0, 0),
        ("free", GLOBAL, UNTYPED, DEFAULT, 0, 0, 0),
    ]
    relocations = [
        (array_at + 16, 2, 1, len(FOLD)),
        (data_at, 2, 2, -8),
        (data_at + 8, 5, 4, 1),
        (data_at + 16, 3, 0, data_at),
        (data_at + 36, 1, 1, 0),
    ]
    entries = [
        (6, symbols_at),
        (5, strings_at),
        (0x6FFFFEF5 if hashed == "gnu" else 4, hash_at),
        (7, relocations_at),
        (8, 24 * 5),
        (23, 0),
        (2, 0),
        (25, array_at),
        (27, 24),
    ]
    file.place(symbols_at, symbol_table(symbols, {"": 0, "unfold": 1, "fold": 3, "free": 8}))
    file.place(relocations_at, relocation_table(relocations))
    file.place(dynamic_at, dynamic_section(entries))
    size = len(file.data)
    headers = [(1, "rwx", 0, 0, size, size), (2, "rw", dynamic_at, dynamic_at, 16 * 10, 16 * 10), (1, "r", size, size, 0, 0)]
    put_headers(file.data, headers, flags=0)
    return bytes(file.data)


def without_symbols():
    """No hash table and so no symbol, but relocations that need none. The header of the dynamic section has no memory."""
    file = Pieces()
    file.put(bytes(64 + 2 * 56))
    dynamic_at = file.put(bytes(16 * 5))
    relocations_at = file.put(bytes(24 * 3))
    entries = [(6, 1 << 60), (7, relocations_at), (8, 24 * 3), (0x1E, 8)]
    file.place(dynamic_at, dynamic_section(entries))
    file.place(relocations_at, relocation_table([(relocations_at, 3, 0, 0), (64, 2, 0, 5), (64, 0, 1, 5)]))
    size = len(file.data)
    put_headers(file.data, [(1, "rw", 0, 0, size, size), (2, "", dynamic_at, 0, 16 * 5, 0)])
    return bytes(file.data)


def all_made():
    yield "made with everything", with_everything()
    yield "made in one load, gnu hash", in_one_load("gnu")
    yield "made in one load, sysv hash", in_one_load("sysv")
    yield "made without symbols", without_symbols()
