#!/usr/bin/env python3
"""A second reader of RISC-V shared libraries, to hold `plhost native` against.

It was written from the public standards (the System V gABI, its chapters "Object Files" and "Program Loading and Dynamic
Linking", and the ELF part of the RISC-V psABI) and from docs/profile.md, and shares no code with plhost. `refusal(data)`
answers None where a library is accepted, alone and behind the blocks that `native` places first, and else the part that is
missing or wrong first and the file offset of the field at which that shows.

`reference_library.py FILE` prints `accepted`, or that part and offset.

Nothing here is fast: each name is looked for symbol by symbol, each address load by load.
"""
import sys
from collections import namedtuple

# Object files, ELF header.
HEADER_FLAGS = 48
PROGRAM_HEADERS_OFFSET = 32
PROGRAM_HEADER_SIZE = 54
PROGRAM_HEADER_COUNT = 56
SHARED_OBJECT = 3
RISCV = 243
COMPRESSED, EMBEDDED = 1, 8

# Program loading, program header: types, and the bits of p_flags.
LOAD, DYNAMIC, THREAD_LOCAL = 1, 2, 7
EXECUTABLE, WRITABLE, READABLE = 1, 2, 4

# Dynamic linking, dynamic section: the tags that are looked at.
END = 0
JUMP_SLOTS_SIZE = 2
HASH = 4
STRINGS = 5
SYMBOLS = 6
RELOCATIONS = 7
RELOCATIONS_SIZE = 8
RELOCATION_SIZE = 9
SYMBOL_SIZE = 11
INITIALIZER = 12
RELOCATIONS_WITHOUT_ADDENDS = 17
TEXT_RELOCATIONS = 22
JUMP_SLOTS = 23
INITIALIZERS = 25
INITIALIZERS_SIZE = 27
GNU_HASH = 0x6FFFFEF5

# Object files, symbol table.
GLOBAL, WEAK = 1, 2
WITHOUT_TYPE, OBJECT, FUNCTION = 0, 1, 2
DEFAULT, PROTECTED = 0, 3
UNDEFINED = 0

# psABI, relocations.
NONE, WORD_32, WORD_64, RELATIVE, JUMP_SLOT = 0, 1, 2, 3, 5
BYTES_WRITTEN = {WORD_32: 4, WORD_64: 8, RELATIVE: 8, JUMP_SLOT: 8}
UNKNOWN_FUNCTION = 16

# docs/profile.md: what stands in memory before the library, and how much there may be.
HOST_FUNCTIONS = {
    name: 0x200 + 16 * number
    for number, name in enumerate(
        b"malloc calloc realloc free memcpy memmove memset memcmp strlen strcmp strcpy __errno_location abort".split()
    )
}
FIRST_ADDRESS = 65_536
LAST_ERROR_SIZE = 4
STACK_SIZE = 1_048_576
MOST_LIVE_BYTES = 268_435_456
MOST_ADDRESS = 1 << 46
LIBRARY_ALIGNMENT = 65_536

Header = namedtuple("Header", "at kind flags offset address file_size size")
Entry = namedtuple("Entry", "at tag value")
Symbol = namedtuple("Symbol", "at name binding kind visibility section value")
Relocation = namedtuple("Relocation", "at offset kind symbol addend")
Library = namedtuple("Library", "data headers loads dynamic entries symbols relocations")
Bound = namedtuple("Bound", "library base memory initializers")
Block = namedtuple("Block", "base flags contents")


class Refused(Exception):
    """The library isn't accepted: the part that is broken, and the file offset of its field."""

    def __init__(self, part, at):
        super().__init__(part, at)
        self.part, self.at = part, at


def require(holds, part, at):
    if not holds:
        raise Refused(part, at)


def number(data, at, width):
    """A number without sign, its lowest byte first."""
    return int.from_bytes(data[at : at + width], "little")


def field(data, at, width, part):
    """A number that has to be in the file; the part is refused at its offset where it isn't."""
    require(at + width <= len(data), part, at)
    return number(data, at, width)


# Reading


def read_ident(data):
    """gABI, ELF identification: the magic, 64-bit objects, two's complement with the lowest byte first, version 1. The
    magic is one field; the bytes behind the version aren't looked at."""
    require(data[:4] == b"\x7fELF", "ident", 0)
    for at, wanted in ((4, 2), (5, 1), (6, 1)):
        require(field(data, at, 1, "ident") == wanted, "ident", at)


def read_file_header(data):
    """gABI, ELF header, and psABI, e_flags: a shared object for RISC-V, without compressed instructions and with all 32
    registers. Its mark of a float convention and e_version, e_entry, e_ehsize and what it says of sections are free."""
    require(field(data, 16, 2, "type") == SHARED_OBJECT, "type", 16)
    require(field(data, 18, 2, "machine") == RISCV, "machine", 18)
    require(field(data, HEADER_FLAGS, 4, "flags") & (COMPRESSED | EMBEDDED) == 0, "flags", HEADER_FLAGS)


def read_program_headers(data):
    """gABI, program header: entries of 56 bytes, all in the file. None at all are in the file wherever they are said to be."""
    part = "program headers"
    require(field(data, PROGRAM_HEADER_SIZE, 2, part) == 56, part, PROGRAM_HEADER_SIZE)
    count = field(data, PROGRAM_HEADER_COUNT, 2, part)
    first = number(data, PROGRAM_HEADERS_OFFSET, 8)
    require(count == 0 or first + 56 * count <= len(data), part, PROGRAM_HEADERS_OFFSET)
    return [
        Header(
            at,
            kind=number(data, at, 4),
            flags=number(data, at + 4, 4),
            offset=number(data, at + 8, 8),
            address=number(data, at + 16, 8),
            file_size=number(data, at + 32, 8),
            size=number(data, at + 40, 8),
        )
        for at in range(first, first + 56 * count, 56)
    ]


def read_loads(data, headers):
    """gABI, program header, PT_LOAD: the bytes are in the file; the file size isn't above the memory size; loads ascend by
    address and share no byte. Here they also end below 2^32. Each load is asked all of it before the next one."""
    loads = [header for header in headers if header.kind == LOAD]
    end = 0
    for load in loads:
        require(load.offset + load.file_size <= len(data), "load", load.at + 8)
        require(load.file_size <= load.size, "load", load.at + 32)
        require(load.address >= end and load.address + load.size < 1 << 32, "load", load.at + 16)
        end = load.address + load.size
    return loads


def read_entries(data, headers):
    """gABI, dynamic section: one header of type PT_DYNAMIC, whose bytes in the file are entries of 16 bytes up to DT_NULL.
    DT_TEXTREL and DT_REL are refused where their entries stand, and a size of symbols or relocations but 24 at the entry's
    value; only then is it asked whether an end was found. Returns the header, and the entries before the end."""
    dynamics = [header for header in headers if header.kind == DYNAMIC]
    require(dynamics, "dynamic", PROGRAM_HEADERS_OFFSET)
    require(len(dynamics) == 1, "dynamic", dynamics[1:] and dynamics[1].at)
    dynamic = dynamics[0]
    entries = []
    at, end = dynamic.offset, min(dynamic.offset + dynamic.file_size, len(data))
    while at + 16 <= end:
        entry = Entry(at, number(data, at, 8), number(data, at + 8, 8))
        if entry.tag == END:
            return dynamic, entries
        require(entry.tag not in (TEXT_RELOCATIONS, RELOCATIONS_WITHOUT_ADDENDS), "dynamic", at)
        require(entry.tag not in (SYMBOL_SIZE, RELOCATION_SIZE) or entry.value == 24, "dynamic", at + 8)
        entries.append(entry)
        at += 16
    raise Refused("dynamic", dynamic.at + 8)


def entry_of(entries, tag):
    """The first entry of a tag, or None."""
    for entry in entries:
        if entry.tag == tag:
            return entry
    return None


def value_of(entries, tag):
    """The value of the first entry of a tag, or 0."""
    entry = entry_of(entries, tag)
    return entry.value if entry else 0


def place_in_file(loads, address, size):
    """The file offset of a range of addresses, all of whose bytes the file has in one load; None where no load has them."""
    for load in loads:
        if load.address <= address and address + size <= load.address + load.file_size:
            return load.offset + address - load.address
    return None


def count_by_hash(data, loads, entry):
    """gABI, hash table: there are as many symbols as the table has chains, which its second word says."""
    at = place_in_file(loads, entry.value + 4, 4)
    require(at is not None, "symbols", entry.at + 8)
    return number(data, at, 4)


def count_by_gnu_hash(data, loads, entry):
    """The GNU hash table: the words nbuckets, symoffset, bloom_size and bloom_shift, bloom_size filters of 8 bytes, the
    buckets and the chains of 4 bytes each. A bucket is the number of the symbol that begins its chain; chains have a word
    for each symbol from symoffset on, which is odd where the chain ends. So the last symbol is the end of the chain that
    begins last, and where no symbol is hashed there are those before symoffset alone."""
    at = place_in_file(loads, entry.value, 12)
    require(at is not None, "symbols", entry.at + 8)
    bucket_count, first_hashed, filter_count = (number(data, at + 4 * word, 4) for word in range(3))
    buckets = entry.value + 16 + 8 * filter_count
    at = place_in_file(loads, buckets, 4 * bucket_count)
    require(bucket_count == 0 or at is not None, "symbols", entry.at + 8)
    heads = [number(data, at + 4 * bucket, 4) for bucket in range(bucket_count)]
    last = max((head for head in heads if head >= first_hashed), default=None)
    if last is None:
        return first_hashed
    chain = buckets + 4 * bucket_count + 4 * (last - first_hashed)
    words = 0
    while True:
        words += 1
        at = place_in_file(loads, chain, 4 * words)
        require(at is not None, "symbols", entry.at + 8)
        if number(data, at + 4 * (words - 1), 4) & 1:
            return last + words


def count_symbols(data, loads, entries):
    """The symbols are counted by DT_HASH, else by DT_GNU_HASH. A library with neither has none."""
    if entry := entry_of(entries, HASH):
        return count_by_hash(data, loads, entry)
    if entry := entry_of(entries, GNU_HASH):
        return count_by_gnu_hash(data, loads, entry)
    return 0


def read_symbols(data, loads, dynamic, entries):
    """gABI, symbol table and string table: where there are symbols, both tables are there; the symbols lie in the file's
    bytes of one load, the string table begins in one, and each name lies with its zero in one, whichever that is."""
    count = count_symbols(data, loads, entries)
    if count == 0:
        return []
    table, strings = entry_of(entries, SYMBOLS), entry_of(entries, STRINGS)
    require(table and strings, "symbols", dynamic.at + 8)
    first = place_in_file(loads, table.value, 24 * count)
    require(first is not None, "symbols", table.at + 8)
    require(place_in_file(loads, strings.value, 1) is not None, "symbols", strings.at + 8)
    symbols = []
    for at in range(first, first + 24 * count, 24):
        info, other = data[at + 4], data[at + 5]
        symbols.append(
            Symbol(
                at,
                name=read_name(data, loads, strings.value + number(data, at, 4), at),
                binding=info >> 4,
                kind=info & 15,
                visibility=other & 3,
                section=number(data, at + 6, 2),
                value=number(data, at + 8, 8),
            )
        )
    return symbols


def read_name(data, loads, address, symbol_at):
    """gABI, string table: a name ends with its first zero."""
    size = 1
    while (at := place_in_file(loads, address, size)) is not None:
        if data[at + size - 1] == 0:
            return data[at : at + size - 1]
        size += 1
    raise Refused("symbols", symbol_at)


def read_relocations(data, loads, entries):
    """gABI, dynamic section: the relocations of DT_RELA, with DT_RELASZ bytes, and then those of DT_JMPREL, with
    DT_PLTRELSZ bytes. A size that isn't there is 0, and where a table of no bytes lies isn't asked. Both tables are asked
    whole; what is left behind the last 24 bytes is no relocation."""
    relocations = []
    for tag, size_tag in ((RELOCATIONS, RELOCATIONS_SIZE), (JUMP_SLOTS, JUMP_SLOTS_SIZE)):
        entry, size = entry_of(entries, tag), value_of(entries, size_tag)
        if not entry or size == 0:
            continue
        first = place_in_file(loads, entry.value, size)
        require(first is not None, "relocs", entry.at + 8)
        for at in range(first, first + size - 23, 24):
            offset, kind, symbol = number(data, at, 8), number(data, at + 8, 4), number(data, at + 12, 4)
            addend = int.from_bytes(data[at + 16 : at + 24], "little", signed=True)
            relocations.append(Relocation(at, offset, kind, symbol, addend))
    return relocations


def read(data):
    """Reads a library part by part, and refuses the first part that is broken."""
    read_ident(data)
    read_file_header(data)
    headers = read_program_headers(data)
    loads = read_loads(data, headers)
    for header in headers:
        require(header.kind != THREAD_LOCAL, "tls", header.at)
    dynamic, entries = read_entries(data, headers)
    symbols = read_symbols(data, loads, dynamic, entries)
    relocations = read_relocations(data, loads, entries)
    return Library(data, headers, loads, dynamic, entries, symbols, relocations)


# Binding


def round_up(value, multiple):
    return -(-value // multiple) * multiple


class Memory:
    """Blocks one after another: each begins where `next` says, or later, and `next` is then the end of the block, rounded
    up to 16, and 16 bytes more."""

    def __init__(self):
        self.blocks = []
        self.next = FIRST_ADDRESS

    def place(self, base, flags, contents):
        """Returns whether there is room."""
        live = sum(len(block.contents) for block in self.blocks)
        following = round_up(base + len(contents), 16) + 16
        if live + len(contents) > MOST_LIVE_BYTES or following > MOST_ADDRESS:
            return False
        self.blocks.append(Block(base, flags, contents))
        self.next = following
        return True

    def find(self, address, size, right):
        """The block that has the right and holds all bytes of a range, or None."""
        for block in self.blocks:
            if block.flags & right and block.base <= address and address + size <= block.base + len(block.contents):
                return block
        return None

    def write(self, address, new):
        block = self.find(address, len(new), WRITABLE)
        at = address - block.base
        block.contents[at : at + len(new)] = new

    def read(self, address, size, right=READABLE):
        """The bytes of a range, or None. A range of no bytes is read wherever it is."""
        if size == 0:
            return b""
        block = self.find(address, size, right)
        return block and bytes(block.contents[address - block.base : address - block.base + size])


def memory_before():
    """The number of the last error and the stack stand in memory before the library."""
    memory = Memory()
    for size in (LAST_ERROR_SIZE, STACK_SIZE):
        memory.place(memory.next, READABLE | WRITABLE, bytearray(size))
    return memory


def place_loads(library, memory):
    """gABI, base address: each load stands at its address and a base, which is the least multiple of 65,536 that isn't
    below the next free address; behind the file's bytes are zeros. A load of no bytes places nothing. Returns the base."""
    base = round_up(memory.next, LIBRARY_ALIGNMENT)
    live = sum(len(block.contents) for block in memory.blocks)
    for load in library.loads:
        # asked before such a load is made at all
        live += load.size
        require(live <= MOST_LIVE_BYTES, "load", load.at + 40)
        if load.size == 0:
            continue
        contents = bytearray(load.size)
        contents[: load.file_size] = library.data[load.offset : load.offset + load.file_size]
        require(memory.place(base + load.address, load.flags, contents), "load", load.at + 40)
    return base


def exports(symbol):
    """gABI, symbol table: a symbol defines its name for others where it is global or weak, has a section, is an object, a
    function or without a type, and has default or protected visibility."""
    return (
        symbol.binding in (GLOBAL, WEAK)
        and symbol.section != UNDEFINED
        and symbol.kind in (WITHOUT_TYPE, OBJECT, FUNCTION)
        and symbol.visibility in (DEFAULT, PROTECTED)
    )


def address_of_name(library, base, name):
    """The address of a name: that of the first symbol that defines it, else that of a host function, else None."""
    for symbol in library.symbols:
        if symbol.name == name and exports(symbol):
            return (base + symbol.value) % (1 << 64)
    return HOST_FUNCTIONS.get(name)


def address_of_symbol(library, base, relocation):
    """psABI, S: the address of the relocation's symbol. Number 0 is no symbol and gives 0. A name that nothing defines
    gives 0 where the symbol is weak, and a place where a call faults in a jump slot."""
    if relocation.symbol == 0:
        return 0
    require(relocation.symbol < len(library.symbols), "unresolved", relocation.at + 8)
    symbol = library.symbols[relocation.symbol]
    address = address_of_name(library, base, symbol.name)
    if address is not None:
        return address
    if symbol.binding == WEAK:
        return 0
    require(relocation.kind == JUMP_SLOT, "unresolved", relocation.at + 8)
    return UNKNOWN_FUNCTION


def lies_in_a_writable_load(library, address, size):
    """Whether a range before the base is added lies in the memory of one writable load of the library."""
    return any(
        load.flags & WRITABLE and load.address <= address and address + size <= load.address + load.size for load in library.loads
    )


def relocate(library, base, memory):
    """psABI, relocations: NONE writes nothing; 32 and 64 write S + A, RELATIVE B + A, JUMP_SLOT S. Of each the type is asked
    first, then the bytes that it writes, then its symbol."""
    for relocation in library.relocations:
        if relocation.kind == NONE:
            continue
        require(relocation.kind in BYTES_WRITTEN, "reloc type", relocation.at + 8)
        size = BYTES_WRITTEN[relocation.kind]
        require(lies_in_a_writable_load(library, relocation.offset, size), "reloc target", relocation.at)
        if relocation.kind == RELATIVE:
            value = base + relocation.addend
        else:
            value = address_of_symbol(library, base, relocation)
            if relocation.kind != JUMP_SLOT:
                value += relocation.addend
        memory.write(base + relocation.offset, (value % (1 << 8 * size)).to_bytes(size, "little"))


def list_initializers(library, base, memory):
    """gABI, initialization and termination functions: DT_INIT, where it isn't 0, and then the entries of DT_INIT_ARRAY, of
    DT_INIT_ARRAYSZ bytes, but 0 and -1. Addresses are sums modulo 2^64; the array is read in memory, after relocation."""
    addresses = []
    if initializer := value_of(library.entries, INITIALIZER):
        addresses.append((base + initializer) % (1 << 64))
    if array := entry_of(library.entries, INITIALIZERS):
        size = value_of(library.entries, INITIALIZERS_SIZE)
        contents = memory.read((base + array.value) % (1 << 64), size)
        require(contents is not None, "init", array.at + 8)
        found = (number(contents, at, 8) for at in range(0, size - 7, 8))
        addresses += (address for address in found if address not in (0, (1 << 64) - 1))
    return addresses


def bind(library):
    """Binds the library alone: places its loads, applies its relocations, lists its initializers."""
    memory = memory_before()
    base = place_loads(library, memory)
    relocate(library, base, memory)
    return Bound(library, base, memory, list_initializers(library, base, memory))


def read_and_bind(data):
    """The first broken part and its offset, and None; or None and what is bound, where the library is accepted."""
    try:
        return None, bind(read(data))
    except Refused as refused:
        return (refused.part, refused.at), None


def refusal(data):
    """The first broken part and its offset, or None where the library is accepted."""
    return read_and_bind(data)[0]


def address_of_function(bound, name):
    """The address of the first symbol of a name that the library defines for others as a function or without a type, or
    None."""
    for symbol in bound.library.symbols:
        if symbol.name == name and exports(symbol) and symbol.kind in (WITHOUT_TYPE, FUNCTION):
            return (bound.base + symbol.value) % (1 << 64)
    return None


if __name__ == "__main__":
    with open(sys.argv[1], "rb") as file:
        found = refusal(file.read())
    print("{} at {}".format(*found) if found else "accepted")
