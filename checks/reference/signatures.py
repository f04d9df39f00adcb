"""Reads signature blobs (ECMA-335 II.23.2) as values.

A type is a tuple: ("prim", byte), ("named", tag, row), ("ptr", type), ("byref", type), ("vector", type), ("array",),
("inst",), ("var",) or ("fnptr",). The last four are read whole, but nothing that uses them looks inside.
"""
from collections import namedtuple

# A method's signature: whether it is vararg, the number of its generic parameters, its result and its parameters.
Method = namedtuple("Method", "vararg generic result parameters")

MOST_NESTED = 64

VOID, TYPED_BY_REF = 0x01, 0x16
PTR, BY_REF, VALUE_TYPE, CLASS, VAR, ARRAY, GENERIC_INST = 0x0F, 0x10, 0x11, 0x12, 0x13, 0x14, 0x15
FN_PTR, SZ_ARRAY, M_VAR, REQUIRED, OPTIONAL, SENTINEL = 0x1B, 0x1D, 0x1E, 0x1F, 0x20, 0x41
# BOOLEAN to STRING, I, U and OBJECT: types without further parts
PLAIN = frozenset((*range(0x02, 0x0F), 0x18, 0x19, 0x1C))

DEFAULT, VARARG, FIELD, GENERIC = 0x00, 0x05, 0x06, 0x10
THIS, EXPLICIT_THIS = 0x20, 0x40


class Outside(Exception):
    """The blob isn't in the grammar."""


def compressed(data, at, end):
    """Returns a compressed number (II.23.2) and the place after it, or None. Any spelling counts, the shortest or not."""
    if at >= end or data[at] >= 0xE0:
        return None
    size = 1 if data[at] < 0x80 else 2 if data[at] < 0xC0 else 4
    if at + size > end:
        return None
    whole = int.from_bytes(data[at : at + size], "big")
    return whole & (0x7F, 0x3FFF, 0, 0x1FFF_FFFF)[size - 1], at + size


class Reader:
    def __init__(self, blob):
        self.blob = blob
        self.at = 0

    def peek(self):
        return self.blob[self.at] if self.at < len(self.blob) else None

    def byte(self):
        if self.at >= len(self.blob):
            raise Outside
        self.at += 1
        return self.blob[self.at - 1]

    def skips(self, byte):
        """Takes a byte where it is the next one."""
        if self.peek() != byte:
            return False
        self.at += 1
        return True

    def number(self):
        found = compressed(self.blob, self.at, len(self.blob))
        if found is None:
            raise Outside
        self.at = found[1]
        return found[0]

    def token(self):
        """TypeDefOrRefOrSpecEncoded (II.23.2.8): two bits name the table, TypeDef, TypeRef or TypeSpec."""
        number = self.number()
        if number & 3 == 3:
            raise Outside
        return number & 3, number >> 2

    def modifiers(self):
        while self.peek() in (REQUIRED, OPTIONAL):
            self.at += 1
            self.token()

    def type(self, depth=1):
        """Type (II.23.2.12). The outermost one is 1 deep."""
        if depth > MOST_NESTED:
            raise Outside
        kind = self.byte()
        if kind in PLAIN:
            return ("prim", kind)
        if kind in (CLASS, VALUE_TYPE):
            return ("named", *self.token())
        if kind == PTR:
            return ("ptr", self.pointed(depth + 1))
        if kind == SZ_ARRAY:
            self.modifiers()
            return ("vector", self.type(depth + 1))
        if kind in (VAR, M_VAR):
            self.number()
            return ("var",)
        if kind == ARRAY:
            self.type(depth + 1)
            self.shape()
            return ("array",)
        if kind == GENERIC_INST:
            return self.generic(depth)
        if kind == FN_PTR:
            self.method(depth + 1)
            return ("fnptr",)
        raise Outside

    def pointed(self, depth):
        self.modifiers()
        if depth <= MOST_NESTED and self.skips(VOID):
            return ("prim", VOID)
        return self.type(depth)

    def shape(self):
        """ArrayShape (II.23.2.13)."""
        rank = self.number()
        if rank == 0:
            raise Outside
        for _ in ("sizes", "lower bounds"):
            count = self.number()
            if count > rank:
                raise Outside
            for _ in range(count):
                self.number()

    def generic(self, depth):
        if self.byte() not in (CLASS, VALUE_TYPE):
            raise Outside
        self.token()
        for _ in range(self.number()):
            self.type(depth + 1)
        return ("inst",)

    def parameter(self, depth, also=()):
        """Param or RetType (II.23.2.10 and 11), which is a Param or one of the bytes `also`."""
        self.modifiers()
        if self.peek() in (TYPED_BY_REF, *also):
            if depth > MOST_NESTED:
                raise Outside
            return ("prim", self.byte())
        if self.skips(BY_REF):
            return ("byref", self.type(depth))
        return self.type(depth)

    def method(self, depth=1):
        """MethodDefSig or MethodRefSig (II.23.2.1 and 2)."""
        first = self.byte()
        convention = first & ~(THIS | EXPLICIT_THIS)
        if convention not in (DEFAULT, VARARG, GENERIC) or first & (THIS | EXPLICIT_THIS) == EXPLICIT_THIS:
            raise Outside
        generic = self.number() if convention == GENERIC else 0
        count = self.number()
        result = self.parameter(depth, also=(VOID,))
        parameters, marked = [], convention != VARARG
        for _ in range(count):
            if not marked and self.skips(SENTINEL):
                marked = True
            parameters.append(self.parameter(depth))
        return Method(convention == VARARG, generic, result, tuple(parameters))

    def field(self):
        """FieldSig (II.23.2.4)."""
        if self.byte() != FIELD:
            raise Outside
        self.modifiers()
        return self.type()


def read(blob, what):
    """Returns the value of a blob that is as a whole in the grammar of `what`, a method of Reader, or None."""
    reader = Reader(blob)
    try:
        found = what(reader)
    except Outside:
        return None
    return found if reader.at == len(blob) else None


def method_of(blob):
    return read(blob, Reader.method)


def field_of(blob):
    return read(blob, Reader.field)


def type_of(blob):
    """The type of a TypeSpec's blob (II.23.2.14), which holds one Type."""
    return read(blob, Reader.type)
