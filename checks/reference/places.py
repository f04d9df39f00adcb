"""Where a blob of a signature (ECMA-335 II.23.2) or of a marshalling descriptor (II.23.4) stops being the front of some blob in
its grammar: the number of its bytes that are such a front.

At each byte the bytes are known with which some blob of the grammar can go on. So the first byte that isn't one of them is the
place, and a blob that ends before its value does is refused at its end.
"""
from . import descriptors as d
from .signatures import (
    ARRAY, BY_REF, CLASS, DEFAULT, EXPLICIT_THIS, FIELD, FN_PTR, GENERIC, GENERIC_INST, M_VAR, MOST_NESTED, OPTIONAL, PLAIN, PTR, REQUIRED, SENTINEL, SZ_ARRAY,
    THIS, TYPED_BY_REF, VALUE_TYPE, VAR, VARARG, VOID,
)

LOCALS, PINNED = 0x07, 0x45
MOST_COMPLETED = 2_000  # bytes; a front that promises more isn't completed
MODIFIERS = frozenset((REQUIRED, OPTIONAL))
SHALLOW = PLAIN | {CLASS, VALUE_TYPE, VAR, M_VAR, GENERIC_INST}
# these need a type one level below them
DEEPER = frozenset((PTR, SZ_ARRAY, ARRAY, FN_PTR))
CONVENTIONS = frozenset(it | this for it in (DEFAULT, VARARG, GENERIC) for this in (0, THIS, THIS | EXPLICIT_THIS))


class Wrong(Exception):
    """No blob of the grammar goes on with the byte at this place, or the blob ends here."""


class Front:
    """Reads a blob. With `completes`, the bytes that are missing at its end are made up, so that it becomes one of the grammar."""

    def __init__(self, blob, completes=False):
        self.blob = bytearray(blob)
        self.at = 0
        self.completes = completes

    def take(self, allowed):
        if self.at == len(self.blob) and self.completes:
            if self.at > MOST_COMPLETED:
                raise OverflowError
            self.blob.append(min(allowed & {0x00, 0x08} or allowed))
        if self.at == len(self.blob) or self.blob[self.at] not in allowed:
            raise Wrong(self.at)
        self.at += 1
        return self.blob[self.at - 1]

    def is_next(self, allowed):
        """Whether a part that may be missing is there."""
        return self.at < len(self.blob) and self.blob[self.at] in allowed

    def end(self):
        if self.at < len(self.blob):
            raise Wrong(self.at)

    def number(self, has=lambda low, high: True):
        """A compressed number of those that are allowed: `has` says whether a range holds one."""
        first = self.take({it for it in range(0xE0) if has(*range_of(it))})
        low, high = range_of(first)
        for left in range(0 if first < 0x80 else 1 if first < 0xC0 else 3, 0, -1):
            width = 8 * (left - 1)
            byte = self.take({it for it in range(256) if has(low + (it << width), low + (it << width) + (1 << width) - 1)})
            low += byte << width
        return low

    def token(self):
        self.number(lambda low, high: low < high or low & 3 != 3)

    # signatures

    def type(self, depth, first=None):
        kind = self.take(kinds(depth)) if first is None else first
        if kind in (CLASS, VALUE_TYPE):
            self.token()
        elif kind in (VAR, M_VAR):
            self.number()
        elif kind == GENERIC_INST:
            self.take({CLASS, VALUE_TYPE})
            self.token()
            # types one level deeper aren't there at the deepest one
            count = self.number() if depth < MOST_NESTED else self.number(lambda low, high: low == 0)
            for _ in range(count):
                self.type(depth + 1)
        elif kind == ARRAY:
            self.type(depth + 1)
            self.shape()
        elif kind == FN_PTR:
            self.method(depth + 1)
        elif kind in (PTR, SZ_ARRAY):
            self.modified(depth + 1, {VOID} if kind == PTR else set())

    def shape(self):
        rank = self.number(lambda low, high: high > 0)
        for _ in range(2):
            for _ in range(self.number(lambda low, high: low <= rank)):
                self.number()

    def modified(self, depth, also):
        """Modifiers, and a type or one of the bytes `also`."""
        kind = self.take(MODIFIERS | kinds(depth) | also)
        while kind in MODIFIERS:
            self.token()
            kind = self.take(MODIFIERS | kinds(depth) | also)
        if kind == BY_REF:
            self.type(depth)
        elif kind not in (VOID, TYPED_BY_REF):
            self.type(depth, kind)

    def method(self, depth=1):
        convention = self.take(CONVENTIONS) & ~(THIS | EXPLICIT_THIS)
        if convention == GENERIC:
            self.number()
        count = self.number()
        self.modified(depth, {VOID, BY_REF, TYPED_BY_REF})
        may_mark = convention == VARARG
        for _ in range(count):
            if may_mark and self.is_next({SENTINEL}):
                self.at += 1
                may_mark = False
            self.modified(depth, {BY_REF, TYPED_BY_REF})

    def field(self):
        self.take({FIELD})
        self.modified(1, set())

    def locals(self):
        self.take({LOCALS})
        for _ in range(self.number(lambda low, high: low <= 0xFFFE and high >= 1)):
            kind = self.take(MODIFIERS | kinds(1) | {PINNED, BY_REF, TYPED_BY_REF})
            while kind in MODIFIERS or kind == PINNED:
                if kind != PINNED:
                    self.token()
                kind = self.take(MODIFIERS | kinds(1) | {PINNED, BY_REF})
            if kind == BY_REF:
                self.type(1)
            elif kind != TYPED_BY_REF:
                self.type(1, kind)

    # descriptors

    def descriptor(self):
        kind = self.take(d.PLAIN | {d.BY_VAL_TSTR, d.BY_VAL_ARRAY, d.LP_ARRAY})
        if kind in (d.BY_VAL_TSTR, d.BY_VAL_ARRAY):
            self.number()
            if kind == d.BY_VAL_ARRAY and self.at < len(self.blob):
                self.take(d.PLAIN)
        elif kind == d.LP_ARRAY and self.at < len(self.blob):
            self.take(d.PLAIN | {d.NONE})
            for _ in range(3):
                if self.at < len(self.blob):
                    self.number()


def kinds(depth):
    return frozenset() if depth > MOST_NESTED else SHALLOW if depth == MOST_NESTED else SHALLOW | DEEPER


def range_of(first):
    """The numbers whose spelling begins with this byte."""
    if first < 0x80:
        return first, first
    low, width = ((first & 0x3F) << 8, 8) if first < 0xC0 else ((first & 0x1F) << 24, 24)
    return low, low + (1 << width) - 1


GRAMMARS = {"method": Front.method, "field": Front.field, "locals": Front.locals, "type": lambda it: it.type(1), "descriptor": Front.descriptor}


def place_of(grammar, blob):
    """Returns the refused place of a blob, or None where it is in the grammar."""
    front = Front(blob)
    try:
        GRAMMARS[grammar](front)
        front.end()
    except Wrong as wrong:
        return wrong.args[0]
    return None


def completed(grammar, front):
    """Returns a blob of the grammar that begins with a front of one. Raises OverflowError where that would be long."""
    found = Front(front, completes=True)
    GRAMMARS[grammar](found)
    return bytes(found.blob)
