"""Reads the blobs of marshalling descriptors (ECMA-335 II.23.4) as values.

A descriptor is a tuple: ("plain", byte), ("text", count), ("in place", count, element) or
("array", element, parameter, count, flag). A part that is missing is None.
"""
from .signatures import compressed

BOOL, I1, U1, I2, U2, I4, U4, I8, U8 = range(0x02, 0x0B)
LP_STR, LP_WSTR, BY_VAL_TSTR, STRUCT, BY_VAL_ARRAY, SYS_INT, SYS_UINT = 0x14, 0x15, 0x17, 0x1B, 0x1E, 0x1F, 0x20
FUNCTION_PTR, LP_ARRAY, LP_UTF8_STR, NONE = 0x26, 0x2A, 0x30, 0x50
PLAIN = frozenset((*range(BOOL, U8 + 1), LP_STR, LP_WSTR, STRUCT, SYS_INT, SYS_UINT, FUNCTION_PTR, LP_UTF8_STR))

# What a parameter or field has that has a descriptor's blob outside the grammar.
UNREAD = ("unread",)


def descriptor_of(blob):
    """Returns the descriptor, or UNREAD."""
    if not blob:
        return UNREAD
    kind, rest = blob[0], blob[1:]
    if kind in PLAIN:
        return UNREAD if rest else ("plain", kind)
    if kind == BY_VAL_TSTR:
        numbers = numbers_of(rest, 1)
        return ("text", numbers[0]) if numbers else UNREAD
    if kind == BY_VAL_ARRAY:
        return in_place(rest)
    if kind == LP_ARRAY:
        return array(rest)
    return UNREAD


def in_place(rest):
    found = compressed(rest, 0, len(rest))
    if found is None:
        return UNREAD
    count, at = found
    if at == len(rest):
        return ("in place", count, None)
    return ("in place", count, rest[at]) if at + 1 == len(rest) and rest[at] in PLAIN else UNREAD


def array(rest):
    if not rest:
        return ("array", None, None, None, None)
    if rest[0] not in PLAIN and rest[0] != NONE:
        return UNREAD
    element = None if rest[0] == NONE else rest[0]
    numbers = numbers_of(rest[1:], 3)
    return UNREAD if numbers is None else ("array", element, *numbers, *[None] * (3 - len(numbers)))


def numbers_of(blob, most):
    """Returns the compressed numbers that a blob holds end to end, or None where it holds something else or too many."""
    numbers, at = [], 0
    while at < len(blob):
        found = compressed(blob, at, len(blob))
        if found is None or len(numbers) == most:
            return None
        numbers.append(found[0])
        at = found[1]
    return numbers
