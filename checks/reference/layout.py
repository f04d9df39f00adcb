"""Where the fields of a native image stand, and how large it is (ECMA-335 II.10.7), by the rules of plhost's profile."""
from collections import namedtuple

MOST_BYTES = 1 << 20
MOST_PARTS = 1 << 20
MOST_NESTED = 64
PACKINGS = (0, 1, 2, 4, 8, 16, 32, 64, 128)

# A native form: its size and alignment in bytes; whether it is flat, that is an integer, a pointer or a struct of such; whether
# texts and whether delegates stand in it; its scalar parts; how deep it is nested; and why it can't be laid out, '' where it
# can; its word in a stub; and the offsets of a struct's fields. Only the size, the alignment, the parts and the offsets of a form
# that can be laid out mean anything.
Form = namedtuple("Form", "size align flat texts delegates parts depth broken kind offsets", defaults=((),))


def scalar(size, kind, flat=False, texts=False, delegates=False):
    return Form(size, size, flat, texts, delegates, 1, 1, "", kind)


def inline_text(unit, count):
    return Form(unit * count, unit, False, False, False, 1, 1, "", f"inline text of {count}")


def inline_array(element, count):
    return Form(
        element.size * count, element.align, False, element.texts, element.delegates, element.parts * count, element.depth + 1, element.broken, f"inline array of {count}"
    )


def has_pointers(form):
    return form.texts or form.delegates


def struct(fields, explicit, packing, least, offsets):
    """The form of a struct of these fields and, where it is explicit, these written offsets."""
    flat = all(it.flat for it in fields)
    found = placed(fields, explicit, packing, least, offsets, flat)
    broken = found if isinstance(found, str) else ""
    offsets, size, align = ((), 1, 1) if broken else found
    parts = sum(it.parts for it in fields)
    depth = 1 + max((it.depth for it in fields), default=0)
    if not broken and (parts > MOST_PARTS or depth > MOST_NESTED):
        broken = "too many parts" if parts > MOST_PARTS else "nested too deep"
    texts, delegates = any(it.texts for it in fields), any(it.delegates for it in fields)
    return Form(size, align, flat, texts, delegates, min(parts, MOST_PARTS + 1), min(depth, MOST_NESTED + 1), broken, "struct", tuple(offsets))


def placed(fields, explicit, packing, least, offsets, flat):
    """Returns each field's offset, the size and the alignment; or the rule that is broken."""
    if any(it.broken for it in fields):
        return "a field that is outside"
    if not fields:
        return "no fields"
    if packing not in PACKINGS:
        return "packing"
    aligns = [min(packing or 8, it.align) for it in fields]
    if explicit:
        if None in offsets:
            return "a field without an offset"
        if not flat and do_overlap(fields, offsets):
            return "an overlap"
    else:
        offsets = in_sequence(fields, aligns)
    align = max(aligns)
    end = max(at + it.size for at, it in zip(offsets, fields))
    size = max(rounded(end, align), least)
    return "size" if size > MOST_BYTES else (offsets, size, align)


def in_sequence(fields, aligns):
    offsets, end = [], 0
    for field, align in zip(fields, aligns):
        offsets.append(rounded(end, align))
        end = offsets[-1] + field.size
    return offsets


def do_overlap(fields, offsets):
    ranges = sorted((at, at + it.size) for at, it in zip(offsets, fields))
    return any(before[1] > after[0] for before, after in zip(ranges, ranges[1:]))


def rounded(number, align):
    """The least multiple of `align` that is not below the number."""
    return -(-number // align) * align
