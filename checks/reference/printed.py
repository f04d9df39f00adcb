"""Writes the stub of each import of an assembly, as `plhost stubs` prints it."""
from reference_imports import escape

from . import layout, signatures
from .table import RESULT, Outside, Table
from .types import IMPL_MAP, METHOD, MODULE_REF, STATIC

PRESERVE_SIG = 0x80  # of ImplFlags (II.23.1.10)
CHARSET, UNICODE, LAST_ERROR = 0x06, 0x04, 0x40  # of an ImplMap row's flags (II.23.1.8)


def stubs_text(assembly):
    """The lines for each row of ImplMap that names a method. Of two rows of one method the first one counts for both."""
    table, texts, known = Table(assembly), [], {}
    for row in assembly.rows(IMPL_MAP):
        forwarded = row[1]
        if forwarded & 1 == 0:
            continue
        if forwarded not in known:
            known[forwarded] = stub_text(table, forwarded >> 1, assembly.imports[forwarded])
        texts.append(known[forwarded])
    return "".join(texts)


def stub_text(table, method, row):
    flags, _, entry, module = row
    module = table.of.name(table.of.row(MODULE_REF, module)[0]) if module else b""
    names = f"{escape(module)} {escape(table.of.name(entry))}"
    try:
        lines = lines_of(table, method, flags)
    except Refused as refused:
        return f"outside {names} {refused}\n"
    return "".join(f"{line}\n" for line in (f"stub {names}", *lines, "done"))


class Refused(Exception):
    """What of an import has no row, and why."""

    def __init__(self, what, why):
        super().__init__(f"{what} {why}")


def lines_of(table, method, flags):
    _, impl_flags, method_flags, _, blob, _ = table.of.row(METHOD, method)
    if not impl_flags & PRESERVE_SIG:
        raise Refused("whole", "preservesig")
    sign = table.of.signed(blob, signatures.method_of)
    if not method_flags & STATIC or sign is None or sign.vararg or sign.generic:
        raise Refused("whole", "type")
    wide = flags & CHARSET == UNICODE
    lines, back, ends = [], [], []
    for number in range(len(sign.parameters)):
        try:
            step, form, mark = table.argument(method, sign, number, wide)
        except Outside as why:
            raise Refused(number, why) from None
        lines.append(f"arg {number} {step_text(step, form, mark)}")
        if step in ("place", "copy") and mark != "give":
            back.append(f"back {number}")
        if may_make_a_loan(step, form):
            ends.append(f"end {number}")
    try:
        form = table.result(method, sign, RESULT, wide)
    except Outside as why:
        raise Refused("result", why) from None
    return [*lines, *back, *reversed(ends), f"result {result_text(form)}", *(["errno"] if flags & LAST_ERROR else [])]


def step_text(step, form, mark):
    if step in ("word", "text"):
        return f"{step} {form.kind}"
    if step == "value":
        return value_text(form)
    if step in ("place", "copy"):
        return f"{step} {mark} {form.size}"
    return f"lend {form.size}" if step == "lend" else step


def value_text(form):
    return f"value {form.size} pointer" if form.size > 16 else f"value {form.size} words {-(-form.size // 8)}"


def result_text(form):
    if form is None:
        return "void"
    if form.texts:
        return f"text {form.kind}"
    return value_text(form) if form.kind == "struct" else f"word {form.kind}"


def may_make_a_loan(step, form):
    """Whether an argument may need something that ends with the call: a temporary, a lent array or a handle."""
    if step == "value":
        return form.size > 16 or form.texts
    return step not in ("word", "thunk")
