#!/usr/bin/env python3
"""Writes assemblies full of types, for timings: `generate_types.py KIND COUNT FILE`.

`types` has many classes, each with fields and a method; `methods` few classes with many methods, each with a signature of its own;
`chain` classes each of which extends the one before and overrides its method; `values` structs each of which holds the one
before, 50 deep; `interfaces` classes each of which implements an interface by name and another one by a row of MethodImpl;
`stubs` imports that take structs, texts, arrays and callbacks. Each but the last has one import.
"""
import os
import sys

HERE = os.path.dirname(os.path.realpath(__file__))
sys.path.insert(0, os.path.join(os.path.dirname(HERE), "checks"))
sys.dont_write_bytecode = True
from made_assemblies import INT, INTERFACE_IMPL, METHOD, SEQUENTIAL, TYPE_DEF, VOID, Assembly, coded, compressed, core, method_sign, named, type_token

METHOD_IMPL = 0x19
VIRTUAL, NEW_SLOT, INTERFACE = 0x40, 0x100, 0xA0
METHODS_OF_TYPE, DEEP = 1000, 50
TEXT, INTS, OBJECT = b"\x0e", b"\x1d\x08", b"\x1c"


def reference(row):
    """A class in a signature."""
    return b"\x12" + compressed(type_token(TYPE_DEF, row))


def method(made, name, sign, flags):
    """An instance method with a signature that says so."""
    return made.method(name, b"\x20" + sign[1:], flags)


def types(made, count):
    for n in range(count):
        row = made.type(b"Type%d" % n, core(b"Object"))
        for sign in (INT, TEXT, reference(row), INTS):
            made.field(sign)
        method(made, b"Method%d" % n, method_sign(reference(row), INT, TEXT), 0)


def methods(made, count):
    for n in range(count):
        if n % METHODS_OF_TYPE == 0:
            row = made.type(b"Type%d" % n, core(b"Object"))
        # a signature for each number, of five parameters
        parameters = [(INT, TEXT, OBJECT, INTS, b"\x02", b"\x06", b"\x0a", reference(row))[n >> 3 * k & 7] for k in range(6)]
        method(made, b"Method%d" % n, method_sign(VOID, *parameters), 0)


def chain(made, count):
    row = made.type(b"First", core(b"Object"))
    method(made, b"Run", method_sign(INT, INT), VIRTUAL | NEW_SLOT)
    for n in range(count):
        row = made.type(b"Type%d" % n, type_token(TYPE_DEF, row))
        method(made, b"Run", method_sign(INT, INT), VIRTUAL)


def values(made, count):
    row = 0
    for n in range(count):
        row = made.value_type(b"Type%d" % n, named(row) if n % DEEP else INT, INT)


def interfaces(made, count):
    by_name = made.type(b"IByName", 0, INTERFACE)
    method(made, b"Run", method_sign(INT, INT), VIRTUAL | NEW_SLOT)
    by_row = made.type(b"IByRow", 0, INTERFACE)
    declared = method(made, b"Go", method_sign(INT, INT), VIRTUAL | NEW_SLOT)
    for n in range(count):
        row = made.type(b"Type%d" % n, core(b"Object"))
        method(made, b"Run", method_sign(INT, INT), VIRTUAL)
        body = method(made, b"Go%d" % n, method_sign(INT, INT), VIRTUAL)
        for it in (by_name, by_row):
            made.add(INTERFACE_IMPL, row, type_token(TYPE_DEF, it))
        made.add(METHOD_IMPL, row, *(coded("MethodDefOrRef", METHOD, it) for it in (body, declared)))


def stubs(made, count):
    struct = made.type(b"Pair", core(b"ValueType"), SEQUENTIAL)
    for sign in (INT, TEXT):
        made.field(sign)
    callback = made.delegate(b"Callback", method_sign(INT, INT))
    made.type(b"Natives", core(b"Object"))
    for n in range(count):
        kinds = (INT, TEXT, INTS, named(struct), b"\x10" + named(struct), reference(callback), b"\x02")
        made.imported(b"native_function_%d" % n, method_sign(INT, *(kinds[(n + k) % 7] for k in range(n % 5 + 1))))


KINDS = {it.__name__: it for it in (types, methods, chain, values, interfaces, stubs)}


def assembly(kind, count):
    made = Assembly()
    KINDS[kind](made, count)
    made.type(b"Program", core(b"Object"))
    made.imported(b"add", method_sign(INT, INT, INT))
    return made.image()


if __name__ == "__main__":
    kind, count, path = sys.argv[1:]
    with open(path, "wb") as file:
        file.write(assembly(kind, int(count)))
