#!/usr/bin/env python3
"""Assemblies whose types are made to cost much: chains, circles, products and numbers that promise what isn't there. Each comes
with the answer that the rules give, which is worked out here and not by a reader.

`hostile_types.py write FOLDER [COUNT]` writes each to a file, with what `stubs` and `imports` must answer beside it.
"""
import os
import sys
from collections import namedtuple

sys.dont_write_bytecode = True
import reference_imports
from made_assemblies import (
    CLASS_LAYOUT, DOUBLE, EXPLICIT, INT, INTERFACE_IMPL, NESTED_CLASS, TYPE_DEF, TYPE_SPEC, VOID, Assembly, compressed, core, method_sign, named, type_token,
)

MANY = 60_000
DEEPEST = 64
COMMANDS = ("imports", "stubs")

# A case: its name, its bytes, and what `stubs` prints; or the row of TypeDef at which the part `types` is broken; and the commands
# that are asked.
Case = namedtuple("Case", "name data stubs row commands", defaults=(None, COMMANDS))


def stub(name, *lines, result="result void"):
    return "".join(f"{it}\n" for it in (f"stub native {name}", *lines, result, "done"))


def outside(name, what, why):
    return f"outside native {name} {what} {why}\n"


def place(size):
    return ("arg 0 place both %d" % size, "back 0", "end 0")


def by_reference(sign):
    return method_sign(VOID, b"\x10" + sign)


def case(name, assembly, stubs="", row=None, commands=COMMANDS):
    return Case(name, assembly.image(), stubs, row, commands)


def program(assembly, *imports):
    """Adds a type with these imports, each a name and a signature, and returns the assembly."""
    assembly.type(b"Program", core(b"Object"))
    for name, sign in imports:
        assembly.imported(name, sign)
    return assembly


# chains and circles of classes


def chains_of_classes(many):
    """Each class extends the next one or the one before; the last is below SafeHandle, or the chain is a circle."""
    for name, step in (("up", 1), ("down", -1)):
        made = Assembly()
        first = len(made.rows[TYPE_DEF]) + 1
        ends = first + many - 1 if step == 1 else first
        for row in range(first, first + many):
            made.type(b"C%d" % row, core(b"SafeHandle") if row == ends else type_token(TYPE_DEF, row + step))
        start = first if step == 1 else first + many - 1
        yield case(f"a chain of classes, {name}", program(made, (b"f", method_sign(VOID, b"\x12" + named(start)[1:]))), stub("f", "arg 0 hold", "end 0"))
    made = Assembly()
    first = len(made.rows[TYPE_DEF]) + 2
    made.type(b"Before", type_token(TYPE_DEF, first))
    for row in range(first, first + many):
        made.type(b"C%d" % row, type_token(TYPE_DEF, row + 1 if row < first + many - 1 else first))
    yield case("a circle of classes, below it another", program(made), row=first)


def chains_of_nesting(many):
    for closed in (False, True):
        made = Assembly()
        first = len(made.rows[TYPE_DEF]) + 1
        for row in range(first, first + many):
            made.type(b"N", core(b"Object"))
            if row > first or closed:
                made.add(NESTED_CLASS, row, row - 1 if row > first else first + many - 1)
        yield case("a circle of nested classes" if closed else "a chain of nested classes", program(made), row=first if closed else None)


def circles_of_interfaces(many):
    """No part refuses them, and they decide nothing for a stub."""
    made = Assembly()
    first = len(made.rows[TYPE_DEF]) + 1
    for row in range(first, first + many):
        made.type(b"I%d" % row, 0, 0xA0)
    for row in range(first, first + many):
        made.add(INTERFACE_IMPL, row, type_token(TYPE_DEF, first + (row - first + 1) % many))
    yield case("a circle of interfaces", program(made, (b"f", method_sign(INT, INT))), stub("f", "arg 0 word int 4 s", result="result word int 4 s"))


# TypeSpecs


def type_specs(many):
    """Each TypeSpec is the class of the next one."""
    for closed in (False, True):
        made = Assembly()
        pair = made.value_type(b"Pair", INT, INT)
        for row in range(1, many + 1):
            made.add(TYPE_SPEC, made.blob(named(row % many + 1, TYPE_SPEC) if closed or row < many else named(pair)))
        holder = made.value_type(b"Holder", named(1, TYPE_SPEC))
        made.type(b"Below", type_token(TYPE_SPEC, 1))
        program(made, (b"f", by_reference(named(1, TYPE_SPEC))), (b"g", by_reference(named(holder))))
        answer = outside("f", 0, "type") + outside("g", 0, "type") if closed else stub("f", *place(8)) + stub("g", *place(8))
        yield case("a circle of TypeSpecs" if closed else "a chain of TypeSpecs", made, answer)
    made = Assembly()
    for row in range(1, many + 1):
        made.add(TYPE_SPEC, made.blob(b"\x1d" + (named(row + 1, TYPE_SPEC) if row < many else INT)))
    program(made, (b"f", method_sign(VOID, named(1, TYPE_SPEC))), (b"g", method_sign(VOID, named(many, TYPE_SPEC))))
    yield case("arrays of arrays by TypeSpecs", made, outside("f", 0, "type") + stub("g", "arg 0 lend 4", "end 0"))


# delegates


def delegates_through_structs(many):
    """Each delegate takes a struct that holds the next one. The last takes an int, gives a double, or takes the first's struct."""
    last = {"ends well": (VOID, INT), "ends in a double": (DOUBLE, INT), "is a circle": None}
    for name, ending in last.items():
        made = Assembly()
        first = len(made.rows[TYPE_DEF]) + 1
        for n in range(many):
            struct = first + 2 * n + 1
            if n < many - 1:
                made.delegate(b"D", method_sign(VOID, named(struct)))
                made.value_type(b"S", b"\x12" + named(struct + 1)[1:])
            else:
                made.delegate(b"D", method_sign(*ending) if ending else method_sign(VOID, named(first + 1)))
        program(made, (b"f", method_sign(VOID, b"\x12" + named(first)[1:])), (b"g", method_sign(VOID, named(first + 1))))
        well = stub("f", "arg 0 thunk") + stub("g", "arg 0 value 8 words 1")
        yield case(f"a chain of delegates through structs that {name}", made, well if name == "ends well" else outside("f", 0, "type") + outside("g", 0, "type"))


# value types


def nested_value_types(many):
    """S1 holds S2, which holds S3, and so on; the last one holds an int, or the first."""
    made = Assembly()
    first = len(made.rows[TYPE_DEF]) + 1
    for row in range(first, first + many):
        made.value_type(b"S", named(row + 1) if row < first + many - 1 else INT)
    # 63 structs and an int are 64 deep
    deepest = max(first, first + many - (DEEPEST - 1))
    program(made, (b"f", by_reference(named(first))), (b"g", by_reference(named(deepest))), (b"h", by_reference(named(max(first, deepest - 1)))))
    deep = outside("f", 0, "layout") if many >= DEEPEST else stub("f", *place(4))
    yield case("value types nested deep", made, deep + stub("g", *place(4)) + (outside("h", 0, "layout") if many >= DEEPEST else stub("h", *place(4))))
    made = Assembly()
    made.value_type(b"Outer", named(len(made.rows[TYPE_DEF]) + 2))
    first = len(made.rows[TYPE_DEF]) + 1
    for row in range(first, first + many):
        made.value_type(b"S", named(row + 1 if row < first + many - 1 else first))
    yield case("a circle of value types, around it another", program(made), row=first)
    made = Assembly()
    base = made.value_type(b"Base", named(len(made.rows[TYPE_DEF]) + 2))
    below = made.type(b"Below", type_token(TYPE_DEF, base), 0x08)
    yield case("a value type that holds itself by an inherited field", program(made), row=below)


def doubled(made, deep, explicit):
    """Adds structs each of which holds the next one twice, and returns the outermost."""
    first = len(made.rows[TYPE_DEF]) + 1
    for row in range(first, first + deep):
        made.value_type(b"S", flags=EXPLICIT if explicit else 0x08)
        for _ in range(2):
            made.field(named(row + 1) if row < first + deep - 1 else INT, 0 if explicit else None)
    return first


def structs_held_twice(_):
    """Twice as many parts at each level: in a row, so that sizes grow, or at one offset, so that they don't."""
    for explicit, deep, answer in ((False, 18, 1 << 20), (False, 19, 0), (False, 60, 0), (True, 20, 4), (True, 21, 0), (True, 60, 0)):
        made = Assembly()
        outermost = doubled(made, deep, explicit)
        program(made, (b"f", by_reference(named(outermost))))
        yield case(f"a struct held twice, {deep} deep{', at one offset' if explicit else ''}", made, stub("f", *place(answer)) if answer else outside("f", 0, "layout"))


def explicit_fields(many):
    """A struct of many fields, at rising and at falling offsets; of bools, which may not overlap, and of ints, which may."""
    bool_ = b"\x02"
    for name, sign, offsets, size in (
        ("rising", bool_, lambda n: 4 * n, 4 * many),
        ("falling", bool_, lambda n: 4 * (many - 1 - n), 4 * many),
        ("one overlap", bool_, lambda n: 4 * n if n else 2, 0),
        ("the last overlaps the first", bool_, lambda n: 4 * n if n < many - 1 else 0, 0),
        ("flat and at one place", INT, lambda n: 0, 4),
    ):
        made = Assembly()
        wide = made.value_type(b"Wide", flags=EXPLICIT)
        for n in range(many):
            made.field(sign, offsets(n))
        program(made, (b"f", by_reference(named(wide))))
        yield case(f"an explicit struct of many fields, {name}", made, stub("f", *place(size)) if size else outside("f", 0, "layout"))


def inherited_fields(many):
    """Value types each of which extends the one before and adds an int. `stubs` finds what each of them is by all of its fields, the
    inherited ones too, so it takes the square of the chain's length: it is asked for a shorter one."""
    for length, commands in ((many, ("imports",)), (min(many, 4_000), COMMANDS)):
        made = Assembly()
        row = made.value_type(b"V", INT)
        for _ in range(length - 1):
            row = made.type(b"V", type_token(TYPE_DEF, row), 0x08)
            made.field(INT)
        program(made, (b"f", by_reference(named(row))))
        yield case(f"a chain of {length} value types that extend each other", made, stub("f", *place(4 * length)), commands=commands)


# numbers that promise much


def promises(_):
    """2^28 and more of what isn't there."""
    much = compressed((1 << 28) - 1)
    most = compressed((1 << 29) - 1)
    for name, sign in {
        "parameters": b"\0" + much + VOID + INT,
        "generic arguments": method_sign(VOID, b"\x15\x11\x08" + much + INT),
        "sizes of an array": method_sign(VOID, b"\x14\x08" + much + much + b"\1"),
        "lower bounds of an array": method_sign(VOID, b"\x14\x08" + much + b"\0" + much + b"\1"),
        "parameters of a function pointer": method_sign(VOID, b"\x1b\0" + much + VOID),
    }.items():
        made = program(Assembly(), (b"f", sign))
        yield case(f"a promise of 2^28 {name}", made, outside("f", "whole", "type"))
    for name, descriptor, sign, size in (
        ("elements in place", b"\x1e" + most, b"\x1d\x08", 0),
        ("units of a text in place", b"\x17" + most, b"\x0e", 0),
        ("elements in place that are as many as fit", b"\x1e" + compressed(1 << 18), b"\x1d\x08", 1 << 20),
    ):
        made = Assembly()
        struct = made.value_type(b"S")
        made.field(sign, descriptor=descriptor)
        program(made, (b"f", by_reference(named(struct))))
        yield case(f"a promise of 2^29 - 1 {name}" if not size else name, made, stub("f", *place(size)) if size else outside("f", 0, "layout"))
    made = Assembly()
    struct = made.value_type(b"S", INT)
    made.add(CLASS_LAYOUT, 0, (1 << 32) - 1, struct)
    yield case("a written size of 2^32 - 1", program(made, (b"f", by_reference(named(struct)))), outside("f", 0, "layout"))


def one_blob(many):
    """Many methods whose signature is one blob of many parameters. In one file none but the first is an import; in the others each
    is, and is outside for its first parameter, or as a whole, so that each is one line."""
    parameters = min(many, 15_000)
    made = program(Assembly(), (b"f", method_sign(VOID, *[INT] * parameters)))
    for _ in range(many - 1):
        made.method(b"m", method_sign(VOID, *[INT] * parameters))
    yield case("methods on one blob", made, stub("f", *(f"arg {n} word int 4 s" for n in range(parameters))))
    for name, sign, what in (
        ("first parameter", method_sign(VOID, DOUBLE, *[INT] * parameters), 0),
        ("signature", b"\x05" + method_sign(VOID, *[INT] * parameters)[1:], "whole"),
    ):
        made = program(Assembly(), *[(b"f", sign)] * many)
        yield case(f"imports on one blob that are outside by their {name}", made, outside("f", what, "type") * many)


def one_struct(many):
    """Many imports that take the same struct of many fields: its form is asked for once or each time."""
    fields = min(many, 1_000)
    made = Assembly()
    struct = made.value_type(b"S", *[INT] * fields)
    program(made, *[(b"f", by_reference(named(struct)))] * (many // 10))
    yield case("imports that take one struct", made, stub("f", *place(4 * fields)) * (many // 10))


MAKERS = (
    chains_of_classes, chains_of_nesting, circles_of_interfaces, type_specs, delegates_through_structs, nested_value_types,
    structs_held_twice, explicit_fields, inherited_fields, promises, one_blob, one_struct,
)


def cases(many=MANY):
    """Yields each case. `many` is how long its chains and lists are."""
    for maker in MAKERS:
        yield from maker(many)


def answers(it):
    """Returns the status, standard output and standard error of `stubs` and of `imports` for a case."""
    if it.row is None:
        imports = "".join(" ".join(line.split(" ")[1:3]) + "\n" for line in it.stubs.splitlines() if line.startswith(("stub ", "outside ")))
        return {"stubs": (0, it.stubs, ""), "imports": (0, imports, "")}
    tables = reference_imports.Tables(it.data, reference_imports.read_streams(it.data, reference_imports.read_headers(it.data)))
    at = tables.starts[TYPE_DEF] + (it.row - 1) * sum(tables.widths[TYPE_DEF])
    refused = (204, "", f"plhost: bad image: types at {at}\n")
    return {"stubs": refused, "imports": refused}


def write(folder, many):
    os.makedirs(folder, exist_ok=True)
    for it in cases(many):
        path = os.path.join(folder, it.name.replace(" ", "_").replace(",", ""))
        with open(path + ".dll", "wb") as file:
            file.write(it.data)
        for command, (status, out, err) in answers(it).items():
            with open(f"{path}.{command}", "w") as file:
                file.write(f"{status}\n{out}{err}")


if __name__ == "__main__":
    if len(sys.argv) < 3 or sys.argv[1] != "write":
        sys.exit("usage: hostile_types.py write FOLDER [COUNT]")
    write(sys.argv[2], int(sys.argv[3]) if len(sys.argv) > 3 else MANY)
