"""What the tables of an assembly say of its types (ECMA-335 II.22): what a token names, what a type extends, its fields,
methods and imports; and the last part of a file that can be broken, its types.

A type is named by (base, arrays): the number of a TypeDef row or the full name of a core type, and how many one-dimensional
arrays stand round it. Where several rows of a table fit, the first one counts.
"""
import struct

import reference_imports

from . import signatures
from .descriptors import descriptor_of

TYPE_REF, TYPE_DEF, FIELD, METHOD, PARAM, MODULE_REF, TYPE_SPEC, IMPL_MAP = 0x01, 0x02, 0x04, 0x06, 0x08, 0x1A, 0x1B, 0x1C
FIELD_MARSHAL, CLASS_LAYOUT, FIELD_LAYOUT, NESTED_CLASS = 0x0D, 0x0F, 0x10, 0x29
STATIC = 0x10  # of a field's and of a method's flags
MOST_ROWS = (1 << 24) - 1  # a token has three bytes for a row; a number past them names nothing

# The types outside the file that have a part in marshalling, and what each extends. Other types that plhost knows, such as
# its exceptions, decide nothing here.
OBJECT, VALUE_TYPE, ENUM, ARRAY, STRING = "System.Object", "System.ValueType", "System.Enum", "System.Array", "System.String"
DELEGATE, MULTICAST, SAFE_HANDLE = "System.Delegate", "System.MulticastDelegate", "System.Runtime.InteropServices.SafeHandle"
# element types (II.23.1.16) of the core types that have one
OF_ELEMENT = {
    0x01: "System.Void", 0x02: "System.Boolean", 0x03: "System.Char", 0x04: "System.SByte", 0x05: "System.Byte",
    0x06: "System.Int16", 0x07: "System.UInt16", 0x08: "System.Int32", 0x09: "System.UInt32", 0x0A: "System.Int64",
    0x0B: "System.UInt64", 0x0E: STRING, 0x18: "System.IntPtr", 0x19: "System.UIntPtr", 0x1C: OBJECT,
}
EXTENDS = {
    OBJECT: None, VALUE_TYPE: OBJECT, ENUM: VALUE_TYPE, ARRAY: OBJECT, STRING: OBJECT, DELEGATE: OBJECT, MULTICAST: DELEGATE,
    "System.RuntimeTypeHandle": VALUE_TYPE, "System.RuntimeFieldHandle": VALUE_TYPE, SAFE_HANDLE: OBJECT,
    "Microsoft.Win32.SafeHandles.SafeHandleZeroOrMinusOneIsInvalid": SAFE_HANDLE,
}
EXTENDS.update((name, VALUE_TYPE) for name in OF_ELEMENT.values() if name not in EXTENDS)


def core_type(namespace, name):
    """The core type of this namespace and name, or None."""
    full = namespace + b"." + name
    try:
        found = full.decode("ascii")
    except UnicodeDecodeError:
        return None
    return found if found in EXTENDS and b"." not in name else None


def is_core_below(name, base):
    """Whether a core type is another one, or below it."""
    while name is not None and name != base:
        name = EXTENDS[name]
    return name is not None


class Assembly:
    def __init__(self, data):
        """Reads the file up to its types. Raises reference_imports.Bad for the first part that is missing or wrong."""
        self.data = data
        self.tables = reference_imports.Tables(data, reference_imports.read_streams(data, reference_imports.read_headers(data)))
        self.tables.check_cells()
        self.read = {}
        self.names, self.blobs, self.signs, self.specs = {}, {}, {}, {}
        self.roots = {}
        self.fields_layout = self.firsts(FIELD_LAYOUT, 1)
        self.classes_layout = self.firsts(CLASS_LAYOUT, 2)
        self.marshals = self.firsts(FIELD_MARSHAL, 0)
        self.enclosers = self.firsts(NESTED_CLASS, 0)
        self.imports = self.firsts(IMPL_MAP, 1)
        self.own_types = {}
        for row, (_, name, namespace, *_) in enumerate(self.rows(TYPE_DEF), 1):
            self.own_types.setdefault((self.name(namespace), self.name(name)), row)
        self.extends = [None] + [self.type_that_is_extended(row[3]) for row in self.rows(TYPE_DEF)]

    # rows and heaps

    def rows(self, table):
        """All rows of a table, the first one at 0."""
        if table not in self.read:
            widths, count = self.tables.widths[table], self.tables.rows[table]
            at = self.tables.starts.get(table, 0)
            form = struct.Struct("<" + "".join({1: "B", 2: "H", 4: "I"}[it] for it in widths))
            self.read[table] = list(form.iter_unpack(self.data[at : at + count * form.size]))
        return self.read[table]

    def row(self, table, number):
        return self.rows(table)[number - 1]

    def firsts(self, table, column):
        """Returns for each number in a column the first row that has it."""
        found = {}
        for row in self.rows(table):
            found.setdefault(row[column], row)
        return found

    def run(self, table, column, of, number):
        """The numbers of the rows of `of` that belong to a row of `table`: up to where those of the next row begin."""
        rows = self.rows(table)
        start = rows[number - 1][column]
        end = rows[number][column] if number < len(rows) else self.tables.rows[of] + 1
        return range(start, end)

    def name(self, offset):
        if offset not in self.names:
            self.names[offset] = bytes(self.tables.string(offset))
        return self.names[offset]

    def blob(self, offset):
        """The bytes of a blob; none where the heap has no whole entry there."""
        if offset not in self.blobs:
            heap = self.tables.heaps["B"]
            end = heap.at + heap.size
            found = signatures.compressed(self.data, heap.at + offset, end)
            whole = found is not None and found[0] + found[1] <= end
            self.blobs[offset] = bytes(self.data[found[1] : found[0] + found[1]]) if whole else b""
        return self.blobs[offset]

    def signed(self, offset, read):
        """The signature in a blob by one of the readers of `signatures`. A blob that many rows name is read once."""
        if (offset, read) not in self.signs:
            self.signs[offset, read] = read(self.blob(offset))
        return self.signs[offset, read]

    # what a token names

    def type_named(self, tag, number):
        """The type that a TypeDef (tag 0), TypeRef (1) or TypeSpec (2) is, or None."""
        if tag == 0:
            return (number, 0) if self.has_row(TYPE_DEF, number) else None
        return self.type_referred(number) if tag == 1 else self.type_of(("named", tag, number))

    def has_row(self, table, number):
        return 1 <= number <= min(self.tables.rows[table], MOST_ROWS)

    def type_referred(self, number):
        """A TypeRef in the scope of the module is a type of the file; every other one is a core type by its name."""
        if not self.has_row(TYPE_REF, number):
            return None
        scope, name, namespace = self.row(TYPE_REF, number)
        name, namespace = self.name(name), self.name(namespace)
        of_module = scope != 0 and scope & 3 == 0
        base = self.own_types.get((namespace, name)) if of_module else core_type(namespace, name)
        return None if base is None else (base, 0)

    def type_of(self, sign):
        """The type that a type of a signature is, or None where it names none or is of a kind that plhost leaves out."""
        arrays, passed, known = 0, {}, None
        while True:
            if sign is None or sign[0] == "named" and sign[1] == 2 and sign[2] in passed:
                break
            if sign[0] == "vector":
                arrays, sign = arrays + 1, sign[1]
                continue
            if sign[0] == "named" and sign[1] == 2:
                number = sign[2]
                if number in self.specs:
                    known = self.specs[number]
                    break
                passed[number] = arrays
                there = self.has_row(TYPE_SPEC, number)
                sign = self.signed(self.row(TYPE_SPEC, number)[0], signatures.type_of) if there else None
                continue
            known = self.simple(sign)
            break
        whole = None if known is None else (known[0], known[1] + arrays)
        for number, before in passed.items():
            self.specs[number] = None if whole is None else (whole[0], whole[1] - before)
        return whole

    def simple(self, sign):
        if sign[0] == "named":
            return self.type_named(sign[1], sign[2])
        if sign[0] == "ptr":
            return ("System.UIntPtr", 0)
        base = OF_ELEMENT.get(sign[1]) if sign[0] == "prim" else None
        return None if base is None else (base, 0)

    # what a type is

    def type_that_is_extended(self, coded):
        found = self.type_named(coded & 3, coded >> 2) if coded else None
        return found if found is None or found[1] == 0 else (ARRAY, 0)

    def root(self, row):
        """The first core type above a type of the file, or None where there is none."""
        path = []
        while isinstance(row, int) and row not in self.roots:
            self.roots[row] = None  # for a type that is on a circle
            path.append(row)
            row = self.extends[row][0] if self.extends[row] else None
        found = self.roots[row] if isinstance(row, int) else row
        for it in path:
            self.roots[it] = found
        return found

    def is_below(self, base, core):
        """Whether a type of the file, or a core type, is below a core type; a core type is not below itself."""
        if isinstance(base, int):
            root = self.root(base)
            return root is not None and is_core_below(root, core)
        return base != core and is_core_below(base, core)

    def fields(self, row):
        """The instance fields of a type, those of what it extends first, each after the type that it was written in."""
        line = []
        while isinstance(row, int):
            line.append(row)
            row = self.extends[row][0] if self.extends[row] else None
        return [(owner, field) for owner in reversed(line) for field in self.own_fields(owner)]

    def own_fields(self, row):
        return [it for it in self.run(TYPE_DEF, 4, FIELD, row) if not self.row(FIELD, it)[0] & STATIC]

    def field_sign(self, field):
        return self.signed(self.row(FIELD, field)[2], signatures.field_of)

    def methods(self, row):
        return self.run(TYPE_DEF, 5, METHOD, row)

    def descriptor(self, tag, number):
        """The descriptor of a Field (tag 0) or a Param (1), or None where it has none."""
        found = self.marshals.get(number << 1 | tag)
        return None if found is None else descriptor_of(self.blob(found[1]))

    def parameter(self, method, sequence):
        """The flags and the descriptor of a method's parameter, numbered from 1, or of its result, 0."""
        for number in self.run(METHOD, 5, PARAM, method):
            flags, at, _ = self.row(PARAM, number)
            if at == sequence:
                return flags, self.descriptor(1, number)
        return 0, None

    # the part `types`

    def check_types(self):
        """Raises Bad at the first TypeDef row that breaks one of the rules: no circle of Extends or of NestedClass, no value
        type that holds itself, and each field with a signature."""
        count = self.tables.rows[TYPE_DEF]
        nested = [None] * (count + 1)
        for row, found in self.enclosers.items():
            nested[row] = found[1] or None
        above = [it[0] if it and isinstance(it[0], int) else None for it in self.extends]
        wrong = [self.holders_of_themselves(), on_circles(above), on_circles(nested)]
        wrong.append(row for row in range(1, count + 1) if not self.are_fields_signed(row))
        first = min((row for rows in wrong for row in rows), default=None)
        if first is not None:
            raise reference_imports.Bad("types", self.tables.starts[TYPE_DEF] + (first - 1) * sum(self.tables.widths[TYPE_DEF]))

    def are_fields_signed(self, row):
        return all(self.field_sign(it) is not None for it in self.run(TYPE_DEF, 4, FIELD, row))

    def holders_of_themselves(self):
        """The value types that have an instance field, their own or one of a type that they extend, that holds them.

        Node 2n is value type n, node 2n + 1 are the fields that it has and inherits.
        """
        count = self.tables.rows[TYPE_DEF]
        leads = [[] for _ in range(2 * count + 2)]
        for row in range(1, count + 1):
            if self.is_below(row, VALUE_TYPE):
                leads[2 * row].append(2 * row + 1)
                leads[2 * row + 1] = self.what_fields_hold(row)
        return [node // 2 for node in on_any_circle(leads) if node % 2 == 0]

    def what_fields_hold(self, row):
        held = [2 * self.extends[row][0] + 1] if isinstance(self.extends[row][0], int) else []
        for field in self.own_fields(row):
            sign = self.field_sign(field)
            found = self.type_of(sign) if sign is not None else None
            if found and found[1] == 0 and isinstance(found[0], int) and self.is_below(found[0], VALUE_TYPE):
                held.append(2 * found[0])
        return held


def on_circles(above):
    """The numbers that lead to themselves, where each leads to one or to none."""
    done, found = [False] * len(above), []
    for start in range(len(above)):
        path, places, at = [], {}, start
        while at is not None and not done[at]:
            done[at] = True
            places[at] = len(path)
            path.append(at)
            at = above[at]
        if at in places:
            found += path[places[at] :]
    return found


def on_any_circle(leads):
    """The nodes of a graph without loops of one node that lead to themselves: those of its strong components of two or more."""
    order, low, found = {}, {}, []
    stack, on_stack = [], set()
    for start in range(len(leads)):
        if start in order:
            continue
        work = [(start, iter(leads[start]))]
        order[start] = low[start] = len(order)
        stack.append(start)
        on_stack.add(start)
        while work:
            node, rest = work[-1]
            after = next(rest, None)
            if after is None:
                work.pop()
                if work:
                    low[work[-1][0]] = min(low[work[-1][0]], low[node])
                if low[node] == order[node]:
                    part = []
                    while not part or part[-1] != node:
                        part.append(stack.pop())
                    on_stack.difference_update(part)
                    found += part if len(part) > 1 else []
            elif after not in order:
                order[after] = low[after] = len(order)
                stack.append(after)
                on_stack.add(after)
                work.append((after, iter(leads[after])))
            elif after in on_stack:
                low[node] = min(low[node], order[after])
    return found
