"""The marshalling table: which types cross between managed and native code, and in which form, by the rules of plhost's
profile. What a parameter, a result or a field needs is looked at in one order: its type, its descriptor, its marks, its
layout."""
from . import descriptors as d
from . import layout, signatures
from .types import DELEGATE, ENUM, METHOD, SAFE_HANDLE, STRING, TYPE_DEF, VALUE_TYPE

# places in which a type stands
BY_VALUE, BY_REFERENCE, RESULT, IN_FIELD, CALLBACK, CALLBACK_REFERENCE, CALLBACK_RESULT = range(7)
SCALARS = ("int", "bool", "char", "pointer")
# the columns in which a type of each kind has an entry; structs, arrays and delegates ask for more
COLUMNS = {
    "int": range(7),
    "bool": range(7),
    "char": range(7),
    "pointer": (BY_VALUE, BY_REFERENCE, RESULT, IN_FIELD, CALLBACK, CALLBACK_RESULT),
    "string": (BY_VALUE, BY_REFERENCE, RESULT, IN_FIELD, CALLBACK),
    "struct": range(7),
    "array": (BY_VALUE, IN_FIELD, CALLBACK),
    "delegate": (BY_VALUE, IN_FIELD),
    "handle": (BY_VALUE,),
}
WITHOUT_POINTERS = (RESULT, CALLBACK_REFERENCE, CALLBACK_RESULT)

# width in bytes, whether signed
INTEGERS = {
    "System.SByte": (1, True), "System.Byte": (1, False), "System.Int16": (2, True), "System.UInt16": (2, False),
    "System.Int32": (4, True), "System.UInt32": (4, False), "System.Int64": (8, True), "System.UInt64": (8, False),
    "System.IntPtr": (8, True), "System.UIntPtr": (8, False),
}
OF_DESCRIPTOR = {
    d.I1: (1, True), d.U1: (1, False), d.I2: (2, True), d.U2: (2, False), d.I4: (4, True), d.U4: (4, False),
    d.I8: (8, True), d.U8: (8, False), d.SYS_INT: (8, True), d.SYS_UINT: (8, False),
}
IN, OUT = 1, 2
# layout in a type's flags (II.23.1.15), and its text format
LAYOUT, SEQUENTIAL, EXPLICIT = 0x18, 0x08, 0x10
FORMAT, UNICODE = 0x30000, 0x10000


class Outside(Exception):
    """Why something doesn't cross: type, descriptor, mark or layout."""


def integer(width, signed):
    return layout.scalar(width, f"int {width} {'s' if signed else 'u'}", flat=True)


def text(wide):
    return layout.scalar(8, "utf16" if wide else "utf8", texts=True)


class Table:
    """The rows of the table for the types of one assembly."""

    def __init__(self, assembly):
        self.of = assembly
        # the form of each struct that was asked for, None where it has no row; whether each delegate type has rows
        self.known = {}

    # kinds

    def kind(self, sign):
        """What a type is to the table: ("int", width, signed), ("array", kind of the element), ("struct", row),
        ("delegate", row), or its word alone. None where it is nothing that the table has."""
        if sign[0] == "ptr":
            return ("pointer",)
        if sign[0] == "vector":
            return ("array", self.kind(sign[1]))
        found = self.of.type_of(sign)
        if found is None:
            return None
        return ("array", self.kind_of_base(found[0]) if found[1] == 1 else None) if found[1] else self.kind_of_base(found[0])

    def kind_of_base(self, base):
        if base in INTEGERS:
            return ("int", *INTEGERS[base])
        if base in ("System.Boolean", "System.Char", STRING):
            return ({"System.Boolean": "bool", "System.Char": "char", STRING: "string"}[base],)
        if base == SAFE_HANDLE or self.of.is_below(base, SAFE_HANDLE):
            return ("handle",)
        if not isinstance(base, int):
            return None
        if self.of.is_below(base, ENUM):
            return self.enumeration(base)
        if self.of.is_below(base, DELEGATE):
            return ("delegate", base)
        return ("struct", base) if self.of.is_below(base, VALUE_TYPE) else None

    def enumeration(self, base):
        """An enum has one instance field, and that of an integer type."""
        fields = self.of.fields(base)
        found = self.of.type_of(self.of.field_sign(fields[0][1])) if len(fields) == 1 else None
        return ("int", *INTEGERS[found[0]]) if found and found[1] == 0 and found[0] in INTEGERS else None

    # what stands in one place

    def form(self, kind, descriptor, wide, column):
        """The form of a type in a column; for an array that is not in a field, the form of its elements."""
        if kind is None or column not in COLUMNS[kind[0]]:
            raise Outside("type")
        if kind[0] == "array":
            return self.in_place(kind[1], descriptor, wide) if column == IN_FIELD else self.elements(kind[1], descriptor, wide, column)
        if kind[0] == "struct":
            return self.struct_form(kind[1], descriptor, column)
        if kind[0] == "delegate":
            if not self.settled(kind):
                raise Outside("type")
            return self.taken(descriptor, (None, ("plain", d.FUNCTION_PTR)), layout.scalar(8, "thunk", delegates=True))
        if kind[0] == "handle":
            return self.taken(descriptor, (None,), layout.scalar(8, "hold"))
        if kind[0] == "string":
            return self.string_form(descriptor, wide, column)
        return self.scalar_form(kind, descriptor, wide)

    def taken(self, descriptor, allowed, form):
        if descriptor not in allowed:
            raise Outside("descriptor")
        return form

    def struct_form(self, row, descriptor, column):
        form = self.settled(("struct", row))
        if form is None or column in WITHOUT_POINTERS and layout.has_pointers(form):
            raise Outside("type")
        return self.taken(descriptor, (None, ("plain", d.STRUCT)), form)

    def string_form(self, descriptor, wide, column):
        if descriptor is None:
            return text(wide)
        if descriptor in (("plain", d.LP_STR), ("plain", d.LP_UTF8_STR), ("plain", d.LP_WSTR)):
            return text(descriptor[1] == d.LP_WSTR)
        if column == IN_FIELD and descriptor[0] == "text" and descriptor[1] >= 1:
            return layout.inline_text(2 if wide else 1, descriptor[1])
        raise Outside("descriptor")

    def scalar_form(self, kind, descriptor, wide):
        if descriptor is not None and descriptor[0] != "plain":
            raise Outside("descriptor")
        as_integer = OF_DESCRIPTOR.get(descriptor[1]) if descriptor else None
        if kind[0] == "int":
            width, signed = (kind[1], kind[2]) if descriptor is None else as_integer or (0, False)
            if width == kind[1]:
                return integer(width, signed)
        elif kind[0] == "pointer":
            if descriptor is None:
                return integer(8, True)
        elif kind[0] == "bool":
            if descriptor in (None, ("plain", d.BOOL)):
                return layout.scalar(4, "bool 4")
            if descriptor[1] in (d.I1, d.U1):
                return layout.scalar(1, "bool 1")
        elif descriptor is None or as_integer and as_integer[0] <= 2:
            width = as_integer[0] if descriptor else 2 if wide else 1
            return layout.scalar(width, f"char {width}")
        raise Outside("descriptor")

    # arrays

    def elements(self, kind, descriptor, wide, column):
        """The form of the elements of an array that is an argument; one of a callback has to be flat."""
        form = self.element_by_type(kind)
        if column == CALLBACK and kind[0] != "char" and not (form.flat if form else kind[0] in ("int", "pointer")):
            raise Outside("type")
        if descriptor is not None and descriptor[0] != "array":
            raise Outside("descriptor")
        form = self.element(kind, form, descriptor[1] if descriptor else None, wide)
        if column == CALLBACK and not is_lent(form):
            raise Outside("descriptor")
        return form

    def in_place(self, kind, descriptor, wide):
        """The form of an array that stands in a field."""
        form = self.element_by_type(kind)
        if not (form.flat if form else kind[0] in SCALARS):
            raise Outside("type")
        if descriptor is None or descriptor[0] != "in place" or descriptor[1] == 0:
            raise Outside("descriptor")
        return layout.inline_array(self.element(kind, form, descriptor[2], wide), descriptor[1])

    def element_by_type(self, kind):
        """The form of an element that is a struct, None for one that is a scalar or a string."""
        if kind is None or kind[0] not in (*SCALARS, "string", "struct"):
            raise Outside("type")
        if kind[0] != "struct":
            return None
        form = self.settled(kind)
        if form is None:
            raise Outside("type")
        return form

    def element(self, kind, form, byte, wide):
        descriptor = None if byte is None else ("plain", byte)
        if kind[0] == "struct":
            return self.taken(descriptor, (None, ("plain", d.STRUCT)), form)
        return self.string_form(descriptor, wide, BY_VALUE) if kind[0] == "string" else self.scalar_form(kind, descriptor, wide)

    # structs and delegate types, which lead to each other

    def settled(self, node):
        """The form of a struct, or whether a delegate type has rows. What a type needs is settled before it, without
        recursion; a type that needs itself again finds itself not settled, and has no row."""
        if node not in self.known:
            work, open_nodes = [(node, iter(self.needs(node)))], {node}
            while work:
                at, rest = work[-1]
                after = next(rest, None)
                if after is None:
                    work.pop()
                    self.known[at] = self.struct(at[1]) if at[0] == "struct" else self.has_rows(at[1])
                elif after not in self.known and after not in open_nodes:
                    open_nodes.add(after)
                    work.append((after, iter(self.needs(after))))
        return self.known[node]

    def needs(self, node):
        """The structs and delegate types that a struct's fields or an Invoke's parameters and result are of."""
        if node[0] == "struct":
            signs = [self.of.field_sign(it) for _, it in self.of.fields(node[1])]
        else:
            invoke = self.invoke(node[1])
            signs = [invoke[1].result, *invoke[1].parameters] if invoke else []
        kinds = [self.kind(it[1] if it[0] == "byref" else it) for it in signs]
        kinds = [it[1] if it and it[0] == "array" else it for it in kinds]
        return [it for it in kinds if it and it[0] in ("struct", "delegate")]

    def struct(self, row):
        """The form of a value type, None where it is neither sequential nor explicit or a field has no row."""
        flags = self.of.row(TYPE_DEF, row)[0] & LAYOUT
        if flags not in (SEQUENTIAL, EXPLICIT):
            return None
        forms, offsets = [], []
        for owner, field in self.of.fields(row):
            wide = self.of.row(TYPE_DEF, owner)[0] & FORMAT == UNICODE
            kind = self.kind_if_settled(self.of.field_sign(field))
            try:
                forms.append(self.form(kind, self.of.descriptor(0, field), wide, IN_FIELD))
            except Outside:
                return None
            written = self.of.fields_layout.get(field)
            offsets.append(written[0] if written else None)
        packing, least, _ = self.of.classes_layout.get(row, (0, 0, 0))
        return layout.struct(forms, flags == EXPLICIT, packing, least, offsets)

    def kind_if_settled(self, sign):
        """The kind of a type; None where it, or its element, is a struct or delegate type that is not settled yet."""
        kind = self.kind(sign)
        inner = kind[1] if kind and kind[0] == "array" else kind
        return None if inner and inner[0] in ("struct", "delegate") and inner not in self.known else kind

    # delegates

    def invoke(self, row):
        """The first method named Invoke of a delegate type, with its signature; None where plhost can't call it."""
        for method in self.of.methods(row):
            cells = self.of.row(METHOD, method)
            if self.of.name(cells[3]) == b"Invoke":
                found = self.of.signed(cells[4], signatures.method_of)
                return None if found is None or found.vararg or found.generic else (method, found)
        return None

    def has_rows(self, row):
        """Whether each parameter of Invoke, and its result, has a row."""
        found = self.invoke(row)
        if found is None:
            return False
        method, sign = found
        try:
            for number in range(len(sign.parameters)):
                self.callback_parameter(method, sign, number)
            self.result(method, sign, CALLBACK_RESULT, False)
        except Outside:
            return False
        return True

    def callback_parameter(self, method, sign, number):
        what = sign.parameters[number]
        marks, descriptor = self.of.parameter(method, number + 1)
        by_reference = what[0] == "byref"
        kind = self.kind_if_settled(what[1] if by_reference else what)
        form = self.form(kind, descriptor, False, CALLBACK_REFERENCE if by_reference else CALLBACK)
        if kind[0] == "array" and not self.has_length(descriptor, sign):
            raise Outside("descriptor")
        if not by_reference and kind[0] != "array" and marks & OUT:
            raise Outside("mark")
        if form.broken:
            raise Outside("layout")

    def has_length(self, descriptor, sign):
        """Whether an array's descriptor says how long it is, by a count or by the number of a parameter that is an integer."""
        if descriptor is None:
            return False
        _, _, number, count, flag = descriptor
        if number is not None and (flag is None or flag & 1):
            kind = self.kind(sign.parameters[number]) if number < len(sign.parameters) and sign.parameters[number][0] != "byref" else None
            return kind is not None and kind[0] == "int"
        return count is not None

    # results and arguments

    def result(self, method, sign, column, wide):
        """The form of a result, None for void."""
        if self.is_void(sign.result):
            return None
        kind = None if sign.result[0] == "byref" else self.kind_if_settled(sign.result) if column == CALLBACK_RESULT else self.kind(sign.result)
        form = self.form(kind, self.of.parameter(method, 0)[1], wide, column)
        if form.broken:
            raise Outside("layout")
        return form

    def is_void(self, sign):
        return sign[0] in ("prim", "named") and self.of.type_of(sign) == ("System.Void", 0)

    def argument(self, method, sign, number, wide):
        """How an argument of an import crosses: its step, its form, and its mark where it has one."""
        what = sign.parameters[number]
        marks, descriptor = self.of.parameter(method, number + 1)
        by_reference = what[0] == "byref"
        kind = self.kind(what[1] if by_reference else what)
        form = self.form(kind, descriptor, wide, BY_REFERENCE if by_reference else BY_VALUE)
        step, mark = self.step(kind[0], form, marks, by_reference)
        if form.broken:
            raise Outside("layout")
        return step, form, mark

    def step(self, kind, form, marks, by_reference):
        marked = (bool(marks & IN), bool(marks & OUT))
        if by_reference:
            return "place", {(True, False): "give", (False, True): "take"}.get(marked, "both")
        if kind == "array":
            mark = {(False, True): "take", (True, True): "both"}.get(marked, "give")
            return ("lend", "") if is_lent(form) else ("copy", mark)
        if marks & OUT:
            raise Outside("mark")
        return {"string": "text", "struct": "value", "delegate": "thunk", "handle": "hold"}.get(kind, "word"), ""


def is_lent(form):
    """Whether elements of this form are shared with native code: integers, pointers, flat structs, and chars of two bytes."""
    return form.flat or form.kind == "char 2"
