"""Draws structs by a seed, and writes them in C# and in C, for the check `layout`."""
import random
from collections import namedtuple

# A scalar: its C# type, the attribute before it, its C type ('' where C has none of that meaning), and its size where the struct
# has the charset Ansi.
Scalar = namedtuple("Scalar", "sharp attribute c size", defaults=("", "", 8))
SCALARS = [
    Scalar("byte", "", "unsigned char", 1), Scalar("sbyte", "", "signed char", 1), Scalar("short", "", "short", 2),
    Scalar("ushort", "", "unsigned short", 2), Scalar("int", "", "int", 4), Scalar("uint", "", "unsigned", 4),
    Scalar("long", "", "long", 8), Scalar("ulong", "", "unsigned long", 8), Scalar("IntPtr", "", "long", 8),
    Scalar("UIntPtr", "", "unsigned long", 8), Scalar("int*", "", "int *", 8), Scalar("Colour", "", "unsigned char", 1),
    Scalar("Wide", "", "long", 8), Scalar("bool", "", "int", 4), Scalar("bool", "MarshalAs(UnmanagedType.I1)", "char", 1),
    Scalar("char", "", "", 1), Scalar("char", "MarshalAs(UnmanagedType.U2)", "unsigned short", 2),
]
FLAT = SCALARS[:13]
REFERENCES = [Scalar("string"), Scalar("string", "MarshalAs(UnmanagedType.LPWStr)"), Scalar("Callback", "", "void *")]

# A field: its C# declaration without a name, its C type and what stands behind the name in C, whether it is flat, and how many
# bytes it may have at the most. A struct: its fields, its offsets where it is explicit, and its attributes.
Field = namedtuple("Field", "sharp attribute c behind flat managed")
Struct = namedtuple("Struct", "name fields offsets packing least unicode flat managed in_c")


class Source:
    def __init__(self, seed):
        self.draw = random.Random(seed)
        self.structs = []

    def struct(self):
        explicit = self.draw.randrange(3) == 0
        kinds = (self.flat, self.flat, self.scalar, self.nested, self.reference, self.text, self.array, self.array)
        # half of the explicit ones are flat, so that their fields may overlap
        if explicit and self.draw.randrange(2):
            kinds = (self.flat, self.flat_nested)
        fields = [self.draw.choice(kinds)() for _ in range(self.draw.choice((1, 2, 2, 3, 3, 4, 5, 6)))]
        flat = all(it.flat for it in fields)
        offsets = self.offsets(fields, flat) if explicit else []
        packing = self.draw.choice((0, 0, 0, 1, 2, 4, 8, 16, 32, 128))
        least = self.draw.choice((0, 0, 0, 0, 1, 8, 24, 40, self.draw.randrange(1, 64)))
        in_c = all(it.c for it in fields) and least % 8 == 0
        managed = max(least, 8 + max([0, *offsets])) + sum(it.managed for it in fields)
        self.structs.append(Struct(f"S{len(self.structs)}", fields, offsets, packing, least, self.draw.randrange(2), flat, managed, in_c))

    def of_scalar(self, it, flat=False):
        return Field(it.sharp, it.attribute, it.c, "", flat, 8)

    def flat(self):
        return self.of_scalar(self.draw.choice(FLAT), True)

    def scalar(self):
        return self.of_scalar(self.draw.choice(SCALARS))

    def reference(self):
        return self.of_scalar(self.draw.choice(REFERENCES))

    def nested(self):
        return self.of_struct(self.structs)

    def flat_nested(self):
        return self.of_struct([it for it in self.structs if it.flat])

    def of_struct(self, structs):
        if not structs:
            return self.flat()
        it = self.draw.choice(structs)
        return Field(it.name, "", it.name if it.in_c else "", "", it.flat, it.managed + 8)

    def text(self):
        return Field("string", f"MarshalAs(UnmanagedType.ByValTStr, SizeConst = {self.draw.randint(1, 9)})", "", "", False, 24)

    def array(self):
        count = self.draw.randint(1, 5)
        structs = [it for it in self.structs if it.flat]
        if structs and self.draw.randrange(2):
            it = self.draw.choice(structs)
            name, c, element, size = it.name, it.name if it.in_c else "", "", it.managed
        else:
            it = self.draw.choice([it for it in SCALARS if "*" not in it.sharp])
            name, c, size = it.sharp, it.c, 8
            element = it.attribute.replace("MarshalAs(", ", ArraySubType = ").rstrip(")")
        return Field(f"{name}[]", f"MarshalAs(UnmanagedType.ByValArray, SizeConst = {count}{element})", c, f"[{count}]", False, count * size)

    def offsets(self, fields, flat):
        """Where fields are flat, any places; else places at which references are aligned and apart in the managed form too."""
        if flat:
            step = self.draw.choice((1, 1, 2, 4, 8))
            return [step * self.draw.randrange(24 // step) for _ in fields]
        found, end = [], 0
        for field in fields:
            found.append(end + 8 * self.draw.randrange(3))
            end = found[-1] + (field.managed + 7) // 8 * 8
        return found


def in_sharp(structs):
    """A program that prints each struct's size and offsets as Marshal has them; each struct is an import's parameter too."""
    parts = [SHARP]
    for it in structs:
        layout = "Explicit" if it.offsets else "Sequential"
        charset = "Unicode" if it.unicode else "Ansi"
        parts.append(f"[StructLayout(LayoutKind.{layout}, Pack = {it.packing}, Size = {it.least}, CharSet = CharSet.{charset})] unsafe struct {it.name} {{")
        for n, field in enumerate(it.fields):
            attributes = [f"FieldOffset({at})" for at in it.offsets[n : n + 1]] + [field.attribute] * bool(field.attribute)
            parts.append(f"    {'[' + ', '.join(attributes) + '] ' if attributes else ''}public {field.sharp} f{n};")
        parts.append("}")
    parts += ["static class Program {"]
    parts += [f'    [DllImport("layout")] static extern void take_{it.name}(ref {it.name} a);' for it in structs]
    parts += ["    static void Main() {", *(f"        Of(typeof({it.name}), {len(it.fields)});" for it in structs), "    }", SHOW, "}"]
    return "\n".join(parts) + "\n"


SHARP = """using System;
using System.Runtime.InteropServices;
enum Colour : byte { Red }
enum Wide : long { None }
delegate void Callback(int x);"""
SHOW = """    static void Of(Type type, int fields) {
        try {
            string line = type.Name + " " + Marshal.SizeOf(type);
            for (int n = 0; n < fields; n++) line += " " + Marshal.OffsetOf(type, "f" + n);
            Console.WriteLine(line);
        } catch (Exception e) {
            Console.WriteLine(type.Name + " refused " + e.GetType().Name);
        }
    }"""


def in_c(structs):
    """A C file whose numbers are each struct's size and offsets. A struct that is explicit is a union of its fields, each of
    them also behind as many bytes as its offset says; a size that is written is one more such member."""
    parts, numbers = [], []
    for it in structs:
        parts.append(f"#pragma pack(push, {min(it.packing or 8, 8)})")
        members = [f"{field.c} f{n}{field.behind};" for n, field in enumerate(it.fields)]
        if it.offsets:
            direct = [member.replace(f" f{n}", f" d{n}", 1) for n, member in enumerate(members)]
            behind = [f"struct __attribute__((packed)) {{ char p{n}[{at}]; {member} }};" if at else f"struct {{ {member} }};" for n, (at, member) in enumerate(zip(it.offsets, members))]
            body = f"union {{ {' '.join(direct)} {' '.join(behind)} }};"
        else:
            body = f"struct {{ {' '.join(members)} }};"
        least = f"char least[{it.least}];" if it.least else ""
        parts += [f"typedef union {{ {body} {least} }} {it.name};", "#pragma pack(pop)"]
        numbers += [f"sizeof({it.name})", *(f"__builtin_offsetof({it.name}, f{n})" for n in range(len(it.fields)))]
    return "\n".join([*parts, "const unsigned long numbers[] = {", ",\n".join(numbers), "};"]) + "\n"
