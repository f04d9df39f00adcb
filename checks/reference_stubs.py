#!/usr/bin/env python3
"""A second reader of .NET assemblies with their types, to hold `plhost imports` and `plhost stubs` against.

It was written from the public standard (ECMA-335 partition II) and the rules of plhost's profile, and shares no code with
plhost. `reference_stubs.py imports FILE` and `reference_stubs.py stubs FILE` print what plhost must print, and end with the
same status and the same line on standard error. The parts of a file up to its tables' cells are read by
reference_imports.py; its types are checked here, in reference/.
"""
import sys

sys.dont_write_bytecode = True
import reference_imports as imports
from reference import printed
from reference.types import IMPL_MAP, MODULE_REF, Assembly


def imports_text(assembly):
    """What `plhost imports` prints of an assembly."""
    modules = [assembly.name(row[0]) for row in assembly.rows(MODULE_REF)]
    return imports.lines_of((modules[row[3] - 1] if row[3] else b"", assembly.name(row[2])) for row in assembly.rows(IMPL_MAP))


def accepted(data):
    """Returns the assembly that these bytes are. Raises Bad."""
    assembly = Assembly(data)
    assembly.check_types()
    return assembly


COMMANDS = {"imports": imports_text, "stubs": printed.stubs_text}


def answer(command, name):
    """Returns the status, standard output and standard error of `plhost COMMAND NAME`."""
    return imports.answer(name, lambda data: COMMANDS[command](accepted(data)))


def answer_bytes(command, data, shown):
    """The same for a file that holds these bytes, and whose name is shown so."""
    return imports.answer_bytes(data, shown, lambda data: COMMANDS[command](accepted(data)))


def answers(data, shown):
    """The same for each command, by one reading."""
    found = []

    def text_of(command):
        return lambda data: COMMANDS[command](found[0] if found else found.append(accepted(data)) or found[0])

    return {command: imports.answer_bytes(data, shown, text_of(command)) for command in COMMANDS}


if __name__ == "__main__":
    if len(sys.argv) != 3 or sys.argv[1] not in COMMANDS:
        sys.exit("usage: reference_stubs.py imports FILE | stubs FILE")
    status, out, err = answer(*sys.argv[1:])
    sys.stdout.write(out)
    sys.stderr.write(err)
    sys.exit(status)
