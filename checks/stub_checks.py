"""What the checks of stubs share: the plhost that they run, and how its answers are held to those of reference_stubs.py.

The variable PLHOST may name any program that has the lines `imports FILE` and `stubs FILE`, reference_stubs.py itself too: then
a check shows what it would say of a plhost that answers as the second reader does.
"""
import os
import subprocess
import sys

import reference_stubs as reference

HERE = os.path.dirname(os.path.realpath(__file__))
ROOT = os.path.dirname(HERE)
SHOWN = 20


def program():
    """The path of plhost."""
    return subprocess.run([f"{HERE}/program"], stdout=subprocess.PIPE, text=True, check=True).stdout.strip()


def ask(plhost, command, path):
    """Returns the status, standard output and standard error of plhost."""
    ran = subprocess.run([plhost, command, path], capture_output=True)
    return ran.returncode, ran.stdout.decode(errors="replace"), ran.stderr.decode(errors="replace")


def lacks_stubs(plhost):
    """Whether plhost does not have the line `stubs` yet."""
    return ask(plhost, "stubs", f"{ROOT}/crates/plhost/data/app.dll")[0] == 201


def commands(plhost):
    """The commands that plhost is asked: `imports`, and `stubs` where it has that line."""
    if lacks_stubs(plhost):
        print("this plhost doesn't have the line `stubs`: asks `imports` alone")
        return ("imports",)
    return ("imports", "stubs")


def first_difference(got, wanted):
    """Says where two texts differ first."""
    lines = zip(got.split("\n"), wanted.split("\n"))
    return next((f"line {n}: plhost {a!r}, wanted {b!r}" for n, (a, b) in enumerate(lines, 1) if a != b), "one is longer")


def difference(got, wanted):
    """Returns '' where two answers are alike, else what differs."""
    if got == wanted:
        return ""
    if (got[0], got[2]) != (wanted[0], wanted[2]):
        return f"plhost {got[0]} {got[2].strip()!r}, wanted {wanted[0]} {wanted[2].strip()!r}"
    return first_difference(got[1], wanted[1])


def compare(plhost, commands, path, wanted):
    """Returns what differs between plhost's answers for a file and those that are wanted, '' where nothing does."""
    for command in commands:
        said = difference(ask(plhost, command, path), wanted[command])
        if said:
            return f"{command}: {said}"
    return ""


def answers(path, data):
    """Returns what plhost must answer to each command for the file at a path, which holds these bytes."""
    return reference.answers(data, reference.imports.escape(os.fsencode(path)))


def report(wrong, counted):
    """Prints the first wrong answers and the last line, and ends the check."""
    for it in wrong[:SHOWN]:
        print(it)
    if len(wrong) > SHOWN:
        print(f".. and {len(wrong) - SHOWN} more")
    print(f"{counted}, {len(wrong)} wrong")
    sys.exit(1 if wrong else 0)
