"""Builds examples/native for RISC-V in the ways that real compilers offer, and for this machine."""
import os
import shutil
import subprocess

ROOT = os.path.dirname(os.path.dirname(os.path.realpath(__file__)))
SOURCE = os.path.join(ROOT, "examples", "native", "native.c")
PROFILE = ["-march=rv64im", "-mabi=lp64", "-shared", "-fPIC", "-ffreestanding", "-nostdlib"]
LEVELS = ("-O0", "-O1", "-O2", "-Os")
HASHES = ("sysv", "gnu")


def compilers():
    """Returns the compilers for RISC-V that are there, each as a name and the words that begin its command; says which aren't."""
    found = []
    if shutil.which("riscv64-linux-gnu-gcc"):
        found.append(("gcc", ["riscv64-linux-gnu-gcc"]))
    else:
        print("skipped: riscv64-linux-gnu-gcc is missing, so nothing is built by it")
    if shutil.which("clang") and shutil.which("ld.lld"):
        found.append(("clang", ["clang", "--target=riscv64-linux-gnu", "-fuse-ld=lld"]))
    else:
        print("clang and lld are missing, so nothing is built by them")
    return found


def build_all(folder):
    """Builds the library in each way; yields a name and the path of what was built."""
    for compiler, command in compilers():
        for level in LEVELS:
            for table in HASHES:
                name = f"{compiler} {level} {table} hash"
                path = os.path.join(folder, f"lib{compiler}{level}-{table}.so")
                subprocess.run(command + PROFILE + [level, f"-Wl,--hash-style={table}", "-o", path, SOURCE], check=True)
                yield name, path


def build_here(folder):
    """Builds the same source for this machine, and returns its path."""
    path = os.path.join(folder, "here.so")
    subprocess.run(["gcc", "-shared", "-fPIC", "-O1", "-fno-builtin", "-o", path, SOURCE], check=True)
    return path
