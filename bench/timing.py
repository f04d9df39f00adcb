"""What the benches of assemblies share: made files, and the processor time and memory of a run."""
import os
import subprocess
import sys

HERE = os.path.dirname(os.path.realpath(__file__))
ROOT = os.path.dirname(HERE)
FILES = f"{ROOT}/build/bench"
MIB = 1 << 20


def generated(maker, name, *words):
    """Writes a file once, by a script of this folder. Another process does, since this one's memory is counted as the least of
    each that it starts."""
    path, maker = f"{FILES}/{name}.dll", f"{HERE}/{maker}"
    if not os.path.exists(path) or os.path.getmtime(path) < os.path.getmtime(maker):
        os.makedirs(FILES, exist_ok=True)
        subprocess.run([sys.executable, maker, *words, path], check=True)
    return path


def run(words):
    """Runs a program that prints to nowhere, and returns its processor time in seconds and its greatest memory in bytes."""
    nowhere = os.open(os.devnull, os.O_WRONLY)
    pid = os.posix_spawn(words[0], words, os.environ, file_actions=[(os.POSIX_SPAWN_DUP2, nowhere, 1)])
    os.close(nowhere)
    _, status, used = os.wait4(pid, 0)
    if status:
        sys.exit(f"FAILED: {' '.join(words)}: status {os.waitstatus_to_exitcode(status)}")
    return used.ru_utime + used.ru_stime, used.ru_maxrss * 1024


def marked(ratio, target):
    return f"{ratio:6.2f} [{target}]{' OVER' if ratio > target else ''}"


def plhost():
    """The path of plhost; ends the bench where it is missing."""
    path = os.environ.get("PLHOST") or f"{ROOT}/build/plhost"
    if not os.access(path, os.X_OK):
        print(f"skipped: {path} is missing: make build, or set PLHOST")
        sys.exit()
    return path
