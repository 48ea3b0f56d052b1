"""Runs of a program with their times and their peak of memory, and programs made for them, for the scripts of this
folder. It wants Linux, a shell and, where a program is made, `rt`."""
import ctypes
import os
import pathlib
import shutil
import subprocess
import sys

PR_SET_CHILD_SUBREAPER = 36
TOP = pathlib.Path(__file__).resolve().parent.parent


def keep_orphans():
    """The processes whose parent ended become this program's, so that it can wait for them. To be called before any
    Run."""
    ctypes.CDLL(None).prctl(PR_SET_CHILD_SUBREAPER, 1, 0, 0, 0)


class Run:
    """One run of a command with its output in a file: its user and system time in seconds, its peak in bytes.
    A shell makes the process and ends before it begins, so that its peak doesn't begin at this program's, as that of
    a child of its own would, and nobody else waits for it."""

    def __init__(self, command, source, target):
        gate = target + ".gate"
        os.mkfifo(gate)
        start = 'gate=$1 from=$2 to=$3; shift 3; { read go <"$gate"; exec "$@"; } <"$from" >"$to" & echo $!'
        words = ["sh", "-c", start, "sh", gate, source, target, *command]
        told = subprocess.run(words, stdout=subprocess.PIPE, check=True)
        pathlib.Path(gate).write_text("go\n")
        _, status, usage = os.wait4(int(told.stdout), 0)
        os.unlink(gate)
        if status != 0:
            sys.exit(f"{command[0]} ended with {os.waitstatus_to_exitcode(status)}")
        self.user, self.system, self.peak = usage.ru_utime, usage.ru_stime, usage.ru_maxrss * 1024
        self.time = self.user + self.system


def best(command, source, target):
    """Of five runs the one with the least time."""
    return min((Run(command, source, target) for _ in range(5)), key=lambda run: run.time)


def needed(stands_on):
    """The lines of crates.txt of the repository's crates among these names and below them."""
    lines = [line.split("#")[0] for line in (TOP / "crates.txt").read_text().splitlines()]
    below = {name.strip(): words.split() for name, _, words in (line.partition(":") for line in lines) if name.strip()}
    found = {}
    names = stands_on.split()
    while names:
        name = names.pop()
        if name in below and name not in found:
            found[name] = f"{name}: {' '.join(below[name])}\n"
            names += below[name]
    return found


def built(folder, name, stands_on, main, proofs=None):
    """A program of this text over these crates, built in the folder, with these files of its proofs."""
    crates = folder / "crates"
    (crates / name / "src").mkdir(parents=True)
    lines = needed(stands_on)
    for below in lines:
        shutil.copytree(TOP / "crates" / below, crates / below)
    (folder / "HANDLES").write_bytes((TOP / "HANDLES").read_bytes())
    (folder / "crates.txt").write_text("".join(lines.values()) + f"{name}: {stands_on}\n")
    (crates / name / "src/main.rt").write_text(main)
    for of, text in (proofs or {}).items():
        path = crates / name / "proofs" / f"{of}.antt"
        path.parent.mkdir(parents=True, exist_ok=True)
        path.write_text(text)
    made = subprocess.run(
        ["rt", "run"],
        cwd=crates / name,
        stdin=subprocess.DEVNULL,
        stdout=subprocess.PIPE,
        stderr=subprocess.STDOUT,
        text=True,
    )
    program = crates / name / "out" / name
    if not program.exists():
        sys.exit(f"{name}: it was not built:\n{made.stdout[-4000:]}")
    return str(program)
