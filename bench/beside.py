"""Runs programs beside a plain C program that does the same: compares what they leave, and measures time, memory and system calls."""
import argparse
import contextlib
import filecmp
import os
import pathlib
import re
import shutil
import subprocess
import sys
import tempfile
import time
from typing import NamedTuple

import scratch

TOP = scratch.TOP
PROGRAM = TOP / "crates/netlabel_run/out/netlabel_run"

PIPE = 4096  # octets that a pipe holds, while memory is read
SPIN = "import os\nbegun = os.getppid()\nwhile os.getppid() == begun:\n    for _ in range(1_000_000): pass"


# --- the command line of a benchmark -------------------------------------------------------------------------------------------------------------


def options(doc):
    parser = argparse.ArgumentParser(description=doc, formatter_class=argparse.RawDescriptionHelpFormatter)
    parser.add_argument("--packets", type=int, default=1_000_000, help="packets of a capture; fewer where lines are long")
    parser.add_argument("--runs", type=int, default=9, help="a time is the least of so many")
    parser.add_argument("--only", metavar="WORD", default="", help="the rows whose names have this word")
    parser.add_argument("--calls", action="store_true", help="count system calls too, by strace")
    parser.add_argument("--keep", metavar="FOLDER", help="make the files in this folder and leave them there")
    parser.add_argument("--program", default=PROGRAM, type=pathlib.Path, help="another build of the program")
    parser.add_argument("--plain", metavar="SOURCE", type=pathlib.Path, help="another C program with the same words and the same report")
    return parser


def asked(doc):
    """What the command line asks for, with a program that is there."""
    said = options(doc).parse_args()
    said.plain = said.plain and said.plain.resolve()
    if said.calls and not shutil.which("strace"):
        raise SystemExit("--calls needs strace")
    said.program = built(said.program)
    return said


def built(program):
    """The whole name of a program that is there; the proved one has to be as new as its sources."""
    if program == PROGRAM and not is_current():
        raise SystemExit(f"{program} isn't built, or a source is newer: ./prove proves and builds it, and --program names another build")
    if not os.access(program, os.X_OK):
        raise SystemExit(f"{program} is no program")
    return program.resolve()


def is_current():
    """As `./netlabel` asks, before it runs the proved program."""
    asks = 'here=$1 && . "$here/lib/program.sh" && use_program netlabel && is_current'
    return subprocess.run(["sh", "-c", asks, "sh", TOP]).returncode == 0


@contextlib.contextmanager
def working_in(keep):
    """Works in this folder, or in one that is removed at the end."""
    with tempfile.TemporaryDirectory() as made:
        folder = pathlib.Path(keep or made).resolve()
        folder.mkdir(exist_ok=True)
        before = os.getcwd()
        os.chdir(folder)
        try:
            yield folder
        finally:
            os.chdir(before)


def built_c(name, folder, source=None):
    """The plain C program of bench/, or another one, built."""
    program = folder / f"{name}-c"
    subprocess.run(["cc", "-O3", "-o", program, source or TOP / f"bench/{name}.c"], check=True)
    return program


# --- what programs leave --------------------------------------------------------------------------------------------------------------------------


class Left(NamedTuple):
    """What a program leaves: its status, its report, and the capture that it made, if it made one."""

    status: int
    report: pathlib.Path
    output: pathlib.Path | None


def left_by(name, command):
    report, output = pathlib.Path(f"{name}.txt"), pathlib.Path("out.pcap")
    output.unlink(missing_ok=True)
    with report.open("wb") as out:
        status = subprocess.run(command, stdout=out, stdin=subprocess.DEVNULL).returncode
    return Left(status, report, output.rename(f"{name}.pcap") if output.exists() else None)


def differs(one, other):
    """What two programs left that isn't the same, if so."""
    if one.status != other.status:
        return f"the status of the one is {one.status}, of the other {other.status}"
    if not filecmp.cmp(one.report, other.report, shallow=False):
        return "the reports differ"
    if (one.output is None) != (other.output is None):
        return "one alone made an output"
    if one.output and not filecmp.cmp(one.output, other.output, shallow=False):
        return "the outputs differ"
    return None


def compared(commands, first="C"):
    """Runs each program once, and answers what all of them leave, which is the same."""
    kept = left_by(first, commands[first])
    for name in commands.keys() - {first}:
        own = left_by(name, commands[name])
        why = differs(kept, own)
        if why:
            raise SystemExit(f"{first} and {name}: {why}")
        own.report.unlink()
        if own.output:
            own.output.unlink()
    if kept.status:
        raise SystemExit(f"the programs ended with status {kept.status}")
    return kept


# --- time, memory, system calls -------------------------------------------------------------------------------------------------------------------


def run(command, out):
    """The processor time and the time that passed of one run, in seconds."""
    start = time.perf_counter()
    child = subprocess.Popen(command, stdout=out, stdin=subprocess.DEVNULL)
    _pid, status, usage = os.wait4(child.pid, 0)
    passed = time.perf_counter() - start
    child.returncode = os.waitstatus_to_exitcode(status)
    if child.returncode:
        raise SystemExit(f"{command[0]} ended with status {child.returncode}")
    return usage.ru_utime + usage.ru_stime, passed


def least(commands, runs):
    """Of each program the least processor time and the least time that passed, of so many runs in turn, the reports thrown away."""
    found = {}
    for _ in range(runs):
        for name, command in commands.items():
            took = run(command, subprocess.DEVNULL)
            found[name] = tuple(map(min, took, found.get(name, took)))
    return found


def memory(command, size):
    """The most memory of a run, in octets, taken while the program can't write the end of its report, which has this size: the pipe is full."""
    with subprocess.Popen(command, stdout=subprocess.PIPE, stdin=subprocess.DEVNULL, bufsize=0, pipesize=PIPE) as child:
        unread = size - 3 * PIPE
        while unread > 0:
            unread -= len(child.stdout.read(min(unread, PIPE)))
        told = pathlib.Path(f"/proc/{child.pid}/status").read_text()
        while child.stdout.read(65536):
            pass
    return 1024 * int(re.search(r"^VmHWM:\s*(\d+) kB", told, re.M)[1])


def calls(command):
    """How many system calls a run makes, those of its threads too."""
    counted = pathlib.Path("calls")
    subprocess.run(["strace", "-f", "-c", "-o", counted, *command], stdout=subprocess.DEVNULL, stdin=subprocess.DEVNULL, check=True)
    return int(re.search(r"^100\.00 .*?(\d+)(?: +\d+)? total$", counted.read_text(), re.M)[1])


@contextlib.contextmanager
def other_work(count):
    """So many processors are busy with other work meanwhile."""
    loops = [subprocess.Popen([sys.executable, "-c", SPIN], stdin=subprocess.DEVNULL) for _ in range(count)]
    try:
        yield
    finally:
        for loop in loops:
            loop.kill()
            loop.wait()


def processors():
    return len(os.sched_getaffinity(0))


# --- a table in markdown --------------------------------------------------------------------------------------------------------------------------


def print_row(cells):
    print(f"| {' | '.join(cells)} |", flush=True)


def print_head(cells):
    print_row(cells)
    print(f"|{'---|' * len(cells)}", flush=True)
