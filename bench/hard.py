"""Loads that programs gave way under: long listings beside a flow, many flows beside many commands, full tables, large frames, many places of denials, small stacks. Each
has its bound.

    python3 bench/hard.py [--short]

The programs are those that `./prove` proves and builds: unproved ones take several times as long, and their memory says nothing. `--short` takes a small part of
each load, some seconds in all. What fails otherwise than by load is tried by `.ci/failures_test.py`, and what is installed by `.ci/install_test.py`; that a pipe
without a writer waits, and which file systems can't tell files apart, is said in the guide and tried by none. Prints a row for each load, then `N passed, M failed`.
"""
import argparse
import os
import pathlib
import re
import resource
import shutil
import struct
import subprocess
import sys
import tempfile
import time
from typing import NamedTuple

import scratch

sys.dont_write_bytecode = True
sys.path.insert(0, str(scratch.TOP / ".ci"))
import calls

MEGA = 1_000_000
SECONDS = 600


class Used(NamedTuple):
    """What a call took: its status, seconds, and the most octets that it held."""

    status: int
    seconds: float
    memory: int


def used(command, folder, **how):
    """Runs a program in a folder, with its report thrown away. Its memory is asked for again and again: what the system says at its end counts the process that it began as."""
    most = 0
    with open(os.devnull) as nothing, open(os.devnull, "wb") as printed:
        begun = time.perf_counter()
        with subprocess.Popen(command, cwd=folder, stdin=nothing, stdout=printed, stderr=subprocess.DEVNULL, **how) as process:
            while process.poll() is None:
                if time.perf_counter() - begun > SECONDS:
                    process.kill()
                try:
                    status = pathlib.Path(f"/proc/{process.pid}/status").read_text()
                    own = os.readlink(f"/proc/{process.pid}/exe") == os.path.realpath(command[0])
                except OSError:
                    continue
                found = re.search(r"^VmHWM:\s+(\d+) kB", status, re.M)
                most = max(most, int(found[1]) * 1024 if found and own else 0)
                time.sleep(0.002)
    return Used(process.returncode, time.perf_counter() - begun, most)


# --- files ------------------------------------------------------------------------------------------------------------------------------------


def capture(packets):
    """A capture of raw IP with these packets."""
    records = [struct.pack("<IIII", 1, 0, len(packet), len(packet)) + packet for packet in packets]
    return struct.pack("<IHHiIII", 0xA1B2C3D4, 2, 4, 0, 0, 262144, 101) + b"".join(records)


def lines(*parts):
    return "\n".join([line for part in parts for line in part] + [""])


def listing_script(lists, above):
    """Definitions of 1,952 pairs, and so many listings of them above a flow or below it."""
    pairs = ",".join(f"{number}={number}" for number in range(1952))
    definitions = [f"cipsov4 add trans doi:{doi} tags:2 levels:0=0 categories:{pairs}" for doi in range(1, 51)]
    flow, listings = ["flow one.pcap - receive:a,e"], ["cipsov4 list"] * lists
    return lines(["node a"], definitions, *((listings, flow) if above else (flow, listings)))


def flows_script(commands, flows):
    """Commands, of which all but the first are refused, and flows of one packet."""
    return lines(["node g"], ["receiver add address:10.0.0.2 domain:t level:s0"] * commands, ["flow one.pcap - receive:g,e"] * flows)


def full_script(nodes, entries):
    """Nodes with so many receivers and as many static entries each, and a flow at one of them."""
    made = []
    for node in range(nodes):
        made.append(f"node n{node}")
        made += [f"receiver add address:10.{node}.0.{host} domain:t level:s0:c0.c1023" for host in range(entries)]
        made += [f"unlbl add interface:e{host} address:10.0.0.0/8 label:s0:c{host}" for host in range(entries)]
    return lines(made, ["flow one.pcap - receive:n0,e"])


def denials(count, places):
    """A report with so many lines of denials at so many places."""
    text = "".join(f"packet 1.{number} denied 12 NotDominated hop 1 node n{number % places} versions 7\n" for number in range(1, count + 1))
    return f"flow 1 in.pcap\n{text}end 1 packets {count} passed 0 denied {count}\ndone\n"


# --- loads ------------------------------------------------------------------------------------------------------------------------------------


class Row(NamedTuple):
    """A load: what was measured, as text, and whether it is within its bound."""

    name: str
    measured: str
    bound: str
    within: bool


class House:
    """A folder with a capture of one packet, and the programs."""

    def __init__(self, folder, short):
        self.folder, self.short = folder, short
        (folder / "one.pcap").write_bytes(capture([bytes(20)]))

    def used(self, program, *words, status=0, **how):
        found = used([calls.proved(program), *words], self.folder, **how)
        if found.status != status:
            raise SystemExit(f"{program} {' '.join(words)} ended with {found.status} after {found.seconds:.1f} s")
        return found

    def put(self, name, text):
        (self.folder / name).write_bytes(text if isinstance(text, bytes) else text.encode())


def of_memory(name, found, most):
    """The row of a call that may hold so many megabytes."""
    return Row(name, f"{found.seconds:.1f} s, {found.memory / MEGA:.0f} MB", f"{most:.0f} MB", found.memory <= most * MEGA)


def listings(house):
    """A flow holds no listing that is to be printed after it."""
    count = 100 if house.short else 1000
    for above in (True, False):
        house.put("lists", listing_script(count, above))
        found = house.used("netlabel", "run", "lists", "-w", "1")
        yield of_memory(f"{count} listings {'above' if above else 'beside'} a flow", found, 16)


def flows(house):
    """Time goes with flows and commands, and not with their product."""
    commands, many = (4000, 64) if house.short else (16000, 256)
    took = {}
    for number in (1, many):
        house.put("flows", flows_script(commands, number))
        took[number] = house.used("netlabel", "run", "flows", "-w", "1").seconds
    return [Row(f"{commands} commands above 1 and {many} flows", f"{took[1]:.1f} and {took[many]:.1f} s", "twice, and 2 s", took[many] <= 2 * took[1] + 2)]


def tables(house):
    """What a label takes where it is kept."""
    nodes, entries = (4, 64) if house.short else (32, 256)
    house.put("full", full_script(nodes, entries))
    for way, most in (("check", MOST_CHECK), ("run", MOST_RUN)):
        found = house.used("netlabel", way, "full")
        yield of_memory(f"{way}, {nodes} nodes with {2 * entries} labels each", found, most)


def frames(house):
    """A round takes no more for large frames than for many."""
    house.put("large.pcap", capture([bytes([0x45]) + bytes(262143)] * (50 if house.short else 500)))
    house.put("frames", lines(["node g", "flow large.pcap - receive:g,e"]))
    for workers in (1, 4):
        found = house.used("netlabel", "run", "frames", "-w", str(workers))
        yield of_memory(f"frames of 262,144 octets, -w {workers}", found, 64)


def places(house):
    """A denial's place is found by its hash."""
    count = 40_000 if house.short else 400_000
    took = {}
    for number in (5, 4000, 5000):
        house.put("report", denials(count, number))
        took[number] = min(house.used("netlabel_report", "summary", "report").seconds for _ in range(3))
    return [Row(f"{count:,} denials at 5 and {number} places", f"{took[5]:.2f} and {took[number]:.2f} s", "twice", took[number] <= 2 * took[5] + 0.05) for number in (4000, 5000)]


def blocks(house):
    """What isn't flat: four octets for each interface of a pcapng capture."""
    block = struct.pack("<IIHHII", 1, 20, 101, 0, 0, 20)
    count = 40_000 if house.short else 4_000_000
    house.put("many.pcapng", struct.pack("<IIIHHqI", 0x0A0D0D0A, 28, 0x1A2B3C4D, 1, 0, -1, 28) + block * count)
    found = house.used("netlabel", "show", "many.pcapng")
    return [of_memory(f"a pcapng capture of {count:,} interfaces", found, 4 + 8 * count / MEGA)]


def within_stack(octets):
    """What a process does first that may have a stack of so many octets."""
    return lambda: resource.setrlimit(resource.RLIMIT_STACK, (octets, octets))


def stacks(house):
    """What the programs need of a stack."""
    house.put("small", lines(["node g", "receiver add address:10.0.0.2 domain:t level:s0-s1:c0.c5", "flow one.pcap out.pcap receive:g,e"]))
    house.put("printed", "done\n")
    rows = [("netlabel", "check", "small"), ("netlabel", "run", "small", "-w", "1"), ("netlabel_report", "summary", "printed")]
    for program, *words in rows:
        found = house.used(program, *words, preexec_fn=within_stack(STACK))
        yield Row(f"{program} {words[0]}, a stack of {STACK // 1024} kB", f"{found.seconds:.1f} s", "", True)


def largest_frame(program):
    """The largest frame of a program's functions, and whose it is. Larger ones are taken page by page, with their size in front."""
    code = subprocess.run(["objdump", "-d", calls.proved(program)], capture_output=True, text=True, check=True).stdout
    name, sizes = "", {}
    for line in code.splitlines():
        if found := re.match(r"[0-9a-f]+ <(.*)>:", line):
            name = found[1]
        elif found := re.search(r"lea +-0x([0-9a-f]+)\(%rsp\),%r11|sub +\$0x([0-9a-f]+),%rsp", line):
            taken = int(found[1] or found[2], 16)
            sizes[name] = sizes.get(name, 0) + (taken if taken != PAGE else 0)
    return max((size, name) for name, size in sizes.items())


def machine_code(house):
    """No function takes a frame that is a large part of a small stack."""
    for program in PROGRAMS if shutil.which("objdump") else []:
        size, name = largest_frame(program)
        yield Row(f"the largest frame of {program}, `{name.split('<#')[0].rstrip(':')}`", f"{size:,} octets", "32,768 octets", size <= 32768)


# What full tables may take.
MOST_CHECK, MOST_RUN = 80, 200
# The stack that is tried.
STACK = 256 * 1024
PAGE = 4096
PROGRAMS = ["netlabel", "netlabel_cover", "netlabel_audit", "netlabel_report", "ripso_border"]
LOADS = [listings, flows, tables, frames, places, blocks, stacks, machine_code]


def main():
    form = argparse.ArgumentParser(description=__doc__, formatter_class=argparse.RawDescriptionHelpFormatter)
    form.add_argument("--short", action="store_true")
    asked = form.parse_args()
    passed = []
    with tempfile.TemporaryDirectory() as name:
        house = House(pathlib.Path(name), asked.short)
        print(f"{scratch.load()}\n\n| Load | Measured | At most | |\n|---|---|---|---|")
        for load in LOADS:
            for row in load(house):
                passed.append(row.within)
                print(f"| {row.name} | {row.measured} | {row.bound} | {'' if row.within else 'failed'} |", flush=True)
    print(f"\n{passed.count(True)} passed, {passed.count(False)} failed")
    return 0 if all(passed) else 1


if __name__ == "__main__":
    sys.exit(main())
