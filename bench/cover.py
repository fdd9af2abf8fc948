"""Times `netlabel_cover` on flows of up to 16 nodes with up to 256 static entries each, by their readings and labels, and measures its memory.

    python3 bench/cover.py [--runs N] [--only WORD] [--keep FOLDER] [--program PROGRAM]

In each script every node but the first takes what has no label, with so many entries that all count for the flow's interface; each node has a reading line that names so many categories, or none in the rows without readings, and a range for the interface where packets go out. Every link is covered, so that each entry is compared with the range's high end,
category by category. "The longest readings" are those that a script of 1,048,576 octets has room for beside its entries.

A time is the least of several runs, the report thrown away and the process's start included: processor time, and beside it the time that passed. Memory is the most
that the process held.
"""
import argparse
import os
import pathlib
import subprocess
import tempfile
from typing import NamedTuple

import scratch
from beside import run
from check import memory
from coverage import COVER

MOST_OCTETS = 1_048_576
NODES = 16
ENTRIES = 256
# What a named category means is no category: 65,535 and above.
UNNAMED = 65_535


class Row(NamedTuple):
    name: str
    nodes: int = NODES
    entries: int = ENTRIES
    highest: int = 5  # the categories of each high label are 0 to this one
    names: int = 0  # how many categories a reading line names; -1: as many as there is room for

    def label(self):
        return f"s2:c0.c{self.highest}"


ROWS = [
    *(Row(f"{entries} entries, the longest readings", entries=entries, highest=999, names=-1) for entries in (32, 64, 128, 256)),
    *(Row(f"{nodes} nodes, 256 entries, readings of 1,000 categories", nodes=nodes, highest=999, names=1_000) for nodes in (2, 4, 8, 16)),
    Row("no readings, labels of 6 categories"),
    Row("the longest readings, labels of 6 categories", names=-1),
    Row("no readings, labels of 1,000 categories", highest=999),
    Row("2 nodes, 16 entries, no readings, labels of 65,535 categories", nodes=2, entries=16, highest=65_534),
    Row("2 nodes, 16 entries, the longest readings, labels of 65,535 categories", nodes=2, entries=16, highest=65_534, names=-1),
]


def tables(row, number):
    """The lines of a node but its reading."""
    lines = [f"range add interface:eth1 range:s0-{row.label()}"]
    if number:
        lines.append("unlbl accept on")
        lines += [f"unlbl add interface:eth0 address:10.{at}.0.0/16 label:{row.label()}" for at in range(row.entries)]
    return lines


def reading(names):
    return [f"reading categories:{','.join(f'{at}={UNNAMED + at}' for at in range(names))}"] if names else []


def text(row, names):
    lines = []
    for number in range(row.nodes):
        lines += [f"node n{number}", *reading(names), *tables(row, number)]
    hops = ["send:n0,app_t,eth1,s0", *(f"forward:n{at},eth0,eth1,any" for at in range(1, row.nodes - 1)), f"receive:n{row.nodes - 1},eth0"]
    return "\n".join([*lines, f"flow in.pcap - {' '.join(hops)}"]) + "\n"


def script(row):
    """The script of a row, with the number of categories that each reading line names."""
    if row.names >= 0:
        return text(row, row.names), row.names
    room = MOST_OCTETS - len(text(row, 0))
    least, most = 0, UNNAMED
    while least < most:
        names = (least + most + 1) // 2
        if row.nodes * (len(reading(names)[0]) + 1) <= room:
            least = names
        else:
            most = names - 1
    return text(row, least), least


def measured(program, row, runs):
    made, names = script(row)
    pathlib.Path("bench.script").write_text(made)
    words = [program, "bench.script", "1"]
    told = subprocess.run(words, capture_output=True, text=True).stdout
    if told != "".join(f"hop {at} {at + 1} covered\n" for at in range(1, row.nodes)) + "covered\n":
        raise SystemExit(f"{row.name}: netlabel_cover tells {told[:500]!r}")
    processor, passed = (1000 * min(times) for times in zip(*(run(words, subprocess.DEVNULL) for _ in range(runs))))
    print(f"| {row.name} | {len(made):,} | {names:,} | {processor:,.0f} | {passed:,.0f} | {memory(words) / 1e6:,.0f} |", flush=True)


def main():
    options = argparse.ArgumentParser(description=__doc__, formatter_class=argparse.RawDescriptionHelpFormatter)
    options.add_argument("--runs", type=int, default=9)
    options.add_argument("--only", metavar="WORD", default="", help="the rows whose names have this word")
    options.add_argument("--keep", metavar="FOLDER", help="make the scripts in this folder and leave the last one there")
    options.add_argument("--program", default=COVER, type=pathlib.Path, help="another build of the program")
    asked = options.parse_args()
    program = asked.program.resolve()
    if not os.access(program, os.X_OK):
        raise SystemExit(f"{program} isn't built: ./prove proves and builds it")
    print(f"the least of {asked.runs} runs; {scratch.load()}")
    print("| Flow | Octets of the script | Categories that a reading names | Processor, ms | Passed, ms | Memory, MB |\n|---|---|---|---|---|---|")
    with tempfile.TemporaryDirectory() as made:
        folder = pathlib.Path(asked.keep or made)
        folder.mkdir(exist_ok=True)
        os.chdir(folder)
        for row in ROWS:
            if asked.only in row.name:
                measured(program, row, asked.runs)
        os.chdir(scratch.TOP)
    print(f"at the end {scratch.load()}")


if __name__ == "__main__":
    main()
