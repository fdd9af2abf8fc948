"""Times `netlabel show` beside a plain C program that prints the same report (bench/show.c), and measures its memory.

    python3 bench/show.py [--packets N] [--runs N] [--only WORD] [--calls] [--keep FOLDER] [--program PROGRAM] [--plain SOURCE]

The program is the one that `./prove` proves and builds, or another build of it. A row is a capture of 1,000,000 packets, or of fewer where the lines of a
report are long: a mix (CIPSO options of each tag type, CALIPSO options, packets without a label, broken headers and options, frames that aren't
IP, some behind a VLAN tag), or packets whose labels have so many runs of categories each, in CIPSO's tag 1 up to 120, in CALIPSO up to 976, which is
the most that an option can have. Captures are of the libpcap format, and where a name says so the same packets in pcapng. Both reports are compared octet by octet first. A time is the least of several runs, the two programs in turn, with the
report thrown away; the process's start is in it. Memory is the most that the process held, and system calls are counted, both in runs of their own.
"""
import pathlib
from typing import Callable, NamedTuple

import beside
import frames
import scratch


class Row(NamedTuple):
    """A capture that is shown: its frames, the part of the packets that are asked for, and its format."""

    name: str
    frame: Callable
    part: int = 1
    format: str = "pcap"


ROWS = [
    Row("mixed", frames.mixed),
    Row("2 runs", frames.of_runs(2)),
    Row("120 runs", frames.of_runs(120), 5),
    Row("240 runs", frames.of_runs(240), 10),
    Row("976 runs", frames.of_runs(976), 50),
    Row("mixed, pcapng", frames.mixed, format="pcapng"),
    Row("2 runs, pcapng", frames.of_runs(2), format="pcapng"),
]


def cells_of_times(seconds, packets):
    """Nanoseconds a packet of each program, and the ratio."""
    return [*(f"{seconds[name] / packets * 1e9:,.0f}" for name in ("C", "show")), f"{seconds['show'] / seconds['C']:.2f}"]


def bench(row, asked, plain):
    capture = pathlib.Path("in.pcap")
    packets = max(asked.packets // row.part, 1)
    frames.write_capture(capture, row.frame, packets, 7, row.format)
    commands = {"C": [plain, capture], "show": [asked.program, "show", capture]}
    size = beside.compared(commands).report.stat().st_size
    took = beside.least(commands, asked.runs)
    elapsed, processor = ({name: both[which] for name, both in took.items()} for which in (1, 0))
    cells = [row.name, f"{packets:,}", *cells_of_times(elapsed, packets), *cells_of_times(processor, packets)]
    cells += [f"{beside.memory(command, size) / 1e6:.1f}" for command in commands.values()]
    if asked.calls:
        cells += [f"{beside.calls(command):,}" for command in commands.values()]
    beside.print_row(cells)


def main():
    asked = beside.asked(__doc__)
    with beside.working_in(asked.keep) as folder:
        plain = beside.built_c("show", folder, asked.plain)
        print(f"nanoseconds a packet, the least of {asked.runs} runs; memory in MB; {scratch.load()}\n")
        head = ["Capture", "Packets", "Elapsed: C", "`show`", "to C", "CPU: C", "`show`", "to C", "Memory: C", "`show`"]
        beside.print_head(head + ["System calls: C", "`show`"] * asked.calls)
        for row in ROWS:
            if asked.only in row.name:
                bench(row, asked, plain)
    print(f"\nat the end: {scratch.load()}")


if __name__ == "__main__":
    main()
