"""Times `netlabel_report` over a report of 1,000,000 packets, and measures its memory.

    python3 bench/report.py [--packets N] [--runs N] [--program PROGRAM]

The program is the one that `./prove` proves and builds, or another build of it. The report has a command, one flow, and packets of which half were delivered, a quarter was sent, and a quarter
denied for four reasons at two nodes. A time is the least of several runs, with what is printed thrown away; the process's start is in it. Memory is the most that the process held. `python3`
is a plain reader of the same report, which counts words of lines and tests none of them.
"""
import argparse
import os
import pathlib
import re
import subprocess
import sys
import tempfile
import time

import scratch

PROGRAM = scratch.TOP / "crates/netlabel_report/out/netlabel_report"
LINES = [
    "delivered s2:c1,c3 to 10.9.0.2 versions 7,7",
    "delivered s0 to 10.9.0.3 versions 7,7",
    "sent cipsov4,16 versions 7,7",
    "denied 3 Unlabelled hop 1 node gate versions 7",
    "delivered s1:c0.c5 to 2001:db8::1 versions 7,7",
    "delivered s2:c1,c3,c5,c7.c9 to 10.9.0.2 versions 7,7",
    "sent unlbl versions 7,7",
]
DENIED = [
    "denied 5 UnknownDoi octet 22 hop 1 node gate versions 7",
    "denied 8 CategoryUnmapped category 240 hop 1 node gate versions 7",
    "denied 12 NotDominated hop 2 node store versions 7,7",
]
PLAIN = """import collections, sys
counts = collections.Counter()
for line in open(sys.argv[1]):
    words = line.split()
    if words[0] == "packet":
        counts[words[2], *(words[3:5] if words[2] == "denied" else ())] += 1
print(counts)
"""


def write_report(path, packets):
    with open(path, "w") as report:
        report.write("command 1 gate done\nflow 1 in.pcap\n")
        for number in range(1, packets + 1):
            place = number % 8
            line = LINES[place] if place < 7 else DENIED[number // 8 % 3]
            report.write(f"packet 1.{number} {line}\n")
        denied = sum(1 for number in range(1, packets + 1) if number % 8 in (3, 7))
        report.write(f"end 1 packets {packets} passed {packets - denied} denied {denied}\ndone\n")


def once(command, stdin):
    """Seconds on the clock and of the processor, of one run."""
    with open(stdin, "rb") as source, open(os.devnull, "wb") as nothing:
        begun = time.perf_counter()
        process = subprocess.Popen(command, stdin=source, stdout=nothing)
        _, status, used = os.wait4(process.pid, 0)
        took = time.perf_counter() - begun
    process.returncode = os.waitstatus_to_exitcode(status)
    if process.returncode:
        raise SystemExit(f"{command} ended with {process.returncode}")
    return took, used.ru_utime + used.ru_stime


def memory(command, stdin):
    """The most octets that a run held. What the system tells at its end would count this process too, as which it began: so it is asked again and again."""
    most = 0
    with open(stdin, "rb") as source, open(os.devnull, "wb") as nothing:
        with subprocess.Popen(command, stdin=source, stdout=nothing) as process:
            while process.poll() is None:
                try:
                    status = pathlib.Path(f"/proc/{process.pid}/status").read_text()
                    own = os.readlink(f"/proc/{process.pid}/exe") == os.path.realpath(command[0])
                except OSError:
                    continue
                found = re.search(r"^VmHWM:\s+(\d+) kB", status, re.M)
                most = max(most, int(found[1]) * 1024 if found and own else 0)
                time.sleep(0.001)
    return most


def main():
    parser = argparse.ArgumentParser(description=__doc__, formatter_class=argparse.RawDescriptionHelpFormatter)
    parser.add_argument("--packets", type=int, default=1_000_000)
    parser.add_argument("--runs", type=int, default=5)
    parser.add_argument("--program", type=pathlib.Path, default=PROGRAM)
    asked = parser.parse_args()
    if not os.access(asked.program, os.X_OK):
        raise SystemExit(f"{asked.program} isn't built: ./prove netlabel_report proves and builds it, and --program names another build")
    program = asked.program.resolve()
    with tempfile.TemporaryDirectory() as made:
        report, plain = pathlib.Path(made) / "report", pathlib.Path(made) / "plain.py"
        write_report(report, asked.packets)
        plain.write_text(PLAIN)
        print(f"{asked.packets:,} packets, {report.stat().st_size / 1e6:.0f} MB; the least of {asked.runs} runs; {scratch.load()}\n")
        print("| Call | Seconds | of the processor | Memory, MB |\n|---|---|---|---|")
        rows = {way: [program, way, report] for way in ("summary", "denied", "json", "csv")}
        rows["summary, by standard input"] = [program, "summary"]
        rows["`python3`"] = [sys.executable, plain, report]
        for name, command in rows.items():
            runs = [once(command, report) for _ in range(asked.runs)]
            print(f"| {name} | {min(took for took, _ in runs):.2f} | {min(cpu for _, cpu in runs):.2f} | {memory(command, report) / 1e6:.1f} |")
    print(f"\nat the end: {scratch.load()}")


if __name__ == "__main__":
    main()
