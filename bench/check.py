"""Times `netlabel check` on a script of 16,384 lines and measures its memory.

    python3 bench/check.py [--runs N] [--keep FOLDER] [--program PROGRAM]

The script has 32 nodes and commands of twelve kinds in a random order, so tables grow, are listed, and are full. A time is the median of several runs,
the report thrown away and the process's start included: processor time, and beside it the time that passed. Memory is the most that the process held.
"""
import argparse
import os
import pathlib
import random
import statistics
import subprocess
import tempfile

import scratch
from beside import PROGRAM, built, run

LINES = 16_384
NODES = 32


def pairs(chance, count, most):
    return ",".join(f"{a}={b}" for a, b in zip(chance.sample(range(most), count), chance.sample(range(most), count)))


def address(chance):
    return f"10.{chance.randrange(4)}.{chance.randrange(256)}.{chance.randrange(256)}"


def label(chance):
    return f"s{chance.randrange(8)}:c{chance.randrange(100)}.c{chance.randrange(101, 1000)}"


def command(chance):
    doi = chance.randrange(1, 100)
    kinds = [
        lambda: f"cipsov4 add pass doi:{doi} tags:1,2,5",
        lambda: f"cipsov4 add trans doi:{doi} tags:2,5 levels:{pairs(chance, 8, 256)} categories:{pairs(chance, 20, 65535)}",
        lambda: f"calipso add pass doi:{doi}",
        lambda: f"cipsov4 del doi:{doi}",
        lambda: f"map add domain:d{chance.randrange(400)} address:{address(chance)}/{chance.randrange(8, 33)} protocol:cipsov4,{doi}",
        lambda: f"map add domain:d{chance.randrange(400)} protocol:calipso,{doi}",
        lambda: f"map del domain:d{chance.randrange(400)}",
        lambda: f"unlbl add interface:eth{chance.randrange(9)} address:{address(chance)} label:{label(chance)}",
        lambda: f"receiver add address:{address(chance)} domain:d{chance.randrange(9)} level:{label(chance)}",
        lambda: f"range add interface:eth{chance.randrange(99)} range:s0-s9:c0.c1023",
        lambda: f"pair add address4:{address(chance)} address6:fd00::{chance.randrange(65536):x}",
        lambda: chance.choice(("map list", "unlbl list", "cipsov4 list", "mgmt protocols")),
    ]
    return chance.choices(kinds, weights=[6, 3, 4, 2, 12, 6, 2, 12, 12, 4, 8, 1])[0]()


def script():
    chance = random.Random(7)
    lines = [f"node n{number}" for number in range(NODES)]
    while len(lines) < LINES:
        lines.append(f"node n{chance.randrange(NODES)}" if chance.randrange(8) == 0 else command(chance))
    return "\n".join(lines) + "\n"


def memory(words):
    """The most memory of one run, in octets."""
    child = subprocess.Popen(words, stdout=subprocess.DEVNULL)
    _pid, _status, usage = os.wait4(child.pid, 0)
    child.returncode = 0
    return 1024 * usage.ru_maxrss


def main():
    options = argparse.ArgumentParser(description=__doc__, formatter_class=argparse.RawDescriptionHelpFormatter)
    options.add_argument("--runs", type=int, default=9)
    options.add_argument("--keep", metavar="FOLDER", help="make the script in this folder and leave it there")
    options.add_argument("--program", default=PROGRAM, type=pathlib.Path, help="another build of the program")
    asked = options.parse_args()
    program = built(asked.program)
    with tempfile.TemporaryDirectory() as made:
        folder = pathlib.Path(asked.keep or made)
        folder.mkdir(exist_ok=True)
        text = script()
        (folder / "bench.script").write_text(text)
        os.chdir(folder)
        words = [program, "check", "bench.script"]
        report = subprocess.run(words, capture_output=True, check=True).stdout
        end = report.decode().splitlines()[-1]
        print(f"{len(text):,} octets, {text.count(chr(10)):,} lines; the report has {len(report):,} octets and ends with: {end}; {scratch.load()}")
        took = [run(words, subprocess.DEVNULL) for _ in range(asked.runs)]
        processor, passed = (statistics.median(times) * 1000 for times in zip(*took))
        print(f"the median of {asked.runs} runs: {processor:.0f} ms of processor time, {passed:.0f} ms passed; {memory(words) / 1e6:.1f} MB at most")


if __name__ == "__main__":
    main()
