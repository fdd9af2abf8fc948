"""Times how the longest scripts are read: 1,048,576 octets in 16,384 lines, of several kinds; and measures memory.

    python3 bench/script.py [--rounds N] [--runs N] [--keep FOLDER]

Times are of the processor, the least of several runs: of a process that reads the script once, its start included, and in it the part
of the kernel; and of a further call in a process that has memory from earlier ones, the script let go again included. "Passed" is what passed
while the script was read once. Memory is the most that the first process held; a number as small as Python's own, about 20 MB, may be Python's.
"""
import argparse
import os
import pathlib
import random
import subprocess
import tempfile

import scratch

READ = """//! Reads a script again and again, and prints the nanoseconds that it took and how many steps and flows there were.
#![tactic(auto)]

ghost use Rattle.std.specs.Prelude.{◌<◌};

use label_commands::read_script;
use std::alloc::Global;
use std::time::Instant;
use std::{env, fs, io};

fn main(rt: HostRuntime) -> io::Result<()> {
    let mut words = env::args(&rt)?.skip(1);
    let (Some(file), Some(rounds)) = (words.next(), words.next()) else {
        return Ok(());
    };
    let Ok(rounds) = rounds.parse::<u64>() else {
        return Ok(());
    };
    let text = fs::read(&rt, file.as_str())?;
    let start = Instant::now(&rt)?;
    let said = read_all(rt.alloc(), &text, rounds);
    let took = start.elapsed(&rt)?.as_nanos();
    println!(rt; "{took} {said}")
}

fn read_all(alloc: Global, text: &[u8], rounds: u64) -> u64 {
    let mut said: u64 = 0;
    for _ in 0..rounds {
        if let Ok(script) = read_script(alloc, text, "bench.nl") {
            said = said.wrapping_add(script.steps.as_slice().len() as u64);
            said = said.wrapping_add(script.flows.as_slice().len() as u64);
        }
    }
    said
}
"""

LINES = 16384
WIDTH = 63  # octets of a line without its end: 16,384 lines of 64 octets are the most octets and the most lines


def address4(n):
    return f"10.{n // 65536}.{n // 256 % 256}.{n % 256}"


def address6(n):
    return f"fd00::{n // 65536 + 1:x}:{n % 65536:x}"


def entry(n):
    return f"map add domain:d{n % 256} address:{address4(n)}/32 protocol:cipsov4,16"


def receiver(n):
    return f"receiver add address:{address4(n)} domain:sink_t level:s3:c0.c{n % 900 + 1}"


def definition(n):
    return f"cipsov4 add trans doi:{n + 1} tags:1 levels:0=5 categories:0=1"


def static(n):
    return f"unlbl add interface:eth{n % 8} address:{address4(n)} label:s0-s2:c1"


def pair(n):
    return f"pair add address4:{address4(n)} address6:{address6(n)}"


def site(n):
    """Commands of each kind in turn, most of them without a label."""
    return (entry, definition, entry, pair, entry, receiver, pair, static)[n % 8](n)


def comment(n):
    return "#" * WIDTH


def script(of):
    """A line that names a node, then lines of this kind; each is filled up by blanks."""
    lines = [of(n)[:WIDTH].ljust(WIDTH) for n in range(LINES - 1)]
    return "\n".join(["node fw".ljust(WIDTH), *lines, ""]).encode()


def routes():
    """32 nodes, 256 flows of 16 hops of the longest names that fit, and comments for the rest."""
    nodes = [f"n{n:03}".ljust(63, "x") for n in range(32)]
    lines = [f"node {node}" for node in nodes]
    for n in range(256):
        hops = [f"forward:{node},{'e' * 63},{'f' * 63},{'d' * 63}" for node in nodes[:13]]
        lines.append(f"flow in{n}.pcap out{n}.pcap {' '.join(hops)}")
    left = 1_048_576 - sum(len(line) + 1 for line in lines)
    rest = LINES - len(lines)
    width = left // rest
    lines += ["#" * (width - 1)] * rest
    return "\n".join([*lines, ""]).encode()


KINDS = {
    "comments alone": lambda: script(comment),
    "entries of a map": lambda: script(entry),
    "translated definitions": lambda: script(definition),
    "pairs of addresses": lambda: script(pair),
    "commands of a site": lambda: script(site),
    "receivers, each with two labels": lambda: script(receiver),
    "256 flows over 32 nodes": routes,
}


def run(program, *words):
    """The processor time of a run in seconds, that of the kernel in it, what the run prints, and its most memory in octets."""
    child = subprocess.Popen([program, *map(str, words)], stdout=subprocess.PIPE, text=True)
    took, said = child.stdout.read().split()
    _pid, status, usage = os.wait4(child.pid, 0)
    child.returncode = os.waitstatus_to_exitcode(status)
    if child.returncode:
        raise SystemExit(f"the program ended with status {child.returncode}")
    return usage.ru_utime + usage.ru_stime, usage.ru_stime, int(took), int(said), usage.ru_maxrss * 1024


def main():
    options = argparse.ArgumentParser(description=__doc__, formatter_class=argparse.RawDescriptionHelpFormatter)
    options.add_argument("--rounds", type=int, default=10)
    options.add_argument("--runs", type=int, default=9)
    options.add_argument("--keep", metavar="FOLDER", help="make the files in this folder and leave them there")
    asked = options.parse_args()
    with tempfile.TemporaryDirectory() as made:
        top = pathlib.Path(asked.keep or made)
        top.mkdir(exist_ok=True)
        program = top / "script/crates" / scratch.CRATE / "out" / scratch.CRATE
        if not program.exists():
            program = scratch.built(scratch.copied(top / "script"), READ, "label_commands doi_table")
        print(f"the least of {asked.runs} runs; {scratch.load()}")
        print(f"{'':<34}{'said':>8}{'one call':>12}{'kernel':>12}{'passed':>12}{'a further call':>16}{'memory':>12}")
        for name, text_of in KINDS.items():
            file = top / "script.nl"
            file.write_bytes(text_of())
            one, kernel, _, said, memory = min(run(program, file, 1) for _ in range(asked.runs))
            passed = min(run(program, file, 1)[2] for _ in range(asked.runs))
            more = min(run(program, file, 1 + asked.rounds)[0] for _ in range(asked.runs))
            times = "".join(f"{time:>9.1f} ms" for time in (one * 1e3, kernel * 1e3, passed / 1e6))
            print(f"{name:<34}{said:>8}{times}{(more - one) / asked.rounds * 1e3:>13.1f} ms{memory / 1e6:>9.1f} MB")


if __name__ == "__main__":
    main()
