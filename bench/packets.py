"""Times how a packet is read and judged, on the working tree and on an earlier state of it, in one run; and counts allocations.

    python3 bench/packets.py [--before COMMIT] [--rounds N] [--runs N]

`judge` is the chain of the command: the packet is read with its label into one label that is lent, and the receiver's level is
compared with it. `show` reads alone. Times are nanoseconds a packet, the least of several runs, the two programs in turn. The commit
before is the last one whose labels keep their runs in a vector.
"""
import argparse
import pathlib
import re
import subprocess
import tempfile

import scratch

BEFORE = "8b44695"
KINDS = 64  # so many packets are read in turn, each with an identification of its own

HEAD = """//! Reads the packets of a file again and again, and prints the nanoseconds that it took and a sum over what was read.
#![tactic(auto)]

ghost use Rattle.std.specs.Prelude.{◌<◌};

use mls_label::{CatSet, Label};
use std::time::Instant;
use std::{env, fs, io};

/// The octets of each packet.
const PACKET: usize = 40;

fn main(rt: HostRuntime) -> io::Result<()> {
    let mut words = env::args(&rt)?.skip(1);
    let (Some(what), Some(file), Some(rounds)) = (words.next(), words.next(), words.next()) else {
        return Ok(());
    };
    let Ok(rounds) = rounds.parse::<u64>() else {
        return Ok(());
    };
    let octets = fs::read(&rt, file.as_str())?;
    let judges = what.as_str() == "judge";
    let start = Instant::now(&rt)?;
    let sum = SUM;
    let took = start.elapsed(&rt)?.as_nanos();
    println!(rt; "{took} {sum}")
}
"""

LENT = HEAD.replace("use std::time", "use packet_label::carried_into;\nuse std::time").replace("SUM", "read_all(&octets, rounds, judges)") + """
/// The level of the receiver, `s2:c0.c5`.
fn receiver() -> Label {
    let mut label = Label::lowest();
    label.level = 2;
    let _added = label.cats.add_run(0, 5);
    label
}

fn read_all(octets: &[u8], rounds: u64, judges: bool) -> u64 {
    let receiver = receiver();
    let mut label = Label::lowest();
    let mut sum: u64 = 0;
    for _ in 0..rounds {
        for packet in octets.chunks_exact(PACKET) {
            let read = if judges {
                judged(packet, &receiver, &mut label)
            } else {
                shown(packet, &mut label)
            };
            sum = sum.wrapping_add(read);
        }
    }
    if label.cats.contains(3) {
        sum.wrapping_add(1)
    } else {
        sum
    }
}

fn judged(packet: &[u8], receiver: &Label, label: &mut Label) -> u64 {
    match carried_into(packet, label) {
        Ok(marked) => u64::from(marked.mark.is_some() && receiver.dominates(label)),
        Err(_fault) => 0,
    }
}

fn shown(packet: &[u8], label: &mut Label) -> u64 {
    match carried_into(packet, label) {
        Ok(marked) => u64::from(marked.mark.is_some()),
        Err(_fault) => 0,
    }
}
"""

KEPT = HEAD.replace("use std::time", "use packet_label::carried;\nuse std::alloc::Global;\nuse std::time").replace(
    "let sum = SUM;", "let Some(sum) = read_all(rt.alloc(), &octets, rounds, judges) else {\n        return Ok(());\n    };") + """
/// The level of the receiver, `s2:c0.c5`.
fn receiver(alloc: Global) -> Option<Label> {
    let mut cats = CatSet::empty(alloc);
    match cats.add_run(0, 5) {
        Ok(()) => Some(Label { level: 2, cats }),
        Err(_stop) => None,
    }
}

fn read_all(alloc: Global, octets: &[u8], rounds: u64, judges: bool) -> Option<u64> {
    let receiver = receiver(alloc)?;
    let mut sum: u64 = 0;
    for _ in 0..rounds {
        for packet in octets.chunks_exact(PACKET) {
            let read = if judges {
                judged(alloc, packet, &receiver)
            } else {
                shown(alloc, packet)
            };
            sum = sum.wrapping_add(read);
        }
    }
    Some(sum)
}

fn judged(alloc: Global, packet: &[u8], receiver: &Label) -> u64 {
    match carried(alloc, packet) {
        Ok(carried) => match &carried.wire {
            Some(wire) => u64::from(receiver.dominates(wire.label())),
            None => 0,
        },
        Err(_fault) => 0,
    }
}

fn shown(alloc: Global, packet: &[u8]) -> u64 {
    match carried(alloc, packet) {
        Ok(carried) => u64::from(carried.wire.is_some()),
        Err(_fault) => 0,
    }
}
"""


def header4(identification, options, length, hops=64, between="0a0000010a000002"):
    """A header of IPv4 with these options and a right checksum."""
    size = 20 + len(options)
    head = bytearray(bytes([0x40 + size // 4, 0]) + length.to_bytes(2, "big") + identification.to_bytes(2, "big")
                     + bytes([0, 0, hops, 17, 0, 0]) + bytes.fromhex(between) + options)
    total = sum(int.from_bytes(head[at:at + 2], "big") for at in range(0, size, 2))
    while total >> 16:
        total = (total & 0xFFFF) + (total >> 16)
    head[10:12] = (0xFFFF - total).to_bytes(2, "big")
    return bytes(head)


def packets():
    """The kinds of packets, each as a row of packets of 40 octets that differ in their identification."""
    option = bytes.fromhex("860b00000010010500025000")  # CIPSO, DOI 16, tag 1, level 2, categories 1 and 3; padding
    labelled = [header4(n, option, 40) + bytes(8) for n in range(KINDS)]
    plain = [header4(n, b"", 40) + bytes(20) for n in range(KINDS)]
    broken = [packet[:10] + bytes([packet[10] ^ 1]) + packet[11:] for packet in labelled]
    return {"labelled": labelled, "plain": plain, "broken": broken}


ROWS = [("judge, a label with two categories", "judge", "labelled"), ("show, the same packet", "show", "labelled"),
        ("judge, no label", "judge", "plain"), ("judge, a broken header", "judge", "broken")]


def timed(program, folder, what, kind, rounds):
    run = subprocess.run([program, what, f"{kind}.bin", str(rounds)], cwd=folder, capture_output=True, text=True, check=True)
    took, _sum = run.stdout.split()
    return int(took) / (rounds * KINDS)


def allocations(program, folder, what, kind, rounds):
    run = subprocess.run(["valgrind", program, what, f"{kind}.bin", str(rounds)], cwd=folder, capture_output=True, text=True, check=True)
    line = next(line for line in run.stderr.splitlines() if "total heap usage" in line)
    return re.search(r"([\d,]+) allocs", line).group(1)


def main():
    options = argparse.ArgumentParser(description=__doc__, formatter_class=argparse.RawDescriptionHelpFormatter)
    options.add_argument("--before", default=BEFORE, metavar="COMMIT")
    options.add_argument("--rounds", type=int, default=50_000)
    options.add_argument("--runs", type=int, default=15)
    options.add_argument("--keep", metavar="FOLDER", help="build in this folder and leave it there")
    asked = options.parse_args()
    with tempfile.TemporaryDirectory() as made:
        top = pathlib.Path(asked.keep or made)
        programs = {}
        for name, commit, source in (("now", None, LENT), ("before", asked.before, KEPT)):
            folder = top / name
            if not (folder / "crates" / scratch.CRATE / "out" / scratch.CRATE).exists():
                programs[name] = scratch.built(scratch.copied(folder, commit), source, "mls_label packet_label")
            programs[name] = folder / "crates" / scratch.CRATE / "out" / scratch.CRATE
        for kind, row in packets().items():
            (top / f"{kind}.bin").write_bytes(b"".join(row))
        print(f"nanoseconds a packet, the least of {asked.runs} runs of {asked.rounds * KINDS:,} packets; {scratch.load()}")
        print(f"{'':<38}{'before':>9}{'now':>9}{'ratio':>9}")
        for text, what, kind in ROWS:
            least = {}
            for _ in range(asked.runs):
                for name, program in programs.items():
                    took = timed(program, top, what, kind, asked.rounds)
                    least[name] = min(least.get(name, took), took)
            print(f"{text:<38}{least['before']:>9.1f}{least['now']:>9.1f}{least['now'] / least['before']:>9.2f}")
        print("allocations of the whole process (valgrind), with 6,400 packets and with 12,800")
        for text, what, kind in ROWS:
            counts = [allocations(programs[name], top, what, kind, rounds) for name in ("before", "now") for rounds in (100, 200)]
            print(f"{text:<38}{counts[0]:>9}{counts[1]:>9} before{counts[2]:>9}{counts[3]:>9} now")


if __name__ == "__main__":
    main()
