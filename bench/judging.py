"""Times what a node does with a packet that comes in, goes through and goes out, beside a plain C program (bench/judging.c).

    python3 bench/judging.py [--rules RULE..] [--rounds N] [--runs N] [--keep FOLDER]

Each packet has 100 octets; those that come in or go through have a CIPSO option of tag 1 in them, those that go out get one. A node's tables
have few entries, some 30 each, or are full; the entries that count stand in the middle. The C program goes over them from the front.
First both programs tell what comes of each packet, whole ones and 4,096 that have an octet changed or two: the texts have to be equal.
A time is of the processor, of a run over 1,000,000 packets without that of a run over 64, the least of several, the two programs in
turn. valgrind counts allocations, instructions and octets written to memory; a whole label that is moved or cleared would show as 8 kB.
"""
import argparse
import os
import pathlib
import random
import re
import subprocess
import tempfile

import scratch
from packets import header4

KINDS = 64  # so many packets are judged in turn, each with an identification of its own
SIZE = 100
CHANGED = 4096

FEW = """cipsov4 add pass doi:16 tags:1,2,5
cipsov4 add pass doi:17 tags:1
map add domain:web_t address:10.0.0.0/8 protocol:cipsov4,16
map add domain:web_t address:192.168.7.0/24 protocol:unlbl
map add domain:gate_t address:10.0.0.0/8 protocol:cipsov4,17
map add domain:gate_t address:192.168.7.0/24 protocol:unlbl
map add default protocol:cipsov4,16
unlbl accept on
unlbl add interface:eth0 address:192.168.7.0/24 label:s0
receiver add address:10.0.0.53 domain:named_t level:s0
receiver add address:10.0.0.2 domain:web_t level:s2:c0.c239
range add interface:eth0 range:s0-s3:c0.c1023
range add interface:eth1 range:s0-s3:c0.c1023
"""


def among(others):
    """The same entries in the middle of so many others in each table, or of as many as it takes."""
    def half(side, start):
        for n in range(start, start + others // 2):
            if n < start + 31:
                yield f"cipsov4 add pass doi:{n} tags:1"
                yield f"range add interface:veth{n} range:s0-s1"
            if n < start + 126:
                yield f"map add domain:tenant{n}_t protocol:cipsov4,{start}"
            yield f"receiver add address:10.{side}.0.{n - start} domain:sink_t level:s1"

    return "".join(f"{line}\n" for line in [*half(1, 1000), *FEW.splitlines(), *half(2, 2000)])


NODES = {"few entries": FEW, "30 more": among(30), "full tables": among(254)}

HEAD = """//! Judges the packets of a file by the tables of a node again and again, and prints the nanoseconds that it took and a sum over what
//! came of them; with 0 rounds it prints what comes of each packet.
#![tactic(auto)]

ghost use Rattle.std.specs.Prelude.{◌<◌};

use domain_map::{Name, read_name};
USES
use label_receive::Room;
use mls_label::Label;
use mls_range::read_label;
use node_tables::{Network, Tables};
use script_lines::{Step, command_of, read_said, words_into};
use std::alloc::Global;
use std::str::from_utf8;
use std::time::Instant;
use std::{env, fs, io};

/// The octets of each packet.
const PACKET: usize = 100;

/// Two interfaces and two domains, and the label of what is sent.
#[derive(Drop)]
struct Names {
    eth0: Name,
    eth1: Name,
    web: Name,
    gate: Name,
    label: Label,
}

fn main(rt: HostRuntime) -> io::Result<()> {
    let mut words = env::args(&rt)?.skip(1);
    let (Some(rule), Some(label), Some(commands), Some(packets), Some(rounds)) =
        (words.next(), words.next(), words.next(), words.next(), words.next())
    else {
        return Ok(());
    };
    let Ok(rounds) = rounds.parse::<u64>() else {
        return Ok(());
    };
    let commands = fs::read(&rt, commands.as_str())?;
    let octets = fs::read(&rt, packets.as_str())?;
    let (Some(names), Some(network)) = (read_names(label.as_str()), node(rt.alloc(), &commands)) else {
        return Ok(());
    };
    if network.nodes() != 1 {
        return Ok(());
    }
    let tables = network.node(0);
    if rounds == 0 {
        return shown(&rt, rule.as_str(), tables, &names, &octets);
    }
    let start = Instant::now(&rt)?;
    let sum = judged(rt.alloc(), rule.as_str(), tables, &names, &octets, rounds);
    let took = start.elapsed(&rt)?.as_nanos();
    println!(rt; "{took} {sum}")
}

fn read_names(label: &str) -> Option<Names> {
    let Ok(label) = read_label(label.as_bytes()) else {
        return None;
    };
    Some(Names {
        eth0: read_name(b"eth0")?,
        eth1: read_name(b"eth1")?,
        web: read_name(b"web_t")?,
        gate: read_name(b"gate_t")?,
        label,
    })
}

/// A node to which the commands were given.
fn node(alloc: Global, commands: &[u8]) -> Option<Network> {
    let Ok(commands) = from_utf8(commands) else {
        return None;
    };
    let Ok(mut network) = Network::fresh(alloc, 1) else {
        return None;
    };
    for line in commands.lines() {
        obey(alloc, line.as_bytes(), &mut network)?;
    }
    Some(network)
}

fn obey(alloc: Global, line: &[u8], network: &mut Network) -> Option<()> {
    let mut words = Vec::new(alloc);
    if words_into(line, &mut words).is_err() {
        return None;
    }
    let Ok(said) = read_said(alloc, false, &words, line.len()) else {
        return None;
    };
    let command = command_of(said.row, said.fields)?;
    if network.nodes() != 1 {
        return None;
    }
    match network.apply(&Step { node: 0, command }) {
        Ok(_reply) => Some(()),
        Err(_stop) => None,
    }
}

fn judged(alloc: Global, rule: &str, tables: &Tables, names: &Names, octets: &[u8], rounds: u64) -> u64 {
    match rule {
        JUDGED
        _ => 0,
    }
}

fn shown(rt: &HostRuntime, rule: &str, tables: &Tables, names: &Names, octets: &[u8]) -> io::Result<()> {
    match rule {
        SHOWN
        _ => Ok(()),
    }
}
"""

RULES = {
    "receive": ("label_receive::receive_into", """
fn receive_judged(_alloc: Global, tables: &Tables, names: &Names, octets: &[u8], rounds: u64) -> u64 {
    let mut room = Room::lowest();
    let mut sum: u64 = 0;
    for _ in 0..rounds {
        for packet in octets.chunks_exact(PACKET) {
            if receive_into(tables, &names.eth0, packet, &mut room).is_ok() {
                sum = sum.wrapping_add(u64::from(room.local.level));
            }
        }
    }
    sum
}

fn receive_shown(rt: &HostRuntime, tables: &Tables, names: &Names, octets: &[u8]) -> io::Result<()> {
    let mut room = Room::lowest();
    for packet in octets.chunks_exact(PACKET) {
        match receive_into(tables, &names.eth0, packet, &mut room) {
            Ok(to) => println!(rt; "{to:?} {:?}", room.local)?,
            Err(why) => println!(rt; "Denied({why:?})")?,
        }
    }
    Ok(())
}
"""),
    "forward": ("label_gateway::forward_into", """
fn forward_judged(alloc: Global, tables: &Tables, names: &Names, octets: &[u8], rounds: u64) -> u64 {
    let (mut room, mut out) = (Room::lowest(), Vec::new(alloc));
    let mut sum: u64 = 0;
    for _ in 0..rounds {
        for packet in octets.chunks_exact(PACKET) {
            if forward_into(tables, &names.eth0, &names.eth1, &names.gate, packet, &mut room, &mut out).is_ok() {
                sum = sum.wrapping_add(out.len() as u64);
            }
        }
    }
    sum
}

fn forward_shown(rt: &HostRuntime, tables: &Tables, names: &Names, octets: &[u8]) -> io::Result<()> {
    let (mut room, mut out) = (Room::lowest(), Vec::new(rt.alloc()));
    for packet in octets.chunks_exact(PACKET) {
        match forward_into(tables, &names.eth0, &names.eth1, &names.gate, packet, &mut room, &mut out) {
            Ok(carrier) => println!(rt; "{carrier:?} {:?} {:?}", room.local, out.as_slice())?,
            Err(stop) => println!(rt; "{stop:?}")?,
        }
    }
    Ok(())
}
"""),
    "send": ("label_send::send_into", """
fn send_judged(alloc: Global, tables: &Tables, names: &Names, octets: &[u8], rounds: u64) -> u64 {
    let (mut wire, mut out) = (Label::lowest(), Vec::new(alloc));
    let mut sum: u64 = 0;
    for _ in 0..rounds {
        for packet in octets.chunks_exact(PACKET) {
            if send_into(tables, &names.web, &names.eth1, &names.label, packet, &mut wire, &mut out).is_ok() {
                sum = sum.wrapping_add(out.len() as u64);
            }
        }
    }
    sum
}

fn send_shown(rt: &HostRuntime, tables: &Tables, names: &Names, octets: &[u8]) -> io::Result<()> {
    let (mut wire, mut out) = (Label::lowest(), Vec::new(rt.alloc()));
    for packet in octets.chunks_exact(PACKET) {
        match send_into(tables, &names.web, &names.eth1, &names.label, packet, &mut wire, &mut out) {
            Ok(carrier) => println!(rt; "{carrier:?} {:?}", out.as_slice())?,
            Err(stop) => println!(rt; "{stop:?}")?,
        }
    }
    Ok(())
}
"""),
}

CRATES = "mls_label mls_range domain_map script_lines node_tables label_receive label_send"


def source(rules):
    """The program over these rules."""
    head = HEAD.replace("USES", "\n".join(f"use {RULES[rule][0]};" for rule in rules))
    head = head.replace("JUDGED", "\n        ".join(f'"{rule}" => {rule}_judged(alloc, tables, names, octets, rounds),' for rule in rules))
    head = head.replace("SHOWN", "\n        ".join(f'"{rule}" => {rule}_shown(rt, tables, names, octets),' for rule in rules))
    return head + "".join(RULES[rule][1] for rule in rules)


def level(categories):
    return "s2:" + ",".join(f"c{category}" for category in categories)


def packet(n, categories, labelled):
    """A packet of 100 octets; its bitmap ends with the octet of its highest category."""
    option = b""
    if labelled:
        bits = bytearray(categories[-1] // 8 + 1)
        for category in categories:
            bits[category // 8] |= 0x80 >> category % 8
        option = bytes([134, 10 + len(bits), 0, 0, 0, 16, 1, 4 + len(bits), 0, 2]) + bits
    head = header4(n, option + bytes(-len(option) % 4), SIZE)
    return head + bytes(range(SIZE - len(head)))


def changed(chance, octets):
    """The packet with an octet of its header changed, or two, and mostly a right checksum."""
    octets = bytearray(octets)
    header = 4 * (octets[0] & 15)
    for _ in range(chance.choice((1, 1, 2))):
        octets[chance.randrange(header)] = chance.choice((0, 1, 2, 5, 16, 40, 134, 255, chance.randrange(256)))
    if octets[0] >> 4 == 6:
        octets[0] = 0x4F  # packets of IPv6 aren't the C program's
    if chance.randrange(8):
        octets[10:12] = bytes(2)
        end = min(4 * (octets[0] & 15), SIZE)
        octets[10:12] = header_sum(octets[:end])
    return bytes(octets)


def header_sum(octets):
    total = sum(int.from_bytes(octets[at:at + 2], "big") for at in range(0, len(octets), 2))
    while total >> 16:
        total = (total & 0xFFFF) + (total >> 16)
    return (0xFFFF - total).to_bytes(2, "big")


LABELS = {
    "2 categories": [1, 3],
    "20 categories": sorted(random.Random(5).sample(range(239), 19)) + [239],
}


def command(program, rule, categories, file, rounds):
    """How a program is called: the C program is told the rule by its first letter, and how long a packet is."""
    words = [level(categories), "node.nl", file]
    return [program, rule[0], *words, str(SIZE), str(rounds)] if program.name == "judging" else [program, rule, *words, str(rounds)]


def processor(words):
    """The processor time of a run in seconds."""
    child = subprocess.Popen(words, stdout=subprocess.DEVNULL)
    _pid, status, usage = os.wait4(child.pid, 0)
    child.returncode = os.waitstatus_to_exitcode(status)
    if child.returncode:
        raise SystemExit(f"{words[0]} ended with status {child.returncode}")
    return usage.ru_utime + usage.ru_stime


def compared(programs, rule, categories, chance):
    """Compares what the programs tell of whole packets and of changed ones, and answers how many there were and how many of them passed."""
    whole = [packet(n, categories, rule != "send") for n in range(KINDS)]
    file = pathlib.Path("compared.bin")
    file.write_bytes(b"".join(whole + [changed(chance, chance.choice(whole)) for _ in range(CHANGED)]))
    told = [subprocess.run(command(program, rule, categories, file.name, 0), capture_output=True, check=True).stdout for program in programs.values()]
    if told[0] != told[1]:
        for place, (ours, theirs) in enumerate(zip(*(text.split(b"\n") for text in told))):
            if ours != theirs:
                raise SystemExit(f"{rule}: packet {place} of {file.resolve()}\n{ours.decode()}\n{theirs.decode()}")
        raise SystemExit(f"{rule}: one program says less")
    lines = told[0].decode().splitlines()
    return len(lines), sum(not line.startswith("Denied") for line in lines)


WIDTHS = {"I8": 1, "I16": 2, "I32": 4, "I64": 8, "F32": 4, "F64": 8, "I128": 16, "V128": 16, "V256": 32}


def counted(words):
    """Allocations, instructions and octets written to memory of a run."""
    heap = subprocess.run(["valgrind", *words], capture_output=True, text=True, check=True).stderr
    work = subprocess.run(["valgrind", "--tool=lackey", "--detailed-counts=yes", *words], capture_output=True, text=True, check=True).stderr
    stores = re.findall(r"== +([A-Z]+[0-9]+) +[\d,]+ +([\d,]+) +[\d,]+", work)
    written = sum(WIDTHS[kind] * int(times.replace(",", "")) for kind, times in stores if times != "0")
    parts = re.search(r"total heap usage: ([\d,]+) allocs", heap), re.search(r"guest instrs: +([\d,]+)", work)
    return [*(int(part.group(1).replace(",", "")) for part in parts), written]


def a_packet(program, rule, categories, file):
    """The same of one packet more: of 12,800 packets without those of 6,400."""
    few, many = (counted(command(program, rule, categories, file, rounds)) for rounds in (100, 200))
    return [(b - a) / (100 * KINDS) for a, b in zip(few, many)]


def prepared(rule, node, categories):
    """Makes the files of a row."""
    pathlib.Path("node.nl").write_text(NODES[node])
    pathlib.Path("packets.bin").write_bytes(b"".join(packet(n, categories, rule != "send") for n in range(KINDS)))


def timed(programs, rule, categories, rounds, runs):
    """Nanoseconds of the processor a packet, the least of several runs, without those of a run over few packets."""
    least = {}
    for _ in range(runs):
        for name, program in programs.items():
            for times in (1, rounds):
                took = processor(command(program, rule, categories, "packets.bin", times))
                least[name, times] = min(took, least.get((name, times), took))
    return {name: (least[name, rounds] - least[name, 1]) / (rounds - 1) / KINDS * 1e9 for name in programs}


def main():
    options = argparse.ArgumentParser(description=__doc__, formatter_class=argparse.RawDescriptionHelpFormatter)
    options.add_argument("--rules", nargs="+", choices=RULES, default=list(RULES))
    options.add_argument("--rounds", type=int, default=15_625)
    options.add_argument("--runs", type=int, default=15)
    options.add_argument("--keep", metavar="FOLDER", help="build in this folder and leave it there")
    asked = options.parse_args()
    with tempfile.TemporaryDirectory() as made:
        top = pathlib.Path(asked.keep or made).resolve()
        top.mkdir(exist_ok=True)
        here = top / "here/crates" / scratch.CRATE / "out" / scratch.CRATE
        if not here.exists():
            more = " label_gateway" if "forward" in asked.rules else ""
            here = scratch.built(scratch.copied(top / "here"), source(asked.rules), CRATES + more)
        subprocess.run(["cc", "-O3", "-o", top / "judging", scratch.TOP / "bench/judging.c"], check=True)
        programs = {"here": here, "C": top / "judging"}
        os.chdir(top)
        rows = [(rule, node, kind) for rule in asked.rules for node in NODES for kind in LABELS]
        chance = random.Random(7)
        for rule, node, kind in rows:
            pathlib.Path("node.nl").write_text(NODES[node])
            lines, passed = compared(programs, rule, LABELS[kind], chance)
            print(f"{f'{rule}, {node}, {kind}':<60} the same of {lines:,} packets, {passed:,} of them not denied")
        print(f"nanoseconds of the processor a packet, the least of {asked.runs} runs over {asked.rounds * KINDS:,} packets; {scratch.load()}")
        print(f"{'':<60}{'here':>9}{'C':>9}{'ratio':>9}")
        for rule, node, kind in rows:
            prepared(rule, node, LABELS[kind])
            least = timed(programs, rule, LABELS[kind], asked.rounds, asked.runs)
            print(f"{f'{rule}, {node}, {kind}':<60}{least['here']:>9.1f}{least['C']:>9.1f}{least['here'] / least['C']:>9.2f}")
        print("one packet more (valgrind): allocations, instructions, octets written to memory")
        for rule, node, kind in rows:
            prepared(rule, node, LABELS[kind])
            counts = [a_packet(program, rule, LABELS[kind], "packets.bin") for program in programs.values()]
            told = "".join(f"{name:>7}{allocs:>5.0f}{work:>8.0f}{written:>8.0f}" for name, (allocs, work, written) in zip(programs, counts))
            print(f"{f'{rule}, {node}, {kind}':<60}{told}")


if __name__ == "__main__":
    main()
