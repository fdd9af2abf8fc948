"""Times translations by a DOI's definition, look-ups in maps, and copies of tables; and counts allocations.

    python3 bench/tables.py [--rounds N] [--runs N]

Times are those of a call, the least of several runs. The maps have one domain with up to 256 prefixes, all that an entry takes.
"""
import argparse
import pathlib
import random
import re
import subprocess
import tempfile

import scratch

DOIS = """//! Translates a label again and again, or defines a DOI, and prints the nanoseconds that it took and a sum over what was given.
#![tactic(auto)]

ghost use Rattle.std.specs.Prelude.{◌<◌};

use doi_table::{DoiDef, DoiPlan, DoiTable, Listed, Proto, to_local_into, to_wire_into};
use mls_label::Label;
use std::alloc::Global;
use std::time::Instant;
use std::{env, fs, io};

fn main(rt: HostRuntime) -> io::Result<()> {
    let alloc = rt.alloc();
    let mut words = env::args(&rt)?.skip(1);
    let (Some(what), Some(pairs), Some(label), Some(rounds)) = (words.next(), words.next(), words.next(), words.next()) else {
        return Ok(());
    };
    let Ok(rounds) = rounds.parse::<u64>() else {
        return Ok(());
    };
    let pairs = fs::read(&rt, pairs.as_str())?;
    let label = label_of(&fs::read(&rt, label.as_str())?);
    let Some(plan) = plan_of(alloc, &pairs) else {
        return Ok(());
    };
    if !plan.is_plan() {
        return Ok(());
    }
    let start = Instant::now(&rt)?;
    let mut table = DoiTable::empty(alloc);
    let added = table.add(Proto::Cipso, 16, &plan).is_ok();
    let took = start.elapsed(&rt)?.as_nanos();
    if what.as_str() == "add" {
        return println!(rt; "{took} {added}");
    }
    if what.as_str() == "copy" {
        let start = Instant::now(&rt)?;
        let sum = copied(&table, rounds);
        let took = start.elapsed(&rt)?.as_nanos();
        return println!(rt; "{took} {sum}");
    }
    let Some(def) = table.find(Proto::Cipso, 16) else {
        return Ok(());
    };
    let start = Instant::now(&rt)?;
    let sum = translated(def, &label, rounds, what.as_str() == "to_wire");
    let took = start.elapsed(&rt)?.as_nanos();
    println!(rt; "{took} {sum}")
}

/// A label of level 2 with these categories, two octets each.
fn label_of(octets: &[u8]) -> Label {
    let mut label = Label::lowest();
    label.level = 2;
    for pair in octets.chunks_exact(2) {
        let [high, low] = pair else {
            continue;
        };
        let category = u16::from(*high) * 256 + u16::from(*low);
        if category < 65535 {
            let _added = label.cats.add(category);
        }
    }
    label
}

/// A plan that translates by these pairs of categories, four octets each.
fn plan_of(alloc: Global, octets: &[u8]) -> Option<DoiPlan> {
    let mut cats = Vec::new(alloc);
    for pair in octets.chunks_exact(4) {
        let [a, b, c, d] = pair else {
            continue;
        };
        let local = u16::from(*a) * 256 + u16::from(*b);
        let remote = u16::from(*c) * 256 + u16::from(*d);
        if cats.push((local, remote)).is_err() {
            return None;
        }
    }
    let mut levels = Vec::new(alloc);
    if levels.push((2, 2)).is_err() {
        return None;
    }
    Some(DoiPlan {
        trans: true,
        tags: Listed::from_vec(Vec::new(alloc)),
        levels: Listed::from_vec(levels),
        cats: Listed::from_vec(cats),
    })
}

fn copied(table: &DoiTable, rounds: u64) -> u64 {
    let mut sum: u64 = 0;
    for _ in 0..rounds {
        if let Ok(copy) = table.copy() {
            sum = sum.wrapping_add(copy.count() as u64);
        }
    }
    sum
}

fn translated(def: &DoiDef, label: &Label, rounds: u64, outward: bool) -> u64 {
    let mut into = Label::lowest();
    let mut sum: u64 = 0;
    for _ in 0..rounds {
        let given = if outward {
            to_wire_into(def, label, &mut into)
        } else {
            to_local_into(def, label, &mut into)
        };
        if given.is_ok() {
            sum = sum.wrapping_add(into.cats.runs() as u64);
        }
    }
    sum.wrapping_add(u64::from(into.cats.count()))
}
"""

MAPS = """//! Looks addresses up again and again in the map of one domain, or copies the map, and prints the nanoseconds that it took and a sum over what was found.
#![tactic(auto)]

ghost use Rattle.std.specs.Prelude.{◌<◌, ◌≤◌};

use domain_map::{Address, DomainMap, Name, Prefix, Protocol, read_name};
use std::alloc::Global;
use std::time::Instant;
use std::{env, fs, io};

fn main(rt: HostRuntime) -> io::Result<()> {
    let mut words = env::args(&rt)?.skip(1);
    let (Some(what), Some(prefixes), Some(addresses), Some(rounds)) = (words.next(), words.next(), words.next(), words.next()) else {
        return Ok(());
    };
    let Ok(rounds) = rounds.parse::<u64>() else {
        return Ok(());
    };
    let prefixes = fs::read(&rt, prefixes.as_str())?;
    let addresses = fs::read(&rt, addresses.as_str())?;
    let Some(domain) = read_name(b"web_t") else {
        return Ok(());
    };
    let Some(map) = map_of(rt.alloc(), &domain, &prefixes) else {
        return Ok(());
    };
    let finds = what.as_str() == "find";
    let start = Instant::now(&rt)?;
    let sum = if finds {
        found(&map, &domain, &addresses, rounds)
    } else {
        copied(&map, rounds)
    };
    let took = start.elapsed(&rt)?.as_nanos();
    println!(rt; "{took} {sum}")
}

/// The map of one domain with these prefixes, five octets each: an address and how many of its bits count.
fn map_of(alloc: Global, domain: &Name, octets: &[u8]) -> Option<DomainMap> {
    let mut map = DomainMap::empty(alloc);
    for entry in octets.chunks_exact(5) {
        let [a, b, c, d, bits] = entry else {
            continue;
        };
        if *bits > 32 {
            continue;
        }
        let prefix = Prefix::of(Address::V4([*a, *b, *c, *d]), *bits);
        if map.add(Some(domain), Some(prefix), Protocol::Cipso { doi: 16 }).is_err() {
            return None;
        }
    }
    Some(map)
}

fn found(map: &DomainMap, domain: &Name, addresses: &[u8], rounds: u64) -> u64 {
    let mut sum: u64 = 0;
    for _ in 0..rounds {
        for octets in addresses.chunks_exact(4) {
            let [a, b, c, d] = octets else {
                continue;
            };
            if map.find(domain, &Address::V4([*a, *b, *c, *d])).is_some() {
                sum = sum.wrapping_add(1);
            }
        }
    }
    sum
}

fn copied(map: &DomainMap, rounds: u64) -> u64 {
    let mut sum: u64 = 0;
    for _ in 0..rounds {
        if let Ok(copy) = map.copy() {
            sum = sum.wrapping_add(copy.count() as u64);
        }
    }
    sum
}
"""


def pairs(count):
    """So many pairs of categories, local and remote ones in an order of their own, all of them even."""
    remote = [2 * n for n in range(count)]
    random.Random(7).shuffle(remote)
    return [(2 * n, remote[n]) for n in range(count)]


def octets(numbers):
    return b"".join(number.to_bytes(2, "big") for number in numbers)


def least(program, folder, runs, *words):
    """The least time of several runs, and what was printed beside it."""
    times = []
    for _ in range(runs):
        run = subprocess.run([program, *map(str, words)], cwd=folder, capture_output=True, text=True, check=True)
        took, given = run.stdout.split()
        times.append(int(took))
    return min(times), given


def allocations(program, folder, *words):
    run = subprocess.run(["valgrind", program, *map(str, words)], cwd=folder, capture_output=True, text=True, check=True)
    return re.search(r"total heap usage: ([\d,]+) allocs", run.stderr).group(1)


def dois(top, runs, rounds):
    program = scratch.built(scratch.copied(top / "dois"), DOIS, "mls_label doi_table")
    for count in (1000, 1952):
        some = pairs(count)
        (top / f"pairs{count}.bin").write_bytes(octets(number for pair in some for number in pair))
        took, _ = least(program, top, runs, "add", f"pairs{count}.bin", f"pairs{count}.bin", 1)
        print(f"{f'add of a definition with {count} pairs':<64}{took / 1000:>10.1f} us")
        for cats in (15, 1000):
            chosen = random.Random(11).sample(sorted(pair[1] for pair in some), cats)
            (top / "label.bin").write_bytes(octets(sorted(chosen)))
            turns = max(1, rounds // cats)
            took, _ = least(program, top, runs, "to_local", f"pairs{count}.bin", "label.bin", turns)
            print(f"{f'to_local of {cats} categories under {count} pairs':<64}{took / turns:>10.1f} ns{took / turns / cats:>8.1f} ns a category")
            counts = [allocations(program, top, "to_local", f"pairs{count}.bin", "label.bin", n) for n in (20, 40)]
            print(f"{'  allocations with 20 and with 40 calls':<64}{counts[0]:>10}{counts[1]:>10}")
    for count in (488, 976, 1952):
        (top / f"pairs{count}.bin").write_bytes(octets(number for pair in pairs(count) for number in pair))
        turns = max(1, rounds // count)
        took, _ = least(program, top, runs, "copy", f"pairs{count}.bin", "label.bin", turns)
        print(f"{f'copy of a table with {count} pairs':<64}{took / turns / 1000:>10.1f} us{took / turns / count:>8.1f} ns a pair")


def maps(top, runs, rounds):
    """Prefixes of 9 to 16 bits, none of which holds another's first address, in an order of their own; addresses that each holds one, and one that none holds."""
    program = scratch.built(scratch.copied(top / "maps"), MAPS, "domain_map")
    held = [bytes([n, 128, 0, 0]) for n in range(256)]
    random.Random(13).shuffle(held)
    (top / "held.bin").write_bytes(b"".join(held))
    (top / "none.bin").write_bytes(bytes([1, 127, 0, 1]) * 256)
    for count in (64, 128, 256):
        (top / f"prefixes{count}.bin").write_bytes(b"".join(address + bytes([9 + place % 8]) for place, address in enumerate(held[:count])))
    for text, addresses in (("one of each", "held.bin"), ("of which none holds one", "none.bin")):
        turns = max(1, rounds // 256)
        took, _ = least(program, top, runs, "find", "prefixes256.bin", addresses, turns)
        print(f"{f'find among 256 prefixes of addresses, {text}':<64}{took / turns / 256:>10.1f} ns")
    counts = [allocations(program, top, "find", "prefixes256.bin", "held.bin", n) for n in (20, 40)]
    print(f"{'  allocations with 5,120 and with 10,240 calls':<64}{counts[0]:>10}{counts[1]:>10}")
    for count in (64, 128, 256):
        turns = max(1, rounds // count)
        took, _ = least(program, top, runs, "copy", f"prefixes{count}.bin", "held.bin", turns)
        print(f"{f'copy of a map with {count} prefixes':<64}{took / turns / 1000:>10.1f} us{took / turns / count:>8.1f} ns a prefix")


def main():
    options = argparse.ArgumentParser(description=__doc__, formatter_class=argparse.RawDescriptionHelpFormatter)
    options.add_argument("--rounds", type=int, default=1_500_000)
    options.add_argument("--runs", type=int, default=9)
    asked = options.parse_args()
    with tempfile.TemporaryDirectory() as made:
        print(f"the least of {asked.runs} runs; {scratch.load()}")
        dois(pathlib.Path(made), asked.runs, asked.rounds)
        maps(pathlib.Path(made), asked.runs, asked.rounds)


if __name__ == "__main__":
    main()
