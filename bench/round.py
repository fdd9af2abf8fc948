"""Times a round: the packets of a flow judged by workers beside the steps of a plan, and what it costs beside the judging alone.

    python3 bench/round.py [--packets N] [--runs N] [--keep FOLDER]

The feed has its packets in memory and lends the same 1,024 again and again, so that a packet costs it next to nothing. Each packet has 40
octets, with a CIPSO option of tag 1 in them, and is delivered; the flow has one hop that receives, or one that forwards and one that
receives. Beside a round go no step or 1,000, which add receivers and delete them. "judge" calls `receive_into`, or `forward_into` and
`receive_into`, in a loop over the same packets under the same tables; "walk" calls `walk_into` in a loop.
Times are of the processor and those that passed, a packet, of a run without those of a run over few packets; all rows are run in turn, again
and again, and the least of each stands. valgrind counts allocations.
"""
import argparse
import os
import pathlib
import re
import subprocess
import tempfile

import scratch
from boards import BOARDS, CRATES, USES
from boards import PROOFS as SHARED

PROGRAM = ("""//! Judges packets in a loop, walks them in a loop, or gives them to a round, and prints how many were delivered and a sum over them.
#![tactic(auto)]

USES
use label_flow::{End, Feed, Octets, OpenGate, PacketIn, Walked, round};
use label_gateway::forward_into;
use label_receive::{Room, receive_into};
use node_tables::Tables;
use label_flow::{WalkRoom, WalkedSlot, Worker, walk_into};
use std::str::from_utf8;
use std::time::Instant;
use std::{env, fs, io};

/// So many packets are made, and lent again and again.
const STOCK: usize = 1024;

/// So many steps make the tables under which packets are judged; further ones go beside the packets.
const FIRST: u32 = 4;

/// What became of packets.
#[derive(Clone, Copy)]
struct Count {
    delivered: u64,
    sum: u64,
}

impl Count {
    fn add(&mut self, level: u8, octets: usize) {
        self.delivered = self.delivered.wrapping_add(1);
        self.sum = self.sum.wrapping_add(u64::from(level)).wrapping_add(octets as u64);
    }
}

/// Packets in memory.
#[derive(Drop)]
struct Memory {
    alloc: Global,
    left: u64,
    due: u64,
    hops: usize,
    stop: Option<u8>,
    count: Count,
}

fn packet(alloc: Global) -> Option<PacketIn> {
    let mut bytes = Vec::new(alloc);
    bytes.extend_from_slice(&PACKET).ok()?;
    let bytes = Octets::of(bytes);
    Some(PacketIn { bytes, is_ip: true })
}

fn fill(alloc: Global, batch: &mut Vec<PacketIn>, count: usize) -> Option<()> {
    batch.clear();
    for _ in 0..count {
        batch.push(packet(alloc)?).ok()?;
    }
    Some(())
}

/// Lends so many packets: those that stand there, where there are enough.
fn lend(alloc: Global, batch: &mut Vec<PacketIn>, count: usize) -> Option<()>
    ensures { IfSome result (λ _. (0 < length batch.new.items) × (length batch.new.items ≡ count) × (count ≤ 1024) × All (λ packet. length packet.bytes ≤ 262144) batch.new.items) }
{
    if batch.len() < count {
        fill(alloc, batch, count)?;
    }
    batch.truncate(count);
    if batch.is_empty() || batch.len() != count || count > 1024 || !are_short(batch.as_slice()) {
        return None;
    }
    Some(())
}

impl Feed for Memory {
    type Stop = u8;

    ghost use Rattle.std.specs.Prelude.{None, true};

    ghost left = { λ _. None };

    ghost ended = { λ _. true };

    ghost due = { λ feed. feed.due };

    ghost stop = { λ feed. feed.stop };

    ghost hops = { λ feed. feed.hops };

    ghost ready = { λ _. Unit {0} };

    ghost took = { λ _ _ _. Unit {0} };

    fn fetch(&mut self, batch: &mut Vec<PacketIn>) -> Result<bool, u8> {
        if self.left == 0 {
            batch.clear();
            self.due = 0;
            return Ok(false);
        }
        let count = self.left.min(STOCK as u64);
        if lend(self.alloc, batch, count as usize).is_none() {
            self.stop = Some(1);
            self.due = 0;
            return Err(1);
        }
        self.left -= count;
        self.due = count;
        Ok(true)
    }

    fn accept(&mut self, walked: &Walked, packet: &[u8]) -> Result<(), u8> {
        self.due -= 1;
        if let End::Delivered { label, .. } = &walked.end {
            self.count.add(label.level, packet.len());
        }
        Ok(())
    }
}

fn judged(alloc: Global, tables: &Tables, two: bool, packets: u64) -> Option<Count> {
    let (eth0, eth1, any) = (read_name(b"eth0")?, read_name(b"eth1")?, read_name(b"any")?);
    let mut stock = Vec::new(alloc);
    fill(alloc, &mut stock, STOCK)?;
    let stock = stock.as_slice();
    let mut count = Count { delivered: 0, sum: 0 };
    let (mut room, mut out) = (Room::lowest(), Vec::new(alloc));
    for number in 0..packets {
        let packet = stock.get((number % 1024) as usize)?;
        let packet = packet.bytes.as_slice();
        if two {
            if forward_into(tables, &eth0, &eth1, &any, packet, &mut room, &mut out).is_ok()
                && receive_into(tables, &eth1, out.as_slice(), &mut room).is_ok()
            {
                count.add(room.local.level, out.len());
            }
        } else if receive_into(tables, &eth0, packet, &mut room).is_ok() {
            count.add(room.local.level, packet.len());
        }
    }
    Some(count)
}

fn walked(alloc: Global, viewer: &mut Viewer, flow: &FlowLine, packets: u64) -> Option<Count>
    requires { All (λ hop. node_of hop < viewer.old.plan.nodes) flow.now.hops }
{
    let mut stock = Vec::new(alloc);
    fill(alloc, &mut stock, STOCK)?;
    let stock = stock.as_slice();
    let mut count = Count { delivered: 0, sum: 0 };
    let mut room = WalkRoom::new(alloc).ok()?;
    let mut slot = WalkedSlot::new();
    let mut out = Vec::new(alloc);
    let worker = Worker { flow, number: 0, gate: &OpenGate };
    for number in 0..packets {
        let packet = stock.get((number % 1024) as usize)?;
        room = walk_into(&worker, viewer, number, packet, room, &mut slot, &mut out).ok()?;
        count.sum = count.sum.wrapping_add(out.len() as u64);
    }
    if let End::Delivered { .. } = slot.into_walked().end {
        count.delivered = packets;
    }
    Some(count)
}

fn rounded<R: Threads + Wait + Sync>(
    rt: &R,
    alloc: Global,
    publisher: &mut Publisher,
    viewers: &mut [Viewer],
    upto: u32,
    flow: &FlowLine,
    packets: u64,
) -> Option<Count>
    requires upto { upto ≡ length publisher.old.plan.steps }
    requires viewers { (0 < length viewers.old) × (length viewers.old ≤ 16) }
    requires plan { All (λ v. (v.plan ≡ publisher.old.plan) × (v.board ≡ publisher.old.board)) viewers.old }
    requires nodes { All (λ hop. node_of hop < publisher.old.plan.nodes) flow.now.hops }
{
    let mut feed = Memory {
        alloc,
        left: packets,
        due: 0,
        hops: flow.hops.hops().len(),
        stop: None,
        count: Count { delivered: 0, sum: 0 },
    };
    let replies = round(rt, alloc, publisher, viewers, upto, flow, &mut feed, &OpenGate).ok()?;
    let count = feed.count;
    Some(Count { delivered: count.delivered, sum: count.sum.wrapping_add(replies.len() as u64) })
}

/// What is done with so many packets, and how long it took.
fn done<R: Threads + Wait + Sync>(
    rt: &R,
    alloc: Global,
    what: &str,
    flow: &FlowLine,
    plan: Arc<Plan>,
    steps: u32,
    workers: usize,
    packets: u64,
) -> Option<Count>
    requires plan { ((arc_value plan).nodes ≡ 1) × (length (arc_value plan).steps ≡ steps) × (4 ≤ steps) }
    requires nodes { All (λ hop. node_of hop < 1) flow.now.hops }
    requires workers { (0 < workers) × (workers ≤ 16) }
{
    let network = network_at(rt, alloc, &plan, FIRST)?;
    if what == "judge" {
        if network.nodes() != 1 {
            return None;
        }
        return judged(alloc, network.node(0), flow.hops.hops().len() == 2, packets);
    }
    let (mut publisher, mut viewers) = begun(rt, alloc, network, plan, FIRST, workers)?;
    let count = if what == "walk" {
        walked(alloc, &mut viewers[0], flow, packets)
    } else {
        rounded(rt, alloc, &mut publisher, viewers.as_mut_slice(), steps, flow, packets)
    };
    drop(publisher.close(rt));
    count
}

fn main(rt: HostRuntime) -> io::Result<()> {
    let alloc = rt.alloc();
    let mut words = env::args(&rt)?.skip(1);
    let (Some(what), Some(flow), Some(plan), Some(workers), Some(packets)) =
        (words.next(), words.next(), words.next(), words.next(), words.next())
    else {
        return Ok(());
    };
    let (Ok(workers), Ok(packets)) = (workers.parse::<usize>(), packets.parse::<u64>()) else {
        return Ok(());
    };
    let commands = fs::read(&rt, plan.as_str())?;
    let Ok(commands) = from_utf8(&commands) else {
        return Ok(());
    };
    let (Some(flow), Some((plan, steps))) = (flow_of(alloc, flow.as_str()), plan_of(alloc, commands)) else {
        return Ok(());
    };
    if workers == 0 || workers > 16 || steps < FIRST {
        return Ok(());
    }
    let start = Instant::now(&rt)?;
    let count = done(&rt, alloc, what.as_str(), &flow, plan, steps, workers, packets);
    let took = start.elapsed(&rt)?.as_nanos();
    if let Some(count) = count {
        println!(rt; "{took} {} {}", count.delivered, count.sum)?;
    }
    Ok(())
}
""" + BOARDS).replace("USES\n", USES)

PROOFS = SHARED | {
    "walked/Invariants.antt": """use Rattle.std.proofs.Common.{◌≡◌}
use Rattle.bench_program.proofs.walked.Given as goal

abbrev pub invariant-loop-number : goal.invariant-loop-number
invariant-loop-number l = record { plan : l.viewer.plan ≡ l.fn.viewer.plan; }
""",
}

FEW = 1024
HOPS = {"receive": "in out receive:r,eth0", "forward, receive": "in out forward:r,eth0,eth1,any receive:r,eth1"}
TABLES = """cipsov4 add pass doi:16 tags:1
map add default protocol:cipsov4,16
receiver add address:10.0.0.2 domain:sink_t level:s2:c0.c5
unlbl accept on
"""


def plan(steps):
    """The first steps, and so many behind them: a receiver is added and deleted again, and then the next."""
    return TABLES + "".join(f"receiver {'del' if n % 2 else 'add'} address:10.9.{n // 2 // 250}.{n // 2 % 250}{'' if n % 2 else ' domain:sink_t level:s1'}\n" for n in range(steps))


def called(program, what, hops, steps, workers, packets):
    return [program, what, HOPS[hops], f"plan{steps}.nl", str(workers), str(packets)]


def run(words):
    """The processor time of a run, and the time that passed in what it is about, in nanoseconds."""
    child = subprocess.Popen(words, stdout=subprocess.PIPE, text=True)
    told = child.stdout.read().split()
    _pid, status, usage = os.wait4(child.pid, 0)
    child.returncode = os.waitstatus_to_exitcode(status)
    if child.returncode or len(told) != 3 or told[1] != words[-1]:
        raise SystemExit(f"{words} ended with status {child.returncode} and told {told}")
    return (usage.ru_utime + usage.ru_stime) * 1e9, int(told[0])


def least(runs, program, packets):
    """The least times of each row, over so many packets and over few."""
    found = {}
    for _ in range(runs):
        for row in rows():
            for count in (FEW, packets):
                both = run(called(program, *row, count))
                found[row, count] = tuple(map(min, found.get((row, count), both), both))
    return found


def allocations(words):
    told = subprocess.run(["valgrind", *words], capture_output=True, text=True, check=True).stderr
    return int(re.search(r"total heap usage: ([\d,]+) allocs", told).group(1).replace(",", ""))


def rows():
    for hops in HOPS:
        yield "judge", hops, 0, 1
        yield "walk", hops, 0, 1
        for workers in (1, 2, 4):
            for steps in (0, 1000):
                yield "round", hops, steps, workers


def main():
    options = argparse.ArgumentParser(description=__doc__, formatter_class=argparse.RawDescriptionHelpFormatter)
    options.add_argument("--packets", type=int, default=1_000_000)
    options.add_argument("--runs", type=int, default=15)
    options.add_argument("--keep", metavar="FOLDER", help="build in this folder and leave it there")
    asked = options.parse_args()
    with tempfile.TemporaryDirectory() as made:
        top = pathlib.Path(asked.keep or made).resolve()
        top.mkdir(exist_ok=True)
        program = top / "here/crates" / scratch.CRATE / "out" / scratch.CRATE
        if not program.exists():
            program = scratch.built(scratch.copied(top / "here"), PROGRAM, f"{CRATES} label_receive label_gateway", PROOFS)
        os.chdir(top)
        for steps in (0, 1000):
            pathlib.Path(f"plan{steps}.nl").write_text(plan(steps))
        print(f"nanoseconds a packet, of the processor and passed, the least of {asked.runs} runs over {asked.packets:,} packets; {scratch.load()}")
        print(f"{'':<50}{'processor':>12}{'passed':>9}{'allocations of 102,400 packets more':>40}")
        found = least(asked.runs, program, asked.packets)
        for row in rows():
            what, hops, steps, workers = row
            processor, passed = ((long - short) / (asked.packets - FEW) for long, short in zip(found[row, asked.packets], found[(what, hops, 0, workers), FEW]))
            few, many = (allocations(called(program, *row, count)) for count in (102_400, 204_800))
            name = f"{what}, {hops}" + (f", {workers} workers, {steps} steps" if what == "round" else "")
            print(f"{name:<50}{processor:>12.1f}{passed:>9.1f}{many - few:>40}", flush=True)


if __name__ == "__main__":
    main()
