"""Refuses one allocation after another of two rounds of two workers beside the steps of a plan, and checks what each round answers.

    python3 bench/refused.py [--times N] [--keep FOLDER]

One flow delivers packets and the other sends them; each denies every third, which has a broken header. A round's answer has to be Ok with
all packets and all steps, or want of memory, or the stop of the feed, which takes memory too; the packets that the feed took have to be the
first ones, in order and each with its end and its octets, and the version has to stand between. After a refusal a second round, with the
rest of the packets, has to bring all to the end, behind the steps that were left, and closing has to give the tables that all steps make. bench/refused.c, which is loaded before the
proved program, refuses the allocation; it counts those of threads too. It prints what came of it, and how often.
"""
import argparse
import collections
import pathlib
import subprocess
import sys
import tempfile

import scratch
from boards import BOARDS, CRATES, PROOFS, USES

PROGRAM = ("""//! Two rounds, with checks of what they answer.
#![tactic(auto)]

USES
use domain_map::Address;
use label_flow::{End, Feed, Octets, OpenGate, PacketIn, RoundStop, Walked, round};
use node_tables::Reply;
use std::io;

const COMMANDS: &str = "cipsov4 add pass doi:16 tags:1
map add default protocol:cipsov4,16
receiver add address:10.0.0.2 domain:sink_t level:s2:c0.c5
unlbl accept on
receiver add address:10.9.0.1 domain:sink_t level:s1
receiver add address:10.9.0.2 domain:sink_t level:s1
unlbl list
receiver del address:10.9.0.1
receiver add address:10.9.0.3 domain:sink_t level:s1";

const FIRST: u32 = 4;

const PACKETS: u64 = 12;

/// So many packets are lent at once.
const AT_ONCE: u64 = 5;

/// Packets with their numbers behind them.
#[derive(Drop)]
struct Numbered {
    alloc: Global,
    delivers: bool,
    made: u64,
    due: u64,
    hops: usize,
    stop: Option<u8>,
    taken: u64,
    wrong: bool,
}

fn is_broken(number: u64) -> bool {
    number % 3 == 2
}

fn packet(alloc: Global, number: u64) -> Option<PacketIn> {
    let mut bytes = Vec::new(alloc);
    bytes.extend_from_slice(&PACKET).ok()?;
    bytes[39] = (number % 256) as u8;
    if is_broken(number) {
        bytes[10] = 0;
    }
    let bytes = Octets::of(bytes);
    Some(PacketIn { bytes, is_ip: true })
}

fn fill(alloc: Global, batch: &mut Vec<PacketIn>, from: u64, count: u64) -> Option<()>
    ensures { IfSome result (λ _. (length batch.new.items ≡ count) × (count ≤ 1024) × All (λ packet. length packet.bytes ≤ 262144) batch.new.items) }
{
    batch.clear();
    for place in 0..count {
        batch.push(packet(alloc, from.wrapping_add(place))?).ok()?;
    }
    if batch.len() as u64 != count || count > 1024 || !are_short(batch.as_slice()) {
        return None;
    }
    Some(())
}

impl Feed for Numbered {
    type Stop = u8;

    ghost use Rattle.std.specs.Prelude.{None, true};

    ghost left = { λ _. None };

    ghost ended = { λ _. true };

    ghost due = { λ feed. feed.due };

    ghost stop = { λ feed. feed.stop };

    ghost hops = { λ feed. feed.hops };

    ghost ready = { λ _. Unit {0} };

    ghost took = { λ _ _ _. Unit {0} };

    fn fetch(&mut self, batch: &mut Vec<PacketIn>) -> Result<bool, u8> {
        let count = PACKETS.saturating_sub(self.made).min(AT_ONCE);
        if fill(self.alloc, batch, self.made, count).is_none() {
            self.stop = Some(1);
            self.due = 0;
            return Err(1);
        }
        self.made = self.made.wrapping_add(count);
        self.due = count;
        Ok(count > 0)
    }

    fn accept(&mut self, walked: &Walked, packet: &[u8]) -> Result<(), u8> {
        self.due -= 1;
        if !self.is_right(walked, packet) {
            self.wrong = true;
        }
        self.taken = self.taken.wrapping_add(1);
        Ok(())
    }
}

impl Numbered {
    fn is_right(&self, walked: &Walked, packet: &[u8]) -> bool {
        let versions = walked.versions.as_slice();
        let is_behind = !versions.is_empty() && versions.iter().all(|version| *version >= FIRST);
        let is_whole = packet.last() == Some(&((self.taken % 256) as u8)) && packet.len() == 40;
        match &walked.end {
            End::Denied { hop, .. } => is_behind && packet.is_empty() && is_broken(self.taken) && *hop == 1,
            End::Delivered { label, .. } => {
                is_behind && is_whole && self.delivers && !is_broken(self.taken) && label.level == 2 && label.cats.count() == 2
            }
            End::Sent { .. } => is_behind && is_whole && !self.delivers && !is_broken(self.taken),
        }
    }
}

/// What came of a round.
#[derive(Clone, Copy)]
enum Found {
    Ended,
    Refused,
    Wrong,
}

fn rounded<R: Threads + Wait + Sync>(rt: &R, alloc: Global, line: &str, delivers: bool) -> Option<Found> {
    let flow = flow_of(alloc, line)?;
    let (plan, steps) = plan_of(alloc, COMMANDS)?;
    if steps < FIRST {
        return None;
    }
    let network = network_at(rt, alloc, &plan, FIRST)?;
    let (mut publisher, mut viewers) = begun(rt, alloc, network, plan, FIRST, 2)?;
    let hops = flow.hops.hops().len();
    let mut feed = Numbered { alloc, delivers, made: 0, due: 0, hops, stop: None, taken: 0, wrong: false };
    let answer = round(rt, alloc, &mut publisher, viewers.as_mut_slice(), steps, &flow, &mut feed, &OpenGate);
    let found = found_of(&answer, &feed, publisher.version(), steps);
    step_to(rt, &mut publisher, steps);
    let is_last = publisher.version() == steps;
    let network = publisher.close(rt);
    if !is_last || !are_last(&network) || viewers.iter().any(|viewer| viewer.seen() < FIRST || viewer.seen() > steps) {
        return Some(Found::Wrong);
    }
    if let Found::Refused = found {
        feed.made = feed.taken;
        feed.due = 0;
        feed.stop = None;
        feed.hops = hops;
        return Some(rest(rt, alloc, steps, &flow, feed));
    }
    Some(found)
}

/// What this answer is, with so many steps made.
fn found_of(answer: &Result<Vec<Reply>, RoundStop<u8>>, feed: &Numbered, reached: u32, steps: u32) -> Found {
    let is_right = match answer {
        Ok(replies) => replies.len() == steps.saturating_sub(FIRST) as usize && reached == steps && feed.taken == PACKETS && feed.stop.is_none(),
        Err(RoundStop::OutOfMemory) => feed.stop.is_none(),
        Err(RoundStop::Feed(stop)) => *stop == 1 && feed.stop == Some(1),
    };
    if !is_right || feed.wrong || feed.taken > feed.made || feed.taken > PACKETS || reached < FIRST || reached > steps {
        return Found::Wrong;
    }
    if answer.is_ok() { Found::Ended } else { Found::Refused }
}

/// The plan once more.
fn same_plan(alloc: Global, steps: u32) -> Option<Arc<Plan>>
    ensures { IfSome result (λ plan. ((arc_value plan).nodes ≡ 1) × (length (arc_value plan).steps ≡ steps)) }
{
    let (plan, count) = plan_of(alloc, COMMANDS)?;
    if count != steps {
        return None;
    }
    Some(plan)
}

/// The rest of the packets behind all steps.
fn rest<R: Threads + Wait + Sync>(
    rt: &R,
    alloc: Global,
    steps: u32,
    flow: &FlowLine,
    feed: Numbered,
) -> Found
    requires nodes { All (λ hop. node_of hop < 1) flow.now.hops }
    requires feed { (feed.due ≡ 0) × (feed.stop ≡ None) × (feed.hops ≡ length flow.now.hops) }
{
    let mut feed = feed;
    let Some(plan) = same_plan(alloc, steps) else {
        return Found::Wrong;
    };
    let Some(network) = network_at(rt, alloc, &plan, steps) else {
        return Found::Wrong;
    };
    let Some((mut publisher, mut viewers)) = begun(rt, alloc, network, plan, steps, 2) else {
        return Found::Wrong;
    };
    let answer = round(rt, alloc, &mut publisher, viewers.as_mut_slice(), steps, flow, &mut feed, &OpenGate);
    drop(publisher.close(rt));
    if answer.is_err() || feed.wrong || feed.taken != PACKETS {
        return Found::Wrong;
    }
    Found::Refused
}

/// Whether these are the tables behind all steps, as far as receivers tell.
fn are_last(network: &Network) -> bool {
    if network.nodes() != 1 {
        return false;
    }
    let tables = network.node(0);
    [1, 2, 3].iter().all(|n| tables.find_receiver(&Address::V4([10, 9, 0, *n])).is_some() == (*n != 1))
}

fn name(found: Option<Found>) -> &'static str {
    match found {
        None => "not begun",
        Some(Found::Ended) => "ended",
        Some(Found::Refused) => "refused",
        Some(Found::Wrong) => "wrong",
    }
}

fn main(rt: HostRuntime) -> io::Result<()> {
    let first = rounded(&rt, rt.alloc(), "in out forward:r,eth0,eth1,any receive:r,eth1", true);
    let second = rounded(&rt, rt.alloc(), "in out forward:r,eth0,eth1,any", false);
    println!(rt; "{}, {}", name(first), name(second))
}
""" + BOARDS).replace("USES\n", USES)


def main():
    options = argparse.ArgumentParser(description=__doc__, formatter_class=argparse.RawDescriptionHelpFormatter)
    options.add_argument("--times", type=int, default=3, help="how often each allocation is refused, as threads go in different orders")
    options.add_argument("--keep", metavar="FOLDER", help="build in this folder and leave it there")
    asked = options.parse_args()
    with tempfile.TemporaryDirectory() as made:
        top = pathlib.Path(asked.keep or made).resolve()
        top.mkdir(exist_ok=True)
        program = top / "here/crates" / scratch.CRATE / "out" / scratch.CRATE
        if not program.exists():
            program = scratch.built(scratch.copied(top / "here"), PROGRAM, CRATES, PROOFS)
        refuser = top / "refused.so"
        subprocess.run(["cc", "-O2", "-shared", "-fPIC", "-o", refuser, scratch.TOP / "bench/refused.c"], check=True)
        found, number, count = collections.Counter(), 0, 1
        while number <= count:
            for _ in range(asked.times if number else 1):
                words = {"LD_PRELOAD": str(refuser), "REFUSE": str(number), "COUNTED": str(top / "counted")}
                run = subprocess.run([program], env=words, capture_output=True, text=True, timeout=60)
                told = run.stdout.strip() or run.stderr.strip()
                found[run.returncode, told] += 1
                if "wrong" in told or run.returncode not in (0, 1):
                    raise SystemExit(f"allocation {number}: status {run.returncode}, {told}")
                if not number:
                    count = int.from_bytes((top / "counted").read_bytes()[:8], sys.byteorder)
            number += 1
        print(f"{count} allocations, each refused {asked.times} times")
        for (status, told), times in found.most_common():
            print(f"{times:>6}  status {status}: {told}")


if __name__ == "__main__":
    main()
