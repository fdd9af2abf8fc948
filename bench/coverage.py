"""Runs random networks with unlabelled links and checks, packet by packet, that none is delivered below the label at which its flow began.

    python3 bench/coverage.py [--networks N] [--control N] [--seed S] [--jobs N] [--keep FOLDER] [--program PROGRAM] [--cover PROGRAM]

The networks are those of bench/networks.py, but over some links packets go without a label: the left node maps them to `unlbl` and has a range there, and the
right one gives them a label by static entries. Whether each link is covered is computed here from the script alone, and `netlabel_cover` has to print the same,
for the versions of a packet's line too. Where all links are covered, the delivered label has to mean at least what the label meant where the flow began, and
the receiver's level at least as much as both. Excepted are packets of version 6 whose protocol behind Hop-by-Hop is 0; they are counted by themselves. In the
networks of the control one entry or range of a link that packets go over without a label is too low or missing, or its tables change between the flows: some have
to deliver too low, or nothing was tested.

Prints one line of totals. At the first network that breaks a rule it says which, keeps the network's files in the folder, and ends with status 1.
"""
import argparse
import collections
import concurrent.futures
import ipaddress
import os
import pathlib
import random
import shutil
import tempfile
from typing import Dict, List, NamedTuple, Optional

import access
import networks
import scratch
from access import Label, Wrong, label_of

COVER = scratch.TOP / "crates/netlabel_cover/out/netlabel_cover"
SCRIPT = access.SCRIPT
# The prefixes of static entries; the addresses of packets are in them all.
PREFIXES = ("10.0.0.0/8", "10.0.0.0/30", "0.0.0.0/0", "fd00::/16", "fd00::/126", "::/0")


# --- what a link says -------------------------------------------------------------------------------------------------------------------------


class Static(NamedTuple):
    """A static entry: its interface, `None` for the default one, its prefix, and its high label."""

    interface: Optional[str]
    prefix: str
    high: Label


class Tables(NamedTuple):
    """What a node has after so many commands: the tables that bench/access.py knows, and those of packets without a label."""

    named: access.Tables = access.Tables()
    accepts: bool = False
    statics: List[Static] = []
    ranges: Dict[Optional[str], Label] = {}

    @property
    def dois(self):
        return self.named.dois

    @property
    def receivers(self):
        return self.named.receivers

    def after(self, words):
        parameters = dict(word.partition(":")[::2] for word in words if ":" in word)
        interface = parameters.get("interface")
        if words[0] == "unlbl" and words[1] == "accept":
            return self._replace(accepts=words[2] == "on")
        if words[0] == "unlbl":
            prefix = parameters["address"]
            kept = [entry for entry in self.statics if (entry.interface, entry.prefix) != (interface, prefix)]
            return self._replace(statics=[*kept, Static(interface, prefix, high_of(parameters["label"]))] if words[1] == "add" else kept)
        if words[0] == "range":
            kept = {name: high for name, high in self.ranges.items() if name != interface}
            return self._replace(ranges={**kept, interface: high_of(parameters["range"])} if words[1] == "add" else kept)
        return self._replace(named=self.named.after(words))

    def in_question(self, interface):
        """The entries that count for an interface, each with its place among all."""
        numbered = list(enumerate(self.statics))
        return [each for each in numbered if each[1].interface == interface] or [each for each in numbered if each[1].interface is None]


def high_of(text):
    """The high label of a range, or of one label."""
    return label_of(text.rpartition("-")[2])


class Script(access.Script):
    """A script, its nodes' tables, and what is told of the links of its flows."""

    tables_at_first = Tables()

    def told(self, left, right, versions):
        """What is told of two hops, but for the difference of two nodes that don't agree."""
        if not self.agree(left, right, versions):
            return "disagree"
        before, after = (self.tables(hop, version) for hop, version in zip((left, right), versions))
        entries = after.in_question(interface_in(right))
        if not after.accepts or not entries:
            return "covered"
        high = before.ranges.get(interface_out(left), before.ranges.get(None))
        if high is None:
            return "uncovered NoRange"
        least = self.meaning(left, high)
        for index, entry in entries:
            if not self.meaning(right, entry.high).dominates(least):
                return f"uncovered entry {index}"
        return "covered"

    def all_told(self, hops, versions):
        return [self.told(hops[at], hops[at + 1], versions[at:at + 2]) for at in range(len(hops) - 1)]

    def all_covered(self, hops, versions):
        return all(told == "covered" for told in self.all_told(hops, versions))

    def origin(self, hop, version, packet):
        """What a packet's label means where its flow begins."""
        if hop[0] == "send" or access.option_of(packet):
            return super().origin(hop, version, packet)
        source = ipaddress.ip_address(packet[12:16] if packet[0] >> 4 == 4 else packet[8:24])
        holding = [entry for _, entry in self.tables(hop, version).in_question(interface_in(hop)) if source in ipaddress.ip_network(entry.prefix)]
        return self.meaning(hop, max(holding, key=lambda entry: ipaddress.ip_network(entry.prefix).prefixlen).high)


def words_of(hop):
    return hop[2].split(",", 3)


def interface_out(hop):
    return words_of(hop)[1 if hop[0] == "receive" else 2]


def interface_in(hop):
    return words_of(hop)[2 if hop[0] == "send" else 1]


def is_excepted(packet):
    """Version 6, and protocol 0 behind Hop-by-Hop."""
    return packet[0] >> 4 == 6 and packet[6] == 0 and packet[40] == 0


# --- networks -----------------------------------------------------------------------------------------------------------------------------------


def in_numbers(own, label):
    """A label of meanings in a node's own numbers."""
    return Label(own.levels[label.level], frozenset(own.categories[each] for each in label.categories))


def lower(chance, own, label):
    """A label of meanings that lacks a category, or has the next lower level; the same where there is neither."""
    below = [level for level in own.levels if level < label.level]
    if below and (not label.categories or chance.randrange(2)):
        return label._replace(level=max(below))
    return label._replace(categories=label.categories - {chance.choice(sorted(label.categories))} if label.categories else frozenset())


def higher(chance, own, label):
    """A label of meanings that dominates it."""
    levels = [level for level in own.levels if level >= label.level]
    return Label(chance.choice(levels), label.categories | set(chance.sample(list(own.categories), chance.randrange(len(own.categories) + 1))))


def text_of(own, label):
    return networks.label_text(*in_numbers(own, label))


def most(chance, own):
    """A label of meanings with most of them."""
    levels, categories = sorted(own.levels), list(own.categories)
    return Label(levels[-1 - chance.choice((0, 0, 1))], frozenset(chance.sample(categories, len(categories) - chance.choice((0, 0, 0, 1)))))


def interface_named(chance, interface):
    return chance.choice(("default", f"interface:{interface}"))


def entry_lines(chance, right, label, lows):
    """Static entries for what comes in at eth0 without a label; so many of them are below the label."""
    lines, place = [], interface_named(chance, "eth0")
    if place == "default":
        lines.append(f"unlbl add interface:eth7 address:{PREFIXES[0]} label:s0")
    elif chance.randrange(2):
        lines.append(f"unlbl add default address:{PREFIXES[0]} label:s0")
    prefixes = [PREFIXES[2], PREFIXES[5], *chance.sample((*PREFIXES[:2], *PREFIXES[3:5]), chance.randrange(5))]
    low = set(chance.sample(range(len(prefixes)), min(lows, len(prefixes))))
    for at in chance.sample(range(len(prefixes)), len(prefixes)):
        high = lower(chance, right.own, label) if at in low else higher(chance, right.own, label) if chance.randrange(2) else label
        front = "s0-" if chance.randrange(2) else ""
        lines.append(f"unlbl add {place} address:{prefixes[at]} label:{front}{text_of(right.own, high)}")
    return lines


def plain_link(chance, left, right, out, is_low):
    """Lets packets go over a link without a label; one that is low is covered no more."""
    label = most(chance, left.own)
    fault = chance.choice(("entry", "entry", "range", "higher")) if is_low else None
    left.maps[:] = [f"map add {chance.choice(('default', 'domain:app_t'))} protocol:unlbl"]
    if fault != "range":
        high = higher(chance, left.own, label) if fault == "higher" else label
        left.others.append(f"range add {interface_named(chance, out)} range:s0-{text_of(left.own, high)}")
    right.others += [*entry_lines(chance, right, label, 1 + chance.randrange(2) if fault == "entry" else 0), "unlbl accept on"]


def outside_link(chance, first):
    """Entries for what comes in at the first node without a label."""
    first.others += [*entry_lines(chance, first, most(chance, first.own), 0), "unlbl accept on"]


def bare_link(chance, right):
    """A node that packets come to with a label alone, or without one too where nothing labels them."""
    right.others += chance.choice(([], ["unlbl accept on"], entry_lines(chance, right, most(chance, right.own), 1)))


class Plain(NamedTuple):
    """A network's nodes, what comes in from outside, and which links packets go over without a label."""

    nodes: list
    links: list
    outside: Optional[list]
    plain: List[bool]


def row(chance, is_low):
    nodes, links, outside = networks.row(chance)
    plain = [chance.randrange(3) > 0 for _ in links]
    plain[chance.randrange(len(plain))] = True
    low = chance.choice([at for at, bare in enumerate(plain) if bare]) if is_low else None
    for at, (left, right) in enumerate(zip(nodes, nodes[1:])):
        if plain[at]:
            plain_link(chance, left, right, "eth1" if at or outside else "eth0", at == low)
        else:
            bare_link(chance, right)
    if plain[-1]:
        nodes[-1].maps[:] = ["map add default protocol:unlbl"]
    if outside:
        outside_link(chance, nodes[0])
    return Plain(nodes, links, outside, plain)


# --- packets of all kinds -----------------------------------------------------------------------------------------------------------------------


def with_options(chance, version):
    """A packet with an option that isn't a label: Router Alert, or a time stamp in IPv4."""
    if version == 4:
        return networks.packet(chance, 4, chance.choice((bytes.fromhex("94040000"), bytes.fromhex("440c050000000000 00000000".replace(" ", "")))))
    return networks.packet(chance, 6, bytes.fromhex("05020000"))


def fragment(chance):
    """A part of a longer packet of IPv4."""
    whole = bytearray(networks.packet(chance, 4))
    whole[6:8] = chance.choice((0x2000, 0x0010, 0x2010)).to_bytes(2, "big")
    return checked(whole)


def of_protocol(chance, version):
    """A packet of TCP, of ICMP or of another protocol, whose checksum may not verify."""
    whole = bytearray(networks.packet(chance, version))
    protocol = chance.choice((6, 1 if version == 4 else 58, 47, 50, 0 if version == 4 else 43))
    whole[9 if version == 4 else 6] = protocol
    return checked(whole) if version == 4 else bytes(whole)


def checked(whole):
    """A packet of IPv4 with the right checksum of its header."""
    size = 4 * (whole[0] & 15)
    whole[10:12] = bytes(2)
    total = sum(int.from_bytes(whole[at:at + 2], "big") for at in range(0, size, 2))
    whole[10:12] = (0xFFFF - (total % 0xFFFF)).to_bytes(2, "big") if total % 0xFFFF else bytes(2)
    return bytes(whole)


def hidden(chance, shared):
    """An excepted packet: behind Hop-by-Hop stands what reads as a second one, where some say a label of their own, the lowest that the DOI has."""
    option = b""
    if shared and shared.version == 6:
        option = networks.option_of(chance, shared, min(shared.wire.levels.values()), [])
    inner = networks.packet(chance, 6, option)
    data = inner[40:] if inner[6] == 0 else bytes.fromhex("1100010400000000") + inner[40:]
    front = bytes.fromhex("0000010400000000")
    return inner[:4] + (len(front) + len(data)).to_bytes(2, "big") + bytes([0]) + inner[7:40] + front + data


def junk(chance):
    return chance.choice((b"", b"\x45", chance.randbytes(chance.randrange(60)), networks.packet(chance, 4)[:chance.randrange(28)]))


def packet_of(chance, network):
    """A packet, and the name of its kind."""
    kind, version = chance.randrange(12), chance.choice((4, 4, 6))
    if network.outside and kind < 5:
        return "labelled", networks.labelled(chance, chance.choice(network.outside))
    if kind < 7:
        return f"IPv{version}", networks.packet(chance, version)
    if kind == 7:
        return "with other options", with_options(chance, version)
    if kind == 8:
        return "fragments", fragment(chance)
    if kind == 9:
        return "of other protocols", of_protocol(chance, version)
    if kind == 10:
        return "excepted", hidden(chance, chance.choice([None, *(each for link in network.links for each in link)]))
    return "broken", junk(chance)


# --- whole networks -----------------------------------------------------------------------------------------------------------------------------


def changed(chance, network):
    """Commands between two flows: another level of a receiver, another label of a static entry, or nothing accepted without one."""
    lines = networks.another_level(chance, network.nodes[-1]) if chance.randrange(2) else []
    at = chance.choice(network.nodes[1:])
    entries = [line for line in at.others if line.startswith("unlbl add") and "eth7" not in line]
    if entries and chance.randrange(2):
        entry = chance.choice(entries)
        named = entry.split()
        at.others[at.others.index(entry)] = new = " ".join([*named[:-1], f"label:{text_of(at.own, most(chance, at.own))}"])
        lines += [f"node {at.name}", " ".join(["unlbl del", *named[2:-1]]), new]
    if chance.randrange(6) == 0:
        lines += [f"node {at.name}", f"unlbl accept {chance.choice(('on', 'off'))}"]
    return lines


class Network(NamedTuple):
    """A script, the packets that all of its flows read, and their kinds."""

    script: str
    packets: List[bytes]
    kinds: List[str]


def network(chance, is_low):
    """A network, covered unless `is_low` or a change uncovers it."""
    made = row(chance, is_low)
    kinds, packets = zip(*(packet_of(chance, made) for _ in range(chance.randint(20, 60))))
    lines = [line for at in chance.sample(made.nodes, len(made.nodes)) for line in at.lines(chance)]
    for _ in range(chance.randint(1, 3)):
        lines.append(f"flow in.pcap - {' '.join(networks.hops_of(chance, made.nodes, made.outside))}")
        lines += changed(chance, made)
    return Network("\n".join(lines) + "\n", packets, kinds)


# --- what the programs made of a network --------------------------------------------------------------------------------------------------------


class Trial:
    """One network in a folder of its own, with what the programs printed."""

    def __init__(self, asked, folder, network):
        self.asked, self.folder, self.counts = asked, folder, collections.Counter()
        self.network, self.script = network, Script(network.script)
        (folder / SCRIPT).write_text(network.script)
        (folder / access.CAPTURE).write_bytes(networks.capture(network.packets))
        self.report = access.called(asked.program, folder, "run", SCRIPT)
        self.lines = list(access.lines_of(self.report))

    def check_told(self, flow, versions):
        """`netlabel_cover` prints what was computed."""
        words = [",".join(map(str, versions))] if versions else []
        told = access.called(self.asked.cover, self.folder, SCRIPT, str(flow + 1), *words).splitlines()
        hops = self.script.flows[flow]
        under = versions or [self.script.commands_above[flow]] * len(hops)
        wanted = self.script.all_told(hops, under)
        whole = "covered" if all(each == "covered" for each in wanted) else "uncovered"
        parts = [f"hop {at} {at + 1} {each}" for at, each in enumerate(wanted, 1)]
        cut = [" ".join(line.split()[:4]) if " disagree " in line else line for line in told]
        if cut != [*parts, whole]:
            raise Wrong(f"netlabel_cover tells {told} of flow {flow + 1} under {under}, and {[*parts, whole]} was computed")
        self.counts[f"told {whole}"] += 1

    def climbs(self, line):
        """Whether the delivered label means what the origin's meant, and whether it means at least that and the receiver's level at least both."""
        hops, (text, address) = self.script.flows[line.flow], line.detail.split(" to ")
        origin = self.script.origin(hops[0], line.versions[0], self.network.packets[line.packet])
        last, version = hops[len(line.versions) - 1], line.versions[-1]
        label = self.script.meaning(last, label_of(text))
        level = self.script.meaning(last, self.script.tables(last, version).receivers[address])
        return label == origin, label.dominates(origin) and level.dominates(label) and level.dominates(origin)

    def check_delivered(self):
        """Each delivery over covered links; counts the others that are too low, and the excepted ones."""
        for line in (line for line in self.lines if line.became == "delivered"):
            same, climbs = self.climbs(line)
            self.counts[f"delivered {self.network.kinds[line.packet]}"] += 1
            if is_excepted(self.network.packets[line.packet]):
                self.counts["excepted"] += 1
                self.counts["excepted too low"] += not climbs
            elif self.script.all_covered(self.script.flows[line.flow], line.versions):
                self.counts["covered"] += 1
                self.counts["raised"] += not same
                if not climbs:
                    raise Wrong(f"packet {line.flow + 1}.{line.packet + 1} is delivered below its origin over covered links")
            else:
                self.counts["uncovered"] += 1
                self.counts["too low"] += not climbs

    def check(self):
        refused = [line for line in self.report.splitlines() if line.startswith("command ") and not line.endswith(" done")]
        if refused:
            raise Wrong(f"commands were refused: {refused}")
        for flow in range(len(self.script.flows)):
            self.check_told(flow, None)
        asked = {(line.flow, tuple(line.versions)) for line in self.lines if line.became == "delivered"}
        for flow, versions in sorted(asked)[:3]:
            self.check_told(flow, list(versions))
        self.check_delivered()

    def count(self):
        self.counts["networks"] += 1
        self.counts["nodes"] += len(self.script.history)
        self.counts["packets"] += len(self.lines)
        self.counts["delivered"] += sum(line.became == "delivered" for line in self.lines)


def tried(asked, made, number, is_low):
    """Tries one network, which follows from the seed and its number, and answers what was counted."""
    folder = made / f"{'control' if is_low else 'network'}-{number}"
    folder.mkdir()
    try:
        trial = Trial(asked, folder, network(random.Random(f"{asked.seed} {number} {is_low}"), is_low))
        trial.check()
    except Wrong as why:
        shutil.copytree(folder, asked.keep, dirs_exist_ok=True)
        raise Wrong(f"{folder.name} of seed {asked.seed}: {why}; its files are in {asked.keep}") from why
    trial.count()
    shutil.rmtree(folder)
    return trial.counts


def totals(counts, control):
    kinds = ", ".join(f"{name[len('delivered '):]} {counts[name]:,}" for name in sorted(counts) if name.startswith("delivered "))
    return (
        f"{counts['networks']:,} networks of {counts['nodes']:,} nodes; {counts['packets']:,} packets, delivered {counts['delivered']:,} ({kinds}); "
        f"told covered {counts['told covered']:,} times, uncovered {counts['told uncovered']:,}; below its origin: none of {counts['covered']:,} over covered links "
        f"({counts['raised']:,} with a higher label), {counts['too low']:,} of {counts['uncovered']:,} over others, {counts['excepted too low']:,} of "
        f"{counts['excepted']:,} excepted; control: {control['too low']:,} of {control['uncovered']:,} over links that aren't covered, none of "
        f"{control['covered']:,} over covered ones"
    )


def main():
    options = argparse.ArgumentParser(description=__doc__, formatter_class=argparse.RawDescriptionHelpFormatter)
    options.add_argument("--networks", type=int, default=2000)
    options.add_argument("--control", type=int, default=500, metavar="N", help="so many networks with a link that isn't covered")
    options.add_argument("--seed", type=int, default=1)
    options.add_argument("--jobs", type=int, default=2, help="so many networks at a time")
    options.add_argument("--keep", metavar="FOLDER", default="counterexample", help="where the files of a network that breaks a rule are left")
    options.add_argument("--program", default=access.PROGRAM, type=pathlib.Path, help="another build of netlabel")
    options.add_argument("--cover", default=COVER, type=pathlib.Path, help="another build of netlabel_cover")
    asked = options.parse_args()
    asked.program, asked.cover = asked.program.resolve(), asked.cover.resolve()
    for program in (asked.program, asked.cover):
        if not os.access(program, os.X_OK):
            raise SystemExit(f"{program} isn't built: ./prove builds it")
    with tempfile.TemporaryDirectory() as made:
        try:
            counts, control = (access.counted(tried, asked, pathlib.Path(made), count, is_low) for count, is_low in ((asked.networks, False), (asked.control, True)))
        except Wrong as why:
            raise SystemExit(str(why)) from why
    print(totals(counts, control))
    if asked.control and not control["too low"]:
        raise SystemExit("no network of the control delivers too low, so nothing was tested")


if __name__ == "__main__":
    main()
