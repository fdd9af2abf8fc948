"""Random networks for bench/access.py, bench/audit.py and bench/coverage.py: 2 to 5 nodes in a row, each with numbers of its own, whose neighbours agree by construction.

A network speaks of some meanings. Each node has a number of its own for each of them, and says so by a `reading` line. What two neighbours share is a DOI of
CIPSO for packets of IPv4, one of CALIPSO for packets of IPv6, or both, with a number on the wire for each meaning. A node passes a DOI's numbers where they are
its own, and else translates them. Commands between the flows give receivers other levels, and DOIs other numbers on both of their sides, one side after the other.
"""
import dataclasses
from typing import Dict, List, NamedTuple, Optional

from frames import bitmap, crc, numbers
from packets import header4

ADDRESSES = {4: "10.0.0.{}", 6: "fd00::{}"}
PREFIXES = {4: "0.0.0.0/0", 6: "::/0"}
PROTOCOLS = {4: "cipsov4", 6: "calipso"}
LAST_CATEGORY = 65534


class Numbers(NamedTuple):
    """A number for each meaning of a level, and for each of a category."""

    levels: Dict[int, int]
    categories: Dict[int, int]


class Shared(NamedTuple):
    """A DOI that nodes share: its numbers on the wire, and the tags that it may have."""

    version: int
    doi: int
    wire: Numbers
    tags: str

    @property
    def name(self):
        return f"{PROTOCOLS[self.version]},{self.doi}"


@dataclasses.dataclass
class Node:
    name: str
    own: Numbers
    reading: str
    # the lines that define DOIs, by version and DOI, with whether they translate
    definitions: dict = dataclasses.field(default_factory=dict)
    translates: dict = dataclasses.field(default_factory=dict)
    maps: List[str] = dataclasses.field(default_factory=list)
    others: List[str] = dataclasses.field(default_factory=list)

    def lines(self, chance):
        front = [*([self.reading] if self.reading else []), *self.definitions.values()]
        chance.shuffle(front)
        return [f"node {self.name}", *front, *self.maps, *self.others]


class Network(NamedTuple):
    """A script and the capture that all of its flows read."""

    script: str
    capture: bytes
    flows: int


def pairs(named):
    return ",".join(f"{number}={other}" for number, other in named.items())


def label_text(level, categories):
    terms = ",".join(f"c{category}" for category in sorted(categories))
    return f"s{level}:{terms}" if terms else f"s{level}"


# --- a node's own numbers ---------------------------------------------------------------------------------------------------------------------


def own_levels(chance, meanings):
    """Ascending numbers for ascending meanings, none further apart than their meanings: so the levels between have meanings between."""
    own, number, last = {}, -1, -1
    for meaning in meanings:
        number += chance.randint(1, min(meaning - last, 12))
        own[meaning], last = number, meaning
    return own


def named_levels(own):
    """The pairs of a reading: above each of these numbers levels go up as their meanings do, to the next one."""
    meanings = {number: meaning for meaning, number in own.items()}
    named, shift = {}, 0
    for level in range(256):
        shift = meanings[level] - level if level in meanings else shift
        if shift:
            named[level] = level + shift
    return named


def named_categories(chance, own):
    """The pairs of a reading: a number whose place as a meaning is taken means a number that means something else."""
    named = {number: meaning for meaning, number in own.items() if number != meaning}
    displaced = [meaning for meaning in own if meaning <= LAST_CATEGORY and meaning not in own.values()]
    free = [number for number in own.values() if number not in own]
    chance.shuffle(free)
    return {**named, **dict(zip(displaced, free))}


def node(chance, name, levels, categories, before: Optional[Node]):
    """A node with numbers of its own, with the meanings for numbers, or with the numbers of the node before it."""
    kind = chance.randrange(4)
    if kind == 0 and before:
        return Node(name, before.own, before.reading)
    if kind == 1 and max(categories) <= LAST_CATEGORY:
        return Node(name, Numbers({each: each for each in levels}, {each: each for each in categories}), "")
    most = chance.choice((24, 240, 240, 1952, LAST_CATEGORY + 1))
    own = Numbers(own_levels(chance, levels), dict(zip(categories, chance.sample(range(most), len(categories)))))
    parts = {"levels": named_levels(own.levels), "categories": named_categories(chance, own.categories)}
    words = [f"{what}:{pairs(named)}" for what, named in parts.items() if named]
    return Node(name, own, " ".join(["reading", *words]) if words else "")


# --- what two nodes share ---------------------------------------------------------------------------------------------------------------------


def on_the_wire(chance, own):
    """New numbers on the wire for all meanings."""
    most = chance.choice((24, 240, 240, 1900))
    return Numbers(dict(zip(own.levels, chance.sample(range(256), len(own.levels)))), dict(zip(own.categories, chance.sample(range(most), len(own.categories)))))


def permuted(chance, wire):
    """The same numbers in another order."""
    return Numbers(*(dict(zip(chance.sample(list(part), len(part)), part.values())) for part in wire))


def defined(chance, at, shared, passes=False):
    """Gives a node the line that defines a DOI; one that translates may lack a number."""
    tags = f" tags:{shared.tags}" if shared.version == 4 else ""
    front = f"{PROTOCOLS[shared.version]} add"
    key = shared.version, shared.doi
    at.translates[key] = not passes
    if passes:
        at.definitions[key] = f"{front} pass doi:{shared.doi}{tags}"
        return
    kept = []
    for own, wire in zip(at.own, shared.wire):
        meanings = list(own)
        chance.shuffle(meanings)
        if len(meanings) > 1 and chance.randrange(30) == 0:
            meanings.pop()
        kept.append(pairs({own[meaning]: wire[meaning] for meaning in meanings}))
    at.definitions[key] = f"{front} trans doi:{shared.doi}{tags} levels:{kept[0]} categories:{kept[1]}"


def share(chance, left, right, version, doi):
    """A new DOI between two nodes."""
    same = left.own == right.own and left.reading == right.reading
    passing = chance.choice(("left", "right", "neither", "neither", *(("both", "both") if same else ())))
    wire = {"left": left.own, "both": left.own, "right": right.own}.get(passing) or on_the_wire(chance, left.own)
    tags = ",".join(chance.sample("125", chance.randint(1, 3)))
    shared = Shared(version, doi, wire, tags)
    defined(chance, left, shared, passing in ("left", "both"))
    defined(chance, right, shared, passing in ("right", "both"))
    return shared


def shared_between(chance, left, right, before, dois):
    """What two neighbours share, for one version of IP or for both: new DOIs, or those of the link before."""
    if before and chance.randrange(4) == 0:
        for shared in before:
            defined(chance, right, shared)
        return before
    versions = chance.choice(((4,), (4,), (6,), (4, 6), (4, 6)))
    return [share(chance, left, right, version, dois.pop()) for version in versions]


def maps(chance, shared, domain):
    """The map entries that send all packets under what is shared, each in its own version where that is shared, and else crossed."""
    target = "default" if chance.randrange(2) else f"domain:{domain}"
    if len(shared) == 1:
        return [f"map add {target} protocol:{shared[0].name}"]
    return [f"map add {target} address:{PREFIXES[each.version]} protocol:{each.name}" for each in shared]


# --- packets ----------------------------------------------------------------------------------------------------------------------------------


def address_octets(version, last):
    return bytes([10, 0, 0, last]) if version == 4 else bytes.fromhex("fd00") + bytes(13) + bytes([last])


def datagram(chance, between):
    """A UDP datagram with its checksum, or in few cases without one."""
    data = chance.randbytes(chance.choice((0, 2, 5, 40)))
    octets = bytes.fromhex("03e80035") + (8 + len(data)).to_bytes(2, "big")
    summed = between + octets[4:6] + bytes([0, 17]) + octets + data + bytes(len(data) % 2)
    total = sum(int.from_bytes(summed[at:at + 2], "big") for at in range(0, len(summed), 2))
    checksum = 0xFFFF - total % 0xFFFF if chance.randrange(40) else 0
    return octets + checksum.to_bytes(2, "big") + data


def packet(chance, version, option=b""):
    """A packet of UDP between some of the addresses."""
    between = b"".join(address_octets(version, last) for last in (chance.choice((1, 3)), chance.choice((2, 2, 2, 2, 4, 4, 4, 4, 5))))
    data, hops = datagram(chance, between), chance.choice((1, 2, *[64] * 60))
    if version == 4:
        option += bytes(-len(option) % 4)
        return header4(chance.randrange(65536), option, 20 + len(option) + len(data), hops, between.hex()) + data
    front = b""
    if option:
        size = -(len(option) + 2) % 8
        padding = b"" if size == 0 else bytes([0]) if size == 1 else bytes([1, size - 2]) + bytes(size - 2)
        front = bytes([17, (2 + len(option) + size) // 8 - 1]) + option + padding
    return bytes.fromhex("60000000") + (len(front) + len(data)).to_bytes(2, "big") + bytes([0 if front else 17, hops]) + between + front + data


def runs_of(categories):
    """The maximal runs, from the highest down."""
    runs = []
    for category in sorted(categories, reverse=True):
        if runs and runs[-1][1] == category + 1:
            runs[-1][1] = category
        else:
            runs.append([category, category])
    return runs


def tag_body(tag, categories):
    """The octets of a tag behind its level, or None where they don't fit."""
    if tag == 1:
        return bitmap(categories, max(categories) // 8 + 1 if categories else 0) if max(categories, default=0) < 240 else None
    if tag == 2:
        return numbers(sorted(categories)) if len(categories) <= 15 else None
    runs = runs_of(categories)
    return b"".join(numbers(run) for run in runs) if len(runs) <= 7 else None


def option_of(chance, shared, level, categories):
    """A label option, or nothing where none can say the label."""
    doi = shared.doi.to_bytes(4, "big")
    if shared.version == 6:
        if max(categories, default=0) > 1951:
            return b""
        words = max(categories) // 32 + 1 if categories else 0
        front = bytes([7, 8 + 4 * words]) + doi + bytes([words, level])
        bits = bitmap(categories, 4 * words)
        return front + crc(front + bytes(2) + bits).to_bytes(2, "little") + bits
    for tag in chance.sample(shared.tags.split(","), len(shared.tags.split(","))):
        body = tag_body(int(tag), categories)
        if body is not None:
            return bytes([134, 10 + len(body)]) + doi + bytes([int(tag), 4 + len(body), 0, level]) + body
    return b""


def labelled(chance, shared):
    """A packet with a label on the wire, of some of the numbers that the first node knows."""
    wire = shared.wire
    level, known = chance.choice(list(wire.levels.values())), list(wire.categories.values())
    return packet(chance, shared.version, option_of(chance, shared, level, chance.sample(known, chance.randrange(len(known) + 1))))


def capture(packets):
    """A capture of IP alone."""
    records = [b"".join(number.to_bytes(4, "little") for number in (at, 0, len(octets), len(octets))) + octets for at, octets in enumerate(packets, 1)]
    return bytes.fromhex("d4c3b2a10200040000000000000000000000040065000000") + b"".join(records)


# --- commands -----------------------------------------------------------------------------------------------------------------------------------


def own_label(chance, own, most):
    """A label in a node's own numbers; where `most`, one of a high level with most of the categories."""
    levels, categories = sorted(own.levels.values()), list(own.categories.values())
    count = len(categories) - min(chance.choice((0, 0, 0, 1, 2)), len(categories)) if most else chance.randrange(len(categories) + 1)
    level = levels[-1 - chance.choice((0, 0, 1))] if most else chance.choice(levels)
    return label_text(level, chance.sample(categories, count))


def receivers(chance, last):
    for version in (4, 6):
        for at in (2, 4):
            last.others.append(f"receiver add address:{ADDRESSES[version].format(at)} domain:sink_t level:{own_label(chance, last.own, chance.randrange(3))}")


def another_level(chance, last):
    """The commands by which an address gets another level."""
    at = ADDRESSES[chance.choice((4, 6))].format(chance.choice((2, 4)))
    return [f"node {last.name}", f"receiver del address:{at}", f"receiver add address:{at} domain:sink_t level:{own_label(chance, last.own, chance.randrange(3))}"]


def renumbered(chance, nodes, shared):
    """The commands by which each node that has a DOI gets other numbers of it, one node after the other."""
    key = shared.version, shared.doi
    new = shared._replace(wire=permuted(chance, shared.wire) if chance.randrange(3) else on_the_wire(chance, nodes[0].own))
    lines = []
    for at in chance.sample(nodes, len(nodes)):
        if key not in at.definitions:
            continue
        defined(chance, at, new)
        named = [line for line in at.maps if line.endswith(f"protocol:{new.name}")]
        gone = [line.replace(" add ", " del ").rsplit(" ", 1)[0] for line in named]
        lines += [f"node {at.name}", *gone, f"{PROTOCOLS[new.version]} del doi:{new.doi}", at.definitions[key], *named]
    return lines


def changes(chance, nodes, links):
    """Commands that stand between two flows."""
    lines = another_level(chance, nodes[-1]) if chance.randrange(2) else []
    shared = chance.choice([each for link in links for each in link])
    key = shared.version, shared.doi
    if chance.randrange(2) and all(at.translates.get(key, True) for at in nodes):
        lines += renumbered(chance, nodes, shared)
    return lines


def swapped(chance, nodes):
    """Swaps two numbers of one translation of one node, if there is one; answers whether there was."""
    places = [(at, key, what) for at in nodes for key, line in at.definitions.items() for what in ("levels:", "categories:")
              if line.partition(what)[2].split(" ")[0].count("=") > 1]
    if not places:
        return False
    at, key, what = chance.choice(places)
    front, _, rest = at.definitions[key].partition(what)
    said, *behind = rest.split(" ")
    numbers_of = [pair.split("=") for pair in said.split(",")]
    one, other = chance.sample(range(len(numbers_of)), 2)
    numbers_of[one][1], numbers_of[other][1] = numbers_of[other][1], numbers_of[one][1]
    at.definitions[key] = " ".join([front + what + ",".join("=".join(pair) for pair in numbers_of), *behind])
    return True


# --- whole networks -----------------------------------------------------------------------------------------------------------------------------


def meanings(chance):
    """Ascending meanings of levels, and meanings of categories; some networks have meanings that no category can have for a number."""
    most = chance.choice((24, 240, 240, 1900, 1 << 32))
    return sorted(chance.sample(range(200), chance.randint(2, 5))), chance.sample(range(most), chance.randint(2, 10))


def row(chance):
    """Nodes in a row with what each two share, and what comes in at the first one from outside, if its packets are already labelled."""
    levels, categories = meanings(chance)
    dois = chance.sample(range(1, 1 << 32), 12)
    nodes, links = [], []
    for at in range(chance.randint(2, 5)):
        nodes.append(node(chance, f"n{at + 1}", levels, categories, nodes[-1] if nodes else None))
    outside = None
    if chance.randrange(3) == 0:
        beyond = Node("outside", nodes[0].own, nodes[0].reading)
        outside = shared_between(chance, beyond, nodes[0], None, dois)
    for left, right in zip(nodes, nodes[1:]):
        links.append(shared_between(chance, left, right, links[-1] if links else outside, dois))
        left.maps += maps(chance, links[-1], "app_t")
        left.others += [f"pair add address4:10.0.0.{at} address6:fd00::{at}" for at in range(1, 5)]
    nodes[-1].maps += maps(chance, links[-1], "sink_t")
    receivers(chance, nodes[-1])
    return nodes, links, outside


def hops_of(chance, nodes, is_labelled):
    first = f"forward:{nodes[0].name},eth0,eth1,app_t" if is_labelled else f"send:{nodes[0].name},app_t,eth0,{own_label(chance, nodes[0].own, False)}"
    return [first, *(f"forward:{at.name},eth0,eth1,app_t" for at in nodes[1:-1]), f"receive:{nodes[-1].name},eth0"]


def packets_of(chance, links, outside):
    """Packets that the first hop takes, and some that it doesn't."""
    taken = [shared.version for shared in links[0]]
    for _ in range(chance.randint(10, 30)):
        if chance.randrange(20) == 0:
            yield packet(chance, chance.choice((4, 6)))
        elif outside:
            yield labelled(chance, chance.choice(outside))
        else:
            yield packet(chance, chance.choice(taken))


def network(chance, is_swapped):
    """A network whose neighbours agree, or one like it with two numbers of a translation swapped."""
    while True:
        nodes, links, outside = row(chance)
        if not is_swapped or swapped(chance, nodes):
            break
    octets = capture(packets_of(chance, links, outside))
    lines = [line for at in chance.sample(nodes, len(nodes)) for line in at.lines(chance)]
    flows = 0
    for _ in range(chance.randint(2, 4)):
        hops = hops_of(chance, nodes, outside)
        lines.append(f"flow in.pcap - {' '.join(hops)}")
        flows += 1
        lines += [] if is_swapped else changes(chance, nodes, links)
    for count in range(1, len(nodes)):
        lines.append(f"flow in.pcap cut{count}.pcap {' '.join(hops[:count])}")
        flows += 1
    return Network("\n".join(lines) + "\n", octets, flows)
