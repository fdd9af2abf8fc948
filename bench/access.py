"""Runs random networks (bench/networks.py) and checks, packet by packet, that none is delivered to whom its label's meaning forbids.

    python3 bench/access.py [--networks N] [--control N] [--seed S] [--jobs N] [--keep FOLDER] [--program PROGRAM]

What a label means is computed here from the script alone: from its `reading` lines, its DOI definitions as they stand after so many commands, the labels
that flows send, and the options of packets. Where the neighbours agree under the versions of a packet's line, the delivered label has to mean what the label
meant where the flow began, and the receiver's level at least as much; `netlabel agree` has to say of these versions what was computed. Flows that are cut
behind a hop have to put each packet that goes on, with the same meaning, into their output with an option, and none that was denied. In the networks of the
control two numbers of one translation are swapped: some have to deliver too low, or nothing was tested.

Prints one line of totals. At the first network that breaks a rule it says which, keeps the network's files in the folder, and ends with status 1.
"""
import argparse
import collections
import concurrent.futures
import os
import pathlib
import random
import re
import shutil
import subprocess
import tempfile
from typing import Dict, FrozenSet, List, NamedTuple, Optional

import networks
import scratch

PROGRAM = scratch.TOP / "crates/netlabel_run/out/netlabel_run"
SCRIPT, CAPTURE = "network", "in.pcap"
# Numbers that a protocol can carry are below these.
CARRIED = {"cipsov4": {"levels": 256, "categories": 65535}, "calipso": {"levels": 256, "categories": 1952}}
LINE = re.compile(r"packet (\d+)\.(\d+) (delivered|sent|denied) (.*?)(?: hop \d+ node \S+)? versions ([\d,]+|-)")


class Wrong(Exception):
    """A rule that a network breaks."""


class Label(NamedTuple):
    level: int
    categories: FrozenSet[int]

    def dominates(self, other):
        return self.level >= other.level and self.categories >= other.categories


class Option(NamedTuple):
    """What a packet's label option says."""

    protocol: str
    doi: int
    label: Label


def label_of(text):
    level, _, terms = text.partition(":")
    categories = set()
    for term in terms.replace("c", "").split(",") if terms else ():
        first, _, last = term.partition(".")
        categories |= set(range(int(first), int(last or first) + 1))
    return Label(int(level[1:]), frozenset(categories))


def pairs_of(words, name):
    """The pairs of a parameter, by their first numbers."""
    text = next((word.partition(":")[2] for word in words if word.startswith(name + ":")), "")
    return dict(tuple(map(int, pair.split("="))) for pair in text.split(",")) if text else {}


# --- scripts ------------------------------------------------------------------------------------------------------------------------------------


class Tables(NamedTuple):
    """What a node has after so many commands: each DOI's numbers on the wire for its own ones, `None` where it passes all, and who receives."""

    dois: Dict[tuple, Optional[dict]] = {}
    receivers: Dict[str, Label] = {}

    def after(self, words):
        parameters = dict(word.partition(":")[::2] for word in words if ":" in word)
        front = " ".join(word for word in words if ":" not in word)
        protocol, _, rest = front.partition(" ")
        if protocol in CARRIED:
            key = protocol, int(parameters["doi"])
            said = None if rest == "add pass" else {what: pairs_of(words, what) for what in ("levels", "categories")}
            return self._replace(dois={**self.dois, key: said} if rest != "del" else {k: v for k, v in self.dois.items() if k != key})
        if protocol == "receiver":
            address = parameters["address"]
            kept = {k: v for k, v in self.receivers.items() if k != address}
            return self._replace(receivers={**kept, address: label_of(parameters["level"])} if rest == "add" else kept)
        return self


class Script:
    """A script, and its nodes' tables after each number of commands."""

    tables_at_first = Tables()

    def __init__(self, text):
        self.readings, self.flows, self.commands, self.commands_above = {}, [], 0, []
        self.history = collections.defaultdict(lambda: [(0, self.tables_at_first)])
        for line in text.splitlines():
            words = line.split()
            if words[0] == "node":
                at = words[1]
            elif words[0] == "reading":
                self.readings[at] = {what: pairs_of(words, what) for what in ("levels", "categories")}
            elif words[0] == "flow":
                self.flows.append([hop.partition(":") for hop in words[3:]])
                self.commands_above.append(self.commands)
            else:
                self.commands += 1
                self.history[at].append((self.commands, self.history[at][-1][1].after(words)))

    def tables(self, hop, version):
        return next(tables for count, tables in reversed(self.history[node_of(hop)]) if count <= version)

    def meaning(self, hop, label):
        named = self.readings.get(node_of(hop), {"levels": {}, "categories": {}})
        return Label(named["levels"].get(label.level, label.level), frozenset(named["categories"].get(each, each) for each in label.categories))

    def agree(self, left, right, versions):
        """Whether two hops give each number on the wire one meaning that both know."""
        tables = [self.tables(hop, version) for hop, version in zip((left, right), versions)]
        for key in tables[0].dois.keys() & tables[1].dois.keys():
            for what, below in CARRIED[key[0]].items():
                meanings = [self.wire_meanings(hop, own.dois[key], what, below) for hop, own in zip((left, right), tables)]
                if any(meanings[0](number) != meanings[1](number) for number in self.numbers(tables, key, what, below)):
                    return False
        return True

    def wire_meanings(self, hop, said, what, below):
        named = self.readings.get(node_of(hop), {}).get(what, {})
        if said is None:
            return lambda number: named.get(number, number)
        local = {wire: own for own, wire in said[what].items()}
        return lambda number: named.get(local[number], local[number])

    def numbers(self, tables, key, what, below):
        """The numbers on the wire that both know; where both pass all of them, those that some reading names."""
        known = [set(own.dois[key][what].values()) for own in tables if own.dois[key] is not None]
        if not known:
            known = [{number for named in self.readings.values() for number in named[what]}]
        return [number for number in set.intersection(*known) if number < below]

    def all_agree(self, hops, versions):
        return all(self.agree(hops[at], hops[at + 1], versions[at:at + 2]) for at in range(len(versions) - 1))

    def own_label(self, hop, version, option):
        """What an option says, in the numbers of a node."""
        said = self.tables(hop, version).dois[option.protocol, option.doi]
        if said is None:
            return option.label
        levels, categories = ({wire: own for own, wire in said[what].items()} for what in ("levels", "categories"))
        return Label(levels[option.label.level], frozenset(categories[each] for each in option.label.categories))

    def origin(self, hop, version, packet):
        """What a packet's label means where its flow begins."""
        if hop[0] == "send":
            return self.meaning(hop, label_of(hop[2].split(",", 3)[3]))
        return self.meaning(hop, self.own_label(hop, version, option_of(packet)))


def node_of(hop):
    return hop[2].split(",")[0]


# --- packets ------------------------------------------------------------------------------------------------------------------------------------


def frames_of(capture):
    """The packets of a capture of IP alone."""
    at, frames = 24, []
    while at < len(capture):
        size = int.from_bytes(capture[at + 8:at + 12], "little")
        frames.append(capture[at + 16:at + 16 + size])
        at += 16 + size
    return frames


def set_bits(octets):
    return frozenset(8 * at + bit for at, octet in enumerate(octets) for bit in range(8) if octet & 0x80 >> bit)


def said_by_tag(tag):
    """The label of a CIPSO tag."""
    kind, level, body = tag[0], tag[3], tag[4:]
    if kind == 1:
        return Label(level, set_bits(body))
    listed = [int.from_bytes(body[at:at + 2], "big") for at in range(0, len(body), 2)]
    if kind == 2:
        return Label(level, frozenset(listed))
    listed += [0] * (len(listed) % 2)
    return Label(level, frozenset(number for top, bottom in zip(listed[::2], listed[1::2]) for number in range(bottom, top + 1)))


def options_in(octets, single):
    """The options of a header, each with its type; those of one octet have these types."""
    while octets:
        size = 1 if octets[0] in single else octets[1]
        yield octets[0], octets[:size]
        octets = octets[size:]


def option_of(packet) -> Optional[Option]:
    if packet[0] >> 4 == 4:
        for kind, octets in options_in(packet[20:4 * (packet[0] & 15)], (0, 1)):
            if kind == 134:
                return Option("cipsov4", int.from_bytes(octets[2:6], "big"), said_by_tag(octets[6:]))
    elif packet[6] == 0:
        octets = packet[42:40 + 8 * (packet[41] + 1)]
        while octets:
            size = 1 if octets[0] == 0 else 2 + octets[1]
            if octets[0] == 7:
                return Option("calipso", int.from_bytes(octets[2:6], "big"), Label(octets[7], set_bits(octets[10:size])))
            octets = octets[size:]
    return None


# --- what the program made of a network ---------------------------------------------------------------------------------------------------------


class Line(NamedTuple):
    """A packet's line: what became of it, and the versions of the tables that judged it."""

    flow: int
    packet: int
    became: str
    detail: str
    versions: List[int]


def lines_of(report):
    for line in report.splitlines():
        if line.startswith("packet "):
            flow, packet, became, detail, versions = LINE.fullmatch(line).groups()
            yield Line(int(flow) - 1, int(packet) - 1, became, detail, [int(each) for each in versions.split(",")])


def called(program, folder, *words):
    """What a program prints, which has to answer."""
    ran = subprocess.run([program, *words], cwd=folder, capture_output=True, text=True, stdin=subprocess.DEVNULL)
    if ran.returncode:
        raise Wrong(f"{' '.join(words)} ended with status {ran.returncode}: {ran.stdout[-300:]}{ran.stderr[-300:]}")
    return ran.stdout


class Trial:
    """One network in a folder of its own, with what the program printed and made."""

    def __init__(self, program, folder, network):
        self.program, self.folder, self.counts = program, folder, collections.Counter()
        (folder / SCRIPT).write_text(network.script)
        (folder / CAPTURE).write_bytes(network.capture)
        self.script, self.packets = Script(network.script), frames_of(network.capture)
        self.report = self.called("run", SCRIPT)
        self.lines = list(lines_of(self.report))

    def called(self, *words):
        return called(self.program, self.folder, *words)

    def check_replies(self):
        replies = [line.split() for line in self.report.splitlines() if line.startswith("command ")]
        if len(replies) != self.script.commands or any(words[3] != "done" for words in replies):
            raise Wrong(f"a command was refused: {[words for words in replies if words[3] != 'done']}")

    def check_agreement(self, flow, versions):
        """`agree` says what was computed."""
        words = [",".join(map(str, versions))] if versions else []
        told = self.called("agree", SCRIPT, str(flow + 1), *words).splitlines()[-1]
        computed = self.script.all_agree(self.script.flows[flow], versions) if versions else True
        if told != ("agree" if computed else "disagree"):
            raise Wrong(f"agree says {told} of flow {flow + 1} under {versions}")

    def soundness(self, line):
        """Whether a delivered label means what it meant where its flow began, and whether the receiver's level means as much."""
        hops, (text, address) = self.script.flows[line.flow], line.detail.split(" to ")
        origin = self.script.origin(hops[0], line.versions[0], self.packets[line.packet])
        last = hops[len(line.versions) - 1]
        level = self.script.tables(last, line.versions[-1]).receivers[address]
        return self.script.meaning(last, label_of(text)) == origin, self.script.meaning(last, level).dominates(origin)

    def check_delivered(self):
        """Each delivery where the neighbours agree; answers how many of the others are too low, by their flow and versions."""
        others = collections.Counter()
        for line in (line for line in self.lines if line.became == "delivered"):
            same, dominated = self.soundness(line)
            if not self.script.all_agree(self.script.flows[line.flow], line.versions):
                self.counts["delivered between numbers"] += 1
                others[line.flow, tuple(line.versions)] += not dominated
                continue
            self.counts["delivered where all agree"] += 1
            if not same:
                raise Wrong(f"packet {line.flow + 1}.{line.packet + 1} is delivered with a label that doesn't mean what it meant")
            if not dominated:
                raise Wrong(f"packet {line.flow + 1}.{line.packet + 1} is delivered to a receiver whose level is too low")
        self.counts["too low between numbers"] += sum(others.values())
        return others

    def check_cut(self):
        """The outputs of the flows that are cut behind a hop."""
        for flow, hops in enumerate(self.script.flows):
            if hops[-1][0] == "receive":
                continue
            made = frames_of((self.folder / f"cut{len(hops)}.pcap").read_bytes())
            sent = [line for line in self.lines if line.flow == flow and line.became == "sent"]
            if len(made) != len(sent):
                raise Wrong(f"the output behind hop {len(hops)} has {len(made)} packets, and {len(sent)} went on")
            for line, packet in zip(sent, made):
                self.check_option(line, hops, packet)

    def check_option(self, line, hops, packet):
        option = option_of(packet)
        if option is None or line.detail != f"{option.protocol},{option.doi}":
            raise Wrong(f"packet {line.flow + 1}.{line.packet + 1} went on with {option}")
        self.counts[f"options behind hop {len(hops)}"] += 1
        own = self.script.own_label(hops[-1], line.versions[-1], option)
        origin = self.script.origin(hops[0], line.versions[0], self.packets[line.packet])
        if self.script.all_agree(hops, line.versions) and self.script.meaning(hops[-1], own) != origin:
            raise Wrong(f"packet {line.flow + 1}.{line.packet + 1} went on with {option}, which doesn't mean what its label meant")

    def count(self):
        self.counts["networks"] += 1
        self.counts["nodes"] += len(self.script.history)
        for line in self.lines:
            self.counts["packets"] += 1
            self.counts["hops"] += len(line.versions)
            self.counts[line.became if line.became != "denied" else f"denied {' '.join(line.detail.split()[:2])}"] += 1


def check_agreeing(trial):
    trial.check_replies()
    last = max(flow for flow, hops in enumerate(trial.script.flows) if hops[-1][0] == "receive")
    trial.check_agreement(last, None)
    others = trial.check_delivered()
    trial.check_cut()
    asked = {(line.flow, tuple(line.versions)) for line in trial.lines if line.became == "delivered" and len(set(line.versions)) > 1}
    for flow, versions in sorted(asked | others.keys())[:2]:
        trial.check_agreement(flow, versions)


def check_control(trial):
    """Counts the networks that disagree, and those of them in which a packet is delivered too low. No command comes beside their flows."""
    hops = trial.script.flows[0]
    versions = [trial.script.commands] * len(hops)
    trial.check_agreement(0, versions)
    lows = [line for line in trial.lines if line.became == "delivered" and not trial.soundness(line)[1]]
    trial.counts["told"] += not trial.script.all_agree(hops, versions)
    trial.counts["too low"] += bool(lows)
    if lows and not trial.counts["told"]:
        raise Wrong("agree says agree, and a packet is delivered too low")


def tried(asked, made, number, is_swapped):
    """Tries one network, which follows from the seed and its number, and answers what was counted."""
    network = networks.network(random.Random(f"{asked.seed} {number} {is_swapped}"), is_swapped)
    folder = made / f"{'control' if is_swapped else 'network'}-{number}"
    folder.mkdir()
    try:
        trial = Trial(asked.program, folder, network)
        (check_control if is_swapped else check_agreeing)(trial)
    except Wrong as why:
        shutil.copytree(folder, asked.keep, dirs_exist_ok=True)
        raise Wrong(f"{folder.name} of seed {asked.seed}: {why}; its files are in {asked.keep}") from why
    trial.count()
    shutil.rmtree(folder)
    return trial.counts


def counted(tried, asked, made, count, is_control):
    """What was counted in so many networks, each of which is tried."""
    counts = collections.Counter()
    with concurrent.futures.ThreadPoolExecutor(asked.jobs) as pool:
        trials = [pool.submit(tried, asked, made, number, is_control) for number in range(1, count + 1)]
        try:
            for trial in trials:
                counts.update(trial.result())
        except Wrong:
            pool.shutdown(cancel_futures=True)
            raise
    return counts


def totals(counts, control):
    denied = {name[len("denied "):]: count for name, count in counts.items() if name.startswith("denied ")}
    causes = ", ".join(f"{name} {denied[name]:,}" for name in sorted(denied, key=lambda name: int(name.split()[0])))
    options = ", ".join(f"{counts[f'options behind hop {hop}']:,}" for hop in range(1, 5))
    return (
        f"{counts['networks']:,} networks of {counts['nodes']:,} nodes; {counts['packets']:,} packets over {counts['hops']:,} hops: "
        f"delivered {counts['delivered']:,}, sent {counts['sent']:,}, denied {sum(denied.values()):,} ({causes}); "
        f"with an option behind hops 1 to 4: {options}; too low: none of {counts['delivered where all agree']:,} where all agree, "
        f"{counts['too low between numbers']:,} of {counts['delivered between numbers']:,} between old and new numbers; "
        f"control: of {control['networks']:,} networks with two numbers swapped {control['told']:,} are told by agree, {control['too low']:,} deliver too low"
    )


def main():
    options = argparse.ArgumentParser(description=__doc__, formatter_class=argparse.RawDescriptionHelpFormatter)
    options.add_argument("--networks", type=int, default=2000)
    options.add_argument("--control", type=int, default=500, metavar="N", help="so many networks with two numbers swapped")
    options.add_argument("--seed", type=int, default=1)
    options.add_argument("--jobs", type=int, default=2, help="so many networks at a time")
    options.add_argument("--keep", metavar="FOLDER", default="counterexample", help="where the files of a network that breaks a rule are left")
    options.add_argument("--program", default=PROGRAM, type=pathlib.Path, help="another build of the program")
    asked = options.parse_args()
    asked.program = asked.program.resolve()
    if not os.access(asked.program, os.X_OK):
        raise SystemExit(f"{asked.program} isn't built: ./prove builds it")
    with tempfile.TemporaryDirectory() as made:
        try:
            counts, control = (counted(tried, asked, pathlib.Path(made), count, is_swapped) for count, is_swapped in ((asked.networks, False), (asked.control, True)))
        except Wrong as why:
            raise SystemExit(str(why)) from why
    print(totals(counts, control))
    if asked.control and not control["too low"]:
        raise SystemExit("no network of the control delivers too low, so nothing was tested")


if __name__ == "__main__":
    main()
