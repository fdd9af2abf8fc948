"""Changes one octet of reports, again and again, and compares what `netlabel_audit` says of each with what is worked out here.

    python3 bench/audit.py [--networks N] [--changes N] [--seed S] [--jobs N] [--keep FOLDER] [--program PROGRAM] [--audit PROGRAM]

The reports are those of the examples that run, and of random networks (bench/networks.py). Half of the changes are of any octet, half of a digit in the
versions of a packet's line; each report is asked for unchanged as well, and with lines of packets in which other lawful versions are named. How many workers
are named is drawn from 1 to 16.

The model here goes from line to line. Replies, the lines round flows and the counts follow from the script; which versions a packet's line may name follows
from the commands above its flow and the next one, from its own hops and from the earlier packets of its worker. What becomes of a packet under versions is
asked of `netlabel run`, over a script in which no command stands beside a flow: each hop has a node of its own there, with the commands of its node up to the
hop's version. So no rule of labels is said here again, and nothing of the auditor's is used.

Prints one line of totals. At the first answer that differs it says which, keeps the files in the folder, and ends with status 1.
"""
import argparse
import collections
import concurrent.futures
import os
import pathlib
import random
import re
import shutil
import subprocess
import tempfile
from typing import List, NamedTuple

import networks
import scratch

PROGRAM = scratch.TOP / "crates/netlabel_run/out/netlabel_run"
AUDIT = scratch.TOP / "crates/netlabel_audit/out/netlabel_audit"
SCRIPT, REPORT, FROZEN, CAPTURE = "network", "report", "frozen", "in.pcap"
MOST_NODES, MOST_FLOWS = 32, 256
PACKET = re.compile(rb"packet (\d+)\.(\d+) .* versions ([\d,]+|-)\n")
NUMBER = re.compile(rb"0|[1-9]\d*")


class Wrong(Exception):
    """An answer that isn't the model's."""


class Flow(NamedTuple):
    """A flow of a script: its words, and how many commands stand above it and above the next one."""

    input: str
    hops: List[str]
    before: int
    after: int


class Script:
    """What a script's lines say, as far as they bear on the order of a report."""

    def __init__(self, text):
        self.commands, flows, node = [], [], None
        for line in text.splitlines():
            words = line.partition("#")[0].split()
            if words[:1] == ["node"]:
                node = words[1]
            elif words[:1] == ["flow"]:
                flows.append((words[1], words[3:], len(self.commands)))
            elif words and words[0] != "reading":
                self.commands.append((node, " ".join(words)))
        ends = [before for _, _, before in flows[1:]] + [len(self.commands)]
        self.flows = [Flow(name, hops, before, after) for (name, hops, before), after in zip(flows, ends)]


def node_of(hop):
    return hop.partition(":")[2].partition(",")[0]


def at_node(hop, node):
    """The hop at another node."""
    kind, _, rest = hop.partition(":")
    return f"{kind}:{node},{rest.partition(',')[2]}"


class Trial:
    """A script with its captures in a folder, and what becomes of its packets."""

    def __init__(self, asked, folder):
        self.asked, self.folder = asked, folder
        self.script = Script((folder / SCRIPT).read_text())
        self.became = {}
        self.report = self.called(asked.program, "run", SCRIPT, "-w", "1")
        self.replies = self.replies_in(self.report)
        self.packets = [
            max([int(n) for f, n in re.findall(rb"^packet (\d+)\.(\d+) ", self.report, re.M) if int(f) == number], default=0)
            for number in range(1, len(self.script.flows) + 1)
        ]

    def called(self, program, *words, status=(0,)):
        ran = subprocess.run([program, *words], cwd=self.folder, capture_output=True, stdin=subprocess.DEVNULL)
        if ran.returncode not in status:
            raise Wrong(f"{' '.join(words)} ended with status {ran.returncode}: {ran.stdout[-300:]}{ran.stderr[-300:]}")
        return ran.stdout

    def replies_in(self, report):
        """The reply to each command, with the lines that it lists."""
        found = []
        for line in report.splitlines(keepends=True):
            if line.startswith(b"command "):
                found.append([line])
            elif line.startswith(b"  "):
                found[-1].append(line)
        if len(found) != len(self.script.commands):
            raise Wrong("the run hasn't answered each command")
        return found

    # --- what becomes of packets ---

    def ask(self, wanted):
        """Finds out what becomes of the packets of flows under versions, each a flow's place with a version for each hop."""
        batch, nodes = [], set()
        for flow, versions in dict.fromkeys(wanted):
            if (flow, versions) in self.became:
                continue
            needed = {(node_of(hop), version) for hop, version in zip(self.script.flows[flow].hops, versions)}
            if batch and (len(nodes | needed) > MOST_NODES or len(batch) == MOST_FLOWS):
                self.run_frozen(batch, nodes)
                batch, nodes = [], set()
            batch.append((flow, versions))
            nodes |= needed
        if batch:
            self.run_frozen(batch, nodes)

    def run_frozen(self, batch, nodes):
        names = {pair: f"v{place}" for place, pair in enumerate(sorted(nodes))}
        lines = []
        for (node, version), name in names.items():
            lines += [f"node {name}", *[words for owner, words in self.script.commands[:version] if owner == node]]
        for flow, versions in batch:
            hops = [at_node(hop, names[node_of(hop), version]) for hop, version in zip(self.script.flows[flow].hops, versions)]
            lines.append(" ".join(["flow", self.script.flows[flow].input, "-", *hops]))
        (self.folder / FROZEN).write_text("".join(line + "\n" for line in lines))
        own = {name.encode(): pair[0].encode() for pair, name in names.items()}
        for line in self.called(self.asked.program, "run", FROZEN, "-w", "1").splitlines():
            if line.startswith(b"packet "):
                self.keep(batch, own, line)

    def keep(self, batch, own, line):
        """Keeps a packet's outcome, and how many hops have judged it."""
        front, _, versions = line.rpartition(b" versions ")
        flow, _, number = front.split()[1].partition(b".")
        outcome = front.split(b" ", 2)[2]
        outcome = re.sub(rb"( hop \d+ node )(v\d+)$", lambda found: found[1] + own[found[2]], outcome)
        key = batch[int(flow) - 1]
        self.became.setdefault(key, {})[int(number)] = outcome, 0 if versions == b"-" else versions.count(b",") + 1

    def line_of(self, flow, number, versions):
        """The line of a packet whose line names these versions, or none."""
        hops = len(self.script.flows[flow].hops)
        if len(versions) > hops:
            return None
        key = flow, tuple(versions) + ((versions or [self.script.flows[flow].before])[-1],) * (hops - len(versions))
        self.ask([key])
        outcome, judged = self.became[key][number]
        if judged != len(versions):
            return None
        return b"packet %d.%d %s versions %s\n" % (flow + 1, number, outcome, ",".join(map(str, versions)).encode() or b"-")

    # --- the model's answer ---

    def first_bad(self, report, workers):
        """The first line that isn't good, counted from 1; 0 where all are."""
        lines = re.findall(rb"[^\n]*\n|[^\n]+$", report)
        place = 0
        for wanted in self.wanted(lines, workers):
            line = wanted(lines[place] if place < len(lines) else b"")
            if place >= len(lines) or lines[place] != line:
                return place + 1
            place += 1
        return place + 1 if place < len(lines) else 0

    def wanted(self, lines, workers):
        """For each line of a report what has to stand there, as a function of what does."""
        fixed = lambda line: lambda _: line
        done = self.script.flows[0].before if self.script.flows else len(self.script.commands)
        for reply in self.replies[:done]:
            yield from map(fixed, reply)
        for place, flow in enumerate(self.script.flows):
            yield fixed(b"flow %d %s\n" % (place + 1, flow.input.encode()))
            latest, denied = {}, 0
            for number in range(1, self.packets[place] + 1):
                said = {}
                yield lambda line: said.setdefault("line", self.packet_line(place, number, line, latest, workers))
                denied += said["line"] is not None and said["line"].split()[2] == b"denied"
            count = self.packets[place]
            yield fixed(b"end %d packets %d passed %d denied %d\n" % (place + 1, count, count - denied, denied))
            for reply in self.replies[flow.before:flow.after]:
                yield from map(fixed, reply)
        yield fixed(b"done\n")

    def packet_line(self, place, number, line, latest, workers):
        """What the line of a packet has to be, by the versions that it names; none where they aren't lawful."""
        flow, word = self.script.flows[place], line[:-1].rpartition(b" ")[2]
        if word == b"-":
            return self.line_of(place, number, [])
        parts = word.split(b",")
        if not all(NUMBER.fullmatch(part) for part in parts):
            return None
        versions, worker = [int(part) for part in parts], (number - 1) % workers
        least = max(flow.before, latest.get(worker, 0))
        if any(version < low for low, version in zip([least, *versions], versions)) or versions[-1] > flow.after:
            return None
        latest[worker] = versions[-1]
        return self.line_of(place, number, versions)

    def answer(self, report, workers):
        bad = self.first_bad(report, workers)
        return (8, b"no line %d\n" % bad) if bad else (0, b"yes\n")

    def compare(self, report, workers, kind, counts):
        (self.folder / REPORT).write_bytes(report)
        ran = subprocess.run([self.asked.audit, SCRIPT, REPORT, str(workers)], cwd=self.folder, capture_output=True, stdin=subprocess.DEVNULL)
        wanted = self.answer(report, workers)
        counts[kind, wanted[0]] += 1
        if (ran.returncode, ran.stdout) != wanted:
            raise Wrong(f"of {kind} with {workers} workers: {ran.stdout!r} with status {ran.returncode}, where the model has {wanted[1]!r}")


# --- changes ------------------------------------------------------------------------------------------------------------------------------------


def any_octet(chance, report):
    place = chance.randrange(len(report))
    octet = chance.choice([chance.randrange(256), *b"0123456789", 10, 32])
    return report[:place] + bytes([octet]) + report[place + 1:]


def version_digit(chance, report):
    """One digit among the versions of a packet's line, where there is one."""
    places = [place for found in PACKET.finditer(report) for place in range(*found.span(3)) if report[place] in b"0123456789"]
    if not places:
        return any_octet(chance, report)
    place = chance.choice(places)
    return report[:place] + bytes([chance.choice(b"0123456789")]) + report[place + 1:]


def other_versions(chance, trial, report):
    """The report of another run with some other versions, as far as the model says that they are lawful for one worker."""
    lines, counts = re.findall(rb"[^\n]*\n", report), collections.Counter()
    low = {}
    for place, line in enumerate(lines):
        found = PACKET.fullmatch(line)
        if found and found[3] != b"-":
            flow, number = int(found[1]) - 1, int(found[2])
            drawn, least = [], max(trial.script.flows[flow].before, low.get(flow, 0))
            for _ in trial.script.flows[flow].hops:
                least = chance.randint(least, trial.script.flows[flow].after) if chance.random() < 0.3 else least
                drawn.append(least)
            for count in range(1, len(drawn) + 1):
                told = trial.line_of(flow, number, drawn[:count])
                if told:
                    lines[place], low[flow] = told, drawn[count - 1]
                    break
        found = PACKET.fullmatch(lines[place])
        if found:
            counts[int(found[1]), lines[place].split()[2] == b"denied"] += 1
        if line.startswith(b"end "):
            flow = int(line.split()[1])
            passed, denied = counts[flow, False], counts[flow, True]
            lines[place] = b"end %d packets %d passed %d denied %d\n" % (flow, passed + denied, passed, denied)
    return b"".join(lines)


def tried(asked, folder, name, changes):
    """Tries one script, by changes that follow from the seed and its name, and answers what was counted."""
    chance, counts = random.Random(f"{asked.seed} {name}"), collections.Counter(scripts=1)
    try:
        trial = Trial(asked, folder)
        for _ in range(changes):
            workers = chance.randint(1, 16)
            report = trial.report if chance.random() < 0.5 else other_versions(chance, trial, trial.report)
            change, kind = chance.choice([(any_octet, "any octet"), (version_digit, "a version's digit")])
            trial.compare(report, workers, "reports as they are", counts)
            trial.compare(change(chance, report), workers, f"reports with {kind} changed", counts)
    except Wrong as why:
        shutil.copytree(folder, asked.keep, dirs_exist_ok=True)
        raise Wrong(f"{name} of seed {asked.seed}: {why}; its files are in {asked.keep}") from why
    shutil.rmtree(folder)
    return counts


def examples():
    """The folders of examples with a script that runs to its end."""
    for words in sorted(scratch.TOP.glob("examples/*/words*")):
        said, end = words.read_text().split(), words.name[len("words"):]
        if said[:1] == ["run"] and not (words.parent / f"status{end}").exists() and not (words.parent / f"program{end}").exists():
            yield words.parent, said[1]


def prepared(asked, made):
    """The folders in which scripts are tried, with their names."""
    for folder, script in examples():
        place = made / f"{folder.name}-{script}"
        shutil.copytree(folder, place)
        (place / SCRIPT).write_bytes((place / script).read_bytes())
        yield place, place.name
    for number in range(1, asked.networks + 1):
        network = networks.network(random.Random(f"{asked.seed} {number}"), False)
        place = made / f"network-{number}"
        place.mkdir()
        (place / SCRIPT).write_text(network.script)
        (place / CAPTURE).write_bytes(network.capture)
        yield place, place.name


def totals(counts):
    kinds = sorted({kind[0] for kind in counts if isinstance(kind, tuple)})
    told = "; ".join(f"{kind}: {counts[kind, 0] + counts[kind, 8]:,}, of which {counts[kind, 0]:,} are answered yes" for kind in kinds)
    return f"{counts['scripts']:,} scripts; {told}; each answer is the model's"


def main():
    options = argparse.ArgumentParser(description=__doc__, formatter_class=argparse.RawDescriptionHelpFormatter)
    options.add_argument("--networks", type=int, default=200)
    options.add_argument("--changes", type=int, default=50, metavar="N", help="so many changes of each script's report")
    options.add_argument("--seed", type=int, default=1)
    options.add_argument("--jobs", type=int, default=2, help="so many scripts at a time")
    options.add_argument("--keep", metavar="FOLDER", default="counterexample", help="where the files of an answer that differs are left")
    options.add_argument("--program", default=PROGRAM, type=pathlib.Path, help="another build of netlabel")
    options.add_argument("--audit", default=AUDIT, type=pathlib.Path, help="another build of netlabel_audit")
    asked = options.parse_args()
    asked.program, asked.audit = asked.program.resolve(), asked.audit.resolve()
    for program in (asked.program, asked.audit):
        if not os.access(program, os.X_OK):
            raise SystemExit(f"{program} isn't built: ./prove builds it")
    counts = collections.Counter()
    with tempfile.TemporaryDirectory() as made, concurrent.futures.ThreadPoolExecutor(asked.jobs) as pool:
        trials = [pool.submit(tried, asked, place, name, asked.changes) for place, name in prepared(asked, pathlib.Path(made))]
        try:
            for trial in trials:
                counts.update(trial.result())
        except Wrong as why:
            pool.shutdown(cancel_futures=True)
            raise SystemExit(str(why)) from why
    print(totals(counts))
    if not any(count for kind, count in counts.items() if isinstance(kind, tuple) and kind[1] == 0):
        raise SystemExit("no report is answered yes, so nothing was tested")


if __name__ == "__main__":
    main()
