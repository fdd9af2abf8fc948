"""Refuses one allocation after another of calls of the built program, and one thread after another, and checks how each call ends.

    python3 bench/refused_program.py [--times N] [--program PROGRAM]

The calls are the examples of `judge`, `show`, `check`, `agree` and `make`, the one that crosses from version to version and back, those of the programs beside
`netlabel`, and a script with a command between its flows. Of each call every allocation is refused in turn, those of its threads too, by bench/refused.c, which is loaded before the
program. The status has to be 6 with a beginning of the report, and of each output; or the report and the outputs have to be whole, with their
status. Where commands run beside packets, each of the reports that are lawful will do. Each call has to have an allocation that was refused, and one
of them to end with 6. Then each thread of a call is refused in turn, alone and with all behind it: the call has to end whole. A call that doesn't end
within a minute is told as one that hangs.
"""
import argparse
import collections
import pathlib
import shutil
import struct
import subprocess
import tempfile

import scratch

NO_MEMORY = 6
# Examples, each with the end of the names of its files.
EXAMPLES = [
    ("first-packet", ""), ("show", ""), ("check", ""), ("disagree", ""), ("make", ""), ("crossing", ""), ("cover", ""), ("audit", ""), ("audit", "-changed"),
    ("reports", ""), ("reports", "-json"), ("reports", "-other"), ("ripso-border", ""), ("ripso-border", "-out"),
]

SCRIPT = """node r
unlbl accept on
unlbl add default address:0.0.0.0/0 label:s1:c2
map add default protocol:unlbl
receiver add address:10.0.0.2 domain:sink_t level:s1:c2
flow one.pcap - receive:r,eth0
flow one.pcap - receive:r,eth0
receiver del address:10.0.0.2
flow one.pcap - receive:r,eth0
"""

# One record of a UDP packet from 10.0.0.1 to 10.0.0.2, without a label.
CAPTURE = bytes.fromhex(
    "d4c3b2a1 0200 0400 00000000 00000000 00000400 65000000"
    "00000000 00000000 1c000000 1c000000"
    "4500001c 00004000 401126cf 0a000001 0a000002 03e80035 0008e7be"
)

DELIVERED = ("delivered s1:c2 to 10.0.0.2 versions 4", "passed 1 denied 0")
DENIED = ("denied 10 NoReceiver hop 1 node r versions 5", "passed 0 denied 1")


def between(packet, counts):
    """The report of the script, where the packet of the second flow, beside whose packets the receiver goes, came to this."""
    flows = [DELIVERED, (packet, counts), DENIED]
    lines = [f"command {k} r done" for k in range(1, 5)]
    for number, (said, counted) in enumerate(flows, 1):
        lines += [f"flow {number} one.pcap", f"packet {number}.1 {said}", f"end {number} packets 1 {counted}"]
        lines += ["command 5 r done"] * (number == 2)
    return "\n".join([*lines, "done", ""]).encode()


class Call:
    """A call of the program: the folder that it runs in, its words, and how it may end."""

    def __init__(self, folder, words, reports, status, wanted, program="netlabel"):
        self.folder, self.words, self.reports, self.status, self.wanted, self.program = folder, words, reports, status, wanted, program

    def __str__(self):
        return " ".join([self.program, *self.words])

    def is_right(self, status, printed, made):
        if status == NO_MEMORY:
            is_beginning = any(report.startswith(printed) for report in self.reports)
            return is_beginning and all(self.wanted.get(name, b"").startswith(held) for name, held in made.items())
        return status == self.status and printed in self.reports and made == self.wanted


def example(name, end):
    folder = scratch.TOP / "examples" / name
    wanted = {path.name: path.read_bytes() for path in (folder / f"wanted{end}").glob("*")}
    status, program = folder / f"status{end}", folder / f"program{end}"
    return Call(
        folder, (folder / f"words{end}").read_text().splitlines(), [(folder / f"report{end}").read_bytes()], int(status.read_text()) if status.exists() else 0, wanted,
        program.read_text().strip() if program.exists() else "netlabel",
    )


def built(program):
    """Where a program is built, by its name."""
    rooms = [scratch.TOP / "crates" / room / "out" / room for room in (f"{program}_run", program)]
    return next(path for path in rooms if path.exists())


def commands_between(folder):
    folder.mkdir()
    (folder / "between").write_text(SCRIPT)
    (folder / "one.pcap").write_bytes(CAPTURE)
    return Call(folder, ["run", "between"], [between(*DELIVERED), between(*DENIED)], 0, {})


class Refuser:
    """Runs calls of the programs, of which something is refused; those of `netlabel` by another build of it, if one is given."""

    def __init__(self, netlabel, top):
        self.netlabel, self.library, self.counted = netlabel, top / "refused.so", top / "counted"
        subprocess.run(["cc", "-O2", "-shared", "-fPIC", "-o", self.library, scratch.TOP / "bench/refused.c"], check=True)

    def run(self, call, **what):
        """The status that a call ends with, and how many allocations and threads it asked for."""
        program = self.netlabel if call.program == "netlabel" and self.netlabel else built(call.program)
        with tempfile.TemporaryDirectory() as made:
            here = shutil.copytree(call.folder, pathlib.Path(made) / "here")
            given = {path.name for path in here.iterdir()}
            words = {"LD_PRELOAD": str(self.library), "COUNTED": str(self.counted)} | {name: str(number) for name, number in what.items()}
            try:
                run = subprocess.run([program, *call.words], cwd=here, env=words, capture_output=True, timeout=60)
            except subprocess.TimeoutExpired:
                raise SystemExit(f"{call}, {what}: hangs")
            left = {path.name: path.read_bytes() for path in here.iterdir() if path.name not in given}
        if not call.is_right(run.returncode, run.stdout, left):
            raise SystemExit(f"{call}, {what}: status {run.returncode}, {run.stdout!r}, {sorted(left)}, {run.stderr!r}")
        return run.returncode, *struct.unpack("ll", self.counted.read_bytes())


def refuse_memory(refuser, call, times):
    """Refuses each allocation of a call so often, and tells what came of it."""
    _, count, _ = refuser.run(call)
    ends, reached = collections.Counter(), 0
    for number in range(1, count + 1):
        for _ in range(times):
            status, asked_for, _ = refuser.run(call, REFUSE=number)
            ends[status] += 1
            reached += asked_for >= number
    if not reached or not ends[NO_MEMORY]:
        raise SystemExit(f"{call}: of {count} allocations {reached} were refused, and {ends[NO_MEMORY]} of these calls ended with 6")
    told = ", ".join(f"status {status} {times} times" for status, times in sorted(ends.items()))
    return f"{count} allocations, each refused {times} times: {told}"


def refuse_threads(refuser, call, times):
    """Refuses each thread of a call so often, alone and with all behind it. Each call has to end whole."""
    _, _, count = refuser.run(call)
    for number in range(1, count + 1):
        for behind in ({}, {"ALL_BEHIND": 1}):
            for _ in range(times):
                status, _, _ = refuser.run(call, REFUSE_THREAD=number, **behind)
                if status != call.status:
                    raise SystemExit(f"{call}, thread {number}: status {status}")
    return f"{count} threads, each refused {times} times alone and {times} with all behind it: ended whole"


def main():
    options = argparse.ArgumentParser(description=__doc__, formatter_class=argparse.RawDescriptionHelpFormatter)
    options.add_argument("--times", type=int, default=3, help="how often each is refused, as threads go in different orders")
    options.add_argument("--program", type=pathlib.Path, help="another build of netlabel")
    asked = options.parse_args()
    with tempfile.TemporaryDirectory() as made:
        top = pathlib.Path(made)
        refuser = Refuser(asked.program and asked.program.resolve(), top)
        for call in [*(example(*it) for it in EXAMPLES), commands_between(top / "between")]:
            said = refuse_memory(refuser, call, asked.times), refuse_threads(refuser, call, asked.times)
            print(f"{call}: {'; '.join(said)}", flush=True)


if __name__ == "__main__":
    main()
