"""Calls of the programs with what each has to print, its status, and what it has to leave: the examples, captures that a Linux kernel labelled, captures
that are made, captures of the pcapng format, and what is promised of names of files.

Each call is made in a folder of its own, by programs that are installed in another: `.ci/checks.py` makes the calls by the proved programs, and `.ci/tests.py` by
unproved ones.
"""
import contextlib
import os
import pathlib
import shutil
import struct
import subprocess
import tempfile
from typing import Callable, Dict, List, NamedTuple, Optional

import kernel
import made_captures

TOP = pathlib.Path(__file__).resolve().parent.parent
# The report goes to a file of the call's folder with this name, which no example has.
PRINTED = "printed-by-this-call"


class Call(NamedTuple):
    """A call, in a folder that `prepare` fills. `left` has what it makes or changes there; `report` is None where it isn't compared. `why` is what standard error
    says of a failure."""

    name: str
    prepare: Callable[[pathlib.Path], None]
    words: List[bytes]
    status: int = 0
    report: Optional[bytes] = b""
    left: Dict[str, bytes] = {}
    program: str = "netlabel"
    why: str = ""

    def said(self):
        """All that standard error has."""
        why = self.why
        if self.status == 1:
            why = f"these words are in no form: see man {self.program} ({self.program} {(TOP / 'VERSION').read_text().strip()}, proved)"
        return f"{self.program}: {why}\n".encode() if why else b""


def held(folder):
    """What each file of a folder holds; of other things there, what they are."""
    found = {}
    for path in folder.rglob("*"):
        if path.is_file():
            found[path.relative_to(folder).as_posix()] = path.read_bytes()
        elif not path.is_dir() or path.is_symlink():
            found[path.relative_to(folder).as_posix()] = b"no regular file"
    return found


def faults(call, status, report, said, before, after):
    """What is wrong with what a call gave, by its name."""
    found = []
    if status != call.status or call.report not in (None, report):
        found.append(f"{call.name}: printed {report[:2000]!r} with status {status}")
    if said != call.said():
        found.append(f"{call.name}: said {said!r}")
    wanted = {**before, **call.left}
    for name in sorted(wanted.keys() | after.keys()):
        if wanted.get(name) != after.get(name):
            found.append(f"{call.name}: {name} holds {after[name][:200].hex(' ')}" if name in after else f"{call.name}: there is no {name}")
    return found


def made(call, scripts, seconds=60):
    """What is wrong with what a call gives, by the programs that these scripts run."""
    with tempfile.TemporaryDirectory() as name:
        folder = pathlib.Path(name)
        call.prepare(folder)
        before = held(folder)
        try:
            with (folder / PRINTED).open("wb") as printed:
                ran = subprocess.run([scripts / call.program, *call.words], cwd=folder, stdin=subprocess.DEVNULL, stdout=printed, stderr=subprocess.PIPE, timeout=seconds)
        except subprocess.TimeoutExpired:
            return [f"{call.name}: it hadn't ended after {seconds} seconds"]
        after = held(folder)
        return faults(call, ran.returncode, after.pop(PRINTED), ran.stderr, before, after)


def some(folder, pattern):
    """The files with such names, of which there has to be one: nothing is tested by none."""
    found = sorted(folder.glob(pattern))
    if not found:
        raise FileNotFoundError(f"{folder} has no {pattern}")
    return found


# --- programs ---------------------------------------------------------------------------------------------------------------------------------


def unproved(program):
    """The file of an unproved program, which is built if it isn't kept."""
    ran = subprocess.run(["sh", TOP / "lib/unproved.sh", program], stdin=subprocess.DEVNULL, capture_output=True, text=True)
    if ran.returncode:
        raise RuntimeError(ran.stderr)
    return pathlib.Path(ran.stdout.rstrip("\n"))


def proved(program):
    """The file of a proved one, which is built."""
    crates = TOP / "crates"
    crate = next(name for name in (f"{program}_run", program) if (crates / name / "src/main.rt").is_file())
    return crates / crate / "out" / crate


@contextlib.contextmanager
def installed(programs):
    """The folder of the scripts that run these programs, which are names with their files, where `install.sh` would have put them. Everybody may read it."""
    with tempfile.TemporaryDirectory() as name:
        top = pathlib.Path(name)
        scripts, files, pages = top / "bin", top / "libexec/netlabel", top / "share/doc/netlabel"
        for folder in (scripts, files, pages):
            folder.mkdir(parents=True)
        top.chmod(0o755)
        shutil.copy(TOP / "lib/run.sh", files)
        shutil.copy(TOP / "VERSION", pages)
        for program, file in programs.items():
            shutil.copy(file, files / program)
            shutil.copy(TOP / program, scripts)
        if "netlabel" not in programs:
            shutil.copy(TOP / "netlabel", scripts)
        yield scripts


# --- examples ---------------------------------------------------------------------------------------------------------------------------------


def example(words):
    """An example: `words` has one word a line; the program is `netlabel` and the status is 0 unless a file says otherwise; `wanted/` has the captures that it
    makes, and `why` what standard error says. Of a further call in the same folder the names of all these end alike: `words-run`, `report-run`."""
    folder, end = words.parent, words.name[len("words"):]
    status, program, why = folder / f"status{end}", folder / f"program{end}", folder / f"why{end}"
    return Call(
        name=folder.relative_to(TOP).as_posix() + end,
        prepare=lambda made: shutil.copytree(folder, made, dirs_exist_ok=True),
        words=[os.fsencode(word) for word in words.read_text().splitlines()],
        status=int(status.read_text()) if status.exists() else 0,
        report=(folder / f"report{end}").read_bytes(),
        left=held(folder / f"wanted{end}"),
        program=program.read_text().strip() if program.exists() else "netlabel",
        why=why.read_text().strip() if why.exists() else "",
    )


def examples():
    return [example(words) for words in some(TOP, "examples/*/words*")]


# --- captures of a Linux kernel ----------------------------------------------------------------------------------------------------------------


def of_kernel(path):
    """`show` of a capture: each packet has the label that its sender said."""
    lines = kernel.report_of(kernel.rows_of(path))
    return Call(
        name=path.relative_to(TOP).as_posix(),
        prepare=lambda made: shutil.copy(path, made),
        words=[b"show", os.fsencode(path.name)],
        report="".join(f"{line}\n" for line in lines).encode(),
    )


def kernel_captures():
    return [of_kernel(path) for path in some(kernel.FOLDER, "*.pcap")]


# --- names of files ---------------------------------------------------------------------------------------------------------------------------


def capture(frames, link=1):
    """A capture of these frames, all at second 1; the link type is Ethernet's, if no other is said."""
    records = [struct.pack("<IIII", 1, 0, len(frame), len(frame)) + frame for frame in frames]
    return struct.pack("<IHHiIII", 0xA1B2C3D4, 2, 4, 0, 0, 262144, link) + b"".join(records)


ARP = b"\xff" * 6 + b"\x02" * 6 + b"\x08\x06" + bytes(28)
# An output without a packet, of IP alone.
EMPTY = capture([], link=101)
FLOW_OF_ONE = b"packet %d.1 denied 22 NotIp hop 0 node - versions -\nend %d packets 1 passed 0 denied 1\n"
WHOLE = b"flow 1 b.pcap\n" + FLOW_OF_ONE % (1, 1)


def script(*flows):
    return ("node fw\n" + "".join(f"flow {names} receive:fw,eth0\n" for names in flows)).encode()


def names(name, flows, *, status, report, own="s", words=None, more=lambda folder: None, left={}, why=""):
    """A call of `run` on a script with these flows, beside `b.pcap` and `c.pcap`, captures of one frame without IP, and what `more` makes."""

    def prepare(folder):
        for pcap in ("b.pcap", "c.pcap"):
            (folder / pcap).write_bytes(capture([ARP]))
        (folder / "folder").mkdir()
        (folder / "s").write_bytes(script(*flows))
        more(folder)

    return Call(name, prepare, words or [b"run", own.encode()], status, report, left, why=why)


MANY = 24000


def many(folder):
    """A capture whose report has more than 1 MiB."""
    (folder / "b.pcap").write_bytes(capture([ARP] * MANY))
    (folder / "o.pcap").write_bytes(b"kept")


def piped(folder):
    """A pipe that a capture comes through."""
    os.mkfifo(folder / "pipe")
    subprocess.Popen(["cp", "b.pcap", "pipe"], cwd=folder, stderr=subprocess.DEVNULL)


ABSENT, FOLDER = "No such file or directory", "Is a directory"
IRREGULAR, NOWHERE = "it is no regular file", "it is a link that leads nowhere"
READ, MADE_ALREADY, OF_REPORT_ITSELF = "this call reads it", "this call makes it already", "it is the file that standard output goes to"
MADE = {"o.pcap": EMPTY}
BEGUN = b"flow 1 b.pcap\n"
DENIED_FRAMES = b"".join(b"packet 1.%d denied 22 NotIp hop 0 node - versions -\n" % n for n in range(1, MANY + 1))
MANY_DENIED = BEGUN + DENIED_FRAMES + b"end 1 packets %d passed 0 denied %d\ndone\n" % (MANY, MANY)
NAMES = [
    names("the input by another spelling", ["b.pcap ./b.pcap"], status=3, why=f"./b.pcap: {READ}", report=BEGUN),
    names("the input by a link", ["b.pcap l"], status=3, why=f"l: {READ}", report=BEGUN, more=lambda at: (at / "l").symlink_to("b.pcap")),
    names("the input by a second name", ["b.pcap h"], status=3, why=f"h: {READ}", report=BEGUN, more=lambda at: os.link(at / "b.pcap", at / "h")),
    names("the input through a folder", ["b.pcap folder/../b.pcap"], status=3, why=f"folder/../b.pcap: {READ}", report=BEGUN),
    names("the script by another spelling", ["b.pcap ./s"], status=3, why=f"./s: {READ}", report=BEGUN),
    names("the script by its own name", ["b.pcap s"], status=2, report=b"script line 2 octet 12 NameTwice\n"),
    names("the script by its own long name", ["b.pcap folder/../s"], own="folder/../s", status=2, report=b"script line 2 octet 12 NameTwice\n"),
    names("a later flow's input", ["b.pcap ./c.pcap", "c.pcap -"], status=3, why=f"./c.pcap: {READ}", report=BEGUN),
    names("a later flow's input, not there yet", ["b.pcap ./d.pcap", "d.pcap -"], status=3, why=f"d.pcap: {ABSENT}", report=BEGUN),
    names("an earlier flow's output", ["b.pcap o.pcap", "b.pcap ./o.pcap"], status=3, why=f"./o.pcap: {MADE_ALREADY}", report=WHOLE + b"flow 2 b.pcap\n", left=MADE),
    names("a folder", ["b.pcap folder"], status=3, why=f"folder: {FOLDER}", report=BEGUN),
    names("a pipe", ["b.pcap pipe"], status=3, why=f"pipe: {IRREGULAR}", report=BEGUN, more=lambda at: os.mkfifo(at / "pipe")),
    names("a device", ["b.pcap null"], status=3, why=f"null: {IRREGULAR}", report=BEGUN, more=lambda at: (at / "null").symlink_to("/dev/null")),
    names("a link that leads nowhere", ["b.pcap l"], status=3, why=f"l: {NOWHERE}", report=BEGUN, more=lambda at: (at / "l").symlink_to("nowhere")),
    names("in a folder that isn't there", ["b.pcap no/o.pcap"], status=3, why=f"no/o.pcap: {ABSENT}", report=BEGUN),
    names("an input that isn't there", ["b.pcap o.pcap", "no.pcap -"], status=3, why=f"no.pcap: {ABSENT}", report=WHOLE + b"flow 2 no.pcap\n", left=MADE),
    names("a broken input", ["s o.pcap"], status=5, report=b"flow 1 s\ncapture 1 octet 0 Magic\n", more=lambda at: (at / "o.pcap").write_bytes(b"kept")),
    names("a new output", ["b.pcap o.pcap"], status=0, report=WHOLE + b"done\n", left=MADE),
    names("in a folder", ["./b.pcap folder/o.pcap"], status=0, report=WHOLE.replace(b"b.pcap", b"./b.pcap") + b"done\n", left={"folder/o.pcap": EMPTY}),
    names("an old output, with its second name", ["b.pcap o.pcap"], status=0, report=WHOLE + b"done\n", left={**MADE, "h": EMPTY},
          more=lambda at: ((at / "o.pcap").write_bytes(b"old"), os.link(at / "o.pcap", at / "h"))),
    names("absolute names", [], status=0, report=None, left=MADE,
          more=lambda at: (at / "s").write_bytes(script(f"{at}/b.pcap {at}/o.pcap", "b.pcap -"))),
    names("with two workers", ["b.pcap o.pcap"], words=[b"run", b"s", b"-w", b"2"], status=0, report=WHOLE + b"done\n", left=MADE),
    names("with no worker", ["b.pcap o.pcap"], words=[b"run", b"s", b"-w", b"0"], status=1, report=None),
    names("with two words in one", ["b.pcap o.pcap"], words=[b"run", b"s", b"-w\n2"], status=1, report=None),
    names("with a CR behind a number", ["b.pcap o.pcap"], words=[b"run", b"s", b"-w", b"2\r"], status=1, report=None),
    names("an empty word at the end", ["b.pcap o.pcap"], words=[b"run", b"s", b""], status=1, report=None),
    names("names with braces", ["b.pcap {}.pcap"], own="{}", status=0, report=WHOLE + b"done\n", left={"{}.pcap": EMPTY},
          more=lambda at: (at / "s").rename(at / "{}")),
    names("a word that isn't UTF-8", [], words=[b"judge", b"\xff", b"s2", b"b.pcap"], status=1, report=None),
    names("no script", ["b.pcap o.pcap"], own="absent", status=3, why=f"absent: {ABSENT}", report=b""),
    names("a folder as a script", ["b.pcap o.pcap"], own="folder", status=3, why=f"folder: {FOLDER}", report=b""),
    names("a fault below a flow", ["b.pcap o.pcap", "b.pcap o.pcap"], status=2, report=b"script line 3 octet 12 NameTwice\n"),
    names("a flow too many", ["b.pcap -"] * 257, status=7, report=b"limit flows 256\n"),
    names("hops compared, and no capture read or made", ["absent o.pcap", "b.pcap -"], words=[b"agree", b"s", b"2"], status=0, report=b"agree\n"),
    names("hops of the script by another name", ["b.pcap s"], words=[b"agree", b"./s", b"1", b"0"], status=0, report=b"agree\n"),
    names("hops of a script whose output is its own name", ["b.pcap s"], words=[b"agree", b"s", b"1"], status=2, report=b"script line 2 octet 12 NameTwice\n"),
    names("no such flow", ["b.pcap -"], words=[b"agree", b"s", b"2"], status=2, report=b"script line 0 octet 0 NoFlow\n"),
    names("versions of another flow", ["b.pcap -"], words=[b"agree", b"s", b"1", b"1"], status=2, report=b"script line 0 octet 0 BadVersions\n"),
    names("no script to compare hops of", ["b.pcap -"], words=[b"agree", b"absent", b"1"], status=3, why=f"absent: {ABSENT}", report=b""),
    names("hops compared with an empty list", ["b.pcap -"], words=[b"agree", b"s", b"1", b""], status=1, report=None),
    names("no words", [], words=[b"help"], status=1, report=None),
    names("a file of the program's own folder", [], words=[b"show", b"README.md"], status=3, why=f"README.md: {ABSENT}", report=b""),
    names("a capture through a pipe", [], words=[b"show", b"pipe"], status=0, report=b"packet 1 NotIp\nend packets 1\n", more=piped, left={"pipe": b"no regular file"}),
    names("a link that leads to itself", [], words=[b"show", b"l"], status=3, why="l: Too many levels of symbolic links", report=b"", more=lambda at: (at / "l").symlink_to("l")),
    names("a file below a file", [], words=[b"check", b"s/s"], status=3, why="s/s: Not a directory", report=b""),
    names("a file whose reading fails", [], words=[b"show", b"/proc/self/mem"], status=3, why="/proc/self/mem: Input/output error", report=b""),
    names("a report of more than 1 MiB", ["b.pcap o.pcap"], status=0, report=MANY_DENIED, left=MADE, more=many),
    names("a capture by another spelling", [], words=[b"show", b"./b.pcap"], status=0, report=b"packet 1 NotIp\nend packets 1\n"),
]
OF_REPORT = [
    names("the report's file", [f"b.pcap {PRINTED}"], status=3, why=f"{PRINTED}: {OF_REPORT_ITSELF}", report=BEGUN),
    names("standard output", ["b.pcap /dev/stdout"], status=3, why=f"/dev/stdout: {OF_REPORT_ITSELF}", report=BEGUN),
    names("the report's file as a capture to be made", [], words=[b"make", b"7", b"3", PRINTED.encode()], status=3, why=f"{PRINTED}: {OF_REPORT_ITSELF}", report=b""),
]

# --- captures that are made -------------------------------------------------------------------------------------------------------------------


def making(name, seed=7, count=3, *, output="o.pcap", more=lambda folder: None, left={}):
    """A call of `make` which leaves and prints what another program says."""
    words = [b"make", b"%d" % seed, b"%d" % count, output.encode()]
    return names(name, [], words=words, status=0, report=made_captures.line(seed, count), more=more, left={output: made_captures.capture(seed, count), **left})


def not_making(name, output, why="", *, words=None, status=3, report=b"", more=lambda folder: None):
    return names(name, [], words=words or [b"make", b"7", b"3", output.encode()], status=status, report=report, more=more, why=why and f"{output}: {why}")


MAKING = [
    making("a capture made from a number"),
    making("a capture made without a packet", count=0),
    making("a capture made of 3,000 packets", count=3000),
    making("a capture made in a folder", seed=2**64 - 1, output="folder/o.pcap"),
    making("a capture made over another one, with its second name", left={"h": made_captures.capture(7, 3)},
           more=lambda at: ((at / "o.pcap").write_bytes(b"old"), os.link(at / "o.pcap", at / "h"))),
    not_making("a folder as a capture to be made", "folder", FOLDER),
    not_making("a pipe as a capture to be made", "pipe", IRREGULAR, more=lambda at: os.mkfifo(at / "pipe")),
    not_making("a device as a capture to be made", "null", IRREGULAR, more=lambda at: (at / "null").symlink_to("/dev/null")),
    not_making("a capture to be made in a folder that isn't there", "no/o.pcap", ABSENT),
    not_making("a capture to be made of a packet too many", "", words=[b"make", b"7", b"1048577", b"o.pcap"], status=1, report=None),
    not_making("a capture to be made from a number too great", "", words=[b"make", b"18446744073709551616", b"3", b"o.pcap"], status=1, report=None),
]
MOST_PACKETS = 1048576
# Interface 0 is Ethernet, interface 1 raw IP, both of them with times in microseconds.
TWO_INTERFACES = made_captures.section() + made_captures.interface(1) + made_captures.interface(101)
# These take an unproved program too long.
LONG = [
    making("a capture made of 100,000 packets", count=100000),
    names("that capture, shown", [], words=[b"show", b"m.pcap"], status=0, report=b"".join(made_captures.shown(7, 100000)),
          more=lambda at: (at / "m.pcap").write_bytes(made_captures.capture(7, 100000))),
    names("its packets in pcapng, shown", [], words=[b"show", b"m.pcapng"], status=0, report=b"".join(made_captures.shown(7, 100000)),
          more=lambda at: (at / "m.pcapng").write_bytes(made_captures.in_pcapng(7, 100000))),
    names("a packet too many in pcapng, shown", [], words=[b"show", b"m.pcapng"], status=7,
          report=b"".join(b"packet %d NotIp\n" % n for n in range(1, MOST_PACKETS + 1)) + b"limit packets %d\n" % MOST_PACKETS,
          more=lambda at: (at / "m.pcapng").write_bytes(TWO_INTERFACES + made_captures.enhanced(5, b"") * (MOST_PACKETS + 1))),
]

# --- captures of the pcapng format --------------------------------------------------------------------------------------------------------------

EMPTY_NG = made_captures.written([])
MADE_NG = {"o.pcap": EMPTY_NG}
# The commands of one node that forwards all packets with a label as they are, but for their hops.
FORWARDING = b"node fw\ncipsov4 add pass doi:16 tags:1\nmap add default protocol:cipsov4,16\nflow m.pcapng o.pcap forward:fw,eth0,eth1,any\n"


def pcapng(name, octets, flows=("b.pcap o.pcap",), *, status, report, **rest):
    """A call over this file as `b.pcap`, beside an output that is there already."""

    def fill(folder):
        (folder / "b.pcap").write_bytes(octets)
        (folder / "o.pcap").write_bytes(b"kept")

    return names(name, list(flows), status=status, report=report, more=fill, **rest)


def broken(name, octets, fault, *, left=MADE_NG):
    """A call over a pcapng file whose fault is told behind its frames, of which no one is IP; `left` is empty where the file's beginning is at fault."""
    return pcapng(name, octets, status=5, report=BEGUN + b"capture 1 %s\n" % fault, left=left)


def forwarding(seed, count):
    """`run` over packets of a number in pcapng: the output has the same with one hop less, in pcapng too."""
    lines = b"".join(b"packet 1.%d sent cipsov4,16 versions 2\n" % n for n in range(1, count + 1))
    return names(
        "packets in pcapng, forwarded", [], own="flows", status=0, left={"o.pcap": made_captures.in_pcapng(seed, count, hops=63)},
        report=b"command 1 fw done\ncommand 2 fw done\nflow 1 m.pcapng\n" + lines + b"end 1 packets %d passed %d denied 0\ndone\n" % (count, count),
        more=lambda at: ((at / "flows").write_bytes(FORWARDING), (at / "m.pcapng").write_bytes(made_captures.in_pcapng(seed, count))),
    )


FRAME = made_captures.enhanced(5, ARP)
PCAPNG = [
    pcapng("pcapng, with an output over an old file", TWO_INTERFACES + FRAME, status=0, report=WHOLE + b"done\n", left=MADE_NG),
    pcapng("pcapng without a packet", made_captures.section(), status=0, report=BEGUN + b"end 1 packets 0 passed 0 denied 0\ndone\n", left=MADE_NG),
    pcapng("flows of both formats", TWO_INTERFACES + FRAME, ["b.pcap o.pcap", "c.pcap p.pcap"], status=0, left={**MADE_NG, "p.pcap": EMPTY},
           report=WHOLE + b"flow 2 c.pcap\n" + FLOW_OF_ONE % (2, 2) + b"done\n"),
    pcapng("blocks that are passed over", TWO_INTERFACES + made_captures.block(0x80000001, bytes(200000)) + FRAME + made_captures.block(5, bytes(12)),
           status=0, report=WHOLE + b"done\n", left=MADE_NG),
    pcapng("sections of both orders", made_captures.section(order=">") + made_captures.interface(101, order=">") + TWO_INTERFACES + FRAME,
           status=0, report=WHOLE + b"done\n", left=MADE_NG),
    broken("pcapng of fewer octets than its format takes", b"\n\r\r", b"octet 3 Short", left={}),
    broken("a section header of another version", made_captures.section()[:12] + b"\2" + made_captures.section()[13:], b"octet 12 Version", left={}),
    broken("a section header that ends in the file's end", TWO_INTERFACES[:20], b"octet 20 Short", left={}),
    broken("an interface that ends in the file's end", TWO_INTERFACES[:40], b"octet 40 Short"),
    broken("a simple packet block", TWO_INTERFACES + made_captures.block(3, bytes(8)), b"octet 68 Block"),
    broken("a packet of an interface that isn't there", TWO_INTERFACES + made_captures.enhanced(5, ARP, place=2), b"octet 76 Interface"),
    broken("a packet of an interface of a section before", TWO_INTERFACES + made_captures.section() + FRAME, b"octet 104 Interface"),
    broken("a resolution that isn't read", made_captures.section() + made_captures.interface(1, [(9, b"\3")]) + FRAME, b"octet 68 Resolution"),
    pcapng("pcapng, shown", made_captures.of_two_interfaces(), [], words=[b"show", b"b.pcap"], status=0,
           report=(TOP / "examples/pcapng/report-show").read_bytes()),
    pcapng("pcapng as a packet", made_captures.of_two_interfaces(), [], words=[b"judge", b"16", b"s2", b"b.pcap"], status=0,
           report=b"denied 1 BadHeader octet 0\n"),
    forwarding(11, 300),
]

# --- captures over a border ---------------------------------------------------------------------------------------------------------------------

BORDER_SCRIPT = (TOP / "examples/ripso-border/border").read_bytes()
NOTHING_CROSSES = b"packet 1 denied 22 NotIp\nend packets 1 passed 0 denied 1\n"


def border(name, output="o.pcap", *, status=0, report=NOTHING_CROSSES, own="s", read="b.pcap", way=b"in", more=lambda folder: None, left=None, why=""):
    """A call of `ripso_border` over a capture of one frame without IP, which leaves an output without a packet, if it ends with 0."""

    def fill(folder):
        (folder / "s").write_bytes(BORDER_SCRIPT)
        more(folder)

    made = ({output: EMPTY} if status == 0 else {}) if left is None else left
    words = [way, own.encode(), b"16", read.encode(), output.encode()]
    return names(name, [], words=words, status=status, report=report, more=fill, left=made, why=why)._replace(program="ripso_border")


def of_so_many(count, ends, status):
    """A call over so many frames without an octet, of which the last line is this one."""
    lines = b"".join(b"packet %d denied 1 BadHeader octet 0\n" % n for n in range(1, MOST_PACKETS + 1))
    return border(f"{count} packets at a border", status=status, report=lines + ends, left=MADE,
                  more=lambda at: (at / "b.pcap").write_bytes(capture([b""] * count, link=101)))


NAME_TWICE = b"script line 0 octet 0 NameTwice\n"
BORDER = [
    border("a border's output is its input", "b.pcap", status=2, report=NAME_TWICE),
    border("a border's output is its script", "s", status=2, report=NAME_TWICE),
    border("a border's input by another spelling", "./b.pcap", status=3, why=f"./b.pcap: {READ}", report=b""),
    border("a border's input by a link", "l", status=3, why=f"l: {READ}", report=b"", more=lambda at: (at / "l").symlink_to("b.pcap")),
    border("a border's input by a second name", "h", status=3, why=f"h: {READ}", report=b"", more=lambda at: os.link(at / "b.pcap", at / "h")),
    border("a border's script by another spelling", "folder/../s", status=3, why=f"folder/../s: {READ}", report=b""),
    border("a border's output is a folder", "folder", status=3, why=f"folder: {FOLDER}", report=b""),
    border("a border's output is a pipe", "pipe", status=3, why=f"pipe: {IRREGULAR}", report=b"", more=lambda at: os.mkfifo(at / "pipe")),
    border("a border's output in a folder that isn't there", "no/o.pcap", status=3, why=f"no/o.pcap: {ABSENT}", report=b""),
    border("a border's input isn't there", status=3, why=f"no.pcap: {ABSENT}", report=b"", read="no.pcap"),
    border("a border's script isn't there", status=3, why=f"absent: {ABSENT}", report=b"", own="absent"),
    border("a border's input in pcapng", status=5, report=b"capture 1 octet 0 Magic\n",
           more=lambda at: ((at / "b.pcap").write_bytes(made_captures.of_two_interfaces()), (at / "o.pcap").write_bytes(b"kept"))),
    border("a border's input is cut behind its packet", status=5, report=NOTHING_CROSSES.splitlines(True)[0] + b"capture 1 octet 83 Short\n", left=MADE,
           more=lambda at: ((at / "b.pcap").write_bytes(capture([ARP, b""])[:83]), (at / "o.pcap").write_bytes(b"old"))),
    border("a new output of a border", way=b"out"),
    border("an old output of a border, with its second name", left={**MADE, "h": EMPTY},
           more=lambda at: ((at / "o.pcap").write_bytes(b"old"), os.link(at / "o.pcap", at / "h"))),
    border("an output of a border in a folder", "folder/o.pcap", read="./b.pcap"),
    border("no way over a border", status=1, report=None, way=b"over"),
]
LONG_BORDER = [
    of_so_many(MOST_PACKETS, b"end packets %d passed 0 denied %d\n" % (MOST_PACKETS, MOST_PACKETS), 0),
    of_so_many(MOST_PACKETS + 1, b"limit packets %d\n" % MOST_PACKETS, 7),
]

# --- reports that are audited -------------------------------------------------------------------------------------------------------------------


def auditing(name, audited, *, flows=("b.pcap -",), words=(b"s", b"r", b"4"), more=lambda folder: None, **rest):
    """A call of `netlabel_audit` on the script with these flows, and this report in `r`."""

    def fill(folder):
        (folder / "r").write_bytes(audited)
        more(folder)

    return names(name, list(flows), words=list(words), more=fill, **rest)._replace(program="netlabel_audit")


AUDITS = [
    auditing("a report", WHOLE + b"done\n", status=0, report=b"yes\n"),
    auditing("a report, by other spellings of names", WHOLE + b"done\n", words=[b"./s", b"folder/../r", b"16"], status=0, report=b"yes\n"),
    auditing("a report of two flows", WHOLE + b"flow 2 c.pcap\n" + FLOW_OF_ONE % (2, 2) + b"done\n", flows=["b.pcap o.pcap", "c.pcap -"], status=0, report=b"yes\n"),
    auditing("a report without its last line", WHOLE, status=8, report=b"no line 4\n"),
    auditing("a report that goes on", WHOLE + b"done\ndone\n", status=8, report=b"no line 5\n"),
    auditing("a report of a capture by another spelling", WHOLE.replace(b"b.pcap", b"./b.pcap") + b"done\n", status=8, report=b"no line 1\n"),
    auditing("the script as its report", b"", words=[b"s", b"s", b"1"], status=8, report=b"no line 1\n"),
    auditing("a report that isn't there", b"", words=[b"s", b"absent", b"1"], status=3, why=f"absent: {ABSENT}", report=b""),
    auditing("a folder as a report", b"", words=[b"s", b"folder", b"1"], status=3, why=f"folder: {FOLDER}", report=b""),
    auditing("a report of a capture that isn't there", WHOLE + b"done\n", flows=["no.pcap -"], status=3, why=f"no.pcap: {ABSENT}", report=b""),
    auditing("a report of a broken capture", WHOLE + b"done\n", flows=["b.pcap -", "s -"], status=5, report=b"capture 2 octet 0 Magic\n"),
    auditing("a report of no script", WHOLE + b"done\n", words=[b"r", b"r", b"1"], status=2, report=b"script line 1 octet 13 Missing\n"),
    auditing("a report with no worker", WHOLE + b"done\n", words=[b"s", b"r", b"0"], status=1, report=b"usage: netlabel_audit <script> <report> <n>\n"),
]
MOST_REPORT = 268435456
LONG_AUDITS = [
    auditing("a report of the most octets", b"", status=8, report=b"no line 1\n", more=lambda at: os.truncate(at / "r", MOST_REPORT)),
    auditing("a report of an octet more", b"", status=7, report=b"limit report %d\n" % MOST_REPORT, more=lambda at: os.truncate(at / "r", MOST_REPORT + 1)),
    auditing("a packet too many behind a report", b"", flows=["b.pcap -", "m.pcapng -"], status=7, report=b"limit packets %d\n" % MOST_PACKETS,
             more=lambda at: (at / "m.pcapng").write_bytes(TWO_INTERFACES + made_captures.enhanced(5, b"") * MOST_PACKETS)),
]
