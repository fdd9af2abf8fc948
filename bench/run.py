"""Times `netlabel run` beside a plain C program that does the same on one thread (bench/run.c), and measures its memory.

    python3 bench/run.py [--packets N] [--runs N] [--only WORD] [--calls] [--keep FOLDER] [--program PROGRAM] [--plain SOURCE]

The program is the one that `./prove` proves and builds, or another build of it. A row is a script with one flow, whose capture has 1,000,000 packets,
or fewer where the lines of a report are long:

one hop         a firewall receives: labelled packets of both versions, packets without a label, some of which a static entry labels, broken headers
                and options, frames that aren't IP
two hops        packets without a label are labelled with CIPSO, and go over a gateway that labels them under another DOI; some can't be
two translate   the same, with other numbers under each DOI
four, sixteen   gateways in a row that label packets of all tag types under another DOI each, and a receiver behind them
runs            each packet is delivered with a label of so many runs of categories: in CIPSO's tag 1 up to 120, in CALIPSO up to 976; 1,952 by a
                definition that translates, or by a static entry
receivers       labelled packets to so many receivers with different levels
other work      one hop and four while all processors but one are busy with other work

Where a name has "output", what passed is written to a capture; where it has "pcapng", input and output are of that format. Reports and outputs of C
and of the program with 1, 2 and 4 workers are compared octet by octet first. A time is the least of several runs, the programs in turn, with the
report thrown away; the process's start is in it. Memory is the most that the process held, and system calls are counted, both in runs of their own.
"""
import pathlib
from typing import Callable, NamedTuple

import beside
import frames
import scratch

PROGRAMS = ("C", "1", "2", "4")
WORKERS = PROGRAMS[1:]


class Row(NamedTuple):
    """A flow that is measured: its script, the frames of its capture, the part of the packets that are asked for, and the capture's format."""

    name: str
    script: str
    frame: Callable
    part: int = 1
    has_other_work: bool = False
    format: str = "pcap"


# --- scripts and frames -----------------------------------------------------------------------------------------------------------------------


def receiving(output="-"):
    return f"""node fw
cipsov4 add pass doi:16 tags:1,2,5
calipso add pass doi:16
map add default address:10.0.0.0/8 protocol:cipsov4,16
map add default address:192.168.7.0/24 protocol:unlbl
map add domain:six_t protocol:calipso,16
unlbl accept on
unlbl add interface:eth0 address:192.168.7.0/24 label:s0
receiver add address:10.0.0.2 domain:httpd_t level:s6:c0.c65534
receiver add address:10.0.0.53 domain:named_t level:s0
receiver add address:fd00::2 domain:six_t level:s6:c0.c1951
range add interface:eth0 range:s0-s7:c0.c65534
flow in.pcap {output} receive:fw,eth0
"""


def some_plain(plain):
    """Mixed frames, and in so many cases of a hundred one with a packet without a label."""
    def frame(chance):
        if chance.randrange(100) >= plain:
            return frames.mixed(chance)
        return frames.framed(chance, frames.plain4(chance))
    return frame


def sending(output="-", under=("pass doi:16 tags:1,2", "pass doi:16 tags:1,2", "pass doi:17 tags:2,5")):
    """A host and a gateway, with the definitions of the host, and of the gateway for either side."""
    return f"""node a
cipsov4 add {under[0]}
map add domain:app_t address:10.0.0.0/8 protocol:cipsov4,16
range add interface:eth0 range:s0-s3:c0.c1023
node g
cipsov4 add {under[1]}
cipsov4 add {under[2]}
map add default protocol:cipsov4,17
range add interface:eth1 range:s0-s3:c0.c1023
flow in.pcap {output} send:a,app_t,eth0,s2:c1,c3,c200 forward:g,eth0,eth1,any
"""


def shifted(doi, by, tags="1,2"):
    """A definition that translates: on the wire each level is one higher, and each of 256 categories is higher by so many."""
    levels = ",".join(f"{level}={level + 1}" for level in range(8))
    categories = ",".join(f"{category}={category + by}" for category in range(256))
    return f"trans doi:{doi} tags:{tags} levels:{levels} categories:{categories}"


def row_of_gateways(hops, output="-"):
    """Gateways that take DOI 16 and give 17, or the other way about, and a receiver behind them."""
    lines = []
    for n in range(1, hops):
        to = 16 + n % 2
        lines += [f"node g{n}", "cipsov4 add pass doi:16 tags:1,2,5", "cipsov4 add pass doi:17 tags:1,2,5",
                  f"map add default protocol:cipsov4,{to}", "range add interface:eth0 range:s0-s6:c0.c65534"]
    lines += ["node r", f"cipsov4 add pass doi:{16 + (hops - 1) % 2} tags:1,2,5", f"map add default protocol:cipsov4,{16 + (hops - 1) % 2}",
              "receiver add address:10.0.0.2 domain:httpd_t level:s5:c0.c65534", "range add interface:eth0 range:s0-s7:c0.c65534"]
    way = " ".join(f"forward:g{n},eth0,eth1,any" for n in range(1, hops))
    return "\n".join([*lines, f"flow in.pcap {output} {way} receive:r,eth0", ""])


def for_gateways(chance):
    """Labelled packets of IPv4, and some that are denied at the first gateway."""
    if chance.randrange(10) == 0:
        return frames.mixed(chance)
    return frames.framed(chance, frames.packet4(chance, frames.cipso(chance, (16,))))


def delivering(*commands):
    """A node that delivers whatever it understands."""
    lines = ["node fw", *commands, "receiver add address:10.0.0.2 domain:httpd_t level:s7:c0.c65534",
             "receiver add address:fd00::2 domain:six_t level:s7:c0.c65534", "range add interface:eth0 range:s0-s7:c0.c65534"]
    return "\n".join([*lines, "flow in.pcap - receive:fw,eth0", ""])


PASSING = delivering("cipsov4 add pass doi:16 tags:1", "calipso add pass doi:16", "map add domain:httpd_t protocol:cipsov4,16",
                     "map add domain:six_t protocol:calipso,16")


def spread(runs):
    """A definition of CALIPSO under which so many neighbouring categories on the wire are no neighbours in the node's numbers."""
    categories = ",".join(f"{2 * category}={category}" for category in range(runs))
    return delivering(f"calipso add trans doi:16 levels:{','.join(f'{level}={level}' for level in range(8))} categories:{categories}",
                      "map add domain:six_t protocol:calipso,16")


def of_one_run(categories):
    """Packets of IPv6 that have so many categories, a multiple of 32, in one run."""
    def frame(chance):
        option = frames.calipso_option(chance.randrange(4), bytes([255]) * (categories // 8))
        return frames.framed(chance, frames.packet6(chance, option), frames.TYPE6)
    return frame


def static(runs):
    """An entry that gives packets without a label one of so many runs."""
    label = "s1:" + ",".join(f"c{2 * run}" for run in range(runs))
    return delivering("map add domain:httpd_t protocol:unlbl", "unlbl accept on", f"unlbl add interface:eth0 address:10.0.0.0/8 label:{label}")


def unlabelled(chance):
    return frames.framed(chance, frames.packet4(chance, b""))


def receivers(count):
    """So many receivers in four domains, with four levels."""
    lines = ["node fw", "cipsov4 add pass doi:16 tags:1,2,5"]
    lines += [f"map add domain:d{n} address:10.0.0.0/8 protocol:cipsov4,16" for n in range(4)]
    lines += [f"receiver add address:10.0.1.{n} domain:d{n % 4} level:s{4 + n // 4 % 4}:c0.c65534" for n in range(count)]
    return "\n".join([*lines, "range add interface:eth0 range:s0-s7:c0.c65534", "flow in.pcap - receive:fw,eth0", ""])


def for_receivers(count):
    def frame(chance):
        between = f"0a0000010a0001{chance.randrange(count):02x}"
        return frames.framed(chance, frames.packet4(chance, frames.cipso(chance, (16,)), between))
    return frame


TRANSLATING = (shifted(16, 4), shifted(16, 4), shifted(17, 8, "2,5"))

ROWS = [
    Row("one hop", receiving(), some_plain(30)),
    Row("one hop, output", receiving("out.pcap"), some_plain(30)),
    Row("one hop, output, pcapng", receiving("out.pcap"), some_plain(30), format="pcapng"),
    Row("two hops", sending(), some_plain(75)),
    Row("two hops, output", sending("out.pcap"), some_plain(75)),
    Row("two hops translate, output", sending("out.pcap", TRANSLATING), some_plain(75)),
    Row("four hops", row_of_gateways(4), for_gateways),
    Row("four hops, output", row_of_gateways(4, "out.pcap"), for_gateways),
    Row("sixteen hops", row_of_gateways(16), for_gateways, 2),
    Row("2 runs", PASSING, frames.of_runs(2)),
    Row("120 runs", PASSING, frames.of_runs(120), 5),
    Row("240 runs", PASSING, frames.of_runs(240), 10),
    Row("976 runs", PASSING, frames.of_runs(976), 50),
    Row("1,952 runs, translated", spread(1952), of_one_run(1952), 100),
    Row("1,952 runs, static", static(1952), unlabelled, 100),
    Row("8 receivers", receivers(8), for_receivers(8)),
    Row("256 receivers", receivers(256), for_receivers(256)),
    Row("one hop, other work", receiving(), some_plain(30), has_other_work=True),
    Row("four hops, other work", row_of_gateways(4), for_gateways, has_other_work=True),
]


# --- measuring --------------------------------------------------------------------------------------------------------------------------------


def print_head(has_calls):
    of_times = ["C", "`-w 1`", "`-w 2`", "`-w 4`", "`-w 1` to C", "`-w 4` to `-w 1`"]
    counted = ["C", "`-w 1`", "`-w 4`"]
    cells = ["Flow", "Packets", f"Elapsed: {of_times[0]}", *of_times[1:], f"CPU: {of_times[0]}", *of_times[1:], f"Memory: {counted[0]}", *counted[1:]]
    if has_calls:
        cells += [f"System calls: {counted[0]}", *counted[1:]]
    beside.print_head(cells)


def cells_of_times(seconds, packets):
    """Nanoseconds a packet of each program, and the ratios."""
    cells = [f"{seconds[name] / packets * 1e9:,.0f}" for name in PROGRAMS]
    return [*cells, f"{seconds['1'] / seconds['C']:.2f}", f"{seconds['4'] / seconds['1']:.2f}"]


def measured(row, packets, runs, commands):
    busy = beside.processors() - 1 if row.has_other_work else 0
    with beside.other_work(busy):
        took = beside.least(commands, runs)
    elapsed, processor = ({name: both[which] for name, both in took.items()} for which in (1, 0))
    return [f"{packets:,}", *cells_of_times(elapsed, packets), *cells_of_times(processor, packets)]


def bench(row, asked, plain):
    pathlib.Path("script").write_text(row.script)
    packets = max(asked.packets // row.part, 1)
    frames.write_capture(pathlib.Path("in.pcap"), row.frame, packets, 11, row.format)
    commands = {"C": [plain, "script"]} | {count: [asked.program, "run", "script", "-w", count] for count in WORKERS}
    size = beside.compared(commands).report.stat().st_size
    cells = [row.name, *measured(row, packets, asked.runs, commands)]
    counted = [commands[name] for name in ("C", "1", "4")]
    cells += [f"{beside.memory(command, size) / 1e6:.1f}" for command in counted]
    if asked.calls:
        cells += [f"{beside.calls(command):,}" for command in counted]
    beside.print_row(cells)


def main():
    asked = beside.asked(__doc__)
    with beside.working_in(asked.keep) as folder:
        plain = beside.built_c("run", folder, asked.plain)
        print(f"nanoseconds a packet, the least of {asked.runs} runs; memory in MB; {scratch.load()}\n")
        print_head(asked.calls)
        for row in ROWS:
            if asked.only in row.name:
                bench(row, asked, plain)
    print(f"\nat the end: {scratch.load()}")


if __name__ == "__main__":
    main()
