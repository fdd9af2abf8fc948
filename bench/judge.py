"""Times `netlabel judge` on the largest packet, on a packet of 1,500 octets, and on long levels. Run it at the top: python3 bench/judge.py"""
import pathlib
import random
import statistics
import subprocess
import tempfile
import time

from beside import PROGRAM, built

program = built(PROGRAM)


def packet6(length):
    """An IPv6 packet of this length with a CALIPSO option of DOI 16, level 2 and the compartments 1 and 3."""
    addresses = bytes.fromhex("fd000000000000000000000000000001fd000000000000000000000000000002")
    option = bytes.fromhex("1101070c000000100102b77e50000000")
    payload = length - 40
    return bytes.fromhex("60000000") + payload.to_bytes(2, "big") + b"\x00\x3f" + addresses + option + bytes(payload - 16)


def scattered(octets):
    """A level text of about so many octets, whose terms come in no order and repeat."""
    chance = random.Random(7)
    terms, length = [], 3
    while length < octets - 8:
        terms.append(f"c{2 * chance.randrange(1951)}")
        length += len(terms[-1]) + 1
    return "s2:" + ",".join(terms)


def timed(folder, level, name):
    runs = []
    for _ in range(21):
        start = time.perf_counter()
        subprocess.run([program, "judge", "16", level, name], cwd=folder, check=True, capture_output=True)
        runs.append(time.perf_counter() - start)
    return statistics.median(runs) * 1000


with tempfile.TemporaryDirectory() as folder:
    (pathlib.Path(folder) / "largest.bin").write_bytes(packet6(65575))
    (pathlib.Path(folder) / "usual.bin").write_bytes(packet6(1500))
    rows = [
        ("the largest packet, 65,575 octets", "s2:c0.c5", "largest.bin"),
        ("a packet of 1,500 octets", "s2:c0.c5", "usual.bin"),
        ("a level of 60,000 octets in scattered order", scattered(60000), "usual.bin"),
        ("a level of 1,951 runs in ascending order", "s2:" + ",".join(f"c{2 * i}" for i in range(1951)), "usual.bin"),
    ]
    for what, level, name in rows:
        print(f"{what}: {timed(folder, level, name):.1f} ms a call, the process's start included")
