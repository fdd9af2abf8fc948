"""Frames of labelled and other packets, and captures of them, which the benchmarks of `show` and `run` have their programs read."""
import random

from packets import header4

FRAMES = 4096  # so many different frames are made; the capture has them in an order of its own
TYPE4, TYPE6 = b"\x08\x00", b"\x86\xdd"


# --- options ----------------------------------------------------------------------------------------------------------------------------------


def crc(octets):
    """The check sequence of RFC 1662, Appendix C, bit by bit."""
    register = 0xFFFF
    for octet in octets:
        register ^= octet
        for _ in range(8):
            register = register >> 1 ^ 0x8408 if register & 1 else register >> 1
    return register ^ 0xFFFF


def bitmap(categories, octets):
    bits = bytearray(octets)
    for category in categories:
        bits[category // 8] |= 0x80 >> category % 8
    return bytes(bits)


def numbers(values):
    return b"".join(value.to_bytes(2, "big") for value in values)


def cipso_option(kind, level, body, doi=16):
    tag = bytes([kind, 4 + len(body), 0, level]) + body
    return bytes([134, 6 + len(tag)]) + doi.to_bytes(4, "big") + tag


def calipso_option(level, bits):
    words = len(bits) // 4
    front = bytes([7, 8 + 4 * words]) + (16).to_bytes(4, "big") + bytes([words, level])
    return front + crc(front + bytes(2) + bits).to_bytes(2, "little") + bits


def cipso(chance, dois=(16, 16, 16, 99999)):
    """An option of one of these DOIs, with a tag of each type and some categories."""
    kind = chance.choice((1, 1, 1, 2, 5))
    if kind == 1:
        body = bitmap(chance.sample(range(200), chance.randrange(12)), chance.randrange(25, 31))
    elif kind == 2:
        body = numbers(sorted(chance.sample(range(65535), chance.randrange(16))))
    else:
        body = numbers(sorted(chance.sample(range(65535), 2 * chance.randrange(8)), reverse=True))
    level = chance.randrange(8)
    return cipso_option(kind, level, body, chance.choice(dois))


def calipso(chance):
    """An option of DOI 16 with up to eight words of compartments."""
    words = chance.randrange(9)
    bits = bitmap(chance.sample(range(32 * words), min(6, 32 * words)), 4 * words)
    return calipso_option(chance.randrange(8), bits)


# --- packets ----------------------------------------------------------------------------------------------------------------------------------


def payload(chance):
    return chance.randbytes(chance.choice((8, 40, 100, 300)))


def packet4(chance, option, between="0a0000010a000002"):
    option += bytes(-len(option) % 4)
    behind = payload(chance)
    return header4(chance.randrange(65536), option, 20 + len(option) + len(behind), between=between) + behind


def packet6(chance, option):
    behind = payload(chance)
    hop = b""
    if option:
        size = -(len(option) + 2) % 8
        padding = b"" if size == 0 else bytes([0]) if size == 1 else bytes([1, size - 2]) + bytes(size - 2)
        hop = bytes([17, (2 + len(option) + size) // 8 - 1]) + option + padding
    front = bytes.fromhex("60000000") + (len(hop) + len(behind)).to_bytes(2, "big") + bytes([0 if hop else 17, 63])
    return front + bytes.fromhex("fd000000000000000000000000000001fd000000000000000000000000000002") + hop + behind


def plain4(chance, sources=("0a000001", "0a000009", "c0a80709", "ac100001")):
    """A packet without a label between chosen addresses, some with one hop left."""
    between = chance.choice(sources) + chance.choice(("0a000002", "0a000002", "0a000035", "0a000077"))
    behind = payload(chance)
    head = header4(chance.randrange(65536), b"", 28 + len(behind), chance.choice((1, 64, 64, 64, 64, 255)), between)
    return head + bytes.fromhex("03e80035") + (8 + len(behind)).to_bytes(2, "big") + bytes(2) + behind


def with_other_bit(chance, octets, begin, end):
    """The octets with one bit changed in this range."""
    changed = bytearray(octets)
    changed[chance.randrange(begin, end)] ^= 1 << chance.randrange(8)
    return bytes(changed)


def broken(chance):
    """A packet with one octet changed, with its type: in the header's first half, or in the option."""
    if chance.randrange(2):
        return with_other_bit(chance, packet4(chance, cipso(chance)), 0, 12), TYPE4
    option = calipso(chance)
    return packet6(chance, with_other_bit(chance, option, 1, len(option))), TYPE6


def broken_option4(chance):
    """An IPv4 packet whose option has one octet changed, with a right checksum."""
    option = cipso(chance)
    return packet4(chance, with_other_bit(chance, option, 1, len(option)))


# --- frames -----------------------------------------------------------------------------------------------------------------------------------


def framed(chance, packet, typed=TYPE4):
    return chance.randbytes(12) + typed + packet


def mixed(chance):
    """CIPSO options of each tag type, CALIPSO options, no label, broken headers and options, frames that aren't IP, some behind a VLAN tag."""
    kind = chance.randrange(100)
    if kind < 40:
        packet, typed = packet4(chance, cipso(chance)), TYPE4
    elif kind < 60:
        packet, typed = packet6(chance, calipso(chance)), TYPE6
    elif kind < 75:
        packet, typed = packet4(chance, b""), TYPE4
    elif kind < 85:
        packet, typed = packet6(chance, b""), TYPE6
    elif kind < 90:
        packet, typed = broken(chance)
    elif kind < 95:
        packet, typed = broken_option4(chance), TYPE4
    else:
        packet, typed = chance.randbytes(46), b"\x08\x06"
    tag = bytes.fromhex("81000007") if chance.randrange(10) == 0 else b""
    return framed(chance, packet, tag + typed)


def alternate(chance, octets):
    """A bitmap of every other bit: as many runs as it can have, four for each octet."""
    return bytes([chance.choice((0x55, 0xAA))]) * octets


def of_runs(runs):
    """Frames whose label has so many runs on the wire: up to 120 fit CIPSO's tag 1, up to 976 CALIPSO."""
    def frame(chance):
        level = chance.randrange(4)
        if runs > 120:
            return framed(chance, packet6(chance, calipso_option(level, alternate(chance, runs // 4))), TYPE6)
        if runs == 120:
            bits = alternate(chance, 30)
        else:
            bits = bitmap((3 * at for at in chance.sample(range(80), runs)), 30).rstrip(b"\0")
        return framed(chance, packet4(chance, cipso_option(1, level, bits)))
    return frame


# --- captures ---------------------------------------------------------------------------------------------------------------------------------


def little(*numbers):
    return b"".join(number.to_bytes(4, "little") for number in numbers)


def record(n, octets):
    """The frame in a libpcap file, at second n."""
    return little(n, n % 1000, len(octets), len(octets)) + octets


def block(n, octets):
    """The frame in a pcapng file, at second n: an enhanced packet block of interface 0, whose times are nanoseconds."""
    padding, time = bytes(-len(octets) % 4), n * 10**9 + n % 1000
    total = 32 + len(octets) + len(padding)
    return little(6, total, 0, time >> 32, time & 0xFFFFFFFF, len(octets), len(octets)) + octets + padding + little(total)


HEADER = little(0xA1B2C3D4, 4 << 16 | 2, 0, 0, 262144, 1)
# A section header, and an Ethernet interface whose option 9 says nanoseconds.
SECTION = little(0x0A0D0D0A, 28, 0x1A2B3C4D, 1, 0xFFFFFFFF, 0xFFFFFFFF, 28) + little(1, 32, 1, 262144, 1 << 16 | 9, 9, 0, 32)
FORMATS = {"pcap": (HEADER, record), "pcapng": (SECTION, block)}


def write_capture(path, frame, packets, seed, format="pcap"):
    """A capture of so many packets, each one of FRAMES that are made by `frame`."""
    chance = random.Random(seed)
    head, written = FORMATS[format]
    records = [written(n, frame(chance)) for n in range(FRAMES)]
    with path.open("wb") as file:
        file.write(head)
        while packets:
            count = min(packets, 50_000)
            file.write(b"".join(chance.choices(records, k=count)))
            packets -= count
