"""Captures by another program: what `make` has to leave and to print, which is the capture that follows from a number (Knuth's generator for MMIX, datagrams of
UDP in IPv4 with a label in CIPSO's tag 1 under DOI 16) and how many of its packets a receiver of the level `s2:c0.c13` may have; and captures of the pcapng format
(draft-ietf-opsawg-pcapng), among them one with the blocks and options that dumpcap writes.
"""
import itertools
import struct

import kernel

FACTOR, SUMMAND, MODULUS = 6364136223846793005, 1442695040888963407, 1 << 64
DATAGRAM = struct.pack(">HHHH", 1000, 53, 8, 0)
# The categories of a bitmap of two octets that the receiver lacks, 14 and 15, and its level.
LACKED, LEVEL = 0b11, 2


def numbers(seed):
    while True:
        seed = (seed * FACTOR + SUMMAND) % MODULUS
        yield seed


def level_of(number):
    return number >> 56 & 3


def bitmap_of(number):
    return number >> 40 & 0xFFFF


def checksum(octets):
    """The complement of the one's complement sum, of octets that aren't all 0."""
    total = sum(struct.unpack(f">{len(octets) // 2}H", octets))
    return 0xFFFF - ((total - 1) % 0xFFFF + 1)


def cipso(level, bitmap, doi=16):
    """A label's option, in a tag of type 1."""
    tag = struct.pack(">BBBB", 1, 4 + len(bitmap), 0, level) + bitmap
    return struct.pack(">BBI", 134, 6 + len(tag), doi) + tag


def datagram(option, source=1, hops=64):
    """A packet of IPv4 from 10.0.0.source to 10.0.0.2, with an option or none."""
    option += bytes(-len(option) % 4)
    words = 5 + len(option) // 4
    addresses = bytes([10, 0, 0, source, 10, 0, 0, 2])
    front = struct.pack(">BBHHHBB", 0x40 + words, 0, 4 * words + len(DATAGRAM), 0, 0, hops, 17)
    total = checksum(front + b"\0\0" + addresses + option)
    return front + struct.pack(">H", total) + addresses + option + DATAGRAM


def packet(number, hops=64):
    bitmap = struct.pack(">H", bitmap_of(number)).rstrip(b"\0")
    return datagram(cipso(level_of(number), bitmap), number >> 32 & 0xFF, hops)


def packets(seed, count, hops=64):
    """The packets that follow from a number, each with its second."""
    return [(second, packet(number, hops)) for second, number in enumerate(itertools.islice(numbers(seed), count), 1)]


def capture(seed, count):
    parts = [struct.pack("<IHHiIII", 0xA1B2C3D4, 2, 4, 0, 0, 262144, 101)]
    for second, octets in packets(seed, count):
        parts += [struct.pack("<IIII", second, 0, len(octets), len(octets)), octets]
    return b"".join(parts)


def line(seed, count):
    delivered = sum(level_of(number) <= LEVEL and not bitmap_of(number) & LACKED for number in itertools.islice(numbers(seed), count))
    return b"made %d delivered %d denied %d\n" % (count, delivered, count - delivered)


def shown(seed, count):
    """What `show` prints of the capture."""
    for place, number in enumerate(itertools.islice(numbers(seed), count), 1):
        categories = [category for category in range(16) if bitmap_of(number) << category & 0x8000]
        yield b"packet %d cipsov4 doi 16 tag 1 %s octet 20\n" % (place, kernel.label_text(level_of(number), categories).encode())
    yield b"end packets %d\n" % count


# --- the pcapng format -------------------------------------------------------------------------------------------------------------------------

ETHERNET, RAW_IP, NANOSECONDS = 1, 101, 9
COMMENT, IF_NAME, IF_TSRESOL, IF_FILTER, IF_OS = 1, 2, 9, 11, 12


def padded(octets):
    return octets + bytes(-len(octets) % 4)


def options(pairs, order):
    """Options of a block by their codes, and their end; nothing where there are none."""
    pairs = [*pairs, (0, b"")] if pairs else []
    return b"".join(struct.pack(f"{order}HH", code, len(value)) + padded(value) for code, value in pairs)


def block(kind, body, order="<"):
    total = struct.pack(f"{order}I", 12 + len(body))
    return struct.pack(f"{order}I", kind) + total + body + total


def section(pairs=(), order="<"):
    return block(0x0A0D0D0A, struct.pack(f"{order}IHHq", 0x1A2B3C4D, 1, 0, -1) + options(pairs, order), order)


def interface(link, pairs=(), order="<"):
    return block(1, struct.pack(f"{order}HHI", link, 0, 262144) + options(pairs, order), order)


def enhanced(units, octets, place=0, pairs=(), order="<"):
    """A packet of the interface at this place, with its time as a count of the interface's units."""
    front = struct.pack(f"{order}IIIII", place, units >> 32, units & 0xFFFFFFFF, len(octets), len(octets))
    return block(6, front + padded(octets) + options(pairs, order), order)


def written(frames):
    """What the program writes of packets of IP, each with its nanoseconds."""
    return section() + interface(RAW_IP, [(IF_TSRESOL, bytes([NANOSECONDS]))]) + b"".join(enhanced(*frame) for frame in frames)


def in_pcapng(seed, count, hops=64):
    """The packets that follow from a number, in the form in which the program writes pcapng."""
    return written((second * 10**9, octets) for second, octets in packets(seed, count, hops))


# --- a capture as dumpcap writes it, of two interfaces: examples/pcapng --------------------------------------------------------------------------

BEGUN = 1790000000  # its first second
ADDRESSES_6 = bytes.fromhex("fd000000000000000000000000000001" "fd000000000000000000000000000002")
CALIPSO = bytes.fromhex("1101" "070c000000100102b77e50000000")  # DOI 16, level 2, the categories 1 and 3, in a Hop-by-Hop header
FROM, ARP = bytes.fromhex("020000000002" "020000000001"), bytes.fromhex("0806" "0001080006040001" "0200000000010a000001" "0000000000000a000002")


def datagram6(hops=64):
    """A packet of IPv6 with that label, from fd00::1 to fd00::2."""
    return struct.pack(">IHBB", 6 << 28, len(CALIPSO) + len(DATAGRAM), 0, hops) + ADDRESSES_6 + CALIPSO + DATAGRAM


def frames_of_two():
    """Six frames: the milliseconds, the interface, and the octets."""
    return [
        (0, 0, FROM + ARP),
        (4, 0, FROM + b"\x08\x00" + datagram(cipso(2, b"\x50"))),
        (250, 1, datagram6()),
        (1500, 1, datagram(cipso(1, b""), source=9)),
        (2750, 0, FROM + b"\x08\x00" + datagram(b"")),
        (3000, 0, FROM + b"\x86\xdd" + datagram6()),
    ]


def of_two_interfaces():
    """Ethernet with times in microseconds, and raw IP with times in nanoseconds, with their names, filters and statistics, and names of hosts."""
    machine = [(2, b"Intel(R) Core(TM) i5-8250U CPU @ 1.60GHz (with SSE4.2)"), (3, b"Linux 6.1.0-49-amd64"), (4, b"Dumpcap (Wireshark) 4.0.17")]
    eth0 = [(IF_NAME, b"eth0"), (IF_TSRESOL, bytes([6])), (IF_FILTER, b"\0arp or ip or ip6"), (IF_OS, b"Linux 6.1.0-49-amd64")]
    tun0 = [(IF_NAME, b"tun0"), (IF_TSRESOL, bytes([NANOSECONDS])), (IF_FILTER, b"\0ip or ip6"), (IF_OS, b"Linux 6.1.0-49-amd64")]
    second = (10**6, 10**9)
    blocks = [section(machine), interface(ETHERNET, eth0), interface(RAW_IP, tun0)]
    host = bytes([10, 0, 0, 2]) + b"press.example\0"
    blocks += [block(4, struct.pack("<HH", 1, len(host)) + padded(host) + bytes(4))]
    for after, place, octets in frames_of_two():
        comment = [(COMMENT, b"the first label")] if after == 4 else []
        blocks += [enhanced(BEGUN * second[place] + after * second[place] // 1000, octets, place, comment)]
    for place, count in ((0, 4), (1, 2)):
        counts = [(4, struct.pack("<Q", count)), (5, bytes(8))]
        blocks += [block(5, struct.pack("<III", place, 0, 0) + options(counts, "<"))]
    return b"".join(blocks)


def passed_of_two():
    """What its script leaves: the packets that passed, in raw IP, with the labels of IPv4 under DOI 20."""
    left = {4: datagram(cipso(2, b"\x50", 20), hops=63), 250: datagram6(63), 1500: datagram(cipso(1, b"", 20), 9, 63), 3000: datagram6(63)}
    return written(((BEGUN * 1000 + after) * 10**6, octets) for after, octets in left.items())
