"""Reads capture files, packet by packet, and writes such files, for tools that judge the program and its crates.

It is a plain reading of docs/formats.md, as gsm.py is, and shares nothing with the crates.
"""
import struct

from gsm import Refused

# link types of libpcap, tags of virtual networks, and the type of IPv4 in Ethernet
LINKS = (0, 1, 101, 108, 113, 228, 276)
TAGS = (b"\x81\x00", b"\x88\xa8")
IPV4 = b"\x08\x00"
# protocols in IPv4
TCP, UDP = 6, 17
# of pcapng: the type of a section header, which is the same in either order, and its magic number; types of blocks
PCAPNG = b"\x0A\x0D\x0D\x0A"
ORDERS = {b"\x4D\x3C\x2B\x1A": "<", b"\x1A\x2B\x3C\x4D": ">"}
INTERFACE, OLD_PACKET, SIMPLE_PACKET, PACKET = 1, 2, 3, 6
# options of an interface: the resolution of its clock, and the time from which it counts
TS_RESOLUTION, TS_OFFSET = 9, 14


def ones_sum(octets):
    """The one's complement sum of words of 16 bits."""
    total = 0
    for word, in struct.iter_unpack(">H", octets):
        total += word
        total = (total & 0xFFFF) + (total >> 16)
    return total


def internet(source, target, identity, payload, protocol=UDP):
    """Returns a packet of IPv4 with this payload."""
    header = struct.pack(">BBHHHBBH4s4s", 0x45, 0, 20 + len(payload), identity, 0, 64, protocol, 0, source, target)
    return header[:10] + struct.pack(">H", ones_sum(header) ^ 0xFFFF) + header[12:] + payload


def datagram(payload, port=4729):
    """Returns a datagram of UDP with this payload."""
    return struct.pack(">HHHH", port, port, 8 + len(payload), 0) + payload


def segment(ports, sequence, flags, payload):
    """Returns a segment of TCP with this payload, from and to these ports."""
    return struct.pack(">HHIIBBHHH", *ports, sequence, 0, 0x50, flags, 65535, 0, 0) + payload


def file_header(order="<", magic=0xA1B2C3D4, link=228):
    """Returns the header of a classic file; times are in nanoseconds with the magic number A1B23C4D."""
    return struct.pack(order + "IHHiIII", magic, 2, 4, 0, 0, 65535, link)


def packet(octets, when=(0, 0), order="<"):
    """Returns a packet of a classic file. Its time is in seconds, and in micro- or nanoseconds by the file's header."""
    return struct.pack(order + "IIII", *when, len(octets), len(octets)) + octets


def gsmtap(frame, channel, block, arfcn=0, slot=2):
    """Returns a block in GSMTAP."""
    return struct.pack(">BBBBHbbIBBBB", 2, 4, 1, 0, arfcn, 0, 0, frame, channel, 0, slot, 0) + block


def packets_of(octets):
    """Returns an iterator over the packets: their number, link type, time in nanoseconds or None, and octets."""
    if octets[:4] == PCAPNG:
        return each_in_blocks(octets)
    if len(octets) < 24:
        raise Refused("not a capture file")
    for order in "<>":
        unit = {0xA1B2C3D4: 1000, 0xA1B23C4D: 1}.get(struct.unpack_from(order + "I", octets)[0])
        if unit:
            break
    else:
        raise Refused("not a capture file")
    link = struct.unpack_from(order + "I", octets, 20)[0]
    if link not in LINKS:
        raise Refused(unknown(link))
    return each_packet(octets, order, link, unit)


def known_packets_of(octets):
    """Yields the packets of a capture file as packets_of gives them; one of a link type that isn't known is refused."""
    for number, link, time, inside in packets_of(octets):
        if link not in LINKS:
            raise Refused(f"packet {number}: {unknown(link)}")
        yield number, link, time, inside


def unknown(link):
    """Returns the fault of a link type that isn't known."""
    return f"unknown link type {link}: known are 0, 1, 101, 108, 113, 228 and 276"


def each_packet(octets, order, link, unit):
    """Yields the packets of a classic file, whose fractions of a second have so many nanoseconds."""
    place, number = 24, 0
    while place < len(octets):
        number += 1
        if len(octets) - place < 16:
            raise Refused(f"packet {number}: capture is short")
        second, fraction, size = struct.unpack_from(order + "III", octets, place)
        place += 16
        if len(octets) - place < size:
            raise Refused(f"packet {number}: capture is short")
        yield number, link, second * 10 ** 9 + fraction * unit, octets[place:place + size]
        place += size


def each_in_blocks(octets):
    """Yields the packets of a file of pcapng. A fault names the packet that would be next."""
    place, number, order, faces = 0, 0, "", []
    while place < len(octets):
        kind, order, body = block_at(octets, place, order, number + 1)
        place += 12 + len(body)
        try:
            if kind == struct.unpack(order + "I", PCAPNG)[0]:
                struct.unpack_from(order + "IHHQ", body)
                faces = []
            elif kind == INTERFACE:
                faces.append((*struct.unpack_from(order + "HHI", body), tick_of(order, body[8:])))
            elif kind in (PACKET, OLD_PACKET):
                words = struct.unpack_from(order + ("IQII" if kind == PACKET else "HHQII"), body)
                link, *_, tick = faces[words[0]]
                if words[-2] > len(body) - 20:
                    raise IndexError
                number += 1
                high, low = struct.unpack_from(order + "II", body, 4)
                yield number, link, told(tick, high << 32 | low), body[20:20 + words[-2]]
            elif kind == SIMPLE_PACKET:
                size = struct.unpack_from(order + "I", body)[0]
                link, _, longest, _ = faces[0]
                size = min(size, longest or size)
                if size > len(body) - 4:
                    raise IndexError
                number += 1
                yield number, link, None, body[4:4 + size]
        except (struct.error, IndexError):
            raise Refused(f"packet {number + 1}: wrong block") from None


def tick_of(order, octets):
    """Returns how many nanoseconds a tick lasts by the options of an interface, or None where that isn't known."""
    values = {}
    while len(octets) >= 4:
        code, size = struct.unpack_from(order + "HH", octets)
        if code == 0 or size > len(octets) - 4:
            break
        values.setdefault(code, octets[4:4 + size])
        octets = octets[4 + size + -size % 4:]
    if TS_OFFSET in values:
        return None
    resolution = values.get(TS_RESOLUTION, b"\6")
    return 10 ** (9 - resolution[0]) if len(resolution) == 1 and resolution[0] <= 9 else None


def told(tick, ticks):
    """Returns the nanoseconds of ticks, if 64 bits have them."""
    return ticks * tick if tick is not None and ticks * tick < 1 << 64 else None


def block_at(octets, place, order, number):
    """Returns the type of the block at a place, the order of its numbers, and its body."""
    head = octets[place:place + 12]
    if len(head) < 12:
        raise Refused(f"packet {number}: capture is short")
    if head[:4] == PCAPNG:
        order = ORDERS.get(head[8:])
    kind, size = struct.unpack_from((order or "<") + "II", head)
    if not order or size < 12 or size % 4 != 0:
        raise Refused(f"packet {number}: wrong block")
    if place + size > len(octets):
        raise Refused(f"packet {number}: capture is short")
    if struct.unpack_from(order + "I", octets, place + size - 4)[0] != size:
        raise Refused(f"packet {number}: wrong block")
    return kind, order, octets[place + 8:place + size - 4]


def internet_in(link, octets):
    """Returns what follows the header of a packet's link; nothing, if that isn't IPv4."""
    if link in (101, 228):
        return octets
    if link in (0, 108):
        return octets[4:] if octets[:4] in (b"\2\0\0\0", b"\0\0\0\2") else b""
    if link == 276:
        return octets[20:] if octets[:2] == IPV4 else b""
    octets = octets[12 if link == 1 else 14:]
    for _ in range(2):
        if octets[:2] in TAGS and len(octets) >= 4:
            octets = octets[4:]
    return octets[2:] if octets[:2] == IPV4 else b""


def carried_in(octets, protocol):
    """Returns what follows the header of a packet of IPv4, if that has this protocol and is no fragment; else None."""
    if len(octets) < 20 or octets[0] >> 4 != 4 or octets[9] != protocol:
        return None
    size = 4 * (octets[0] & 15)
    if size < 20 or len(octets) < size or struct.unpack_from(">H", octets, 6)[0] & 0x3FFF:
        return None
    return octets[size:]


def linked(rng, link, octets):
    """Returns a packet of a link that has these octets, or, at times, another header."""
    kind = IPV4 if rng.random() < 0.99 else b"\x08\x06"
    tags = b"".join(rng.choice(TAGS) + rng.randbytes(2) for _ in range(rng.choice([0, 0, 0, 1, 2, 3])))
    if link in (101, 228):
        return octets
    if link in (0, 108):
        return rng.choice([b"\2\0\0\0", b"\0\0\0\2"]) + octets if kind == IPV4 else b"\x1e\0\0\0" + octets
    if link == 276:
        return kind + rng.randbytes(18) + octets
    return rng.randbytes(12 if link == 1 else 14) + tags + kind + octets


def block_of(order, kind, body):
    """Returns a block of pcapng."""
    body += bytes(-len(body) % 4)
    size = struct.pack(order + "I", 12 + len(body))
    return struct.pack(order + "I", kind) + size + body + size


def clock(rng, order):
    """Returns options that say how an interface counts time, among others."""
    out = options(rng, order).removesuffix(bytes(4)) if rng.random() < 0.5 else b""
    if rng.random() < 0.6:
        value = bytes([rng.choice([0, 3, 6, 6, 9, 9, 10, 0x86, 0x8A])]) + rng.choice([b"", b"", b"", b"\0"])
        out += struct.pack(order + "HH", TS_RESOLUTION, len(value)) + value + bytes(-len(value) % 4)
    if rng.random() < 0.05:
        out += struct.pack(order + "HHQ", TS_OFFSET, 8, rng.randrange(1 << 20))
    return out + rng.choice([b"", bytes(4)])


def options(rng, order):
    """Returns a few options of a block, at times with their end."""
    out = b""
    for _ in range(rng.choice([0, 0, 1, 2])):
        value = rng.randbytes(rng.randrange(9))
        out += struct.pack(order + "HH", rng.randrange(1, 20), len(value)) + value + bytes(-len(value) % 4)
    return out + rng.choice([b"", bytes(4)]) if out else out
