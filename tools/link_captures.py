"""Makes random captures of links between centres and controllers and of the air of their cells, each with words of
`warnc orders` for it. link_orders_reference.py uses it.
"""
import collections
import struct

import gsm
from capture_files import (INTERFACE, LINKS, OLD_PACKET, PACKET, PCAPNG, SIMPLE_PACKET, TCP, block_of, clock, datagram,
                           file_header, gsmtap, internet, internet_in, linked, options, packet, segment, tick_of)
from capture_reference import FRAMES, foreign, packet_block_of, spoilt
from orders_reference import SIZES, Messages, elements_of, is_read, number
from streams_reference import MOST_WAITING, PORT, ROUND

SECOND = 10 ** 9
# of a hyperframe
MULTIFRAMES = FRAMES // 51
# the nanoseconds that files of pcapng and classic ones can have
END, CLASSIC_END = 1 << 64, SECOND << 32
SYN, ACK, DATA, RESET, FIN = 0x02, 0x10, 0x18, 0x04, 0x11
# the messages that only a centre sends
OF_CENTRE = (0x01, 0x04, 0x07, 0x0A, 0x0D, 0x10, 0x16)
# a capture with the words for it
Made = collections.namedtuple("Made", "words file")
# the description of an interface in pcapng: link type, most octets of a packet, nanoseconds of a tick
Face = collections.namedtuple("Face", "link longest tick")


def lasting(frames):
    """Returns the nanoseconds of so many frames of 120/26 ms."""
    return frames * 60_000_000 // 13


# ---- the air

class Station:
    """A base station: who it is, where in the hyperframe it begins, and what becomes of its blocks."""

    def __init__(self, rng):
        self.rng = rng
        self.source = bytes([127, 0, 0, rng.randint(1, 3)])
        self.arfcn = rng.choice((0, 51, 871, 1023))
        self.is_sdcch = rng.random() < 0.2
        self.first = rng.choice((0, 3, rng.randrange(MULTIFRAMES), MULTIFRAMES - rng.randint(1, 60)))
        self.jitter = rng.choice((0, 1000, 5_000_000, 2 * SECOND))
        self.lost = rng.choice((0, 0, 0.1, 0.5))
        # how likely the next block is some slots later, and how many
        self.leaps = rng.choice(((0, (1,)), (0, (1,)), (0.1, (1, 2, 30)), (0.1, (1, 3000, 3327))))
        self.has_right_clock, self.is_exact, self.passes_end = rng.random() < 0.8, False, False
        if rng.random() < 0.06:
            self.passes_end = True
        elif rng.random() < 0.3:
            # each block says to the tick when the tape began, as its frames are whole microseconds
            self.jitter, self.has_right_clock, self.is_exact = 0, True, True

    def frame(self, multiframe):
        """Returns the frame of a block in a multiframe, from that of the first block's slot on."""
        frame = (multiframe - self.first // 8 * 8) * 51 + self.rng.randrange(32, 36)
        return frame if not self.is_exact else frame // 13 * 13

    def packet(self, frame):
        """Returns the packet of a block in a frame, which may be past the end of the hyperframe."""
        rng = self.rng
        frame = (self.first // 8 * 408 + frame) % (FRAMES if rng.random() < 0.97 else 1 << 32)
        channel = rng.choice((7, 8)) if self.is_sdcch else rng.choice((12, 15))
        block = rng.choice((gsm.IDLE, rng.randbytes(gsm.BLOCK)))
        arfcn = self.arfcn | rng.choice((0, 0x8000))
        return internet(self.source, b"\x7f\0\0\1", 0, datagram(gsmtap(frame, channel, block, arfcn)))

    def course(self, slots):
        """Yields the multiframes in which blocks are sent, each with how far off the clock is by then."""
        rng, at, off, is_back = self.rng, self.first, 0, False
        for _ in range(8 * slots):
            is_sent = (at % 8 < 4 or rng.random() < 0.2) and rng.random() >= self.lost
            if is_sent:
                yield at, off
            at += 1
            if is_sent and at % 8 in (1, 2, 3) and rng.random() < self.leaps[0]:
                at += 8 * rng.choice(self.leaps[1])
            if not self.has_right_clock and rng.random() < 0.1:
                off = rng.randint(-30, 30) * SECOND
            is_back = is_sent and rng.random() < (0.3 if is_back else 0.03 if at < self.first + 4 else 0.004)
            if is_back:
                at += 8 * rng.choice((*[-1] * 12, -2, 3328)) - 1

    def course_past_end(self):
        """Yields these of a tape that goes on past its last slot, from which on no block says when it began. Of the
        blocks before that about half have another clock, so that each of them counts."""
        first, off = self.first // 8 * 8, self.rng.randint(-400, 400) * SECOND
        for at in range(self.rng.randrange(4)):
            yield first + at, 0
        for slot in range(3300, 3300 * 20, 3300):
            yield first + 8 * slot, 0
        for slot in range(65531, 65540):
            for place in range(4):
                yield first + 8 * slot + place, off

    def packets(self, slots, begin):
        """Yields the packets of blocks, each after the time at which it comes and the one that is recorded. The slot of
        the first one begins at this time."""
        latest = 0
        for at, off in self.course_past_end() if self.passes_end else self.course(slots):
            frame = self.frame(at)
            sent = begin + lasting(frame)
            latest = max(latest, sent)
            yield latest, sent + off + self.rng.randint(0, self.jitter), self.packet(frame)


# ---- the link

class Way:
    """One way of a connection: its ends, addresses with ports, and how far its stream was sent."""

    def __init__(self, rng, source, destination):
        self.rng, self.source, self.destination = rng, source, destination
        self.next = rng.choice((rng.randrange(ROUND), ROUND - rng.randint(1, 900)))
        self.held, self.last = b"", b""

    def packet(self, sequence, flags, octets=b""):
        """Returns the packet of a segment."""
        ports = (self.source[1], self.destination[1])
        return internet(self.source[0], self.destination[0], 0, segment(ports, sequence % ROUND, flags, octets), TCP)

    def begun(self, flags):
        """Returns the packet that begins the way."""
        self.next += 1
        return self.packet(self.next - 1, flags)

    def sent(self, octets):
        """Yields the packets of segments by which octets are sent, at times together with those of before, or later."""
        rng, stream, self.held = self.rng, self.held + octets, b""
        if len(stream) > MOST_WAITING + 60 and rng.random() < 0.1:
            later = MOST_WAITING + rng.randint(-2, 2)
            yield from self.many(stream[:10], stream[10:10 + later])
            # it goes on after them, or before what was dropped of them
            begun = 10 + rng.choice((later, later, MOST_WAITING - 3))
            stream, self.next = stream[begun:], self.next + begun
        while stream:
            if rng.random() < 0.04:
                self.held = stream
                return
            size = rng.choice((1, 3, 20, 100, 1400, 1400, 1400, 1400))
            part, stream = stream[:size], stream[size:]
            if rng.random() < 0.06:
                yield from self.ahead(len(part), stream[:size])
            if rng.random() < 0.985:
                yield self.packet(self.next, DATA, part)
            self.next += len(part)
            yield from self.again(part)

    def many(self, part, later):
        """Yields a part after the octets that come later, each in a segment: so many of these wait as may, or more."""
        for at in range(len(later)):
            yield self.packet(self.next + len(part) + at, DATA, later[at:at + 1])
        yield self.packet(self.next, DATA, part)

    def ahead(self, length, part):
        """Yields a part that comes before one of this length, at times with other octets after it or before it."""
        parts = [part, self.rng.randbytes(len(part))][:self.rng.randint(1, 2)]
        for one in self.rng.choice((parts, parts, parts, parts[::-1])):
            yield self.packet(self.next + length, DATA, one)

    def again(self, part):
        """Yields what comes a second time, or is none of the stream, after a part of it."""
        rng, before, self.last = self.rng, self.last, part
        begin = self.next - len(part)
        if rng.random() < 0.05:
            yield self.packet(begin, DATA, part)
        if rng.random() < 0.04:
            yield self.packet(begin - len(before), DATA, before + part)
        if rng.random() < 0.02:
            yield self.packet(begin, DATA, rng.randbytes(len(part)))
        if rng.random() < 0.02:
            yield self.packet(self.next, rng.choice((ACK, RESET, FIN)))


class Connection:
    """A connection between a centre and a controller, either of which has the link's port."""

    def __init__(self, rng, index):
        self.rng = rng
        self.centre = bytes([10, 0, 0, rng.choice((1, 1, 9))])
        self.controller = bytes([10, 0, 0, rng.choice((2, 2, 3))])
        both = (PORT, PORT) if index == 0 else (PORT, index)
        self.ports = rng.choice(((40000 + index, PORT), (PORT, 40000 + index), both))
        self.ways = []

    def begin(self):
        """Begins it, anew if it was there, and returns the packets that do so, one for each way."""
        ends = list(zip((self.centre, self.controller), self.ports))
        self.ways = [Way(self.rng, *ends), Way(self.rng, *ends[::-1])]
        return [self.ways[0].begun(SYN), self.ways[1].begun(SYN | ACK)]

    def way_of(self, kind):
        """Returns the way that a message of a type goes, but for a few that go the wrong one."""
        is_centre = kind in OF_CENTRE if kind != 0x15 else self.rng.random() < 0.5
        return self.ways[is_centre == (self.rng.random() < 0.03)]


def element(name, body):
    """Returns the octets of an element."""
    return number(name, len(body)) + body if SIZES.get(name, 0) is None else bytes([name]) + body


def spoilt_element(rng, name, body):
    """Returns an element with another octet, or, if it is a list, maybe of other items or with a part of one."""
    change = rng.randrange(4 if SIZES[name] is None else 1)
    if change == 0:
        at = rng.randrange(len(body) or 1)
        return name, body[:at] + rng.randbytes(1) + body[at + 1:]
    return name, (bytes([rng.randrange(16)]) + body[1:], body[:-1], body + rng.randbytes(1))[change - 1]


def altered(rng, octets):
    """Returns a message that is made otherwise: it can be read still, maybe with another meaning, or it can't."""
    parts = list(elements_of(octets[4:]))
    place, change, name = rng.randrange(len(parts) + 1), rng.randrange(9), rng.choice(list(SIZES))
    names = sorted({name for name, _ in parts})
    # one of each name, as there may be many pages; and the period and the number of pages, which can be out of range
    names = [it for it in names if it in (0x06, 0x13)] or names if rng.random() < 0.3 else names
    at = [name for name, _ in parts].index(rng.choice(names))
    if change == 0:
        del parts[at]
    elif change == 1:
        parts.insert(place, spoilt_element(rng, *parts[at]))
    elif change == 2:
        rng.shuffle(parts)
    elif change == 3:
        parts.insert(place, (name, rng.randbytes(rng.randrange(9) if SIZES[name] is None else SIZES[name])))
    elif change == 4:
        parts.insert(place, (rng.choice((0, 0x19, 0xFF)), b""))
    elif change == 5:
        # which an emergency message doesn't need
        parts = [it for it in parts if it[0] in (0x0E, 0x02, 0x03, 0x04)]
    elif change < 8:
        parts[at] = spoilt_element(rng, *parts[at])
    body = b"".join(element(*it) for it in parts)
    body = body if change < 8 else body[:-1]
    return number(octets[0], len(body), 3) + body


def talk(rng, connections):
    """Yields messages, each with the number of its connection, of as many connections."""
    messages = Messages(rng, connections)
    for _ in range(rng.choice((rng.randint(0, 8), rng.randint(1, 20), rng.randint(9, 30)))):
        connection, choice = rng.randrange(connections), rng.random()
        if choice < 0.45:
            octets = messages.order(connection)
        elif choice < 0.85 and messages.asked:
            octets, connection = messages.answer()
            if octets[4] == 0x0E and rng.random() < 0.06:
                octets = octets[:6] + bytes([octets[6] ^ 1]) + octets[7:]
        elif choice < 0.93:
            octets = messages.other()
        else:
            kind = rng.choice((0x15, 0x17, 0x0A, 0x0B, 0, 0x18, 0xC8))
            octets = messages.message(kind, rng.randbytes(rng.randrange(9)))
        if is_read(octets[0]) and len(octets) > 4 and rng.random() < 0.12:
            octets = altered(rng, octets)
        yield connection, octets


def moments_in(rng, slots, begin, count):
    """Returns so many times in a range of slots, in order. Some are just before a slot begins, or just then."""
    found = []
    for _ in range(count):
        if rng.random() < 0.3:
            slot = rng.choice((slots[0], 0, 13, rng.randint(*slots), rng.randint(*slots)))
            found.append(begin + lasting(408 * slot) + rng.choice((-1000, -1, 0, 0, 1, 999, 1000)))
        else:
            found.append(begin + rng.randint(*(lasting(408 * it) for it in slots)))
    return sorted(found)


def recorded_off(rng):
    """Returns how far off the recorded time of a packet is: mostly not, or by seconds, or by up to a hundred years."""
    choice = rng.random()
    return 0 if choice < 0.97 else rng.randint(-30, 5) * SECOND if choice < 0.998 else rng.randrange(100 << 25) * SECOND


def link_packets(rng, connections, slots, begin):
    """Yields the packets of connections, each after the time at which it comes and the one that is recorded, which
    lie in a range of slots."""
    said = list(talk(rng, len(connections)))
    moments = moments_in(rng, slots, begin, len(said))
    for it in connections:
        # of a connection that was there before, the capture may begin in the middle of a message
        opening = it.begin()
        if rng.random() < 0.75:
            yield from ((begin + lasting(408 * slots[0]) - SECOND,) * 2 + (one,) for one in opening)
        elif rng.random() < 0.4:
            it.ways[rng.randrange(2)].held = rng.randbytes(rng.randint(1, 9))
    for time, (at, octets) in zip(moments, said):
        if rng.random() < 0.01:
            yield from ((time, time, one) for one in connections[at].begin())
        for one in connections[at].way_of(octets[0]).sent(octets):
            yield time, time + recorded_off(rng), one
            time += rng.choice((0, 1, rng.randrange(3_000_000), rng.randrange(SECOND) if rng.random() < 0.1 else 7))


# ---- files

def disturbed(rng, packets):
    """Returns packets as a recording may have them: in another order, cut, of another length than they say, twice, or
    not at all, and with others."""
    out = []
    for time, octets in packets:
        if rng.random() < 0.005:
            continue
        if rng.random() < 0.01:
            octets = octets[:rng.randrange(len(octets))]
        elif rng.random() < 0.01:
            length = int.from_bytes(octets[2:4], "big") + rng.randint(-2, 2)
            octets = octets[:2] + length.to_bytes(2, "big") + octets[4:]
        out.append((time, octets))
        if rng.random() < 0.02:
            out.append((time + rng.randrange(1000), octets))
        if rng.random() < 0.02:
            out.append((time, foreign(rng)))
        if rng.random() < 0.02 and len(out) > 1:
            out[-1], out[-2] = out[-2], out[-1]
    return out


def in_frame(rng, link, octets):
    """Returns a packet of a link type that has these octets, but for a few that have a wrong header, and at times a
    trailer."""
    while True:
        made = linked(rng, link, octets)
        if internet_in(link, made) == octets or rng.random() < 0.01:
            return made + rng.randbytes(rng.choice((0, 0, 0, 6)))


def classic_file(rng, packets):
    """Returns a classic file of packets."""
    order, magic, link = rng.choice("<>"), rng.choice((0xA1B2C3D4, 0xA1B23C4D)), rng.choice(LINKS)
    unit = 1000 if magic == 0xA1B2C3D4 else 1
    out = [file_header(order, magic, link)]
    for time, octets in packets:
        second, fraction = divmod(time // unit, SECOND // unit)
        if second > 0 and fraction * unit < 3 * SECOND and rng.random() < 0.01:
            second, fraction = second - 1, fraction + SECOND // unit
        out.append(packet(in_frame(rng, link, octets), (second, fraction), order))
    return b"".join(out)


def section_header(rng, order):
    """Returns the block that begins a section."""
    length = rng.choice((2 ** 64 - 1, rng.randrange(2 ** 20)))
    body = struct.pack(order + "IHHQ", 0x1A2B3C4D, 1, rng.choice((0, 2)), length)
    return block_of(order, struct.unpack(order + "I", PCAPNG)[0], body + options(rng, order))


def described(rng, order, has_times):
    """Returns an interface and the block that describes it. If packets are to have times, its clock is a good one."""
    while True:
        how = clock(rng, order)
        tick = tick_of(order, how)
        if tick is not None and tick <= rng.choice((1000, 1000, SECOND)) or not has_times:
            break
    longest = rng.choice((0, 65535, 262144, rng.randint(60, 200))) if rng.random() < 0.3 else 0
    face = Face(rng.choice(LINKS), longest, tick)
    return face, block_of(order, INTERFACE, struct.pack(order + "HHI", face.link, 0, longest) + how)


def blocks_file(rng, packets):
    """Returns the blocks of a file of pcapng of packets. In some files a few packets have no time."""
    out, order, faces = [], "", []
    has_times = rng.random() < 0.7
    for time, octets in packets:
        if not order or rng.random() < 0.01:
            order, faces = rng.choice("<>"), []
            out.append(section_header(rng, order))
        while not faces or rng.random() < 0.02:
            face, block = described(rng, order, has_times or rng.random() < 0.5)
            faces.append(face)
            out.append(block)
        if rng.random() < 0.02:
            out.append(block_of(order, rng.choice((0, 4, 5, 7, 10, 0xBAD)), rng.randbytes(4 * rng.randrange(9))))
        at, kind = rng.randrange(len(faces)), rng.choice((PACKET, PACKET, PACKET, OLD_PACKET))
        if not has_times and rng.random() < 0.04:
            at, kind = 0, SIMPLE_PACKET
        ticks = time // (faces[at].tick or 1)
        out.append(packet_block_of(rng, order, kind, faces, at, in_frame(rng, faces[at].link, octets), ticks))
    return out


def spoilt_file(rng, parts):
    """Returns a file, whose parts are blocks if it is one of pcapng, with a fault, or one of another kind."""
    octets, kind = b"".join(parts), rng.randrange(6)
    at = rng.randrange(len(octets))
    if kind == 0:
        return rng.choice((b"cell,1,1\n", octets[1:], gsm.tape_of(1, 1, [gsm.IDLE_SLOT])))
    if kind == 1:
        return octets[:at] + rng.randbytes(1) + octets[at + 1:]
    if kind == 2:
        return octets[:at]
    if octets[:4] != PCAPNG:
        return octets[:20] + rng.choice((b"\2\0\0\0", octets[20:22] + b"\0\1", rng.randbytes(4))) + octets[24:]
    at = rng.randrange(len(parts))
    return b"".join([*parts[:at], spoilt(rng, parts[at]), *parts[at + 1:]])


# ---- captures with words for them

def dotted(address):
    """Returns an address as words have it."""
    return ".".join(map(str, address))


def words_for(rng, stations, connections):
    """Returns words of `warnc orders` for a capture, mostly those that choose a station that is there."""
    words = ["--cell", rng.choice((*["1-1"] * 8, "1-2", "2-1", "65535-1", "3-3"))]
    is_sdcch = rng.random() < 0.05
    if stations:
        one = rng.choice(stations)
        is_sdcch = is_sdcch != one.is_sdcch
        likely = 0.85 if len(stations) > 1 else 0.15
        if rng.random() < likely:
            words += ["--from", dotted(one.source if rng.random() < 0.9 else b"\x0a\0\0\1")]
        if rng.random() < likely:
            words += ["--arfcn", str(one.arfcn if rng.random() < 0.9 else 7)]
    words += ["--channel", "sdcch"] if is_sdcch else rng.choice(([], [], ["--channel", "cbch"]))
    if rng.random() < 0.35:
        one = rng.choice(connections)
        words += ["--bsc", dotted(rng.choice((*[one.controller] * 5, one.centre, b"\x0a\0\0\x63")))]
    if rng.random() < 0.4:
        words += ["--first-slot", str(rng.choice((0, 1, 2, 5, 9, 100, 65535)))]
    return words + rng.choice(([], ["--packets"]))


def random_capture(rng):
    """Returns a random capture of a link and of stations, with words for it."""
    is_classic = rng.random() < 0.6
    ends = (CLASSIC_END,) if is_classic else (CLASSIC_END, END)
    begins = (0, 0, 1_764_400_000 * SECOND + rng.randrange(SECOND), *(it - 4000 * SECOND for it in ends))
    begin = rng.choice(begins) // 1000 * 1000
    slots = rng.randint(1, 12)
    stations = [Station(rng) for _ in range(rng.choice((0, 1, 1, 1, 1, 1, 1, 2)))]
    connections = [Connection(rng, index) for index in range(rng.choice((1, 1, 2, 3)))]
    range_of_slots = (-rng.choice((0, 0, 0, 0, 1, 5, 13)), slots + 2)
    packets = sorted([*link_packets(rng, connections, range_of_slots, begin),
                      *(it for one in stations for it in one.packets(slots, begin))], key=lambda it: it[0])
    packets = [it[1:] for it in packets]
    if rng.random() < 0.6:
        packets = disturbed(rng, packets)
    packets = [(min(max(time, 0), ends[-1] - 1), octets) for time, octets in packets]
    parts = [classic_file(rng, packets)] if is_classic else blocks_file(rng, packets)
    file = spoilt_file(rng, parts) if parts and rng.random() < 0.18 else b"".join(parts)
    return Made(words_for(rng, stations, connections), file)
