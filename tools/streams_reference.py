#!/usr/bin/env python3
"""Compares what crate link_streams finds in captures with a second reader, written here from the definitions alone.

Usage: streams_reference.py [RUNS [SEED]]      200 random captures, if no number is given
       streams_reference.py --rows FILE ..     prints what this reader finds in captures
       streams_reference.py --help             prints this

Each random capture has links whose messages are cut into segments anywhere, swapped, repeated with the same and with
other octets, overlapping, with gaps, begun in the middle and begun again, with sequence numbers that go round. They
become rows of the crate's tests, which run unproved in a copy.
"""
import collections
import random
import struct
import sys

from capture_files import TCP, carried_in, file_header, internet, internet_in, known_packets_of, packet, segment
from tried_rows import Bench, all_hold, in_parts

BENCH = Bench(tests="recording_tests", module="of_link_streams", reader="bench", others=(),
              needs=("gsmtap", "link_streams", "test_support"))
PORT = 48049
MOST_WAITING = 256
ROUND, HALF = 1 << 32, 1 << 31
# so many captures go into a test
ROWS = 20

Segment = collections.namedtuple("Segment", "way sequence syn octets")
Message = collections.namedtuple("Message", "number time way octets")


def segment_of(link, octets):
    """Returns the segment of the link in a packet of a link type, or None."""
    ip = internet_in(link, octets)
    tcp = carried_in(ip, TCP)
    if tcp is None:
        return None
    header, total = len(ip) - len(tcp), int.from_bytes(ip[2:4], "big")
    if not header <= total <= len(ip):
        return None
    tcp = tcp[:total - header]
    if len(tcp) < 20 or not 20 <= (tcp[12] >> 4) * 4 <= len(tcp):
        return None
    source, destination, sequence = struct.unpack_from(">HHI", tcp)
    if PORT not in (source, destination):
        return None
    way = (ip[12:16], source, ip[16:20], destination)
    return Segment(way, sequence, bool(tcp[13] & 2), tcp[(tcp[12] >> 4) * 4:])


class Direction:
    """A direction: its octets by their places, counted on from the first one, so that they don't go round."""

    def __init__(self, first):
        self.first = first
        self.octets = {}     # place: octet; the first that came
        self.joined = 0      # the stream has the places below
        self.taken = 0       # and messages those below
        self.waiting = []    # first and last place of the segments that wait

    def place(self, sequence):
        """Returns the place of a sequence number, as near to the stream's end as it can be."""
        end = self.first + self.joined
        ahead = (sequence - end) % ROUND
        return self.joined + (ahead if ahead < HALF else ahead - ROUND)

    def take(self, sequence, octets):
        """Takes a segment's data, and returns the messages that are whole by it."""
        end = self.place(sequence + len(octets))
        begin = end - len(octets)
        if not octets or end <= self.joined:
            return []
        if begin > self.joined:
            if len(self.waiting) >= MOST_WAITING:
                return []
            self.waiting.append(end)
        for at, octet in enumerate(octets, begin):
            if at >= self.joined:
                self.octets.setdefault(at, octet)
        while self.joined in self.octets:
            self.joined += 1
        self.waiting = [it for it in self.waiting if it > self.joined]
        return list(self.messages())

    def messages(self):
        """Yields the messages that are whole and weren't yet."""
        while self.joined - self.taken >= 4:
            head = bytes(self.octets[self.taken + it] for it in range(4))
            length = 4 + int.from_bytes(head[1:], "big")
            if self.joined - self.taken < length:
                return
            yield bytes(self.octets[self.taken + it] for it in range(length))
            for place in range(self.taken, self.taken + length):
                del self.octets[place]
            self.taken += length


def may_be_messages(octets):
    """Whether data may be messages: of the types that there are, with lengths that fit."""
    if not octets:
        return False
    while octets:
        if not 1 <= octets[0] <= 0x17:
            return False
        octets = octets[4 + int.from_bytes(octets[1:4], "big"):]
    return True


class Streams:
    """The directions of all connections, each with what came of it so far."""

    def __init__(self):
        self.directions = {}

    def take(self, number, link, time, octets):
        """Takes a packet, and returns the messages of the link that are whole by it."""
        it = segment_of(link, octets)
        if it is None:
            return []
        first = (it.sequence + it.syn) % ROUND
        if it.syn or it.way not in self.directions and may_be_messages(it.octets):
            self.directions[it.way] = Direction(first)
        if it.way not in self.directions:
            return []
        return [Message(number, time, it.way, message) for message in self.directions[it.way].take(first, it.octets)]


def messages_of(octets):
    """Yields the messages of the link in a capture file."""
    streams = Streams()
    for packet in known_packets_of(octets):
        yield from streams.take(*packet)


def line_of(message):
    """Returns a message as the tests' rows say it."""
    way = {(1, 2): ">", (2, 1): "<", (1, 3): ")", (3, 1): "("}[message.way[0][3], message.way[2][3]]
    return f"{message.number}{way}{message.octets.hex()};"


class Sender:
    """One way of a random link: its stream, and which segments are sent of it."""

    def __init__(self, rng, way):
        self.rng, self.way = rng, way
        self.first = rng.choice((rng.randrange(ROUND), ROUND - rng.randint(1, 60)))
        self.stream = b"".join(self.message() for _ in range(rng.randint(1, 8)))
        self.rows = []
        if rng.random() < 0.7:
            self.rows.append((self.first, "S", b""))
        self.cut()
        self.spoil()

    def message(self):
        """Returns a random message."""
        body = self.rng.randbytes(self.rng.choice((0, 1, 2, 7, 40, 300)))
        return bytes([self.rng.randint(1, 0x17)]) + len(body).to_bytes(3, "big") + body

    def cut(self):
        """Cuts the stream into segments."""
        at = 0
        while at < len(self.stream):
            size = self.rng.choice((1, 2, 3, 5, 20, 100, 400))
            self.add(at, self.stream[at:at + size])
            at += size

    def add(self, at, octets, place=None):
        """Adds a segment."""
        row = ((self.first + 1 + at) % ROUND, "-", octets)
        self.rows.insert(len(self.rows) if place is None else place, row)

    def spoil(self):
        """Swaps, repeats, leaves out, overlaps, begins again."""
        rng = self.rng
        for _ in range(rng.randint(0, 6)):
            kind, place = rng.randrange(6), rng.randrange(len(self.rows))
            if kind == 0 and len(self.rows) > 1:
                other = rng.randrange(len(self.rows))
                self.rows[place], self.rows[other] = self.rows[other], self.rows[place]
            elif kind == 1:
                self.rows.insert(rng.randrange(len(self.rows) + 1), self.rows[place])
            elif kind == 2 and len(self.rows) > 1 and rng.random() < 0.5:
                del self.rows[place]
            elif kind == 3:
                at = rng.randrange(len(self.stream))
                octets = self.stream[at:at + rng.randint(1, 50)]
                self.add(at, rng.choice((octets, rng.randbytes(len(octets)))), place)
            elif kind == 4 and rng.random() < 0.2:
                self.rows.insert(place, (self.first, "S", b""))
            elif kind == 5:
                self.add(rng.randrange(-200, len(self.stream) + 200), rng.randbytes(rng.randint(0, 30)), place)

    def row(self, it):
        """Returns a segment as a row."""
        sequence, flags, octets = it
        return f"{self.way} {sequence} {flags} {octets.hex()}".strip()


ENDS = {">": (1, 40000, 2, PORT), "<": (2, PORT, 1, 40000), ")": (1, 40000, 3, PORT), "(": (3, PORT, 1, 40000)}


def capture_of(rows):
    """Returns the capture file that rows make."""
    octets = file_header(link=101)
    for number, row in enumerate(rows, 1):
        words = (row + " ").split(" ")
        source, source_port, destination, destination_port = ENDS[words[0]]
        payload = bytes.fromhex(words[3] if len(words) > 3 else "")
        flags = 0x12 if words[2] == "S" else 0x18
        tcp = segment((source_port, destination_port), int(words[1]), flags, payload)
        ends = (bytes([10, 0, 0, it]) for it in (source, destination))
        octets += packet(internet(*ends, 0, tcp, TCP), (number, 0))
    return octets


def random_capture(rng):
    """Returns the rows of a random capture: the segments of its links, mixed."""
    senders = [Sender(rng, way) for way in rng.sample("><)(", rng.randint(1, 4))]
    queues = [[it.row(row) for row in it.rows] for it in senders]
    rows = []
    while any(queues):
        rows.append(rng.choice([it for it in queues if it]).pop(0))
    return rows


def main():
    if "--help" in sys.argv:
        print(__doc__.strip())
        return
    if "--rows" in sys.argv:
        for path in sys.argv[2:]:
            with open(path, "rb") as it:
                for message in messages_of(it.read()):
                    source, source_port, destination, destination_port = message.way
                    print(message.number, message.time, source.hex(), source_port, destination.hex(), destination_port,
                          message.octets.hex())
        return
    runs = int(sys.argv[1]) if len(sys.argv) > 1 else 200
    rng = random.Random(int(sys.argv[2]) if len(sys.argv) > 2 else 1)
    tables, found = [], 0
    for _ in range(runs):
        rows = random_capture(rng)
        messages = list(messages_of(capture_of(rows)))
        found += len(messages)
        tables.append(["file", *rows, "messages -> " + "".join(map(line_of, messages))])
    same = all_hold(BENCH, [[row for table in part for row in table] for part in in_parts(tables, ROWS)])
    print(f"streams_reference: {runs} captures with {found} messages: {'the same' if same else 'NOT the same'}")
    sys.exit(not same)


if __name__ == "__main__":
    main()
