"""Makes what a broadcast centre orders, and what a base station controller answers: messages of the link (CBSP of 3GPP
TS 48.049), and a capture that has them at their times. link/trials.py and link_runs_reference.py use it.

It is a plain reading of docs/formats.md, as books.py is, and shares nothing with the crates.
"""
import csv
import dataclasses
import struct

import gsm
from books import COLUMNS, Alert, Order, Sending
from capture_files import TCP, file_header, internet, ones_sum, packet, segment

WRITE, KILL, RESET, KEEP_ALIVE = 0x01, 0x04, 0x10, 0x16
# how a list names its cells: by LAC and CI, or as all of the controller
BY_NUMBERS, ALL = b"\1", b"\6"
# the basic channel, and a question whether the other end is there every 30 seconds
BASIC, PERIOD = 0, 0x14
# what a list of broadcasts says of a number that is right
VALID = b"\0"
# microseconds of a slot
SLOT = 408 * 60_000 // 13
# addresses and ports of a centre and of a controller in a capture, and flags of TCP
CENTRE, CONTROLLER = (b"\x0a\0\0\1", 40000), (b"\x0a\0\0\2", 48049)
SYN, ACK, DATA = 0x02, 0x10, 0x18
# parts of a microsecond in a slot, of which a microsecond has 13
PARTS = 24_480_000


# ---- orders

def orders_of(rows):
    """Yields the orders of a book's rows, each with the serial number that an update replaces, for books whose cells
    take every order: a `stop` is of a name's newest version, which replaced the one before."""
    alerts, cells = {}, []
    for verb, *fields in csv.reader(rows):
        said = {name: int(it) if it.isdigit() else it for name, it in zip(COLUMNS[verb], fields)}
        if verb == "cell":
            cells.append((said["LAC"], said["CI"]))
            continue
        if verb == "write":
            alerts[said["NAME"]] = Alert(said["NAME"], said["ID"], said["SCOPE"], said["CODE"])
        alert = alerts[said["NAME"]]
        replaced = alert.serial() if verb == "update" else None
        alert.update += verb == "update"
        named = cells if said["CELLS"] == "*" else [tuple(map(int, it.split("-"))) for it in said["CELLS"].split()]
        sending = None if verb == "stop" else Sending(*(said[it] for it in COLUMNS["update"][2:-2]), said["TEXT"])
        yield Order(verb, said["AT"], dataclasses.replace(alert), list(named), sending), replaced


# ---- messages

def message(kind, *elements):
    """Returns a message of a type with these elements."""
    body = b"".join(elements)
    return bytes([kind]) + len(body).to_bytes(3, "big") + body


def number(name, value, octets=2):
    """Returns an element that is a number."""
    return bytes([name]) + value.to_bytes(octets, "big")


def octets_of(cell):
    """Returns the octets of LAC and CI."""
    return b"".join(it.to_bytes(2, "big") for it in cell)


def listed(cells):
    """Returns the list of these cells, or of all."""
    return with_length(0x04, ALL if cells is None else BY_NUMBERS + b"".join(map(octets_of, cells)))


def with_length(name, body):
    """Returns an element that is a list."""
    return number(name, len(body)) + body


def page(piece, is_gsm):
    """Returns the element of a page with a piece of a text."""
    units = sum(len(gsm.CODES[sign]) for sign in piece) if is_gsm else len(piece)
    used = (7 * units + 7) // 8 if is_gsm else 2 * units
    return number(0x01, used, 1) + gsm.content_of(piece, is_gsm)


def coding_of(sending, is_gsm):
    """Returns the data coding of a text."""
    return gsm.LANGUAGES[sending.language] if is_gsm else gsm.UCS2


def names_of(order, replaced):
    """Returns the elements by which an order is named, and its answer: identifier and serial numbers. An update
    replaces the message of a serial number."""
    ident, serial = number(0x0E, order.alert.identifier), order.alert.serial()
    if order.verb == "stop":
        return ident + number(0x02, serial)
    return ident + number(0x03, serial) + (b"" if replaced is None else number(0x02, replaced))


def message_of(order, replaced=None):
    """Returns the message of an order."""
    sending, basic = order.sending, number(0x12, BASIC, 1)
    head = names_of(order, replaced) + listed(order.cells) + basic
    if order.verb == "stop":
        return message(KILL, head)
    pieces, is_gsm = gsm.pieces_of(sending.text)
    return message(
        WRITE, head, number(0x05, sending.category, 1), number(0x06, sending.period), number(0x07, sending.broadcasts),
        number(0x13, len(pieces), 1), number(0x0C, coding_of(sending, is_gsm), 1),
        *(page(it, is_gsm) for it in pieces))


def answer_of(order, cell, cause=None, done=None, replaced=None):
    """Returns a cell's answer to an order: the cause of a refusal, or None, and the number of broadcasts of the message
    that it ended, or None."""
    names, basic = names_of(order, replaced), number(0x12, BASIC, 1)
    kind = KILL if order.verb == "stop" else WRITE
    if cause is not None:
        return message(kind + 2, names, with_length(0x09, BY_NUMBERS + octets_of(cell) + bytes([cause])), basic)
    count = b"" if done is None else BY_NUMBERS + octets_of(cell) + done.to_bytes(2, "big") + VALID
    return message(kind + 1, names, with_length(0x08, count) if count else b"", listed([cell]), basic)


def reset():
    """Returns the order to forget all messages in all cells."""
    return message(RESET, listed(None))


def keep_alive():
    """Returns the question whether the controller is there."""
    return message(KEEP_ALIVE, number(0x18, PERIOD, 1))


# ---- captures

def packets_of(messages):
    """Yields the packets of messages, each given as the microsecond at which it is sent, whether the controller sends
    it, and its octets: that microsecond, and the packet. A segment that begins each way comes first."""
    places = [0, 0]
    for at, is_answer, octets in [(messages[0][0], it, b"") for it in (False, True) if messages] + messages:
        (source, port), (target, other) = (CENTRE, CONTROLLER)[::-1 if is_answer else 1]
        begun = places[is_answer] > 0
        tcp = segment((port, other), places[is_answer], DATA if begun else SYN, octets)
        places[is_answer] += len(octets) if begun else 1
        yield at, internet(source, target, 0, tcp, TCP)


def capture_of(packets):
    """Returns a capture of packets of IPv4, each after its microsecond, in the order of time."""
    return file_header() + b"".join(packet(octets, divmod(at, 10 ** 6))
                                     for at, octets in sorted(packets, key=lambda it: it[0]))


# ---- the capture that `warnc link` writes

def checked(place, is_answer, numbers, flags, octets):
    """Returns a packet of IPv4 with a segment of TCP on the connection of a place, with its checksum: numbers are that
    of its first octet and that of the octet that is awaited."""
    ends = (CENTRE[0], CENTRE[1] + place), CONTROLLER
    (source, port), (target, other) = ends[::-1 if is_answer else 1]
    head = struct.pack(">HHIIBB", port, other, *(it % 2 ** 32 for it in numbers), 0x50, flags)
    around = source + target + struct.pack(">HH", TCP, 20 + len(octets))
    whole = head + struct.pack(">HHH", 65535, 0, 0) + octets
    check = ones_sum(around + whole + b"\0" * (len(whole) % 2)) ^ 0xFFFF
    return internet(source, target, 0, head + struct.pack(">HHH", 65535, check, 0) + octets, TCP)


def opened(place):
    """Returns the packets that open a connection."""
    return [checked(place, False, (0, 0), SYN, b""), checked(place, True, (0, 1), SYN | ACK, b""),
            checked(place, False, (1, 1), ACK, b"")]


def link_of(cells, begin):
    """Returns the capture of a link that begins at a microsecond: of each cell its messages, in the order of cells,
    each as its slot, whether it is an answer, and its octets."""
    found = [file_header()]
    for place, messages in enumerate(cells):
        packets, numbers = [], [1, 1]
        for slot, is_answer, octets in messages:
            when = divmod(begin - slot * PARTS // -13, 10 ** 6)
            if not packets:
                packets = [packet(it, when) for it in opened(place)]
            ways = numbers[is_answer], numbers[not is_answer]
            packets.append(packet(checked(place, is_answer, ways, DATA, octets), when))
            numbers[is_answer] += len(octets)
        found += packets
    return b"".join(found)
