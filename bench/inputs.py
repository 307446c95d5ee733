#!/usr/bin/env python3
"""Makes the books, tapes and captures that bench.py runs the program on. They use nothing of warnc.

Usage: inputs.py KIND [SEED]      writes one to standard output; KIND is one of

typical     a book of 64 cells and 200 rows: alerts in two languages with updates and stops, each in some of the cells
full        the same with 4,096 rows: every cell is busy in most of its slots, and many orders are refused
background  the same with 4,032 background messages in each cell, of which it sends some
live        a book of 64 cells and 64 alerts, each in 8 cells, of which no order is refused, whatever comes first
cell-N      a book of one cell that N messages, 64 to 4,032, keep as good as always busy
packed      a book of 4,096 rows, whose texts have 15 pages each; packed-rows: its last row is wrong; packed-texts: its
            last text can't be sent
network-N   a network book of N cells and 200 orders, each for some forty cells
one-group   a network book of 16,384 cells, whose 2,000 texts are for cells of the first group
large       a network book of 65,536 cells and 4,096 orders, each for 200 cells
mixed       64 tapes of 4,096 slots: in each cell 8 messages of 1 to 7 pages, both alphabets, repeats and idle slots
long        the same with 108 messages of 15 pages, one after another, again and again
short       the same with 2,100 messages of one page
capture-N   a capture of N MiB at most, and 22 at least: GSMTAP packets with a page in each of 65,535 slots, and packets
            to other ports between them; it is written as it is made
"""
import os
import random
import struct
import sys

sys.path.append(os.path.join(os.path.dirname(os.path.dirname(os.path.realpath(__file__))), "tools"))
import books
import gsm

# a text of each alphabet
TEXTS = {
    "en": "Flood warning for the lower town: leave the river bank and go to higher ground. ",
    "ru": "Внимание! Опасность наводнения: уходите от реки на возвышенность. ",
}
CELLS = [(1, ci) for ci in range(1, 65)]
SLOTS = 4096


def part_of(text, first, length):
    """Returns a piece of this length of a text that is said again and again, from a place on."""
    return (text * (length // len(text) + 2))[first:first + length]


def book_of(cells, lines):
    return "".join([*map(books.cell_line, cells), *lines]).encode()


# --- Books of 64 cells ---


def some_cells(chance):
    return None if chance.random() < 0.3 else sorted(chance.sample(CELLS, chance.randint(1, len(CELLS))))


def some_text(chance, language):
    first = chance.randint(0, len(TEXTS[language]) - 1)
    return part_of(TEXTS[language], first, chance.randint(10, 160)).strip()


def some_sending(chance, periods):
    language = chance.choice(sorted(TEXTS))
    return books.Sending(language, chance.choice((0, 1, 2, 2, 2)), chance.choice(periods),
                         chance.choice((0, 0, 5, 50)), some_text(chance, language))


def mixed_book(chance, rows, periods):
    count = rows - len(CELLS)
    orders = books.random_orders(
        chance, (at * (SLOTS - 1) // count for at in range(count)),
        lambda number: books.Alert(f"alert{number}", 4370 + number % 30, chance.randint(0, 3), number % 1024),
        lambda: some_sending(chance, periods), lambda: some_cells(chance),
        ["write"] * 5 + ["update"] * 3 + ["stop"] * 2)
    return book_of(CELLS, (it.line() for it in orders))


def background_book(chance):
    sending = (books.Sending("en", 1, chance.randint(1, 1024), 0, some_text(chance, "en")) for _ in range(4096))
    return book_of(CELLS, (books.Order("write", 0, books.Alert(f"notice{it}", it, 0, 1), None, next(sending)).line()
                           for it in range(4096 - len(CELLS))))


def churn_book(chance):
    """Four alerts at a time in all cells, each replaced 14 times and then stopped, up to the end of the longest run."""
    rows = 4096 - len(CELLS)
    orders, number, at = [], 0, lambda: len(orders) * 65535 // rows
    while len(orders) + 64 <= rows:
        four = [books.Alert(f"alert{number + it}", 4370 + (number + it) % 30, 1, (number + it) % 1024)
                for it in range(4)]
        number += 4
        for version in range(15):
            for alert in four:
                sending = books.Sending("en", 2, 4, 0, some_text(chance, "en"))
                orders.append(books.Order("update" if version else "write", at(), alert, None, sending))
        orders += [books.Order("stop", at(), alert, None, None) for alert in four]
    return book_of(CELLS, (it.line() for it in orders))


# --- A book of several sessions ---

LIVE_SLOTS, LIVE_PERIOD = 1024, 64


def orders_of_alert(chance, number):
    """Yields the orders of an alert in 8 cells: it is replaced up to three times, and each fourth alert is stopped.

    8 alerts of one page with a period of 64 take an eighth of a cell's slots, and with those that they replace at most
    half of them. So no order is refused, whichever session comes first.
    """
    cells = [CELLS[(number + step) % len(CELLS)] for step in range(8)]
    slots = sorted(chance.sample(range(LIVE_SLOTS - 4 * LIVE_PERIOD), 5))
    alert = books.Alert(f"a{number}", 1000 + number, 0, number)
    for version in range(1 + chance.randint(0, 3)):
        sending = books.Sending("en", 2, LIVE_PERIOD, 0, f"Alert {number}, version {version}")
        yield books.Order("update" if version else "write", slots[version], alert, None if version else cells, sending)
    if number % 4 == 0:
        yield books.Order("stop", slots[4], alert, None)


def live_book(chance):
    orders = [it for number in range(64) for it in orders_of_alert(chance, number)]
    return book_of(CELLS, (it.line() for it in sorted(orders, key=lambda it: it.at)))


# --- Books of one cell, whose texts have 15 pages ---

PAGES = 15
LENGTHS = {"en": PAGES * gsm.SEPTETS, "ru": PAGES * (gsm.UNITS - 1)}


def long_text(language, number):
    text = TEXTS[language]
    return part_of(text, number % len(text), LENGTHS[language] - 1) + "."


def long_order(number, sending):
    alert = books.Alert(f"alert{number}", 4370 + number % 8, 0, number // 8)
    return books.Order("write", 0, alert, None, sending).line()


def cell_book(messages):
    """Returns a book of one cell whose messages are written at slot 0 and stand to the end of the run, with periods
    from 900 to 1,023 slots. The first 32 are normal, and reserve about half of the cell; the others are background,
    which reserves nothing, so that all are accepted. 64 of them have 960 pages for some 960 slots."""
    return book_of([(1, 1)], (long_order(it, books.Sending("en", 2 if it < 32 else 1, 900 + it % 124, 0,
                                                           long_text("en", it))) for it in range(messages)))


def packed_book(last=None):
    """Returns a book of one cell with texts of both alphabets, which are packed when it is read."""
    languages = ["en" if it % 2 else "ru" for it in range(4095)]
    lines = [long_order(number, books.Sending(it, 1, 1024, 1, long_text(it, number)))
             for number, it in enumerate(languages)]
    return book_of([(1, 1)], [*lines[:-1], last or lines[-1]])


# --- Networks ---


def named(number):
    return 1 + number // 65536, number % 65536


def network_book(cells, orders, sending, at=0):
    """Returns a network book of this number of cells. `orders` yields the cells of each order."""
    lines = (books.Order("write", at * number, books.Alert(f"a{number}", 4370, 0, number % 1024),
                         [named(it) for it in some], sending(number)).line() for number, some in enumerate(orders))
    return book_of(map(named, range(cells)), lines)


def wide_network(cells):
    """Returns a network book with 200 orders, each for some forty cells."""
    chance = random.Random(cells)
    orders = (sorted(chance.sample(range(cells), min(cells, 40))) for _ in range(200))
    return network_book(cells, orders, lambda _: books.Sending("en", 2, 32, 20, "Leave the river bank"), 20)


def network_of_one_group():
    """Returns a network book of 16,384 cells, whose 2,000 texts are for cells of the first group."""
    return network_book(16384, ((it % 64, (it + 1) % 64) for it in range(2000)), lambda number: books.Sending(
        "en", 2, 32, 2, f"Leave the river bank {number} " * 50))


def large_network():
    """Returns a network book of 65,536 cells and 4,096 orders, each for 200 cells."""
    chance = random.Random(65536)
    return network_book(65536, (chance.sample(range(65536), 200) for _ in range(4096)), lambda number: books.Sending(
        "en", 2, 32, 2, f"Leave the river bank {number}"))


# --- Tapes ---


def slots_of(identifier, serial, text):
    """Returns the slots of a message: one for each page."""
    pieces, is_gsm = gsm.pieces_of(text)
    dcs = gsm.LANGUAGES["en"] if is_gsm else gsm.UCS2
    return [gsm.slot_of(serial, identifier, dcs, 16 * number + len(pieces), gsm.content_of(piece, is_gsm))
            for number, piece in enumerate(pieces, 1)]


def mixed_slots(chance, cell):
    messages = [slots_of(4370 + it, 16 * cell + it, TEXTS["ru" if it % 2 else "en"] * chance.randint(1, 4))
                for it in range(8)]
    slots = []
    while len(slots) < SLOTS:
        slots += chance.choice(messages)
        slots += [gsm.IDLE_SLOT] * chance.randint(0, 2)
    return slots


def many_slots(chance, cell, messages, size):
    slots = []
    for message in range(messages):
        first = chance.randint(0, len(TEXTS["en"]) - 1)
        slots += slots_of(4370 + cell, 16 * message, part_of(TEXTS["en"], first, size))
    return slots * (SLOTS // len(slots) + 1)


def tapes_of(chance, slots):
    return b"".join(gsm.tape_of(*cell, slots(chance, at)[:SLOTS]) for at, cell in enumerate(CELLS))


# --- Captures ---

# the four blocks of a page, and the slots of the longest tape
PAGE = [bytes.fromhex(it) for it in ("200010111201118046a3d168341a8d46a3d168341a8d46",
                                     "21a3d168341a8d46a3d168341a8d46a3d168341a8d46a3",
                                     "22d168341a8d46a3d168341a8d46a3d168341a8d46a3d1",
                                     "3368341a8d46a3d168341a8d46a3d168341a8d46a3d100")]
MOST_SLOTS = 65535
# the frames after which their numbers begin anew, and a file's header: IPv4 packets, times in microseconds
FRAMES = 2048 * 26 * 51
FILE_HEADER = struct.pack("<IHHIIII", 0xA1B2C3D4, 2, 4, 0, 0, 65535, 228)


def packet(port, payload):
    """Returns a packet of UDP from 127.0.0.1 to this port of it, in the classic format."""
    length = 28 + len(payload)
    words = [0x4500, length, 7, 0, 0x4011, 0, 0x7F00, 1, 0x7F00, 1]
    total = sum(words)
    words[5] = 0xFFFF - (total + (total >> 16)) % 0x10000
    return struct.pack("<IIII10H4H", 5, 6, length, length, *map(swapped, words),
                       *map(swapped, (port, port, length - 20, 0))) + payload


def swapped(number):
    return number >> 8 | (number & 0xFF) << 8


def capture(octets):
    """Yields the parts of a capture of at most so many octets, 22 million at least: in each slot the page, and as many
    other packets as there is room for."""
    yield FILE_HEADER
    other = packet(53, bytes(1400))
    between = other * (((octets - len(FILE_HEADER)) // MOST_SLOTS - 4 * 83) // len(other))
    for number in range(MOST_SLOTS):
        for block, octets_of_block in enumerate(PAGE):
            frame = (51 * (8 * number + block) + 32) % FRAMES
            yield packet(4729, struct.pack(">8sI4s", b"\2\4\1\0\0\0\0\0", frame, b"\x0F\0\2\0") + octets_of_block)
        yield between


MADE = {
    "typical": lambda chance: mixed_book(chance, 200, (30, 60, 120, 240)),
    "full": lambda chance: mixed_book(chance, 4096, (4, 8, 30, 120, 1024)),
    "churn": churn_book,
    "background": background_book,
    "live": live_book,
    "packed": lambda _: packed_book(),
    "packed-rows": lambda _: packed_book("cell,1\n"),
    "packed-texts": lambda _: packed_book("write,0,last,4370,0,1,en,2,2,0,*,A\tB\n"),
    "one-group": lambda _: network_of_one_group(),
    "large": lambda _: large_network(),
    "mixed": lambda chance: tapes_of(chance, mixed_slots),
    "long": lambda chance: tapes_of(chance, lambda it, cell: many_slots(it, cell, 108, PAGES * gsm.SEPTETS)),
    "short": lambda chance: tapes_of(chance, lambda it, cell: many_slots(it, cell, 2100, gsm.SEPTETS)),
}


NUMBERED = {"cell": cell_book, "network": wide_network}


def made(kind, seed=1):
    """Returns the octets of an input; None if there is no such kind."""
    name, _, number = kind.partition("-")
    if name in NUMBERED and number.isdigit():
        return NUMBERED[name](int(number))
    return MADE[kind](random.Random(seed)) if kind in MADE else None


def main(words):
    kind, _, number = words[0].partition("-") if words else ("", "", "")
    if kind == "capture" and number.isdigit() and len(words) < 3:
        for part in capture(int(number) << 20):
            sys.stdout.buffer.write(part)
        return 0
    octets = made(words[0], *map(int, words[1:])) if words and all(it.isdigit() for it in words[1:2]) else None
    if octets is None or len(words) > 2:
        print(__doc__, end="")
        return 0 if words in (["-h"], ["--help"]) else 2
    sys.stdout.buffer.write(octets)
    return 0


if __name__ == "__main__":
    sys.exit(main(sys.argv[1:]))
