#!/usr/bin/env python3
"""Makes orders files of the messages of a link, as docs/formats.md says: a second program against which crate
cell_orders is compared.

Usage: orders_reference.py [RUNS [SEED]]    300 random links, if no number is given
       orders_reference.py --rows           reads links, each a line as of the tests' tables, `orders LAC-CI MESSAGES`,
                                            and writes each as the row of such a table, with what comes of it
       orders_reference.py --help           prints this

A random link has orders and answers to a few cells, of few identifiers and serial numbers over few connections, so that
answers find orders of the same names, answers that nobody asked for, and messages that take messages away. What comes
of it becomes rows of tests, which run unproved in a copy, and so take the libraries that `rt lib` built.
"""
import random
import sys

from tried_rows import Bench, all_hold, in_parts

BENCH = Bench(tests="recording_tests", module="of_cell_orders", reader="table", others=(),
              needs=("cbsp_link", "cbsp_wire", "cell_orders", "test_support"))
# the types of messages
WRITE, WRITTEN, NOT_WRITTEN, KILL, KILLED, NOT_KILLED = range(1, 7)
RESET, WAS_RESET, NOT_RESET, RESTART, FAILURE = range(16, 21)
# how many octets elements have after their identifier; None for those with a length of two octets
SIZES = {0x01: 83, 0x02: 2, 0x03: 2, 0x04: None, 0x05: 1, 0x06: 2, 0x07: 2, 0x08: None, 0x09: None, 0x0A: None,
         0x0B: 1, 0x0C: 1, 0x0D: 1, 0x0E: 2, 0x0F: 1, 0x10: 2, 0x11: 50, 0x12: 1, 0x13: 1, 0x14: 1, 0x15: 1, 0x16: 1,
         0x17: 1, 0x18: 1}
# how many octets a cell has, by its discriminator
CELL = {0: 7, 1: 4, 2: 2, 3: 0, 4: 5, 5: 2, 6: 0}
PAGE = 82
# so many rows go into a test
ROWS = 25


# ---- reading

def named(kind, octets, cell):
    """Whether a cell of a list, by its discriminator and its octets, is this cell."""
    numbers = octets[3:] if kind in (0, 4) else octets
    lac, ci = (int.from_bytes(numbers[at:at + 2], "big") for at in (0, 2))
    return {0: (lac, ci) == cell, 1: (lac, ci) == cell, 2: lac == cell[1], 3: False, 4: lac == cell[0],
            5: lac == cell[0], 6: True}[kind]


def items_of(body, after):
    """Yields the items of a list with one discriminator: that, and the octets of each cell and of what follows it."""
    kind = body[0] & 15
    step = CELL[kind] + after
    if step == 0:
        yield kind, b""
        return
    for at in range(1, len(body), step):
        yield kind, body[at:at + step]


def is_read(kind):
    """Whether messages of a type are looked into."""
    return WRITE <= kind <= NOT_KILLED or RESET <= kind <= FAILURE


class Unread(Exception):
    """A message that can't be read."""


def elements_of(body):
    """Yields the elements of a message's body: identifiers, with the octets after them and after the length of a list.
    One that isn't known or is cut raises Unread."""
    at = 0
    while at < len(body):
        name, begin = body[at], at + 1
        if name not in SIZES:
            raise Unread
        size = SIZES[name]
        if size is None:
            size = int.from_bytes(body[begin:begin + 2], "big")
            begin += 2
        at = begin + size
        if at > len(body):
            raise Unread
        yield name, body[begin:at]


class Message:
    """What a message says of a cell: only that is read."""

    def __init__(self, octets, cell):
        self.kind, body = octets[0], octets[4:4 + int.from_bytes(octets[1:4], "big")]
        self.elements, self.pages = {}, []
        for name, inside in elements_of(body) if is_read(self.kind) else ():
            if name == 0x01:
                self.pages.append(inside)
            self.elements.setdefault(name, inside)
        self.cell = cell

    def number(self, name):
        """Returns the number of an element; None if it is left out."""
        return int.from_bytes(self.elements[name], "big") if name in self.elements else None

    def lists_cell(self):
        """Whether its list of cells names the cell."""
        return any(named(kind, octets, self.cell) for kind, octets in items_of(self.elements.get(0x04, b"\3"), 0))

    def cause(self):
        """Returns the cause of the first failure of the cell; None if it has none."""
        body, at = self.elements.get(0x09, b""), 0
        while at < len(body):
            kind = body[at] & 15
            end = at + 1 + CELL[kind]
            if named(kind, body[at + 1:end], self.cell):
                return body[end]
            at = end + 1
        return None

    def done(self):
        """Returns the number of the first item of the cell, if that says that it is valid; else None."""
        for kind, octets in items_of(self.elements.get(0x08, b"\1"), 3):
            if named(kind, octets[:-3], self.cell):
                return int.from_bytes(octets[-3:-1], "big") if octets[-1] == 0 else None
        return None

    def name(self):
        """Returns what an order and its answer share."""
        return self.kind >= KILL, self.number(0x0E), self.number(0x03) if self.kind < KILL else None, self.number(0x02)

    def is_emergency(self):
        """Whether it is an emergency message."""
        return self.kind == WRITE and 0x12 not in self.elements

    def concerns_cell(self):
        """Whether it is an order to the cell, or says that the cell lost its messages."""
        if self.kind in (WRITE, KILL, RESET):
            return self.lists_cell() and not self.is_emergency()
        if self.kind == RESTART:
            return self.lists_cell() and self.number(0x16) == 0 and self.number(0x0D) == 1
        return self.kind == FAILURE and self.cause() is not None and self.number(0x16) == 0

    def answers(self, order):
        """Whether it answers an order, or RESET."""
        if order.kind in (WRITE, KILL):
            return self.kind in (order.kind + 1, order.kind + 2) and self.name() == order.name()
        if order.kind == RESET:
            return (self.kind in (WAS_RESET, NOT_RESET)
                    and (self.lists_cell() or self.kind == NOT_RESET and self.cause() is not None))
        return False


def row_of(at, order, answer):
    """Returns the fields of a row; None if there is none."""
    if order.kind in (WRITE, KILL):
        cause = answer.cause() if answer is not None and answer.kind in (NOT_WRITTEN, NOT_KILLED) else None
        said = ["", ""] if answer is None else ["ok" if cause is None else f"{cause:02x}",
                                               "" if answer.done() is None else answer.done()]
    if order.kind == WRITE:
        old, category = order.number(0x02), order.number(0x05)
        pages = [f"{it[0]}-{it[1:].hex()}" for it in order.pages]
        return ["write", at, order.number(0x0E), f"{order.number(0x03):04x}", "" if old is None else f"{old:04x}",
                2 if category is None else category, order.number(0x06), order.number(0x07),
                f"{order.number(0x0C):02x}", *said, *pages]
    if order.kind == KILL:
        return ["kill", at, order.number(0x0E), f"{order.number(0x02):04x}", *said]
    if order.kind == RESET and answer is not None and answer.kind == NOT_RESET and answer.cause() is not None:
        return None
    return ["clear", at]


def rows_of(cell, heard):
    """Returns the rows of a cell, each with its packet, of messages `(slot, packet, connection, octets)`.

    Each message looks for its answer: from the first one on the first later message that answers it and that answers no
    earlier one. That is another way than that of the definition, which goes from message to message.
    """
    messages = [Message(octets, cell) for _, _, _, octets in heard]
    taken, rows = set(), []
    for place, message in enumerate(messages):
        if not message.concerns_cell():
            continue
        answer = next((later for later in range(place + 1, len(messages)) if later not in taken
                       and heard[later][2] == heard[place][2] and messages[later].answers(message)), None)
        taken.add(answer)
        last = place if answer is None else answer
        row = row_of(heard[last][0], message, None if answer is None else messages[answer])
        if row:
            rows.append((last, heard[last][1], ",".join(str(it) for it in row)))
    return [(packet, row) for _, packet, row in sorted(rows, key=lambda it: it[0])]


def table_row(line):
    """Returns a line `orders LAC-CI MESSAGES` as the row of a table: each message is `@SLOT.PACKET.CONNECTION` and its
    octets."""
    _, name, rest = line.split(" ", 2)
    cell = tuple(int(it) for it in name.split("-"))
    heard = []
    for part in rest.split("@")[1:]:
        place, *octets = part.split()
        slot, packet, connection = (int(it) for it in place.split("."))
        octets = "".join(it if "*" not in it else int(it.split("*")[0]) * it.split("*")[1] for it in octets)
        heard.append((slot, packet, connection, bytes.fromhex(octets)))
    found = " ".join(f"{packet}:{row}" for packet, row in rows_of(cell, heard))
    return f"{line.strip()} -> {found or 'none'}"


# ---- random links

def number(name, value, size=2):
    """Returns an element of a number."""
    return bytes([name]) + value.to_bytes(size, "big")


def listed(name, octets):
    """Returns an element that is a list."""
    return number(name, len(octets)) + octets


class Messages:
    """Random messages over so many connections."""

    def __init__(self, rng, connections=2):
        self.rng, self.connections = rng, connections
        # of each order, its kind, its names and its connection
        self.asked = []

    def cell(self, kind):
        """Returns the octets of a cell, by its discriminator."""
        rng = self.rng
        lac, ci = (rng.choice((1, 1, 2, 65535)).to_bytes(2, "big") for _ in range(2))
        network = rng.choice((b"\x00\xf1\x10", b"\x62\xf2\x10"))
        return {0: network + lac + ci, 1: lac + ci, 2: ci, 3: b"", 4: network + lac, 5: lac, 6: b""}[kind]

    def cells(self):
        """Returns a list of cells."""
        kind = self.rng.choice((0, 1, 1, 1, 2, 3, 4, 5, 6))
        count = 0 if kind in (3, 6) else self.rng.randint(1, 4)
        return listed(0x04, bytes([kind | self.rng.choice((0, 0, 0xF0))]) + b"".join(self.cell(kind)
                                                                                    for _ in range(count)))

    def completed(self):
        """Returns a list of completed broadcasts, or nothing."""
        rng, kind = self.rng, self.rng.choice((0, 1, 1, 2, 4, 5, 6, 3))
        if rng.random() < 0.4:
            return b""
        return listed(0x08, bytes([kind]) + b"".join(
            self.cell(kind) + rng.randrange(65536).to_bytes(2, "big") + bytes([rng.choice((0, 0, 0, 1, 2))])
            for _ in range(rng.randint(1, 3))))

    def failures(self):
        """Returns a list of failures."""
        items = []
        for _ in range(self.rng.randint(1, 3)):
            kind = self.rng.randrange(7)
            items.append(bytes([kind]) + self.cell(kind) + bytes([self.rng.choice((0, 2, 6, 13, 255))]))
        return listed(0x09, b"".join(items))

    def order(self, connection):
        """Returns an order, or RESET."""
        rng, kind = self.rng, self.rng.choice((WRITE, WRITE, KILL, KILL, RESET))
        names = b""
        if kind == WRITE:
            names = number(0x0E, rng.choice((1, 2))) + number(0x03, rng.choice((16, 17)))
        if kind == KILL or kind == WRITE and rng.random() < 0.3:
            names += number(0x02, rng.choice((16, 17)))
        if kind == KILL:
            names = number(0x0E, rng.choice((1, 2))) + names
        self.asked.append((kind, names, connection))
        body = names + self.cells()
        if kind == WRITE:
            if rng.random() < 0.9:
                body += number(0x12, rng.randrange(2), 1)
            if rng.random() < 0.7:
                body += number(0x05, rng.randrange(3), 1)
            pages = rng.choice((1, 1, 2, 15))
            body += number(0x06, rng.choice((1, 4, 4095))) + number(0x07, rng.choice((0, 1, 65535)))
            body += number(0x13, pages, 1) + number(0x0C, rng.randrange(256), 1)
            body += b"".join(b"\1" + bytes([rng.randint(0, PAGE)]) + bytes([rng.randrange(256)]) * PAGE
                             for _ in range(pages))
        return self.message(kind, body)

    def answer(self):
        """Returns an answer, mostly to one of the orders, and its connection."""
        rng = self.rng
        kind, names, connection = rng.choice(self.asked)
        if rng.random() < 0.1:
            connection = (connection + 1) % self.connections
        failed = rng.random() < 0.4
        body = names + (self.failures() if failed else b"")
        if kind != RESET:
            body += self.completed()
        if kind == RESET and not failed or rng.random() < 0.7:
            body += self.cells()
        if kind != RESET and rng.random() < 0.5:
            body += number(0x12, 0, 1)
        return self.message(kind + (2 if failed else 1), body), connection

    def other(self):
        """Returns RESTART, FAILURE, or a message that says nothing of cells."""
        rng = self.rng
        kind = rng.choice((RESTART, FAILURE, 22, 7))
        if kind == RESTART:
            return self.message(kind, self.cells() + number(0x16, rng.choice((0, 0, 1)), 1)
                                + number(0x0D, rng.choice((0, 1, 1)), 1))
        if kind == FAILURE:
            return self.message(kind, self.failures() + number(0x16, rng.choice((0, 0, 1)), 1))
        return self.message(kind, rng.randbytes(rng.randrange(4)))

    def message(self, kind, body):
        """Returns a message."""
        return number(kind, len(body), 3) + body


def random_link(rng):
    """Returns a random link as the words of a row."""
    messages, words, slot, packet = Messages(rng), [], 0, 0
    for _ in range(rng.randint(1, 14)):
        slot += rng.choice((0, 0, 1, 1, 2, 7, 70000))
        packet += rng.randint(1, 9)
        connection = rng.choice((0, 0, 0, 1))
        choice = rng.random()
        if choice < 0.45:
            octets = messages.order(connection)
        elif choice < 0.85 and messages.asked:
            octets, connection = messages.answer()
        else:
            octets = messages.other()
        words.append(f"@{slot}.{packet}.{connection} {octets.hex()}")
    return " ".join(words)


def main():
    if "--help" in sys.argv:
        print(__doc__.strip())
        return
    if "--rows" in sys.argv:
        for line in sys.stdin:
            print(table_row(line))
        return
    runs = int(sys.argv[1]) if len(sys.argv) > 1 else 300
    rng = random.Random(int(sys.argv[2]) if len(sys.argv) > 2 else 1)
    rows = [table_row("orders 1-1 " + random_link(rng)) for _ in range(runs)]
    right = all_hold(BENCH, in_parts(rows, ROWS))
    count = sum(row.rsplit(" -> ", 1)[1].count(":") for row in rows)
    print(f"orders_reference: {runs} links with {count} rows: {'as cell_orders has them' if right else 'some DIFFER'}")
    sys.exit(not right)


if __name__ == "__main__":
    main()
