#!/usr/bin/env python3
"""Closes the circle of the link: has the orders of random books and their air in one capture, and asks the program for
both.

Usage: link_runs_reference.py PROGRAM [RUNS]    random books, 300 if no number is given. Of each cell the orders and the
                                                answers are written as messages of the link here, and the air is what
                                                the program makes of the book. Of the capture of both `tape` has to be
                                                the book's tape, `orders` the orders and answers, as of the book itself,
                                                and `verify --orders` without a row; and of a tape that is spoilt it has
                                                to say what orders_verdict_reference.py says. `link` has to write such
                                                messages of all cells, and merged with the air to give the same back.
                                                Of some runs tshark has to show them without a fault, and of all
                                                libosmogsm to read them and to write them again, where these are there;
                                                but for failures, whose lists libosmogsm 1.7.0 reads wrong.
                                                PROGRAM is a built `warnc`
       link_runs_reference.py --help            prints this

What a cell answered, and how many broadcasts were over by then, is taken from `warnc report`. Of cells in which a
message waits for the one that it replaces only the orders of the book are compared, and they are counted: there an
answer is no start.
"""
import collections
import csv
import dataclasses
import io
import random
import shutil
import subprocess
import sys
import tempfile

import gsm
from capture_files import packets_of as packets_in
from link_reference import NOT_KILLED, NOT_WRITTEN, peer_in, said_by
from link_session import SLOT, answer_of, capture_of, coding_of, link_of, message_of, packets_of, page
from orders_verdict_reference import Order, line_of, rows_of, table_of
from random_runs import judged
from report_reference import NOT_LIVE, Lines, random_book, run

# when slot 0 begins, in words and in microseconds, and how far into its slot an order comes
START, BEGIN, LATE = "2026-01-01T00:00:00Z", 1767225600 * 10 ** 6, 400_000
# a message that is live in a cell: its serial number, and how many broadcasts are whole by its end
Live = collections.namedtuple("Live", "serial completed")
# all messages of links, in hexadecimal, but failures
SENT = set()
# an order to a cell, the serial number that it replaces, and the answer: a cause, or how many broadcasts are over
Exchange = collections.namedtuple("Exchange", "slot order replaced cause done")


# ---- the link of a book's run

class Cell:
    """What a cell was asked and answered, by the lines of its report."""

    def __init__(self, cell, lines, slots):
        self.cell, self.lines, self.slots = cell, Lines(lines), slots
        self.live, self.clock = {}, 0
        # a message begins later than it is accepted
        self.waits = False

    def is_asked(self, order):
        """Whether an order asks the cell: a write does, and an update or a stop where a version of its alert is live.
        """
        return (order.cells is None or self.cell in order.cells) and (order.verb == "write"
                                                                      or order.alert.name in self.live)

    def is_refused_stop(self, ident, serial):
        """Whether the next line is that of a refused stop; a stop that was accepted has none."""
        return self.lines.has_refused(ident, serial) and (
            self.clock == self.slots or self.lines.left[0][7] == f"refused {NOT_LIVE:02x}")

    def exchange(self, order):
        """Returns what comes of the next order, which asks the cell."""
        name, ident = order.alert.name, order.alert.identifier
        self.clock = min(self.slots, max(self.clock, order.at))
        old = None if order.verb == "write" else self.live[name]
        serial = old.serial if order.verb == "stop" else order.alert.serial()
        line, cause = None, None
        if order.verb != "stop" or self.is_refused_stop(ident, serial):
            line, cause = self.lines.next(ident, serial)
        if cause in (None, NOT_LIVE):
            self.live.pop(name, None)
        if cause is None and line:
            self.waits |= int(line[4]) != self.clock
            self.live[name] = Live(serial, int(line[6]))
        alert = dataclasses.replace(order.alert, update=serial & 15)
        return Exchange(self.clock, dataclasses.replace(order, alert=alert, cells=[self.cell]),
                        old.serial if order.verb == "update" else None, cause,
                        old.completed if old and cause is None else None)


def messages_of(exchanges, cell):
    """Returns the messages of exchanges, each as packets_of takes it."""
    messages = []
    for place, it in enumerate(exchanges):
        at = BEGIN + it.slot * SLOT + LATE + 2 * place
        messages += [(at, False, message_of(it.order, it.replaced)),
                     (at + 1, True, answer_of(it.order, cell, it.cause, it.done, it.replaced))]
    return messages


def sent_of(exchanges, cell):
    """Returns the messages of a cell's exchanges, each as link_of takes it."""
    return [(it.slot, is_answer, octets) for it in exchanges
            for is_answer, octets in ((False, message_of(it.order, it.replaced)),
                                      (True, answer_of(it.order, cell, it.cause, it.done, it.replaced)))]


def row_of(exchange):
    """Returns the row that `orders` has to have of an exchange."""
    order, sending = exchange.order, exchange.order.sending
    ident, serial = order.alert.identifier, order.alert.serial()
    answer = "ok" if exchange.cause is None else f"{exchange.cause:02x}"
    if sending is None:
        return Order("kill", exchange.slot, (ident, 0), serial, 2, 0, 0, 0, [], answer, exchange.done)
    pieces, is_gsm = gsm.pieces_of(sending.text)
    pages = [(it[1], it[2:]) for it in (page(piece, is_gsm) for piece in pieces)]
    return Order("write", exchange.slot, (ident, serial), exchange.replaced, sending.category, sending.period,
                 sending.broadcasts, coding_of(sending, is_gsm), pages, answer, exchange.done)


def file_of(exchanges):
    """Returns the orders file that `orders` has to write of exchanges."""
    return "".join(f"{line_of(row_of(it))}\n" for it in exchanges).encode()


# ---- judging

def spoilt(rng, blocks):
    """Returns blocks with a bit of a page changed, or a page's slot idle; None if they have no page."""
    used = [it for it in range(0, len(blocks), 4) if blocks[it] != gsm.IDLE]
    if not used:
        return None
    place = rng.choice(used)
    if rng.random() < 0.5:
        return blocks[:place] + [gsm.IDLE] * 4 + blocks[place + 4:]
    place += rng.randrange(4)
    block = bytearray(blocks[place])
    block[rng.randrange(1, len(block))] ^= 1 << rng.randrange(8)
    return blocks[:place] + [bytes(block)] + blocks[place + 1:]


def verdict(program, cell, orders, blocks):
    """Returns what the program says of a tape by orders."""
    with tempfile.NamedTemporaryFile() as file:
        file.write(orders)
        file.flush()
        words = ["verify", "--orders", file.name, "--cell", "-".join(map(str, cell))]
        return run(program, words, gsm.tape_of(*cell, blocks)).stdout.decode()


def judge_cell(program, rng, cell, blocks, exchanges, counts):
    """Yields what is wrong of a cell."""
    air = run(program, ["pcap", "--start", START], gsm.tape_of(*cell, blocks)).stdout
    packets = [(time // 1000, octets) for _, _, time, octets in packets_in(air)]
    capture = capture_of([*packets_of(messages_of(exchanges, cell)), *packets])
    rows, wanted = [row_of(it) for it in exchanges], file_of(exchanges)
    name = ["--cell", "-".join(map(str, cell))]
    tape, orders = run(program, ["tape", *name], capture).stdout, run(program, ["orders", *name], capture).stdout
    if tape != gsm.tape_of(*cell, blocks):
        yield f"the tape has {len(tape)} octets"
    if orders != wanted:
        yield f"orders are {orders}, and not {wanted}"
    found = verdict(program, cell, wanted, blocks)
    if found != table_of(cell, []):
        yield f"its own tape has {found}"
    counts.update(cells=1, orders=len(rows))
    other = spoilt(rng, blocks)
    if other:
        found, wanted = verdict(program, cell, wanted, other), table_of(cell, rows_of(rows, other, 0))
        counts.update(spoilt=1, found=found != table_of(cell, []))
        if found != wanted:
            yield f"of a spoilt tape it says {found}, and not {wanted}"


def faults_of_link(program, rng, air, cells, capture):
    """Yields what is wrong of what `link` writes, as the messages of the cells and their orders files say it: cells are
    these by their names, and the air is the capture of their tapes."""
    SENT.update(octets.hex() for sent, _ in cells.values() for *_, octets in sent
                if octets[0] not in (NOT_WRITTEN, NOT_KILLED))
    if capture != link_of([sent for sent, _ in cells.values()], BEGIN):
        yield "the link has other octets"
    messages = [(time // 1000, octets) for _, _, time, octets in packets_in(capture)]
    both = capture_of(messages + [(time // 1000, octets) for _, _, time, octets in packets_in(air)])
    for (lac, ci), (_, wanted) in cells.items():
        source = ".".join(map(str, (*divmod(lac, 256), *divmod(ci, 256))))
        found = run(program, ["orders", "--cell", f"{lac}-{ci}", "--from", source], both).stdout
        if found != wanted:
            yield f"orders of the link and the air are {found}, and not {wanted}"
    if rng.random() < 0.1 and messages and shutil.which("tshark"):
        shown = shown_by_tshark(capture)
        if shown != [1] * sum(len(sent) for sent, _ in cells.values()):
            yield f"tshark shows {shown}"


def shown_by_tshark(capture):
    """Returns how often tshark shows a message of the link in each packet that has octets; a packet with a fault, as a
    wrong checksum, has 0."""
    fields = "tcp.len cbsp.msg_type tcp.checksum.status ip.checksum.status _ws.expert _ws.malformed".split()
    words = [it for name in fields for it in ("-e", name)]
    checks = [it for name in ("tcp.check_checksum", "ip.check_checksum") for it in ("-o", f"{name}:TRUE")]
    with tempfile.NamedTemporaryFile() as file:
        file.write(capture)
        file.flush()
        command = ["tshark", "-r", file.name, *checks, "-T", "fields", *words]
        said = subprocess.run(command, capture_output=True, check=True).stdout
    lines = [it.split("\t") for it in said.decode().splitlines()]
    return [len(kind.split(",")) if (tcp, ip, fault) == ("1", "1", "") and kind else 0
            for size, kind, tcp, ip, _, fault in lines if size != "0"]


def differs(program, seed, counts):
    """Whether something of a run isn't what it has to be; prints what."""
    rng = random.Random(seed)
    text, _, orders = random_book(rng)
    slots = rng.randrange(8, 60)
    report, tapes = (run(program, [it, "--slots", str(slots)], text.encode()) for it in ("report", "compile"))
    lines, wrong = list(csv.reader(io.StringIO(report.stdout.decode())))[1:], []
    cells = {}
    for lac, ci, blocks in gsm.tapes_of(tapes.stdout):
        cell = Cell((lac, ci), [it for it in lines if it[:2] == [str(lac), str(ci)]], slots)
        exchanges = [cell.exchange(it) for it in orders if cell.is_asked(it)]
        wanted = file_of(exchanges)
        words = ["orders", "--slots", str(slots), "--cell", f"{lac}-{ci}"]
        found = run(program, words, text.encode()).stdout
        if found != wanted:
            wrong.append(f"orders of the book are {found}, and not {wanted}")
        cells[lac, ci] = sent_of(exchanges, (lac, ci)), wanted
        counts.update(waits=cell.waits)
        if not cell.waits:
            wrong += judge_cell(program, rng, (lac, ci), blocks, exchanges, counts)
    air = run(program, ["pcap", "--start", START], tapes.stdout).stdout
    link = run(program, ["link", "--slots", str(slots), "--start", START], text.encode()).stdout
    wrong += faults_of_link(program, rng, air, cells, link)
    if wrong:
        print(f"link_runs_reference: run {seed}: {wrong[0]}")
    return bool(wrong)


def is_read_by_peer(octets):
    """Whether libosmogsm reads messages and writes them again as they were; prints where it doesn't."""
    with tempfile.TemporaryDirectory() as folder:
        peer = peer_in(folder)
        if peer is None:
            return True
        wrong = [it for it, again in zip(octets, said_by(peer, "write", said_by(peer, "read", octets))) if it != again]
    for it in wrong[:1]:
        print(f"link_runs_reference: libosmogsm reads otherwise: {it}")
    return not wrong


def main(words):
    counts = collections.Counter()
    status = judged("link_runs_reference", __doc__, words, lambda *it: differs(*it, counts), 300)
    if SENT and not is_read_by_peer(sorted(SENT)):
        status = 1
    if counts:
        print(f"link_runs_reference: {counts['cells']} cells with {counts['orders']} orders, and {counts['waits']} "
              f"where a message waits; {counts['spoilt']} tapes were spoilt, and in {counts['found']} that is found")
    return status


if __name__ == "__main__":
    sys.exit(main(sys.argv[1:]))
