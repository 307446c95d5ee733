#!/usr/bin/env python3
"""Has `warnc orders` read random messages of the link that libosmogsm wrote, each in a capture of its own, and compares
its rows with the values that libosmogsm was given.

Usage: link_read_reference.py PROGRAM [RUNS [SEED]]    900 messages, if no number is given: orders to write and to stop,
                                                       and replies to such orders, which stand in front of them.
                                                       PROGRAM is a built `warnc`
       link_read_reference.py --help                   prints this

Of the cells that a message names one is asked for. libosmogsm (Debian's libosmocore-dev) writes by tools/link_peer.c;
without it all is skipped, and a line says so.
"""
import collections
import os
import random
import subprocess
import sys
import tempfile

from books import Alert, Order, Sending
from link_reference import ALL_CELLS, KILL, KILLED, NOT_KILLED, NOT_WRITTEN, WRITE, Message, written_by_peer
from link_session import capture_of, message_of, packets_of, page
from orders_verdict_reference import Order as Row
from orders_verdict_reference import line_of

# when a capture begins, in microseconds, and what an order to write says that stands in front of its reply
BEGIN, SENDING = 10 ** 12, Sending("en", 2, 4, 7, "x")
# the number of the category and of the data coding of that order
NORMAL, ENGLISH = 2, 1


class Said:
    """What the words of a message say."""

    def __init__(self, words):
        self.values = collections.defaultdict(list)
        for word in words:
            name, value = word.split("=", 1)
            self.values[name].append(value)

    def number(self, name):
        """Returns a number; None if the message has none of this name."""
        return int(self.values[name][0]) if self.values[name] else None

    def items(self, name):
        """Returns the items of lists: discriminator, LAC and CI, each None if any is meant, and what follows them."""
        found = []
        for value in self.values[name]:
            kind, items = value.split(":")
            for item in items.split(","):
                numbers, *more = item.split("/")
                found.append((*place_of(int(kind), numbers.split(".")), *map(int, more)))
        return found

    def cell(self, rng):
        """Returns a cell that it names."""
        lac, ci, *_ = rng.choice([it for name in ("fl", "nc", "cl") for it in self.items(name)])
        return 1 if lac is None else lac, 1 if ci is None else ci

    def of(self, name, cell):
        """Returns the first item that names a cell, without its place; None if there is none."""
        return next((it[2:] for it in self.items(name) if it[0] in (None, cell[0]) and it[1] in (None, cell[1])), None)

    def alert(self, name):
        """Returns the alert with this serial number."""
        serial = self.number(name)
        return Alert("alert", self.number("id"), serial >> 14, serial >> 4 & 1023, serial & 15)


def place_of(kind, numbers):
    """Returns LAC and CI of a cell by its discriminator, each None where any is meant."""
    if kind == ALL_CELLS:
        return None, None
    last = [int(it) for it in numbers[-2:]]
    return {0: (last[0], last[-1]), 1: (last[0], last[-1]), 2: (None, last[-1]), 4: (last[-1], None),
            5: (last[-1], None)}[kind]


def order_before(said, kind, cell):
    """Returns the message of the order that a reply answers, and the row of both, without an answer."""
    old, ident = said.number("old"), said.number("id")
    if kind in (KILLED, NOT_KILLED):
        return (message_of(Order("stop", 0, said.alert("old"), [cell])),
                Row("kill", 0, (ident, 0), old, NORMAL, 0, 0, 0, [], None, None))
    order = Order("write", 0, said.alert("new"), [cell], SENDING)
    used, *content = page(SENDING.text, True)[1:]
    return message_of(order, old), Row("write", 0, (ident, said.number("new")), old, NORMAL, SENDING.period,
                                       SENDING.broadcasts, ENGLISH, [(used, bytes(content))], None, None)


def exchange_of(said, kind, octets, cell):
    """Returns the messages of a capture, and the row that they have to come to."""
    ident, old = said.number("id"), said.number("old")
    if kind == KILL:
        return [octets], Row("kill", 0, (ident, 0), old, NORMAL, 0, 0, 0, [], None, None)
    if kind == WRITE:
        pages = [(int(used), bytes.fromhex(content)) for used, content in (it.split(":") for it in said.values["pg"])]
        return [octets], Row("write", 0, (ident, said.number("new")), old, said.number("cat"), said.number("per"),
                             said.number("num"), said.number("dcs"), pages, None, None)
    order, row = order_before(said, kind, cell)
    cause = said.of("fl", cell) if kind in (NOT_WRITTEN, NOT_KILLED) else None
    number, information = said.of("nc", cell) or (None, 0)
    return [order, octets], row._replace(answer="ok" if cause is None else f"{cause[0]:02x}",
                                         done=number if information == 0 else None)


def main(words):
    if not words or words[0].startswith("-") or not os.access(words[0], os.X_OK):
        print(__doc__, end="")
        return 0 if words in (["-h"], ["--help"]) else 2
    runs, seed = [*map(int, words[1:]), *(900, 1)[len(words) - 1:]]
    rng = random.Random(seed)
    messages = [Message(rng, WRITE + number % NOT_KILLED) for number in range(runs)]
    with tempfile.TemporaryDirectory() as folder:
        written = written_by_peer(folder, messages)
    differing = 0
    for message, digits in zip(messages, written[0] if written else ()):
        said = Said(message.words)
        cell = said.cell(rng)
        octets, row = exchange_of(said, message.kind, bytes.fromhex(digits), cell)
        sent = [(BEGIN + at, at > 0, it) for at, it in enumerate(octets)]
        done = subprocess.run([words[0], "orders", "--cell", "-".join(map(str, cell))], capture_output=True,
                              input=capture_of(packets_of(sent)), check=False)
        if done.stdout.decode() != line_of(row) + "\n":
            print(f"link_read_reference: {digits}: wanted {line_of(row)}, but it was {done.stdout} {done.stderr}")
            differing += 1
    print(f"link_read_reference: {len(messages) if written else 0} messages, {differing} differ")
    return 1 if differing else 0


if __name__ == "__main__":
    sys.exit(main(sys.argv[1:]))
