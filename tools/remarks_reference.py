#!/usr/bin/env python3
"""Remarks on books and their runs as docs/formats.md says: a second program against which `warnc check --slots` is
compared, also with `--group` and `--network`, and with `--start` the times of their slots. Which writes and updates a
cell accepted, from which slot on, and with which cause one refused an order, it takes from `warnc report`; which order
asked which cell, and at which slot, it finds by itself, as a session goes on by the replies, and so what each message
reserves.

Usage: remarks_reference.py PROGRAM [RUNS]    random books of few slots and cells, with orders that go back in time or
                                              stop what isn't live, cells that are declared late, and identifiers and
                                              codes that come twice; every third is a network of up to three groups.
                                              The tables, lines and statuses of both programs have to be the same.
                                              PROGRAM is a built `warnc`
"""
import csv
import io
import random
import re
import subprocess
import sys
from dataclasses import dataclass
from fractions import Fraction

import books
import gsm
from random_runs import judged
from report_reference import random_start, time_of

TEXTS = ("Stay in!", " ", "Go up to the roof " * 8, "\n \n", "Вода поднимается, идите наверх. " * 3, "a", "x" * 186,
         "Don’t go out – " * 7, "Woda idzie, idźcie w górę! " * 2, "Don’t go", "№1 ", "€" * 60 + "…")
NAMES = ("", ",", '"', " é")
COLUMNS = "row name cell says".split()
PAST, UNKNOWN = 0x0A, 0x02
BACKGROUND = 1
SLOT_SAID = re.compile(r"(?:done|fullest: [0-9]+ %) at slot ([0-9]+)")
# 3GPP TS 48.049, 8.2
CAUSES = {
    0x02: "message reference not identified", 0x06: "BSC capacity exceeded", 0x07: "cell memory exceeded",
    0x0D: "message reference already used",
}


def random_book(rng, network):
    """Returns the rows of a book, or of a network book: cells, which are pairs, and orders. Lists of cells have early
    ones alone."""
    count = rng.randrange(1, 5)
    if network:
        count = rng.choice((3, books.GROUP, books.GROUP + 1, 2 * books.GROUP + 2)) + rng.randrange(-2, 3)
    cells = [(rng.randrange(1, 4), it) for it in rng.sample(range(1, 400 if network else 9), count)]
    slots = [rng.randrange(0, 30) for _ in range(rng.randrange(1, 14))]
    if rng.random() < 0.7:
        slots.sort()
    names = [f"n{it}{rng.choice(NAMES)}" for it in range(len(slots))]
    few = rng.random() < 0.3
    late = 1 if len(cells) > 1 and rng.random() < 0.3 else 0
    early = cells[late:]
    orders = books.random_orders(
        rng, slots,
        lambda number: books.Alert(names[number], 4370 + (rng.randrange(2) if few else number), 1,
                                   rng.randrange(2 if few else 1024)),
        lambda: books.Sending("en", rng.choice((0, 1, 2, 2)), rng.randrange(1, 9), rng.choice((0, 0, 1, 2, 3)),
                              rng.choice(TEXTS)),
        lambda: None if rng.random() < 0.4 else rng.sample(early, rng.randrange(1, min(len(early), 9) + 1)))
    rows = [*early, *orders]
    for cell in cells[:late]:
        rows.insert(rng.randrange(len(early), len(rows) + 1), cell)
    return rows


@dataclass
class Reserved:
    """What a message reserves of a cell: from its start to its end its load, and before, from the slot at which it was
    accepted, what that is more than the load of the message behind which it waits, if it does."""

    accepted: int
    start: int
    period: int
    end: int
    load: Fraction
    behind: "Reserved"

    def stop(self, slot):
        """Has it end after the period that is under way."""
        begun = max(0, slot - self.start)
        self.end = min(self.start, slot) + -(-begun // self.period) * self.period

    def at(self, slot):
        if not self.accepted <= slot or self.end is not None and slot >= self.end:
            return 0
        return self.load if slot >= self.start else max(0, self.load - (self.behind.load if self.behind else self.load))


class Walk:
    """The session's way through a cell: its clock, the rows of the report that are left, for each name the update
    number of its version that is live there, and what each message reserves, by its identifier and serial number."""

    def __init__(self, slots, reported):
        self.slots, self.reported, self.clock, self.live = slots, reported, 0, {}
        self.reserved = {}

    def answer(self, order):
        """Returns the slot at which the cell did what was ordered, the cause with which it refused it, one of which is
        None, and whether its message is never shown; or None if it wasn't asked."""
        name = order.alert.name
        live = self.live.get(name)
        if order.verb != "write" and live is None:
            return None
        self.clock = slot = min(self.slots, max(self.clock, order.at))
        row = self.reported[0] if self.reported else None
        cause = self.cause_of_stop(order, live) if order.verb == "stop" else self.cause_of_next()
        if cause is None:
            self.reserve(order, live, slot, row)
            self.live[name] = None if order.verb == "stop" else order.alert.update
            return slot, None, order.verb != "stop" and row["shown"] == "no"
        if cause == UNKNOWN:
            self.live[name] = None
        return None, cause, False

    def reserve(self, order, live, slot, row):
        """Keeps what a message reserves that the cell accepted or stopped at a slot; `live` is the update number of the
        version before."""
        key = order.alert.identifier, order.alert.scope, order.alert.code
        old = None if order.verb == "write" else self.reserved[(*key, live)]
        if old:
            old.stop(slot)
        if order.verb == "stop":
            return
        sending, start = order.sending, int(row["start"])
        load = Fraction(len(gsm.pieces_of(sending.text)[0]), sending.period)
        behind = None if old is None or start == slot else old if old.start <= slot else old.behind
        self.reserved[(*key, order.alert.update)] = Reserved(
            slot, start, sending.period, start + sending.broadcasts * sending.period if sending.broadcasts else None,
            0 if sending.category == BACKGROUND else load, behind)

    def loads(self):
        """Returns the share of the cell that is reserved at each slot."""
        return [sum(it.at(slot) for it in self.reserved.values()) for slot in range(self.slots)]

    def fullest(self):
        """Returns the greatest share of the cell that is reserved at a slot, in hundredths, and the first such slot."""
        loads = self.loads()
        return hundredths(max(loads)), loads.index(max(loads))

    def cause_of_next(self):
        shown = self.reported.pop(0)["shown"]
        return int(shown.split()[1], 16) if shown.startswith("refused") else None

    def cause_of_stop(self, order, live):
        """A stop has a row in the report only where it was refused: at the run's end, or since no such message was
        live, which no write without a message to replace is refused for."""
        if self.clock == self.slots:
            return self.cause_of_next()
        row = self.reported[0] if self.reported else None
        serial = order.alert.scope << 14 | order.alert.code << 4 | live
        if row and (int(row["id"]), int(row["serial"], 16)) == (order.alert.identifier, serial) \
                and row["shown"] == f"refused {UNKNOWN:02x}":
            return self.cause_of_next()
        return None


def hundredths(share):
    """Returns how many hundredths a share is, rounded up."""
    return -(-share * 100 // 1)


def cells_in(count):
    return f"{count} cell{'s' if count > 1 else ''}"


def says_of(order, answers, earlier):
    """Yields what is said of an order: `answers` has that of each cell that it names, in the order of the book."""
    asked = {cell: it for cell, it in answers.items() if it is not None}
    omitted = [f"{lac}-{ci}" for (lac, ci), it in answers.items() if it is None]
    if not asked:
        yield "orders nothing"
    elif omitted:
        yield " ".join(["leaves out", *omitted])
    done = max((slot for slot, cause, _ in asked.values() if cause is None), default=0)
    if done > order.at:
        yield f"done at slot {done}"
    causes = [cause for _, cause, _ in asked.values() if cause is not None]
    for cause in dict.fromkeys(it for it in causes if it != PAST):
        yield f"refused in {cells_in(causes.count(cause))}: {CAUSES[cause]}"
    if PAST in causes:
        yield "past the end"
    unshown = sum(it[2] for it in asked.values())
    if unshown:
        yield f"never shown in {cells_in(unshown)}"
    if order.verb == "write":
        key = order.alert.identifier, order.alert.scope, order.alert.code
        yield from [f"same identifier and serial number as row {row}" for it, row in earlier if it == key][:1]
    if order.sending:
        yield from says_of_text(order.sending.text)


def says_of_text(text):
    """Yields what is said of a text."""
    if not text.strip(" \n"):
        yield "only spaces"
    lacking = [at for at, it in enumerate(text) if it not in gsm.CODES]
    pages, without = (len(gsm.pieces_of(it)[0]) for it in (text, "".join(it for it in text if it in gsm.CODES)))
    if 0 < 2 * len(lacking) < len(text) and without < pages:
        yield f"UCS-2 because of {text[lacking[0]]} at {lacking[0]}: {pages} pages in place of {without}"


def reported_in(rows, report, group=None):
    """Returns of each cell of a book, or of the group of this number of a network, its rows of the report."""
    cells = [it for it in rows if isinstance(it, tuple)]
    if group is not None:
        cells = cells[books.GROUP * group:books.GROUP * (group + 1)]
    reported = {cell: [] for cell in cells}
    for it in csv.DictReader(io.StringIO(report, newline="")):
        reported[int(it["lac"]), int(it["ci"])].append(it)
    return reported


def walked(rows, reported, slots):
    """Returns the ways through these cells, and of each order that asked one its row, the order, and the answers."""
    walks = {cell: Walk(slots, list(own)) for cell, own in reported.items()}
    declared, asked = [], []
    for row, it in enumerate(rows, 1):
        if isinstance(it, tuple):
            declared += [it] * (it in reported)
            continue
        named = [cell for cell in declared if it.cells is None or cell in it.cells]
        if named:
            asked.append((row, it, {cell: walks[cell].answer(it) for cell in named}))
    return walks, asked


def lines_of(rows, report, slots, group=None):
    """Returns the fields of the lines, and how many remarks there are: of a book, or of the group of this number of a
    network, whose book has the rows for some of its cells. Behind the remarks is how full each cell gets."""
    reported = reported_in(rows, report, group)
    silent = [cell for cell, own in reported.items() if all(it["shown"].startswith("refused") for it in own)]
    walks, asked = walked(rows, reported, slots)
    lines, earlier = [], []
    for row, it, answers in asked:
        lines += [[row, it.alert.name, "", says] for says in says_of(it, answers, earlier)]
        if it.verb == "write":
            earlier.append(((it.alert.identifier, it.alert.scope, it.alert.code), row))
    lines += [["", "", f"{lac}-{ci}", "gets nothing"] for lac, ci in silent]
    count = len(lines)
    for (lac, ci), walk in walks.items():
        share, slot = walk.fullest()
        lines.append(["", "", f"{lac}-{ci}", f"fullest: {share} % at slot {slot}"])
    return lines, count


def table_of(program, octets, rows, slots, words):
    """Returns the table that is wanted of a book, of a network book or of its group, and how many remarks it has."""
    def lines_by(group):
        wanted = [] if group is None else ["--group", str(group)]
        report = run(program, ["report", "--slots", str(slots), *wanted], octets).stdout.decode()
        names = "" if group in (None, 0) else run(program, ["report", "--slots", "1"], b"").stdout.decode()
        return lines_of(rows, names + report, slots, group)

    if words != ["--network"]:
        lines, count = lines_by(int(words[1]) if words else None)
        return "".join(books.line(it) for it in [COLUMNS, *lines]), count
    groups = max(1, -(-sum(isinstance(it, tuple) for it in rows) // books.GROUP))
    made = [lines_by(group) for group in range(groups)]
    lines = [[group, *line] for group, (of_group, _) in enumerate(made) for line in of_group]
    return "".join(books.line(it) for it in [["group", *COLUMNS], *lines]), sum(count for _, count in made)


def timed(table, start):
    """Returns a table with times, by the one without."""
    names, *lines = csv.reader(io.StringIO(table))
    made = [books.line([*names, "time"])]
    for line in lines:
        said = SLOT_SAID.fullmatch(line[-1])
        made.append(books.line([*line, time_of(start, int(said[1])) if said else ""]))
    return "".join(made)


def run(program, words, octets):
    return subprocess.run([program, *words], input=octets, stdout=subprocess.PIPE, stderr=subprocess.PIPE, check=False)


def differs(program, seed):
    """Whether both programs write different tables in this run."""
    rng = random.Random(seed)
    network = seed % 3 == 2
    rows = random_book(rng, network)
    octets = "".join(books.cell_line(it) if isinstance(it, tuple) else it.line() for it in rows).encode()
    slots, strict = rng.randrange(1, 40), rng.random() < 0.3
    groups = -(-sum(isinstance(it, tuple) for it in rows) // books.GROUP)
    part = rng.choice((["--network"], ["--network"], ["--group", str(rng.randrange(groups))])) if network else []
    table, count = table_of(program, octets, rows, slots, part)
    words = ["check", "--slots", str(slots), *(["--strict"] if strict else []), *part]
    start, time = random_start(rng)
    said, with_times = run(program, words, octets), run(program, [*words, "--start", time], octets)
    status, faults = (1, f"warnc: remarks: {count}\n") if strict and count else (0, "")
    wanted = [(it, faults, status) for it in (table, timed(table, start))]
    if [(it.stdout.decode(), it.stderr.decode(), it.returncode) for it in (said, with_times)] == wanted:
        return False
    print(f"run {seed}, {slots} slots, {time}:\n{octets.decode()}{wanted}{said.stdout.decode()}{said.stderr.decode()}"
          f"{with_times.stdout.decode()}{with_times.stderr.decode()}")
    return True


if __name__ == "__main__":
    sys.exit(judged("remarks_reference", __doc__, sys.argv[1:], differs, 1500))
