#!/usr/bin/env python3
"""Judges full reports of random books, as docs/formats.md says what their columns are: a second program against which
`warnc report --full` is compared, and with `--start` the times of both reports. Whether a cell accepted an order, and
from when to when, it takes from the plain report; which order a line is of it finds by the book, and when a phone shows
a message by the tapes.

Usage: report_reference.py PROGRAM [RUNS]    random books, some of which give two names the same identifier, scope and
                                             code; one group of a network, or all, in some runs. PROGRAM is a built
                                             `warnc`
"""
import csv
import io
import math
import random
import subprocess
import sys
from datetime import datetime, timedelta, timezone
from fractions import Fraction

import books
import gsm
from random_runs import judged

ORDER = ["row", "name"]
PLAIN = "lac,ci,id,serial,start,end,completed,shown".split(",")
MORE = "first_shown,pages,period,share,cause".split(",")
TIMES, SHOWN_TIME = ["start_time", "end_time"], "first_shown_time"
EPOCH = datetime(1970, 1, 1, tzinfo=timezone.utc)
# 2106-01-01T00:00:00Z, in microseconds from then
END = (datetime(2106, 1, 1, tzinfo=timezone.utc) - EPOCH) // timedelta(microseconds=1)
# milliseconds: 8 multiframes of 51 frames of 120/26 ms
SLOT = Fraction(8 * 51 * 120, 26)
# 3GPP TS 48.049, 8.2, Cause, as far as a cell refuses an order with it
CAUSES = {0x02: "message reference not identified", 0x06: "BSC capacity exceeded", 0x07: "cell memory exceeded",
          0x08: "BSC memory exceeded", 0x0A: "cell broadcast not operational", 0x0D: "message reference already used"}
BACKGROUND, NOT_LIVE = 1, 0x02
# those of the data codings 00 to 0F
LANGUAGES = [it for it, dcs in gsm.LANGUAGES.items() if dcs < 0x10]
TEXTS = ("Stay in!", "{fire} at 3€", "Go up to the roof " * 8, "Вода", "a" * 93 + "{",
         "Вода поднимается, идите наверх. " * 3, "@", "x" * 186)


def random_book(rng):
    """Returns the text of a book, its cells, and its orders."""
    cells = [(rng.randrange(1, 4), it) for it in rng.sample(range(1, 9), rng.randrange(1, 4))]
    shared = rng.random() < 0.3
    made = list(books.random_orders(
        rng, sorted(rng.randrange(0, 40) for _ in range(rng.randrange(1, 12))),
        lambda number: books.Alert(f"n{number}", 4370 + number // (2 if shared else 1), 1, 7),
        lambda: books.Sending(rng.choice(LANGUAGES), rng.choice((0, 1, 2, 2)), rng.randrange(1, 9),
                              rng.choice((0, 0, 1, 2, 3)), rng.choice(TEXTS)),
        lambda: None if rng.random() < 0.5 else rng.sample(cells, rng.randrange(1, len(cells) + 1))))
    return "".join([*map(books.cell_line, cells), *(it.line() for it in made)]), cells, made


def shown_in(blocks):
    """Returns after which slot a phone shows each message first, by identifier and serial number."""
    numbers, shown = {}, {}
    for place, serial, ident, _, number, total, _ in gsm.pages_in(blocks):
        numbers.setdefault((ident, serial), set()).add(number)
        if len(numbers[ident, serial]) == total:
            shown.setdefault((ident, serial), place // 4)
    return shown


class Wrong(Exception):
    """A plain report that no run of the book can have."""


class Lines:
    """The lines of a cell, of which each is that of the next order that has one."""

    def __init__(self, lines):
        self.left = list(lines)

    def has_refused(self, ident, serial):
        """Whether the next line is of this message, and refused."""
        return bool(self.left) and self.left[0][2:4] == [str(ident), f"{serial:04x}"] \
            and self.left[0][7].startswith("refused ")

    def next(self, ident, serial):
        """Takes the line of an order, and returns it with its cause, None if it was accepted."""
        if not self.left or self.left[0][2:4] != [str(ident), f"{serial:04x}"]:
            raise Wrong(f"no line of {ident} {serial:04x}")
        line = self.left.pop(0)
        word, _, cause = line[7].partition(" ")
        return line, int(cause, 16) if word == "refused" else None


def more_of(line, sent, first):
    """Returns the columns after the plain ones, of a write or an update, or of a stop (None)."""
    word, _, cause = line[7].partition(" ")
    words = CAUSES[int(cause, 16)] if word == "refused" else ""
    if sent is None:
        return ["", "", "", "", words]
    pages = len(gsm.pieces_of(sent.text)[0])
    share = 0 if sent.category == BACKGROUND else -(-100 * pages // sent.period)
    return ["" if first is None else str(first), str(pages), str(sent.period), str(share), words]


def full_lines(lines, cell, orders, first_row, blocks, slots):
    """Yields the full lines of a cell: the book's one session asks the cell row by row. A write always asks it, an
    update or a stop where a version of its alert is live there. A stop that was accepted has no line."""
    lines, shown, live, clock = Lines(lines), shown_in(blocks), {}, 0
    for row, order in enumerate(orders, first_row):
        alert, sent = order.alert, order.sending
        if order.cells is not None and cell not in order.cells or order.verb != "write" and alert.name not in live:
            continue
        clock = min(slots, max(clock, order.at))
        if order.verb == "stop" and not (
                lines.has_refused(alert.identifier, live[alert.name])
                and (clock == slots or lines.left[0][7] == f"refused {NOT_LIVE:02x}")):
            del live[alert.name]
            continue
        serial = live[alert.name] if order.verb == "stop" else alert.serial()
        line, cause = lines.next(alert.identifier, serial)
        if cause is None:
            live[alert.name] = serial
        elif cause == NOT_LIVE:
            live.pop(alert.name, None)
        first = shown.get((alert.identifier, serial)) if cause is None else None
        yield [str(row), alert.name] + line + more_of(line, sent, first)
    if lines.left:
        raise Wrong(f"lines of no order: {lines.left}")


def random_start(rng):
    """Returns a start in microseconds, and how it may be written: in some zone, also with nanoseconds, which are
    cut."""
    start = rng.choice((rng.randrange(END), rng.randrange(END // 10**6) * 10**6, 0, END - 1))
    ahead = timedelta(minutes=rng.choice((0, 0, 60, -570, rng.randrange(-1439, 1440))))
    written = (EPOCH + timedelta(microseconds=start) + ahead).replace(tzinfo=None)
    sign, minutes = "-" if ahead < timedelta() else "+", abs(ahead) // timedelta(minutes=1)
    zone = "Z" if not minutes else f"{sign}{minutes // 60:02}:{minutes % 60:02}"
    return start, f"{written:%Y-%m-%dT%H:%M:%S}.{written.microsecond:06}{rng.choice(('', '000', '999'))}{zone}"


def time_of(start, slot):
    """Returns the time at which a slot begins, where slot 0 begins so many microseconds after 1970."""
    time = EPOCH + timedelta(milliseconds=math.floor(Fraction(start, 1000) + slot * SLOT))
    return f"{time:%Y-%m-%dT%H:%M:%S}.{time.microsecond // 1000:03}Z"


def timed(rows, start):
    """Returns a report with times, by the one without."""
    names, *lines = rows
    is_full = len(names) > len(PLAIN)
    wanted = [names + TIMES + [SHOWN_TIME] * is_full]
    for line in lines:
        own = line[len(ORDER) * is_full:]
        shown = [time_of(start, int(own[8]) + 1) if own[8] else ""] if is_full else []
        wanted.append(line + [time_of(start, int(it)) for it in own[4:6]] + shown)
    return wanted


def run(program, words, octets):
    return subprocess.run([program, *words], input=octets, capture_output=True, check=False)


def table(octets):
    return list(csv.reader(io.StringIO(octets.decode())))


def differs(program, seed):
    """Whether the full report of a run is another than it has to be; prints how."""
    rng = random.Random(seed)
    text, cells, orders = random_book(rng)
    slots = rng.randrange(1, 60)
    options = ["--slots", str(slots), *rng.choice(([], [], ["--group", "0"], ["--network"], ["--workers", "3"]))]
    start, time = random_start(rng)
    plain, full, tapes, *with_times = ran = [run(program, words, text.encode()) for words in (
        ["report", *options], ["report", "--full", *options], ["compile", *options],
        ["report", "--start", time, *options], ["report", "--full", *options, f"--start={time}"])]
    if any((it.returncode, it.stderr) != (0, b"") for it in ran):
        print(f"report_reference: run {seed}: {options}: {[it.stderr for it in ran]}")
        return True
    names, *lines = table(plain.stdout)
    try:
        wanted = [ORDER + PLAIN + MORE]
        for lac, ci, blocks in gsm.tapes_of(tapes.stdout):
            own = [it for it in lines if it[:2] == [str(lac), str(ci)]]
            wanted += full_lines(own, (lac, ci), orders, len(cells) + 1, blocks, slots)
    except Wrong as why:
        wanted = [[str(why)]]
    found = table(full.stdout)
    times = [table(it.stdout) for it in with_times]
    if times != [timed(it, start) for it in ([names, *lines], found)]:
        print(f"report_reference: run {seed}: {options}: {time}: other times {times}")
        return True
    if names == PLAIN and found == wanted and [it[2:len(PLAIN) + 2] for it in found] == [names, *lines]:
        return False
    print(f"report_reference: run {seed}: {options}: wanted {wanted}, but it was {found}")
    return True


if __name__ == "__main__":
    sys.exit(judged("report_reference", __doc__, sys.argv[1:], differs, 300))
