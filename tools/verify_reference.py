#!/usr/bin/env python3
"""Judges tapes by a book, as docs/formats.md says what differs: a second program against which `warnc verify` is
compared. Which orders a cell accepted, and from when to when, it takes from `warnc report`; all else it finds by
itself.

Usage: verify_reference.py PROGRAM [RUNS]    random books, whose tapes are left as they are in every third run, and else
                                             spoilt: octets changed, slots swapped, dropped and doubled, blocks shifted,
                                             tapes missing, doubled, cut or foreign; in every fifth run they are
                                             recorded some slots late or early, too; in every fourth run pages have
                                             fewer blocks, and are judged with --short; the rows of both programs have
                                             to be the same, and so have those with which --explain says that all
                                             pages of a tape come early or late; with --start both tables have the
                                             times of their slots, too. PROGRAM is a built `warnc`
"""
import csv
import io
import random
import subprocess
import sys
import tempfile

import books
import gsm
import short_reference
from random_runs import judged
from report_reference import random_start, time_of

# those of the data codings 00 to 0F
LANGUAGES = [it for it, dcs in gsm.LANGUAGES.items() if dcs < 0x10]
TEXTS = ("Stay in!", "{fire} at 3€", "Go up to the roof " * 8, "Вода", "a" * 93 + "{",
         "Вода поднимается, идите наверх. " * 3, "@", "x" * 186)


class Asked:
    """What a cell was asked: an accepted message."""

    def __init__(self, sent, ident, serial, start, end, slots):
        self.ident, self.serial, self.start = ident, serial, start
        self.category, self.period, self.broadcasts = sent.category, sent.period, sent.broadcasts
        self.pages, is_gsm = gsm.pieces_of(sent.text)
        self.dcs = gsm.LANGUAGES[sent.language] if is_gsm else gsm.UCS2
        over = start + self.broadcasts * self.period if self.broadcasts else slots
        self.stop = end if end < min(over, slots) else None

    def turns(self, limit):
        """Returns how many broadcasts are due up to this slot; of background none is."""
        periods = max(0, limit - self.start) // self.period
        return 0 if self.category == 1 else min(periods, self.broadcasts) if self.broadcasts else periods

    def is_right(self, number, total, dcs, text):
        return total == len(self.pages) and dcs == self.dcs and number <= total and text == self.pages[number - 1]


def random_book(rng):
    """Returns the text of a book, its cells, and what it sends by identifier and serial number."""
    cells = [(rng.randrange(1, 4), it) for it in rng.sample(range(1, 9), rng.randrange(1, 4))]
    made = list(books.random_orders(
        rng, sorted(rng.randrange(0, 30) for _ in range(rng.randrange(1, 9))),
        lambda number: books.Alert(f"n{number}", 4370 + number, 1, rng.randrange(1024)),
        lambda: books.Sending(rng.choice(LANGUAGES), rng.choice((0, 1, 2, 2)), rng.randrange(1, 9),
                              rng.choice((0, 0, 1, 2, 3)), rng.choice(TEXTS)),
        lambda: None if rng.random() < 0.5 else rng.sample(cells, rng.randrange(1, len(cells) + 1))))
    sent = {(it.alert.identifier, it.alert.serial()): it.sending for it in made if it.sending}
    return "".join([*map(books.cell_line, cells), *(it.line() for it in made)]), cells, sent


def asked_of(report, orders, slots):
    """Returns what each cell was asked."""
    asked = {}
    for row in csv.DictReader(io.StringIO(report)):
        if not row["shown"].startswith("refused"):
            ident, serial = int(row["id"]), int(row["serial"], 16)
            asked.setdefault((int(row["lac"]), int(row["ci"])), []).append(
                Asked(orders[ident, serial], ident, serial, int(row["start"]), int(row["end"]), slots))
    return asked


def sent_in(blocks):
    """Yields each page that stands in blocks, with its slot. One whose data coding has no alphabet has no text."""
    for place, serial, ident, dcs, number, total, content in gsm.pages_in(blocks):
        alphabet = gsm.alphabet_of(dcs)
        text = None if alphabet is None else gsm.text_of_content(alphabet, content)
        yield place // 4, ident, serial, number, total, dcs, text


def differences_of_message(one, sent, slots):
    """Yields the differences of a message: its pages that were sent are (slot, number, right)."""
    def first(kind, number, which):
        found = [it[0] for it in sent if which(it)]
        return [(found[0], one.ident, one.serial, kind, number)] if found else []

    over = one.start + one.broadcasts * one.period if one.broadcasts else None
    for number in range(1, 16):
        yield from first(0, number, lambda it, number=number: it[1] == number and not it[2])
    yield from first(1, 0, lambda it: it[0] < one.start)
    yield from first(2, 0, lambda it: one.stop is not None and it[0] >= one.stop)
    yield from first(3, 0, lambda it: over is not None and it[0] >= over and (one.stop is None or it[0] < one.stop))
    limit = slots if one.stop is None else min(slots, one.stop)
    for turn in range(one.turns(limit)):
        begin, due = one.start + turn * one.period, one.start + (turn + 1) * one.period
        whole = {number for slot, number, right in sent if right and begin <= slot < due}
        if not set(range(1, len(one.pages) + 1)) <= whole:
            yield due, one.ident, one.serial, 4, turn
    yield from ((slot, one.ident, one.serial, 6, turn) for turn, slot in pages_again(one, sent, slots))


def pages_again(one, sent, slots):
    """Yields the broadcasts in whose time a right page comes again before the stop, and the slot of the first one."""
    if one.category == 1:
        return
    for turn in range(one.broadcasts or slots):
        begin, came = one.start + turn * one.period, set()
        for slot, number, right in sent:
            if right and begin <= slot < begin + one.period:
                if number in came and (one.stop is None or slot < one.stop):
                    yield turn, slot
                    break
                came.add(number)


def differences_of_cell(asked, sent, slots):
    found, names = [], {(it.ident, it.serial) for it in asked}
    for one in asked:
        found += differences_of_message(one, [(slot, number, one.is_right(number, total, dcs, text))
                                              for slot, ident, serial, number, total, dcs, text in sent
                                              if (ident, serial) == (one.ident, one.serial)], slots)
    for slot, ident, serial, *_ in sent:
        if (ident, serial) not in names:
            names.add((ident, serial))
            found.append((slot, ident, serial, 5, 0))
    return sorted(found)


def shift_of_cell(asked, sent, slots):
    """Returns by how many slots all pages come early, or late if it is less than 0, or 0 if they don't.

    A shift moves no page before its message's start, and one first page to it; and it is none if all pages come in the
    time of their messages.
    """
    if not any(kind in (1, 2, 3) for *_, kind, _ in differences_of_cell(asked, sent, slots)):
        return 0
    by_name = {(it.ident, it.serial): it for it in asked}
    early = [by_name[page[1:3]].start - page[0] for page in sent if page[1:3] in by_name]
    shift = max(early, default=0)
    first, end = max(0, shift), min(slots, slots + shift)
    moved = [(slot + shift, *page) for slot, *page in sent if slot + shift >= 0]
    for due, ident, serial, kind, _ in differences_of_cell(asked, moved, slots):
        period = by_name[ident, serial].period if kind == 4 else 0
        if kind not in (4, 6) or kind == 4 and first <= due - period and due <= end:
            return 0
    return shift


def name_of_shift(shift):
    return f"all pages come {abs(shift)} slot{'s' * (abs(shift) > 1)} {'early' if shift > 0 else 'late'}"


WORDS = ("page {} reads otherwise", "before its start", "after its stop", "after its last broadcast",
         "broadcast {} not whole", "not ordered", "broadcast {} again")


def table_of(cells, asked, tapes, slots):
    """Returns the table of a book's cells and of tapes (LAC, CI, blocks), and the rows that --explain adds, and
    that each stands before the others of its cell."""
    lines, shifts = ["lac,ci,id,serial,slot,difference"], []
    for cell in cells:
        own = [it for it in tapes if it[:2] == cell]
        if not own:
            lines.append(f"{cell[0]},{cell[1]},,,,no tape")
        elif len(own[0][2]) != 4 * slots:
            lines.append(f"{cell[0]},{cell[1]},,,,other slots")
        else:
            sent = list(sent_in(own[0][2]))
            if shift := shift_of_cell(asked.get(cell, []), sent, slots):
                shifts.append((f"{cell[0]},{cell[1]},,,,{name_of_shift(shift)},,", True))
            for slot, ident, serial, kind, number in differences_of_cell(asked.get(cell, []), sent, slots):
                lines.append(f"{cell[0]},{cell[1]},{ident},{serial:04x},{slot},{WORDS[kind].format(number)}")
    seen = set()
    for lac, ci, *_ in tapes:
        if (lac, ci) not in cells:
            lines.append(f"{lac},{ci},,,,unknown cell")
        elif (lac, ci) in seen:
            lines.append(f"{lac},{ci},,,,second tape")
        seen.add((lac, ci))
    return "".join(it + "\n" for it in lines), shifts


def shifts_in(explained):
    """Returns the rows of a table that say that all pages come early or late, each with whether it stands right before
    the first other row of its cell."""
    rows = list(csv.reader(io.StringIO(explained)))
    found = []
    for at, row in enumerate(rows):
        if row[5].startswith("all pages come "):
            is_first = all(it[:2] != row[:2] for it in rows[:at])
            found.append((",".join(row), is_first and at + 1 < len(rows) and rows[at + 1][:2] == row[:2]))
    return found


def timed(table, start):
    """Returns the rows of a table with times, by the one without."""
    names, *rows = csv.reader(io.StringIO(table))
    return [[*names, "time"], *([*it, time_of(start, int(it[4])) if it[4] else ""] for it in rows)]


def recorded_elsewhere(rng, tapes, longer, slots):
    """Returns tapes that begin some slots later or earlier than the run: those of a longer run, without its first
    slots, or after idle ones."""
    made = []
    for (lac, ci, blocks), (_, _, more) in zip(tapes, longer):
        by = rng.randrange(1, 9)
        after = more[4 * by:] if rng.random() < 0.7 else blocks[4 * by:] + [gsm.IDLE] * (4 * by)
        made.append((lac, ci, (after if rng.random() < 0.5 else [gsm.IDLE] * (4 * by) + blocks)[:4 * slots]))
        made[-1][2].extend([gsm.IDLE] * (4 * slots - len(made[-1][2])))
    return made


def spoilt(rng, tapes):
    """Returns tapes with a few things done to them."""
    tapes = [(lac, ci, list(blocks)) for lac, ci, blocks in tapes]
    for _ in range(rng.randrange(1, 5)):
        place = rng.randrange(len(tapes)) if tapes else None
        kind = rng.randrange(13)
        if place is None or kind == 0:
            tapes.insert(rng.randrange(len(tapes) + 1), (rng.randrange(1, 5), rng.randrange(1, 9), [gsm.IDLE] * 4))
            continue
        lac, ci, blocks = tapes[place]
        slots = len(blocks) // 4
        one, other = rng.randrange(slots), rng.randrange(slots)
        if kind == 1:
            tapes.pop(place)
        elif kind == 2:
            tapes.append((lac, ci, list(blocks)))
        elif kind == 3 and slots > 1:
            tapes[place] = (lac, ci, blocks[:-4])
        elif kind == 4:
            blocks.insert(rng.randrange(len(blocks)), gsm.IDLE)
            blocks.pop()
        elif kind == 5:
            rng.shuffle(tapes)
        elif kind in (6, 7):
            here, there = slice(4 * one, 4 * one + 4), slice(4 * other, 4 * other + 4)
            blocks[here], blocks[there] = blocks[there], blocks[here]
        elif kind == 8:
            blocks[4 * one:4 * one + 4] = [gsm.IDLE] * 4
        elif kind == 9:
            source = rng.choice(tapes)[2]
            at = 4 * rng.randrange(len(source) // 4)
            blocks[4 * one:4 * one + 4] = source[at:at + 4]
        elif kind == 10:
            # another data coding or page parameter: many can't be shown
            first = [it for it in range(len(blocks)) if blocks[it][0] == 0x20] or [0]
            at = rng.choice(first)
            block = bytearray(blocks[at])
            block[rng.randrange(5, 7)] = rng.randrange(256)
            blocks[at] = bytes(block)
        else:
            used = [it for it in range(len(blocks)) if blocks[it][0] != 0x2F] or [0]
            at, octet = rng.choice(used), rng.randrange(23 if kind == 11 else 7)
            block = bytearray(blocks[at])
            block[octet] ^= 1 << rng.randrange(8)
            blocks[at] = bytes(block)
    return tapes


def shortened(rng, blocks):
    """Returns blocks in which most pages that fill a slot are cut to fewer blocks."""
    made = []
    for at in range(0, len(blocks), 4):
        slot = blocks[at:at + 4]
        if tuple(it[0] for it in slot) == gsm.TYPES and rng.random() < 0.7:
            kinds = short_reference.KINDS[rng.choice((1, 2, 3))]
            slot = [bytes([kind]) + block[1:] for kind, block in zip(kinds, slot)] + [gsm.IDLE] * (4 - len(kinds))
        made += slot
    return made


def completed(blocks):
    """Returns blocks with four blocks of each page."""
    slots = b"".join(short_reference.whole_slots(blocks))
    return [slots[at:at + 23] for at in range(0, len(slots), 23)]


def run(program, words, octets):
    return subprocess.run([program, *words], input=octets, stdout=subprocess.PIPE, stderr=subprocess.PIPE, check=False)


def differs(program, seed):
    """Whether both programs write different tables in this run."""
    rng = random.Random(seed)
    book, cells, orders = random_book(rng)
    octets, slots = book.encode(), rng.randrange(1, 40)
    report = run(program, ["report", "--slots", str(slots)], octets)
    made = run(program, ["compile", "--slots", str(slots)], octets)
    tapes = gsm.tapes_of(made.stdout)
    is_moved = seed % 5 == 2
    if is_moved:
        longer = run(program, ["compile", "--slots", str(slots + 8)], octets)
        tapes = recorded_elsewhere(rng, tapes, gsm.tapes_of(longer.stdout), slots)
    if seed % 3 and (not is_moved or rng.random() < 0.3):
        tapes = spoilt(rng, tapes)
    else:
        rng.shuffle(tapes)
    is_short = seed % 4 == 1
    tapes = [(lac, ci, shortened(rng, blocks)) for lac, ci, blocks in tapes] if is_short else tapes
    judged_tapes = [(lac, ci, completed(blocks)) for lac, ci, blocks in tapes] if is_short else tapes
    table, shifts = table_of(cells, asked_of(report.stdout.decode(), orders, slots), judged_tapes, slots)
    given = b"".join(gsm.tape_of(*it) for it in tapes)
    with tempfile.NamedTemporaryFile() as file:
        file.write(octets)
        file.flush()
        words = ["verify", "--slots", str(slots), "--book", file.name] + ["--short"] * is_short
        said = run(program, words, given)
        explained = run(program, [*words, "--explain"], given).stdout.decode()
        start, time = random_start(rng)
        with_times = [run(program, [*words, "--start", time, *more], given) for more in ([], ["--explain"])]
    count = table.count("\n") - 1
    status, faults = (1, f"warnc: differences: {count}\n") if count else (0, "")
    wanted = table, faults, status
    is_kept = seed % 3 or is_short or is_moved or not count
    is_same = (said.stdout.decode(), said.stderr.decode(), said.returncode) == wanted
    found = [(list(csv.reader(io.StringIO(it.stdout.decode()))), it.stderr.decode(), it.returncode)
             for it in with_times]
    are_timed = found == [(timed(it, start), faults, status) for it in (table, explained)]
    if is_same and is_kept and are_timed and shifts_in(explained) == shifts:
        return False
    print(f"run {seed}:\n{book}{table}{shifts}\n{said.stdout.decode()}{said.stderr.decode()}{explained}{time}\n{found}")
    return True


if __name__ == "__main__":
    sys.exit(judged("verify_reference", __doc__, sys.argv[1:], differs, 1500))
