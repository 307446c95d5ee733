#!/usr/bin/env python3
"""Makes orders files of captures of a link and of the air, as docs/formats.md describes them: a second program against
which `warnc orders` is compared. It shares nothing with it.

Usage: link_orders_reference.py PROGRAM [RUNS [SEED]]    random captures, 1000 if no number is given: of several
                                                         connections, cut into segments that are swapped, repeated and
                                                         lost; with the air of stations, or none; in the classic format
                                                         and in pcapng; some of them spoilt
       link_orders_reference.py PROGRAM --captures FOLDER   the captures of a folder, with each cell that they name
       link_orders_reference.py --captures FOLDER        how many rows the second program makes of these
       link_orders_reference.py --orders WORDS .. < capture     what the second program makes of a capture, with the
                                                         words of `warnc orders`
       link_orders_reference.py --made SEED RUN > capture     the capture of a run, with its words on standard error
       link_orders_reference.py --help                   prints this

PROGRAM is a built `warnc`. Statuses, outputs and the lines on standard error are compared. Of each kind of fault it is
counted how many captures have it, and one that none of 200 captures or more has counts as a difference.
"""
import argparse
import collections
import csv
import os
import random
import re
import subprocess
import sys
import tempfile

from capture_files import file_header, known_packets_of, packet
from capture_reference import Track, block_in, place_of, seconds_of, senders_of
from gsm import Refused
from link_captures import OF_CENTRE, Made, dotted, random_capture
from orders_reference import (CELL, FAILURE, KILL, KILLED, NOT_KILLED, NOT_RESET, NOT_WRITTEN, RESET, RESTART,
                              WAS_RESET, WRITE, WRITTEN, Message, Unread, elements_of, is_read, items_of, rows_of)
from streams_reference import Streams, messages_of

# the parts of a microsecond in which 120/26 ms are whole, a frame of 120/26 ms, and a slot of 408 of these
PARTS, FRAME, SLOT = 13, 60_000, 24_480_000
# blocks from this slot on don't say when the tape begins
MOST_SLOTS = 65536
LONGEST = 1 << 30
# of a capture that is given
MOST_CELLS = 8
# the elements that messages need, by their types
NEEDED = {WRITE: (0x0E, 0x03, 0x04), WRITTEN: (0x0E, 0x03), NOT_WRITTEN: (0x0E, 0x03, 0x09), KILL: (0x0E, 0x02, 0x04),
          KILLED: (0x0E, 0x02), NOT_KILLED: (0x0E, 0x02, 0x09), RESET: (0x04,), WAS_RESET: (0x04,), NOT_RESET: (0x09,),
          RESTART: (0x04, 0x16, 0x0D), FAILURE: (0x09, 0x16)}
# a write needs more for the cell broadcast channel, as which it has the channel indicator
CHANNEL, BROADCAST = 0x12, (0x06, 0x07, 0x13, 0x0C)
# the lists that are looked at, by the types of messages
LISTS = {WRITE: (0x04,), KILL: (0x04,), RESET: (0x04,), WAS_RESET: (0x04,), RESTART: (0x04,), FAILURE: (0x09,),
         WRITTEN: (0x08, 0x04), KILLED: (0x08, 0x04), NOT_WRITTEN: (0x09, 0x08, 0x04), NOT_KILLED: (0x09, 0x08, 0x04),
         NOT_RESET: (0x09, 0x04)}
OF_CONTROLLER = (0x02, 0x03, 0x05, 0x06, 0x08, 0x09, 0x0B, 0x0C, 0x0E, 0x0F, *range(0x11, 0x15), 0x17)
FAULTS = ("not a capture file", "unknown link type", "capture is short", "wrong block", "steps back", "no time",
          "before the tape begins")
# what `warnc orders` is asked for
Wanted = collections.namedtuple("Wanted", "cell bsc first_slot source arfcn is_sdcch packets")


# ---- which messages can be read

def is_whole_list(name, body):
    """Whether a list has a discriminator that there is, and whole items."""
    if name == 0x09:
        while body:
            size = CELL.get(body[0] & 15, len(body)) + 2
            if size > len(body):
                return False
            body = body[size:]
        return True
    if not body or body[0] & 15 not in CELL:
        return False
    step = CELL[body[0] & 15] + (3 if name == 0x08 else 0)
    return (len(body) - 1) % step == 0 if step else len(body) == 1


def can_be_read(octets):
    """Whether a whole message can be read. One of a type that isn't looked into can."""
    kind = octets[0]
    if not is_read(kind):
        return True
    try:
        found = list(elements_of(octets[4:]))
    except Unread:
        return False
    first = {name: body for name, body in reversed(found)}
    is_broadcast = kind == WRITE and CHANNEL in first
    if any(name not in first for name in NEEDED[kind] + (BROADCAST if is_broadcast else ())):
        return False
    if any(name in first and not is_whole_list(name, first[name]) for name in LISTS[kind]):
        return False
    pages = sum(name == 0x01 for name, _ in found)
    return not is_broadcast or first[0x06][0] < 16 and first[0x13][0] == pages and 1 <= pages <= 15


# ---- the second program

def controller_of(message):
    """Returns the address of the controller, or None if the type of a message doesn't say who sent it."""
    if message.octets[0] in OF_CENTRE:
        return message.way[2]
    return message.way[0] if message.octets[0] in OF_CONTROLLER else None


def ends_of(message):
    """Returns the two ends between which a message went, in whichever way."""
    return frozenset((message.way[:2], message.way[2:]))


def heard_in(octets, wanted):
    """Returns the messages of the link in a capture, and for each block when the tape began by it."""
    streams, track, messages, begins = Streams(), Track(), [], []
    for number, link, time, inside in known_packets_of(octets):
        found = block_in(link, inside, wanted.source, wanted.arfcn, wanted.is_sdcch)
        if found is not None:
            frame, _ = found
            slot, place = place_of(frame)
            here = track.slot_of(slot, number) if place < 4 else MOST_SLOTS
            if time is not None and here < MOST_SLOTS:
                begins.append(PARTS * (time // 1000) - FRAME * (408 * here + frame % 408))
        messages += streams.take(number, link, time, inside)
    return messages, begins


def begin_of(begins, orders, first_slot):
    """Returns when the tape begins, by blocks, or else by the messages that concern the cell."""
    if begins:
        return sorted(begins)[len(begins) // 2] - SLOT * first_slot
    return PARTS * (orders[0].time // 1000) - SLOT * first_slot if orders else 0


def refuse_early(orders, begin, first_slot):
    """Refuses the first message that concerns the cell and comes before the tape begins."""
    for it in orders:
        before = begin - PARTS * (it.time // 1000)
        if before > 0:
            slot = first_slot - (-before // SLOT)
            raise Refused(f"packet {it.number}: before the tape begins: use --first-slot {slot}")


def orders_of(octets, wanted):
    """Returns the text of the orders of a cell in a capture, and what is said besides: a line, or nothing."""
    if len(octets) > LONGEST:
        raise Refused("capture is too long")
    messages, begins = heard_in(octets, wanted)
    connections = {}
    for it in messages:
        connections.setdefault(ends_of(it), it.number)
    taken = [it for it in messages if wanted.bsc is None or controller_of(it) == wanted.bsc]
    read = [it for it in taken if can_be_read(it.octets)]
    for it in read:
        if it.time is None:
            raise Refused(f"packet {it.number}: no time")
    said = [Message(it.octets, wanted.cell) for it in read]
    orders = [it for it, what in zip(read, said) if what.concerns_cell()]
    begin = begin_of(begins, orders, wanted.first_slot)
    refuse_early(orders, begin, wanted.first_slot)
    # an answer can come before the tape if the clock of the recording went back: it counts as one in slot 0
    slots = [max(0, (PARTS * (it.time // 1000) - begin) // SLOT) for it in read]
    heard = [(slot, it.number, connections[ends_of(it)], it.octets) for slot, it in zip(slots, read)]
    times = {it.number: seconds_of(it.time) for it in read}
    lines = [f"{number},{times[number]},{row}\n" if wanted.packets else row + "\n"
             for number, row in rows_of(wanted.cell, heard)]
    emergencies = sum(what.is_emergency() and what.lists_cell() for what in said)
    unread = len(taken) - len(read)
    line = f"not in the table: {unread} messages that can't be read, {emergencies} emergency messages"
    return "".join(lines), line if unread or emergencies else ""


def address_of(text):
    """Returns the octets of an address."""
    return bytes(map(int, text.split(".")))


def wanted_of(words):
    """Returns what words of `warnc orders` ask for."""
    parser = argparse.ArgumentParser()
    parser.add_argument("--cell", required=True, type=lambda it: tuple(map(int, it.split("-"))))
    parser.add_argument("--bsc", type=address_of)
    parser.add_argument("--first-slot", type=int, default=0)
    parser.add_argument("--from", type=address_of, dest="source")
    parser.add_argument("--arfcn", type=int)
    parser.add_argument("--channel", choices=("cbch", "sdcch"), default="cbch")
    parser.add_argument("--packets", action="store_true")
    it = parser.parse_args(words)
    return Wanted(it.cell, it.bsc, it.first_slot, it.source, it.arfcn, it.channel == "sdcch", it.packets)


def made_of(octets, words):
    """Returns what `warnc orders` has to make of a capture: its status, its output, and the line that it says."""
    try:
        return 0, *orders_of(octets, wanted_of(words))
    except Refused as why:
        return 1, "", str(why)


# ---- comparing

def made_by(program, words, source, sink=subprocess.PIPE):
    """Returns what a program makes of an input, octets or a file: its status, its output, and the line that it says."""
    given = {"input": source} if isinstance(source, bytes) else {"stdin": source}
    done = subprocess.run([program, "orders", *words], stdout=sink, stderr=subprocess.PIPE, check=False, **given)
    return done.returncode, (done.stdout or b"").decode(), done.stderr.decode().removeprefix("warnc: ").rstrip("\n")


def look_of(octets):
    """Returns what an input looks like that is no capture, if that is known."""
    if octets[:5] == b"cell,":
        return "a book"
    return "tapes" if octets[4:6] == b"\0\0" and octets[8:9] in (b"\x20", b"\x30", b"\x2f") else None


def is_same(octets, wanted, found):
    """Whether two made the same. Of an input of another kind a program also says which kind it looks like."""
    look = look_of(octets) if wanted[2] == "not a capture file" else None
    if look is None:
        return wanted == found
    return wanted[:2] == found[:2] and found[2].startswith(f"{wanted[2]} (the input looks like {look}: ")


def differs(name, program, made):
    """Whether a program makes something else of a capture with words than this one, and prints what."""
    wanted, found = made_of(made.file, made.words), made_by(program, made.words, made.file)
    if is_same(made.file, wanted, found):
        return False
    print(f"link_orders_reference: {name}: {' '.join(made.words)}:")
    for one, other in zip(wanted, found):
        if one != other:
            lines = [str(it).splitlines() for it in (one, other)]
            at = next((at for at, two in enumerate(zip(*lines)) if two[0] != two[1]), min(map(len, lines)))
            one, other = (it[at][:300] if at < len(it) else "nothing more" for it in lines)
            print(f"  wanted {one}, but it was {other}")
    return True


class Counts:
    """What captures came to."""

    def __init__(self):
        self.faults, self.rows, self.said = collections.Counter(), collections.Counter(), 0

    def add(self, made):
        """Adds what a capture comes to, and returns whether that is rows."""
        status, text, line = made_of(made.file, made.words)
        kinds = re.findall(r"^(?:\d+,[\d.]+,)?([a-z]+)", text, re.M)
        self.rows.update(kinds)
        self.said += status == 0 and bool(line)
        fault = re.sub(r":.*| ?\d+ ?", "", re.sub(r"^packet \d+: ", "", line))
        self.faults[fault if status else "rows" if kinds else "no row"] += 1
        return bool(kinds)

    def print(self):
        """Prints them."""
        print(f"captures gave {dict(self.faults.most_common())}; {self.said} had messages that are no rows")
        print(f"rows: {dict(self.rows)}")

    def lacking(self):
        """Returns the kinds of faults that no capture had."""
        return [it for it in FAULTS if it not in self.faults]


def capture_of_run(seed, run):
    """Returns the capture of a run, with words."""
    return random_capture(random.Random(f"{seed}.{run}"))


def long_file(folder):
    """Returns the path of a file that is longer than a capture may be, of packets of zeros that are stored nowhere."""
    path, step = os.path.join(folder, "long.pcap"), 65535 + 16
    with open(path, "wb") as it:
        it.write(file_header())
        for at in range(24, LONGEST, step):
            it.seek(at)
            it.write(packet(bytes(65535))[:16])
        it.truncate(24 + (LONGEST // step + 1) * step)
    return path


def devices_differ(program, made):
    """Returns how many faults of devices, and of a file that is too long, a program says otherwise than it should. A
    capture with rows is given, which can't be written."""
    with tempfile.TemporaryDirectory() as folder, open(long_file(folder), "rb") as long, \
            open("/dev/full", "wb") as full:
        at = os.open(folder, os.O_RDONLY)
        found = {"read failed": made_by(program, made.words, at),
                 "capture is too long": made_by(program, made.words, long),
                 "write failed": made_by(program, made.words, made.file, full)}
        os.close(at)
    differing = 0
    for line, it in found.items():
        wanted = (1 if line == "capture is too long" else 3, "", line)
        if it != wanted:
            print(f"link_orders_reference: {' '.join(made.words)}: wanted {wanted}, but it was {it}")
            differing += 1
    return differing


def judge(program, runs, seed):
    """Compares a program on random captures, and returns how many differ."""
    counts, differing, with_row = Counts(), 0, None
    for run in range(runs):
        made = capture_of_run(seed, run)
        differing += differs(f"run {run}", program, made)
        if counts.add(made):
            with_row = made
    counts.print()
    if with_row is not None:
        differing += devices_differ(program, with_row)
    lacking = counts.lacking() if runs >= 200 else []
    print("".join(f"no capture had this fault: {it}\n" for it in lacking), end="")
    return differing + len(lacking)


# ---- captures of a folder

def cells_in(octets):
    """Returns the cells that a capture's messages name most often by LAC and CI."""
    found = collections.Counter()
    for message in messages_of(octets):
        if not is_read(message.octets[0]) or not can_be_read(message.octets):
            continue
        for name, body in elements_of(message.octets[4:]):
            is_list = name in (0x04, 0x08) and is_whole_list(name, body)
            for kind, cell in items_of(body, 3 if name == 0x08 else 0) if is_list else ():
                if kind in (0, 1):
                    at = 3 if kind == 0 else 0
                    found[tuple(int.from_bytes(cell[it:it + 2], "big") for it in (at, at + 2))] += 1
    return sorted(it for it, _ in found.most_common(MOST_CELLS))


def words_for(octets):
    """Yields words of `warnc orders` for a capture: for each cell each sender of blocks, and each controller."""
    senders = [[]]
    for row in list(csv.reader(senders_of(octets).decode().splitlines()))[1:]:
        senders.append(["--from", row[0], "--arfcn", row[1], "--channel", row[2]])
    controllers = sorted({controller_of(it) for it in messages_of(octets)} - {None})
    for lac, ci in cells_in(octets):
        for sender in senders:
            yield ["--cell", f"{lac}-{ci}", *sender]
            for one in controllers:
                yield ["--cell", f"{lac}-{ci}", *sender, "--bsc", dotted(one), "--packets"]


def of_folder(folder, program):
    """Says what captures of a folder come to, and compares a program on them. Returns how many runs there were, and how
    many differ."""
    runs = differing = 0
    for name in sorted(os.listdir(folder)):
        with open(os.path.join(folder, name), "rb") as it:
            octets = it.read()
        for words in words_for(octets):
            runs += 1
            status, text, line = made_of(octets, words)
            came = line if status else f"{len(text.splitlines())} rows"
            print(f"{name}: {' '.join(words)}: {came}")
            if program is not None:
                differing += differs(name, program, Made(words, octets))
    return runs, differing


def main(words):
    if words[:1] == ["--orders"]:
        status, text, line = made_of(sys.stdin.buffer.read(), words[1:])
        sys.stdout.write(text)
        sys.stderr.write(f"warnc: {line}\n" if line else "")
        return status
    if words[:1] == ["--made"] and len(words) == 3:
        made = capture_of_run(*map(int, words[1:]))
        print(" ".join(made.words), file=sys.stderr)
        sys.stdout.buffer.write(made.file)
        return 0
    if len(words) in (2, 3) and words[-2] == "--captures":
        runs, differing = of_folder(words[-1], words[0] if len(words) == 3 else None)
    elif len(words) in (1, 2, 3) and os.access(words[0], os.X_OK) and all(it.isdigit() for it in words[1:]):
        runs, seed = (*map(int, words[1:]), 1000, 1)[:2] if len(words) != 2 else (int(words[1]), 1)
        differing = judge(words[0], runs, seed)
    else:
        print(__doc__, end="")
        return 0 if words in (["-h"], ["--help"]) else 2
    print(f"{runs} runs: {differing} differ")
    return 1 if differing else 0


if __name__ == "__main__":
    sys.exit(main(sys.argv[1:]))
