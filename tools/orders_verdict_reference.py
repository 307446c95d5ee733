#!/usr/bin/env python3
"""Judges the tape of a cell by its orders, as docs/formats.md says: a second program against which `warnc verify
--orders` is compared. It shares nothing with it.

Usage: orders_verdict_reference.py PROGRAM [RUNS]    random orders files and tapes, 500 if no number is given: tapes
                                                     that keep the orders but for faults that are put into them, and
                                                     files with a fault. PROGRAM is a built `warnc`
       orders_verdict_reference.py --help            prints this

Statuses, tables and the lines on standard error are compared, with --slots and --lag in some runs. Each kind of
difference has to come up, and each sign of a lag, if there are 200 runs or more.
"""
import collections
import random
import subprocess
import sys
import tempfile

import gsm
from random_runs import judged

# the types of the blocks of a page, by how many there are (3GPP TS 44.012, 3.3), and octets of a page in a block
KINDS = {1: (0x30,), 2: (0x20, 0x31), 3: (0x20, 0x21, 0x32), 4: gsm.TYPES}
PART, PAGE, MOST_PAGES = 22, 82, 15
LATEST = (1 << 31) - 1
IDLE = bytes([0x2F]) + bytes(22)
HEADER = "lac,ci,id,serial,slot,difference\n"
LAGS = "row,id,serial,at,first,stop,last\n"
PLACES = ("page ", "before its start", "after its stop", "after its last broadcast", "not whole", "not ordered",
          " again", "more than ordered", "answer ", "no answer", "other slots", "no tape")
SIGNS = ("early", "late", "no page", "stopped early", "stopped late")
Page = collections.namedtuple("Page", "slot name dcs number total content")
Order = collections.namedtuple("Order", "kind at name old category period broadcasts dcs pages answer done")
Message = collections.namedtuple("Message", "row order since until end done")


# ---- judging

def pages_on_air(blocks):
    """Yields the pages of a tape's slots."""
    for slot in range(len(blocks) // 4):
        four = blocks[4 * slot:4 * slot + 4]
        for count, kinds in KINDS.items():
            if tuple(it[0] for it in four[:count]) == kinds:
                octets = b"".join(it[1:] for it in four[:count])
                number, total = octets[5] >> 4, octets[5] & 15
                if not number or not total:
                    number = total = 1
                yield Page(slot, (int.from_bytes(octets[2:4], "big"), int.from_bytes(octets[:2], "big")), octets[4],
                           number, total, octets[6:])


def ends(order, name):
    """Whether a row ends the message of a name."""
    return order.kind == "clear" or order.answer == "ok" and order.name[0] == name[0] and order.old == name[1]


def messages_of(orders):
    """Yields the messages that the cell took."""
    writes = [it.kind == "write" and it.answer == "ok" for it in orders]
    for place, order in enumerate(orders):
        if not writes[place]:
            continue
        again = [other for at, other in enumerate(orders) if writes[at] and other.name == order.name and at != place]
        before = [other for other in again if orders.index(other) < place]
        after = [other for other in again if orders.index(other) > place]
        end = next((it for it in orders[place + 1:] if ends(it, order.name)), None)
        yield Message(place + 1, order, order.at if before else 0, after[0].at if after else None, end and end.at,
                      end and end.done)


def is_right(order, page):
    """Whether a page of a message is as it was ordered."""
    if page.dcs != order.dcs or page.total != len(order.pages) or page.number > page.total:
        return False
    used, content = order.pages[page.number - 1]
    return used <= len(page.content) and content.startswith(page.content)


def whole(order, pages, end):
    """How many whole broadcasts came before a slot."""
    counts = collections.Counter(it.number for it in pages if it.slot < end and is_right(order, it))
    return min(counts[number + 1] for number in range(len(order.pages)))


def broadcast_rows(order, pages, slots, start, stop):
    """Yields the differences of broadcasts: of those that are due and aren't whole, and of which a page comes again."""
    for number in range(order.broadcasts or slots):
        begin = start + number * order.period
        due = begin + order.period
        if begin >= slots:
            return
        came, again = set(), None
        for page in pages:
            if begin <= page.slot < due and is_right(order, page):
                if page.number in came and again is None and (stop is None or page.slot < stop):
                    again = page.slot
                came.add(page.number)
        if due <= slots and (stop is None or due <= stop) and len(came) < len(order.pages):
            yield due, 4, number, f"broadcast {number} not whole"
        if again is not None:
            yield again, 6, number, f"broadcast {number} again"


def message_rows(message, pages, slots, delay):
    """Yields the differences of a message: the slot, the place of the kind, its number, and what it is called."""
    order, start = message.order, message.order.at + delay
    stop = None if message.end is None or message.end + delay > 0xFFFF else message.end + delay
    for number in range(1, MOST_PAGES + 1):
        for slot in [it.slot for it in pages if it.number == number and not is_right(order, it)][:1]:
            yield slot, 0, number, f"page {number} reads otherwise"
    broadcasts = order.broadcasts if order.period else 0
    over = start + broadcasts * order.period
    stopped = {it.slot: stop is not None and it.slot >= stop for it in pages}
    found = ((1, "before its start", [it.slot for it in pages if it.slot < order.at]),
             (2, "after its stop", [it.slot for it in pages if stopped[it.slot]]),
             (3, "after its last broadcast",
              [it.slot for it in pages if broadcasts and it.slot >= over and not stopped[it.slot]]),
             (7, "more than ordered",
              [it.slot for it in pages if broadcasts and whole(order, pages, it.slot + 1) > broadcasts]))
    for place, name, places in found:
        for slot in places[:1]:
            yield slot, place, 0, name
    if order.category != 1 and order.period:
        yield from broadcast_rows(order, pages, slots, start, stop)
    if message.done is not None and message.end + delay <= slots:
        air = whole(order, pages, message.end + delay)
        if air != message.done:
            yield message.end, 8, message.done, f'"answer {message.done}, air {air}"'


def own_pages(message, air):
    """Returns the pages of a message."""
    return [it for it in air if it.name == message.order.name and message.since <= it.slot
            and (message.until is None or it.slot < message.until)]


def rows_of(orders, blocks, delay):
    """Returns the differences between orders and the blocks of a tape; equal ones stand as their messages do."""
    slots, air, rows = len(blocks) // 4, list(pages_on_air(blocks)), []
    messages = list(messages_of(orders))
    for message in messages:
        rows += [(slot, *message.order.name, place, number, name)
                 for slot, place, number, name in message_rows(message, own_pages(message, air), slots, delay)]
    for order in orders:
        if order.kind != "clear" and order.answer is None:
            serial = order.name[1] if order.kind == "write" else order.old
            rows.append((order.at, order.name[0], serial, 9, 0, "no answer"))
    known = {it.order.name for it in messages}
    for page in air:
        if page.name not in known:
            known.add(page.name)
            rows.append((page.slot, *page.name, 5, 0, "not ordered"))
    return sorted(rows, key=lambda it: it[:5])


def lags_of(orders, blocks, seen):
    """Returns the table of how late messages come and end."""
    air, lines = list(pages_on_air(blocks)), []
    for message in messages_of(orders):
        order, slots = message.order, [it.slot for it in own_pages(message, air)]
        first = slots[0] - order.at if slots else ""
        last = slots[-1] - message.end if slots and message.end is not None else ""
        lines.append(f"{message.row},{order.name[0]},{order.name[1]:04x},{order.at},{first},"
                     f"{'' if message.end is None else message.end},{last}\n")
        seen.update([SIGNS[2] if first == "" else SIGNS[int(first >= 0)]])
        seen.update([] if last == "" else [SIGNS[3 + (last >= 0)]])
    return LAGS + "".join(lines)


def table_of(cell, rows):
    """Returns the table of rows."""
    return HEADER + "".join(f"{cell[0]},{cell[1]},{it[1]},{it[2]:04x},{it[0]},{it[5]}\n" for it in rows)


# ---- random orders and tapes

def line_of(order):
    """Returns the line of an order."""
    if order.kind == "clear":
        return f"clear,{order.at}"
    answer = "" if order.answer is None else order.answer
    done = "" if order.done is None else order.done
    if order.kind == "kill":
        return f"kill,{order.at},{order.name[0]},{order.old:04x},{answer},{done}"
    old = "" if order.old is None else f"{order.old:04x}"
    pages = "".join(f",{used}-{content.hex()}" for used, content in order.pages)
    return (f"write,{order.at},{order.name[0]},{order.name[1]:04x},{old},{order.category},{order.period},"
            f"{order.broadcasts},{order.dcs:02x},{answer},{done}{pages}")


def random_pages(rng):
    """Returns the pages of a message: how many octets each uses, and its octets."""
    return [(used, rng.randbytes(used) + b"\r" * (PAGE - used))
            for used in rng.choices(range(PAGE + 1), k=rng.choice((1, 1, 1, 2, 3)))]


def random_orders(rng, slots):
    """Returns orders: messages that are replaced, stopped and cleared, some of them twice of one name."""
    orders, standing = [], []
    for at in sorted(rng.choices(range(slots), k=rng.randrange(1, 9))):
        answer = rng.choices(("ok", "03", None), (12, 1, 1))[0]
        kind = rng.choices(("write", "kill", "clear"), (6, 3 if standing else 0, 1))[0]
        old = rng.choice(standing) if standing and (kind == "kill" or rng.random() < .3) else None
        done = rng.choice((None, rng.randrange(6))) if old and answer else None
        if kind == "clear":
            orders.append(Order("clear", at, (0, 0), None, 2, 1, 0, 0, [], None, None))
            standing = []
            continue
        name = (old[0] if old else rng.choice((4370, 4371, 50)), rng.choice((0x10, 0x11, 0x20, 0x4001)))
        orders.append(Order(kind, at, name, old and old[1], rng.choice((0, 1, 2, 2, 2)), rng.choice((0, 1, 2, 3, 4, 8)),
                            rng.choice((0, 0, 1, 2, 3, 5)), rng.choice((1, 15, 0x48, 0xF4)), random_pages(rng), answer,
                            done))
        if answer == "ok":
            standing = [it for it in standing if it != old] + [name] * (kind == "write")
    return orders


def blocks_of(order, number, rng):
    """Returns the four blocks of a slot with a page, of as few blocks as it needs, or of more."""
    used, content = order.pages[number - 1]
    octets = (order.name[1].to_bytes(2, "big") + order.name[0].to_bytes(2, "big")
              + bytes([order.dcs, number << 4 | len(order.pages)]) + content)
    least = -(-(6 + used) // PART)
    count = rng.randrange(least, 5)
    if rng.random() < .04:
        octets = bytearray(octets)
        octets[rng.randrange(4, len(octets))] ^= 1 << rng.randrange(8)
        octets = bytes(octets)
    parts = [bytes([kind]) + octets[PART * at:PART * at + PART] for at, kind in enumerate(KINDS[count])]
    return parts + [IDLE] * (4 - count)


def random_blocks(rng, orders, slots, lag):
    """Returns the blocks of a tape on which a station keeps the orders, `lag` slots late, with some faults."""
    air = [None] * slots
    for message in messages_of(orders):
        order = message.order
        end = slots if message.end is None else min(slots, message.end + lag + rng.choice((0, 0, 0, 0, 4)))
        period = rng.choice((order.period,) * 9 + (order.period + 1, max(1, order.period // 2))) or 2
        count = (order.broadcasts or slots) + rng.choice((0,) * 9 + (-1, 1, 2))
        for broadcast in range(max(0, count)):
            for number in range(len(order.pages)):
                slot = order.at + lag + broadcast * period + number
                while slot < end and air[slot]:
                    slot += 1
                if slot < end and rng.random() > .03:
                    air[slot] = (order, number + 1)
    if rng.random() < .3 and orders:
        writes = [it for it in orders if it.kind == "write"]
        if writes:
            order = rng.choice(writes)
            air[rng.randrange(slots)] = (order, rng.randrange(len(order.pages)) + 1)
    return [block for it in air for block in (blocks_of(*it, rng) if it else [IDLE] * 4)]


def tape_of(cell, blocks):
    """Returns the octets of a tape."""
    return (cell[0].to_bytes(2, "big") + cell[1].to_bytes(2, "big") + (len(blocks) // 4).to_bytes(4, "big")
            + b"".join(blocks))


def spoilt(rng, lines):
    """Puts a fault into one of some lines, and returns what is said of it."""
    place = rng.randrange(len(lines))
    fields = lines[place].split(",")
    at, value, why = rng.choice(((0, "wrote", "verb"), (1, "x", "number"), (1, str(LATEST + 1), "number"),
                                 (1, "", "number"), (None, "columns", "columns")))
    if at is None:
        fields = fields[:-1] if fields[0] == "clear" else fields[:4]
    else:
        fields[at] = value
    lines[place] = ",".join(fields)
    return f"row {place + 1}: {why}"


def differs(program, seed, seen):
    """Says whether the program judges the orders and the tapes of a seed otherwise."""
    rng = random.Random(seed)
    cell, slots, delay = rng.choice(((1, 1), (4021, 65535))), rng.randrange(1, 60), rng.randrange(4)
    orders = random_orders(rng, slots)
    blocks = random_blocks(rng, orders, slots, rng.randrange(4))
    lines, tapes = [line_of(it) for it in orders], [tape_of(cell, blocks)]
    if rng.random() < .1:
        tapes.insert(0, tape_of((cell[0], 7), [IDLE] * 4))
    if rng.random() < .03:
        tapes = tapes[:-1]
    has_lag = rng.random() < .5
    asked = rng.choice((None, None, slots, slots, slots + 1, max(1, slots - 1)))
    is_judged = len(tapes) != 0 and tapes[-1][2:4] != b"\0\7"
    if not is_judged:
        wanted = 1, f"{HEADER}{cell[0]},{cell[1]},,,,no tape\n", "warnc: differences: 1\n"
    elif asked not in (None, slots):
        wanted = 1, f"{HEADER}{cell[0]},{cell[1]},,,,other slots\n", "warnc: differences: 1\n"
    else:
        rows = rows_of(orders, blocks, delay)
        wanted = (1 if rows else 0, table_of(cell, rows), f"warnc: differences: {len(rows)}\n" if rows else "")
        if has_lag:
            wanted = *wanted[:2], lags_of(orders, blocks, seen) + wanted[2]
    fault = spoilt(rng, lines) if rng.random() < .05 else ""
    with tempfile.NamedTemporaryFile("w", suffix=".csv") as file:
        file.write("".join(f"{line}\n" for line in lines))
        file.flush()
        wanted = (1, "", f"warnc: {file.name}: {fault}\n") if fault else wanted
        words = [program, "verify", "--orders", file.name, "--cell", f"{cell[0]}-{cell[1]}", "--delay", str(delay)]
        words += ["--slots", str(asked)] if asked else []
        words += ["--lag"] if has_lag else []
        said = subprocess.run(words, input=b"".join(tapes), capture_output=True, check=False)
    found = said.returncode, said.stdout.decode(), said.stderr.decode()
    seen.update(["runs", *(name for name in PLACES if name in wanted[1])])
    if found != wanted:
        print(f"run {seed}: {found} and not {wanted}")
    return found != wanted


def main(words):
    seen = collections.Counter()
    status = judged("orders_verdict_reference.py", __doc__, words,
                    lambda program, seed: differs(program, seed, seen), 500)
    lacking = [name.strip() for name in PLACES + SIGNS if seen["runs"] >= 200 and not seen[name]]
    for name in lacking:
        print(f"no run has `{name}`")
    return status or int(bool(lacking))


if __name__ == "__main__":
    sys.exit(main(sys.argv[1:]))
