#!/usr/bin/env python3
"""Judges malformed messages, tapes and books by the documents alone, and prints tables of the answers for tests.

Usage: malformed.py messages|tapes|tape|books              prints a table, as a module of Rattle
       malformed.py messages|tapes|tape|books NAME PLACE   prints the answers behind one digest; PLACE is a place or
                                                           `cuts`
       malformed.py --check PROGRAM [--every N] [messages|tapes|books ..]
                                                           compares each answer, or each N-th, with a program's

It is a plain reading of docs/formats.md, and for phones of docs/definitions.md; so is gsm.py, by which it reads texts,
pages and tapes. Neither is made from the crates, so a test that compares both has two sources. The tables stand in the
tests, as `malformed_table.rt` of cbsp_tests, warnc_cli_tests, air_tests and alert_book_tests; `./test` checks that they
are what is printed here.

A table has for each input a line `input NAME`, lines `and HEX` with its octets, then a line `PLACE DIGEST` for each
place, then a line `cuts DIGEST`. Some inputs have lines for a few places alone, or for none.

- Behind a PLACE (from 0) stand 255 answers: the octet there is changed to each other value, in rising order.
- Behind `cuts` stand the answers to the fronts of 0, 1, .. octets. The last is the whole input.
- The answers are joined by LF, with none after the last, in UTF-8. The digest is FNV-1a of 64 bits in 16 lower-case
  hexadecimal digits. It begins with CBF29CE484222325. Each octet is put in by exclusive or; then the value is
  multiplied by 100000001B3, modulo 2^64.

The answers:

- messages (`cbsp_wire::read`): `T` is Truncated, `B` is TrailingBytes. `C` and two lower-case hexadecimal digits is a
  Cause. `M` and lower-case hexadecimal digits is a message that was read: the octets to which it is written back.
- tapes (`warnc read`): `R` and the table that is written, with each LF, also the last one. Or `F` and the line of the
  fault, without `warnc: ` and LF: `Ftape is short`.
- tape (`handset::read_tape`): `R`, the tape's LAC and CI with a hyphen between, its number of slots, and for each
  message that is shown a colon, its identifier, its serial number in four lower-case hexadecimal digits, and its text:
  `R1-1 2 slots: 4370 0010 @`. Or `F` and the fault, as for tapes; an octet after the tape is long.
- books (`read_book`): `A` is a book that is accepted. Else the line of the fault, without `warnc: ` and LF:
  `row 2: named twice`.

PROGRAM may be several words. For tapes it is run as `PROGRAM read`, for books as `PROGRAM report --slots 8`, once for
each answer. For messages it is run as `PROGRAM cbsp`: this reads a message a line, in hexadecimal digits, and prints a
line for each: what the message says, in the form of the function `said`, or its fault. What is written back is given to
that program too, and has to say the same.
"""
import re
import shlex
import subprocess
import sys
import textwrap

import gsm
from books import COLUMNS, RANGES

# --- Messages ---

# The elements in the order in which they are written. Each has its size, and what it is in the six messages: mandatory,
# optional, or not of it. A list has its size with it.
ELEMENTS = {
    0x0E: (2, "MMMMMM"), 0x03: (2, "MMM---"), 0x02: (2, "OOOMMM"), 0x09: (None, "--M--M"), 0x08: (None, "-OO-OO"),
    0x04: (None, "MOOMOO"), 0x12: (1, "OOOOOO"), 0x05: (1, "O-----"), 0x06: (2, "M-----"), 0x07: (2, "M-----"),
    0x13: (1, "M-----"), 0x0C: (1, "M-----"), 0x01: (83, "M-----"),
}
KINDS = ("write", "write-done", "write-failed", "kill", "kill-done", "kill-failed")
CELLS, COUNTS, FAILURES = 0x04, 0x08, 0x09
UNRECOGNISED, MISSING, UNKNOWN, INVALID = "C04", "C05", "C00", "C01"


class Fault(Exception):
    """A fault; its text is the canonical answer."""


def number_of(octets):
    return int.from_bytes(octets, "big")


def rule_of(number, kind):
    """Returns M, O or a dash for an element in a message of this type."""
    return ELEMENTS[number][1][kind - 1] if number in ELEMENTS else "-"


def message_of(octets):
    """Returns the type of a message, and the bodies of each of its elements by the element's number."""
    if len(octets) < 4 or len(octets) - 4 < number_of(octets[1:4]):
        raise Fault("T")
    if len(octets) - 4 > number_of(octets[1:4]):
        raise Fault("B")
    kind = octets[0]
    if not 1 <= kind <= 6:
        raise Fault(UNRECOGNISED)
    bodies, is_whole = walked(kind, octets[4:])
    if any(rule_of(it, kind) == "M" and it not in bodies for it in ELEMENTS):
        raise Fault(MISSING)
    if not is_whole:
        raise Fault(UNKNOWN)
    if not all(is_valid(it, bodies) for it in bodies):
        raise Fault(INVALID)
    return kind, bodies


def walked(kind, rest):
    """Returns the bodies of the elements up to the first that isn't of this message, and whether there is none such."""
    bodies, at = {}, 0
    while at < len(rest):
        number = rest[at]
        if rule_of(number, kind) == "-":
            return bodies, False
        at += 1
        size = ELEMENTS[number][0]
        if size is None:
            if len(rest) - at < 2:
                raise Fault("T")
            size = number_of(rest[at:at + 2])
            at += 2
        if len(rest) - at < size:
            raise Fault("T")
        bodies.setdefault(number, []).append(rest[at:at + size])
        at += size
    return bodies, True


def is_valid(number, bodies):
    """Whether an element comes as often as it may, with values that it may have."""
    found = bodies[number]
    if number == 0x01:
        return all(it[0] <= 82 for it in found)
    if len(found) > 1:
        return False
    body = found[0]
    if number in (CELLS, COUNTS, FAILURES):
        return is_valid_list(number, body)
    value = number_of(body)
    if number == 0x13:
        return 1 <= value <= 15 and value == len(bodies[0x01])
    if number == 0x06:
        return 1 <= value <= 1024
    if number == 0x0C:
        return gsm.alphabet_of(value) is not None
    return value <= {0x05: 2, 0x12: 1}.get(number, 0xFFFF)


def items_of(number, body):
    """Returns the items of a list, each from its LAC on, or None if a discriminator is wrong or an item isn't whole."""
    size = {CELLS: 4, COUNTS: 7, FAILURES: 5}[number]
    if number == FAILURES:
        parts = [body[at:at + 1 + size] for at in range(0, len(body), 1 + size)]
        if any(it[0] != 1 for it in parts):
            return None
        parts = [it[1:] for it in parts]
    else:
        if body[:1] != b"\x01":
            return None
        parts = [body[at:at + size] for at in range(1, len(body), size)]
    return parts if all(len(it) == size for it in parts) else None


def is_valid_list(number, body):
    items = items_of(number, body)
    return bool(items) and len(items) <= 64 and len({it[:4] for it in items}) == len(items)


def written(kind, bodies):
    """Returns the octets as which a message is written: its elements in the table's order."""
    rest = b""
    for number, (size, _) in ELEMENTS.items():
        for body in bodies.get(number, ()):
            rest += bytes([number]) + (len(body).to_bytes(2, "big") if size is None else b"") + body
    return bytes([kind]) + len(rest).to_bytes(3, "big") + rest


def answer_to_message(octets):
    try:
        return "M" + written(*message_of(octets)).hex()
    except Fault as fault:
        return str(fault)


def said(octets):
    """Returns what a message says: a word for each value, and the cause with which it is no order; or its fault."""
    try:
        kind, bodies = message_of(octets)
    except Fault as fault:
        text = str(fault)
        return "fault " + {"T": "truncated", "B": "trailing"}.get(text, "cause " + text[1:])
    channel = bodies.get(0x12, [b""])[0]
    words = [
        KINDS[kind - 1],
        "id=" + decimal(bodies, 0x0E),
        "new=" + hexadecimal(bodies, 0x03),
        "old=" + hexadecimal(bodies, 0x02),
        "failures=" + said_list(FAILURES, bodies),
        "completed=" + said_list(COUNTS, bodies),
        "cells=" + said_list(CELLS, bodies),
        "channel=" + decimal(bodies, 0x12),
    ]
    if kind == 1:
        words += [
            "category=" + decimal(bodies, 0x05),
            "period=" + decimal(bodies, 0x06),
            "broadcasts=" + decimal(bodies, 0x07),
            "dcs=" + hexadecimal(bodies, 0x0C),
            "contents=" + ",".join(f"{it[0]}:{it[1:].hex()}" for it in bodies[0x01]),
        ]
    return " ".join(words + ["orders=" + ("04" if kind not in (1, 4) else "0c" if channel == b"\x01" else "ok")])


def decimal(bodies, number):
    return str(number_of(bodies[number][0])) if number in bodies else "-"


def hexadecimal(bodies, number):
    return bodies[number][0].hex() if number in bodies else "-"


def said_list(number, bodies):
    if number not in bodies:
        return "-"
    return ",".join(said_item(number, it) for it in items_of(number, bodies[number][0]))


def said_item(number, item):
    cell = f"{number_of(item[:2])}-{number_of(item[2:4])}"
    rest = {CELLS: "", FAILURES: f":{item[4:].hex()}", COUNTS: f":{number_of(item[4:6])}:{number_of(item[6:])}"}
    return cell + rest[number]


# --- Texts and tapes ---


def fault_of_text(text, language):
    """Returns the fault of a text to be sent, or None."""
    if language not in gsm.LANGUAGES:
        return "unknown language"
    if text == "":
        return "text is empty"
    for place, sign in enumerate(text):
        if sign < " " and sign != "\n" or sign > "\uFFFF":
            return f"bad character at {place}"
    return "too many pages" if len(gsm.pieces_of(text)[0]) > 15 else None


def shown_by(blocks):
    """Returns identifier, serial number and text of each message that a phone shows, in the order in which it does.

    The first readable page of an identifier and serial number fixes the total and the data coding; pages that differ
    are passed over. Of each page number the first page counts. A message is shown when its last missing page comes.
    """
    messages, shown = {}, []
    for _, serial, ident, dcs, number, total, content in gsm.pages_in(blocks):
        if gsm.alphabet_of(dcs) is None or number > total:
            continue
        first_dcs, first_total, texts = messages.setdefault((ident, serial), (dcs, total, {}))
        if (dcs, total) != (first_dcs, first_total) or number in texts:
            continue
        texts[number] = gsm.text_of_content(gsm.alphabet_of(dcs), content)
        if len(texts) == total:
            shown.append((ident, serial, "".join(texts[it] for it in sorted(texts))))
    return shown


def quoted(field):
    return '"' + field.replace('"', '""') + '"' if any(it in field for it in ',"\r\n') else field


def answer_to_tape(octets):
    try:
        tapes = gsm.tapes_of(octets)
    except gsm.Refused as fault:
        return f"F{fault}"
    lines = ["Rlac,ci,id,serial,text\n"]
    for lac, ci, blocks in tapes:
        lines += [f"{lac},{ci},{ident},{serial:04x},{quoted(text)}\n" for ident, serial, text in shown_by(blocks)]
    return "".join(lines)


def answer_to_one_tape(octets):
    try:
        lac, ci, blocks = gsm.one_tape_of(octets)
    except gsm.Refused as fault:
        return f"F{fault}"
    shown = "".join(f": {ident} {serial:04x} {text}" for ident, serial, text in shown_by(blocks))
    return f"R{lac}-{ci} {len(blocks) // len(gsm.TYPES)} slots{shown}"


# --- Books ---

MARK = b"\xEF\xBB\xBF"


def records_of(book):
    """Returns the rows of a CSV text, each a list of fields in octets. Empty lines and a byte order mark are skipped.

    A quote opens a quoted field only where the field begins. What follows the closing quote is plain text of the field.
    """
    rows, row, field, state = [], [], b"", "start"
    for sign in re.findall(rb"(?s).", book.removeprefix(MARK)):
        if sign == b'"' and state in ("start", "quote"):
            # In a quoted field a second quote after one is a quote.
            field, state = field + (sign if state == "quote" else b""), "quoted"
        elif state == "quoted":
            field, state = (field, "quote") if sign == b'"' else (field + sign, state)
        elif sign == b",":
            row, field, state = row + [field], b"", "start"
        elif sign in b"\r\n":
            if row or state != "start":
                rows.append(row + [field])
            row, field, state = [], b"", "start"
        else:
            field, state = field + sign, "plain"
    return rows + [row + [field]] if row or state != "start" else rows


class Book:
    """What the rows so far have: cells, names with the number of their updates, and texts to be judged at the end."""

    def __init__(self):
        self.cells, self.updates, self.texts = [], {}, []

    def take(self, row, fields):
        """Takes a row; its first fault is raised."""
        if row > 4096:
            raise Fault("too many rows")
        try:
            verb, *fields = [it.decode() for it in fields]
        except UnicodeDecodeError:
            raise Fault("columns") from None
        if verb not in COLUMNS:
            raise Fault("verb")
        if len(fields) != len(COLUMNS[verb]):
            raise Fault("columns")
        if verb == "cell" and len(self.cells) == 64:
            raise Fault("too many rows")
        values = dict(zip(COLUMNS[verb], fields))
        for column, field in values.items():
            self.judge(verb, column, field)
        self.keep(row, verb, values)

    def judge(self, verb, column, field):
        if column in RANGES:
            value_of(field, *RANGES[column])
        elif column == "NAME":
            self.judge_name(verb, field)
        elif column == "CELLS":
            self.judge_cells(field)

    def judge_name(self, verb, name):
        if name == "" or verb != "write" and name not in self.updates:
            raise Fault("unknown name")
        if verb == "write" and name in self.updates:
            raise Fault("named twice")

    def judge_cells(self, field):
        cells = self.cells if field == "*" else [cell_of(it) for it in field.split(" ")]
        if not cells or any(it not in self.cells for it in cells):
            raise Fault("unknown cell")
        if len(set(cells)) < len(cells):
            raise Fault("named twice")

    def keep(self, row, verb, values):
        if verb == "cell":
            cell = (int(values["LAC"]), int(values["CI"]))
            if cell in self.cells:
                raise Fault("named twice")
            self.cells.append(cell)
        elif verb != "stop":
            self.updates[values["NAME"]] = self.updates.get(values["NAME"], -1) + 1
            if self.updates[values["NAME"]] > 15:
                raise Fault("too many updates")
            self.texts.append((row, values["TEXT"], values["LANG"]))


def value_of(field, low, high):
    if not re.fullmatch("[0-9]{1,5}", field) or not low <= int(field) <= high:
        raise Fault("number")
    return int(field)


def cell_of(name):
    """Returns the cell that LAC-CI names."""
    parts = name.split("-")
    if len(parts) != 2:
        raise Fault("number")
    return tuple(value_of(it, 0, 65535) for it in parts)


def answer_to_book(octets):
    if len(octets) > 1 << 24:
        return "row 0: too many rows"
    book = Book()
    for row, fields in enumerate(records_of(octets), 1):
        try:
            book.take(row, fields)
        except Fault as fault:
            return f"row {row}: {fault}"
    for row, text, language in book.texts:
        fault = fault_of_text(text, language)
        if fault:
            return f"row {row}: {fault}"
    return "A"


# --- Inputs ---

GSM_PAGE = bytes.fromhex("8046a3d168341a" + "8d46a3d168341a" * 10 + "8d46a3d100")
RUSSIAN = 'Оставайтесь дома, закройте окна. "Шторм"\nидёт.'


def message(kind, rest):
    octets = bytes.fromhex(rest)
    return bytes([kind]) + len(octets).to_bytes(3, "big") + octets


# Each of these yields inputs: a name, octets, and the places that have a line; None stands for all.


def messages():
    """A write, a kill, a reply of each kind, a write of two pages; a kill of no cells, and a type that there isn't.

    The failed kill and the write of two pages have their elements in odd orders.
    """
    page = GSM_PAGE.hex()
    rest = "0e1112 030010 0400050100010001 0502 060002 070000 1301 0c01 0101" + page
    yield "write", message(1, rest), None
    yield "kill", message(4, "0e1112 020010 0400050100010001"), None
    yield "write_done", message(2, "0e1112 030010 0400050100010001"), None
    yield "write_failed", message(3, "0e1112 030011 020010 090006010001000206 0800080100010001000100"), None
    yield "kill_done", message(5, "0e1112 020010 0800080100010001000000"), None
    rest = "0800080100010003000200 0400050100010004 09000c010001000106010001000202 020010 1200 0e1112"
    yield "kill_failed", message(6, rest), None
    rest = "1302 020010 1201 0101" + page + "0400090100010002 00010001 0e1112 060400 0101" + page + "0c53 07ffff 030011"
    # The places: the number of pages, the old serial number, the heads of both contents, the second cell, the period.
    yield "write_two", message(1, rest), [4, 5, 6, 11, 12, 106, 111, 112, 113, 114]
    yield "kill_none", message(4, "0e1112 020010 04000101"), []
    yield "kind_seven", bytes.fromhex("0700000000"), []


def tapes():
    """The worked tape; a tape of no slots, then one of pages 2, 1 and a second 2 of another text; 65 of no slots."""
    page = gsm.slot_of(0x0010, 4370, 0x01, 0x11, GSM_PAGE)
    yield "worked", bytes.fromhex("0001000100000002") + page + gsm.IDLE_SLOT, None
    first = gsm.slot_of(0x0010, 4370, gsm.UCS2, 0x12, gsm.content_of(RUSSIAN[:41], False))
    second = gsm.slot_of(0x0010, 4370, gsm.UCS2, 0x22, gsm.content_of(RUSSIAN[41:], False))
    repeat = gsm.slot_of(0x0010, 4370, gsm.UCS2, 0x22, gsm.content_of("!", False))
    # The places: the numbers of slots, the types of the first blocks, the heads of two pages with their first units,
    # the text's last unit and the filling after it, a quotation mark, and the line feed that ends a page.
    places = [*range(4, 8), *range(12, 16), *range(16, 200, 23), *range(17, 25), *range(109, 117)]
    places += [32, 33, 34, 185, 198, 199]
    yield "two", bytes.fromhex("0001000100000000 0001000200000003") + second + first + repeat, sorted(places)
    yield "many", bytes(8) * 65, []


def one_tape():
    """The worked tape; one of four slots, with pages 2 and 1 of a message, an idle slot, and another page 2."""
    named = list(tapes())
    yield named[0]
    octets = named[1][1][8:]
    head = bytes.fromhex("0102000300000004")
    # The places: the header, the types of all blocks, the heads of the pages with their first units, and the units at
    # the end of the first page and at both ends of the text.
    slots = [octets[8 + gsm.SLOT * at:8 + gsm.SLOT * (at + 1)] for at in range(3)]
    blocks = b"".join([slots[0], slots[1], gsm.IDLE_SLOT, slots[2]])
    places = [*range(8), *range(8, 376, 23), *range(9, 17), *range(101, 109), *range(285, 293)]
    yield "two", head + blocks, sorted(places)


def books():
    """A book of all verbs; one with quotes, CRLF and a byte order mark; and books with a fault, for their fronts."""
    rows = [
        "cell,1,1",
        "cell,1,2",
        "write,0,a,65535,0,1,en,2,2,0,*,One",
        'update,1,a,de,0,2,0,1-2 1-1,"Two,2"',
        "stop,2,a,1-1",
        "",
    ]
    yield "verbs", "\n".join(rows).encode(), None
    quotes = '"cell",1,"1"\r\n\nwrite,9,"a""b",1,3,1023,ru,1,1024,9,1-1,"Я\n""."'
    yield "quotes", MARK + quotes.encode(), None
    yield "updates", b"cell,1,1\nwrite,0,a,4370,0,1,en,2,2,0,*,a" + b"\nupdate,0,a,en,2,2,0,*,a" * 16, []
    yield "cells", "\n".join(f"cell,1,{it}" for it in range(65)).encode(), []
    yield "pages", ("cell,1,1\nwrite,0,a,4370,0,1,ru,2,2,0,*,Я" + "a" * 615).encode(), []
    yield "digits", b"cell,1,000001", []
    yield "no_cell", b"write,0,a,4370,0,1,en,2,2,0,*,One", []
    yield "no_name", b"cell,1,1\nwrite,0,,4370,0,1,en,2,2,0,*,One", []
    yield "two_names", b"cell,1,1\nwrite,0,a,4370,0,1,xx,2,2,0,*,One\nwrite,0,a,4370,0,1,en,2,2,0,*,One", []


# --- Tables ---

TABLES = {
    "messages": (messages, answer_to_message),
    "tapes": (tapes, answer_to_tape),
    "tape": (one_tape, answer_to_one_tape),
    "books": (books, answer_to_book),
}
# Those that a program can be asked for.
CHECKED = ("messages", "tapes", "books")


def digest(answers):
    """Returns FNV-1a of 64 bits of the answers, joined by LF."""
    value = 0xCBF29CE484222325
    for octet in "\n".join(answers).encode():
        value = (value ^ octet) * 0x100000001B3 & 0xFFFFFFFFFFFFFFFF
    return f"{value:016x}"


def changed(octets, place):
    """Yields the input with the octet at a place changed to each other value."""
    for value in range(256):
        if value != octets[place]:
            yield octets[:place] + bytes([value]) + octets[place + 1:]


def cuts(octets):
    return (octets[:length] for length in range(len(octets) + 1))


def groups_of(octets, places):
    """Yields for each line of an input its word and the malformed inputs behind its digest."""
    for place in range(len(octets)) if places is None else places:
        yield str(place), changed(octets, place)
    yield "cuts", cuts(octets)


def table(kind):
    """Yields the lines of a table; those of octets have at most 110 columns."""
    inputs, answer = TABLES[kind]
    for name, octets, places in inputs():
        yield f"input {name}"
        for digits in textwrap.wrap(octets.hex(), 106):
            yield f"and {digits}"
        for word, group in groups_of(octets, places):
            yield f"{word} {digest([answer(it) for it in group])}"


def print_module(kind):
    what = "single tapes" if kind == "tape" else kind
    print(f"//! Malformed {what}, and digests of what comes of them by the documents.")
    print("//!")
    print(f"//! `tools/malformed.py {kind}` prints this file and says how it is read. Change it there alone.")
    print()
    print(f"/// A table of {what}: octets, and for each of their places a digest of the answers where it is changed.")
    print('pub const TABLE: &str = "')
    for line in table(kind):
        print(line)
    print('";')


def print_answers(kind, name, word):
    inputs, answer = TABLES[kind]
    octets = {it[0]: it[1] for it in inputs()}[name]
    for it in cuts(octets) if word == "cuts" else changed(octets, int(word)):
        print(f"{len(it)} octets" if word == "cuts" else f"{it[int(word)]:02x}", repr(answer(it)))


# --- A second source ---

def said_by(program, group):
    """Returns the lines of `PROGRAM cbsp`."""
    lines = "".join(it.hex() + "\n" for it in group)
    done = subprocess.run([*program, "cbsp"], input=lines, stdout=subprocess.PIPE, text=True, check=True)
    return done.stdout.split("\n")[:-1]


def is_in_order(octets):
    """Whether the elements of a message that can be read are in the order of the table."""
    found = []
    at = 4
    while at < len(octets):
        size = ELEMENTS[octets[at]][0]
        found.append(list(ELEMENTS).index(octets[at]))
        at += 1 + (2 + number_of(octets[at + 1:at + 3]) if size is None else size)
    return found == sorted(found)


def differing_messages(program, group):
    """Yields a line for each message that the program reads in another way, or that isn't written as it is read."""
    lines, answers = said_by(program, group), [answer_to_message(it) for it in group]
    backs = [bytes.fromhex(it[1:]) if it[0] == "M" else octets for it, octets in zip(answers, group)]
    for octets, line, again, answer, back in zip(group, lines, said_by(program, backs), answers, backs, strict=True):
        if line != said(octets) or again != line or answer[0] == "M" and not is_in_order(back):
            yield f"{octets.hex()}: {answer}, {said(octets)}; the program: {line}; of what is written: {again}"


def answer_of(program, kind, octets):
    words = ["read"] if kind == "tapes" else ["report", "--slots", "8"]
    done = subprocess.run([*program, *words], input=octets, capture_output=True, check=False)
    if done.returncode == 0:
        return "R" + done.stdout.decode() if kind == "tapes" else "A"
    line = done.stderr.decode()
    if done.returncode != 1 or not line.startswith("warnc: ") or not line.endswith("\n"):
        return f"status {done.returncode}: {line}"
    return ("F" if kind == "tapes" else "") + line[len("warnc: "):-1]


def differing_inputs(program, kind, group):
    for octets in group:
        ours, theirs = TABLES[kind][1](octets), answer_of(program, kind, octets)
        if ours != theirs:
            yield f"{octets.hex()}: {ours!r}; the program: {theirs!r}"


def check(program, every, kind):
    """Compares the answers of a table with a program's, and prints those that differ. Returns whether none does."""
    compared = differing = 0
    for name, octets, places in TABLES[kind][0]():
        inputs = [it for _, group in groups_of(octets, places) for it in group][::every]
        found = differing_messages(program, inputs) if kind == "messages" else differing_inputs(program, kind, inputs)
        for line in found:
            print(f"{kind}: {name}: {line}")
            differing += 1
        compared += len(inputs)
    print(f"{kind}: {compared} answers compared, {differing} differ", flush=True)
    return differing == 0


def main(words):
    if words[:1] == ["--check"] and len(words) > 1:
        program, kinds, every = shlex.split(words[1]), words[2:], 1
        if kinds[:1] == ["--every"]:
            every, kinds = int(kinds[1]), kinds[2:]
        return 0 if all([check(program, every, it) for it in kinds or CHECKED]) else 1
    if len(words) == 1 and words[0] in TABLES:
        print_module(words[0])
        return 0
    if len(words) == 3 and words[0] in TABLES:
        print_answers(*words)
        return 0
    print(__doc__, end="")
    return 0 if words in (["-h"], ["--help"]) else 2


if __name__ == "__main__":
    sys.exit(main(sys.argv[1:]))
