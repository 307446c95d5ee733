#!/usr/bin/env python3
"""Reads tapes with pages of one to four blocks, as docs/formats.md says: a second program against which `warnc read
--short` is compared, `warnc read`, both with --slots, and `warnc whole`.

Usage: short_reference.py PROGRAM [RUNS]    random tapes, of pages in four blocks and in fewer, pages over the end of a
                                            slot, blocks out of place and idle slots. What both programs write has to be
                                            the same, with --short and without, and the whole tapes. PROGRAM is a
                                            built `warnc`

The text of a short page is decoded of the octets that came; only for `whole` is a page completed here.
"""
import random
import subprocess
import sys

import books
import gsm
from random_runs import judged

# the types of the blocks of a page, by how many there are (3GPP TS 44.012, 3.3)
KINDS = {1: (0x30,), 2: (0x20, 0x31), 3: (0x20, 0x21, 0x32), 4: gsm.TYPES}
# octets of a page in a block
PART = 22
WORDS = ("Bleib da", "Stay in!", "{€}", "Ωmega", "€" * 9, "Вода", "наверх", "x" * 40, "a\nb", '"no", twice', "@", " ")
CODINGS = (0x00, 0x01, 0x0F, 0x22, 0x40, 0x48, 0x48, 0x58, 0x10, 0x44, 0xF0)


def text_of(alphabet, octets):
    """Returns the text of the octets of a content that came: of the septets and units that came whole."""
    if alphabet == "gsm":
        bits = int.from_bytes(octets, "little")
        codes = [bits >> 7 * at & 0x7F for at in range(8 * len(octets) // 7)]
        return gsm.text_of_septets(gsm.without_filling(codes))
    units = [int.from_bytes(octets[at:at + 2], "big") for at in range(0, len(octets) - 1, 2)]
    return "".join("\uFFFD" if 0xD800 <= it <= 0xDFFF else chr(it) for it in gsm.without_filling(units))


def count_at(blocks, place):
    """Returns how many blocks the page has that begins at a place; 0 if none does. A short one begins a slot."""
    for count, kinds in KINDS.items():
        if (count == 4 or place % 4 == 0) and tuple(it[0] for it in blocks[place:place + count]) == kinds:
            return count
    return 0


def pages_of(blocks, short):
    """Yields the octets that came of each page; `short` says whether pages of fewer blocks are read."""
    place = 0
    while place < len(blocks):
        count = count_at(blocks, place)
        if count == 4 or short and count:
            yield b"".join(it[1:] for it in blocks[place:place + count])
        # what follows a short page in its slot is no part of a page
        place += 4 if short and 0 < count < 4 else count if count == 4 else 1


def place_of(parameter):
    """Returns a page's number and the total, by its page parameter."""
    number, total = divmod(parameter, 16)
    return (number, total) if number and total else (1, 1)


def sent_by(blocks, short):
    """Yields slot, identifier, serial number, number and total of each page that is sent in a slot of its own."""
    for slot in range(len(blocks) // 4):
        count = count_at(blocks, 4 * slot)
        if count == 4 or short and count:
            page = b"".join(it[1:] for it in blocks[4 * slot:4 * slot + count])
            serial, ident, dcs, parameter = gsm.HEAD.unpack_from(page)
            number, total = place_of(parameter)
            if gsm.alphabet_of(dcs) is not None and number <= total:
                yield slot, ident, f"{serial:04x}", number, total


def shown_by(blocks, short):
    """Yields identifier, serial number and text of each message that blocks show."""
    messages, shown = {}, set()
    for page in pages_of(blocks, short):
        serial, ident, dcs, parameter = gsm.HEAD.unpack_from(page)
        number, total = place_of(parameter)
        alphabet = gsm.alphabet_of(dcs)
        if alphabet is None or number > total:
            continue
        first, texts = messages.setdefault((ident, serial), ((total, dcs), {}))
        if first == (total, dcs):
            texts.setdefault(number, text_of(alphabet, page[gsm.HEAD.size:]))
        if len(texts) == first[0] and (ident, serial) not in shown:
            shown.add((ident, serial))
            yield ident, serial, "".join(texts[it] for it in sorted(texts))


def whole_content(alphabet, octets):
    """Returns the content of which these octets came: with the codes that came whole, and CR after them."""
    if alphabet == "gsm":
        bits = int.from_bytes(octets, "little")
        return gsm.packed([bits >> 7 * at & 0x7F for at in range(8 * len(octets) // 7)])
    if alphabet == "ucs2":
        return gsm.of_units([int.from_bytes(octets[at:at + 2], "big") for at in range(0, len(octets) - 1, 2)])
    return octets.ljust(gsm.CONTENT, b"\0")


def whole_slots(blocks):
    """Yields the slots of blocks, of which each page has four."""
    for place in range(0, len(blocks), 4):
        slot = blocks[place:place + 4]
        count = count_at(slot, 0)
        if count in (1, 2, 3):
            page = b"".join(it[1:] for it in slot[:count])
            serial, ident, dcs, parameter = gsm.HEAD.unpack_from(page)
            content = whole_content(gsm.alphabet_of(dcs), page[gsm.HEAD.size:])
            yield gsm.slot_of(serial, ident, dcs, parameter, content)
        else:
            yield b"".join(slot)


def random_content(rng, dcs):
    """Returns the octets of a content: a text that ends anywhere, or any octets."""
    if rng.random() < 0.2:
        return rng.randbytes(gsm.CONTENT)
    text = "".join(rng.choice(WORDS) for _ in range(rng.choice((0, 1, 1, 2, 5))))
    if gsm.alphabet_of(dcs) == "ucs2":
        return gsm.of_units([ord(it) for it in text][:gsm.UNITS])
    return gsm.packed([code for it in text for code in gsm.CODES.get(it, [gsm.ESCAPE])][:gsm.SEPTETS])


def random_block(rng):
    kind = rng.choice((0x2F, 0x20, 0x21, 0x22, 0x33, 0x30, 0x31, 0x32, 0x23, rng.randrange(256)))
    return bytes([kind]) + (gsm.IDLE[1:] if rng.random() < 0.5 else rng.randbytes(PART))


def random_page(rng, count):
    """Returns so many blocks of a page, of few messages, so that their pages come together."""
    dcs = rng.choice(CODINGS[:6]) if rng.random() < 0.7 else rng.choice(CODINGS)
    parameter = rng.choice((0x11, 0x11, 0x12, 0x22, 0x13, 0x23, 0x33, 0x00, 0x10, 0x21))
    head = gsm.HEAD.pack(rng.randrange(2), 4370 + rng.randrange(2), dcs, parameter)
    page = head + random_content(rng, dcs)
    return [bytes([kind]) + page[PART * at:PART * (at + 1)] for at, kind in enumerate(KINDS[count])]


def random_blocks(rng, slots):
    """Returns the blocks of so many slots."""
    blocks = [random_block(rng)] * rng.choice((0, 0, 0, 1, 2, 3))
    while len(blocks) < 4 * slots:
        kind = rng.random()
        if kind < 0.15:
            blocks += [gsm.IDLE] * 4
        elif kind < 0.2:
            blocks.append(random_block(rng))
        else:
            count = rng.choice((1, 2, 3, 4))
            blocks += random_page(rng, count)
            rest = gsm.IDLE if rng.random() < 0.7 else random_block(rng)
            blocks += [rest] * (4 - count)
    return blocks[:4 * slots]


def differs(program, seed):
    """Whether the two programs differ in a run; prints how."""
    rng = random.Random(seed)
    tapes = [(rng.randrange(3), rng.randrange(65536), random_blocks(rng, rng.randrange(12)))
             for _ in range(rng.choice((0, 1, 2, 8)))]
    octets = b"".join(gsm.tape_of(*it) for it in tapes)
    tables = {short: books.line(("lac", "ci", "id", "serial", "text")) + "".join(
        books.line((lac, ci, ident, f"{serial:04x}", text)) for lac, ci, blocks in tapes
        for ident, serial, text in shown_by(blocks, short)) for short in (True, False)}
    sent = {short: books.line(("lac", "ci", "slot", "id", "serial", "page", "pages")) + "".join(
        books.line((lac, ci, *page)) for lac, ci, blocks in tapes for page in sent_by(blocks, short))
        for short in (True, False)}
    whole = b"".join(gsm.tape_of(lac, ci, whole_slots(blocks)) for lac, ci, blocks in tapes)
    for words, wanted in ((["read", "--short"], tables[True].encode()), (["read"], tables[False].encode()),
                          (["read", "--short", "--slots"], sent[True].encode()),
                          (["read", "--slots"], sent[False].encode()), (["whole"], whole)):
        done = subprocess.run([program, *words], input=octets, capture_output=True, check=False)
        found = done.returncode, done.stdout, done.stderr
        if found != (0, wanted, b""):
            print(f"short_reference: run {seed}: {words}: wanted {wanted!r}, but it was {found}")
            return True
    return False


if __name__ == "__main__":
    sys.exit(judged("short_reference", __doc__, sys.argv[1:], differs, 300))
