"""Reads and writes texts, pages and tapes, for tools that judge the program and for makers of its inputs.

It is a plain reading of docs/formats.md, and for alphabets of docs/definitions.md. It shares nothing with the crates,
so malformed.py, capture_reference.py, verify_reference.py and network_reference.py, which share it, still judge by the
documents alone. fuzz.py and bench/ use it, too. books.py has books, and capture_files.py has capture files.
"""
import functools
import struct

# --- Alphabets ---

WORDS = "de en it fr es nl sv da pt fi no el tr hu pl und cs he ar ru is".split()
# The data coding that names each language.
LANGUAGES = dict(zip(WORDS, [*range(0x10), *range(0x20, 0x25)], strict=True))
# The data coding of UCS-2, without a language.
UCS2 = 0x48
ESCAPE, CR = 0x1B, 0x0D
MAIN = (
    "@£$¥èéùìòÇ\nØø\rÅåΔ_ΦΓΛΩΠΨΣΘΞ\x1bÆæßÉ !\"#¤%&'()*+,-./0123456789:;<=>?"
    "¡ABCDEFGHIJKLMNOPQRSTUVWXYZÄÖÑÜ§¿abcdefghijklmnopqrstuvwxyzäöñüà"
)
EXTENSION = {0x14: "^", 0x28: "{", 0x29: "}", 0x2F: "\\", 0x3C: "[", 0x3D: "~", 0x3E: "]", 0x40: "|", 0x65: "€"}
# The septets of each character of GSM 7-bit: one, or an escape pair.
CODES = {sign: [code] for code, sign in enumerate(MAIN)} | {sign: [ESCAPE, code] for code, sign in EXTENSION.items()}


def alphabet_of(dcs):
    """Returns `gsm`, `ucs2`, or None if a data coding has no alphabet."""
    if dcs in LANGUAGES.values() or 0x40 <= dcs <= 0x43 or 0x50 <= dcs <= 0x53:
        return "gsm"
    return "ucs2" if 0x48 <= dcs <= 0x4B or 0x58 <= dcs <= 0x5B else None


# --- Contents of pages: 82 octets, of 93 septets or of 41 units of UCS-2 ---

CONTENT, SEPTETS, UNITS = 82, 93, 41


def pieces_of(text):
    """Returns the pieces of a text that its pages hold, and whether it is GSM 7-bit.

    Each page has as many characters as go into it; an escape pair isn't split.
    """
    is_gsm = all(it in CODES for it in text)
    room = SEPTETS if is_gsm else UNITS
    pieces, left = [""], room
    for sign in text:
        cost = len(CODES[sign]) if is_gsm else 1
        if cost > left:
            pieces.append("")
            left = room
        pieces[-1] += sign
        left -= cost
    return pieces, is_gsm


def filled(codes, count):
    """Returns so many codes: these, and CR behind them."""
    return [*codes, *[CR] * count][:count]


def packed(codes):
    """Returns the content of septets: bit 0 of the first septet is bit 0 of the first octet."""
    return sum(code << 7 * at for at, code in enumerate(filled(codes, SEPTETS))).to_bytes(CONTENT, "little")


def of_units(codes):
    """Returns the content of units of UCS-2."""
    return b"".join(code.to_bytes(2, "big") for code in filled(codes, UNITS))


@functools.cache
def content_of(piece, is_gsm):
    """Returns the content of a piece of a text."""
    return packed(code for sign in piece for code in CODES[sign]) if is_gsm else of_units(map(ord, piece))


def septets_of(content):
    """Returns the 93 septets of a content."""
    bits = int.from_bytes(content, "little")
    return [bits >> 7 * at & 0x7F for at in range(SEPTETS)]


def without_filling(codes):
    while codes and codes[-1] == CR:
        codes = codes[:-1]
    return codes


def text_of_septets(codes):
    text, at = "", 0
    while at < len(codes):
        if codes[at] != ESCAPE:
            text += MAIN[codes[at]]
            at += 1
            continue
        # An escape at the end, or two of them, show a space; an unknown code shows the character of the main table.
        code = codes[at + 1] if at + 1 < len(codes) else ESCAPE
        text += " " if code == ESCAPE else EXTENSION.get(code, MAIN[code])
        at += 2
    return text


def text_of_content(alphabet, content):
    if alphabet == "gsm":
        return text_of_septets(without_filling(septets_of(content)))
    units = without_filling([int.from_bytes(content[at:at + 2], "big") for at in range(0, CONTENT, 2)])
    return "".join("\uFFFD" if 0xD800 <= it <= 0xDFFF else chr(it) for it in units)


# --- Pages: 88 octets, in four blocks of a slot ---

# Serial number, identifier, data coding and page parameter, in front of the content.
HEAD = struct.Struct(">HHBB")
# Octets of a block, a type in front of 22 octets of a page, and of a slot.
BLOCK, SLOT = 23, 92
TYPES = (0x20, 0x21, 0x22, 0x33)
IDLE = b"\x2F" + b"\x2B" * 22
IDLE_SLOT = IDLE * 4


def slot_of(serial, ident, dcs, parameter, content):
    """Returns the slot of a page: its 88 octets in four blocks."""
    page = HEAD.pack(serial, ident, dcs, parameter) + content
    return b"".join(bytes([kind]) + page[22 * at:22 * at + 22] for at, kind in enumerate(TYPES))


def pages_in(blocks):
    """Yields each page in blocks: its place, serial number, identifier, data coding, number, total and content.

    A page is four blocks of the right types, one after the other. With a number or a total of 0 it is page 1 of 1.
    """
    for place in range(len(blocks) - 3):
        four = blocks[place:place + 4]
        if tuple(it[0] for it in four) == TYPES:
            page = b"".join(it[1:] for it in four)
            serial, ident, dcs, parameter = HEAD.unpack_from(page)
            number, total = divmod(parameter, 16)
            if number == 0 or total == 0:
                number = total = 1
            yield place, serial, ident, dcs, number, total, page[HEAD.size:]


# --- Tapes ---

# LAC, CI and the number of slots, in front of the slots.
HEADER = struct.Struct(">HHI")
MAX_TAPES, MAX_SLOTS = 64, 65535


class Refused(Exception):
    """An input that makes no output; its text is the fault."""


def size_of_tape(slots):
    return HEADER.size + SLOT * slots


def tape_of(lac, ci, parts):
    """Returns the octets of a tape; its parts are blocks or slots."""
    octets = b"".join(parts)
    return HEADER.pack(lac, ci, len(octets) // SLOT) + octets


def one_tape_of(octets):
    """Returns LAC, CI and blocks of an input that is one tape, and nothing after it."""
    if len(octets) < HEADER.size:
        raise Refused("tape is short")
    lac, ci, slots = HEADER.unpack_from(octets)
    if slots > MAX_SLOTS or len(octets) > size_of_tape(slots):
        raise Refused("tape is long")
    if len(octets) < size_of_tape(slots):
        raise Refused("tape is short")
    return lac, ci, [octets[it:it + BLOCK] for it in range(HEADER.size, len(octets), BLOCK)]


def tapes_of(octets):
    """Returns LAC, CI and blocks of each tape of an input."""
    tapes, at = [], 0
    while at < len(octets):
        if len(tapes) == MAX_TAPES:
            raise Refused("tape is long")
        if len(octets) - at < HEADER.size:
            raise Refused("tape is short")
        lac, ci, slots = HEADER.unpack_from(octets, at)
        if slots > MAX_SLOTS:
            raise Refused("tape is long")
        end = at + size_of_tape(slots)
        if len(octets) < end:
            raise Refused("tape is short")
        tapes.append((lac, ci, [octets[it:it + BLOCK] for it in range(at + HEADER.size, end, BLOCK)]))
        at = end
    return tapes
