#!/usr/bin/env python3
"""Makes the pages of texts, as docs/formats.md says: a second program against which `warnc page --explain` is compared.

Usage: page_reference.py PROGRAM [RUNS]    random texts of all kinds that can be sent. What both programs write has to
                                           be the same. PROGRAM is a built `warnc`
"""
import random
import subprocess
import sys

import books
import gsm
from random_runs import judged
from texts_reference import PAGES, is_bad, random_text

NAMES = ("page", "pages", "serial", "identifier", "coding", "used", "block_1", "block_2", "block_3", "block_4", "text")
UCS2 = 0x48


def sendable(rng):
    """Returns a random text that goes on 1 to 15 pages."""
    while True:
        text = random_text(rng)
        if text and not any(map(is_bad, text)) and len(gsm.pieces_of(text)[0]) <= PAGES:
            return text


def used_by(piece, is_gsm):
    """Returns how many octets of a content a piece of a text takes, whole or in part."""
    return -(-7 * sum(len(gsm.CODES[it]) for it in piece) // 8) if is_gsm else 2 * len(piece)


def row_of(number, pages, serial, ident, dcs, piece, is_gsm):
    """Returns the row of a page. Its text is read of its content, not taken from the piece."""
    content = gsm.content_of(piece, is_gsm)
    slot = gsm.slot_of(serial, ident, dcs, 16 * number + pages, content)
    blocks = [slot[at:at + gsm.BLOCK].hex() for at in range(0, gsm.SLOT, gsm.BLOCK)]
    shown = gsm.text_of_content(gsm.alphabet_of(dcs), content)
    return [number, pages, f"{serial:04x}", f"{ident:04x}", f"{dcs:02x}", used_by(piece, is_gsm), *blocks, shown]


def differs(program, seed):
    """Whether the two programs differ in a run; prints how."""
    rng = random.Random(seed)
    text, lang, ident = sendable(rng), rng.choice(gsm.WORDS), rng.randrange(65536)
    scope, code, update = rng.randrange(4), rng.randrange(1024), rng.randrange(16)
    pieces, is_gsm = gsm.pieces_of(text)
    dcs = gsm.LANGUAGES[lang] if is_gsm else UCS2
    wanted = books.line(NAMES) + "".join(
        books.line(row_of(at + 1, len(pieces), scope << 14 | code << 4 | update, ident, dcs, piece, is_gsm))
        for at, piece in enumerate(pieces))
    words = ["page", "--lang", lang, "--id", str(ident), "--scope", str(scope), "--code", str(code), "--update",
             str(update), "--explain"]
    done = subprocess.run([program, *words], input=f"{text}\n".encode(), capture_output=True, check=False)
    found = done.returncode, done.stdout.decode(), done.stderr.decode()
    if found == (0, wanted, ""):
        return False
    print(f"page_reference: run {seed}: {words}: wanted {wanted!r}, but it was {found}")
    return True


if __name__ == "__main__":
    sys.exit(judged("page_reference", __doc__, sys.argv[1:], differs, 300))
