#!/usr/bin/env python3
"""Counts what the texts of a book cost, as docs/formats.md says: a second program against which `warnc texts` is
compared.

Usage: texts_reference.py PROGRAM [RUNS]    random books and network books with texts of all kinds, also such as can't
                                            be sent; in every fourth run a row is none of a book. What both programs
                                            write has to be the same, and so do their statuses and fault lines. PROGRAM
                                            is a built `warnc`
"""
import random
import subprocess
import sys

import gsm
from random_runs import judged

NAMES = ("row", "name", "lang", "coding", "characters", "pages", "room", "first_ucs2", "place")
WORDS = ("fire", "Stay", "inside!", "flood", "€5", "[now]", "Wasser", "Straße", "Вода", "наверх", "żółw", "don’t", "a",
         "I", "{x}", "naïve", "Ωmega", "~", "x" * 40, "€" * 50, "ж" * 45)
ODD = ("\t", "🔥", "\x1b", "\r", "\x07", "\uffff", "\u00a0", "e\u0301", "\n", '"', ",")
LANGUAGES = (*gsm.WORDS, "xx", "EN", "")
# how many pages a message has at most, and how many cells a group
PAGES, GROUP = 15, 64


def is_gsm(text):
    """Whether GSM 7-bit has each character; the escape is none of its characters."""
    return all(it in gsm.CODES and it != "\x1b" for it in text)


def is_bad(sign):
    """Whether a character can't be sent: a control character other than LF, or one above U+FFFF."""
    return sign < " " and sign != "\n" or sign > "\uffff"


def costs_of(text):
    """Yields the number of pages, and the room on the last one, of each front of a text, the empty one first.

    The pages of septets and those of units are filled side by side; which of them count depends on the front.
    """
    pages, used, plain = {"gsm": 0, "ucs2": 0}, {"gsm": gsm.SEPTETS, "ucs2": gsm.UNITS}, True
    rooms = {"gsm": gsm.SEPTETS, "ucs2": gsm.UNITS}
    yield 0, gsm.SEPTETS
    for sign in text:
        plain = plain and is_gsm(sign)
        for alphabet, cost in (("gsm", len(gsm.CODES.get(sign, []))), ("ucs2", int(sign <= "\uffff"))):
            if pages[alphabet] == 0 or used[alphabet] + cost > rooms[alphabet]:
                pages[alphabet] += 1
                used[alphabet] = 0
            used[alphabet] += cost
        alphabet = "gsm" if plain else "ucs2"
        yield pages[alphabet], rooms[alphabet] - used[alphabet]


def cut_for(text, most):
    """Returns to how many characters a text is cut for so many pages."""
    whole = longest = 0
    for length, (pages, _) in enumerate(costs_of(text)):
        if pages <= most:
            longest = length
            if length == len(text) or text[length] in " \n":
                whole = length
    return whole or longest


def fields_of(row, name, lang, text, most):
    """Returns the fields of a text's row."""
    pages, room = list(costs_of(text))[-1]
    place = next((at for at, sign in enumerate(text) if not is_gsm(sign)), None)
    forcing = [text[place], place] if place is not None else ["", ""]
    bad = any(map(is_bad, text))
    fields = [row, name, lang, "GSM 7-bit" if is_gsm(text) else "UCS-2", len(text), "" if bad else pages,
              "" if bad else room, *forcing]
    return fields if most is None else [*fields, "" if bad else cut_for(text, most)]


def line_of(fields):
    """Returns a line of CSV: fields are quoted if they hold a comma, a quote or a line end."""
    def quoted(field):
        text = str(field)
        return '"' + text.replace('"', '""') + '"' if set(text) & set(',"\r\n') else text
    return ",".join(map(quoted, fields)) + "\n"


def random_text(rng):
    """Returns a text of some words; some have a character that is rare, and some are long."""
    count = rng.choice((0, 1, 3, 8, 20, 60, 300))
    plain = rng.random() < 0.5
    words = [it for it in WORDS if is_gsm(it)] if plain else WORDS
    text = rng.choice((" ", " ", "\n", "")).join(rng.choice(words) for _ in range(count))
    if rng.random() < 0.3:
        at = rng.randrange(len(text) + 1)
        text = text[:at] + rng.choice(ODD) + text[at:]
    return text


def random_cells(rng, count):
    """Returns a field of cells for a book of this many, and the groups of those."""
    if rng.random() < 0.5:
        return "*", range(-(-count // GROUP))
    cells = rng.sample(range(count), rng.randrange(1, min(count, 3) + 1))
    return " ".join(f"1-{it}" for it in cells), {it // GROUP for it in cells}


def random_book(rng, count):
    """Returns the lines of a book of this many cells, and row, name, language and text of each order with one, and the
    groups of its cells."""
    lines, texts, names = [line_of(["cell", 1, it]) for it in range(count)], [], []
    for row in range(count + 1, count + rng.randrange(2, 8)):
        cells, groups = random_cells(rng, count)
        verb = rng.choice(("write", "update", "stop")) if names else "write"
        text, lang = random_text(rng), rng.choice(LANGUAGES)
        name = f"n{row}" if verb == "write" else rng.choice(names)
        if verb == "write":
            name += rng.choice(("", ",", '"', " é"))
            names.append(name)
            lines.append(line_of([verb, 0, name, 4370, 0, 1, lang, 2, 8, 0, cells, text]))
        elif verb == "update":
            lines.append(line_of([verb, 0, name, lang, 2, 8, 0, cells, text]))
        else:
            lines.append(line_of([verb, 0, name, cells]))
            continue
        texts.append((row, name, lang, text, groups))
    return lines, texts


def expected(rng, lines, texts, most, group):
    """Returns status, output and fault line for a book, or for a group of it; in every fourth run one of its rows is
    spoilt here."""
    if rng.random() < 0.25:
        at = rng.randrange(1, len(lines)) if len(lines) > 1 else 0
        spoilt = (("verb", f"x{lines[at]}"), ("columns", "write,0\n"), ("number", "cell,1,70000\n"))
        fault, lines[at] = rng.choice(spoilt)
        return 1, "", f"warnc: row {at + 1}: {fault}\n"
    groups = -(-sum(it.startswith("cell,") for it in lines) // GROUP)
    if group is not None and group >= groups:
        return 1, "", f"warnc: no such group: the network has {groups}\n"
    names = NAMES if most is None else (*NAMES, "fits")
    wanted = [it[:-1] for it in texts if group is None or group in it[-1]]
    return 0, line_of(names) + "".join(line_of(fields_of(*it, most)) for it in wanted), ""


def differs(program, seed):
    """Whether the two programs differ in a run; prints how."""
    rng = random.Random(seed)
    network = rng.random() < 0.4
    lines, texts = random_book(rng, rng.choice((1, 64, 65, 130)) if network else 1)
    most = rng.choice((None, rng.randrange(1, PAGES + 1)))
    group = rng.choice((None, 0, 1, 2)) if network else None
    wanted = expected(rng, lines, texts, most, group)
    words = [program, "texts"] + ([] if most is None else ["--pages", str(most)])
    words += ["--group", str(group)] if group is not None else ["--network"] if network else []
    done = subprocess.run(words, input="".join(lines).encode(), capture_output=True, check=False)
    found = done.returncode, done.stdout.decode(), done.stderr.decode()
    if found == wanted:
        return False
    print(f"texts_reference: run {seed}: {words[1:]}: wanted {wanted}, but it was {found}")
    return True


if __name__ == "__main__":
    sys.exit(judged("texts_reference", __doc__, sys.argv[1:], differs, 300))
