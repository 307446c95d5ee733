#!/usr/bin/env python3
"""Judges books with faults as docs/formats.md says: a second program against which `warnc check` is compared.

Usage: check_reference.py PROGRAM [RUNS]    random books, every third a network book, with and without a group, and
                                            spoilt in most runs: fields changed, columns dropped and added, octets
                                            changed, rows doubled and dropped, line ends and quotes put in; the tables,
                                            lines and statuses of both programs have to be the same. PROGRAM is a built
                                            `warnc`
       check_reference.py --table < BOOK    prints the table of a book
"""
import random
import re
import subprocess
import sys

import gsm

NAMES = {
    b"cell": "LAC CI",
    b"write": "AT NAME ID SCOPE CODE LANG CATEGORY PERIOD BROADCASTS CELLS TEXT",
    b"update": "AT NAME LANG CATEGORY PERIOD BROADCASTS CELLS TEXT",
    b"stop": "AT NAME CELLS",
}
RANGES = {"SCOPE": (0, 3), "CODE": (0, 1023), "PERIOD": (1, 1024), "CATEGORY": (0, 2)}
CATEGORIES = "0 (high), 1 (background) or 2 (normal)"
MOST_ROWS, MOST_CELLS, MOST_UPDATES, MOST_OCTETS = 4096, 64, 15, 16_777_216
# Of a network book: cells, other rows, rows that are judged, octets, and cells of a group.
NETWORK_CELLS, NETWORK_ORDERS, NETWORK_JUDGED, NETWORK_OCTETS, GROUP = 65_536, 4096, 69_633, 67_108_864, 64


class Fault(Exception):
    """Why a row isn't right: the column, from 1, and what is said."""

    def __init__(self, column, says):
        super().__init__(column, says)
        self.column, self.says = column, says


def records_of(book):
    """Yields each record of a book's octets, with the place of its first octet."""
    at = 3 if book.startswith(b"\xef\xbb\xbf") else 0
    while True:
        while at < len(book) and book[at] in b"\r\n":
            at += 1
        if at == len(book):
            return
        begin, fields, ended = at, [], False
        while not ended:
            field, quoted = bytearray(), book[at:at + 1] == b'"'
            at += quoted
            while True:
                octet = book[at:at + 1]
                if quoted and octet == b'"' and book[at + 1:at + 2] == b'"':
                    field += b'"'
                    at += 2
                elif quoted and octet == b'"':
                    quoted = False
                    at += 1
                    # A quote right after the closing one would be the pair above: what follows is plain.
                elif octet == b"" or (not quoted and octet in (b",", b"\r", b"\n")):
                    break
                else:
                    field += octet
                    at += 1
            ended = octet != b","
            at += octet != b""
            fields.append(bytes(field))
        if octet == b"\r" and book[at:at + 1] == b"\n":
            at += 1
        yield fields, begin


def line_of(book, place):
    """Returns the line of a place: lines end with CRLF, CR or LF."""
    return 1 + len(re.findall(rb"\r\n|\r|\n", book[:place]))


def text_of(field):
    try:
        return field.decode()
    except UnicodeDecodeError:
        return None


def number_of(field, least, most):
    return int(field) if re.fullmatch(rb"[0-9]{1,5}", field) and least <= int(field) <= most else None


class Judge:
    """The rows of a book, or of a network book, so far, as far as they count."""

    def __init__(self, network=False):
        self.cells, self.names, self.updates = set(), {}, {}
        self.network, self.orders, self.is_full = network, 0, False

    def check_count(self, row, verb):
        """Judges whether a row is one too many, after which no other is judged."""
        says = None
        if not self.network:
            says = "a book has 4096 rows at most" if row > MOST_ROWS else None
        elif row > NETWORK_JUDGED:
            says = "a network book has 69632 rows at most"
        elif verb != b"cell" and self.orders == NETWORK_ORDERS:
            says = "a network book has 4096 rows besides cells at most"
        if says:
            self.is_full = True
            raise Fault(1, says)

    def check_cells_left(self):
        if self.network and len(self.cells) == NETWORK_CELLS:
            raise Fault(1, "a network book has 65536 cells at most")
        if not self.network and len(self.cells) == MOST_CELLS:
            raise Fault(1, "a book has 64 cells at most")

    def check_number(self, name, place, field):
        least, most = RANGES.get(name, (0, 65535))
        if number_of(field, least, most) is None:
            raise Fault(place, CATEGORIES if name == "CATEGORY" else f"a number from {least} to {most}")

    def check_name(self, verb, place, field):
        if verb != b"write":
            if field not in self.names:
                raise Fault(place, "no earlier row writes this name")
        elif not field:
            raise Fault(place, "a name")
        elif field in self.names:
            raise Fault(place, f"row {self.names[field]} has this name")

    def check_cells(self, place, field):
        if field == b"*":
            if not self.cells:
                raise Fault(place, "no earlier row declares a cell")
            return
        parts = [it.split(b"-", 1) for it in field.split(b" ")]
        cells = [(number_of(it[0], 0, 65535), number_of(it[-1], 0, 65535)) for it in parts if len(it) == 2]
        if len(cells) < len(parts) or any(None in it for it in cells):
            raise Fault(place, "* or LAC-CI with one space between")
        for lac, ci in cells:
            if (lac, ci) not in self.cells:
                raise Fault(place, f"no earlier row declares this cell: {lac}-{ci}")
        if len(set(cells)) < len(cells):
            raise Fault(place, "a cell comes twice")

    def check_row(self, row, fields):
        """Judges a row by its own columns."""
        self.check_count(row, fields[0])
        for place, field in enumerate(fields, 1):
            if text_of(field) is None:
                raise Fault(place, "not UTF-8: save as CSV UTF-8")
        verb = fields[0]
        if verb not in NAMES:
            only = len(fields) == 1 and (b";" in verb or b"\t" in verb)
            raise Fault(1, "columns are separated by commas" if only else "cell, write, update or stop")
        names = NAMES[verb].split()
        if len(fields) != len(names) + 1:
            raise Fault(1, f"{len(fields)} columns, {verb.decode()} has {len(names) + 1}")
        if verb == b"cell":
            self.check_cells_left()
        for place, (name, field) in enumerate(zip(names, fields[1:], strict=True), 2):
            if name == "NAME":
                self.check_name(verb, place, field)
            elif name == "CELLS":
                self.check_cells(place, field)
            elif name not in ("LANG", "TEXT"):
                self.check_number(name, place, field)
        if verb == b"cell" and (int(fields[1]), int(fields[2])) in self.cells:
            raise Fault(3, "an earlier row declares this cell")
        if verb == b"update" and self.updates.get(fields[2], 0) == MOST_UPDATES:
            raise Fault(3, "an alert has 15 updates at most")

    def check_text(self, fields):
        """Judges the text of a row that is right."""
        if fields[0] not in (b"write", b"update"):
            return
        place = NAMES[fields[0]].split().index("LANG") + 2
        text, language = text_of(fields[-1]), text_of(fields[place - 1])
        if language not in gsm.LANGUAGES:
            raise Fault(place, f"unknown language: {', '.join(gsm.WORDS[:-1])} or {gsm.WORDS[-1]}")
        if not text:
            raise Fault(len(fields), "a text")
        bad = [at for at, it in enumerate(text) if (it < " " and it != "\n") or it > "\uffff"]
        if bad:
            raise Fault(len(fields), f"bad character at {bad[0]}")
        pieces, is_gsm = gsm.pieces_of(text)
        if len(pieces) > 15:
            at = next((at for at, it in enumerate(text) if it not in gsm.CODES), 0)
            why = "" if is_gsm else f": UCS-2 because of {text[at]} at {at}"
            raise Fault(len(fields), f"{len(pieces)} pages, 15 is the most{why}")

    def judge(self, row, fields):
        """Returns the fault of a row, or None, and has the row count."""
        try:
            self.check_row(row, fields)
        except Fault as fault:
            if not self.is_full and fields[0] == b"write" and len(fields) > 2 and fields[2] \
                    and text_of(fields[2]) is not None and fields[2] not in self.names:
                self.names[fields[2]] = row
                self.orders += 1
            return fault
        if fields[0] == b"cell":
            self.cells.add((int(fields[1]), int(fields[2])))
        elif fields[0] == b"write":
            self.names[fields[2]] = row
        elif fields[0] == b"update":
            self.updates[fields[2]] = self.updates.get(fields[2], 0) + 1
        self.orders += fields[0] != b"cell"
        try:
            self.check_text(fields)
        except Fault as fault:
            return fault
        return None


def cut(field):
    """Returns a field up to its 81st octet that isn't within a character."""
    firsts = [at for at, octet in enumerate(field) if not 0x80 <= octet < 0xC0]
    return field[:firsts[80]] if len(firsts) > 80 else field


def shown(field):
    if text_of(field) is not None:
        return cut(field)
    return b"".join(bytes((it,)) if 32 <= it < 127 else b"\\x%02x" % it for it in cut(field))


def quoted(field):
    return b'"' + field.replace(b'"', b'""') + b'"' if re.search(rb'[",\r\n]', field) else field


def name_of(fields, column):
    names = ["VERB", *NAMES.get(fields[0], "").split()]
    return names[column - 1] if column <= len(names) else ""


def check(book, network=False):
    """Returns the table of a book, how many rows it has, or None if it is too long, and how many groups there are."""
    if len(book) > (NETWORK_OCTETS if network else MOST_OCTETS):
        return b"", None, 0
    judge, table, count = Judge(network), [b"row,line,column,field,value,says\n"], 0
    for row, (fields, begin) in enumerate(records_of(book), 1):
        fault = judge.judge(row, fields)
        if fault:
            value = fields[fault.column - 1] if fault.column <= len(fields) else b""
            parts = (str(row), str(line_of(book, begin)), str(fault.column), name_of(fields, fault.column))
            table.append(b",".join(quoted(it) for it in
                                   (*(it.encode() for it in parts), shown(value), fault.says.encode())) + b"\n")
            count += 1
        if judge.is_full:
            break
    return b"".join(table), count, max(1, -(-len(judge.cells) // GROUP))


# --- Random books ---

TEXTS = ["One", "Вода", "{fire} at 3€", "Zażółć", "a" * 93, "", "a\tb", "go\nnow", "go, now", 'say "go"', "\U0001F525",
         "x" * 1396, "ó" * 616, "a" * 700 + "ó"]
FIELDS = [b"", b"*", b"x", b"0", b"65536", b"70000", b"00001", b"-1", b"1-1", b"1-1 1-1", b"1-1  1-2", b"9-9", b"1-",
          b"a", b"a ", b"b", b"en", b"EN", b"cell", b"write", b"update", b"stop", b"Write", b"cell;1;1", b"cell\t1",
          b"\xff", b"caf\xe9", b"\x80" * 90, "ü".encode() * 90, b"x" * 90, b'"', b"\r\n", b"\r", b"1,2", b"# no",
          b"\xef\xbb\xbf"]


def random_rows(rng):
    """Returns rows, most of which are right."""
    cells = [(rng.randrange(1, 3), rng.randrange(1, 5)) for _ in range(rng.randrange(0, 5))]
    rows = [[b"cell", b"%d" % lac, b"%d" % ci] for lac, ci in cells]
    names = []
    for _ in range(rng.randrange(0, 12)):
        verb = rng.choice((b"write", b"update", b"stop")) if names else b"write"
        where = b"*" if rng.random() < 0.5 or not cells else b" ".join(
            b"%d-%d" % it for it in rng.sample(cells, rng.randrange(1, len(cells) + 1)))
        text = rng.choice(TEXTS) if rng.random() < 0.4 else "One"
        tail = [rng.choice(gsm.WORDS).encode(), b"%d" % rng.randrange(3), b"%d" % rng.randrange(1, 9),
                b"%d" % rng.randrange(3), where, text.encode()]
        if verb == b"write":
            names.append(b"n%d" % rng.randrange(20))
            rows.append([verb, b"0", names[-1], b"4370", b"%d" % rng.randrange(4), b"%d" % rng.randrange(1024), *tail])
        elif verb == b"update":
            rows += [[verb, b"0", rng.choice(names), *tail]] * rng.choice((1, 1, 1, 17))
        else:
            rows.append([verb, b"0", rng.choice(names), where])
    return rows


def spoil(rng, rows):
    for _ in range(rng.randrange(0, 5)):
        if not rows:
            return
        row = rng.randrange(len(rows))
        fields = rows[row] = list(rows[row])
        place = rng.randrange(len(fields))
        kind = rng.randrange(6)
        if kind == 0 and len(fields) > 1:
            del fields[place]
        elif kind == 1:
            fields.insert(place, rng.choice(FIELDS))
        elif kind == 2:
            rows.insert(rng.randrange(len(rows)), fields)
        elif kind == 3:
            del rows[row]
        else:
            fields[place] = rng.choice(FIELDS)


def octets_of(rng, rows):
    """Returns the octets of rows, with line ends and quotes of all kinds."""
    end = rng.choice((b"\n", b"\n", b"\r\n", b"\r"))
    book = b"\xef\xbb\xbf" if rng.random() < 0.1 else b""
    for fields in rows:
        book += b",".join(quoted(it) if rng.random() < 0.95 else b'"' + it.replace(b'"', b'""') + b'"'
                          for it in fields)
        book += end * rng.choice((1, 1, 1, 1, 2, 3))
    book = bytearray(book)
    for _ in range(rng.choice((0, 0, 0, 1, 2, 5))):
        if book:
            at = rng.randrange(len(book))
            book[at:at + rng.randrange(2)] = bytes((rng.choice(b'",\r\n \xff\xc3;\t"0a-') if rng.random() < 0.8
                                                    else rng.randrange(256),))
    return bytes(book)


def many_rows(rng):
    """Returns a book with about as many rows, or cells, as one may have."""
    cells = b"".join(b"cell,1,%d\n" % it for it in range(rng.randrange(60, 70)))
    rows = rng.randrange(4000, 4100)
    return cells + b"write,0,a,1,0,1,en,2,2,0,*,One\n" + b"stop,1,a,*\n" * rows + b"sell\n" * rng.randrange(3)


def many_cells(rng):
    """Returns a network book with about as many cells, or other rows, as one may have."""
    cells = b"".join(b"cell,%d,%d\n" % (it >> 8, it & 255) for it in range(rng.randrange(65_530, 65_540)))
    rows = rng.randrange(4090, 4100)
    return cells + b"write,0,a,1,0,1,en,2,2,0,*,One\n" + b"stop,1,a,0-7 255-0\n" * rows + b"cell,999,1\ncell\nsell\n"


def random_book(rng, run, network):
    if run % 50 == 49:
        return many_cells(rng) if network and run % 100 == 99 else many_rows(rng)
    rows = random_rows(rng)
    if run % 4:
        spoil(rng, rows)
    return octets_of(rng, rows)


def compare(program, runs):
    faulty = 0
    for run in range(runs):
        rng = random.Random(run)
        network = run % 3 == 0
        group = rng.choice((None, 0, 0, 1, 1023)) if network else None
        book = random_book(rng, run, network)
        table, count, groups = check(book, network)
        line = b"warnc: row 0: too many rows\n" if count is None else b"warnc: faults: %d\n" % count if count else b""
        if group is not None and count == 0 and group >= groups:
            table, line = b"", b"warnc: no such group: the network has %d\n" % groups
        words = ["--group", str(group)] if group is not None else ["--network"] if network else []
        found = subprocess.run([program, "check", *words], input=book, capture_output=True, check=False)
        if (found.returncode, found.stdout, found.stderr) != (bool(line), table, line):
            with open("differing.csv", "wb") as file:
                file.write(book)
            got, wanted = found.stdout.decode(errors="replace"), table.decode(errors="replace")
            sys.exit(f"run {run}: {words}: the book in differing.csv: {found.returncode} {found.stderr.decode()}\n{got}"
                     f"and not {line.decode()}\n{wanted}")
        faulty += bool(count)
    print(f"{runs} books, {faulty} of them with faults: the same tables")


def main():
    words = sys.argv[1:]
    if words == ["--table"]:
        table, count, _ = check(sys.stdin.buffer.read())
        sys.stdout.buffer.write(table)
        sys.exit(count != 0)
    if not 1 <= len(words) <= 2 or words[0].startswith("-") or not words[-1 if len(words) == 2 else 0]:
        print(__doc__.strip())
        sys.exit(words not in (["--help"], ["-h"]))
    compare(words[0], int(words[1]) if len(words) == 2 else 400)


if __name__ == "__main__":
    main()
