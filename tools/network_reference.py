#!/usr/bin/env python3
"""Splits network books into plain books, as docs/formats.md says what a group has, and compares what another program
makes of these with the groups' outputs, joined in order, and with what `--network` writes at once.

Usage: network_reference.py PROGRAM REFERENCE [NETWORKS]    300 random networks if no number is given. PROGRAM is a
                                                            built `warnc`; REFERENCE takes plain books alone, as `warnc`
                                                            does: `compile` and `report`

A row with no cell of a group orders nothing there, but its name and its update count. A plain book can't say so: so
each has one more cell, of which nothing is compared, and which such rows are for; and a group of 64 cells is two plain
books of 32.
"""
import dataclasses
import itertools
import random
import subprocess
import sys

import books
import gsm

SLOTS = 64
HALF = 32
SPARE = (65535, 65535)
TEXTS = ("Stay in!", "Go up to the roof " * 6, "Вода", "a" * 93 + "{", "@", "x" * 186)


def random_network(rng):
    """Returns the rows of a network book: cells, as pairs of LAC and CI, and orders."""
    left = rng.sample([(lac, ci) for lac in range(1, 9) for ci in range(100)], rng.randrange(1, 701))
    kinds = ["cell"] * len(left) + ["order"] * rng.randrange(0, 40)
    if rng.random() < 0.7:
        kinds.sort()
    else:
        rng.shuffle(kinds)
    declared, rows = [], []
    orders = books.random_orders(
        rng, itertools.accumulate(rng.randrange(0, 4) for _ in kinds),
        lambda number: books.Alert(f"a{number}", rng.randrange(0, 65536), 1, number),
        lambda: books.Sending(rng.choice(("en", "ru")), rng.randrange(0, 3), rng.choice((1, 2, 4, 8, 30)),
                              rng.randrange(0, 4), rng.choice(TEXTS)),
        lambda: None if rng.random() < 0.3
        else rng.sample(declared, min(len(declared), rng.choice((1, 2, 7, 40)))))
    for kind in kinds:
        if kind == "cell":
            declared.append(left.pop())
            rows.append(declared[-1])
        elif declared:
            rows.append(next(orders))
    return rows


def network_text(rows):
    """Returns the network book."""
    return "".join(it.line() if isinstance(it, books.Order) else books.cell_line(it) for it in rows)


def plain_text(rows, own):
    """Returns the plain book of some cells, and of the spare one."""
    lines, declared, here = [books.cell_line(it) for it in own + [SPARE]], [], set(own)
    for row in rows:
        if not isinstance(row, books.Order):
            declared.append(row)
            continue
        kept = [it for it in (declared if row.cells is None else row.cells) if it in here]
        lines.append(dataclasses.replace(row, cells=kept or [SPARE]).line())
    return "".join(lines)


def ran(program, words, book):
    """Returns what a program writes for a book; it has to end with status 0."""
    done = subprocess.run([program, *words], input=book.encode(), capture_output=True, check=False)
    if done.returncode != 0:
        sys.exit(f"{program} {' '.join(words)}: status {done.returncode}: {done.stderr.decode()}{book}")
    return done.stdout


def has_all(program, command, network, groups, output):
    """Returns whether the outputs of all groups, one after the other, are this, and so is that of the whole network."""
    words = [command, "--slots", str(SLOTS)]
    return (b"".join(ran(program, [*words, "--group", str(it)], network) for it in range(groups)) == output
            and ran(program, [*words, "--network", "--workers", "3"], network) == output)


def wanted(reference, rows, cells):
    """Returns the report and the tapes of all cells, by plain books."""
    report, tapes = b"lac,ci,id,serial,start,end,completed,shown\n", b""
    spare = f"{SPARE[0]},{SPARE[1]},".encode()
    size = gsm.size_of_tape(SLOTS)
    for first in range(0, len(cells), HALF):
        own = cells[first:first + HALF]
        book = plain_text(rows, own)
        lines = ran(reference, ["report", "--slots", str(SLOTS)], book).splitlines(True)[1:]
        report += b"".join(it for it in lines if not it.startswith(spare))
        tapes += ran(reference, ["compile", "--slots", str(SLOTS)], book)[:size * len(own)]
    return report, tapes


def main():
    if len(sys.argv) not in (3, 4) or sys.argv[1].startswith("-"):
        print(__doc__, end="")
        sys.exit(0 if sys.argv[1:] in (["-h"], ["--help"]) else 2)
    program, reference = sys.argv[1:3]
    differing, most = 0, int(sys.argv[3]) if len(sys.argv) == 4 else 300
    for seed in range(most):
        rows = random_network(random.Random(seed))
        network = network_text(rows)
        cells = [it for it in rows if not isinstance(it, books.Order)]
        groups = int(ran(program, ["groups"], network))
        report, tapes = wanted(reference, rows, cells)
        alike = (groups == max(1, -(-len(cells) // books.GROUP))
                 and has_all(program, "report", network, groups, report)
                 and has_all(program, "compile", network, groups, tapes))
        if not alike:
            differing += 1
            print(f"network {seed} differs: {len(cells)} cells, {len(rows) - len(cells)} other rows")
    print(f"{most} networks, {differing} differ")
    sys.exit(differing != 0)


if __name__ == "__main__":
    main()
