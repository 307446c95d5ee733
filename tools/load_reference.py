#!/usr/bin/env python3
"""The loads of cells as docs/formats.md says: a second program against which `warnc load` is compared, also with
`--group`, `--network` and `--start`. Which messages a cell accepted, and from which slot on, it takes from `warnc
report`; what they reserve it finds by itself (remarks_reference.py). `chart --tables` is compared with what `report
--full`, `load` and `chart` write.

Usage: load_reference.py PROGRAM [RUNS]    random books and networks, as those of remarks_reference.py. PROGRAM is a
                                           built `warnc`
"""
import random
import sys

import books
from random_runs import judged
from remarks_reference import hundredths, random_book, reported_in, run, walked
from report_reference import random_start, time_of

COLUMNS = "lac ci slot share fullest".split()


def lines_of(walk, cell):
    """Yields the fields of the lines of a cell: of slot 0, and of each slot with another load than the one before."""
    loads = walk.loads()
    for slot, load in enumerate(loads):
        if slot == 0 or load != loads[slot - 1]:
            yield [*cell, slot, hundredths(load), "yes" if slot == loads.index(max(loads)) else ""]


def fields_of(program, octets, rows, slots, group):
    """Returns the fields of the lines of a book, or of the group of this number of a network."""
    wanted = [] if group is None else ["--group", str(group)]
    report = run(program, ["report", "--slots", str(slots), *wanted], octets).stdout.decode()
    names = "" if group in (None, 0) else run(program, ["report", "--slots", "1"], b"").stdout.decode()
    walks, _ = walked(rows, reported_in(rows, names + report, group), slots)
    return [line for cell, walk in walks.items() for line in lines_of(walk, cell)]


def table_of(lines, headed, start):
    """Returns a table of these lines, with times where there is a start."""
    names = [[*COLUMNS, *(["time"] if start is not None else [])]] if headed else []
    timed = [[*line, *([time_of(start, line[2])] if start is not None else [])] for line in lines]
    return "".join(books.line(it) for it in [*names, *timed])


def named(name, text):
    return f"{name} {len(text)}\n".encode() + text


def joins(program, octets, words):
    """Whether `chart --tables` writes what three commands do."""
    commands = ["report", "--full"], ["load"], ["chart"]
    full, load, chart = (run(program, [*it, *words], octets).stdout for it in commands)
    made = run(program, ["chart", "--tables", *words], octets)
    return (made.stdout, made.returncode) == (
        named("report", full) + named("load", load) + named("chart", chart), 0)


def differs(program, seed):
    """Whether both programs write different tables in this run."""
    rng = random.Random(seed)
    network = seed % 3 == 2
    rows = random_book(rng, network)
    octets = "".join(books.cell_line(it) if isinstance(it, tuple) else it.line() for it in rows).encode()
    slots, part, groups = rng.randrange(1, 60), [], [None]
    if network:
        count = -(-sum(isinstance(it, tuple) for it in rows) // books.GROUP)
        group = rng.randrange(count)
        part, groups = rng.choice(((["--network"], range(count)), (["--group", str(group)], [group])))
    lines = [line for group in groups for line in fields_of(program, octets, rows, slots, group)]
    start, time = random_start(rng)
    words = ["--slots", str(slots), *part]
    headed = groups[0] in (None, 0)
    wanted = [table_of(lines, headed, it).encode() for it in (None, start)]
    made = [run(program, ["load", *words, *it], octets) for it in ([], ["--start", time], ["--workers", "3"])]
    if [(it.stdout, it.stderr, it.returncode) for it in made] == [(it, b"", 0) for it in [*wanted, wanted[0]]] \
            and (part == ["--network"] or joins(program, octets, [*words, "--start", time])):
        return False
    print(f"run {seed}, {words}, {time}:\n{octets.decode()}{wanted[0].decode()}{made[0].stdout.decode()}"
          f"{made[0].stderr.decode()}")
    return True


if __name__ == "__main__":
    sys.exit(judged("load_reference", __doc__, sys.argv[1:], differs, 1500))
