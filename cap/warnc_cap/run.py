"""Runs of a book by the program: what becomes of each row, and what `check` remarks.

What a cell does depends on its own rows alone. So of the cells that have the same rows one is run, and each run has as
many cells as a book. A cell whose rows were run before isn't run again.
"""
import csv
import io
import os
from concurrent.futures import ThreadPoolExecutor
from dataclasses import dataclass, field

from .plan import MOST_CELLS
from .text import NoProgram, run

# What a BSC says of an order that it refuses (3GPP TS 48.049, 8.2.3, Cause), as far as a book can have it.
CAUSES = {"02": "message reference not identified", "06": "BSC capacity exceeded", "0a": "past the end of the run",
          "0d": "message reference already used"}
STOP = "stop"
# Remarks that become no note: refusals are told by their causes, a message that is never shown has nothing under
# `first_shown` of the receipt, and the texts of messages go out as their senders wrote them. Nor is a cell that gets
# nothing a note: a warning is for some cells, and all others would be named each time; nor how full a cell gets.
PASSED_OVER = ("refused in ", "never shown in ", "UCS-2 because of ")
# so many cells that refuse most are run until they settle, before all are
MOST_CROWDED = 4 * MOST_CELLS


@dataclass
class Outcome:
    """What becomes of a row in its cells: how many do it, and how many refuse it by cause; of a text how many pages it
    has, after which slots the first and the last phone show it, and in how many cells none does."""

    done: int = 0
    refused: dict = field(default_factory=dict)
    pages: str = ""
    first: int = None
    last: int = None
    unshown: int = 0

    def add(self, cause, pages, shown, cells):
        """Adds what became of it in a number of cells that are alike."""
        self.pages = self.pages or pages
        if cause:
            self.refused[cause] = self.refused.get(cause, 0) + cells
            return
        self.done += cells
        if shown is None:
            self.unshown += cells
        else:
            self.first = shown if self.first is None else min(self.first, shown)
            self.last = shown if self.last is None else max(self.last, shown)


@dataclass
class Remarks:
    """What `check` says of a row: the cells that it leaves out, the slot at which it is done at last, and the rest."""

    left_out: list = field(default_factory=list)
    done: int = 0
    others: dict = field(default_factory=dict)


@dataclass
class Part:
    """A book of some cells: its octets, the places that its rows have in the whole book, and its cells, each with those
    that it stands for."""

    octets: bytes
    places: list
    cells: dict

    def place(self, number):
        """Returns the place of a row in the whole book by its number here, or None if it is none."""
        at = int(number or 0) - 1 - len(self.cells)
        return self.places[at] if 0 <= at < len(self.places) else None


def key_of(row):
    """Returns by what a row is known in a report: its code, and its update number, or that it is a stop."""
    return row.item.code, STOP if row.verb == "stop" else row.number


def table_of(octets):
    """Returns the rows of a table that the program writes, behind the names of its columns. A name may be long."""
    before = csv.field_size_limit(len(octets) + 1)
    try:
        return list(csv.reader(io.StringIO(octets.decode(), newline="")))[1:]
    finally:
        csv.field_size_limit(before)


def alike(plan, rows, chosen=None):
    """Returns the names of cells by the places of the rows that they have; of all cells, or of some."""
    places, having, found = {}, {it: [] for it in (plan.order if chosen is None else chosen)}, {}
    for place, row in enumerate(rows):
        places.setdefault(row.item.cells, []).append(place)
    every = list(places.values())
    for at, cells in enumerate(places):
        for name in cells if chosen is None else cells.intersection(having):
            having[name].append(at)
    for name, sets in having.items():
        found.setdefault(tuple(sets), []).append(name)
    return {tuple(sorted(place for at in sets for place in every[at])): names for sets, names in found.items()}


def part_of(plan, rows, chosen):
    """Returns a book of the first of each of some lists of cells, which are given by the places of their rows."""
    cells = {}
    for places, names in chosen:
        for it in places:
            cells.setdefault(it, []).append(names[0])
    kept = sorted(cells)
    lines = [f"cell,{names[0].replace('-', ',')}\n" for _, names in chosen]
    lines += [plan.line(rows[it], " ".join(cells[it])) for it in kept]
    return Part("".join(lines).encode(), kept, {names[0]: names for _, names in chosen})


def parts_of(plan, rows, chosen):
    """Returns books as part_of does, each of as many cells as a book may have."""
    return [part_of(plan, rows, chosen[it:it + MOST_CELLS]) for it in range(0, len(chosen), MOST_CELLS)]


class Runner:
    """The program, a number of slots, and what became of the rows of cells that were run."""

    def __init__(self, program, slots):
        self.program, self.slots = program, slots
        # a cell without rows does nothing
        self.known, self.words = {(): {}}, {}
        # the cells that refused most when all were run, one of those that are alike
        self.crowded = []

    def every(self, function, parts):
        """Returns what a function makes of each part, several side by side."""
        with ThreadPoolExecutor(len(os.sched_getaffinity(0))) as pool:
            return list(pool.map(function, parts))

    def said(self, words, book):
        """Returns the rows of the table that a command writes of a book."""
        status, table, fault = run(self.program, [*words, "--slots", str(self.slots)], book)
        if status:
            raise NoProgram(f"{self.program} {words[0]}: {fault or f'status {status}'}")
        return table_of(table)

    # --- report ---

    def outcomes(self, plan, rows, chosen=None):
        """Returns what becomes of the rows of a book, by code and update number; in all cells, or in some."""
        texts = [self.words.setdefault(plan.line(it, "*"), len(self.words)) for it in rows]
        cells = [(places, names, tuple(texts[it] for it in places))
                 for places, names in alike(plan, rows, chosen).items()]
        new = [it for it in cells if it[2] not in self.known]
        found = {}
        for it in self.every(self.reported, parts_of(plan, rows, [it[:2] for it in new])):
            found.update(it)
        self.known.update({key: found[names[0]] for _, names, key in new})
        if chosen is None:
            refusals = [(sum(bool(it[0]) for it in self.known[key].values()), names[0]) for _, names, key in cells]
            self.crowded = [name for count, name in sorted(refusals, reverse=True)[:MOST_CROWDED] if count]
        made = {}
        for _, names, key in cells:
            for which, (cause, pages, shown) in self.known[key].items():
                made.setdefault(which, Outcome()).add(cause, pages, shown, len(names))
        return made

    def reported(self, part):
        """Runs some cells, and returns what became of the rows of each, by code and update number."""
        found = {name: {} for name in part.cells}
        for _, _, *row in self.said(["report", "--full"], part.octets):
            serial, pages = int(row[3], 16), row[9]
            cause = row[7].removeprefix("refused ") if row[7].startswith("refused ") else ""
            # a stop has no pages
            which = (serial >> 4 & 1023, serial & 15 if pages else STOP)
            found[f"{row[0]}-{row[1]}"][which] = (cause, pages, int(row[8]) if row[8] else None)
        return found

    # --- check ---

    def remarks(self, plan, rows, book):
        """Returns what `check` remarks of the rows of a book, by their places."""
        if len(plan.cells) <= MOST_CELLS:
            parts = [Part(book, range(len(rows)), {it.name: [it.name] for it in plan.cells})]
        else:
            status, _, fault = run(self.program, ["groups"], book)
            if status:
                raise NoProgram(f"{self.program} groups: {fault or f'status {status}'}")
            parts = parts_of(plan, rows, list(alike(plan, rows).items()))
        made = {}
        for part, said in zip(parts, self.every(lambda it: self.checked(plan, rows, it), parts)):
            gather(made, rows, part, said)
        return made

    def checked(self, plan, rows, part):
        """Returns what `check` remarks of a part of a book: the place of each row, and what is said. A fault is one of
        this program."""
        status, table, fault = run(self.program, ["check", "--slots", str(self.slots)], part.octets)
        lines = table_of(table)
        if status:
            at = part.place(lines[0][0]) if lines else None
            row = f": {lines[0][5]}: {' '.join(plan.line(rows[at])[:200].split())}" if at is not None else ""
            raise NoProgram(f"{self.program} check: {fault or f'status {status}'}{row}")
        return [(part.place(it[0]), it[3]) for it in lines if it[0]]


def gather(made, rows, part, said):
    """Adds what `check` says of a part of a book to what it remarks of the whole rows."""
    names = part.cells
    for place, what in said:
        one = made.setdefault(place, Remarks())
        if what.startswith("leaves out "):
            one.left_out += [it for name in what.split(" ")[2:] for it in names[name]]
        elif what == "orders nothing":
            one.left_out += [it for name, every in names.items() if name in rows[place].item.cells for it in every]
        elif what.startswith("done at slot "):
            one.done = max(one.done, int(what.rpartition(" ")[2]))
        elif not what.startswith(PASSED_OVER):
            one.others[what] = True
