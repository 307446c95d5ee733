"""What messages come to, one after the other: warnings, their names, and the rows of a book."""
import functools
import math
from dataclasses import dataclass, field
from fractions import Fraction

from .message import Wrong, shown
from .place import places_of
from .text import csv_row, language_of

SLOT = Fraction(8 * 51 * 120, 26_000)  # seconds
MOST_CODE, MOST_BROADCASTS, MOST_UPDATES = 1023, 65535, 15
# the cells, rows and octets of a book, the octets of a network book, and those of a cell's name and the space after it
MOST_CELLS, MOST_ROWS, MOST_OCTETS, MOST_NETWORK_OCTETS, CELL_OCTETS = 64, 4096, 16_777_216, 67_108_864, 12
PUBLIC_SAFETY, PRESIDENTIAL, ABDUCTION, TEST, EXERCISE = 4396, 4370, 4379, 4380, 4381
# The identifiers of threats, by severity, urgency and certainty.
THREATS = {
    (severity, urgency, certainty): 4371 + 4 * s + 2 * u + c
    for s, severity in enumerate(("Extreme", "Severe"))
    for u, urgency in enumerate(("Immediate", "Expected"))
    for c, certainty in enumerate(("Observed", "Likely"))
}
# Those of another language than the first, where they aren't 13 more.
OTHER_LANGUAGE = {PUBLIC_SAFETY: 4397}


@dataclass
class Row:
    """A row of the book. Its slot may lie before the run or past it."""

    slot: int
    verb: str
    item: "Item"
    broadcasts: int
    # the slot from which what it puts on the air is no longer there, and whether that is over before the run begins
    until: float
    over: bool
    text: str = ""
    # the update number that it has, or in which it stops its item, and the info that it puts on the air
    number: int = 0
    info: tuple = None
    # whether the program refuses it in all its cells
    refused: bool = False

    def key(self):
        """Returns what tells it apart from all others in all books: the info that it puts on the air, or what it stops.
        """
        return f"stop {self.item.name}" if self.verb == "stop" else "/".join(map(str, self.info))

    def octets(self):
        """Returns how many octets it has at most."""
        return self.item.octets + self.item.cells_octets + octets_of(self.text)


@dataclass
class Item:
    """A name of the book: a message on the air in one language, and its updates."""

    name: str
    identifier: int
    code: int
    language: str
    cells: frozenset
    arrival: int
    period: int
    category: int
    rows: list = field(default_factory=list)
    # how many octets its rows have at most beside their texts: of its cells, and of the rest
    cells_octets: int = 0
    octets: int = 0
    # whether what it takes the place of is stopped for it
    follows: bool = False

    def last(self):
        """Returns the last row that isn't refused, or None."""
        return next((it for it in reversed(self.rows) if not it.refused), None)

    def is_there(self, slot):
        """Whether it is on the air in a slot, by its last row."""
        last = self.last()
        return last is not None and last.until > slot

    def updates(self):
        return sum(it.verb == "update" for it in self.rows)

    def put(self, verb, slot, part, refused):
        """Adds a row that puts a part on the air; of what is refused, names and update numbers are given."""
        number = self.updates() + 1 if verb == "update" else 0
        self.rows.append(Row(slot, verb, self, *lasting(part.end, slot, self.period), part.text, number, part.key,
                             (self.name, number) in refused))

    def stop(self, slot):
        self.rows.append(Row(slot, "stop", self, 0, slot, slot <= 0, number=self.updates()))


@dataclass
class Chain:
    """What belongs together: a message, and those that update it, one after the other."""

    items: list = field(default_factory=list)
    # the senders and identifiers of its messages
    keys: list = field(default_factory=list)

    def weight(self):
        """Returns how many rows it has, and how many octets they have at most."""
        rows = [it for item in self.items for it in item.rows]
        return len(rows), sum(it.octets() for it in rows)


@dataclass
class Part:
    """An info that is to be on the air."""

    # its sender, its message's identifier, and its number
    key: tuple
    identifier: int
    language: str
    cells: frozenset
    slot: int
    # the slot at which it expires, if it does
    end: int
    text: str

    def is_dead(self):
        """Whether it expires before it begins."""
        return self.end is not None and self.end < self.slot


def lasting(end, slot, period):
    """Returns of a row that begins in a slot how many broadcasts it has, from which slot it is no longer there, and
    whether it is over before the run begins. What began before the run has those that are left then."""
    if end is None:
        return 0, math.inf, False
    if slot < 0 and end <= 0:
        return 1, min(0, slot + max(1, math.ceil(Fraction(end - slot, period))) * period), True
    begin = max(slot, 0)
    count = max(1, math.ceil(Fraction(end - begin, period)))
    return (0, math.inf, False) if count > MOST_BROADCASTS else (count, begin + count * period, False)


@functools.lru_cache(maxsize=None)
def octets_of(words):
    """Returns how many octets words have as a field of CSV, at most."""
    return len(words.encode()) + words.count('"') + 2


def key_of(info):
    """Returns what tells the languages of a message apart."""
    word, own = language_of(info)
    return own if word == "und" else word


def slot_at(time, start):
    """Returns the first slot that begins at a time or later."""
    return math.ceil((time - start) / SLOT)


class Plan:
    """The rows of a book, as messages come."""

    def __init__(self, options, policy, cells, codes, plan_map, known_codes=()):
        self.options, self.policy, self.cells, self.codes, self.map = options, policy, cells, codes, plan_map
        self.order = {it.name: at for at, it in enumerate(cells)}
        self.by_code = {}
        for cell in cells:
            for name, values in cell.codes.items():
                for value in values:
                    self.by_code.setdefault((name, value), set()).add(cell.name)
        # what the program refuses in all its cells, by name and update number; the writes that wait for what they
        # follow, with the slots at which they don't
        self.refused, self.moved = set(), {}
        # the codes that names have had before
        self.known_codes = dict(known_codes)
        # where the infos of each message are to be on the air, all sets of cells, and cells as the book has them
        self.places, self.sets, self.fields = {}, {}, {}
        self.begin()

    def begin(self):
        """Forgets what was planned."""
        self.chains, self.items, self.notes, self.without_cells = {}, [], {}, False
        # the messages that count, and how many rows and at most octets all that is planned has
        self.taken, self.weight = set(), (0, 0)
        self.given = dict(self.known_codes)
        # a sender or an identifier may have a slash, as names of the book have
        self.named = {}

    def anew(self):
        """Returns an empty plan for the same cells."""
        other = Plan(self.options, self.policy, self.cells, self.codes, self.map, self.known_codes)
        other.places, other.sets, other.fields = self.places, self.sets, self.fields
        return other

    def one_of(self, cells):
        """Returns a set of cells; of those that are equal always the same."""
        return self.sets.setdefault(cells, cells)

    def note(self, file, element, what):
        self.notes[f"note: {file}: {element}: {what}"] = True

    # --- Infos ---

    def identifier_of(self, message, info, is_first):
        """Returns the message identifier of an info (3GPP TS 23.041, 9.4.1.2.2)."""
        threat = (info.severity, info.urgency, info.certainty)
        if message.status == "Test":
            found = TEST
        elif message.status == "Exercise":
            found = EXERCISE
        elif message.identifier in self.options.presidential:
            found = PRESIDENTIAL
        elif ("SAME", "CAE") in info.codes:
            found = ABDUCTION
        else:
            found = THREATS.get(threat, PUBLIC_SAFETY)
        return found if is_first else OTHER_LANGUAGE.get(found, found + 13)

    def places_of(self, message):
        """Returns where each info of a message is to be on the air; raises what is wrong with its areas."""
        key = (message.sender, message.identifier)
        if key not in self.places:
            self.places[key] = places_of(message, self)
        if isinstance(self.places[key], Wrong):
            raise self.places[key]
        return self.places[key]

    def end_of(self, message, info, slot, period):
        """Returns the slot at which an info expires, if it does, and tells what is odd about it."""
        element = f"info {info.number}: expires"
        if info.expires is None:
            self.note(message.file, element, "it isn't there, so the warning stays until it is stopped")
            return None
        end = slot_at(info.expires, self.options.start)
        if end < slot:
            self.note(message.file, element, "it lies before the warning begins: passed over")
        elif lasting(end, slot, period)[1] == math.inf:
            self.note(message.file, element, f"it takes over {MOST_BROADCASTS} broadcasts: it stays until its stop")
        return end

    def parts_of(self, message, prepared):
        """Returns the infos of a message that are to be on the air."""
        parts, first = [], key_of(message.infos[0])
        for info, place in zip(message.infos, self.places_of(message)):
            element = f"info {info.number}"
            if place.lacking:
                names = shown(" or ".join(place.lacking))
                self.note(message.file, f"{element}: geocode", f"the cells have no column {names}")
            if not place.cells:
                self.note(message.file, f"{element}: area", "no cell comes into it")
                self.without_cells = True
                continue
            word, own = language_of(info)
            if word == "und" and own != "und":
                self.note(message.file, f"{element}: language", f"'{shown(info.language)}' has no value: und")
            key = (message.sender, message.identifier, info.number)
            for it in prepared[key].notes:
                self.note(message.file, element, it)
            identifier = self.identifier_of(message, info, key_of(info) == first)
            begin = message.sent if info.effective is None else max(info.effective, message.sent)
            slot = slot_at(begin, self.options.start)
            end = self.end_of(message, info, slot, self.policy[identifier].period)
            parts.append(Part(key, identifier, word, place.cells, slot, end, prepared[key].text))
        return parts

    # --- Messages ---

    def take(self, message, prepared):
        """Takes a message: its rows are planned. If it is wrong, nothing is changed."""
        if self.passed_over(message):
            return
        key, name = (message.sender, message.identifier), f"{message.sender}/{message.identifier}"
        if self.named.setdefault(name, key) != key:
            raise Wrong("identifier", f"another message has the name {shown(name)} in the book")
        parts = [] if message.kind == "Cancel" else self.parts_of(message, prepared)
        found = self.chains_of(message)
        chain = Chain([it for one in found for it in one.items], [it for one in found for it in one.keys])
        kept, count, given = [(it, list(it.rows)) for it in chain.items], len(self.items), dict(self.given)
        before, weight = chain.weight(), self.weight
        if found or message.kind != "Cancel":
            self.carry_out(message, chain, parts)
        self.weight = tuple(total + new - old for total, new, old in zip(weight, chain.weight(), before))
        lacking = self.lacks()
        if lacking:
            del self.items[count:]
            self.given, self.weight = given, weight
            for it, rows in kept:
                it.rows = rows
            raise Wrong("identifier", lacking)
        if message.kind != "Cancel":
            chain.keys.append(key)
            self.taken.add(key)
        self.chains.update(dict.fromkeys(chain.keys, chain))

    def carry_out(self, message, chain, parts):
        """Plans the rows of a message that belongs to a chain."""
        now = slot_at(message.sent, self.options.start)
        self.withdraw(message, chain, now)
        if message.kind == "Cancel":
            self.cancel(message, chain, now)
        else:
            self.follow(message, chain, parts, now)

    def lacks(self):
        """Returns what the book lacks for all that is planned, if it does."""
        if max(self.given.values(), default=0) > MOST_CODE:
            return f"there are {MOST_CODE} warnings already, as many as there are codes"
        rows, octets = self.weight
        # rows that don't stand in the book count here, so there may still be room
        if rows > MOST_ROWS - MOST_CELLS or octets > MOST_OCTETS // 2:
            return self.lacks_room(list(self.standing()))
        return None

    def lacks_room(self, rows):
        """Returns what the book lacks for rows, if it does. A network's book has no more rows than one of a group."""
        most, is_network = MOST_ROWS - min(len(self.cells), MOST_CELLS), len(self.cells) > MOST_CELLS
        cells, every = sum(len(it.row) + 1 for it in self.cells), sum(it.octets() for it in rows)
        group = sum(it.octets() - max(0, it.item.cells_octets - MOST_CELLS * CELL_OCTETS) for it in rows)
        if len(rows) > most:
            return f"there are {most:,} rows already, as many as a book has"
        if cells + every > (MOST_NETWORK_OCTETS if is_network else MOST_OCTETS):
            return "the book has as many octets already as it may"
        if is_network and MOST_CELLS * (CELL_OCTETS + 5) + group > MOST_OCTETS:
            return "the book of a group of cells has as many octets already as it may"
        return None

    def passed_over(self, message):
        """Whether a message is passed over, which is told."""
        wants_tests = self.options.tests
        if message.status in ("System", "Draft") or message.status in ("Test", "Exercise") and not wants_tests:
            self.note(message.file, "status", f"{message.status}: passed over")
        elif message.scope != "Public":
            self.note(message.file, "scope", f"{message.scope}: passed over")
        elif message.kind in ("Ack", "Error"):
            self.note(message.file, "msgType", f"{message.kind}: passed over")
        else:
            return False
        return True

    def chains_of(self, message):
        """Returns the chains that a message belongs to."""
        if message.kind == "Alert":
            return []
        found = []
        for it in message.references:
            chain = self.chains.get(it)
            if chain and not any(chain is other for other in found):
                found.append(chain)
        if not found:
            what = "passed over" if message.kind == "Cancel" else "taken as an Alert"
            self.note(message.file, "references", f"no message that is known: {what}")
        return found

    def withdraw(self, message, chain, now):
        """Takes away the rows of a chain that haven't begun."""
        for item in chain.items:
            late = [it for it in item.rows if it.slot >= now]
            if late:
                item.rows = [it for it in item.rows if it.slot < now]
                self.note(message.file, "references", f"{item.name}: what hasn't begun is withdrawn")

    def cancel(self, message, chain, now):
        """Stops all of a chain that is there."""
        there = [it for it in chain.items if it.is_there(now)]
        if not there:
            self.note(message.file, "references", "nothing of it is on the air")
        for item in there:
            item.stop(now)

    def follow(self, message, chain, parts, now):
        """Plans an alert or an update: what is on the air with the same identifier, cells and language is updated,
        other messages of the chain are stopped, and the rest is written."""
        left = [it for it in chain.items if it.is_there(now)]
        writes = []
        for part in parts:
            item = next((it for it in left if self.goes_on(it, part)), None)
            if item is None:
                writes.append(part)
                continue
            left.remove(item)
            item.put("update", part.slot, part, self.refused)
        made = [self.write(message, chain, part, left) for part in writes]
        starts = [it.rows[0].slot for it in made if it.rows]
        for item in left:
            slot = max(now, min(starts, default=now))
            if item.is_there(slot):
                item.stop(slot)

    def goes_on(self, item, part):
        """Whether a part is an update of what is on the air."""
        same = (item.identifier, item.cells, item.language) == (part.identifier, part.cells, part.language)
        return same and item.is_there(part.slot) and item.updates() < MOST_UPDATES and not part.is_dead()

    def write(self, message, chain, part, stopped):
        """Plans a new name of the book."""
        policy = self.policy[part.identifier]
        name = f"{message.sender}/{message.identifier}/{part.key[2]}"
        code = self.given.setdefault(name, max(self.given.values(), default=0) + 1)
        item = Item(name, part.identifier, code, part.language, part.cells, len(self.items), policy.period,
                    policy.category)
        item.cells_octets, item.octets = len(self.cells_field(item)), 60 + octets_of(name)
        self.items.append(item)
        chain.items.append(item)
        item.follows = bool(stopped)
        if not part.is_dead():
            item.put("write", self.slot_with_room(message, item, part, stopped), part, self.refused)
        return item

    def slot_with_room(self, message, item, part, stopped):
        """Returns the slot of a write: that of its part, or if there is no room then, that at which what it takes the
        place of has left."""
        if item.name not in self.moved:
            return part.slot
        begins = [(it.last().slot, it.period) for it in stopped]
        ends = [slot + math.ceil(Fraction(part.slot - slot, period)) * period
                for slot, period in begins if slot <= part.slot]
        slot = max(ends, default=part.slot)
        if slot > part.slot:
            self.note(message.file, f"info {part.key[2]}", f"it has no room before slot {slot}, and begins then")
        return slot

    # --- Rows ---

    def keys(self):
        """Returns the keys of all rows that are planned, in the book or not."""
        return {it.key() for item in self.items for it in item.rows}

    def standing(self):
        """Yields the rows that the book has, or would have if its run were longer."""
        for item in self.items:
            if item.rows and item.rows[-1].until > 0:
                # what phones have had before the run stays, up to what is on the air
                last = max((at for at, it in enumerate(item.rows) if not it.over), default=-1)
                yield from item.rows[:last + 1]

    def rows(self):
        """Returns the rows of the book, in their order."""
        found = []
        for it in self.standing():
            if max(it.slot, 0) < self.options.slots:
                found.append(it)
            else:
                self.note(it.item.name, it.verb, f"slot {it.slot} is past the end of the run")
        return sorted(found, key=lambda it: (max(it.slot, 0), it.verb != "stop", it.item.identifier, it.item.arrival))

    def cells_field(self, item):
        """Returns the cells of an item as the book has them."""
        if item.cells not in self.fields:
            every = len(item.cells) == len(self.cells)
            self.fields[item.cells] = "*" if every else " ".join(sorted(item.cells, key=self.order.get))
        return self.fields[item.cells]

    def line(self, row, cells=None):
        """Returns a row as CSV; with cells in the place of its own, if they are given."""
        item, slot, cells = row.item, max(row.slot, 0), cells or self.cells_field(row.item)
        what = [item.language, item.category, item.period, row.broadcasts, cells, row.text]
        if row.verb == "write":
            return csv_row(["write", slot, item.name, item.identifier, 1, item.code, *what])
        if row.verb == "update":
            return csv_row(["update", slot, item.name, *what])
        return csv_row(["stop", slot, item.name, cells])
