"""Random days of messages, and what is on the air in each cell at each slot, found in another way than by warnc_cap.

The second program keeps what is on the air as intervals of slots; it reads no line of a book but to compare. Of
crowded days, whose warnings haven't all room, it is told what cells refuse, as `report` has it, and goes on from there.
Networks are run as a whole and group by group, and not one cell of those that are alike.
"""
import csv
import io
import math
import random
import subprocess
from dataclasses import dataclass, field
from fractions import Fraction
from types import SimpleNamespace

from warnc_cap import rounds
from warnc_cap.message import Area, Info, Message, Wrong
from warnc_cap.place import Cell, Map
from warnc_cap.plan import MOST_CODE, Plan
from warnc_cap.policy import DEFAULT, Policy
from warnc_cap.run import Runner, key_of
from warnc_cap.text import Prepared, prepare

SLOTS = 4096
# The kinds of warning of the days: severity, urgency, certainty, and the identifier and period that they come to.
KINDS = ((("Extreme", "Immediate", "Observed"), 4371, 64), (("Severe", "Expected", "Likely"), 4378, 128),
         (("Minor", "Past", "Unknown"), 4396, 512))
PLACES = {"a": "1-1", "b": "1-2", "c": "1-3"}
# A policy by which four warnings or less fill a cell.
CROWDED = {identifier + more: Policy(category, period, 2) for identifier, category, period in
           ((4371, 0, 4), (4378, 2, 3), (4396, 2, 4)) for more in (0, 1, 13)}
NETWORK = 150


@dataclass
class Interval:
    """A text on the air from a slot up to another; `cut` is where something else ends it."""

    identifier: int
    language: str
    cells: frozenset
    text: str
    begin: int
    until: float
    period: int
    updates: int = 0
    cut: float = math.inf
    gone: bool = False
    # the slots of updates of it that all cells refuse
    lost: list = field(default_factory=list)

    def end(self):
        return -math.inf if self.gone else min(self.until, self.cut)


# --- Random days ---


def random_info(rng, number, name, sent):
    threat, _, _ = rng.choice(KINDS)
    codes = rng.sample("abc", rng.choice((1, 1, 2, 3)))
    effective = rng.choice((None, None, None, sent + rng.randrange(-600, 3000)))
    expires = rng.choice((None, None, sent + rng.randrange(-300, 6000)))
    return Info(number, rng.choice(("", "en", "de", "de-AT")), "Flood", threat[1], threat[0], threat[2],
                effective and Fraction(effective), None if expires is None else Fraction(expires), [], {},
                f"{name} {number}", "", "", [Area([], [], [("Z", it) for it in codes])])


def random_day(rng):
    """Returns the messages of a day, in the order in which they count."""
    messages, sent = [], rng.choice((-3000, -300, 0))
    for at in range(rng.randrange(1, 14)):
        sent += rng.choice((1, 7, 60, 300, 600, 1200))
        kind = rng.choice(("Alert", "Alert", "Update", "Update", "Update", "Cancel")) if at else "Alert"
        names = [it.identifier for it in messages] + ["unknown"]
        references = [("w", it) for it in rng.sample(names, min(len(names), rng.choice((1, 1, 1, 2))))]
        infos = [random_info(rng, it + 1, f"M{at}", sent) for it in range(rng.choice((1, 1, 2)))]
        messages.append(Message(f"{at}.xml", f"M{at:02}", "w", Fraction(sent), "Actual", kind, "Public",
                                references if kind != "Alert" else [], infos if kind != "Cancel" else []))
    return messages


def crowded_day(seed):
    """Returns the messages of a day on which some texts have two pages, and many infos are alike but for them."""
    rng = random.Random(seed)
    messages = random_day(rng)
    for it in messages:
        for info in it.infos:
            info.headline += rng.choice(("", "", " and more" * 15))
            if rng.random() < 0.7:
                info.language, info.areas = "", [Area([], [], [("Z", "a")])]
    return messages


# --- What is on the air, by the messages ---


def slot_of(time):
    return math.ceil(time * 1300 / 2448)


def interval_of(message, info, first, policy, later=None):
    """Returns the interval of an info by itself, or None if it expires before it begins; with `later` it waits for
    that slot."""
    identifier = next(it[1] for it in KINDS if it[0] == (info.severity, info.urgency, info.certainty))
    period = policy[identifier].period
    begin = slot_of(max(message.sent, info.effective if info.effective is not None else message.sent))
    language = info.language[:2] or "en"
    if language != first:
        identifier += 1 if identifier == 4396 else 13
    until = math.inf
    if info.expires is not None:
        end = slot_of(info.expires)
        if end < begin:
            return None
        begin = later or begin
        from_slot = begin if begin >= 0 or end <= 0 else 0
        until = from_slot + max(1, math.ceil((end - from_slot) / period)) * period
        until = min(until, 0) if begin < 0 and end <= 0 else until
    cells = frozenset(PLACES[it] for _, it in info.areas[0].codes)
    return Interval(identifier, language, cells, info.headline, later or begin, until, period)


def free_slot(stopped, begin):
    """Returns the first slot at which those that are stopped for what begins in a slot have left."""
    slots = [begin]
    for it in stopped:
        slots.append(it.begin)
        while slots[-1] < begin:
            slots[-1] += it.period
    return max(slots)


def follow(chain, message, now, policy, dead, waiting):
    """Puts the infos of an alert or an update into the intervals of its chain."""
    first = message.infos[0].language[:2] or "en"
    made = [(it, interval_of(message, it, first, policy)) for it in message.infos]
    there = [it for it in chain if it.end() > now]
    starts, new, fresh = [], [], []
    for info, it in made:
        if it is None:
            continue
        old = next((one for one in there if one.end() > it.begin and one.updates + len(one.lost) < 15 and
                    (one.identifier, one.language, one.cells) == (it.identifier, it.language, it.cells)), None)
        if old is None:
            fresh.append((info, it))
            continue
        there.remove(old)
        if it.text in dead:
            old.lost.append(it.begin)
        else:
            old.cut, it.updates = it.begin, old.updates + len(old.lost) + 1
            new.append(it)
    for info, it in fresh:
        if it.text in waiting:
            it = interval_of(message, info, first, policy, free_slot(there, it.begin))
        starts.append(it.begin)
        if it.text not in dead:
            new.append(it)
    for it in there:
        stop = max(now, min(starts, default=now))
        if it.end() > stop:
            it.cut = stop
    chain += new


def intervals_of(messages, policy=DEFAULT, dead=(), waiting=()):
    """Returns what is on the air, as intervals. Of what all cells refuse, and of what waits for room, the texts are
    given."""
    chains, every = {}, []
    for message in messages:
        now, known = slot_of(message.sent), []
        for _, it in message.references:
            if it in chains and not any(chains[it] is other for other in known):
                known.append(chains[it])
        chain = known[0] if known else []
        for other in known[1:]:
            chain += other
            chains.update({key: chain for key, value in chains.items() if value is other})
        for it in chain:
            it.gone = it.gone or it.begin >= now
            it.cut = math.inf if it.cut >= now else it.cut
            it.lost = [slot for slot in it.lost if slot < now]
        if message.kind != "Cancel":
            follow(chain, message, now, policy, dead, waiting)
            chains[message.identifier] = chain
            every += [it for it in chain if it not in every]
        else:
            for it in chain:
                it.cut = min(it.cut, now) if it.end() > now else it.cut
    return every


# --- What is on the air, by the book ---


def intervals_in(book, dead=()):
    """Returns what is on the air by the rows of a book, as intervals; rows with some texts don't count."""
    last, every = {}, []
    for row in csv.reader(io.StringIO(book.decode(), newline="")):
        if row[0] == "cell":
            continue
        slot, name = int(row[1]), row[2]
        if row[-1] in dead:
            continue
        if name in last:
            last[name].cut = slot
        if row[0] == "stop":
            continue
        language, _, period, broadcasts, cells, text = row[6:] if row[0] == "write" else row[3:]
        until = slot + int(broadcasts) * int(period) if int(broadcasts) else math.inf
        identifier = int(row[3]) if row[0] == "write" else last[name].identifier
        names = PLACES.values() if cells == "*" else cells.split()
        last[name] = Interval(identifier, language, frozenset(names), text, slot, until, int(period))
        every.append(last[name])
    return every


def air(intervals, slot):
    return sorted((cell, it.identifier, it.language, it.text)
                  for it in intervals if it.begin <= slot < it.end() for cell in it.cells)


def cell_of(name, codes):
    return Cell(name, f"cell,{name.replace('-', ',')}", None, 0.0, {"Z": codes})


def empty_plan(cells, policy, program=None):
    options = SimpleNamespace(start=Fraction(0), slots=SLOTS, presidential=[], tests=False, joined=False, warnc=program)
    return Plan(options, policy, cells, ["Z"], Map(cells))


def plan_of(messages):
    """Returns an empty plan, and the texts that it is given for messages."""
    plan = empty_plan([cell_of(name, [code]) for code, name in PLACES.items()], DEFAULT)
    prepared = {("w", it.identifier, info.number): Prepared(info.headline, 0, [])
                for it in messages for info in it.infos}
    return plan, prepared


def book_of(plan):
    """Returns the book of a plan."""
    return "".join([f"{it.row}\n" for it in plan.cells] + [plan.line(it) for it in plan.rows()]).encode()


def keeps_chains():
    """Whether a message for which there is no code changes nothing: two chains that it would join stay two."""
    rng = random.Random(0)
    messages = [Message(f"{at}.xml", f"M{at}", "w", Fraction(0), "Actual", "Alert", "Public", [],
                        [random_info(rng, 1, f"M{at}", 0)]) for at in range(MOST_CODE)]
    for it in messages:
        it.infos[0].effective = it.infos[0].expires = None
    joining = Message("join.xml", "J", "w", Fraction(60), "Actual", "Update", "Public", [("w", "M0"), ("w", "M1")],
                      [random_info(rng, 1, "J", 60), random_info(rng, 2, "J", 60)])
    cancel = Message("cancel.xml", "C", "w", Fraction(120), "Actual", "Cancel", "Public", [("w", "M0")], [])
    joining.infos[0].language, joining.infos[1].language = "fr", "it"
    plan, prepared = plan_of([*messages, joining])
    for it in messages:
        plan.take(it, prepared)
    before = book_of(plan)
    try:
        plan.take(joining, prepared)
        return False
    except Wrong:
        same = book_of(plan) == before
    plan.take(cancel, prepared)
    stops = [it.split(b",")[2] for it in book_of(plan).split(b"\n") if it.startswith(b"stop,")]
    return same and stops == [b"w/M0/1"]


def said(program, words, book):
    """Returns the rows of a table that the program writes of a book, or None if it refuses the book."""
    done = subprocess.run([program, *words, "--slots", str(SLOTS)], input=book, capture_output=True, check=False)
    return None if done.returncode else list(csv.reader(io.StringIO(done.stdout.decode(), newline="")))[1:]


def orders_nothing(program, book):
    """Whether `check` refuses a book, or says of a row of it that it orders nothing."""
    remarks = said(program, ["check"], book)
    return remarks is None or any(it[3] == "orders nothing" for it in remarks)


def is_otherwise(name, book, wanted, found, messages):
    """Whether what is on the air isn't what is wanted; prints how."""
    edges = {0, SLOTS - 1} | {it for one in wanted + found for it in (one.begin, one.end())}
    for slot in sorted({it + near for it in edges if abs(it) < SLOTS * 2 for near in (-1, 0, 1)}):
        if 0 <= slot < SLOTS and air(wanted, slot) != air(found, slot):
            print(f"cap/test.py: {name}, slot {slot}: wanted {air(wanted, slot)}, but it was {air(found, slot)}\n"
                  f"{book.decode()}", *messages, sep="\n")
            return True
    return False


def differs(seed, program):
    """Whether a random day is otherwise on the air than its book says, or the program says of it that something is
    wrong; prints how."""
    messages = random_day(random.Random(seed))
    plan, prepared = plan_of(messages)
    for it in messages:
        plan.take(it, prepared)
    book = book_of(plan)
    if orders_nothing(program, book):
        print(f"cap/test.py: day {seed}: a fault, or a row that orders nothing\n{book.decode()}")
        return True
    return is_otherwise(f"day {seed}", book, intervals_of(messages), intervals_in(book), messages)


def crowded_differs(seed, program):
    """Whether a random day whose warnings haven't all room is otherwise on the air than its book says, or the program
    says of it that something is wrong; prints how. Returns also how many writes and updates all cells refused, and how
    many writes waited.
    """
    messages = crowded_day(seed)
    plan = empty_plan([cell_of(name, [code]) for code, name in PLACES.items()], DEFAULT | CROWDED, program)
    book = rounds.made(plan, messages, Runner(program, SLOTS)).octets
    rows = [it for it in csv.reader(io.StringIO(book.decode(), newline="")) if it[0] in ("write", "update")]
    # by their codes and update numbers the rows that a cell does
    done = {int(it[3], 16) for it in said(program, ["report"], book) if not it[7].startswith("refused")}
    dead, codes, updates = set(), {}, {}
    for it in rows:
        codes.setdefault(it[2], int(it[5]) if it[0] == "write" else 0)
        updates[it[2]] = updates.get(it[2], -1) + 1
        if 1 << 14 | codes[it[2]] << 4 | updates[it[2]] not in done:
            dead.add(it[-1])
    waiting = {info.headline for it in messages for info in it.infos
               if f"w/{it.identifier}/{info.number}" in plan.moved}
    wanted = intervals_of(messages, DEFAULT | CROWDED, dead, waiting)
    wrong = orders_nothing(program, book) or is_otherwise(f"crowded day {seed}", book, wanted, intervals_in(book, dead),
                                                          messages)
    if wrong:
        print(f"cap/test.py: crowded day {seed}\n{book.decode()}")
    updated = {it[-1] for it in rows if it[0] == "update"}
    return wrong, len(dead - updated), len(dead & updated), len(waiting)


# --- Networks ---


def group_books(plan, rows):
    """Yields the book of each group of a network, and the places of the rows that it has."""
    names = [it.name for it in plan.cells]
    for begin in range(0, len(names), 64):
        here = names[begin:begin + 64]
        kept = [(at, it) for at, it in enumerate(rows) if it.item.cells & set(here)]
        lines = [f"cell,{it.replace('-', ',')}\n" for it in here]
        lines += [plan.line(it, " ".join(name for name in here if name in it.item.cells)) for _, it in kept]
        yield "".join(lines).encode(), [at for at, _ in kept], len(here)


def remarked(plan, rows, program):
    """Returns what `check` says of the books of all groups: of each row the cells that it leaves out, the slot at which
    it is done at last, and in how many cells it is refused."""
    found = {}
    for book, kept, cells in group_books(plan, rows):
        for it in said(program, ["check"], book):
            if it[0]:
                at = kept[int(it[0]) - 1 - cells]
                one = found.setdefault(at, [set(), 0, 0])
                words = it[3].split(" ")
                if it[3].startswith("leaves out"):
                    one[0] |= set(words[2:])
                elif it[3] == "orders nothing":
                    here = {f"{cell[1]}-{cell[2]}" for cell in csv.reader(io.StringIO(book.decode(), newline=""))
                            if cell[0] == "cell"}
                    one[0] |= rows[at].item.cells & here
                elif it[3].startswith("done at slot"):
                    one[1] = max(one[1], int(words[3]))
                elif it[3].startswith("refused in"):
                    one[2] += int(words[2])
    return found


def network_differs(seed, program):
    """Whether a network of which one of the cells that are alike is run comes out otherwise than the whole network."""
    rng = random.Random(seed)
    cells = [cell_of(f"{at % 3}-{at}", rng.sample("abc", rng.choice((0, 1, 1, 2)))) for at in range(NETWORK)]
    plan, messages = empty_plan(cells, DEFAULT | CROWDED, program), random_day(rng)
    runner = Runner(program, SLOTS)
    book = rounds.made(plan, messages, runner)
    whole = {}
    for _, _, *row in said(program, ["report", "--full", "--network"], book.octets):
        which = (int(row[3], 16) >> 4 & 1023, int(row[3], 16) & 15 if row[9] else "stop")
        whole.setdefault(which, []).append((row[7] if row[7].startswith("refused") else "", row[8]))
    made = {}
    for which, it in book.outcomes.items():
        made[which] = (it.done, sum(it.refused.values()), it.first, it.last, it.unshown)
    wanted = {}
    for which, each in whole.items():
        shown = [int(first) for _, first in each if first]
        done = sum(not cause for cause, _ in each)
        wanted[which] = (done, len(each) - done, min(shown, default=None), max(shown, default=None), done - len(shown))
    remarks = {at: [set(it.left_out), it.done] for at, it in runner.remarks(plan, book.rows, book.octets).items()}
    by_group = remarked(plan, book.rows, program)
    refused = {at: it[2] for at, it in by_group.items() if it[2]}
    counted = {at: book.outcomes[key_of(it)].refused for at, it in enumerate(book.rows) if key_of(it) in book.outcomes}
    same = made == wanted and refused == {at: sum(it.values()) for at, it in counted.items() if it}
    same = same and {at: it for at, it in remarks.items() if any(it)} == {
        at: it[:2] for at, it in by_group.items() if any(it[:2])}
    if not same:
        print(f"cap/test.py: network {seed}: {made} {wanted} {remarks} {by_group}\n{book.octets.decode()}")
    return not same


# --- Headlines and instructions ---


def random_words(rng):
    letters = rng.choice(("abc", "ab€", "€{a", "abł"))
    return " ".join("".join(rng.choice(letters) for _ in range(rng.choice((1, 2, 5, 9, 30))))
                    for _ in range(rng.choice((1, 3, 8, 20))))


def pages_of(program, texts):
    """Returns how many pages each text has."""
    rows = "cell,0,0\n" + "".join(f"write,0,{at},0,0,0,en,0,1,0,*,\"{text}\"\n" for at, text in enumerate(texts))
    done = subprocess.run([program, "texts"], input=rows.encode(), capture_output=True, check=True)
    return [int(row[5]) for row in list(csv.reader(io.StringIO(done.stdout.decode(), newline="")))[1:]]


def headline_differs(seed, program):
    """Whether a headline and an instruction come out otherwise than the longest of all fronts that fit; prints how.
    Returns also whether the headline gave way."""
    rng = random.Random(seed)
    headline, instruction, most = random_words(rng), random_words(rng), rng.choice((1, 2, 3))
    info = SimpleNamespace(headline=headline, instruction=instruction, description="", event="", parameters={})
    found = prepare(program, [(info, most)])[0].text
    fronts = [headline[:at] for at in range(1, len(headline) + 1) if headline[at:at + 1] in ("", " ")]
    texts = [*(f"{it}\n{instruction}" for it in reversed(fronts)), instruction]
    texts += [instruction[:at] for at in range(len(instruction), 0, -1) if instruction[at:at + 1] == " "]
    texts += [instruction[:at] for at in range(len(instruction), 0, -1)]
    wanted = next(text for text, pages in zip(texts, pages_of(program, texts)) if pages <= most)
    if found != wanted:
        print(f"cap/test.py: headline {seed}: {[headline, instruction]} on {most} pages: {found!r} and not {wanted!r}")
    return found != wanted, wanted != texts[0]


# --- Polygons ---


def is_in(points, point, radius):
    """Whether a cell comes into a polygon, by the edges north of it, and by points on its edges; None if it is too
    close to tell."""
    wide = math.cos(math.radians(point[0])) * math.pi * 6371.0088 / 180
    tall, inside, nearest = math.pi * 6371.0088 / 180, False, math.inf
    for (lat1, lon1), (lat2, lon2) in zip(points, points[1:]):
        x1 = (lon1 - point[1] + 180) % 360 - 180
        x2 = x1 + (lon2 - lon1 + 180) % 360 - 180
        y1, y2 = lat1 - point[0], lat2 - point[0]
        for turn in (-360, 0, 360):
            west, east = x1 + turn, x2 + turn
            if (west > 0) != (east > 0) and y1 + (y2 - y1) * west / (west - east) > 0:
                inside = not inside
            for step in range(201):
                x, y = west + (east - west) * step / 200, y1 + (y2 - y1) * step / 200
                nearest = min(nearest, math.hypot(x * wide, y * tall))
    # so far apart the points on an edge are at most
    coarse = max(math.hypot((b[1] - a[1] + 180) % 360 - 180, b[0] - a[0]) * tall for a, b in zip(points, points[1:]))
    if inside or nearest <= radius:
        return True if inside and nearest > 0.001 or nearest < radius - 0.001 else None
    return False if nearest > radius + coarse / 200 + 0.001 else None


def polygon_differs(seed):
    """Whether cells come into a random polygon otherwise than by the second way; returns also how many were told."""
    rng = random.Random(seed)
    south, west, size = rng.uniform(-70, 65), rng.choice((rng.uniform(-180, 180), 178.5)), rng.choice((0.2, 1, 4))

    def near():
        return south + rng.random() * size, (west + rng.random() * size + 180) % 360 - 180

    points = [near() for _ in range(rng.choice((3, 4, 7, 12)))]
    points.append(points[0])
    cells = [Cell(f"1-{at}", "", near(), rng.choice((0.0, 0.0, 1.0, 20.0)), {}) for at in range(20)]
    found = Map(cells).in_polygon(points, "polygon")
    wanted = {it.name: is_in(points, it.point, it.radius) for it in cells}
    wrong = [name for name, it in wanted.items() if it is not None and it != (name in found)]
    if wrong:
        print(f"cap/test.py: polygon {seed}: {points}: {[it for it in cells if it.name in wrong]}")
    return bool(wrong), sum(it is not None for it in wanted.values()), len(found)
