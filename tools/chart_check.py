#!/usr/bin/env python3
"""Compares the charts of a built program with its reports, and with what a browser makes of them.

Usage: chart_check.py PROGRAM [BOOKS]            makes so many random books (20 if no number is given), for each ten of
                                                 them a network book of up to four groups, and one by hand
       chart_check.py PROGRAM --pictures FOLDER  writes pictures of charts (PNG), those of docs/: of the book by hand,
                                                 and of examples/flood.csv by day, on a phone, by night and printed

Of each chart the bars, marks, refusals, titles, texts and loads are counted and compared with the rows of `report
--full`, with what `read` shows of the tapes of `compile`; the lines of the loads have to stay within the cell's room,
and the ticks of the axes have to be at round times.
No two sections may have the same contents, and the overview has to have a strip for each, with the numbers that its
heading has. In the chart of a network each group has to hold its own cells. Chromium, where it is installed, opens each
page: it has to find the same bars, and no element that the program didn't write, whatever the texts say; and at three
widths nothing may be wider than the window, and no cause of a refusal may be cut off. The chart of a part of the run,
by `--from` and `--to`, has to have the bars, marks and loads of the run that are in it, which are put together of parts
so short that they have all marks. A message has marks, or their number, by the rule of docs/formats.md. A third of the
charts has the times of the day, by `--start`, and ticks at round ones of these. The page in German has to have the same
elements and numbers, the German words that the page for browsers has, and none of the English ones. What titles say
that identifiers mean has to be what Wireshark says, where it is installed. Contrasts have to be as chart_contrast.py
asks, and the charts of ten books of 64 cells have to have three million octets at most, in a run of 4,096 slots and in
the longest.
"""
import csv
import datetime
import fractions
import functools
import html.parser
import io
import itertools
import math
import os
import random
import re
import shutil
import subprocess
import sys
import tempfile

import chart_contrast
from books import GROUP, Alert, Sending, cell_line, random_orders

TOP = os.path.dirname(os.path.dirname(os.path.realpath(__file__)))
sys.path.append(os.path.join(TOP, "bench"))
import inputs  # noqa: E402

# how long a slot lasts in seconds: 8 multiframes of 51 frames of 120/26 ms
SLOT = fractions.Fraction(8 * 51 * 120, 26 * 1000)
# the seconds of a day, and those from 1970 to 2106, in which a run may begin
DAY, END = 86_400, 4_291_747_200
MICROSECOND = datetime.timedelta(microseconds=1)
# the round times in seconds at whose multiples an axis may have ticks
STEPS = (10, 30, 60, 120, 300, 600, 1800, 3600, 7200, 14400, 21600)
# the height of a full cell in the picture of the loads
FULL = 1008
ELEMENTS = set("html head meta title style body h1 h2 p nav a details summary div b i small bdi svg rect path"
               " span br".split())
# the most marks of a message, and how far apart they have to stand at least, in pixels of a page of this width
MOST_MARKS, LEAST_GAP, PAGE_WIDTH = 400, 4, 1280
# a part of so many slots has all marks: even those after each slot are far enough apart
ALL_MARKED = PAGE_WIDTH // LEAST_GAP
# words of the page in English that a page in German doesn't have
ENGLISH = ("slot ", "slots", "Warnings", "message", "broadcast", "shown", "refused", "Cell", "Reserved", "load",
           "every", " to ", " and ", "more", "high", "background", "Level", "Drawn", "Group", "language", "exceeded")
# parts of the sentences that explain the page, which have their numbers in other forms in another language
SENTENCES = ("1.883", "1,883", " px ", "inute", " s ")
# what the identifiers mean in the words of the page for browsers
WORDS = os.path.join("browser", "words.js")
ETWS = ("earthquake", "tsunami", "earthquake and tsunami", "test", "other")
# what Wireshark's names of identifiers have, and our words for it
WIRESHARK = {
    "for earthquake warning": "ETWS: earthquake", "for tsunami warning": "ETWS: tsunami",
    "earthquake and tsunami combined": "ETWS: earthquake and tsunami", "ETWS Identifier for test": "ETWS: test",
    "other emergency types": "ETWS: other", "Presidential": "EU-Alert level 1: presidential",
    "Child Abduction": "Child abduction: EU-Amber", "Required Monthly Test": "Test: monthly",
    "CMAS Exercise": "Exercise", "operator defined use": "Operator's own use",
    "Public Safety Alerts": "Level 4: public safety, EU-Info", "State/Local WEA Test": "Test: state or local",
}
# what is said before the text of a message that no phone shows
UNSEEN = "not shown:"
TEXTS = [
    "Stay in!",
    "<script>document.title='wrong'</script>",
    "\"><img src=x onerror=\"document.title='wrong'\">",
    "</bdi></svg></details><h1>'&amp;' & \"&lt;\"</h1>",
    "Вода поднимается! Идите в школу.",
]
SLOTS_BY_HAND = 48
# so long that some messages have more broadcasts than marks
SLOTS_LONG = 1000
# how many charts a browser opens, which takes it over a second each
BROWSED = 10
# widths of windows in pixels
WIDTHS = (320, 400, 1280)
# the most octets of the charts of the typical books of bench/, of 64 cells each, and the seeds of these
MOST_OCTETS, SEEDS = 3_000_000, range(10)
# so many pixels are below the last line of a picture
MARGIN = 2
# the pictures of docs/: the width of the window (A4 has 794 pixels), the last line, by night, and the medium
PICTURES = (
    ("chart", 1000, 13, False, ""),
    ("chart-flood", 1280, 20, False, ""),
    ("chart-phone", 400, 9, False, ""),
    ("chart-dark", 1280, 12, True, ""),
    ("chart-print", 794, 5, False, "print"),
)


class Page(html.parser.HTMLParser):
    """What stands in a page: its sections, each with its names, its contents and its lines, in order, its strips, and
    the groups, each with its cells' names."""

    def __init__(self, text):
        super().__init__()
        self.cells, self.strips, self.elements, self.inside, self.title = [], [], set(), [], ""
        self.feed(text)
        self.groups = self.groups_taken_out()
        for section, text in zip(self.cells, text.split("<details open")[1:]):
            section["contents"] = text[text.index("</h2>"):text.index("</details>")]

    def groups_taken_out(self):
        """Returns the groups, which so far stand among the cells, and leaves the cells alone there."""
        groups = []
        for section in self.cells:
            if section["name"].startswith("Group "):
                groups.append((section["name"], []))
            elif groups:
                groups[-1][1].extend(names_of(section["name"]))
            section["group"] = len(groups)
        self.cells = [it for it in self.cells if not it["name"].startswith("Group ")]
        return [(name, sorted(cells)) for name, cells in groups]

    def handle_starttag(self, tag, attributes):
        self.elements.add(tag)
        values = dict(attributes)
        kind = values.get("class")
        if tag == "a":
            self.strips.append({"to": values["href"], "name": "", "facts": ""})
        if tag == "details":
            self.cells.append({"id": values.get("id"), "name": "", "facts": "", "lines": []})
        if tag == "div":
            self.cells[-1]["lines"].append({"name": "", "text": "", "cause": "", "title": "", "number": ""})
        if tag == "span" and "style" in values:
            self.cells[-1]["lines"][-1].setdefault("ticks", []).append([values["style"], ""])
        if tag == "rect":
            self.cells[-1]["lines"][-1]["bar"] = (int(values["x"]), int(values["width"]))
            self.cells[-1]["lines"][-1]["kind"] = kind
        if tag == "path":
            (self.strips if "nav" in self.inside else self.cells[-1]["lines"])[-1][kind or "shown"] = values["d"]
        if tag not in ("meta", "br", "img"):
            self.inside.append(tag)

    def handle_endtag(self, tag):
        while self.inside and self.inside.pop() != tag:
            pass

    def handle_data(self, text):
        inside = self.inside[-1] if self.inside else ""
        if "nav" in self.inside:
            if inside in ("b", "i"):
                self.strips[-1]["name" if inside == "b" else "facts"] += text
        elif inside in ("h2", "summary"):
            self.cells[-1]["name" if inside == "h2" else "facts"] += text.rstrip("\n")
        elif inside == "title" and "svg" not in self.inside:
            self.title += text
        elif inside == "span" and "ticks" in self.cells[-1]["lines"][-1]:
            self.cells[-1]["lines"][-1]["ticks"][-1][1] += text
        elif inside in ("b", "bdi", "span", "title", "small") and "div" in self.inside:
            name = {"b": "name", "bdi": "text", "span": "cause", "title": "title", "small": "number"}[inside]
            self.cells[-1]["lines"][-1][name] += text


def names_of(heading):
    """Returns the names of the cells that a heading names."""
    if not heading.startswith("Cells "):
        return [heading]
    *names, number = heading.removeprefix("Cells ").split(", ")
    span = re.fullmatch(r"(\d+)-(\d+) to \1-(\d+)", names[0])
    if span:
        names = [f"{span[1]}-{ci}" for ci in range(int(span[2]), int(span[3]) + 1)]
    return [f"Cell {it}" for it in names] if number == f"{len(names)} cells" else []


def run(program, words, given):
    """Returns what the program writes for an input."""
    done = subprocess.run([program, *words], input=given, stdout=subprocess.PIPE, check=True)
    return done.stdout


def rows_of(program, words, given):
    return list(csv.DictReader(io.StringIO(run(program, words, given).decode(), newline="")))


def random_book(chance, most_cells=4):
    """Returns a book of one to so many cells and of some orders, whose texts are hostile."""
    cells = [(1, ci) for ci in range(1, 1 + chance.randint(1, most_cells))]

    def sending():
        text = chance.choice(TEXTS)
        return Sending("ru" if text.startswith("В") else "en", chance.randint(0, 2), chance.randint(1, 9),
                             chance.choice((0, 0, 3)), text)

    slots = itertools.accumulate(chance.choice((0, 0, 1, 2, 7)) for _ in range(chance.randint(1, 25)))
    orders = random_orders(
        chance, slots, lambda number: Alert(f"n{number}", 4370 + number % 5, 0, number), sending,
        lambda: chance.choice((None, cells[:1], cells[-1:])))
    return "".join([*map(cell_line, cells), *(it.line() for it in orders)])


def pace_of(row):
    """Returns the class of a message's bar: how often it is sent, by its period and by what was sent."""
    length, whole, period = int(row["end"]) - int(row["start"]), int(row["completed"]), int(row["period"] or 0)
    for slots, kind in ((8, "f5"), (16, "f4"), (32, "f3"), (64, "f2")):
        if whole and period <= slots and length <= slots * (whole + 1):
            return kind
    return "f1"


def clock_of(seconds):
    return f"{seconds // 3600}:{seconds // 60 % 60:02}:{seconds % 60:02}"


class Clock:
    """The times of a chart: those since the run began, or those of the day, if it is known when it begins."""

    def __init__(self, start=None):
        self.start = start
        midnight = start and start.replace(hour=0, minute=0, second=0, microsecond=0)
        self.begun = fractions.Fraction((start - midnight) // MICROSECOND if start else 0, 1_000_000)

    def words(self):
        """Returns the words of the command line."""
        return ["--start", self.start.strftime("%Y-%m-%dT%H:%M:%S.%fZ")] if self.start else []

    def sentence(self):
        """Returns what the page says of the begin, which is cut to the millisecond."""
        text = self.start and self.start.strftime("%Y-%m-%dT%H:%M:%S.%f")[:-3]
        return f" Slot 0 begins at {text}Z; times are of the day, in UTC." if self.start else ""

    def seconds_at(self, slot):
        """Returns when a slot begins, in whole seconds."""
        return int(self.begun + slot * SLOT)

    def text(self, seconds):
        return clock_of(seconds % DAY).rjust(8, "0") if self.start else clock_of(seconds)

    def time_of(self, slot):
        return self.text(self.seconds_at(slot))

    def ticks_of(self, slots):
        """Returns the ticks of the axis of a run: where each stands, and the slot that is sent there, and the time."""
        step = next(it for it in STEPS if self.seconds_at(slots) - self.seconds_at(0) < 6 * it)
        ticks = []
        for seconds in range(-(-self.begun // step) * step, self.seconds_at(slots) + 1, step):
            place = int(100 * (seconds - self.begun) / SLOT)
            where = f"--at:calc(100%*{place // 100}.{place % 100:02}/{slots})"
            ticks.append([where, f"{place // 100}{self.text(seconds)}"])
        return ticks


@functools.cache
def meanings():
    """Returns what the identifiers mean."""
    with open(os.path.join(TOP, WORDS), encoding="utf-8") as file:
        table = {int(number): words.replace(" ·", ":")
                 for number, words in re.findall(r'^ +(4\d{3}): \["([^"]*)"', file.read(), re.M)}
    others = {number + (1 if number in (4396, 4398) else 13): f"{words}, in an additional language"
              for number, words in table.items()}
    return table | others | {4352 + number: f"ETWS: {words}" for number, words in enumerate(ETWS)}


def meaning_by_wireshark(text):
    """Returns what a name that Wireshark gives an identifier comes to in our words."""
    text, is_additional = re.subn(" for additional languages$", "", text)
    levels = re.search(r"CMAS (\w+) Alerts with Severity of (\w+), Urgency of (\w+), and Certainty of (\w+)$", text)
    if levels:
        # EU-Alert has its second level for CMAS's extreme alerts, and its third for the severe ones
        level = "Level 2" if levels[1] == "Extreme" else "Level 3"
        words = f"{level}: {', '.join(levels.groups()[1:]).lower()}"
    else:
        words = next((ours for part, ours in WIRESHARK.items() if part in text), None)
    return words + ", in an additional language" * is_additional if words else None


def wrong_meanings():
    """Yields the identifiers whose meaning isn't that of Wireshark."""
    if not shutil.which("tshark"):
        print("chart_check.py: SKIPPED what identifiers mean: tshark isn't installed")
        return
    said = subprocess.run(["tshark", "-G", "values"], capture_output=True, check=True).stdout.decode()
    table = {int(number): meaning_by_wireshark(text)
             for number, text in re.findall(r"^V\tlte-rrc\.messageIdentifier\t(\d+)\t(.*)$", said, re.M)}
    for number in range(4352, 4400):
        if meanings().get(number) != table.get(number):
            yield f"identifier {number} means {meanings().get(number)}, but by Wireshark {table.get(number)}"


def title_of(row, time_of):
    """Returns the title of a row's picture, where this gives the time of a slot."""
    meaning = meanings().get(int(row["id"]))
    name = f"{row['id']} {row['serial']}" + (f" ({meaning})" if meaning else "")
    start, end = int(row["start"]), int(row["end"])
    if row["shown"].startswith("refused"):
        return f"{name}: refused at slot {start} ({time_of(start)})"
    first = row["first_shown"]
    outcome = f"first shown after {first} ({time_of(int(first) + 1)})" if first else "not shown"
    every = "slot" if row["period"] == "1" else row["period"]
    return (f"{name}: slots {start} ({time_of(start)}) to {end} ({time_of(end)}), every {every}, "
            f"broadcasts: {row['completed']}, {outcome}")


def texts_asked(book):
    """Returns the texts that phones are to show by a book's rows, by identifier and serial number."""
    texts, alerts = {}, {}
    for verb, *fields in csv.reader(io.StringIO(book, newline="")):
        if verb == "write":
            alerts[fields[1]] = [int(fields[2]), int(fields[3]) << 14 | int(fields[4]) << 4]
        elif verb == "update":
            number = alerts[fields[1]][1]
            alerts[fields[1]][1] = number & 0xFFF0 | number + 1 & 0xF
        if verb in ("write", "update"):
            identifier, serial = alerts[fields[1]]
            texts[str(identifier), f"{serial:04x}"] = fields[-1]
    return texts


def has_marks(period, whole, slots):
    """Returns whether so many whole broadcasts of a message of this period have marks in a chart of so many slots."""
    return whole <= MOST_MARKS and LEAST_GAP * slots <= period * PAGE_WIDTH


def expected(rows, shown, asked, slots, time_of):
    """Returns by cell what the lines of its rows have to be: a title, and a bar, its marks or their number, and its
    text, or a refusal; and the name of the alert."""
    cells = {}
    for row in rows:
        cell = f"Cell {row['lac']}-{row['ci']}"
        start, end = int(row["start"]), int(row["end"])
        name = row["id"], row["serial"]
        text = shown.get((row["lac"], row["ci"], *name)) if row["shown"] == "yes" else asked.get(name)
        title = title_of(row, time_of)
        if row["shown"].startswith("refused"):
            line = (title, "refusal", start, f"refused: {row['cause']} ({row['shown'][-2:]})", row["name"])
        else:
            first = int(row["first_shown"]) + 1 if row["first_shown"] else None
            whole = int(row["completed"])
            line = (title, (start, max(0, end - start)), pace_of(row),
                    (has_marks(int(row["period"]), whole, slots), whole), first, text, row["shown"] == "yes",
                    row["name"])
        cells.setdefault(cell, []).append(line)
    return cells


def marks_in(line):
    """Returns the slots of a message's marks, which are strokes down and up of one line: it goes along to each of them,
    from slot 0 on. Of another line there are none."""
    if not re.fullmatch(r"M0 0(h\d+V9h\d+V0)*(h\d+V9)?", line["whole"]):
        return []
    return list(itertools.accumulate(int(it) for it in re.findall(r"h(\d+)", line["whole"])))


def broadcasts_of(line):
    """Returns whether a message's line has marks, and how many whole broadcasts it has by these, or by the number that
    it says."""
    number = line["number"].removesuffix(UNSEEN)
    said = re.fullmatch(r"(\d+) broadcasts?", number)
    if "whole" in line and not number:
        return True, len(marks_in(line))
    is_right = said and "whole" not in line and number.endswith("s") == (said[1] != "1")
    return False, int(said[1]) if is_right else None


def first_mark_of(line):
    """Returns the slot of the mark where a phone shows a message first, or None if there is none."""
    mark = re.fullmatch(r"M(\d+) 0v6|", line["shown"])
    return int(mark[1]) if mark[1] else None


def found(page):
    """Returns the same of a page."""
    cells = {}
    for cell in page.cells:
        lines = []
        for line in cell["lines"]:
            if "bar" in line:
                lines.append((line["title"], line["bar"], line["kind"], broadcasts_of(line), first_mark_of(line),
                              line["text"], not line["number"].endswith(UNSEEN), line["name"]))
            elif "refusal" in line:
                slot = re.fullmatch(r"M(\d+) 0v10", line["refusal"])[1]
                lines.append((line["title"], "refusal", int(slot), line["cause"], line["name"]))
        if lines:
            cells.update((name, lines) for name in names_of(cell["name"]))
    return cells


def fullest_of(line):
    """Returns how full a line of loads gets, in hundredths rounded up, and where that begins; the line has full steps
    alone, so the share may be one more than that."""
    steps = [(FULL - int(b), -int(a)) for a, b in re.findall(r"H(\d+)V(\d+)", line)]
    most, slot = max(steps)
    return (-(-most * 100 // FULL), -slot) if most else (0, 0)


def wrong_facts(page, time_of):
    """Yields what is wrong with the headings and the overview."""
    if len(page.cells) != len({(it["group"], it["contents"]) for it in page.cells}):
        yield "two sections have the same contents"
    pattern = r" messages: (\d+), refused: (\d+), fullest: ((\d+) % at (\d+:\d\d:\d\d))"
    of_group = [cells for _, cells in page.groups] or [[it for each in page.cells for it in names_of(each["name"])]]
    for section in page.cells:
        facts = re.fullmatch(pattern, section["facts"])
        lines = section["lines"]
        share, slot = fullest_of(next(it["load"] for it in lines if "load" in it))
        counts = [sum(kind in it for it in lines) for kind in ("bar", "refusal")]
        if not facts or [int(facts[1]), int(facts[2])] != counts:
            yield f"{section['name']}: {section['facts']} isn't of {counts} messages and refusals"
        elif int(facts[4]) not in (share, share + 1) or facts[5] != time_of(slot):
            yield f"{section['name']}: {facts[3]} isn't {share} % at slot {slot}, {time_of(slot)}"
        strips = [it for it in page.strips if it["to"] == f"#{section['id']}"]
        first, *more = names_of(section["name"])
        name = first.removeprefix("Cell ") + (f" and {len(more)} more" if more else "")
        is_alone = [first] in of_group
        wanted = [(name, f"{facts[3]}, refused: {facts[2]}")] if facts and not is_alone else []
        if section["id"] != "c" + first.removeprefix("Cell "):
            yield f"{section['name']} has the name {section['id']}"
        if [(it["name"], it["facts"]) for it in strips] != wanted:
            yield f"{section['name']}: the overview has {strips}"


# what a browser says of each frame: how wide its page is, and how many causes of refusals are cut off
MEASURED = """[...document.querySelectorAll('iframe')].map((it) => it.contentDocument).map((page) =>
[page.documentElement.scrollWidth, [...page.querySelectorAll('.cause')].filter((it) => it.scrollWidth > it.clientWidth
|| it.getBoundingClientRect().right > it.parentElement.getBoundingClientRect().right + 1).length]).join(' ')"""


def wrong_widths(browser, path):
    """Yields at which widths of a window something in the page is wider, or a cause isn't whole."""
    frames = "".join(f'<iframe src="file://{path}" width="{width}" height="600" style="border:0"></iframe>'
                     for width in WIDTHS)
    with tempfile.TemporaryDirectory() as folder:
        frame = os.path.join(folder, "frames.html")
        with open(frame, "w", encoding="utf-8") as file:
            file.write(f"{frames}<script>onload = () => {{ document.title = {MEASURED}; }};</script>")
        dom = dom_of(browser, frame, "--allow-file-access-from-files", "--hide-scrollbars")
    measured = re.search(r"<title>([\d, ]*)</title>", dom)
    if not measured or measured[1] != " ".join(f"{width},0" for width in WIDTHS):
        yield f"windows of {WIDTHS} pixels have pages, and causes that are cut off, of {measured and measured[1]}"


def wrong_loads(page, slots):
    """Yields what is wrong with the lines of the loads: each has to go over all slots, and within the cell's room."""
    for cell in page.cells:
        line = next(it["load"] for it in cell["lines"] if "load" in it)
        steps = [(int(a), int(b)) for a, b in re.findall(r"H(\d+)V(\d+)", line)]
        if not re.fullmatch(rf"M0 {FULL}(H\d+V\d+)+z", line) or steps[-1] != (slots, FULL):
            yield f"{cell['name']}: {line} isn't a line over {slots} slots"
        if any(height > FULL for _, height in steps) or steps != sorted(set(steps)):
            yield f"{cell['name']}: {line} leaves the picture"


def wrong_axes(page, slots, clock):
    """Yields where the axis of a section isn't that of a run of so many slots."""
    for cell in page.cells:
        ticks = cell["lines"][-1].get("ticks")
        if ticks != clock.ticks_of(slots):
            yield f"{cell['name']} has the ticks {ticks}, a run of {slots} slots {clock.ticks_of(slots)}"


def dom_of(browser, path, *more):
    """Returns the page as a browser has it once it is loaded."""
    with tempfile.TemporaryDirectory() as profile:
        words = [browser, "--headless=new", "--no-sandbox", "--disable-gpu", f"--user-data-dir={profile}", *more]
        return subprocess.run([*words, "--virtual-time-budget=2000", "--dump-dom", f"file://{path}"],
                              stdout=subprocess.PIPE, stderr=subprocess.DEVNULL, check=True).stdout.decode()


def shown_of(program, given, options):
    """Returns the texts that phones show of the tapes of a book, by cell, identifier and serial number."""
    tapes = run(program, ["compile", *options], given)
    return {(it["lac"], it["ci"], it["id"], it["serial"]): it["text"] for it in rows_of(program, ["read"], tapes)}


def groups_of(book):
    """Returns the groups of a network book, each with its cells' names, in the order of the book."""
    names = [f"Cell {lac}-{ci}" for lac, ci in re.findall(r"^cell,(\d+),(\d+)$", book, re.M)]
    return [(f"Group {first // GROUP}", sorted(names[first:first + GROUP])) for first in range(0, len(names), GROUP)]


def differences(program, browser, book, options, slots, clock):
    """Yields in what the chart of a book, or of a network book, differs from its report."""
    given, groups, length = book.encode(), groups_of(book) if "--network" in options else [], ["--slots", str(slots)]
    rows = rows_of(program, ["report", "--full", *options, *length], given)
    shown = {}
    for each in [["--group", str(it)] for it in range(len(groups))] or [options]:
        shown.update(shown_of(program, given, [*each, *length]))
    words = ["chart", *options, *length, *clock.words()]
    chart = run(program, words, given)
    wanted = expected(rows, shown, texts_asked(book), slots, clock.time_of)
    yield from wrong_german(chart.decode(), run(program, [*words, "--lang", "de"], given).decode())
    pages = [("the chart", Page(chart.decode()))]
    if browser:
        with tempfile.TemporaryDirectory() as folder:
            path = os.path.join(folder, "chart.html")
            with open(path, "wb") as file:
                file.write(chart)
            pages.append(("the browser", Page(dom_of(browser, path))))
            yield from wrong_widths(browser, path)
    lasting = Clock().time_of(slots)
    if f"<p>A run of {slots} slots of 1.883 s, {lasting} (h:mm:ss).{clock.sentence()}</p>" not in chart.decode():
        yield f"the chart doesn't say that {slots} slots are {lasting}, or when it begins"
    for name, page in pages:
        if found(page) != wanted:
            yield f"{name} has {found(page)}, the report {wanted}"
        if page.groups != groups:
            yield f"{name} has the groups {page.groups}, the book {groups}"
        if page.elements - ELEMENTS:
            yield f"{name} has elements {page.elements - ELEMENTS}"
        if page.title != "Warnings by cell":
            yield f"{name} has the title {page.title}"
        yield from wrong_loads(page, slots)
        yield from wrong_axes(page, slots, clock)
        yield from wrong_facts(page, clock.time_of)


def heights_of(line, last):
    """Returns the height of a line of loads at each slot up to the last one, by slot."""
    first = int(re.match(r"M(\d+) ", line)[1])
    steps = [(first, FULL), *((int(a), int(b)) for a, b in re.findall(r"H(\d+)V(\d+)", line))]
    return {slot: height for (begin, height), (end, _) in itertools.pairwise([*steps, (last, FULL)])
            for slot in range(begin, end)}


class Skeleton(html.parser.HTMLParser):
    """A page's tags with their attributes, but for those in words, and the numbers of its texts."""

    def __init__(self, text):
        super().__init__()
        self.parts, self.words, self.tag = [], [], ""
        self.feed(text)

    def handle_starttag(self, tag, attributes):
        self.parts.append((tag, [it for it in attributes if it[0] not in ("lang", "aria-label")]))
        self.words += [value for name, value in attributes if name == "aria-label"]
        self.tag = tag

    def handle_endtag(self, tag):
        self.parts.append(tag)
        self.tag = ""

    def handle_data(self, text):
        # texts are in a language of their own
        if self.tag not in ("style", "bdi"):
            self.words.append(text)


@functools.cache
def german_words():
    """Returns the German words for what identifiers mean, and for causes, of the page for browsers."""
    with open(os.path.join(TOP, WORDS), encoding="utf-8") as file:
        text = file.read()
    table = {int(number): words.replace(" ·", ":")
             for number, words in re.findall(r'^ +(4\d{3}): \["[^"]*", "([^"]*)"', text, re.M)}
    others = {number + (1 if number in (4396, 4398) else 13): f"{words}, in weiterer Sprache"
              for number, words in table.items()}
    return table | others, dict(re.findall(r'^ +"([\w ]+)": \["[^"]*",\s+"([^"]*)"\]', text, re.M))


def wrong_german(english, german):
    """Yields in what a page in German differs from that in English but in its words."""
    ours, theirs = Skeleton(english), Skeleton(german)
    if ours.parts != theirs.parts or not german.startswith('<!DOCTYPE html>\n<html lang="de">'):
        yield "the page in German has other elements than that in English"
    numbers = [[re.findall(r"\d+", it) for it in page.words if not any(part in it for part in SENTENCES)]
               for page in (ours, theirs)]
    if numbers[0] != numbers[1]:
        yield "the page in German has other numbers than that in English"
    table, causes = german_words()
    for number, meaning in re.findall(r"<title>(\d+) [0-9a-f]{4}(?: \(([^()]*)\))?: ", german):
        if int(number) >= 4370 and meaning != table.get(int(number), ""):
            yield f"identifier {number} means {meaning} in German"
    refused = [(causes.get(cause), octet) for cause, octet in re.findall(r'"cause">refused: (.*?) \((..)\)<', english)]
    if re.findall(r'"cause">abgelehnt: (.*?) \((..)\)<', german) != refused:
        yield f"the page in German hasn't the causes {refused}"
    left = sorted({word for word in ENGLISH for it in theirs.words if word in it})
    if left:
        yield f"the page in German has the English words {left}"


def cut(line, marks, first, last):
    """Returns what a line of the run with these marks comes to in the chart of a part: its title, and its bar and its
    marks, or their number, or its refusal."""
    if "refusal" in line:
        return line["title"], line["refusal"]
    begin, end = line["bar"][0], sum(line["bar"])
    inside = [it for it in marks if first < it <= last]
    begin, every = max(begin, first), re.search(r", every (slot|\d+),", line["title"])[1]
    is_marked = has_marks(1 if every == "slot" else int(every), len(inside), last - first)
    return line["title"], (begin, max(0, min(end, last) - begin)), inside if is_marked else len(inside)


def drawn(line):
    """Returns the same of a line of a chart."""
    if "refusal" in line:
        return line["title"], line["refusal"]
    is_marked, number = broadcasts_of(line)
    marks = marks_in(line) if is_marked else number
    return line["title"], line["bar"], marks


def lines_by_cell(page):
    return {name: cell["lines"] for cell in page.cells for name in names_of(cell["name"])}


def all_marks(program, words, book, slots):
    """Returns the marks of each message of a run, by cell and title, of charts of parts that have all marks."""
    marks = {}
    for first in range(0, slots, ALL_MARKED):
        part = ["--from", str(first), "--to", str(min(first + ALL_MARKED, slots))]
        page = Page(run(program, [*words, *part], book.encode()).decode())
        for name, lines in lines_by_cell(page).items():
            for line in lines:
                if "bar" in line:
                    marks.setdefault((name, line["title"]), []).extend(marks_in(line))
    return marks


def wrong_part(program, book, chance, slots=SLOTS_BY_HAND):
    """Yields in what the chart of a part of a run differs from that of the whole run."""
    first = chance.randrange(slots)
    last = chance.randint(first + 1, slots)
    words = ["chart", "--slots", str(slots)]
    whole = lines_by_cell(Page(run(program, words, book.encode()).decode()))
    part = lines_by_cell(Page(run(program, [*words, "--from", str(first), "--to", str(last)], book.encode()).decode()))
    marks = all_marks(program, words, book, slots)
    spans = {}
    for row in rows_of(program, ["report", "--full", "--slots", str(slots)], book.encode()):
        spans.setdefault(f"Cell {row['lac']}-{row['ci']}", []).append((int(row["start"]), int(row["end"])))
    if list(part) != list(whole):
        yield f"slots {first} to {last}: the cells {list(part)}, of the whole run {list(whole)}"
    for name in part:
        *lines, loads, _ = whole[name]
        *drawn_lines, drawn_loads, _ = part[name]
        wanted = [cut(line, marks.get((name, line["title"]), []), first, last)
                  for line, (start, end) in zip(lines, spans.get(name, []), strict=True)
                  if (first <= start <= last if start == end else min(start, end) < last and first < max(start, end))]
        found_lines = [drawn(line) for line in drawn_lines]
        if found_lines != wanted:
            yield f"slots {first} to {last}: {name} has {found_lines}, of the whole run {wanted}"
        heights = heights_of(loads["load"], slots)
        if heights_of(drawn_loads["load"], last) != {slot: heights[slot] for slot in range(first, last)}:
            yield f"slots {first} to {last}: {name} has the loads {drawn_loads['load']}, the whole run {loads['load']}"


def random_clock(chance):
    """Returns a clock of a run that begins at any time, or shortly before midnight."""
    seconds = chance.choice((chance.randrange(END), chance.randrange(1, END // DAY) * DAY - chance.randrange(1, 1000)))
    return Clock(datetime.datetime(1970, 1, 1) + seconds * 1_000_000 * MICROSECOND
                 + chance.choice((0, chance.randrange(1_000_000))) * MICROSECOND)


def book_by_hand():
    with open(os.path.join(TOP, "examples", "picture.csv"), encoding="utf-8") as it:
        return it.read()


def take_pictures(program, folder):
    """Writes the pictures of docs/."""
    os.makedirs(folder, exist_ok=True)
    flood = chart_contrast.chart_of(program, chart_contrast.flood(), chart_contrast.FLOOD_SLOTS)
    by_hand = chart_contrast.chart_of(program, book_by_hand().encode(), SLOTS_BY_HAND)
    for name, width, lines, dark, media in PICTURES:
        with chart_contrast.opened(by_hand if name == "chart" else flood, width, dark, media) as page:
            bottom = page.run(f"return document.querySelectorAll('div')[{lines - 1}].getBoundingClientRect().bottom")
            page.shot(os.path.join(folder, f"{name}.png"), math.ceil(bottom) + MARGIN)


def too_large(program):
    """Yields which charts of the typical books have more octets than they may have."""
    for seed, slots in itertools.product(SEEDS, (inputs.SLOTS, inputs.MOST_SLOTS)):
        chart = chart_contrast.chart_of(program, inputs.made("typical", seed), slots)
        if len(chart) > MOST_OCTETS:
            yield (f"the chart of `bench/inputs.py typical {seed}` in {slots} slots has {len(chart)} octets, "
                   f"over {MOST_OCTETS}")


def main(words):
    if not words or not os.access(words[0], os.X_OK):
        print(__doc__, end="")
        return 0 if words in (["-h"], ["--help"]) else 2
    program = os.path.abspath(words[0])
    browser = shutil.which("chromium") or shutil.which("chromium-browser")
    if not browser:
        print("chart_check.py: SKIPPED what a browser makes of charts: Chromium isn't installed")
    if words[1:2] == ["--pictures"]:
        if browser:
            take_pictures(program, words[2])
        return 0
    chance, count = random.Random(41), int(words[1]) if words[1:] else 20
    books = [(book_by_hand(), []), *((random_book(chance), []) for _ in range(count))]
    books[5:5] = [(random_book(chance, 4 * GROUP), ["--network"]) for _ in range(-(-count // 10))]
    wrong = [it for number, (book, options) in enumerate(books)
             for it in differences(program, browser if number < BROWSED else None, book, options,
                                   SLOTS_LONG if number % 4 == 3 else SLOTS_BY_HAND,
                                   random_clock(chance) if number % 3 == 2 else Clock())]
    wrong += [*wrong_meanings(), *too_large(program), *(chart_contrast.wrong(program) if browser else ())]
    wrong += [it for book, options in books if not options for it in wrong_part(program, book, chance)]
    wrong += [it for book, options in books[::4] if not options for it in wrong_part(program, book, chance, SLOTS_LONG)]
    print("\n".join(wrong) or f"{len(books)} charts are as their reports{', in the browser too' if browser else ''}")
    return 1 if wrong else 0


if __name__ == "__main__":
    sys.exit(main(sys.argv[1:]))
