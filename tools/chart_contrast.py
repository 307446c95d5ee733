#!/usr/bin/env python3
"""Measures in pixels of Chromium how well the bars of charts of a built program, and the marks on them, can be seen.

Usage: chart_contrast.py PROGRAM    prints the least contrast (WCAG 2) of mark to bar and of bar to lane of each step of
                                    density, by day and by night, and fails if one is under 3
       chart_contrast.py --help     prints this

The charts are of examples/flood.csv, and of a book with a message of each step: in a run that has marks as close as
they are drawn, and in one that has none. In a row of pixels below the short marks, where a phone shows a message first,
the marks are what differs from the bar; there have to be as many as the page has strokes there. The evacuation's bars
have to be darker than those of the notices by day, and brighter by night, by their mean luminance.

CHROMIUM names the browser; else chromium, chromium-browser or google-chrome is taken.
"""
import collections
import contextlib
import functools
import itertools
import math
import os
import struct
import subprocess
import sys
import tempfile
import zlib

from books import Alert, Order, Sending, cell_line

TOP = os.path.dirname(os.path.dirname(os.path.realpath(__file__)))
sys.path.append(os.path.join(TOP, "browser"))
import devtools  # noqa: E402

# the least contrast that parts of a picture have by WCAG 2, criterion 1.4.11
LEAST = 3
STYLES = {"day": False, "night": True}
# the periods of messages of each step
PERIODS = {"f1": 128, "f2": 64, "f3": 32, "f4": 16, "f5": 8}
# runs in slots: the longest in which a message of period 8 has marks, and one in which none of these has
RUNS = (2560, 60_000)
FLOOD, FLOOD_SLOTS = os.path.join(TOP, "examples", "flood.csv"), 4000
WIDTH = 1280
# an svg stands on whole pixels; its marks are whole pixels, too, and the short ones end at 6 of its 10 parts
BARS = """
return [...document.querySelectorAll("svg rect")].map((rect) => {
    const svg = rect.ownerSVGElement, lane = svg.getBoundingClientRect(), bar = rect.getBoundingClientRect();
    const left = Math.round(lane.left), { x, width } = svg.viewBox.baseVal, path = svg.querySelector(".whole");
    let slot = 0;
    const slots = (path?.getAttribute("d").match(/h\\d+/g) ?? []).map((it) => slot += +it.slice(1));
    return { name: svg.parentNode.querySelector("b").textContent, step: rect.className.baseVal,
        row: Math.round(lane.top) + Math.floor(0.8 * lane.height), lane: [left, left + Math.floor(lane.width)],
        bar: [left + bar.left - lane.left, left + bar.right - lane.left],
        marks: slots.map((slot) => Math.floor(left + (slot - x) * lane.width / width)) };
});
"""
# paints all sections, also those out of sight, laid out as when they are seen; returns how high the page is with them
UNFOLD = """
for (const it of document.querySelectorAll("details")) {
    it.open = true;
    it.style.contentVisibility = "visible";
    it.style.contain = "content";
}
return document.documentElement.offsetHeight;
"""
FRAMES = "for (let frame = 0; frame < 2; frame++) await new Promise(requestAnimationFrame)"


def book_of_steps(slots):
    """Returns a book of one cell for a run of so many slots, with a message of each step, which leave lanes free."""
    orders = [Order("write", slots // 10, Alert(step, 4370, 0, number), None, Sending("en", 2, period, 0, step))
              for number, (step, period) in enumerate(PERIODS.items())]
    stops = [Order("stop", slots - slots // 10, it.alert, None) for it in orders]
    return "".join([cell_line((1, 1)), *(it.line() for it in orders + stops)]).encode()


def flood():
    with open(FLOOD, "rb") as it:
        return it.read()


def chart_of(program, book, slots):
    """Returns the chart of a book in a run of so many slots."""
    return subprocess.run([program, "chart", "--slots", str(slots)], input=book, stdout=subprocess.PIPE,
                          check=True).stdout


@contextlib.contextmanager
def opened(chart, width=WIDTH, dark=False, media=""):
    """Gives a chart in Chromium, with all of its sections, in a window as high as the page."""
    with tempfile.TemporaryDirectory() as folder:
        path = os.path.join(folder, "chart.html")
        with open(path, "wb") as file:
            file.write(chart)
        with devtools.Chromium(path, width=width, dark=dark) as page:
            page.look(dark, media)
            page.until("document.readyState === 'complete' && document.querySelector('svg')")
            page.size(width, page.run(UNFOLD))
            page.run(FRAMES)
            yield page


# --- Pixels ---


def paeth(left, up, corner):
    """Returns that of three octets which is nearest to left + up - corner."""
    near, far, both = abs(up - corner), abs(left - corner), abs(left + up - 2 * corner)
    return left if near <= far and near <= both else up if far <= both else corner


# what the filters of PNG (9.2) expect of an octet, by those at its left, above it, and at the left of that
EXPECTED = (None, lambda left, up, corner: left, lambda left, up, corner: up,
            lambda left, up, corner: (left + up) // 2, paeth)


def unfiltered(kind, row, above, step):
    """Returns a row of octets without its filter."""
    if kind == 0:
        return row
    expected, done = EXPECTED[kind], bytearray(step) + row
    for at, (up, corner) in enumerate(zip(above, bytes(step) + above), step):
        done[at] = (done[at] + expected(done[at - step], up, corner)) & 0xFF
    return bytes(done[step:])


def rows_of(png):
    """Returns the rows of a picture of RGB or RGBA, each a list of pixels: red, green and blue."""
    at, packed, head = 8, b"", None
    while at < len(png):
        size, kind = struct.unpack_from(">I4s", png, at)
        if kind == b"IHDR":
            head = struct.unpack_from(">IIBB", png, at + 8)
        if kind == b"IDAT":
            packed += png[at + 8:at + 8 + size]
        at += size + 12
    width, height, _, color = head
    step = {2: 3, 6: 4}[color]
    octets, length, rows, row = zlib.decompress(packed), width * step, [], bytes(width * step)
    for first in range(0, height * (length + 1), length + 1):
        row = unfiltered(octets[first], octets[first + 1:first + 1 + length], row, step)
        rows.append([tuple(row[it:it + 3]) for it in range(0, length, step)])
    return rows


@functools.cache
def luminance(pixel):
    """Returns the relative luminance of WCAG 2, from 0 to 1."""
    parts = [it / 255 for it in pixel]
    red, green, blue = (it / 12.92 if it <= 0.04045 else ((it + 0.055) / 1.055) ** 2.4 for it in parts)
    return 0.2126 * red + 0.7152 * green + 0.0722 * blue


def contrast(one, other):
    """Returns the contrast of WCAG 2 of two pixels, from 1 to 21."""
    low, high = sorted((luminance(one), luminance(other)))
    return (high + 0.05) / (low + 0.05)


def usual(pixels):
    return collections.Counter(pixels).most_common(1)[0][0]


# --- Bars ---


class Bar:
    """What is seen of a bar: its pixels in a row, the contrast to it of each of its marks and of its lane, and how many
    marks there are to be."""

    def __init__(self, of_page, rows):
        row, (first, last) = rows[of_page["row"]], of_page["lane"]
        left, right = math.ceil(of_page["bar"][0]), math.floor(of_page["bar"][1])
        self.name, self.step, self.pixels = of_page["name"], of_page["step"], row[left:right]
        self.strokes = sum(left <= it < right for it in of_page["marks"])
        ground = usual(self.pixels)
        runs = itertools.groupby(self.pixels, lambda it: it != ground)
        self.marks = [max(contrast(it, ground) for it in run) for differs, run in runs if differs]
        # a bar's edge may be between two pixels
        self.lane = contrast(ground, usual(row[first:left - 1] + row[right + 1:last]))


def bars_of(chart, dark):
    """Returns the bars of a chart by day or by night."""
    with opened(chart, dark=dark) as page, tempfile.NamedTemporaryFile(suffix=".png") as picture:
        bars = page.run(BARS)
        page.shot(picture.name)
        rows = rows_of(picture.read())
    return [Bar(it, rows) for it in bars]


def mean(bars, name):
    """Returns the mean luminance of all bars whose names begin so."""
    pixels = [pixel for it in bars if it.name.startswith(name) for pixel in it.pixels]
    return sum(map(luminance, pixels)) / len(pixels)


def measured(program):
    """Yields what is found, a line for each step in each style and one of the flood, and whether it is as it has to
    be."""
    charts = [chart_of(program, book_of_steps(slots), slots) for slots in RUNS]
    of_flood = chart_of(program, flood(), FLOOD_SLOTS)
    for style, dark in STYLES.items():
        seen = bars_of(of_flood, dark)
        bars = [seen, *(bars_of(it, dark) for it in charts)]
        for step in PERIODS:
            yield of_step(f"{style} {step}", [it for each in bars for it in each if it.step == step])
        evacuation, notices = mean(seen, "evac-"), mean(seen, "flood-")
        yield (f"{style}: the evacuation has a mean luminance of {evacuation:.4f}, the notices {notices:.4f}",
               evacuation > notices if dark else evacuation < notices)


def of_step(title, bars):
    """Returns the line of a step, and whether its bars are as they have to be, with marks and without."""
    marks, strokes = [least for it in bars for least in it.marks], [it.strokes for it in bars]
    are_seen = all(len(it.marks) == it.strokes for it in bars) and 0 in strokes
    # two digits, cut, as 2.996 isn't enough
    mark, lane = (math.floor(100 * min(of, default=0)) / 100 for of in (marks, [it.lane for it in bars]))
    line = (f"{title}: mark to bar {mark:.2f} ({len(marks)} marks seen of {sum(strokes)}), bar to lane {lane:.2f} "
            f"({len(bars)} bars, {strokes.count(0)} without marks)")
    return line, are_seen and min(mark, lane) >= LEAST


def wrong(program):
    """Yields the lines that aren't as they have to be."""
    yield from (line for line, is_right in measured(program) if not is_right)


def main(words):
    if len(words) != 1 or not os.access(words[0], os.X_OK):
        print(__doc__, end="")
        return 0 if words in (["-h"], ["--help"]) else 2
    if not devtools.Chromium.found():
        print("chart_contrast.py: SKIPPED: Chromium isn't installed")
        return 0
    failed = 0
    for line, is_right in measured(os.path.abspath(words[0])):
        print(line if is_right else f"{line}: WRONG", flush=True)
        failed += not is_right
    return 1 if failed else 0


if __name__ == "__main__":
    sys.exit(main(sys.argv[1:]))
