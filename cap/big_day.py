#!/usr/bin/env python3
"""Writes a big day for warnc-cap: cells.csv with 16,384 cells, and a folder cap of 200 messages with polygons, two of
five of which are updates, many in two languages and longer than their pages.

Usage: big_day.py FOLDER    FOLDER is made if it isn't there
       big_day.py --help    prints this
"""
import math
import os
import random
import sys
from datetime import datetime, timedelta, timezone

START = datetime(2026, 3, 1, tzinfo=timezone.utc)
ROWS, MESSAGES, SECONDS = 128, 200, 14_400
WORDS = ("flood", "river", "storm", "stay", "away", "from", "the", "bank")


def at(seconds):
    return (START + timedelta(seconds=seconds)).isoformat()


def cells():
    """Returns the cells: a field of them, each of which reaches two kilometres."""
    lines = [f"{it // 1024},{it % 1024},{45 + it // ROWS * 0.05:.4f},{5 + it % ROWS * 0.07:.4f},2\n"
             for it in range(ROWS * ROWS)]
    return "lac,ci,lat,lon,radius\n" + "".join(lines)


def polygon(rng):
    """Returns a star of 5 to 100 points, which is 20 to 200 kilometres wide each way."""
    lat, lon, size = 45 + rng.random() * 6.4, 5 + rng.random() * 9, rng.choice((0.2, 0.5, 1, 2))
    count, points = rng.choice((5, 20, 100)), []
    for it in range(count):
        angle = 2 * math.pi * it / count
        points.append((lat + size * math.sin(angle) * rng.uniform(0.7, 1),
                       lon + 1.4 * size * math.cos(angle) * rng.uniform(0.7, 1)))
    return " ".join(f"{it[0]:.5f},{it[1]:.5f}" for it in [*points, points[0]])


def message(rng, number):
    """Returns a message, which may update one of those before it."""
    sent = number * SECONDS // MESSAGES
    refers = number and rng.random() < 0.4
    threat = "".join(f"<{name}>{rng.choice(words)}</{name}>" for name, words in (
        ("urgency", ("Immediate", "Expected")), ("severity", ("Extreme", "Severe", "Minor")),
        ("certainty", ("Observed", "Likely"))))
    text = " ".join(rng.choice(WORDS) for _ in range(rng.choice((10, 40, 160))))
    area = f"<area><areaDesc>a star</areaDesc><polygon>{polygon(rng)}</polygon></area>"
    infos = "".join(
        f"<info><language>{it}</language><event>Flood</event>{threat}<expires>{at(sent + rng.choice((1800, 7200)))}"
        f"</expires><headline>Flood {number}</headline><description>{text}</description>{area}</info>"
        for it in ("de", "en")[:rng.choice((1, 2))])
    references = f"<references>w@x.example,M{rng.randrange(number)},{at(0)}</references>" if refers else ""
    return (f'<alert xmlns="urn:oasis:names:tc:emergency:cap:1.2"><identifier>M{number}</identifier>'
            f"<sender>w@x.example</sender><sent>{at(sent)}</sent><status>Actual</status>"
            f"<msgType>{'Update' if refers else 'Alert'}</msgType><scope>Public</scope>{references}{infos}</alert>")


def main(words):
    if len(words) != 1 or words[0] in ("-h", "--help"):
        print(__doc__, end="")
        return 0 if words in (["-h"], ["--help"]) else 2
    os.makedirs(os.path.join(words[0], "cap"), exist_ok=True)
    with open(os.path.join(words[0], "cells.csv"), "w", encoding="utf-8") as it:
        it.write(cells())
    rng = random.Random(1)
    for number in range(MESSAGES):
        with open(os.path.join(words[0], "cap", f"{number:03}.xml"), "w", encoding="utf-8") as it:
            it.write(message(rng, number))
    return 0


if __name__ == "__main__":
    sys.exit(main(sys.argv[1:]))
