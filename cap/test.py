#!/usr/bin/env python3
"""Tries warnc-cap: on samples of the standard and others, on the cases of cases.txt, on random days that days.py
judges, and on messages that are spoilt.

Usage: test.py PROGRAM [RUNS [DAYS]]    PROGRAM is a built `warnc`; so many messages are spoilt, 2,000 if it isn't
                                        given, and there are so many random days, 500 if it isn't
       test.py --help                   prints this

A folder of samples/ has messages, cells, a policy and the words of the call, and what was worked out by hand: the book,
the status, and the files and elements that are told. cases.txt says how its cases are written.
"""
import os
import random
import re
import shlex
import subprocess
import sys
import tempfile
import time
from concurrent.futures import ThreadPoolExecutor
from dataclasses import dataclass
from datetime import datetime, timedelta, timezone
from itertools import product

sys.dont_write_bytecode = True
HERE = os.path.dirname(os.path.realpath(__file__))
sys.path.insert(0, HERE)
import days  # noqa: E402
from warnc_cap import message  # noqa: E402

COMMAND = os.path.join(HERE, "warnc-cap")
START = datetime(2026, 3, 1, tzinfo=timezone.utc)
RECEIPT = "sender,identifier,info,id,serial,cells,pages,first_shown,shown_in_all,refused,cut,unwarned_areas"
# no call takes longer, in seconds of a processor; on a busy machine that is several times as long by a clock
MOST_SECONDS = 20
BUSY = 15
# runs a command that may take so long
LIMITED = ("sh", "-c", f'ulimit -t {MOST_SECONDS}; exec "$@"', "sh")
RUNS, DAYS = 2000, 500
# a crowded day is as much work as several others, and a network's too
DAYS_A_CROWDED, POLYGONS, HEADLINES = 4, 60, 200


def ran(program, words, folder):
    """Returns the status of a call, the book, and the lines that are told."""
    done = subprocess.run([*LIMITED, sys.executable, "-B", COMMAND, "--warnc", program, *words], cwd=folder,
                          capture_output=True, timeout=BUSY * MOST_SECONDS, check=False)
    return done.returncode, done.stdout.decode(), done.stderr.decode().splitlines()


def untold(wanted, lines):
    """Returns what is wanted and isn't told, and what is told and isn't wanted."""
    left, lacking = list(lines), []
    for it in wanted:
        found = next((line for line in left if line.removeprefix("note: ").startswith(f"{it}: ")), None)
        if found is None:
            lacking.append(f"not told: {it}")
        else:
            left.remove(found)
    return lacking + [f"told: {it}" for it in left]


def judge(name, found, status, book, told):
    """Whether a call does what is wanted; prints how it doesn't."""
    wrong = untold(told, found[2])
    wrong += [] if found[0] == status else [f"status {found[0]}, not {status}"]
    wrong += [] if found[1] == book else [f"the book is\n{found[1]}and not\n{book}"]
    print("".join(f"cap/test.py: {name}: {it}\n" for it in wrong), end="")
    return not wrong


def read(*path):
    with open(os.path.join(*path), encoding="utf-8", newline="") as it:
        return it.read()


def sample(program, folder):
    words = ["--cells", "cells.csv", *shlex.split(read(folder, "options")), "cap"]
    return judge(os.path.basename(folder), ran(program, words, folder), int(read(folder, "status")),
                 read(folder, "expected.csv"), read(folder, "told").splitlines())


# --- The cases of cases.txt ---


def at(seconds):
    return (START + timedelta(seconds=float(seconds))).isoformat()


def element(name, value):
    return f"<{name}>{value}</{name}>"


def pair(name, key, value):
    return element(name, element("valueName", key) + element("value", value))


def info_of(words):
    """Returns an info of the words of a line."""
    given = {"threat": "Extreme,Immediate,Observed", "event": "Flood"}
    codes, areas, name = "", "", "area"
    for it in [*words, "area="]:
        key, _, value = it.partition("=")
        if key in ("polygon", "circle", "area"):
            shape = "" if key == "area" else element(key, value)
            areas += element("area", element("areaDesc", name) + shape + codes) if shape or codes else ""
            codes, name = "", value if key == "area" else name
        elif len(key) == 1:
            codes += pair("geocode", key, value)
        else:
            given[key] = value
    severity, urgency, certainty = given["threat"].split(",")
    parts = [element("language", given["lang"])] if "lang" in given else []
    parts += [element("event", given["event"]), element("urgency", urgency), element("severity", severity),
              element("certainty", certainty)]
    parts += [pair("eventCode", "SAME", given["same"])] if "same" in given else []
    parts += [element(it, at(given[it])) for it in ("effective", "expires") if it in given]
    parts += [element(it, given[it]) for it in ("headline", "description", "instruction") if it in given]
    return element("info", "".join(parts) + areas)


def message_of(line):
    """Returns the name and the text of the message of a line."""
    head, *infos = [shlex.split(it) for it in line.split(" | ")]
    kind, name, sent, *more = head
    given = dict(it.split("=", 1) for it in more)
    names = [it for it in given.get("of", "").split(",") if it]
    references = " ".join(f"w@x.example,{it},{START.isoformat()}" for it in names)
    parts = [element("identifier", given.get("id", name)), element("sender", "w@x.example"), element("sent", at(sent)),
             element("status", given.get("status", "Actual")), element("msgType", kind.capitalize()),
             element("scope", given.get("scope", "Public"))]
    parts += [element("references", references)] if references else []
    text = f'<alert xmlns="{message.NAMESPACE}">{"".join(parts)}{"".join(map(info_of, infos))}</alert>'
    return f"{name}.xml", text.replace("\\n", "\n")


def repeated(line):
    """Returns a line in which {a*3} is aaa."""
    return re.sub(r"\{(.+?)\*(\d+)\}", lambda it: it[1] * int(it[2]), line)


def cases():
    """Yields the name and the lines of each case."""
    for it in re.split(r"^case ", read(HERE, "cases.txt"), flags=re.M)[1:]:
        name, *lines = [line for line in it.splitlines() if line and not line.startswith("#")]
        yield name, lines


def put(folder, name, text):
    with open(os.path.join(folder, name), "w", encoding="utf-8", newline="") as it:
        it.write(text)


def case(program, name, lines):
    """Whether a case comes out as it is written."""
    words, status, told, book, receipt = [], 0, [], [], []
    with tempfile.TemporaryDirectory() as folder:
        os.mkdir(os.path.join(folder, "cap"))
        for line in map(repeated, lines):
            key, _, rest = line.partition(" ")
            if key in ("cells", "policy"):
                put(folder, f"{key}.csv", "".join(f"{it.replace('_', ' ')}\n" for it in rest.split()))
                words += ["--policy", "policy.csv"] if key == "policy" else []
            elif key == "words":
                words += shlex.split(rest)
            elif key == "status":
                status = int(rest)
            elif key == "told":
                told.append(rest)
            elif key == "row":
                book.append(rest.replace("\\n", "\n") + "\n")
            elif key == "receipt":
                receipt.append(rest + "\n")
            elif key == "octets":
                file, _, text = rest.partition(" ")
                put(os.path.join(folder, "cap"), file, text)
            elif key == "copy":
                file, _, other = rest.partition(" ")
                put(os.path.join(folder, "cap"), file, read(folder, "cap", other))
            else:
                put(os.path.join(folder, "cap"), *message_of(line))
        cells = [f"cell,{','.join(it.split(',')[:2])}\n" for it in read(folder, "cells.csv").splitlines()[1:]]
        slots = [] if "--slots" in words else ["--slots", "4096"]
        slots += ["--receipt", "receipt.csv"] if receipt else []
        found = ran(program, ["--cells", "cells.csv", "--start", START.isoformat(), *slots, *words, "cap"], folder)
        good = not receipt or has_receipt(name, folder, receipt)
    return judge(name, found, status, "".join(cells + book), told) and good


def has_receipt(name, folder, lines):
    """Whether a call wrote a receipt; prints what it wrote if not."""
    found, wanted = read(folder, "receipt.csv"), f"{RECEIPT}\n{''.join(lines)}"
    if found != wanted:
        print(f"cap/test.py: {name}: the receipt is\n{found}and not\n{wanted}")
    return found == wanted


# --- Several days ---

DAY = 86400


@dataclass
class Call:
    """A call: its start, its messages, the rows of its book, those of them that are new, what is told of rows that are
    there no longer, and the receipt."""

    start: int
    messages: tuple
    rows: tuple
    new: tuple
    gone: tuple
    receipt: tuple
    slots: int = 9000


WRITE_A = "write,0,w@x.example/A/1,4371,1,1,en,0,64,0,*,One"
UPDATE_A = "update,1912,w@x.example/A/1,en,0,64,0,*,Three"
WRITE_D = "write,0,w@x.example/D/1,4371,1,3,en,0,64,0,*,Late"
STOP_A = "stop,1859,w@x.example/A/1,*"
WRITE_C = "write,1912,w@x.example/C/1,4371,1,4,en,0,64,0,*,Three"
# D was sent before B, and comes after it: it takes the next code. The second day begins in slot 45,883 of the first.
# On it the Cancel E comes late: it was sent before the Update C (3,500 s are slot 1,859: 1,858.7), so that C, which
# updates nothing then, is a write. On the third day A is over, and C and D are on the air. A page of A is in slot 0 of
# each 64, and one of D in slot 1.
CALLS = (
    Call(0, ("alert A 3600 | headline=One Z=a", "alert B 7200 | headline=Two Z=a expires=9000"),
         ("write,1912,w@x.example/A/1,4371,1,1,en,0,64,0,*,One",
          "write,3824,w@x.example/B/1,4371,1,2,en,0,64,15,*,Two"),
         ("write,1912,w@x.example/A/1,4371,1,1,en,0,64,0,*,One",
          "write,3824,w@x.example/B/1,4371,1,2,en,0,64,15,*,Two"), (),
         ("A,1,4371,4010,1,1,1912,1912,0,0,", "B,1,4371,4020,1,1,3824,3824,0,0,")),
    Call(DAY, ("update C 90000 of=A | headline=Three Z=a", "alert D 3700 | headline=Late Z=a"),
         (WRITE_A, WRITE_D, UPDATE_A), (WRITE_D, UPDATE_A), (),
         ("A,1,4371,4010,1,1,0,0,0,0,", "D,1,4371,4030,1,1,1,1,0,0,", "B,1,,,,,,,,,",
          "C,1,4371,4011,1,1,1912,1912,0,0,")),
    Call(DAY, (), (WRITE_A, WRITE_D, UPDATE_A), (), (),
         ("A,1,4371,4010,1,1,0,0,0,0,", "D,1,4371,4030,1,1,1,1,0,0,", "B,1,,,,,,,,,",
          "C,1,4371,4011,1,1,1912,1912,0,0,")),
    Call(DAY, ("cancel E 89900 of=A",), (WRITE_A, WRITE_D, STOP_A, WRITE_C), (STOP_A, WRITE_C),
         ("w@x.example/A/1: update",),
         ("A,1,4371,4010,1,1,0,0,0,0,", "D,1,4371,4030,1,1,1,1,0,0,", "B,1,,,,,,,,,",
          "C,1,4371,4040,1,1,1912,1912,0,0,")),
    Call(DAY * 2, (), (WRITE_D, "write,0,w@x.example/C/1,4371,1,4,en,0,64,0,*,Three"), (), (),
         ("A,1,,,,,,,,,", "D,1,4371,4030,1,1,0,0,0,0,", "B,1,,,,,,,,,", "C,1,4371,4040,1,1,1,1,0,0,")),
)
WRITE_F = "write,1912,w@x.example/F/1,4371,1,1,en,0,64,0,*,Far"
# 90,000 s are past the end of the first run, and in slot 1,912 of the second day; 92,000 s are 2,974 (2,973.9), past
# the end of its first run of 2,000 slots, and in the next.
LATE_CALLS = (
    Call(0, ("alert F 0 | headline=Far Z=a effective=90000",), (), (), (), ("F,1,,,,,,,,,",)),
    Call(DAY, ("cancel G 92000 of=F",), (WRITE_F,), (WRITE_F,), (), ("F,1,4371,4010,1,1,1912,1912,0,0,",), 2000),
    Call(DAY, (), (WRITE_F, "stop,2974,w@x.example/F/1,*"), ("stop,2974,w@x.example/F/1,*",), (),
         ("F,1,4371,4010,1,1,1912,1912,0,0,",)),
    Call(DAY, (), (WRITE_F, "stop,2974,w@x.example/F/1,*"), (), (), ("F,1,4371,4010,1,1,1912,1912,0,0,",)),
)


def several_calls(program, calls, since):
    """Whether what one call keeps goes on in the next: messages, and codes of names. With `since` only rows that are
    new are written, and what is there no longer is told."""
    good = True
    with tempfile.TemporaryDirectory() as folder:
        put(folder, "cells.csv", "lac,ci,lat,lon,radius,Z\n1,1,,,,a\n")
        for number, call in enumerate(calls):
            names = []
            for line in call.messages:
                names.append(message_of(line)[0])
                put(folder, *message_of(line))
            words = ["--cells", "cells.csv", "--start", at(call.start), "--slots", str(call.slots), "--state",
                     "state.json", "--receipt", "receipt.csv", *names, *(["--since"] if since else [])]
            status, book, told = ran(program, words, folder)
            name, rows = f"call {number}", call.new if since else call.rows
            gone = [it for it in told if "no longer" in it]
            good = judge(name, (status, book, gone), 0, "".join(f"{it}\n" for it in ("cell,1,1", *rows)),
                         call.gone if since else []) and good
            good = has_receipt(name, folder, [f"w@x.example,{it}\n" for it in call.receipt]) and good
        for wrong in ("", "{}", "[1]", '{"version": 1, "codes": {"a": "b"}, "messages": []}', "[" * 100_000):
            put(folder, "state.json", wrong)
            status, book, lines = ran(program, words, folder)
            if (status, book, len(lines)) != (2, "", 1):
                print(f"cap/test.py: state {wrong[:40]}: status {status}", *lines[-3:], sep="\n")
                good = False
    return good


# --- What strangers type ---

PLACE, TIME = ["--cells", "cells.csv"], ["--start", "2026-03-01T00:00:00Z"]
RIGHT = [*PLACE, *TIME, "--slots", "64"]
# The words of calls, and their status.
STRANGE = (
    (["--help"], 0), ([], 2), (["cap"], 2), (PLACE, 2), ([*PLACE, *TIME, "cap"], 2), (RIGHT, 2), ([*RIGHT, "cap"], 0),
    (["cap", *RIGHT], 0), ([*RIGHT, "--", "cap"], 0), ([*RIGHT, "cap/A.xml", "cap"], 0), ([*RIGHT, "empty"], 0),
    ([*RIGHT, "none.xml"], 1), ([*RIGHT, "mixed"], 1), ([*RIGHT, ""], 1), ([*RIGHT, b"\xff.xml"], 0),
    ([*RIGHT, "--state", "names.json", b"\xff.xml"], 0), ([*RIGHT, "--state", "names.json"], 0),
    ([*PLACE, *TIME, "--slots", "0", "cap"], 2), ([*PLACE, *TIME, "--slots", "65536", "cap"], 2),
    ([*PLACE, *TIME, "--slots", "\u0664", "cap"], 2), ([*PLACE, *TIME, "--slots", "1_0", "cap"], 2),
    ([*PLACE, "--start", "now", "--slots", "64", "cap"], 2), ([*RIGHT, "--stric", "cap"], 2),
    ([*RIGHT, "--cells", "none.csv", "cap"], 2), ([*RIGHT, "--cells", "cap", "cap"], 2),
    ([*RIGHT, "--cells", "empty.csv", "cap"], 2), ([*RIGHT, "--cells", "names.csv", "cap"], 2),
    ([*RIGHT, "--policy", "none.csv", "cap"], 2), ([*RIGHT, "--policy", "cells.csv", "cap"], 2),
    ([*RIGHT, "--since", "cap"], 2), ([*RIGHT, "--state", "none/s.json", "cap"], 2), ([*RIGHT, "--state", "cap"], 2),
    ([*RIGHT, "--receipt", "none/r.csv", "cap"], 2), ([*RIGHT, "--receipt", "empty", "cap"], 2),
    ([*RIGHT, "--state", "s.json", "--receipt", "./s.json", "cap"], 2), ([*RIGHT, "--warnc", "none", "cap"], 2),
    ([*RIGHT, "--warnc", "/bin/true", "cap"], 2), ([*RIGHT, "--warnc", "/bin/false", "cap"], 2),
    ([*RIGHT, "--warnc", "./faulty", "cap"], 2),
)
# A program that finds a fault in each book.
FAULTY = """#!/bin/sh
[ "$1" = check ] || exec PROGRAM "$@"
printf 'row,line,column,field,value,says\\n2,2,12,TEXT,One,a text\\n'
exit 1
"""


def strangers(program):
    """Whether calls with odd words have their status and no traceback, and write nothing with status 2."""
    good = True
    with tempfile.TemporaryDirectory() as folder:
        for name in ("cap", "mixed", "mixed/in", "empty", "empty/in"):
            os.mkdir(os.path.join(folder, name))
        text = message_of("alert A 0 | headline=One Z=a expires=60")[1]
        for name in (b"cap/A.xml", b"mixed/A.xml", b"mixed/.B.xml", b"mixed/in/B.xml", b"\xff.xml"):
            with open(os.path.join(os.fsencode(folder), name), "w", encoding="utf-8") as it:
                it.write("" if b"B" in name else text)
        put(folder, "mixed/C.xml", text[:200])
        put(folder, "cells.csv", "lac,ci,lat,lon,radius,Z\n1,1,,,,a\n")
        put(folder, "names.csv", "lac,ci,lat,lon,radius,Z\n")
        put(folder, "empty.csv", "")
        put(folder, "faulty", FAULTY.replace("PROGRAM", shlex.quote(program)))
        os.chmod(os.path.join(folder, "faulty"), 0o755)
        for words, wanted in STRANGE:
            status, book, told = ran(program, words, folder)
            if status != wanted or any("Traceback" in it for it in told) or status == 2 and book:
                print(f"cap/test.py: {words}: status {status}, not {wanted}", book, *told, sep="\n")
                good = False
        return all([nowhere(program, folder, it) for it in ("/dev/full", None)]) and good


def nowhere(program, folder, path):
    """Whether a call whose book can't be written, or isn't read, has status 2 and keeps nothing."""
    words = [*RIGHT, "--state", "s.json", "--receipt", "r.csv", "cap"]
    reader, writer = os.pipe()
    os.close(reader)
    with open(writer, "wb") as pipe, open(path or os.devnull, "wb") as file:
        done = subprocess.run([sys.executable, "-B", COMMAND, "--warnc", program, *words], cwd=folder, check=False,
                              stdout=file if path else pipe, stderr=subprocess.PIPE, timeout=BUSY * MOST_SECONDS)
    left = [it for it in os.listdir(folder) if it.startswith(("s.json", "r.csv"))]
    if done.returncode != 2 or left or done.stderr.count(b"\n") != 1:
        print(f"cap/test.py: {path}: status {done.returncode}, {left} is left", done.stderr.decode(), sep="\n")
    return done.returncode == 2 and not left and done.stderr.count(b"\n") == 1


def network(program):
    """Whether 65 cells get a network book, whose second group has one cell, and what no cell has room for is told."""
    with tempfile.TemporaryDirectory() as folder:
        put(folder, "cells.csv", "lac,ci,lat,lon,radius,Z\n" + "".join(
            f"1,{it},,,,{'a' if it % 2 else 'b'}\n" for it in range(65)))
        put(folder, "policy.csv", "id,category,period,pages\n4371,0,1,1\n4396,2,4,1\n")
        for line in ("alert A 0 | headline=One Z=a Z=b expires=60", "cancel B 30 of=A",
                     "alert C 0 | threat=Minor,Past,Unknown headline=Two Z=b expires=60"):
            put(folder, *message_of(line))
        words = [*RIGHT, "--policy", "policy.csv", "--receipt", "receipt.csv", "A.xml", "B.xml", "C.xml"]
        found, other = ran(program, words, folder), ran(program, words[:-3] + words[:-4:-1], folder)
        even = " ".join(f"1-{it}" for it in range(0, 65, 2))
        book = "".join(f"cell,1,{it}\n" for it in range(65))
        # 60 s are 32 slots, 30 s 16 (15.9); 4 slots eight times are 32
        book += "write,0,w@x.example/A/1,4371,1,1,en,0,1,32,*,One\n"
        book += f"write,0,w@x.example/C/1,4396,1,2,en,2,4,8,{even},Two\nstop,16,w@x.example/A/1,*\n"
        good = judge("a network", found, 0, book, ["w@x.example/C/1: write"])
        good = judge("words in another order", other, 0, book, ["w@x.example/C/1: write"]) and good
        return has_receipt("a network", folder, ["w@x.example,A,1,4371,4010,65,1,0,0,0,0,\n",
                                                 "w@x.example,C,1,4396,4020,33,1,,,33,0,\n"]) and good


# --- Spoilt messages ---

HOSTILE = (
    b"", b"<", b"<alert/>", b"\xff\xfe<\x00a\x00/\x00>\x00", b"<?xml version='1.0' encoding='utf-16'?><a/>",
    b"<?xml version='1.0' encoding='klingon'?><a/>", b"<!DOCTYPE a [<!ENTITY b 'c'>]><a>&b;</a>",
    b"<!DOCTYPE a SYSTEM 'file:///etc/passwd'><a/>", b"<a>" * 100_000, b"x" * 5_000_000,
)
ODD = ("", "1e400", "\u0661\u0662", "-", "0001-01-01T00:00:00+14:00", "9999-12-31T23:59:59-14:00", "90.1,0", "nan,inf",
       "&amp;", "a b", ",", "1,1 1,1 1,1", "0,0 " * 5000, "word " * 20_000, "\u202e", "2026-02-30T00:00:00Z", "\ud7ff")


def spoilt(rng, texts):
    """Returns a message in which something is another."""
    text = rng.choice(texts)
    for _ in range(rng.choice((1, 1, 2, 5))):
        parts = re.findall(r"<[^>]*>|[^<]+", text)
        where = rng.randrange(len(parts))
        way = rng.randrange(5)
        if way == 0:
            parts[where] = rng.choice(ODD)
        elif way == 1:
            del parts[where]
        elif way == 2:
            parts.insert(where, parts[where])
        elif way == 3:
            other = rng.randrange(len(parts))
            parts[where], parts[other] = parts[other], parts[where]
        else:
            parts[where] = parts[where].replace(rng.choice(parts[where] or "x"), chr(rng.randrange(32, 700)))
        text = "".join(parts)
    return text.encode("utf-8", "replace")


def reads(octets):
    """Whether a message is read or refused in time, and by nothing else."""
    began = time.thread_time()
    try:
        message.message_of("x.xml", octets)
    except message.Wrong:
        pass
    return time.thread_time() - began < MOST_SECONDS


def spoilt_runs(program, runs):
    """Whether spoilt messages are read or refused: all alone, and in calls of a hundred."""
    texts = [message_of(line)[1] for _, lines in cases() for line in lines if line.startswith(("alert", "update"))]
    rng, made = random.Random(1), list(HOSTILE)
    made += [spoilt(rng, texts) for _ in range(runs)]
    good = all(map(reads, made))
    with tempfile.TemporaryDirectory() as folder:
        put(folder, "cells.csv", "lac,ci,lat,lon,radius,Z\n1,1,0.5,0.5,,a\n1,2,,,,b\n")
        words = ["--cells", "cells.csv", "--start", START.isoformat(), "--slots", "256"]
        for begin in range(0, len(made), 100):
            names = [f"{it}.xml" for it in range(begin, min(begin + 100, len(made)))]
            for it in names:
                with open(os.path.join(folder, it), "wb") as file:
                    file.write(made[int(it[:-4])])
            status, _, lines = ran(program, words + names, folder)
            if status not in (0, 1) or any("Traceback" in it for it in lines):
                print(f"cap/test.py: spoilt messages {begin} ..: status {status}", *lines[-5:], sep="\n")
                good = False
    return good


def plain_days(program, count):
    """Whether random days come out as they should."""
    wrong = sum([days.differs(it, program) for it in range(count)])
    print(f"cap/test.py: {count - wrong} of {count} random days are as they should, with no fault or `orders nothing`")
    return not wrong


def crowded_days(program, count):
    """Whether crowded days and networks come out as they should; there has to be something refused and moved."""
    found = [days.crowded_differs(it, program) for it in range(count)]
    writes, updates, waiting = (sum(it[at] for it in found) for at in (1, 2, 3))
    wrong = sum(it[0] for it in found) + sum([days.network_differs(it, program) for it in range(count)])
    print(f"cap/test.py: {count} crowded days: {writes} writes and {updates} updates have no room, {waiting} wait")
    return not wrong and (count < 50 or min(writes, updates, waiting) > 0)


def whole(name, sent, info, more=""):
    """Returns a message with an info."""
    given = {"identifier": name, "sender": "w", "sent": at(sent), "status": "Actual",
             "msgType": "Update" if more else "Alert", "scope": "Public"}
    parts = "".join(element(*it) for it in given.items())
    return f'<alert xmlns="{message.NAMESPACE}">{parts}{more}{info}</alert>'


def big_messages():
    """Yields the names of calls, and messages of each that are too big or too many, though each is well formed."""
    def info(headline="One", instruction="", area=pair("geocode", "Z", "a")):
        parts = {"event": "Flood", "urgency": "Immediate", "severity": "Extreme", "certainty": "Observed",
                 "headline": headline, "instruction": instruction, "area": element("areaDesc", "x") + area}
        return element("info", "".join(element(*it) for it in parts.items()))
    points = " ".join(f"{it % 180 / 2 - 45},{it % 359 - 179}" for it in range(200_000))
    yield "two million words", [whole("A", 0, info("a " * 950_000, "b " * 950_000))]
    yield "combining characters", [whole("A", 0, info("a" + "\u0301\u0323" * 900_000))]
    yield "200,000 points", [whole("A", 0, info(area=element("polygon", f"0,0 {points} 0,0")))]
    yield "shapes", [whole("A", 0, info(area="".join(element("circle", f"{it % 90},1 9999") for it in range(90_000))))]
    yield "1,024 infos", [whole("A", 0, info() * 1024)]
    yield "names of 3,900,000 characters", [whole(f"{it}{'x' * 3_900_000}", 0, info()) for it in range(5)]
    yield "1,000 messages without room", [
        whole(f"M{it}", it * 60, info("word " * 150),
              element("references", f"w,M{it - 1},{at(0)}") if it % 2 else "") for it in range(1000)]


def big_runs(program):
    """Whether big messages get a complaint, or are taken, in time."""
    good = True
    for name, texts in big_messages():
        with tempfile.TemporaryDirectory() as folder:
            put(folder, "cells.csv", "lac,ci,lat,lon,radius,Z\n1,1,0.5,0.5,,a\n1,2,60,1,,b\n")
            for number, text in enumerate(texts):
                put(folder, f"{number}.xml", text)
            names = [f"{it}.xml" for it in range(len(texts))]
            words = ["--cells", "cells.csv", "--start", START.isoformat(), "--slots", "4096", "--receipt", "r.csv"]
            try:
                status, _, lines = ran(program, words + names, folder)
            except subprocess.TimeoutExpired:
                status, lines = None, []
            if status not in (0, 1) or any("Traceback" in it for it in lines):
                print(f"cap/test.py: {name}: status {status}", *lines[-5:], sep="\n")
                good = False
    return good


def polygons(count):
    """Whether cells come into random polygons as by a second way."""
    found = [days.polygon_differs(it) for it in range(count)]
    return not any(it[0] for it in found) and all(sum(it[at] for it in found) > count for at in (1, 2))


def headlines(program, count):
    """Whether headlines give way to instructions as the longest of all fronts do that fit."""
    found = [days.headline_differs(it, program) for it in range(count)]
    return not any(it[0] for it in found) and sum(it[1] for it in found) > count // 4


def main(words):
    if words in ([], ["-h"], ["--help"]) or len(words) > 3 or not all(it.isdigit() for it in words[1:]):
        print(__doc__)
        return 0 if words in (["-h"], ["--help"]) else 2
    program = os.path.abspath(words[0])
    runs, count = [*map(int, words[1:]), *(RUNS, DAYS)[len(words) - 1:]]
    folders = sorted(os.path.join(HERE, "samples", it) for it in os.listdir(os.path.join(HERE, "samples")))
    with ThreadPoolExecutor(len(os.sched_getaffinity(0))) as pool:
        jobs = [pool.submit(sample, program, it) for it in folders]
        jobs += [pool.submit(case, program, name, lines) for name, lines in cases()]
        jobs.append(pool.submit(plain_days, program, count))
        jobs.append(pool.submit(crowded_days, program, count // DAYS_A_CROWDED))
        jobs.append(pool.submit(days.keeps_chains))
        jobs += [pool.submit(several_calls, program, *it) for it in product((CALLS, LATE_CALLS), (False, True))]
        jobs.append(pool.submit(spoilt_runs, program, runs))
        jobs += [pool.submit(it, program) for it in (strangers, network, big_runs)]
        jobs += [pool.submit(polygons, POLYGONS), pool.submit(headlines, program, HEADLINES)]
        failed = sum(not it.result() for it in jobs)
    counts = f"{len(jobs) - 13} cases, three days, {count} random days and {runs} spoilt messages"
    print(f"cap/test.py: {counts}, {failed} failed")
    return 1 if failed else 0


if __name__ == "__main__":
    sys.exit(main(sys.argv[1:]))
