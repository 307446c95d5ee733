#!/usr/bin/env python3
"""Runs warnc on mutated books, tapes, captures, texts and command lines, and reports what breaks a promise of
docs/formats.md.

Usage: fuzz.py [--minutes M] [--seed N] [--jobs J] [--warnc PROGRAM] [--keep FOLDER]
       fuzz.py --replay FILE [--shrink] [--warnc PROGRAM]

The program is the one that ./warnc builds, unless --warnc names another. On a terminal a line shows how far it is. At
the end comes a table of runs by command and status. The last line is 'N runs, M findings', and it fails if M is not 0
(or, with status 2, if the tool itself failed).
Each finding has a folder with the input, the words, and what came out; of one kind the first few are kept. With
--replay and the file `case.json` of such a folder the finding is tried again, and --shrink looks for a small input
that has it too. The same --seed gives the same inputs in the same order; only how many of them are tried depends on
the time and the machine.

Inputs come from the seeds in tools/fuzz/ and from makers of whole books, tapes, captures and texts. They are mutated by
grammar (rows, columns, numbers, languages, characters, quotes, slots, blocks, packets) and by octet (flip, insert,
delete, cut, splice).
The first inputs are the seeds as they stand.

A finding is one of these:
- a status that isn't 0 to 4, or that nothing in the run can give: 2 with good words, 3 with sound devices, 4 with ample
  memory; a fault of `compile`, `live` or `report` of which docs/formats.md says that no run is known that has it;
- a signal, or a run that is past its bound of time twice;
- octets on standard output with status 1 (but for the differences of `verify`), 2 or 4, or with `read failed`; with
  status 0 other output than the command's;
  with `write failed` anything but a front of the output;
- a fault line that is missing, is not alone or has another form; anything on standard error with status 0, but for the
  line of `orders`;
- two answers that should be one: of the same input twice; with 1 worker and with several; of `live` with one session
  and `compile`; of an input that comes in pieces; with little memory, unless it is `out of memory`;
- tapes of `compile` or `live` that `read` refuses, or in which `verify` finds a difference from their book, in any
  order; another fault of tapes in `verify` or `pcap` than in `read`; a number of differences that isn't that of rows;
- a tape that isn't the same again after `pcap` and `tape`, or a text of `page` that isn't shown as it was given.

Memory is bounded by RLIMIT_AS. It is ample with 1 GiB and 80 MiB for each thread (a stack of 8 MiB, and 64 MiB that the
C library sets aside for the thread's blocks). A tight bound lies up to 96 MiB above the least at which the program
is loaded and `page` ends by itself; that is measured first. Below it the loader fails, not the program. The stack of
the main thread counts too. The system sets 128 KiB of it aside; a run that needs more and can't have it gets SIGSEGV
(docs/DECISIONS.md), and is tried again with 64 KiB more, where it has to have an answer.

Devices that fail are a folder or a closed descriptor as input, /dev/full, a pipe that nobody reads or that is left
after some octets, and a file under RLIMIT_FSIZE. SIGPIPE has its default as under a shell, since a pipe without reader
is common use: the program has to answer status 3. SIGXFSZ is ignored, so that a write past the bound fails with EFBIG:
that signal is the system's answer to who sets such a bound, and no document speaks of it.
"""
import argparse
import csv
import dataclasses
import datetime
import fcntl
import html.parser
import io
import json
import multiprocessing
import multiprocessing.connection
import os
import random
import re
import resource
import select
import signal
import subprocess
import sys
import tempfile
import termios
import time

import capture_reference
import books
import gsm
import link_captures

TOP = os.path.dirname(os.path.dirname(os.path.realpath(__file__)))
PROGRAM = os.path.join(TOP, "crates", "warnc", "out", "warnc")
SEEDS = os.path.join(TOP, "tools", "fuzz")
COMMANDS = ("plan", "check", "texts", "page", "read", "whole", "compile", "live", "report", "chart", "load", "verify",
            "pcap", "cells", "tape", "orders", "link")
OF_BOOKS = ("compile", "live", "report", "chart", "load")
# an option without which clap refuses a command
NEEDED = {"page": "--lang", "tape": "--cell", "orders": "--cell", "verify": "--slots", "link": "--slots",
          **dict.fromkeys(OF_BOOKS, "--slots")}
MEBI = 1 << 20
# seconds that a run may take
BOUND = 20
# how many slots all cells of a book have at most, so that an output stays below 20 MB
MAX_SLOTS = 200_000
# how much more memory a run gets whose stack found none
STACK = 1 << 16
# how many findings of one kind are kept
KEPT = 5
# how often a finding is tried again at most: the place of the stack is chance, and so is which session comes first
TRIES = 20

LANGUAGES = list(gsm.LANGUAGES)
# the characters of the main table that a text may have; of the letters A to Z and a to z the first and the last
GSM = re.sub("[B-Yb-y\r\x1b]", "", gsm.MAIN)
EXTENSION = "".join(gsm.EXTENSION.values())
UCS2 = "ЯЖюç洪水警報عبر\u0300\u200b\u2028\uffff\ufeff\ufffd\ue000\x7f\xa0"
BAD = "\r\x00\x07\x1b\x1f\U0001f6a8\U0010ffff"
# octets that aren't UTF-8: single ones, overlong, surrogates, past the last character, cut
BROKEN = (b"\xff", b"\x80", b"\xc0\x80", b"\xe0\x80\xaf", b"\xed\xa0\x80", b"\xed\xb0\x80", b"\xf4\x90\x80\x80",
          b"\xe2\x82", b"\xc3", b"\xf0\x9f\x9a", b"\xf8\x88\x80\x80\x80")
LENGTHS = (0, 1, 2, 40, 41, 42, 82, 91, 92, 93, 94, 186, 187, 614, 615, 616, 1394, 1395, 1396, 3000)
TOKENS = (b",", b'"', b'""', b"\r", b"\n", b"\r\n", b"\x00", b"\xef\xbb\xbf", b"*", b"-", b" ", b"1-1", b"cell,1,1\n",
          b"stop,0,a,*\n", bytes(gsm.TYPES), gsm.IDLE, b"\xff\xff", b"\x1b") + BROKEN

COLUMNS = {verb.encode(): [it.lower() for it in columns] for verb, columns in books.COLUMNS.items()}
LIMITS = {column.lower(): bounds for column, bounds in books.RANGES.items()}
ODD_NUMBERS = (b"", b"-1", b"+1", b" 1", b"1 ", b"00001", b"000001", b"99999", b"100000", b"1e3", b"0x1", b"1.0",
               "١".encode(), b"1\x00", b"18446744073709551616")

TEXT_FAULT = r"unknown language|text is empty|bad character at \d+|too many pages"
ROW_FAULT = (r"row 0: too many rows|row [1-9]\d*: (?:columns|verb|number|unknown cell|named twice|unknown name"
             rf"|too many updates|too many rows|{TEXT_FAULT})")
NO_GROUP = r"no such group: the network has [1-9]\d*"
TAPE_FAULT = "tape is short|tape is long"
LINK_FAULT = r"unknown link type \d+: known are 0, 1, 101, 108, 113, 228 and 276"
FAULTS = {"page": TEXT_FAULT + "|text is not UTF-8|text is too long", "read": TAPE_FAULT, "pcap": TAPE_FAULT,
          "whole": TAPE_FAULT,
          "tape": rf"not a capture file|{LINK_FAULT}"
                  r"|no block of the wanted sender: warnc cells lists who sends, over IPv4 alone"
                  rf"|packet [1-9]\d*: (?:{LINK_FAULT}|capture is short|wrong block"
                  r"|(?:block differs|steps back): if several send, choose one by --from or --arfcn)",
          "orders": rf"not a capture file|{LINK_FAULT}"
                    rf"|packet [1-9]\d*: (?:{LINK_FAULT}|capture is short|wrong block|no time"
                    r"|steps back: if several send, choose one by --from or --arfcn"
                    rf"|before the tape begins: use --first-slot [1-9]\d*)|{ROW_FAULT}",
          "cells": rf"not a capture file|{LINK_FAULT}"
                   rf"|packet [1-9]\d*: (?:{LINK_FAULT}|capture is short|wrong block)",
          "verify": rf"{ROW_FAULT}|{TAPE_FAULT}|differences: [1-9]\d*",
          **dict.fromkeys((*OF_BOOKS, "link"), ROW_FAULT),
          "check": rf"row 0: too many rows|(?:faults|remarks): [1-9]\d*|{NO_GROUP}",
          "texts": rf"{ROW_FAULT}|{NO_GROUP}",
          "plan": r"plan is too long|row [1-9]\d*(?:, [A-Z]+)?: .+"}
DIFFERENCE = re.compile(
    rb"\d+,\d+,(?:,,,(?:no tape|other slots|second tape|unknown cell)"
    rb"|\d+,[0-9a-f]{4},\d+,(?:page (?:[1-9]|1[0-5]) reads otherwise"
    rb"|before its start|after its stop|after its last broadcast|broadcast \d+ (?:not whole|again)|not ordered))")
CHECK_NAMES = ["row", "line", "column", "field", "value", "says"]
REMARK_NAMES = ["row", "name", "cell", "says"]
TEXTS_NAMES = ["row", "name", "lang", "coding", "characters", "pages", "room", "first_ucs2", "place"]
SENDER = re.compile(rb"(?:(?:25[0-5]|2[0-4]\d|1?\d?\d)(?:\.(?!,)|,)){4}\d+,(?:cbch|sdcch)(?:,[1-9]\d*){3}"
                    rb"(?:,\d+,\d+,(?:\d+(?: \d+)*)?|,,,)(?:,(?:\d+\.\d{9})?){2}")
ORDER = re.compile(rb"clear,\d+|kill,\d+,\d+,[0-9a-f]{4},(?:,|(?:ok|[0-9a-f]{2}),\d*)"
                   rb"|write,\d+,\d+,[0-9a-f]{4},(?:[0-9a-f]{4})?(?:,\d+){3},[0-9a-f]{2},(?:,|(?:ok|[0-9a-f]{2}),\d*)"
                   rb"(?:,\d{1,3}-[0-9a-f]{164}){1,15}")
PACKET = re.compile(rb"[1-9]\d*,\d+\.\d{9},")
# what is said with status 0
SAID = {"orders": rb"(?:warnc: not in the table: \d+ messages that can't be read, \d+ emergency messages\n)?"}
# what captures begin with: the magic numbers of the classic format in both orders, and the type of pcapng
MAGICS = tuple(map(bytes.fromhex, ("A1B2C3D4", "D4C3B2A1", "A1B23C4D", "4D3CB2A1", "0A0D0D0A")))
STARTS = ("1970-01-01T00:00:00Z", "2026-11-28T20:00:00.5+01:00", "2099-12-31T23:59:58.116923Z",
          "2105-12-31T23:59:59.999999Z")
EPOCH = datetime.datetime(1970, 1, 1, tzinfo=datetime.timezone.utc)
REPORT_ROW = re.compile(rb"\d+,\d+,\d+,[0-9a-f]{4},\d+,\d+,\d+,(?:yes|no|refused [0-9a-f]{2})")
REPORT_ORDER = re.compile(rb'\d+,(?:[^",\n]*|"(?:[^"\n]|"")*"),')
REPORT_MORE = re.compile(rb"(?:\d*,\d+,\d+,\d+|,,,),[A-Za-z ]*")
LOAD_ROW = re.compile(rb"(\d+,\d+),(\d+),(?:\d\d?|100),(yes|)")
# what `chart --tables` writes in front of each of its texts
NAMED = re.compile(rb"(report|load|chart) (\d+)\n")


# What is run, and what comes of it


@dataclasses.dataclass
class Run:
    """One run of the program: its words, its input, and the ends and the memory that it gets."""

    words: list
    data: bytes
    # what the words are: "run", or "usage" (clap refuses them), or "text" (they ask for help or the version)
    wanted: str = "run"
    # octets of address space over the floor; None if it is ample
    spare: int | None = None
    # "file", "pieces", or one that fails: "folder", "shut"
    reader: str = "file"
    # "pipe", or one that fails: "full", "unread", "left", "bounded"
    writer: str = "pipe"
    # "pipe", or one that fails: "full"
    faults: str = "pipe"
    # octets of a piece, or those that the writer takes
    size: int = 0
    # how many of the first octets are the book of `verify`, which is a file beside the input
    book: int = 0

    def command(self):
        return self.words[0] if self.words and self.words[0] in COMMANDS else ""

    def parts(self):
        """Returns the octets of a book, or None, and those of the input."""
        if self.command() != "verify":
            return None, self.data
        return self.data[:self.book], self.data[self.book:]

    def number(self, name, otherwise):
        """Returns the number that the words give an option."""
        for place, word in enumerate(self.words):
            if word == name:
                return int(self.words[place + 1])
            if word.startswith(name + "="):
                return int(word[len(name) + 1:])
        return otherwise

    def value(self, name):
        """Returns the value that the words give an option, or None."""
        for place, word in enumerate(self.words):
            if word == name:
                return self.words[place + 1]
            if word.startswith(name + "="):
                return word[len(name) + 1:]
        return None

    def threads(self):
        return max(self.number("--workers", 1), self.number("--sessions", 1)) + 8 if self.wanted == "run" else 1

    def but(self, **changes):
        return dataclasses.replace(self, **changes)

    def title(self):
        """Returns the words and what is special about the ends and the memory."""
        special = [] if self.spare is None else [f"{self.spare} octets over the floor"]
        ends = ("reader", self.reader, "file"), ("writer", self.writer, "pipe"), ("faults", self.faults, "pipe")
        special += [f"{name} {value}" for name, value, usual in ends if value != usual]
        words = " ".join(["warnc", *self.words]).encode(errors="replace").decode()
        return f"{words} ({', '.join(special)})" if special else words


@dataclasses.dataclass
class Ran:
    """What came of a run. The status is negative where a signal ended it; `late` says that it was past its bound."""

    status: int
    out: bytes
    err: bytes
    late: bool = False

    def answer(self):
        return self.status, self.out, self.err

    def said(self):
        return f"{self.status}, {len(self.out)} octets, {self.err[:80].decode(errors='replace')!r}"


def prepare(memory, run):
    """Sets the child's bounds and signals, between fork and exec."""
    signal.signal(signal.SIGXFSZ, signal.SIG_IGN)
    resource.setrlimit(resource.RLIMIT_CORE, (0, 0))
    if run.writer == "bounded":
        resource.setrlimit(resource.RLIMIT_FSIZE, (run.size, run.size))
    if run.reader == "shut":
        os.close(0)
    resource.setrlimit(resource.RLIMIT_AS, (memory, memory))


def reader_of(run):
    """Returns a descriptor that the program reads, and one by which it is fed, if there is one."""
    if run.reader == "folder":
        return os.open(TOP, os.O_RDONLY), None
    if run.reader == "pieces":
        return os.pipe()
    return file_of(run.parts()[1]), None


def file_of(octets):
    """Returns a descriptor of a file that has these octets."""
    end = os.memfd_create("input")
    left = memoryview(octets)
    while left:
        left = left[os.write(end, left):]
    os.lseek(end, 0, os.SEEK_SET)
    return end


def feed(run, child, source, pipe, deadline):
    """Writes the input in pieces into a pipe, each once the program has read the one before. Closes both ends."""
    first, data = 0, run.parts()[1]
    while first < len(data) and child.poll() is None and time.monotonic() < deadline:
        if int.from_bytes(fcntl.ioctl(source, termios.FIONREAD, b"\0" * 4), sys.byteorder):
            time.sleep(0.0002)
        else:
            first += os.write(pipe, data[first:first + run.size])
    os.close(source)
    os.close(pipe)


def writer_of(run):
    """Returns a descriptor that the program writes, and one from which that is read, if there is one."""
    if run.writer == "full":
        return os.open("/dev/full", os.O_WRONLY), None
    if run.writer == "bounded":
        with tempfile.TemporaryFile() as file:
            end = os.dup(file.fileno())
        return end, os.dup(end)
    back, end = os.pipe()
    if run.writer == "pipe":
        return end, back
    fcntl.fcntl(end, fcntl.F_SETPIPE_SZ, 4096)
    if run.writer == "unread":
        os.close(back)
        return end, None
    return end, back


def drain(ends, deadline):
    """Reads pairs of a descriptor and a number of octets, each until its end or so many have come, and closes them.

    Returns the octets of each, and whether the deadline passed before.
    """
    came, left = [bytearray() for _ in ends], dict(enumerate(ends))
    while left:
        ready, _, _ = select.select([end for end, _ in left.values()], [], [], max(0, deadline - time.monotonic()))
        for place, (end, most) in list(left.items()):
            if end in ready:
                piece = os.read(end, min(1 << 16, most))
                came[place] += piece
                left[place] = end, most - len(piece)
            if end in ready and (not piece or most == len(piece)) or not ready:
                os.close(end)
                del left[place]
        if not ready:
            return [bytes(it) for it in came], True
    return [bytes(it) for it in came], False


class Bench:
    """Runs the program, and counts what came of it."""

    def __init__(self, program, floor):
        self.program = program
        self.floor = floor
        self.counts = {}

    def memory(self, run):
        """Returns how many octets of address space a run gets."""
        if run.spare is None:
            return 1024 * MEBI + 80 * MEBI * run.threads()
        return self.floor + run.spare

    def start(self, run, deadline):
        """Starts the program. Returns its process, and the descriptors from which its two outputs are read, or None."""
        (source, pipe), (sink, back) = reader_of(run), writer_of(run)
        said, faults = (None, os.open("/dev/full", os.O_WRONLY)) if run.faults == "full" else os.pipe()
        memory, book = self.memory(run), run.parts()[0]
        files = [] if book is None else [file_of(book)]
        words = [word for end in files for word in ("--book", f"/dev/fd/{end}")]
        child = subprocess.Popen([self.program, *run.words, *words], stdin=source, stdout=sink, stderr=faults,
                                 preexec_fn=lambda: prepare(memory, run), pass_fds=files)
        for end in (sink, faults, *files):
            os.close(end)
        if pipe is None:
            os.close(source)
        else:
            feed(run, child, source, pipe, deadline)
        return child, back, said

    def once(self, run, bound=BOUND):
        """Runs the program once, and returns what came of it."""
        deadline = time.monotonic() + bound
        child, back, said = self.start(run, deadline)
        ends = [] if said is None else [(said, 1 << 40)]
        if run.writer in ("pipe", "left"):
            ends.append((back, run.size if run.writer == "left" else 1 << 40))
        came, late = drain(ends, deadline)
        try:
            child.wait(0 if late else max(0.1, deadline - time.monotonic()))
        except subprocess.TimeoutExpired:
            late = True
            child.kill()
            child.wait()
        err = came.pop(0) if said is not None else b""
        if run.writer == "bounded":
            with os.fdopen(back, "rb") as file:
                file.seek(0)
                came = [file.read()]
        return Ran(child.returncode, came[0] if came else b"", err, late)

    def run(self, run):
        """Runs the program, once more if it is late, and counts what came of it."""
        ran = self.once(run)
        if ran.late:
            ran = self.once(run, 2 * BOUND)
        how = "late" if ran.late else str(ran.status) if 0 <= ran.status <= 4 else "other"
        key = run.command() or "(none)", how
        self.counts[key] = self.counts.get(key, 0) + 1
        return ran


def floor_of(program):
    """Returns the least address space, to 64 KiB, in which the program is loaded and `page` ends by itself."""
    run = Run(["page", "--lang", "en", "--id", "1", "--scope", "0", "--code", "1", "--update", "0"], b"@", spare=0)
    low, high = 0, 1 << 14
    while high - low > 1:
        middle = (low + high) // 2
        ran = Bench(program, middle << 16).once(run)
        if ran.status == 0 or (ran.status, ran.err) == (4, b"warnc: out of memory\n"):
            high = middle
        else:
            low = middle
    return high << 16


# What docs/formats.md asks of a run


def is_tapes(run, out):
    """Whether an output is tapes of so many slots, each slot idle or a page."""
    slots = run.number("--slots", 0)
    size = gsm.size_of_tape(slots)
    if len(out) % size:
        return False
    for first in range(0, len(out), size):
        tape = out[first:first + size]
        kinds = set(zip(*(tape[gsm.HEADER.size + gsm.BLOCK * it::gsm.SLOT] for it in range(4))))
        if int.from_bytes(tape[4:8]) != slots or not kinds <= {gsm.TYPES, (gsm.IDLE[0],) * 4}:
            return False
    return True


def slot_time(start, slot):
    """Returns the time at which a slot begins, of 8 multiframes of 51 frames of 120/26 ms, where slot 0 begins at
    START."""
    start = (datetime.datetime.fromisoformat(start) - EPOCH) // datetime.timedelta(microseconds=1)
    time = EPOCH + datetime.timedelta(milliseconds=(13 * start + 24_480_000 * slot) // 13_000)
    return f"{time:%Y-%m-%dT%H:%M:%S}.{time.microsecond // 1000:03}Z".encode()


def has_times(start, row, times):
    """Whether a row of a report has these times behind it, the third that of the first showing."""
    fields = row.split(b",") if len(times) == 2 else next(csv.reader([row.decode()]))[2:]
    shown = [slot_time(start, int(fields[8]) + 1) if fields[8] else b""] if len(times) > 2 else []
    return times == [slot_time(start, int(it)) for it in fields[4:6]] + shown


def is_report(run, out):
    """Whether an output is a report, full and with times if the options ask for it."""
    names, form = b"lac,ci,id,serial,start,end,completed,shown", REPORT_ROW
    is_full, start = "--full" in run.words, run.value("--start")
    if is_full:
        names, form = b"row,name," + names + b",first_shown,pages,period,share,cause", re.compile(
            REPORT_ORDER.pattern + REPORT_ROW.pattern + b"," + REPORT_MORE.pattern)
    rows = out.split(b"\n")
    heading, *rows, last = rows if len(rows) > 1 else (rows[0], b"lacks a line feed")
    if start is not None:
        names += b",start_time,end_time" + b",first_shown_time" * is_full
        split = [it.rsplit(b",", 2 + is_full) for it in rows]
        if not all(form.fullmatch(row) and has_times(start, row, times) for row, *times in split):
            return False
        rows = [row for row, *_ in split]
    return heading == names and last == b"" and all(map(form.fullmatch, rows))


def is_load(run, out):
    """Whether an output is a table of loads, with times if the options ask for it: the rows of a cell begin with slot
    0, and one of them is marked."""
    start = run.value("--start")
    heading, *rows, last = out.split(b"\n")
    if start is not None:
        split = [it.rsplit(b",", 1) for it in rows]
        if not all(len(it) == 2 and it[1] == slot_time(start, int(it[0].split(b",")[2])) for it in split):
            return False
        rows = [row for row, _ in split]
    found = [LOAD_ROW.fullmatch(it) for it in rows]
    names = b"lac,ci,slot,share,fullest" + b",time" * (start is not None)
    if heading != names or last != b"" or not all(found):
        return False
    cells = len({it[1] for it in found})
    return sum(it[2] == b"0" for it in found) == cells == sum(it[3] == b"yes" for it in found)


def is_drawn(run, out):
    """Whether an output is that of `chart`, with the tables in front of it if the options ask for them."""
    if "--tables" not in run.words:
        return is_chart(out)
    texts = {}
    while out:
        found = NAMED.match(out)
        if found is None:
            return False
        end = found.end() + int(found[2])
        texts[found[1]], out = out[found.end():end], out[end:]
    return [*texts] == [b"report", b"load", b"chart"] and is_load(run, texts[b"load"]) and is_chart(texts[b"chart"]) \
        and is_report(Run(["report", "--full", *run.words[1:]], b""), texts[b"report"])


def table_in(out):
    """Returns the rows of a table."""
    return list(csv.reader(io.StringIO(out.decode(errors="replace"), newline="")))


def is_of_slots(out):
    """Whether an output is that of `read --slots`."""
    lines = out.split(b"\n")
    return lines[0] == b"lac,ci,slot,id,serial,page,pages" and lines[-1] == b"" and all(
        re.fullmatch(rb"\d+,\d+,\d+,\d+,[0-9a-f]{4},\d+,\d+", it) for it in lines[1:-1])


def is_table(run, out):
    """Whether an output is that of `read`: rows of five columns, the first that of their names."""
    if "--slots" in run.words:
        return is_of_slots(out)
    rows = table_in(out)
    return rows[:1] == [["lac", "ci", "id", "serial", "text"]] and out.endswith(b"\n") and all(
        len(row) == 5 and re.fullmatch(r"\d+,\d+,\d+,[0-9a-f]{4}", ",".join(row[:4])) for row in rows[1:])


def faults_in(out):
    """Returns how many rows with a fault an output of `check` tells, or None if it is none."""
    rows = table_in(out)
    numbers = [row[0] for row in rows[1:]]
    is_right = rows[:1] == [CHECK_NAMES] and out.endswith(b"\n") and all(
        len(row) == 6 and row[5] and re.fullmatch(r"[1-9]\d*,[1-9]\d*,[1-9]\d*", ",".join(row[:3])) for row in rows[1:])
    return len(numbers) if is_right and numbers == sorted(set(numbers), key=int) else None


def remarks_in(run, out):
    """Returns how many remarks an output of `check --slots` has, or None if it is none. Those of a network have the
    number of a group in front, which rises."""
    rows = table_in(out)
    if "--network" in run.words:
        groups = [row[0] for row in rows]
        if groups[:1] != ["group"] or not all(it.isdigit() for it in groups[1:]) or \
                [int(it) for it in groups[1:]] != sorted(int(it) for it in groups[1:]):
            return None
        rows = [row[1:] for row in rows]
    is_right = rows[:1] == [REMARK_NAMES] and out.endswith(b"\n") and all(
        len(row) == 4 and row[3] and (row[0].isdigit() and row[1] and not row[2] or
                                      row[:2] == ["", ""] and re.fullmatch(r"\d+-\d+", row[2])) for row in rows[1:])
    # how full cells get is no remark
    return sum(not re.fullmatch(r"fullest: \d+ % at slot \d+", row[3]) for row in rows[1:]) if is_right else None


def is_of_check(run, out):
    """Whether an output is that of `check` without a fault: with a run the remarks, of which none is there if it is
    strict."""
    if run.number("--slots", None) is None:
        return faults_in(out) == 0
    return remarks_in(run, out) == 0 or "--strict" not in run.words and remarks_in(run, out) is not None


def is_of_texts(run, out):
    """Whether an output is that of `texts`: a row for each text, with the column of the cut if it is asked for."""
    rows = table_in(out)
    names = TEXTS_NAMES if run.number("--pages", None) is None else [*TEXTS_NAMES, "fits"]
    return rows[:1] == [names] and out.endswith(b"\n") and all(
        len(row) == len(names) and row[0].isdigit() and row[3] in ("GSM 7-bit", "UCS-2") for row in rows[1:])


def is_of_plan(run, out):
    """Whether an output is a book: the input itself, or rows that begin with a verb of a book."""
    return out == run.data or all(row[:1] and row[0].encode() in COLUMNS for row in table_in(out) or [])


class Page(html.parser.HTMLParser):
    """A page in HTML, as far as it is well-formed: its open elements,
    and whether one was closed that isn't the last."""

    VOID = ("meta", "link", "br", "hr", "img", "input")

    def __init__(self):
        super().__init__()
        self.open = []
        self.is_right = True

    def handle_starttag(self, tag, attrs):
        # a link leads to a place of the page
        loads = any(name.startswith("on") or name == "src" or name == "href" and not str(value).startswith("#")
                    for name, value in attrs)
        self.is_right &= tag != "script" and not loads
        if tag not in self.VOID:
            self.open.append(tag)

    def handle_startendtag(self, tag, attrs):
        self.is_right &= tag != "script"

    def handle_endtag(self, tag):
        self.is_right &= bool(self.open) and self.open.pop() == tag


def is_chart(out):
    """Whether an output is that of `chart`: a page whose elements are closed in order,
    with nothing that runs or loads."""
    page = Page()
    page.feed(out.decode(errors="replace"))
    return out.startswith(b"<!DOCTYPE html>\n") and out.endswith(b"</html>\n") and page.is_right and not page.open


def differences_in(out):
    """Returns how many rows of differences an output has, or None if it isn't a table of them."""
    rows = out.split(b"\n")
    is_right = rows[0] == b"lac,ci,id,serial,slot,difference" and rows[-1] == b"" and len(rows) > 1
    return len(rows) - 2 if is_right and all(DIFFERENCE.fullmatch(row) for row in rows[1:-1]) else None


def is_capture(out):
    """Whether an output is a capture file, of packets of one block each."""
    return out[:4] == b"\xd4\xc3\xb2\xa1" and (len(out) - 24) % (16 + 67) == 0


def is_link(out):
    """Whether an output is a capture file of segments of TCP, each whole."""
    place = 24
    while place < len(out) and out[place + 16:place + 17] == b"\x45" and out[place + 25:place + 26] == b"\6":
        place += 16 + int.from_bytes(out[place + 8:place + 12], "little")
    return out[:4] == b"\xd4\xc3\xb2\xa1" and place == len(out)


def is_shown(run, out):
    """Whether an output is that of `page`: 4 to 60 blocks, and the text that was given."""
    text = run.data.removesuffix(b"\n")
    if "--explain" in run.words:
        rows = table_in(out)[1:]
        return 1 <= len(rows) <= 15 and "".join(row[-1] for row in rows).encode() == text
    serial = run.number("--scope", 0) << 14 | run.number("--code", 0) << 4 | run.number("--update", 0)
    last = f"{run.number('--id', 0)} {serial:04x} ".encode() + text + b"\n"
    lines = out.removesuffix(last).split(b"\n")[:-1]
    are_blocks = len(lines) in range(4, 61, 4) and all(re.fullmatch(rb"[0-9a-f]{46}", it) for it in lines)
    return out.endswith(last) and are_blocks


def are_in_packets(blocks, first, last):
    """Whether there can be so many blocks from one packet to another."""
    return 0 < blocks <= last - first + 1


def is_of_cells(out):
    """Whether an output is a table of senders, each with no more blocks than packets from its first to its last."""
    lines = out.split(b"\n")
    rows = [it for it in lines[1:-1] if SENDER.fullmatch(it) and are_in_packets(*map(int, it.split(b",")[3:6]))]
    names = b"source,arfcn,channel,blocks,first,last,slots,pages,identifiers,first_time,last_time"
    return lines[0] == names and lines[-1] == b"" and len(rows) == len(lines) - 2


def is_of_orders(run, out):
    """Whether an output is an orders file, with the packets of its lines or without."""
    lines = out.split(b"\n")
    if "--packets" in run.words:
        if not all(PACKET.match(it) for it in lines[:-1]):
            return False
        lines = [PACKET.sub(b"", it, count=1) for it in lines]
    return lines[-1] == b"" and all(ORDER.fullmatch(it) for it in lines[:-1])


def is_output(run, out):
    """Whether an output has the form of the command's."""
    if run.wanted == "text":
        return bool(out)
    forms = {"page": lambda: is_shown(run, out), "read": lambda: is_table(run, out),
             "report": lambda: is_report(run, out), "chart": lambda: is_drawn(run, out),
             "load": lambda: is_load(run, out),
             "verify": lambda: differences_in(out) == 0,
             "plan": lambda: is_of_plan(run, out),
             "check": lambda: is_of_check(run, out), "texts": lambda: is_of_texts(run, out),
             "pcap": lambda: is_capture(out), "link": lambda: is_link(out), "cells": lambda: is_of_cells(out),
             "orders": lambda: is_of_orders(run, out), "whole": lambda: len(out) == len(run.data),
             "tape": lambda: len(out) == gsm.size_of_tape(run.number("--slots", int.from_bytes(out[4:8])))}
    return forms.get(run.command(), lambda: is_tapes(run, out))()


def statuses_of(run):
    """Returns the statuses that a run may have."""
    found = {"usage": {2}, "text": {0}, "run": {0, 1}}[run.wanted]
    if run.reader in ("folder", "shut") and run.wanted == "run":
        # the book of `verify` is read before its input
        found = {1, 3} if run.command() == "verify" else {3}
    elif run.writer != "pipe" and run.wanted != "usage":
        found = found | {3}
    return found | ({4} if run.spare is not None else set())


def likeness(octets):
    """Returns what an input looks like by its first octets, or None."""
    if octets[:4] in MAGICS:
        return "a capture: warnc tape makes a tape of it"
    if octets[:5] == b"cell,":
        return "a book: warnc compile makes tapes of it"
    if octets[4:6] == b"\0\0" and octets[8:9] in (b"\x20", b"\x30", b"\x2F"):
        return "tapes: warnc read shows them"
    return None


def hint_of(run):
    """Returns what follows a fault if the book or the input looks like another kind than the command takes."""
    book, data = run.parts()
    own = {**dict.fromkeys(("tape", "cells", "orders"), "a capture"),
           **dict.fromkeys(("read", "whole", "pcap", "verify"), "tapes")}
    of_run = run.command() == "orders" and run.number("--slots", 0)
    taken = "a book" if of_run else own.get(run.command(), "a book")
    for name, octets, kind in (("book", book or b"", "a book"), ("input", data, taken)):
        like = likeness(octets)
        if like and not like.startswith(kind) and run.command() != "page":
            return f" (the {name} looks like {like})"
    return ""


def line_fault(run, ran):
    """Returns what is wrong with standard error, or None."""
    if ran.status == 2:
        fronts = (b"error: ", b"warnc: words are not UTF-8\n", b"warnc: no such cell: ",
                  b"warnc: no such cell or address: ")
        right = ran.err.startswith(fronts) or not run.words and ran.err
    elif ran.status == 0:
        right = re.fullmatch(SAID.get(run.command(), b""), ran.err)
    else:
        reader = "read failed" if run.reader in ("folder", "shut") else "write failed"
        texts = {1: FAULTS.get(run.command(), "[]"), 3: reader, 4: "out of memory"}
        wanted = texts[ran.status]
        # where the book of `verify` is at fault the tapes aren't read
        hint = re.escape(hint_of(run)) if ran.status == 1 else ""
        hint = f"(?:{hint})?" if run.command() == "verify" else hint
        right = re.fullmatch(f"warnc: (?:{wanted}){hint}\n".encode(), ran.err)
    return None if right else "the fault line of status {0} has another form"


def output_fault(run, ran):
    """Returns what is wrong with standard output, or None."""
    if ran.status == 0 and run.writer == "pipe" and not is_output(run, ran.out):
        return "the output of status {0} has another form"
    if ran.status == 1 and run.command() == "verify" and ran.out:
        count = differences_in(ran.out) if run.writer == "pipe" else 1
        is_seen = run.faults == "pipe" and run.writer == "pipe"
        right = count and (not is_seen or ran.err.startswith(b"warnc: differences: %d" % count))
        return None if right else "the rows of differences have another form or number"
    if ran.status == 1 and run.command() == "check" and ran.out:
        faults, remarks = faults_in(ran.out), remarks_in(run, ran.out) if "--strict" in run.words else None
        is_seen = run.faults == "pipe" and run.writer == "pipe"
        wanted = b"warnc: faults: %d" % faults if faults else b"warnc: remarks: %d" % remarks if remarks else None
        right = run.writer != "pipe" or wanted and (not is_seen or ran.err.startswith(wanted))
        return None if right else "the rows of faults or remarks have another form or number"
    if (ran.status in (1, 2, 4) or run.reader in ("folder", "shut")) and ran.out:
        return "there is an output with status {0}"
    return None


def faults_of(run, ran):
    """Returns what is wrong with a run by itself."""
    if ran.late:
        return ["past its bound of time"]
    if ran.status < 0:
        return [f"signal {-ran.status}"]
    if ran.status not in statuses_of(run):
        return [f"status {ran.status} can't be: {ran.said()}"]
    found = [output_fault(run, ran), line_fault(run, ran) if run.faults == "pipe" else None]
    return [it.format(ran.status) for it in found if it]


# The checks: each runs an input, some of them several times, and says what is wrong


class Checked:
    """What a check found: triples of a run, what came of it, and a fault."""

    def __init__(self, bench):
        self.bench = bench
        self.found = []

    def run(self, run):
        """Runs, judges the run by itself, and returns what came of it."""
        return self.judge(run, self.bench.run(run))

    def judge(self, run, ran):
        """Judges by itself a run of which this came, and returns what came of it."""
        self.found += [(run, ran, it) for it in faults_of(run, ran)]
        return ran

    def expect(self, is_right, run, ran, fault):
        """Takes a fault of two runs, unless one of them is wrong by itself."""
        if not is_right and not self.found:
            self.found.append((run, ran, fault))


def is_chance(run):
    """Whether two runs may differ: sessions order side by side."""
    return run.command() == "live" and run.number("--sessions", 1) > 1


def same(checked, run, one, ran, fault):
    """Expects that two runs have one answer; of several sessions, that both have one status, line and length."""
    if is_chance(run):
        right = (one.status, len(one.out), one.err) == (ran.status, len(ran.out), ran.err)
    else:
        right = one.answer() == ran.answer()
    checked.expect(right, run, ran, f"{fault}: {one.said()} and {ran.said()}")


def check_twice(checked, case):
    """The same input twice has the same answer."""
    one = checked.run(case.run)
    same(checked, case.run, one, checked.run(case.run), "two runs differ")


def check_pieces(checked, case):
    """An input has the same answer as a file and in pieces."""
    one = checked.run(case.run)
    other = case.run.but(reader="pieces", size=max(case.size, -(-len(case.run.data) // 50), 1))
    if other.size <= 4096:
        same(checked, other, one, checked.run(other), "pieces differ from a file")


def plain(run, command, *words):
    return run.but(words=[command, "--slots", str(run.number("--slots", 1)), *words])


def check_workers(checked, case):
    """`compile`, `report` and `chart` don't depend on the number of workers, nor does `live` with one session."""
    for command in OF_BOOKS:
        one = checked.run(plain(case.run, command))
        other = plain(case.run, command, "--workers", str(case.size))
        same(checked, other, one, checked.run(other), "workers differ")


def check_sessions(checked, case):
    """`live` with one session is `compile`, and all commands of a book refuse the same ones with the same line."""
    one = checked.run(plain(case.run, "compile"))
    for words in (["--sessions", "1"], []):
        other = plain(case.run, "live", *words)
        same(checked, other, one, checked.run(other), "live with one session differs from compile")
    for other in (plain(case.run, "live", "--sessions", str(case.size)), plain(case.run, "report")):
        ran = checked.run(other)
        right = (one.status, one.err) == (ran.status, ran.err)
        checked.expect(right, other, ran, f"another fault than compile: {one.said()}")


def check_tapes(checked, case):
    """`read` accepts what `compile` and `live` write, and `report` shows as many messages as `read`."""
    shown = None
    for run in (plain(case.run, "compile"), case.run):
        tapes = checked.run(run)
        if tapes.status == 0 and run.command() in ("compile", "live"):
            other = Run(["read"], tapes.out)
            table = checked.run(other)
            checked.expect(table.status == 0, other, table, "read refuses tapes that were written")
            shown = table if shown is None else shown
    if shown is not None and shown.status == 0:
        other = plain(case.run, "report")
        report = checked.run(other)
        rows = len(table_in(shown.out)) - 1
        right = rows == report.out.count(b",yes\n")
        checked.expect(right, other, report, f"report shows other messages than read: {rows}")


def check_round(checked, case):
    """`read` shows what `page` says that it shows, of the same blocks."""
    one = checked.run(case.run)
    if one.status == 0 and "--explain" not in case.run.words:
        lines = re.match(rb"(?:[0-9a-f]{46}\n){4,60}", one.out)[0].decode()
        blocks = [bytes.fromhex(it) for it in lines.split()]
        if len(blocks) % 4:
            return
        other = Run(["read"], gsm.tape_of(1, 2, blocks))
        table = checked.run(other)
        said = ["1", "2"] + one.out.split(b"\n", len(blocks))[-1].decode()[:-1].split(" ", 2)
        checked.expect(table_in(table.out)[1:] == [said], other, table, "read shows another text than page")


def check_verify(checked, case):
    """`verify` finds nothing in a book's own tapes, in any order, and in spoilt ones what `read` refuses, or rows."""
    tapes, book = checked.run(plain(case.run, "compile")), case.run.data
    if tapes.status != 0:
        return
    chance = random.Random(case.number)
    each = tapes_of(tapes.out)
    chance.shuffle(each)
    own = plain(case.run, "verify", "--workers", str(case.size)).but(data=book + joined(each), book=len(book))
    ran = checked.run(own)
    checked.expect(ran.status == 0, own, ran, f"verify finds differences in a book's own tapes: {ran.said()}")
    spoilt = joined(change_tapes(chance, each))
    if chance.random() < 0.2:
        spoilt = change_octets(chance, spoilt, [tapes.out])
    refused_alike(checked, own.but(data=book + spoilt), spoilt)


def refused_alike(checked, run, tapes):
    """Runs what reads tapes too, and expects that it refuses them with the same line as `read`,
    or doesn't as `read`."""
    other = Run(["read"], tapes)
    shown, ran = checked.run(other), checked.run(run)
    if shown.status == 1:
        right = ran.err == shown.err
    else:
        right = ran.status == 0 or ran.err.startswith(b"warnc: differences: ")
    checked.expect(right, run, ran, f"another fault of tapes than read: {shown.said()} and {ran.said()}")
    return ran


def check_captures(checked, case):
    """A capture of tapes has each tape of a cell of its own again; `pcap` refuses what `read` refuses."""
    words = "--channel", str(case.size)
    capture = refused_alike(checked, Run(["pcap", *words], case.run.data), case.run.data)
    tapes = tapes_of(case.run.data) if capture.status == 0 else []
    for cell, count, slots in tapes[:3]:
        if count and [it[0] for it in tapes].count(cell) == 1:
            lac, ci = int.from_bytes(cell[:2]), int.from_bytes(cell[2:])
            source = ".".join(str(octet) for octet in cell)
            other = Run(["tape", "--cell", f"{lac}-{ci}", "--slots", str(count), "--from", source], capture.out)
            ran = checked.run(other)
            right = ran.out == joined([[cell, count, slots]])
            checked.expect(right, other, ran, f"a tape is another after pcap and tape: {ran.said()}")


def check_tight(checked, case):
    """With little memory a run is out of memory, or has its answer all the same."""
    one = checked.run(case.run)
    for spare in case.spares:
        other = case.run.but(spare=spare)
        ran = checked.bench.run(other)
        if ran.status == -signal.SIGSEGV:
            # The system couldn't make the stack larger, which no program can answer:
            # with room for it there is an answer.
            other = other.but(spare=spare + STACK)
            ran = checked.bench.run(other)
        checked.judge(other, ran)
        if ran.status != 4:
            same(checked, other, one, ran, "another answer with little memory")


def check_devices(checked, case):
    """A device that fails has status 3, if the run comes to it; what was written is a front of the output."""
    one = checked.run(case.run)
    for changes in ({"reader": "folder"}, {"reader": "shut"}):
        checked.run(case.run.but(**changes))
    for writer in ("full", "unread", "left", "bounded"):
        other = case.run.but(writer=writer, size=case.size)
        ran = checked.run(other)
        if writer == "left":
            right = ran.status in (3, one.status)
        else:
            fits = writer == "bounded" and len(one.out) <= case.size
            right = ran.status == (3 if one.out and not fits else one.status)
        right = right and (is_chance(case.run) or one.out.startswith(ran.out))
        whole = {"left": min(case.size, len(one.out)), "bounded": min(case.size, len(one.out))}.get(writer, 0)
        right = right and len(ran.out) == whole
        checked.expect(right, other, ran, f"writer {writer}: {ran.said()}, sound: {one.said()}")
    other = case.run.but(faults="full")
    same(checked, other, Ran(one.status, one.out, b""), checked.run(other), "standard error counts")


def check_words(checked, case):
    """Words have the status that they have to have; help goes to the writer."""
    one = checked.run(case.run)
    if one.status == 0 and case.run.wanted == "text":
        other = case.run.but(writer="full")
        ran = checked.run(other)
        checked.expect(ran.status == 3, other, ran, "help that can't be written")


CHECKS = {it.__name__.removeprefix("check_"): it for it in (
    check_twice, check_pieces, check_workers, check_sessions, check_tapes, check_verify, check_captures, check_round,
    check_tight, check_devices, check_words)}
# how often each check is made of an input
SHARES = {
    "book": {"workers": 4, "sessions": 5, "tapes": 4, "verify": 4, "tight": 4, "devices": 2, "pieces": 1, "twice": 2},
    "rows": {"twice": 4, "tight": 3, "devices": 1, "pieces": 2},
    "tape": {"twice": 4, "captures": 4, "tight": 2, "devices": 1, "pieces": 2},
    "capture": {"twice": 3, "tight": 2, "devices": 1, "pieces": 1},
    "text": {"round": 5, "tight": 2, "devices": 1, "pieces": 1},
}


@dataclasses.dataclass
class Case:
    """An input with what is done with it."""

    number: int
    check: str
    run: Run
    # how many workers or sessions, octets of a piece, or octets that a writer takes
    size: int = 1
    # octets of address space over the floor
    spares: list = dataclasses.field(default_factory=list)

    def try_on(self, bench):
        checked = Checked(bench)
        CHECKS[self.check](checked, self)
        return checked.found


# Texts


def character(chance):
    kind = chance.random()
    if kind < 0.7:
        return chance.choice(GSM)
    return chance.choice(EXTENSION if kind < 0.85 else UCS2)


def clean_text(chance):
    """Returns a text that has no fault."""
    kind = chance.random()
    signs = GSM if kind < 0.6 else GSM + EXTENSION + UCS2
    length = chance.randint(1, 40) if chance.random() < 0.7 else chance.choice((41, 82, 92, 93, 94, 186, 187, 614, 615))
    return "".join(chance.choice(signs) for _ in range(length)).encode()


def make_text(chance):
    """Returns a text: of one character or of several alphabets, as long as a page is or one more, at times spoilt."""
    length = chance.choice(LENGTHS) if chance.random() < 0.4 else chance.randint(1, 30)
    kind = chance.random()
    if kind < 0.3:
        text = character(chance) * length
    elif kind < 0.7:
        text = "".join(chance.choice(GSM) for _ in range(length))
    else:
        text = "".join(character(chance) for _ in range(length))
    if chance.random() < 0.1:
        place = chance.randint(0, len(text))
        text = text[:place] + chance.choice(BAD) + text[place:]
    octets = text.encode()
    if chance.random() < 0.05:
        place = chance.randint(0, len(octets))
        octets = octets[:place] + chance.choice(BROKEN) + octets[place:]
    return octets


# Books: rows of fields of octets


def rows_of(book):
    """Returns the rows of a book, as well as they can be read."""
    reader = csv.reader(io.StringIO(book.decode("latin-1"), newline=""))
    return [[field.encode("latin-1") for field in row] for row in reader if row]


def quoted(field, which):
    if which == "all" or which == "needed" and any(it in field for it in b',"\r\n'):
        return b'"' + field.replace(b'"', b'""') + b'"'
    return field


def book_of(chance, rows):
    """Returns the octets of rows, with some kind of line ends and of quotes."""
    which = chance.choice(["needed"] * 17 + ["all", "all", "none"])
    ends = chance.choice([[b"\n"]] * 6 + [[b"\r\n"], [b"\r"], [b"\n", b"\r\n", b"\r", b"\n\n"]])
    book = b"".join(b",".join(quoted(it, which) for it in row) + chance.choice(ends) for row in rows)
    if chance.random() < 0.1:
        book = book.rstrip(b"\r\n")
    return b"\xef\xbb\xbf" + book if chance.random() < 0.05 else book


def cells_in(rows):
    return [row[1] + b"-" + row[2] for row in rows if row[0] == b"cell" and len(row) == 3]


def make_cells(chance, rows):
    cells = cells_in(rows)
    if not cells or chance.random() < 0.4:
        return b"*"
    return b" ".join(chance.sample(cells, chance.randint(1, len(cells))))


def make_sent(chance, rows, periods):
    """Returns the columns from CATEGORY on."""
    period = chance.choice(periods)
    broadcasts = chance.choice((0, 0, 1, 2, 7, 65535))
    text = make_text(chance) if chance.random() < 0.01 else clean_text(chance)
    return [b"%d" % chance.choice((0, 1, 2, 2)), b"%d" % period, b"%d" % broadcasts, make_cells(chance, rows), text]


def make_book(chance):
    """Returns the rows of a book that is right but, at times, for a text."""
    rows, names = [], {}
    for ci in range(chance.choice((0, 1, 1, 2, 2, 3, 5, 64))):
        rows.append([b"cell", b"%d" % chance.choice((1, 1, 65535)), b"%d" % (ci + 1)])
    at, periods = 0, chance.choice(((1, 2, 3, 4, 8, 20), (4, 20, 100, 300), (1000, 1024)))
    for _ in range(chance.choice((1, 3, 8, 20, 80, 300)) if rows else 0):
        at = max(0, at + chance.choice((0, 0, 0, 1, 2, 30, -1)))
        kind, language = chance.random(), chance.choice(LANGUAGES).encode()
        live = [name for name, updates in names.items() if updates < 15]
        if kind < 0.5 or not live:
            name = b"a%d" % len(names)
            names[name] = 0
            pair = chance.choice((4370, 0, 65535, 4370 + len(names))), chance.choice((0, 1, len(names), 1023))
            rows.append([b"write", b"%d" % at, name, b"%d" % pair[0], b"%d" % chance.randint(0, 3), b"%d" % pair[1],
                         language, *make_sent(chance, rows, periods)])
        elif kind < 0.8:
            name = chance.choice(live)
            names[name] += 1
            rows.append([b"update", b"%d" % at, name, language, *make_sent(chance, rows, periods)])
        else:
            rows.append([b"stop", b"%d" % at, chance.choice(list(names)), make_cells(chance, rows)])
    return rows


def odd_cells(chance, rows):
    cells = cells_in(rows) or [b"1-1"]
    one = chance.choice(cells)
    return chance.choice((b"", b"* ", b"**", one + b" " + one, one + b"  " + one, b" " + one, one + b" ", b"0" + one,
                          one.replace(b"-", b"/"), one + b"-1", b"1-", b"-1", b"9-9", b" ".join(cells), b"00000" + one,
                          one.replace(b"-", b" - "), b"65536-1"))


def odd_field(chance, rows, column):
    """Returns a value for a column: at its limits or one past, of another form, or anything."""
    if column in LIMITS and chance.random() < 0.8:
        low, high = LIMITS[column]
        near = low, high, low - 1, high + 1
        return chance.choice([b"%d" % it for it in near] + [b"%05d" % low, b"%06d" % high, *ODD_NUMBERS])
    if column == "lang" and chance.random() < 0.8:
        return chance.choice([it.encode() for it in LANGUAGES] + [b"", b"EN", b"en ", b"e", b"eng", b"xx", b"\xff"])
    if column == "cells" and chance.random() < 0.8:
        return odd_cells(chance, rows)
    if column == "name" and chance.random() < 0.8:
        return chance.choice((b"", b" ", b"a0", b"a1", b"A0", b"a" * 70_000, b"\xff", b"\x00", b"a0 "))
    return chance.choice((b"", make_text(chance), chance.choice(TOKENS), b"7" * 70_000))


def set_field(chance, rows, row):
    columns = COLUMNS.get(row[0], ())
    place = chance.randrange(len(row))
    row[place] = odd_field(chance, rows, columns[place - 1] if 1 <= place <= len(columns) else "")


def set_text(chance, rows, row):
    row[-1] = make_text(chance)


def set_verb(chance, rows, row):
    row[0] = chance.choice((*COLUMNS, b"sell", b"", b"CELL", b" cell", b"cell ", b"\xff", b"#"))


def drop_field(chance, rows, row):
    del row[chance.randrange(len(row))]


def add_field(chance, rows, row):
    row.insert(chance.randint(0, len(row)), odd_field(chance, rows, ""))


def drop_row(chance, rows, row):
    rows.remove(row)


def double_row(chance, rows, row):
    rows.insert(chance.randint(0, len(rows)), list(row))


def swap_rows(chance, rows, row):
    one, other = chance.randrange(len(rows)), chance.randrange(len(rows))
    rows[one], rows[other] = rows[other], rows[one]


def many_updates(chance, rows, row):
    if len(row) > 2:
        update = [b"update", b"0", row[2], b"en", b"2", b"2", b"0", b"*", b"One"]
        rows += [list(update) for _ in range(chance.choice((14, 15, 16)))]


def many_cells(chance, rows, row):
    count = chance.choice((62, 63, 64, 65))
    rows[:0] = [[b"cell", b"%d" % chance.choice((7, 7, 8)), b"%d" % ci] for ci in range(count)]


def many_rows(chance, rows, row):
    """Fills a book up to 4,095 to 4,097 rows."""
    count = chance.choice((100, 4095, 4096, 4097)) - len(rows)
    kind = chance.random()
    for number in range(count):
        new = f"write,{number // 64},m{number},{number},0,1,en,{number % 3},1000,1,*,One".encode().split(b",")
        rows.append(new if kind < 0.5 else list(row))


BOOK_CHANGES = [set_field] * 6 + [set_text, drop_row, double_row, swap_rows] * 2 + [
    set_verb, drop_field, add_field, many_updates, many_cells]


def change_book(chance, rows):
    for _ in range(chance.choice((0, 1, 1, 1, 2, 4))):
        if rows:
            change = many_rows if chance.random() < 0.005 else chance.choice(BOOK_CHANGES)
            row = chance.choice(rows)
            if row:
                change(chance, rows, row)
    return rows


def some_book(chance, seeds):
    kind = chance.random()
    if kind < 0.4:
        return book_of(chance, make_book(chance))
    if kind < 0.6:
        return book_of(chance, change_book(chance, make_book(chance)))
    book = chance.choice(seeds)
    if kind < 0.85:
        return book_of(chance, change_book(chance, rows_of(book)))
    if kind < 0.9:
        return book + chance.choice(seeds)
    return book


# Tapes: headers, and slots of 92 octets


def make_content(chance):
    kind = chance.random()
    if kind < 0.5:
        length, codes = chance.choice((0, 1, 92, 93)), (13, 27, 10, 34, 44, 0, 65, 97, 127, chance.randrange(128))
        return gsm.packed([chance.choice(codes) for _ in range(length)])
    if kind < 0.8:
        some = 0x0d, 0x0a, 0x22, 0x2c, 0x41, 0x42f, 0xd800, 0xdfff, 0xffff, 0, 0xfeff
        length = chance.choice((0, 1, 41))
        return gsm.of_units([chance.choice(some) for _ in range(length)])
    return chance.randbytes(82)


def make_slots(chance):
    """Returns the slots of some messages whose pages come in turn, at times not all, or in another order."""
    slots = []
    for _ in range(chance.choice((0, 1, 1, 2, 5))):
        coding = chance.choice((0, 1, 15, 0x20, 0x24, 0x40, 0x53, 0x48, 0x5b, 0x10, 0xff))
        total = chance.choice((0, 1, 1, 2, 3, 15))
        serial, number = chance.choice((0, 16, 17, 65535)), chance.choice((0, 4370, 65535))
        for page in range(min(total, 1), total + 1):
            slots.append(gsm.slot_of(serial, number, coding, page << 4 | total, make_content(chance)))
    slots += [gsm.IDLE_SLOT] * chance.choice((0, 0, 1, 3))
    if chance.random() < 0.3:
        chance.shuffle(slots)
    return slots


def make_tapes(chance):
    """Returns triples of a cell (4 octets), a number of slots and the slots."""
    tapes = []
    for _ in range(chance.choice((0, 1, 1, 1, 2, 3, 63, 64, 65) if chance.random() < 0.2 else (1, 1, 2))):
        slots = make_slots(chance)
        tapes.append([chance.choice((b"\0\1\0\1", b"\0\1\0\2", b"\xff\xff\0\0")), len(slots), slots])
    return tapes


def tapes_of(octets):
    """Returns the tapes of octets, as far as they can be read."""
    tapes = []
    while len(octets) >= 8:
        count = int.from_bytes(octets[4:8])
        end = gsm.size_of_tape(count)
        slots = [octets[first:first + gsm.SLOT] for first in range(8, min(len(octets), end), gsm.SLOT)]
        tapes.append([octets[:4], count, slots])
        octets = octets[end:]
    return tapes


def change_tapes(chance, tapes):
    for _ in range(chance.choice((0, 1, 1, 2, 4)) if tapes else 0):
        tape = chance.choice(tapes)
        kind = chance.randrange(8)
        if kind == 0:
            tape[1] = chance.choice((0, 1, tape[1] - 1 & 0xffffffff, tape[1] + 1, 65535, 65536, 1 << 31, 0xffffffff))
        elif kind == 1:
            tapes.insert(chance.randint(0, len(tapes)), [tape[0], tape[1], list(tape[2])])
        elif kind == 2:
            tapes.remove(tape)
        elif tape[2]:
            change_slot(chance, tape, kind)
        if not tapes:
            break
    return tapes


def change_slot(chance, tape, kind):
    slots, place = tape[2], chance.randrange(len(tape[2]))
    slot = bytearray(slots[place])
    if kind == 3:
        slots.insert(chance.randint(0, len(slots)), slots[place])
        tape[1] += chance.choice((0, 1))
    elif kind == 4:
        del slots[place]
        tape[1] = max(0, tape[1] - chance.choice((0, 1)))
    elif kind == 5 and len(slot) == 92:
        slot[23 * chance.randrange(4)] = chance.choice((0x20, 0x21, 0x22, 0x33, 0x2f, 0, 0xff))
        slots[place] = bytes(slot)
    elif len(slot) == 92:
        octet = chance.choice((0, 1, 0x11, 0x12, 0x21, 0x22, 0x48, 0xff, chance.randrange(256)))
        slot[chance.choice((1, 2, 3, 4, 5, 6, chance.randrange(92)))] = octet
        slots[place] = bytes(slot)


def some_tapes(chance, seeds):
    tapes = make_tapes(chance) if chance.random() < 0.6 else tapes_of(chance.choice(seeds))
    return joined(change_tapes(chance, tapes))


def joined(tapes):
    """Returns the octets of tapes."""
    return b"".join(cell + (count & 0xffffffff).to_bytes(4) + b"".join(slots) for cell, count, slots in tapes)


# Captures: those of random links and of one random tape, as a network may give them, or of some tapes


def some_capture(chance, seeds):
    kind = chance.random()
    if kind < 0.3:
        return link_captures.random_capture(chance).file
    if kind < 0.6:
        slots = chance.choice((1, 2, 7, 40, 300))
        return capture_reference.random_file(chance, capture_reference.random_tape(chance, slots))
    if kind < 0.8:
        return capture_reference.capture_of(joined(make_tapes(chance)[:64]), chance.random() < 0.5)
    return chance.choice(seeds)


def some_text(chance, seeds):
    text = make_text(chance) if chance.random() < 0.8 else chance.choice(seeds)
    if chance.random() < 0.003:
        text = (text or b"a") * (chance.choice((1 << 20, 1 << 24, (1 << 24) + 9)) // max(1, len(text)))
    return text + (b"\n" if chance.random() < 0.3 else b"")


# Octets of any kind


def change_octets(chance, octets, seeds):
    """Flips, sets, inserts, deletes, doubles and cuts octets, and splices two inputs."""
    octets = bytearray(octets)
    for _ in range(chance.choice((1, 1, 2, 4, 16))):
        place = chance.randint(0, len(octets))
        length = min(chance.choice((1, 1, 2, 23, 92, 400)), len(octets) - place)
        kind = chance.randrange(9)
        if kind < 2 and length:
            octets[place] ^= 1 << chance.randrange(8)
        elif kind < 3 and length:
            octets[place] = chance.choice((0, 1, 0x7f, 0x80, 0xff, chance.randrange(256)))
        elif kind < 5:
            octets[place:place] = chance.choice(TOKENS)
        elif kind < 6:
            del octets[place:place + length]
        elif kind < 7:
            octets[place:place] = octets[place:place + length] * chance.choice((1, 1, 2, 30))
        elif kind < 8 and chance.random() < 0.5:
            del octets[place:]
        else:
            other = chance.choice(seeds)
            octets[place:] = other[chance.randint(0, len(other)):]
    return bytes(octets)


# Command lines


def number_word(chance, low, high):
    return str(chance.choice((low, high, chance.randint(low, high))))


def option(chance, name, value):
    if value is None:
        return [name]
    return [f"{name}={value}"] if chance.random() < 0.2 else [name, value]


def words_of(chance, options):
    """Returns options and their values in some order."""
    options = list(options.items())
    if chance.random() < 0.2:
        chance.shuffle(options)
    return [word for name, value in options for word in option(chance, name, value)]


def page_options(chance):
    language = chance.choice(LANGUAGES) if chance.random() < 0.95 else chance.choice(("xx", "EN", "en ", "", "é"))
    options = {"--lang": language, "--id": number_word(chance, 0, 65535), "--scope": number_word(chance, 0, 3),
               "--code": number_word(chance, 0, 1023), "--update": number_word(chance, 0, 15)}
    return options if chance.random() < 0.7 else {**options, "--explain": None}


def threads_word(chance):
    return str(chance.choice((1, 2, 2, 3, 4, 7, 16, 64) if chance.random() < 0.3 else (1, 2, 3)))


def book_options(chance, command, book):
    """Returns the options of a command of books: at most so many slots that the output stays small."""
    cells = min(64, book.count(b"cell"))
    last = max((int(it) for it in re.findall(rb"(?m)^(?:write|update|stop),(\d{1,5})", book)), default=0)
    kind = chance.random()
    slots = chance.choice((1, 2, 3, 7, 63, 64, 65, 128, 300, 4096, 65535)) if kind < 0.3 else chance.randint(1, 40)
    slots = min(65535, slots + last) if kind > 0.5 else slots
    options = {"--slots": str(max(1, min(slots, MAX_SLOTS // max(1, cells))))}
    if chance.random() < 0.5:
        options["--workers"] = threads_word(chance)
    if command == "live" and chance.random() < 0.8:
        options["--sessions"] = threads_word(chance)
    if command == "chart" and chance.random() < 0.3:
        options["--cell"] = cell_word(chance)
    if command == "chart" and chance.random() < 0.3:
        options["--lang"] = chance.choice(("en", "de"))
    if command == "report" and chance.random() < 0.3:
        options["--full"] = None
    if command == "chart" and chance.random() < 0.3:
        options["--tables"] = None
    if command in ("report", "load") and chance.random() < 0.3:
        options["--start"] = chance.choice(STARTS)
    return options


def cell_word(chance):
    return f"{number_word(chance, 0, 65535)}-{number_word(chance, 0, 65535)}" if chance.random() < 0.3 else "1-1"


def capture_options(chance):
    """Returns the options of `tape`."""
    options = {"--cell": cell_word(chance)}
    if chance.random() < 0.8:
        options["--slots"] = str(chance.choice((1, 2, 7, 40, 300, 65535)))
    if chance.random() < 0.3:
        options["--from"] = chance.choice(("0.1.0.1", "0.0.0.0", "255.255.255.255"))
    return options


def orders_options(chance, data):
    """Returns the options of `orders`: of a book's run if the input begins as a book does, and else of a capture."""
    options = {"--cell": cell_word(chance)}
    if data.startswith(b"cell,"):
        return {**options, **book_options(chance, "orders", data)}
    for name, values in (("--bsc", ("10.0.0.2", "10.0.0.3", "0.0.0.0")), ("--first-slot", ("0", "1", "7", "65535")),
                         ("--from", ("127.0.0.1", "127.0.0.2", "0.1.0.1")), ("--arfcn", ("0", "51", "1023")),
                         ("--channel", ("cbch", "sdcch")), ("--packets", (None,))):
        if chance.random() < 0.2:
            options[name] = chance.choice(values)
    return options


def tape_options(chance, command):
    """Returns the options of `read`, `whole` and `pcap`."""
    options = {}
    if command == "read" and chance.random() < 0.5:
        options["--short"] = None
    if command == "read" and chance.random() < 0.3:
        options["--slots"] = None
    if command == "pcap" and chance.random() < 0.5:
        options["--used"] = None
    if command == "pcap" and chance.random() < 0.5:
        options["--channel"] = chance.choice(("51", "52"))
    if command == "pcap" and chance.random() < 0.5:
        options["--start"] = chance.choice(STARTS)
    return options


def rows_options(chance, command, data):
    """Returns the options of `check`, `texts` and `link`; `plan` has none."""
    if command == "link":
        starts = {"--start": chance.choice(STARTS)} if chance.random() < 0.5 else {}
        return {**book_options(chance, command, data), **starts}
    if command == "plan" or chance.random() < 0.5:
        return {}
    network = {"--network": None} if chance.random() < 0.5 else {"--group": chance.choice(("0", "1", "1023", "65535"))}
    if command == "texts":
        return {**({"--pages": str(chance.randint(1, 15))} if chance.random() < 0.7 else {}),
                **(network if chance.random() < 0.4 else {})}
    if chance.random() < 0.4:
        return network
    options = {"--slots": book_options(chance, "report", data)["--slots"]}
    if chance.random() < 0.5:
        options["--strict"] = None
    return {**options, **(network if chance.random() < 0.4 else {})}


def good_options(chance, command, data):
    if command == "page":
        return page_options(chance)
    if command == "tape":
        return capture_options(chance)
    if command == "orders":
        return orders_options(chance, data)
    if command == "cells":
        return {}
    if command in COMMANDS_OF["rows"]:
        return rows_options(chance, command, data)
    return tape_options(chance, command) if command in COMMANDS_OF["tape"] else book_options(chance, command, data)


def spoilt_words(chance, command, options):
    """Returns words that clap refuses."""
    limits = {"--id": 65536, "--scope": 4, "--code": 1024, "--update": 16, "--slots": 65536, "--workers": 65,
              "--sessions": 65, "--channel": 53, "--pages": 16, "--group": 65536,
              "--cell": "1-65536", "--from": "1.2.3.256",
              "--bsc": "1.2.3.256", "--first-slot": 65536, "--arfcn": 1024}
    kind = chance.randrange(6)
    numbers = [name for name in options if name in limits]
    if kind == 0 and numbers:
        name = chance.choice(numbers)
        odd = str(limits[name]), "-1", "", "x", "1 ", " 1", "1.0", "0x1", "99999999999999999999", "١"
        options[name] = chance.choice(odd)
        return [command, *words_of(chance, options)]
    if kind == 1 and command in NEEDED:
        options.pop(NEEDED[command])
        return [command, *words_of(chance, options)]
    if kind == 2:
        return chance.choice(([], ["sell"], [""], ["Page"], ["--slots"], ["-x"], ["\udcff"], ["--", command]))
    words = [command, *words_of(chance, options)]
    if kind == 3 and command in NEEDED:
        return words + words[1:2 if "=" in words[1] else 3]
    place = chance.randint(1, len(words)) if kind == 4 else len(words)
    strange = "--no-such-option", "-x", "\udcff", "\udcc3", "--slots" if command == "page" else "--lang"
    return words[:place] + [chance.choice(strange)] + words[place:]


def words_case(chance, number):
    """Returns a case of words that are wrong, or that ask for a text."""
    command = chance.choice(COMMANDS)
    if chance.random() < 0.2:
        words = chance.choice((["--help"], ["--version"], ["-h"], ["-V"], [command, "--help"]))
        return Case(number, "words", Run(list(words), b"", "text"))
    words = spoilt_words(chance, command, good_options(chance, command, b""))
    return Case(number, "words", Run(words, b"", "usage"))


# Cases: the same number and seed, the same case


def read_seeds():
    """Returns the seeds of each kind; those in hexadecimal have the ending .hex."""
    found = {}
    for kind in ("book", "tape", "text"):
        folder = os.path.join(SEEDS, kind + "s")
        found[kind] = []
        for name in sorted(os.listdir(folder)):
            with open(os.path.join(folder, name), "rb") as file:
                octets = file.read()
            found[kind].append(bytes.fromhex(octets.decode()) if name.endswith(".hex") else octets)
    chance = random.Random(0)
    tapes = (capture_reference.random_tape(chance, 7) for _ in range(4))
    # books again, for the commands that run none
    found["rows"] = found["book"]
    found["capture"] = [capture_reference.random_file(chance, it) for it in tapes]
    return found


# how many workers or sessions, octets of a piece, or octets that a writer takes
SIZES = {"workers": (2, 3, 4, 4, 64), "sessions": (2, 2, 3, 64), "pieces": (1, 2, 7, 64),
         "devices": (1, 7, 8, 9, 92, 100, 192, 4096, 8192, 20_000), "verify": (1, 2, 4), "captures": (51, 52)}
# kibioctets over the floor
SPARES = (0, 1, 4, 16, 64, 256, 1024, 4096, 16384, 98304)
COMMANDS_OF = {"book": (*OF_BOOKS, "verify"), "rows": ("plan", "check", "texts", "orders", "link"),
               "tape": ("read", "whole", "pcap"), "text": ("page",), "capture": ("tape", "cells", "orders")}
MAKERS = {"book": some_book, "rows": some_book, "tape": some_tapes, "text": some_text, "capture": some_capture}


def case_of(chance, number, kind, data):
    """Returns a case of an input, with some check of its kind."""
    kinds = [kind] if chance.random() < 0.97 else list(COMMANDS_OF)
    command = chance.choice(COMMANDS_OF[chance.choice(kinds)])
    shares = SHARES[next(it for it, commands in COMMANDS_OF.items() if command in commands)]
    check = chance.choices(list(shares), list(shares.values()))[0]
    run = Run([command, *words_of(chance, good_options(chance, command, data))], data)
    run = run.but(book=chance.choice((len(data), len(data), len(data) // 2, 0)))
    spares = [chance.choice(SPARES) * chance.randint(512, 1024) for _ in range(2)] if check == "tight" else []
    return Case(number, check, run, chance.choice(SIZES.get(check, (1,))), spares)


def make_case(seed, number, seeds):
    """Returns a case of a seed of chance: first the seeds as they stand, then mutations."""
    chance = random.Random(f"{seed}:{number}")
    plain_ones = [(kind, octets) for kind, all_of in seeds.items() for octets in all_of]
    if number < len(plain_ones):
        return case_of(chance, number, *plain_ones[number])
    if chance.random() < 0.03:
        return words_case(chance, number)
    kind = chance.choices(("book", "rows", "tape", "text", "capture"), (6, 2, 2, 2, 1))[0]
    data = MAKERS[kind](chance, seeds[kind])
    if chance.random() < (0.12 if kind in ("book", "rows") else 0.25):
        data = change_octets(chance, data, seeds[kind])
    return case_of(chance, number, kind, data)


# Findings, kept and tried again


def kept(folder, case, found):
    """Writes a finding's case, its input, and the run that has it, into a folder of their own."""
    run, ran, fault = found
    os.makedirs(folder, exist_ok=True)
    words = dataclasses.asdict(case)
    words["run"].pop("data")
    about = {**dataclasses.asdict(run), "data": len(run.data)}
    said = {"fault": fault, "status": ran.status, "run": about, "case": words}
    for name, octets in (("input", case.run.data), ("run_input", run.data), ("stdout", ran.out), ("stderr", ran.err)):
        with open(os.path.join(folder, name), "wb") as file:
            file.write(octets)
    with open(os.path.join(folder, "case.json"), "w", encoding="ascii") as file:
        json.dump(said, file, indent=1)


def case_in(path):
    """Returns the case that a file of a finding has, and its fault."""
    with open(path, encoding="ascii") as file:
        said = json.load(file)
    with open(os.path.join(os.path.dirname(path), "input"), "rb") as file:
        said["case"]["run"]["data"] = file.read()
    said["case"]["run"] = Run(**said["case"]["run"])
    return Case(**said["case"]), said["fault"]


def kind_of(fault):
    """Returns the kind of a fault: what it says, without what is of one input alone."""
    return re.sub(r"\d+", "N", fault.split(":")[0])


def shrunk(bench, case, kind):
    """Returns the case with an input from which no piece can go without losing the fault."""
    data, size = case.run.data, max(1, len(case.run.data) // 2)
    while size:
        place = 0
        while place < len(data):
            less = data[:place] + data[place + size:]
            other = dataclasses.replace(case, run=case.run.but(data=less))
            if any(kind_of(it[2]) == kind for it in other.try_on(bench)):
                data = less
            else:
                place += size
        size //= 2
    return dataclasses.replace(case, run=case.run.but(data=data))


def replay(words):
    """Tries a finding again; returns the status."""
    bench = Bench(words.warnc, floor_of(words.warnc))
    path = os.path.join(words.replay, "case.json") if os.path.isdir(words.replay) else words.replay
    case, fault = case_in(path)
    for _ in range(TRIES):
        found = case.try_on(bench)
        if found:
            break
    for run, ran, it in found:
        print(f"{run.title()}: {it}; {ran.said()}")
    if found and words.shrink:
        case = shrunk(bench, case, kind_of(found[0][2]))
        print(f"{len(case.run.data)} octets have it, too: {case.run.data[:400]!r}")
        kept(os.path.join(os.path.dirname(path), "small"), case, case.try_on(bench)[0])
    print(f"{sum(bench.counts.values())} runs, {len(found)} findings" + ("" if found else f"; before: {fault}"))
    return 1 if found else 0


# Many cases, by several processes


def work(end, words, floor, lane, deadline):
    """Tries every so manieth case until the time is over, and sends what comes of each."""
    signal.signal(signal.SIGINT, signal.SIG_DFL)
    seeds, number = read_seeds(), lane
    while time.monotonic() < deadline:
        bench = Bench(words.warnc, floor)
        case = make_case(words.seed, number, seeds)
        found = case.try_on(bench)
        end.send((bench.counts, case if found else None, found))
        number += words.jobs
    end.close()


class Tally:
    """Counts runs and findings, keeps findings, and shows how far it is."""

    def __init__(self, folder, minutes):
        self.folder = folder
        self.counts = {}
        self.kinds = {}
        self.began = self.shown = time.monotonic()
        self.minutes = minutes

    def runs(self):
        return sum(self.counts.values())

    def findings(self):
        return sum(self.kinds.values())

    def add(self, counts, case, found):
        for key, count in counts.items():
            self.counts[key] = self.counts.get(key, 0) + count
        for it in found:
            kind = f"{it[0].command()}: {kind_of(it[2])}"
            self.kinds[kind] = self.kinds.get(kind, 0) + 1
            if self.kinds[kind] <= KEPT:
                folder = os.path.join(self.folder, f"{case.number:07}-{self.findings()}")
                kept(folder, case, it)
                print(f"{self.clear()}{it[0].title()}: {it[2]}; kept in {folder}", flush=True)

    def clear(self):
        return "\r\x1b[K" if sys.stdout.isatty() else ""

    def show(self):
        if sys.stdout.isatty() and time.monotonic() - self.shown > 0.5:
            self.shown = time.monotonic()
            minutes = (self.shown - self.began) / 60
            line = f"{minutes:.1f} of {self.minutes:g} min: {self.runs()} runs, {self.findings()} findings"
            print(f"{self.clear()}{line[:os.get_terminal_size(1).columns - 1]}", end="", flush=True)

    def status(self, lanes):
        """Returns the status: 1 if there are findings, and 2 if a process of this tool failed."""
        for lane in lanes:
            lane.join(1)
        failed = any(lane.exitcode not in (0, None, -signal.SIGINT) for lane in lanes)
        return 2 if failed else 1 if self.findings() else 0

    def table(self):
        """Prints the counts by command and status, and the kinds of findings."""
        columns = ["0", "1", "2", "3", "4", "late", "other"]
        print(f"{self.clear()}{'command':10}" + "".join(f"{it:>9}" for it in columns))
        for command in (*COMMANDS, "(none)"):
            print(f"{command:10}" + "".join(f"{self.counts.get((command, it), 0):9}" for it in columns))
        for kind, count in sorted(self.kinds.items()):
            print(f"{count} times {kind}")
        print(f"{self.runs()} runs, {self.findings()} findings")


def fuzz(words):
    """Runs cases until the time is over; returns the status."""
    floor = floor_of(words.warnc)
    folder = words.keep or tempfile.mkdtemp(prefix="fuzz-")
    print(f"seed {words.seed}; the program needs {floor / MEBI:.1f} MiB; findings are kept in {folder}", flush=True)
    tally, several = Tally(folder, words.minutes), multiprocessing.get_context("fork")
    ends, lanes, deadline = [], [], time.monotonic() + 60 * words.minutes
    for lane in range(words.jobs):
        end, feed = several.Pipe(duplex=False)
        lanes.append(several.Process(target=work, args=(feed, words, floor, lane, deadline), daemon=True))
        lanes[-1].start()
        feed.close()
        ends.append(end)
    try:
        while ends:
            for end in multiprocessing.connection.wait(ends, 0.5):
                try:
                    tally.add(*end.recv())
                except EOFError:
                    ends.remove(end)
            tally.show()
    except KeyboardInterrupt:
        pass
    tally.table()
    return tally.status(lanes)


def main():
    words = argparse.ArgumentParser(description=__doc__, formatter_class=argparse.RawDescriptionHelpFormatter)
    words.add_argument("--minutes", type=float, default=1, help="how long it runs, 1 if it isn't given")
    words.add_argument("--seed", type=int, default=0, help="the seed of chance, 0 if it isn't given")
    words.add_argument("--jobs", type=int, default=1, help="how many inputs are tried at a time")
    words.add_argument("--warnc", metavar="PROGRAM", default=PROGRAM, help="the program that is run")
    words.add_argument("--keep", metavar="FOLDER", help="where findings are kept; a temporary folder if it isn't given")
    words.add_argument("--replay", metavar="FILE", help="tries the finding of this case.json again")
    words.add_argument("--shrink", action="store_true", help="with --replay, looks for a small input")
    words = words.parse_args()
    if not os.access(words.warnc, os.X_OK):
        print(f"{words.warnc} isn't there: ./warnc --version builds it")
        return 2
    return replay(words) if words.replay else fuzz(words)


if __name__ == "__main__":
    sys.exit(main())
