#!/usr/bin/env python3
"""Times the program on this machine, each measure by itself: nothing else should run beside it. Peaks of memory below
that of Python, some 17 MB, can't be told.

Usage: bench.py NAME [PROGRAM [OTHER]]      NAME is one of those below; PROGRAM is a built `warnc`, by default the one
                                            that ./warnc runs
       bench.py live [PROGRAM] [RUNS]       200 runs if no number is given
       bench.py tape [PROGRAM] [MIB]        a capture of at most 1,024 MiB if no number is given

"""
import csv
import io
import os
import statistics
import subprocess
import sys
import tempfile
import textwrap
import time

import inputs
from inputs import gsm

TOP = os.path.dirname(os.path.dirname(os.path.realpath(__file__)))
INPUTS = os.path.join(TOP, "bench", "inputs.py")


class Bench:
    """The program, and a folder for what it reads and writes."""

    def __init__(self, program, folder):
        self.program, self.folder = program, folder

    def path(self, name):
        return os.path.join(self.folder, name)

    def made(self, kind, seed=1):
        """Writes an input, and returns its path. Another process makes it, since the memory of this one would count as
        that of the commands which it starts."""
        with open(self.path(f"{kind}.{seed}"), "wb") as it:
            subprocess.run([sys.executable, "-B", INPUTS, kind, str(seed)], stdout=it, check=True)
        return it.name


def timed(command, source, target=os.devnull, status=0):
    """Runs a command from one file to another. Returns its seconds, and its peak memory in octets."""
    with open(source, "rb") as stdin, open(target, "wb") as stdout:
        begun = time.perf_counter()
        # a fault is wanted where a status is: its line isn't shown
        process = subprocess.Popen(command, stdin=stdin, stdout=stdout, stderr=subprocess.DEVNULL if status else None)
        _, ended, used = os.wait4(process.pid, 0)
        took = time.perf_counter() - begun
    process.returncode = os.waitstatus_to_exitcode(ended)
    if process.returncode != status:
        sys.exit(f"bench.py: {' '.join(command)} < {source}: status {process.returncode}")
    return took, used.ru_maxrss << 10


def best(command, source, target=os.devnull, status=0, runs=5):
    """Returns the seconds of the fastest of some runs, and the peak memory of all."""
    found = [timed(command, source, target, status) for _ in range(runs)]
    return min(it[0] for it in found), max(it[1] for it in found)


def compile_books(bench):
    """`compile` on books of 64 cells and 4,096 slots, with one worker and with four, beside `wc -l` on the tapes, and
    its peak memory beside their size. Half a minute."""
    for kind in ("typical", "full"):
        book, tapes = bench.made(kind), bench.path("tapes")
        command = [bench.program, "compile", "--slots", "4096", "--workers"]
        several, _ = best([*command, "4"], book, tapes + ".4")
        compiled, peak = best([*command, "1"], book, tapes)
        subprocess.run(["cmp", tapes, tapes + ".4"], check=True)
        octets = os.path.getsize(tapes)
        lines, _ = best(["wc", "-l"], tapes)
        print(f"{kind:8} {octets / 1e6:5.1f} MB of tapes  wc -l {lines:.3f} s  warnc compile {compiled:.3f} s, "
              f"{octets / compiled / 1e6:.0f} MB/s, peak {peak / 1e6:.1f} MB, {peak / octets:.2f} times the tapes; "
              f"with 4 workers {several:.3f} s, {compiled / several:.2f} times as fast")


def side_by_side(command, source, count=4):
    """Returns the seconds of several runs of one command, all at once."""
    running, begun = [], time.perf_counter()
    for _ in range(count):
        # each has a place of its own in the input
        with open(source, "rb") as stdin, open(os.devnull, "wb") as stdout:
            running.append(subprocess.Popen(command, stdin=stdin, stdout=stdout))
    ended = [it.wait() for it in running]
    took = time.perf_counter() - begun
    if any(ended):
        sys.exit(f"bench.py: {' '.join(command)} < {source}: status {max(ended)}")
    return took


def workers(bench):
    """`compile` and `report` of books of 64 cells and 65,535 slots, with one worker and with four, in turn: medians of
    20 runs and, in brackets, the least, how many times as fast four are, and the peak memory of each. Beside it what
    the machine gives four programs of one worker each: how much more they do at once than one alone, which is less than
    four times where processors share a core. It needs four processors. Ten minutes."""
    for kind in ("full", "churn", "background"):
        book = bench.made(kind)
        for verb in ("compile", "report"):
            one, four = ([bench.program, verb, "--slots", "65535", "--workers", it] for it in ("1", "4"))
            alone, together, beside = [], [], []
            for number in range(20):
                alone.append(timed(one, book))
                together.append(timed(four, book))
                if number % 4 == 0:
                    beside.append((side_by_side(one, book),))
            print(f"{verb} of {kind:10} one worker {said(alone)}; four {said(together)}, {gain(alone, together)} times "
                  f"as fast; four programs do {gain(alone, beside, 4)} times as much", flush=True)


def said(runs):
    """Returns the median of the seconds of some runs, the least, and their peak memory, as they are shown."""
    seconds, peaks = zip(*runs)
    return f"{statistics.median(seconds):.3f} s ({min(seconds):.3f}), {max(peaks) / 1e6:.1f} MB"


def gain(before, after, times=1):
    """Returns how many times as fast runs went, by the medians of their seconds, and by the least, as it is shown."""
    medians, least = (times * of(it[0] for it in before) / of(it[0] for it in after) for of in (statistics.median, min))
    return f"{medians:.2f} ({least:.2f})"


def cell(bench):
    """A slot of one cell with 64, 512 and 4,032 messages: `compile` with 65,535 slots, less the same with one slot,
    which reads the book and accepts its messages too. The longest may be at most four times the shortest. A minute."""
    shortest = None
    for messages in (64, 512, 4032):
        book, tape = bench.made(f"cell-{messages}"), bench.path("tape")
        first, _ = best([bench.program, "compile", "--slots", "1"], book, tape)
        whole, _ = best([bench.program, "compile", "--slots", str(gsm.MAX_SLOTS)], book, tape)
        with open(tape, "rb") as it:
            octets = it.read()[gsm.HEADER.size:]
        busy = sum(octets[at:at + gsm.SLOT] != gsm.IDLE_SLOT for at in range(0, len(octets), gsm.SLOT))
        slot = (whole - first) / (gsm.MAX_SLOTS - 1)
        shortest = shortest or slot
        print(f"{messages:5} messages  {first:.3f} s for the book  {whole:.3f} s with all slots, "
              f"{busy / gsm.MAX_SLOTS:.0%} of them busy  {slot * 1e6:.2f} us a slot, "
              f"{slot / shortest:.1f} times that of 64")


def verify(bench):
    """`verify` of books of 64 cells and 4,096 slots and their own tapes, beside `compile` and `read` of them, and its
    peak memory beside the size of a tape. A minute."""
    for kind in ("typical", "full", "background"):
        book, tapes = bench.made(kind), bench.path("tapes")
        compiled, _ = best([bench.program, "compile", "--slots", "4096"], book, tapes)
        shown, _ = best([bench.program, "read"], tapes)
        verified, peak = best([bench.program, "verify", "--slots", "4096", "--book", book], tapes)
        print(f"{kind:10} compile {compiled:.3f} s, read {shown:.3f} s, verify {verified:.3f} s, "
              f"{verified / (compiled + shown):.2f} times both; peak {peak / 1e6:.1f} MB, "
              f"{peak / (os.path.getsize(tapes) / 64):.1f} times a tape")


def read(bench):
    """`read` beside `wc -l`, and its peak memory: on about 100 MB of mixed tapes (four inputs, one after another), on
    tapes with many messages of 15 pages, and on tapes with many messages of one page. A minute."""
    for kind, seeds in (("mixed", (1, 2, 3, 4)), ("long", (1,)), ("short", (1,))):
        tapes = [bench.made(kind, it) for it in seeds]
        octets = sum(map(os.path.getsize, tapes))
        lines = sum(best(["wc", "-l"], it)[0] for it in tapes)
        found = [best([bench.program, "read"], it) for it in tapes]
        took, peak = sum(it[0] for it in found), max(it[1] for it in found)
        print(f"{kind:6} {octets / 1e6:5.1f} MB  wc -l {lines:.3f} s  warnc read {took:.3f} s, "
              f"{octets / took / 1e6:.0f} MB/s, {100 * lines / took:.0f} % of wc's speed, peak {peak / 1e6:.1f} MB")


def pack(bench, other=None):
    """How a book of 4,096 rows is read whose texts have 15 pages each, with all cores and with one: its rows alone (the
    last is wrong, so no text is packed), its rows and texts (the last text can't be sent), and all of `compile --slots
    1`. Packing is the difference of the first two. OTHER is timed beside the program. A minute."""
    read = {"rows": (bench.made("packed-rows"), 1), "texts": (bench.made("packed-texts"), 1),
            "all": (bench.made("packed"), 0)}
    cores = sorted(os.sched_getaffinity(0))
    print(f"{os.path.getsize(read['all'][0]) / 1e6:.1f} MB of book, seconds")
    print(f"{'':10}{'cores':>6}{'rows':>8}{'packing':>9}{'compile':>9}")
    for name, program in [("program", bench.program)] + ([("other", other)] if other else []):
        for used in (cores, cores[:1]):
            words = ["taskset", "-c", ",".join(map(str, used)), program, "compile", "--slots", "1"]
            took = {kind: best(words, book, status=it, runs=7)[0] for kind, (book, it) in read.items()}
            print(f"{name:10}{len(used):6}{took['rows']:8.3f}{took['texts'] - took['rows']:9.3f}{took['all']:9.3f}")


def network(bench):
    """`report --network` on networks of 64, 1,024 and 16,384 cells with 200 orders, in runs of 4,096 slots, with 1, 2
    and 4 workers, and how many times as long as its groups by themselves the largest takes. Then on 16,384 cells with
    2,000 texts for cells of the first group, which is to take at most three times as long as `--group 0`, and on 65,536
    cells with 4,096 orders, each for 200 of them. Three minutes."""
    alone, most = None, 0
    for cells in (64, 1024, 16384):
        book, report, took = bench.made(f"network-{cells}"), bench.path("report"), {}
        for workers in (1, 2, 4):
            words = [bench.program, "report", "--slots", "4096", "--network", "--workers", str(workers)]
            # the best of some runs, since a short one is easily disturbed
            took[workers], peak = best(words, book, f"{report}.{workers}", runs=5 if cells == 64 else 1)
            subprocess.run(["cmp", f"{report}.1", f"{report}.{workers}"], check=True)
            most = max(most, peak)
            print(f"{cells:6} cells, {workers} workers: {took[workers]:6.2f} s, "
                  f"{cells / took[workers]:6.0f} cells a second")
        alone = alone or took[1]
        print(f"{cells:6} cells: {took[1] / (alone * cells / 64):.2f} times as long as one group for each of its "
              f"groups, {took[1] / took[4]:.1f} times as fast with 4 workers")
    print(f"most memory: {most / 1e6:.0f} MB")
    for name, kind, runs in (("16384 cells, 2,000 texts for group 0", "one-group", 3),
                             ("65536 cells, 4,096 orders", "large", 1)):
        book, words = bench.made(kind), [bench.program, "report", "--slots", "8", "--workers", "1"]
        first, least = best([*words, "--group", "0"], book, runs=runs)
        whole, peak = best([*words, "--network"], book, runs=runs)
        print(f"{name}: {whole:.2f} s, {peak / 1e6:.0f} MB; --group 0: {first:.2f} s, {least / 1e6:.0f} MB; "
              f"{whole / first:.1f} times as long")


def meaning(book):
    """Returns by cell what a book without refused orders may show, and what it has to: the last version of each alert
    that isn't stopped."""
    known, may, has_to = {}, {}, {}
    for row in csv.reader(io.StringIO(book.decode())):
        if row[0] == "cell":
            may[row[1], row[2]], has_to[row[1], row[2]] = set(), {}
            continue
        name = row[2]
        if row[0] == "write":
            known[name] = row[3], int(row[5]), [tuple(it.split("-")) for it in row[10].split(" ")], 0
        elif row[0] == "update":
            known[name] = *known[name][:3], known[name][3] + 1
        identifier, code, cells, version = known[name]
        for it in cells:
            has_to[it].pop(name, None)
            if row[0] != "stop":
                has_to[it][name] = identifier, f"{code * 16 + version:04x}", row[-1]
                may[it].add(has_to[it][name])
    return may, {it: set(last.values()) for it, last in has_to.items()}


def live(bench, runs="200"):
    """`live` again and again on books of 64 cells with 64 sessions: in each cell each alert's last version is shown
    once if it isn't stopped, and nothing that the book doesn't have. No run may take longer than a minute. A minute."""
    books = {seed: inputs.made("live", seed) for seed in (1, 2, 3, 4)}
    means, slowest, orders = {seed: meaning(it) for seed, it in books.items()}, 0, set()
    words = [bench.program, "live", "--slots", str(inputs.LIVE_SLOTS), "--sessions", "64"]
    for run in range(int(runs)):
        seed = run % 4 + 1
        begun = time.perf_counter()
        tapes = subprocess.run(words, input=books[seed], stdout=subprocess.PIPE, check=True, timeout=60).stdout
        slowest = max(slowest, time.perf_counter() - begun)
        table = subprocess.run([bench.program, "read"], input=tapes, stdout=subprocess.PIPE, check=True).stdout
        may, has_to = means[seed]
        shown = {it: [] for it in may}
        for row in list(csv.reader(io.StringIO(table.decode())))[1:]:
            shown[row[0], row[1]].append(tuple(row[2:]))
        for it, found in shown.items():
            if len(found) != len(set(found)) or not has_to[it] <= set(found) <= may[it]:
                sys.exit(f"run {run}, cell {it}: {found} is shown")
        orders.add((seed, tapes))
    print(f"{runs} runs, {len(orders)} different tapes of 4 books, the slowest {slowest:.2f} s: "
          "each shows what its book means")


def library(bench):
    """`warnc_paginate` of dist/libwarnc.a beside plain C (library/plain.c), by texts of four kinds: microseconds a
    call, and how many times as long the proved one takes. It needs a compiler of C. Ten seconds."""
    made = bench.path("bench")
    files = [os.path.join(TOP, it) for it in ("library/bench.c", "library/plain.c", "dist/libwarnc.a")]
    subprocess.run(["cc", "-O2", "-I", os.path.join(TOP, "include"), *files, "-o", made], check=True)
    subprocess.run([made], check=True)


def cap(bench):
    """`warnc-cap` on 200 messages with polygons for 16,384 cells (cap/big_day.py), in runs of two hours and of a day,
    with a receipt. Half a minute."""
    command, folder = os.path.join(TOP, "cap", "warnc-cap"), bench.path("day")
    subprocess.run([sys.executable, "-B", os.path.join(TOP, "cap", "big_day.py"), folder], check=True)
    for slots in ("3824", "45883"):
        words = ["--warnc", bench.program, "--cells", os.path.join(folder, "cells.csv"), "--slots", slots, "--start",
                 "2026-03-01T00:00:00Z", "--receipt", bench.path("receipt"), os.path.join(folder, "cap")]
        with open(os.devnull, "wb") as nowhere:
            begun = time.perf_counter()
            status = subprocess.run([sys.executable, "-B", command, *words], stdout=nowhere, stderr=nowhere,
                                    check=False).returncode
        print(f"{slots:>5} slots: status {status}, {time.perf_counter() - begun:.1f} s")


def tape(bench, mebibytes="1024"):
    """`tape` and `cells` of a capture of as good as 1 GiB, the most that they read, which another process writes into a
    pipe as it makes it: seconds, beside those that `wc -c` takes for it, and the peak of memory beside the size of the
    output. Half a minute."""
    took, peak = {}, {}
    commands = {"wc": ["wc", "-c"], "tape": [bench.program, "tape", "--cell", "1-1"], "cells": [bench.program, "cells"]}
    for name, command in commands.items():
        with open(bench.path(name), "wb") as output:
            begun = time.perf_counter()
            made = subprocess.Popen([sys.executable, "-B", INPUTS, f"capture-{mebibytes}"], stdout=subprocess.PIPE)
            process = subprocess.Popen(command, stdin=made.stdout, stdout=output)
            made.stdout.close()
            _, ended, used = os.wait4(process.pid, 0)
            took[name], peak[name] = time.perf_counter() - begun, used.ru_maxrss << 10
        process.returncode = os.waitstatus_to_exitcode(ended)
        if made.wait() or process.returncode:
            sys.exit(f"bench.py: {' '.join(command)}: status {process.returncode}")
    with open(bench.path("wc"), encoding="ascii") as it:
        octets = int(it.read())
    print(f"{octets / 1e6:.1f} MB  wc -c {took['wc']:.1f} s")
    for name in ("tape", "cells"):
        made, rate = os.path.getsize(bench.path(name)), octets / took[name]
        print(f"warnc {name:5} {took[name]:.1f} s, {rate / 1e6:.0f} MB/s, peak {peak[name] / 1e6:.1f} MB; "
              f"the output has {made / 1e6:.3f} MB")


MEASURES = {"cap": cap, "cell": cell, "compile": compile_books, "library": library, "live": live, "network": network,
            "pack": pack, "read": read, "tape": tape, "verify": verify, "workers": workers}


def document():
    """Returns the lines of this program's help: those of its head, and of each measure."""
    fill = textwrap.TextWrapper(120, subsequent_indent=" " * 9, break_on_hyphens=False).fill
    return __doc__ + "\n".join(fill(f"{name:9}" + " ".join(it.__doc__.split())) for name, it in MEASURES.items())


def program_here():
    said = subprocess.run([os.path.join(TOP, "warnc")], env={**os.environ, "WARNC_WHICH": "1"}, stdout=subprocess.PIPE,
                          text=True, check=True)
    return said.stdout.strip()


def main(words):
    programs = [os.path.abspath(it) for it in words[1:] if os.access(it, os.X_OK)]
    numbers = [it for it in words[1:] if it.isdigit()]
    most = {"pack": (2, 0), "live": (1, 1), "tape": (1, 1)}.get(words[0] if words else None, (1, 0))
    is_right = words and words[0] in MEASURES and len(programs) + len(numbers) == len(words) - 1
    if not is_right or len(programs) > most[0] or len(numbers) > most[1]:
        print(document())
        return 0 if words in (["-h"], ["--help"]) else 2
    with tempfile.TemporaryDirectory(prefix="warnc-bench-") as folder:
        MEASURES[words[0]](Bench(programs[0] if programs else program_here(), folder), *programs[1:], *numbers)
    return 0


if __name__ == "__main__":
    sys.exit(main(sys.argv[1:]))
