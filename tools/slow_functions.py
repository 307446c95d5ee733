#!/usr/bin/env python3
"""Proves crates from nothing, with one job, and prints the functions and tests whose check took longest.

A crate is proved in a copy, so its out/ stays as it is and nothing is left behind. `rt` says when a function is proved,
which isn't where the time went: a part of its check may come long before, among those of its callees. So the times are
those between the files of checked modules that the check leaves, each of which names its function. What passes before
the first file is the reading of the libraries. The seconds are those of a clock: nothing else should run on that
processor.

Usage: slow_functions.py [--most N] [--test] CRATE..     with --test the crate's tests are proved too
"""
import argparse
import collections
import os
import re
import shutil
import subprocess
import sys
import tempfile
import time

TOP = os.path.dirname(os.path.dirname(os.path.realpath(__file__)))
MODULE = re.compile(r"Rattle-\w+-(?:proofs|specs)\.(?:contracts\.|declared\.)?(.+)\.[^.]+")


def copy_of(crate, room):
    """Makes a repository in `room` that has the crates with what was proved of the others,
    and returns the crate's folder."""
    for name in ("crates.txt", "HANDLES"):
        shutil.copy(os.path.join(TOP, name), room)
    for other in os.listdir(os.path.join(TOP, "crates")):
        skipped = ("out",) if other == crate else ("incremental",)
        folder = os.path.join(TOP, "crates", other)
        shutil.copytree(folder, os.path.join(room, "crates", other), ignore=shutil.ignore_patterns(*skipped))
    folder = os.path.join(room, "crates", crate)
    begin_from_nothing(folder)
    return folder


def begin_from_nothing(folder):
    """Keeps `rt` from beginning with what another checkout of this machine kept for the same text: it begins with what
    the crate's own folder has, which is nothing, if no other has that text."""
    os.makedirs(os.path.join(folder, "out", "incremental"))
    root = next(it for it in ("lib.rt", "main.rt") if os.path.exists(os.path.join(folder, "src", it)))
    with open(os.path.join(folder, "src", root), "a", encoding="utf-8") as text:
        text.write(f"// measured at {time.time()}\n")


def checked_at(folder):
    """Returns when each file of a checked module was written, and the function, or the type, that it belongs to."""
    found = []
    for place, _, files in os.walk(os.path.join(folder, "out", "incremental")):
        for file in files:
            named = MODULE.fullmatch(file.removesuffix(".oantt").removesuffix(".decls"))
            found.append((os.stat(os.path.join(place, file)).st_mtime, named[1] if named else "other modules"))
    return sorted(found)


def times_of(crate, words):
    """Returns the seconds of each function of a crate, those before the first one, and whether the crate is proved."""
    with tempfile.TemporaryDirectory(prefix="slow-functions-") as room:
        folder = copy_of(crate, room)
        began, found = time.time(), collections.Counter()
        with open(os.path.join(room, "log"), "w", encoding="utf-8") as log:
            run = subprocess.run(["rt", "check", "--jobs", "1", *words], cwd=folder, stdout=log, stderr=log,
                                 check=False)
        last = before = 0
        for at, name in checked_at(folder):
            if last:
                found[name] += at - last
            else:
                before = at - began
            last = at
        return found, before, run.returncode == 0


def main():
    parser = argparse.ArgumentParser(description=__doc__, formatter_class=argparse.RawDescriptionHelpFormatter)
    parser.add_argument("--most", type=int, default=10, metavar="N", help="how many functions of a crate to print (10)")
    parser.add_argument("--test", action="store_true", help="prove the tests too")
    parser.add_argument("crates", nargs="+", metavar="CRATE")
    given, all_proved = parser.parse_args(), True
    for crate in given.crates:
        found, before, proved = times_of(crate, ["--test"] * given.test)
        all_proved &= proved
        verdict = "" if proved else ", NOT PROVED"
        print(f"{crate}: {sum(found.values()) + before:.1f} s, {len(found)} functions and types{verdict}")
        print(f"{before:8.1f}  before the first")
        for name, seconds in found.most_common(given.most):
            print(f"{seconds:8.1f}  {name}", flush=True)
    return 0 if all_proved else 1


if __name__ == "__main__":
    sys.exit(main())
