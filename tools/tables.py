#!/usr/bin/env python3
"""Runs a built program on the rows of the tables that warnc_cli_tests has, and compares what comes of them.

Usage: tables.py PROGRAM      the last line says how many rows were as wanted, how many weren't, and how many need
                              devices that fail or memory that runs out, which only the tests have

crates/command_rows/src/rows.rt says what a row does. Here each run is a process.
"""
import glob
import os
import re
import subprocess
import sys
import tempfile

TOP = os.path.dirname(os.path.dirname(os.path.realpath(__file__)))
TABLES = "crates/warnc_cli_tests/src/*.rt"
# what is said of a run
SAID = ("out", "err", "starts", "past", "all", "says", "lists")
# lines by which the next run has a device that fails, and runs that only the tests can have
DEVICES = ("reader", "writer", "faults")
NOT_HERE = ("reads", "book-reads", "scarce", "scarce-later", "scarce-threads")
SECONDS = 60


def tables_of(path):
    """Returns the tables of a file of tests, as the program of the tests reads them."""
    with open(path, encoding="utf-8") as it:
        found = re.findall(r'^const [A-Z_]+: &str = "(.*?[^\\])";', it.read(), re.M | re.S)
    # a line that ends in a backslash goes on with the next one
    return [re.sub(r"(?<!\\)\\\n\s*", "", it).replace('\\"', '"').replace("\\\\", "\\") for it in found]


class Sheet:
    """Octets that lines put together for a run. The first line after the run begins anew."""

    def __init__(self):
        self.octets, self.is_used = b"", False

    def add(self, octets):
        self.octets = octets if self.is_used else self.octets + octets
        self.is_used = False


class Bench:
    """What the next run starts from, and what the last one wrote."""

    def __init__(self, program):
        self.program, self.words = program, []
        self.sheets = {"in": Sheet(), "book": Sheet(), "worked": Sheet()}
        self.has_book = True
        self.output = self.faults = b""
        # whether the next run, and the last one, is of those that aren't tried here
        self.is_left_out = self.was_left_out = False

    def process(self, octets):
        """Runs the program in a folder of its own, with the file that the words name for a book,
        and returns the status."""
        with tempfile.TemporaryDirectory(prefix="warnc-tables-") as folder:
            named = re.search(r"--(?:book|cells|orders)[= ](\S+)", " ".join(self.words))
            if named and self.has_book:
                with open(os.path.join(folder, named[1]), "wb") as it:
                    it.write(self.sheets["book"].octets)
            done = subprocess.run([self.program, *self.words], input=octets, cwd=folder, capture_output=True,
                                  timeout=SECONDS, check=False)
        self.output, self.faults = done.stdout, done.stderr
        return str(done.returncode)

    def line(self, name):
        """Returns the next line of what was written."""
        line, end, rest = getattr(self, name).partition(b"\n")
        setattr(self, name, rest)
        return line.decode(errors="replace") if end else "no line"

    def rest(self, name):
        rest = getattr(self, name)
        setattr(self, name, b"")
        return rest.decode(errors="replace")

    def passes(self, text):
        while self.output:
            if text in self.line("output"):
                return True
        return False

    def part_of(self, worked):
        output, self.output = self.output, b""
        if output == worked:
            return "worked"
        return f"{len(output)} of {len(worked)}" if worked.startswith(output) else output.decode(errors="replace")

    def told(self, verb, status):
        """Returns what a run comes to, as its verb has it."""
        if verb == "run":
            return status
        said = self.rest("faults") if verb == "usage" else self.line("faults")
        if self.output or self.faults:
            return f"{status} {said}, and {len(self.output) + len(self.faults)} octets"
        return f"{status} {said.split()[0]}" if verb == "usage" else f"{status} {said}"

    def run(self, verb, numbers):
        """Runs the program as a line says, and returns what that comes to, if it is the same for each front."""
        octets = self.sheets["in"].octets
        fronts = range(int(numbers[0]), int(numbers[1]) + 1) if verb == "fronts" else (len(octets),)
        found = [self.told(verb, self.process(octets[:it])) for it in fronts]
        self.renew()
        return next((it for it in found if it != found[0]), found[0])

    def renew(self):
        self.has_book = True
        self.was_left_out, self.is_left_out = self.is_left_out, False
        for it in self.sheets.values():
            it.is_used = True

    def shown(self, verb, rest):
        if verb == "out":
            lines = [self.line("output") for _ in range(int(rest or 1))]
            return next((it for it in lines if it != lines[0]), lines[0])
        if verb == "err":
            return self.line("faults")
        if verb == "all":
            return self.part_of(self.sheets["worked"].octets)
        if verb == "past":
            return "yes" if self.passes(rest) else "no"
        if verb == "starts":
            return "yes" if self.line("output").startswith(rest) else "no"
        return "yes" if (rest if verb == "says" else f"\n  {rest} ") in self.rest("output") else "no"

    def set(self, verb, rest):
        """Has what a line says for the next run; returns whether it is such a line."""
        name, _, kind = verb.partition("-")
        if verb == "args":
            self.words = rest.split()
        elif verb == "repeat":
            self.sheets["in"].octets *= int(rest)
        elif verb == "bookless":
            self.has_book = False
        elif verb in self.sheets:
            self.sheets[verb].add(rest.encode() + b"\n")
        elif kind == "hex" and name in self.sheets:
            for word in rest.split():
                self.sheets[name].add(bytes.fromhex(word))
        elif kind == "cells" and name in self.sheets:
            for ci in range(*map(int, rest.split())):
                self.sheets[name].add(f"cell,1,{ci}\n".encode())
        elif kind == "none" and name in self.sheets:
            self.sheets[name].add(b"")
        elif verb == "in-worked":
            self.sheets["in"].add(self.sheets["worked"].octets)
        elif verb == "keep":
            self.sheets["worked"].add(self.output)
            self.output = b""
        else:
            return False
        return True


def outcome(bench, action):
    """Carries out a row's action, and returns what comes of it; None if the row isn't one that can be tried here."""
    verb, _, rest = action.partition(" ")
    if verb in DEVICES:
        bench.is_left_out = True
        return None
    if verb in NOT_HERE or verb in ("run", "fails", "usage", "fronts") and bench.is_left_out:
        bench.is_left_out = True
        bench.renew()
        return None
    if verb in SAID:
        return None if bench.was_left_out else bench.shown(verb, rest)
    if verb in ("run", "fails", "usage", "fronts"):
        return bench.run(verb, rest.split())
    return "" if bench.set(verb, rest) else "no such action"


def check(program, table, path):
    """Tries the rows of a table, and returns how many were as wanted, how many weren't, and how many were left out."""
    bench, counts = Bench(program), [0, 0, 0]
    for line in table.split("\n"):
        line = line.strip()
        if not line or line.startswith("#"):
            continue
        action, _, wanted = (it.strip() for it in line.partition("->"))
        found = outcome(bench, action)
        counts[2 if found is None else found != wanted] += 1
        if found not in (None, wanted):
            print(f"{path}: {line}: {found}")
    return counts


def main(words):
    if len(words) != 1 or not os.access(words[0], os.X_OK):
        print(__doc__, end="")
        return 0 if words in (["-h"], ["--help"]) else 2
    program = os.path.abspath(words[0])
    paths = sorted(it for it in glob.glob(os.path.join(TOP, TABLES)) if "malformed" not in it)
    counts = [check(program, table, os.path.relpath(it, TOP)) for it in paths for table in tables_of(it)]
    passed, failed, left = map(sum, zip(*counts))
    print(f"tables: {passed} rows as wanted, {failed} not, {left} left to the tests")
    return 1 if failed or not passed else 0


if __name__ == "__main__":
    sys.exit(main(sys.argv[1:]))
