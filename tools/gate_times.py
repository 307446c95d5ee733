#!/usr/bin/env python3
"""Runs the gate, `rt ci`, from nothing, and prints what processor time each crate took: its proof, its tests, its
edits that must be refused.

Usage: gate_times.py [--log FILE] [CRATE..]      with names of crates, these and those below them alone; what the gate
                                                 says goes to the file, or to standard output. A run of all crates that
                                                 passes is kept in tools/gate_seconds
       gate_times.py --kept                      prints the table of what is kept
       gate_times.py --keep FILE                 keeps the table that a run printed

It begins from nothing, so it takes as long as the first gate on a machine. The times are read from /proc while the gate
runs, so nothing else of this repository should be checked beside it. The last column of the table is a multiple of what
the crate `septets` took in the same run, so that machines can be compared.
"""
import argparse
import os
import re
import subprocess
import sys
import time

from build import gate_from_nothing

TICKS = os.sysconf("SC_CLK_TCK")
UNIT = "septets"
KINDS = ("proof", "tests", "edits")
OTHERS = "compilers, programs, rt"
KEPT = os.path.join(os.path.dirname(os.path.realpath(__file__)), "gate_seconds")


def kind_of(words, folder):
    """Returns what a process of the prover is for."""
    if "rt-edit-" in folder:
        return "edits"
    return "tests" if "--test" in words else "proof"


def crate_of(pid):
    """Returns the crate that a process of the prover checks, and what for."""
    try:
        with open(f"/proc/{pid}/cmdline", "rb") as it:
            words = it.read().decode(errors="replace").split("\0")
        return words[words.index("--crate-name") + 1], kind_of(words, os.readlink(f"/proc/{pid}/cwd"))
    except (OSError, ValueError):
        return OTHERS, "proof"


def crate_near(parents, pid):
    """Returns the same of a process, or of the one that started it: a check by several jobs has several provers."""
    found = crate_of(pid)
    return crate_of(parents[pid]) if found[0] == OTHERS and pid in parents else found


def is_below(parents, pid, top):
    while pid in parents:
        if pid == top:
            return True
        pid = parents[pid]
    return False


def sample(seen, top):
    """Adds to `seen` what the processes below the gate's have taken so far: (pid, start) to [crate, kind, seconds]."""
    parents, found = {}, []
    for entry in os.listdir("/proc"):
        if not entry.isdigit():
            continue
        try:
            with open(f"/proc/{entry}/stat", encoding="utf-8", errors="replace") as it:
                text = it.read()
        except OSError:
            continue
        fields = text[text.rfind(")") + 2 :].split()
        parents[int(entry)] = int(fields[1])
        found.append((int(entry), text[text.find("(") + 1 : text.rfind(")")], fields))
    for pid, name, fields in found:
        if not is_below(parents, pid, top):
            continue
        key, seconds = (pid, fields[19]), (int(fields[11]) + int(fields[12])) / TICKS
        # (a process may be met before it has become the prover, so its words are read until they name a crate)
        if key not in seen or seen[key][0] == OTHERS:
            crate, kind = crate_near(parents, pid) if name == "rattle" else (OTHERS, "proof")
            seen[key] = [crate, kind, seconds]
        seen[key][2] = max(seen[key][2], seconds)


def row_of(name, row, unit):
    """Returns a row of the table."""
    total = sum(row.values())
    cells = (f"{row[it]:,.0f}" if row[it] >= 0.5 else "-" for it in KINDS)
    return f"| {name} | {' | '.join(cells)} | {total:,.0f} | {total / unit:.1f} |"


def rows_of(seen):
    """Returns the processor seconds of each crate, by kind."""
    rows = {}
    for crate, kind, seconds in seen.values():
        rows.setdefault(crate, dict.fromkeys(KINDS, 0.0))[kind] += seconds
    return rows


def table(rows):
    """Returns the lines of the table, the dearest crate first."""
    unit = sum(rows.get(UNIT, {}).values()) or 1.0
    lines = ["| Crate | Proof | Tests | Edits | Total | Times septets |", "|---|---|---|---|---|---|"]
    lines += [row_of(crate, row, unit) for crate, row in sorted(rows.items(), key=lambda it: -sum(it[1].values()))]
    return [*lines, row_of("all", {it: sum(row[it] for row in rows.values()) for it in KINDS}, unit)]


def kept():
    """Returns the processor seconds of each crate that tools/gate_seconds has."""
    with open(KEPT, encoding="utf-8") as it:
        lines = [line.rstrip("\n").split("\t") for line in it if not line.startswith("#")]
    return {crate: dict(zip(KINDS, map(float, seconds))) for crate, *seconds in lines}


def keep(rows):
    with open(KEPT, "w", encoding="utf-8") as it:
        it.write("# Processor seconds of a gate from nothing, by tools/gate_times.py: crate, proof, tests, edits\n")
        for crate, row in sorted(rows.items(), key=lambda it: -sum(it[1].values())):
            it.write("\t".join([crate, *(f"{row[kind]:.0f}" for kind in KINDS)]) + "\n")


def printed(path):
    """Returns the processor seconds of each crate by a table that a run printed."""
    with open(path, encoding="utf-8") as it:
        found = re.findall(r"^\| ([\w, ]+) \|((?: [\d,-]+ \|){4})", it.read(), re.M)
    rows = {crate: [0.0 if it == "-" else float(it.replace(",", "")) for it in re.findall(r"[\d,-]+", cells)]
            for crate, cells in found}
    return {crate: dict(zip(KINDS, seconds)) for crate, seconds in rows.items() if crate != "all"}


def main():
    parser = argparse.ArgumentParser(description=__doc__, formatter_class=argparse.RawDescriptionHelpFormatter)
    parser.add_argument("--log", metavar="FILE", help="what the gate says goes there")
    parser.add_argument("--kept", action="store_true", help="prints what is kept")
    parser.add_argument("--keep", metavar="FILE", help="keeps the table that a run printed")
    parser.add_argument("crates", metavar="CRATE", nargs="*")
    words = parser.parse_args()
    if words.keep:
        keep(printed(words.keep))
    if words.keep or words.kept:
        print("\n".join(table(kept())))
        return 0
    began, seen = time.monotonic(), {}
    out = open(words.log, "w", encoding="utf-8") if words.log else None
    gate = subprocess.Popen([*gate_from_nothing(), *words.crates], stdin=subprocess.DEVNULL, stdout=out,
                            stderr=subprocess.STDOUT if out else None)
    while gate.poll() is None:
        sample(seen, gate.pid)
        time.sleep(0.1)
    print(f"processor seconds; the gate took {(time.monotonic() - began) / 60:.1f} minutes")
    print("\n".join(table(rows_of(seen))))
    if gate.returncode == 0 and not words.crates:
        keep(rows_of(seen))
    return gate.returncode


if __name__ == "__main__":
    sys.exit(main())
