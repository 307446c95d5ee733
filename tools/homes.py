#!/usr/bin/env python3
"""Finds words of specs/ and types of src/ that stand in more than one file, and asks tools/two_homes for why.

Usage: homes.py      fails if one isn't there, or if one that is there has one home by now

It looks through the crates that aren't of tests, but not for words of Lib.antt, nor for types inside of functions.
"""
import collections
import os
import re
import sys

TOP = os.path.dirname(os.path.dirname(os.path.realpath(__file__)))
FOLDER = os.path.join(TOP, "crates")
LIST = "tools/two_homes"
WORD = re.compile(r"^(?:abbrev |unfoldable |opaque )*(?:pub )?(?:record |data )?(\w+)(?: \(.*)?(?: \{.*)? ?:(?: |$)")
RECORD = re.compile(r"^(?:pub )?(?:record|data) (\w+)")
KIND = re.compile(r"^(?:pub(?:\(\w+\))? )?(?:struct|enum|trait) (\w+)")


def names_in(part, line):
    """Returns the name that a line gives a home, or none."""
    if part == "src":
        found = KIND.match(line)
    else:
        found = RECORD.match(line) or (WORD.match(line) if re.match(r"abbrev|unfoldable|opaque|pub", line) else None)
    return [found[1]] if found else []


def sources():
    """Yields each file that is looked through: specs/ or src/, and its path below crates/."""
    for crate in sorted(os.listdir(FOLDER)):
        if crate.endswith("_tests") or crate in ("test_support", "command_rows"):
            continue
        for part in ("specs", "src"):
            for place, _, files in os.walk(os.path.join(FOLDER, crate, part)):
                for name in files:
                    if name.endswith((".antt", ".rt")) and name != "Lib.antt":
                        yield part, os.path.relpath(os.path.join(place, name), FOLDER)


def homes():
    """Returns the files in which each name has a home: by specs/ or src/, and the name."""
    found = collections.defaultdict(set)
    for part, path in sources():
        with open(os.path.join(FOLDER, path), encoding="utf-8") as it:
            for name in (name for line in it for name in names_in(part, line)):
                found[part, name].add(path)
    return found


def reasons():
    """Returns the names of the list, each as often as it stands there, by specs/ or src/."""
    listed, part = [], ""
    with open(os.path.join(TOP, LIST), encoding="utf-8") as it:
        for line in it:
            if line.startswith("    "):
                listed += [(part, name) for name in line.split()]
            elif re.match(r"(specs|src): ", line):
                part = line.partition(":")[0]
    return listed


def main(words):
    if words:
        print(__doc__, end="")
        return 0 if words in (["-h"], ["--help"]) else 2
    two = {key: it for key, it in homes().items() if len(it) > 1}
    listed = reasons()
    found = [f"{part}: {name} stands in {', '.join(sorted(two[part, name]))}, and {LIST} doesn't say why"
             for part, name in sorted(two) if (part, name) not in listed]
    found += [f"{LIST}: {name} of {part} has one home" for part, name in listed if (part, name) not in two]
    found += [f"{LIST}: {name} of {part} stands there twice" for part, name in sorted(set(listed))
              if listed.count((part, name)) > 1]
    print("".join(f"{it}\n" for it in found), end="")
    return 1 if found else 0


if __name__ == "__main__":
    sys.exit(main(sys.argv[1:]))
