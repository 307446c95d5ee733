#!/usr/bin/env python3
"""Looks up each place that docs/limits.md names, and says which ones aren't as the page says.

Usage: limits.py      fails if a constant has another value, if a file that has the number bare lacks it, or if one
                      of 15, 64 and 65 stands bare in a crate that doesn't name it

A bullet of the page begins with its number in bold. `NAME` in PATH is a constant of .rt, or an equation of .antt, that
has this value, or a text that has it; after "Bare:" come files that have the number without a name. The last section
has the files in which one of these numbers is no limit.
"""
import os
import re
import sys

TOP = os.path.dirname(os.path.dirname(os.path.realpath(__file__)))
PAGE = "docs/limits.md"
BULLET = re.compile(r"^- \*\*([\d,.]+)\*\*(.*?)(?=^- |^#|\Z)", re.M | re.S)
NAMED = re.compile(r"`([\w ]+)` in ([\w/]+\.(?:rt|antt))")
# numbers that stand bare in no crate but those that name them
NAMED_ONLY = ("15", "64", "65")
NUMBER = re.compile(r"0x[\dA-Fa-f_]+|\d[\d_]*(?:\.\d+)?")


def lines_of(path):
    """Returns the lines of a source without their comments; None if there is no such file."""
    try:
        with open(os.path.join(TOP, "crates", path), encoding="utf-8") as it:
            mark = "//" if path.endswith(".rt") else "--"
            return [line.partition(mark)[0] for line in it]
    except FileNotFoundError:
        return None


def values_in(line):
    """Returns the numbers that a line has, as a person reads them."""
    words = [it.replace("_", "") for it in NUMBER.findall(line)]
    return {str(int(it, 16)) if it.startswith("0x") else it for it in words}


def is_given(name, value, lines, path):
    """Whether a source gives a name a value, in one line."""
    form = rf"(?:pub(?:\(crate\))? )?const {name}: &?\w+ = (.+);" if path.endswith(".rt") else rf"{name} = (\S+)"
    found = [re.fullmatch(form, it.strip()) for it in lines]
    return any(it and values_in(it[1]) == {value} for it in found)


def faults_of(value, said):
    """Yields what isn't as a bullet says."""
    named, _, bare = " ".join(said.split()).partition("Bare:")
    bare = re.match(r"[\s\w/.,]*?(?=\. |\.$|$)", bare)[0]
    for name, path in NAMED.findall(named):
        lines = lines_of(path)
        if lines is None or not is_given(name, value, lines, path):
            yield f"{path} doesn't give {name} the value {value}"
    for path in re.findall(r"[\w/]+\.(?:rt|antt)", bare):
        lines = lines_of(path)
        if lines is None or not any(value in values_in(it) for it in lines):
            yield f"{path} doesn't have {value}"


def sources():
    """Yields the paths, below crates/, of the code and the definitions of each crate that has no tests."""
    folder = os.path.join(TOP, "crates")
    for crate in sorted(os.listdir(folder)):
        if crate.endswith("_tests") or crate in ("test_support", "command_rows"):
            continue
        for part in ("src", "specs"):
            for place, _, files in os.walk(os.path.join(folder, crate, part)):
                yield from (os.path.relpath(os.path.join(place, it), folder) for it in sorted(files))


def homes_of(bullets, number):
    """Returns the crates that name a number."""
    return {path.split("/")[0] for of, said in bullets if of == number
            for _, path in NAMED.findall(" ".join(said.split()).partition("Bare:")[0])}


def strays(bullets, others):
    """Yields where a number stands bare that has its name in other crates."""
    for number in NAMED_ONLY:
        homes = homes_of(bullets, number)
        known = [path for part in others.split(";") if number in part.partition(" is ")[0].split()
                 for path in re.findall(r"[\w/]+\.(?:rt|antt)", part)]
        for path in sources():
            if path.split("/")[0] in homes or path in known:
                continue
            lines = [re.sub(r'"[^"]*"', "", it) for it in lines_of(path)]
            if any(re.search(rf"(?<![\w.]){number}(?![\w.])", it) for it in lines):
                yield f"{path} has a bare {number}"


def parts():
    """Returns the bullets of the page, and its last section."""
    with open(os.path.join(TOP, PAGE), encoding="utf-8") as it:
        page, _, others = it.read().partition("## Other meanings")
    return BULLET.findall(page), others


def bullets():
    """Returns the bullets of the page: each one's number, and what it says."""
    return parts()[0]


def main(words):
    if words:
        print(__doc__, end="")
        return 0 if words in (["-h"], ["--help"]) else 2
    every, others = parts()
    found = [it for number, said in every for it in faults_of(number.replace(",", ""), said)]
    found += strays(every, others)
    print("".join(f"{PAGE}: {it}\n" for it in found), end="")
    return 1 if found or not every else 0


if __name__ == "__main__":
    sys.exit(main(sys.argv[1:]))
