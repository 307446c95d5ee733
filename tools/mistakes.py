#!/usr/bin/env python3
"""Makes the mistakes of a planner in examples/flood.csv, and looks at what `warnc check` says of each.

Usage: mistakes.py PROGRAM    says which mistakes are told otherwise than the table has it, and fails if there is one.
                              PROGRAM is a built `warnc`
       mistakes.py --table    prints what docs/formats.md wants to be told, by tools/check_reference.py
       mistakes.py --help     prints this

An entry of the table is a line with the mistake, and below it, by four spaces, the rows that are told of the book; a
last row `.. N` stands for as many more. A mistake without rows is silent: the book is one, and its run does less than
was meant. `13: OLD => NEW` changes the first OLD in line 13, `13x90: OLD => NEW` puts 90 of NEW there, `all: OLD =>
NEW` changes each one, `13+ TEXT` puts lines before line 13, `as CODEC` writes the book in another encoding, and
`only: TEXT` is a book of its own. \\t, \\n, \\r and \\xe4 are octets, and a line that ends with \\ goes on in the next.
"""
import os
import re
import subprocess
import sys

import check_reference

BOOK = os.path.join(os.path.dirname(os.path.dirname(os.path.realpath(__file__))), "examples", "flood.csv")
# how many rows of a table stand here
MOST_ROWS = 3
WIDTH, INDENT = 120, " " * 8
TABLE = r"""
# --- Rows and columns ---
13: ,de,2 => ,2
    13,13,1,VERB,write,"11 columns, write has 12"
13: ,0,*, => ,0,
    13,13,1,VERB,write,"11 columns, write has 12"
16: SOFORT die => SOFORT, die
    16,16,1,VERB,write,"13 columns, write has 12"
22: 4021-101 4021-102 => 4021-101,4021-102
    22,22,1,VERB,stop,"5 columns, stop has 4"
1: 4021,101 => 4021,101,,,,,,,,,
    1,1,1,VERB,cell,"12 columns, cell has 3"
    16,16,11,CELLS,4021-101 4021-102 4021-103 4021-104,no earlier row declares this cell: 4021-101
    .. 5
22: 4021-104 => 4021-104,,,,,,,,
    22,22,1,VERB,stop,"12 columns, stop has 4"
14: neighbours." => neighbours.
    14,14,1,VERB,write,"15 columns, write has 12"
    20,21,3,NAME,flood-pl,no earlier row writes this name
    .. 2
1+ verb,lac,ci\n
    1,1,1,VERB,verb,"cell, write, update or stop"
1+ VERB,AT,NAME,ID,SCOPE,CODE,LANG,CATEGORY,PERIOD,BROADCASTS,CELLS,TEXT\n
    1,1,1,VERB,VERB,"cell, write, update or stop"
all: , => ;
    1,1,1,VERB,cell;4021;101,columns are separated by commas
    2,2,1,VERB,cell;4021;102,columns are separated by commas
    .. 28
all: , => \t
    1,1,1,VERB,cell\t4021\t101,columns are separated by commas
    2,2,1,VERB,cell\t4021\t102,columns are separated by commas
    .. 28
13+ # the warnings of the first hour\n
    13,13,1,VERB,# the warnings of the first hour,"cell, write, update or stop"
13+ # the warnings, in three languages\n
    13,13,1,VERB,# the warnings,"cell, write, update or stop"
13: write => Write
    13,13,1,VERB,Write,"cell, write, update or stop"
    19,19,3,NAME,flood-de,no earlier row writes this name
    .. 2
13: write => "write "
    13,13,1,VERB,write ,"cell, write, update or stop"
    19,19,3,NAME,flood-de,no earlier row writes this name
    .. 2
22: stop => cancel
    22,22,1,VERB,cancel,"cell, write, update or stop"
1: cell => cell\x20
    1,1,1,VERB,cell ,"cell, write, update or stop"
    16,16,11,CELLS,4021-101 4021-102 4021-103 4021-104,no earlier row declares this cell: 4021-101
    .. 5
as utf-16
    1,1,1,VERB,\xff\xfec\x00e\x00l\x00l\x00,not UTF-8: save as CSV UTF-8
    2,2,1,VERB,\0c\0e\0l\0l\0,"cell, write, update or stop"
    .. 29
16: Häuser => H\xe4user
    16,16,12,TEXT,EVAKUIERUNG: Verlassen Sie SOFORT die H\xe4user an der Uferstra\xc3\x9fe und der \
        M\xc3\xbchlgasse,not UTF-8: save as CSV UTF-8
16: Häuser => H\x84user
    16,16,12,TEXT,EVAKUIERUNG: Verlassen Sie SOFORT die H\x84user an der Uferstra\xc3\x9fe und der \
        M\xc3\xbchlgasse.,not UTF-8: save as CSV UTF-8
# --- Numbers ---
13: 4371,1,101 => 1,4371,101
    13,13,5,SCOPE,4371,a number from 0 to 3
13: ,4371, => ,70000,
    13,13,4,ID,70000,a number from 0 to 65535
13: ,4371, => ,004371,
    13,13,4,ID,004371,a number from 0 to 65535
13: ,4371, => ,0x1113,
    13,13,4,ID,0x1113,a number from 0 to 65535
13: ,4371, => ,,
    13,13,4,ID,,a number from 0 to 65535
13: 1,101,de => 4,101,de
    13,13,5,SCOPE,4,a number from 0 to 3
13: 1,101,de => plmn,101,de
    13,13,5,SCOPE,plmn,a number from 0 to 3
13: 1,101,de => 1,1024,de
    13,13,6,CODE,1024,a number from 0 to 1023
13: de,2,32 => de,3,32
    13,13,8,CATEGORY,3,"0 (high), 1 (background) or 2 (normal)"
13: de,2,32 => de,normal,32
    13,13,8,CATEGORY,normal,"0 (high), 1 (background) or 2 (normal)"
13: de,2,32 => de,2,0
    13,13,9,PERIOD,0,a number from 1 to 1024
13: de,2,32 => de,2,1025
    13,13,9,PERIOD,1025,a number from 1 to 1024
13: de,2,32 => de,2,60s
    13,13,9,PERIOD,60s,a number from 1 to 1024
13: 32,0,* => 32,65536,*
    13,13,10,BROADCASTS,65536,a number from 0 to 65535
16: write,956 => write,00:30
    16,16,2,AT,00:30,a number from 0 to 65535
16: write,956 => write,30min
    16,16,2,AT,30min,a number from 0 to 65535
16: write,956 => write,"1,912"
    16,16,2,AT,"1,912",a number from 0 to 65535
16: write,956 => write,956.0
    16,16,2,AT,956.0,a number from 0 to 65535
16: write,956 => write,-1
    16,16,2,AT,-1,a number from 0 to 65535
16: write,956 => write, 956
    16,16,2,AT, 956,a number from 0 to 65535
19: update,3824 => update,65536
    19,19,2,AT,65536,a number from 0 to 65535
1: 4021,101 => 4021,101\x20
    1,1,3,CI,101 ,a number from 0 to 65535
    16,16,11,CELLS,4021-101 4021-102 4021-103 4021-104,no earlier row declares this cell: 4021-101
    .. 5
1: 4021,101 => 4021,+101
    1,1,3,CI,+101,a number from 0 to 65535
    16,16,11,CELLS,4021-101 4021-102 4021-103 4021-104,no earlier row declares this cell: 4021-101
    .. 5
1: 4021,101 => 04021,00000101
    1,1,3,CI,00000101,a number from 0 to 65535
    16,16,11,CELLS,4021-101 4021-102 4021-103 4021-104,no earlier row declares this cell: 4021-101
    .. 5
# --- Cells ---
2: 102 => 101
    2,2,3,CI,101,an earlier row declares this cell
    16,16,11,CELLS,4021-101 4021-102 4021-103 4021-104,no earlier row declares this cell: 4021-102
    .. 5
16: 4021-101 4021-102 4021-103 4021-104 => "4021-101,4021-102,4021-103,4021-104"
    16,16,11,CELLS,"4021-101,4021-102,4021-103,4021-104",* or LAC-CI with one space between
16: 4021-102 4021-103 => 4021-102  4021-103
    16,16,11,CELLS,4021-101 4021-102  4021-103 4021-104,* or LAC-CI with one space between
16: 4021-104 => 4021-104\x20
    16,16,11,CELLS,4021-101 4021-102 4021-103 4021-104 ,* or LAC-CI with one space between
16: 4021-101 4021-102 4021-103 4021-104 => 4021-101..104
    16,16,11,CELLS,4021-101..104,* or LAC-CI with one space between
16: 4021-101 4021-102 4021-103 4021-104 => 101 102 103 104
    16,16,11,CELLS,101 102 103 104,* or LAC-CI with one space between
16: 4021-101 4021-102 4021-103 4021-104 => all
    16,16,11,CELLS,all,* or LAC-CI with one space between
16: 4021-101 4021-102 4021-103 4021-104 =>
    16,16,11,CELLS,,* or LAC-CI with one space between
16: 4021-101 => 4021-113
    16,16,11,CELLS,4021-113 4021-102 4021-103 4021-104,no earlier row declares this cell: 4021-113
16: 4021-102 => 4021-101
    16,16,11,CELLS,4021-101 4021-101 4021-103 4021-104,a cell comes twice
1: cell,4021,101 => cell,4021,100
    16,16,11,CELLS,4021-101 4021-102 4021-103 4021-104,no earlier row declares this cell: 4021-101
    17,17,11,CELLS,4021-101 4021-102 4021-103 4021-104,no earlier row declares this cell: 4021-101
    .. 4
only: write,0,fire,4370,0,1,en,2,4,0,*,Stay in!\n
    1,1,11,CELLS,*,no earlier row declares a cell
# --- Names ---
19: flood-de => flut-de
    19,19,3,NAME,flut-de,no earlier row writes this name
20: flood-en => flood-en\x20
    20,20,3,NAME,flood-en ,no earlier row writes this name
14: flood-en => flood-de
    14,14,3,NAME,flood-de,row 13 has this name
    20,20,3,NAME,flood-en,no earlier row writes this name
    .. 2
31+ write,9600,flood-en,4384,1,103,en,2,32,0,*,Flood warning\n
    31,31,3,NAME,flood-en,row 14 has this name
13: flood-de =>
    13,13,3,NAME,,a name
    19,19,3,NAME,flood-de,no earlier row writes this name
    .. 2
# --- Texts ---
15: ,pl, => ,pol,
    15,15,7,LANG,pol,"unknown language: de, en, it, fr, es, nl, sv, da, pt, fi, no, el, tr, hu, pl, und, cs, he, ar, \
        ru or is"
15: ,pl, => ,PL,
    15,15,7,LANG,PL,"unknown language: de, en, it, fr, es, nl, sv, da, pt, fi, no, el, tr, hu, pl, und, cs, he, ar, ru \
        or is"
25: Entwarnung: Das Hochwasser in Neustadt geht zurück. Die Uferstraße bleibt bis morgen gesperrt. Danke für Ihre \
        Hilfe. =>
    25,25,9,TEXT,,a text
26: All clear => All safe 🔥
    26,26,9,TEXT,All safe 🔥: the flood in Neustadt is receding. Uferstrasse stays closed until to,bad character at 9
26: All clear: => All\tclear:
    26,26,9,TEXT,All\tclear: the flood in Neustadt is receding. Uferstrasse stays closed until tom,bad character at 3
26x70: All clear => All clear. The end.\x20
    26,26,9,TEXT,All clear. The end. All clear. The end. All clear. The end. All clear. The end. ,"17 pages, 15 is the \
        most"
27x90: powódź => powódź\x20
    27,27,9,TEXT,Koniec zagrożenia: powódź powódź powódź powódź powódź powódź powódź powódź powód,"18 pages, 15 is the \
        most: UCS-2 because of ż at 12"
# --- Rows aren't lines ---
13+ \n\nstop,0,fire,*\n
    13,15,3,NAME,fire,no earlier row writes this name
13+ write,0,fire,4371,1,9,en,2,32,0,*,"Fire.\nGo!"\nstop,9,flood,*\n
    14,15,3,NAME,flood,no earlier row writes this name
# --- What nothing is said of ---
28+ stop,8000,flood-de,*\nupdate,8100,flood-de,de,2,64,0,*,Entwarnung\n
22: 4021-104 => 4021-105
17: write,956 => write,10
13+ write,0,test,4380,0,7,en,2,32,0,*,Test\ncell,4021,113\n
31+ write,9700,late,4384,1,103,en,2,32,0,*,Late\n
17: 4383,1,201 => 4383,1,202
14: Tell your => Don’t wait for your
26: All clear => All\xc2\xa0clear
13: für => fu\xcc\x88r
26: All clear: the flood in Neustadt is receding. Uferstrasse stays closed until tomorrow. Thank you for your help. => \
        \x20
only:
"""


def octets_of(text):
    """Returns text in which \\t, \\n, \\r and \\xe4 are octets."""
    plain = {b"t": b"\t", b"n": b"\n", b"r": b"\r"}
    return re.sub(rb"\\([tnr]|x..)", lambda it: plain.get(it[1]) or bytes.fromhex(it[1][1:].decode()), text.encode())


def made(mistake):
    """Returns the book with a mistake."""
    with open(BOOK, "rb") as it:
        lines = it.read().splitlines(keepends=True)
    where, _, what = mistake.partition(" ")
    if where == "only:":
        return octets_of(what)
    if where == "as":
        return b"".join(lines).decode().encode(what)
    if where.endswith("+"):
        at = int(where[:-1]) - 1
        return b"".join([*lines[:at], octets_of(what), *lines[at:]])
    parts = what.partition(" =>")
    old, new = octets_of(parts[0]), octets_of(parts[2].removeprefix(" "))
    if where == "all:":
        return b"".join(lines).replace(old, new)
    number, _, times = where[:-1].partition("x")
    at, new = int(number) - 1, new * int(times or 1)
    if old not in lines[at]:
        sys.exit(f"tools/mistakes.py: line {at + 1} of {BOOK} has no {old}")
    return b"".join([*lines[:at], lines[at].replace(old, new, 1), *lines[at + 1:]])


def rows_of(table):
    """Returns the rows of a table of faults: the first ones, and how many more there are."""
    rows = [it.replace("\t", "\\t").replace("\0", "\\0") for it in table.decode().split("\n")[1:-1]]
    return rows if len(rows) <= MOST_ROWS else [*rows[:MOST_ROWS - 1], f".. {len(rows) - MOST_ROWS + 1}"]


def lines_of_table():
    return TABLE.strip("\n").replace(f"\\\n{INDENT}", "").split("\n")


def entries():
    """Returns each mistake of the table with its rows."""
    found = []
    for line in lines_of_table():
        if line.startswith("    "):
            found[-1][1].append(line[4:])
        elif not line.startswith("# "):
            found.append((line, []))
    return found


def broken(line):
    """Returns a line of the table, broken after spaces where it is too wide."""
    made = ""
    while len(line) > WIDTH:
        at = line.rindex(" ", 0, WIDTH - 1) + 1
        made, line = f"{made}{line[:at]}\\\n", INDENT + line[at:]
    return made + line


def printed():
    """Prints the table anew, by the program of the documents."""
    for line in lines_of_table():
        if not line.startswith("    "):
            print(broken(line))
            for row in [] if line.startswith("# ") else rows_of(check_reference.check(made(line))[0]):
                print(broken(f"    {row}"))


def compare(program):
    """Returns how many mistakes are told otherwise than the table has it."""
    wrong = 0
    for mistake, rows in entries():
        said = subprocess.run([program, "check"], input=made(mistake), capture_output=True, check=False)
        found = rows_of(said.stdout)
        if found != rows or said.returncode != bool(rows):
            wrong += 1
            print(f"tools/mistakes.py: {mistake}\n  status {said.returncode}", *found, sep="\n    ")
    return wrong


def main(words):
    if words in (["-h"], ["--help"]):
        print(__doc__)
        return 0
    if words == ["--table"]:
        printed()
        return 0
    if len(words) != 1 or words[0].startswith("-"):
        print(f"tools/mistakes.py: unknown words: {' '.join(words)}\n\n{__doc__}", file=sys.stderr)
        return 2
    wrong = compare(words[0])
    print(f"{len(entries())} mistakes, {wrong} of them told otherwise")
    return 1 if wrong else 0


if __name__ == "__main__":
    sys.exit(main(sys.argv[1:]))
