#!/usr/bin/env python3
"""Writes man pages by what documents say: docs/warnc-book.5, of a book, by docs/planning.md and docs/formats.md, and
docs/warnc-cap.1, of cap/warnc-cap, by docs/cap.md.

Usage: man_pages.py            says if a page is stale, and fails then
       man_pages.py --write    writes them
       man_pages.py --help     prints this

Of the documents it reads paragraphs, lists of one line or several, tables, and blocks that are indented by four.
"""
import collections
import os
import re
import sys
import textwrap

import release

TOP = os.path.dirname(os.path.dirname(os.path.realpath(__file__)))
BOOK_HEAD = """.\\" tools/man_pages.py writes this page by what docs/planning.md and docs/formats.md say.
.TH WARNC-BOOK 5 {day} "warnc {version}" "File Formats"
.SH NAME
warnc-book \\- the orders that warnc compiles: cells, warnings, updates and stops, as CSV
.SH DESCRIPTION
A book is a table in plain text (CSV, in UTF\\-8, without headings).
Its first rows name the cells, and each further row is an order:
.B write
puts a warning on the air,
.B update
replaces its text, and
.B stop
ends it.
.PP
.nf
.RS
cell,1,1
write,0,fire,4370,0,1,en,2,4,0,*,Stay in!
update,8,fire,en,2,4,0,*,All safe
stop,16,fire,*
.RE
.fi
.PP
The flood of the examples below is the book
.I examples/flood.csv
of the repository, which the Debian package has below
.IR /usr/share/doc/warnc .
"""
CAP_HEAD = """.\\" tools/man_pages.py writes this page by what docs/cap.md says.
.TH WARNC-CAP 1 {day} "warnc {version}" "User Commands"
.SH NAME
warnc-cap \\- makes a book of alerts of messages of the Common Alerting Protocol (CAP 1.2)
.SH SYNOPSIS
.B warnc-cap
.BI \\-\\-cells " FILE " \\-\\-start " TIME " \\-\\-slots " N"
.RI [ OPTION ]...
.RI [ MESSAGE ]...
.SH DESCRIPTION
A
.I MESSAGE
is a file, or a folder whose files are taken, in any order.
The book that they make, or of over 64 cells the network book, is written to standard output.
On standard error a line
.I FILE: element: what
says of each message that is wrong why it is passed over, and lines that begin with
.I note:
say what a planner may want to know.
"""
CAP_TAIL = """.SH EXIT STATUS
.TP
0
All messages made the book.
.TP
1
A message is wrong and was passed over, a cell refuses an order for 4370 to 4379, or with
.B \\-\\-strict
an info has no cell. The book is written.
.TP
2
The words or a table are wrong, or the book can't be written. Nothing is kept.
.SH SEE ALSO
.BR warnc (1),
.BR warnc-book (5)
"""
# A page: its file, what it begins and ends with, and between them sections of documents by their headings there.
Page = collections.namedtuple("Page", "path head sections tail")
BOOK = (
    ("docs/planning.md", "The columns"),
    ("docs/formats.md", "Data coding"),
    ("docs/planning.md", "Message identifiers"),
    ("docs/planning.md", "Scope, code and update number"),
    ("docs/planning.md", "Seconds, slots and room"),
    ("docs/planning.md", "Pages"),
    ("docs/planning.md", "Export from a spreadsheet"),
    ("docs/planning.md", "Eleven mistakes without a fault line"),
)
CAP = ("The words", "From CAP to columns", "Which messages", "When", "What", "The text", "Where", "Updates and cancels",
       "Day by day", "What it doesn't do")
PAGES = (
    Page("docs/warnc-book.5", BOOK_HEAD, BOOK, ".SH SEE ALSO\n.BR warnc (1)\n"),
    Page("docs/warnc-cap.1", CAP_HEAD, tuple(("docs/cap.md", it) for it in CAP), CAP_TAIL),
)
RENAMED = {"Data coding": "Languages", "The words": "Options", "What": "Identifiers and policy"}
WIDTH = 120
# How roff writes characters that it would take otherwise.
ROFF = {"\\": "\\e", "-": "\\-", "'": "\\(aq", "^": "\\(ha", "~": "\\(ti", "`": "\\(ga"}


def read(path):
    with open(os.path.join(TOP, path), encoding="utf-8") as it:
        return it.read()


def escaped(text):
    """Returns text of which roff takes nothing as its own."""
    return "".join(ROFF.get(it, it) for it in text)


def words(text):
    """Returns text without the marks of Markdown, in lines of which roff takes none as a request."""
    text = re.sub(r"\[([^\]]*)\]\(([^)#]*)[^)]*\)", link, " ".join(text.split()))
    made = ""
    for it in re.split(r"(`[^`]*`|\*\*.*?\*\*)", text):
        mark = "**" if it.startswith("**") else it[:1] if it.startswith("`") else ""
        plain = escaped(it.removeprefix(mark).removesuffix(mark))
        made += f"\\fB{plain}\\fR" if mark else plain
    lines = textwrap.wrap(made, WIDTH, break_long_words=False, break_on_hyphens=False)
    return [guarded(it) for it in lines]


def link(found):
    """Returns what a link is in a page of paper: its words, or the name of the document that they name."""
    return f"`docs/{found[2]}`" if found[2] == f"{found[1]}.md" else found[1]


def guarded(line):
    """Returns a line that roff doesn't take as a request."""
    return f"\\&{line}" if line.startswith(".") else line


def section(path, heading):
    """Returns the lines of a section."""
    found = re.search(rf"^#+ {re.escape(heading)}\n+(.*?)(?=^#|\Z)", read(path), re.M | re.S)
    if not found:
        sys.exit(f"tools/man_pages.py: {path} has no section '{heading}'")
    return found[1].rstrip("\n").split("\n")


def block(lines):
    """Returns lines that stay as they are."""
    kept = [it[4:].replace("$ ./warnc ", "$ warnc ") for it in lines]
    return [".PP", ".nf", ".RS", *(guarded(escaped(it)) for it in kept), ".RE", ".fi"]


def table(lines):
    """Returns a table as a list: the first column, and below it the others with their names."""
    rows = [it.removeprefix("| ").removesuffix(" |").split(" | ") for it in lines if it.startswith("| ")]
    names, made = rows[0], []
    for row in rows[1:]:
        made += [".TP", *words(row[0])]
        for at, it in enumerate(row[1:], 1):
            made += [*([".br"] if at > 1 else []), *words(f"{names[at]}: {it}")]
    return made


def items(lines):
    """Returns a list."""
    joined = re.split(r"\n- ", "\n" + "\n".join(lines))[1:]
    return [it for one in joined for it in (".IP \\(bu 2", *words(one))]


def of_paragraph(lines):
    """Returns a paragraph, a list, a table or a block."""
    if lines[0].startswith("    "):
        return block(lines)
    if lines[0].startswith("|"):
        return table(lines)
    if lines[0].startswith("- "):
        return items(lines)
    return [".PP", *words(" ".join(lines))]


def made_of(page):
    """Returns what a page has to be."""
    day = re.search(r"^\.TH WARNC 1 (\S+)", read("docs/warnc.1"), re.M)[1]
    made = page.head.format(day=day, version=release.version_of(TOP)[0].split()[-1])
    for path, heading in page.sections:
        made += f".SH {escaped(RENAMED.get(heading, heading)).upper()}\n"
        paragraphs = re.split(r"\n\n+", "\n".join(section(path, heading)))
        lines = [it for one in paragraphs for it in of_paragraph(one.split("\n"))]
        made += "\n".join(lines[1:] if lines[0] == ".PP" else lines) + "\n"
    return made + page.tail


def main(given):
    if given in (["-h"], ["--help"]):
        print(__doc__)
        return 0
    if given not in ([], ["--write"]):
        print(f"tools/man_pages.py: unknown words: {' '.join(given)}\n\n{__doc__}", file=sys.stderr)
        return 2
    stale = [it for it in PAGES if not os.path.exists(os.path.join(TOP, it.path)) or read(it.path) != made_of(it)]
    for page in stale:
        if given != ["--write"]:
            print(f"{page.path} isn't what 'tools/man_pages.py --write' writes")
            continue
        with open(os.path.join(TOP, page.path), "w", encoding="utf-8") as it:
            it.write(made_of(page))
        print(f"tools/man_pages.py: {page.path} is written")
    return 1 if stale and given != ["--write"] else 0


if __name__ == "__main__":
    sys.exit(main(sys.argv[1:]))
