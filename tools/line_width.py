#!/usr/bin/env python3
"""Lists the lines over 120 columns in src/, specs/, proofs/, each README.md, docs/, browser/ and scripts of Python and
sh.

Rows of a document's tables, lines of src/ with a string, and documents' and scripts' lines without a space are passed
over.

Usage: line_width.py            lists them, and fails if there is one
       line_width.py --wrap F.. breaks the long lines of these .antt and .rt files; check the crate and run `rt fmt`
                                afterwards
"""
import glob
import re
import sys
import textwrap

WIDTH = 120
TEXTS = ("README.md", "docs/*.md", "crates/*/README.md", "crates/*/src/**/*.rt", "crates/*/specs/**/*.antt",
         "crates/*/proofs/**/*.antt")
SCRIPTS = ("warnc", "test", "*.sh", "tools/*.py", "bench/*.py", "cluster/*.sh", "link/*.sh", "link/*.py",
           "cap/warnc-cap", "cap/**/*.py", "browser/*.py", "browser/*.js", "browser/*.css", "browser/*.html",
           "browser/*.c", "browser/*.md")


def is_exempt(path, line):
    """Rows of a table in a document, strings of Rattle, and lines with a word that is too long by itself."""
    if path.endswith(".rt"):
        return '"' in line
    if path.endswith(".md") and line.lstrip().startswith("|"):
        return True
    return " " not in line.strip() and not path.endswith(".antt")


def long_lines(path):
    with open(path, encoding="utf-8") as lines:
        for number, line in enumerate(lines.read().split("\n"), 1):
            if len(line) > WIDTH and not is_exempt(path, line):
                yield number, line


def wrap_use(line):
    """Returns several imports in place of one: `use A.{b, c}` is `use A.{b}` and `use A.{c}`."""
    head, names = re.fullmatch(r"(.*\.\{)(.*)\};?", line).groups()
    end = "};" if line.endswith(";") else "}"
    lines, now = [], head
    for name in names.split(", "):
        glue = "" if now == head else ", "
        if len(now + glue + name + end) > WIDTH:
            lines.append(now + end)
            now, glue = head, ""
        now += glue + name
    return lines + [now + end]


def break_at(line):
    """Returns where to break a line: of the last spaces that fit the one with the fewest open brackets,
    arrows first."""
    best, depth = None, 0
    indent = len(line) - len(line.lstrip())
    for place, sign in enumerate(line[:WIDTH]):
        if sign in "([{":
            depth += 1
        elif sign in ")]}":
            depth -= 1
        elif sign == " " and place > max(indent + 20, WIDTH // 2):
            rank = (depth, 0 if line[place + 1] in "→×∙↔" else 1, -place)
            if best is None or rank < best[0]:
                best = (rank, place)
    return best and best[1]


def wrap(line):
    if re.fullmatch(r"\s*(pub )?(ghost )?use .*\.\{.*\};?", line):
        return wrap_use(line)
    lines, deeper = [], re.match(r" *", line)[0] + "    "
    while len(line) > WIDTH:
        place = break_at(line)
        if place is None:
            break
        lines.append(line[:place])
        line = deeper + line[place + 1:]
    return lines + [line]


def paragraphs(lines):
    """Yields lists of lines: a paragraph of a comment each, and each other line by itself."""
    now, last = [], None
    for line in lines:
        comment = re.match(r"\s*(--|///|//!|//) (?=(?!```)[^-#\[| ])", line)
        begins = comment and comment[0]
        if now and (begins is None or begins != last):
            yield now
            now = []
        if begins is None:
            yield [line]
        else:
            now.append(line)
        last = begins
    if now:
        yield now


def wrapped(paragraph):
    if all(len(line) <= WIDTH for line in paragraph):
        return paragraph
    comment = re.match(r"\s*(--|///|//!|//) ", paragraph[0])
    if comment is None:
        return wrap(paragraph[0])
    text = " ".join(line[len(comment[0]):] for line in paragraph)
    return textwrap.wrap(text, WIDTH, initial_indent=comment[0], subsequent_indent=comment[0], break_long_words=False,
                         break_on_hyphens=False)


def main():
    if sys.argv[1:2] == ["--wrap"]:
        for path in sys.argv[2:]:
            with open(path, encoding="utf-8") as it:
                text = it.read()
            lines = [new for paragraph in paragraphs(text.split("\n")) for new in wrapped(paragraph)]
            if "\n".join(lines) != text:
                with open(path, "w", encoding="utf-8") as it:
                    it.write("\n".join(lines))
        return 0
    if sys.argv[1:]:
        print(__doc__, end="")
        return 0 if sys.argv[1:] in (["-h"], ["--help"]) else 2
    paths = [path for pattern in TEXTS + SCRIPTS for path in sorted(glob.glob(pattern, recursive=True))]
    count = 0
    for path in paths:
        for number, line in long_lines(path):
            print(f"{path}:{number}: {len(line)} columns: {line.strip()[:60]}")
            count += 1
    return 1 if count else 0


sys.exit(main())
