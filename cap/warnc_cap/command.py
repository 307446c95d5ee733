"""The command: messages in, a book out, and what is told of them."""
import argparse
import os
import re
import shutil
import sys
from collections import Counter

from . import VERSION, message, place, policy, receipt, rounds, state, text
from .plan import Plan
from .run import CAUSES, Runner
from .whole import Whole

HERE = os.path.dirname(os.path.dirname(os.path.dirname(os.path.realpath(__file__))))
URGENT = range(4370, 4380)
# of a row that leaves out cells, how many of them are named
MOST_NAMED = 10


def words_of(words, document):
    parser = argparse.ArgumentParser(prog="warnc-cap", description=document, allow_abbrev=False,
                                     formatter_class=argparse.RawDescriptionHelpFormatter)
    parser.add_argument("--cells", required=True, metavar="FILE",
                        help="CSV: lac,ci,lat,lon,radius and columns of codes")
    parser.add_argument("--start", required=True, metavar="TIME",
                        help="when slot 0 begins, as 2026-03-01T06:30:00+01:00")
    parser.add_argument("--slots", required=True, metavar="N", help="slots of the run, 1 to 65535")
    parser.add_argument("--policy", metavar="FILE", help="CSV: id,category,period,pages")
    parser.add_argument("--presidential", action="append", default=[], metavar="IDENTIFIER",
                        help="the message of this identifier is a presidential alert")
    parser.add_argument("--tests", action="store_true", help="takes tests and exercises, as 4380 and 4381")
    parser.add_argument("--joined", action="store_true", help="looks at the codes also of an area with a shape")
    parser.add_argument("--strict", action="store_true", help="status 1 if an info has no cell")
    parser.add_argument("--warnc", metavar="PROGRAM", default=os.environ.get("WARNC"),
                        help="the program that costs texts and runs the book, if it isn't this one; also by WARNC")
    parser.add_argument("--state", metavar="FILE",
                        help="keeps the messages and the codes of their names, so that the next call goes on with them")
    parser.add_argument("--since", action="store_true",
                        help="with --state: writes only the rows that are new since the call before. Where one updates "
                             "or stops a name of an earlier call, they are no book by themselves")
    parser.add_argument("--receipt", metavar="FILE", help="writes what became of each info, as CSV")
    parser.add_argument("--version", action="version", version=f"warnc-cap {VERSION}", help="prints the version")
    parser.add_argument("messages", nargs="*", metavar="MESSAGE")
    options = parser.parse_args(words)
    if not options.messages and not options.state:
        parser.error("no MESSAGE is given")
    if options.since and not options.state:
        parser.error("--since needs --state")
    if options.state and options.receipt and os.path.realpath(options.state) == os.path.realpath(options.receipt):
        parser.error("--state and --receipt are one file")
    start = message.time_of(options.start)
    if start is None or not re.fullmatch("[0-9]{1,5}", options.slots) or not 1 <= int(options.slots) <= 65535:
        parser.error("--start is as 2026-03-01T06:30:00+01:00, --slots 1 to 65535")
    options.start, options.slots = start, int(options.slots)
    options.warnc = options.warnc or program_here()
    return options


def program_here():
    """Returns the program beside this one, or the installed one."""
    for it in (os.path.join(HERE, "warnc"), os.path.join(os.path.dirname(HERE), "bin", "warnc")):
        if os.access(it, os.X_OK) and os.path.isfile(it):
            return it
    return shutil.which("warnc") or "warnc"


def told_name(name):
    """Returns the name of a file as a line shows it: in characters that don't change lines."""
    words = os.fsencode(name).decode(errors="replace")
    return "".join(it if it.isprintable() else "?" for it in words)


def files_of(words):
    """Yields the files that are given, and those in folders, each with the name by which it is told."""
    for it in words:
        if os.path.isdir(it):
            for name in sorted(os.listdir(it)):
                path = os.path.join(it, name)
                if not name.startswith(".") and os.path.isfile(path):
                    yield told_name(name), path
        else:
            yield told_name(it), it


def octets_of(path):
    """Returns the octets of a file, of one that is too long a few too many."""
    try:
        with open(path, "rb") as it:
            return it.read(message.MOST_OCTETS + 1)
    except OSError as fault:
        raise message.Wrong("file", fault.strerror or str(fault)) from None


def messages_of(words, past):
    """Returns the messages of past calls and those of files in the order in which they count, and a line for each that
    is wrong."""
    found, wrong = {it.encode(): message.message_of(name, it.encode()) for name, it in past}, []
    first = {(it.sender, it.identifier): it for it in found.values()}
    for name, path in files_of(words):
        try:
            octets = octets_of(path)
            if octets not in found:
                found[octets] = message.message_of(name, octets)
        except message.Wrong as fault:
            wrong.append(f"{name}: {fault}")
    ordered = sorted(found.items(), key=lambda it: (it[1].sent, it[1].identifier, it[1].sender, it[0]))
    kept = []
    for octets, it in ordered:
        other = first.setdefault((it.sender, it.identifier), it)
        if other is it:
            kept.append((octets, it))
        else:
            wrong.append(f"{it.file}: identifier: {other.file} is another message with this sender and identifier")
    return kept, wrong


def plan_of(options, known_codes):
    """Returns an empty plan, for the cells and the policy of the words."""
    cells, codes = place.cells_of(options.cells)
    rules = policy.policy_of(options.policy) if options.policy else policy.DEFAULT
    return Plan(options, rules, cells, codes, place.Map(cells), known_codes)


def since(plan, book, rows):
    """Returns the octets of the rows of a book that are not among earlier ones, behind the cells, and tells of earlier
    ones that the book hasn't any more.

    Rows are compared as they are written, with the book that the kept messages come to by the same words and the same
    start: yesterday's book had other slots. A row with another slot counts as gone and as new. Nothing takes it back
    where it was sent: a book has no verb for that."""
    lines = [plan.line(it) for it in book.rows]
    had = Counter(plan.line(it) for it in rows)
    new = []
    for it in lines:
        if had[it]:
            had[it] -= 1
        else:
            new.append(it)
    for it in rows:
        line = plan.line(it)
        if had[line]:
            had[line] -= 1
            plan.note(it.item.name, it.verb, f"its row of slot {max(it.slot, 0)}, of a call before, is there no longer")
    return "".join([f"{it.row}\n" for it in plan.cells] + new).encode()


def tell_of_rows(plan, book, remarks):
    """Tells what cells refuse, and what `check` remarks; returns whether a warning of a threat to life is refused."""
    urgent = False
    for row, cause, cells in book.refused():
        many = "cell" if cells == 1 else "cells"
        plan.note(row.item.name, row.verb, f"refused in {cells} {many}: {CAUSES.get(cause, cause)}")
        urgent = urgent or row.item.identifier in URGENT
    for at, one in sorted(remarks.items()):
        row, said = book.rows[at], list(one.others)
        if len(one.left_out) == len(row.item.cells):
            said.append("orders nothing")
        elif one.left_out:
            names = sorted(one.left_out, key=plan.order.get)
            more = f" and {len(names) - MOST_NAMED} more" if len(names) > MOST_NAMED else ""
            said.append(f"leaves out {' '.join(names[:MOST_NAMED])}{more}")
        if one.done:
            said.append(f"done at slot {one.done}")
        for it in said:
            plan.note(row.item.name, row.verb, it)
    return urgent


def put_out(octets):
    """Writes octets to standard output."""
    if sys.stdout is None:
        raise OSError("standard output is closed")
    try:
        sys.stdout.buffer.write(octets)
        sys.stdout.buffer.flush()
    except OSError:
        # what is left in the buffer would be tried again at the end
        os.dup2(os.open(os.devnull, os.O_WRONLY), 1)
        raise


def tell(lines):
    """Writes lines to standard error, if it is open."""
    if sys.stderr is not None:
        sys.stderr.write("".join(f"{it}\n" for it in lines))


def called(options):
    """Does what a call is for: returns the octets that are to be written, the texts of the files by their paths, the
    lines to tell, and the status."""
    past, known_codes, written = state.read(options.state)
    plan, runner = plan_of(options, known_codes), Runner(options.warnc, options.slots)
    kept, wrong = messages_of(options.messages, past)
    messages = [it for _, it in kept]
    book = rounds.made(plan, messages, runner)
    wrong += book.wrong.values()
    urgent = tell_of_rows(plan, book, runner.remarks(plan, book.rows, book.octets))
    octets, files = book.octets, {}
    if options.since:
        known = {it.encode() for _, it in past}
        earlier = rounds.made(plan.anew(), [it for own, it in kept if own in known], runner)
        # what lay past the end of a run hasn't been in a book yet
        octets = since(plan, book, [it for it in earlier.rows if written is None or it.key() in written])
    for it in sorted(set(options.presidential) - {it.identifier for it in messages}):
        plan.note("--presidential", message.shown(it), "no message has this identifier")
    if options.state:
        left = [it for it in kept if (it[1].sender, it[1].identifier) not in book.wrong]
        put_before = plan.keys() & written if written is not None else set()
        files[options.state] = state.text_of(left, plan.given, put_before | {it.key() for it in book.rows})
    if options.receipt:
        files[options.receipt] = receipt.receipt_of(plan, messages, book)
    is_bad = wrong or urgent or options.strict and plan.without_cells
    return octets, files, [*wrong, *plan.notes], 1 if is_bad else 0


def put(octets, files):
    """Writes a book to standard output, and files to their places; returns whether that can be done, and tells if it
    can't. Then no file is another."""
    whole, path = Whole(), ""
    try:
        for path, words in files.items():
            whole.add(path, words)
        path = "standard output"
        put_out(octets)
        path = " and ".join(files)
        whole.put()
    except OSError as fault:
        whole.drop()
        tell([f"warnc-cap: {path}: {fault.strerror or fault}"])
        return False
    return True


def main(words, document):
    options = words_of(words, document)
    try:
        octets, files, lines, status = called(options)
    except (place.TableFault, state.StateFault, text.NoProgram) as fault:
        tell([f"warnc-cap: {fault}"])
        return 2
    tell(lines)
    return status if put(octets, files) else 2
