#!/usr/bin/env python3
"""Prints docs/edits.md: the wrong bodies that the prover has to refuse, by what they do.

Usage: edits_table.py            prints the document
       edits_table.py --all      prints after it each edit, by crate and function
       edits_table.py --check    fails if docs/edits.md isn't the document, or an edit doesn't fit its file
"""
import os
import re
import sys
import textwrap

from more_edits import TOP, function_at, read_edit

# The wrong bodies that warnc must not have: what each does, the edits that do so, and the tests that see it.
WRONG = (
    ("swaps the halves of the page parameter", "cbs_page/swaps_page_parameter", ""),
    ("splits an escape pair over two pages", "cbs_page/splits_escape_pair", ""),
    ("fills short pages with zero octets", "septets/fills_with_zero", ""),
    ("shows a text at each repeat", "handset/shows_each_repeat", ""),
    ("joins pages of two serial numbers", "handset/joins_two_serials", ""),
    ("forgets a message's pages when another's come", "handset/forgets_other_message", ""),
    ("reads tapes to readings that show nothing", "handset/reading_shows_nothing", ""),
    ("counts a broadcast when its first page is aired", "scheduler/counts_first_page", ""),
    ("airs the message with the least number first", "scheduler/least_log_number_first", ""),
    ("airs background before what is pending", "scheduler/background_before_normal", ""),
    ("reserves the old load alone for a message that takes over", "admission/reserves_only_old_load", ""),
    ("airs nothing and counts 0", "bsc_table/airs_nothing bsc_table/airs_nothing_and_counts_nothing", ""),
    ("always finds no room", "bsc_table/always_no_room", ""),
    ("never frees a load", "bsc_table/never_frees", ""),
    ("frees a stopped message's load at once", "bsc_table/frees_load_at_once", ""),
    ("stops the old message though its replacement is refused", "bsc_table/refused_replacement_stops", ""),
    ("starts a replacement at once where it has to wait", "bsc_table/takes_over_at_once", ""),
    ("keeps the last of two elements of one kind", "cbsp_wire/keeps_last_element", ""),
    ("accepts octets after a message", "cbsp_wire/accepts_trailing", ""),
    ("reports more octets as written than went out", "cbch_blocks/reports_more_written", ""),
    ("has two seats draw one number", "tickets/draws_twice parallel_compile/draws_twice",
     "four_threads_draw_each_number_once"),
    ("drops a piece", "parallel_compile/drops_a_piece", ""),
    ("repeats a piece in place of another", "parallel_compile/one_repeats_the_first", ""),
    ("takes a piece twice", "parallel_compile/collector_takes_a_double", ""),
    ("replies to an order without an entry", "order_desk/answers_without_entry", ""),
    ("invents an answer", "order_desk/invents_an_answer", ""),
    ("carries an order out twice", "order_desk/carries_an_order_out_twice", ""),
    ("opens a desk whose cells are played out", "order_desk/desk_opens_played_out", ""),
    ("plays a cell out before an order", "order_desk/plays_out_before_orders", ""),
    ("plays all cells out before the first session", "", "books_give_the_tapes_that_they_mean"),
    ("leaves a cell in its opening state", "order_desk/cells_stay_as_they_were_opened", ""),
    ("loses a write", "order_desk/loses_a_write", ""),
    ("settles nothing", "order_desk/settle_always_strange", ""),
    ("closes a desk with other books", "order_desk/close_leaves_out_a_book",
     "a_desk_is_settled_or_the_first_disagreement_is_told"),
    ("notes slots without playing them", "order_desk/notes_without_playing", ""),
    ("plays no slot", "bsc_table/plays_nothing order_desk/play_gives_the_empty_range_at_the_end",
     "plays_and_statuses_are_noted"),
    ("sends an update to a cell that refused the write", "reply_outcome/updates_a_refused_cell", ""),
    ("leaves out an order of a session, with honest notes", "session_check/leaves_out_an_order", ""),
    ("invents an order of a session, with honest notes", "session_check/leaves_notes_over", ""),
    ("writes some of the tapes alone", "warnc_run/leaves_half_of_the_tapes_out", ""),
    ("holds all cells by one lock", "", "threads_are_in_two_cells_at_once an_order_holds_its_cell_and_no_other"),
    ("lets workers or sessions work one after the other", "",
     "workers_that_find_no_memory_are_refused_once_all_have_ended threads_are_in_two_cells_at_once"),
    ("always reports out of memory, or an unknown cell", "", "books_give_the_tapes_that_they_mean "
     "an_order_is_carried_out_in_its_cells_from_its_slot_on"),
    ("always reports a settlement that fails", "", "books_give_the_tapes_that_they_mean"),
    ("has an end that fails of itself", "device_ends/source_is_born_failed device_ends/sink_is_born_failed",
     "books_give_the_tapes_that_they_mean"),
)

HEAD = """# Wrong bodies that are refused

Each edit turns the meaning of one function, and the prover has to refuse the crate with it. The gate tries those of
`must-fail/`; `more-edits.sh` tries those of `more-edits/`. `tools/edits_table.py` writes this page.

Each of these wrong bodies is refused by the prover, as the edits beside it (`CRATE/NAME`) show, or the tests beside it
see it. A body that

"""


def path_of(edit):
    """Returns where an edit is that is named by its crate and name, or None if it isn't there."""
    crate, name = edit.split("/")
    places = (os.path.join("crates", crate, folder, f"{name}.edit") for folder in ("must-fail", "more-edits"))
    return next((it for it in places if os.path.exists(os.path.join(TOP, it))), None)


def tests():
    """Returns the names of all tests."""
    found = set()
    for crate in os.listdir(os.path.join(TOP, "crates")):
        src = os.path.join(TOP, "crates", crate, "src")
        for place, _, names in os.walk(src) if crate.endswith("_tests") else ():
            for name in names:
                with open(os.path.join(place, name), encoding="utf-8") as it:
                    found.update(re.findall(r"#\[test\]\s*fn (\w+)", it.read()))
    return found


def wrong_bodies():
    """Yields lines for each body that warnc must not have; stops if it names an edit or a test that isn't there."""
    there = tests()
    for body, edits, seen in WRONG:
        lost = [it for it in edits.split() if not path_of(it)] + [it for it in seen.split() if it not in there]
        if lost or not edits + seen:
            sys.exit(f"tools/edits_table.py: '{body}': nothing is named {', '.join(lost)}")
        named = ", ".join(f"`{it}`" for it in [*edits.split(), *seen.split()])
        yield from textwrap.wrap(f"- {body}: {named}", 120, subsequent_indent="  ", break_on_hyphens=False)


def place_of(crate, path):
    """Returns the file and the function that an edit changes."""
    file, old, _ = read_edit(path)[0]
    with open(os.path.join(crate, file), encoding="utf-8") as it:
        text = it.read()
    function = function_at(text, text.find(old)) if old in text else None
    return file, function


def rows_of(crate):
    for folder, when in (("must-fail", "gate"), ("more-edits", "more-edits.sh")):
        where = os.path.join(crate, folder)
        for name in sorted(os.listdir(where)) if os.path.isdir(where) else ():
            file, function = place_of(crate, os.path.join(where, name))
            what = f"`{function}` in {file}" if function else file
            yield f"| `{name.removesuffix('.edit')}` | {what} | {when} |"


def lost_edits():
    """Yields a line for each edit of which an old text doesn't stand once in its file."""
    for crate in sorted(os.listdir(os.path.join(TOP, "crates"))):
        for folder in ("must-fail", "more-edits"):
            where = os.path.join(TOP, "crates", crate, folder)
            for name in sorted(os.listdir(where)) if os.path.isdir(where) else ():
                texts = {}
                for file, old, new in read_edit(os.path.join(where, name)):
                    with open(os.path.join(TOP, "crates", crate, file), encoding="utf-8") as it:
                        text = texts.get(file) or it.read()
                    if text.count(old) != 1:
                        yield f"{crate}/{folder}/{name}: an old text stands {text.count(old)} times in {file}"
                    texts[file] = text.replace(old, new)


def document():
    return HEAD + "\n".join(wrong_bodies()) + "\n"


def all_edits():
    lines = []
    for name in sorted(os.listdir(os.path.join(TOP, "crates"))):
        rows = list(rows_of(os.path.join(TOP, "crates", name)))
        if rows:
            lines += ["", f"## {name}", "", "| Edit | What it changes | Tried by |", "|---|---|---|", *rows]
    return "\n".join(lines)


def main():
    words = sys.argv[1:]
    if words not in ([], ["--all"], ["--check"]):
        print(__doc__, end="")
        return 0 if words in (["-h"], ["--help"]) else 2
    if words != ["--check"]:
        print(document(), end="")
        if words == ["--all"]:
            print(all_edits())
        return 0
    found = list(lost_edits())
    with open(os.path.join(TOP, "docs", "edits.md"), encoding="utf-8") as it:
        if it.read() != document():
            found.append("docs/edits.md isn't what tools/edits_table.py prints")
    print("\n".join(found), end="\n" if found else "")
    return 1 if found else 0


if __name__ == "__main__":
    sys.exit(main())
