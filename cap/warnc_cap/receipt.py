"""The receipt: of each info of a message what became of it. It is of the whole book also with --since, as the rows of
an earlier call are still on the air."""
from .run import key_of
from .text import csv_row

COLUMNS = ("sender", "identifier", "info", "id", "serial", "cells", "pages", "first_shown", "shown_in_all", "refused",
           "cut", "unwarned_areas")
BETWEEN = " | "


def sent(row, outcome, cut):
    """Returns what a receipt has of an info that has a row."""
    item = row.item
    serial = 1 << 14 | item.code << 4 | row.number
    whole = outcome and outcome.done == len(item.cells) and not outcome.unshown
    return [item.identifier, f"{serial:04x}", len(item.cells), outcome.pages if outcome else "",
            outcome.first if outcome else None, outcome.last if whole else None,
            sum(outcome.refused.values()) if outcome else 0, cut]


def receipt_of(plan, messages, book):
    """Returns a receipt of the messages that count, in their order, as CSV."""
    rows = {it.info: it for it in book.rows if it.info}
    lines = [csv_row(COLUMNS)]
    for message in messages:
        key = (message.sender, message.identifier)
        if key not in plan.taken:
            continue
        for info, place in zip(message.infos, plan.places_of(message)):
            row = rows.get((*key, info.number))
            what = sent(row, book.outcomes.get(key_of(row)), book.prepared[row.info].cut) if row else [None] * 8
            lines.append(csv_row([*key, info.number, *what, BETWEEN.join(place.unwarned)]))
    return "".join(lines)
