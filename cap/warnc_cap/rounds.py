"""Makes a book of messages. What the program refuses changes what later messages come to, so the book is made anew
until nothing new is refused.

Of the writes that are to wait only the earliest are moved, since a moved write can't be asked again. A run of all
cells, after those that refused most, may refuse something new and earlier: then later ones are moved back.
"""
from dataclasses import dataclass

from . import text
from .message import Wrong
from .plan import key_of as language_key
from .run import key_of

# how often a book is made anew, and how often what all cells refuse of it is noted, or taken back
MOST_ROUNDS, MOST_TURNS = 500, 5


@dataclass
class Book:
    """A book: its rows, its octets, what is wrong with messages that are passed over for it, what becomes of its rows,
    and the text of each info."""

    rows: list
    octets: bytes
    wrong: dict
    outcomes: dict
    prepared: dict

    def refused(self):
        """Yields the rows that cells refuse, and for each cause how many cells do."""
        for row in self.rows:
            outcome = self.outcomes.get(key_of(row))
            for cause, cells in sorted(outcome.refused.items()) if outcome else ():
                yield row, cause, cells


def prepared_texts(plan, messages):
    """Returns the text of each info that may be on the air."""
    keys, infos = [], []
    for it in messages:
        first = it.infos and language_key(it.infos[0])
        for info in it.infos:
            keys.append((it.sender, it.identifier, info.number))
            identifier = plan.identifier_of(it, info, language_key(info) == first)
            infos.append((info, plan.policy[identifier].pages))
    return dict(zip(keys, text.prepare(plan.options.warnc, infos)))


def planned(plan, messages, prepared):
    """Plans all messages, and returns the rows of the book, and what is wrong with each message that is passed over."""
    plan.begin()
    wrong = {}
    for it in messages:
        notes = len(plan.notes)
        try:
            plan.take(it, prepared)
        except Wrong as fault:
            for one in list(plan.notes)[notes:]:
                del plan.notes[one]
            wrong[it.sender, it.identifier] = f"{it.file}: {fault}"
    return plan.rows(), wrong


def waiting_in(plan, rows, outcomes):
    """Returns the writes that are to wait for what they take the place of, each behind its slot."""
    found = []
    for row in rows:
        outcome = outcomes.get(key_of(row))
        is_free = row.verb == "write" and row.item.follows and row.item.name not in plan.moved
        if is_free and outcome and "06" in outcome.refused:
            found.append((max(row.slot, 0), row.item.name))
    return found


def turned_in(plan, rows, outcomes, waiting, turns):
    """Returns the rows that all cells refuse and that the plan takes for done, or the other way round, each as its
    slot, name and update number. Turns are how often that was so of a row."""
    waits, found = {name for _, name in waiting}, []
    for row in rows:
        name, outcome = (row.item.name, row.number), outcomes.get(key_of(row))
        if row.verb == "stop" or row.verb == "write" and row.item.name in waits or turns.get(name, 0) >= MOST_TURNS:
            continue
        if (outcome is None or not outcome.done) != (name in plan.refused):
            found.append((max(row.slot, 0), name))
    return found


def wait(plan, waiting, first):
    """Has the writes of a slot wait; those that were found to wait later were found in another book."""
    plan.moved = {name: slot for name, slot in plan.moved.items() if slot <= first}
    plan.moved.update({name: slot for slot, name in waiting if slot == first})


def settled(plan, messages, prepared, runner):
    """Plans messages, and has writes wait as far as the crowded cells tell; returns what planned() does.

    What a row comes to depends on earlier rows alone, so that the earliest waits first.
    """
    rows, wrong = planned(plan, messages, prepared)
    for _ in range(MOST_ROUNDS):
        waiting = waiting_in(plan, rows, runner.outcomes(plan, rows, runner.crowded))
        if not waiting:
            break
        wait(plan, waiting, min(waiting)[0])
        rows, wrong = planned(plan, messages, prepared)
    return rows, wrong


def made(plan, messages, runner):
    """Returns the book of messages. What all cells refuse is noted at once, and taken back if it isn't so any more."""
    prepared, turns = prepared_texts(plan, messages), {}
    rows, wrong = planned(plan, messages, prepared)
    outcomes = runner.outcomes(plan, rows)
    for _ in range(MOST_ROUNDS):
        waiting = waiting_in(plan, rows, outcomes)
        turned = turned_in(plan, rows, outcomes, waiting, turns)
        if not waiting and not turned:
            break
        for _, name in turned:
            plan.refused ^= {name}
            turns[name] = turns.get(name, 0) + 1
        wait(plan, waiting, min(slot for slot, _ in waiting + turned))
        rows, wrong = settled(plan, messages, prepared, runner)
        outcomes = runner.outcomes(plan, rows)
    else:
        plan.note("book", "rows", f"after {MOST_ROUNDS} runs more is refused: later warnings may not be as they should")
    octets = "".join([f"{it.row}\n" for it in plan.cells] + [plan.line(it) for it in rows]).encode()
    return Book(rows, octets, wrong, outcomes, prepared)
