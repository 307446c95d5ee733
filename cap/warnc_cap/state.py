"""What is kept from one call to the next: the messages, the codes of their names, and which rows were in a book, as one
that lay past the end of a run is new in the run that has it."""
import json
import os

from . import message

VERSION = 1


class StateFault(Exception):
    """A state that can't be read or written."""


def read(path):
    """Returns the messages of past calls, each with the name of its file, the codes of names, and the keys of rows that
    were in a book, or None if a state of an older program doesn't say."""
    if path is None or not os.path.exists(path):
        return [], {}, set()
    try:
        with open(path, encoding="utf-8") as it:
            held = json.load(it)
        if held["version"] != VERSION:
            raise StateFault(f"{path}: its version isn't {VERSION}")
        past = [(one["file"], one["message"]) for one in held["messages"]]
        for name, text in past:
            message.message_of(name, text.encode())
        codes = held["codes"]
        if len(set(codes.values())) != len(codes) or not all(type(it) is int and it > 0 for it in codes.values()):
            raise StateFault(f"{path}: its codes aren't different numbers")
        written = held.get("written")
        return past, codes, None if written is None else set(written)
    except OSError as fault:
        raise StateFault(f"{path}: {fault.strerror}") from None
    except (ValueError, KeyError, TypeError, AttributeError, RecursionError, message.Wrong) as fault:
        raise StateFault(f"{path}: it isn't what warnc-cap writes: {fault}") from None


def text_of(kept, codes, written):
    """Returns the state of messages, given with their octets, of the codes of names, and of the keys of rows that were
    in a book."""
    held = {"version": VERSION, "codes": codes, "written": sorted(written),
            "messages": [{"file": it.file, "message": octets.decode()} for octets, it in kept]}
    return json.dumps(held, ensure_ascii=False, indent=1) + "\n"
