"""Pages and runs of GSM cell broadcast messages by libwarnc, whose calls are proved: include/warnc.h says what each
answers.

    >>> import warnc
    >>> pages = warnc.paginate("Stay in!", "en")
    >>> page = warnc.page(4371, 0x0010, pages.coding, 1, len(pages), pages[0])
    >>> warnc.page_text(page)
    'Stay in!'

The library is that beside this file, that of the checkout or of the folder lib/ that it was installed with, or else the
system's; WARNC_LIBRARY names another.
"""
import ctypes
import os

MOST_PAGES, CONTENT, PAGE, BLOCKS, BLOCK = 15, 82, 88, 4, 23
OK, LANGUAGE, EMPTY, CHARACTER, PAGES, MEMORY, UTF8, NUMBER, UNREADABLE, ROOM, SHORT, LONG, GSM, \
    BOOK, ENDED, SLOTS, DIFFERENCES = range(17)
WORDS = {
    LANGUAGE: "unknown language", EMPTY: "text is empty", CHARACTER: "bad character at {}", PAGES: "too many pages",
    MEMORY: "out of memory", UTF8: "text is not UTF-8", NUMBER: "no such page number", UNREADABLE: "unreadable page",
    SHORT: "tape is short", LONG: "tape is long", BOOK: "no book, by row {}", ENDED: "run ended early",
    SLOTS: "no slots",
}


class Fault(ValueError):
    """Why a call has no result: `status` is its number in include/warnc.h, `place` that of a bad character, or the row
    of a book's fault."""

    def __init__(self, status, place=None):
        super().__init__(WORDS[status].format(place))
        self.status, self.place = status, place


class _Pages(ctypes.Structure):
    _fields_ = [("octets", ctypes.c_uint8 * CONTENT * MOST_PAGES), ("used", ctypes.c_uint8 * MOST_PAGES),
                ("count", ctypes.c_uint8), ("coding", ctypes.c_uint8)]


class Pages(list):
    """The contents of a text's pages, 82 octets each; their data coding; how many octets of each the text takes."""

    def __init__(self, made):
        super().__init__(bytes(made.octets[at]) for at in range(made.count))
        self.coding, self.used = made.coding, list(made.used[:made.count])


def _library():
    here = os.path.dirname(os.path.abspath(__file__))
    places = [os.path.join(here, it) for it in ("libwarnc.so", "../../dist/libwarnc.so", "../../../lib/libwarnc.so.1")]
    found = os.environ.get("WARNC_LIBRARY") or next(filter(os.path.isfile, places), "libwarnc.so.1")
    return ctypes.CDLL(found)


_LIBRARY = _library()


def _octets(given):
    """Returns octets as C is handed them, also where there are none, and how many they are."""
    return (ctypes.c_uint8 * max(1, len(given))).from_buffer_copy(given or b"\0"), ctypes.c_size_t(len(given))


def _checked(status, place=None):
    if status != OK:
        raise Fault(status, place)


def paginate(text, language="und"):
    """Returns the pages that carry a text, a Pages."""
    made, place = _Pages(), ctypes.c_size_t()
    status = _LIBRARY.warnc_paginate(*_octets(text.encode()), *_octets(language.encode()), ctypes.byref(made),
                                     ctypes.byref(place))
    _checked(status, place.value)
    return Pages(made)


def first_ucs2(text):
    """Returns the place of the first character that GSM 7-bit lacks, or None."""
    place = ctypes.c_size_t()
    status = _LIBRARY.warnc_first_ucs2(*_octets(text.encode()), ctypes.byref(place))
    if status == GSM:
        return None
    _checked(status)
    return place.value


def page(identifier, serial, coding, number, total, content):
    """Returns the 88 octets of a page. Numbers that don't fit into 16 or 8 bits are a ValueError."""
    if not (0 <= identifier < 1 << 16 and 0 <= serial < 1 << 16 and len(content) == CONTENT):
        raise ValueError("an identifier and a serial number have 16 bits, and a content 82 octets")
    if not all(0 <= it < 1 << 8 for it in (coding, number, total)):
        raise ValueError("a data coding, a page's number and a total have 8 bits")
    made = (ctypes.c_uint8 * PAGE)()
    numbers = [ctypes.c_uint16(identifier), ctypes.c_uint16(serial), *map(ctypes.c_uint8, (coding, number, total))]
    _checked(_LIBRARY.warnc_page(*numbers, _octets(content)[0], made))
    return bytes(made)


def cut(whole):
    """Returns the four blocks that carry a page."""
    if len(whole) != PAGE:
        raise ValueError("a page has 88 octets")
    blocks = (ctypes.c_uint8 * BLOCK * BLOCKS)()
    _LIBRARY.warnc_cut(_octets(whole)[0], blocks)
    return [bytes(it) for it in blocks]


def _filled(call, *given, room, row=None):
    """Calls what puts octets into a room, and tells a row if there is one; once more, if there were more than that."""
    rows = () if row is None else (ctypes.byref(row),)
    while True:
        put, written = (ctypes.c_uint8 * max(1, room))(), ctypes.c_size_t()
        status = call(*given, put, ctypes.c_size_t(room), ctypes.byref(written), *rows)
        if status != ROOM:
            # a table of differences is there as one without rows is
            _checked(OK if status == DIFFERENCES else status, None if row is None else row.value)
            return bytes(put[:written.value])
        room = written.value


def page_text(whole):
    """Returns the text that a phone shows of a page."""
    if len(whole) != PAGE:
        raise ValueError("a page has 88 octets")
    return _filled(_LIBRARY.warnc_page_text, _octets(whole)[0], room=279).decode()


def read(tapes, short_pages=False):
    """Returns the table of what phones show of tapes, as CSV; with short pages also by those of one to three blocks."""
    return _filled(_LIBRARY.warnc_read, *_octets(tapes), ctypes.c_bool(short_pages), room=65536).decode()


def _run(call, book, slots, *more, room):
    if not 0 <= slots < 1 << 16:
        raise ValueError("a run has 1 to 65535 slots")
    return _filled(call, *_octets(book), ctypes.c_uint16(slots), *more, room=room, row=ctypes.c_uint32())


def compile(book, slots):  # pylint: disable=redefined-builtin
    """Returns the tapes of a book's cells, one after another, in runs of so many slots."""
    return _run(_LIBRARY.warnc_compile, book, slots, room=8 + 92 * slots)


def report(book, slots, full=False):
    """Returns the report of what became of a book's orders in its cells, as CSV; with all columns if it is full."""
    return _run(_LIBRARY.warnc_report, book, slots, ctypes.c_bool(full), room=65536).decode()


def chart(book, slots):
    """Returns the chart of a book's run, a page in HTML."""
    return _run(_LIBRARY.warnc_chart, book, slots, room=1 << 20).decode()


def verify(book, slots, tapes, short_pages=False):
    """Returns the table of what tapes have otherwise than a book asked in runs of so many slots, as CSV: the line of the
    columns' names alone if nothing differs. With short pages those of one to three blocks are read, too."""
    return _run(_LIBRARY.warnc_verify, book, slots, *_octets(tapes), ctypes.c_bool(short_pages), room=65536).decode()
