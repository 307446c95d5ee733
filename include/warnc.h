/* libwarnc: texts to the pages of GSM cell broadcast messages (3GPP TS 23.041, TS 23.038 and TS 44.012), and back; and
 * books of alerts to the tapes, the report and the chart of what cells send.
 *
 * What each call answers and puts is proved of its code, for all that a caller may hand over; docs/library.md says what
 * that rests on. A call answers with a number of enum warnc_status. Where that isn't WARNC_OK, what it would have put
 * stays as it was, but for what is said at it.
 *
 * No pointer may be NULL, also where a length is 0. What a call writes to may not overlap what else it is given. Calls
 * share nothing, so threads need no lock. */
#ifndef WARNC_H
#define WARNC_H

#include <stdbool.h>
#include <stddef.h>
#include <stdint.h>

#ifdef __cplusplus
extern "C" {
#endif

enum warnc_status {
    WARNC_OK = 0,
    WARNC_LANGUAGE = 1,    /* no language has that word */
    WARNC_EMPTY = 2,       /* there is no text */
    WARNC_CHARACTER = 3,   /* a character can't be sent: a control character but LF, or one above U+FFFF */
    WARNC_PAGES = 4,       /* the text takes more than 15 pages */
    WARNC_MEMORY = 5,      /* out of memory */
    WARNC_UTF8 = 6,        /* the text isn't UTF-8 */
    WARNC_NUMBER = 7,      /* the number of a page isn't from 1 to the total, or the total is over 15 */
    WARNC_UNREADABLE = 8,  /* the data coding of a page has no alphabet, or its number is over the total */
    WARNC_ROOM = 9,        /* the room is too small */
    WARNC_SHORT = 10,      /* the octets end inside a tape */
    WARNC_LONG = 11,       /* there are more than 64 tapes, or one says that it has more than 65,535 slots */
    WARNC_GSM = 12,        /* GSM 7-bit has each character */
    WARNC_BOOK = 13,       /* the octets are no book: a row or its text has a fault, or they are over 16 MiB */
    WARNC_ENDED = 14,      /* the run ended early, though there was memory; no call answers it */
    WARNC_SLOTS = 15,      /* the number of slots is 0 */
    WARNC_DIFFERENCES = 16 /* tapes differ from what a book asked; the table that says how is there */
};

#define WARNC_MOST_PAGES 15
#define WARNC_CONTENT 82 /* octets of a page after its header */
#define WARNC_PAGE 88    /* octets of a page */
#define WARNC_BLOCKS 4   /* blocks of a page */
#define WARNC_BLOCK 23   /* octets of a block */
#define WARNC_TEXT 279   /* octets that the text of a page has at most, in UTF-8 */
#define WARNC_TAPE(slots) (8 + 92 * (size_t)(slots)) /* octets of a tape of so many slots */

struct warnc_pages {
    uint8_t octets[WARNC_MOST_PAGES][WARNC_CONTENT]; /* what the pages hold, page 1 first */
    uint8_t used[WARNC_MOST_PAGES];                  /* how many octets of each page its text takes */
    uint8_t count;                                   /* how many pages there are, 1 to 15 */
    uint8_t coding;                                  /* their data coding (TS 23.038, clause 5) */
};

/* Cuts a text in UTF-8 into the pages that carry it: in GSM 7-bit if that has each character, else in UCS-2. The
 * language is an ISO 639 code in lower case, or "und". Of `pages` the first `count` pages are written.
 *
 * WARNC_OK; or the first of these that applies: WARNC_UTF8, WARNC_LANGUAGE, WARNC_EMPTY, WARNC_CHARACTER (before it
 * stand *place characters), WARNC_PAGES, WARNC_MEMORY. */
uint32_t warnc_paginate(const uint8_t *text, size_t text_length, const uint8_t *language, size_t language_length,
                        struct warnc_pages *pages, size_t *place);

/* Finds the first character that GSM 7-bit lacks, for which the whole text goes out in UCS-2: before it stand *place
 * characters. WARNC_OK, WARNC_GSM if there is none, WARNC_UTF8. */
uint32_t warnc_first_ucs2(const uint8_t *text, size_t length, size_t *place);

/* Makes the 88 octets of a page: `number` of `total` pages. WARNC_OK, WARNC_NUMBER. */
uint32_t warnc_page(uint16_t id, uint16_t serial, uint8_t coding, uint8_t number, uint8_t total,
                    const uint8_t content[WARNC_CONTENT], uint8_t page[WARNC_PAGE]);

/* Cuts a page into the four blocks that carry it, in the order in which they are sent. */
void warnc_cut(const uint8_t page[WARNC_PAGE], uint8_t blocks[WARNC_BLOCKS][WARNC_BLOCK]);

/* Puts the text that a phone shows of a page into `room`, in UTF-8 and with no zero at its end; WARNC_TEXT octets
 * suffice. *written is how many octets it has, also with WARNC_ROOM, where the room stays as it was.
 *
 * WARNC_OK, WARNC_ROOM, WARNC_UNREADABLE, WARNC_MEMORY. */
uint32_t warnc_page_text(const uint8_t page[WARNC_PAGE], uint8_t *room, size_t room_length, size_t *written);

/* Reads 0 to 64 tapes, one after another, and puts the table that the command `warnc read` writes of them into `room`:
 * CSV, the row lac,ci,id,serial,text and a row for each message that a phone in the cell shows. With `short_pages` it
 * reads pages of one to three blocks, too, as `warnc read --short` does. *written is how many octets the table has, also
 * with WARNC_ROOM, where the room stays as it was.
 *
 * WARNC_OK, WARNC_ROOM, WARNC_SHORT, WARNC_LONG, WARNC_MEMORY. */
uint32_t warnc_read(const uint8_t *tapes, size_t length, bool short_pages, uint8_t *room, size_t room_length,
                    size_t *written);

/* Runs a book of 0 to 64 cells for 1 to 65,535 slots, and puts the tapes of its cells into `room`, one after another:
 * what the command `warnc compile --slots` writes of it. Each has WARNC_TAPE(slots) octets. *written is how many octets
 * the tapes have, also with WARNC_ROOM, where the room stays as it was. With WARNC_BOOK *row is the row that has the
 * fault, from 1, or 0 if the book is too long.
 *
 * WARNC_OK, WARNC_ROOM, WARNC_SLOTS, WARNC_BOOK, WARNC_MEMORY. */
uint32_t warnc_compile(const uint8_t *book, size_t length, uint16_t slots, uint8_t *room, size_t room_length,
                       size_t *written, uint32_t *row);

/* Runs a book, and puts the report of what became of each order in each cell: the CSV that `warnc report --slots`
 * writes, or with `full` that of `warnc report --full --slots`. The answers are those of warnc_compile. */
uint32_t warnc_report(const uint8_t *book, size_t length, uint16_t slots, bool full, uint8_t *room, size_t room_length,
                      size_t *written, uint32_t *row);

/* Runs a book, and puts its chart, a page in HTML in English: what `warnc chart --slots` writes. The answers are those
 * of warnc_compile. */
uint32_t warnc_chart(const uint8_t *book, size_t length, uint16_t slots, uint8_t *room, size_t room_length,
                     size_t *written, uint32_t *row);

/* Runs a book, reads 0 to 64 tapes, and puts the table of what the tapes have otherwise than the cells of the book were
 * asked: the CSV that `warnc verify --slots` writes, the row lac,ci,id,serial,slot,difference and a row for each
 * difference. With `short_pages` it reads pages of one to three blocks, too, as `warnc verify --short` does. *written is
 * how many octets the table has, also with WARNC_ROOM, where the room stays as it was; *row is that of warnc_compile.
 *
 * WARNC_OK if nothing differs, and WARNC_DIFFERENCES if something does; WARNC_ROOM, WARNC_SLOTS, WARNC_BOOK,
 * WARNC_SHORT and WARNC_LONG, of the tapes, WARNC_MEMORY. */
uint32_t warnc_verify(const uint8_t *book, size_t length, uint16_t slots, const uint8_t *tapes, size_t tapes_length,
                      bool short_pages, uint8_t *room, size_t room_length, size_t *written, uint32_t *row);

#ifdef __cplusplus
}
#endif

#endif
