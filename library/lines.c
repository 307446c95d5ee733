/* Calls libwarnc as lines of standard input ask, and prints a line for each: for tests.
 *
 *     paginate LANGUAGE TEXT               status place coding, and USED-OCTETS of each page
 *     first TEXT                           status place
 *     page ID SERIAL CODING NUMBER TOTAL CONTENT      status PAGE
 *     cut PAGE                             the four blocks
 *     text PAGE ROOM                       status written and the whole room
 *     read TAPES ROOM                      the same
 *     short TAPES ROOM                     the same, with short pages
 *     compile SLOTS BOOK ROOM              status written row and the whole room
 *     report SLOTS BOOK ROOM               the same
 *     full SLOTS BOOK ROOM                 the same, of the report with all columns
 *     chart SLOTS BOOK ROOM                the same
 *     verify SLOTS BOOK TAPES ROOM         the same, of the differences of tapes from the book
 *     briefly SLOTS BOOK TAPES ROOM        the same, with short pages
 *     memory N                             nothing; the Nth block of memory that the next call asks for is refused
 *
 * Octets are in hexadecimal, none is "-", and ROOM is how many octets there are room for. A room begins as octets of
 * AA, with one more at its end that has to stay. After each call a line says how many blocks of memory it asked for,
 * and no block may be left. */
#include "warnc.h"

#include <stdbool.h>
#include <stdio.h>
#include <stdlib.h>
#include <string.h>

struct tried {
    bool has_memory;
    void *place;
};

static long asked, refused_at, held;
static char nowhere[16];

static bool is_refused(void) {
    return ++asked == refused_at;
}

struct tried rattle_alloc(size_t size, size_t alignment) {
    void *place = is_refused() ? NULL : malloc(size != 0 ? size : alignment);
    held += place != NULL;
    return (struct tried){place != NULL, place != NULL ? place : nowhere};
}

struct tried rattle_realloc(void *old, size_t old_size, size_t size, size_t alignment) {
    (void)old_size;
    void *place = is_refused() ? NULL : realloc(old, size != 0 ? size : alignment);
    return (struct tried){place != NULL, place != NULL ? place : nowhere};
}

void rattle_dealloc(void *place) {
    held--;
    free(place);
}

static void die(const char *why) {
    printf("%s\n", why);
    exit(1);
}

/* Octets on the heap, with not one octet more than they have: so a sanitizer sees a read past their end. */
struct octets {
    uint8_t *at;
    size_t length;
};

static struct octets room_of(size_t length) {
    struct octets room = {malloc(length != 0 ? length : 1), length};
    if (room.at == NULL) die("no memory");
    return room;
}

static struct octets octets_of(const char *digits) {
    size_t length = digits == NULL || strcmp(digits, "-") == 0 ? 0 : strlen(digits) / 2;
    struct octets octets = room_of(length);
    for (size_t at = 0; at < length; at++) {
        unsigned octet;
        sscanf(digits + 2 * at, "%2x", &octet);
        octets.at[at] = (uint8_t)octet;
    }
    return octets;
}

static struct octets exactly(const char *digits, size_t length) {
    struct octets octets = octets_of(digits);
    if (octets.length != length) die("another length");
    return octets;
}

static void print(const uint8_t *octets, size_t length) {
    if (length == 0) printf("-");
    for (size_t at = 0; at < length; at++) printf("%02x", octets[at]);
}

static char *word(void) {
    return strtok(NULL, " \n");
}

static size_t number(void) {
    char *digits = word();
    return digits == NULL ? 0 : strtoul(digits, NULL, 10);
}

static void paginate(void) {
    struct octets language = octets_of(word()), text = octets_of(word());
    struct warnc_pages pages;
    memset(&pages, 0xAA, sizeof pages);
    size_t place = 77;
    uint32_t status = warnc_paginate(text.at, text.length, language.at, language.length, &pages, &place);
    printf("%u %zu %u", status, place, pages.coding);
    for (size_t at = 0; status == WARNC_OK && at < pages.count; at++) {
        printf(" %u-", pages.used[at]);
        print(pages.octets[at], WARNC_CONTENT);
    }
    /* what isn't written stays: after the last page, and all of it after a fault */
    size_t written = status == WARNC_OK ? pages.count : 0;
    for (size_t at = written; at < WARNC_MOST_PAGES; at++) {
        if (pages.used[at] != 0xAA || pages.octets[at][0] != 0xAA || pages.octets[at][81] != 0xAA) die("not as it was");
    }
    free(language.at);
    free(text.at);
}

static void first(void) {
    struct octets text = octets_of(word());
    size_t place = 77;
    uint32_t status = warnc_first_ucs2(text.at, text.length, &place);
    printf("%u %zu", status, place);
    free(text.at);
}

static void page(void) {
    size_t id = number(), serial = number(), coding = number(), one = number(), total = number();
    struct octets content = exactly(word(), WARNC_CONTENT), made = room_of(WARNC_PAGE);
    memset(made.at, 0xAA, WARNC_PAGE);
    uint32_t status = warnc_page((uint16_t)id, (uint16_t)serial, (uint8_t)coding, (uint8_t)one, (uint8_t)total,
                                 content.at, made.at);
    printf("%u ", status);
    print(made.at, WARNC_PAGE);
    free(content.at);
    free(made.at);
}

static void cut(void) {
    struct octets whole = exactly(word(), WARNC_PAGE);
    uint8_t blocks[WARNC_BLOCKS][WARNC_BLOCK];
    warnc_cut(whole.at, blocks);
    for (size_t at = 0; at < WARNC_BLOCKS; at++) {
        printf(at == 0 ? "" : " ");
        print(blocks[at], WARNC_BLOCK);
    }
    free(whole.at);
}

static void into_room(bool is_text, bool has_short_pages) {
    struct octets given = is_text ? exactly(word(), WARNC_PAGE) : octets_of(word());
    struct octets room = room_of(number());
    memset(room.at, 0xAA, room.length);
    size_t written = 77;
    uint32_t status = is_text ? warnc_page_text(given.at, room.at, room.length, &written)
                              : warnc_read(given.at, given.length, has_short_pages, room.at, room.length, &written);
    printf("%u %zu ", status, written);
    print(room.at, room.length);
    free(given.at);
    free(room.at);
}

static void run(char kind) {
    uint16_t slots = (uint16_t)number();
    struct octets book = octets_of(word());
    struct octets tapes = octets_of(kind == 'v' || kind == 'b' ? word() : NULL), room = room_of(number());
    memset(room.at, 0xAA, room.length);
    size_t written = 77;
    uint32_t row = 77, status;
    if (kind == 'c') {
        status = warnc_compile(book.at, book.length, slots, room.at, room.length, &written, &row);
    } else if (kind == 'h') {
        status = warnc_chart(book.at, book.length, slots, room.at, room.length, &written, &row);
    } else if (kind == 'v' || kind == 'b') {
        status = warnc_verify(book.at, book.length, slots, tapes.at, tapes.length, kind == 'b', room.at, room.length,
                              &written, &row);
    } else {
        status = warnc_report(book.at, book.length, slots, kind == 'f', room.at, room.length, &written, &row);
    }
    printf("%u %zu %u ", status, written, row);
    print(room.at, room.length);
    free(book.at);
    free(tapes.at);
    free(room.at);
}

int main(void) {
    static char line[1 << 22];
    while (fgets(line, sizeof line, stdin) != NULL) {
        char *call = strtok(line, " \n");
        if (call == NULL) continue;
        if (strcmp(call, "memory") == 0) {
            refused_at = (long)number();
            continue;
        }
        asked = 0;
        if (strcmp(call, "paginate") == 0) paginate();
        else if (strcmp(call, "first") == 0) first();
        else if (strcmp(call, "page") == 0) page();
        else if (strcmp(call, "cut") == 0) cut();
        else if (strcmp(call, "text") == 0) into_room(true, false);
        else if (strcmp(call, "read") == 0) into_room(false, false);
        else if (strcmp(call, "short") == 0) into_room(false, true);
        else if (strcmp(call, "compile") == 0) run('c');
        else if (strcmp(call, "report") == 0) run('r');
        else if (strcmp(call, "full") == 0) run('f');
        else if (strcmp(call, "chart") == 0) run('h');
        else if (strcmp(call, "verify") == 0) run('v');
        else if (strcmp(call, "briefly") == 0) run('b');
        else die("no such call");
        printf("\nblocks %ld\n", asked);
        if (held != 0) die("a block of memory is left");
        refused_at = 0;
    }
    return 0;
}
