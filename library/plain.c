/* Pages of a text in plain C, without checks of what may be handed over: to compare the times of libwarnc with. It cuts
 * a text in UTF-8 into pages of GSM 7-bit or UCS-2, as warnc_paginate does, in one pass and with tables. */
#include "plain.h"

#include <string.h>

enum { SEPTETS = 93, UNITS = 41, MOST_CHARACTERS = 1395, ESCAPE = 0x1B, CR = 0x0D, EXTENDED = 0x80 };

static const char *const MAIN =
    "@£$¥èéùìòÇ\nØø\rÅåΔ_ΦΓΛΩΠΨΣΘΞ\x1b" "ÆæßÉ !\"#¤%&'()*+,-./0123456789:;<=>?"
    "¡ABCDEFGHIJKLMNOPQRSTUVWXYZÄÖÑÜ§¿abcdefghijklmnopqrstuvwxyzäöñüà";
static const struct {
    uint16_t sign;
    uint8_t code;
} EXTENSION[] = {{'^', 0x14}, {'{', 0x28}, {'}', 0x29}, {'\\', 0x2F}, {'[', 0x3C}, {'~', 0x3D}, {']', 0x3E}, {'|', 0x40},
                 {0x20AC, 0x65}};

/* the code of each character up to U+FFFF, with EXTENDED for an escape pair; -1 if it has none */
static int16_t codes[1 << 16];

/* Decodes the character at the front of a text that is UTF-8; returns how many octets it has. */
static size_t decode(const uint8_t *text, uint32_t *sign) {
    if (text[0] < 0x80) {
        *sign = text[0];
        return 1;
    }
    size_t length = text[0] < 0xE0 ? 2 : text[0] < 0xF0 ? 3 : 4;
    *sign = text[0] & (0x7F >> length);
    for (size_t at = 1; at < length; at++) *sign = *sign << 6 | (text[at] & 0x3F);
    return length;
}

void plain_begin(void) {
    memset(codes, 0xFF, sizeof codes);
    const uint8_t *text = (const uint8_t *)MAIN;
    for (int16_t code = 0; code < 128; code++) {
        uint32_t sign;
        text += decode(text, &sign);
        if (code != ESCAPE) codes[sign] = code;
    }
    for (size_t at = 0; at < sizeof EXTENSION / sizeof *EXTENSION; at++) {
        codes[EXTENSION[at].sign] = (int16_t)(EXTENSION[at].code | EXTENDED);
    }
}

static void pack(const uint8_t *septets, size_t count, uint8_t *octets) {
    uint32_t held = 0, bits = 0;
    size_t at = 0;
    for (size_t place = 0; at < WARNC_CONTENT; place++) {
        held |= (uint32_t)(place < count ? septets[place] : place < SEPTETS ? CR : 0) << bits;
        for (bits += 7; bits >= 8 && at < WARNC_CONTENT; bits -= 8, held >>= 8) octets[at++] = (uint8_t)held;
    }
}

static void end_page(const uint8_t *septets, size_t count, struct warnc_pages *pages) {
    pack(septets, count, pages->octets[pages->count]);
    pages->used[pages->count++] = (uint8_t)((7 * count + 7) / 8);
}

static uint32_t pages_of_septets(const uint16_t *signs, size_t count, struct warnc_pages *pages) {
    uint8_t septets[SEPTETS];
    size_t filled = 0;
    for (size_t at = 0; at < count; at++) {
        int16_t code = codes[signs[at]];
        size_t cost = code & EXTENDED ? 2 : 1;
        if (filled + cost > SEPTETS) {
            if (pages->count == WARNC_MOST_PAGES - 1) return WARNC_PAGES;
            end_page(septets, filled, pages);
            filled = 0;
        }
        if (cost == 2) septets[filled++] = ESCAPE;
        septets[filled++] = code & 0x7F;
    }
    end_page(septets, filled, pages);
    return WARNC_OK;
}

static uint32_t pages_of_units(const uint16_t *signs, size_t count, struct warnc_pages *pages) {
    if (count > WARNC_MOST_PAGES * UNITS) return WARNC_PAGES;
    for (size_t from = 0; from < count; from += UNITS, pages->count++) {
        size_t units = count - from < UNITS ? count - from : UNITS;
        for (size_t at = 0; at < UNITS; at++) {
            uint16_t unit = at < units ? signs[from + at] : CR;
            pages->octets[pages->count][2 * at] = (uint8_t)(unit >> 8);
            pages->octets[pages->count][2 * at + 1] = (uint8_t)unit;
        }
        pages->used[pages->count] = (uint8_t)(2 * units);
    }
    return WARNC_OK;
}

uint32_t plain_paginate(const uint8_t *text, size_t length, struct warnc_pages *pages, size_t *place) {
    static uint16_t signs[MOST_CHARACTERS];
    size_t count = 0;
    int is_gsm = 1;
    if (length == 0) return WARNC_EMPTY;
    for (size_t at = 0; at < length; count++) {
        uint32_t sign;
        at += decode(text + at, &sign);
        if ((sign < ' ' && sign != '\n') || sign > 0xFFFF) {
            *place = count;
            return WARNC_CHARACTER;
        }
        if (count == MOST_CHARACTERS) return WARNC_PAGES;
        is_gsm &= codes[sign] >= 0;
        signs[count] = (uint16_t)sign;
    }
    pages->count = 0;
    pages->coding = is_gsm ? 0x01 : 0x48;
    return is_gsm ? pages_of_septets(signs, count, pages) : pages_of_units(signs, count, pages);
}
