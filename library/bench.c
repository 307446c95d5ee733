/* Times warnc_paginate beside plain C: microseconds a call, the least of some rounds, for texts of several kinds. What
 * both put has to be the same. bench/bench.py library compiles and runs it. */
#define _POSIX_C_SOURCE 200809L
#include "plain.h"

#include <stdio.h>
#include <stdlib.h>
#include <string.h>
#include <time.h>

enum { ROUNDS = 15, CALLS = 4000, ROOM = 8192 };

static double now(void) {
    struct timespec time;
    clock_gettime(CLOCK_MONOTONIC, &time);
    return (double)time.tv_sec * 1e6 + (double)time.tv_nsec / 1e3;
}

static struct warnc_pages proved, plain;

static uint32_t call(int is_proved, const char *text, size_t length) {
    size_t place;
    return is_proved ? warnc_paginate((const uint8_t *)text, length, (const uint8_t *)"en", 2, &proved, &place)
                     : plain_paginate((const uint8_t *)text, length, &plain, &place);
}

static double best_of(int is_proved, const char *text, size_t length) {
    double best = 1e9;
    for (int round = 0; round < ROUNDS; round++) {
        double began = now();
        for (int at = 0; at < CALLS; at++) call(is_proved, text, length);
        double took = (now() - began) / CALLS;
        if (took < best) best = took;
    }
    return best;
}

static int are_the_same(void) {
    size_t count = proved.count;
    return count == plain.count && proved.coding == plain.coding && memcmp(proved.used, plain.used, count) == 0 &&
           memcmp(proved.octets, plain.octets, count * WARNC_CONTENT) == 0;
}

static void time_text(const char *name, const char *piece, size_t pieces) {
    static char text[ROOM];
    size_t length = 0;
    for (size_t at = 0; at < pieces; at++) length += (size_t)snprintf(text + length, ROOM - length, "%s", piece);
    if (call(1, text, length) != WARNC_OK || call(0, text, length) != WARNC_OK || !are_the_same()) {
        printf("%s: not the same\n", name);
        exit(1);
    }
    double proved_time = best_of(1, text, length), plain_time = best_of(0, text, length);
    printf("%-28s %2u pages: proved %7.2f us, plain C %7.2f us, %.2f times\n", name, proved.count, proved_time, plain_time,
           proved_time / plain_time);
}

int main(void) {
    plain_begin();
    time_text("48 ASCII characters", "Stay in! Fire in the harbour, keep windows shut.", 1);
    time_text("1,395 ASCII characters", "Evacuate now, please. Go to the hall in Mill Rd! Hurry up & stay\n", 21);
    time_text("1,000 of ä, ö, € and s", "äö€s", 250);
    time_text("600 of Cyrillic, kana and a", "Жяカa", 150);
    return 0;
}
