/* What library/plain.c offers to library/bench.c. */
#ifndef PLAIN_H
#define PLAIN_H

#include "warnc.h"

/* Fills the tables. */
void plain_begin(void);

/* As warnc_paginate in English, of a text that is UTF-8. */
uint32_t plain_paginate(const uint8_t *text, size_t length, struct warnc_pages *pages, size_t *place);

#endif
