/*
 * Slices to lend to the library, with no memory to touch beside them: each stands at an edge of an
 * area of its own between two pages that can be neither read nor written. The bytes of the area beside
 * a buffer, and those in it, have known values, so that a byte written there is seen.
 */
#ifndef SLICES_H
#define SLICES_H

#include <stddef.h>
#include <stdint.h>

enum { LONGEST_SLICE = 131072 };

/* A copy of the bytes whose last one stands right before a page that can't be read: one of each at the same time. */
const uint8_t *lend_question(const uint8_t *bytes, size_t length);
const uint8_t *lend_lines(const uint8_t *bytes, size_t length);
const uint8_t *lend_model(const uint8_t *bytes, size_t length);

/* What a buffer is for. One of each can be lent at the same time. */
enum buffer { FOR_ANSWER, FOR_PART, FOR_INDEXES, FOR_CLAUSES, BUFFERS };

/* A buffer right behind such a page, or right before one. */
enum edge { BEHIND_PAGE, BEFORE_PAGE };
uint8_t *lend_buffer(enum buffer buffer, size_t length, enum edge edge);

/* Whether all bytes around the last such buffer, and those in it after the first so many, are as they were. */
int untouched_after(enum buffer buffer, size_t count);

#endif
