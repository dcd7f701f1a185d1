#define _DEFAULT_SOURCE /* MAP_ANONYMOUS */
#include "slices.h"

#include <stdio.h>
#include <stdlib.h>
#include <string.h>
#include <sys/mman.h>

/* How far beside a buffer the area's bytes are looked at. */
enum { BESIDE = 256 };

/* The area and the two unreadable ones have the same size, which is a multiple of every page size. */
static uint8_t *new_area(void)
{
    size_t size = LONGEST_SLICE;
    uint8_t *all = mmap(NULL, 3 * size, PROT_NONE, MAP_PRIVATE | MAP_ANONYMOUS, -1, 0);
    if (all == MAP_FAILED || mprotect(all + size, size, PROT_READ | PROT_WRITE) != 0) {
        perror("no memory for a slice");
        exit(2);
    }
    return all + size;
}

/* At the end of the area, which is made at the first call. */
static const uint8_t *lend(uint8_t **area, const uint8_t *bytes, size_t length)
{
    if (*area == NULL)
        *area = new_area();
    uint8_t *slice = *area + LONGEST_SLICE - length;
    memcpy(slice, bytes, length);
    return slice;
}

const uint8_t *lend_question(const uint8_t *bytes, size_t length)
{
    static uint8_t *area;
    return lend(&area, bytes, length);
}

const uint8_t *lend_lines(const uint8_t *bytes, size_t length)
{
    static uint8_t *area;
    return lend(&area, bytes, length);
}

const uint8_t *lend_model(const uint8_t *bytes, size_t length)
{
    static uint8_t *area;
    return lend(&area, bytes, length);
}

static struct lent {
    uint8_t *area;
    size_t start, end;       /* of the buffer in the area */
    size_t looked_at[2];     /* start and end of what is filled and looked at */
} lent_buffers[BUFFERS];

/* No two neighbours are the same, so that a byte that is moved by one is seen too. */
static uint8_t value_at(size_t index)
{
    return (uint8_t)(0xA5 ^ index);
}

uint8_t *lend_buffer(enum buffer buffer, size_t length, enum edge edge)
{
    struct lent *lent = &lent_buffers[buffer];
    if (lent->area == NULL)
        lent->area = new_area();
    lent->start = edge == BEHIND_PAGE ? 0 : LONGEST_SLICE - length;
    lent->end = lent->start + length;
    lent->looked_at[0] = lent->start < BESIDE ? 0 : lent->start - BESIDE;
    lent->looked_at[1] = LONGEST_SLICE - lent->end < BESIDE ? LONGEST_SLICE : lent->end + BESIDE;
    for (size_t i = lent->looked_at[0]; i < lent->looked_at[1]; i++)
        lent->area[i] = value_at(i);
    return lent->area + lent->start;
}

int untouched_after(enum buffer buffer, size_t count)
{
    const struct lent *lent = &lent_buffers[buffer];
    for (size_t i = lent->looked_at[0]; i < lent->looked_at[1]; i++)
        if ((i < lent->start || i >= lent->start + count) && lent->area[i] != value_at(i))
            return 0;
    return 1;
}
