/* slices.h on the heap, for memcheck: each slice is an allocation of its own, just as long as it is. */
#include "slices.h"

#include <stdlib.h>
#include <string.h>

static void *fresh(void *old, size_t length)
{
    free(old);
    void *slice = malloc(length);
    if (slice == NULL)
        exit(2);
    return slice;
}

static const uint8_t *lend(uint8_t **slice, const uint8_t *bytes, size_t length)
{
    *slice = fresh(*slice, length);
    memcpy(*slice, bytes, length);
    return *slice;
}

const uint8_t *lend_question(const uint8_t *bytes, size_t length)
{
    static uint8_t *question;
    return lend(&question, bytes, length);
}

const uint8_t *lend_lines(const uint8_t *bytes, size_t length)
{
    static uint8_t *lines;
    return lend(&lines, bytes, length);
}

const uint8_t *lend_model(const uint8_t *bytes, size_t length)
{
    static uint8_t *model;
    return lend(&model, bytes, length);
}

static struct lent {
    uint8_t *bytes;
    size_t length;
} lent_buffers[BUFFERS];

static uint8_t value_at(size_t index)
{
    return (uint8_t)(0xA5 ^ index);
}

/* Memcheck guards both edges of an allocation. */
uint8_t *lend_buffer(enum buffer buffer, size_t length, enum edge edge)
{
    struct lent *lent = &lent_buffers[buffer];
    (void)edge;
    lent->bytes = fresh(lent->bytes, length);
    lent->length = length;
    for (size_t i = 0; i < length; i++)
        lent->bytes[i] = value_at(i);
    return lent->bytes;
}

int untouched_after(enum buffer buffer, size_t count)
{
    const struct lent *lent = &lent_buffers[buffer];
    for (size_t i = count; i < lent->length; i++)
        if (lent->bytes[i] != value_at(i))
            return 0;
    return 1;
}
