/* What sayfudhoum_clash has to leave of a question, and whether a call on lent slices leaves just that. */
#ifndef CLASHES_H
#define CLASHES_H

#include "sayfudhoum.h"
#include "slices.h"
#include "table.h"

/* Its three buffers are the first of those that can be lent. */
enum { CLASH_BUFFERS = FOR_INDEXES + 1 };

/* What is written into each of them. */
struct clash {
    uint8_t bytes[CLASH_BUFFERS][SAYFUDHOUM_MAX_QUESTION_LENGTH];
    size_t lengths[CLASH_BUFFERS];
};

/* The lengths that are never too short. */
extern const size_t longest_rooms[CLASH_BUFFERS];

/* The clash of an example, from its bytes in hexadecimal. */
void example_clash(const struct example *example, struct clash *clash);

/* Whether a call, with buffers of these lengths, leaves this clash: the number, the bytes, and nothing beside them. */
int leaves(const uint8_t *question, size_t length, const size_t *rooms, enum edge edge, const struct clash *clash);

/* Whether it gives this number, which tells a refusal, and all three buffers stay as they were. */
int refuses(const uint8_t *question, size_t length, const size_t *rooms, enum edge edge, uint64_t refusal);

/* Whether one byte too few in any one of the buffers is refused by 10, and all three stay as they were. */
int refuses_short(const uint8_t *question, size_t length, enum edge edge, const struct clash *clash);

#endif
