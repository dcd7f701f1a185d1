/*
 * The round through a solver: whether a call of sayfudhoum_clauses or sayfudhoum_solved on lent slices
 * gives the number that is due, writes the bytes that are due, and nothing beside them.
 */
#ifndef ROUNDS_H
#define ROUNDS_H

#include "sayfudhoum.h"
#include "slices.h"

/* What is handed in: a question, and for sayfudhoum_solved a solver's lines. Both have to be lent. */
struct input {
    const uint8_t *question;
    size_t question_length;
    const uint8_t *lines;
    size_t lines_length;
};

/* What is due in a buffer that is long enough: the number, and the bytes that are written; none if refused. */
struct due {
    uint64_t number;
    const uint8_t *bytes;
    size_t count;
};

/* Whether a call with a buffer of this length, FOR_CLAUSES or FOR_ANSWER, gives what is due, or 10 if it is too short. */
int gives(const struct input *input, enum buffer buffer, size_t room, enum edge edge, const struct due *due);

/* The same with buffers that are empty, a byte too short, just long enough, longer, and never too short, at both edges. */
int gives_in_rooms(const struct input *input, enum buffer buffer, const struct due *due);

#endif
