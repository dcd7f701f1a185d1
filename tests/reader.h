/* A second reader of question files, for the tests: written from document 01 alone. */
#ifndef READER_H
#define READER_H

#include <stddef.h>
#include <stdint.h>

struct statement {
    uint8_t tag;
    uint8_t names[3];
};

struct question {
    unsigned elements, sets, terms; /* E, S, T */
    size_t count;
    struct statement statements[64];
};

/* The body of a tag, a letter for each byte: e element name, s set name, c count. NULL if the tag is unknown. */
const char *body_of(uint8_t tag);

/* Reads a question file. Gives 0, or the refusal as the library does: its number and 256 times its place. */
uint64_t read_question(const uint8_t *bytes, size_t length, struct question *question);

#endif
