/*
 * A second writer of clauses, for the tests: written from document 02 alone, with the numbers of the
 * variables by formulas and the clauses by patterns.
 */
#ifndef DIMACS_H
#define DIMACS_H

#include "reader.h"

enum { MOST_VARIABLES = 259, LONGEST_TEXT = 128 * 1024 };

struct text {
    uint8_t bytes[LONGEST_TEXT];
    size_t length;
};

/* The variables: two terms, in either order, are the same; a term is in a set; and how many there are, the spare last. */
unsigned pair_variable(const struct question *question, unsigned one, unsigned other);
unsigned in_variable(const struct question *question, unsigned term, unsigned set);
unsigned variables_of(const struct question *question);

/* Puts characters, or a number below 10,000 in decimal, behind what is there. */
void put_characters(struct text *text, const char *characters);
void put_number(struct text *text, unsigned number);

/* Writes the clauses of a question that the reader accepts. */
void write_dimacs(const struct question *question, struct text *text);

#endif
